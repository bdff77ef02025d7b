//! Who waits for whom.

use core::fmt;

use crate::calls::Explained;
use crate::CHAIN;

/// How a chain ends.
#[derive(Clone, Copy, Debug, PartialEq, Eq)]
pub enum End {
    /// In a task named earlier: the tasks from there on wait in a circle.
    NamedEarlier,
    /// In a task that waits for a number never issued, which is not 0.
    NeverIssued,
    /// In a task at an untrue guard.
    UntrueGuard,
}

impl End {
    fn from_number(number: u32) -> Option<End> {
        Some(match number {
            1 => End::NamedEarlier,
            2 => End::NeverIssued,
            3 => End::UntrueGuard,
            _ => return None,
        })
    }
}

impl fmt::Display for End {
    fn fmt(&self, f: &mut fmt::Formatter) -> fmt::Result {
        f.write_str(match self {
            End::NamedEarlier => "the tasks from the one named twice on wait in a circle",
            End::NeverIssued => "the last task waits for a number never issued",
            End::UntrueGuard => "the last task is at an untrue guard",
        })
    }
}

/// The most numbers of a chain.
const NUMBERS: usize = CHAIN / 2;

/// Who waits for whom: each task for the next, from the front of the queue.
#[derive(Clone, Copy, PartialEq, Eq)]
pub struct Chain {
    /// The numbers past the last written are 0, so that equal chains are equal.
    numbers: [u16; NUMBERS],
    count: usize,
    end: End,
}

impl Chain {
    /// The chain in a buffer that `why_stuck` has written; none where the call was refused.
    pub(crate) fn read(explained: Explained, chain: &[u8; CHAIN]) -> Option<Chain> {
        let end = End::from_number(explained.end)?;
        let count = NUMBERS.min(explained.count as usize);
        let mut numbers = [0; NUMBERS];
        for (number, pair) in numbers.iter_mut().zip(chain.chunks_exact(2)).take(count) {
            *number = u16::from_le_bytes(pair.try_into().ok()?);
        }
        Some(Chain { numbers, count, end })
    }

    /// The task numbers; with [`End::NamedEarlier`] the last is the one named earlier, again.
    pub fn tasks(&self) -> &[u16] {
        self.numbers.get(..self.count).unwrap_or_default()
    }

    /// What the last task does.
    pub fn end(&self) -> End {
        self.end
    }
}

impl fmt::Debug for Chain {
    fn fmt(&self, f: &mut fmt::Formatter) -> fmt::Result {
        f.debug_struct("Chain").field("tasks", &self.tasks()).field("end", &self.end).finish()
    }
}

/// The task numbers and what the last one does: `3, 1, 2, 1: the tasks from the one named twice on wait in a circle`.
impl fmt::Display for Chain {
    fn fmt(&self, f: &mut fmt::Formatter) -> fmt::Result {
        for (index, task) in self.tasks().iter().enumerate() {
            let gap = if index == 0 { "" } else { ", " };
            write!(f, "{gap}{task}")?;
        }
        write!(f, ": {}", self.end)
    }
}
