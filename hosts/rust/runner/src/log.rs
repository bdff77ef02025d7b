//! The records of a log.

use core::fmt;

use crate::RECORD;

/// What a log record tells.
#[derive(Clone, Copy, Debug, PartialEq, Eq)]
pub enum Kind {
    /// A task was started; the value is its number.
    Spawned,
    /// The task became active from the front of the ready queue.
    Taken,
    /// The task yielded by a suspend.
    Gave,
    /// The task reached an await, and the value is the number awaited, or a guard, with 0.
    Waits,
    /// The task still waits and was turned to the back, with the value of its wait.
    Turned,
    /// The task ended.
    Ended,
    /// The task set a valve to the value.
    Valve,
}

impl Kind {
    fn from_number(number: u8) -> Option<Kind> {
        Some(match number {
            1 => Kind::Spawned,
            2 => Kind::Taken,
            3 => Kind::Gave,
            4 => Kind::Waits,
            5 => Kind::Turned,
            6 => Kind::Ended,
            7 => Kind::Valve,
            _ => return None,
        })
    }
}

/// The word that the print program has for it.
impl fmt::Display for Kind {
    fn fmt(&self, f: &mut fmt::Formatter) -> fmt::Result {
        f.write_str(match self {
            Kind::Spawned => "spawned",
            Kind::Taken => "taken",
            Kind::Gave => "gave",
            Kind::Waits => "waits",
            Kind::Turned => "turned",
            Kind::Ended => "ended",
            Kind::Valve => "valve",
        })
    }
}

/// A log record.
#[derive(Clone, Copy, Debug, PartialEq, Eq)]
pub struct Record {
    /// What happened.
    pub kind: Kind,
    /// The task acting.
    pub task: u16,
    /// The valve set; 0 in other kinds.
    pub valve: u8,
    /// The new task's number, the number awaited (0 at a guard) or the value set; 0 in other kinds.
    pub value: i32,
}

impl Record {
    fn read(row: &[u8]) -> Option<Record> {
        let row: [u8; RECORD] = row.try_into().ok()?;
        let [kind, valve, t0, t1, v0, v1, v2, v3] = row;
        Some(Record {
            kind: Kind::from_number(kind)?,
            task: u16::from_le_bytes([t0, t1]),
            valve,
            value: i32::from_le_bytes([v0, v1, v2, v3]),
        })
    }
}

/// The line that the print program has for it: kind, task, valve and value.
impl fmt::Display for Record {
    fn fmt(&self, f: &mut fmt::Formatter) -> fmt::Result {
        write!(f, "{} {} {} {}", self.kind, self.task, self.valve, self.value)
    }
}

/// The first records of a log, up to the first bytes that are none.
pub fn records(log: &[u8], count: u32) -> impl Iterator<Item = Record> + '_ {
    log.chunks_exact(RECORD).take(count as usize).map_while(Record::read)
}
