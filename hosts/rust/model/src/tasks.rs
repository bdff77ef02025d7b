//! The live tasks, in the order of the state block: the active one if any, then the queue from its front.

/// The most live tasks.
pub const TASKS: usize = 32;

/// A record of the state block.
pub type Record = [u8; 8];

#[derive(Clone, Copy, Debug, Default, PartialEq, Eq)]
pub struct Task {
    pub number: u16,
    pub place: u16,
    pub parameter: i32,
    /// The number of the task that spawned it, 0 of task 1.
    pub spawner: u16,
    /// The times taken up, "unsigned, staying at the largest value".
    pub taken: u32,
}

impl Task {
    /// "Bytes 0–1 the task number .., bytes 2–3 its place, bytes 4–7 its parameter"; then "bytes 0–1 the spawner's number
    /// .., bytes 4–7 the times taken up".
    pub fn from_records(first: Record, second: Record) -> Task {
        let [n0, n1, l0, l1, p0, p1, p2, p3] = first;
        let [s0, s1, _, _, t0, t1, t2, t3] = second;
        Task {
            number: u16::from_le_bytes([n0, n1]),
            place: u16::from_le_bytes([l0, l1]),
            parameter: i32::from_le_bytes([p0, p1, p2, p3]),
            spawner: u16::from_le_bytes([s0, s1]),
            taken: u32::from_le_bytes([t0, t1, t2, t3]),
        }
    }

    /// The same fields, written.
    pub fn to_records(self) -> [Record; 2] {
        let [n0, n1] = self.number.to_le_bytes();
        let [l0, l1] = self.place.to_le_bytes();
        let [p0, p1, p2, p3] = self.parameter.to_le_bytes();
        let [s0, s1] = self.spawner.to_le_bytes();
        let [t0, t1, t2, t3] = self.taken.to_le_bytes();
        [[n0, n1, l0, l1, p0, p1, p2, p3], [s0, s1, 0, 0, t0, t1, t2, t3]]
    }

    /// A try that succeeds: the task goes on at a place, taken up once more.
    #[inline]
    pub fn taken_up(self, place: u16) -> Task {
        Task { place, taken: self.taken.saturating_add(1), ..self }
    }
}

/// Whether a task of this number, which is not 0, may have this second record: "the spawner's number (0 for task 1, else
/// from 1 to one below its own), bytes 2–3 zero".
pub fn is_second([s0, s1, zeros @ .., _, _, _, _]: Record, number: u16) -> bool {
    let spawner = u16::from_le_bytes([s0, s1]);
    zeros == [0; 2] && spawner < number && (spawner == 0) == (number == 1)
}

/// A ring: joining the back and leaving the front move no other task.
pub struct Tasks {
    slots: [Task; TASKS],
    /// The numbers again, 0 in a free slot: whether one is live is asked of all slots at once.
    numbers: [u16; TASKS],
    first: usize,
    live: usize,
}

impl Tasks {
    pub fn new() -> Tasks {
        Tasks { slots: [Task::default(); TASKS], numbers: [0; TASKS], first: 0, live: 0 }
    }

    /// How many tasks are live.
    #[inline]
    pub fn live(&self) -> usize {
        self.live
    }

    /// The slot of the task that so many others stand before.
    #[inline]
    fn slot(&self, before: usize) -> usize {
        (self.first + before) % TASKS
    }

    /// The task that so many others stand before.
    #[inline]
    pub fn at(&self, before: usize) -> Task {
        self.slots[self.slot(before)]
    }

    /// The first task: the active one, or the front of the queue.
    #[inline]
    pub fn first(&self) -> Task {
        self.at(0)
    }

    /// Writes the first task anew; its number stays.
    #[inline]
    pub fn set_first(&mut self, task: Task) {
        self.slots[self.slot(0)] = task;
    }

    /// A task joins the back.
    #[inline]
    pub fn join(&mut self, task: Task) {
        let slot = self.slot(self.live);
        self.slots[slot] = task;
        self.numbers[slot] = task.number;
        self.live += 1;
    }

    /// The first task leaves.
    #[inline]
    pub fn leave(&mut self) {
        self.numbers[self.slot(0)] = 0;
        self.first = self.slot(1);
        self.live -= 1;
    }

    /// How many others stand before the live task of this number, if there is one.
    pub fn position(&self, number: i32) -> Option<usize> {
        (0..self.live).find(|&before| i32::from(self.at(before).number) == number)
    }

    /// Whether a live task has this number, which is not 0.
    #[inline]
    pub fn has(&self, number: u16) -> bool {
        self.numbers.iter().fold(false, |found, &other| found | (other == number))
    }
}
