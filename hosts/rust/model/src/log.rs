//! "The log": 8 bytes a record, from the buffer's first byte.

use crate::steps::Stop;

/// What a step writes, kinds 1 to 7, with the value that the record carries.
#[derive(Clone, Copy, Debug, PartialEq, Eq)]
pub enum Event {
    Spawned(u16),
    Taken,
    Gave,
    Waits(i32),
    Turned(i32),
    Ended,
    Valve(u8, i32),
}

/// The lent buffer's records, and those that are still free. A last piece of under 8 bytes is never written.
pub struct Log<'a> {
    all: usize,
    free: std::slice::IterMut<'a, [u8; 8]>,
}

impl Log<'_> {
    /// "Each call writes from the log buffer's first byte."
    pub fn new(buffer: &mut [u8]) -> Log<'_> {
        let free = buffer.as_chunks_mut().0.iter_mut();
        Log { all: free.len(), free }
    }

    /// How many records were written.
    pub fn records(&self) -> u32 {
        (self.all - self.free.len()) as u32
    }

    /// "Byte 0 kind, byte 1 the valve (0 in other kinds), bytes 2–3 the task acting, bytes 4–7 a value." The stop is
    /// "under 8 bytes are free", so a step writes before it changes anything.
    #[inline]
    pub fn write(&mut self, task: u16, event: Event) -> Result<(), Stop> {
        let (kind, valve, value) = match event {
            Event::Spawned(number) => (1, 0, i32::from(number)),
            Event::Taken => (2, 0, 0),
            Event::Gave => (3, 0, 0),
            Event::Waits(number) => (4, 0, number),
            Event::Turned(number) => (5, 0, number),
            Event::Ended => (6, 0, 0),
            Event::Valve(valve, value) => (7, valve, value),
        };
        let record = self.free.next().ok_or(Stop::LogFull)?;
        let [t0, t1] = task.to_le_bytes();
        let [v0, v1, v2, v3] = value.to_le_bytes();
        *record = [kind, valve, t0, t1, v0, v1, v2, v3];
        Ok(())
    }
}
