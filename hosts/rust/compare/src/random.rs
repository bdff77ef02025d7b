//! A small seeded generator of random numbers (SplitMix64), so that a seed tells a whole run.

use std::ops::Range;

pub struct Random(u64);

impl Random {
    pub fn new(seed: u64) -> Random {
        Random(seed)
    }

    /// The generator of one case of a run, so that each case can be made again alone.
    pub fn of_case(seed: u64, case: u64) -> Random {
        let mut outer = Random(seed);
        let salt = outer.word();
        Random(salt ^ case.wrapping_mul(0xd134_2543_de82_ef95))
    }

    pub fn word(&mut self) -> u64 {
        self.0 = self.0.wrapping_add(0x9e37_79b9_7f4a_7c15);
        let a = (self.0 ^ (self.0 >> 30)).wrapping_mul(0xbf58_476d_1ce4_e5b9);
        let b = (a ^ (a >> 27)).wrapping_mul(0x94d0_49bb_1331_11eb);
        b ^ (b >> 31)
    }

    /// A number under the limit; 0 if the limit is 0.
    pub fn below(&mut self, limit: usize) -> usize {
        ((u128::from(self.word()) * limit as u128) >> 64) as usize
    }

    /// A number from the first to the last.
    pub fn within(&mut self, first: usize, last: usize) -> usize {
        first + self.below(last + 1 - first)
    }

    pub fn percent(&mut self, chance: usize) -> bool {
        self.below(100) < chance
    }

    /// One of a list that is not empty.
    pub fn pick<T: Copy>(&mut self, list: &[T]) -> T {
        list[self.below(list.len())]
    }

    pub fn bytes(&mut self, length: usize) -> Vec<u8> {
        let mut bytes = Vec::with_capacity(length + 8);
        while bytes.len() < length {
            bytes.extend(self.word().to_le_bytes());
        }
        bytes.truncate(length);
        bytes
    }

    /// Buffers in one larger one, in their order, with random bytes before, between and behind them; and where each stands.
    pub fn scatter<const N: usize>(&mut self, buffers: [&[u8]; N]) -> (Vec<u8>, [Range<usize>; N]) {
        let mut memory = Vec::new();
        let stand = buffers.map(|buffer| {
            self.gap(&mut memory);
            let start = memory.len();
            memory.extend(buffer);
            start..memory.len()
        });
        self.gap(&mut memory);
        (memory, stand)
    }

    fn gap(&mut self, memory: &mut Vec<u8>) {
        let length = self.within(1, 40);
        memory.extend(self.bytes(length));
    }

    pub fn shuffle<T>(&mut self, list: &mut [T]) {
        for i in (1..list.len()).rev() {
            list.swap(i, self.below(i + 1));
        }
    }
}
