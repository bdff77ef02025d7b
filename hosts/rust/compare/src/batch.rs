//! Batches of recipes: random ones that are accepted, and damage of every kind to their list, buffer and space.

use crate::random::Random;
use recipe_runner::{BATCH, LENGTH, OUTCOME};
use std::ops::Range;

/// The inputs of a check of many recipes: all of them one after the other, the list of their lengths, and the space that
/// is lent for their outcomes. Its content counts as a log's does.
#[derive(Clone, Debug, Default, PartialEq, Eq)]
pub struct Batch {
    pub recipes: Vec<u8>,
    pub lengths: Vec<u8>,
    pub outcomes: Vec<u8>,
}

/// The bytes of a list of lengths.
pub fn list(lengths: &[u32]) -> Vec<u8> {
    lengths.iter().flat_map(|length| length.to_le_bytes()).collect()
}

impl Batch {
    /// A batch that is accepted, if there are not too many recipes.
    pub fn of(recipes: &[Vec<u8>]) -> Batch {
        let lengths: Vec<u32> = recipes.iter().map(|recipe| recipe.len() as u32).collect();
        Batch { recipes: recipes.concat(), lengths: list(&lengths), outcomes: vec![0xa5; OUTCOME * recipes.len()] }
    }

    /// How many lengths the list has.
    pub fn count(&self) -> usize {
        self.lengths.len() / LENGTH
    }

    /// The lengths as the list says them.
    pub fn said(&self) -> impl Iterator<Item = u32> + '_ {
        self.lengths.as_chunks().0.iter().map(|length| u32::from_le_bytes(*length))
    }

    /// The bytes of a recipe, by the list. Where the list goes past the buffer they are as many at its end, if it has
    /// these.
    pub fn bytes_of(&self, i: usize) -> Option<Range<usize>> {
        let length = self.said().nth(i)? as usize;
        let end = self.said().take(i + 1).map(u64::from).sum::<u64>().min(self.recipes.len() as u64) as usize;
        Some(end.checked_sub(length)?..end)
    }

    /// The recipes in turn, of a batch whose lengths add up.
    pub fn tables(&self) -> Vec<&[u8]> {
        (0..self.count()).filter_map(|i| self.bytes_of(i)).map(|bytes| &self.recipes[bytes]).collect()
    }

    /// Whether the call gives 0, by the sentences of the document.
    pub fn is_accepted(&self) -> bool {
        let sum: u64 = self.said().map(u64::from).sum();
        self.lengths.len().is_multiple_of(LENGTH)
            && self.count() <= BATCH
            && sum == self.recipes.len() as u64
            && self.outcomes.len() == OUTCOME * self.count()
    }
}

/// A random batch of up to 70 recipes; mostly accepted, and its outcomes have old content of any kind.
pub fn random_batch(random: &mut Random, mut recipe: impl FnMut(&mut Random) -> Vec<u8>) -> Batch {
    let count = match random.below(100) {
        0..5 => 0,
        5..65 => random.within(1, 6),
        65..85 => random.within(7, BATCH - 2),
        85..95 => random.within(BATCH - 1, BATCH),
        _ => random.within(BATCH + 1, 70),
    };
    let recipes: Vec<Vec<u8>> = (0..count).map(|_| recipe(random)).collect();
    let mut batch = Batch::of(&recipes);
    batch.outcomes = random.bytes(batch.outcomes.len());
    if random.percent(40) {
        let way = random.pick(&WAYS);
        damage_batch(random, &mut batch, way);
    }
    batch
}

/// Each way that a batch can be damaged. Where the recipes are cut elsewhere it is accepted still.
#[derive(Clone, Copy, Debug, PartialEq, Eq)]
pub enum Way {
    ListByte,
    ListShorter,
    ListLonger,
    LengthNearby,
    LengthsWrap,
    CutElsewhere,
    BufferShorter,
    BufferLonger,
    Space,
}

pub const WAYS: [Way; 9] = [
    Way::ListByte,
    Way::ListShorter,
    Way::ListLonger,
    Way::LengthNearby,
    Way::LengthsWrap,
    Way::CutElsewhere,
    Way::BufferShorter,
    Way::BufferLonger,
    Way::Space,
];

/// Damages a batch in one way, if it has what the way is about.
pub fn damage_batch(random: &mut Random, batch: &mut Batch, way: Way) {
    let Batch { recipes, lengths, outcomes } = batch;
    let one = random.below(lengths.len() / LENGTH);
    match way {
        Way::ListByte => {
            let at = random.below(lengths.len());
            lengths.iter_mut().skip(at).take(1).for_each(|byte| *byte = random.word() as u8);
        }
        Way::ListShorter => lengths.truncate(random.below(lengths.len())),
        Way::ListLonger => {
            let more = random.within(1, 2 * LENGTH);
            lengths.extend(if random.percent(50) { vec![0; more] } else { random.bytes(more) });
        }
        Way::LengthNearby => {
            let by = random.pick(&[1, 8, 9, 256, 65_536]);
            add(lengths, one, if random.percent(50) { by } else { by.wrapping_neg() });
        }
        Way::LengthsWrap => {
            let by = if random.percent(50) { 1 << 31 } else { random.word() as u32 };
            add(lengths, one, by);
            let other = random.below(lengths.len() / LENGTH);
            add(lengths, other, by.wrapping_neg());
        }
        Way::CutElsewhere => cut_elsewhere(random, lengths),
        Way::BufferShorter => recipes.truncate(recipes.len().saturating_sub(random.pick(&[1, 8, 9]))),
        Way::BufferLonger => recipes.extend(random.bytes(8).iter().take(random.pick(&[1, 4, 8]))),
        Way::Space => {
            let length = random.within(0, outcomes.len() + 2 * OUTCOME);
            let near = (outcomes.len() + random.within(0, 2)).saturating_sub(1);
            outcomes.resize(if random.percent(50) { near } else { length }, 0x5a);
        }
    }
}

/// Adds to a length of the list, wrapping; an empty list has none.
fn add(lengths: &mut [u8], at: usize, by: u32) {
    if let Some(field) = lengths.as_chunks_mut().0.get_mut(at) {
        *field = u32::from_le_bytes(*field).wrapping_add(by).to_le_bytes();
    }
}

/// Moves bytes from one recipe to the next one, or from it.
fn cut_elsewhere(random: &mut Random, lengths: &mut [u8]) {
    let fields = lengths.as_chunks_mut::<LENGTH>().0;
    let at = random.below(fields.len().saturating_sub(1));
    if let Some([first, second]) = fields.get_mut(at..at + 2) {
        let both = u32::from_le_bytes(*first).saturating_add(u32::from_le_bytes(*second));
        let cut = random.within(0, both as usize) as u32;
        let cut = if random.percent(60) { cut / 8 * 8 } else { cut };
        (*first, *second) = (cut.to_le_bytes(), (both - cut).to_le_bytes());
    }
}
