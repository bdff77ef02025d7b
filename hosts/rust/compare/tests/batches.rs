//! What is said of a batch of recipes: seen from outside, by the bytes of list, buffer and space and by starts on each
//! recipe alone, for the library and for the model; and whole families of batches, the library against the model.

use compare::batch::{damage_batch, list, Batch, WAYS};
use compare::block::BLOCK;
use compare::case::{Case, Side, LIBRARY, MODEL};
use compare::check::Coverage;
use compare::generate::any_batch;
use compare::random::Random;
use compare::recipe::{Recipe, AWAIT, SKIP};
use recipe_runner::{BATCH, LENGTH, OUTCOME};
use std::collections::BTreeMap;
use std::fmt;

/// The check of a batch: the number, and the space as it is then.
fn checked(batch: &Batch, side: &Side) -> (u32, Vec<u8>) {
    let mut outcomes = batch.outcomes.clone();
    ((side.check_all)(&batch.recipes, &batch.lengths, &mut outcomes), outcomes)
}

/// "What start gives for that recipe alone with a block of the right size", of any content, as the space has it.
fn alone(random: &mut Random, table: &[u8], side: &Side) -> Vec<u8> {
    let [number, place] = (side.start)(table, &mut random.bytes(BLOCK));
    [number.to_le_bytes(), place.to_le_bytes()].concat()
}

/// "Each outcome equals what start gives for that recipe alone", and 26 comes exactly where a batch is none and leaves
/// the space as it was.
#[test]
fn each_outcome_is_that_of_a_start() {
    let mut random = Random::new(41);
    let mut sizes: BTreeMap<usize, u32> = BTreeMap::new();
    let mut refused = 0;
    for _ in 0..30_000 {
        let batch = any_batch(&mut random);
        for side in [LIBRARY, MODEL] {
            let (number, outcomes) = checked(&batch, &side);
            if batch.is_accepted() {
                let expected: Vec<_> = batch.tables().iter().map(|table| alone(&mut random, table, &side)).collect();
                assert!((number, outcomes) == (0, expected.concat()), "{batch:?}");
                *sizes.entry(batch.count()).or_default() += 1;
            } else {
                assert!((number, &outcomes) == (26, &batch.outcomes), "{batch:?}");
                refused += 1;
            }
        }
    }
    assert!((0..=BATCH).all(|count| sizes[&count] > 20) && refused > 5_000, "{sizes:?} {refused}");
}

/// A batch as a case of its own.
fn case_of(batch: Batch) -> Case {
    let [table, block, chain] = [const { Vec::new() }; 3];
    Case { table, block, fresh: true, calls: Vec::new(), chain, batch }
}

/// Compares library and model on batches, and counts them.
#[derive(Default)]
struct Families(Coverage);

impl Families {
    fn check(&mut self, batch: Batch, origin: impl fmt::Display) {
        self.0.check(&case_of(batch), origin);
    }

    /// How many batches had the number.
    fn with(&self, number: u32) -> u64 {
        self.0.batches.get(&number).copied().unwrap_or(0)
    }
}

/// A procedure of so many records.
fn skips(records: usize) -> Vec<u8> {
    let mut recipe = Recipe::new();
    recipe.procedure(|r| (1..records).for_each(|_| r.leaf(SKIP, 0, 0)));
    recipe.table
}

/// Three recipes, the second at fault in its last record.
fn three() -> [Vec<u8>; 3] {
    let mut faulty = Recipe::new();
    faulty.procedure(|r| {
        r.leaf(SKIP, 0, 0);
        r.leaf(AWAIT, 65, 0);
    });
    [skips(2), faulty.table, skips(1)]
}

/// Every length of the list, of shortest recipes, with a buffer for the lengths that are whole and with one for a last
/// one that is not, and every space about the right one.
#[test]
fn every_length_of_a_list() {
    let mut families = Families::default();
    for bytes in 0..=270_usize {
        let lengths: Vec<u8> = [8, 0, 0, 0].into_iter().cycle().take(bytes).collect();
        for count in [bytes / LENGTH, bytes.div_ceil(LENGTH)] {
            let right = OUTCOME * count;
            for space in right.saturating_sub(17)..=right + 17 {
                let (recipes, lengths) = (skips(1).repeat(count), lengths.clone());
                let batch = Batch { recipes, lengths, outcomes: vec![0xa5; space] };
                families.check(batch, format_args!("{bytes} bytes of lengths, {count} recipes, {space} of space"));
            }
        }
    }
    // 0 to 64 recipes, each with both buffers, which are the same.
    assert_eq!(families.with(0), 2 * 65, "{}", families.0);
    assert_eq!(families.0.sizes.len(), 65, "{}", families.0);
}

/// Every value of each byte of one buffer of a small batch.
fn every_byte(of: fn(&mut Batch) -> &mut Vec<u8>) -> Families {
    let mut whole = Batch::of(&three());
    let length = of(&mut whole).len();
    let mut families = Families::default();
    for (at, value) in (0..length).flat_map(|at| (0..=255).map(move |value| (at, value))) {
        let mut batch = whole.clone();
        of(&mut batch)[at] = value;
        families.check(batch, format_args!("byte {at} is {value}"));
    }
    families
}

#[test]
fn every_byte_of_a_list() {
    let families = every_byte(|batch| &mut batch.lengths);
    assert_eq!((families.with(0), families.with(26)), (12, 12 * 255), "{}", families.0);
}

/// What a byte of the recipes does to one outcome, and to no other.
#[test]
fn every_byte_of_the_recipes() {
    let families = every_byte(|batch| &mut batch.recipes);
    assert_eq!(families.with(26), 0, "{}", families.0);
    assert!((12..=15).all(|number| families.0.outcomes[&number] > 100), "{}", families.0);
}

/// Every three lengths up to the buffer's: those that add up cut it in every way.
#[test]
fn every_cut_of_a_buffer() {
    let (recipes, outcomes) = (three().concat(), vec![0xa5; 3 * OUTCOME]);
    let all = recipes.len() as u32 + 1;
    let mut families = Families::default();
    for lengths in (0..all * all * all).map(|i| [i % all, i / all % all, i / all / all]) {
        let batch = Batch { recipes: recipes.clone(), lengths: list(&lengths), outcomes: outcomes.clone() };
        families.check(batch, format_args!("lengths {lengths:?}"));
    }
    // All pairs whose sum is at most the buffer's length leave one third length.
    assert_eq!(families.with(0), u64::from(all * (all + 1) / 2), "{}", families.0);
}

/// Lengths whose sum is the buffer's length in 32 bits, and in fewer, but is not.
#[test]
fn every_sum_that_wraps() {
    let mut families = Families::default();
    let one = skips(1);
    let mut check = |lengths: &[u32]| {
        let outcomes = vec![0xa5; OUTCOME * lengths.len()];
        let batch = Batch { recipes: one.clone(), lengths: list(lengths), outcomes };
        families.check(batch, format_args!("lengths {lengths:?}"));
    };
    for by in (0..32).map(|bit| 1_u32 << bit) {
        check(&[8 + by]);
        check(&[by, 8_u32.wrapping_sub(by), 0]);
        check(&[8_u32.wrapping_sub(by), 0, by]);
        check(&[8 + by, by.wrapping_neg()]);
        check(&vec![by; BATCH]);
    }
    for length in [u32::MAX, 1 << 31, 1 << 30, 1 << 26] {
        check(&[length; BATCH]);
        check(&[&[8][..], &[length; BATCH - 1]].concat());
    }
    // The second and the third of 1, 2, 4 and 8 add up.
    assert_eq!(families.with(0), 8, "{}", families.0);
}

/// Every number of recipes up to some past the most, with the space for every other number up to there.
#[test]
fn every_count_with_every_space() {
    let mut families = Families::default();
    for (count, spaces) in (0..=70).flat_map(|count| (0..=70).map(move |spaces| (count, spaces))) {
        let whole = Batch::of(&vec![skips(1); count]);
        let batch = Batch { outcomes: vec![0xa5; OUTCOME * spaces], ..whole };
        families.check(batch, format_args!("{count} recipes, space for {spaces}"));
    }
    assert_eq!(families.with(0), 65, "{}", families.0);
}

/// Recipes about the longest, between others.
#[test]
fn every_length_about_the_longest() {
    let mut families = Families::default();
    for length in 32_750..=32_790 {
        let mut long = skips(4_100);
        long.truncate(length);
        long[2..4].copy_from_slice(&((length / 8 - 1) as u16).to_le_bytes());
        let [first, second, third] = three();
        families.check(Batch::of(&[first, long, second, third]), format_args!("a recipe of {length} bytes"));
    }
    let outcomes = &families.0.outcomes;
    assert_eq!((outcomes[&0], outcomes[&11], outcomes[&14]), (2 * 41 + 3, 38, 41), "{}", families.0);
}

/// Every way of damage to random batches of every size.
#[test]
fn every_damage() {
    let mut random = Random::new(42);
    let three = three();
    let mut families = Families::default();
    for (count, way) in (0..=70).flat_map(|count| WAYS.map(|way| (count, way))) {
        for _ in 0..20 {
            let recipes: Vec<_> = (0..count).map(|_| three[random.below(3)].clone()).collect();
            let mut batch = Batch::of(&recipes);
            damage_batch(&mut random, &mut batch, way);
            families.check(batch, format_args!("{count} recipes, {way:?}"));
        }
    }
    assert!(families.with(0) > 1_000 && families.with(26) > 5_000, "{}", families.0);
}

/// "The runner .. touches nothing outside them": the lent buffers stand in one larger buffer, at any alignment, and only
/// the space of an accepted batch changes.
#[test]
fn neighbouring_bytes_are_kept() {
    let mut random = Random::new(43);
    let mut accepted = 0;
    for _ in 0..10_000 {
        let batch = any_batch(&mut random);
        let (mut memory, [recipes, lengths, space]) = random.scatter([&batch.recipes, &batch.lengths, &batch.outcomes]);
        let before = memory.clone();
        let (given, rest) = memory.split_at_mut(space.start);
        let number = (LIBRARY.check_all)(&given[recipes], &given[lengths], &mut rest[..space.len()]);
        let end = if number == 0 { space.end } else { space.start };
        assert!(memory[..space.start] == before[..space.start] && memory[end..] == before[end..]);
        accepted += u32::from(number == 0);
    }
    assert!(accepted > 5_000, "{accepted}");
}
