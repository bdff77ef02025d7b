//! "A season's shelf in one call" (document 02): the outcome of each recipe of a batch, and which batches are none.

use super::orders::faulty;
use super::rows::{skips, A, B, C, D, E, F};
use super::Suite;
use crate::block::{log, BLOCK};
use crate::records::{procedure, skip, table, wait, Row};

/// The bytes of an outcome: "one number, then its place, four bytes each".
const OUTCOME: usize = 8;

pub fn sweep(suite: &mut Suite) {
    rows(suite);
    faults(suite);
    places(suite);
    sizes(suite);
    counts(suite);
    cuts(suite);
    lists(suite);
    sums(suite);
    spaces(suite);
    refused_first(suite);
}

/// A list of lengths.
fn list(lengths: &[u32]) -> Vec<u8> {
    lengths.iter().flat_map(|length| length.to_le_bytes()).collect()
}

/// Recipes with their own lengths, and the space for their outcomes.
fn batch(suite: &mut Suite, recipes: &[Vec<u8>]) {
    let lengths: Vec<u32> = recipes.iter().map(|recipe| recipe.len() as u32).collect();
    listed(suite, &recipes.concat(), &lengths);
}

/// Any lengths for a buffer, with the space for as many outcomes.
fn listed(suite: &mut Suite, recipes: &[u8], lengths: &[u32]) {
    suite.check_all(recipes, &list(lengths), log(OUTCOME * lengths.len()));
}

/// A table with a fault of the number, 12 to 17.
fn faulty_table(number: u32) -> Vec<u8> {
    table(&procedure(&[skip(), faulty(number)]))
}

/// The rows "From the trial press": none of them, each alone, and all together.
fn rows(suite: &mut Suite) {
    let rows: [&[Row]; 6] = [&A, &B, &C, &D, &E, &F];
    let tables = rows.map(table);
    batch(suite, &[]);
    for recipe in &tables {
        batch(suite, std::slice::from_ref(recipe));
    }
    batch(suite, &tables);
    // Whatever was there is written over.
    for content in [0, 1, 255] {
        suite.check_all(&tables[0], &list(&[72]), vec![content; OUTCOME]);
    }
}

/// Each fault alone, at each place among recipes that pass, and next to each other fault.
fn faults(suite: &mut Suite) {
    for first in 12..=17 {
        batch(suite, &[faulty_table(first)]);
        for at in 0..4 {
            let mut recipes = vec![table(&A); 4];
            recipes[at] = faulty_table(first);
            batch(suite, &recipes);
        }
        for second in 12..=17 {
            batch(suite, &[faulty_table(first), faulty_table(second)]);
        }
    }
    let all: Vec<Vec<u8>> = (12..=17).map(faulty_table).collect();
    batch(suite, &[all.clone(), vec![vec![], table(&E)], all].concat());
}

/// Places of one byte and of two, up to the last record of the longest table.
fn places(suite: &mut Suite) {
    for place in [0, 1, 255, 256, 257, 511, 4_094, 4_095] {
        let mut rows = skips(place + 1);
        rows[place] = if place == 0 { (1, 0, 0, 1) } else { wait(65)[0] };
        batch(suite, &[table(&E), table(&rows)]);
    }
}

/// "A recipe of length 0, over 32,768 or not a multiple of 8": alone, and with others about it where it is short.
fn sizes(suite: &mut Suite) {
    for length in (0..=17).chain([71, 72, 73]) {
        let recipe: Vec<u8> = table(&A).into_iter().cycle().take(length).collect();
        batch(suite, std::slice::from_ref(&recipe));
        batch(suite, &[table(&C), recipe, table(&A)]);
    }
    for length in [32_760, 32_767, 32_768, 32_769, 32_776, 65_536] {
        let mut recipe = table(&skips(8_192));
        recipe.truncate(length);
        recipe[2..4].copy_from_slice(&((length / 8 - 1) as u16).to_le_bytes());
        batch(suite, &[recipe]);
    }
    // What follows a long recipe begins at its end.
    batch(suite, &[table(&skips(4_096)), table(&A), table(&skips(4_080))]);
    batch(suite, &[table(&skips(4_097)), table(&A)]);
}

/// "Up to 64 recipes": every count about it and below, of the shortest recipes and of empty ones; some counts above,
/// also with the space for 64.
fn counts(suite: &mut Suite) {
    for count in 0..=70 {
        batch(suite, &vec![table(&E); count]);
    }
    for count in [2, 63, 64, 65, 128, 256, 257, 320, 512] {
        batch(suite, &vec![vec![]; count]);
        suite.check_all(&[], &list(&vec![0; count]), log(OUTCOME * 64));
        suite.check_all(&table(&E).repeat(count), &list(&vec![8; count]), log(OUTCOME * (count % 256)));
    }
    for (last, number) in [(63, 14), (64, 15), (64, 17)] {
        batch(suite, &[vec![table(&E); last - 1], vec![faulty_table(number)]].concat());
    }
}

/// One buffer cut in two at each byte, and in three at each two records: all of these lengths add up.
fn cuts(suite: &mut Suite) {
    let recipes = [table(&A), table(&B)].concat();
    let length = recipes.len() as u32;
    for first in 0..=length {
        listed(suite, &recipes, &[first, length - first]);
    }
    for (first, second) in (0..=length / 8).flat_map(|first| (first..=length / 8).map(move |second| (first, second))) {
        listed(suite, &recipes, &[8 * first, 8 * (second - first), length - 8 * second]);
    }
}

/// "When the list's bytes are not a multiple of four": lists of every length about the edges, of shortest recipes, with
/// the space for as many as are whole and for one more.
fn lists(suite: &mut Suite) {
    for bytes in (0..=13).chain(249..=263).chain([4_095, 4_096]) {
        let count = bytes / 4;
        let lengths: Vec<u8> = [8, 0, 0, 0].into_iter().cycle().take(bytes).collect();
        for space in [OUTCOME * count, OUTCOME * (count + 1)].map(|space| space.min(4_096)) {
            suite.check_all(&table(&E).repeat(count), &lengths, log(space));
            // The last length is whole but for its last bytes, which are 0.
            suite.check_all(&table(&E).repeat(bytes.div_ceil(4)), &lengths, log(space));
        }
    }
}

/// "The lengths don't add up to the buffer": by a few bytes; by a whole recipe; only where the sum wraps, where a length
/// is read as signed, in another order of its bytes, or by some of its bytes.
fn sums(suite: &mut Suite) {
    let recipes = table(&E).repeat(3);
    for lengths in [[8, 8, 7], [8, 8, 9], [7, 8, 8], [9, 8, 8], [8, 8, 0], [8, 8, 16], [24, 8, 8], [25, 0, 0], [0; 3]] {
        listed(suite, &recipes, &lengths);
    }
    for lengths in [&[8, 8][..], &[8; 4], &[24], &[12, 12], &[24, 0], &[0, 24], &[]] {
        listed(suite, &recipes, lengths);
    }
    for length in 0..=24 {
        suite.check_all(&recipes[..length], &list(&[8, 8]), log(2 * OUTCOME));
    }
    let below_0 = |length: u32| length.wrapping_neg();
    for lengths in [[u32::MAX, 9], [9, u32::MAX], [below_0(8), 16], [16, below_0(8)], [1 << 31, (1 << 31) + 8]] {
        listed(suite, &table(&E), &lengths);
    }
    for (length, count) in [(1 << 31, 2), (1 << 30, 4), (1 << 26, 64), (u32::MAX, 1), (u32::MAX, 2), (u32::MAX, 64)] {
        listed(suite, &[], &vec![length; count]);
    }
    for byte in 0..4 {
        for value in [0, 1, 8, 128, 255] {
            let mut length = [8, 0, 0, 0];
            length[byte] = value;
            suite.check_all(&table(&E), &length, log(OUTCOME));
            length.reverse();
            suite.check_all(&table(&E), &length, log(OUTCOME));
        }
    }
    // Both lower bytes of a length count, and a long buffer too.
    for length in [255, 256, 264, 65_535, 65_536] {
        for said in [length, length % 256, length + 256, length % 65_536, length + 65_536] {
            listed(suite, &table(&skips(8_192))[..length as usize], &[said]);
        }
    }
}

/// "The space for outcomes is not eight bytes a recipe": every length about it, and others.
fn spaces(suite: &mut Suite) {
    for count in [0, 1, 2, 64] {
        let (recipes, lengths) = (table(&E).repeat(count), list(&vec![8; count]));
        let right = OUTCOME * count;
        for space in (right.saturating_sub(9)..=right + 9).chain([0, 4 * count, 2 * right, BLOCK, 4_095, 4_096]) {
            suite.check_all(&recipes, &lengths, log(space));
        }
    }
}

/// "26, before any recipe is looked at": each check fails in turn, with recipes that are at fault too.
fn refused_first(suite: &mut Suite) {
    let mut recipes: Vec<Vec<u8>> = (12..=17).map(faulty_table).collect();
    recipes.extend([vec![1; 9], table(&skips(4_097))]);
    for recipe in recipes {
        let length = recipe.len() as u32;
        listed(suite, &recipe, &[length - 8, 9]);
        listed(suite, &recipe, &[length, 8]);
        suite.check_all(&recipe, &list(&[length])[..3], log(OUTCOME));
        suite.check_all(&recipe, &list(&[length]), log(OUTCOME - 1));
        listed(suite, &recipe, &[&[length][..], &[0; 64]].concat());
    }
}
