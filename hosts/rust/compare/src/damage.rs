//! Damage to tables: near misses of every rule, and raw records.

use crate::random::Random;
use crate::recipe::Recipe;
use crate::writer::random_value;

/// A few damages to a table, mostly to one record.
pub fn damage_table(random: &mut Random, recipe: &Recipe) -> Vec<u8> {
    let mut table = recipe.table.clone();
    let count = random.pick(&[1, 1, 1, 2, 3]);
    let mut at = random.below(recipe.records());
    for _ in 0..count {
        damage_record(random, &mut table, at, recipe.procedures);
        if random.percent(40) {
            at = random.below(recipe.records());
        }
    }
    table
}

fn damage_record(random: &mut Random, table: &mut Vec<u8>, at: usize, procedures: usize) {
    let byte = (8 * at).min(table.len().saturating_sub(8));
    if table.len() < 8 {
        return;
    }
    match random.below(100) {
        0..20 => table[byte] = random.within(0, 14) as u8,
        20..45 => damage_span(random, &mut table[byte + 2..byte + 4]),
        45..60 => table[byte + 1] = random.pick(&[0, 1, 2, 7, 8, 9, 63, 64, 65, 128, 255]),
        60..75 => {
            let other = random_value(random);
            let value = random.pick(&[1, -1, 0, 255, 256, procedures as i32, other]);
            table[byte + 4..byte + 8].copy_from_slice(&value.to_le_bytes());
        }
        75..80 => table[byte + random.below(8)] = random.word() as u8,
        80..84 => drop(table.drain(byte..byte + 8)),
        84..88 => {
            let record = random_record(random);
            table.splice(byte..byte, record);
        }
        88..92 => {
            let other = 8 * random.below(table.len() / 8);
            for i in 0..8 {
                table.swap(byte + i, other + i);
            }
        }
        92..95 => spawn_unknown(random, table, procedures),
        _ => cut(random, table),
    }
}

fn damage_span(random: &mut Random, field: &mut [u8]) {
    let span = u16::from_le_bytes([field[0], field[1]]);
    let span = match random.below(10) {
        0..3 => span.wrapping_add(1),
        3..6 => span.wrapping_sub(1),
        6 => 0,
        7 => random.within(0, 6) as u16,
        8 => span.wrapping_add(random.below(10) as u16),
        _ => random.word() as u16,
    };
    field.copy_from_slice(&span.to_le_bytes());
}

/// Lets the spawns name procedures that are not there.
fn spawn_unknown(random: &mut Random, table: &mut [u8], procedures: usize) {
    for record in table.chunks_exact_mut(8).filter(|record| record[0] == 6) {
        if random.percent(50) {
            let near = random.within(procedures, procedures + 20) as i32;
            let value = random.pick(&[procedures as i32, 255, near]);
            record[4..8].copy_from_slice(&value.to_le_bytes());
        }
    }
}

/// Cuts the table, or makes it longer.
fn cut(random: &mut Random, table: &mut Vec<u8>) {
    match random.below(4) {
        0 => table.truncate(8 * random.below(table.len() / 8)),
        1 => table.truncate(random.below(table.len())),
        2 => table.extend(random_record(random)),
        _ => {
            let extra = random.within(1, 7);
            table.extend(random.bytes(extra));
        }
    }
}

/// A record with fields in or near their ranges.
fn random_record(random: &mut Random) -> [u8; 8] {
    let [s0, s1] = (random.below(5) as u16).to_le_bytes();
    let name = random.pick(&[0, 0, 0, 1, 7, 8, 64, 65]);
    let value: i32 = random.pick(&[0, 0, 0, 0, 1, 255, 256, -1]);
    let [v0, v1, v2, v3] = value.to_le_bytes();
    [random.within(0, 14) as u8, name, s0, s1, v0, v1, v2, v3]
}

/// A table of random records that starts as a procedure.
pub fn raw_table(random: &mut Random) -> Vec<u8> {
    let records = random.within(1, 8);
    let mut table: Vec<u8> = (0..records).flat_map(|_| random_record(random)).collect();
    if random.percent(80) {
        let [s0, s1] = (random.below(records) as u16).to_le_bytes();
        table[..8].copy_from_slice(&[1, 0, s0, s1, 0, 0, 0, 0]);
    }
    table
}

/// A table of a length that is refused, or nearly.
pub fn odd_length(random: &mut Random, recipe: &Recipe) -> Vec<u8> {
    let mut table = recipe.table.clone();
    match random.below(20) {
        0..4 => table.clear(),
        4..10 => table.truncate(random.below(16)),
        10..18 => table.extend([0; 7].iter().take(random.within(1, 7))),
        18 => table = [[1, 0, 0, 0, 0, 0, 0, 0]; 4_096].concat(),
        _ => table = [[1, 0, 0, 0, 0, 0, 0, 0]; 4_097].concat(),
    }
    table
}
