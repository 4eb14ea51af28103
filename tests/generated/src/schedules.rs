//! Schedules: who takes the next step.

use crate::random::Random;

/// A schedule of `length` entries for `count` operations, in a random style.
pub fn schedule(count: usize, length: usize, random: &mut Random) -> Vec<u8> {
    if count == 0 {
        return Vec::new();
    }
    let chosen = random.below(count);
    let repeats = random.between(2, 4);
    let entries = 0..length;
    let rows: Vec<usize> = match random.below(9) {
        // Round robin.
        0 => entries.map(|i| i % count).collect(),
        // Each step repeated.
        1 => entries.map(|i| i / repeats % count).collect(),
        // Each operation as a whole, one after the other.
        2 => entries.map(|i| i * count / length).collect(),
        // All entries of one operation.
        3 => vec![chosen; length],
        4 => bursts(count, length, random),
        5 => starved(count, length, chosen, random),
        6 => duel(count, length, chosen, random),
        _ => entries.map(|_| random.below(count)).collect(),
    };
    rows.into_iter().map(|row| row as u8).collect()
}

/// Several steps of one operation, then of another.
fn bursts(count: usize, length: usize, random: &mut Random) -> Vec<usize> {
    let mut rows = Vec::new();
    while rows.len() < length {
        let row = random.below(count);
        let burst = random.between(1, 12).min(length - rows.len());
        rows.extend(vec![row; burst]);
    }
    rows
}

/// Round robin in which one operation hardly ever gets its turn.
fn starved(count: usize, length: usize, chosen: usize, random: &mut Random) -> Vec<usize> {
    let turn = |i| match i % count {
        row if row == chosen && random.percent(90) => (row + 1) % count,
        row => row,
    };
    (0..length).map(turn).collect()
}

/// Two operations against each other, the others now and then.
fn duel(count: usize, length: usize, chosen: usize, random: &mut Random) -> Vec<usize> {
    let other = random.below(count);
    let turn = |i| match random.percent(85) {
        true => [chosen, other][i % 2],
        false => random.below(count),
    };
    (0..length).map(turn).collect()
}
