//! Narrow words, for cases that are of that width alone.

use super::answers::reply;
use super::words::{filled, row};

pub fn table(c: usize, named: &[(usize, u64, u64)]) -> Vec<u32> {
    filled(c, named)
}

pub fn operation(kind: &str, key: u64, amount: u64) -> u64 {
    row::<u32>(kind, key, amount)
}

pub fn answer(name: &str, total: u64) -> u32 {
    reply(name, total)
}
