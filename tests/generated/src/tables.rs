//! Starting tables in which every live key can be reached from its home: keys
//! are placed by probing, and then some are made tombstones.

use std::collections::BTreeMap;

use crate::plan::{Cell, GONE};
use crate::random::Random;

/// 40,503 × 30,599 is 1 modulo 65,536, so that a home gives its keys directly.
const INVERSE: usize = 30_599;

/// Where the keys of a run have their homes.
#[derive(Clone, Copy)]
pub enum Homes {
    /// Anywhere in the table.
    Any,
    /// In this many neighbouring cells, so that keys crowd.
    Near(usize),
    /// In the last two cells, or the only one, so that probing goes past the last.
    End,
}

/// A live key with the given home in 2^k cells.
pub fn key_at(home: usize, k: u8, random: &mut Random) -> u16 {
    let width = 65_536 >> k;
    loop {
        let key = ((home * width + random.below(width)) * INVERSE) as u16;
        if key != 0 && key != GONE {
            return key;
        }
    }
}

/// Different live keys whose homes are as asked.
pub fn keys(count: usize, homes: Homes, k: u8, random: &mut Random) -> Vec<u16> {
    let c = 1 << k;
    let base = random.below(c);
    let mut keys = Vec::new();
    while keys.len() < count {
        let home = match homes {
            Homes::Any => random.below(c),
            Homes::Near(cells) => (base + random.below(cells)) % c,
            Homes::End => c - 1 - random.below(c.min(2)),
        };
        let key = key_at(home, k, random);
        if !keys.contains(&key) {
            keys.push(key);
        }
    }
    keys
}

/// Puts a key in the first empty cell from its home on. There is one.
fn place(cells: &mut [Option<Cell>], cell: Cell) {
    let c = cells.len();
    let home = model::home(u32::from(cell.key), c as u32) as usize;
    let mut probed = (0..c).map(|passed| (home + passed) % c);
    let empty = probed.find(|&at| cells[at].is_none());
    cells[empty.expect("fewer cells are used than there are")] = Some(cell);
}

/// A table with `used` cells not empty, about `gone` in a hundred of them
/// tombstones. The given keys come first, most of them; the rest is filled up
/// with others.
pub fn table(
    k: u8,
    keys: &[u16],
    (used, gone): (usize, usize),
    total: impl Fn(&mut Random) -> u64,
    random: &mut Random,
) -> BTreeMap<u16, Cell> {
    // One place for each cell and one flag for each key there is: tables of 4,096
    // cells are common enough.
    let mut cells = vec![None; 1 << k];
    let mut taken = vec![false; 65_536];
    let mut placed = 0;
    for &key in keys {
        taken[usize::from(key)] = true;
        let total = total(random);
        if placed < used && random.percent(70) {
            place(&mut cells, Cell { key, total });
            placed += 1;
        }
    }
    while placed < used {
        let key = key_at(random.below(1 << k), k, random);
        let total = total(random);
        if !std::mem::replace(&mut taken[usize::from(key)], true) {
            place(&mut cells, Cell { key, total });
            placed += 1;
        }
    }
    for cell in cells.iter_mut().flatten() {
        if random.percent(gone) {
            (cell.key, cell.total) = (GONE, 0);
        }
    }
    let numbered = (0..).zip(cells);
    let there = numbered.filter_map(|(at, cell)| Some((at, cell?)));
    there.collect()
}
