//! Runs that are accepted, by a table of recipes.

use crate::plan::{Operation, Plan, MOST_ENTRIES};
use crate::random::Random;
use crate::schedules::schedule;
use crate::tables::{keys, table, Homes};
use crate::width::{Width, FLAG};

/// How long a schedule is.
#[derive(Clone, Copy)]
pub enum Length {
    /// So many entries for each operation.
    Each(usize, usize),
    /// As many for each operation as there are cells, and a few more.
    Round,
    /// The most that is allowed.
    Most,
}

pub struct Recipe {
    pub name: &'static str,
    /// What k is drawn from.
    pub sizes: &'static [u8],
    pub homes: Homes,
    /// How many keys the operations have between them.
    pub keys: (usize, usize),
    /// How many cells in a hundred are not empty at the start.
    pub used: (usize, usize),
    /// How many of those in a hundred are tombstones.
    pub gone: usize,
    pub operations: (usize, usize),
    /// What the kinds are drawn from.
    pub kinds: &'static [u8],
    /// What totals and amounts are drawn from.
    pub totals: Totals,
    pub length: Length,
}

const ALL: &[u8] = &[1, 2, 3, 4, 5];

#[derive(Clone, Copy)]
pub enum Totals {
    Any,
    /// Small, middling and great ones.
    Mixed,
    /// Those whose sums lie around the ceiling and right below it.
    Edge,
    /// True ones on either side of a sum that is pinned, and few pinned ones.
    Apart,
}

impl Totals {
    fn draw(self, width: Width, random: &mut Random) -> u64 {
        match (self, width) {
            (Totals::Any, width) => width.any_total(random),
            (Totals::Mixed, Width::Narrow) => random.pick(MIXED),
            (Totals::Mixed, Width::Wide) => random.pick(WIDE_MIXED),
            (Totals::Edge, Width::Narrow) => random.pick(EDGE),
            (Totals::Edge, Width::Wide) => random.pick(WIDE_EDGE),
            (Totals::Apart, Width::Narrow) => random.pick(APART),
            (Totals::Apart, Width::Wide) => random.pick(WIDE_APART),
        }
    }
}

const MIXED: &[u64] = &[
    0, 1, 2, 7, 40, 300, 32_767, 32_768, 65_500, 65_533, 65_534, 65_535,
];
const EDGE: &[u64] = &[0, 1, 2, 32_767, 32_768, 65_532, 65_533, 65_534, 65_535];
const APART: &[u64] = &[0, 1, 40, 32_767, 32_768, 40_000, 65_533, 65_534, 65_535];

/// Among them what is pinned in a narrow file and true here, and flagged totals
/// far below the ceiling.
const WIDE_MIXED: &[u64] = &[
    0,
    1,
    7,
    40,
    65_534,
    65_535,
    65_536,
    2_147_483_648,
    4_294_967_293,
    4_294_967_294,
    FLAG,
    FLAG + 3,
    FLAG + 65_535,
    FLAG + 4_294_967_295,
];
const WIDE_EDGE: &[u64] = &[
    0,
    1,
    2,
    2_147_483_647,
    2_147_483_648,
    4_294_967_292,
    4_294_967_293,
    4_294_967_294,
    FLAG,
    FLAG + 1,
    FLAG + 2_147_483_648,
    FLAG + 4_294_967_293,
    FLAG + 4_294_967_294,
    FLAG + 4_294_967_295,
];

const WIDE_APART: &[u64] = &[
    0,
    1,
    40,
    65_535,
    2_147_483_648,
    3_000_000_000,
    4_294_967_293,
    4_294_967_294,
    FLAG + 3,
    FLAG + 4_294_967_295,
];

const fn recipe(name: &'static str, sizes: &'static [u8], homes: Homes) -> Recipe {
    Recipe {
        name,
        sizes,
        homes,
        keys: (2, 8),
        used: (0, 60),
        gone: 20,
        operations: (2, 8),
        kinds: ALL,
        totals: Totals::Mixed,
        length: Length::Each(2, 7),
    }
}

#[rustfmt::skip]
pub const RECIPES: &[Recipe] = &[
    Recipe { used: (30, 90), ..recipe("crowded", &[1, 2, 3, 3, 4], Homes::Near(2)) },
    Recipe { keys: (1, 1), operations: (2, 12), ..recipe("one key", &[0, 3, 4], Homes::Any) },
    Recipe { keys: (1, 1), kinds: &[2, 3, 5], ..recipe("race on one key", &[0, 1, 3], Homes::Near(1)) },
    Recipe { keys: (1, 5), used: (0, 40), kinds: &[4, 4, 4, 1], totals: Totals::Edge, length: Length::Each(4, 12),
             ..recipe("adds", &[0, 1, 2, 3, 4, 5], Homes::Near(3)) },
    Recipe { used: (100, 100), kinds: &[1, 2, 4, 5, 3, 4], length: Length::Round,
             ..recipe("full", &[0, 1, 2, 3, 3, 4], Homes::Any) },
    Recipe { keys: (4, 9), used: (70, 95), kinds: &[2, 4, 2, 4, 1, 5], length: Length::Each(4, 12),
             ..recipe("nearly full", &[2, 3], Homes::Near(4)) },
    Recipe { used: (50, 100), gone: 60, length: Length::Each(3, 10),
             ..recipe("tombstones", &[1, 2, 3, 4], Homes::Near(2)) },
    Recipe { used: (10, 70), length: Length::Each(2, 9), ..recipe("wraparound", &[1, 2, 3, 4, 6], Homes::End) },
    Recipe { keys: (1, 2), gone: 0, kinds: &[4, 4, 4, 3, 1, 5], totals: Totals::Edge,
             ..recipe("saturation", &[3], Homes::Any) },
    Recipe { keys: (1, 1), used: (20, 60), gone: 0, operations: (2, 5), kinds: &[4, 4, 4, 3, 5], totals: Totals::Edge,
             length: Length::Each(3, 8), ..recipe("race to the ceiling", &[3], Homes::Any) },
    Recipe { keys: (1, 1), used: (100, 100), gone: 0, operations: (3, 8), kinds: &[3, 4], totals: Totals::Apart,
             length: Length::Each(4, 9), ..recipe("typed over", &[0, 1, 2], Homes::Any) },
    Recipe { operations: (1, 3), length: Length::Each(10, 40), ..recipe("idle", &[0, 3, 4], Homes::Near(2)) },
    Recipe { operations: (3, 20), used: (30, 90), length: Length::Each(0, 2),
             ..recipe("unfinished", &[2, 3, 4, 5], Homes::Near(2)) },
    Recipe { keys: (2, 30), used: (0, 100), operations: (1, 64), totals: Totals::Any, length: Length::Each(1, 20),
             ..recipe("any size", &[0, 1, 2, 3, 4, 5, 6, 7, 8, 9, 10, 11, 12], Homes::Any) },
    Recipe { keys: (1, 30), used: (0, 90), operations: (64, 64), length: Length::Each(1, 12),
             ..recipe("64 operations", &[0, 2, 3, 4, 5, 6, 12], Homes::Near(8)) },
    Recipe { keys: (1, 20), used: (0, 100), operations: (1, 64), length: Length::Most,
             ..recipe("16384 entries", &[0, 3, 5, 8, 12], Homes::Any) },
    Recipe { used: (100, 100), operations: (1, 4), kinds: &[2, 4, 1, 5, 3], length: Length::Round,
             ..recipe("4096 cells full", &[12], Homes::Any) },
    Recipe { used: (97, 100), operations: (2, 8), length: Length::Round,
             ..recipe("long probes", &[6, 7, 8], Homes::End) },
];

/// How many recipes of files that are not large come first in the table.
pub const SMALL: usize = 14;

/// What the faults are put into: not a large file, with several records of each
/// kind, some cells empty and some live, as far as the table has room.
#[rustfmt::skip]
pub const PLAIN: Recipe = Recipe { used: (40, 60), gone: 15, operations: (3, 8), length: Length::Each(3, 9),
    ..recipe("plain", &[0, 1, 2, 3, 4, 5], Homes::Near(3)) };

/// The same with many cells, up to the most.
#[rustfmt::skip]
pub const LARGE: Recipe = Recipe { sizes: &[6, 7, 8, 9, 10, 11, 12], used: (5, 95), ..PLAIN };

pub fn plan(width: Width, recipe: &Recipe, random: &mut Random) -> Plan {
    let k = random.pick(recipe.sizes);
    let c = 1 << k;
    let total = |random: &mut Random| recipe.totals.draw(width, random);
    let count = random.between(recipe.keys.0, recipe.keys.1);
    let keys = keys(count, recipe.homes, k, random);
    // Rounded up or down, so that the only cell of a table is used as often.
    let used = (c * random.between(recipe.used.0, recipe.used.1) + random.below(100)) / 100;
    let cells = table(k, &keys, (used, recipe.gone), total, random);
    let count = random.between(recipe.operations.0, recipe.operations.1);
    let operation = |_| {
        let kind = random.pick(recipe.kinds);
        let key = random.pick(&keys);
        let amount = if kind == 1 || kind == 5 {
            0
        } else {
            total(random)
        };
        Operation { kind, key, amount }
    };
    let operations: Vec<Operation> = (0..count).map(operation).collect();
    let length = match recipe.length {
        Length::Each(low, high) => count * random.between(low, high) + random.below(3),
        Length::Round => count * c + random.below(count * 4),
        Length::Most => MOST_ENTRIES,
    };
    Plan {
        width,
        k,
        cells,
        operations,
        schedule: schedule(count, length.min(MOST_ENTRIES), random),
    }
}
