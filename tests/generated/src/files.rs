//! Which file stands at which index.

use crate::conversions::conversion;
use crate::damage::{mutated, noise, prefix, shuffled, single};
use crate::fixed::{fixed, Fixed};
use crate::pairs::{pair, Pair};
use crate::plan::Plan;
use crate::random::Random;
use crate::recipes::{plan, RECIPES, SMALL};
use crate::sizes::sized;
use crate::width::Width;

/// A generated file, and what is known of it.
pub struct Case {
    pub stream: Stream,
    /// The width that it is made in; a damaged file may be read in the other.
    pub width: Width,
    pub family: &'static str,
    pub file: Vec<u8>,
    pub pair: Option<Pair>,
    /// The file without the fault for which a converter refuses it, where it has
    /// another then.
    pub without: Option<Vec<u8>>,
    /// The name of a fixed case, and how its text begins.
    pub fixed: Option<(&'static str, String)>,
}

/// Files of every sort, or those that are made for the converters: these seldom
/// take the others, and seldom refuse them for what they alone judge.
#[derive(Clone, Copy, PartialEq)]
pub enum Stream {
    Every,
    Conversions,
}

impl Stream {
    pub fn name(self) -> &'static str {
        match self {
            Stream::Every => "",
            Stream::Conversions => "conversion ",
        }
    }
}

/// Families and how many files each has in a round.
const FAMILIES: &[(&str, usize)] = &[
    ("recipe", 64),
    ("parts", 4),
    ("fixed", 1),
    ("single", 12),
    ("pair", 8),
    ("prefix", 6),
    ("mutated", 6),
    ("shuffled", 2),
    ("noise", 2),
    ("sized", 1),
];

/// What sets the numbers of wide files apart from those of narrow ones, and
/// those of files for the converters from the others.
const WIDE: u64 = 0x5749_4445;
const CONVERSIONS: u64 = 0x434F_4E56;

/// A narrow file, the same for the same seed and index, for ever.
pub fn case(seed: u64, index: usize) -> Case {
    case_of(Width::Narrow, seed, index)
}

/// A wide file, by the same recipes.
pub fn wide_case(seed: u64, index: usize) -> Case {
    case_of(Width::Wide, seed, index)
}

/// A file that is made for the converters.
pub fn conversion_case(width: Width, seed: u64, index: usize) -> Case {
    let random = &mut Random::new(seed_of(width, seed) ^ CONVERSIONS, index as u64);
    let made = conversion(width, index, random);
    Case {
        stream: Stream::Conversions,
        width,
        family: made.family,
        file: made.file,
        pair: None,
        without: made.without,
        fixed: None,
    }
}

fn seed_of(width: Width, seed: u64) -> u64 {
    match width {
        Width::Narrow => seed,
        Width::Wide => seed ^ WIDE,
    }
}

pub fn case_of(width: Width, seed: u64, index: usize) -> Case {
    let seed = seed_of(width, seed);
    let round: usize = FAMILIES.iter().map(|family| family.1).sum();
    let mut slot = index % round;
    let mut families = FAMILIES.iter();
    let (family, number) = loop {
        let &(family, files) = families.next().expect("a slot is in some family");
        if slot < files {
            break (family, index / round * files + slot);
        }
        slot -= files;
    };
    let random = &mut Random::new(seed, index as u64);
    made(width, (family, number), seed, random)
}

/// The file with this number in its family.
fn made(
    width: Width,
    (family, number): (&'static str, usize),
    seed: u64,
    random: &mut Random,
) -> Case {
    let mut case = Case {
        stream: Stream::Every,
        width,
        family,
        file: Vec::new(),
        pair: None,
        without: None,
        fixed: None,
    };
    match family {
        "recipe" => {
            let recipe = &RECIPES[number % RECIPES.len()];
            case.family = recipe.name;
            case.file = plan(width, recipe, random).file(random);
        }
        "parts" => case.file = without_parts(width, number, random).file(random),
        "fixed" => {
            let Fixed { name, text, file } = fixed(width, number, random);
            (case.file, case.fixed) = (file, Some((name, text)));
        }
        "single" => case.file = single(width, number, random),
        "pair" => {
            let (file, pair) = pair(width, number, random);
            (case.file, case.pair) = (file, Some(pair));
        }
        "prefix" => case.file = prefix(width, seed, number),
        "mutated" => case.file = mutated(width, random),
        "shuffled" => case.file = shuffled(width, random),
        "noise" => case.file = noise(width, random),
        _ => case.file = sized(width, number, random),
    }
    case
}

/// A run with no CL, no OP, no SC, or any of these together.
fn without_parts(width: Width, number: usize, random: &mut Random) -> Plan {
    let plan = plan(width, &RECIPES[random.below(SMALL)], random);
    with_parts(plan, number)
}

/// Leaves out CL, OP and SC as the bits of a number say.
pub fn with_parts(mut plan: Plan, number: usize) -> Plan {
    if number & 1 != 0 {
        plan.cells.clear();
    }
    if number & 2 != 0 {
        plan.operations.clear();
    }
    if number & 4 != 0 {
        plan.schedule.clear();
    }
    plan
}
