//! Files that are made for the converters: wide ones whose totals a narrow file
//! can have, or all but some, and narrow ones whose wide file is about as long
//! as a file may be.

use crate::files::with_parts;
use crate::pairs::{base, chosen, most_operations, parts};
use crate::plan::{split, Plan, GONE, MOST_BYTES};
use crate::random::Random;
use crate::recipes::{plan, Recipe, LARGE, PLAIN, RECIPES};
use crate::schedules::schedule;
use crate::sizes::{length_without_schedule, padded};
use crate::spoil::{Spoiled, PLACES};
use crate::width::{Width, FLAG};

pub struct Conversion {
    pub family: &'static str,
    pub file: Vec<u8>,
    /// The file without its first fault, if it has two.
    pub without: Option<Vec<u8>>,
}

/// The rows of the refusal table that the converters share with the reader.
const READER: &[&str] = &["12", "10m", "9", "10b", "11", "2"];

pub fn conversion(width: Width, number: usize, random: &mut Random) -> Conversion {
    match width {
        Width::Narrow => match number % 4 {
            0 => long(number / 4, random),
            1 => twice_faulty(width, number / 4, random),
            _ => fitting(width, number / 4 * 2 + number % 2, random),
        },
        Width::Wide => match number % 8 {
            0..=3 => fitting(width, number / 8 * 4 + number % 4, random),
            4 | 5 => unfit(number / 8 * 2 + number % 2, random),
            6 => unfit_twice(random),
            _ => twice_faulty(width, number / 8, random),
        },
    }
}

fn made(family: &'static str, file: Vec<u8>) -> Conversion {
    Conversion {
        family,
        file,
        without: None,
    }
}

/// A total that both widths have.
fn fitting_total(width: Width, random: &mut Random) -> u64 {
    let pinned = match width {
        Width::Narrow => 65_535,
        Width::Wide => FLAG + 65_535,
    };
    match random.below(6) {
        0 => pinned,
        1 => random.pick(&[0, 1, 65_533, 65_534]),
        2 => random.pick(&[7, 40, 255, 256, 32_768]),
        _ => random.below(65_535) as u64,
    }
}

/// Gives every record a total that fits. What the run alone judges may then be
/// wrong too, in some files.
fn fit(mut plan: Plan, random: &mut Random) -> Plan {
    let width = plan.width;
    let lawless = random.percent(30);
    for cell in plan.cells.values_mut() {
        if cell.key != GONE || lawless && random.percent(20) {
            cell.total = fitting_total(width, random);
        }
    }
    for operation in &mut plan.operations {
        if lawless && random.percent(20) {
            operation.kind = random.byte();
            operation.key = random.pick(&[0, 1, GONE, operation.key]);
        }
        if !matches!(operation.kind, 1 | 5) || lawless {
            operation.amount = fitting_total(width, random);
        }
    }
    if lawless {
        for entry in &mut plan.schedule {
            if random.percent(5) {
                *entry = random.byte();
            }
        }
    }
    plan
}

/// A file that is converted, by any recipe; or with some marks left out, with
/// cells that the run refuses, or as long as can be.
fn fitting(width: Width, number: usize, random: &mut Random) -> Conversion {
    let file = match (number % 16, width) {
        (0, _) => {
            let plan = plan(width, &PLAIN, random);
            fit(with_parts(plan, number / 16), random).file(random)
        }
        (1, _) => {
            let plan = misplaced(width, ["7", "8"][number / 16 % 2], random);
            fit(plan, random).file(random)
        }
        (2, Width::Wide) => {
            let plan = fit(large(width, random), random);
            padded(plan, MOST_BYTES, random)
        }
        _ => {
            let recipe = &RECIPES[random.below(RECIPES.len())];
            fit(plan(width, recipe, random), random).file(random)
        }
    };
    made("fitting", file)
}

/// A plan that the run refuses for where its keys are.
fn misplaced(width: Width, row: &str, random: &mut Random) -> Plan {
    loop {
        let mut spoiled = Spoiled::new(plan(width, &PLAIN, random));
        if spoiled.add(row, 0, random.pick(&PLACES), random) {
            return spoiled.plan;
        }
    }
}

/// A plan with many cells.
fn large(width: Width, random: &mut Random) -> Plan {
    let recipe = Recipe {
        sizes: &[12],
        used: (50, 100),
        ..PLAIN
    };
    plan(width, &recipe, random)
}

/// The totals that no narrow file has, in four ways.
fn unfit_total(way: usize, random: &mut Random) -> u64 {
    let above = match random.below(3) {
        0 => random.pick(&[65_536, 65_537, 131_071, 16_777_216]),
        1 => random.pick(&[FLAG - 2, FLAG - 1]),
        _ => 65_536 + random.next() % (FLAG - 65_536),
    };
    let below = match random.below(2) {
        0 => random.pick(&[0, 1, 7, 65_534]),
        _ => random.next() % 65_535,
    };
    match way % 4 {
        0 => 65_535,
        1 => above,
        2 => FLAG + below,
        _ => FLAG + above,
    }
}

/// Puts a total into the cell or operation with this number, cells first.
fn put(plan: &mut Plan, at: usize, total: u64) {
    let cells = plan.cells.len();
    match plan.cells.values_mut().nth(at) {
        Some(cell) => cell.total = total,
        None => plan.operations[at - cells].amount = total,
    }
}

/// A fitting wide plan with cells and operations.
fn with_both(random: &mut Random) -> Plan {
    loop {
        let recipe = if random.percent(80) { PLAIN } else { LARGE };
        let plan = plan(Width::Wide, &recipe, random);
        if !plan.cells.is_empty() {
            return fit(plan, random);
        }
    }
}

/// A wide file with a record that is unfit: the numbers go through the ways, the
/// two marks and the first, a middle and the last record with the mark. Others
/// may follow it that are unfit too.
fn unfit(number: usize, random: &mut Random) -> Conversion {
    let mut plan = with_both(random);
    let (cells, all) = (plan.cells.len(), plan.cells.len() + plan.operations.len());
    let (low, high) = match number / 4 % 2 {
        0 => (0, cells - 1),
        _ => (cells, all - 1),
    };
    let at = PLACES[number / 8 % 3].position(low, high, random);
    if random.percent(40) {
        for later in at + 1..all {
            if random.percent(30) {
                put(&mut plan, later, unfit_total(random.below(4), random));
            }
        }
    }
    put(&mut plan, at, unfit_total(number, random));
    made("unfit", plan.file(random))
}

/// A wide file with two records that are unfit, and the same with the second
/// alone.
fn unfit_twice(random: &mut Random) -> Conversion {
    let mut plan = with_both(random);
    let all = plan.cells.len() + plan.operations.len();
    let first = random.below(all - 1);
    let second = random.between(first + 1, all - 1);
    let way = random.below(4);
    put(&mut plan, second, unfit_total(way, random));
    let without = plan.file(random);
    put(&mut plan, first, unfit_total(random.below(4), random));
    Conversion {
        family: "unfit twice",
        file: plan.file(random),
        without: Some(without),
    }
}

/// The narrow file of this plan whose wide one has this many bytes.
fn widening_to(plan: Plan, bytes: usize, random: &mut Random) -> Vec<u8> {
    let longer = 3 * (plan.cells.len() + plan.operations.len());
    padded(plan, bytes - longer, random)
}

/// A narrow file whose wide one has 65,535 bytes, or one more, or many more, up
/// to what the longest narrow file gives.
fn long(number: usize, random: &mut Random) -> Conversion {
    let few = Recipe {
        sizes: &[0, 1, 3, 5],
        ..PLAIN
    };
    let plan = match number / 4 % 2 {
        0 => plan(Width::Narrow, &few, random),
        _ => large(Width::Narrow, random),
    };
    let plan = fit(plan, random);
    let most = MOST_BYTES + 3 * (plan.cells.len() + plan.operations.len());
    let bytes = match number % 4 {
        0 => MOST_BYTES,
        1 => MOST_BYTES + 1,
        2 => random.between(MOST_BYTES + 2, most),
        _ => most,
    };
    made("long", widening_to(plan, bytes, random))
}

/// A file that the reader refuses, and the same without that fault, which a
/// converter refuses: a narrow one for the length of the result, a wide one for
/// a total.
fn twice_faulty(width: Width, number: usize, random: &mut Random) -> Conversion {
    let row = READER[number % READER.len()];
    loop {
        if let Some((file, without)) = with_fault(width, row, random) {
            return Conversion {
                family: "faulty and unfit",
                file,
                without: Some(without),
            };
        }
    }
}

/// A narrow plan whose file, with one entry to a record, leaves a few bytes below
/// the greatest size, and so has a wide one that is above it.
fn long_plan(row: &str, random: &mut Random) -> Plan {
    const LEFT: usize = 300;
    let mut plan = fit(large(Width::Narrow, random), random);
    if row == "2" {
        most_operations(&mut plan);
    }
    let rest = MOST_BYTES - LEFT - length_without_schedule(&plan);
    plan.schedule = schedule(plan.operations.len(), rest / 4, random);
    plan
}

fn with_fault(width: Width, row: &str, random: &mut Random) -> Option<(Vec<u8>, Vec<u8>)> {
    let mut plan = match width {
        Width::Narrow => long_plan(row, random),
        Width::Wide => fit(base(width, &[row], random), random),
    };
    if width == Width::Wide {
        let all = plan.cells.len() + plan.operations.len();
        let at = random.below(all);
        put(&mut plan, at, unfit_total(random.below(4), random));
    }
    let counts = match width {
        Width::Narrow => vec![1; plan.schedule.len()],
        Width::Wide => split(width, plan.schedule.len(), random),
    };
    let records = plan.records(&counts);
    let without = records.file();
    if row == "12" {
        let mut file = without.clone();
        let bytes = MOST_BYTES + random.between(1, 300);
        file.resize(bytes, random.byte());
        return Some((file, without));
    }
    let (at, fault) = chosen(row, &parts(&plan, &records), true, random)?;
    let mut list = records.list.clone();
    fault.put(at, &mut list);
    let file = list.concat();
    (file.len() <= MOST_BYTES).then_some((file, without))
}
