//! Files with two faults, so that the order of the refusal table decides.
//!
//! Rows of that table are named by their numbers; the two rows of 10 are `10m`
//! for the mark and `10b` for the body.

use crate::faults::{Fault, Parts, Then};
use crate::plan::{split, Plan, Records, MOST_ENTRIES, MOST_OPERATIONS};
use crate::random::Random;
use crate::recipes::{plan, PLAIN};
use crate::schedules::schedule;
use crate::spoil::{Place, Spoiled};
use crate::width::Width;

/// A row that decides, and the rows that it decides against. Where both are
/// the reader's, the record of the first comes before that of the second.
pub type Pairs = &'static [(&'static str, &'static [&'static str])];

const RUN: &[&str] = &["4", "5", "6", "7", "8"];
const LATER: &[&str] = &["10m", "9", "10b", "11", "2", "4", "5", "6", "7", "8"];

pub const PAIRS: Pairs = &[
    ("12", LATER),
    ("10m", RUN),
    ("9", LATER),
    ("10b", RUN),
    ("11", LATER),
    ("2", LATER),
    ("4", RUN),
    ("5", &["5", "6", "7", "8"]),
    ("6", &["6", "7", "8"]),
    ("7", &["7", "8"]),
    ("8", &["8"]),
];

/// Both faults in the same record.
pub fn in_one_record(width: Width) -> Pairs {
    const NARROW: Pairs = &[("9", &["10b", "11", "2"]), ("10b", &["11", "2"])];
    // Only a wide OP can be wrong and one too many at once.
    const WIDE: Pairs = &[
        ("9", &["10b", "11", "2"]),
        ("10b", &["11", "2"]),
        ("11", &["2"]),
    ];
    match width {
        Width::Narrow => NARROW,
        Width::Wide => WIDE,
    }
}

pub struct Pair {
    pub first: &'static str,
    pub second: &'static str,
    pub in_one_record: bool,
    /// The file without the first fault, to see that the second is one.
    pub alone: Vec<u8>,
}

/// The pair with this number, counted round and round.
fn numbered(width: Width, number: usize) -> (&'static str, &'static str, bool) {
    let flat = |pairs: Pairs, in_one_record| {
        let each = move |&(first, seconds): &(&'static str, &'static [&'static str])| {
            seconds
                .iter()
                .map(move |&second| (first, second, in_one_record))
        };
        pairs.iter().flat_map(each)
    };
    let all: Vec<_> = flat(PAIRS, false)
        .chain(flat(in_one_record(width), true))
        .collect();
    all[number % all.len()]
}

/// A file with both faults. Not every plan has room for every pair, so plans
/// are tried until one has.
pub fn pair(width: Width, number: usize, random: &mut Random) -> (Vec<u8>, Pair) {
    let (first, second, in_one_record) = numbered(width, number);
    loop {
        let made = match (first, second) {
            _ if in_one_record => double(width, first, second, random),
            ("12", _) => oversize(width, second, random),
            _ if RUN.contains(&first) => both_of_run(width, first, second, random),
            _ if RUN.contains(&second) => before_run(width, first, second, random),
            _ => both_of_reader(width, first, second, random),
        };
        if let Some((both, alone)) = made {
            let pair = Pair {
                first,
                second,
                in_one_record,
                alone,
            };
            return (both, pair);
        }
    }
}

type Files = Option<(Vec<u8>, Vec<u8>)>;

fn any_place(random: &mut Random) -> Place {
    random.pick(&crate::spoil::PLACES)
}

/// A plan for the faults of these rows; row 2 needs one that is at the limit.
pub fn base(width: Width, rows: &[&str], random: &mut Random) -> Plan {
    let mut plan = plan(width, &PLAIN, random);
    if rows.contains(&"2") {
        if random.percent(60) {
            most_operations(&mut plan);
        } else {
            plan.schedule = schedule(plan.operations.len(), MOST_ENTRIES, random);
        }
    }
    plan
}

pub fn most_operations(plan: &mut Plan) {
    let few = plan.operations.clone();
    plan.operations = few.into_iter().cycle().take(MOST_OPERATIONS).collect();
}

pub fn parts<'a>(plan: &Plan, records: &'a Records) -> Parts<'a> {
    Parts {
        width: plan.width,
        k: plan.k,
        records,
        operation: plan.operations[0],
    }
}

fn spoiled(row: &str, place: Place, spoiled: &mut Spoiled, random: &mut Random) -> Option<()> {
    let way = random.below(100);
    spoiled.add(row, way, place, random).then_some(())
}

fn both_of_run(width: Width, first: &str, second: &str, random: &mut Random) -> Files {
    let mut both = Spoiled::new(base(width, &[], random));
    // Of two faults of one row, the lower place decides.
    let (lower, higher) = match first == second && random.percent(60) {
        true => (Place::First, Place::Last),
        false => (any_place(random), any_place(random)),
    };
    spoiled(second, higher, &mut both, random)?;
    let alone = both.plan.file(random);
    spoiled(first, lower, &mut both, random)?;
    Some((both.plan.file(random), alone))
}

/// A fault of this row. With `whole`, one that leaves all records in place.
pub fn chosen(
    row: &str,
    parts: &Parts,
    whole: bool,
    random: &mut Random,
) -> Option<(usize, Fault)> {
    let faults = parts.faults(row, any_place(random), random);
    let which = random.below(faults.len());
    let fault = faults.into_iter().nth(which)?;
    // An empty file holds nothing else.
    if fault.lowest > fault.highest || fault.record.is_empty() {
        return None;
    }
    let end = parts.records.list.len();
    match fault.then {
        Then::Ends if whole && fault.highest < end => None,
        Then::Ends if whole => Some((end, fault)),
        _ => Some((random.between(fault.lowest, fault.highest), fault)),
    }
}

fn before_run(width: Width, first: &str, second: &str, random: &mut Random) -> Files {
    let mut made = Spoiled::new(base(width, &[first], random));
    spoiled(second, any_place(random), &mut made, random)?;
    let counts = split(width, made.plan.schedule.len(), random);
    let records = made.plan.records(&counts);
    let (at, fault) = chosen(first, &parts(&made.plan, &records), true, random)?;
    let mut list = records.list.clone();
    fault.put(at, &mut list);
    Some((list.concat(), records.file()))
}

fn both_of_reader(width: Width, first: &str, second: &str, random: &mut Random) -> Files {
    let plan = base(width, &[first, second], random);
    let counts = split(width, plan.schedule.len(), random);
    let records = plan.records(&counts);
    let parts = parts(&plan, &records);
    let (later, fault) = chosen(second, &parts, false, random)?;
    let mut list = records.list.clone();
    fault.put(later, &mut list);
    let alone = list.concat();
    let (earlier, fault) = chosen(first, &parts, false, random)?;
    let before = earlier < later || earlier == later && fault.then == Then::Follows;
    if !before {
        return None;
    }
    fault.put(earlier, &mut list);
    Some((list.concat(), alone))
}

fn double(width: Width, first: &str, second: &str, random: &mut Random) -> Files {
    let mut plan = base(width, &[second], random);
    // Only an OP can be one too many and out of order or wrong at once.
    if matches!((first, second), ("9" | "11", "2")) {
        most_operations(&mut plan);
    }
    let counts = split(width, plan.schedule.len(), random);
    let records = plan.records(&counts);
    let (both, alone) = parts(&plan, &records).double((first, second), random);
    let put = |fault: Fault, random: &mut Random| {
        let mut list = records.list.clone();
        let at = random.between(fault.lowest, fault.highest);
        fault.put(at, &mut list);
        list.concat()
    };
    let room = both.lowest <= both.highest && alone.lowest <= alone.highest;
    room.then(|| (put(both, random), put(alone, random)))
}

/// The last entries that are allowed take the file over its size.
fn oversize(width: Width, second: &str, random: &mut Random) -> Files {
    const LEFT: usize = 384;
    let mut plan = base(width, &[], random);
    if second == "2" {
        most_operations(&mut plan);
    }
    plan.schedule = schedule(plan.operations.len(), MOST_ENTRIES - LEFT, random);
    let mut made = Spoiled::new(plan);
    if RUN.contains(&second) {
        spoiled(second, any_place(random), &mut made, random)?;
    }
    let records = made.plan.records(&vec![1; MOST_ENTRIES - LEFT]);
    let mut list = records.list.clone();
    if !RUN.contains(&second) {
        let (at, fault) = chosen(second, &parts(&made.plan, &records), true, random)?;
        fault.put(at, &mut list);
    }
    let alone = list.concat();
    let last = list.len() - 1;
    list.splice(last..last, vec![crate::plan::entries(&[0]); LEFT]);
    Some((list.concat(), alone))
}
