//! Files that are damaged in one place, cut, changed at random or not run
//! files at all.

use crate::pairs::{base, parts};
use crate::plan::split;
use crate::random::Random;
use crate::recipes::{plan, LARGE, PLAIN, RECIPES, SMALL};
use crate::spoil::{Spoiled, PLACES};
use crate::width::Width;

const READER: &[&str] = &["10m", "9", "10b", "11", "2"];
const RUN: &[&str] = &["4", "5", "6", "7", "8"];

/// One fault. The numbers go through every row of the refusal table, each at
/// the first, a middle and the last place, and in each of its ways.
pub fn single(width: Width, number: usize, random: &mut Random) -> Vec<u8> {
    let rows = READER.len() + RUN.len();
    let (row, number) = (number % rows, number / rows);
    let (place, way) = (PLACES[number % 3], number / 3);
    if row >= READER.len() {
        loop {
            let recipe = if random.percent(80) { PLAIN } else { LARGE };
            let mut made = Spoiled::new(plan(width, &recipe, random));
            if made.add(RUN[row - READER.len()], way, place, random) {
                return made.plan.file(random);
            }
        }
    }
    let mut plan = base(width, &[READER[row]], random);
    // Half of the files of too many operations end with the last of them.
    if READER[row] == "2" && plan.schedule.len() < 1_000 && random.percent(50) {
        plan.schedule.clear();
    }
    let counts = split(width, plan.schedule.len(), random);
    let mut records = plan.records(&counts);
    let mut faults = parts(&plan, &records).faults(READER[row], place, random);
    let fault = faults.swap_remove(way % faults.len());
    let at = place.position(fault.lowest, fault.highest, random);
    fault.put(at, &mut records.list);
    records.file()
}

/// A small file, and the same cut at every byte: the numbers go through all
/// cuts of one file, then through those of the next.
pub fn prefix(width: Width, seed: u64, number: usize) -> Vec<u8> {
    let mut number = number;
    for whole in 0.. {
        let random = &mut Random::new(seed ^ 0xC07, whole);
        let mut file = plan(width, &PLAIN, random).file(random);
        if number <= file.len() {
            file.truncate(number);
            return file;
        }
        number -= file.len() + 1;
    }
    unreachable!("there is always another file")
}

/// A file of any recipe with a few bytes changed, put in or taken out.
pub fn mutated(width: Width, random: &mut Random) -> Vec<u8> {
    let mut file = plan(width, &RECIPES[random.below(SMALL)], random).file(random);
    for _ in 0..random.between(1, 2) {
        let at = random.below(file.len());
        let byte = match random.percent(50) {
            true => random.byte(),
            false => file[at] ^ 1 << random.below(8),
        };
        match random.below(4) {
            0 => file.insert(at, byte),
            1 => drop(file.remove(at)),
            _ => file[at] = byte,
        }
    }
    file
}

/// A file with whole records exchanged, repeated or left out.
pub fn shuffled(width: Width, random: &mut Random) -> Vec<u8> {
    let plan = plan(width, &PLAIN, random);
    let counts = split(width, plan.schedule.len(), random);
    let mut records = plan.records(&counts).list;
    let (one, other) = (random.below(records.len()), random.below(records.len()));
    match random.below(3) {
        0 => records.swap(one, other),
        1 => records.insert(one, records[other].clone()),
        _ => drop(records.remove(one)),
    }
    records.concat()
}

/// Bytes of no meaning, some of them beginning as a file does.
pub fn noise(width: Width, random: &mut Random) -> Vec<u8> {
    let length = random.below(300);
    let few = random.percent(50);
    let letters = [&width.mark()[..], b"CLOPSC\0\x01\x03\x05"].concat();
    let byte = |_| match few {
        true => random.pick(&letters),
        false => random.byte(),
    };
    let mut bytes: Vec<u8> = (0..length).map(byte).collect();
    if random.percent(60) {
        let behind = random.pick(&[
            &b"\x03"[..],
            b"\x0C",
            b"\x00OP",
            b"\x01CL",
            b"\x04CL",
            b"\x03OP",
            b"\x05SC",
        ]);
        bytes.splice(0..0, [&width.mark()[..], behind].concat());
    }
    bytes
}
