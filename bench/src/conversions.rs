//! The run files that are converted: a narrow one that is widened, and a wide one
//! that is narrowed, each the other's result unless they are refused.

use crate::cases::{idle_records, longest, Case, LARGEST};
use crate::contention;
use crate::growth::{Point, Series};
use crate::runfile::{RunFile, Width, ADD};
use crate::tables::{all_passing, full};

pub fn cases() -> Vec<Case> {
    let mut run_in_full = RunFile::empty(3);
    run_in_full.operations = vec![(ADD, 1, 40), (ADD, 9, 25), (ADD, 1, 65_500)];
    run_in_full.schedule = vec![0, 1, 2, 0, 1, 2, 1, 1, 2, 2, 1, 0];
    let mut pinned = full(LARGEST);
    for (_, _, total) in pinned.cells.iter_mut().step_by(2) {
        *total = u16::MAX;
    }
    vec![
        case("the run in full", &run_in_full),
        case("4,096 empty cells, nothing else", &RunFile::empty(LARGEST)),
        case("full, every other total pinned", &pinned),
        case(
            "full, 16,384 passing steps",
            &all_passing(LARGEST, 64, 16_384),
        ),
        case("half full, contention", &contention::file(LARGEST)),
        case("16,382 records, entries idle", &idle_records()),
        case("65,535 wide bytes", &longest(Width::Wide)),
        refused_at_the_end(),
    ]
}

/// A file in both widths: each is what the other is converted to.
fn case(name: &str, file: &RunFile) -> Case {
    let (narrow, wide) = (file.bytes(Width::Narrow), file.bytes(Width::Wide));
    Case {
        name: name.to_string(),
        begins: format!(
            "widened to {} bytes, narrowed to {} bytes",
            wide.len(),
            narrow.len()
        ),
        file: narrow,
        wide: Some(wide),
    }
}

/// The longest files, each refused for the last that is judged before anything
/// is written: the narrow one because its wide file is too long, the wide one for
/// the amount of its last operation.
fn refused_at_the_end() -> Case {
    let mut wide = longest(Width::Wide).bytes(Width::Wide);
    // 3 bytes, 4,096 cells of 11 and 63 operations of 10 come before; the flag is
    // behind the mark, the kind and the key.
    let last = 45_689;
    wide[last + 5] = 1;
    Case {
        name: "65,535 bytes, refused 22 and 13".to_string(),
        file: longest(Width::Narrow).bytes(Width::Narrow),
        wide: Some(wide),
        begins: format!("widened refused 22 at 0, narrowed refused 13 at {last}"),
    }
}

pub fn series() -> Vec<Series> {
    vec![
        Series {
            name: "Cells, converted: a full table, nothing else",
            unit: "cell",
            units: "cells",
            points: (0..=6)
                .map(|half| 2 * half)
                .map(|k| point(1 << k, &full(k)))
                .collect(),
        },
        Series {
            name: "Schedule records, converted: one entry each, 8 empty cells, up to 65,535 bytes",
            unit: "record",
            units: "records",
            points: [0, 1_024, 2_048, 4_096, 8_192, 16_383]
                .map(|records| point(records, &entries(records, 1)))
                .into(),
        },
        Series {
            name: "Entries, converted: 255 to a record, 8 empty cells",
            unit: "entry",
            units: "entries",
            points: [0, 2_040, 4_080, 8_160, 16_320]
                .map(|count| point(count, &entries(count, 255)))
                .into(),
        },
    ]
}

fn entries(count: usize, per_record: usize) -> RunFile {
    let mut file = RunFile::empty(3);
    file.schedule = vec![0; count];
    file.entries_per_record = per_record;
    file
}

fn point(size: usize, file: &RunFile) -> Point {
    Point {
        size,
        case: case(&size.to_string(), file),
    }
}
