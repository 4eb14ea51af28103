//! Series of run files in which one number grows and the others stay.

use crate::cases::Case;
use crate::runfile::{RunFile, Width};
use crate::tables::{all_found, all_passing};

pub struct Series {
    pub name: &'static str,
    /// What grows: one of it, and several.
    pub unit: &'static str,
    pub units: &'static str,
    pub points: Vec<Point>,
}

pub struct Point {
    /// The number that grows.
    pub size: usize,
    pub case: Case,
}

pub fn series() -> Vec<Series> {
    vec![
        Series {
            name: "Cells of an empty table: no operations, no entries",
            unit: "cell",
            units: "cells",
            points: (0..=12)
                .map(|k| point(1 << k, RunFile::empty(k), 0, 0))
                .collect(),
        },
        Series {
            // No passing steps, since the smallest table has no cell to go on to.
            name: "Cells of a full table: 64 operations, each found by its one entry",
            unit: "cell",
            units: "cells",
            points: (0..=12)
                .map(|k| point(1 << k, all_found(k, 64), 64, 64))
                .collect(),
        },
        Series {
            name: "Operations: a full table of 256 cells, 128 entries, all passing steps",
            unit: "operation",
            units: "operations",
            points: (0..=6)
                .map(|doubled| 1 << doubled)
                .map(|operations| point(operations, all_passing(8, operations, 128), operations, 0))
                .collect(),
        },
        Series {
            name: "Entries, all passing steps: a full table of 4,096 cells, 64 operations",
            unit: "entry",
            units: "entries",
            points: [0, 256, 512, 1_024, 2_048, 4_096, 8_192, 16_384]
                .map(|entries| point(entries, all_passing(12, 64, entries), 64, 0))
                .into(),
        },
    ]
}

/// A point where so many of the operations finish, and no entry is idle.
fn point(size: usize, file: RunFile, operations: usize, done: usize) -> Point {
    let begins = format!("rows {operations} done {done} lost 0 idle 0\n");
    Point {
        size,
        case: Case::new(&size.to_string(), file.bytes(Width::Narrow), &begins),
    }
}
