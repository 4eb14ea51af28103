//! The run files that are measured one by one, in either width. Each says how
//! its text must begin, so that a file which is not what it claims to be is found
//! out. A wide file with the name of a narrow one is the same job.

use crate::contention;
use crate::runfile::{key_at, RunFile, Width, FIND};
use crate::tables::{all_passing, full};
use crate::work::{Stage, CONVERSIONS, RUNS};

/// The table size of the large files: 2^12 is 4,096 cells, the most allowed.
pub const LARGEST: u8 = 12;

pub struct Case {
    pub name: String,
    pub file: Vec<u8>,
    /// The file that is narrowed where the other one is widened; nothing where
    /// the file is run.
    pub wide: Option<Vec<u8>>,
    /// How the text must begin, or what must come of both conversions.
    pub begins: String,
}

impl Case {
    pub fn new(name: &str, file: Vec<u8>, begins: &str) -> Case {
        Case {
            name: name.to_string(),
            file,
            wide: None,
            begins: begins.to_string(),
        }
    }

    /// What is measured of the case.
    pub fn stages(&self) -> &'static [Stage; 2] {
        match self.wide {
            None => &RUNS,
            Some(_) => &CONVERSIONS,
        }
    }
}

pub fn cases(width: Width) -> Vec<Case> {
    vec![
        run_in_full(width),
        Case::new(
            "4,096 empty cells, nothing else",
            RunFile::empty(LARGEST).bytes(width),
            "rows 0 done 0 lost 0 idle 0\n",
        ),
        Case::new(
            "full, 16,384 passing steps",
            all_passing(LARGEST, 64, 16_384).bytes(width),
            "rows 64 done 0 lost 0 idle 0\n",
        ),
        Case::new(
            "half full, contention",
            contention::file(LARGEST).bytes(width),
            contention::BEGINS,
        ),
        repeated_key(width),
        unreachable_key(width),
        refused_at_the_last_record(width),
        most_records(width),
    ]
}

/// The specification's own run, as the examples have it. In the wide one the
/// third amount is as far past the ceiling as there, by 5.
fn run_in_full(width: Width) -> Case {
    let (file, text) = match width {
        Width::Narrow => (
            include_bytes!("../../examples/run-in-full.run").to_vec(),
            include_str!("../../examples/run-in-full.txt"),
        ),
        Width::Wide => (
            [
                b"TW\x03".as_slice(),
                b"OP\x04\x00\x01\x00\x00\x00\x00\x28",
                b"OP\x04\x00\x09\x00\x00\x00\x00\x19",
                b"OP\x04\x00\x01\x00\xFF\xFF\xFF\xDC",
                b"SC\x0C\x00\x01\x02\x00\x01\x02\x01\x01\x02\x02\x01\x00",
            ]
            .concat(),
            "rows 3 done 3 lost 2 idle 1\n\
             row 0 add 1 40 inserted 0\n\
             row 1 add 9 25 inserted 0\n\
             row 2 add 1 4294967260 capped 40\n\
             log 0 2 1\n\
             cell 4 1 atleast 4294967295\n\
             cell 5 9 25\n",
        ),
    };
    Case::new("the run in full", file, text)
}

/// Refusal 7 at the last cell, which has the key of the cell before it: whoever
/// compares each cell with the lower ones from cell 0 on compares the most.
fn repeated_key(width: Width) -> Case {
    let mut file = all_passing(LARGEST, 64, 16_384);
    file.cells[4_095].1 = file.cells[4_094].1;
    Case::new(
        "refusal 7 at the last cell",
        file.bytes(width),
        "refused 7 at 4095\n",
    )
}

/// Refusal 8 at the last cell, the only one with an empty cell between its home
/// and itself. All homes lie far back, fifteen keys to each, so that whoever
/// walks from every home to its cell walks far.
fn unreachable_key(width: Width) -> Case {
    let mut file = all_passing(LARGEST, 64, 16_384);
    for (cell, (_, key, _)) in file.cells.iter_mut().enumerate() {
        *key = key_at(cell / 15, LARGEST, 1 + cell % 15);
    }
    file.cells.remove(4_094);
    Case::new(
        "refusal 8 at the last cell",
        file.bytes(width),
        "refused 8 at 4095\n",
    )
}

/// The longest file, whose last record says two entries and has one. Fewer
/// records fit into a wide one, which is another job.
fn refused_at_the_last_record(width: Width) -> Case {
    let name = match width {
        Width::Narrow => "65,535 bytes, last record cut short",
        Width::Wide => "65,535 wide bytes, last cut short",
    };
    let mut bytes = longest(width).bytes(width);
    let last_count = bytes.len() - 2;
    bytes[last_count] = 2;
    Case::new(name, bytes, "refused 10 at 65531\n")
}

/// A file that has the most bytes in this width, with all cells, all operations,
/// and as many schedule records as then fit.
pub fn longest(width: Width) -> RunFile {
    let entries = match width {
        Width::Narrow => 8_079,
        Width::Wide => 4_959,
    };
    let mut file = full(LARGEST);
    file.operations = all_passing(LARGEST, 64, 0).operations;
    file.schedule = (0..entries).map(|i| (i % 64) as u8).collect();
    file.entries_per_record = 1;
    assert_eq!(file.bytes(width).len(), 65_535);
    file
}

fn most_records(width: Width) -> Case {
    Case::new(
        "16,382 records, entries idle",
        idle_records().bytes(width),
        "rows 1 done 1 lost 0 idle 16379\n",
    )
}

/// As many records as fit into a file of either width. The first entry finishes
/// the operation; all others are idle.
pub fn idle_records() -> RunFile {
    let mut file = RunFile::empty(3);
    file.operations = vec![(FIND, 1, 0)];
    file.schedule = vec![0; 16_380];
    file.entries_per_record = 1;
    for width in [Width::Narrow, Width::Wide] {
        // Into a narrow one just one more would fit.
        let bytes = file.bytes(width).len();
        assert!(bytes <= 65_535 && bytes + 8 > 65_535);
    }
    file
}
