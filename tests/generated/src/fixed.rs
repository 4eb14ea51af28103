//! The cases that document 01 leaves to roomrun, with how their texts begin, and
//! document 02's where a request has moved one or, as A4, brought the same in
//! another width.

use crate::plan::{split_exactly, Operation, Plan, MOST_ENTRIES, MOST_OPERATIONS};
use crate::random::Random;
use crate::width::Width;

/// A name, how the text begins, and the file.
pub struct Fixed {
    pub name: &'static str,
    pub text: String,
    pub file: Vec<u8>,
}

/// The cases of both widths.
const NAMES: &[&str] = &[
    "run in full",
    "64 rows 16384 entries",
    "65 rows",
    "16385 entries",
    "k 0",
    "k 1",
    "k 2",
    "k 3",
    "k 12",
    "k 13",
    "rows without entries",
];

/// The cases of wide files alone.
const WIDE_NAMES: &[&str] = &[
    "flags",
    "wide records behind TB",
    "narrow records behind TW",
    "unflagged ceiling in a cell",
    "unflagged ceiling in a row",
    "flag byte 2",
];

pub fn names(width: Width) -> Vec<&'static str> {
    match width {
        Width::Narrow => NAMES.to_vec(),
        Width::Wide => [NAMES, WIDE_NAMES].concat(),
    }
}

const RUN_IN_FULL: &[u8] =
    b"TB\x03OP\x04\x00\x01\x00\x28OP\x04\x00\x09\x00\x19OP\x04\x00\x01\xFF\xDC\
    SC\x0C\x00\x01\x02\x00\x01\x02\x01\x01\x02\x02\x01\x00";
const ITS_TEXT: &str =
    "rows 3 done 3 lost 2 idle 1\nrow 0 add 1 40 inserted 0\nrow 1 add 9 25 inserted 0\n\
    row 2 add 1 65500 capped 40\nlog 0 2 1\ncell 4 1 pinned\ncell 5 9 25\n";

/// The same with an amount that takes 40 past the ceiling of 32 bits.
const WIDE_RUN_IN_FULL: &[u8] =
    b"TW\x03OP\x04\x00\x01\x00\x00\x00\x00\x28OP\x04\x00\x09\x00\x00\x00\x00\x19\
    OP\x04\x00\x01\x00\xFF\xFF\xFF\xDCSC\x0C\x00\x01\x02\x00\x01\x02\x01\x01\x02\x02\x01\x00";
const ITS_WIDE_TEXT: &str =
    "rows 3 done 3 lost 2 idle 1\nrow 0 add 1 40 inserted 0\nrow 1 add 9 25 inserted 0\n\
    row 2 add 1 4294967260 capped 40\nlog 0 2 1\ncell 4 1 atleast 4294967295\ncell 5 9 25\n";

/// 3 flagged + 4 is 7 flagged, 65,535 + flagged 4 is capped; then a find.
const FLAGS: &[u8] = b"TW\x03CL\x00\x04\x00\x01\x01\x00\x00\x00\x03CL\x00\x05\x00\x09\x00\x00\x00\xFF\xFF\
    OP\x04\x00\x01\x00\x00\x00\x00\x04OP\x04\x00\x09\x01\x00\x00\x00\x04OP\x01\x00\x01\x00\x00\x00\x00\x00\
    SC\x06\x00\x00\x01\x01\x01\x02";
const FLAGS_TEXT: &str = "rows 3 done 3 lost 0 idle 0\nrow 0 add 1 4 changed atleast 3\n\
    row 1 add 9 atleast 4 capped 65535\nrow 2 find 1 0 found atleast 7\nlog 0 1 2\n\
    cell 4 1 atleast 7\ncell 5 9 atleast 65539\n";

const EMPTY_TEXT: &str = "rows 0 done 0 lost 0 idle 0\nlog\n";

/// As many additions of 1 to room 1 as asked for, one after the other.
fn additions(width: Width, rows: usize, entries: usize, random: &mut Random) -> Vec<u8> {
    let add = Operation {
        kind: 4,
        key: 1,
        amount: 1,
    };
    let plan = Plan {
        width,
        k: 3,
        cells: Default::default(),
        operations: vec![add; rows],
        schedule: (0..entries).map(|i| (i * rows / entries) as u8).collect(),
    };
    let counts = split_exactly(entries, entries.div_ceil(random.between(9, 255)), random);
    plan.records(&counts).file()
}

pub fn fixed(width: Width, number: usize, random: &mut Random) -> Fixed {
    let names = names(width);
    let name = names[number % names.len()];
    let mut additions = |rows, entries| additions(width, rows, entries, random);
    let table = |k: u8| [&width.mark()[..], &[k]].concat();
    let (text, file): (String, Vec<u8>) = match name {
        "run in full" => match width {
            Width::Narrow => (ITS_TEXT.into(), RUN_IN_FULL.to_vec()),
            Width::Wide => (ITS_WIDE_TEXT.into(), WIDE_RUN_IN_FULL.to_vec()),
        },
        // Each addition takes two steps; its other 254 entries are idle.
        "64 rows 16384 entries" => (
            "rows 64 done 64 lost 0 idle 16256\nrow 0 add 1 1 inserted 0\nrow 1 add 1 1 changed 1\n".into(),
            additions(MOST_OPERATIONS, MOST_ENTRIES),
        ),
        // Behind 3 bytes and 64 rows of 7, or of 10.
        "65 rows" => {
            let at = match width {
                Width::Narrow => 451,
                Width::Wide => 643,
            };
            (format!("refused 2 at {at}\n"), additions(65, 130))
        }
        "16385 entries" => {
            // Of ones, the last SC is the one with too many.
            let file = additions(1, MOST_ENTRIES);
            let text = format!("refused 2 at {}\n", file.len());
            (text, [file, b"SC\x01\x00".to_vec()].concat())
        }
        "k 0" => (EMPTY_TEXT.into(), table(0)),
        "k 1" => (EMPTY_TEXT.into(), table(1)),
        "k 2" => (EMPTY_TEXT.into(), table(2)),
        "k 3" => (EMPTY_TEXT.into(), table(3)),
        "k 12" => (EMPTY_TEXT.into(), table(12)),
        "k 13" => ("refused 11 at 0\n".into(), table(13)),
        "flags" => (FLAGS_TEXT.into(), FLAGS.to_vec()),
        // The narrow reader takes 7 bytes of the OP, and 0, 0 is no mark.
        "wide records behind TB" => {
            let file = [b"TB", &WIDE_RUN_IN_FULL[2..]].concat();
            ("refused 9 at 10\n".into(), file)
        }
        // The wide reader takes 10 bytes, past the next mark: 0, 9 is none.
        "narrow records behind TW" => {
            let file = [b"TW", &RUN_IN_FULL[2..]].concat();
            ("refused 9 at 13\n".into(), file)
        }
        "unflagged ceiling in a cell" => (
            "refused 4 at 4\n".into(),
            b"TW\x03CL\x00\x04\x00\x01\x00\xFF\xFF\xFF\xFF".to_vec(),
        ),
        "unflagged ceiling in a row" => (
            "refused 5 at 0\n".into(),
            b"TW\x03OP\x04\x00\x01\x00\xFF\xFF\xFF\xFF".to_vec(),
        ),
        "flag byte 2" => (
            "refused 11 at 3\n".into(),
            b"TW\x03CL\x00\x04\x00\x01\x02\x00\x00\x00\x07".to_vec(),
        ),
        _ => (
            "rows 2 done 0 lost 0 idle 0\nrow 0 add 1 1 unfinished 0\nrow 1 add 1 1 unfinished 0\nlog\n".into(),
            additions(2, 0),
        ),
    };
    Fixed { name, text, file }
}
