//! What a refusal is for: from the number and place that were written and from
//! the file, the row of the refusal table, what is wrong, and where.

use model::Word;

use crate::width::{Width, FLAG};

/// A file as the run gets it, in the width of its words.
pub struct Start<W> {
    pub cells: Vec<W>,
    pub operations: Vec<u64>,
    pub schedule: Vec<u8>,
}

pub fn start<W: Word>(file: &[u8]) -> Start<W> {
    let mut cells = vec![W::EMPTY; 4_096];
    let mut operations = vec![0; 64];
    let mut schedule = vec![0; 16_384];
    let loaded = model::load(file, &mut cells, &mut operations, &mut schedule);
    cells.truncate(loaded.cells);
    operations.truncate(loaded.operations);
    schedule.truncate(loaded.entries);
    Start {
        cells,
        operations,
        schedule,
    }
}

/// The row of the refusal table (as in `pairs`), each thing that is wrong, and
/// the place: `f` first, `m` middle, `l` last, or a blank where there is one
/// place only.
pub struct Refusal {
    pub row: &'static str,
    pub wrong: Vec<String>,
    pub place: char,
}

fn refusal(row: &'static str, wrong: impl Into<String>, place: char) -> Refusal {
    Refusal {
        row,
        wrong: vec![wrong.into()],
        place,
    }
}

pub fn place(first: bool, last: bool) -> char {
    match (first, last) {
        (true, _) => 'f',
        (_, true) => 'l',
        _ => 'm',
    }
}

/// The number and place in the text of a refusal.
pub fn numbers(text: &[u8]) -> Option<(u32, usize)> {
    let line = std::str::from_utf8(text).ok()?.strip_suffix('\n')?;
    let (number, place) = line.strip_prefix("refused ")?.split_once(" at ")?;
    Some((number.parse().ok()?, place.parse().ok()?))
}

/// Gives nothing where no such refusal is at that place.
pub fn classify(file: &[u8], number: u32, at: usize) -> Option<Refusal> {
    if number == 12 {
        let exactly = file.len() == crate::plan::MOST_BYTES + 1;
        return Some(refusal(
            "12",
            if exactly { "by one" } else { "by more" },
            ' ',
        ));
    }
    if (4..=8).contains(&number) {
        return match Width::of(file) {
            Width::Narrow => of_run::<u32>(&start(file), number, at),
            Width::Wide => of_run::<u64>(&start(file), number, at),
        };
    }
    of_record(file, number, at)
}

/// The mark at an offset and the length of its record, if it is whole.
pub fn record(file: &[u8], at: usize) -> (&'static str, usize) {
    let width = Width::of(file);
    let rest = &file[at..];
    match rest.get(..2) {
        Some(mark) if mark == width.mark() => (width.mark_text(), 3),
        Some(b"CL") => ("CL", width.cell_bytes()),
        Some(b"OP") => ("OP", width.operation_bytes()),
        Some(b"SC") => ("SC", 3 + rest.get(2).map_or(0, |&count| usize::from(count))),
        Some(_) => ("unknown", 8),
        None => ("none", 0),
    }
}

/// The offset and mark of the record before one.
fn before(file: &[u8], at: usize) -> Option<(usize, &'static str)> {
    let mut last = (0, "start");
    let mut now = 0;
    while now < at {
        let (mark, length) = record(file, now);
        last = (now, mark);
        now += length.max(1);
    }
    (now == at).then_some(last)
}

fn of_record(file: &[u8], number: u32, at: usize) -> Option<Refusal> {
    let rest = file.get(at..)?;
    let (previous, after) = before(file, at)?;
    let (mark, length) = record(file, at);
    let ends = length >= rest.len();
    let last_of_mark = ends || record(file, at + length).0 != mark;
    match (number, mark) {
        (10, _) if file.is_empty() => Some(refusal("10m", "nothing", ' ')),
        (10, "none") => Some(refusal("10m", after, ' ')),
        (10, "SC") if rest.len() == 2 => Some(refusal("10b", format!("SC count>{after}"), ' ')),
        (10, _) => Some(refusal("10b", format!("{mark}>{after}"), ' ')),
        (9, _) => {
            let mut wrong = vec![mark.into(), format!("{mark}>{after}")];
            if rest.starts_with(Width::of(file).other_mark()) {
                wrong.push("the other width's".into());
            }
            Some(Refusal {
                row: "9",
                wrong,
                place: place(at == 0, ends),
            })
        }
        (11, "TB" | "TW") => Some(refusal("11", format!("{mark} {}", rest.get(2)?), ' ')),
        (11, "CL") => Some(Refusal {
            row: "11",
            wrong: wrong_cell(file, (after == "CL").then_some(previous), at)?,
            place: place(after != "CL", last_of_mark),
        }),
        (11, "OP") => Some(Refusal {
            row: "11",
            wrong: vec![wrong_flag("OP", *rest.get(5)?)?],
            place: place(after != "OP", last_of_mark),
        }),
        (11, _) => Some(refusal("11", "SC 0", place(after != "SC", last_of_mark))),
        (2, _) => Some(refusal("2", mark, place(false, last_of_mark))),
        _ => None,
    }
}

/// What is wrong with the CL at an offset, behind another or not.
fn wrong_cell(file: &[u8], previous: Option<usize>, at: usize) -> Option<Vec<String>> {
    let pair = |at: usize| Some(u16::from_be_bytes([*file.get(at)?, *file.get(at + 1)?]));
    let (number, key) = (pair(at + 2)?, pair(at + 4)?);
    let before = previous.and_then(|previous| pair(previous + 2));
    let conditions = [
        ("twice", before == Some(number)),
        ("descending", before.is_some_and(|before| number < before)),
        ("not below c", u32::from(number) >= 1 << file[2].min(16)),
        ("key 0", key == 0),
    ];
    let met = conditions.iter().filter(|condition| condition.1);
    let mut wrong: Vec<String> = met.map(|condition| condition.0.into()).collect();
    if Width::of(file) == Width::Wide {
        wrong.extend(wrong_flag("CL", *file.get(at + 6)?));
    }
    Some(wrong)
}

/// What is wrong with a flag byte in a record, if anything is.
fn wrong_flag(mark: &str, byte: u8) -> Option<String> {
    match byte {
        0 | 1 => None,
        2 | 255 => Some(format!("{mark} flag {byte}")),
        _ => Some(format!("{mark} other flag")),
    }
}

fn of_run<W: Word>(start: &Start<W>, number: u32, at: usize) -> Option<Refusal> {
    let (row, wrong, among) = match number {
        4 => ("4", wrong_word(*start.cells.get(at)?), start.cells.len()),
        5 => (
            "5",
            wrong_operation::<W>(*start.operations.get(at)?),
            start.operations.len(),
        ),
        6 => ("6", wrong_entry(start, at)?, start.schedule.len()),
        7 => ("7", "cell", start.cells.len()),
        _ => ("8", "cell", start.cells.len()),
    };
    Some(refusal(row, wrong, place(at == 0, at + 1 == among)))
}

/// What is wrong with a cell: no file has bits beside its fields.
fn wrong_word<W: Word>(word: W) -> &'static str {
    let total: u64 = word.total().into();
    match (word.key(), total) {
        (0 | 65_535, FLAG) => "flag alone",
        (0 | 65_535, FLAG..) => "total and flag",
        (0 | 65_535, _) => "total",
        _ => "unflagged ceiling",
    }
}

fn wrong_operation<W: Word>(word: u64) -> &'static str {
    let kind_and_key = word >> W::TOTAL_BITS;
    let (kind, key) = (kind_and_key >> 16, kind_and_key & 0xFFFF);
    let amount: u64 = W::amount(word).into();
    match (kind, key) {
        (0, _) => "kind 0",
        (6, _) => "kind 6",
        (255, _) => "kind 255",
        (1..=5, 0) => "key 0",
        (1..=5, 65_535) => "key 65535",
        (1, _) if amount == FLAG => "find flag",
        (5, _) if amount == FLAG => "remove flag",
        (1, _) if amount > 0 => "find amount",
        (5, _) if amount > 0 => "remove amount",
        (2..=4, _) => "unflagged ceiling",
        _ => "other kind",
    }
}

fn wrong_entry<W: Word>(start: &Start<W>, at: usize) -> Option<&'static str> {
    let entry = usize::from(*start.schedule.get(at)?);
    Some(match entry {
        _ if start.operations.is_empty() => "no rows",
        entry if entry == start.operations.len() => "number of rows",
        255 => "255",
        _ => "other",
    })
}
