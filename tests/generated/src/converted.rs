//! What the converters did with a file: what the second model says that they
//! write, and what a file and the written bytes have shown. It is noted for the
//! width that the file is read in, which damage may have changed: what a wide
//! file has shown was shown by roomnarrow.

use std::path::Path;

use model::{Word, Written};

use crate::classify::{numbers, place, record, start};
use crate::coverage::Coverage;
use crate::files::{Case, Stream};
use crate::observe::has;
use crate::plan::{GONE, MOST_BYTES, MOST_ENTRIES, MOST_OPERATIONS};
use crate::width::{Width, FLAG};

/// What the converter of a width writes for a file, by the second model.
pub struct Converted {
    pub accepted: bool,
    pub output: Vec<u8>,
}

fn convert(width: Width, file: &[u8], out: &mut [u8]) -> Written {
    match width {
        Width::Narrow => model::widen(file, out),
        Width::Wide => model::narrow(file, out),
    }
}

impl Converted {
    pub fn of(width: Width, file: &[u8]) -> Converted {
        let mut output = vec![0; MOST_BYTES];
        let written = convert(width, file, &mut output);
        let accepted = written.number == 0;
        match accepted {
            true => output.truncate(written.length),
            false => {
                output = format!("refused {} at {}\n", written.number, written.place).into_bytes()
            }
        }
        Converted { accepted, output }
    }

    /// How what a program wrote differs from this.
    pub fn difference(&self, program: &Path, output: &[u8]) -> String {
        let shown = |output: &[u8]| match numbers(output) {
            Some((number, place)) => format!("refused {number} at {place}"),
            None => format!("{} bytes", output.len()),
        };
        let same = self.output.iter().zip(output).take_while(|(a, b)| a == b);
        format!(
            "  {}: {}, the model {}; they differ at byte {}",
            program.display(),
            shown(output),
            shown(&self.output),
            same.count()
        )
    }
}

/// Notes the refusal of the converter of the other width.
pub fn by_the_other(case: &Case, output: &[u8], coverage: &mut Coverage) {
    if let Some((number, 0)) = numbers(output) {
        let title = "not converted by the other";
        let own = Width::of(&case.file);
        coverage.note(own, title, &number.to_string(), ' ');
    }
}

/// Notes the refusal of the converter of a file's own width.
pub fn refused(case: &Case, output: &[u8], coverage: &mut Coverage) {
    let width = Width::of(&case.file);
    let mut note = |title: &str, item: &str, place| coverage.note(width, title, item, place);
    let Some((number, at)) = numbers(output) else {
        return;
    };
    match number {
        13 => {
            if let Some((unfit, place)) = unfit(&case.file, at) {
                note("not converted 13", &unfit, place);
            }
        }
        22 => {
            let exactly = widened_bytes(&case.file) == MOST_BYTES + 1;
            let by = if exactly { "by one" } else { "by more" };
            note("not converted 22", by, ' ');
        }
        _ => note("not converted", &number.to_string(), ' '),
    }
    // Without the fault that decided another one does; of two that are unfit the
    // other is behind it.
    if let Some(without) = &case.without {
        let then = convert(width, without, &mut []);
        if matches!(then.number, 13 | 22) && (number, at) != (then.number, then.place) {
            let title = format!("not converted, before {}", then.number);
            if number != then.number || at < then.place {
                note(&title, &number.to_string(), ' ');
            }
        }
    }
}

/// What is unfit in the record at an offset of a wide file, and which of the
/// records with its mark it is.
fn unfit(file: &[u8], at: usize) -> Option<(String, char)> {
    let same = |other: &&(&str, usize)| other.0 == record(file, at).0;
    let records = records(file);
    let (mark, length) = record(file, at);
    let first = records.iter().find(same)?.1 == at;
    let last = records.iter().rev().find(same)?.1 == at;
    let flag_and_number = file.get(at + length - 5..at + length)?;
    let number = u32::from_be_bytes(flag_and_number[1..].try_into().ok()?);
    let what = match (flag_and_number[0], number) {
        (0, 65_535) => "unflagged 65535",
        (0, 65_536..) => "unflagged above",
        (1, 0..=65_534) => "flagged below",
        (1, 65_536..) => "flagged above",
        _ => return None,
    };
    Some((format!("{what} in {mark}"), place(first, last)))
}

/// The mark and offset of each record of a sound file.
fn records(file: &[u8]) -> Vec<(&'static str, usize)> {
    let mut records = Vec::new();
    let mut at = 0;
    while at < file.len() {
        let (mark, length) = record(file, at);
        records.push((mark, at));
        at += length;
    }
    records
}

/// How many bytes the wide file has that a sound narrow one is converted to.
fn widened_bytes(file: &[u8]) -> usize {
    let longer = |record: &&(&str, usize)| matches!(record.0, "CL" | "OP");
    file.len() + 3 * records(file).iter().filter(longer).count()
}

/// Notes what a file shows that its own converter took.
pub fn accepted(case: &Case, coverage: &mut Coverage) {
    match Width::of(&case.file) {
        Width::Narrow => accepted_in::<u32>(case, coverage),
        Width::Wide => accepted_in::<u64>(case, coverage),
    }
}

fn accepted_in<W: Word>(case: &Case, coverage: &mut Coverage) {
    let width = Width::of(&case.file);
    let start = start::<W>(&case.file);
    let mut note = |title: &str, item: &str| coverage.note(width, title, item, ' ');
    if case.stream == Stream::Conversions {
        note("converted", case.family);
    }
    let k = start.cells.len().trailing_zeros();
    note("converted, k", &k.to_string());
    note("converted, has", &has(&start));
    let pinned = match width {
        Width::Narrow => 65_535,
        Width::Wide => FLAG + 65_535,
    };
    let named = || start.cells.iter().filter(|&&word| word != W::EMPTY);
    let in_cell = |total: u64| named().any(|word| word.total().into() == total);
    let in_row = |amount: u64| {
        let mut rows = start.operations.iter();
        rows.any(|&row| W::amount(row).into() == amount)
    };
    let gone_with_total = named().any(|word| word.key() == GONE && word.total() != W::ZERO);
    let records = records(&case.file);
    let counts: Vec<u8> = records
        .iter()
        .filter(|record| record.0 == "SC")
        .map(|record| case.file[record.1 + 2])
        .collect();
    let wide_bytes = match width {
        Width::Narrow => widened_bytes(&case.file),
        Width::Wide => case.file.len(),
    };
    let shown = [
        ("0 in CL", in_cell(0)),
        ("65534 in CL", in_cell(65_534)),
        ("pinned in CL", in_cell(pinned)),
        ("tombstone with a total", gone_with_total),
        ("0 in OP", in_row(0)),
        ("65534 in OP", in_row(65_534)),
        ("pinned in OP", in_row(pinned)),
        ("several SC", counts.len() > 1),
        ("SC of 1", counts.contains(&1)),
        ("SC of 255", counts.contains(&255)),
        ("64 rows", start.operations.len() == MOST_OPERATIONS),
        ("16384 entries", start.schedule.len() == MOST_ENTRIES),
        ("65535 bytes when wide", wide_bytes == MOST_BYTES),
    ];
    for (item, _) in shown.into_iter().filter(|shown| shown.1) {
        note("converted with", item);
    }
    let (rows, schedule) = (&start.operations, &start.schedule);
    if let Some((number, _)) = model::refusal(
        &start.cells,
        rows,
        schedule,
        MOST_OPERATIONS,
        MOST_OPERATIONS,
    ) {
        note("converted, refused by the run", &number.to_string());
    }
}
