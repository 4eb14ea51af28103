//! What a file and the text that the program wrote for it have shown.

use std::collections::BTreeSet;

use model::Word;

use crate::ceiling;
use crate::classify::{classify, numbers, Start};
use crate::coverage::{pair_title, Coverage};
use crate::files::Case;
use crate::pairs::Pair;
use crate::stops::stops;
use crate::updates;
use crate::width::{Width, FLAG};

/// Notes which refusal was written, and whether it is the first of a pair.
pub fn refused(case: &Case, text: &[u8], coverage: &mut Coverage) {
    let mut note = |title: &str, item: &str, place| coverage.note(case.width, title, item, place);
    let Some((number, place)) = numbers(text) else {
        return;
    };
    let Some(refusal) = classify(&case.file, number, place) else {
        return;
    };
    let title = match refusal.row {
        "10m" => "refused 10 mark, behind".into(),
        "10b" => "refused 10 body".into(),
        row => format!("refused {row}"),
    };
    for wrong in &refusal.wrong {
        let place = if wrong.contains('>') {
            ' '
        } else {
            refusal.place
        };
        note(&title, wrong, place);
    }
    note("refused, of", case.family, ' ');
    if let [b'T', b'B' | b'W', k @ 0..=12, ..] = case.file[..] {
        note("refused, k", &k.to_string(), ' ');
        if k < 3 {
            note("refused in 1, 2 or 4 cells", refusal.row, ' ');
        }
    }
    if let Some(pair) = &case.pair {
        if refusal.row == pair.first && has_second(pair, place) {
            let title = pair_title(pair.first, pair.in_one_record);
            note(&title, pair.second, ' ');
        }
    }
}

/// Whether a file whose first fault is at this place has the second one too:
/// it is refused for that without the first. Of two faults of the same row in
/// a run, the second must be at another place.
fn has_second(pair: &Pair, place: usize) -> bool {
    let mut text = Vec::new();
    model::report(&pair.alone, &mut text);
    let Some((number, second)) = numbers(&text) else {
        return false;
    };
    let row = classify(&pair.alone, number, second).map(|refusal| refusal.row);
    let same = pair.first == pair.second && (4..=8).contains(&number);
    row == Some(pair.second) && !(same && place >= second)
}

/// One line of an operation ("row") in a text.
pub struct Line<'a> {
    pub kind: &'a str,
    pub key: u16,
    /// With a flag, `FLAG` more than its number; so is the total.
    pub amount: u64,
    pub answer: &'a str,
    pub total: u64,
}

/// The total or amount that the next words are.
fn total<'a>(words: &mut impl Iterator<Item = &'a str>) -> Option<u64> {
    match words.next()? {
        "pinned" => Some(Width::Narrow.ceiling()),
        "atleast" => Some(FLAG + words.next()?.parse::<u64>().ok()?),
        digits => digits.parse().ok(),
    }
}

fn line(text: &str) -> Option<Line<'_>> {
    let mut words = text.strip_prefix("row ")?.split(' ').skip(1);
    let line = Line {
        kind: words.next()?,
        key: words.next()?.parse().ok()?,
        amount: total(&mut words)?,
        answer: words.next()?,
        total: total(&mut words)?,
    };
    words.next().is_none().then_some(line)
}

/// Notes what the text of an accepted run shows.
pub fn accepted<W: Word>(case: &Case, start: &Start<W>, text: &[u8], coverage: &mut Coverage) {
    let text = String::from_utf8_lossy(text);
    let lines: Vec<Line> = text.lines().filter_map(line).collect();
    let mut note = |title: &str, item: &str| coverage.note(case.width, title, item, ' ');
    // As it was read: damage may have made another width of it.
    let width = Width::of(&case.file);
    let stops = stops(start);
    ceiling::adds(width, start, &stops, &lines, &mut note);
    updates::updates(width, start, &stops, (&lines, &log(&text)), &mut note);
    for line in &lines {
        note("kinds", line.kind);
        note("answers", line.answer);
        note(&format!("of {}", line.kind), line.answer);
        for (what, total) in [("amount", line.amount), (line.answer, line.total)] {
            if let Some(how) = listed(width, total) {
                note("listed", &format!("{what} {how}"));
            }
        }
    }
    // Once for a text, which may have thousands of cells.
    let cells = text.lines().filter_map(cell_total);
    let cells: BTreeSet<_> = cells.filter_map(|total| listed(width, total)).collect();
    for how in cells {
        note("listed", &format!("cell {how}"));
    }
    let passed = |line| passes_tombstone(start, line);
    let shown = [
        (
            "wraparound",
            stored(start, &text).any(|(at, home)| at < home),
        ),
        ("tombstone passed", lines.iter().any(passed)),
        ("key stored again", stored_again(&lines)),
        ("ended full", lines.iter().any(|line| line.answer == "full")),
        ("65535 bytes", case.file.len() == 65_535),
        ("64 rows", start.operations.len() == 64),
        ("16384 entries", start.schedule.len() == 16_384),
    ];
    let shown = shown.into_iter().chain(counted(&text));
    for (item, _) in shown.filter(|shown| shown.1) {
        note("accepted with", item);
    }
    note("accepted, of", case.family);
    let k = start.cells.len().trailing_zeros();
    note("accepted, k", &k.to_string());
    note("accepted, has", &has(start));
}

/// How a wide total is listed that a narrow listing would have as pinned, or
/// that has a flag.
fn listed(width: Width, total: u64) -> Option<&'static str> {
    match (width, total) {
        (Width::Wide, 65_535) => Some("65535"),
        (Width::Wide, FLAG..) => Some("atleast"),
        _ => None,
    }
}

/// The total in the line of a live cell.
fn cell_total(line: &str) -> Option<u64> {
    let mut words = line.strip_prefix("cell ")?.split(' ').skip(2);
    total(&mut words)
}

/// The log of a text, as rows.
fn log(text: &str) -> Vec<usize> {
    let line = text.lines().find_map(|line| line.strip_prefix("log"));
    let rows = line.unwrap_or("").split_whitespace();
    rows.filter_map(|row| row.parse().ok()).collect()
}

/// What the first line of a text shows.
fn counted(text: &str) -> Vec<(&'static str, bool)> {
    let counts: Vec<&str> = text.lines().next().unwrap_or("").split(' ').collect();
    let [_, rows, _, done, _, lost, _, idle] = counts[..] else {
        return Vec::new();
    };
    vec![
        ("lost swaps", lost != "0"),
        ("idle entries", idle != "0"),
        ("unfinished", done != rows),
        ("all finished", done == rows && rows != "0"),
    ]
}

/// The cells that were empty at the start and hold a key now, with its home.
fn stored<'a, W: Word>(
    start: &'a Start<W>,
    text: &'a str,
) -> impl Iterator<Item = (u32, u32)> + 'a {
    let cell = |line: &str| {
        let (at, rest) = line.strip_prefix("cell ")?.split_once(' ')?;
        let key: u32 = rest.split_once(' ')?.0.parse().ok()?;
        let at: u32 = at.parse().ok()?;
        let new = start.cells.get(at as usize) == Some(&W::EMPTY);
        new.then_some((at, model::home(key, start.cells.len() as u32)))
    };
    text.lines().filter_map(cell)
}

/// Whether the search for a finished operation's key goes over a cell that was
/// a tombstone at the start: cells that are not empty stay so.
fn passes_tombstone<W: Word>(start: &Start<W>, line: &Line) -> bool {
    let c = start.cells.len();
    let home = model::home(u32::from(line.key), c as u32) as usize;
    let words = (0..c).map(|passed| start.cells[(home + passed) % c]);
    let mut passed = words.take_while(|&word| word != W::EMPTY && word.key() != line.key);
    line.answer != "unfinished" && passed.any(|word| word == W::TOMBSTONE)
}

/// Whether a key was removed by one operation and stored by another.
fn stored_again(lines: &[Line]) -> bool {
    let removed = |key| {
        lines
            .iter()
            .any(|line| line.key == key && line.answer == "removed")
    };
    lines
        .iter()
        .any(|line| line.answer == "inserted" && removed(line.key))
}

/// Which parts a file has besides its TB.
pub fn has<W: Word>(start: &Start<W>) -> String {
    let parts = [
        ("CL", start.cells.iter().any(|&word| word != W::EMPTY)),
        ("OP", !start.operations.is_empty()),
        ("SC", !start.schedule.is_empty()),
    ];
    let there = parts.iter().filter(|part| part.1).map(|part| part.0);
    let there: Vec<&str> = there.collect();
    if there.is_empty() {
        "none".into()
    } else {
        there.join(" ")
    }
}
