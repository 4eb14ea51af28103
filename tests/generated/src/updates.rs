//! What the updates of an accepted run have shown of pinned totals, which "may
//! not be typed over": the total that each found and the amount that it brought,
//! what a lost swap did to its answer, and what came behind one that was held.

use model::Word;

use crate::classify::Start;
use crate::observe::Line;
use crate::stops::{lost_totals, total_of, Stops};
use crate::width::{Width, FLAG};

/// Notes the answers over pinned totals, and of each update what it met, then
/// and at the swaps that it lost.
pub fn updates<W: Word>(
    width: Width,
    start: &Start<W>,
    stops: &Stops<W>,
    (lines, log): (&[Line], &[usize]),
    note: &mut impl FnMut(&str, &str),
) {
    for line in lines.iter().filter(|line| width.is_pinned(line.total)) {
        note("over a pinned total", &answered(line));
    }
    let rows = lines.iter().enumerate();
    for (row, line) in rows.filter(|row| row.1.kind == "update") {
        if let Some(met) = met(width, line) {
            let item = format!("{met} {}", line.answer);
            note("updates around the ceiling", &item);
        }
        if let Some(flag) = flag(line) {
            note("updates by the flag", &format!("{flag} {}", line.answer));
        }
        let lost = lost_totals(stops, &start.schedule, row, line.key);
        // Whatever it held was true: any swap of its own would have been changed.
        for _ in &lost {
            note("updates retried", &format!("changed then {}", line.answer));
        }
        if line.answer != "held" {
            continue;
        }
        if lost.len() > 1 {
            note("updates retried", "changed twice then held");
        }
        if !lost.is_empty() {
            if let Some(by) = pinned_by(width, start, stops, row, line.key) {
                note("updates pinned meanwhile by", &answered(&lines[by]));
            }
        }
        if let Some(next) = next(lines, log, row) {
            note("behind a held update", &answered(next));
        }
    }
}

fn answered(line: &Line) -> String {
    format!("{} {}", line.kind, line.answer)
}

/// The total that an update found, by its answer, and the amount that it brought.
fn met(width: Width, line: &Line) -> Option<String> {
    if !matches!(line.answer, "changed" | "held") {
        return None;
    }
    let below = width.ceiling() - 1;
    match (width.is_pinned(line.total), width.is_pinned(line.amount)) {
        (true, false) if line.amount == 0 => Some("pinned by 0".into()),
        (true, false) => Some("pinned by true".into()),
        (true, true) => Some("pinned by pinned".into()),
        (false, true) if line.total == below => Some(format!("{below} by pinned")),
        (false, true) => Some("true by pinned".into()),
        (false, false) if line.total == below => Some(format!("{below} by true")),
        (false, false) => None,
    }
}

/// The number that an update found a flag at, for the flag counts and not the
/// number; or a 65,535 without one, which is true.
fn flag(line: &Line) -> Option<&'static str> {
    match line.total.checked_sub(FLAG) {
        None if line.total == 65_535 => Some("unflagged 65535"),
        None => None,
        Some(0) => Some("flagged 0"),
        Some(65_535) => Some("flagged 65535"),
        Some(number) if number == Width::Wide.ceiling() => Some("flagged ceiling"),
        Some(_) => Some("flagged below"),
    }
}

/// The last row that made the total of a key a pinned one before this row
/// finished.
fn pinned_by<W: Word>(
    width: Width,
    start: &Start<W>,
    stops: &Stops<W>,
    row: usize,
    key: u16,
) -> Option<usize> {
    let pinned = |cells: &[W]| total_of(cells, key).is_some_and(|total| width.is_pinned(total));
    let mut by = None;
    for (stop, &entry) in stops.windows(2).zip(&start.schedule) {
        let [(_, before, ..), (_, after, answers, _)] = stop else {
            break;
        };
        if answers[row].code() != 0 {
            break;
        }
        if !pinned(before) && pinned(after) {
            by = Some(usize::from(entry));
        }
    }
    by
}

/// The next operation on the same key that finished behind a row.
fn next<'a>(lines: &'a [Line<'a>], log: &[usize], row: usize) -> Option<&'a Line<'a>> {
    let key = lines[row].key;
    let behind = log.iter().skip_while(|&&logged| logged != row).skip(1);
    let mut behind = behind.filter_map(|&logged| lines.get(logged));
    behind.find(|line| line.key == key)
}
