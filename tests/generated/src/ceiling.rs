//! What the adds of an accepted run have shown of the ceiling: the total that
//! each found, the sum that it made, and what a lost swap did to its answer.

use std::cmp::Ordering;

use model::Word;

use crate::classify::Start;
use crate::observe::Line;
use crate::stops::{lost_totals, Stops};
use crate::width::{Width, FLAG};

/// Notes the sums around the ceiling, and for each swap that an add lost what
/// would have been answered there and what was answered in the end.
pub fn adds<W: Word>(
    width: Width,
    start: &Start<W>,
    stops: &Stops<W>,
    lines: &[Line],
    note: &mut impl FnMut(&str, &str),
) {
    let rows = lines.iter().enumerate();
    for (row, line) in rows.filter(|row| row.1.kind == "add") {
        if let Some(sum) = sum(width, line) {
            let item = format!("{sum} {}", line.answer);
            note("adds around the ceiling", &item);
        }
        if let Some(sum) = flagged_sum(width, line) {
            note("adds with a flag", &format!("{sum} {}", line.answer));
        }
        for held in lost_totals(stops, &start.schedule, row, line.key) {
            let foreseen = foreseen(width, held, line.amount);
            let item = format!("{foreseen} then {}", answered(width, line));
            note("adds retried", &item);
        }
    }
}

/// The number of a total, whether or not it has a flag.
fn number(total: u64) -> u64 {
    total % FLAG
}

/// The total that an add found, by its answer, and what it made of it.
fn sum(width: Width, line: &Line) -> Option<String> {
    let pinned = |total| width.is_pinned(total);
    match line.answer {
        "inserted" if pinned(line.amount) => return Some("pinned".into()),
        "changed" | "capped" => {}
        _ => return None,
    }
    let (ceiling, sum) = (width.ceiling(), number(line.total) + number(line.amount));
    match (pinned(line.total), pinned(line.amount)) {
        (true, false) if line.amount == 0 => Some("pinned by 0".into()),
        (true, false) => Some("pinned by true".into()),
        (true, true) => Some("pinned by pinned".into()),
        (false, true) if line.total == 0 => Some("0 by pinned".into()),
        (false, true) => Some("true by pinned".into()),
        (false, false) if sum > ceiling => Some("true above".into()),
        // To the ceiling or right below it, by that number.
        (false, false) if sum + 1 >= ceiling => Some(format!("true to {sum}")),
        (false, false) => None,
    }
}

/// Where the whole sum of an add lies that had a flag on either side: with one
/// it need not be at the ceiling to be pinned.
fn flagged_sum(width: Width, line: &Line) -> Option<String> {
    let named = |total| if total >= FLAG { "flagged" } else { "true" };
    let sides = (named(line.total), named(line.amount));
    if sides == ("true", "true") || !matches!(line.answer, "changed" | "capped") {
        return None;
    }
    let sum = number(line.total) + number(line.amount);
    let lies = match sum.cmp(&width.ceiling()) {
        Ordering::Less => "below",
        Ordering::Equal => "to it",
        Ordering::Greater => "above",
    };
    Some(format!("{} by {} {lies}", sides.0, sides.1))
}

fn answered(width: Width, line: &Line) -> String {
    match line.answer {
        "changed" if width.is_pinned(line.total) => "changed pinned".into(),
        answer => answer.into(),
    }
}

/// What an add would have been answered, had the swap been won that it lost
/// while it held this total, or an empty cell.
fn foreseen(width: Width, held: Option<u64>, amount: u64) -> &'static str {
    match held {
        None => "inserted",
        Some(total) if width.is_pinned(total) => "changed pinned",
        Some(_) if width.is_pinned(amount) => "capped",
        Some(total) if total + amount >= width.ceiling() => "capped",
        Some(_) => "changed",
    }
}
