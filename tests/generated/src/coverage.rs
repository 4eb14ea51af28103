//! What the files and the texts written for them have shown, and what they
//! must have shown at least once.

use std::collections::BTreeMap;

use crate::fixed::names;
use crate::pairs::{in_one_record, Pairs, PAIRS};
use crate::recipes::RECIPES;
use crate::width::{Width, WIDTHS};

/// Lines of the table that both widths have: a title and its items. Behind a
/// colon stand the places at which an item must occur: `f` first, `m` a middle
/// one, `l` last. `X>Y` is a record with mark X behind one with mark Y; TB is TW
/// in a wide file. `true to CEILING capped` is an add that found a true total,
/// made it the ceiling of its width and was answered capped, BELOW being the
/// number next to it; `X then Y` one that would have been answered X had it not
/// lost its swap, and then was answered Y. `BELOW by pinned changed` is an update
/// that found that total, brought a pinned amount and was answered changed; what
/// updates are `pinned meanwhile by` is the operation that pinned the total after
/// the update had read a true one.
#[rustfmt::skip]
const LINES: &[(&str, &str)] = &[
    ("kinds", "find, insert, update, add, remove"),
    ("answers", "unfinished, found, inserted, present, changed, removed, absent, full, capped, held"),
    ("of find", "unfinished, found, absent"),
    ("of insert", "unfinished, inserted, present, full"),
    ("of update", "unfinished, changed, absent, held"),
    ("of add", "unfinished, inserted, changed, full, capped"),
    ("of remove", "unfinished, removed, absent"),
    ("adds around the ceiling", "true to BELOW changed, true to CEILING capped, true above capped, true by pinned capped, \
        0 by pinned capped, pinned by 0 changed, pinned by true changed, pinned by pinned changed, pinned inserted"),
    ("adds retried", "changed then capped, inserted then capped, capped then capped, capped then changed, \
        capped then changed pinned, capped then inserted"),
    ("over a pinned total", "find found, insert present, update held, add changed, remove removed"),
    ("updates around the ceiling", "pinned by 0 held, pinned by true held, pinned by pinned held, true by pinned changed, \
        BELOW by pinned changed, BELOW by true changed"),
    ("updates retried", "changed then changed, changed then absent, changed then held, changed twice then held"),
    ("updates pinned meanwhile by", "add capped, update changed"),
    ("behind a held update", "find found, insert present, update held, add changed, remove removed"),
    ("accepted with", "lost swaps, idle entries, unfinished, all finished, wraparound, tombstone passed, key stored again, \
        ended full, totals rule, 65535 bytes, 64 rows, 16384 entries"),
    ("refused, of", "single, pair, prefix, mutated, shuffled, noise, sized"),
    ("accepted, k", "0, 1, 2, 3, 4, 5, 6, 7, 8, 9, 10, 11, 12"),
    ("refused, k", "0, 1, 2, 3, 4, 5, 6, 7, 8, 9, 10, 11, 12"),
    ("refused in 1, 2 or 4 cells", "9, 10m, 10b, 11, 2, 4, 5, 6, 7, 8"),
    ("accepted, has", "none, CL, OP, CL OP, OP SC, CL OP SC"),
    ("refused 12", "by one, by more"),
    ("refused 10 mark, behind", "nothing, start, TB, CL, OP, SC"),
    ("refused 9", "unknown:fml, the other width's:ml, TB:ml, CL:fml, OP:fml, SC:f, unknown>TB, unknown>CL, unknown>OP, unknown>SC, \
        TB>TB, TB>CL, TB>OP, TB>SC, CL>OP, CL>SC, OP>SC"),
    ("refused 10 body", "TB>start, CL>TB, CL>CL, OP>TB, OP>CL, OP>OP, SC count>TB, SC count>CL, SC count>OP, SC count>SC, \
        SC>TB, SC>CL, SC>OP, SC>SC"),
    ("refused 11", "TB 13, TB 16, TB 63, TB 64, TB 255, twice:ml, descending:ml, not below c:fml, key 0:fml, SC 0:fml"),
    ("refused 2", "OP:ml, SC:ml"),
    ("refused 4", "total:fml"),
    ("refused 5", "kind 0:fml, kind 6:fml, kind 255:fml, key 0:fml, key 65535:fml, find amount:fml, remove amount:fml"),
    ("refused 6", "number of rows:fml, 255:fml, other:fml, no rows:f"),
    ("refused 7", "cell:ml"),
    ("refused 8", "cell:fml"),
    ("converted", "fitting, and back"),
    ("converted, k", "0, 1, 2, 3, 4, 5, 6, 7, 8, 9, 10, 11, 12"),
    ("converted, has", "none, CL, OP, SC, CL OP, CL SC, OP SC, CL OP SC"),
    ("converted with", "0 in CL, 65534 in CL, pinned in CL, tombstone with a total, 0 in OP, 65534 in OP, pinned in OP, \
        several SC, SC of 1, SC of 255, 64 rows, 16384 entries, 65535 bytes when wide"),
    ("converted, refused by the run", "4, 5, 6, 7, 8"),
    ("not converted", "2, 9, 10, 11, 12"),
    ("not converted by the other", "9, 12"),
];

/// What narrow files show besides: 22 for a result of 65,536 bytes or of more,
/// and the refusals that decide before it. What has no first mark is read as a
/// narrow file, so that only these are refused with 10 by both converters.
#[rustfmt::skip]
const NARROW_LINES: &[(&str, &str)] = &[
    ("converted", "long"),
    ("not converted 22", "by one, by more"),
    ("not converted by the other", "10"),
    ("not converted, before 22", "2, 9, 10, 11, 12"),
];

/// What wide files show besides, as lines or as more items of those. Of 13, the
/// place is that among the records with the mark. Where either side of a sum had a flag, `true by flagged below` is one whose whole
/// sum is below the ceiling. `found 65535` is a total that is listed so, and
/// true; `found atleast` one that is listed with its flag.
#[rustfmt::skip]
const WIDE_LINES: &[(&str, &str)] = &[
    ("adds with a flag", "true by flagged below capped, true by flagged to it capped, true by flagged above capped, \
        flagged by true below changed, flagged by true to it changed, flagged by true above changed, \
        flagged by flagged below changed, flagged by flagged to it changed, flagged by flagged above changed"),
    ("updates by the flag", "flagged 0 held, flagged below held, flagged 65535 held, flagged ceiling held, unflagged 65535 changed"),
    ("listed", "amount atleast, found atleast, present atleast, changed atleast, removed atleast, held atleast, cell atleast, \
        amount 65535, found 65535, present 65535, changed 65535, removed 65535, capped 65535, cell 65535"),
    ("refused 11", "CL flag 2:fml, CL flag 255:fml, CL other flag:fml, OP flag 2:fml, OP flag 255:fml, OP other flag:fml"),
    ("refused 4", "flag alone:fml, total and flag:fml, unflagged ceiling:fml"),
    ("refused 5", "find flag:fml, remove flag:fml, unflagged ceiling:fml"),
    ("not converted 13", "unflagged 65535 in CL:fml, unflagged above in CL:fml, flagged below in CL:fml, flagged above in CL:fml, \
        unflagged 65535 in OP:fml, unflagged above in OP:fml, flagged below in OP:fml, flagged above in OP:fml"),
    ("not converted, before 13", "2, 9, 10, 11, 12, 13"),
];

#[derive(Default)]
pub struct Coverage {
    counts: BTreeMap<(String, String, char), usize>,
}

impl Coverage {
    /// Notes that something occurred; the place is a blank if it has none.
    pub fn note(&mut self, width: Width, title: &str, item: &str, place: char) {
        let title = format!("{}{title}", width.name());
        let key = (title, item.into(), place);
        *self.counts.entry(key).or_insert(0) += 1;
    }

    pub fn merge(&mut self, other: Coverage) {
        for (key, count) in other.counts {
            *self.counts.entry(key).or_insert(0) += count;
        }
    }

    /// Prints the table; gives how many items it has, and names those that
    /// never occurred.
    pub fn print(&self) -> (usize, Vec<String>) {
        println!("coverage, with a/b/c for the first, a middle and the last place:");
        let mut asked = 0;
        let mut never = Vec::new();
        for (title, items) in WIDTHS.into_iter().flat_map(lines) {
            let mut shown = Vec::new();
            for item in items.split(", ") {
                let (item, places) = item.split_once(':').unwrap_or((item, " "));
                asked += places.len();
                shown.push(format!("{item} {}", self.shown(&title, item, places)));
                let gaps = places
                    .chars()
                    .filter(|&place| self.count(&title, item, place) == 0);
                never
                    .extend(gaps.map(|place| format!("{title}: {item} {place}").trim_end().into()));
            }
            println!("{title}: {}", shown.join(", "));
        }
        (asked, never)
    }

    fn shown(&self, title: &str, item: &str, places: &str) -> String {
        if places == " " {
            return self.count(title, item, ' ').to_string();
        }
        let count = |place| match places.contains(place) {
            true => self.count(title, item, place).to_string(),
            false => "-".into(),
        };
        ['f', 'm', 'l'].map(count).join("/")
    }

    fn count(&self, title: &str, item: &str, place: char) -> usize {
        let key = (title.into(), item.into(), place);
        self.counts.get(&key).copied().unwrap_or(0)
    }
}

/// The lines above as this width has them, and those of the fixed cases and of
/// the pairs of faults.
fn lines(width: Width) -> Vec<(String, String)> {
    let (ceiling, below) = (width.ceiling(), width.ceiling() - 1);
    let shared = |&(title, items): &(&str, &str)| {
        let items = items.replace("TB", width.mark_text());
        let items = items.replace("CEILING", &ceiling.to_string());
        (
            title.to_string(),
            items.replace("BELOW", &below.to_string()),
        )
    };
    let mut lines: Vec<(String, String)> = LINES.iter().map(shared).collect();
    let own = match width {
        Width::Narrow => NARROW_LINES,
        Width::Wide => WIDE_LINES,
    };
    for &(title, items) in own {
        match lines.iter_mut().find(|line| line.0 == title) {
            Some((_, there)) => *there += &format!(", {items}"),
            None => lines.push((title.into(), items.into())),
        }
    }
    let recipes: Vec<&str> = RECIPES.iter().map(|recipe| recipe.name).collect();
    lines.push(("accepted, of".into(), recipes.join(", ")));
    lines.push(("fixed".into(), names(width).join(", ")));
    let mut add = |pairs: Pairs, in_one_record| {
        let pair = |&(first, seconds): &(&str, &[&str])| {
            (pair_title(first, in_one_record), seconds.join(", "))
        };
        lines.extend(pairs.iter().map(pair));
    };
    add(PAIRS, false);
    add(in_one_record(width), true);
    let titled = |(title, items)| (format!("{}{title}", width.name()), items);
    lines.into_iter().map(titled).collect()
}

/// The title of the line of the pairs that this row of the table decides.
pub fn pair_title(first: &str, in_one_record: bool) -> String {
    match in_one_record {
        true => format!("{first} decides in one record with"),
        false => format!("{first} decides before"),
    }
}
