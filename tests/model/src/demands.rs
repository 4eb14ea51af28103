//! The demands on a run, checked without the step rules: that the table does
//! as the one-at-a-time map does (demand 2), and that totals are kept
//! (demand 3).
//!
//! The fields of the words are taken apart here once more, by quotient and
//! remainder, so that a slip in the other modules is not repeated.

use std::collections::{BTreeMap, BTreeSet};
use std::fmt;

use crate::refuse::refusal;
use crate::run::{run, State};
use crate::word::Word;

/// What fills the slices lent beyond what a run may write; in either width the
/// answer is one that no run gives: it has code 0 and a total, or no code there is.
const UNTOUCHED_ANSWER: u32 = 0xA5A5_A5A5;
const UNTOUCHED_LOG: u8 = 0xA5;

/// Where the fields of a width's words stand, as what 1 in a field counts for.
struct Width {
    /// The key in a cell.
    cell_key: u64,
    /// The key in an operation and the code in an answer: both stand right
    /// above the total.
    above: u64,
    /// The kind in an operation.
    kind: u64,
    /// The flag that says that a total is pinned, where the width has one.
    flag: Option<u64>,
    /// The most a total can say ("pinned": at least that much).
    most: u64,
}

const NARROW: Width = Width {
    cell_key: 65_536,
    above: 65_536,
    kind: 4_294_967_296,
    flag: None,
    most: 65_535,
};

const WIDE: Width = Width {
    cell_key: 281_474_976_710_656,
    above: 8_589_934_592,
    kind: 562_949_953_421_312,
    flag: Some(4_294_967_296),
    most: 4_294_967_295,
};

impl Width {
    fn of<W: Word>() -> &'static Width {
        match size_of::<W>() {
            4 => &NARROW,
            _ => &WIDE,
        }
    }

    /// The key and the total of a cell.
    fn cell(&self, word: u64) -> (u64, Total) {
        (word / self.cell_key, self.total(word % self.cell_key))
    }

    /// The code and the total of an answer.
    fn answer(&self, word: u64) -> (u64, Total) {
        (word / self.above, self.total(word % self.above))
    }

    /// The kind, the key and the amount of an operation.
    fn operation(&self, word: u64) -> (u64, u64, Total) {
        let key = word % self.kind / self.above;
        (word / self.kind, key, self.total(word % self.above))
    }

    fn total(&self, field: u64) -> Total {
        match self.flag {
            None => Total {
                number: field,
                flag: 0,
            },
            Some(flag) => Total {
                number: field % flag,
                flag: field / flag,
            },
        }
    }

    /// A sum of whole numbers, held at the most a total can say; `pinned` is
    /// whether any of them was pinned.
    fn held(&self, sum: u64, pinned: bool) -> Total {
        let flagged = self.flag.is_some() && (pinned || sum >= self.most);
        Total {
            number: sum.min(self.most),
            flag: u64::from(flagged),
        }
    }

    fn pinned(&self, total: Total) -> bool {
        total.flag != 0 || total.number == self.most
    }
}

/// A total or an amount. The flag is 1 where the total has one; a stray bit
/// above it makes it more than that.
#[derive(Clone, Copy, PartialEq, Eq)]
struct Total {
    number: u64,
    flag: u64,
}

/// What an answer carries whose code has no total.
const NOTHING: Total = Total { number: 0, flag: 0 };

impl fmt::Debug for Total {
    fn fmt(&self, out: &mut fmt::Formatter) -> fmt::Result {
        match self.flag {
            0 => write!(out, "{}", self.number),
            1 => write!(out, "{} flagged", self.number),
            stray => write!(out, "{} with {stray} above", self.number),
        }
    }
}

/// What a run left: the operations finished, the cells, one answer for each
/// operation and the linearization order ("log").
#[derive(Debug, Clone)]
pub struct After<W = u32> {
    pub done: usize,
    pub cells: Vec<W>,
    pub answers: Vec<W>,
    pub log: Vec<u8>,
}

/// The live pairs of some cells, each key with its total.
type Pairs = BTreeMap<u64, Total>;

/// The one-at-a-time map: pairs, and a number of used cells out of `c`.
struct Map {
    width: &'static Width,
    pairs: Pairs,
    used: usize,
    c: usize,
}

impl Map {
    fn of<W: Word>(cells: &[W]) -> Result<Map, String> {
        Ok(Map {
            width: Width::of::<W>(),
            pairs: live_pairs(cells)?,
            used: not_empty(cells),
            c: cells.len(),
        })
    }

    /// Does one whole operation and gives its answer's code and total.
    fn perform(&mut self, operation: u64) -> (u64, Total) {
        let width = self.width;
        let (kind, key, amount) = width.operation(operation);
        match (kind, self.pairs.get(&key).copied()) {
            (1, Some(total)) => (1, total),
            (2, Some(total)) => (3, total),
            (3, Some(total)) => {
                // "A pinned total may not be typed over": it stands there after
                // the update as before, held; any other gives way, changed.
                let (code, left) = match width.pinned(total) {
                    true => (9, total),
                    false => (4, amount),
                };
                self.pairs.insert(key, left);
                (code, total)
            }
            (4, Some(total)) => {
                let (was, brought) = (width.pinned(total), width.pinned(amount));
                let new = width.held(total.number + amount.number, was || brought);
                self.pairs.insert(key, new);
                // The add that uses up all that a true total leaves below the
                // ceiling "hit the ceiling", and so did one that brought a
                // pinned amount: capped; any other is changed.
                let used_up = amount.number >= width.most - total.number;
                let code = if !was && (brought || used_up) { 8 } else { 4 };
                (code, total)
            }
            (5, Some(total)) => {
                self.pairs.remove(&key);
                (5, total)
            }
            (2 | 4, None) if self.used == self.c => (7, NOTHING),
            (2 | 4, None) => {
                self.pairs.insert(key, amount);
                self.used += 1;
                (2, NOTHING)
            }
            _ => (6, NOTHING),
        }
    }

    /// Whether the cells hold the map's pairs, each once, and as many cells are
    /// used as it says.
    fn compare<W: Word>(&self, cells: &[W]) -> Result<(), String> {
        let pairs = live_pairs(cells)?;
        if pairs != self.pairs {
            return Err(format!(
                "the cells hold the pairs {pairs:?}, the map {:?}",
                self.pairs
            ));
        }
        let used = not_empty(cells);
        if used != self.used {
            return Err(format!("{used} cells are used, in the map {}", self.used));
        }
        Ok(())
    }
}

fn not_empty<W: Word>(cells: &[W]) -> usize {
    cells.iter().filter(|&&word| word.into() != 0).count()
}

/// The live pairs of the cells; no key may have two cells.
fn live_pairs<W: Word>(cells: &[W]) -> Result<Pairs, String> {
    let mut pairs = Pairs::new();
    for &word in cells {
        let (key, total) = Width::of::<W>().cell(word.into());
        let live = (1..=65_534).contains(&key);
        if live && pairs.insert(key, total).is_some() {
            return Err(format!("key {key} has two live cells"));
        }
    }
    Ok(pairs)
}

fn refused(number: u32, place: usize) -> String {
    format!("the call is refused {number} at {place}")
}

/// Runs the schedule on copies of an accepted call's start.
fn after<W: Word>(cells: &[W], operations: &[u64], schedule: &[u8]) -> Result<After<W>, String> {
    let count = operations.len();
    let mut cells = cells.to_vec();
    let untouched = W::from(UNTOUCHED_ANSWER);
    let mut answers = vec![untouched; count + 1];
    let mut log = vec![UNTOUCHED_LOG; count + 1];
    let outcome = run(&mut cells, operations, schedule, &mut answers, &mut log);
    if outcome.number != 0 {
        return Err(refused(outcome.number, outcome.place));
    }
    if answers.pop() != Some(untouched) {
        return Err(String::from("an answer past the operations was written"));
    }
    // What the log holds is told by its own bytes, not by the done count.
    let written = log.iter().position(|&byte| byte == UNTOUCHED_LOG);
    let rest = log.split_off(written.ok_or("the log is longer than the operations")?);
    if rest.iter().any(|&byte| byte != UNTOUCHED_LOG) {
        return Err(String::from("the log has a gap"));
    }
    Ok(After {
        done: outcome.done,
        cells,
        answers,
        log,
    })
}

/// Demand 2 for a whole run: the answers of the finished operations and the
/// live pairs of the final cells are those of the one-at-a-time map doing the
/// finished operations in the order of the log.
pub fn linearizable<W: Word>(
    cells: &[W],
    operations: &[u64],
    schedule: &[u8],
) -> Result<(), String> {
    agrees_with_map(cells, operations, &after(cells, operations, schedule)?)
}

/// Demand 2 for what a run, by whatever program, is said to have left.
pub fn agrees_with_map<W: Word>(
    start: &[W],
    operations: &[u64],
    after: &After<W>,
) -> Result<(), String> {
    if after.cells.len() != start.len() {
        return Err(String::from("the number of cells has changed"));
    }
    if after.answers.len() != operations.len() {
        return Err(String::from("there is not one answer for each operation"));
    }
    if after.done != after.log.len() {
        return Err(format!(
            "{} operations are done, {} are in the log",
            after.done,
            after.log.len()
        ));
    }
    log_names_finished(after)?;
    let mut map = Map::of(start)?;
    for &row in &after.log {
        let row = usize::from(row);
        compare_answer(row, after.answers[row], map.perform(operations[row]))?;
    }
    map.compare(&after.cells)
}

/// Every finished operation is in the log exactly once, and no other is; an
/// unfinished one has answer 0, total and all.
fn log_names_finished<W: Word>(after: &After<W>) -> Result<(), String> {
    let mut logged = BTreeSet::new();
    for &row in &after.log {
        if usize::from(row) >= after.answers.len() {
            return Err(format!("the log names {row}, which is no operation"));
        }
        if !logged.insert(usize::from(row)) {
            return Err(format!("the log names operation {row} twice"));
        }
    }
    for (row, &answer) in after.answers.iter().enumerate() {
        let (code, total) = Width::of::<W>().answer(answer.into());
        let finished = code != 0;
        if finished && !logged.contains(&row) {
            return Err(format!("operation {row} is finished but not in the log"));
        }
        if !finished && logged.contains(&row) {
            return Err(format!("operation {row} is in the log but not finished"));
        }
        if !finished && total != NOTHING {
            return Err(format!("operation {row} is unfinished, answer {total:?}"));
        }
    }
    Ok(())
}

fn compare_answer<W: Word>(row: usize, answer: W, expected: (u64, Total)) -> Result<(), String> {
    let answer = Width::of::<W>().answer(answer.into());
    if answer == expected {
        return Ok(());
    }
    let ((code, total), (map_code, map_total)) = (answer, expected);
    Err(format!(
        "operation {row} answers code {code} total {total:?}, \
         the map code {map_code} total {map_total:?}"
    ))
}

/// Demand 2 after every prefix of the schedule, the empty one and the whole
/// one included; and an entry that does not finish its operation leaves the
/// cells as they were.
pub fn linearizable_at_every_prefix<W: Word>(
    cells: &[W],
    operations: &[u64],
    schedule: &[u8],
) -> Result<(), String> {
    // Only an accepted call has steps to look at.
    let count = operations.len();
    if let Some((number, place)) = refusal(cells, operations, schedule, count, count) {
        return Err(refused(number, place));
    }
    let mut watched = Watched::start(cells, operations)?;
    for (place, &entry) in schedule.iter().enumerate() {
        watched
            .entry(entry, operations)
            .map_err(|what| format!("after entry {place}, naming {entry}: {what}"))?;
    }
    Ok(())
}

/// A run taken one entry at a time, with what the map says beside it. The map
/// does one operation at each entry that finishes one; nothing is replayed.
struct Watched<W: Word> {
    state: State<W>,
    cells: Vec<W>,
    answers: Vec<W>,
    log: Vec<u8>,
    map: Map,
    expected_cells: Vec<W>,
    expected_answers: Vec<W>,
    expected_log: Vec<u8>,
}

impl<W: Word> Watched<W> {
    fn start(cells: &[W], operations: &[u64]) -> Result<Watched<W>, String> {
        let count = operations.len();
        let mut answers = vec![W::from(UNTOUCHED_ANSWER); count];
        let watched = Watched {
            state: State::start(cells.len(), operations, &mut answers),
            cells: cells.to_vec(),
            answers,
            log: vec![UNTOUCHED_LOG; count],
            map: Map::of(cells)?,
            expected_cells: cells.to_vec(),
            expected_answers: vec![W::from(0); count],
            expected_log: Vec::new(),
        };
        watched.compare()?;
        Ok(watched)
    }

    fn entry(&mut self, entry: u8, operations: &[u64]) -> Result<(), String> {
        let row = usize::from(entry);
        self.state
            .entry(entry, &mut self.cells, &mut self.answers, &mut self.log);
        let unfinished = W::from(0);
        if self.answers[row] != unfinished && self.expected_answers[row] == unfinished {
            let expected = self.map.perform(operations[row]);
            compare_answer(row, self.answers[row], expected)?;
            self.map.compare(&self.cells)?;
            self.expected_answers[row] = self.answers[row];
            self.expected_log.push(entry);
            self.expected_cells.copy_from_slice(&self.cells);
        }
        self.compare()
    }

    /// Nothing differs but by the entries that finished an operation.
    fn compare(&self) -> Result<(), String> {
        if self.cells != self.expected_cells {
            return Err(String::from("a cell changed and no operation finished"));
        }
        if self.answers != self.expected_answers {
            return Err(format!(
                "the answers are {:?}, expected {:?}",
                self.answers, self.expected_answers
            ));
        }
        let (written, rest) = self.log.split_at(self.expected_log.len());
        if written != self.expected_log || rest.iter().any(|&byte| byte != UNTOUCHED_LOG) {
            return Err(format!(
                "the log is {:?}, expected {:?}",
                self.log, self.expected_log
            ));
        }
        let done = self.state.outcome().done;
        if done != self.expected_log.len() {
            return Err(format!("done is {done}, the log {:?}", self.expected_log));
        }
        Ok(())
    }
}

/// Demand 3, the totals rule, for a whole run: `Ok(false)` where it says
/// nothing, because an operation is neither find nor add, or is unfinished, or
/// because the cells do not suffice.
pub fn totals<W: Word>(cells: &[W], operations: &[u64], schedule: &[u8]) -> Result<bool, String> {
    let after = after(cells, operations, schedule)?;
    totals_kept(cells, operations, after.done, &after.cells)
}

/// Demand 3 for what a run, by whatever program, is said to have left.
pub fn totals_kept<W: Word>(
    start: &[W],
    operations: &[u64],
    done: usize,
    cells: &[W],
) -> Result<bool, String> {
    let width = Width::of::<W>();
    let before = live_pairs(start)?;
    let Some(added) = amounts_added(width, operations) else {
        return Ok(false);
    };
    // A tombstone is not empty; a room counts once, and only if it is new.
    let empty = start.len() - not_empty(start);
    let new = added.keys().filter(|key| !before.contains_key(key)).count();
    if done != operations.len() || new > empty {
        return Ok(false);
    }
    let after = live_pairs(cells)?;
    let named = operations.iter().map(|&word| width.operation(word).1);
    let mut rooms: BTreeSet<u64> = named.collect();
    rooms.extend(before.keys().chain(after.keys()));
    for room in rooms {
        let expected = match (before.get(&room), added.get(&room)) {
            (None, None) => None,
            (total, amounts) => {
                let summands = || total.into_iter().chain(amounts.into_iter().flatten());
                let sum = summands().map(|summand| summand.number).sum();
                let pinned = summands().any(|&summand| width.pinned(summand));
                Some(width.held(sum, pinned))
            }
        };
        let total = after.get(&room).copied();
        if total != expected {
            return Err(format!(
                "room {room} has total {total:?}, expected {expected:?}"
            ));
        }
    }
    Ok(true)
}

/// The amounts added to each added room, or nothing where some operation is
/// neither find nor add.
fn amounts_added(width: &Width, operations: &[u64]) -> Option<BTreeMap<u64, Vec<Total>>> {
    let mut added = BTreeMap::<_, Vec<_>>::new();
    for &word in operations {
        match width.operation(word) {
            (1, _, _) => {}
            (4, key, amount) => added.entry(key).or_default().push(amount),
            _ => return None,
        }
    }
    Some(added)
}
