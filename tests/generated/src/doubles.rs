//! Two faults in one record, where the order within a record decides.

use crate::faults::{fault, Fault, Parts, Then};
use crate::plan::{entries, Cell};
use crate::random::Random;
use crate::width::{Width, FLAG};

/// Totals with flag bytes that are not allowed.
const WRONG: [u64; 2] = [2 * FLAG, 255 * FLAG + 7];

impl Parts<'_> {
    /// A record with two faults, and one with the second alone.
    pub fn double(&self, rows: (&str, &str), random: &mut Random) -> (Fault, Fault) {
        match rows {
            ("9", "10b") => self.misplaced_and_cut(random),
            ("9", "11") => self.misplaced_and_wrong(random),
            ("10b", "11") => self.cut_and_wrong(random),
            ("11", _) => {
                let at = self.records.entries;
                let put = |record| fault((at, at), record, Then::Follows);
                let wrong = self.operation_of(random.pick(&WRONG));
                (put(wrong), put(self.operation()))
            }
            ("9", _) => {
                let (row, at) = (self.operation(), self.records.entries);
                let both = fault(self.behind_entries(), row.clone(), Then::Follows);
                (both, fault((at, at), row, Then::Follows))
            }
            _ => {
                let record = self.one_more(random);
                let at = self.behind_last(&record);
                let alone = fault((at, at), record, Then::Follows);
                (cut_short(&alone, 3, random), alone)
            }
        }
    }

    fn misplaced_and_cut(&self, random: &mut Random) -> (Fault, Fault) {
        let end = self.end();
        let wrong = [
            (1, end),
            self.behind_operations(),
            self.behind_entries(),
            (0, 0),
        ];
        let right = [
            (0, 0),
            self.among_cells(),
            (1, self.records.entries),
            (1, end),
        ];
        let sound = [
            self.table(self.k),
            self.cell(0, Cell { key: 1, total: 2 }),
            self.operation(),
            entries(&[0, 0, 0]),
        ];
        let which = random.below(4);
        let whole = fault(right[which], sound[which].clone(), Then::Follows);
        let alone = cut_short(&whole, 2, random);
        (fault(wrong[which], alone.record.clone(), Then::Ends), alone)
    }

    fn misplaced_and_wrong(&self, random: &mut Random) -> (Fault, Fault) {
        let end = self.end();
        let beyond = self.cell(1 << self.k, Cell { key: 1, total: 2 });
        let keyless = self.cell(0, Cell { key: 0, total: 2 });
        let then = Then::Follows;
        // Narrow files are those of before A2, which made a table of k = 2 right.
        let (ways, k) = match self.width {
            Width::Narrow => (4, 2),
            Width::Wide => (6, 13),
        };
        let (wrong, right) = match random.below(ways) {
            0 => ((1, end), fault((0, 0), self.table(k), Then::IsReplaced)),
            1 => (
                self.behind_operations(),
                fault(self.among_cells(), beyond, then),
            ),
            2 => (self.behind_operations(), fault((1, 1), keyless, then)),
            3 => ((0, 0), fault(self.among_entries(), entries(&[]), then)),
            4 => {
                let total = random.pick(&WRONG);
                let flagged = self.cell(0, Cell { key: 1, total });
                (self.behind_operations(), fault((1, 1), flagged, then))
            }
            _ => {
                let flagged = self.operation_of(random.pick(&WRONG));
                let right = fault(self.among_operations(), flagged, then);
                (self.behind_entries(), right)
            }
        };
        (fault(wrong, right.record.clone(), then), right)
    }

    /// The part of the body that is there is wrong already.
    fn cut_and_wrong(&self, random: &mut Random) -> (Fault, Fault) {
        let beyond = self.cell(1 << self.k, Cell { key: 1, total: 2 });
        let keyless = self.cell(0, Cell { key: 0, total: 2 });
        let ways = match self.width {
            Width::Narrow => 2,
            Width::Wide => 4,
        };
        let (alone, there) = match random.below(ways) {
            0 => (fault(self.among_cells(), beyond, Then::Follows), 4),
            1 => (fault((1, 1), keyless, Then::Follows), 6),
            2 => {
                let total = random.pick(&WRONG);
                let flagged = self.cell(0, Cell { key: 1, total });
                (fault((1, 1), flagged, Then::Follows), 7)
            }
            _ => {
                let flagged = self.operation_of(random.pick(&WRONG));
                let alone = fault(self.among_operations(), flagged, Then::Follows);
                (alone, 6)
            }
        };
        (cut_short(&alone, there, random), alone)
    }
}

/// The same record cut, with at least so many bytes left.
fn cut_short(whole: &Fault, left: usize, random: &mut Random) -> Fault {
    let mut record = whole.record.clone();
    record.truncate(random.between(left, whole.record.len() - 1));
    fault((whole.lowest, whole.highest), record, Then::Ends)
}
