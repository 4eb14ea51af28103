//! The two widths of run files: how each spells its totals, and which there are.

use crate::random::Random;

#[derive(Clone, Copy, Debug, PartialEq, Eq)]
pub enum Width {
    Narrow,
    Wide,
}

pub const WIDTHS: [Width; 2] = [Width::Narrow, Width::Wide];

/// The flag of a wide total: with it a total is this much more than its number.
/// Twice as much and more make flag bytes that are not allowed.
pub const FLAG: u64 = 1 << 32;

impl Width {
    /// The width that a program reads a file in: by its first mark.
    pub fn of(file: &[u8]) -> Width {
        match file.starts_with(Width::Wide.mark()) {
            true => Width::Wide,
            false => Width::Narrow,
        }
    }

    /// What is put before the titles of the coverage table.
    pub fn name(self) -> &'static str {
        match self {
            Width::Narrow => "",
            Width::Wide => "wide ",
        }
    }

    pub fn mark(self) -> &'static [u8; 2] {
        match self {
            Width::Narrow => b"TB",
            Width::Wide => b"TW",
        }
    }

    pub fn mark_text(self) -> &'static str {
        match self {
            Width::Narrow => "TB",
            Width::Wide => "TW",
        }
    }

    /// The first mark of the other width, which is none in this one.
    pub fn other_mark(self) -> &'static [u8; 2] {
        match self {
            Width::Narrow => Width::Wide.mark(),
            Width::Wide => Width::Narrow.mark(),
        }
    }

    fn total_bytes(self) -> usize {
        match self {
            Width::Narrow => 2,
            Width::Wide => 5,
        }
    }

    /// The length of a CL record.
    pub fn cell_bytes(self) -> usize {
        6 + self.total_bytes()
    }

    /// The length of an OP record.
    pub fn operation_bytes(self) -> usize {
        5 + self.total_bytes()
    }

    /// The greatest number that a total can say, which is pinned.
    pub fn ceiling(self) -> u64 {
        match self {
            Width::Narrow => 65_535,
            Width::Wide => FLAG - 1,
        }
    }

    /// A total or an amount as a file has it.
    pub fn spelled(self, total: u64) -> Vec<u8> {
        // High byte first: the last bytes of all eight.
        total.to_be_bytes()[8 - self.total_bytes()..].to_vec()
    }

    pub fn is_pinned(self, total: u64) -> bool {
        match self {
            Width::Narrow => total == self.ceiling(),
            Width::Wide => total >= FLAG,
        }
    }

    /// Any total or amount that is allowed.
    pub fn any_total(self, random: &mut Random) -> u64 {
        match self {
            Width::Narrow => u64::from(random.word()),
            Width::Wide => match random.next() % (2 * FLAG) {
                // Without its flag the ceiling is no total.
                total if total == self.ceiling() => FLAG,
                total => total,
            },
        }
    }
}
