//! Words built by the specification's own sums, of either width.

use model::Word;

/// How the words of a width are summed up. A wide total with the flag is
/// `FLAG` more than its number.
pub trait Width: Word {
    /// What 1 more in a cell's key adds.
    const CELL_KEY: u64;
    /// What 1 more in an operation's key or in an answer's code adds.
    const ABOVE_TOTAL: u64;
    /// The word of a tombstone.
    const GONE: Self;
    /// The greatest total, which is pinned.
    const PINNED: u64;

    fn word(sum: u64) -> Self;
}

impl Width for u32 {
    const CELL_KEY: u64 = 65_536;
    const ABOVE_TOTAL: u64 = 65_536;
    const GONE: u32 = 4_294_901_760;
    const PINNED: u64 = 65_535;

    fn word(sum: u64) -> u32 {
        u32::try_from(sum).unwrap()
    }
}

/// The flag of a wide total.
pub const FLAG: u64 = 4_294_967_296;

impl Width for u64 {
    const CELL_KEY: u64 = 281_474_976_710_656;
    const ABOVE_TOTAL: u64 = 8_589_934_592;
    const GONE: u64 = 18_446_462_598_732_840_960;
    const PINNED: u64 = FLAG + 4_294_967_295;

    fn word(sum: u64) -> u64 {
        sum
    }
}

/// The word of a cell.
pub fn cell<W: Width>(key: u64, total: u64) -> W {
    W::word(key * W::CELL_KEY + total)
}

/// `c` cells, all empty but those named by number, key and total.
pub fn filled<W: Width>(c: usize, named: &[(usize, u64, u64)]) -> Vec<W> {
    let mut cells = vec![W::word(0); c];
    for &(number, key, total) in named {
        cells[number] = cell(key, total);
    }
    cells
}

/// The word of an operation ("row").
pub fn row<W: Width>(kind: &str, key: u64, amount: u64) -> u64 {
    let kinds = ["find", "insert", "update", "add", "remove"];
    let number = 1 + kinds.iter().position(|&name| name == kind).unwrap() as u64;
    (number * 65_536 + key) * W::ABOVE_TOTAL + amount
}
