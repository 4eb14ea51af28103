//! The words, of either width: fields of a cell, of an operation and of an
//! answer, the home of a key, the sum of two totals.

use std::fmt::Debug;

/// A word of a cell or of an answer. Its type says the width: `u32` is the
/// narrow one, whose total 65,535 is pinned, `u64` the wide one, whose totals
/// have a flag for that. Operations are words of 64 bits in both, and the
/// width says where their fields stand.
///
/// What the rules ask of a width is here and nowhere else; the step rules, the
/// refusals, the reader and the listing are written once, for any word.
pub trait Word: Copy + Eq + Debug + From<u32> + Into<u64> {
    /// A total or an amount, a flag of its own included.
    type Total: Copy + Eq + Debug + Into<u64>;

    /// The word of an empty cell.
    const EMPTY: Self;

    /// The word of a deleted cell ("a cell whose room was removed", listed
    /// "gone").
    const TOMBSTONE: Self;

    const ZERO: Self::Total;

    /// How many bits of an operation or an answer the total takes.
    const TOTAL_BITS: u32;

    /// Whether totals have a flag, so that the number of a saturated one says
    /// something too.
    const FLAGGED: bool;

    /// The mark that a run file opens with.
    const MARK: &'static [u8; 2];

    /// How many bytes a total or an amount takes in a run file.
    const TOTAL_BYTES: usize;

    /// The word of a cell with this key and this total.
    fn pack(key: u16, total: Self::Total) -> Self;

    /// The key of a cell's word; a live key is a "room".
    fn key(self) -> u16;

    /// The total of a cell's word or of an answer's.
    fn total(self) -> Self::Total;

    fn answer(code: u8, total: Self::Total) -> Self;

    /// The code of an answer's word.
    fn code(self) -> u32;

    /// The amount of an operation's word.
    fn amount(operation: u64) -> Self::Total;

    /// Whether a total may stand in a cell or an operation.
    fn is_total(total: Self::Total) -> bool;

    /// Whether a total is saturated ("pinned": at least that much).
    fn is_saturated(total: Self::Total) -> bool;

    /// The number that a total says, whether or not it is saturated.
    fn number(total: Self::Total) -> u32;

    /// The sum of two totals, held at the width's ceiling.
    fn sum(a: Self::Total, b: Self::Total) -> Self::Total;

    /// Whether these bytes of a run file are a total, the run's checks aside.
    fn is_total_bytes(bytes: &[u8]) -> bool;

    /// The total that such bytes say, high byte first.
    fn total_of_bytes(bytes: &[u8]) -> Self::Total;

    /// Writes such bytes for a total.
    fn write_total(total: Self::Total, bytes: &mut [u8]);

    /// The total that says this number and is saturated or not, as asked;
    /// nothing where the width has none.
    fn total_saying(number: u32, saturated: bool) -> Option<Self::Total>;
}

/// The narrow width: key in the upper sixteen bits, total in the lower.
impl Word for u32 {
    type Total = u16;

    const EMPTY: u32 = 0;
    const TOMBSTONE: u32 = 0xFFFF_0000;
    const ZERO: u16 = 0;
    const TOTAL_BITS: u32 = 16;
    const FLAGGED: bool = false;
    const MARK: &'static [u8; 2] = b"TB";
    const TOTAL_BYTES: usize = 2;

    #[inline]
    fn pack(key: u16, total: u16) -> u32 {
        u32::from(key) << 16 | u32::from(total)
    }

    #[inline]
    fn key(self) -> u16 {
        (self >> 16) as u16
    }

    #[inline]
    fn total(self) -> u16 {
        self as u16
    }

    #[inline]
    fn answer(code: u8, total: u16) -> u32 {
        u32::from(code) << 16 | u32::from(total)
    }

    #[inline]
    fn code(self) -> u32 {
        self >> 16
    }

    #[inline]
    fn amount(operation: u64) -> u16 {
        operation as u16
    }

    #[inline]
    fn is_total(_: u16) -> bool {
        true
    }

    #[inline]
    fn is_saturated(total: u16) -> bool {
        total == u16::MAX
    }

    #[inline]
    fn number(total: u16) -> u32 {
        u32::from(total)
    }

    #[inline]
    fn sum(a: u16, b: u16) -> u16 {
        a.saturating_add(b)
    }

    #[inline]
    fn is_total_bytes(_: &[u8]) -> bool {
        true
    }

    #[inline]
    fn total_of_bytes(bytes: &[u8]) -> u16 {
        u16::from_be_bytes([bytes[0], bytes[1]])
    }

    #[inline]
    fn write_total(total: u16, bytes: &mut [u8]) {
        bytes.copy_from_slice(&total.to_be_bytes());
    }

    #[inline]
    fn total_saying(number: u32, saturated: bool) -> Option<u16> {
        let total = u16::try_from(number).ok()?;
        // The number alone says whether it is saturated.
        (u32::is_saturated(total) == saturated).then_some(total)
    }
}

/// The flag of a wide total, in all words above its number: "pinned".
const FLAG: u64 = 1 << 32;

/// The most that a wide total can say. Without the flag it is no total.
const CEILING: u64 = FLAG - 1;

/// The wide width: key in bits 48 to 63, flag in bit 32, total in bits 0 to 31.
/// A total is taken with its flag, the lower 33 bits as they stand.
impl Word for u64 {
    type Total = u64;

    const EMPTY: u64 = 0;
    const TOMBSTONE: u64 = 0xFFFF_0000_0000_0000;
    const ZERO: u64 = 0;
    const TOTAL_BITS: u32 = 33;
    const FLAGGED: bool = true;
    const MARK: &'static [u8; 2] = b"TW";
    const TOTAL_BYTES: usize = 5;

    #[inline]
    fn pack(key: u16, total: u64) -> u64 {
        u64::from(key) << 48 | total
    }

    #[inline]
    fn key(self) -> u16 {
        (self >> 48) as u16
    }

    #[inline]
    fn total(self) -> u64 {
        self & (FLAG | CEILING)
    }

    #[inline]
    fn answer(code: u8, total: u64) -> u64 {
        u64::from(code) << 33 | total
    }

    #[inline]
    fn code(self) -> u32 {
        (self >> 33) as u32
    }

    #[inline]
    fn amount(operation: u64) -> u64 {
        operation.total()
    }

    #[inline]
    fn is_total(total: u64) -> bool {
        total != CEILING
    }

    #[inline]
    fn is_saturated(total: u64) -> bool {
        total & FLAG != 0
    }

    #[inline]
    fn number(total: u64) -> u32 {
        total as u32
    }

    #[inline]
    fn sum(a: u64, b: u64) -> u64 {
        // The numbers alone: two of 32 bits and no flag fit 64 bits.
        let held = CEILING.min((a & CEILING) + (b & CEILING));
        let reached = if held == CEILING { FLAG } else { 0 };
        (a | b) & FLAG | reached | held
    }

    #[inline]
    fn is_total_bytes(bytes: &[u8]) -> bool {
        bytes[0] <= 1
    }

    #[inline]
    fn total_of_bytes(bytes: &[u8]) -> u64 {
        let number = u32::from_be_bytes([bytes[1], bytes[2], bytes[3], bytes[4]]);
        u64::from(bytes[0]) << 32 | u64::from(number)
    }

    #[inline]
    fn write_total(total: u64, bytes: &mut [u8]) {
        bytes[0] = u8::from(u64::is_saturated(total));
        bytes[1..].copy_from_slice(&u64::number(total).to_be_bytes());
    }

    #[inline]
    fn total_saying(number: u32, saturated: bool) -> Option<u64> {
        Some(u64::from(saturated) << 32 | u64::from(number))
    }
}

#[inline]
pub(crate) fn is_live(key: u16) -> bool {
    key != 0 && key != u16::MAX
}

/// Whether a total became saturated and was not so before ("turns a true total
/// into a pinned one").
#[inline]
pub(crate) fn became_saturated<W: Word>(before: W::Total, after: W::Total) -> bool {
    !W::is_saturated(before) && W::is_saturated(after)
}

/// Whether a table may have this many cells.
#[inline]
pub(crate) fn is_size(c: usize) -> bool {
    c.is_power_of_two() && c <= 4_096
}

/// The hash for one number of cells.
#[derive(Clone, Copy)]
pub(crate) struct Homes {
    shift: u32,
}

impl Homes {
    /// For `c` cells; `c` is an allowed size.
    #[inline]
    pub(crate) fn of(c: usize) -> Homes {
        // Dividing by 65,536 / c, a power of two, is a shift.
        Homes {
            shift: 16 - c.trailing_zeros(),
        }
    }

    #[inline]
    pub(crate) fn home(self, key: u16) -> usize {
        // Wider than the hash, of which one cell leaves no bit.
        usize::from(key.wrapping_mul(40_503)) >> self.shift
    }
}

/// What `home` gives where the key or the number of cells is not allowed.
const NO_HOME: u32 = 65_535;

/// What `sum` gives besides the total where the first total has become
/// saturated ("the C++ caller gets 65,536 more if so").
const CAPPED: u32 = 65_536;

/// The home of `key` in `c` cells, and 65,535 where either is not allowed.
pub fn home(key: u32, c: u32) -> u32 {
    match u16::try_from(key) {
        Ok(key) if is_live(key) && is_size(c as usize) => Homes::of(c as usize).home(key) as u32,
        _ => NO_HOME,
    }
}

/// The sum of two narrow totals, saturated ("pinned") at 65,535, and 65,536
/// more where "a true first total became pinned". The second total's own pin is
/// not asked for, so that `sum(a, b)` and `sum(b, a)` may differ.
pub fn sum(a: u16, b: u16) -> u32 {
    let total = u32::sum(a, b);
    u32::from(total) + CAPPED * u32::from(became_saturated::<u32>(a, total))
}
