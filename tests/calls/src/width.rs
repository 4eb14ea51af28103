//! The two widths, as documents 01 and 02 have them: where the fields of the
//! words stand, as what 1 in a field counts for, and which totals there are.
//!
//! A total stands with its flag, if it has one: the wide total "at least 3" is
//! 4,294,967,299.

use std::ops::Range;

use generated::files::{case, conversion_case, wide_case};
use generated::random::Random;
use generated::width;
use model::Written;

use crate::Proved;

pub trait Width: Proved {
    type Other: Width;
    /// The key in a cell.
    const CELL_KEY: u64;
    /// The key in an operation and the code in an answer: both stand right
    /// above the total.
    const ABOVE: u64;
    /// The kind in an operation.
    const KIND: u64;
    /// The bits of an operation above the kind.
    const ABOVE_KIND: Range<u32>;
    /// The most that a total can say.
    const CEILING: u64;
    /// The flag of a saturated total ("pinned"); nothing in the narrow width,
    /// where the ceiling alone says it.
    const FLAG: u64;
    /// Totals and amounts of every sort, 0 the first. All are allowed.
    const TOTALS: &'static [u64];
    /// Parts of a cell's word that a spoilt one has at random.
    const PARTS: &'static [u64];
    /// A total that a room has, and the amounts of two operations on it: what
    /// the small runs are made with.
    const SMALL_RUNS: &'static [(u64, [u64; 2])];
    /// A file of eight cells with one room, one operation and two entries.
    const SMALL_FILE: &'static [u8];
    /// What the text has for the longest total.
    const LONGEST: &'static str;

    /// The word with these bits; of the narrow one only the lower half stays.
    fn word(bits: u64) -> Self;

    /// Totals that are not saturated ("true"): all that there are, or many.
    fn true_totals() -> Vec<u64>;

    /// Totals that are saturated: all that there are, or some.
    fn pinned_totals() -> Vec<u64>;

    /// A total or an amount that is allowed.
    fn any_total(random: &mut Random) -> u64;

    /// A generated file of this width.
    fn file(seed: u64, index: usize) -> Vec<u8>;

    /// A generated file of this width that is made for the converters.
    fn conversion(seed: u64, index: usize) -> Vec<u8>;

    /// The second model's converter that takes files of this width.
    fn convert(file: &[u8], out: &mut [u8]) -> Written;

    fn cell(key: u64, total: u64) -> Self {
        Self::word(key * Self::CELL_KEY + total)
    }

    fn operation(kind: u64, key: u64, amount: u64) -> u64 {
        kind * Self::KIND + key * Self::ABOVE + amount
    }

    fn answered(code: u64, total: u64) -> Self {
        Self::word(code * Self::ABOVE + total)
    }

    /// The saturated total that says this number, or the ceiling if it is less.
    fn pinned(number: u64) -> u64 {
        number.min(Self::CEILING) + Self::FLAG
    }

    /// Whether an allowed total is saturated.
    fn is_pinned(total: u64) -> bool {
        total >= Self::FLAG.max(Self::CEILING)
    }

    /// The bytes of a total in a run file: its flag, if it has one, comes first.
    fn bytes(total: u64) -> Vec<u8> {
        total.to_be_bytes()[8 - Self::TOTAL_BYTES..].to_vec()
    }

    /// The number that a total says, without its flag.
    fn said(total: u64) -> u64 {
        total % (Self::CEILING + 1)
    }

    /// Whether a total may stand in a cell or an operation: the wide ceiling
    /// must have its flag.
    fn allows(total: u64) -> bool {
        Self::FLAG == 0 || total != Self::CEILING
    }
}

impl Width for u32 {
    type Other = u64;

    const CELL_KEY: u64 = 65_536;
    const ABOVE: u64 = 65_536;
    const KIND: u64 = 4_294_967_296;
    const ABOVE_KIND: Range<u32> = 40..64;
    const CEILING: u64 = 65_535;
    const FLAG: u64 = 0;
    const TOTALS: &'static [u64] = &[0, 1, 2, 255, 256, 32_768, 65_534, 65_535];
    const PARTS: &'static [u64] = &[0xFFFF, 0xFFFF_FFFF, 0xFFFF_0000];
    const SMALL_RUNS: &'static [(u64, [u64; 2])] = &[(65_534, [1, 1]), (65_535, [3, 65_535])];
    const SMALL_FILE: &'static [u8] =
        b"TB\x03CL\x00\x04\x00\x01\x00\x28OP\x01\x00\x01\x00\x00SC\x02\x00\x00";
    const LONGEST: &'static str = "pinned";

    fn word(bits: u64) -> u32 {
        bits as u32
    }

    fn true_totals() -> Vec<u64> {
        (0..=65_534).collect()
    }

    fn pinned_totals() -> Vec<u64> {
        vec![65_535]
    }

    fn any_total(random: &mut Random) -> u64 {
        random.word().into()
    }

    fn file(seed: u64, index: usize) -> Vec<u8> {
        case(seed, index).file
    }

    fn conversion(seed: u64, index: usize) -> Vec<u8> {
        conversion_case(width::Width::Narrow, seed, index).file
    }

    fn convert(file: &[u8], out: &mut [u8]) -> Written {
        model::widen(file, out)
    }
}

/// The flag of a wide total.
const FLAG: u64 = 4_294_967_296;

/// The largest wide total that is true.
const LARGEST: u64 = 4_294_967_294;

/// The wide ceiling with its flag.
const HELD: u64 = FLAG + 4_294_967_295;

impl Width for u64 {
    type Other = u32;

    const CELL_KEY: u64 = 281_474_976_710_656;
    const ABOVE: u64 = 8_589_934_592;
    const KIND: u64 = 562_949_953_421_312;
    const ABOVE_KIND: Range<u32> = 57..64;
    const CEILING: u64 = 4_294_967_295;
    const FLAG: u64 = FLAG;
    const TOTALS: &'static [u64] = &[
        0,
        1,
        3,
        65_534,
        65_535,
        65_536,
        2_147_483_648,
        LARGEST,
        FLAG,
        FLAG + 3,
        FLAG + 65_535,
        FLAG + LARGEST,
        HELD,
    ];
    const PARTS: &'static [u64] = &[
        0xFFFF_FFFF,
        0x0001_FFFF_FFFF,
        0xFFFF_0001_FFFF_FFFF,
        0xFFFF_0000_0000_0000,
        0xFFFF_FFFF_FFFF_FFFF,
    ];
    const SMALL_RUNS: &'static [(u64, [u64; 2])] = &[
        (LARGEST, [1, 1]),
        (0, [0, FLAG]),
        (3, [LARGEST, FLAG + 3]),
        (3, [3, HELD]),
        (FLAG + 3, [0, 3]),
        (FLAG + 3, [LARGEST, FLAG + 3]),
        (HELD, [3, HELD]),
    ];
    const SMALL_FILE: &'static [u8] = b"TW\x03CL\x00\x04\x00\x01\x01\x00\x00\x00\x28\
        OP\x01\x00\x01\x00\x00\x00\x00\x00SC\x02\x00\x00";
    const LONGEST: &'static str = "atleast 4294967295";

    fn word(bits: u64) -> u64 {
        bits
    }

    /// Those around the powers of two, as near to the ceiling, and some at random.
    fn true_totals() -> Vec<u64> {
        let mut random = Random::new(23, 0);
        let powers = (0..32).map(|power| 1_u64 << power);
        let mut totals: Vec<u64> = powers
            .flat_map(|power| {
                [
                    power - 1,
                    power,
                    power + 1,
                    LARGEST - power,
                    LARGEST + 1 - power,
                ]
            })
            .chain((0..20_000).map(|_| random.next() % (LARGEST + 1)))
            .chain([LARGEST])
            .collect();
        totals.sort();
        totals.dedup();
        totals
    }

    /// A flagged total says any number.
    fn pinned_totals() -> Vec<u64> {
        let flagged = Self::true_totals().into_iter().map(|total| FLAG + total);
        flagged.step_by(1_000).chain([HELD]).collect()
    }

    fn any_total(random: &mut Random) -> u64 {
        match random.below(4) {
            0 => Self::TOTALS[random.below(Self::TOTALS.len())],
            1 => random.word().into(),
            2 => LARGEST - u64::from(random.word()),
            _ => FLAG + random.next() % FLAG,
        }
    }

    fn file(seed: u64, index: usize) -> Vec<u8> {
        wide_case(seed, index).file
    }

    fn conversion(seed: u64, index: usize) -> Vec<u8> {
        conversion_case(width::Width::Wide, seed, index).file
    }

    fn convert(file: &[u8], out: &mut [u8]) -> Written {
        model::narrow(file, out)
    }
}

/// Makes a test of each width of every function that is named, which is over
/// the word.
#[macro_export]
macro_rules! in_both_widths {
    ($($test:ident,)*) => {
        mod narrow {
            $(#[test]
            fn $test() {
                super::$test::<u32>();
            })*
        }

        mod wide {
            $(#[test]
            fn $test() {
                super::$test::<u64>();
            })*
        }
    };
}
