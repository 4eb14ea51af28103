//! Run files rewritten in the other width, document 02's request A5: what each
//! record becomes, every refusal alone and in pairs, and the way back.

mod support {
    pub mod files;
}

use model::{narrow, widen, Written};
use support::files::{cl, op, sc, tb, text, tw, Spelled};

/// One of the two converters.
type Convert = fn(&[u8], &mut [u8]) -> Written;

/// What the lent slice holds before a call.
const OLD: u8 = 0xEE;

/// The most bytes that a result has.
const MOST: usize = 65_535;

fn accepted(length: usize) -> Written {
    Written {
        number: 0,
        place: 0,
        length,
    }
}

/// Converts into slices that are just long enough and longer, and into others
/// that are too short, by one byte and by all.
fn assert_converts(convert: Convert, file: &[u8], result: &[u8], what: &str) {
    for more in [0, 1, 300] {
        let mut out = vec![OLD; result.len() + more];
        assert_eq!(convert(file, &mut out), accepted(result.len()), "{what}");
        let (written, kept) = out.split_at(result.len());
        assert_eq!(written, result, "{what}");
        assert!(kept.iter().all(|&byte| byte == OLD), "{what}");
    }
    for short in [result.len() - 1, 2, 0] {
        assert_refused_into(short, convert, file, (3, 0), what);
    }
}

fn assert_refused_into(
    length: usize,
    convert: Convert,
    file: &[u8],
    (number, place): (u32, usize),
    what: &str,
) {
    let mut out = vec![OLD; length];
    let refused = Written {
        number,
        place,
        length: 0,
    };
    assert_eq!(convert(file, &mut out), refused, "{what}");
    assert!(out.iter().all(|&byte| byte == OLD), "{what}");
}

/// The refusal comes before that of a slice, so that its length is nothing to it.
fn assert_refused(convert: Convert, file: &[u8], refusal: (u32, usize), what: &str) {
    for length in [MOST + 1, 1, 0] {
        assert_refused_into(length, convert, file, refusal, what);
    }
}

/// Each file is what the other converts to.
fn assert_both_ways(small: &[u8], large: &[u8], what: &str) {
    assert_converts(widen, small, large, what);
    assert_converts(narrow, large, small, what);
}

/// A record in either width, the narrow one first.
type Record = (Vec<u8>, Vec<u8>);

fn cell(number: u16, key: u16, small: u16, large: (u8, u32)) -> Record {
    (cl(number, key, small), cl(number, key, large))
}

fn row(kind: u8, key: u16, small: u16, large: (u8, u32)) -> Record {
    (op(kind, key, small), op(kind, key, large))
}

fn entries(rows: &[u8]) -> Record {
    (sc(rows), sc(rows))
}

/// The two files of these records.
fn files(k: u8, records: &[Record]) -> (Vec<u8>, Vec<u8>) {
    let (small, large): (Vec<_>, Vec<_>) = records.iter().cloned().unzip();
    (
        [tb(k), small.concat()].concat(),
        [tw(k), large.concat()].concat(),
    )
}

#[test]
fn a_file_with_a_record_of_each_mark_byte_by_byte() {
    let small = b"TB\x03\
        CL\x00\x04\x00\x01\x00\x28\
        CL\x00\x05\x00\x09\xFF\xFF\
        OP\x04\x00\x01\xFF\xFE\
        OP\x03\x00\x09\xFF\xFF\
        SC\x03\x00\x01\x00\
        SC\x01\x01";
    let large = b"TW\x03\
        CL\x00\x04\x00\x01\x00\x00\x00\x00\x28\
        CL\x00\x05\x00\x09\x01\x00\x00\xFF\xFF\
        OP\x04\x00\x01\x00\x00\x00\xFF\xFE\
        OP\x03\x00\x09\x01\x00\x00\xFF\xFF\
        SC\x03\x00\x01\x00\
        SC\x01\x01";
    assert_both_ways(small, large, "a record of each mark");
}

#[test]
fn the_run_in_full() {
    let amounts = [(1, 40), (9, 25), (1, 65_500)];
    let mut records: Vec<Record> = amounts
        .iter()
        .map(|&(key, amount)| row(4, key, amount, (0, amount.into())))
        .collect();
    records.push(entries(&[0, 1, 2, 0, 1, 2, 1, 1, 2, 2, 1, 0]));
    let (small, large) = files(3, &records);
    assert_both_ways(&small, &large, "the run in full");
    // In the wide table the sum is true.
    let wide = "rows 3 done 3 lost 2 idle 1\n\
        row 0 add 1 40 inserted 0\n\
        row 1 add 9 25 inserted 0\n\
        row 2 add 1 65500 changed 40\n\
        log 0 2 1\n\
        cell 4 1 65540\n\
        cell 5 9 25\n";
    assert_eq!(text(&large), wide);
}

#[test]
fn tables_of_every_size_and_nothing_else() {
    for k in 0..=12 {
        assert_both_ways(&tb(k), &tw(k), "an empty table");
    }
}

#[test]
fn files_without_some_of_the_marks() {
    let marks = [
        cell(0, 1, 2, (0, 2)),
        row(1, 1, 0, (0, 0)),
        entries(&[0, 0, 0]),
    ];
    for chosen in 0..8 {
        let there = |mark: &usize| chosen >> mark & 1 == 1;
        let records: Vec<Record> = (0..3)
            .filter(there)
            .map(|mark| marks[mark].clone())
            .collect();
        let (small, large) = files(0, &records);
        assert_both_ways(&small, &large, &format!("choice {chosen}"));
    }
}

/// The number stays, and the flag is there exactly where the narrow total is
/// pinned.
#[test]
fn every_narrow_total_in_a_cell_and_in_a_row() {
    for total in 0..=65_535 {
        let wide = (u8::from(total == 65_535), u32::from(total));
        let records = [cell(6, 7, total, wide), row(2, 7, total, wide)];
        let (small, large) = files(3, &records);
        assert_both_ways(&small, &large, &format!("total {total}"));
    }
}

/// "Judges nothing that the run judges": a tombstone with a total, one pinned, a
/// key twice, a key behind an empty cell, a find and a remove with an amount,
/// keys that are not live, and rows that are not there.
#[test]
fn what_the_run_refuses_is_converted() {
    let pinned = (1, 65_535);
    let records = [
        cell(0, 65_535, 7, (0, 7)),
        cell(1, 65_535, 65_535, pinned),
        cell(2, 65_535, 0, (0, 0)),
        cell(6, 16, 3, (0, 3)),
        cell(7, 16, 4, (0, 4)),
        row(1, 1, 9, (0, 9)),
        row(5, 1, 65_535, pinned),
        row(4, 0, 1, (0, 1)),
        row(4, 65_535, 1, (0, 1)),
        entries(&[200, 255]),
    ];
    let (small, large) = files(3, &records);
    assert_both_ways(&small, &large, "what the run refuses");
    assert_eq!(text(&small), "refused 4 at 0\n");
    assert_eq!(text(&large), "refused 4 at 0\n");
}

#[test]
fn rows_of_every_kind_are_converted() {
    for kind in 0..=255 {
        let records = [
            row(kind, 0x0605, 0x0807, (0, 0x0807)),
            row(kind, 0, 0, (0, 0)),
            row(kind, 65_535, 65_535, (1, 65_535)),
        ];
        let (small, large) = files(12, &records);
        assert_both_ways(&small, &large, &format!("kind {kind}"));
    }
}

#[test]
fn records_of_entries_are_kept_count_by_count() {
    // What could be marks among the entries is none.
    let long: Vec<u8> = (0..=254).collect();
    let records = [
        row(1, 1, 0, (0, 0)),
        entries(b"OP\x04\0\x01\0\x07"),
        entries(&[0]),
        entries(&[0]),
        entries(&long),
        entries(b"TB\x03"),
        entries(&[255; 255]),
        entries(&[9]),
    ];
    let (small, large) = files(1, &records);
    assert_both_ways(&small, &large, "records of entries");
    // Behind a row that is three bytes longer all is the same.
    assert_eq!(large[13..], small[10..]);
}

/// Totals that a wide file can have, each with what it is in a narrow one;
/// nothing where 13 refuses it.
const WIDE_TOTALS: [((u8, u32), Option<u16>); 19] = [
    ((0, 0), Some(0)),
    ((0, 1), Some(1)),
    ((0, 255), Some(255)),
    ((0, 256), Some(256)),
    ((0, 65_534), Some(65_534)),
    ((0, 65_535), None),
    ((0, 65_536), None),
    ((0, 65_537), None),
    ((0, 131_071), None),
    ((0, 16_777_216), None),
    ((0, 4_294_967_294), None),
    ((0, 4_294_967_295), None),
    ((1, 0), None),
    ((1, 7), None),
    ((1, 65_534), None),
    ((1, 65_535), Some(65_535)),
    ((1, 65_536), None),
    ((1, 131_071), None),
    ((1, 4_294_967_295), None),
];

/// In the first, a middle and the last cell and row, with 13 at its offset: 3
/// bytes of TW, cells of 11 and rows of 10 come before.
#[test]
fn every_wide_total_in_a_cell_and_in_a_row() {
    let offsets = [3, 14, 25, 36, 46, 56];
    for (total, fits) in WIDE_TOTALS {
        for (at, offset) in offsets.into_iter().enumerate() {
            let mut records = vec![
                cell(0, 8, 65_534, (0, 65_534)),
                cell(1, 9, 65_535, (1, 65_535)),
                cell(7, 65_535, 0, (0, 0)),
                row(4, 1, 65_535, (1, 65_535)),
                row(0, 0, 7, (0, 7)),
                row(1, 2, 0, (0, 0)),
                entries(&[0, 1, 2]),
            ];
            let head = if at < 3 { 6 } else { 5 };
            let (small, large) = &mut records[at];
            large.splice(head.., total.bytes());
            small.splice(head.., fits.unwrap_or(0).bytes());
            let (small, large) = files(3, &records);
            let what = format!("{total:?} at {at}");
            match fits {
                Some(_) => assert_both_ways(&small, &large, &what),
                None => assert_refused(narrow, &large, (13, offset), &what),
            }
        }
    }
}

/// Faulty files of either width, each with the number and the place.
#[test]
fn the_readers_refusals() {
    let rows = |record: Vec<u8>| record.repeat(64);
    let most = [sc(&[0; 255]).repeat(64), sc(&[0; 64])].concat();
    let small = [
        ("empty file", vec![], (10, 0)),
        ("a byte", b"T".to_vec(), (10, 0)),
        ("no k", b"TB".to_vec(), (10, 0)),
        ("k 13", tb(13), (11, 0)),
        ("a wide file", tw(3), (9, 0)),
        ("no k, wide", b"TW".to_vec(), (9, 0)),
        ("OP first", op(1, 1, 0), (9, 0)),
        ("TB twice", [tb(3), tb(3)].concat(), (9, 3)),
        ("TW after TB", [tb(3), tw(3)].concat(), (9, 3)),
        ("unknown", [tb(3), b"XY".to_vec()].concat(), (9, 3)),
        ("a byte of a mark", [tb(3), b"C".to_vec()].concat(), (10, 3)),
        (
            "CL cut",
            [tb(3), cl(0, 1, 2)[..7].to_vec()].concat(),
            (10, 3),
        ),
        (
            "OP cut",
            [tb(3), op(1, 1, 0)[..6].to_vec()].concat(),
            (10, 3),
        ),
        ("SC cut", [tb(3), b"SC\x02\0".to_vec()].concat(), (10, 3)),
        (
            "CL after OP",
            [tb(3), op(1, 1, 0), cl(0, 1, 2)].concat(),
            (9, 10),
        ),
        (
            "cell twice",
            [tb(3), cl(4, 1, 2), cl(4, 2, 2)].concat(),
            (11, 11),
        ),
        ("cell 8", [tb(3), cl(8, 1, 2)].concat(), (11, 3)),
        ("key 0", [tb(3), cl(0, 0, 2)].concat(), (11, 3)),
        ("SC 0", [tb(3), sc(&[0]), sc(&[])].concat(), (11, 7)),
        (
            "65 rows",
            [tb(3), rows(op(1, 1, 0)), op(1, 1, 0)].concat(),
            (2, 451),
        ),
        (
            "16,385 entries",
            [tb(3), most.clone(), sc(&[0])].concat(),
            (2, 16_582),
        ),
    ];
    for (what, file, refusal) in small {
        assert_refused(widen, &file, refusal, what);
    }
    let large = [
        ("empty file", vec![], (10, 0)),
        ("a byte", b"T".to_vec(), (10, 0)),
        ("no k", b"TW".to_vec(), (10, 0)),
        ("k 13", tw(13), (11, 0)),
        ("a narrow file", tb(3), (9, 0)),
        ("no k, narrow", b"TB".to_vec(), (9, 0)),
        ("CL first", cl(0, 1, (0, 2)), (9, 0)),
        ("TB after TW", [tw(3), tb(3)].concat(), (9, 3)),
        ("a narrow CL", [tw(3), cl(0, 1, 2)].concat(), (10, 3)),
        ("a narrow OP", [tw(3), op(1, 1, 0)].concat(), (10, 3)),
        ("a byte of a mark", [tw(3), b"S".to_vec()].concat(), (10, 3)),
        (
            "flag byte 2 in CL",
            [tw(3), cl(0, 1, (0, 2)), cl(1, 2, (2, 0))].concat(),
            (11, 14),
        ),
        (
            "flag byte 255 in OP",
            [tw(3), op(1, 1, (255, 0))].concat(),
            (11, 3),
        ),
        (
            "a lower cell",
            [tw(3), cl(4, 1, (0, 2)), cl(3, 2, (0, 2))].concat(),
            (11, 14),
        ),
        ("key 0", [tw(3), cl(0, 0, (1, 65_535))].concat(), (11, 3)),
        (
            "65 rows",
            [tw(3), rows(op(1, 1, (0, 0))), op(1, 1, (0, 0))].concat(),
            (2, 643),
        ),
        (
            "16,385 entries",
            [tw(3), most, sc(&[0])].concat(),
            (2, 16_582),
        ),
    ];
    for (what, file, refusal) in large {
        assert_refused(narrow, &file, refusal, what);
    }
}

#[test]
fn a_file_cut_short_is_converted_only_between_records() {
    let records = [
        cell(3, 0x0201, 65_535, (1, 65_535)),
        cell(7, 65_535, 1, (0, 1)),
        row(255, 0, 65_534, (0, 65_534)),
        entries(&[9, 8, 7]),
        entries(&[255]),
    ];
    let (mut from, mut wide_from) = (3, 3);
    for whole in 0..=records.len() {
        let (small, large) = files(4, &records[..whole]);
        assert_both_ways(&small, &large, &format!("{whole} records"));
        let Some((record, wide_record)) = records.get(whole) else {
            break;
        };
        for length in 1..record.len() {
            let file = [&small[..], &record[..length]].concat();
            assert_refused(widen, &file, (10, from), "cut short");
        }
        for length in 1..wide_record.len() {
            let file = [&large[..], &wide_record[..length]].concat();
            assert_refused(narrow, &file, (10, wide_from), "cut short");
        }
        from += record.len();
        wide_from += wide_record.len();
    }
}

#[test]
fn more_than_65535_bytes_are_refused_before_all_else() {
    // The last has nothing else wrong: a TB, 16,383 records of entries of 4
    // bytes each, and one byte more in the last of them.
    let sound = [tb(3), sc(&[0]).repeat(16_382), sc(&[0, 0])].concat();
    assert_eq!(sound.len(), MOST + 1);
    let unfit = [tw(3), cl(0, 1, (1, 7))].concat();
    for file in [vec![], b"XY".to_vec(), tb(13), tw(3), unfit, sound] {
        let mut file = file;
        file.resize(file.len().max(MOST + 1), b'S');
        assert_refused(widen, &file, (12, 0), "over 65,535 bytes");
        assert_refused(narrow, &file, (12, 0), "over 65,535 bytes");
    }
}

/// Records with which a wide file is refused that ends with them, by the number.
fn faulty_records() -> Vec<(u32, Vec<u8>)> {
    vec![
        (10, b"S".to_vec()),
        (9, b"XY".to_vec()),
        (9, tw(3)),
        (10, op(4, 1, (1, 7))[..9].to_vec()),
        (11, op(4, 1, (2, 7))),
        (11, sc(&[])),
    ]
}

#[test]
fn the_readers_refusals_decide_before_13() {
    // The unfit cell comes first in the file, and decides nothing.
    let before = [tw(3), cl(0, 1, (0, 65_535)), op(4, 1, (1, 7))].concat();
    assert_refused(narrow, &before, (13, 3), "alone");
    for (number, record) in faulty_records() {
        let file = [&before[..], &record].concat();
        assert_refused(narrow, &file, (number, 24), &format!("{record:?}"));
    }
    let rows = op(4, 1, (1, 7)).repeat(65);
    let file = [tw(3), rows.clone()].concat();
    assert_refused(narrow, &file, (2, 643), "the 65th row");
    assert_refused(narrow, &file[..643], (13, 3), "64 rows");
    // Both faults in one record.
    let file = [tw(3), op(4, 1, (0, 1)), cl(0, 1, (1, 7))].concat();
    assert_refused(narrow, &file, (9, 13), "CL after OP");
    let file = [tw(3), cl(9, 1, (1, 7))].concat();
    assert_refused(narrow, &file, (11, 3), "cell 9");
    let file = [tw(3), cl(0, 1, (2, 65_535))].concat();
    assert_refused(narrow, &file, (11, 3), "flag byte 2");
}

#[test]
fn the_first_of_two_unfit_records_decides() {
    let unfit = [(0, 65_535), (0, 4_294_967_295), (1, 7), (1, 65_536)];
    for first in unfit {
        for second in unfit {
            let cells = [tw(3), cl(0, 1, (0, 3)), cl(1, 2, first), cl(2, 3, second)];
            assert_refused(narrow, &cells.concat(), (13, 14), "two cells");
            let rows = [tw(3), op(1, 1, (0, 3)), op(4, 2, first), op(4, 3, second)];
            assert_refused(narrow, &rows.concat(), (13, 13), "two rows");
            let mixed = [tw(3), cl(5, 2, first), op(4, 3, second), sc(&[0])];
            assert_refused(narrow, &mixed.concat(), (13, 3), "a cell and a row");
            // Behind a row that fits.
            let later = [tw(3), cl(5, 2, (0, 0)), op(0, 0, (0, 0)), op(4, 3, second)];
            assert_refused(narrow, &later.concat(), (13, 24), "a row alone");
        }
    }
}

/// A table of 4,096 cells, all filled, so many rows, and so many records with one
/// entry each.
fn large(rows: usize, records: usize) -> (Vec<u8>, Vec<u8>) {
    let mut all: Vec<Record> = (0..4_096)
        .map(|number| cell(number, number + 1, 65_535 - number % 2, wide_of(number)))
        .collect();
    all.extend(vec![row(4, 5, 6, (0, 6)); rows]);
    all.extend(vec![entries(&[0]); records]);
    files(12, &all)
}

fn wide_of(number: u16) -> (u8, u32) {
    match number % 2 {
        0 => (1, 65_535),
        _ => (0, 65_534),
    }
}

#[test]
fn results_of_65535_bytes_and_of_one_more() {
    // 3 bytes, 4,096 cells of 11, and 5,119 records of 4.
    let (small, wide) = large(0, 5_119);
    assert_eq!((small.len(), wide.len()), (53_247, MOST));
    assert_both_ways(&small, &wide, "4,096 cells");
    // 64 rows of 10 more, and 160 records of 4 fewer.
    let (small, wide) = large(64, 4_959);
    assert_eq!((small.len(), wide.len()), (53_055, MOST));
    assert_both_ways(&small, &wide, "4,096 cells and 64 rows");
    for rows in [0, 64] {
        let (mut small, wide) = large(rows, 5_119 - rows * 10 / 4);
        // One entry more in the last record.
        let last = small.len() - 2;
        small[last] = 2;
        small.push(0);
        assert_refused(widen, &small, (22, 0), "one byte more");
        // The wide file that would come of it is too long itself.
        let wide = [&wide[..wide.len() - 2], &[2, 0, 0]].concat();
        assert_refused(narrow, &wide, (12, 0), "one byte more");
    }
    // Nothing but entries: neither way is longer than the other.
    let (small, wide) = files(0, &vec![entries(&[7]); 16_383]);
    assert_eq!(small.len(), MOST);
    assert_both_ways(&small, &wide, "entries alone");
    // The same with a row: 3 bytes more than are allowed.
    let mut records = vec![row(1, 1, 0, (0, 0))];
    records.extend(vec![entries(&[7]); 16_381]);
    let (small, wide) = files(0, &records);
    assert_eq!((small.len(), wide.len()), (65_534, MOST + 2));
    assert_refused(widen, &small, (22, 0), "a row and entries");
    // The longest file with the most cells and rows.
    let (small, wide) = large(64, 8_079);
    assert_eq!((small.len(), wide.len()), (MOST, 78_015));
    assert_refused(widen, &small, (22, 0), "the longest");
}

/// 13 and 22 do not meet: up there is no 13, and a result that is shorter than
/// its file is never too long.
#[test]
fn the_readers_refusals_decide_before_22() {
    let (small, _) = large(64, 8_000);
    assert_refused(widen, &small, (22, 0), "alone");
    let end = small.len();
    let faulty = [
        (10, b"S".to_vec()),
        (10, b"SC\x02\0".to_vec()),
        (9, tw(12)),
        (9, op(4, 1, 7)),
        (11, sc(&[])),
    ];
    for (number, record) in faulty {
        let file = [&small[..], &record].concat();
        assert_refused(widen, &file, (number, end), &format!("{record:?}"));
    }
    let (small, _) = large(65, 8_000);
    assert_refused(widen, &small, (2, 3 + 4_096 * 8 + 64 * 7), "the 65th row");
    let long = [&small[..], &sc(&[0; 255]).repeat(5)].concat();
    assert!(long.len() > MOST);
    assert_refused(widen, &long, (12, 0), "over 65,535 bytes");
}

#[test]
fn the_longest_wide_file_is_narrowed() {
    let (small, wide) = large(64, 4_959);
    assert_eq!(wide.len(), MOST);
    let mut out = vec![OLD; MOST];
    assert_eq!(narrow(&wide, &mut out), accepted(small.len()));
    assert_eq!(out[..small.len()], small);
    // The last row is unfit: all before it is judged, and nothing written.
    let mut unfit = wide;
    let at = 3 + 4_096 * 11 + 63 * 10;
    unfit[at + 5] = 1;
    assert_refused(narrow, &unfit, (13, at), "the last row");
}

/// Every choice of a cell, two rows and entries out of some, there and back.
#[test]
fn round_trips() {
    let totals = [(0, (0, 0)), (65_534, (0, 65_534)), (65_535, (1, 65_535))];
    let mut out = [OLD; 100];
    let mut back = [OLD; 100];
    for (cell_total, wide_total) in totals {
        for (amount, wide_amount) in totals {
            for kind in [0, 1, 4, 200] {
                for key in [0, 1, 65_535] {
                    for rows in [&[0][..], &[255, 0, 7]] {
                        let records = [
                            cell(2, key.max(1), cell_total, wide_total),
                            row(kind, key, amount, wide_amount),
                            row(5, key, cell_total, wide_total),
                            entries(rows),
                        ];
                        let (small, wide) = files(2, &records);
                        let there = widen(&small, &mut out);
                        assert_eq!(out[..there.length], wide);
                        let here = narrow(&out[..there.length], &mut back);
                        assert_eq!(here, accepted(small.len()));
                        assert_eq!(back[..here.length], small);
                    }
                }
            }
        }
    }
}
