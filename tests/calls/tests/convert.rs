//! Calls of the converters, `room_widen` and `room_narrow`: files of either
//! width, and output slices of every length.

use calls::width::Width;
use model::Written;

/// The most bytes that a file and a result have.
const MOST: usize = 65_535;

/// What the lent slices hold before a call.
const OLD: u8 = 0x55;

/// Converts a file twice into a slice of this length. A refusal leaves the slice
/// as it was, and says that nothing was written; otherwise the bytes behind those
/// that were written are kept.
fn converted_into<W: Width>(length: usize, file: &[u8]) -> (Written, Vec<u8>) {
    let (mut proved, mut model) = (vec![OLD; length], vec![OLD; length]);
    let written = calls::convert::<W>(file, &mut proved);
    assert_eq!(written, W::convert(file, &mut model));
    assert!(proved == model, "{written:?}: other bytes than the model's");
    if written.number != 0 {
        assert_eq!(written.length, 0);
    } else {
        assert_eq!(written.place, 0);
    }
    assert!(proved[written.length..].iter().all(|&byte| byte == OLD));
    proved.truncate(written.length);
    (written, proved)
}

/// Converts a file into a slice that is long enough for its result, and then into
/// one that is just long enough and others around it, or, where it is refused,
/// into some that are too short.
fn converted<W: Width>(file: &[u8]) -> (Written, Vec<u8>) {
    // A cell of 8 bytes, or a row of 7, becomes one of 3 more.
    let enough = MOST.min(2 * file.len());
    let (written, result) = converted_into::<W>(enough, file);
    let length = result.len();
    if written.number != 0 {
        for short in [0, 1, 100] {
            assert_eq!(converted_into::<W>(short, file).0, written);
        }
        return (written, result);
    }
    for longer in [length, length + 1, length + 300] {
        assert!(converted_into::<W>(longer, file) == (written, result.clone()));
    }
    for short in [0, 1, length / 2, length - 1] {
        let (written, _) = converted_into::<W>(short, file);
        assert_eq!((written.number, written.place), (3, 0));
    }
    (written, result)
}

fn refused<W: Width>(file: &[u8]) -> (u32, usize) {
    let (written, _) = converted::<W>(file);
    assert_ne!(written.number, 0);
    (written.number, written.place)
}

/// What a converter takes, the other gives back.
fn there_and_back<W: Width>(file: &[u8]) -> (Written, Vec<u8>) {
    let (written, result) = converted::<W>(file);
    if written.number == 0 {
        let (_, back) = converted::<W::Other>(&result);
        assert!(back == file, "another file came back");
    }
    (written, result)
}

/// A total that says the same in both widths.
fn total<W: Width>(number: u64) -> Vec<u8> {
    W::bytes(if number == 65_535 {
        W::FLAG + number
    } else {
        number
    })
}

fn cell(number: u16, key: u16, total: &[u8]) -> Vec<u8> {
    let (number, key) = (number.to_be_bytes(), key.to_be_bytes());
    [b"CL", &number[..], &key, total].concat()
}

fn row(kind: u8, key: u16, amount: &[u8]) -> Vec<u8> {
    [b"OP", &[kind][..], &key.to_be_bytes(), amount].concat()
}

fn table<W: Width>(k: u8) -> Vec<u8> {
    [W::MARK, &[k][..]].concat()
}

/// A small file with records of each mark, which both widths have.
fn small<W: Width>() -> Vec<u8> {
    [
        table::<W>(3),
        cell(4, 1, &total::<W>(40)),
        cell(5, 65_535, &total::<W>(65_535)),
        row(4, 1, &total::<W>(65_534)),
        row(200, 0, &total::<W>(65_535)),
        row(1, 7, &total::<W>(3)),
        b"SC\x02\x00\x01SC\x01\xFF".to_vec(),
    ]
    .concat()
}

fn a_small_file<W: Width>() {
    let (written, result) = there_and_back::<W>(&small::<W>());
    assert_eq!(written.number, 0);
    assert!(result == small::<W::Other>());
}

fn every_length_of_the_slice<W: Width>() {
    let (file, result) = (small::<W>(), small::<W::Other>());
    for length in 0..result.len() + 40 {
        let (written, _) = converted_into::<W>(length, &file);
        let wanted = match length < result.len() {
            true => (3, 0, 0),
            false => (0, 0, result.len()),
        };
        assert_eq!((written.number, written.place, written.length), wanted);
    }
}

fn every_beginning_of_a_file<W: Width>() {
    let file = small::<W>();
    let mut taken = 0;
    for length in 0..=file.len() {
        let (written, _) = there_and_back::<W>(&file[..length]);
        taken += u32::from(written.number == 0);
        assert!(matches!(written.number, 0 | 10));
    }
    // Behind each of its eight records.
    assert_eq!(taken, 8);
}

fn every_byte_changed<W: Width>() {
    let file = small::<W>();
    let (mut taken, mut refused) = (0, 0);
    for at in 0..file.len() {
        for byte in 0..=255 {
            let mut changed = file.clone();
            changed[at] = byte;
            match there_and_back::<W>(&changed).0.number {
                0 => taken += 1,
                _ => refused += 1,
            }
        }
    }
    println!("{taken} taken, {refused} refused");
    assert!(taken > 3_000 && refused > 3_000);
}

/// Every file of at most five bytes out of ten, and each of them behind a table.
fn every_short_file<W: Width>() {
    let bytes = [&W::MARK[..], b"CLOPS\x00\x01\x03"].concat();
    let before = table::<W>(1);
    let mut files = vec![vec![]];
    let mut taken = 0;
    for _ in 0..=5 {
        for file in &files {
            let behind = [&before[..], file].concat();
            for file in [&file[..], &behind] {
                taken += u32::from(converted_into::<W>(9, file).0.number == 0);
            }
        }
        let longer = files.iter().flat_map(|file| {
            let with = |&byte: &u8| [&file[..], &[byte]].concat();
            bytes.iter().map(with)
        });
        files = longer.collect();
    }
    // The tables of 1, 2 and 8 cells, and behind a table nothing, or an SC with
    // one of ten entries: with a second there are six bytes.
    println!("{taken} taken");
    assert_eq!(taken, 3 + 1 + 10);
}

/// "Every such call": an empty file, and slices of no bytes at all.
fn nothing_lent<W: Width>() {
    assert_eq!(refused::<W>(&[]), (10, 0));
    let (written, _) = converted_into::<W>(0, &small::<W>());
    assert_eq!((written.number, written.place, written.length), (3, 0, 0));
}

fn the_mark_of_the_other_width<W: Width>() {
    assert_eq!(refused::<W>(&small::<W::Other>()), (9, 0));
    for k in 0..=255 {
        assert_eq!(refused::<W>(&table::<W::Other>(k)), (9, 0));
    }
}

fn every_size_of_a_table<W: Width>() {
    for k in 0..=255 {
        let (written, result) = there_and_back::<W>(&table::<W>(k));
        if k <= 12 {
            assert!(result == table::<W::Other>(k));
        } else {
            assert_eq!((written.number, written.place), (11, 0));
        }
    }
}

fn more_than_65535_bytes<W: Width>() {
    for length in [65_536, 65_537, 1_000_000] {
        let mut file = small::<W>();
        file.resize(length, b'S');
        assert_eq!(refused::<W>(&file), (12, 0));
    }
}

/// A total or an amount in a file of one cell and one row, whose places are 3
/// and 6 + the bytes of a total behind that.
fn with_total<W: Width>(in_cell: u64, in_row: u64) -> Vec<u8> {
    [
        table::<W>(0),
        cell(0, 9, &W::bytes(in_cell)),
        row(4, 9, &W::bytes(in_row)),
    ]
    .concat()
}

#[test]
fn every_narrow_total() {
    for total in 0..=65_535 {
        let file = with_total::<u32>(total, 65_535 - total);
        let (written, result) = there_and_back::<u32>(&file);
        assert_eq!(written.number, 0);
        let wide = |total: u64| total + u64::from(total == 65_535) * u64::FLAG;
        assert!(result == with_total::<u64>(wide(total), wide(65_535 - total)));
    }
}

/// Those around 65,535, with and without a flag, and many others.
#[test]
fn wide_totals() {
    let near = 65_000..66_100;
    let flagged = near.clone().map(|total| u64::FLAG + total);
    let many = u64::true_totals().into_iter();
    let pinned = u64::pinned_totals().into_iter();
    let ceiling = [u64::CEILING];
    let mut taken = 0;
    for total in near.chain(flagged).chain(many).chain(pinned).chain(ceiling) {
        let fits = total < 65_535 || total == u64::FLAG + 65_535;
        taken += u32::from(fits);
        for (file, place) in [
            (with_total::<u64>(total, 7), 3),
            (with_total::<u64>(7, total), 14),
        ] {
            let (written, _) = there_and_back::<u64>(&file);
            let wanted = if fits { (0, 0) } else { (13, place) };
            assert_eq!((written.number, written.place), wanted, "{total}");
        }
    }
    assert!(taken > 500);
}

/// A full table with all rows, and so many records of one entry. Its wide file
/// has 45,699 bytes and 4 more for each of these.
fn large<W: Width>(records: usize) -> Vec<u8> {
    let mut file = table::<W>(12);
    for number in 0..4_096 {
        let total = total::<W>(65_535 - u64::from(number % 3));
        file.extend(cell(number, number + 1, &total));
    }
    for key in 0..64 {
        file.extend(row(4, key, &total::<W>(u64::from(key))));
    }
    file.extend(b"SC\x01\x07".repeat(records));
    file
}

#[test]
fn results_of_65535_bytes_and_of_more() {
    let file = large::<u32>(4_959);
    let (written, result) = there_and_back::<u32>(&file);
    assert_eq!(written.length, MOST);
    assert!(result == large::<u64>(4_959));
    // From one entry more, in the last record, up to the longest file.
    let longer = [&file[..file.len() - 2], &[2, 7, 7]].concat();
    assert_eq!(refused::<u32>(&longer), (22, 0));
    for records in [4_960, 5_000, 8_079] {
        assert_eq!(refused::<u32>(&large::<u32>(records)), (22, 0));
    }
    // The longest is refused for its last record first, and one byte more before
    // that.
    let mut longest = large::<u32>(8_079);
    assert_eq!(longest.len(), MOST);
    let count = longest.len() - 2;
    longest[count] = 2;
    assert_eq!(refused::<u32>(&longest), (10, MOST - 4));
    longest.push(7);
    assert_eq!(refused::<u32>(&longest), (12, 0));
}

/// 13 at the first and at the last record that can have it, and the first of
/// both; the reader's refusal at the end of the file comes before.
#[test]
fn unfit_records_of_a_large_file() {
    let sound = large::<u64>(4_959);
    let (first, last) = (3, 3 + 4_096 * 11 + 63 * 10);
    for (unfit, place) in [
        (&[first][..], first),
        (&[last], last),
        (&[last, first], first),
    ] {
        let mut file = sound.clone();
        for &at in unfit {
            // Of a cell and of a row: the upper half of the number.
            let upper = if at == first { at + 7 } else { at + 6 };
            file[upper] = 1;
        }
        assert_eq!(refused::<u64>(&file), (13, place));
        file.pop();
        assert_eq!(refused::<u64>(&file), (10, MOST - 4));
    }
}

fn generated_files<W: Width>() {
    let mut taken = 0;
    for index in 0..6_000 {
        let file = W::file(17, index);
        taken += u32::from(there_and_back::<W>(&file).0.number == 0);
        converted::<W::Other>(&file);
    }
    println!("{taken} of 6000 files converted");
    assert!((200..6_000).contains(&taken));
}

fn generated_files_for_the_converters<W: Width>() {
    let mut taken = 0;
    for index in 0..2_000 {
        let file = W::conversion(17, index);
        taken += u32::from(there_and_back::<W>(&file).0.number == 0);
    }
    println!("{taken} of 2000 files converted");
    assert!((800..1_500).contains(&taken));
}

calls::in_both_widths! {
    a_small_file,
    every_length_of_the_slice,
    every_beginning_of_a_file,
    every_byte_changed,
    every_short_file,
    nothing_lent,
    the_mark_of_the_other_width,
    every_size_of_a_table,
    more_than_65535_bytes,
    generated_files,
    generated_files_for_the_converters,
}
