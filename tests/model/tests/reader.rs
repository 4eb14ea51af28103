//! Every row of the table of refusals that the reader has, alone and in pairs:
//! the earlier decides, and nothing lent is altered. Files are of both widths.

mod support {
    pub mod files;
    pub mod widths;
}

use model::{load, Loaded, Word};
use support::files::{cl, op, sc, tb, text, tw};
use support::widths::at_both_widths;

at_both_widths![
    a_file_cut_short_is_whole_only_between_records,
    each_faulty_record_alone,
    of_two_faults_in_a_record_the_earlier_decides,
    as_many_entries_as_fit_are_read,
    the_first_faulty_record_decides,
    a_short_slice_decides_before_the_file,
    a_long_file_decides_before_its_records,
];

/// How a width spells records, and the faulty ones that it alone has.
trait Spelling: Word {
    /// The record of this width that says what a narrow one does, as far as
    /// that goes.
    fn spelled(narrow: &[u8]) -> Vec<u8>;

    const FAULTY: &'static [Faulty];
    const TWICE_FAULTY: &'static [Faulty];
}

impl Spelling for u32 {
    fn spelled(narrow: &[u8]) -> Vec<u8> {
        narrow.to_vec()
    }

    const FAULTY: &'static [Faulty] = &[("TW after TB", Before::Table, b"TW\x03", 9)];
    const TWICE_FAULTY: &'static [Faulty] = &[];
}

impl Spelling for u64 {
    fn spelled(narrow: &[u8]) -> Vec<u8> {
        let mut record = narrow.to_vec();
        // A flag byte of 0 and the upper half of the number come in before the
        // total or amount.
        match narrow {
            [b'T', b'B', ..] => record[1] = b'W',
            [b'C', b'L', _, _, _, _, ..] => drop(record.splice(6..6, [0; 3])),
            [b'O', b'P', _, _, _, ..] => drop(record.splice(5..5, [0; 3])),
            _ => {}
        }
        record
    }

    const FAULTY: &'static [Faulty] = &[
        ("TB after TW", Before::Table, b"TB\x03", 9),
        ("a narrow CL", Before::Table, b"CL\0\0\0\x01\0\0", 10),
        ("a narrow OP", Before::Row, b"OP\x01\0\x01\0\0", 10),
        (
            "flag byte 2 in CL",
            Before::Table,
            b"CL\0\0\0\x01\x02\0\0\0\x07",
            11,
        ),
        (
            "flag byte 255 in CL",
            Before::Table,
            b"CL\0\0\0\x01\xFF\0\0\0\0",
            11,
        ),
        (
            "flag byte 2 in a later CL",
            Before::Cell,
            b"CL\0\x05\0\x02\x02\0\0\0\0",
            11,
        ),
        (
            "flag byte 2 in OP",
            Before::Table,
            b"OP\x04\0\x01\x02\0\0\0\x07",
            11,
        ),
        (
            "flag byte 255 in a later OP",
            Before::Row,
            b"OP\x01\0\x01\xFF\0\0\0\0",
            11,
        ),
        (
            "the 65th row, flagged",
            Before::Rows,
            b"OP\x04\0\x01\x01\0\0\0\0",
            2,
        ),
    ];

    const TWICE_FAULTY: &'static [Faulty] = &[
        (
            "flag byte 2 in a CL after OP",
            Before::Row,
            b"CL\0\0\0\x01\x02\0\0\0\0",
            9,
        ),
        (
            "flag byte 2 in an OP after SC",
            Before::Entry,
            b"OP\x01\0\x01\x02\0\0\0\0",
            9,
        ),
        (
            "flag byte 2 in a CL cut short",
            Before::Table,
            b"CL\0\0\0\x01\x02\0\0\0",
            10,
        ),
        (
            "flag byte 255 in an OP cut short",
            Before::Row,
            b"OP\x01\0\x01\xFF\0\0\0",
            10,
        ),
        (
            "flag byte 2 in the 65th row",
            Before::Rows,
            b"OP\x01\0\x01\x02\0\0\0\0",
            11,
        ),
    ];
}

/// Slices of these lengths, filled with what a refusal must leave.
struct Lent<W> {
    cells: Vec<W>,
    operations: Vec<u64>,
    schedule: Vec<u8>,
}

impl<W: Word> Lent<W> {
    fn of(cells: usize, operations: usize, schedule: usize) -> Lent<W> {
        Lent {
            cells: vec![W::from(0xDEAD_BEEF); cells],
            operations: vec![0xDEAD_BEEF; operations],
            schedule: vec![0xEE; schedule],
        }
    }

    fn load(&mut self, file: &[u8]) -> Loaded {
        load(
            file,
            &mut self.cells,
            &mut self.operations,
            &mut self.schedule,
        )
    }

    /// The elements from these on keep what they held.
    fn assert_kept(&self, cells: usize, operations: usize, entries: usize) {
        assert!(self.cells[cells..]
            .iter()
            .all(|&word| word == W::from(0xDEAD_BEEF)));
        assert!(self.operations[operations..]
            .iter()
            .all(|&word| word == 0xDEAD_BEEF));
        assert!(self.schedule[entries..].iter().all(|&byte| byte == 0xEE));
    }
}

fn assert_load_refused<W: Word>(
    mut lent: Lent<W>,
    file: &[u8],
    number: u32,
    place: usize,
    what: &str,
) {
    let refused = Loaded {
        number,
        place,
        cells: 0,
        operations: 0,
        entries: 0,
    };
    assert_eq!(lent.load(file), refused, "{what}");
    lent.assert_kept(0, 0, 0);
}

fn assert_file_refused<W: Word>(file: &[u8], number: u32, place: usize, what: &str) {
    let lent = Lent::<W>::of(4_096, 64, 16_384);
    assert_load_refused(lent, file, number, place, what);
    let line = format!("refused {number} at {place}\n");
    assert_eq!(text(file), line, "{what}");
}

/// The records of an accepted file.
fn accepted_records() -> Vec<Vec<u8>> {
    vec![
        tb(4),
        cl(3, 0x0201, 0x0403),
        cl(15, 65_535, 1),
        op(4, 0x0605, 0x0807),
        op(255, 0, 65_535),
        sc(&[9, 8, 7]),
        sc(&[255]),
    ]
}

#[test]
fn an_accepted_file_fills_what_it_names() {
    // Checks 4 to 8 are left to the run: key 65,535 with a total, a kind and a
    // key that are not allowed, and rows that are not there are all read.
    let mut lent = Lent::<u32>::of(4_100, 70, 16_390);
    let read = Loaded {
        number: 0,
        place: 0,
        cells: 16,
        operations: 2,
        entries: 4,
    };
    assert_eq!(lent.load(&accepted_records().concat()), read);
    let mut cells = vec![0; 16];
    cells[3] = 0x0201_0403;
    cells[15] = 0xFFFF_0001;
    assert_eq!(lent.cells[..16], cells);
    assert_eq!(lent.operations[..2], [0x04_0605_0807, 0xFF_0000_FFFF]);
    assert_eq!(lent.schedule[..4], [9, 8, 7, 255]);
    lent.assert_kept(16, 2, 4);
}

#[test]
fn an_accepted_wide_file_fills_what_it_names() {
    // An unflagged ceiling, a find with a flag and a tombstone with one are
    // left to the run too.
    let file = [
        tw(4),
        cl(3, 0x0201, (1, 0x0A09_0403)),
        cl(14, 5, (0, 0xFFFF_FFFF)),
        cl(15, 65_535, (1, 1)),
        op(4, 0x0605, (1, 0x0C0B_0807)),
        op(255, 0, (0, 0xFFFF_FFFF)),
        op(1, 1, (1, 0)),
        op(5, 65_535, (0, 0)),
        sc(&[9, 8, 7]),
        sc(&[255]),
    ];
    let mut lent = Lent::<u64>::of(4_100, 70, 16_390);
    let read = Loaded {
        number: 0,
        place: 0,
        cells: 16,
        operations: 4,
        entries: 4,
    };
    assert_eq!(lent.load(&file.concat()), read);
    let mut cells = vec![0; 16];
    cells[3] = 0x0201_0001_0A09_0403;
    cells[14] = 0x0005_0000_FFFF_FFFF;
    cells[15] = 0xFFFF_0001_0000_0001;
    assert_eq!(lent.cells[..16], cells);
    let operations = [
        0x0008_0C0B_0C0B_0807,
        0x01FE_0000_FFFF_FFFF,
        0x0002_0003_0000_0000,
        0x000B_FFFE_0000_0000,
    ];
    assert_eq!(lent.operations[..4], operations);
    assert_eq!(lent.schedule[..4], [9, 8, 7, 255]);
    lent.assert_kept(16, 4, 4);
}

#[test]
fn a_file_of_the_other_width_has_no_known_first_mark() {
    for k in [0, 3, 12, 13] {
        let lent = Lent::<u32>::of(4_096, 64, 16_384);
        assert_load_refused(lent, &tw(k), 9, 0, "wide to narrow");
        let lent = Lent::<u64>::of(4_096, 64, 16_384);
        assert_load_refused(lent, &tb(k), 9, 0, "narrow to wide");
    }
    // Longer than its marks, and with nothing else wrong.
    let records = accepted_records();
    let narrow = records.concat();
    let wide: Vec<u8> = records
        .iter()
        .flat_map(|record| u64::spelled(record))
        .collect();
    let lent = Lent::<u32>::of(4_096, 64, 16_384);
    assert_load_refused(lent, &wide, 9, 0, "wide to narrow");
    let lent = Lent::<u64>::of(4_096, 64, 16_384);
    assert_load_refused(lent, &narrow, 9, 0, "narrow to wide");
}

#[test]
fn the_first_mark_alone_decides_which_reader_is_taken() {
    // By the narrow reader the first three would be 9 at 0, by the wide one the
    // others.
    assert_eq!(text(b"TW"), "refused 10 at 0\n");
    assert_eq!(text(b"TW\x0D"), "refused 11 at 0\n");
    assert_eq!(text(b"TW\x03TW"), "refused 9 at 3\n");
    assert_eq!(text(b"TB"), "refused 10 at 0\n");
    assert_eq!(text(b"TB\x0D"), "refused 11 at 0\n");
    assert_eq!(text(b"TB\x03TW\x03"), "refused 9 at 3\n");
    // What opens with neither mark is the same to both.
    assert_eq!(text(b"T"), "refused 10 at 0\n");
    assert_eq!(text(b"WT\x03"), "refused 9 at 0\n");
    assert_eq!(text(b"tw\x03"), "refused 9 at 0\n");
}

fn a_file_cut_short_is_whole_only_between_records<W: Spelling>() {
    let records = accepted_records();
    let records: Vec<_> = records.iter().map(|record| W::spelled(record)).collect();
    let file = records.concat();
    let mut start = 0;
    for (whole, record) in records.iter().enumerate() {
        for end in start..start + record.len() {
            // The first record must be there; the others need not.
            if end == start && whole > 0 {
                let loaded = Lent::<W>::of(4_096, 64, 16_384).load(&file[..end]);
                assert_eq!((loaded.number, loaded.cells), (0, 16));
            } else {
                assert_file_refused::<W>(&file[..end], 10, start, &format!("{end} bytes"));
            }
        }
        start += record.len();
    }
}

/// What stands before a faulty record.
#[derive(Clone, Copy)]
enum Before {
    Nothing,
    Table,
    Cell,
    Row,
    Entry,
    /// All 64 rows.
    Rows,
    RowsAndEntry,
    /// All 16,384 entries, or 63 fewer.
    Entries,
    SomeEntries,
}

impl Before {
    fn bytes<W: Spelling>(self) -> Vec<u8> {
        let row = W::spelled(&op(1, 1, 0));
        let rows = vec![row.clone(); 64].concat();
        let most = vec![sc(&[0; 255]); 64].concat();
        let after_table = match self {
            Before::Nothing => return vec![],
            Before::Table => vec![],
            Before::Cell => W::spelled(&cl(4, 1, 0)),
            Before::Row => row,
            Before::Entry => sc(&[0]),
            Before::Rows => rows,
            Before::RowsAndEntry => [rows, sc(&[0])].concat(),
            Before::Entries => [most, sc(&[0; 64])].concat(),
            Before::SomeEntries => [most, sc(&[0])].concat(),
        };
        [W::spelled(&tb(3)), after_table].concat()
    }
}

/// What is wrong, what stands before, the faulty record and its number.
type Faulty = (&'static str, Before, &'static [u8], u32);

/// In the narrow spelling.
const FAULTY: [Faulty; 37] = [
    ("empty file", Before::Nothing, b"", 10),
    ("a byte of a first mark", Before::Nothing, b"T", 10),
    ("a byte of a mark", Before::Row, b"S", 10),
    ("a byte of no mark", Before::Row, b"X", 10),
    ("unknown first mark", Before::Nothing, b"XY", 9),
    ("unknown mark", Before::Row, b"XY\x01\0", 9),
    ("small letters", Before::Row, b"sc\x01\0", 9),
    ("letters turned round", Before::Nothing, b"BT\x03", 9),
    ("CL first", Before::Nothing, b"CL\0\0\0\x01\0\0", 9),
    ("OP first", Before::Nothing, b"OP\x01\0\x01\0\0", 9),
    ("SC first", Before::Nothing, b"SC\x01\0", 9),
    ("TB twice", Before::Table, b"TB\x03", 9),
    ("TB after CL", Before::Cell, b"TB\x03", 9),
    ("TB after SC", Before::Entry, b"TB\x03", 9),
    ("CL after OP", Before::Row, b"CL\0\0\0\x01\0\0", 9),
    ("CL after SC", Before::Entry, b"CL\0\0\0\x01\0\0", 9),
    ("OP after SC", Before::Entry, b"OP\x01\0\x01\0\0", 9),
    ("TB without k", Before::Nothing, b"TB", 10),
    ("CL cut short", Before::Table, b"CL\0\0\0\x01\0", 10),
    ("OP cut short", Before::Row, b"OP\x01\0\x01\0", 10),
    ("SC without count", Before::Row, b"SC", 10),
    ("SC cut short", Before::Row, b"SC\x02\0", 10),
    ("SC of 255 cut short", Before::Row, b"SC\xFF\0\0\0", 10),
    ("k 13", Before::Nothing, b"TB\x0D", 11),
    ("k 16", Before::Nothing, b"TB\x10", 11),
    ("k 64", Before::Nothing, b"TB\x40", 11),
    ("k 255", Before::Nothing, b"TB\xFF", 11),
    ("cell c", Before::Table, b"CL\0\x08\0\x01\0\0", 11),
    ("cell 65,535", Before::Table, b"CL\xFF\xFF\0\x01\0\0", 11),
    ("cell twice", Before::Cell, b"CL\0\x04\0\x02\0\0", 11),
    ("a lower cell", Before::Cell, b"CL\0\x03\0\x02\0\0", 11),
    ("key 0", Before::Table, b"CL\0\0\0\0\0\x01", 11),
    ("no entries", Before::Row, b"SC\0", 11),
    ("no entries more", Before::Entries, b"SC\0", 11),
    ("the 65th row", Before::Rows, b"OP\x01\0\x01\0\0", 2),
    ("16,385 entries", Before::Entries, b"SC\x01\0", 2),
    ("the 65th row, faulty", Before::Rows, b"OP\0\0\0\0\0", 2),
];

/// Records that meet two conditions, and the number of the earlier; in the
/// narrow spelling.
const TWICE_FAULTY: [Faulty; 11] = [
    ("TB twice and cut short", Before::Table, b"TB", 9),
    ("CL first and cut short", Before::Nothing, b"CL", 9),
    ("SC first and cut short", Before::Nothing, b"SC\x05", 9),
    ("TB twice with k 13", Before::Table, b"TB\x0D", 9),
    (
        "CL after OP with key 0",
        Before::Row,
        b"CL\0\x08\0\0\0\0",
        9,
    ),
    ("SC first, no entries", Before::Nothing, b"SC\0", 9),
    (
        "65th row after SC",
        Before::RowsAndEntry,
        b"OP\x01\0\x01\0\0",
        9,
    ),
    ("cell c cut short", Before::Table, b"CL\0\x08\0\x01\0", 10),
    ("key 0 cut short", Before::Table, b"CL\0\0\0\0\0", 10),
    ("65th row cut short", Before::Rows, b"OP\x01\0\x01\0", 10),
    ("too many, cut short", Before::SomeEntries, b"SC\x40\0", 10),
];

/// A file that ends with a faulty record.
struct Ending {
    what: &'static str,
    before: Vec<u8>,
    record: Vec<u8>,
    number: u32,
}

impl Ending {
    fn file(&self) -> Vec<u8> {
        [&self.before[..], &self.record].concat()
    }
}

/// The records that both widths have, and the width's own.
fn endings<W: Spelling>(shared: &[Faulty], own: &[Faulty]) -> Vec<Ending> {
    let ending = |&(what, before, _, number): &Faulty, record| Ending {
        what,
        before: before.bytes::<W>(),
        record,
        number,
    };
    let shared = shared
        .iter()
        .map(|faulty| ending(faulty, W::spelled(faulty.2)));
    let own = own.iter().map(|faulty| ending(faulty, faulty.2.to_vec()));
    shared.chain(own).collect()
}

fn all_faulty<W: Spelling>() -> Vec<Ending> {
    let mut all = endings::<W>(&FAULTY, W::FAULTY);
    all.extend(endings::<W>(&TWICE_FAULTY, W::TWICE_FAULTY));
    all
}

fn assert_each_refused<W: Spelling>(endings: &[Ending]) {
    for ending in endings {
        let place = ending.before.len();
        assert_file_refused::<W>(&ending.file(), ending.number, place, ending.what);
    }
}

fn each_faulty_record_alone<W: Spelling>() {
    assert_each_refused::<W>(&endings::<W>(&FAULTY, W::FAULTY));
}

fn of_two_faults_in_a_record_the_earlier_decides<W: Spelling>() {
    assert_each_refused::<W>(&endings::<W>(&TWICE_FAULTY, W::TWICE_FAULTY));
}

fn as_many_entries_as_fit_are_read<W: Spelling>() {
    let file = [Before::SomeEntries.bytes::<W>(), sc(&[0; 63])].concat();
    let loaded = Lent::<W>::of(4_096, 64, 16_384).load(&file);
    assert_eq!((loaded.number, loaded.entries), (0, 16_384));
    let file = [Before::SomeEntries.bytes::<W>(), sc(&[0; 64])].concat();
    // The first record's 3 bytes, 64 records of 258 and one of 4 come before.
    assert_file_refused::<W>(&file, 2, 16_519, "64 entries more");
}

fn the_first_faulty_record_decides<W: Spelling>() {
    let all = all_faulty::<W>();
    // A record cut short would be made whole by what follows it.
    for first in all.iter().filter(|ending| ending.number != 10) {
        for second in &all {
            let file = [first.file(), second.record.clone()].concat();
            assert_file_refused::<W>(&file, first.number, first.before.len(), first.what);
        }
    }
}

fn a_short_slice_decides_before_the_file<W: Spelling>() {
    let short = [
        (4_095, 64, 16_384),
        (4_096, 63, 16_384),
        (4_096, 64, 16_383),
        (0, 0, 0),
    ];
    let mut files = vec![
        (W::spelled(&tb(3)), "a good file"),
        (vec![0; 65_536], "a long file"),
    ];
    for ending in all_faulty::<W>() {
        files.push((ending.file(), ending.what));
    }
    for (cells, operations, schedule) in short {
        for (file, what) in &files {
            let lent = Lent::<W>::of(cells, operations, schedule);
            assert_load_refused(lent, file, 3, 0, what);
        }
    }
}

fn a_long_file_decides_before_its_records<W: Spelling>() {
    for ending in all_faulty::<W>() {
        let mut file = ending.file();
        file.resize(65_536, 0);
        assert_file_refused::<W>(&file, 12, 0, ending.what);
    }
}

/// As many cells and as many entries, one to a record: the file is as long as
/// can be and read, and one byte more is not.
fn assert_longest_read<W: Word>(table: Vec<u8>, cells: Vec<Vec<u8>>, entries: usize) {
    let mut file = [table, cells.concat(), sc(&[0]).repeat(entries)].concat();
    assert_eq!(file.len(), 65_535);
    let read = Loaded {
        number: 0,
        place: 0,
        cells: 4_096,
        operations: 0,
        entries,
    };
    assert_eq!(Lent::<W>::of(4_096, 64, 16_384).load(&file), read);
    file.push(b'S');
    assert_file_refused::<W>(&file, 12, 0, "65,536 bytes");
}

#[test]
fn a_file_of_65_535_bytes_is_read_and_one_more_is_not() {
    // 3 bytes of TB, 4,094 cells of 8, 8,195 entries of 4 bytes each.
    let cells = (0..4_094).map(|number| cl(number, number + 1, 0));
    assert_longest_read::<u32>(tb(12), cells.collect(), 8_195);
    // 3 bytes of TW, 4,092 cells of 11, 5,130 entries of 4 bytes each.
    let cells = (0..4_092).map(|number| cl(number, number + 1, (1, 7)));
    assert_longest_read::<u64>(tw(12), cells.collect(), 5_130);
}

#[test]
fn what_the_reader_leaves_the_run_refuses() {
    let files = [
        (4, 2, vec![tb(3), cl(2, 65_535, 1)]),
        (5, 1, vec![tb(3), op(1, 1, 0), op(6, 1, 0)]),
        (5, 0, vec![tb(3), op(1, 0, 0), sc(&[1])]),
        (6, 2, vec![tb(3), op(1, 1, 0), sc(&[0, 0]), sc(&[1])]),
        (6, 0, vec![tb(3), sc(&[0])]),
        (7, 5, vec![tb(3), cl(4, 1, 40), cl(5, 1, 40)]),
        (8, 0, vec![tb(3), cl(0, 16, 3)]),
        (4, 2, vec![tw(3), cl(2, 65_535, (0, 1))]),
        (4, 2, vec![tw(3), cl(2, 65_535, (1, 0))]),
        (4, 4, vec![tw(3), cl(4, 1, (0, 4_294_967_295))]),
        (5, 1, vec![tw(3), op(1, 1, (0, 0)), op(6, 1, (0, 0))]),
        (5, 0, vec![tw(3), op(1, 1, (1, 0)), sc(&[1])]),
        (5, 0, vec![tw(3), op(5, 1, (1, 0)), sc(&[0])]),
        (5, 0, vec![tw(3), op(4, 1, (0, 4_294_967_295))]),
        (6, 2, vec![tw(3), op(1, 1, (0, 0)), sc(&[0, 0, 1])]),
        (7, 5, vec![tw(3), cl(4, 1, (0, 40)), cl(5, 1, (1, 40))]),
        (8, 0, vec![tw(3), cl(0, 16, (1, 3))]),
    ];
    for (number, place, records) in files {
        let line = format!("refused {number} at {place}\n");
        assert_eq!(text(&records.concat()), line);
    }
}

#[test]
fn a_flag_byte_decides_before_all_that_is_left_to_the_run() {
    // An unflagged ceiling, kind 6 and an unknown entry stand round it; 3 bytes
    // of TW, one cell of 11 and one row of 10 come before.
    let file = [
        tw(3),
        cl(4, 1, (0, 4_294_967_295)),
        op(6, 1, (0, 0)),
        op(4, 1, (2, 0)),
        sc(&[9]),
    ];
    assert_eq!(text(&file.concat()), "refused 11 at 24\n");
}
