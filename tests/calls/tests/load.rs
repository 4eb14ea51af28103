//! Calls of the reader of either width: slices of every length, with something
//! in them.

use calls::width::Width;
use model::Loaded;

#[derive(Debug, Clone, PartialEq)]
struct Slices<W> {
    cells: Vec<W>,
    operations: Vec<u64>,
    schedule: Vec<u8>,
}

fn slices<W: Width>(cells: usize, operations: usize, schedule: usize) -> Slices<W> {
    Slices {
        cells: vec![W::word(0xCCCC_CCCC_CCCC_CCCC); cells],
        operations: vec![0xDDDD_DDDD_DDDD_DDDD; operations],
        schedule: vec![0xEE; schedule],
    }
}

/// Reads a file twice. A refused file leaves every slice as it was; an accepted
/// one keeps what stands past what is written.
fn read<W: Width>(file: &[u8], before: &Slices<W>) -> Loaded {
    let (mut proved, mut model) = (before.clone(), before.clone());
    let loaded = calls::load(
        file,
        &mut proved.cells,
        &mut proved.operations,
        &mut proved.schedule,
    );
    let wanted = model::load(
        file,
        &mut model.cells,
        &mut model.operations,
        &mut model.schedule,
    );
    assert_eq!(loaded, wanted);
    assert_eq!(proved, model);
    if loaded.number != 0 {
        assert_eq!(&proved, before);
        assert_eq!((loaded.cells, loaded.operations, loaded.entries), (0, 0, 0));
    } else {
        assert_eq!(proved.cells[loaded.cells..], before.cells[loaded.cells..]);
        assert_eq!(
            proved.operations[loaded.operations..],
            before.operations[loaded.operations..]
        );
        assert_eq!(
            proved.schedule[loaded.entries..],
            before.schedule[loaded.entries..]
        );
    }
    loaded
}

fn a_slice_too_short<W: Width>() {
    let unknown = b"XY".as_slice();
    let long = [b'T'; 70_000].as_slice();
    for (cells, operations, schedule) in [
        (4_095, 64, 16_384),
        (4_096, 63, 16_384),
        (4_096, 64, 16_383),
        (0, 64, 16_384),
        (4_096, 0, 16_384),
        (4_096, 64, 0),
        (8, 1, 2),
        (0, 0, 0),
    ] {
        let before = slices::<W>(cells, operations, schedule);
        for file in [W::SMALL_FILE, &[], unknown, long] {
            let loaded = read(file, &before);
            assert_eq!((loaded.number, loaded.place), (3, 0));
        }
    }
}

fn slices_just_long_enough_and_longer<W: Width>() {
    for (cells, operations, schedule) in [(4_096, 64, 16_384), (5_000, 70, 20_000)] {
        let loaded = read(W::SMALL_FILE, &slices::<W>(cells, operations, schedule));
        assert_eq!((loaded.number, loaded.place), (0, 0));
        assert_eq!((loaded.cells, loaded.operations, loaded.entries), (8, 1, 2));
    }
}

fn more_than_65535_bytes<W: Width>() {
    let before = slices::<W>(4_096, 64, 16_384);
    for length in [65_536, 65_537, 1_000_000] {
        let mut file = W::SMALL_FILE.to_vec();
        file.resize(length, 0);
        let loaded = read(&file, &before);
        assert_eq!((loaded.number, loaded.place), (12, 0));
    }
}

fn generated_files<W: Width>() {
    let before = slices::<W>(4_100, 66, 16_390);
    let mut accepted = 0;
    for index in 0..10_000 {
        accepted += u32::from(read(&W::file(11, index), &before).number == 0);
    }
    println!("{accepted} of 10000 files accepted");
    assert!((3_000..9_000).contains(&accepted));
}

/// "Wide files begin with TW for TB": neither reader takes the other's.
#[test]
fn the_mark_of_the_other_width() {
    let narrow = read(u64::SMALL_FILE, &slices::<u32>(4_096, 64, 16_384));
    let wide = read(u32::SMALL_FILE, &slices::<u64>(4_096, 64, 16_384));
    for loaded in [narrow, wide] {
        assert_eq!((loaded.number, loaded.place), (9, 0));
    }
}

/// "Another flag byte with 11": every flag byte of a cell and of an operation.
#[test]
fn every_flag_byte() {
    // The cell stands at 3, the operation at 14.
    for (place, record) in [(9, 3), (19, 14)] {
        for flag in 0..=255 {
            let mut file = u64::SMALL_FILE.to_vec();
            file[place] = flag;
            let loaded = read(&file, &slices::<u64>(4_096, 64, 16_384));
            let wanted = if flag <= 1 { (0, 0) } else { (11, record) };
            assert_eq!((loaded.number, loaded.place), wanted, "{flag}");
        }
    }
}

/// What the wide reader leaves of the small file: "at least 40" for room 1, and
/// a find of it.
#[test]
fn the_words_of_a_wide_file() {
    let mut left = slices::<u64>(4_096, 64, 16_384);
    calls::load(
        u64::SMALL_FILE,
        &mut left.cells,
        &mut left.operations,
        &mut left.schedule,
    );
    let room = (1 << 48) + (1 << 32) + 40;
    assert_eq!(left.cells[..8], [0, 0, 0, 0, room, 0, 0, 0]);
    assert_eq!(left.operations[0], (1 << 49) + (1 << 33));
}

calls::in_both_widths! {
    a_slice_too_short,
    slices_just_long_enough_and_longer,
    more_than_65535_bytes,
    generated_files,
}
