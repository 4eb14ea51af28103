//! Every case that the specification works out, in its order and with every
//! number it states; behind them those of document 02 by its requests: the adds
//! that hit the ceiling, A1, tables of 1, 2 and 4 cells, A2, the wide width, A4,
//! and updates of pinned totals, A6, with their neighbours. Tables have 8 cells
//! where no other number stands.

mod support {
    pub mod answers;
    pub mod calls;
    pub mod files;
    pub mod leaves;
    pub mod narrow;
    pub mod words;
}

use model::{home, load, run, sum, Loaded, Outcome, Word};
use support::answers::reply;
use support::calls::{Call, OLD_ANSWER, OLD_LOG};
use support::files::{cl, op, sc, tb, text, tw};
use support::leaves::assert_leaves;
use support::narrow::{answer, operation, table};
use support::words::{filled, row, Width, FLAG};

fn refused(number: u32, place: usize) -> Outcome {
    Outcome {
        number,
        place,
        done: 0,
        lost: 0,
        idle: 0,
    }
}

#[test]
fn homes_in_eight_cells() {
    let worked = [
        (4, vec![1, 9, 17]),
        (1, vec![2, 10]),
        (0, vec![5]),
        (7, vec![8, 16]),
    ];
    for (cell, keys) in worked {
        for key in keys {
            assert_eq!(home(key, 8), cell, "key {key}");
        }
    }
}

#[test]
fn sums_near_the_most() {
    assert_eq!(sum(65_534, 0), 65_534);
    // A true first total became pinned: 65,536 more.
    assert_eq!(sum(65_534, 1), 65_535 + 65_536);
    assert_eq!(sum(65_535, 0), 65_535);
}

const IN_FULL: [u8; 39] = [
    0x54, 0x42, 0x03, // a table of 8 cells
    0x4F, 0x50, 0x04, 0x00, 0x01, 0x00, 0x28, // add 1 40
    0x4F, 0x50, 0x04, 0x00, 0x09, 0x00, 0x19, // add 9 25
    0x4F, 0x50, 0x04, 0x00, 0x01, 0xFF, 0xDC, // add 1 65500
    0x53, 0x43, 0x0C, // twelve entries
    0x00, 0x01, 0x02, 0x00, 0x01, 0x02, 0x01, 0x01, 0x02, 0x02, 0x01, 0x00,
];

#[test]
fn run_in_full_text() {
    let expected = "rows 3 done 3 lost 2 idle 1\n\
                    row 0 add 1 40 inserted 0\n\
                    row 1 add 9 25 inserted 0\n\
                    row 2 add 1 65500 capped 40\n\
                    log 0 2 1\n\
                    cell 4 1 pinned\n\
                    cell 5 9 25\n";
    assert_eq!(text(&IN_FULL), expected);
}

#[test]
fn run_in_full_slices() {
    let operations = [
        operation("add", 1, 40),
        operation("add", 9, 25),
        operation("add", 1, 65_500),
    ];
    assert_leaves(
        Call::new(
            table(8, &[]),
            &operations,
            &[0, 1, 2, 0, 1, 2, 1, 1, 2, 2, 1, 0],
        ),
        [3, 2, 1],
        &[
            answer("inserted", 0),
            answer("inserted", 0),
            answer("capped", 40),
        ],
        &[0, 2, 1],
        &table(8, &[(4, 1, 65_535), (5, 9, 25)]),
    );
}

#[test]
fn insert_passes_a_tombstone_slices() {
    let operations = [operation("remove", 1, 0), operation("insert", 9, 7)];
    let after = table(8, &[(4, 65_535, 0), (5, 9, 25)]);
    assert_eq!(after[4], u32::GONE);
    assert_leaves(
        Call::new(
            table(8, &[(4, 1, 40), (5, 9, 25)]),
            &operations,
            &[0, 0, 1, 1],
        ),
        [2, 0, 0],
        &[answer("removed", 40), answer("present", 25)],
        &[0, 1],
        &after,
    );
}

#[test]
fn insert_passes_a_tombstone_text() {
    let file = [
        tb(3),
        cl(4, 1, 40),
        cl(5, 9, 25),
        op(5, 1, 0),
        op(2, 9, 7),
        sc(&[0, 0, 1, 1]),
    ];
    let expected = "rows 2 done 2 lost 0 idle 0\n\
                    row 0 remove 1 0 removed 40\n\
                    row 1 insert 9 7 present 25\n\
                    log 0 1\n\
                    cell 4 gone\n\
                    cell 5 9 25\n";
    assert_eq!(text(&file.concat()), expected);
}

#[test]
fn second_add_loses_once_slices() {
    let operations = [operation("add", 1, 5), operation("add", 1, 7)];
    assert_leaves(
        Call::new(table(8, &[(4, 1, 40)]), &operations, &[0, 1, 0, 1, 1, 1]),
        [2, 1, 0],
        &[answer("changed", 40), answer("changed", 45)],
        &[0, 1],
        &table(8, &[(4, 1, 52)]),
    );
}

#[test]
fn second_add_loses_once_text() {
    let file = [
        tb(3),
        cl(4, 1, 40),
        op(4, 1, 5),
        op(4, 1, 7),
        sc(&[0, 1, 0, 1, 1, 1]),
    ];
    let expected = "rows 2 done 2 lost 1 idle 0\n\
                    row 0 add 1 5 changed 40\n\
                    row 1 add 1 7 changed 45\n\
                    log 0 1\n\
                    cell 4 1 52\n";
    assert_eq!(text(&file.concat()), expected);
}

/// Keys 1 to 8, each at its home.
const FULL: [(usize, u64, u64); 8] = [
    (0, 5, 50),
    (1, 2, 20),
    (2, 7, 70),
    (3, 4, 40),
    (4, 1, 10),
    (5, 6, 60),
    (6, 3, 30),
    (7, 8, 80),
];

#[test]
fn keys_one_to_eight_stand_at_home() {
    for (cell, key, _) in FULL {
        assert_eq!(home(key as u32, 8) as usize, cell, "key {key}");
    }
}

#[test]
fn add_to_a_full_table_is_unfinished_after_seven_steps() {
    assert_leaves(
        Call::new(table(8, &FULL), &[operation("add", 9, 3)], &[0; 7]),
        [0, 0, 0],
        &[answer("unfinished", 0)],
        &[],
        &table(8, &FULL),
    );
}

#[test]
fn add_to_a_full_table_is_full_at_the_eighth_step() {
    assert_leaves(
        Call::new(table(8, &FULL), &[operation("add", 9, 3)], &[0; 8]),
        [1, 0, 0],
        &[answer("full", 0)],
        &[0],
        &table(8, &FULL),
    );
}

#[test]
fn find_in_a_full_table_is_absent_at_the_eighth_step() {
    let find = [operation("find", 9, 0)];
    assert_leaves(
        Call::new(table(8, &FULL), &find, &[0; 7]),
        [0, 0, 0],
        &[answer("unfinished", 0)],
        &[],
        &table(8, &FULL),
    );
    assert_leaves(
        Call::new(table(8, &FULL), &find, &[0; 8]),
        [1, 0, 0],
        &[answer("absent", 0)],
        &[0],
        &table(8, &FULL),
    );
}

#[test]
fn after_the_last_cell_comes_cell_zero() {
    let add = [operation("add", 16, 3)];
    let before = table(8, &[(7, 8, 1)]);
    assert_leaves(
        Call::new(before.clone(), &add, &[0; 2]),
        [0, 0, 0],
        &[answer("unfinished", 0)],
        &[],
        &before,
    );
    assert_leaves(
        Call::new(before, &add, &[0; 3]),
        [1, 0, 0],
        &[answer("inserted", 0)],
        &[0],
        &table(8, &[(0, 16, 3), (7, 8, 1)]),
    );
}

#[test]
fn a_key_behind_an_empty_cell_is_refused() {
    let mut call = Call::new(table(8, &[(5, 9, 25)]), &[], &[]);
    let before = call.clone();
    assert_eq!(call.run(), refused(8, 5));
    assert_eq!(call, before);
    let file = [tb(3), cl(5, 9, 25)];
    assert_eq!(text(&file.concat()), "refused 8 at 5\n");
}

#[test]
fn a_key_in_two_cells_is_refused() {
    let mut call = Call::new(table(8, &[(4, 1, 40), (5, 1, 40)]), &[], &[]);
    let before = call.clone();
    assert_eq!(call.run(), refused(7, 5));
    assert_eq!(call, before);
    let file = [tb(3), cl(4, 1, 40), cl(5, 1, 40)];
    assert_eq!(text(&file.concat()), "refused 7 at 5\n");
}

#[test]
fn twelve_cells_are_refused_and_four_run() {
    for c in [1, 4] {
        assert_eq!(Call::new(table(c, &[]), &[], &[]).run(), refused(0, 0));
    }
    for c in [0, 3, 12] {
        let mut call = Call::new(table(c, &[]), &[], &[]);
        let before = call.clone();
        assert_eq!(call.run(), refused(1, 0), "{c} cells");
        assert_eq!(call, before);
    }
}

/// `count` entries that name the 64 operations in turn.
fn in_turn(count: usize) -> Vec<u8> {
    (0..count).map(|place| (place % 64) as u8).collect()
}

#[test]
fn the_most_operations_and_entries_run() {
    // Each find finishes at its first entry; the others are idle.
    let finds = [operation("find", 1, 0); 64];
    assert_leaves(
        Call::new(table(8, &[]), &finds, &in_turn(16_384)),
        [64, 0, 16_320],
        &[answer("absent", 0); 64],
        &in_turn(64),
        &table(8, &[]),
    );
}

#[test]
fn more_operations_or_entries_are_refused() {
    let find = operation("find", 1, 0);
    let mut call = Call::new(table(8, &[]), &[find; 65], &in_turn(16_384));
    assert_eq!(call.run(), refused(2, 0));
    let mut call = Call::new(table(8, &[]), &[find; 64], &in_turn(16_385));
    assert_eq!(call.run(), refused(2, 0));
}

/// A file, narrow or wide by its first two records, of as many finds of key 1
/// and as many entries, each record of entries as long as can be.
fn file_of([table, find]: [Vec<u8>; 2], operations: usize, entries: usize) -> Vec<u8> {
    let mut file = table;
    for _ in 0..operations {
        file.extend(&find);
    }
    for part in in_turn(entries).chunks(255) {
        file.extend(sc(part));
    }
    file
}

fn narrow() -> [Vec<u8>; 2] {
    [tb(3), op(1, 1, 0)]
}

fn wide() -> [Vec<u8>; 2] {
    [tw(3), op(1, 1, (0, 0))]
}

#[test]
fn a_file_of_the_most_operations_and_entries_runs() {
    let mut expected = String::from("rows 64 done 64 lost 0 idle 16320\n");
    for number in 0..64 {
        expected += &format!("row {number} find 1 0 absent 0\n");
    }
    expected += "log";
    for number in 0..64 {
        expected += &format!(" {number}");
    }
    expected += "\n";
    for width in [narrow(), wide()] {
        assert_eq!(text(&file_of(width, 64, 16_384)), expected);
    }
}

#[test]
fn a_file_of_more_operations_or_entries_is_refused() {
    // 3 bytes of TB and 64 rows of 7 come before the 65th row.
    assert_eq!(text(&file_of(narrow(), 65, 16_384)), "refused 2 at 451\n");
    // The last record, after 64 of 258 bytes, brings 65 entries to 16,320.
    assert_eq!(text(&file_of(narrow(), 64, 16_385)), "refused 2 at 16963\n");
    // Wide rows have 10 bytes.
    assert_eq!(text(&file_of(wide(), 65, 16_384)), "refused 2 at 643\n");
    assert_eq!(text(&file_of(wide(), 64, 16_385)), "refused 2 at 17155\n");
}

fn load_bytes<W: Word>(file: &[u8]) -> Loaded {
    let mut cells = [W::from(7); 4_096];
    load(file, &mut cells, &mut [7; 64], &mut [7; 16_384])
}

#[test]
fn tables_of_the_least_and_most_cells_are_read() {
    for (k, c) in [(0, 1), (1, 2), (2, 4), (3, 8), (12, 4_096)] {
        let read = Loaded {
            number: 0,
            place: 0,
            cells: c,
            operations: 0,
            entries: 0,
        };
        assert_eq!(load_bytes::<u32>(&tb(k)), read);
        assert_eq!(load_bytes::<u64>(&tw(k)), read);
        for file in [tb(k), tw(k)] {
            assert_eq!(text(&file), "rows 0 done 0 lost 0 idle 0\nlog\n");
        }
    }
}

#[test]
fn tables_of_more_cells_are_refused() {
    let refused = Loaded {
        number: 11,
        place: 0,
        cells: 0,
        operations: 0,
        entries: 0,
    };
    for k in [13, 14, 16, 63, 64, 255] {
        assert_eq!(load_bytes::<u32>(&tb(k)), refused);
        assert_eq!(load_bytes::<u64>(&tw(k)), refused);
        for file in [tb(k), tw(k)] {
            assert_eq!(text(&file), "refused 11 at 0\n");
        }
    }
}

#[test]
fn operations_without_entries() {
    let before = table(8, &[(4, 1, 40), (5, 65_535, 0)]);
    let operations = [operation("add", 1, 5), operation("remove", 1, 0)];
    let mut cells = before.clone();
    let mut answers = [OLD_ANSWER; 4];
    let mut log = [OLD_LOG; 4];
    let outcome = run(&mut cells, &operations, &[], &mut answers, &mut log);
    assert_eq!(outcome, refused(0, 0));
    assert_eq!(answers, [0, 0, OLD_ANSWER, OLD_ANSWER]);
    assert_eq!(log, [OLD_LOG; 4]);
    assert_eq!(cells, before);
}

#[test]
fn operations_without_entries_text() {
    let file = [
        tb(3),
        cl(4, 1, 40),
        cl(5, 65_535, 0),
        op(4, 1, 5),
        op(5, 1, 0),
    ];
    let expected = "rows 2 done 0 lost 0 idle 0\n\
                    row 0 add 1 5 unfinished 0\n\
                    row 1 remove 1 0 unfinished 0\n\
                    log\n\
                    cell 4 1 40\n\
                    cell 5 gone\n";
    assert_eq!(text(&file.concat()), expected);
}

/// One operation alone on room 1, which has this total: its answer has the old
/// total, and the room has the new one.
fn assert_room_one<W: Width>(total: u64, operation: u64, name: &str, new: u64) {
    assert_leaves::<W>(
        Call::new(filled(8, &[(4, 1, total)]), &[operation], &[0, 0]),
        [1, 0, 0],
        &[reply(name, total)],
        &[0],
        &filled(8, &[(4, 1, new)]),
    );
}

#[test]
fn an_add_that_pins_a_true_total_is_capped_with_the_old_total() {
    let worked = [
        // To 65,535 and no further.
        (65_534, 1),
        (40, 65_495),
        (1, 65_534),
        (0, 65_535),
        // Above.
        (65_534, 2),
        (40, 65_496),
        (40_000, 40_000),
        (65_534, 65_534),
        // A pinned amount, which is at least 65,535.
        (40, 65_535),
        (65_534, 65_535),
    ];
    for (total, amount) in worked {
        assert_room_one::<u32>(total, operation("add", 1, amount), "capped", 65_535);
    }
}

#[test]
fn an_add_that_leaves_the_total_true_is_changed() {
    for (total, amount, new) in [
        (65_534, 0, 65_534),
        (65_533, 1, 65_534),
        (40, 65_494, 65_534),
        (0, 65_534, 65_534),
        (0, 0, 0),
    ] {
        assert_room_one::<u32>(total, operation("add", 1, amount), "changed", new);
    }
}

#[test]
fn an_add_to_a_pinned_total_is_changed() {
    for amount in [0, 1, 65_534, 65_535] {
        let add = operation("add", 1, amount);
        assert_room_one::<u32>(65_535, add, "changed", 65_535);
    }
}

#[test]
fn an_update_to_a_pinned_amount_is_changed() {
    // Only an add is capped.
    for total in [0, 40, 65_534] {
        let update = operation("update", 1, 65_535);
        assert_room_one::<u32>(total, update, "changed", 65_535);
    }
}

#[test]
fn an_add_that_inserts_a_pinned_amount_is_inserted() {
    // There was no total to turn into a pinned one.
    assert_leaves(
        Call::new(table(8, &[]), &[operation("add", 1, 65_535)], &[0, 0]),
        [1, 0, 0],
        &[answer("inserted", 0)],
        &[0],
        &table(8, &[(4, 1, 65_535)]),
    );
}

#[test]
fn adds_around_the_ceiling_text() {
    let file = [
        tb(3),
        cl(4, 1, 65_533),
        op(4, 1, 1),
        op(4, 1, 1),
        op(4, 1, 1),
        op(4, 9, 65_535),
        sc(&[0, 0, 1, 1, 2, 2, 3, 3, 3]),
    ];
    let expected = "rows 4 done 4 lost 0 idle 0\n\
                    row 0 add 1 1 changed 65533\n\
                    row 1 add 1 1 capped 65534\n\
                    row 2 add 1 1 changed pinned\n\
                    row 3 add 9 pinned inserted 0\n\
                    log 0 1 2 3\n\
                    cell 4 1 pinned\n\
                    cell 5 9 pinned\n";
    assert_eq!(text(&file.concat()), expected);
}

/// Room 1 has total 40, and both operations hold that word. Operation 0 swaps
/// first, operation 1 loses its swap once, reads again and swaps: their answers
/// and the room's total after both.
fn assert_second_retries<W: Width>(operations: [u64; 2], answers: [W; 2], total: u64) {
    assert_leaves::<W>(
        Call::new(filled(8, &[(4, 1, 40)]), &operations, &[0, 1, 0, 1, 1, 1]),
        [2, 1, 0],
        &answers,
        &[0, 1],
        &filled(8, &[(4, 1, total)]),
    );
}

#[test]
fn a_retried_add_is_capped_with_the_total_that_it_read_again() {
    // 40 + 65,490 would be true; 45 + 65,490 is not.
    assert_second_retries(
        [operation("add", 1, 5), operation("add", 1, 65_490)],
        [answer("changed", 40), answer("capped", 45)],
        65_535,
    );
    // It would have been capped at first too, but with 40.
    assert_second_retries(
        [operation("add", 1, 5), operation("add", 1, 65_500)],
        [answer("changed", 40), answer("capped", 45)],
        65_535,
    );
}

#[test]
fn of_two_adds_that_would_both_be_capped_the_first_is() {
    assert_second_retries(
        [operation("add", 1, 65_500), operation("add", 1, 65_510)],
        [answer("capped", 40), answer("changed", 65_535)],
        65_535,
    );
}

#[test]
fn a_retried_add_that_leaves_the_total_true_is_changed() {
    // 40 + 65,500 would be pinned; 3 + 65,500 is not.
    assert_second_retries(
        [operation("update", 1, 3), operation("add", 1, 65_500)],
        [answer("changed", 40), answer("changed", 3)],
        65_503,
    );
}

#[test]
fn a_retried_add_whose_room_was_removed_is_inserted() {
    let operations = [operation("remove", 1, 0), operation("add", 1, 65_535)];
    assert_leaves(
        // The add passes the tombstone and fills cell 5.
        Call::new(table(8, &[(4, 1, 40)]), &operations, &[0, 1, 0, 1, 1, 1, 1]),
        [2, 1, 0],
        &[answer("removed", 40), answer("inserted", 0)],
        &[0, 1],
        &table(8, &[(4, 65_535, 0), (5, 1, 65_535)]),
    );
}

#[test]
fn a_job_of_one_room_in_one_cell() {
    // Both adds hold the empty cell; the second loses its swap and reads again.
    let operations = [
        operation("add", 1, 40),
        operation("find", 2, 0),
        operation("add", 2, 25),
        operation("add", 1, 5),
    ];
    assert_leaves(
        Call::new(table(1, &[]), &operations, &[0, 2, 0, 2, 1, 2, 3, 3]),
        [4, 1, 0],
        &[
            answer("inserted", 0),
            answer("absent", 0),
            answer("full", 0),
            answer("changed", 40),
        ],
        &[0, 1, 2, 3],
        &table(1, &[(0, 1, 45)]),
    );
}

#[test]
fn a_job_of_one_room_text() {
    let file = [tb(0), op(4, 1, 40), op(1, 2, 0), sc(&[0, 1, 0])];
    // The find sees the empty cell.
    let expected = "rows 2 done 2 lost 0 idle 0\n\
                    row 0 add 1 40 inserted 0\n\
                    row 1 find 2 0 absent 0\n\
                    log 1 0\n\
                    cell 0 1 40\n";
    assert_eq!(text(&file.concat()), expected);
    let file = [tb(0), cl(1, 1, 40)];
    assert_eq!(text(&file.concat()), "refused 11 at 3\n");
}

#[test]
fn after_the_second_of_two_cells_comes_the_first() {
    // Rooms 1, 9 and 17 have their home in cell 1.
    let operations = [
        operation("add", 9, 25),
        operation("add", 17, 1),
        operation("find", 9, 0),
    ];
    assert_leaves(
        Call::new(table(2, &[(1, 1, 40)]), &operations, &[0, 0, 0, 1, 2, 1, 2]),
        [3, 0, 0],
        &[
            answer("inserted", 0),
            answer("full", 0),
            answer("found", 25),
        ],
        &[0, 1, 2],
        &table(2, &[(0, 9, 25), (1, 1, 40)]),
    );
}

#[test]
fn four_full_cells_are_passed_in_four_steps() {
    let full = table(4, &[(0, 2, 20), (1, 4, 40), (2, 1, 10), (3, 3, 30)]);
    for (kind, amount, name) in [("add", 1, "full"), ("find", 0, "absent")] {
        let row = [operation(kind, 5, amount)];
        assert_leaves(
            Call::new(full.clone(), &row, &[0; 3]),
            [0, 0, 0],
            &[answer("unfinished", 0)],
            &[],
            &full,
        );
        assert_leaves(
            Call::new(full.clone(), &row, &[0; 4]),
            [1, 0, 0],
            &[answer(name, 0)],
            &[0],
            &full,
        );
    }
}

/// The run in full with wide totals: the amount of row 2 takes 40 past the
/// ceiling of 32 bits.
const WIDE_IN_FULL: [u8; 48] = [
    0x54, 0x57, 0x03, // a wide table of 8 cells
    0x4F, 0x50, 0x04, 0x00, 0x01, 0x00, 0x00, 0x00, 0x00, 0x28, // add 1 40
    0x4F, 0x50, 0x04, 0x00, 0x09, 0x00, 0x00, 0x00, 0x00, 0x19, // add 9 25
    0x4F, 0x50, 0x04, 0x00, 0x01, 0x00, 0xFF, 0xFF, 0xFF, 0xDC, // add 1 4294967260
    0x53, 0x43, 0x0C, // twelve entries
    0x00, 0x01, 0x02, 0x00, 0x01, 0x02, 0x01, 0x01, 0x02, 0x02, 0x01, 0x00,
];

#[test]
fn wide_run_in_full_text() {
    let expected = "rows 3 done 3 lost 2 idle 1\n\
                    row 0 add 1 40 inserted 0\n\
                    row 1 add 9 25 inserted 0\n\
                    row 2 add 1 4294967260 capped 40\n\
                    log 0 2 1\n\
                    cell 4 1 atleast 4294967295\n\
                    cell 5 9 25\n";
    assert_eq!(text(&WIDE_IN_FULL), expected);
}

#[test]
fn wide_run_in_full_slices() {
    // Kind x 2^49 + key x 2^33 + amount; an answer is code x 2^33 + total, and
    // a cell key x 2^48 + flag x 2^32 + total.
    let operations = [
        0x0008_0002_0000_0028,
        0x0008_0012_0000_0019,
        0x0008_0002_FFFF_FFDC,
    ];
    let mut cells = vec![0_u64; 8];
    cells[4] = 0x0001_0001_FFFF_FFFF;
    cells[5] = 0x0009_0000_0000_0019;
    assert_leaves(
        Call::new(
            vec![0; 8],
            &operations,
            &[0, 1, 2, 0, 1, 2, 1, 1, 2, 2, 1, 0],
        ),
        [3, 2, 1],
        &[0x4_0000_0000, 0x4_0000_0000, 0x10_0000_0028],
        &[0, 2, 1],
        &cells,
    );
}

#[test]
fn flags_in_a_wide_run_text() {
    let file = [
        tw(3),
        cl(4, 1, (1, 3)),
        cl(5, 9, (0, 65_535)),
        cl(6, 65_535, (0, 0)),
        op(4, 1, (0, 4)),
        op(4, 9, (1, 4)),
        op(1, 1, (0, 0)),
        op(2, 17, (1, 0)),
        op(3, 9, (0, 4_294_967_294)),
        op(5, 1, (0, 0)),
        sc(&[0, 0, 1, 1, 1, 2, 3, 3, 3, 3, 3, 4, 4, 5, 5]),
    ];
    let expected = "rows 6 done 6 lost 0 idle 0\n\
                    row 0 add 1 4 changed atleast 3\n\
                    row 1 add 9 atleast 4 capped 65535\n\
                    row 2 find 1 0 found atleast 7\n\
                    row 3 insert 17 atleast 0 inserted 0\n\
                    row 4 update 9 4294967294 held atleast 65539\n\
                    row 5 remove 1 0 removed atleast 7\n\
                    log 0 1 2 3 4 5\n\
                    cell 4 gone\n\
                    cell 5 9 atleast 65539\n\
                    cell 6 gone\n\
                    cell 7 17 atleast 0\n";
    assert_eq!(text(&file.concat()), expected);
}

/// One add alone on room 1 of a wide table.
fn assert_wide_add(total: u64, amount: u64, name: &str, new: u64) {
    assert_room_one::<u64>(total, row::<u64>("add", 1, amount), name, new);
}

/// The most that a wide total can say, flagged.
const MOST: u64 = u64::PINNED;

#[test]
fn a_wide_add_that_pins_a_true_total_is_capped_with_the_old_total() {
    let worked = [
        // To the ceiling and no further.
        (4_294_967_294, 1, MOST),
        (40, 4_294_967_255, MOST),
        (1, 4_294_967_294, MOST),
        // Above; in 32 bits the sums would wrap, the first two to 0.
        (4_294_967_294, 2, MOST),
        (2_147_483_648, 2_147_483_648, MOST),
        (4_294_967_294, 4_294_967_294, MOST),
        // By a flagged amount the sum is below the ceiling and pinned all the same.
        (3, FLAG + 4, FLAG + 7),
        (3, FLAG, FLAG + 3),
        (0, FLAG, FLAG),
        (65_534, FLAG + 1, FLAG + 65_535),
        (4_294_967_294, FLAG, FLAG + 4_294_967_294),
        // By a flagged amount, to the ceiling and above.
        (0, MOST, MOST),
        (4_294_967_294, FLAG + 1, MOST),
        (4_294_967_294, MOST, MOST),
    ];
    for (total, amount, new) in worked {
        assert_wide_add(total, amount, "capped", new);
    }
}

#[test]
fn a_wide_add_that_leaves_the_total_true_is_changed() {
    let worked = [
        (0, 0, 0),
        (0, 4_294_967_294, 4_294_967_294),
        (4_294_967_294, 0, 4_294_967_294),
        (4_294_967_293, 1, 4_294_967_294),
        (2_147_483_647, 2_147_483_647, 4_294_967_294),
        // What the narrow width would have held.
        (65_534, 1, 65_535),
        (65_535, 65_535, 131_070),
    ];
    for (total, amount, new) in worked {
        assert_wide_add(total, amount, "changed", new);
    }
}

#[test]
fn a_wide_add_to_a_pinned_total_is_changed_and_counts_on() {
    let worked = [
        (FLAG + 3, 4, FLAG + 7),
        (FLAG + 3, FLAG + 4, FLAG + 7),
        (FLAG, 0, FLAG),
        (FLAG + 4_294_967_293, 1, FLAG + 4_294_967_294),
        (FLAG + 4_294_967_294, 0, FLAG + 4_294_967_294),
        (FLAG + 4_294_967_294, 1, MOST),
        (FLAG + 2_147_483_648, 2_147_483_648, MOST),
        (FLAG + 3, MOST, MOST),
        (MOST, 0, MOST),
        (MOST, 4_294_967_294, MOST),
        (MOST, MOST, MOST),
    ];
    for (total, amount, new) in worked {
        assert_wide_add(total, amount, "changed", new);
    }
}

#[test]
fn a_wide_update_of_a_true_total_puts_its_amount_with_its_flag() {
    let worked = [
        (3, FLAG + 4),
        (3, 4),
        (0, MOST),
        // Pinned in the narrow width, and true here.
        (65_535, 7),
        (65_535, 65_535),
        (65_535, FLAG + 65_535),
        (65_536, 0),
        (4_294_967_294, 0),
        (4_294_967_294, 4_294_967_294),
    ];
    for (total, amount) in worked {
        let update = row::<u64>("update", 1, amount);
        assert_room_one::<u64>(total, update, "changed", amount);
    }
}

#[test]
fn a_wide_insertion_keeps_the_flag_and_is_not_capped() {
    for kind in ["add", "insert"] {
        for amount in [0, 4_294_967_294, FLAG, FLAG + 4, MOST] {
            assert_leaves::<u64>(
                Call::new(filled(8, &[]), &[row::<u64>(kind, 1, amount)], &[0, 0]),
                [1, 0, 0],
                &[reply("inserted", 0)],
                &[0],
                &filled(8, &[(4, 1, amount)]),
            );
        }
    }
}

#[test]
fn a_wide_add_retried_is_answered_by_the_flag_that_it_read_again() {
    let add = |amount| row::<u64>("add", 1, amount);
    // The first pins the total; the second would have.
    assert_second_retries::<u64>(
        [add(FLAG + 5), add(FLAG + 7)],
        [reply("capped", 40), reply("changed", FLAG + 45)],
        FLAG + 52,
    );
    assert_second_retries::<u64>(
        [add(5), add(FLAG + 7)],
        [reply("changed", 40), reply("capped", 45)],
        FLAG + 52,
    );
    assert_second_retries::<u64>(
        [add(FLAG + 5), add(4_294_967_290)],
        [reply("capped", 40), reply("changed", FLAG + 45)],
        MOST,
    );
}

#[test]
fn a_word_that_differs_by_its_flag_alone_loses_the_swap() {
    // The number is 40 before and after.
    assert_second_retries::<u64>(
        [row::<u64>("update", 1, FLAG + 40), row::<u64>("add", 1, 7)],
        [reply("changed", 40), reply("changed", FLAG + 40)],
        FLAG + 47,
    );
    assert_update_comes_too_late::<u64>(row::<u64>("add", 1, FLAG), reply("capped", 40), FLAG + 40);
}

/// One update alone on room 1, which has a pinned total: it finishes at its
/// only read with that total, further entries are idle, and the cell stays.
fn assert_held<W: Width>(total: u64, amount: u64) {
    let before = filled(8, &[(4, 1, total)]);
    let update = [row::<W>("update", 1, amount)];
    for idle in [0, 1, 2] {
        assert_leaves::<W>(
            Call::new(before.clone(), &update, &vec![0; 1 + idle]),
            [1, 0, idle],
            &[reply("held", total)],
            &[0],
            &before,
        );
    }
}

#[test]
fn an_update_of_a_pinned_total_is_held_at_its_read() {
    for amount in [0, 1, 40, 65_534, 65_535] {
        assert_held::<u32>(65_535, amount);
    }
    for amount in [0, 1, 65_534, 65_535] {
        let update = operation("update", 1, amount);
        assert_room_one::<u32>(65_534, update, "changed", amount);
    }
}

#[test]
fn a_wide_update_is_held_by_the_flag_and_not_by_the_number() {
    let totals = [
        FLAG,
        FLAG + 3,
        FLAG + 65_534,
        FLAG + 65_535,
        FLAG + 65_536,
        FLAG + 4_294_967_294,
        MOST,
    ];
    for total in totals {
        for amount in [0, 3, 65_535, 4_294_967_294, FLAG, FLAG + 3, MOST] {
            assert_held::<u64>(total, amount);
        }
    }
}

#[test]
fn held_has_code_nine() {
    // 9 x 2^16 + 65,535.
    let mut call = Call::new(vec![0x0001_FFFF_u32], &[0x0003_0001_0007], &[0]);
    assert_eq!(call.run().done, 1);
    assert_eq!((call.answers[0], call.cells[0]), (0x0009_FFFF, 0x0001_FFFF));
    // 9 x 2^33 + 2^32 + 3.
    let three = 0x0001_0001_0000_0003_u64;
    let mut call = Call::new(vec![three], &[0x0006_0002_0000_0007], &[0]);
    assert_eq!(call.run().done, 1);
    assert_eq!((call.answers[0], call.cells[0]), (0x13_0000_0003, three));
}

#[test]
fn updates_of_pinned_totals_text() {
    let file = [
        tb(3),
        cl(4, 1, 65_534),
        cl(5, 9, 65_535),
        op(3, 9, 100),
        op(3, 1, 65_535),
        op(3, 1, 100),
        op(3, 9, 65_535),
        op(2, 9, 100),
        sc(&[0, 0, 1, 1, 2, 3, 3, 4, 4, 2]),
    ];
    // Row 1 types a pinned amount over a true total, which then stays.
    let expected = "rows 5 done 5 lost 0 idle 1\n\
                    row 0 update 9 100 held pinned\n\
                    row 1 update 1 pinned changed 65534\n\
                    row 2 update 1 100 held pinned\n\
                    row 3 update 9 pinned held pinned\n\
                    row 4 insert 9 100 present pinned\n\
                    log 0 1 2 3 4\n\
                    cell 4 1 pinned\n\
                    cell 5 9 pinned\n";
    assert_eq!(text(&file.concat()), expected);
}

/// Room 1 has total 40, and an operation and an update both hold that word. The
/// operation swaps first and leaves this pinned total; the update loses its swap
/// and is then held at its next read, not before and not after.
fn assert_update_comes_too_late<W: Width>(first: u64, answer: W, total: u64) {
    let before = filled(8, &[(4, 1, 40)]);
    let after = filled(8, &[(4, 1, total)]);
    let operations = [first, row::<W>("update", 1, 7)];
    let lost = [0, 1, 0, 1];
    assert_leaves::<W>(
        Call::new(before.clone(), &operations, &lost),
        [1, 1, 0],
        &[answer, reply("unfinished", 0)],
        &[0],
        &after,
    );
    for idle in [0, 1] {
        let schedule = [&lost[..], &vec![1; 1 + idle]].concat();
        assert_leaves::<W>(
            Call::new(before.clone(), &operations, &schedule),
            [2, 1, idle],
            &[answer, reply("held", total)],
            &[0, 1],
            &after,
        );
    }
}

#[test]
fn an_update_whose_total_is_pinned_meanwhile_is_held() {
    for amount in [65_495, 65_496, 65_534, 65_535] {
        let add = operation("add", 1, amount);
        assert_update_comes_too_late(add, answer("capped", 40), 65_535);
    }
    let update = operation("update", 1, 65_535);
    assert_update_comes_too_late(update, answer("changed", 40), 65_535);
}

#[test]
fn a_wide_update_whose_total_is_flagged_meanwhile_is_held() {
    for (amount, total) in [
        (4_294_967_255, MOST),
        (4_294_967_294, MOST),
        (MOST, MOST),
        (FLAG, FLAG + 40),
        (FLAG + 3, FLAG + 43),
        (FLAG + 65_495, FLAG + 65_535),
    ] {
        let add = row::<u64>("add", 1, amount);
        assert_update_comes_too_late::<u64>(add, reply("capped", 40), total);
    }
    for total in [FLAG, FLAG + 40, MOST] {
        let update = row::<u64>("update", 1, total);
        assert_update_comes_too_late::<u64>(update, reply("changed", 40), total);
    }
}

#[test]
fn an_update_that_lost_to_a_true_total_is_changed() {
    // The sums come next to the ceiling, in the wide width also past 65,535.
    assert_second_retries(
        [operation("add", 1, 65_494), operation("update", 1, 7)],
        [answer("changed", 40), answer("changed", 65_534)],
        7,
    );
    for amount in [65_495, 4_294_967_254] {
        assert_second_retries::<u64>(
            [row::<u64>("add", 1, amount), row::<u64>("update", 1, 7)],
            [reply("changed", 40), reply("changed", 40 + amount)],
            7,
        );
    }
}
