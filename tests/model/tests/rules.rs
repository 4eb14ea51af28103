//! The rules that the worked cases leave out, with results worked by hand.

mod support {
    pub mod answers;
    pub mod calls;
    pub mod leaves;
    pub mod widths;
    pub mod words;
}

use model::{home, list, sum, Outcome};
use support::answers::reply;
use support::calls::Call;
use support::leaves::assert_leaves;
use support::widths::at_both_widths;
use support::words::{cell, filled, row, Width, FLAG};

#[test]
fn homes_by_quotient_and_remainder() {
    for k in 0..=12 {
        let c = 1_u32 << k;
        for key in 1..=65_534_u64 {
            let expected = (key * 40_503 % 65_536) / (65_536 / u64::from(c));
            assert_eq!(u64::from(home(key as u32, c)), expected, "{key} in {c}");
        }
    }
}

#[test]
fn no_home_where_the_key_or_the_cells_are_not_allowed() {
    for key in [0, 65_535, 65_536, 65_537, u32::MAX] {
        assert_eq!(home(key, 8), 65_535, "key {key}");
    }
    for c in [0, 3, 5, 6, 7, 9, 12, 4_095, 4_097, 8_192, 65_536, 1 << 31] {
        assert_eq!(home(1, c), 65_535, "{c} cells");
    }
}

#[test]
fn sums_are_whole_or_pinned() {
    let worked = [
        (0, 0, 0),
        (30_000, 30_000, 60_000),
        (1, 65_533, 65_534),
        (40_000, 40_000, 131_071),
        (0, 65_535, 131_071),
        (65_535, 65_535, 65_535),
    ];
    for (a, b, expected) in worked {
        assert_eq!(sum(a, b), expected, "{a} + {b}");
    }
}

#[test]
fn sums_near_the_ceiling_tell_whether_the_first_total_became_pinned() {
    for a in 0..=65_535_u16 {
        for whole in 65_530..=65_540_u32 {
            // Not every whole sum can be had with this total.
            let Some(b) = whole.checked_sub(u32::from(a)) else {
                continue;
            };
            let Ok(b) = u16::try_from(b) else {
                continue;
            };
            let expected = match whole {
                ..=65_534 => whole,
                _ if a == 65_535 => 65_535,
                _ => 131_071,
            };
            assert_eq!(sum(a, b), expected, "{a} + {b}");
        }
    }
}

#[test]
fn only_the_first_total_of_a_sum_is_told_of() {
    for true_total in 0..=65_534 {
        assert_eq!(sum(true_total, 65_535), 131_071, "{true_total} + pinned");
        assert_eq!(sum(65_535, true_total), 65_535, "pinned + {true_total}");
    }
    // Of two true totals either may come first.
    for (a, b) in [(0, 65_534), (1, 65_534), (2, 65_534), (30_000, 40_000)] {
        assert_eq!(sum(a, b), sum(b, a), "{a} and {b}");
    }
}

/// One operation alone on a table of 8 cells: its kind (on key 1, which has
/// home 4, with amount 7 where it takes one), the steps it needs, its answer
/// and the word it puts in the cell it stops at.
type Alone<W> = (&'static str, usize, (&'static str, u64), Option<W>);

/// Checks that the operation is unfinished and has changed nothing one step
/// before, and is as stated after its last step.
fn assert_alone<W: Width>(cells: &[W], stop: usize, alone: Alone<W>) {
    let (kind, steps, (name, total), word) = alone;
    let amount = if matches!(kind, "find" | "remove") {
        0
    } else {
        7
    };
    let operations = [row::<W>(kind, 1, amount)];
    assert_leaves::<W>(
        Call::new(cells.to_vec(), &operations, &vec![0; steps - 1]),
        [0, 0, 0],
        &[reply("unfinished", 0)],
        &[],
        cells,
    );
    let mut after = cells.to_vec();
    after[stop] = word.unwrap_or(after[stop]);
    assert_leaves::<W>(
        // Two entries more than needed are idle.
        Call::new(cells.to_vec(), &operations, &vec![0; steps + 2]),
        [1, 0, 2],
        &[reply(name, total)],
        &[0],
        &after,
    );
}

at_both_widths![
    own_key_at_home,
    own_key_at_home_with_a_pinned_total,
    empty_home,
    own_key_behind_another_and_a_tombstone,
    empty_cell_behind_a_tombstone_round_the_end,
    no_empty_cell_and_no_own_key,
    own_key_in_the_last_cell_reached,
    of_two_inserts_the_loser_finds_the_key_present,
    a_cell_lost_to_another_key_is_read_again_and_passed,
    an_update_that_lost_to_a_remove_is_absent,
    an_update_that_lost_twice_is_held_once_the_total_is_pinned,
    an_update_is_held_by_a_pinned_total_further_on,
    an_update_by_a_pinned_amount_is_changed_and_the_next_held,
    what_comes_behind_a_held_update_meets_the_same_total,
    a_room_removed_and_inserted_anew_can_be_updated,
    a_remove_that_lost_takes_the_new_total,
    a_swap_may_be_lost_again_and_again,
    a_cell_that_holds_the_seen_word_again_is_swapped,
    a_removed_key_comes_back_in_another_cell,
    cells_passed_before_a_lost_swap_stay_passed,
];

fn own_key_at_home<W: Width>() {
    let cells = filled(8, &[(4, 1, 40)]);
    let cases: [Alone<W>; 5] = [
        ("find", 1, ("found", 40), None),
        ("insert", 1, ("present", 40), None),
        ("update", 2, ("changed", 40), Some(cell(1, 7))),
        ("add", 2, ("changed", 40), Some(cell(1, 47))),
        ("remove", 2, ("removed", 40), Some(W::GONE)),
    ];
    for case in cases {
        assert_alone(&cells, 4, case);
    }
}

fn own_key_at_home_with_a_pinned_total<W: Width>() {
    let cells = filled(8, &[(4, 1, W::PINNED)]);
    let cases: [Alone<W>; 5] = [
        ("find", 1, ("found", W::PINNED), None),
        ("insert", 1, ("present", W::PINNED), None),
        ("update", 1, ("held", W::PINNED), None),
        ("add", 2, ("changed", W::PINNED), Some(cell(1, W::PINNED))),
        ("remove", 2, ("removed", W::PINNED), Some(W::GONE)),
    ];
    for case in cases {
        assert_alone(&cells, 4, case);
    }
}

fn empty_home<W: Width>() {
    let cases: [Alone<W>; 5] = [
        ("find", 1, ("absent", 0), None),
        ("insert", 2, ("inserted", 0), Some(cell(1, 7))),
        ("update", 1, ("absent", 0), None),
        ("add", 2, ("inserted", 0), Some(cell(1, 7))),
        ("remove", 1, ("absent", 0), None),
    ];
    for case in cases {
        // A cell past the empty one is not looked at.
        assert_alone(&filled(8, &[(0, 5, 3)]), 4, case);
    }
}

fn own_key_behind_another_and_a_tombstone<W: Width>() {
    let cells = filled(8, &[(4, 9, 25), (5, 65_535, 0), (6, 1, W::PINNED)]);
    let cases: [Alone<W>; 5] = [
        ("find", 3, ("found", W::PINNED), None),
        ("insert", 3, ("present", W::PINNED), None),
        ("update", 3, ("held", W::PINNED), None),
        ("add", 4, ("changed", W::PINNED), Some(cell(1, W::PINNED))),
        ("remove", 4, ("removed", W::PINNED), Some(W::GONE)),
    ];
    for case in cases {
        assert_alone(&cells, 6, case);
    }
}

fn empty_cell_behind_a_tombstone_round_the_end<W: Width>() {
    // Tombstones in cells 4 to 7; the search goes on at cell 0.
    let gone: Vec<_> = (4..8).map(|number| (number, 65_535, 0)).collect();
    let cases: [Alone<W>; 5] = [
        ("find", 5, ("absent", 0), None),
        ("insert", 6, ("inserted", 0), Some(cell(1, 7))),
        ("update", 5, ("absent", 0), None),
        ("add", 6, ("inserted", 0), Some(cell(1, 7))),
        ("remove", 5, ("absent", 0), None),
    ];
    for case in cases {
        assert_alone(&filled(8, &gone), 0, case);
    }
}

fn no_empty_cell_and_no_own_key<W: Width>() {
    let mut others: Vec<_> = (0..8).map(|number| (number, 65_535, 0)).collect();
    others[6] = (6, 9, 25);
    let cases: [Alone<W>; 5] = [
        ("find", 8, ("absent", 0), None),
        ("insert", 8, ("full", 0), None),
        ("update", 8, ("absent", 0), None),
        ("add", 8, ("full", 0), None),
        ("remove", 8, ("absent", 0), None),
    ];
    for case in cases {
        assert_alone(&filled(8, &others), 0, case);
    }
}

fn own_key_in_the_last_cell_reached<W: Width>() {
    let mut cells: Vec<_> = (0..8).map(|number| (number, 65_535, 0)).collect();
    cells[3] = (3, 1, 40);
    let cases: [Alone<W>; 2] = [
        ("find", 8, ("found", 40), None),
        ("add", 9, ("changed", 40), Some(cell(1, 47))),
    ];
    for case in cases {
        assert_alone(&filled(8, &cells), 3, case);
    }
}

fn of_two_inserts_the_loser_finds_the_key_present<W: Width>() {
    let operations = [row::<W>("insert", 1, 7), row::<W>("insert", 1, 8)];
    assert_leaves::<W>(
        Call::new(filled(8, &[]), &operations, &[1, 0, 0, 1, 1]),
        [2, 1, 0],
        &[reply("inserted", 0), reply("present", 7)],
        &[0, 1],
        &filled(8, &[(4, 1, 7)]),
    );
}

fn a_cell_lost_to_another_key_is_read_again_and_passed<W: Width>() {
    let operations = [row::<W>("insert", 1, 7), row::<W>("insert", 9, 8)];
    let before_the_last = [0, 1, 0, 1, 1, 1];
    assert_leaves::<W>(
        Call::new(filled(8, &[]), &operations, &before_the_last),
        [1, 1, 0],
        &[reply("inserted", 0), reply("unfinished", 0)],
        &[0],
        &filled(8, &[(4, 1, 7)]),
    );
    assert_leaves::<W>(
        Call::new(filled(8, &[]), &operations, &[0, 1, 0, 1, 1, 1, 1]),
        [2, 1, 0],
        &[reply("inserted", 0), reply("inserted", 0)],
        &[0, 1],
        &filled(8, &[(4, 1, 7), (5, 9, 8)]),
    );
}

fn an_update_that_lost_to_a_remove_is_absent<W: Width>() {
    let operations = [row::<W>("remove", 1, 0), row::<W>("update", 1, 7)];
    assert_leaves::<W>(
        Call::new(filled(8, &[(4, 1, 40)]), &operations, &[0, 1, 0, 1, 1, 1]),
        [2, 1, 0],
        &[reply("removed", 40), reply("absent", 0)],
        &[0, 1],
        &filled(8, &[(4, 65_535, 0)]),
    );
}

fn an_update_that_lost_twice_is_held_once_the_total_is_pinned<W: Width>() {
    // The first add leaves the total true, and the update holds that word then.
    let operations = [
        row::<W>("update", 1, 7),
        row::<W>("add", 1, 5),
        row::<W>("add", 1, W::PINNED),
    ];
    assert_leaves::<W>(
        Call::new(
            filled(8, &[(4, 1, 40)]),
            &operations,
            &[0, 1, 1, 0, 0, 2, 2, 0, 0],
        ),
        [3, 2, 0],
        &[
            reply("held", W::PINNED),
            reply("changed", 40),
            reply("capped", 45),
        ],
        &[1, 2, 0],
        &filled(8, &[(4, 1, W::PINNED)]),
    );
}

fn an_update_is_held_by_a_pinned_total_further_on<W: Width>() {
    // It holds room 1 with 40, which is removed and comes back in cell 5.
    let operations = [
        row::<W>("update", 1, 7),
        row::<W>("remove", 1, 0),
        row::<W>("insert", 1, W::PINNED),
    ];
    assert_leaves::<W>(
        Call::new(
            filled(8, &[(4, 1, 40)]),
            &operations,
            &[0, 1, 1, 2, 2, 2, 0, 0, 0],
        ),
        [3, 1, 0],
        &[
            reply("held", W::PINNED),
            reply("removed", 40),
            reply("inserted", 0),
        ],
        &[1, 2, 0],
        &filled(8, &[(4, 65_535, 0), (5, 1, W::PINNED)]),
    );
}

fn an_update_by_a_pinned_amount_is_changed_and_the_next_held<W: Width>() {
    let operations = [row::<W>("update", 1, W::PINNED), row::<W>("update", 1, 7)];
    assert_leaves::<W>(
        Call::new(filled(8, &[(4, 1, 40)]), &operations, &[0, 0, 1]),
        [2, 0, 0],
        &[reply("changed", 40), reply("held", W::PINNED)],
        &[0, 1],
        &filled(8, &[(4, 1, W::PINNED)]),
    );
}

fn what_comes_behind_a_held_update_meets_the_same_total<W: Width>() {
    let operations = [
        row::<W>("update", 1, 7),
        row::<W>("find", 1, 0),
        row::<W>("insert", 1, 8),
        row::<W>("add", 1, 9),
        row::<W>("update", 1, 0),
        row::<W>("remove", 1, 0),
    ];
    assert_leaves::<W>(
        Call::new(
            filled(8, &[(4, 1, W::PINNED)]),
            &operations,
            &[0, 1, 2, 3, 3, 4, 5, 5],
        ),
        [6, 0, 0],
        &[
            reply("held", W::PINNED),
            reply("found", W::PINNED),
            reply("present", W::PINNED),
            reply("changed", W::PINNED),
            reply("held", W::PINNED),
            reply("removed", W::PINNED),
        ],
        &[0, 1, 2, 3, 4, 5],
        &filled(8, &[(4, 65_535, 0)]),
    );
}

fn a_room_removed_and_inserted_anew_can_be_updated<W: Width>() {
    // "The trade practice is now to measure again."
    let operations = [
        row::<W>("remove", 1, 0),
        row::<W>("insert", 1, 52_000),
        row::<W>("update", 1, 52_500),
    ];
    assert_leaves::<W>(
        Call::new(
            filled(8, &[(4, 1, W::PINNED)]),
            &operations,
            &[0, 0, 1, 1, 1, 2, 2, 2],
        ),
        [3, 0, 0],
        &[
            reply("removed", W::PINNED),
            reply("inserted", 0),
            reply("changed", 52_000),
        ],
        &[0, 1, 2],
        &filled(8, &[(4, 65_535, 0), (5, 1, 52_500)]),
    );
}

fn a_remove_that_lost_takes_the_new_total<W: Width>() {
    let operations = [row::<W>("remove", 1, 0), row::<W>("update", 1, 7)];
    assert_leaves::<W>(
        Call::new(filled(8, &[(4, 1, 40)]), &operations, &[0, 1, 1, 0, 0, 0]),
        [2, 1, 0],
        &[reply("removed", 7), reply("changed", 40)],
        &[1, 0],
        &filled(8, &[(4, 65_535, 0)]),
    );
}

fn a_swap_may_be_lost_again_and_again<W: Width>() {
    let operations = [
        row::<W>("add", 1, 1),
        row::<W>("add", 1, 2),
        row::<W>("add", 1, 3),
    ];
    assert_leaves::<W>(
        Call::new(
            filled(8, &[]),
            &operations,
            &[0, 1, 1, 0, 0, 2, 2, 0, 0, 0, 0],
        ),
        [3, 2, 1],
        &[
            reply("changed", 5),
            reply("inserted", 0),
            reply("changed", 2),
        ],
        &[1, 2, 0],
        &filled(8, &[(4, 1, 6)]),
    );
}

fn a_cell_that_holds_the_seen_word_again_is_swapped<W: Width>() {
    let operations = [
        row::<W>("add", 1, 5),
        row::<W>("update", 1, 9),
        row::<W>("update", 1, 40),
    ];
    assert_leaves::<W>(
        Call::new(filled(8, &[(4, 1, 40)]), &operations, &[0, 1, 1, 2, 2, 0]),
        [3, 0, 0],
        &[
            reply("changed", 40),
            reply("changed", 40),
            reply("changed", 9),
        ],
        &[1, 2, 0],
        &filled(8, &[(4, 1, 45)]),
    );
}

fn a_removed_key_comes_back_in_another_cell<W: Width>() {
    let operations = [
        row::<W>("remove", 1, 0),
        row::<W>("add", 1, 0),
        row::<W>("find", 1, 0),
    ];
    assert_leaves::<W>(
        Call::new(
            filled(8, &[(4, 1, 40)]),
            &operations,
            &[0, 0, 1, 1, 1, 2, 2],
        ),
        [3, 0, 0],
        &[
            reply("removed", 40),
            reply("inserted", 0),
            reply("found", 0),
        ],
        &[0, 1, 2],
        &filled(8, &[(4, 65_535, 0), (5, 1, 0)]),
    );
}

fn cells_passed_before_a_lost_swap_stay_passed<W: Width>() {
    // Cell 5 alone is empty. The add of 9 passes cell 4, loses cell 5 to the
    // add of 6, reads it again and has passed all 8 cells after cell 3.
    let mut cells = vec![W::GONE; 8];
    cells[5] = W::word(0);
    let mut after = cells.clone();
    after[5] = cell(6, 1);
    let operations = [row::<W>("add", 9, 3), row::<W>("add", 6, 1)];
    let schedule = [0, 0, 1, 1, 0, 0, 0, 0, 0, 0, 0, 0];
    assert_leaves::<W>(
        Call::new(cells.clone(), &operations, &schedule[..11]),
        [1, 1, 0],
        &[reply("unfinished", 0), reply("inserted", 0)],
        &[1],
        &after,
    );
    assert_leaves::<W>(
        Call::new(cells, &operations, &schedule),
        [2, 1, 0],
        &[reply("full", 0), reply("inserted", 0)],
        &[1, 0],
        &after,
    );
}

/// What one add makes of a wide total of room 1, and its answer.
fn wide_add(total: u64, amount: u64) -> (u64, u64) {
    let mut call = Call::new(
        filled::<u64>(1, &[(0, 1, total)]),
        &[row::<u64>("add", 1, amount)],
        &[0, 0],
    );
    assert_eq!(call.run().done, 1, "{total} + {amount}");
    (call.cells[0], call.answers[0])
}

#[test]
fn wide_sums_are_whole_or_held_and_flagged_as_the_sentence_has_it() {
    // The numbers at either end, in the middle and where sixteen bits end.
    let near = [
        0,
        1,
        3,
        4,
        65_534,
        65_535,
        65_536,
        2_147_483_647,
        2_147_483_648,
        4_294_967_291,
        4_294_967_292,
        4_294_967_293,
        4_294_967_294,
        4_294_967_295,
    ];
    let flags = [(false, false), (false, true), (true, false), (true, true)];
    let flagged = |number: u64, flag: bool| number + if flag { FLAG } else { 0 };
    for a in near {
        for b in near {
            for (first, second) in flags {
                // An unflagged 4,294,967,295 is no total.
                if (a == 4_294_967_295 && !first) || (b == 4_294_967_295 && !second) {
                    continue;
                }
                let reached = a + b >= 4_294_967_295;
                let number = if reached { 4_294_967_295 } else { a + b };
                let flag = first || second || reached;
                let name = if flag && !first { "capped" } else { "changed" };
                let old = flagged(a, first);
                let expected = (cell(1, flagged(number, flag)), reply::<u64>(name, old));
                let made = wide_add(old, flagged(b, second));
                assert_eq!(made, expected, "{a} {first} + {b} {second}");
            }
        }
    }
}

/// An operation on key 1 with its amount, its answer with its total, and how
/// both are listed.
type Line = ((&'static str, u64), (&'static str, u64), &'static str);

const LINES: [Line; 10] = [
    (("find", 0), ("found", 65_535), "find 1 0 found pinned"),
    (
        ("insert", 65_535),
        ("present", 65_534),
        "insert 1 pinned present 65534",
    ),
    (
        ("update", 65_534),
        ("changed", 0),
        "update 1 65534 changed 0",
    ),
    (("add", 0), ("inserted", 0), "add 1 0 inserted 0"),
    (("remove", 0), ("removed", 10), "remove 1 0 removed 10"),
    (("find", 0), ("absent", 0), "find 1 0 absent 0"),
    (("find", 0), ("unfinished", 0), "find 1 0 unfinished 0"),
    (("insert", 909), ("full", 0), "insert 1 909 full 0"),
    (
        ("add", 65_535),
        ("capped", 65_534),
        "add 1 pinned capped 65534",
    ),
    (
        ("update", 65_534),
        ("held", 65_535),
        "update 1 65534 held pinned",
    ),
];

const WIDE_LINES: [Line; 10] = [
    (
        ("find", 0),
        ("found", FLAG + 65_535),
        "find 1 0 found atleast 65535",
    ),
    (
        ("insert", 65_535),
        ("present", FLAG),
        "insert 1 65535 present atleast 0",
    ),
    (
        ("update", FLAG + 7),
        ("changed", 65_535),
        "update 1 atleast 7 changed 65535",
    ),
    (("add", FLAG), ("inserted", 0), "add 1 atleast 0 inserted 0"),
    (
        ("remove", 0),
        ("removed", 4_294_967_294),
        "remove 1 0 removed 4294967294",
    ),
    (("find", 0), ("absent", 0), "find 1 0 absent 0"),
    (("find", 0), ("unfinished", 0), "find 1 0 unfinished 0"),
    (
        ("insert", 4_294_967_294),
        ("full", 0),
        "insert 1 4294967294 full 0",
    ),
    (
        ("add", FLAG + 4_294_967_295),
        ("capped", 65_536),
        "add 1 atleast 4294967295 capped 65536",
    ),
    (
        ("update", 65_535),
        ("held", FLAG + 3),
        "update 1 65535 held atleast 3",
    ),
];

/// Lists the operations and answers, and four cells with how these are listed.
fn assert_listed<W: Width>(lines: [Line; 10], named: [(usize, u64, u64); 4], cells_text: &str) {
    let outcome = Outcome {
        number: 0,
        place: 0,
        done: 3,
        lost: 12_345,
        idle: 10,
    };
    let (mut operations, mut answers) = (vec![], vec![]);
    let mut expected = String::from("text\nrows 10 done 3 lost 12345 idle 10\n");
    for (number, ((kind, amount), (name, total), line)) in lines.into_iter().enumerate() {
        operations.push(row::<W>(kind, 1, amount));
        answers.push(reply::<W>(name, total));
        expected += &format!("row {number} {line}\n");
    }
    expected += "log 7 0 5\n";
    expected += cells_text;
    // One answer and one log byte stand past what the run wrote.
    answers.push(reply("found", 9));
    let log = [7, 0, 5, 1];
    let cells = filled(16, &named);
    let mut out = b"text\n".to_vec();
    list(&outcome, &cells, &operations, &answers, &log, &mut out);
    assert_eq!(String::from_utf8(out).unwrap(), expected);
}

#[test]
fn every_kind_and_answer_is_listed() {
    assert_listed::<u32>(
        LINES,
        [
            (0, 65_534, 0),
            (9, 65_535, 0),
            (14, 8, 65_534),
            (15, 7, 65_535),
        ],
        "cell 0 65534 0\ncell 9 gone\ncell 14 8 65534\ncell 15 7 pinned\n",
    );
}

#[test]
fn every_kind_and_answer_is_listed_wide() {
    assert_listed::<u64>(
        WIDE_LINES,
        [
            (0, 65_534, FLAG),
            (9, 65_535, 0),
            (14, 8, 65_535),
            (15, 7, FLAG + 65_535),
        ],
        "cell 0 65534 atleast 0\ncell 9 gone\ncell 14 8 65535\ncell 15 7 atleast 65535\n",
    );
}

#[test]
fn a_refusal_is_one_line_whatever_is_lent() {
    let outcome = Outcome {
        number: 12,
        place: 65_535,
        done: 0,
        lost: 0,
        idle: 0,
    };
    let mut out = vec![];
    list::<u32>(&outcome, &[65_536; 8], &[0], &[65_536], &[0], &mut out);
    list::<u64>(&outcome, &[65_536; 8], &[0], &[65_536], &[0], &mut out);
    assert_eq!(out, b"refused 12 at 65535\nrefused 12 at 65535\n");
}
