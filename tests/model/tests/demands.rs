//! The checker of the demands accepts what the step rules do and rejects what
//! differs from it.

mod support {
    pub mod answers;
    pub mod narrow;
    pub mod widths;
    pub mod words;
}

use model::demands::{
    agrees_with_map, linearizable, linearizable_at_every_prefix, totals, totals_kept, After,
};
use support::answers::reply;
use support::narrow::{answer, operation, table};
use support::widths::at_both_widths;
use support::words::{cell, filled, row, Width, FLAG};

at_both_widths![
    right_ends_of_either_width_agree_with_the_map,
    a_wrong_log_is_rejected,
    wrong_answers_are_rejected,
    wrong_cells_are_rejected,
    full_is_right_only_where_no_cell_is_left,
    an_update_behind_the_add_that_pins_is_to_be_held,
    refused_calls_are_no_runs,
    totals_are_silent_without_their_hypotheses,
    cells_suffice_for_new_rooms_counted_once,
];

/// The cells at the start, the operations, and what is said to be left.
type Case<W> = (Vec<W>, [u64; 2], After<W>);

/// The worked case of a remove and an insert behind a tombstone, as it ends.
fn removed_and_present<W: Width>() -> Case<W> {
    let after = After {
        done: 2,
        cells: filled(8, &[(4, 65_535, 0), (5, 9, 25)]),
        answers: vec![reply("removed", 40), reply("present", 25)],
        log: vec![0, 1],
    };
    let operations = [row::<W>("remove", 1, 0), row::<W>("insert", 9, 7)];
    (filled(8, &[(4, 1, 40), (5, 9, 25)]), operations, after)
}

/// The worked case of two adds, as it ends.
fn two_adds<W: Width>() -> Case<W> {
    let after = After {
        done: 2,
        cells: filled(8, &[(4, 1, 52)]),
        answers: vec![reply("changed", 40), reply("changed", 45)],
        log: vec![0, 1],
    };
    let operations = [row::<W>("add", 1, 5), row::<W>("add", 1, 7)];
    (filled(8, &[(4, 1, 40)]), operations, after)
}

/// Two adds of which the first hits the ceiling, as they end.
fn capped_and_changed() -> Case<u32> {
    let after = After {
        done: 2,
        cells: table(8, &[(4, 1, 65_535)]),
        answers: vec![answer("capped", 40), answer("changed", 65_535)],
        log: vec![0, 1],
    };
    let operations = [operation("add", 1, 65_495), operation("add", 1, 65_535)];
    (table(8, &[(4, 1, 40)]), operations, after)
}

/// An add to one below the ceiling and an insertion of a pinned amount, as they
/// end.
fn below_and_inserted() -> Case<u32> {
    let after = After {
        done: 2,
        cells: table(8, &[(4, 1, 65_534), (5, 9, 65_535)]),
        answers: vec![answer("changed", 40), answer("inserted", 0)],
        log: vec![0, 1],
    };
    let operations = [operation("add", 1, 65_494), operation("add", 9, 65_535)];
    (table(8, &[(4, 1, 40)]), operations, after)
}

/// Two wide adds, one of a flagged amount to a true total and one of a true
/// amount to a flagged total, as they end.
fn flagged_both_ways() -> Case<u64> {
    let after = After {
        done: 2,
        cells: filled(8, &[(4, 1, FLAG + 7), (5, 9, FLAG + 70)]),
        answers: vec![reply("capped", 3), reply("changed", FLAG + 30)],
        log: vec![0, 1],
    };
    let operations = [row::<u64>("add", 1, FLAG + 4), row::<u64>("add", 9, 40)];
    (
        filled(8, &[(4, 1, 3), (5, 9, FLAG + 30)]),
        operations,
        after,
    )
}

/// A wide add that hits the ceiling, and one that comes next to it, as they end.
fn wide_at_and_below() -> Case<u64> {
    let after = After {
        done: 2,
        cells: filled(8, &[(4, 1, u64::PINNED), (5, 9, 4_294_967_294)]),
        answers: vec![reply("capped", 40), reply("changed", 0)],
        log: vec![0, 1],
    };
    let operations = [
        row::<u64>("add", 1, 4_294_967_255),
        row::<u64>("add", 9, 4_294_967_294),
    ];
    (filled(8, &[(4, 1, 40), (5, 9, 0)]), operations, after)
}

/// An update of a pinned total and one of a true total by a pinned amount, as
/// they end.
fn held_and_changed() -> Case<u32> {
    let after = After {
        done: 2,
        cells: table(8, &[(4, 1, 65_535), (5, 9, 65_535)]),
        answers: vec![answer("held", 65_535), answer("changed", 65_534)],
        log: vec![0, 1],
    };
    let operations = [operation("update", 1, 7), operation("update", 9, 65_535)];
    let start = table(8, &[(4, 1, 65_535), (5, 9, 65_534)]);
    (start, operations, after)
}

/// The same of wide totals: a flagged one far below the ceiling, and a true one
/// that a narrow table would have as pinned.
fn wide_held_and_changed() -> Case<u64> {
    let after = After {
        done: 2,
        cells: filled(8, &[(4, 1, FLAG + 3), (5, 9, FLAG + 4)]),
        answers: vec![reply("held", FLAG + 3), reply("changed", 65_535)],
        log: vec![0, 1],
    };
    let operations = [
        row::<u64>("update", 1, 7),
        row::<u64>("update", 9, FLAG + 4),
    ];
    let start = filled(8, &[(4, 1, FLAG + 3), (5, 9, 65_535)]);
    (start, operations, after)
}

/// An add that pins a true total, and an update of it that comes behind.
fn capped_and_held<W: Width>() -> Case<W> {
    let after = After {
        done: 2,
        cells: filled(8, &[(4, 1, W::PINNED)]),
        answers: vec![reply("capped", 40), reply("held", W::PINNED)],
        log: vec![0, 1],
    };
    let operations = [row::<W>("add", 1, W::PINNED), row::<W>("update", 1, 7)];
    (filled(8, &[(4, 1, 40)]), operations, after)
}

/// The checker says that the case, spoiled so, differs from the map in this.
fn assert_differs<W: Width>(
    (start, operations, mut after): Case<W>,
    spoil: fn(&mut After<W>),
    what: &str,
) {
    spoil(&mut after);
    let said = agrees_with_map(&start, &operations, &after).unwrap_err();
    assert!(said.contains(what), "{said}");
}

fn assert_agree<W: Width>(cases: [Case<W>; 2]) {
    for (start, operations, after) in cases {
        assert_eq!(agrees_with_map(&start, &operations, &after), Ok(()));
    }
}

fn right_ends_of_either_width_agree_with_the_map<W: Width>() {
    assert_agree::<W>([removed_and_present(), two_adds()]);
}

#[test]
fn right_ends_at_the_ceiling_agree_with_the_map() {
    assert_agree([capped_and_changed(), below_and_inserted()]);
    assert_agree([flagged_both_ways(), wide_at_and_below()]);
    assert_agree([held_and_changed(), capped_and_held()]);
    assert_agree([wide_held_and_changed(), capped_and_held()]);
}

fn a_wrong_log_is_rejected<W: Width>() {
    let log = |spoil, what| assert_differs(two_adds::<W>(), spoil, what);
    log(|after| after.log = vec![1, 0], "operation 1 answers code 4");
    log(|after| after.log = vec![0, 0], "operation 0 twice");
    log(|after| after.log = vec![0, 2], "names 2, which is no");
    log(|after| after.log = vec![0], "2 operations are done, 1");
    log(
        |after| {
            after.log = vec![0];
            after.done = 1;
        },
        "operation 1 is finished but not in the log",
    );
}

fn wrong_answers_are_rejected<W: Width>() {
    let answers = |spoil, what| assert_differs(two_adds::<W>(), spoil, what);
    answers(
        |after| after.answers[0] = reply("changed", 41),
        "answers code 4 total 41",
    );
    answers(
        |after| after.answers[1] = W::word(0),
        "operation 1 is in the log but not",
    );
    answers(
        |after| after.answers[1] = reply("full", 0),
        "answers code 7",
    );
    answers(|after| after.answers.truncate(1), "one answer for each");
    answers(
        |after| {
            after.answers[1] = reply("unfinished", 3);
            after.log = vec![0];
            after.done = 1;
        },
        "operation 1 is unfinished, answer 3",
    );
}

#[test]
fn a_capped_answer_is_right_only_where_an_add_hit_the_ceiling() {
    let at_it = |spoil, what| assert_differs(capped_and_changed(), spoil, what);
    at_it(
        |after| after.answers[0] = answer("changed", 40),
        "operation 0 answers code 4 total 40, the map code 8 total 40",
    );
    // The total of a capped answer is the old one.
    at_it(
        |after| after.answers[0] = answer("capped", 65_535),
        "operation 0 answers code 8 total 65535, the map code 8 total 40",
    );
    at_it(
        |after| after.answers[1] = answer("capped", 65_535),
        "operation 1 answers code 8 total 65535, the map code 4 total 65535",
    );
    let below_it = |spoil, what| assert_differs(below_and_inserted(), spoil, what);
    below_it(
        |after| after.answers[0] = answer("capped", 40),
        "operation 0 answers code 8 total 40, the map code 4 total 40",
    );
    below_it(
        |after| after.answers[1] = answer("capped", 0),
        "operation 1 answers code 8 total 0, the map code 2 total 0",
    );
}

#[test]
fn a_wide_capped_answer_is_right_only_where_a_total_became_flagged() {
    let flagged = |spoil, what| assert_differs(flagged_both_ways(), spoil, what);
    flagged(
        |after| after.answers[0] = reply("changed", 3),
        "operation 0 answers code 4 total 3, the map code 8 total 3",
    );
    flagged(
        |after| after.answers[0] = reply("capped", FLAG + 3),
        "operation 0 answers code 8 total 3 flagged, the map code 8 total 3",
    );
    flagged(
        |after| after.answers[1] = reply("capped", FLAG + 30),
        "operation 1 answers code 8 total 30 flagged, the map code 4 total 30 flagged",
    );
    flagged(
        |after| after.answers[1] = reply("changed", 30),
        "operation 1 answers code 4 total 30, the map code 4 total 30 flagged",
    );
    let at_it = |spoil, what| assert_differs(wide_at_and_below(), spoil, what);
    at_it(
        |after| after.answers[0] = reply("changed", 40),
        "operation 0 answers code 4 total 40, the map code 8 total 40",
    );
    at_it(
        |after| after.answers[1] = reply("capped", 0),
        "operation 1 answers code 8 total 0, the map code 4 total 0",
    );
}

#[test]
fn a_held_answer_is_right_only_where_an_update_met_a_pinned_total() {
    let held = |spoil, what| assert_differs(held_and_changed(), spoil, what);
    held(
        |after| after.answers[0] = answer("changed", 65_535),
        "operation 0 answers code 4 total 65535, the map code 9 total 65535",
    );
    // The total of a held answer is the one that stays.
    held(
        |after| after.answers[0] = answer("held", 7),
        "operation 0 answers code 9 total 7, the map code 9 total 65535",
    );
    // Typed over all the same, told or not.
    held(
        |after| after.cells[4] = cell(1, 7),
        "hold the pairs {1: 7, 9: 65535}, the map {1: 65535, 9: 65535}",
    );
    held(
        |after| {
            after.answers[0] = answer("changed", 65_535);
            after.cells[4] = cell(1, 7);
        },
        "operation 0 answers code 4 total 65535, the map code 9 total 65535",
    );
    // A true total is not held, not even against a pinned amount.
    held(
        |after| {
            after.answers[1] = answer("held", 65_534);
            after.cells[5] = cell(9, 65_534);
        },
        "operation 1 answers code 9 total 65534, the map code 4 total 65534",
    );
    held(
        |after| after.answers[1] = answer("held", 65_535),
        "operation 1 answers code 9 total 65535, the map code 4 total 65534",
    );
}

#[test]
fn a_wide_held_answer_is_right_only_where_an_update_met_a_flag() {
    let held = |spoil, what| assert_differs(wide_held_and_changed(), spoil, what);
    held(
        |after| {
            after.answers[0] = reply("changed", FLAG + 3);
            after.cells[4] = cell(1, 7);
        },
        "operation 0 answers code 4 total 3 flagged, the map code 9 total 3 flagged",
    );
    // Without its flag, and with the amount.
    held(
        |after| after.answers[0] = reply("held", 3),
        "operation 0 answers code 9 total 3, the map code 9 total 3 flagged",
    );
    held(
        |after| after.answers[0] = reply("held", 7),
        "operation 0 answers code 9 total 7, the map code 9 total 3 flagged",
    );
    let map = "the map {1: 3 flagged, 9: 4 flagged}";
    held(|after| after.cells[4] = cell(1, 7), map);
    held(|after| after.cells[4] = cell(1, FLAG + 7), map);
    held(|after| after.cells[4] = cell(1, 3), map);
    held(|after| after.cells[4] = cell(1, u64::PINNED), map);
    // 65,535 without the flag is true.
    held(
        |after| {
            after.answers[1] = reply("held", 65_535);
            after.cells[5] = cell(9, 65_535);
        },
        "operation 1 answers code 9 total 65535, the map code 4 total 65535",
    );
}

fn an_update_behind_the_add_that_pins_is_to_be_held<W: Width>() {
    let late = |spoil, what| assert_differs(capped_and_held::<W>(), spoil, what);
    // As a step would do that swapped whatever it had read.
    late(
        |after| {
            after.answers[1] = reply("changed", W::PINNED);
            after.cells[4] = cell(1, 7);
        },
        "operation 1 answers code 4",
    );
    // Held with the total that it had read first.
    late(
        |after| after.answers[1] = reply("held", 40),
        "operation 1 answers code 9 total 40, the map code 9",
    );
    // Had the update come first, it would have been changed.
    late(|after| after.log = vec![1, 0], "operation 1 answers code 9");
    late(|after| after.cells[4] = cell(1, 7), "hold the pairs {1: 7}");
}

#[test]
fn wrong_flags_and_wrong_wide_sums_are_rejected() {
    let flagged = |spoil, what| assert_differs(flagged_both_ways(), spoil, what);
    let map = "the map {1: 7 flagged, 9: 70 flagged}";
    // A flag lost, of the amount and of the total.
    flagged(|after| after.cells[4] = cell(1, 7), map);
    flagged(|after| after.cells[5] = cell(9, 70), map);
    // A flagged total held at the ceiling, or as it was.
    flagged(|after| after.cells[4] = cell(1, u64::PINNED), map);
    flagged(|after| after.cells[5] = cell(9, u64::PINNED), map);
    flagged(|after| after.cells[5] = cell(9, FLAG + 30), map);
    // A bit beside the fields.
    flagged(
        |after| after.cells[4] += 1 << 33,
        "hold the pairs {1: 7 with 3 above, 9: 70 flagged}",
    );
    let at_it = |spoil, what| assert_differs(wide_at_and_below(), spoil, what);
    let map = "the map {1: 4294967295 flagged, 9: 4294967294}";
    at_it(|after| after.cells[4] = cell(1, 4_294_967_295), map);
    at_it(|after| after.cells[4] = cell(1, 0), map);
    at_it(|after| after.cells[5] = cell(9, FLAG + 4_294_967_294), map);
}

fn wrong_cells_are_rejected<W: Width>() {
    let cells = |spoil, what| assert_differs(removed_and_present::<W>(), spoil, what);
    // Filling the tombstone makes a second 9.
    cells(|after| after.cells[4] = cell(9, 7), "key 9 has two");
    cells(|after| after.cells[4] = cell(1, 40), "the map {9: 25}");
    cells(|after| after.cells[5] = W::GONE, "hold the pairs {}");
    cells(
        |after| after.cells[4] = W::word(0),
        "1 cells are used, in the map 2",
    );
    cells(
        |after| after.cells[6] = W::GONE,
        "3 cells are used, in the map 2",
    );
    cells(|after| after.cells.truncate(6), "number of cells");
    assert_differs(
        two_adds::<W>(),
        |after| after.cells[4] = cell(1, 45),
        "hold the pairs {1: 45}, the map {1: 52}",
    );
}

fn full_is_right_only_where_no_cell_is_left<W: Width>() {
    let adds = [row::<W>("add", 9, 1)];
    let after = |cells: &[W], name| After {
        done: 1,
        cells: cells.to_vec(),
        answers: vec![reply(name, 0)],
        log: vec![0],
    };
    let mut cells = vec![W::GONE; 8];
    assert_eq!(
        agrees_with_map(&cells, &adds, &after(&cells, "full")),
        Ok(())
    );
    let absent = after(&cells, "absent");
    assert!(agrees_with_map(&cells, &adds, &absent).is_err());
    cells[2] = W::word(0);
    let full = after(&cells, "full");
    assert!(agrees_with_map(&cells, &adds, &full).is_err());
}

/// Hands every schedule of so many entries that name `rows` operations on.
fn every_schedule(rows: u8, entries: usize, check: &mut dyn FnMut(&[u8])) {
    let mut schedule = vec![0; entries];
    loop {
        check(&schedule);
        // Counts up, the schedule read as a number to the base `rows`.
        match schedule.iter().rposition(|&entry| entry + 1 < rows) {
            None => return,
            Some(place) => {
                schedule[place] += 1;
                schedule[place + 1..].fill(0);
            }
        }
    }
}

/// In 8 cells keys 1, 9 and 17 have home 4.
fn three_at_a_time<W: Width>(amounts: [u64; 5]) -> Vec<(Vec<W>, [u64; 3])> {
    let crowded = filled(
        8,
        &[
            (0, 65_535, 0),
            (1, 2, 2),
            (2, 7, 7),
            (3, 65_535, 0),
            (4, 1, 40),
            (5, 6, 6),
            (7, 8, 8),
        ],
    );
    let kinds = ["find", "insert", "update", "add", "remove"];
    let mut starts = vec![];
    for cells in [
        filled(8, &[]),
        filled(8, &[(4, 1, 40), (5, 9, 25)]),
        crowded,
    ] {
        for first in 0..5 {
            for second in 0..5 {
                let operations = [
                    row::<W>(kinds[first], 1, amounts[first]),
                    row::<W>(kinds[second], 1, amounts[second]),
                    row::<W>(
                        kinds[(first + second) % 5],
                        9,
                        amounts[(first + second) % 5],
                    ),
                ];
                starts.push((cells.clone(), operations));
            }
        }
    }
    starts
}

/// `amounts` are those of the five kinds, on tables whose totals are small.
fn assert_every_short_schedule_agrees<W: Width>(amounts: [u64; 5]) {
    for (cells, operations) in three_at_a_time::<W>(amounts) {
        every_schedule(3, 7, &mut |schedule| {
            let at_prefixes = linearizable_at_every_prefix(&cells, &operations, schedule);
            assert_eq!(at_prefixes, Ok(()), "{cells:?} {operations:?} {schedule:?}");
            assert_eq!(linearizable(&cells, &operations, schedule), Ok(()));
        });
    }
}

#[test]
fn every_short_schedule_agrees_with_the_map_at_every_prefix() {
    assert_every_short_schedule_agrees::<u32>([0, 7, 30, 65_530, 0]);
    // Of two updates by a pinned amount one is held.
    assert_every_short_schedule_agrees::<u32>([0, 7, 65_535, 5, 0]);
}

#[test]
fn every_short_wide_schedule_agrees_with_the_map_at_every_prefix() {
    assert_every_short_schedule_agrees::<u64>([0, 7, 30, 4_294_967_290, 0]);
    assert_every_short_schedule_agrees::<u64>([0, FLAG + 7, 30, FLAG + 2, 0]);
}

/// Totals and amounts whose sums lie on either side of the ceiling, the most
/// and the least of each included; two adds, so that the second starts from
/// what the first has made.
fn assert_adds_agree<W: Width>(near: &[u64]) {
    for &total in near {
        let cells: Vec<W> = filled(8, &[(4, 1, total)]);
        for &first in near {
            for &second in near {
                let operations = [row::<W>("add", 1, first), row::<W>("add", 1, second)];
                for schedule in [[0, 0, 1, 1, 1, 1], [0, 1, 0, 1, 1, 1], [1, 0, 1, 0, 0, 0]] {
                    let at_prefixes = linearizable_at_every_prefix(&cells, &operations, &schedule);
                    assert_eq!(at_prefixes, Ok(()), "{total} {first} {second} {schedule:?}");
                    let totals = totals(&cells, &operations, &schedule);
                    assert_eq!(totals, Ok(true), "{total} {first} {second} {schedule:?}");
                }
            }
        }
    }
}

#[test]
fn adds_around_the_ceiling_agree_with_the_map() {
    let near = [0, 1, 2, 3, 32_767, 32_768, 65_532, 65_533, 65_534, 65_535];
    assert_adds_agree::<u32>(&near);
    // The wide ceiling with the flag and without, where it may go without.
    let numbers = [0, 1, 3, 65_535, 2_147_483_647, 2_147_483_648];
    let next = [4_294_967_292, 4_294_967_293, 4_294_967_294];
    let true_totals = numbers.into_iter().chain(next);
    let flagged = true_totals.clone().map(|number| number + FLAG);
    let wide: Vec<u64> = true_totals.chain(flagged).chain([u64::PINNED]).collect();
    assert_adds_agree::<u64>(&wide);
}

/// Two updates, or an add and an update, of every such total and by every such
/// amount.
fn assert_updates_agree<W: Width>(near: &[u64]) {
    for &total in near {
        let cells: Vec<W> = filled(8, &[(4, 1, total)]);
        for &first in near {
            for &second in near {
                for kind in ["update", "add"] {
                    let operations = [row::<W>(kind, 1, first), row::<W>("update", 1, second)];
                    for schedule in [[0, 0, 1, 1, 1, 1], [0, 1, 0, 1, 1, 1], [1, 0, 1, 0, 0, 0]] {
                        let at_prefixes =
                            linearizable_at_every_prefix(&cells, &operations, &schedule);
                        assert_eq!(at_prefixes, Ok(()), "{total} {kind} {first} {second}");
                    }
                }
            }
        }
    }
}

#[test]
fn updates_around_the_ceiling_agree_with_the_map() {
    assert_updates_agree::<u32>(&[0, 1, 40, 32_768, 65_533, 65_534, 65_535]);
    let numbers = [0, 3, 65_534, 65_535, 65_536, 4_294_967_294];
    let flagged = numbers.map(|number| number + FLAG);
    let wide = [&numbers[..], &flagged, &[u64::PINNED]].concat();
    assert_updates_agree::<u64>(&wide);
}

/// The first two are amounts added to room 1.
fn assert_every_short_schedule_keeps<W: Width>(first: u64, second: u64) {
    let operations = [
        row::<W>("add", 1, first),
        row::<W>("add", 1, second),
        row::<W>("find", 9, 0),
    ];
    let mut held = 0;
    for cells in [
        filled::<W>(8, &[]),
        filled(8, &[(4, 9, 25)]),
        filled(8, &[(4, 1, 5)]),
    ] {
        every_schedule(
            3,
            9,
            &mut |schedule| match totals(&cells, &operations, schedule) {
                Ok(all_finished) => held += usize::from(all_finished),
                Err(what) => panic!("{what}: {cells:?} {schedule:?}"),
            },
        );
    }
    // The rule spoke, and often, of the 59,049 schedules.
    assert!(held > 10_000, "{held}");
}

#[test]
fn every_short_schedule_of_adds_keeps_the_totals() {
    assert_every_short_schedule_keeps::<u32>(40_000, 30_000);
    assert_every_short_schedule_keeps::<u64>(4_000_000_000, 300_000_000);
    assert_every_short_schedule_keeps::<u64>(FLAG + 3, 4);
}

fn refused_calls_are_no_runs<W: Width>() {
    let find = [row::<W>("find", 1, 0)];
    for (cells, schedule) in [(vec![W::word(0); 3], [0]), (vec![W::word(0); 8], [1])] {
        assert!(linearizable(&cells, &find, &schedule).is_err());
        assert!(linearizable_at_every_prefix(&cells, &find, &schedule).is_err());
        assert!(totals(&cells, &find, &schedule).is_err());
    }
}

fn totals_are_silent_without_their_hypotheses<W: Width>() {
    let empty = filled::<W>(8, &[]);
    let add = row::<W>("add", 1, 5);
    assert_eq!(totals(&empty, &[add], &[0, 0]), Ok(true));
    assert_eq!(totals(&empty, &[], &[]), Ok(true));
    // Unfinished, or neither find nor add.
    assert_eq!(totals(&empty, &[add], &[0]), Ok(false));
    for kind in ["insert", "update", "remove"] {
        let operations = [add, row::<W>(kind, 1, 0)];
        let schedule = [0, 0, 1, 1, 1];
        assert_eq!(totals(&empty, &operations, &schedule), Ok(false), "{kind}");
    }
}

fn cells_suffice_for_new_rooms_counted_once<W: Width>() {
    // One empty cell, the others tombstones but for room 1.
    let mut cells = vec![W::GONE; 8];
    cells[4] = cell(1, 40);
    cells[5] = W::word(0);
    let add = |room| row::<W>("add", room, 0);
    let twice = [0; 9].iter().chain(&[1; 9]).copied();
    let thrice: Vec<u8> = twice.chain([2; 9]).collect();
    // Two adds to the new room 9 and one to room 1 need one cell.
    let suffice = [add(9), add(1), add(9)];
    assert_eq!(totals(&cells, &suffice, &thrice), Ok(true));
    // Two new rooms need two.
    let too_many = [add(9), add(1), add(17)];
    assert_eq!(totals(&cells, &too_many, &thrice), Ok(false));
}

#[test]
fn lost_and_made_up_totals_are_rejected() {
    let start = table(8, &[(4, 1, 40), (5, 9, 25)]);
    let adds = [
        operation("add", 1, 65_500),
        operation("add", 17, 0),
        operation("find", 2, 0),
    ];
    let kept = |cells: &[u32]| totals_kept(&start, &adds, 3, cells);
    let right = table(8, &[(4, 1, 65_535), (5, 9, 25), (6, 17, 0)]);
    assert_eq!(kept(&right), Ok(true));
    let wrong = [
        (4, 65_536 + 4, "room 1 has total Some(4)"), // a sum that wraps
        (4, 65_536 + 65_500, "room 1 has total Some(65500)"),
        (5, u32::GONE, "room 9 has total None"),
        (5, 9 * 65_536 + 26, "room 9 has total Some(26)"),
        (6, 0, "room 17 has total None"),
        (7, 2 * 65_536, "room 2 has total Some(0)"),
        (7, 3 * 65_536, "room 3 has total Some(0)"),
        (7, 65_536 + 40, "key 1 has two live cells"),
    ];
    for (cell, word, what) in wrong {
        let mut cells = right.clone();
        cells[cell] = word;
        let said = kept(&cells).unwrap_err();
        assert!(said.contains(what), "{said}");
    }
}

#[test]
fn lost_flags_and_wrong_wide_totals_are_rejected() {
    let start = filled::<u64>(8, &[(4, 1, FLAG + 3), (5, 9, 25), (6, 17, 4_294_967_290)]);
    let adds = [
        row::<u64>("add", 1, 4),
        row::<u64>("add", 9, FLAG),
        row::<u64>("add", 17, 2),
        row::<u64>("add", 17, 3),
        row::<u64>("add", 2, FLAG + 1),
        row::<u64>("add", 2, 1),
        row::<u64>("find", 3, 0),
    ];
    let kept = |cells: &[u64]| totals_kept(&start, &adds, 7, cells);
    let right = filled(
        8,
        &[
            (1, 2, FLAG + 2),
            (4, 1, FLAG + 7),
            (5, 9, FLAG + 25),
            (6, 17, u64::PINNED),
        ],
    );
    assert_eq!(kept(&right), Ok(true));
    let wrong = [
        (
            1,
            cell(2, 2),
            "room 2 has total Some(2), expected Some(2 flagged)",
        ),
        (
            4,
            cell(1, 7),
            "room 1 has total Some(7), expected Some(7 flagged)",
        ),
        (
            4,
            cell(1, u64::PINNED),
            "room 1 has total Some(4294967295 flagged)",
        ),
        (4, cell(1, FLAG + 3), "room 1 has total Some(3 flagged)"),
        (
            5,
            cell(9, 25),
            "room 9 has total Some(25), expected Some(25 flagged)",
        ),
        (
            5,
            cell(9, u64::PINNED),
            "room 9 has total Some(4294967295 flagged)",
        ),
        (
            6,
            cell(17, 4_294_967_295),
            "room 17 has total Some(4294967295), expected",
        ),
        (6, cell(17, FLAG), "room 17 has total Some(0 flagged)"),
        (
            6,
            cell(17, 4_294_967_294),
            "room 17 has total Some(4294967294)",
        ),
        (
            7,
            cell(3, FLAG),
            "room 3 has total Some(0 flagged), expected None",
        ),
        (7, cell(1, 40), "key 1 has two live cells"),
    ];
    for (cell, word, what) in wrong {
        let mut cells = right.clone();
        cells[cell] = word;
        let said = kept(&cells).unwrap_err();
        assert!(said.contains(what), "{said}");
    }
}

#[test]
fn a_true_wide_total_is_not_to_be_flagged() {
    let start = filled::<u64>(8, &[(4, 1, 4_294_967_290)]);
    let adds = [row::<u64>("add", 1, 4)];
    let kept = |total| totals_kept(&start, &adds, 1, &filled(8, &[(4, 1, total)]));
    assert_eq!(kept(4_294_967_294), Ok(true));
    assert!(kept(FLAG + 4_294_967_294).is_err());
    assert!(kept(u64::PINNED).is_err());
}
