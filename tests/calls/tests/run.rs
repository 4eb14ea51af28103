//! Calls of the run: lengths and words that no run file has, every total with
//! adds around the ceiling and with updates, every small run on one cell and on
//! two, and every beginning of a schedule. Every call is made of the proved run
//! and of the second model, and all that they leave compared.
//!
//! A test that serves both widths is written once, over the word, and stands in
//! the list at the end.

use calls::width::Width;
use generated::random::Random;
use model::Outcome;

/// What a run is lent. The slices hold something before the run, so that what
/// it leaves alone shows.
#[derive(Debug, Clone, PartialEq)]
struct Call<W> {
    cells: Vec<W>,
    operations: Vec<u64>,
    schedule: Vec<u8>,
    answers: Vec<W>,
    log: Vec<u8>,
}

const FIND: u64 = 1;
const INSERT: u64 = 2;
const UPDATE: u64 = 3;
const ADD: u64 = 4;
const REMOVE: u64 = 5;

/// The flag of a wide total ("pinned").
const PIN: u64 = 4_294_967_296;

/// A wide sum that reached the ceiling, 4,294,967,295, with its flag.
const HELD: u64 = 8_589_934_591;

/// What stands in the lent answers before a run, of either width.
const STOOD: u64 = 0xAAAA_AAAA_AAAA_AAAA;

/// Two rooms and a tombstone in eight cells, three operations that all finish,
/// and slices longer than needed.
fn accepted<W: Width>() -> Call<W> {
    let mut cells = vec![W::EMPTY; 8];
    (cells[4], cells[5]) = (W::cell(1, 40), W::cell(9, 25));
    cells[7] = W::cell(65_535, 0);
    Call {
        cells,
        operations: vec![
            W::operation(ADD, 1, 5),
            W::operation(FIND, 9, 0),
            W::operation(REMOVE, 1, 0),
        ],
        schedule: vec![0, 1, 0, 1, 2, 2, 2],
        answers: vec![W::word(STOOD); 6],
        log: vec![0xBB; 7],
    }
}

/// As many adds as are asked for, a room each, and room for their answers.
fn adds<W: Width>(count: usize) -> Call<W> {
    Call {
        cells: vec![W::EMPTY; 128],
        operations: (0..count as u64)
            .map(|i| W::operation(ADD, i + 1, i))
            .collect(),
        schedule: (0..count.min(64) as u8).rev().collect(),
        answers: vec![W::word(STOOD); count],
        log: vec![9; count],
    }
}

/// Makes the call twice and gives what it returns and leaves. A refused call
/// leaves every slice as it was; an accepted one keeps the answers and log bytes
/// past those that it writes.
fn made_and_left<W: Width>(call: &Call<W>) -> (Outcome, Call<W>) {
    let (mut proved, mut model) = (call.clone(), call.clone());
    let outcome = calls::run(
        &mut proved.cells,
        &proved.operations,
        &proved.schedule,
        &mut proved.answers,
        &mut proved.log,
    );
    let wanted = model::run(
        &mut model.cells,
        &model.operations,
        &model.schedule,
        &mut model.answers,
        &mut model.log,
    );
    assert_eq!(outcome, wanted, "{call:?}");
    assert_eq!(proved, model, "{call:?}");
    if outcome.number != 0 {
        assert_eq!(&proved, call);
        assert_eq!((outcome.done, outcome.lost, outcome.idle), (0, 0, 0));
    } else {
        let written = call.operations.len();
        assert_eq!(proved.answers[written..], call.answers[written..]);
        assert_eq!(proved.log[outcome.done..], call.log[outcome.done..]);
    }
    (outcome, proved)
}

fn made<W: Width>(call: &Call<W>) -> Outcome {
    made_and_left(call).0
}

fn refusal<W: Width>(call: &Call<W>) -> (u32, usize) {
    let outcome = made(call);
    (outcome.number, outcome.place)
}

fn the_call_that_the_others_change_is_accepted<W: Width>() {
    let outcome = made(&accepted::<W>());
    assert_eq!((outcome.number, outcome.place), (0, 0));
    assert_eq!((outcome.done, outcome.lost, outcome.idle), (3, 0, 1));
}

/// "Rows without entries: all answers written as 0, no cell or log byte
/// altered."
fn operations_without_entries<W: Width>() {
    let mut call = accepted::<W>();
    call.schedule.clear();
    let (outcome, left) = made_and_left(&call);
    assert_eq!((outcome.number, outcome.place), (0, 0));
    assert_eq!((outcome.done, outcome.lost, outcome.idle), (0, 0, 0));
    call.answers[..3].fill(W::answered(0, 0));
    assert_eq!(left, call);
}

fn inserted<W: Width>() -> W {
    W::answered(2, 0)
}

fn changed<W: Width>(total: u64) -> W {
    W::answered(4, total)
}

/// "Now finishes capped (code 8) with the old total."
fn capped<W: Width>(total: u64) -> W {
    W::answered(8, total)
}

/// "Finishes at that read as held (code 9) with that total."
fn retained<W: Width>(total: u64) -> W {
    W::answered(9, total)
}

/// One add to room 1, which has this total: that it has this answer, and that
/// the room has this total then.
fn adds_up<W: Width>(total: u64, amount: u64, answer: W, sum: u64) {
    let mut call = accepted::<W>();
    call.cells[4] = W::cell(1, total);
    call.operations = vec![W::operation(ADD, 1, amount)];
    call.schedule = vec![0, 0];
    let (outcome, left) = made_and_left(&call);
    assert_eq!((outcome.done, outcome.lost, outcome.idle), (1, 0, 0));
    assert_eq!(left.answers[0], answer, "{total} and {amount}");
    assert_eq!(left.cells[4], W::cell(1, sum), "{total} and {amount}");
}

/// "An add that turns a true total into a pinned one": true totals with the
/// amounts that bring them to one below the ceiling, to it and above it, and
/// with pinned amounts.
fn an_add_to_every_true_total<W: Width>() {
    for total in W::true_totals() {
        let missing = W::CEILING - total;
        adds_up::<W>(total, missing - 1, changed(total), W::CEILING - 1);
        // What 0 misses of the ceiling is no true amount.
        if total > 0 {
            for amount in [missing, missing + 1, W::CEILING - 1] {
                let amount = amount.min(W::CEILING - 1);
                adds_up::<W>(total, amount, capped(total), W::pinned(W::CEILING));
            }
        }
        for &amount in W::TOTALS.iter().filter(|&&amount| W::is_pinned(amount)) {
            let sum = W::pinned(total + W::said(amount));
            adds_up::<W>(total, amount, capped(total), sum);
        }
    }
}

/// A pinned total does not become one. Its number goes on being summed.
fn every_add_to_a_pinned_total<W: Width>() {
    let (known, pinned) = (W::true_totals(), W::pinned_totals());
    for &total in &pinned {
        for &amount in known.iter().chain(&pinned) {
            let sum = W::pinned(W::said(total) + W::said(amount));
            adds_up::<W>(total, amount, changed(total), sum);
        }
    }
}

/// "Sets the flag if either had it or the ceiling is reached": sums worked by
/// hand, a total, an amount, whether the add is capped, and the sum.
#[test]
fn wide_sums() {
    for (total, amount, is_capped, sum) in [
        (3, 4, false, 7),
        (PIN + 3, 4, false, PIN + 7),
        (3, PIN + 4, true, PIN + 7),
        (PIN + 3, PIN + 4, false, PIN + 7),
        (0, 0, false, 0),
        (0, PIN, true, PIN),
        (PIN, 0, false, PIN),
        (PIN, PIN, false, PIN),
        (65_534, 1, false, 65_535),
        (65_535, 1, false, 65_536),
        (65_535, 65_535, false, 131_070),
        (0, 4_294_967_294, false, 4_294_967_294),
        (4_294_967_294, 0, false, 4_294_967_294),
        (4_294_967_293, 1, false, 4_294_967_294),
        (4_294_967_294, 1, true, HELD),
        (4_294_967_293, 2, true, HELD),
        (4_294_967_294, 2, true, HELD),
        (4_294_967_294, 3, true, HELD),
        (4_294_967_294, 4_294_967_294, true, HELD),
        (4_294_967_294, PIN, true, PIN + 4_294_967_294),
        (PIN + 4_294_967_294, 0, false, PIN + 4_294_967_294),
        (PIN + 4_294_967_294, 1, false, HELD),
        (PIN + 4_294_967_294, 2, false, HELD),
        (0, HELD, true, HELD),
        (1, HELD, true, HELD),
        (HELD, 0, false, HELD),
        (HELD, 4_294_967_294, false, HELD),
        (HELD, HELD, false, HELD),
        (2_147_483_648, 2_147_483_646, false, 4_294_967_294),
        (2_147_483_648, 2_147_483_647, true, HELD),
        (2_147_483_648, 2_147_483_648, true, HELD),
    ] {
        let answer = if is_capped {
            capped(total)
        } else {
            changed(total)
        };
        adds_up::<u64>(total, amount, answer, sum);
    }
}

/// Where there was no total, none was turned into a pinned one.
fn an_add_that_inserts_a_pinned_amount<W: Width>() {
    for &amount in W::TOTALS {
        let mut call = accepted::<W>();
        call.operations = vec![W::operation(ADD, 17, amount)];
        call.schedule = vec![0; 4];
        let (outcome, left) = made_and_left(&call);
        assert_eq!((outcome.done, outcome.lost, outcome.idle), (1, 0, 0));
        // Behind rooms 1 and 9, which have the same home.
        assert_eq!(left.answers[0], inserted());
        assert_eq!(left.cells[6], W::cell(17, amount));
    }
}

/// One update of room 1, which has this total: if that is true, the update has
/// replaced it at its second entry, and if it is pinned, has finished at its
/// first and written nothing.
fn types_over<W: Width>(total: u64, amount: u64, is_pinned: bool) {
    let mut call = accepted::<W>();
    call.cells[4] = W::cell(1, total);
    call.operations = vec![W::operation(UPDATE, 1, amount)];
    let ended = |entries| {
        let mut call = call.clone();
        call.schedule = vec![0; entries];
        let (outcome, left) = made_and_left(&call);
        let counts = (outcome.done, outcome.lost, outcome.idle);
        (counts, left.answers[0], left.cells[4])
    };
    let stays = W::cell(1, total);
    let [first, second] = match is_pinned {
        true => [1, 2].map(|entries| ((1, 0, entries - 1), retained(total), stays)),
        false => [
            ((0, 0, 0), W::answered(0, 0), stays),
            ((1, 0, 0), changed(total), W::cell(1, amount)),
        ],
    };
    assert_eq!(ended(1), first, "{total} and {amount}");
    assert_eq!(ended(2), second, "{total} and {amount}");
}

/// "A pinned total may not be typed over", whatever the amount, and any other
/// may, by a pinned amount too.
fn an_update_of_every_total<W: Width>() {
    let ceiling = W::CEILING;
    let amounts = [0, 7, ceiling - 1, W::pinned(ceiling)];
    for (totals, is_pinned) in [(W::true_totals(), false), (W::pinned_totals(), true)] {
        for total in totals {
            for amount in amounts {
                types_over::<W>(total, amount, is_pinned);
            }
        }
    }
    // All amounts with the totals next to each other at the ceiling.
    for amount in [W::true_totals(), W::pinned_totals()].concat() {
        types_over::<W>(ceiling - 1, amount, false);
        types_over::<W>(W::pinned(ceiling), amount, true);
    }
}

/// The flag alone says it: a total, and whether it is pinned.
#[test]
fn wide_updates() {
    for (total, is_pinned) in [
        (0, false),
        (PIN, true),
        (3, false),
        (PIN + 3, true),
        (65_534, false),
        (PIN + 65_534, true),
        (65_535, false),
        (PIN + 65_535, true),
        (65_536, false),
        (PIN + 65_536, true),
        (2_147_483_648, false),
        (PIN + 2_147_483_648, true),
        (4_294_967_294, false),
        (PIN + 4_294_967_294, true),
        (HELD, true),
    ] {
        for amount in [0, 3, 65_535, 4_294_967_294, PIN, PIN + 3, HELD, total] {
            types_over::<u64>(total, amount, is_pinned);
        }
    }
}

/// What the other kinds answer of a total, and leave of it.
fn every_kind_on_every_total<W: Width>() {
    for &total in W::TOTALS {
        for &amount in W::TOTALS {
            let (code, put) = match W::is_pinned(total) {
                true => (9, total),
                false => (4, amount),
            };
            for (kind, amount, code, word) in [
                (FIND, 0, 1, W::cell(1, total)),
                (INSERT, amount, 3, W::cell(1, total)),
                (UPDATE, amount, code, W::cell(1, put)),
                (REMOVE, 0, 5, W::cell(65_535, 0)),
            ] {
                let mut call = accepted::<W>();
                call.cells[4] = W::cell(1, total);
                call.operations = vec![W::operation(kind, 1, amount)];
                call.schedule = vec![0, 0];
                let (_, left) = made_and_left(&call);
                assert_eq!(left.answers[0], W::answered(code, total));
                assert_eq!(left.cells[4], word, "{kind}, {total} and {amount}");
            }
        }
    }
}

/// Two adds hold room 1 with 40, the second loses its swap and reads again:
/// that they have these answers.
fn race<W: Width>(first: u64, second: u64, answers: [W; 2]) {
    let mut call = accepted::<W>();
    call.operations = vec![W::operation(ADD, 1, first), W::operation(ADD, 1, second)];
    call.schedule = vec![0, 1, 0, 1, 1, 1];
    let (outcome, left) = made_and_left(&call);
    assert_eq!((outcome.done, outcome.lost, outcome.idle), (2, 1, 0));
    assert_eq!(left.answers[..2], answers, "{first} and {second}");
}

/// What an add is answered is told by the total that it reads last.
fn adds_around_the_ceiling_that_lost_a_swap<W: Width>() {
    let ceiling = W::CEILING;
    let held = W::pinned(ceiling);
    race::<W>(5, ceiling - 46, [changed(40), changed(45)]);
    race::<W>(5, ceiling - 45, [changed(40), capped(45)]);
    race::<W>(5, ceiling - 40, [changed(40), capped(45)]);
    race::<W>(ceiling - 41, 1, [changed(40), capped(ceiling - 1)]);
    race::<W>(ceiling - 40, 0, [capped(40), changed(held)]);
    race::<W>(ceiling - 40, ceiling - 40, [capped(40), changed(held)]);
    race::<W>(held, held, [capped(40), changed(held)]);
}

/// A flagged amount caps once, far below the ceiling.
#[test]
fn flagged_adds_that_lost_a_swap() {
    race::<u64>(5, PIN + 3, [changed(40), capped(45)]);
    race::<u64>(PIN + 3, 5, [capped(40), changed(PIN + 43)]);
    race::<u64>(PIN + 3, PIN + 5, [capped(40), changed(PIN + 43)]);
    race::<u64>(PIN, 4_294_967_255, [capped(40), changed(PIN + 40)]);
}

/// An operation and an update by 7 hold room 1 with 40, and the operation swaps
/// first: that the update, which loses its swap, is unfinished until its next
/// read, and has this answer then.
fn race_an_update<W: Width>(kind: u64, amount: u64, answers: [W; 2], total: u64) {
    let mut call = accepted::<W>();
    call.operations = vec![W::operation(kind, 1, amount), W::operation(UPDATE, 1, 7)];
    call.schedule = vec![0, 1, 0, 1];
    let (outcome, left) = made_and_left(&call);
    assert_eq!((outcome.done, outcome.lost, outcome.idle), (1, 1, 0));
    assert_eq!(left.answers[..2], [answers[0], W::answered(0, 0)]);
    let stays = W::is_pinned(total);
    // One entry more than the update needs.
    call.schedule.extend(vec![1; if stays { 2 } else { 3 }]);
    let (outcome, left) = made_and_left(&call);
    assert_eq!((outcome.done, outcome.lost, outcome.idle), (2, 1, 1));
    assert_eq!(left.answers[..2], answers, "{kind} and {amount}");
    assert_eq!(left.log[..2], [0, 1]);
    let put = if stays { total } else { 7 };
    assert_eq!(left.cells[4], W::cell(1, put), "{kind} and {amount}");
}

/// The read decides, and of an update that lost its swap the last one.
fn updates_around_the_ceiling_that_lost_a_swap<W: Width>() {
    let ceiling = W::CEILING;
    let most = W::pinned(ceiling);
    for amount in [ceiling - 40, ceiling - 39, ceiling - 1, most] {
        race_an_update::<W>(ADD, amount, [capped(40), retained(most)], most);
    }
    race_an_update::<W>(UPDATE, most, [changed(40), retained(most)], most);
    let below = ceiling - 1;
    race_an_update::<W>(ADD, ceiling - 41, [changed(40), changed(below)], below);
    race_an_update::<W>(UPDATE, below, [changed(40), changed(below)], below);
}

/// Flagged meanwhile, far below the ceiling and with the number unchanged.
#[test]
fn flagged_updates_that_lost_a_swap() {
    for number in [0, 3, 65_495] {
        let total = PIN + 40 + number;
        race_an_update::<u64>(ADD, PIN + number, [capped(40), retained(total)], total);
        race_an_update::<u64>(UPDATE, total, [changed(40), retained(total)], total);
    }
    // 65,535 without a flag.
    race_an_update::<u64>(ADD, 65_495, [changed(40), changed(65_535)], 65_535);
}

/// An update loses to an add, holds the sum, loses to one that pins it, and is
/// then held; what comes behind it meets the same total.
fn an_update_that_lost_twice_and_what_comes_behind_it<W: Width>() {
    let most = W::pinned(W::CEILING);
    let mut call = accepted::<W>();
    call.operations = vec![
        W::operation(UPDATE, 1, 7),
        W::operation(ADD, 1, 5),
        W::operation(ADD, 1, most),
        W::operation(UPDATE, 1, 0),
        W::operation(INSERT, 1, 9),
        W::operation(ADD, 1, 0),
        W::operation(REMOVE, 1, 0),
    ];
    call.schedule = vec![0, 1, 1, 0, 0, 2, 2, 0, 0, 3, 4, 5, 5, 6, 6];
    call.answers = vec![W::word(STOOD); 7];
    let (outcome, left) = made_and_left(&call);
    assert_eq!((outcome.done, outcome.lost, outcome.idle), (7, 2, 0));
    let answers = [
        retained(most),
        changed(40),
        capped(45),
        retained(most),
        W::answered(3, most),
        changed(most),
        W::answered(5, most),
    ];
    assert_eq!(left.answers, answers);
    assert_eq!(left.log, [1, 2, 0, 3, 4, 5, 6]);
    assert_eq!(left.cells[4], W::cell(65_535, 0));
}

fn is_allowed(c: usize) -> bool {
    c.is_power_of_two() && c <= 4_096
}

fn cells_of_every_length<W: Width>() {
    for c in (0..=4_200).chain([8_191, 8_192, 16_384, 65_536, 70_000]) {
        let mut call = accepted::<W>();
        call.cells = vec![W::EMPTY; c];
        assert_eq!(refusal(&call), (u32::from(!is_allowed(c)), 0), "{c} cells");
    }
}

/// A table of c cells with keys in a row, some of them tombstones or empty and
/// now and then the first key again; a few operations on the lowest keys.
fn in_use<W: Width>(c: usize, random: &mut Random) -> Call<W> {
    let (empty, gone) = (random.pick(&[0, 0, 20, 60]), random.pick(&[0, 30]));
    let first = random.between(1, 60_000) as u64;
    let word = |place| match random.below(100) {
        part if part < empty => W::EMPTY,
        part if part < empty + gone => W::cell(65_535, 0),
        99 => W::cell(first, 3),
        _ => W::cell(first + place as u64, W::any_total(random)),
    };
    let cells = (0..c).map(word).collect();
    let rows = random.between(1, 4);
    let row = |_| {
        let kind = random.between(1, 5) as u64;
        let key = first + random.below(6) as u64;
        let amount = match kind {
            FIND | REMOVE => 0,
            _ => W::any_total(random),
        };
        W::operation(kind, key, amount)
    };
    let operations = (0..rows).map(row).collect();
    let entries = random.below(rows * (c + 4));
    Call {
        cells,
        operations,
        schedule: (0..entries).map(|_| random.below(rows) as u8).collect(),
        answers: vec![W::word(STOOD); rows],
        log: vec![9; rows],
    }
}

/// Of every length that is allowed some calls are accepted.
fn cells_in_use_of_every_small_length<W: Width>() {
    for c in 0..=33 {
        let mut accepted = 0;
        for index in 0..2_000 {
            let call = in_use::<W>(c, &mut Random::new(17, c as u64 * 2_000 + index));
            let (number, _) = refusal(&call);
            assert_eq!(number == 1, !is_allowed(c), "{call:?}");
            accepted += usize::from(number == 0);
        }
        assert_eq!(accepted > 100, is_allowed(c), "{accepted} of {c} cells");
    }
}

/// "Tables of 1, 2 and 4 cells": every table of one cell and of two, with three
/// rooms, every two operations on them, and every schedule of seven entries.
fn every_run_of_two_operations_on_one_cell_and_on_two<W: Width>() {
    let mut refused = [0; 9];
    for &(total, amounts) in W::SMALL_RUNS {
        let [first, second] = amounts.map(every_operation::<W>);
        for cells in every_table::<W>(total) {
            for &first in &first {
                for &second in &second {
                    for bits in 0..128_u8 {
                        let call = Call {
                            cells: cells.clone(),
                            operations: vec![first, second],
                            schedule: (0..7).map(|place| bits >> place & 1).collect(),
                            answers: vec![W::word(STOOD); 3],
                            log: vec![9; 3],
                        };
                        refused[made(&call).number as usize] += 1;
                    }
                }
            }
        }
    }
    // Of the tables of two cells three have a room twice, and room 1 behind an
    // empty cell, or 2 or 5, is one each.
    let of_a_table = W::SMALL_RUNS.len() * 15 * 15 * 128;
    assert_eq!(refused[7], 3 * of_a_table);
    assert_eq!(refused[8], 3 * of_a_table);
    assert_eq!(refused[0], (30 - 6) * of_a_table);
}

/// The rooms of the small runs: in two cells 1 is at home in cell 1, 2 and 5 in
/// cell 0.
const ROOMS: [u64; 3] = [1, 2, 5];

/// Every table of one cell and of two, whose rooms all have this total.
fn every_table<W: Width>(total: u64) -> Vec<Vec<W>> {
    let mut words = vec![W::EMPTY, W::cell(65_535, 0)];
    words.extend(ROOMS.map(|room| W::cell(room, total)));
    let mut tables: Vec<Vec<W>> = words.iter().map(|&word| vec![word]).collect();
    for &first in &words {
        tables.extend(words.iter().map(|&second| vec![first, second]));
    }
    tables
}

/// Every operation on every room, with this amount where it has one.
fn every_operation<W: Width>(amount: u64) -> Vec<u64> {
    let mut operations = Vec::new();
    for room in ROOMS {
        operations.extend([FIND, REMOVE].map(|kind| W::operation(kind, room, 0)));
        operations.extend([INSERT, UPDATE, ADD].map(|kind| W::operation(kind, room, amount)));
    }
    operations
}

fn more_than_64_operations<W: Width>() {
    for count in 0..=130 {
        let wanted = if count > 64 { 2 } else { 0 };
        assert_eq!(
            refusal(&adds::<W>(count)),
            (wanted, 0),
            "{count} operations"
        );
    }
}

fn more_than_16384_entries<W: Width>() {
    for (entries, wanted) in [(16_383, 0), (16_384, 0), (16_385, 2), (40_000, 2)] {
        let mut call = accepted::<W>();
        call.schedule = vec![1; entries];
        assert_eq!(refusal(&call), (wanted, 0), "{entries} entries");
    }
}

fn answers_or_log_shorter_than_the_operations<W: Width>() {
    for count in 0..=64 {
        for answers in [0, count / 2, count.max(1) - 1, count, count + 1] {
            for log in [0, count / 2, count.max(1) - 1, count, count + 1] {
                let mut call = adds::<W>(count);
                call.answers.resize(answers, W::word(STOOD));
                call.log.resize(log, 5);
                let short = answers < count || log < count;
                let wanted = if short { 3 } else { 0 };
                assert_eq!(refusal(&call), (wanted, 0), "{count} {answers} {log}");
            }
        }
    }
}

fn key_0_or_65535_with_a_total<W: Width>() {
    for place in 0..8 {
        for key in [0, 65_535] {
            for &total in &W::TOTALS[1..] {
                let mut call = accepted::<W>();
                call.cells[place] = W::cell(key, total);
                assert_eq!(refusal(&call), (4, place));
            }
        }
    }
}

/// "A stray bit": bits 33 to 47 of a wide cell, each alone, beside every word
/// that is allowed without it.
#[test]
fn a_stray_bit_of_a_wide_cell() {
    let mut allowed = vec![0, u64::cell(65_535, 0)];
    // With and without a flag and a lowest bit of the key, next to the stray ones.
    for key in [1, 2, 17, 32_768, 65_534] {
        allowed.extend(u64::TOTALS.iter().map(|&total| u64::cell(key, total)));
    }
    for place in 0..8 {
        for &word in &allowed {
            let mut call = accepted::<u64>();
            call.cells[place] = word;
            // The key may stand twice now, or cut off, but the word is one.
            assert_ne!(refusal(&call).0, 4, "{word:x}");
            for bit in 33..48 {
                call.cells[place] = word | 1 << bit;
                assert_eq!(refusal(&call), (4, place), "{word:x} and bit {bit}");
            }
        }
    }
}

/// "It refuses an unflagged 4,294,967,295": in a cell, whatever its key; the
/// neighbours in number and the flagged one are allowed.
#[test]
fn the_wide_ceiling_without_its_flag() {
    for place in 0..8 {
        for key in [0, 1, 2, 17, 65_534, 65_535] {
            let mut call = accepted::<u64>();
            call.cells[place] = u64::cell(key, 4_294_967_295);
            assert_eq!(refusal(&call), (4, place), "{key}");
        }
    }
    for (total, wanted) in [
        (4_294_967_294, (0, 0)),
        (4_294_967_295, (4, 4)),
        (4_294_967_296, (0, 0)),
        (8_589_934_591, (0, 0)),
    ] {
        let mut call = accepted::<u64>();
        call.cells[4] = u64::cell(1, total);
        assert_eq!(refusal(&call), wanted, "{total}");
    }
}

/// Two cells, or two rows, that are not allowed: the first of them is the
/// place. A cell goes before a row, and a row before an entry.
fn the_first_of_two_words_that_are_not_allowed<W: Width>() {
    for first in 0..8 {
        for second in first + 1..8 {
            let mut call = accepted::<W>();
            call.cells[first] = W::cell(0, 1);
            call.cells[second] = W::cell(65_535, W::pinned(W::CEILING));
            call.operations[0] = W::operation(FIND, 1, 1);
            assert_eq!(refusal(&call), (4, first));
        }
    }
    for first in 0..3 {
        for second in first + 1..3 {
            let mut call = accepted::<W>();
            call.operations[first] = W::operation(REMOVE, 1, W::pinned(W::CEILING));
            call.operations[second] = W::operation(6, 1, 0);
            call.schedule[0] = 3;
            assert_eq!(refusal(&call), (5, first));
        }
    }
}

fn bits_above_the_kind<W: Width>() {
    for row in 0..3 {
        for bit in W::ABOVE_KIND {
            let mut call = accepted::<W>();
            call.operations[row] |= 1 << bit;
            assert_eq!(refusal(&call), (5, row), "bit {bit}");
        }
    }
}

fn every_kind_with_and_without_an_amount<W: Width>() {
    for kind in 0..=255 {
        for key in [0, 1, 9, 65_534, 65_535] {
            for &amount in W::TOTALS.iter().chain([&W::CEILING]) {
                let mut call = accepted::<W>();
                call.operations[1] = W::operation(kind, key, amount);
                let live = (1..=65_534).contains(&key);
                let takes_it = amount == 0 || (2..=4).contains(&kind) && W::allows(amount);
                let allowed = (1..=5).contains(&kind) && live && takes_it;
                let wanted = if allowed { (0, 0) } else { (5, 1) };
                assert_eq!(refusal(&call), wanted, "{kind} {key} {amount}");
            }
        }
    }
}

fn entries_that_name_no_operation<W: Width>() {
    for entry in 0..=255 {
        for place in 0..7 {
            let mut call = accepted::<W>();
            call.schedule[place] = entry;
            let wanted = if entry < 3 { (0, 0) } else { (6, place) };
            assert_eq!(refusal(&call), wanted, "{entry}");
        }
    }
}

/// Spoils a call in one of the ways that a caller can and a file cannot.
fn spoil<W: Width>(call: &mut Call<W>, random: &mut Random) {
    let some = |length: usize, random: &mut Random| random.below(length.max(1));
    match random.below(10) {
        0 => call.cells.truncate(some(call.cells.len(), random)),
        1 => call.cells.push(W::EMPTY),
        2 => call.answers.truncate(some(call.answers.len(), random)),
        3 => call.log.truncate(some(call.log.len(), random)),
        4 => call
            .operations
            .resize(random.between(60, 70), W::operation(ADD, 3, 1)),
        5 => call.schedule.resize(random.between(16_380, 16_390), 0),
        6 => {
            let place = some(call.cells.len(), random);
            if let Some(word) = call.cells.get_mut(place) {
                *word = W::word(random.next() & random.pick(W::PARTS));
            }
        }
        7 => {
            let place = some(call.operations.len(), random);
            if let Some(word) = call.operations.get_mut(place) {
                *word ^= 1 << random.below(64);
            }
        }
        8 => call.schedule.push(random.byte()),
        _ => call.cells.reverse(),
    }
}

/// The call of a generated file, with up to two elements more lent for answers
/// and log than there are operations, and anything in them.
fn of_a_file<W: Width>(index: u64, random: &mut Random) -> Call<W> {
    let mut call = Call {
        cells: vec![W::EMPTY; 4_096],
        operations: vec![0; 64],
        schedule: vec![0; 16_384],
        answers: Vec::new(),
        log: Vec::new(),
    };
    let file = W::file(5, index as usize);
    let loaded = model::load(
        &file,
        &mut call.cells,
        &mut call.operations,
        &mut call.schedule,
    );
    call.cells.truncate(loaded.cells.max(1));
    call.operations.truncate(loaded.operations);
    call.schedule.truncate(loaded.entries);
    let count = call.operations.len();
    call.answers = (0..count + random.below(3))
        .map(|_| W::word(random.next()))
        .collect();
    call.log = (0..count + random.below(3))
        .map(|_| random.byte())
        .collect();
    call
}

fn calls_at_random<W: Width>() {
    let mut refused = [0; 9];
    for index in 0..12_000 {
        let mut random = Random::new(5, index);
        let mut call = of_a_file::<W>(index, &mut random);
        for _ in 0..random.below(4) {
            spoil(&mut call, &mut random);
        }
        refused[made(&call).number as usize] += 1;
    }
    println!("calls by refusal, 0 to 8: {refused:?}");
    assert!(refused.iter().all(|&count| count > 0), "{refused:?}");
}

/// Stops a schedule after every entry: what stands in the second model's slices
/// then, elements past the written ones too, is what the proved run of that
/// beginning leaves. From one stop to the next at most one cell changes, and
/// where an operation finished, its answer takes the place of a 0 and its number
/// enters the log; all else stays. Gives the number of stops.
fn stopped_after_every_entry<W: Width>(call: &Call<W>) -> usize {
    let unfinished = W::answered(0, 0);
    let mut model = call.clone();
    let stops = model::stops(
        &mut model.cells,
        &call.operations,
        &call.schedule,
        &mut model.answers,
        &mut model.log,
    );
    for (k, (outcome, cells, answers, log)) in stops.iter().enumerate() {
        let mut beginning = call.clone();
        beginning.schedule.truncate(k);
        let (ended, left) = made_and_left(&beginning);
        assert_eq!(&ended, outcome, "{beginning:?}");
        assert_eq!(&left.cells, cells, "{beginning:?}");
        assert_eq!(&left.answers, answers, "{beginning:?}");
        assert_eq!(&left.log, log, "{beginning:?}");
        if k == 0 {
            continue;
        }
        let (before, stood, mut expected_answers, mut expected_log) = stops[k - 1].clone();
        let differ = cells.iter().zip(&stood).filter(|(now, then)| now != then);
        assert!(differ.count() <= 1, "{beginning:?}");
        if ended.done > before.done {
            let entry = call.schedule[k - 1];
            let row = usize::from(entry);
            assert_eq!(expected_answers[row], unfinished, "{beginning:?}");
            assert_ne!(answers[row], unfinished, "{beginning:?}");
            expected_answers[row] = answers[row];
            expected_log[before.done] = entry;
        }
        assert_eq!(answers, &expected_answers, "{beginning:?}");
        assert_eq!(log, &expected_log, "{beginning:?}");
    }
    stops.len()
}

/// "Show that after every entry the slice holds what a run ending there
/// leaves."
fn every_beginning_of_a_schedule<W: Width>() {
    let mut stops = stopped_after_every_entry(&accepted::<W>());
    for index in 0..4_000 {
        let mut random = Random::new(19, index);
        let mut call = match index % 2 {
            0 => in_use::<W>(1 << random.below(6), &mut random),
            _ => of_a_file::<W>(index, &mut random),
        };
        call.schedule.truncate(200);
        stops += stopped_after_every_entry(&call);
    }
    println!("stops: {stops}");
    assert!(stops > 50_000, "{stops} stops");
}

calls::in_both_widths! {
    the_call_that_the_others_change_is_accepted,
    operations_without_entries,
    an_add_to_every_true_total,
    every_add_to_a_pinned_total,
    an_add_that_inserts_a_pinned_amount,
    an_update_of_every_total,
    every_kind_on_every_total,
    adds_around_the_ceiling_that_lost_a_swap,
    updates_around_the_ceiling_that_lost_a_swap,
    an_update_that_lost_twice_and_what_comes_behind_it,
    cells_of_every_length,
    cells_in_use_of_every_small_length,
    every_run_of_two_operations_on_one_cell_and_on_two,
    more_than_64_operations,
    more_than_16384_entries,
    answers_or_log_shorter_than_the_operations,
    key_0_or_65535_with_a_total,
    the_first_of_two_words_that_are_not_allowed,
    bits_above_the_kind,
    every_kind_with_and_without_an_amount,
    entries_that_name_no_operation,
    calls_at_random,
    every_beginning_of_a_schedule,
}
