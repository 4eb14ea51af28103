//! Every row of the table of refusals that a run has, alone and in pairs: the
//! earlier decides, and nothing lent is altered. Both widths have the same rows,
//! the wide one with more ways to meet 4 and 5.

mod support {
    pub mod calls;
    pub mod widths;
    pub mod words;
}

use model::{home, refusal, Outcome};
use support::calls::{Call, OLD_ANSWER, OLD_LOG};
use support::widths::at_both_widths;
use support::words::{cell, filled, row, Width, FLAG};

at_both_widths![
    the_call_without_a_fault_is_accepted,
    each_fault_of_a_run_alone,
    of_two_faults_of_a_run_the_earlier_decides,
    every_number_of_cells,
    answers_and_log_as_long_as_the_rows_suffice,
    the_first_of_two_like_faults_is_named,
    rows_and_words_at_their_bounds_are_accepted,
    live_keys_that_a_search_reaches_are_accepted,
    whole_table_refusals_are_those_of_the_sentences,
];

/// A call that is accepted, of 16 cells. There key 1 has home 9 and key 5 home 1.
fn accepted_call<W: Width>() -> Call<W> {
    Call::new(
        filled(16, &[(9, 1, 40)]),
        &[
            row::<W>("find", 1, 0),
            row::<W>("add", 2, 3),
            row::<W>("remove", 1, 0),
        ],
        &[0, 1, 2, 0, 1, 2],
    )
}

/// One way to spoil a call: its number, its place, and how it is done.
type Fault<W> = (&'static str, u32, usize, fn(&mut Call<W>));

/// In table order. Later faults have lower places where they can, so that a
/// mere search for the lowest place would be seen; each can be added to any
/// call that the ones before it have spoiled.
fn faults<W: Faulty>() -> Vec<Fault<W>> {
    [
        of_the_slices(),
        in_cells(),
        W::in_its_cells(),
        in_rows(),
        W::in_its_rows(),
        behind_the_rows(),
    ]
    .concat()
}

fn of_the_slices<W: Width>() -> Vec<Fault<W>> {
    vec![
        ("17 cells", 1, 0, |call| call.cells.push(W::word(0))),
        ("65 rows", 2, 0, |call| {
            call.operations.resize(65, row::<W>("find", 1, 0));
            call.answers.resize(65, W::from(OLD_ANSWER));
            call.log.resize(65, OLD_LOG);
        }),
        ("16,385 entries", 2, 0, |call| {
            call.schedule.resize(16_385, 0);
        }),
        ("short answers", 3, 0, |call| {
            call.answers.truncate(call.operations.len() - 1);
        }),
        ("short log", 3, 0, |call| {
            call.log.truncate(call.operations.len() - 1);
        }),
    ]
}

fn in_cells<W: Width>() -> Vec<Fault<W>> {
    vec![
        ("key 0 with a total", 4, 6, |call| {
            call.cells[6] = cell(0, 1);
        }),
        ("key 65,535 with a total", 4, 6, |call| {
            call.cells[6] = cell(65_535, W::PINNED);
        }),
    ]
}

fn in_rows<W: Width>() -> Vec<Fault<W>> {
    vec![
        ("kind 0", 5, 2, |call| call.operations[2] = kind::<W>(0)),
        ("kind 6", 5, 2, |call| call.operations[2] = kind::<W>(6)),
        ("kind 255", 5, 2, |call| call.operations[2] = kind::<W>(255)),
        ("key 0", 5, 2, |call| {
            call.operations[2] = row::<W>("add", 0, 1);
        }),
        ("key 65,535", 5, 2, |call| {
            call.operations[2] = row::<W>("insert", 65_535, 1);
        }),
        ("find with an amount", 5, 2, |call| {
            call.operations[2] = row::<W>("find", 1, 1);
        }),
        ("remove with an amount", 5, 2, |call| {
            call.operations[2] = row::<W>("remove", 1, W::PINNED);
        }),
        ("the bit above the kind", 5, 2, |call| {
            call.operations[2] = row::<W>("add", 1, 1) + 256 * 65_536 * W::ABOVE_TOTAL;
        }),
        ("bit 63 set", 5, 2, |call| {
            call.operations[2] = row::<W>("add", 1, 1) + (1 << 63);
        }),
    ]
}

/// The word of an operation on key 1 with any number for its kind.
fn kind<W: Width>(number: u64) -> u64 {
    (number * 65_536 + 1) * W::ABOVE_TOTAL
}

fn behind_the_rows<W: Width>() -> Vec<Fault<W>> {
    vec![
        ("entry 3 of 3 rows", 6, 4, |call| {
            call.schedule[4] = call.operations.len() as u8;
        }),
        ("entry 255", 6, 4, |call| call.schedule[4] = 255),
        ("key 1 again", 7, 10, |call| call.cells[10] = cell(1, 41)),
        ("key 5 behind its empty home", 8, 2, |call| {
            call.cells[2] = cell(5, 0);
        }),
        ("key 5 round the end", 8, 0, |call| {
            call.cells[0] = cell(5, 1);
            call.cells[2] = W::word(0);
        }),
    ]
}

/// The faults that only words of this width can have.
trait Faulty: Width {
    fn in_its_cells() -> Vec<Fault<Self>>;
    fn in_its_rows() -> Vec<Fault<Self>>;
}

impl Faulty for u32 {
    fn in_its_cells() -> Vec<Fault<u32>> {
        vec![]
    }

    fn in_its_rows() -> Vec<Fault<u32>> {
        vec![]
    }
}

/// In 16 cells key 12 has home 6.
impl Faulty for u64 {
    fn in_its_cells() -> Vec<Fault<u64>> {
        vec![
            ("empty with a flag", 4, 6, |call| call.cells[6] = FLAG),
            ("key 65,535 with a flag", 4, 6, |call| {
                call.cells[6] = cell(65_535, FLAG);
            }),
            ("an unflagged ceiling", 4, 6, |call| {
                call.cells[6] = cell(12, 4_294_967_295);
            }),
            ("bit 33", 4, 6, |call| {
                call.cells[6] = cell(12, 40 + (1 << 33));
            }),
            ("bit 47", 4, 6, |call| {
                call.cells[6] = cell(12, FLAG + 40 + (1 << 47));
            }),
        ]
    }

    fn in_its_rows() -> Vec<Fault<u64>> {
        vec![
            ("find with a flag", 5, 2, |call| {
                call.operations[2] = row::<u64>("find", 1, FLAG);
            }),
            ("remove with a flag", 5, 2, |call| {
                call.operations[2] = row::<u64>("remove", 1, FLAG);
            }),
            ("an unflagged ceiling inserted", 5, 2, |call| {
                call.operations[2] = row::<u64>("insert", 1, 4_294_967_295);
            }),
            ("an unflagged ceiling updated", 5, 2, |call| {
                call.operations[2] = row::<u64>("update", 1, 4_294_967_295);
            }),
            ("an unflagged ceiling added", 5, 2, |call| {
                call.operations[2] = row::<u64>("add", 1, 4_294_967_295);
            }),
        ]
    }
}

/// Both the run and the check alone refuse so, and nothing lent is altered.
fn assert_refused<W: Width>(mut call: Call<W>, number: u32, place: usize, what: &str) {
    let before = call.clone();
    let checked = refusal(
        &call.cells,
        &call.operations,
        &call.schedule,
        call.answers.len(),
        call.log.len(),
    );
    assert_eq!(checked, Some((number, place)), "{what}");
    let refused = Outcome {
        number,
        place,
        done: 0,
        lost: 0,
        idle: 0,
    };
    assert_eq!(call.run(), refused, "{what}");
    assert_eq!(call, before, "{what}");
}

fn assert_accepted<W: Width>(mut call: Call<W>, what: &str) {
    assert_eq!(call.run().number, 0, "{what}");
}

fn the_call_without_a_fault_is_accepted<W: Width>() {
    let mut call = accepted_call::<W>();
    let outcome = call.run();
    let expected = Outcome {
        number: 0,
        place: 0,
        done: 3,
        lost: 0,
        idle: 1,
    };
    assert_eq!(outcome, expected);
}

fn each_fault_of_a_run_alone<W: Faulty>() {
    for (what, number, place, spoil) in faults::<W>() {
        let mut call = accepted_call::<W>();
        spoil(&mut call);
        assert_refused(call, number, place, what);
    }
}

fn of_two_faults_of_a_run_the_earlier_decides<W: Faulty>() {
    let faults = faults::<W>();
    for (later, (second, number_of_second, _, spoil_more)) in faults.iter().enumerate() {
        for (first, number, place, spoil) in &faults[..later] {
            // Two ways to meet one condition may share a cell or a row.
            if number != number_of_second {
                let mut call = accepted_call::<W>();
                spoil(&mut call);
                spoil_more(&mut call);
                assert_refused(call, *number, *place, &format!("{first}, {second}"));
            }
        }
    }
}

fn every_number_of_cells<W: Width>() {
    let allowed = [1, 2, 4, 8, 16, 32, 64, 128, 256, 512, 1_024, 2_048, 4_096];
    for c in (0..=4_200).chain([8_192, 16_384, 65_536]) {
        let call = Call::new(filled::<W>(c, &[]), &[row::<W>("find", 1, 0)], &[0]);
        let what = format!("{c} cells");
        if allowed.contains(&c) {
            assert_accepted(call, &what);
        } else {
            assert_refused(call, 1, 0, &what);
        }
    }
}

fn answers_and_log_as_long_as_the_rows_suffice<W: Width>() {
    let mut call = accepted_call::<W>();
    call.answers.truncate(3);
    call.log.truncate(3);
    assert_accepted(call.clone(), "three of each");
    // The log must have the length even where nobody finishes.
    call.schedule.clear();
    call.log.truncate(2);
    assert_refused(call, 3, 0, "two log bytes");
    let nothing_to_write = Call {
        cells: filled::<W>(8, &[]),
        operations: vec![],
        schedule: vec![],
        answers: vec![],
        log: vec![],
    };
    assert_accepted(nothing_to_write, "no rows");
}

fn the_first_of_two_like_faults_is_named<W: Width>() {
    let mut call = accepted_call::<W>();
    call.cells[12] = cell(65_535, 1);
    call.cells[3] = cell(0, 9);
    assert_refused(call, 4, 3, "two cells");

    let mut call = accepted_call::<W>();
    call.operations[1] = 0;
    call.operations[2] = 0;
    assert_refused(call, 5, 1, "two rows");

    let mut call = accepted_call::<W>();
    call.schedule[5] = 3;
    call.schedule[2] = 4;
    assert_refused(call, 6, 2, "two entries");

    // Key 2 is first seen before key 1, but key 1 is the first seen again.
    let twice = filled::<W>(
        16,
        &[(3, 2, 0), (9, 1, 0), (10, 1, 0), (11, 1, 0), (12, 2, 0)],
    );
    let call = Call::new(twice, &[], &[]);
    assert_refused(call, 7, 10, "two keys again");

    let mut call = accepted_call::<W>();
    call.cells[3] = cell(5, 0);
    call.cells[6] = cell(6, 0);
    assert_refused(call, 8, 3, "two keys not at home");
}

fn rows_and_words_at_their_bounds_are_accepted<W: Width>() {
    let operations = [
        row::<W>("find", 65_534, 0),
        row::<W>("insert", 1, W::PINNED),
        row::<W>("update", 1, 0),
        row::<W>("add", 1, 0),
        row::<W>("remove", 65_534, 0),
    ];
    let cells = filled::<W>(8, &[(1, 65_535, 0), (2, 65_535, 0), (4, 1, W::PINNED)]);
    assert_eq!(cells[1], W::GONE);
    assert_accepted(Call::new(cells, &operations, &[4, 3, 2, 1, 0]), "bounds");
}

fn live_keys_that_a_search_reaches_are_accepted<W: Width>() {
    // In 8 cells keys 1, 9 and 17 have home 4, keys 8 and 16 home 7.
    let reached = [
        (
            "behind a tombstone",
            filled::<W>(8, &[(4, 65_535, 0), (5, 9, 1)]),
        ),
        ("round the end", filled::<W>(8, &[(7, 8, 1), (0, 16, 1)])),
        (
            "empty before the home",
            filled::<W>(8, &[(4, 1, 1), (5, 9, 1), (6, 17, 1)]),
        ),
    ];
    for (what, cells) in reached {
        assert_accepted(Call::new(cells, &[], &[]), what);
    }
    // Without an empty cell nothing is out of reach, however far from home.
    let mut cells = vec![W::GONE; 8];
    cells[3] = cell(1, 0);
    assert_accepted(Call::new(cells.clone(), &[], &[]), "seven tombstones");
    // The one empty cell is on the way, wherever it stands.
    for empty in [0, 1, 2, 4, 5, 6, 7] {
        let mut cells = cells.clone();
        cells[empty] = W::word(0);
        assert_refused(Call::new(cells, &[], &[]), 8, 3, "one empty cell");
    }
}

/// Refusals 7 and 8 as their sentences put them, cell by cell.
fn by_the_sentence<W: Width>(cells: &[W]) -> Option<(u32, usize)> {
    let c = cells.len();
    let key = |cell: usize| -> u64 { cells[cell].into() / W::CELL_KEY };
    let live = |cell: usize| (1..=65_534).contains(&key(cell));
    let again = |&cell: &usize| live(cell) && (0..cell).any(|lower| key(lower) == key(cell));
    let out_of_reach = |&cell: &usize| {
        let first = home(key(cell) as u32, c as u32) as usize;
        let mut way = (0..c).map(|passed| (first + passed) % c);
        live(cell)
            && way
                .by_ref()
                .take_while(|&on| on != cell)
                .any(|on| cells[on] == W::word(0))
    };
    let seven = (0..c).find(again).map(|place| (7, place));
    seven.or_else(|| (0..c).find(out_of_reach).map(|place| (8, place)))
}

fn whole_table_refusals_are_those_of_the_sentences<W: Width>() {
    // Numbers that look random but are the same at every run.
    let mut seed = 1_u64;
    let mut draw = |bound: u64| {
        seed = seed.wrapping_mul(6_364_136_223_846_793_005).wrapping_add(1);
        (seed >> 33) % bound
    };
    let mut met = [0; 3];
    for turn in 0..60_000 {
        let c = if turn % 3 == 0 { 16 } else { 8 };
        // Mostly filled, so that keys away from home are often reached.
        let holes = draw(4);
        let cells: Vec<W> = (0..c)
            .map(|_| match draw(12) {
                what if what < holes => W::word(0),
                what if what < 7 => W::GONE,
                _ => cell(draw(60) + 1, 0),
            })
            .collect();
        let expected = by_the_sentence(&cells);
        let actual = refusal(&cells, &[], &[], 0, 0);
        assert_eq!(actual, expected, "{cells:?}");
        met[expected.map_or(0, |(number, _)| number as usize - 6)] += 1;
    }
    // Accepted, refused 7 and refused 8 were all tried, and often.
    assert!(met.iter().all(|&count| count > 5_000), "{met:?}");
}

/// A call of 16 wide cells with this word in cell 6, the home of key 12.
fn with_cell(word: u64) -> Call<u64> {
    let mut call = accepted_call();
    call.cells[6] = word;
    call
}

/// A call whose last operation is this wide word.
fn with_row(word: u64) -> Call<u64> {
    let mut call = accepted_call();
    call.operations[2] = word;
    call
}

#[test]
fn each_bit_of_a_wide_cell_beside_its_fields_is_refused() {
    for bit in 33..48 {
        for word in [0, u64::GONE, cell(12, 0), cell(12, FLAG + 4_294_967_295)] {
            let what = format!("bit {bit} on {word}");
            assert_refused(with_cell(word + (1 << bit)), 4, 6, &what);
        }
    }
}

#[test]
fn each_bit_of_a_wide_total_is_a_total_on_a_live_key_alone() {
    for bit in 0..=32 {
        let total = 1_u64 << bit;
        let what = format!("bit {bit}");
        assert_accepted(with_cell(cell(12, total)), &what);
        assert_refused(with_cell(cell(0, total)), 4, 6, &what);
        assert_refused(with_cell(cell(65_535, total)), 4, 6, &what);
    }
}

#[test]
fn only_an_unflagged_ceiling_is_no_wide_total() {
    for total in [0, 65_535, 4_294_967_294, FLAG, FLAG + 7, u64::PINNED] {
        let what = format!("{total}");
        assert_accepted(with_cell(cell(12, total)), &what);
        for kind in ["insert", "update", "add"] {
            assert_accepted(with_row(row::<u64>(kind, 1, total)), &what);
        }
    }
    // Without a live key it is 4 by either condition.
    for key in [0, 1, 12, 65_534, 65_535] {
        assert_refused(with_cell(cell(key, 4_294_967_295)), 4, 6, "unflagged");
    }
}

#[test]
fn each_bit_of_an_amount_or_above_the_kind_of_a_wide_row_is_refused() {
    for bit in (0..=32).chain(57..64) {
        for kind in ["find", "remove"] {
            let word = row::<u64>(kind, 1, 0) + (1 << bit);
            assert_refused(with_row(word), 5, 2, &format!("{kind}, bit {bit}"));
        }
    }
    for bit in 57..64 {
        for kind in ["insert", "update", "add"] {
            let word = row::<u64>(kind, 1, FLAG + 7) + (1 << bit);
            assert_refused(with_row(word), 5, 2, &format!("{kind}, bit {bit}"));
        }
    }
}
