//! The group of discards (sections 10.11 to 10.14): edits of two levels, dropped or
//! not, with restarts between them.
//!
//! The story stands in a table with the numbers, the orders, the touched levels and
//! the marks that the rules give, and is cut at every order: power that goes inside a
//! discard or after it shows the page last saved (`explore`). `worked_example` is the
//! table of section 17.8, cut likewise; `longest` tries the tape that always suffices
//! (section 6.4). Like the other groups these run over any implementation of the
//! calls.

use crate::arbitrary::{distinct_data, image_of, Metadata};
use crate::book::{pages_read, Call};
use crate::calls::*;
use crate::explore::*;
use crate::groups::{all_found, due, laid_out, plain, states};
use crate::report::{Found, Outcome};

const SIZES: Sizes = Sizes::new(2, 1, 2);

/// A step of the story: the call, its number and orders, and after it the touched
/// levels, the marks of both levels and their states.
type Row = (&'static str, Call, (u64, u64), (u64, [u64; 2]), [u8; 2]);

/// A write of a word to a frame of a level; each is another word.
fn word(level: u64, frame: u64, value: u8) -> Call {
    let target = Target { console: 0, level, frame, offset: 8 };
    plain(Deed::Write(target, vec![value; WORD]), SIZES)
}

fn discard(level: u64) -> Call {
    plain(Deed::Discard(level), SIZES)
}

/// A discard with a tape of so many numbers.
fn lent(level: u64, tape: usize) -> Call {
    Call { tape, ..discard(level) }
}

/// Edits of empty levels, and the first save.
fn of_empty_levels() -> Vec<Row> {
    vec![
        ("nobody touched it", lent(0, 0), (0, 0), (0, [0, 0]), [0, 0]),
        ("an edit of an empty level", word(0, 0, 0x11), (0, 1), (1, [1, 0]), [0, 0]),
        ("a number short", lent(0, 95), (11, 0), (1, [1, 0]), [0, 0]),
        ("zeros", discard(0), (0, 32), (1, [1, 0]), [0, 0]),
        ("the tape is long enough", lent(0, 96), (0, 32), (1, [1, 0]), [0, 0]),
        ("another level", lent(1, 0), (0, 0), (1, [1, 0]), [0, 0]),
        ("no such level", lent(2, 0), (6, 0), (1, [1, 0]), [0, 0]),
        ("the level is set, its frame flushed", plain(Deed::Save, SIZES), (0, 18), (0, [1, 0]), [1, 0]),
    ]
}

/// Edits of a level whose saved bytes stand in its spare.
fn of_a_saved_level() -> Vec<Row> {
    let over_the_end = Deed::Write(Target { console: 0, level: 0, frame: 0, offset: 252 }, vec![0x22; WORD]);
    vec![
        ("marked, but not touched", discard(0), (0, 0), (0, [1, 0]), [1, 0]),
        ("whatever the tape", lent(0, 0), (0, 0), (0, [1, 0]), [1, 0]),
        ("a new spare", plain(over_the_end, SIZES), (0, 80), (1, [3, 0]), [2, 0]),
        ("saved", plain(Deed::Save, SIZES), (0, 22), (0, [3, 0]), [1, 0]),
        ("its two frames copied", word(0, 1, 0x33), (0, 77), (1, [2, 0]), [2, 0]),
        ("the one that is marked since", lent(0, 96), (0, 32), (1, [2, 0]), [2, 0]),
        ("one more", word(0, 0, 0x44), (0, 1), (1, [3, 0]), [2, 0]),
        ("a number short for two", lent(0, 191), (11, 0), (1, [3, 0]), [2, 0]),
        ("both", lent(0, 192), (0, 64), (1, [3, 0]), [2, 0]),
        ("both again", discard(0), (0, 64), (1, [3, 0]), [2, 0]),
        ("an edit that stays", word(0, 1, 0x55), (0, 1), (1, [3, 0]), [2, 0]),
        ("an edit of the other level", word(1, 0, 0x66), (0, 1), (3, [3, 1]), [2, 0]),
        ("dropped alone", discard(1), (0, 32), (3, [3, 1]), [2, 0]),
        ("both are set", plain(Deed::Save, SIZES), (0, 26), (0, [3, 1]), [1, 1]),
    ]
}

/// Around a restart that finds a level in its spare.
fn after_a_restart() -> Vec<Row> {
    let other = Sizes { frames: 1, ..SIZES };
    vec![
        ("its own spare", word(0, 0, 0x77), (0, 77), (1, [1, 1]), [2, 1]),
        ("a refused opening", plain(Deed::Open(other, ADR), SIZES), (2, 0), (0, [0, 0]), [2, 1]),
        ("on a card of zeros", discard(0), (1, 0), (0, [0, 0]), [2, 1]),
        ("the level is restored", plain(Deed::Open(SIZES, ADR), SIZES), (0, 73), (0, [0, 0]), [2, 1]),
        ("nobody touched it since", lent(0, 0), (0, 0), (0, [0, 0]), [2, 1]),
        ("an edit of a restored level", word(0, 1, 0x88), (0, 1), (1, [2, 0]), [2, 1]),
        ("from its spare", lent(0, 96), (0, 32), (1, [2, 0]), [2, 1]),
        ("the same bytes saved", plain(Deed::Save, SIZES), (0, 18), (0, [2, 0]), [1, 1]),
        ("its own spare again", word(0, 0, 0x99), (0, 41), (1, [1, 0]), [2, 1]),
        ("dropped at the end", discard(0), (0, 32), (1, [1, 0]), [2, 1]),
    ]
}

/// The story from laying-out on, with this plan for its cuts.
pub fn story<C: Calls>(calls: &C, plan: Plan) -> Outcome {
    let mut explorer = Explorer::new(calls, SIZES, 10);
    let mut history = explorer.start(&laid_out(calls, SIZES)?, plan)?;
    let rows = [of_empty_levels(), of_a_saved_level(), after_a_restart()].concat();
    for (step, (name, call, (number, orders), (touched, marks), expected)) in (1..).zip(rows) {
        let told = |what: &str| format!("step {step}, {name}: {call}, {what}");
        let ran = explorer.step(&mut history, &call, plan).map_err(|what| told(&what))?;
        due(&told("number"), ran.answer.number, number)?;
        due(&told("orders"), ran.answer.orders, orders)?;
        let card = history.card;
        due(&told("touched and marks"), (card.touched, [card.marks[0], card.marks[1]]), (touched, marks))?;
        due(&told("states"), &states(history.module.image(), SIZES)[..], &expected)?;
    }
    Ok(all_found(Counts { histories: 1, ..explorer.counts() }))
}

const BOARD: Sizes = Sizes::new(2, 1, 1);

/// A step of section 17.8: the call, its number and orders, and after it the states,
/// the first two bytes of both levels and the touched levels.
type Worked = (Call, (u64, u64), [u8; 2], [[u8; 2]; 2], u64);

/// The table of section 17.8, with the opening at its end.
fn rows_of_17_8() -> Vec<Worked> {
    let write = |level, bytes: [u8; 2]| {
        plain(Deed::Write(Target { console: 0, level, frame: 0, offset: 0 }, bytes.to_vec()), BOARD)
    };
    let discard = |level, tape| Call { tape, ..plain(Deed::Discard(level), BOARD) };
    let (save, room) = (plain(Deed::Save, BOARD), BOARD.discard_room());
    let (none, first, edit, other) = ([0, 0], [10, 11], [20, 21], [30, 31]);
    vec![
        (write(0, first), (0, 1), [0, 0], [first, none], 1),
        (save.clone(), (0, 18), [1, 0], [first, none], 0),
        (write(0, edit), (0, 43), [2, 0], [edit, none], 1),
        (write(1, other), (0, 1), [2, 0], [edit, other], 3),
        (discard(0, room), (0, 32), [2, 0], [first, other], 3),
        (discard(1, room), (0, 32), [2, 0], [first, none], 3),
        (discard(2, room), (6, 0), [2, 0], [first, none], 3),
        (discard(0, 95), (11, 0), [2, 0], [first, none], 3),
        (save, (0, 22), [1, 1], [first, none], 0),
        (discard(0, 0), (0, 0), [1, 1], [first, none], 0),
        (plain(Deed::Open(BOARD, ADR), BOARD), (0, 37), [1, 1], [first, none], 0),
    ]
}

/// Section 17.8 at every cut. The saved read of level 1 has a part once its dropped
/// edit is saved.
pub fn worked_example<C: Calls>(calls: &C) -> Outcome {
    let mut explorer = Explorer::new(calls, BOARD, 11);
    let mut history = explorer.start(&laid_out(calls, BOARD)?, Plan::ALL)?;
    for (step, (call, (number, orders), expected, bytes, touched)) in (1..).zip(rows_of_17_8()) {
        let told = |what: &str| format!("17.8, step {step}: {call}, {what}");
        let ran = explorer.step(&mut history, &call, Plan::ALL).map_err(|what| told(&what))?;
        due(&told("number and orders"), (ran.answer.number, ran.answer.orders), (number, orders))?;
        let image = history.module.image();
        due(&told("states"), &states(image, BOARD)[..], &expected)?;
        let stand = [0, 1].map(|level| [0, 1].map(|at| image[BOARD.in_level(level, 0) + at]));
        due(&told("bytes"), stand, bytes)?;
        due(&told("touched"), history.card.touched, touched)?;
        let part = calls.read(Page::Saved, image, BOARD, 1, 0);
        let length = if step < 9 { 0 } else { FRAME as u64 };
        due(&told("the saved read of level 1"), part.length, length)?;
    }
    Ok(all_found(Counts { histories: 1, ..explorer.counts() }))
}

/// The longest discard there is for every size of a level: of all its frames, which
/// all differ from what the spare has. It fills the tape that always suffices; with a
/// number less it hears 11. An untouched level needs no tape.
pub fn longest<C: Calls>(calls: &C) -> Outcome {
    for frames in 1..=MOST {
        let sizes = Sizes::new(1, 1, frames);
        let in_spare = Metadata { states: vec![2], pairs: vec![0] };
        let image = image_of(sizes, 6, &in_spare, 0, &distinct_data(sizes));
        let (marks, orders) = (u64::MAX >> (64 - frames), 32 * frames);
        let discard = |touched: u64, numbers: u64| {
            let mut card = Card::fresh(sizes, ADR);
            (card.touched, card.marks[0]) = (touched, marks);
            let (given, mut tape) = (card, vec![0; numbers as usize]);
            let answer = calls.make(&Deed::Discard(0), &image, Given::of(&mut card, &mut [], &mut tape));
            ((answer.number, answer.orders, card == given), tape)
        };
        let told = |what| format!("the longest discard at {sizes}, {what}");
        let (answer, tape) = discard(1, 3 * orders);
        due(&told("its orders"), answer, (0, orders, true))?;
        due(&told("a number less"), discard(1, 3 * orders - 1).0, (11, 0, true))?;
        due(&told("untouched"), discard(0, 0).0, (0, 0, true))?;
        let mut played = image.clone();
        calls.play(&mut played, &tape, orders);
        let (working, saved) = pages_read(calls, &played, sizes)?;
        due(
            &told("both pages"),
            working == saved.frames && saved.frames == image[sizes.in_spare(0, 0)..],
            true,
        )?;
    }
    Ok(Found::new(format!("{MOST} sizes of a level, each with the tape that just suffices"), &[]))
}
