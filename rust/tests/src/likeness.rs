//! The groups of likeness (section 13): empty is not silent. A level that was never
//! set is told from one that was saved with all stops off.
//!
//! `worked_example` is the table of section 17.11, cut at every order. Every saved byte
//! in it is zero, so that its boards differ by their empty levels alone; each is held
//! against each. `boards` does the same with the boards of random histories that write
//! little else than zeros, and asks of likeness that it is one: reflexive, symmetric,
//! transitive, and the equality of all saved reads. Like the other groups these run
//! over any implementation of the calls. That a call leaves a board alike the one
//! before is a law of every history (`laws`); images of any contents are compared with
//! twins (`arbitrary`).

use crate::arbitrary::{self, image_of, Metadata};
use crate::benches::{Bench, Rubbish};
use crate::book::{alike, pages_read, Call, Contents};
use crate::calls::*;
use crate::explore::*;
use crate::groups::{due, found, laid_out, plain, states};
use crate::laws::Likes;
use crate::prng::Rng;
use crate::report::{Found, Outcome};

const BOARD: Sizes = Sizes::new(2, 1, 1);

/// A step of section 17.11: the call, its number and orders; after it the states, where
/// the saved reads of both levels start, and the first step whose board is alike.
type Worked = (Call, (u64, u64), [u8; 2], [Option<u64>; 2], usize);

/// A write of one byte to the start of a level.
fn write(level: u64, byte: u8) -> Call {
    plain(Deed::Write(Target { console: 0, level, frame: 0, offset: 0 }, vec![byte]), BOARD)
}

fn opening() -> Call {
    plain(Deed::Open(BOARD, ADR), BOARD)
}

/// The table of section 17.11, from the opening on, which is step 0.
fn rows_of_17_11() -> Vec<Worked> {
    let save = plain(Deed::Save, BOARD);
    let ([own, own_of_1], spare) = ([Some(512), Some(768)], Some(1024));
    vec![
        (opening(), (0, 73), [0, 0], [None, None], 0),
        (write(0, 0), (0, 1), [0, 0], [None, None], 0),
        (save.clone(), (0, 18), [1, 0], [own, None], 2),
        (save.clone(), (0, 18), [1, 0], [own, None], 2),
        (write(0, 0), (0, 43), [2, 0], [spare, None], 2),
        (save.clone(), (0, 18), [1, 0], [own, None], 2),
        (write(1, 1), (0, 1), [1, 0], [own, None], 2),
        (plain(Deed::Discard(1), BOARD), (0, 32), [1, 0], [own, None], 2),
        (save, (0, 22), [1, 1], [own, own_of_1], 8),
    ]
}

/// Section 17.11 at every cut, and each of its boards beside itself and those before.
/// The laws are left out: what is due stands in the table.
pub fn worked_example<C: Calls>(calls: &C) -> Outcome {
    let mut explorer = Explorer::new(calls, BOARD, 14).without_laws();
    let mut history = explorer.start(&laid_out(calls, BOARD)?, Plan::ALL)?;
    let (rows, mut boards) = (rows_of_17_11(), Vec::new());
    for (step, (call, (number, orders), expected, starts, like)) in rows.iter().enumerate() {
        let told = |what: &str| format!("17.11, step {step}: {call}, {what}");
        let ran = explorer.step(&mut history, call, Plan::ALL).map_err(|what| told(&what))?;
        due(&told("number and orders"), (ran.answer.number, ran.answer.orders), (*number, *orders))?;
        let board = history.module.image().to_vec();
        due(&told("states"), &states(&board, BOARD)[..], expected)?;
        let reads = [0, 1].map(|level| {
            let part = calls.read(Page::Saved, &board, BOARD, level, 0);
            (part.length == FRAME as u64).then_some(part.start)
        });
        due(&told("saved reads"), reads, *starts)?;
        let saved = pages_read(calls, &board, BOARD)?.1;
        due(&told("saved bytes that are not zero"), saved.frames.iter().find(|byte| **byte != 0), None)?;
        boards.push(board);
        for (other, (.., as_other)) in rows[..=step].iter().enumerate() {
            let told = |what: &str| told(&format!("with the board of step {other}, {what}"));
            let yes = alike(calls, &boards[other], &boards[step], BOARD).map_err(|what| told(&what))?;
            due(&told("alike"), yes, as_other == like)?;
        }
    }
    the_other_level(calls, &boards)?;
    of_no_history(calls)?;
    refused(calls, &boards)?;
    let text = format!("{} boards, each with each, at {} cuts", boards.len(), explorer.counts().cuts);
    Ok(found(text, Counts { histories: 1, ..explorer.counts() }))
}

/// A board on which the other level alone was saved with zeros is unlike all of these.
fn the_other_level<C: Calls>(calls: &C, boards: &[Vec<u8>]) -> Result<(), String> {
    let mut bench = Bench::laid_out(calls, BOARD, Rubbish::Zeros);
    let other = [opening(), write(1, 0), plain(Deed::Save, BOARD)].map(|call| bench.run(&call, 0).dump);
    due("17.11, the other level, states", &states(&other[2], BOARD)[..], &[0, 1])?;
    for (step, board) in boards.iter().enumerate() {
        let told = format!("17.11, the other level and the board of step {step}, alike");
        due(&told, alike(calls, &other[2], board, BOARD)?, false)?;
    }
    Ok(())
}

/// A board that no history left: level 0 stands in its spare, is not touched and differs
/// from it. A save while nothing is touched leaves an unlike board there.
fn of_no_history<C: Calls>(calls: &C) -> Result<(), String> {
    let in_spare = Metadata { states: vec![2, 0], pairs: vec![0] };
    let data = [5, 0, 6].map(|byte| [byte; FRAME]).concat();
    let before = image_of(BOARD, 0, &in_spare, 0, &data);
    let (mut card, mut tape, mut after) = (Card::fresh(BOARD, ADR), vec![0; BOARD.room()], before.clone());
    let given = Given::of(&mut card, &mut [], &mut tape);
    let Answer { number, orders } = calls.make(&Deed::Save, &before, given);
    due("17.11, a board of no history, number", number, 0)?;
    calls.play(&mut after, &tape[..3 * orders as usize], orders);
    due("17.11, a board of no history, alike", alike(calls, &before, &after, BOARD)?, false)
}

/// A refused likeness answers no, the first image being judged wholly before the second.
fn refused<C: Calls>(calls: &C, boards: &[Vec<u8>]) -> Result<(), String> {
    for board in boards {
        let mut unsound = board.clone();
        unsound[PAIRS + 1] = 0;
        let short = &board[..board.len() - 1];
        for (first, second, number) in
            [(&unsound[..], &board[..], 4), (board, &unsound, 4), (&unsound, short, 4), (short, &unsound, 2)]
        {
            due("17.11, likeness of an unsound board", calls.like(first, second, BOARD), (number, false))?;
        }
    }
    Ok(())
}

/// Any call of a history of few bytes: writes of one byte, mostly 0, to the start of a
/// frame; discards, saves and openings.
fn call_of_few_bytes(rng: &mut Rng, sizes: Sizes) -> Call {
    let (level, frame) = (rng.below(sizes.levels as usize) as u64, rng.below(sizes.frames as usize) as u64);
    let deed = match rng.below(8) {
        0..=3 => Deed::Write(Target { console: 0, level, frame, offset: 0 }, vec![rng.pick(&[0, 0, 0, 1])]),
        4 => Deed::Discard(level),
        5 | 6 => Deed::Save,
        _ => Deed::Open(sizes, ADR),
    };
    plain(deed, sizes)
}

/// How many histories a round has, and how many calls each has after its opening.
const HISTORIES: usize = 3;
const CALLS: usize = 8;

/// Boards of random histories, so many rounds of them, each with each of its round:
/// likeness is reflexive, symmetric and transitive, and two boards are alike exactly if
/// the saved read of every frame gives the same bytes, or no part, in both. Each kind
/// of pair must be among them.
pub fn boards<C: Calls>(calls: &C, seed: u64, rounds: usize) -> Outcome {
    let mut rng = Rng::new(seed);
    let (mut likes, mut compared) = (Likes::default(), 0);
    for round in 0..rounds {
        let sizes = arbitrary::sizes(&mut rng, 3);
        let boards = of_few_bytes(calls, &mut rng, sizes);
        let tell = |what| format!("boards of round {round}, sizes {sizes}: {what}");
        compared += is_likeness(calls, &boards, sizes).map_err(tell)?;
        for first in &boards {
            boards.iter().for_each(|second| likes.feed(first, second, sizes));
        }
    }
    likes.all_tried()?;
    let told: Vec<String> = likes.named().iter().map(|(name, count)| format!("{count} {name}")).collect();
    let text = format!("{rounds} rounds, {compared} pairs of boards; {}", told.join(", "));
    Ok(Found::new(text, &[("pairs of boards", compared)]))
}

/// The boards of some histories from laying-out on, after each call.
fn of_few_bytes<C: Calls>(calls: &C, rng: &mut Rng, sizes: Sizes) -> Vec<Vec<u8>> {
    let mut boards = Vec::new();
    for _ in 0..HISTORIES {
        let mut bench = Bench::laid_out(calls, sizes, Rubbish::Zeros);
        boards.push(bench.run(&plain(Deed::Open(sizes, ADR), sizes), 0).dump);
        boards.extend((0..CALLS).map(|_| bench.run(&call_of_few_bytes(rng, sizes), 0).dump));
    }
    boards
}

/// Holds the likenesses of these boards against one another, then against their saved
/// reads. Gives how many there are.
fn is_likeness<C: Calls>(calls: &C, boards: &[Vec<u8>], sizes: Sizes) -> Result<u64, String> {
    let row = |first: &Vec<u8>| boards.iter().map(|second| calls.like(first, second, sizes)).collect();
    let likes: Vec<Vec<(u64, bool)>> = boards.iter().map(row).collect();
    let saved: Vec<Contents> =
        boards.iter().map(|board| Ok(pages_read(calls, board, sizes)?.1)).collect::<Result<_, String>>()?;
    for (i, row) in likes.iter().enumerate() {
        due("a board is alike itself", row[i], (0, true))?;
        for (j, like) in row.iter().enumerate() {
            due("a likeness turned round", likes[j][i], *like)?;
            let through = |k: usize| like.1 && likes[j][k].1 && !row[k].1;
            due("unlike, and alike a third", (0..boards.len()).find(|k| through(*k)), None)?;
            due("alike, as the saved reads are", *like, (0, saved[i] == saved[j]))?;
        }
    }
    Ok((boards.len() * boards.len()) as u64)
}
