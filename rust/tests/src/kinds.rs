//! The groups of the kinds of module: a tape of kind 1 is that of kind 0 with its
//! flushes left out, and power may fail on either.
//!
//! `both` makes calls with any contents for both kinds and lays the tapes side by side.
//! `bench_cases` is a story on a module of kind 1, cut at every order: at every cut one
//! image stands, and in a save the new page is shown from the epoch store on.
//! `wrong_kind` gives openings another kind than the module's: kind 0 is safe on every
//! module; with kind 1 a module of kind 0 loses bytes of finished saves. Like the other
//! groups these run over any implementation of the calls. The groups of short histories
//! and of restarts are told their kinds (`groups`, `restart`).

use crate::arbitrary;
use crate::book::Call;
use crate::calls::*;
use crate::explore::*;
use crate::groups::{all_found, cut_line, due, laid_out, plain};
use crate::prng::Rng;
use crate::report::{Found, Outcome};

/// What a call for one kind answered, wrote and left.
struct Made {
    answer: Answer,
    orders: Vec<Order>,
    card: Card,
    run: Vec<Console>,
}

/// A call with what it is lent, but for the kind and the tape.
struct Asked {
    deed: Deed,
    image: Vec<u8>,
    card: Card,
    run: Vec<Console>,
}

impl Asked {
    /// Any call: its image is sound, and its card is true but for one in four.
    fn any(rng: &mut Rng) -> Asked {
        let sizes = arbitrary::sizes(rng, 4);
        let image = arbitrary::sound_image(rng, sizes);
        let card = arbitrary::card(rng, &image, sizes);
        let run = arbitrary::own_run(rng, sizes);
        let deed = match rng.below(8) {
            0 | 1 => Deed::Open(sizes, ADR),
            2 => Deed::Discard(arbitrary::discarding_on(rng, &card, sizes)),
            3 => Deed::Save,
            _ => {
                let (target, bytes) = arbitrary::writing(rng, sizes);
                Deed::Write(Target { console: arbitrary::console(rng, &run), ..target }, bytes)
            }
        };
        Asked { deed, image, card, run }
    }

    /// Makes the call for a module of this kind, with a tape of so many numbers.
    fn made<C: Calls>(&self, calls: &C, kind: u64, tape: usize) -> Result<Made, String> {
        let deed = match &self.deed {
            Deed::Open(sizes, _) => Deed::Open(*sizes, kind),
            deed => deed.clone(),
        };
        let (mut card, mut run, mut tape) = (Card { kind, ..self.card }, self.run.clone(), vec![0; tape]);
        let answer = calls.make(&deed, &self.image, Given::of(&mut card, &mut run, &mut tape));
        let part = tape.get(..3 * answer.orders as usize).ok_or("more orders than the tape can hold")?;
        let orders = orders_of(part, self.image.len()).ok_or("an order is ill formed")?;
        Ok(Made { answer, orders, card, run })
    }
}

/// So many calls with any contents, each for both kinds: the same numbers, the same
/// stores and fences in the same order, no flush for kind 1, and the same card and run
/// left but for the kind. The tape of kind 1 is as short as its orders; with a number
/// less the call hears 11.
pub fn both<C: Calls>(calls: &C, seed: u64, rounds: usize) -> Outcome {
    let mut rng = Rng::new(seed);
    let (mut flushes, mut shorter) = (0, 0);
    for _ in 0..rounds {
        let asked = Asked::any(&mut rng);
        let told = |what: &str| format!("{} for both kinds, {what}", asked.deed);
        let room = Sizes::new(4, 4, 4).room();
        let (zero, one) = (asked.made(calls, ADR, room)?, asked.made(calls, EADR, room)?);
        due(&told("numbers"), one.answer.number, zero.answer.number)?;
        let unflushed: Vec<Order> =
            zero.orders.iter().filter(|order| !matches!(order, Order::Flush { .. })).copied().collect();
        due(&told("orders"), &one.orders, &unflushed)?;
        let refused_opening = matches!(asked.deed, Deed::Open(..)) && !zero.answer.served();
        let left = if refused_opening { ADR } else { EADR };
        due(&told("kinds left"), [zero.card.kind, one.card.kind], [ADR, left])?;
        due(&told("cards"), Card { kind: ADR, ..one.card }, zero.card)?;
        due(&told("runs"), one.run, zero.run)?;
        flushes += (zero.orders.len() - one.orders.len()) as u64;
        if let Some(less) = (3 * one.orders.len()).checked_sub(1) {
            due(&told("its tape"), asked.made(calls, EADR, less + 1)?.answer, one.answer)?;
            due(&told("a number less"), asked.made(calls, EADR, less)?.answer.number, 11)?;
            shorter += u64::from(one.orders.len() < zero.orders.len());
        }
    }
    due("flushes were left out", flushes > 0, true)?;
    let text = format!("{rounds} calls for both kinds, {shorter} tapes without their {flushes} flushes");
    Ok(Found::new(text, &[("calls for both kinds", rounds as u64)]))
}

const SIZES: Sizes = Sizes::new(2, 1, 1);

fn write(level: u64, offset: u64, bytes: &[u8]) -> Call {
    plain(Deed::Write(Target { console: 0, level, frame: 0, offset }, bytes.to_vec()), SIZES)
}

/// The calls of the story with their numbers and orders: those of the bench cases
/// without flushes.
fn rows() -> Vec<(&'static str, Call, (u64, u64))> {
    let open = |kind| plain(Deed::Open(SIZES, kind), SIZES);
    let (save, discard) = (plain(Deed::Save, SIZES), plain(Deed::Discard(0), SIZES));
    let short = |call: &Call, tape| Call { tape, ..call.clone() };
    vec![
        ("a kind that there is not", open(2), (5, 0)),
        ("a number short for two empty levels", short(&open(EADR), 194), (11, 0)),
        ("the tape is long enough", short(&open(EADR), 195), (0, 65)),
        ("two words of an empty level", write(0, 6, &[1, 2, 3, 4]), (0, 2)),
        ("a number short", short(&save, 35), (11, 0)),
        ("whatever is marked", short(&save, 36), (0, 12)),
        ("a number short for a new spare", short(&write(0, 0, &[5; 8]), 110), (11, 0)),
        ("a new spare", short(&write(0, 0, &[5; 8]), 111), (0, 37)),
        ("touched", write(0, 16, &[6; 8]), (0, 1)),
        ("its frame from the spare", discard, (0, 32)),
        ("an empty level", write(1, 0, &[7; 8]), (0, 1)),
        ("the second page", save.clone(), (0, 12)),
        ("the spare of the other level", write(1, 0, &[8; 8]), (0, 37)),
        ("none is free", write(0, 0, &[9; 8]), (9, 0)),
        ("the third page", save.clone(), (0, 12)),
        ("a number short for an own spare", short(&write(1, 8, &[10; 8]), 107), (11, 0)),
        ("its marked frame to its own spare", short(&write(1, 8, &[10; 8]), 108), (0, 36)),
        ("the level is restored", open(EADR), (0, 33)),
        ("nothing is marked", save, (0, 12)),
    ]
}

/// The story on a module of kind 1, at every cut; nothing waits.
pub fn bench_cases<C: Calls>(calls: &C) -> Outcome {
    let kinds = Kinds::EADR;
    let mut explorer = Explorer::new(calls, SIZES, 12).of(kinds);
    let mut history = explorer.start(&laid_out(calls, SIZES)?, Plan::ALL)?;
    for (name, call, expected) in rows() {
        let told = |what: &str| format!("kind 1, {name}: {call}, {what}");
        let new_page = history.book.working != history.book.saved;
        let step = explorer.step(&mut history, &call, Plan::ALL).map_err(|what| told(&what))?;
        due(&told("number and orders"), (step.answer.number, step.answer.orders), expected)?;
        if call.deed == Deed::Save && step.answer.served() && new_page {
            cut_line(&told("cut"), &step, kinds)?;
        }
        due(&told("every cut shows one page"), step.shown.iter().all(|shown| shown.len() == 1), true)?;
        due(&told("the ways of a cut after it"), history.module.cut().ways(), 1)?;
    }
    Ok(all_found(Counts { histories: 1, ..explorer.counts() }))
}

/// A word is written to a laid-out module and saved, twice, at every cut.
fn saved_twice<C: Calls>(calls: &C, kinds: Kinds) -> Result<(), String> {
    let mut explorer = Explorer::new(calls, SIZES, 13).of(kinds);
    let mut history = explorer.start(&laid_out(calls, SIZES)?, Plan::ALL)?;
    for value in [1, 2] {
        explorer.step(&mut history, &write(0, 0, &[value; 8]), Plan::ALL)?;
        explorer.step(&mut history, &plain(Deed::Save, SIZES), Plan::ALL)?;
    }
    Ok(())
}

/// Openings that are given the module's kind or kind 0 keep demand 3; a module of kind
/// 0 whose openings are given kind 1 does not, and the explorer says where.
pub fn wrong_kind<C: Calls>(calls: &C) -> Outcome {
    for kinds in [Kinds::ADR, Kinds::EADR, Kinds::EADR_AS_ADR] {
        saved_twice(calls, kinds).map_err(|what| format!("{kinds:?}: {what}"))?;
    }
    match saved_twice(calls, Kinds::ADR_AS_EADR) {
        Err(witness) if witness.starts_with("save, cut after 11 of 12 orders: opening again shows") => {
            Ok(Found::new(format!("kind 0 opened as kind 1: {witness}"), &[("faults caught", 1)]))
        }
        Err(witness) => Err(format!("kind 0 opened as kind 1 is caught otherwise: {witness}")),
        Ok(()) => Err("kind 0 opened as kind 1 is not caught".to_string()),
    }
}
