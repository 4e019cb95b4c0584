//! The groups of consoles: what is kept for each of several that write the same
//! levels (sections 5.7, 10.10 and 15.7).
//!
//! `story` is a stage console and a gallery console at the same levels, step by
//! step with the numbers, the orders and the taken counts that the rules give; the
//! steps are cut at every order. `of_two` runs every short history of two consoles,
//! with every small share and limit, from every start image. In both each opening
//! after a cut is lent any run that 13 does not refuse (`explore`), and the laws
//! hold (`laws`). Like the other groups these run over any implementation of the
//! calls.

use crate::arbitrary;
use crate::book::{told, Call};
use crate::calls::*;
use crate::explore::*;
use crate::groups::{add, all_found, due, laid_out, metadata_of, plain, starts, states, Going};
use crate::laws::{
    never_at, EMPTY_IN_BOTH, EMPTY_IN_FIRST, EMPTY_KEPT, OF_DISCARDS, OF_SPANS, TO_ZEROS, UNFLUSHED, UNLIKE,
};
use crate::report::Outcome;

/// A console at the start of a level.
fn start_of(console: u64, level: u64) -> Target {
    Target { console, level, frame: 0, offset: 0 }
}

/// A word there, which names its writer and its turn.
fn word(sizes: Sizes, console: u64, level: u64, turn: usize) -> Call {
    let bytes = vec![16 * (turn as u8 + 1) + console as u8; WORD];
    plain(Deed::Write(start_of(console, level), bytes), sizes)
}

const SIZES: Sizes = Sizes::new(5, 3, 1);
const STAGE: u64 = 0;
const GALLERY: u64 = 1;

/// One spare is kept for each; the stage may take two, the gallery all three.
const RUN: [Console; 2] = [Console::new(1, 2), Console::new(1, 3)];

/// A step of the story: the call, its number and orders, and what stage and
/// gallery have taken after it.
type Row = (&'static str, Call, (u64, u64), [u64; 2]);

fn rows() -> Vec<Row> {
    let (stage, gallery) = (|level| word(SIZES, STAGE, level, 1), |level| word(SIZES, GALLERY, level, 2));
    let (open, save) = (plain(Deed::Open(SIZES, ADR), SIZES), plain(Deed::Save, SIZES));
    let discard = |level| plain(Deed::Discard(level), SIZES);
    let short = Call { tape: 14, ..gallery(3) };
    let too_much = Call { lent: Some(vec![Console::new(2, 2); 2]), ..save.clone() };
    let mut rows: Vec<Row> =
        (0..5).map(|level| ("an empty level", word(SIZES, GALLERY, level, 0), (0, 1), [0, 0])).collect();
    rows.extend([
        ("five frames are marked", save.clone(), (0, 34), [0, 0]),
        ("the gallery takes its share", gallery(0), (0, 43), [0, 1]),
        ("the level is touched", gallery(0), (0, 1), [0, 1]),
        ("two are free, one is kept for the stage", gallery(1), (0, 43), [0, 2]),
        ("one is free, and it is kept", gallery(2), (15, 0), [0, 2]),
        ("the stage has its share", stage(2), (0, 43), [1, 2]),
        ("none is free", stage(3), (9, 0), [1, 2]),
        ("a level that the gallery had copied", stage(0), (0, 1), [1, 2]),
        ("every spare is free again", save.clone(), (0, 34), [0, 0]),
        ("the level has a spare and one mark", stage(0), (0, 41), [1, 0]),
        ("above its share", stage(1), (0, 41), [2, 0]),
        ("at its limit, and one that is free is kept", stage(2), (14, 0), [2, 0]),
        ("its edits are dropped, the spare stays taken", discard(1), (0, 32), [2, 0]),
        ("at its limit still", stage(2), (14, 0), [2, 0]),
        ("the level is still touched", gallery(1), (0, 1), [2, 0]),
        ("the stage above its share has none unused", gallery(3), (0, 43), [2, 1]),
        ("three levels are restored", open.clone(), (0, 109), [0, 0]),
        ("a restored level is not touched", discard(1), (0, 0), [0, 0]),
        ("below its share, but not since a save", stage(2), (9, 0), [0, 0]),
        ("a restored level is not copied", gallery(0), (0, 1), [0, 0]),
        ("one frame is marked", save.clone(), (0, 18), [0, 0]),
        ("three levels are copied to their spares", open, (0, 109), [0, 0]),
        ("the level has a spare and no mark", stage(1), (0, 5), [1, 0]),
        ("the tape is a number short", short, (11, 0), [1, 0]),
        ("it is long enough", gallery(3), (0, 5), [1, 1]),
        ("shares of four in all", too_much, (13, 0), [1, 1]),
        ("the last that is free", gallery(0), (0, 5), [1, 2]),
        ("none is free once more", stage(4), (9, 0), [1, 2]),
        ("three frames are marked", save, (0, 26), [0, 0]),
    ]);
    rows
}

/// The story from laying-out on, at every cut.
pub fn story<C: Calls>(calls: &C) -> Outcome {
    let mut explorer = Explorer::new(calls, SIZES, 8);
    let mut history = explorer.start_lent(&laid_out(calls, SIZES)?, &RUN, Plan::ALL)?;
    for (step, (name, call, (number, orders), taken)) in (1..).zip(rows()) {
        let told = |what: &str| format!("step {step}, {name}: {call}, {what}");
        let ran = explorer.step(&mut history, &call, Plan::ALL).map_err(|what| told(&what))?;
        due(&told("number"), ran.answer.number, number)?;
        due(&told("orders"), ran.answer.orders, orders)?;
        let expected = [0, 1].map(|console| Console { taken: taken[console], ..RUN[console] });
        due(&told("records"), &history.run[..], &expected[..])?;
    }
    Ok(all_found(Counts { histories: 1, ..explorer.counts() }))
}

/// Every run of two consoles whose limits are at most one above the spares, and
/// which 13 does not refuse.
fn runs_of_two(spares: u64) -> Vec<[Console; 2]> {
    let limits = 0..=spares + 1;
    let each: Vec<Console> =
        limits.flat_map(|limit| (0..=limit).map(move |share| Console::new(share, limit))).collect();
    let pairs = each.iter().flat_map(|first| each.iter().map(|second| [*first, *second]));
    pairs.filter(|[first, second]| first.share + second.share <= spares).collect()
}

/// The calls of short histories: a save, an opening, a discard and a write of each
/// console to each level; at the end of a history also calls that the records, the
/// tape or the kind refuse.
fn alphabet(sizes: Sizes, depth: usize, at: usize) -> Vec<Call> {
    let writers = (0..2).flat_map(|console| (0..sizes.levels).map(move |level| (console, level)));
    let mut calls = vec![plain(Deed::Save, sizes), plain(Deed::Open(sizes, ADR), sizes)];
    calls.push(plain(Deed::Discard(0), sizes));
    calls.extend(writers.map(|(console, level)| word(sizes, console, level, at)));
    if at + 1 == depth {
        let (first, no_such) = (word(sizes, 0, 0, at), word(sizes, 2, 0, at));
        let bad = vec![Console::new(0, 1), Console { taken: 2, ..Console::new(0, 1) }];
        let wrapping = vec![Console::new(1 << 63, u64::MAX); 2];
        calls.extend([
            Call { tape: 0, ..first.clone() },
            Call { tape: 0, ..plain(Deed::Discard(0), sizes) },
            no_such,
            Call { lent: Some(bad.clone()), ..first },
            Call { deed: Deed::Write(start_of(0, 0), vec![]), lent: Some(bad.clone()), tape: 0 },
            Call { deed: Deed::Open(sizes, 2), lent: Some(bad), tape: 0 },
            Call { deed: Deed::Save, lent: Some(wrapping), tape: sizes.room() },
        ]);
    }
    calls
}

/// Every history of two consoles of `depth` calls, from every start image, or, if
/// there are several spares, from those with every level in state 1, as a save
/// leaves it; each with so many of the runs, in turn.
pub fn of_two<C: Calls>(calls: &C, sizes: Sizes, depth: usize, runs: usize, plan: Plan) -> Outcome {
    let all_runs = runs_of_two(sizes.spares);
    let mut turns = all_runs.iter().cycle();
    let going = Going { alphabet: &|at| alphabet(sizes, depth, at), depth, plan };
    let mut total = Counts::default();
    let mut images = starts(sizes, &arbitrary::sparse_data(sizes));
    images.retain(|image| sizes.spares == 1 || states(image, sizes).iter().all(|state| *state == 1));
    for image in images {
        let (mut explorer, mut histories) = (Explorer::new(calls, sizes, 9), 0);
        for run in turns.by_ref().take(runs) {
            let tell =
                |what| format!("sizes {sizes}, {}, lent {}: {what}", metadata_of(&image, sizes), told(run));
            let start = explorer.start_lent(&image, run, plan).map_err(tell)?;
            histories += going.descend(&mut explorer, &start, &mut Vec::new()).map_err(tell)?;
        }
        add(&mut total, Counts { histories, ..explorer.counts() });
    }
    let mut left_out = [never_at(sizes), OF_SPANS.to_vec(), vec![UNFLUSHED]].concat();
    let of_empty_levels = [EMPTY_KEPT, TO_ZEROS, EMPTY_IN_BOTH, EMPTY_IN_FIRST];
    left_out.extend(of_empty_levels.iter().filter(|_| sizes.spares > 1));
    left_out.extend(OF_DISCARDS.iter().chain(&UNLIKE).filter(|_| depth < 3));
    total.tried.all_tried(&left_out)?;
    Ok(all_found(total))
}
