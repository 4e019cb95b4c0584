//! The random writes, runs, discards, cards and twins: how often each kind of span, of
//! record, of tape, of module and of likeness occurs.

use crpm_tests::arbitrary::{
    alike, any_kind, any_run, call, card, console, run, silent_twin, sound_image, writing,
};
use crpm_tests::book::{saved_bytes, state_of};
use crpm_tests::calls::*;
use crpm_tests::laws::{conditions_of_13, conditions_of_8, frames_met, Likes};
use crpm_tests::prng::Rng;

const WRITES: usize = 6000;

/// Random writes to levels of so many frames: where each starts, and its length.
fn writes(frames: u64) -> Vec<(Target, usize)> {
    let mut rng = Rng::new(frames);
    let sizes = Sizes::new(2, 1, frames);
    (0..WRITES).map(|_| writing(&mut rng, sizes)).map(|(target, bytes)| (target, bytes.len())).collect()
}

/// At least a third of the writes run over a frame's end and are not refused
/// for it.
#[test]
fn long_writes_are_frequent() {
    for frames in [2, 3, 4, 64] {
        let good = |(target, length): &&(Target, usize)| {
            let there = target.level < 2 && target.frame < frames;
            there && !conditions_of_8(*target, *length, frames).contains(&true)
        };
        let writes = writes(frames);
        let long = writes.iter().filter(good).filter(|write| frames_met(write.0, write.1) > 1).count();
        assert!(3 * long >= WRITES, "{long} of {WRITES} at {frames} frames");
    }
}

/// Each kind of end occurs: in a frame, at a frame's end and a byte behind it,
/// at the level's end and a byte behind it; over two frames, three and all.
#[test]
fn every_end_occurs() {
    for frames in [2, 4, 9] {
        let spans: Vec<(Target, usize, u64)> = writes(frames)
            .into_iter()
            .filter(|(target, length)| target.offset < 256 && target.frame < frames && *length > 0)
            .map(|(target, length)| (target, length, 256 * target.frame + target.offset + length as u64))
            .collect();
        let level = 256 * frames;
        let occurs = |what: &str, is: &dyn Fn(&(Target, usize, u64)) -> bool| {
            let count = spans.iter().filter(|write| is(write)).count();
            assert!(count > 10, "{what}: {count} at {frames} frames");
        };
        let long = |write: &(Target, usize, u64)| frames_met(write.0, write.1) > 1;
        occurs("one frame", &|write| frames_met(write.0, write.1) == 1);
        occurs("two frames", &|write| frames_met(write.0, write.1) == 2 && write.2 < level);
        occurs("all that are left", &|write| long(write) && write.2 > level - 256 && write.2 <= level);
        occurs("a frame's end", &|write| long(write) && write.2 % 256 == 0 && write.2 <= level);
        occurs("a byte behind a frame", &|write| write.2 % 256 == 1 && write.2 <= level);
        occurs("the level's end", &|write| long(write) && write.2 == level);
        occurs("a byte behind the level", &|write| write.2 == level + 1);
        occurs("a level's bytes from a later frame", &|w| w.0.frame > 0 && w.1 as u64 == level);
        occurs("the whole level", &|write| write.1 as u64 == level && write.2 == level);
        if frames > 2 {
            occurs("three frames", &|write| frames_met(write.0, write.1) == 3);
        }
    }
}

/// Offsets at and behind a frame's end come with every kind of length.
#[test]
fn every_offset_occurs() {
    let writes = writes(3);
    for offset in [0, 255, 256, 257, u64::MAX] {
        for (what, least, most) in [("none", 0, 0), ("one", 1, 1), ("few", 2, 256), ("many", 257, 768)] {
            let is = |(target, length): &&(Target, usize)| {
                target.offset == offset && (least..=most).contains(length)
            };
            let count = writes.iter().filter(is).count();
            assert!(count > 5, "offset {offset} with {what}: {count}");
        }
    }
}

const RUNS: usize = 6000;

/// A run for an opening after a cut is none that 13 refuses, and of every length.
#[test]
fn runs_are_not_refused() {
    for spares in [1, 2, 3, 64] {
        let mut rng = Rng::new(spares);
        let runs: Vec<Vec<Console>> = (0..RUNS).map(|_| run(&mut rng, spares)).collect();
        for run in &runs {
            assert_eq!(conditions_of_13(None, run, spares), [false; 5], "{run:?} at {spares} spares");
        }
        for length in 0..=8 {
            assert!(runs.iter().filter(|run| run.len() == length).count() > 100, "{length} consoles");
        }
        let all_kept = |run: &&Vec<Console>| run.iter().map(|console| console.share).sum::<u64>() == spares;
        assert!(runs.iter().filter(all_kept).count() > 100, "every one of {spares} spares kept");
    }
}

/// Each of 13's conditions occurs alone, also by shares whose sum wraps; so do
/// records at their share and their limit and beside them, and consoles' numbers in
/// the run and behind it.
#[test]
fn every_record_occurs() {
    for spares in [1, 3, 64] {
        let mut rng = Rng::new(spares);
        let runs: Vec<Vec<Console>> =
            (0..RUNS).map(|_| any_run(&mut rng, Sizes::new(1, spares, 1))).collect();
        let occurs = |what: &str, is: &dyn Fn(&Vec<Console>) -> bool| {
            let count = runs.iter().filter(|run| is(run)).count();
            assert!(count > 50, "{what}: {count} at {spares} spares");
        };
        occurs("refused by none", &|run| conditions_of_13(None, run, spares) == [false; 5]);
        for condition in 1..5 {
            let mut alone = [false; 5];
            alone[condition] = true;
            occurs("one condition", &|run| conditions_of_13(None, run, spares) == alone);
        }
        let sum = |run: &[Console]| run.iter().fold(0u64, |sum, console| sum.wrapping_add(console.share));
        let beyond = [false, false, false, false, true];
        occurs("a sum that wraps", &|run| {
            conditions_of_13(None, run, spares) == beyond && sum(run) <= spares
        });
        for length in 0..=10 {
            occurs("a length", &|run| run.len() == length);
        }
        let has = |is: fn(&Console) -> bool| move |run: &Vec<Console>| run.iter().any(is);
        occurs("taken at the limit", &has(|record| record.taken == record.limit && record.limit > 0));
        occurs("taken a spare below the limit", &has(|record| record.taken == record.limit.wrapping_sub(1)));
        occurs("taken at the share", &has(|record| record.taken == record.share && record.share > 0));
        occurs("taken a spare below the share", &has(|record| record.taken == record.share.wrapping_sub(1)));
        occurs("taken a spare above the share", &has(|record| record.taken == record.share.wrapping_add(1)));
        occurs("a limit above every number", &has(|record| record.limit == u64::MAX));
        let numbers: Vec<(u64, u64)> =
            runs.iter().map(|run| (console(&mut rng, run), run.len() as u64)).collect();
        for (what, is) in [
            ("in the run", (|number, length| number < length) as fn(u64, u64) -> bool),
            ("the next", |number, length| number == length && length > 0),
            ("one behind it", |number, length| number == length + 1),
            ("the greatest", |number, _| number == u64::MAX),
            ("of an empty run", |_, length| length == 0),
        ] {
            let count = numbers.iter().filter(|(number, length)| is(*number, *length)).count();
            assert!(count > 20, "{what}: {count} at {spares} spares");
        }
    }
}

/// One call of a history in six is a discard: of each level and of none, with tapes of
/// every kind, and never with a run of its own.
#[test]
fn every_discard_occurs() {
    let (mut rng, sizes) = (Rng::new(7), Sizes::new(3, 2, 2));
    let calls: Vec<_> = (0..6000).map(|_| call(&mut rng, sizes, EADR, &[Console::alone(sizes)])).collect();
    let discards: Vec<(u64, usize)> = calls
        .iter()
        .filter_map(|call| match call.deed {
            Deed::Discard(level) if call.lent.is_none() => Some((level, call.tape)),
            Deed::Discard(_) => panic!("{call}"),
            _ => None,
        })
        .collect();
    assert!((800..1200).contains(&discards.len()), "{}", discards.len());
    let occurs = |what: &str, is: &dyn Fn(u64, usize) -> bool| {
        let count = discards.iter().filter(|(level, tape)| is(*level, *tape)).count();
        assert!(count > 5, "{what}: {count}");
    };
    for level in [0, 1, 2, 3, 64, u64::MAX] {
        occurs("a level", &|one, _| one == level);
    }
    occurs("no numbers", &|_, tape| tape == 0);
    occurs("too few for a frame", &|_, tape| (3..96).contains(&tape));
    occurs("too few for two", &|_, tape| (96..192).contains(&tape));
    occurs("just as many", &|_, tape| tape == 192);
    occurs("more", &|_, tape| tape > 192);
}

/// Openings of a history are given its kind, sometimes one above 1; those with any
/// contents, and cards, have both kinds and others.
#[test]
fn every_kind_occurs() {
    let (mut rng, sizes) = (Rng::new(8), Sizes::new(3, 2, 2));
    let run = [Console::alone(sizes)];
    let opened = |kind: u64| {
        let mut rng = Rng::new(9);
        let deeds = (0..6000).map(|_| call(&mut rng, sizes, kind, &run).deed);
        let given = |deed| if let Deed::Open(_, kind) = deed { Some(kind) } else { None };
        deeds.filter_map(given).collect::<Vec<u64>>()
    };
    for kind in [ADR, EADR] {
        let (own, other) = opened(kind).into_iter().partition::<Vec<u64>, _>(|given| *given == kind);
        assert!(own.len() > 200 && other.len() > 20, "{} {}", own.len(), other.len());
        assert!(other.iter().all(|given| *given > EADR), "{other:?}");
    }
    let any: Vec<u64> = (0..6000).map(|_| any_kind(&mut rng)).collect();
    let image = sound_image(&mut rng, sizes);
    let cards: Vec<u64> = (0..6000).map(|_| card(&mut rng, &image, sizes).kind).collect();
    for kinds in [any, cards] {
        for (kind, least) in
            [(ADR, 2000), (EADR, 2000), (2, 20), (3, 10), ((1 << 32) + 1, 10), (u64::MAX, 10)]
        {
            let count = kinds.iter().filter(|one| **one == kind).count();
            assert!(count > least, "kind {kind}: {count}");
        }
    }
}

const IMAGES: usize = 3000;

/// A twin that is alike has the saved bytes and the empty levels of its image, and a
/// silent one only the bytes: it has at least one level empty where the other is silent.
/// Both have epochs of either parity, levels moved between themselves and their spares,
/// and on the idle line rubbish or states.
#[test]
fn every_twin_occurs() {
    let mut rng = Rng::new(10);
    let (mut likes, mut silent, mut without) = (Likes::default(), Likes::default(), 0);
    let (mut turned, mut idle) = (0, [0; 2]);
    let mut count = |image: &[u8], twin: &[u8]| {
        turned += usize::from((image[EPOCH] ^ twin[EPOCH]) & 1 == 1);
        let line = if twin[EPOCH].is_multiple_of(2) { ODD_STATES } else { EVEN_STATES };
        idle[usize::from(twin[line..line + LINE].iter().all(|state| *state < 3))] += 1;
    };
    for _ in 0..IMAGES {
        let sizes = Sizes::new(3, 2, 1);
        let image = sound_image(&mut rng, sizes);
        let twin = alike(&mut rng, &image, sizes);
        likes.feed(&image, &twin, sizes);
        count(&image, &twin);
        let Some(other) = silent_twin(&mut rng, &image, sizes) else {
            let saved = saved_bytes(&image, sizes);
            assert!(saved.chunks(FRAME).all(|level| level.iter().any(|byte| *byte != 0)));
            without += 1;
            continue;
        };
        assert_eq!(saved_bytes(&image, sizes), saved_bytes(&other, sizes));
        assert!((0..3).any(|level| (state_of(&image, level) == 0) != (state_of(&other, level) == 0)));
        silent.feed(&image, &other, sizes);
        count(&image, &other);
    }
    let Likes { alike, moved, empty, .. } = likes;
    assert_eq!(likes, Likes { alike: IMAGES as u64, moved, empty, ..Likes::default() });
    let Likes { in_first, in_second, exchanged, .. } = silent;
    assert_eq!(silent, Likes { in_first, in_second, exchanged, ..Likes::default() });
    for (what, count) in [
        ("moved", moved),
        ("a level that stays", alike - moved),
        ("empty", empty),
        ("none empty", alike - empty),
        ("empty in the first", in_first),
        ("empty in the second", in_second),
        ("as many empty", exchanged),
        ("no level of zeros", without),
        ("another parity", turned as u64),
        ("rubbish on the idle line", idle[0]),
        ("states on the idle line", idle[1]),
    ] {
        assert!(count > IMAGES as u64 / 50, "{what}: {count} of {IMAGES}");
    }
}

/// One write in eight is of zeros, short ones and long ones.
#[test]
fn zeros_are_written() {
    let (mut rng, sizes) = (Rng::new(11), Sizes::new(2, 1, 3));
    let spans: Vec<Vec<u8>> = (0..WRITES).map(|_| writing(&mut rng, sizes).1).collect();
    let zeros = |least: usize, most: usize| {
        let is =
            |bytes: &&Vec<u8>| (least..=most).contains(&bytes.len()) && bytes.iter().all(|byte| *byte == 0);
        spans.iter().filter(is).count()
    };
    assert!((WRITES / 10..WRITES / 6).contains(&zeros(2, 768)), "{}", zeros(2, 768));
    assert!(zeros(2, 256) > 100 && zeros(257, 768) > 100, "{} {}", zeros(2, 256), zeros(257, 768));
}
