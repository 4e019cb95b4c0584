//! Benchmarks: the proved library through the C interface beside safe Rust
//! (`fast`, the better of its two forms), taking turns in one run, medians of
//! many rounds; beside them the limits, a memset of the bytes that the tape
//! takes and a memcpy of the image.
//!
//! Same machine, same inputs, same interface, session and clients changed in place on
//! both sides, both built for release. All buffers are allocated and written before the
//! first round and are not cleared between rounds; rounds run at 25 depths of
//! the stack, since its place in its page alone moves a small call. Before
//! measuring, all sides must give the same answers.
//!
//! Writes that copy nothing, discards, saves and reads find every spare paired that
//! can be, unless the row's name says how many are. The calls are lent the record of one
//! console, for which every spare is kept, or those of two, each with half of them,
//! where the row's name says so. The module is of kind 0, or of kind 1 where the row's
//! name says so: an opening that copies levels to their spares, writes and a save of
//! all marks, which have no flushes then. Likeness is measured of equal images, with
//! every level saved and with none, and of two in one of which the last level is empty:
//! the states tell these apart, all bytes of the others being equal. The line
//! `worst: copies=C writes=W rust=R small=Q calls=K limit=L` has the greatest ratios
//! of the library's time to Rust's: C over openings and writes that copy, of 1,000
//! orders or more, W over all writes that copy, R over calls of 1,000 orders or
//! more and over replay, Q over all other calls, K over all writes, discards, saves
//! and reads; and L, the greatest ratio to memset of an opening at 64,64,64. The line
//! before names the row of K.

use crpm::ffi::{Client, Session};
use crpm_tests::arbitrary::{distinct_data, image_of, Metadata};
use crpm_tests::calls::*;
use crpm_tests::fast::{self, Chunked, Indexed};
use crpm_tests::library::Library;
use crpm_tests::prng::Rng;
use crpm_tests::raw::{self, session_of, Extent};
use crpm_tests::report::arguments;
use std::collections::BTreeSet;
use std::hint::black_box;
use std::process::ExitCode;
use std::time::Instant;

const USAGE: &str = "usage: speed [--no-discards]
Measures the library beside safe Rust, memset and memcpy, and counts what an epoch costs; some seconds.
A line for each call, totals at the end. Status: 0 measured, 1 answers differ, 2 wrong arguments.
--no-discards: leaves these out, for a library before 2.1.0, which has none.";

fn main() -> ExitCode {
    let given = match arguments(USAGE, &["--no-discards"], 0) {
        Ok(given) => given,
        Err(status) => return status,
    };
    match run(given.is_empty()) {
        Ok((calls, workloads)) => {
            println!("speed: {calls} calls measured, {workloads} workloads, failures 0");
            ExitCode::SUCCESS
        }
        Err(text) => {
            println!("FAILED {text}\nspeed: failures 1");
            ExitCode::FAILURE
        }
    }
}

const BOARD: Sizes = Sizes::new(8, 8, 16);
const LARGEST: Sizes = Sizes::new(64, 64, 64);
const SIZES: [Sizes; 4] = [Sizes::new(2, 1, 1), BOARD, Sizes::new(16, 8, 16), LARGEST];
const ROUNDS: usize = 200;
const DEPTHS: usize = 25;
const ROUND_NANOSECONDS: f64 = 200_000.0;
const MANY_ORDERS: u64 = 1000;

#[derive(Clone, Copy, PartialEq, Eq, Debug)]
enum Side {
    Library,
    Indexed,
    Chunked,
}

const SIDES: [Side; 3] = [Side::Library, Side::Indexed, Side::Chunked];

#[derive(Clone)]
enum Action {
    Format,
    Open,
    Write(Target, Vec<u8>),
    /// A discard of level 0.
    Discard,
    Save,
    Replay,
    /// A read of the last frame of a level.
    Read(Page, u64),
    Same(Vec<u8>),
}

/// A call with everything that it is lent.
#[derive(Clone)]
struct Case {
    name: &'static str,
    sizes: Sizes,
    action: Action,
    image: Vec<u8>,
    session: Session,
    clients: Vec<Client>,
    tape: Vec<u64>,
    /// The orders written or played, or the likeness.
    out: u64,
    extent: Extent,
}

impl Case {
    fn call(&mut self, side: Side, session: &mut Session, run: &mut [Client]) -> u64 {
        let Case { sizes, action, image, tape, out, extent, .. } = self;
        let kind = self.session.domain;
        let frame = sizes.frames - 1;
        match (action, side) {
            (Action::Format, Side::Library) => raw::format(image, *sizes),
            (Action::Format, _) => fast::format(image, *sizes),
            (Action::Open, Side::Library) => raw::open(image, *sizes, kind, session, run, tape, out),
            (Action::Open, Side::Indexed) => {
                fast::open::<Indexed>(image, *sizes, kind, session, run, tape, out)
            }
            (Action::Open, Side::Chunked) => {
                fast::open::<Chunked>(image, *sizes, kind, session, run, tape, out)
            }
            (Action::Write(t, b), Side::Library) => raw::write(image, session, run, *t, b, tape, out),
            (Action::Write(t, b), Side::Indexed) => {
                fast::write::<Indexed>(image, session, run, *t, b, tape, out)
            }
            (Action::Write(t, b), Side::Chunked) => {
                fast::write::<Chunked>(image, session, run, *t, b, tape, out)
            }
            (Action::Discard, Side::Library) => raw::discard(image, session, 0, tape, out),
            (Action::Discard, Side::Indexed) => fast::discard::<Indexed>(image, session, 0, tape, out),
            (Action::Discard, Side::Chunked) => fast::discard::<Chunked>(image, session, 0, tape, out),
            (Action::Save, Side::Library) => raw::checkpoint(image, session, run, tape, out),
            (Action::Save, _) => fast::save(image, session, run, tape, out),
            (Action::Replay, Side::Library) => raw::replay(image, tape, u64::MAX, out),
            (Action::Replay, Side::Indexed) => fast::replay::<Indexed>(image, tape, u64::MAX, out),
            (Action::Replay, Side::Chunked) => fast::replay::<Chunked>(image, tape, u64::MAX, out),
            (Action::Read(page, l), Side::Library) => raw::read(*page, image, *sizes, *l, frame, extent),
            (Action::Read(page, l), _) => fast::read(*page, image, *sizes, *l, frame, extent),
            (Action::Same(other), Side::Library) => raw::same(image, other, *sizes, out),
            (Action::Same(other), _) => fast::same(image, other, *sizes, out),
        }
    }

    /// The orders written or played; none for the other calls.
    fn orders(&self) -> u64 {
        match self.action {
            Action::Open | Action::Write(..) | Action::Discard | Action::Save | Action::Replay => self.out,
            _ => 0,
        }
    }

    /// Is the call a write, a discard, a save or a read?
    fn counts(&self) -> bool {
        matches!(self.action, Action::Write(..) | Action::Discard | Action::Save | Action::Read(..))
    }

    /// Does the call copy or fill frames and flush them? Of the writes measured here
    /// those that give more orders than they have bytes: the copying ones write 8 bytes.
    fn copies(&self) -> bool {
        match &self.action {
            Action::Open => true,
            Action::Write(_, bytes) => self.out > bytes.len() as u64,
            _ => false,
        }
    }

    /// Nanoseconds a call over so many calls. Session and clients stay where they
    /// are; what a call changed of them (all writes here are by the first, to level 0)
    /// is put back before the next one.
    fn time(&mut self, side: Side, calls: usize) -> f64 {
        let (given, used) = (black_box(self.session), black_box(self.clients[0].used));
        let (mut session, mut clients) = (given, self.clients.clone());
        let start = Instant::now();
        for _ in 0..calls {
            if session.dirty_segments != given.dirty_segments {
                session.dirty_segments = given.dirty_segments;
            }
            if session.dirty_blocks[0] != given.dirty_blocks[0] {
                session.dirty_blocks[0] = given.dirty_blocks[0];
            }
            if clients[0].used != used {
                clients[0].used = used;
            }
            black_box(self.call(black_box(side), black_box(&mut session), black_box(&mut clients)));
        }
        start.elapsed().as_nanos() as f64 / calls as f64
    }

    /// All sides answer and leave the same.
    fn agrees(&self) -> Result<(), String> {
        let left = SIDES.map(|side| {
            let (mut case, mut session, mut clients) = (self.clone(), self.session, self.clients.clone());
            let number = case.call(side, &mut session, &mut clients);
            (number, session, clients, case.image, case.tape, case.out, case.extent)
        });
        match left[0].0 == 0 && left.iter().all(|other| *other == left[0]) {
            true => Ok(()),
            false => Err(format!("{} at {}: the sides differ or refuse", self.name, self.sizes)),
        }
    }
}

/// States and pairs with so many spares paired, or as many as can be: paired levels
/// in one state, the others in state 1.
fn paired(sizes: Sizes, most: u64, paired: u8) -> Metadata {
    let most = most.min(sizes.levels);
    let pairs: Vec<u8> = (0..sizes.spares).map(|s| if s < most { s as u8 } else { UNPAIRED }).collect();
    let state = |level| if pairs.contains(&(level as u8)) { paired } else { 1 };
    Metadata { states: (0..sizes.levels).map(state).collect(), pairs }
}

fn unpaired(sizes: Sizes, state: u8) -> Metadata {
    Metadata { states: vec![state; sizes.levels as usize], pairs: vec![UNPAIRED; sizes.spares as usize] }
}

/// A session with these touched bits and this mark word in so many levels.
fn session(sizes: Sizes, touched: u64, levels: usize, marks: u64) -> Session {
    let mut card = Card::fresh(sizes, ADR);
    card.touched = touched;
    card.marks[..levels].fill(marks);
    session_of(&card)
}

/// Long writes from the first frame of a touched level, where a level has so
/// many bytes: whole words over 4 and over 64 frames, and over 4 frames 126 whole
/// words with a part of one before and behind them.
const LONG: [(&str, u64, usize); 3] =
    [("write 1024 bytes", 0, 1024), ("write 1019 bytes at 3", 3, 1019), ("write 16384 bytes", 0, 16384)];

/// Rows with few spares paired: how many, and the rows' names. The read level is the
/// last of them.
const PAIRED: [(u64, [&str; 4]); 2] = [
    (2, ["write 1 word, 2 paired", "save, 2 paired", "working read, 2 paired", "saved read, 2 paired"]),
    (8, ["write 1 word, 8 paired", "save, 8 paired", "working read, 8 paired", "saved read, 8 paired"]),
];

fn cases(sizes: Sizes) -> Vec<Case> {
    let data = distinct_data(sizes);
    let image = |metadata: &Metadata| image_of(sizes, 6, metadata, 0, &data);
    let all = u64::MAX >> (64 - sizes.frames);
    let levels = sizes.levels as usize;
    let (fresh, few) = (session(sizes, 0, 0, 0), session(sizes, 0, 1, 1));
    let full = session(sizes, 0, levels, all);
    let (touched_few, touched_full) = (session(sizes, 1, 1, 1), session(sizes, 1, levels, all));
    let room = vec![0; sizes.room()];
    let case = |name, action, metadata: &Metadata, session| Case {
        name,
        sizes,
        action,
        image: image(metadata),
        session,
        clients: vec![Client::new(sizes.spares, sizes.spares)],
        tape: room.clone(),
        out: 0,
        extent: Extent { start: 0, size: 0 },
    };
    let write = |length| {
        let target = Target { console: 0, level: 0, frame: sizes.frames - 1, offset: 0 };
        Action::Write(target, vec![0x77; length])
    };
    let (empty, own) = (unpaired(sizes, 0), unpaired(sizes, 1));
    let (with_spares, in_spares) = (paired(sizes, MOST, 1), paired(sizes, MOST, 2));
    let last = sizes.levels - 1;
    let mut last_empty = own.clone();
    last_empty.states[last as usize] = 0;
    let mut cases = vec![
        case("format", Action::Format, &empty, fresh),
        case("open, all empty", Action::Open, &empty, fresh),
        case("open, level to spare", Action::Open, &with_spares, fresh),
        case("open, spare to level", Action::Open, &in_spares, fresh),
        case("write 1 word, few marks", write(8), &in_spares, touched_few),
        case("write 1 word, all marks", write(8), &in_spares, touched_full),
        case("write 256 bytes", write(256), &in_spares, touched_few),
        case("write, copy of 1 frame", write(8), &with_spares, few),
        case("write, copy of all frames", write(8), &with_spares, full),
        case("write, new spare", write(8), &own, few),
        case("discard of 1 frame", Action::Discard, &in_spares, touched_few),
        case("discard of all frames", Action::Discard, &in_spares, touched_full),
        case("discard, empty level", Action::Discard, &empty, touched_full),
        case("discard, untouched level", Action::Discard, &in_spares, few),
        case("save, one mark", Action::Save, &in_spares, touched_few),
        case("save, all marks", Action::Save, &in_spares, touched_full),
        case("save, restored levels", Action::Save, &in_spares, fresh),
        case("working read", Action::Read(Page::Working, last), &in_spares, fresh),
        case("saved read", Action::Read(Page::Saved, last), &in_spares, fresh),
        case("likeness, alike", Action::Same(image(&in_spares)), &in_spares, fresh),
        case("likeness, all empty", Action::Same(image(&empty)), &empty, fresh),
        case("likeness, unlike by state", Action::Same(image(&last_empty)), &own, fresh),
    ];
    for (name, action, metadata, session) in [
        ("open, kind 1", Action::Open, &with_spares, fresh),
        ("write 1 word, kind 1", write(8), &in_spares, touched_few),
        ("write, copy, kind 1", write(8), &with_spares, full),
        ("write, new spare, kind 1", write(8), &own, few),
        ("save, kind 1", Action::Save, &in_spares, touched_full),
    ] {
        cases.push(case(name, action, metadata, Session { domain: EADR, ..session }));
    }
    for (name, offset, length) in LONG {
        if length <= FRAME * sizes.frames as usize {
            let target = Target { console: 0, level: 0, frame: 0, offset };
            let write = Action::Write(target, vec![0x77; length]);
            cases.push(case(name, write, &in_spares, touched_few));
        }
    }
    if sizes == BOARD || sizes == LARGEST {
        for (few, [one_word, save, working, saved]) in PAIRED {
            let in_few = paired(sizes, few, 2);
            cases.push(case(one_word, write(8), &in_few, touched_few));
            cases.push(case(save, Action::Save, &in_few, touched_few));
            cases.push(case(working, Action::Read(Page::Working, few - 1), &in_few, fresh));
            cases.push(case(saved, Action::Read(Page::Saved, few - 1), &in_few, fresh));
        }
        let clients = vec![Client::new(sizes.spares / 2, sizes.spares); 2];
        let of_two = |name, action, metadata, session| {
            let clients = clients.clone();
            Case { clients, ..case(name, action, metadata, session) }
        };
        cases.push(of_two("write 1 word, 2 consoles", write(8), &in_spares, touched_few));
        cases.push(of_two("write, copy, 2 consoles", write(8), &with_spares, few));
        cases.push(of_two("save, 2 consoles", Action::Save, &in_spares, touched_few));
        let touched = |levels| session(sizes, u64::MAX >> (64 - levels), 1, 1);
        cases.push(case("write 1 word, 8 touched", write(8), &paired(sizes, 8, 2), touched(8)));
        if sizes == LARGEST {
            cases.push(case("write 1 word, all touched", write(8), &in_spares, touched(64)));
            cases.push(case("save, all touched", Action::Save, &in_spares, touched(64)));
        }
    }
    let replayed = [
        ("open, level to spare", "replay, opening"),
        ("write, new spare", "replay, write"),
        ("save, all marks", "replay, save"),
    ];
    for (of, name) in replayed {
        let replay = cases.iter().find(|case| case.name == of).map(|case| replay_of(case, name));
        cases.extend(replay);
    }
    cases
}

/// The replay of what a case writes.
fn replay_of(case: &Case, name: &'static str) -> Case {
    let mut replay = case.clone();
    replay.call(Side::Indexed, &mut case.session.clone(), &mut case.clients.clone());
    replay.tape.truncate(3 * replay.out as usize);
    Case { name, action: Action::Replay, ..replay }
}

struct Row {
    orders: u64,
    replay: bool,
    copies: bool,
    library: f64,
    rust: f64,
    form: Side,
    memset: f64,
}

impl Row {
    /// The columns of the table; a call without orders has no tape.
    fn told(&self) -> String {
        let form = format!("{:?}", self.form).to_lowercase();
        let ratio = self.library / self.rust;
        let tape = match self.orders {
            0 => format!("{:>11} {:>6}", "-", "-"),
            _ => format!("{:>11.1} {:>6.2}", self.memset, self.library / self.memset),
        };
        let Row { orders, library, rust, .. } = self;
        format!("{orders:>7} {library:>11.1} {rust:>11.1} {form:>8} {ratio:>6.2} {tape}")
    }
}

fn median(mut times: Vec<f64>) -> f64 {
    times.sort_by(f64::total_cmp);
    times[times.len() / 2]
}

fn measure(case: &mut Case) -> Result<Row, String> {
    case.agrees()?;
    let once = case.time(Side::Library, 3).max(1.0);
    let calls = (ROUND_NANOSECONDS / once).clamp(1.0, 20_000.0) as usize;
    let mut times = SIDES.map(|_| Vec::new());
    for round in 0..ROUNDS {
        for turn in 0..SIDES.len() {
            let side = (round + turn) % SIDES.len();
            times[side].push(at_depth(round % DEPTHS, &mut || case.time(SIDES[side], calls)));
        }
    }
    let mut bytes = vec![0u8; 24 * case.orders() as usize];
    let set = |_| time_of(calls, || black_box(&mut bytes[..]).fill(black_box(0x5a)));
    let memset = median((0..ROUNDS).map(set).collect());
    let [library, indexed, chunked] = times.map(median);
    let (rust, form) = match indexed < chunked {
        true => (indexed, Side::Indexed),
        false => (chunked, Side::Chunked),
    };
    let replay = matches!(case.action, Action::Replay);
    Ok(Row { orders: case.orders(), replay, copies: case.copies(), library, rust, form, memset })
}

/// Runs so many frames down the stack. Times move with the stack's place in
/// its page; over the depths each side meets every place.
#[inline(never)]
fn at_depth(depth: usize, run: &mut dyn FnMut() -> f64) -> f64 {
    let pad = black_box([0u8; 112]);
    let time = if depth == 0 { run() } else { at_depth(depth - 1, run) };
    black_box(&pad);
    time
}

fn time_of(calls: usize, mut call: impl FnMut()) -> f64 {
    let start = Instant::now();
    (0..calls).for_each(|_| call());
    start.elapsed().as_nanos() as f64 / calls as f64
}

fn memcpy_of_image(sizes: Sizes) -> f64 {
    let image = vec![1u8; sizes.image_length()];
    let mut copy = vec![0u8; image.len()];
    let calls = (4_000_000 / image.len()).max(1);
    let times =
        (0..ROUNDS).map(|_| time_of(calls, || black_box(&mut copy[..]).copy_from_slice(black_box(&image))));
    median(times.collect())
}

/// Measures and prints everything, or all but discards; how many calls and workloads
/// there were.
fn run(discards: bool) -> Result<(usize, usize), String> {
    let mut measured = 0;
    let (mut worst, mut small, mut limit, mut replay) = (0.0f64, 0.0f64, 0.0f64, 0.0f64);
    let (mut copies, mut writes) = (0.0f64, 0.0f64);
    let mut calls = (0.0f64, String::new());
    println!("times in nanoseconds a call; ratio = library / best Rust form; tape = library / memset");
    for sizes in SIZES {
        println!("sizes {sizes}: memcpy of the image {:.0}", memcpy_of_image(sizes));
        println!(
            "  {:<26} {:>7} {:>11} {:>11} {:>8} {:>6} {:>11} {:>6}",
            "call", "orders", "library", "rust", "form", "ratio", "memset", "tape"
        );
        let measures = |case: &Case| discards || !matches!(case.action, Action::Discard);
        for case in cases(sizes).iter_mut().filter(|case| measures(case)) {
            let row = measure(case)?;
            measured += 1;
            let (ratio, to_limit) = (row.library / row.rust, row.library / row.memset);
            println!("  {:<26} {}", case.name, row.told());
            match row.replay || row.orders >= MANY_ORDERS {
                true => worst = worst.max(ratio),
                false => small = small.max(ratio),
            }
            if row.replay {
                replay = replay.max(ratio);
            }
            if row.copies && row.orders >= MANY_ORDERS {
                copies = copies.max(ratio);
            }
            if row.copies && matches!(case.action, Action::Write(..)) {
                writes = writes.max(ratio);
            }
            if case.counts() && ratio > calls.0 {
                calls = (ratio, format!("{} at {sizes}", case.name));
            }
            if sizes == LARGEST && matches!(case.action, Action::Open) {
                limit = limit.max(to_limit);
            }
        }
    }
    let workloads = workloads()?;
    println!("replay: worst ratio {replay:.2}");
    let (calls, row) = calls;
    println!("writes, discards, saves, reads: worst ratio {calls:.2}, {row}");
    println!(
        "worst: copies={copies:.2} writes={writes:.2} rust={worst:.2} small={small:.2} calls={calls:.2} \
         limit={limit:.2}"
    );
    Ok((measured, workloads))
}

/// What one epoch costs.
#[derive(Clone, Copy, Default)]
struct Cost {
    fences: usize,
    flushes: usize,
    copied: usize,
}

const EPOCHS: usize = 16;
const WARM: usize = 4;

/// Fences, flushes and copied bytes an epoch from the library's own tapes,
/// beside an undo log of 256-byte entries: for each frame first written in
/// an epoch 256 bytes copied, 5 flushes (the entry and its head) and two
/// fences; at the end of the epoch 4 flushes a frame and 1 for the log's
/// head, with two fences.
fn workloads() -> Result<usize, String> {
    let sizes = BOARD;
    println!("an epoch's cost at sizes {sizes}, mean of {EPOCHS} epochs: library / undo log");
    println!("  {:<40} {:>15} {:>15} {:>19}", "workload", "fences", "flushes", "copied bytes");
    let names = [
        ("1 word, always the same frame", 1, 1, 1),
        ("64 words over 4 frames of one level", 64, 1, 4),
        ("64 words over all frames of 2 levels", 64, 2, 16),
        ("256 words over all frames of all levels", 256, 8, 16),
        ("1,024 words over all frames of all levels", 1024, 8, 16),
    ];
    for (name, writes, levels, frames) in names {
        let (library, undo) = workload(sizes, writes, levels, frames)?;
        println!(
            "  {name:<40} {:>7} /{:>6} {:>7} /{:>6} {:>9} /{:>8}",
            library.fences / EPOCHS,
            undo.fences / EPOCHS,
            library.flushes / EPOCHS,
            undo.flushes / EPOCHS,
            library.copied / EPOCHS,
            undo.copied / EPOCHS
        );
    }
    Ok(names.len())
}

fn workload(sizes: Sizes, writes: usize, levels: usize, frames: usize) -> Result<(Cost, Cost), String> {
    let mut rng = Rng::new(71);
    let mut board = Bench::start(sizes)?;
    let (mut library, mut undo) = (Cost::default(), Cost::default());
    for epoch in 0..WARM + EPOCHS {
        let mut touched = BTreeSet::new();
        let mut cost = Cost::default();
        for _ in 0..writes {
            let (level, frame) = (rng.below(levels) as u64, rng.below(frames) as u64);
            touched.insert((level, frame));
            let target = Target { console: 0, level, frame, offset: 8 * rng.below(32) as u64 };
            let bytes = rng.word().to_le_bytes();
            let Bench { image, card, run, tape, .. } = &mut board;
            let answer =
                Library.make(&Deed::Write(target, bytes.to_vec()), image, Given::of(card, run, tape));
            board.played(answer, &mut cost)?;
        }
        let Bench { image, card, run, tape, .. } = &mut board;
        let answer = Library.make(&Deed::Save, image, Given::of(card, run, tape));
        board.played(answer, &mut cost)?;
        if epoch >= WARM {
            library.add(cost);
            let entries = touched.len();
            undo.add(Cost { fences: 2 * entries + 2, flushes: 9 * entries + 1, copied: 256 * entries });
        }
    }
    Ok((library, undo))
}

impl Cost {
    fn add(&mut self, other: Cost) {
        self.fences += other.fences;
        self.flushes += other.flushes;
        self.copied += other.copied;
    }
}

struct Bench {
    sizes: Sizes,
    image: Vec<u8>,
    card: Card,
    run: [Console; 1],
    tape: Vec<u64>,
}

impl Bench {
    fn start(sizes: Sizes) -> Result<Bench, String> {
        let image = vec![0; sizes.image_length()];
        let (card, run, tape) = (Card::zeros(), [Console::alone(sizes)], vec![0; sizes.room()]);
        let mut board = Bench { sizes, image, card, run, tape };
        Library.lay_out(&mut board.image, sizes);
        let Bench { image, card, run, tape, .. } = &mut board;
        let opened = Library.make(&Deed::Open(sizes, ADR), image, Given::of(card, run, tape));
        board.played(opened, &mut Cost::default())?;
        Ok(board)
    }

    /// Plays a served call's tape and counts its orders.
    fn played(&mut self, answer: Answer, cost: &mut Cost) -> Result<(), String> {
        let part = &self.tape[..3 * answer.orders as usize];
        let orders = orders_of(part, self.image.len()).filter(|_| answer.served());
        for order in orders.ok_or("a call of a workload is refused")? {
            match order {
                Order::Store { place, .. } if place >= self.sizes.in_spare(0, 0) => cost.copied += WORD,
                Order::Store { .. } => {}
                Order::Flush { .. } => cost.flushes += 1,
                Order::Fence => cost.fences += 1,
            }
        }
        Library.play(&mut self.image, part, answer.orders);
        Ok(())
    }
}
