//! Groups of checks that run over any implementation of the calls: the bench
//! cases, every permitted image of single calls and short histories, random
//! histories, and calls with any contents. `restart`, `long`, `consoles`,
//! `discards`, `kinds`, `likeness` and `benches` have more.
//!
//! `selftest` runs them over the reference, `differential` over the library.
//! Each gives a line of counts or the first failure.

use crate::arbitrary::{self, Metadata};
use crate::book::{state_of, Call};
use crate::calls::*;
use crate::crash::{permitted, Module};
use crate::explore::*;
use crate::laws::{
    never_at, Tried, OF_CONSOLES, OF_DISCARDS, OF_KINDS, OF_LIKES, OF_SPANS, OF_SPARES, PASSED_OVER,
    SHARES_NEEDED, UNFLUSHED, UNLIKE,
};
use crate::prng::Rng;
use crate::report::{Found, Outcome};

pub(crate) fn due<T: PartialEq + std::fmt::Debug>(what: &str, got: T, expected: T) -> Result<(), String> {
    match got == expected {
        true => Ok(()),
        false => Err(format!("{what}: {got:?}, due {expected:?}")),
    }
}

/// This text is due, line by line.
pub fn lines_due(what: &str, printed: &[u8], expected: &str) -> Result<(), String> {
    let printed = String::from_utf8_lossy(printed);
    for (got, expected) in printed.lines().zip(expected.lines()) {
        due(what, got, expected)?;
    }
    due(what, &printed[..], expected)
}

/// A write to a level's first frame of bytes that name their place in the history.
fn write_call(sizes: Sizes, level: u64, offset: u64, length: usize, value: u8) -> Call {
    write_to(sizes, Target { console: 0, level, frame: 0, offset }, length, value)
}

/// A write of bytes from this value upward.
fn write_to(sizes: Sizes, target: Target, length: usize, value: u8) -> Call {
    let bytes = (0..length).map(|i| value.wrapping_add(i as u8)).collect();
    plain(Deed::Write(target, bytes), sizes)
}

pub(crate) fn plain(deed: Deed, sizes: Sizes) -> Call {
    Call { deed, lent: None, tape: sizes.room() }
}

pub(crate) fn laid_out<C: Calls>(calls: &C, sizes: Sizes) -> Result<Vec<u8>, String> {
    let mut image = vec![0xee; sizes.image_length()];
    due("laying-out", calls.lay_out(&mut image, sizes), 0)?;
    Ok(image)
}

/// P1 to P10 and the cut line of P4.
pub fn bench_cases<C: Calls>(calls: &C) -> Outcome {
    let sizes = Sizes::new(2, 1, 1);
    due("P1 length", calls.lay_out(&mut [0; 1280], sizes), 0)?;
    due("P1 greatest", calls.lay_out(&mut vec![0; 2_097_664], Sizes::new(64, 64, 64)), 0)?;
    due("P1 M=65", calls.lay_out(&mut [0; 1280], Sizes::new(65, 1, 1)), 1)?;
    let image = laid_out(calls, sizes)?;
    let (mut card, mut run) = (Card::zeros(), [Console::alone(sizes)]);
    let open = Deed::Open(sizes, ADR);
    due("P2 218", calls.make(&open, &image, Given::of(&mut card, &mut run, &mut [0; 218])).number, 11)?;
    let served = calls.make(&open, &image, Given::of(&mut card, &mut run, &mut [0; 219]));
    due("P2 219", served, Answer { number: 0, orders: 73 })?;

    let mut explorer = Explorer::new(calls, sizes, 1);
    let mut history = explorer.start(&image, Plan::ALL)?;
    let mut step = |call: Call| -> Result<(Step, Vec<u8>), String> {
        let step = explorer.step(&mut history, &call, Plan::ALL)?;
        Ok((step, history.module.image().to_vec()))
    };
    let (p3, _) = step(write_call(sizes, 0, 6, 4, 0xa1))?;
    let places: Vec<u64> = p3.orders.iter().map(|o| o.numbers()[1]).collect();
    due("P3 stores", places, vec![512, 520])?;
    let (p4, image) = step(plain(Deed::Save, sizes))?;
    due("P4 orders", p4.answer.orders, 18)?;
    due("P4 states", &image[ODD_STATES..ODD_STATES + 2], &[1, 0])?;
    cut_line("P4", &p4, Kinds::ADR)?;
    let (p5, _) = step(write_call(sizes, 0, 0, 8, 0x50))?;
    due("P5 orders", p5.answer.orders, 43)?;
    due("P5 first", p5.orders.first(), Some(&pair_store(0)))?;
    let (p6, image) = step(write_call(sizes, 0, 16, 8, 0x60))?;
    due("P6 orders", p6.answer.orders, 1)?;
    let saved = calls.read(Page::Saved, &image, sizes, 0, 0);
    due("P6 saved frame", saved, Part { number: 0, start: 1024, length: 256 })?;
    let (p7, image) = step(write_call(sizes, 1, 0, 8, 0x70))?;
    due("P7 orders", p7.answer.orders, 1)?;
    let saved = calls.read(Page::Saved, &image, sizes, 1, 0);
    due("P7 saved read", saved, Part { number: 0, start: 0, length: 0 })?;
    due("P8 orders", step(plain(Deed::Save, sizes))?.0.answer.orders, 22)?;
    let (p8, _) = step(write_call(sizes, 1, 0, 8, 0x80))?;
    due("P8 spare", p8.orders.first(), Some(&pair_store(1)))?;
    let mut number = |call: Call| Ok::<u64, String>(step(call)?.0.answer.number);
    due("P8 level 0", number(write_call(sizes, 0, 0, 8, 0x81))?, 9)?;
    due("P9 255,1", number(write_call(sizes, 1, 255, 1, 0x90))?, 0)?;
    due("P9 256,1", number(write_call(sizes, 1, 256, 1, 0x91))?, 8)?;
    due("P9 length 0", number(write_call(sizes, 1, 0, 0, 0x92))?, 8)?;
    due("P10 orders", p10(calls)?, 41)?;
    Ok(found("P1 to P10 and the cut line of P4", Counts { histories: 1, ..explorer.counts() }))
}

/// The store that pairs spare 0, of one, with a level.
fn pair_store(level: u64) -> Order {
    Order::Store { place: 256, word: 0xffff_ffff_ffff_ff00 + level }
}

/// The cuts of a save whose pages differ: the old page up to its epoch store, the
/// third order from its end, either up to its last fence, then the new. In P4 these
/// are the cuts after 0 to 15 orders, after 16 and 17, and after 18. On a module of
/// kind 1 the new page is shown alone from the epoch store on, which is the second
/// order from the end of a tape of kind 1.
pub(crate) fn cut_line(name: &str, save: &Step, kinds: Kinds) -> Result<(), String> {
    let [old, .., new] = &save.shown[..] else { return Err(format!("{name} has no cuts")) };
    let both = old | new;
    due(&format!("{name} cut, pages"), (old.len(), new.len(), both.len()), (1, 1, 2))?;
    let orders = save.orders.len();
    let behind = if kinds.given == EADR { 1 } else { 2 };
    let window = if kinds.module == EADR { new } else { &both };
    due(&format!("{name} cuts"), save.shown.len(), orders + 1)?;
    for (p, shown) in save.shown.iter().enumerate() {
        let expected = match p {
            _ if p == orders => new,
            _ if p + behind >= orders => window,
            _ => old,
        };
        due(&format!("{name} cut after {p}"), shown, expected)?;
    }
    Ok(())
}

/// M=1, S=1, B=4, paired, state 1, untouched, one mark: a one-word write.
fn p10<C: Calls>(calls: &C) -> Result<u64, String> {
    let sizes = Sizes::new(1, 1, 4);
    let paired = Metadata { states: vec![1], pairs: vec![0] };
    let image = arbitrary::image_of(sizes, 0, &paired, 0, &arbitrary::distinct_data(sizes));
    let mut card = Card::fresh(sizes, ADR);
    card.marks[0] = 0b0100;
    let target = Target { console: 0, level: 0, frame: 1, offset: 8 };
    let mut run = [Console::alone(sizes)];
    let answer = calls.make(
        &Deed::Write(target, vec![7; 8]),
        &image,
        Given::of(&mut card, &mut run, &mut [0; 3 * 41]),
    );
    due("P10 number", answer.number, 0)?;
    due("P10 marks", (card.touched, card.marks[0]), (1, 0b0010))?;
    due("P10 spares taken", run[0].taken, 1)?;
    Ok(answer.orders)
}

/// Ten lines with one waiting store each give 1,024 images, each of which
/// opens again and shows the saved page.
pub fn waiting_lines<C: Calls>(calls: &C) -> Outcome {
    let sizes = Sizes::new(3, 1, 1);
    let mut explorer = Explorer::new(calls, sizes, 2);
    let image = laid_out(calls, sizes)?;
    let mut history = explorer.start(&image, Plan::ALL)?;
    for line in 0..10 {
        let call = write_call(sizes, line / 4, 64 * (line % 4) + 8, 8, 1 + line as u8);
        explorer.step(&mut history, &call, Plan::ALL)?;
        due("images", history.module.cut().count(), 2 << line)?;
    }
    let counts = Counts { histories: 1, ..explorer.counts() };
    let images = history.module.cut().count();
    Ok(found(
        format!("ten waiting lines give {images} images, {} distinct opened again", counts.distinct),
        counts,
    ))
}

/// The module fed order by order permits what the rule says of the whole list, for
/// random orders on few lines and both kinds of module. What kind 1 permits, kind 0
/// does.
pub fn crash_model(lists: usize) -> Outcome {
    let mut rng = Rng::new(3);
    let (mut cuts, mut stages) = (0, 0);
    for _ in 0..lists {
        let held = rng.bytes(3 * LINE);
        let mut modules = [ADR, EADR].map(|kind| Module::held(kind, &held));
        let mut orders = Vec::new();
        for _ in 0..rng.range(1, 24) {
            let order = match rng.below(8) {
                0 => Order::Fence,
                1 | 2 => Order::Flush { place: LINE * rng.below(3) },
                _ => Order::Store { place: WORD * rng.below(24), word: rng.below(3) as u64 },
            };
            modules.iter_mut().for_each(|module| module.play(order));
            orders.push(order);
            cuts += 1;
            for (kind, module) in [ADR, EADR].into_iter().zip(&modules) {
                stages += check_stages(kind, &held, &orders, module)?;
            }
            for line in 0..held.len() / LINE {
                let [zero, one] = [ADR, EADR].map(|kind| permitted(kind, &held, &orders, line));
                due("kind 0 permits what kind 1 does", one.iter().all(|bytes| zero.contains(bytes)), true)?;
            }
        }
    }
    Ok(Found::new(format!("{cuts} cuts, {stages} permitted line contents as the rule says"), &[]))
}

fn check_stages(kind: u64, held: &[u8], orders: &[Order], module: &Module) -> Result<usize, String> {
    let mut lines: Vec<_> = (0..held.len() / LINE).map(|line| permitted(kind, held, orders, line)).collect();
    due("ways", module.cut().ways(), lines.iter().map(|line| line.len() as u128).product())?;
    for line in &mut lines {
        line.sort();
        line.dedup();
    }
    let expected: usize = lines.iter().map(Vec::len).product();
    let cut = module.cut();
    due("permitted images", cut.count(), expected as u128)?;
    let mut seen = std::collections::BTreeSet::new();
    let is_permitted = |image: &[u8]| {
        image.chunks(LINE).zip(&lines).all(|(bytes, line)| line.iter().any(|permitted| permitted == bytes))
    };
    cut.for_all(|hash, image| {
        seen.insert(hash);
        due("an image is permitted", is_permitted(&image()), true)
    })?;
    due("distinct images", seen.len(), expected)?;
    due("extremes are permitted", is_permitted(&cut.all_oldest()) && is_permitted(&cut.all_newest()), true)?;
    Ok(lines.iter().map(Vec::len).sum())
}

/// The start images of the exhaustive groups: every sound choice of states
/// and pairs, both parities, the idle line all 1 or all 2.
pub(crate) fn starts(sizes: Sizes, data: &[u8]) -> Vec<Vec<u8>> {
    let mut images = Vec::new();
    for metadata in arbitrary::all_sound(sizes) {
        for (epoch, idle) in [(6, 1), (7, 2)] {
            images.push(arbitrary::image_of(sizes, epoch, &metadata, idle, data));
        }
    }
    images
}

pub(crate) fn add(total: &mut Counts, counts: Counts) {
    total.histories += counts.histories;
    total.calls += counts.calls;
    total.cuts += counts.cuts;
    total.images += counts.images;
    total.ways = total.ways.saturating_add(counts.ways);
    total.distinct += counts.distinct;
    total.openings += counts.openings;
    total.tried.add(counts.tried);
}

/// What a group found, with its part of the closing line.
pub(crate) fn found(text: impl Into<String>, counts: Counts) -> Found {
    let Counts { histories, calls, images, tried, .. } = counts;
    let mut found =
        Found::new(text, &[("histories", histories), ("calls of histories", calls), ("images", images)]);
    found.counts.extend(tried.named());
    found
}

/// How often the laws were tried, in words; of spares, spans, consoles, discards,
/// kinds and likeness those that there were.
pub(crate) fn laws_tried(tried: Tried) -> String {
    let sometimes = [&OF_SPANS[..], &OF_SPARES, &OF_CONSOLES, &OF_DISCARDS, &OF_KINDS, &OF_LIKES].concat();
    let mut named = tried.named();
    named.retain(|(name, count)| *count > 0 || !sometimes.contains(name));
    let told: Vec<String> = named.iter().map(|(name, count)| format!("{count} {name}")).collect();
    told.join(", ")
}

/// What a group that looks at every image found.
pub(crate) fn all_found(counts: Counts) -> Found {
    let Counts { histories, calls, cuts, images, ways, distinct, openings, .. } = counts;
    let history = format!("{histories} histories, {calls} calls, {cuts} cuts");
    let seen = format!("{images} images left in {ways} ways, {distinct} distinct");
    found(format!("{history}, {seen}, {openings} finished openings; {}", laws_tried(counts.tried)), counts)
}

/// Every permitted image of single calls with one frame a level, all words of
/// levels and spares different: each call alone, and after each write a save, and a
/// discard and a save.
pub fn single_calls<C: Calls>(calls: &C, kinds: Kinds) -> Outcome {
    let sizes = Sizes::new(1, 1, 1);
    let mut total = Counts::default();
    for image in starts(sizes, &arbitrary::distinct_data(sizes)) {
        let mut explorer = Explorer::new(calls, sizes, 4).of(kinds);
        let start = explorer.start(&image, Plan::ALL)?;
        explorer.step(&mut start.clone(), &plain(Deed::Open(sizes, kinds.given), sizes), Plan::ALL)?;
        explorer.step(&mut start.clone(), &plain(Deed::Save, sizes), Plan::ALL)?;
        let spans = [(0, 8), (60, 8), (0, 64), (32, 64)];
        for (offset, length) in spans {
            let mut history = start.clone();
            explorer.step(&mut history, &write_call(sizes, 0, offset, length, 0x90), Plan::ALL)?;
            explorer.step(&mut history.clone(), &plain(Deed::Save, sizes), Plan::ALL)?;
            explorer.step(&mut history, &plain(Deed::Discard(0), sizes), Plan::ALL)?;
            explorer.step(&mut history, &plain(Deed::Save, sizes), Plan::ALL)?;
        }
        add(&mut total, Counts { histories: 2 + 2 * spans.len() as u64, ..explorer.counts() });
    }
    Ok(all_found(total))
}

/// The calls of short histories: a save, openings that are given this kind, discards
/// and writes. The bytes name the depth.
fn alphabet(sizes: Sizes, kind: u64, depth: usize, at: usize) -> Vec<Call> {
    let value = 0x40 + 0x10 * at as u8;
    let mut calls = vec![plain(Deed::Save, sizes), plain(Deed::Open(sizes, kind), sizes)];
    calls.push(plain(Deed::Discard(0), sizes));
    if at + 1 == depth {
        calls.extend(last_discards(sizes));
        calls.push(plain(Deed::Open(sizes, 2), sizes));
    }
    match sizes.frames {
        1 => calls.extend(in_one_frame(sizes, kind, value)),
        _ => calls.extend(over_frames(sizes, value)),
    }
    calls
}

/// Only at the end of a history: discards of the last level, of a level that there is
/// not, and with a tape a number short for one frame.
fn last_discards(sizes: Sizes) -> Vec<Call> {
    let short = Sizes { frames: 1, ..sizes }.discard_room() - 1;
    vec![
        plain(Deed::Discard(sizes.levels - 1), sizes),
        plain(Deed::Discard(sizes.levels), sizes),
        Call { tape: short, ..plain(Deed::Discard(0), sizes) },
    ]
}

/// With one frame a level: a refused opening, writes to a line of each level
/// and to two lines of one.
fn in_one_frame(sizes: Sizes, kind: u64, value: u8) -> Vec<Call> {
    let mut calls = vec![plain(Deed::Open(Sizes { frames: 2, ..sizes }, kind), sizes)];
    calls.extend((0..sizes.levels).map(|level| write_call(sizes, level, 0, 8, value)));
    calls.push(write_call(sizes, 0, 60, 8, value));
    calls
}

/// With more frames: in each level a span over the end of its first frame, in
/// one of them a word of the second, and refused spans: one that leaves the
/// last level, one that starts behind its frame, one of no bytes.
fn over_frames(sizes: Sizes, value: u8) -> Vec<Call> {
    let (last_level, last_frame) = (sizes.levels - 1, sizes.frames - 1);
    let mut calls: Vec<Call> =
        (0..sizes.levels).map(|level| write_call(sizes, level, 252, 8, value)).collect();
    calls.extend([
        write_to(sizes, Target { console: 0, level: 0, frame: 1, offset: 0 }, 8, value),
        write_to(sizes, Target { console: 0, level: last_level, frame: last_frame, offset: 252 }, 8, value),
        write_call(sizes, 0, 256, 8, value),
        write_call(sizes, 0, 0, 0, value),
    ]);
    calls
}

/// How histories go on: the calls at each depth, and the plan for their cuts.
pub(crate) struct Going<'a> {
    pub(crate) alphabet: &'a dyn Fn(usize) -> Vec<Call>,
    pub(crate) depth: usize,
    pub(crate) plan: Plan,
}

impl Going<'_> {
    /// Runs every history that goes on from this one, and says how many there are.
    pub(crate) fn descend<C: Calls>(
        &self,
        explorer: &mut Explorer<C>,
        history: &History,
        path: &mut Vec<Call>,
    ) -> Result<u64, String> {
        if path.len() == self.depth {
            return Ok(1);
        }
        let mut histories = 0;
        for call in (self.alphabet)(path.len()) {
            let mut next = history.clone();
            let step = explorer.step(&mut next, &call, self.plan);
            path.push(call);
            step.map_err(|what| told_after(&path[..path.len() - 1], what))?;
            histories += self.descend(explorer, &next, path)?;
            path.pop();
        }
        Ok(histories)
    }
}

fn told_after(path: &[Call], what: String) -> String {
    path.iter().map(|call| format!("{call}; ")).chain([what]).collect()
}

/// Every history of `depth` calls from the alphabet, and with it each shorter
/// one, from every start image, at every cut, over every permitted image. One
/// call is enough to try each law that these sizes allow but those of discards and of
/// boards unlike the one before, for which there must be three.
pub fn short_histories<C: Calls>(calls: &C, sizes: Sizes, depth: usize, kinds: Kinds) -> Outcome {
    let starts = starts(sizes, &arbitrary::sparse_data(sizes));
    let total = all_short(|| Explorer::new(calls, sizes, 5), sizes, depth, kinds, &starts)?;
    let mut left_out = never_at(sizes);
    left_out.extend([UNFLUSHED].iter().filter(|_| kinds.given == ADR));
    left_out.extend(OF_CONSOLES);
    left_out.extend(OF_SPANS.iter().filter(|_| sizes.frames == 1));
    left_out.extend(OF_DISCARDS.iter().chain(&UNLIKE).filter(|_| depth < 3));
    total.tried.all_tried(&left_out)?;
    Ok(all_found(total))
}

/// The same with demand 3 and the book alone, for faults that must break them.
pub fn short_histories_without_laws<C: Calls>(
    calls: &C,
    sizes: Sizes,
    depth: usize,
    kinds: Kinds,
) -> Outcome {
    let starts = starts(sizes, &arbitrary::sparse_data(sizes));
    all_short(|| Explorer::new(calls, sizes, 5).without_laws(), sizes, depth, kinds, &starts).map(all_found)
}

/// The same from images without an empty level, on a module of kind 0.
pub fn short_histories_of_set_levels<C: Calls>(calls: &C, sizes: Sizes, depth: usize) -> Outcome {
    let mut starts = starts(sizes, &arbitrary::sparse_data(sizes));
    starts.retain(|image| !states(image, sizes).contains(&0));
    let explorer = || Explorer::new(calls, sizes, 5).without_laws();
    all_short(explorer, sizes, depth, Kinds::ADR, &starts).map(all_found)
}

fn all_short<'a, C: Calls + 'a>(
    explorer: impl Fn() -> Explorer<'a, C>,
    sizes: Sizes,
    depth: usize,
    kinds: Kinds,
    starts: &[Vec<u8>],
) -> Result<Counts, String> {
    let mut total = Counts::default();
    let alphabet = |at| alphabet(sizes, kinds.given, depth, at);
    let going = Going { alphabet: &alphabet, depth, plan: Plan::ALL };
    for image in starts {
        let mut explorer = explorer().of(kinds);
        let tell = |what| format!("sizes {sizes}, {}: {what}", metadata_of(image, sizes));
        let start = explorer.start(image, Plan::ALL).map_err(tell)?;
        let histories = going.descend(&mut explorer, &start, &mut Vec::new()).map_err(tell)?;
        add(&mut total, Counts { histories, ..explorer.counts() });
    }
    Ok(total)
}

pub(crate) fn metadata_of(image: &[u8], sizes: Sizes) -> String {
    let pairs = &image[PAIRS..][..sizes.spares as usize];
    format!("epoch {} states {:?} pairs {pairs:?}", image[EPOCH], states(image, sizes))
}

pub(crate) fn states(image: &[u8], sizes: Sizes) -> Vec<u8> {
    (0..sizes.levels as usize).map(|level| state_of(image, level)).collect()
}

/// How random histories are made.
#[derive(Clone, Copy)]
pub struct Random {
    pub seed: u64,
    pub histories: usize,
    pub calls: usize,
    pub most: usize,
    pub plan: Plan,
    pub laws: Laws,
}

/// What random histories ask of the laws: that each is tried (but spares passed
/// over and shares needed, which are rare here: `restart`, `benches` and `consoles`
/// have them), that they hold, or nothing.
#[derive(Clone, Copy, PartialEq, Eq, Debug)]
pub enum Laws {
    Tried,
    Held,
    LeftOut,
}

/// Random histories from laid-out and from arbitrary sound images, on either kind of
/// module, of one console or of several, with any arguments, runs and tapes, cut and
/// opened again. On a module of kind 1 an opening may be given kind 0.
pub fn random_histories<C: Calls>(calls: &C, random: Random) -> Outcome {
    let mut rng = Rng::new(random.seed);
    let mut total = Counts::default();
    for number in 0..random.histories {
        let sizes = arbitrary::sizes(&mut rng, random.most);
        let image = match rng.once_in(4) {
            true => laid_out(calls, sizes)?,
            false => arbitrary::sound_image(&mut rng, sizes),
        };
        let module = arbitrary::kind(&mut rng);
        let kinds = Kinds { module, given: if rng.once_in(4) { ADR } else { module } };
        let mut explorer = Explorer::new(calls, sizes, rng.word()).of(kinds);
        if random.laws == Laws::LeftOut {
            explorer = explorer.without_laws();
        }
        let tell = |what| format!("history {number}, sizes {sizes}: {what}");
        let run = arbitrary::own_run(&mut rng, sizes);
        let mut history = explorer.start_lent(&image, &run, random.plan).map_err(tell)?;
        for _ in 0..random.calls {
            let call = arbitrary::call(&mut rng, sizes, kinds.given, &run);
            explorer.step(&mut history, &call, random.plan).map_err(tell)?;
        }
        add(&mut total, Counts { histories: 1, ..explorer.counts() });
    }
    if random.laws == Laws::Tried {
        total.tried.all_tried(&[PASSED_OVER, SHARES_NEEDED])?;
    }
    let Counts { histories, calls, cuts, images, openings, .. } = total;
    let history = format!("{histories} histories, {calls} calls, {cuts} cuts, {images} images");
    Ok(found(format!("{history}, {openings} finished openings; {}", laws_tried(total.tried)), total))
}

/// Every call with any contents: images sound and damaged, cards true and
/// untrue, runs that 13 refuses and others, arguments in and out of range, tapes
/// short, exact, long. What is answered is judged by `Compared`.
pub fn any_contents<C: Calls>(calls: &C, seed: u64, rounds: usize, sizes: fn(&mut Rng) -> Sizes) {
    let mut rng = Rng::new(seed);
    for _ in 0..rounds {
        let sizes = sizes(&mut rng);
        let mut image = arbitrary::sound_image(&mut rng, sizes);
        like_its_twins(calls, &mut rng, &image, sizes);
        if rng.once_in(3) {
            (0..rng.range(1, 2)).for_each(|_| arbitrary::damage(&mut rng, &mut image, sizes));
        }
        let named = if rng.once_in(8) { arbitrary::odd_sizes(&mut rng, sizes) } else { sizes };
        lay_out_and_read(calls, &mut rng, &image, named);
        like_others(calls, &mut rng, &image, sizes, named);
        open_any(calls, &mut rng, &image, named);
        write_any(calls, &mut rng, &image, sizes);
        discard_any(calls, &mut rng, &image, sizes);
        save_any(calls, &mut rng, &image, sizes);
        play_any(calls, &mut rng, &image);
    }
}

fn lay_out_and_read<C: Calls>(calls: &C, rng: &mut Rng, image: &[u8], sizes: Sizes) {
    calls.lay_out(&mut image.to_vec(), sizes);
    let mut near = |end: u64| {
        let any = rng.word();
        rng.pick(&[0, end / 2, end.wrapping_sub(1), end, end.wrapping_add(1), 255, any, u64::MAX])
    };
    for _ in 0..4 {
        let (level, frame) = (near(sizes.levels), near(sizes.frames));
        calls.read(Page::Working, image, sizes, level, frame);
        calls.read(Page::Saved, image, sizes, level, frame);
    }
    let all = sizes.levels.min(4);
    for level in 0..all {
        calls.read(Page::Saved, image, sizes, level, 0);
    }
}

/// Likeness of a sound image with one that is alike, and with one that differs from
/// it in its empty levels alone; then with one bit of the levels and spares changed.
fn like_its_twins<C: Calls>(calls: &C, rng: &mut Rng, image: &[u8], sizes: Sizes) {
    let twins = [Some(arbitrary::alike(rng, image, sizes)), arbitrary::silent_twin(rng, image, sizes)];
    for mut twin in twins.into_iter().flatten() {
        for _ in 0..2 {
            like_both(calls, image, &twin, sizes);
            let at = rng.range(DATA, twin.len() - 1);
            twin[at] ^= 1 << rng.below(8);
        }
    }
}

/// Likeness of two images in both orders.
fn like_both<C: Calls>(calls: &C, image: &[u8], other: &[u8], sizes: Sizes) {
    calls.like(image, other, sizes);
    calls.like(other, image, sizes);
}

/// Likeness with itself, with a recovered copy, a changed one, another one.
fn like_others<C: Calls>(calls: &C, rng: &mut Rng, image: &[u8], sizes: Sizes, named: Sizes) {
    calls.like(image, image, named);
    let mut other = image.to_vec();
    if !other.is_empty() {
        let at = rng.below(other.len());
        other[at] ^= 1 << rng.below(8);
    }
    like_both(calls, image, &other, named);
    let mut tape = vec![0; sizes.opening_room()];
    let opened = calls.make(
        &Deed::Open(sizes, ADR),
        image,
        Given::of(&mut Card::zeros(), &mut [Console::alone(sizes)], &mut tape),
    );
    let mut recovered = image.to_vec();
    calls.play(&mut recovered, &tape[..3 * opened.orders as usize], u64::MAX);
    like_both(calls, image, &recovered, named);
    like_both(calls, image, &arbitrary::sound_image(rng, sizes), named);
}

/// Runs a call with a long tape, then with exact and short ones, each full of
/// rubbish.
fn with_tapes(rng: &mut Rng, room: usize, mut call: impl FnMut(&mut [u64]) -> Answer) {
    let exact = 3 * call(&mut rng.words(room)).orders as usize;
    let mut lengths = vec![exact, exact + 1, rng.below(room + 1)];
    lengths.extend((1..=3).map(|by| exact.saturating_sub(by)));
    for length in lengths {
        call(&mut rng.words(length));
    }
}

fn open_any<C: Calls>(calls: &C, rng: &mut Rng, image: &[u8], sizes: Sizes) {
    let room = if sizes.in_range() { sizes.room() } else { 64 };
    let mut card = Card::fresh(sizes, rng.word());
    card.touched = rng.word();
    card.marks[rng.below(64)] = rng.word();
    let run = arbitrary::any_run(rng, sizes);
    let open = Deed::Open(sizes, arbitrary::any_kind(rng));
    with_tapes(rng, room, |tape| {
        calls.make(&open, image, Given::of(&mut card.clone(), &mut run.clone(), tape))
    });
}

fn write_any<C: Calls>(calls: &C, rng: &mut Rng, image: &[u8], sizes: Sizes) {
    for _ in 0..4 {
        let card = arbitrary::card(rng, image, sizes);
        let (target, bytes) = arbitrary::writing(rng, sizes);
        let run = arbitrary::any_run(rng, sizes);
        let target = Target { console: arbitrary::console(rng, &run), ..target };
        let write = Deed::Write(target, bytes);
        with_tapes(rng, sizes.write_room() + 6, |tape| {
            calls.make(&write, image, Given::of(&mut card.clone(), &mut run.clone(), tape))
        });
    }
}

/// A discard with all kinds of tapes, also of no numbers, and with the tape of all
/// marked frames, which an untouched level does not need.
fn discard_any<C: Calls>(calls: &C, rng: &mut Rng, image: &[u8], sizes: Sizes) {
    for _ in 0..3 {
        let card = arbitrary::card(rng, image, sizes);
        let level = arbitrary::discarding_on(rng, &card, sizes);
        let deed = Deed::Discard(level);
        let mut discard =
            |tape: &mut [u64]| calls.make(&deed, image, Given::of(&mut card.clone(), &mut [], tape));
        with_tapes(rng, sizes.discard_room() + 6, &mut discard);
        discard(&mut []);
        let marks = card.marks[level.min(MOST - 1) as usize].count_ones() as usize;
        discard(&mut rng.words((3 * FRAME / WORD * marks).saturating_sub(1)));
    }
}

fn save_any<C: Calls>(calls: &C, rng: &mut Rng, image: &[u8], sizes: Sizes) {
    for _ in 0..2 {
        let card = arbitrary::card(rng, image, sizes);
        let run = arbitrary::any_run(rng, sizes);
        with_tapes(rng, sizes.room(), |tape| {
            calls.make(&Deed::Save, image, Given::of(&mut card.clone(), &mut run.clone(), tape))
        });
    }
}

fn play_any<C: Calls>(calls: &C, rng: &mut Rng, image: &[u8]) {
    for _ in 0..8 {
        let length = match rng.below(4) {
            0 => rng.pick(&[0, 1, 63, 64, 65, 128, 511, 512]),
            _ => image.len(),
        };
        let mut played = image.to_vec();
        played.resize(length, 0);
        let tape = arbitrary::player_tape(rng, length);
        let orders = tape.len() as u64 / 3;
        let n = rng.pick(&[0, 1, orders / 2, orders, orders + 1, u64::MAX / 3 + 1, u64::MAX]);
        calls.play(&mut played, &tape, n);
    }
}
