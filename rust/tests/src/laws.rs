//! The laws of section 11.5, counted over a history, refusal 8 by its conditions
//! (section 10.9), which spare a write takes (section 3.4), what is kept for
//! consoles (sections 5.7, 10.10 and 15.7), what a discard stores and leaves
//! (sections 10.12 to 10.14), and which calls leave a board alike (section 13).
//!
//! A tally is fed each call's arguments, its number, tape and orders, card and run
//! as they were lent and left, the images before and after it, of which it reads
//! states and pairs (section 2) by itself, and whether these are alike. The explorer
//! feeds one in every history, so the laws are held against whatever histories are run
//! over. What a write's span is follows from its arguments alone; writes over several
//! frames are counted, and each of refusal 8's conditions where no other holds. A spare
//! that is taken is known by the pair byte that changed, and is judged by the image
//! before. That one run is lent on is known by the records: they are as the last call
//! left them. Which levels are touched and which frames marked is known by the writes.

use crate::book::{saved_bytes, state_of, told};
use crate::calls::*;

/// A call of a history: what it was asked and lent, and what it answered and
/// left.
#[derive(Clone, Copy)]
pub struct Seen<'a> {
    pub deed: &'a Deed,
    pub number: u64,
    /// How many numbers its tape has, and the orders that it wrote there.
    pub tape: usize,
    pub orders: &'a [Order],
    /// The card, and what the call left of it.
    pub card: &'a Card,
    pub card_left: &'a Card,
    /// The run, and what the call left of it.
    pub lent: &'a [Console],
    pub left: &'a [Console],
    /// The image, and the same once the orders are played.
    pub before: &'a [u8],
    pub after: &'a [u8],
    /// Whether these two are alike.
    pub alike: bool,
}

/// What happened since the last served save, or since the start of a history.
#[derive(Clone)]
pub struct Tally {
    pub(crate) sizes: Sizes,
    /// Levels in state 2 then: none after a save, at the start any number.
    found: u64,
    /// Writes served since that copied a level.
    copied: u64,
    /// Levels written since, and since the last served opening, bit by bit.
    touched: u64,
    /// Frames of each level written since the last served opening and since the
    /// level was last copied, bit by bit.
    marks: [u64; 64],
    /// The run as the last call left it.
    run: Vec<Console>,
    /// Is a console below its share kept from 9, 14 and 15 (section 15.7)? From a
    /// served save to the next served opening, while one run is lent on.
    kept: bool,
    /// Is the run that of one console for which every spare is kept, lent on since
    /// its count was 0?
    alone: bool,
}

/// How often each law was tried, and how often a save met an empty level that
/// nobody had touched: that it stays empty (section 11.6) is the book's to say.
#[derive(Clone, Copy, Default, Debug)]
pub struct Tried {
    /// Served saves, after which no level is in state 2 and every spare is free.
    pub saves: u64,
    /// Levels in state 2 that nobody had touched before such a save.
    pub settled: u64,
    /// Empty levels that nobody had touched before such a save.
    pub empty: u64,
    /// Writes served that copied a level.
    pub copies: u64,
    /// Writes that heard 9.
    pub nines: u64,
    /// Writes that took a spare, by what it was.
    pub taken: Taken,
    /// Writes by their spans.
    pub spans: Spans,
    /// Calls by what the records say.
    pub heard: Heard,
    /// Discards by what they store.
    pub discards: Discards,
    /// Calls by the kind of module.
    pub kinds: OfKind,
    /// Calls by what makes the boards before and after them alike or not.
    pub likes: Likes,
}

/// How many pairs of boards there were of each kind that likeness (section 13.1)
/// tells apart.
#[derive(Clone, Copy, Default, PartialEq, Eq, Debug)]
pub struct Likes {
    /// Alike; of these, with a level in state 1 in one board and in state 2 in the
    /// other, and with a level that is empty in both.
    pub alike: u64,
    pub moved: u64,
    pub empty: u64,
    /// Of equal saved bytes, but with a level that is empty in one board alone: in the
    /// first, in the second, and as many in each. In a history none becomes empty.
    pub in_first: u64,
    pub in_second: u64,
    pub exchanged: u64,
    /// With the same levels empty and other saved bytes.
    pub by_bytes: u64,
}

impl Likes {
    /// Counts two sound boards.
    pub fn feed(&mut self, first: &[u8], second: &[u8], sizes: Sizes) {
        let states: Vec<(u8, u8)> = (0..sizes.levels as usize)
            .map(|level| (state_of(first, level), state_of(second, level)))
            .collect();
        let count = |is: fn(&&(u8, u8)) -> bool| states.iter().filter(is).count();
        let (in_first, in_second) = (count(|(a, b)| *a == 0 && *b != 0), count(|(a, b)| *a != 0 && *b == 0));
        match (saved_bytes(first, sizes) == saved_bytes(second, sizes), in_first + in_second) {
            (true, 0) => {
                self.alike += 1;
                self.moved += u64::from(count(|(a, b)| a != b) > 0);
                self.empty += u64::from(count(|(a, _)| *a == 0) > 0);
            }
            (true, _) => {
                self.in_first += u64::from(in_second == 0);
                self.in_second += u64::from(in_first == 0);
                self.exchanged += u64::from(in_first == in_second);
            }
            (false, 0) => self.by_bytes += 1,
            (false, _) => {}
        }
    }

    pub fn add(&mut self, other: Likes) {
        self.alike += other.alike;
        self.moved += other.moved;
        self.empty += other.empty;
        self.in_first += other.in_first;
        self.in_second += other.in_second;
        self.exchanged += other.exchanged;
        self.by_bytes += other.by_bytes;
    }

    /// The counts under the names that are printed.
    pub fn named(self) -> [(&'static str, u64); 7] {
        let Likes { alike, moved, empty, in_first, in_second, exchanged, by_bytes } = self;
        let [of_moved, of_empty, of_first, of_bytes] = OF_LIKES;
        [
            ("boards alike", alike),
            (of_moved, moved),
            (of_empty, empty),
            (of_first, in_first),
            (EMPTY_IN_SECOND, in_second),
            (AS_MANY_EMPTY, exchanged),
            (of_bytes, by_bytes),
        ]
    }

    /// Fails if one kind was never tried.
    pub fn all_tried(self) -> Result<(), String> {
        none_is_zero(&self.named(), &[])
    }
}

/// How many calls there were of each that the kind of module decides (`tapes`).
#[derive(Clone, Copy, Default, PartialEq, Eq, Debug)]
pub struct OfKind {
    /// Served calls that gave orders in a session of kind 1.
    pub unflushed: u64,
    /// Openings refused for their kind.
    pub fives: u64,
    /// Other calls refused for the kind on their card alone; no history has one.
    pub of_cards: u64,
}

impl OfKind {
    pub fn add(&mut self, other: OfKind) {
        self.unflushed += other.unflushed;
        self.fives += other.fives;
        self.of_cards += other.of_cards;
    }

    /// The counts under the names that are printed.
    pub fn named(self) -> [(&'static str, u64); 3] {
        let [unflushed, fives] = OF_KINDS;
        [(unflushed, self.unflushed), (fives, self.fives), (OF_CARDS, self.of_cards)]
    }

    /// Fails if one kind was never tried.
    pub fn all_tried(self) -> Result<(), String> {
        none_is_zero(&self.named(), &[])
    }
}

/// How many discards there were of each kind.
#[derive(Clone, Copy, Default, PartialEq, Eq, Debug)]
pub struct Discards {
    /// Served, of marked frames of a touched level in state 2, and of an empty one.
    pub from_spare: u64,
    pub to_zeros: u64,
    /// Served, of a touched level without a mark; no history has one.
    pub of_no_frame: u64,
    /// Served, of an untouched level.
    pub untouched: u64,
    /// Those of them with a tape too short for the marked frames of the level.
    pub short: u64,
    /// Refused with 11.
    pub elevens: u64,
}

impl Discards {
    /// Counts a discard that heard 0 or 11, of a level with this state and these
    /// marks, with so many numbers of a tape.
    pub fn feed(&mut self, number: u64, touched: bool, state: u8, marks: u64, tape: usize) {
        let kind = match (number, touched) {
            (0, true) if marks == 0 => &mut self.of_no_frame,
            (0, true) if state == 0 => &mut self.to_zeros,
            (0, true) => &mut self.from_spare,
            (0, false) => &mut self.untouched,
            _ => &mut self.elevens,
        };
        *kind += 1;
        self.short += u64::from(number == 0 && !touched && tape < 3 * stores_of(marks));
    }

    pub fn add(&mut self, other: Discards) {
        self.from_spare += other.from_spare;
        self.to_zeros += other.to_zeros;
        self.of_no_frame += other.of_no_frame;
        self.untouched += other.untouched;
        self.short += other.short;
        self.elevens += other.elevens;
    }

    /// The counts under the names that are printed.
    pub fn named(self) -> [(&'static str, u64); 6] {
        let Discards { from_spare, to_zeros, of_no_frame, untouched, short, elevens } = self;
        let [of_spare, of_zeros, of_untouched, of_short, of_elevens] = OF_DISCARDS;
        [
            (of_spare, from_spare),
            (of_zeros, to_zeros),
            (of_untouched, untouched),
            (of_short, short),
            (of_elevens, elevens),
            (OF_NO_FRAME, of_no_frame),
        ]
    }

    /// Fails if one kind was never tried.
    pub fn all_tried(self) -> Result<(), String> {
        none_is_zero(&self.named(), &[])
    }
}

/// How many words the marked frames have.
fn stores_of(marks: u64) -> usize {
    FRAME / WORD * marks.count_ones() as usize
}

/// How many calls heard each of the refusals of consoles, and how often a share
/// was needed.
#[derive(Clone, Copy, Default, PartialEq, Eq, Debug)]
pub struct Heard {
    pub thirteens: u64,
    pub fourteens: u64,
    pub fifteens: u64,
    /// Copying writes of a console below its share, where it is kept from 9, 14
    /// and 15 and another is above its own.
    pub shares: u64,
}

impl Heard {
    pub fn add(&mut self, other: Heard) {
        self.thirteens += other.thirteens;
        self.fourteens += other.fourteens;
        self.fifteens += other.fifteens;
        self.shares += other.shares;
    }

    /// The counts under the names that are printed.
    pub fn named(self) -> [(&'static str, u64); 4] {
        let [thirteens, fourteens, fifteens, shares] = OF_CONSOLES;
        [
            (thirteens, self.thirteens),
            (fourteens, self.fourteens),
            (fifteens, self.fifteens),
            (shares, self.shares),
        ]
    }
}

/// How many writes took a new spare of each kind.
#[derive(Clone, Copy, Default, PartialEq, Eq, Debug)]
pub struct Taken {
    /// An unpaired one.
    pub unpaired: u64,
    /// One that was paired with another level, in state 1.
    pub of_levels: u64,
    /// Such a one, with a lower one whose level was in state 2.
    pub passing: u64,
}

impl Taken {
    pub fn add(&mut self, other: Taken) {
        self.unpaired += other.unpaired;
        self.of_levels += other.of_levels;
        self.passing += other.passing;
    }

    /// The counts under the names that are printed.
    pub fn named(self) -> [(&'static str, u64); 3] {
        let [unpaired, of_levels, passing] = OF_SPARES;
        [(unpaired, self.unpaired), (of_levels, self.of_levels), (passing, self.passing)]
    }

    /// Fails if one kind was never tried.
    pub fn all_tried(self) -> Result<(), String> {
        none_is_zero(&self.named(), &[])
    }
}

/// How many writes there were of each kind of span.
#[derive(Clone, Copy, Default, PartialEq, Eq, Debug)]
pub struct Spans {
    /// Writes served over several frames.
    pub long: u64,
    /// Those of them that copied a level.
    pub long_copies: u64,
    /// Refusals 8 where the first, the second or the third of its conditions
    /// holds and no other.
    pub eights: [u64; 3],
}

impl Spans {
    /// Counts a write that heard this number, 0 or one from 8 on.
    pub fn feed(&mut self, target: Target, length: usize, frames: u64, number: u64, copies: bool) {
        let long = number == 0 && frames_met(target, length) > 1;
        self.long += u64::from(long);
        self.long_copies += u64::from(long && copies);
        let holds = conditions_of_8(target, length, frames);
        if number == 8 && holds.iter().filter(|holds| **holds).count() == 1 {
            self.eights.iter_mut().zip(holds).for_each(|(count, holds)| *count += u64::from(holds));
        }
    }

    pub fn add(&mut self, other: Spans) {
        self.long += other.long;
        self.long_copies += other.long_copies;
        self.eights.iter_mut().zip(other.eights).for_each(|(count, more)| *count += more);
    }

    /// The counts under the names that are printed.
    pub fn named(self) -> [(&'static str, u64); 5] {
        let [no_bytes, offset, end] = self.eights;
        let [long, copying, of_no_bytes, of_offset, of_end] = OF_SPANS;
        [
            (long, self.long),
            (copying, self.long_copies),
            (of_no_bytes, no_bytes),
            (of_offset, offset),
            (of_end, end),
        ]
    }

    /// Fails if one kind was never tried.
    pub fn all_tried(self) -> Result<(), String> {
        none_is_zero(&self.named(), &[])
    }
}

/// Refusal 8's conditions: no bytes, an offset that is not in a frame, an end
/// behind the level's. The sum may be above every 64-bit number.
pub fn conditions_of_8(target: Target, length: usize, frames: u64) -> [bool; 3] {
    let (end, left) = (u128::from(target.offset) + length as u128, frames.saturating_sub(target.frame));
    [length == 0, target.offset > 255, end > 256 * u128::from(left)]
}

/// How many frames hold bytes of a served span.
pub fn frames_met(target: Target, length: usize) -> u64 {
    (target.offset + length as u64).div_ceil(FRAME as u64)
}

/// How many calls there were of each kind that the records decide (sections 5.7
/// and 10.10).
#[derive(Clone, Copy, Default, PartialEq, Eq, Debug)]
pub struct Charges {
    /// Refusals 13 where one of its conditions holds and no other.
    pub thirteens: [u64; 5],
    /// Those of the last whose sum in 64 bits is not above the spares.
    pub wrapped: u64,
    /// Refusals 14 and 15, of levels that need a spare and of those that have one.
    pub fourteens: [u64; 2],
    pub fifteens: [u64; 2],
    /// Writes charged: for a new spare, for a copy of marked frames to the level's
    /// own, and for one of no frame.
    pub charged: [u64; 3],
}

impl Charges {
    /// Counts a call that was lent this run and heard this number.
    pub fn feed(&mut self, writer: Option<u64>, lent: &[Console], spares: u64, number: u64) {
        let holds = conditions_of_13(writer, lent, spares);
        if number == 13 && holds.iter().filter(|holds| **holds).count() == 1 {
            self.thirteens.iter_mut().zip(holds).for_each(|(count, holds)| *count += u64::from(holds));
            let sum = lent.iter().fold(0u64, |sum, console| sum.wrapping_add(console.share));
            self.wrapped += u64::from(holds[4] && sum <= spares);
        }
    }

    /// Counts a write that heard this number, to a level with these marks, and a
    /// spare of its own or none; the image was sound.
    pub fn feed_write(&mut self, number: u64, marks: u64, own: bool, charged: bool) {
        let kind = if own { 1 + usize::from(marks == 0) } else { 0 };
        self.fourteens[usize::from(own)] += u64::from(number == 14);
        self.fifteens[usize::from(own)] += u64::from(number == 15);
        self.charged[kind] += u64::from(charged);
    }

    /// The counts under the names that are printed.
    pub fn named(self) -> Vec<(&'static str, u64)> {
        let Charges { thirteens, wrapped, fourteens, fifteens, charged } = self;
        let counts = [&thirteens[..], &[wrapped], &fourteens, &fifteens, &charged].concat();
        OF_CHARGES.into_iter().zip(counts).collect()
    }

    /// Fails if one kind was never tried.
    pub fn all_tried(self) -> Result<(), String> {
        none_is_zero(&self.named(), &[])
    }
}

const OF_CHARGES: [&str; 13] = [
    "refusals 13 of a number",
    "refusals 13 of a run",
    "refusals 13 of a share",
    "refusals 13 of a count",
    "refusals 13 of a sum",
    "refusals 13 of a sum that wraps",
    "refusals 14 for a new spare",
    "refusals 14 for an own spare",
    "refusals 15 for a new spare",
    "refusals 15 for an own spare",
    "charges for a new spare",
    "charges for marked frames",
    "charges for no frame",
];

impl Tried {
    pub fn add(&mut self, other: Tried) {
        self.saves += other.saves;
        self.settled += other.settled;
        self.empty += other.empty;
        self.copies += other.copies;
        self.nines += other.nines;
        self.taken.add(other.taken);
        self.spans.add(other.spans);
        self.heard.add(other.heard);
        self.discards.add(other.discards);
        self.kinds.add(other.kinds);
        self.likes.add(other.likes);
    }

    /// The counts under the names that are printed.
    pub fn named(self) -> Vec<(&'static str, u64)> {
        let Tried { saves, settled, empty, copies, nines, taken, spans, heard, discards, kinds, likes } =
            self;
        let mut named = vec![
            ("served saves", saves),
            ("restored levels settled", settled),
            (EMPTY_KEPT, empty),
            ("copying writes", copies),
            (NINES, nines),
        ];
        named.extend(taken.named());
        named.extend(spans.named());
        named.extend(heard.named());
        named.extend(discards.named());
        named.extend(kinds.named());
        named.extend(likes.named());
        named.retain(|(name, _)| ![OF_NO_FRAME, OF_CARDS, EMPTY_IN_SECOND, AS_MANY_EMPTY].contains(name));
        named
    }

    /// Fails if something was never tried, but for what these names leave out.
    pub fn all_tried(self, left_out: &[&str]) -> Result<(), String> {
        none_is_zero(&self.named(), left_out)
    }
}

fn none_is_zero(named: &[(&str, u64)], left_out: &[&str]) -> Result<(), String> {
    match named.iter().find(|(name, count)| *count == 0 && !left_out.contains(name)) {
        None => Ok(()),
        Some((name, _)) => Err(format!("never tried: {name}")),
    }
}

/// Where every level was saved none is empty.
pub const EMPTY_KEPT: &str = "empty levels kept";

/// With as many spares as levels nobody can hear 9.
pub const NINES: &str = "refusals 9";

/// With as many spares as levels none is taken from a level, and with one spare
/// none is passed over.
pub const OF_SPARES: [&str; 3] = ["unpaired spares taken", FROM_LEVELS, PASSED_OVER];
const FROM_LEVELS: &str = "spares taken from levels";
pub const PASSED_OVER: &str = "spares in use passed over";

/// What histories at these sizes cannot try of 9, of the spares and, where the
/// only spare is kept for a console or for none, of shares.
pub fn never_at(sizes: Sizes) -> Vec<&'static str> {
    match (sizes.levels <= sizes.spares, sizes.spares) {
        (true, 1) => vec![NINES, FROM_LEVELS, PASSED_OVER, SHARES_NEEDED],
        (true, _) => vec![NINES, FROM_LEVELS, PASSED_OVER],
        (false, 1) => vec![PASSED_OVER, SHARES_NEEDED],
        (false, _) => vec![],
    }
}

/// Levels of one frame have no long writes, and no offset that leaves its frame
/// and not its level.
pub const OF_SPANS: [&str; 5] = [
    "long writes",
    "long copying writes",
    "refusals 8 of no bytes",
    "refusals 8 of an offset",
    "refusals 8 of an end",
];

/// One console for which every spare is kept hears none of these refusals.
pub const OF_CONSOLES: [&str; 4] = ["refusals 13", "refusals 14", "refusals 15", SHARES_NEEDED];
pub const SHARES_NEEDED: &str = "shares needed";

/// A level is touched by a write, and untouched with marks after a save.
pub const OF_DISCARDS: [&str; 5] = [
    "discards from a spare",
    TO_ZEROS,
    "discards of untouched levels",
    "discards of untouched levels with a short tape",
    "refusals 11 of discards",
];
pub const TO_ZEROS: &str = "discards to zeros";
const OF_NO_FRAME: &str = "discards of no frame";

/// A module whose openings are given kind 0 has flushes on every tape.
pub const OF_KINDS: [&str; 2] = [UNFLUSHED, "refusals 5 of a kind"];
pub const UNFLUSHED: &str = "unflushed tapes";
const OF_CARDS: &str = "refusals 5 of a card's kind";

/// Where every level was saved none is empty, neither in both boards nor in one.
pub const OF_LIKES: [&str; 4] = ["boards alike with a level moved", EMPTY_IN_BOTH, EMPTY_IN_FIRST, BY_BYTES];
pub const EMPTY_IN_BOTH: &str = "boards alike with a level empty";
pub const EMPTY_IN_FIRST: &str = "boards unlike by a level empty in the first";
const EMPTY_IN_SECOND: &str = "boards unlike by a level empty in the second";
const AS_MANY_EMPTY: &str = "boards unlike with as many empty";
const BY_BYTES: &str = "boards unlike by bytes";
/// Only a save of what was written makes a board unlike the one before.
pub const UNLIKE: [&str; 2] = [EMPTY_IN_FIRST, BY_BYTES];

/// The numbers that are given only where 13 does not apply, and those of a write
/// to which none of the refusals before 8 applies.
const AFTER_13: [u64; 9] = [0, 6, 7, 8, 9, 10, 11, 14, 15];
const JUDGED: [u64; 6] = [0, 8, 9, 11, 14, 15];

/// Refusal 13's conditions (section 5.7): a writer's number that no record has,
/// more records than eight, a share above its limit, a taken count above its
/// limit, shares whose sum is above the spares. That sum may be above every
/// 64-bit number.
pub fn conditions_of_13(writer: Option<u64>, run: &[Console], spares: u64) -> [bool; 5] {
    let shares = run.iter().fold(0, |sum, console| sum + u128::from(console.share));
    [
        writer.is_some_and(|writer| writer >= run.len() as u64),
        run.len() > MOST_CONSOLES,
        run.iter().any(|console| console.share > console.limit),
        run.iter().any(|console| console.taken > console.limit),
        shares > u128::from(spares),
    ]
}

/// What the unused shares of the other consoles add up to (section 10.10).
fn kept_for_others(writer: usize, run: &[Console]) -> u64 {
    let unused = |console: &Console| console.share - console.taken.min(console.share);
    let all: u64 = run.iter().map(unused).sum();
    all - unused(&run[writer])
}

/// How many levels are in state 2.
fn in_state_2(image: &[u8], sizes: Sizes) -> u64 {
    (0..sizes.levels as usize).filter(|level| state_of(image, *level) == 2).count() as u64
}

/// How many spares are not free (section 3.2).
fn not_free(image: &[u8], sizes: Sizes) -> u64 {
    let in_use = |level: &&u8| u64::from(**level) < sizes.levels && state_of(image, **level as usize) == 2;
    pairs(image, sizes).iter().filter(in_use).count() as u64
}

/// The pair byte of each spare.
fn pairs(image: &[u8], sizes: Sizes) -> &[u8] {
    &image[PAIRS..][..sizes.spares as usize]
}

/// What section 3.4 has against this spare as the new one in a sound image.
fn against(image: &[u8], sizes: Sizes, spare: usize) -> Option<&'static str> {
    let pairs = pairs(image, sizes);
    let unpaired = |pair: &u8| *pair == UNPAIRED;
    let own = |pair: &u8| !unpaired(pair) && state_of(image, *pair as usize) == 1;
    let Some(pair) = pairs.get(spare) else { return Some("there is none") };
    let lower = &pairs[..spare];
    match () {
        _ if unpaired(pair) => lower.iter().any(unpaired).then_some("a lower one is unpaired"),
        _ if !own(pair) => Some("its level is not in state 1"),
        _ if pairs.iter().any(unpaired) => Some("it is paired and another is not"),
        _ => lower.iter().any(own).then_some("a lower one has its level in state 1"),
    }
}

/// Only a write that needs a new spare changes a pair byte: that of the new
/// spare alone, to its level. Of the other calls the level is none.
fn spare_taken(level: Option<u8>, before: &[u8], after: &[u8], sizes: Sizes) -> Result<Taken, String> {
    let changed: Vec<usize> =
        (0..LINE).filter(|spare| before[PAIRS + spare] != after[PAIRS + spare]).collect();
    let spare = match (level, &changed[..]) {
        (None, []) => return Ok(Taken::default()),
        (Some(level), [spare]) if after[PAIRS + spare] == level => *spare,
        _ => return Err(format!("pair bytes of spares {changed:?} change, a spare due for level {level:?}")),
    };
    if let Some(what) = against(before, sizes, spare) {
        return Err(format!("spare {spare} is taken: {what}"));
    }
    let was_paired = before[PAIRS + spare] != UNPAIRED;
    let in_use = |pair: &u8| state_of(before, *pair as usize) == 2;
    let passing = was_paired && pairs(before, sizes)[..spare].iter().any(in_use);
    Ok(Taken {
        unpaired: u64::from(!was_paired),
        of_levels: u64::from(was_paired),
        passing: u64::from(passing),
    })
}

impl Tally {
    /// The tally of a history that starts by opening this image, lent this run.
    pub fn start(image: &[u8], sizes: Sizes, run: &[Console]) -> Tally {
        let alone = run == [Console::alone(sizes)];
        let found = in_state_2(image, sizes);
        let (touched, marks) = (0, [0; 64]);
        Tally { sizes, found, copied: 0, touched, marks, run: run.to_vec(), kept: false, alone }
    }

    /// Counts a call and holds the laws against what it answered and left.
    pub fn feed(&mut self, seen: Seen) -> Result<Tried, String> {
        let mut tried = Tried::default();
        let mut taker = None;
        let Seen { deed, number, before, after, .. } = seen;
        if self.run != seen.lent {
            (self.kept, self.alone) = (false, false);
        }
        self.hold_13(seen, &mut tried)?;
        let (copied, touched) = (self.copied, self.touched);
        match deed {
            Deed::Write(target, bytes) if JUDGED.contains(&number) => {
                taker = self.feed_write(*target, bytes.len(), seen, &mut tried)?
            }
            Deed::Discard(level) => self.hold_discard(*level, seen, &mut tried)?,
            Deed::Save if number == 0 => self.feed_save(before, &mut tried),
            Deed::Open(..) if number == 0 => (self.touched, self.marks) = (0, [0; 64]),
            _ => {}
        }
        self.hold_records(seen, self.copied > copied)?;
        tried.taken = spare_taken(taker, before, after, self.sizes)?;
        let due = self.found + self.copied;
        let (levels, spares) = (in_state_2(after, self.sizes), not_free(after, self.sizes));
        if (levels, spares) != (due, due) {
            return Err(format!("levels in state 2: {levels}, spares not free: {spares}, due {due} of each"));
        }
        self.hold_likeness(touched, seen)?;
        tried.likes.feed(before, after, self.sizes);
        Ok(tried)
    }

    /// Every call leaves a board alike the one before, but for a served save of these
    /// touched levels: that one exactly if none of them was empty, which it sets, and
    /// the saved bytes are what they were.
    fn hold_likeness(&self, touched: u64, seen: Seen) -> Result<(), String> {
        let Seen { deed, number, before, after, alike, .. } = seen;
        let saves = *deed == Deed::Save && number == 0 && touched != 0;
        let sets = |level: usize| touched >> level & 1 == 1 && state_of(before, level) == 0;
        let keeps = || {
            let sets_none = !(0..self.sizes.levels as usize).any(sets);
            sets_none && saved_bytes(before, self.sizes) == saved_bytes(after, self.sizes)
        };
        match alike == (!saves || keeps()) {
            true => Ok(()),
            false => Err(format!("a call leaves a board alike the one before: {alike}, due {}", !alike)),
        }
    }

    /// 13 where one of its conditions holds, and after it only where none does. An
    /// opening names its own spares; a discard is lent no run.
    fn hold_13(&self, Seen { deed, number, lent, .. }: Seen, tried: &mut Tried) -> Result<(), String> {
        let (writer, spares) = match deed {
            Deed::Write(target, _) => (Some(target.console), self.sizes.spares),
            Deed::Open(sizes, _) => (None, sizes.spares),
            Deed::Save => (None, self.sizes.spares),
            Deed::Discard(_) if number == 13 => return Err("a discard answers 13".to_string()),
            Deed::Discard(_) => return Ok(()),
        };
        let due = conditions_of_13(writer, lent, spares).contains(&true);
        if (number == 13 && !due) || (AFTER_13.contains(&number) && due) {
            return Err(format!("a call lent {} (refusal 13 due: {due}) answers {number}", told(lent)));
        }
        if self.alone && writer.is_none_or(|writer| writer == 0) && [13, 14, 15].contains(&number) {
            return Err(format!("the only console, {}, hears {number}", told(lent)));
        }
        tried.heard.thirteens += u64::from(number == 13);
        Ok(())
    }

    /// The records that a call leaves: a charge of one spare for a copying write
    /// that is served (section 10.10), counts of 0 after a served save (section
    /// 11.8) or opening (section 9.8), and else what was lent. None that a served
    /// call leaves is above its limit, if the call judges records.
    fn hold_records(&mut self, seen: Seen, charged: bool) -> Result<(), String> {
        let Seen { deed, number, lent, left, .. } = seen;
        let mut due = lent.to_vec();
        match deed {
            _ if number != 0 => {}
            Deed::Write(target, _) => due[target.console as usize].taken += u64::from(charged),
            Deed::Open(..) | Deed::Save => due.iter_mut().for_each(|console| console.taken = 0),
            Deed::Discard(_) => {}
        }
        let judges = !matches!(deed, Deed::Discard(_));
        if number == 0 && judges && left.iter().any(|console| console.taken > console.limit) {
            return Err(format!("a served call leaves {}, a count above its limit", told(left)));
        }
        if left != due {
            return Err(format!("a call lent {} leaves {}, due {}", told(lent), told(left), told(&due)));
        }
        self.run = due;
        if number == 0 && matches!(deed, Deed::Open(..) | Deed::Save) {
            self.kept = *deed == Deed::Save;
            self.alone = self.run == [Console::alone(self.sizes)];
        }
        Ok(())
    }

    fn is_touched(&self, level: usize) -> bool {
        self.touched >> level & 1 == 1
    }

    /// Gives the level if the write must take a new spare for it.
    fn feed_write(
        &mut self,
        target: Target,
        length: usize,
        seen: Seen,
        tried: &mut Tried,
    ) -> Result<Option<u8>, String> {
        let Seen { number, lent, before, .. } = seen;
        let (level, writer) = (target.level as usize, target.console as usize);
        let below = self.kept && lent[writer].taken < lent[writer].share;
        if below && [9, 14, 15].contains(&number) {
            return Err(format!("console {writer} of {}, below its share, hears {number}", told(lent)));
        }
        let there = target.level < self.sizes.levels;
        let copies = there && state_of(before, level) == 1 && !self.is_touched(level);
        let bad_span = conditions_of_8(target, length, self.sizes.frames).contains(&true);
        if (number == 8) != bad_span {
            return Err(format!("a write (refusal 8 due: {bad_span}) answers {number}"));
        }
        tried.spans.feed(target, length, self.sizes.frames, number, copies);
        let is_new = |spare: &usize| against(before, self.sizes, *spare).is_none();
        if let (9, Some(spare)) = (number, (0..self.sizes.spares as usize).find(is_new)) {
            return Err(format!("a write answers 9, and spare {spare} is a new one"));
        }
        let in_use = self.found + self.copied;
        let all_in_use = in_use == self.sizes.spares;
        if (number == 9) != (copies && all_in_use && !bad_span) {
            return Err(format!("a write (copying: {copies}) answers {number} with {in_use} spares in use"));
        }
        tried.nines += u64::from(number == 9);
        let charge = self.charge_due(writer, lent, copies && !bad_span && !all_in_use);
        if charge != [14, 15].into_iter().find(|refusal| *refusal == number) {
            let heard = format!("answers {number} with {in_use} spares in use");
            let run = told(lent);
            return Err(format!("console {writer} of {run} {heard}, due of 14 and 15: {charge:?}"));
        }
        tried.heard.fourteens += u64::from(number == 14);
        tried.heard.fifteens += u64::from(number == 15);
        let other_above = lent.iter().any(|console| console.taken > console.share);
        tried.heard.shares += u64::from(below && copies && number == 0 && other_above);
        if number != 0 {
            return Ok(None);
        }
        self.copied += u64::from(copies);
        tried.copies += u64::from(copies);
        self.touched |= 1 << level;
        if copies {
            self.marks[level] = 0;
        }
        let frames = target.frame..target.frame + frames_met(target, length);
        frames.for_each(|frame| self.marks[level] |= 1 << frame);
        let needs_spare = copies && !pairs(before, self.sizes).contains(&(level as u8));
        Ok(needs_spare.then_some(level as u8))
    }

    /// Which of 14 and 15 is due to a console of this run, if its write needs a
    /// spare and one is free (section 10.10).
    fn charge_due(&self, writer: usize, lent: &[Console], needs: bool) -> Option<u64> {
        let free = self.sizes.spares - self.found - self.copied;
        match needs {
            true if lent[writer].taken >= lent[writer].limit => Some(14),
            true if free <= kept_for_others(writer, lent) => Some(15),
            _ => None,
        }
    }

    /// The number of a discard: 1 after a refused opening, 6 for a level that there
    /// is not, 11 where the tape is too short for 32 stores for each marked frame of
    /// a touched level.
    fn hold_discard(&self, level: u64, seen: Seen, tried: &mut Tried) -> Result<(), String> {
        let Seen { number, tape, .. } = seen;
        let (there, at) = (level < self.sizes.levels, level as usize);
        let touched = there && self.is_touched(at);
        let marks = if touched { self.marks[at] } else { 0 };
        let due = match there {
            _ if *seen.card == Card::zeros() => 1,
            false => 6,
            true if tape < 3 * stores_of(marks) => 11,
            true => 0,
        };
        if number != due {
            return Err(format!("a discard with a tape of {tape} numbers answers {number}, due {due}"));
        }
        if [0, 11].contains(&number) {
            tried.discards.feed(number, touched, state_of(seen.before, at), self.marks[at], tape);
        }
        match number {
            0 => self.hold_dropped(at, marks, seen).map_err(|what| format!("a discard {what}")),
            _ => Ok(()),
        }
    }

    /// What a served discard of these marked frames writes and leaves: their words as
    /// they were saved, upward. Then the level is as it was saved, and nothing else of
    /// the image is changed, nor the card.
    fn hold_dropped(&self, level: usize, marks: u64, seen: Seen) -> Result<(), String> {
        let Seen { orders, before, after, .. } = seen;
        let (start, length) = (self.sizes.in_level(level, 0), FRAME * self.sizes.frames as usize);
        let saved = &saved_bytes(before, self.sizes)[length * level..][..length];
        let places = (0..length).step_by(WORD).filter(|at| marks >> (at / FRAME) & 1 == 1);
        let stores: Vec<Order> =
            places.map(|at| Order::Store { place: start + at, word: word_at(saved, at) }).collect();
        if orders.len() != stores.len() {
            return Err(format!("gives {} orders, due {}", orders.len(), stores.len()));
        }
        if let Some((got, due)) = orders.iter().zip(&stores).find(|(got, due)| got != due) {
            return Err(format!("gives {got:?}, due {due:?}"));
        }
        if seen.card != seen.card_left {
            return Err("changes the card".to_string());
        }
        let (own, behind) = (start..start + length, start + length..);
        match after[own] == *saved
            && after[..start] == before[..start]
            && after[behind.clone()] == before[behind]
        {
            true => Ok(()),
            false => Err("leaves other bytes than those saved, or changes others".to_string()),
        }
    }

    fn feed_save(&mut self, before: &[u8], tried: &mut Tried) {
        let untouched = |level: &usize| !self.is_touched(*level);
        let in_state = |state| {
            let there = |level: &usize| state_of(before, *level) == state;
            (0..self.sizes.levels as usize).filter(untouched).filter(there).count() as u64
        };
        *tried = Tried { saves: 1, settled: in_state(2), empty: in_state(0), ..*tried };
        (self.found, self.copied, self.touched) = (0, 0, 0);
    }
}
