//! The calls in safe Rust as one would write them for speed, for the
//! benchmarks: no list of orders, straight onto the tape, with the signatures
//! of `raw`; session and clients are changed in place, and only by a call that is
//! served.
//!
//! The calls are not inlined, as the library's are not. Metadata are judged by
//! words, as the library judges them: pairs become a set of bits, whose count
//! shows whether a level is named twice, and words of unpaired spares behind the
//! others cost one comparison each. Further than the library: the states become
//! two sets as well, so that all of them are held against the pairs and against the
//! touched levels at once, however many there are; and a save counts its marks only
//! if the tape is too short for a save of all frames. A run of clients is gone
//! through once, for refusal 13 and for the shares that are not used yet. The places that write or read
//! many orders exist in two forms, by index and by chunks; the benchmark takes the
//! better one of each measurement. Both are checked against the reference
//! (`selftest`) and against the library (`speed`, before it measures).

use crate::calls::*;
use crate::raw::{session_of, Extent, Lent};
use crpm::ffi::{Client, Session};

/// How runs of orders are written and played.
pub trait Form {
    /// The orders of copying a frame's 256 bytes to a place: 32 stores, and as many
    /// flushes as there is room for behind them.
    fn copy(tape: &mut [u64], to: usize, part: &[u8]);
    /// Those of filling the frame at a place with zeros.
    fn fill(tape: &mut [u64], to: usize);
    /// The stores of whole words from a place on.
    fn store(tape: &mut [u64], to: usize, words: &[[u8; 8]]);
    /// Are these orders well formed for an image of this length?
    fn good(tape: &[u64], length: usize) -> bool;
    fn play(image: &mut [u8], tape: &[u64]);
}

pub struct Indexed;
pub struct Chunked;

/// The numbers of a frame's stores.
const STORED: usize = 96;

/// How many flushes there are of these on a module of this kind.
fn flushed(kind: u64, flushes: usize) -> usize {
    if kind == ADR {
        flushes
    } else {
        0
    }
}

/// The numbers of a frame that is copied.
fn frame_numbers(kind: u64) -> usize {
    STORED + 3 * flushed(kind, 4)
}

fn put(tape: &mut [u64], at: usize, order: [u64; 3]) {
    tape[3 * at..3 * at + 3].copy_from_slice(&order);
}

fn flushes(tape: &mut [u64], to: usize) {
    for i in 0..tape.len() / 3 {
        put(tape, i, [2, (to + LINE * i) as u64, 0]);
    }
}

fn good_order(kind: u64, place: u64, word: u64, length: u64) -> bool {
    place < length
        && match kind {
            1 => place.is_multiple_of(8),
            2 => place.is_multiple_of(64) && word == 0,
            3 => place == 0 && word == 0,
            _ => false,
        }
}

impl Form for Indexed {
    fn copy(tape: &mut [u64], to: usize, part: &[u8]) {
        let ((stores, rest), part) = (tape.split_at_mut(STORED), &part[..FRAME]);
        for i in 0..32 {
            stores[3 * i] = 1;
            stores[3 * i + 1] = (to + 8 * i) as u64;
            stores[3 * i + 2] = word_at(part, 8 * i);
        }
        flushes(rest, to);
    }

    fn fill(tape: &mut [u64], to: usize) {
        let (stores, rest) = tape.split_at_mut(STORED);
        for i in 0..32 {
            stores[3 * i] = 1;
            stores[3 * i + 1] = (to + 8 * i) as u64;
            stores[3 * i + 2] = 0;
        }
        flushes(rest, to);
    }

    fn store(tape: &mut [u64], to: usize, words: &[[u8; 8]]) {
        let tape = &mut tape[..3 * words.len()];
        for i in 0..words.len() {
            tape[3 * i] = 1;
            tape[3 * i + 1] = (to + 8 * i) as u64;
            tape[3 * i + 2] = u64::from_le_bytes(words[i]);
        }
    }

    fn good(tape: &[u64], length: usize) -> bool {
        for i in 0..tape.len() / 3 {
            if !good_order(tape[3 * i], tape[3 * i + 1], tape[3 * i + 2], length as u64) {
                return false;
            }
        }
        true
    }

    fn play(image: &mut [u8], tape: &[u64]) {
        for i in 0..tape.len() / 3 {
            if tape[3 * i] == 1 {
                put_word(image, tape[3 * i + 1] as usize, tape[3 * i + 2]);
            }
        }
    }
}

impl Form for Chunked {
    fn copy(tape: &mut [u64], to: usize, part: &[u8]) {
        let (orders, _) = tape.as_chunks_mut::<3>();
        let (words, _) = part[..FRAME].as_chunks::<8>();
        let (stores, flushes) = orders.split_at_mut(32);
        for ((order, word), place) in stores.iter_mut().zip(words).zip((to as u64..).step_by(8)) {
            *order = [1, place, u64::from_le_bytes(*word)];
        }
        for (order, place) in flushes.iter_mut().zip((to as u64..).step_by(64)) {
            *order = [2, place, 0];
        }
    }

    fn fill(tape: &mut [u64], to: usize) {
        let (orders, _) = tape.as_chunks_mut::<3>();
        let (stores, flushes) = orders.split_at_mut(32);
        for (order, place) in stores.iter_mut().zip((to as u64..).step_by(8)) {
            *order = [1, place, 0];
        }
        for (order, place) in flushes.iter_mut().zip((to as u64..).step_by(64)) {
            *order = [2, place, 0];
        }
    }

    fn store(tape: &mut [u64], to: usize, words: &[[u8; 8]]) {
        let (orders, _) = tape.as_chunks_mut::<3>();
        for ((order, word), place) in orders.iter_mut().zip(words).zip((to as u64..).step_by(8)) {
            *order = [1, place, u64::from_le_bytes(*word)];
        }
    }

    fn good(tape: &[u64], length: usize) -> bool {
        let (orders, _) = tape.as_chunks::<3>();
        orders.iter().all(|&[kind, place, word]| good_order(kind, place, word, length as u64))
    }

    fn play(image: &mut [u8], tape: &[u64]) {
        let (words, _) = image.as_chunks_mut::<8>();
        let (orders, _) = tape.as_chunks::<3>();
        for &[kind, place, word] in orders {
            if let (1, Some(at)) = (kind, words.get_mut(place as usize / 8)) {
                *at = word.to_le_bytes();
            }
        }
    }
}

/// Words by their bytes: each is 1, each has its top bit. Others are multiples.
const ONES: u64 = 0x0101_0101_0101_0101;
const TOPS: u64 = 0x80 * ONES;

/// The words of a line of metadata.
fn words(line: &[u8; LINE]) -> impl Iterator<Item = u64> + '_ {
    line.as_chunks::<8>().0.iter().map(|word| u64::from_le_bytes(*word))
}

/// The lowest of a line's bytes that is this one, eight looked at at once.
fn position(line: &[u8; LINE], byte: u8) -> Option<usize> {
    for (i, word) in words(line).enumerate() {
        let other = word ^ (byte as u64 * ONES);
        let found = other.wrapping_sub(ONES) & !other & TOPS;
        if found != 0 {
            return Some(8 * i + found.trailing_zeros() as usize / 8);
        }
    }
    None
}

/// The bits of a word as a square, its rows made its columns: bit 8i + k becomes
/// bit 8k + i. A set of levels, turned, has those of word i of a line of states at
/// bit i of each byte.
fn turned(set: u64) -> u64 {
    let swap = |bits: u64, by: u32, mask: u64| {
        let changed = (bits ^ bits >> by) & mask;
        bits ^ changed ^ changed << by
    };
    let in_twos = swap(set, 7, 0x00aa_00aa_00aa_00aa);
    let in_fours = swap(in_twos, 14, 0x0000_cccc_0000_cccc);
    swap(in_fours, 28, 0x0000_0000_f0f0_f0f0)
}

fn has(set: u64, level: usize) -> bool {
    set >> level & 1 == 1
}

/// Does a set stay below a bound from 1 to 64?
fn within(set: u64, bound: u64) -> bool {
    set >> (bound - 1) >> 1 == 0
}

/// What sound metadata say: the epoch, the active states and where they stand, the
/// pairs, and which levels are in state 1, are in state 2 and have a spare.
struct Sound<'a> {
    epoch: u64,
    active: usize,
    states: &'a [u8; LINE],
    pairs: &'a [u8; LINE],
    own: u64,
    spared: u64,
    paired: u64,
}

impl<'a> Sound<'a> {
    #[inline(always)]
    fn of(image: &'a [u8], sizes: Sizes) -> Result<Sound<'a>, u64> {
        let Sizes { levels, spares, frames } = sizes;
        if levels.wrapping_sub(1) | spares.wrapping_sub(1) | frames.wrapping_sub(1) > 63 {
            return Err(1);
        }
        if image.len() != sizes.image_length() {
            return Err(2);
        }
        let ([first, header, even, odd, pairs, ..], _) = image.as_chunks::<LINE>() else { return Err(2) };
        if (word_at(header, 0), word_at(header, 8), word_at(header, 16)) != (levels, spares, frames) {
            return Err(3);
        }
        let epoch = word_at(first, 0);
        let (active, states) = if epoch.is_multiple_of(2) { (EVEN_STATES, even) } else { (ODD_STATES, odd) };
        let (own, spared) = in_states(states, levels).ok_or(4u64)?;
        let paired = in_pairs(pairs, spares as usize).ok_or(4u64)?;
        let fits = (spared ^ paired) & !own | spared & own == 0 && within(own | paired, levels);
        fits.then_some(Sound { epoch, active, states, pairs, own, spared, paired }).ok_or(4)
    }

    /// The lowest unpaired spare; if all are paired, the lowest whose level is in
    /// state 1.
    fn new_spare(&self, spares: usize) -> Option<usize> {
        let unpaired = position(self.pairs, UNPAIRED).filter(|spare| *spare < spares);
        unpaired.or_else(|| self.pairs[..spares].iter().position(|level| has(self.own, *level as usize)))
    }

    /// How many spares are free: all but those of levels in state 2.
    fn free(&self, spares: u64) -> u64 {
        spares - u64::from(self.spared.count_ones())
    }

    /// The spare of a paired level.
    fn spare_of(&self, level: usize) -> usize {
        position(self.pairs, level as u8).unwrap_or(0)
    }
}

/// The levels in state 1 and those in state 2, with those of state 3 in both, if no
/// state is above. Up to eight levels stand in one word; of more, the two bits of
/// each state are laid beside those of the other words, and the squares turned.
fn in_states(states: &[u8; LINE], levels: u64) -> Option<(u64, u64)> {
    const HIGH: u64 = 0xfc * ONES;
    const EVEN: u64 = 0x55 * ONES;
    if levels <= 8 {
        let first = word_at(states, 0);
        let rest = words(states).skip(1).fold(0, |all, word| all | word);
        return (first & HIGH | rest == 0).then_some((low_bits(first), low_bits(first >> 1)));
    }
    let (mut seen, mut bits) = (0, [0; 2]);
    for (i, word) in words(states).enumerate() {
        seen |= word;
        bits[i % 2] |= word << (i & 6);
    }
    let own = bits[0] & EVEN | (bits[1] & EVEN) << 1;
    let spared = bits[0] >> 1 & EVEN | bits[1] & !EVEN;
    (seen & HIGH == 0).then_some((turned(own), turned(spared)))
}

/// The lowest bits of a word's bytes, as the bits of one byte.
fn low_bits(word: u64) -> u64 {
    (word & ONES).wrapping_mul(0x0102_0408_1020_4080) >> 56
}

/// The levels that pairs name, if each is below 64 and named once and no spare
/// beyond the last has one. Words of unpaired spares behind the others are passed
/// over; of a word with some unpaired, only the paired ones are looked at.
fn in_pairs(pairs: &[u8; LINE], spares: usize) -> Option<u64> {
    let (words, _) = pairs.as_chunks::<8>();
    let Some(last) = words.iter().rposition(|word| *word != [UNPAIRED; 8]) else { return Some(0) };
    let unpaired = (!u64::from_le_bytes(words[last])).leading_zeros() as usize / 8;
    if 8 * last + 8 - unpaired > spares {
        return None;
    }
    let (mut set, mut count) = (0u64, 0);
    for eight in &words[..=last] {
        let word = u64::from_le_bytes(*eight);
        let mut below_64 = !(word | word << 1) & TOPS;
        if below_64 == TOPS {
            count += 8;
            set |= eight.iter().fold(0, |all, level| all | 1 << (level % 64));
            continue;
        }
        let paired = (!word | ((!word & !TOPS) + !TOPS)) & TOPS;
        if below_64 != paired {
            return None;
        }
        while below_64 != 0 {
            count += 1;
            set |= 1 << (word >> (below_64.trailing_zeros() & 56) & 63);
            below_64 &= below_64 - 1;
        }
    }
    (set.count_ones() == count).then_some(set)
}

fn sizes_of(session: &Session) -> Sizes {
    Sizes::new(session.mains, session.backups, session.blocks)
}

/// Is the session true to sound metadata, and of a kind that there is? Its words of
/// marks are laid over one another.
fn is_true(sound: &Sound, session: &Session) -> bool {
    let touched = session.dirty_segments;
    let (below, beyond) = session.dirty_blocks.split_at(session.mains as usize);
    let all = |marks: &[u64]| marks.iter().fold(0, |all, m| all | m);
    within(touched, session.mains)
        && touched & sound.own == 0
        && within(all(below), session.blocks)
        && all(beyond) == 0
        && session.domain <= EADR
}

/// What the shares that are not used yet add up to, in a run that 13 does not
/// refuse. No share of such a run is above the spares, so no sum wraps.
fn unused_shares(clients: &[Client], spares: u64) -> Result<u64, u64> {
    let (mut bad, mut reserved, mut unused) = (clients.len() > MOST_CONSOLES, 0u64, 0u64);
    for client in clients {
        bad |= client.reserved > client.quota.min(spares) || client.used > client.quota;
        reserved = reserved.wrapping_add(client.reserved);
        unused = unused.wrapping_add(client.reserved.saturating_sub(client.used));
    }
    match bad || reserved > spares {
        true => Err(13),
        false => Ok(unused),
    }
}

fn forget_used(clients: &mut [Client]) {
    clients.iter_mut().for_each(|client| client.used = 0);
}

#[inline(never)]
pub fn format(image: &mut [u8], sizes: Sizes) -> u64 {
    if !sizes.in_range() {
        return 1;
    }
    if image.len() != sizes.image_length() {
        return 2;
    }
    image.fill(0);
    put_word(image, 64, sizes.levels);
    put_word(image, 72, sizes.spares);
    put_word(image, 80, sizes.frames);
    image[PAIRS..PAIRS + LINE].fill(UNPAIRED);
    0
}

/// Hands back the orders of a call; a refused one has none.
fn answered(orders: &mut u64, result: Result<usize, u64>) -> u64 {
    *orders = result.unwrap_or(0) as u64;
    result.err().unwrap_or(0)
}

#[inline(never)]
pub fn open<F: Form>(
    image: &[u8],
    sizes: Sizes,
    kind: u64,
    session: &mut Session,
    clients: &mut [Client],
    tape: &mut [u64],
    orders: &mut u64,
) -> u64 {
    let opened = opening::<F>(image, sizes, kind, clients, tape);
    *session = if opened.is_ok() { session_of(&Card::fresh(sizes, kind)) } else { Session::ZEROS };
    answered(orders, opened)
}

fn opening<F: Form>(
    image: &[u8],
    sizes: Sizes,
    kind: u64,
    clients: &mut [Client],
    tape: &mut [u64],
) -> Result<usize, u64> {
    let sound = Sound::of(image, sizes)?;
    if kind > EADR {
        return Err(5);
    }
    unused_shares(clients, sizes.spares)?;
    let (levels, frames) = (sizes.levels as usize, sizes.frames as usize);
    let treats = |l: usize| sound.states[l] != 1 || has(sound.paired, l);
    let treated = (0..levels).filter(|l| treats(*l)).count();
    let numbers = frame_numbers(kind);
    let count = numbers / 3 * frames * treated + 1;
    let tape = tape.get_mut(..3 * count).ok_or(11u64)?;
    let mut level_parts = tape.chunks_exact_mut(numbers * frames);
    for l in (0..levels).filter(|l| treats(*l)) {
        let parts = level_parts.next().ok_or(11u64)?.chunks_exact_mut(numbers);
        let own = sizes.in_level(l, 0);
        let spare = || sizes.in_spare(sound.spare_of(l), 0);
        match sound.states[l] {
            1 => copy_all::<F>(parts, &image[own..], spare()),
            2 => copy_all::<F>(parts, &image[spare()..], own),
            _ => parts.enumerate().for_each(|(f, part)| F::fill(part, own + FRAME * f)),
        }
    }
    put(tape, count - 1, [3, 0, 0]);
    forget_used(clients);
    Ok(count)
}

/// Copies frame after frame from the source's start to the place.
fn copy_all<'a, F: Form>(parts: impl Iterator<Item = &'a mut [u64]>, source: &[u8], to: usize) {
    for (f, (part, frame)) in parts.zip(source.chunks_exact(FRAME)).enumerate() {
        F::copy(part, to + FRAME * f, frame);
    }
}

#[inline(never)]
pub fn write<F: Form>(
    image: &[u8],
    session: &mut Session,
    clients: &mut [Client],
    target: Target,
    bytes: &[u8],
    tape: &mut [u64],
    orders: &mut u64,
) -> u64 {
    answered(orders, writing::<F>(image, session, clients, target, bytes, tape))
}

/// What a write does before its own words.
enum Before {
    Nothing,
    Pair(usize),
    Marked(usize),
}

fn writing<F: Form>(
    image: &[u8],
    session: &mut Session,
    clients: &mut [Client],
    target: Target,
    bytes: &[u8],
    tape: &mut [u64],
) -> Result<usize, u64> {
    let sizes = sizes_of(session);
    let sound = Sound::of(image, sizes)?;
    let length = bytes.len();
    if !is_true(&sound, session) {
        return Err(5);
    }
    let unused = unused_shares(clients, sizes.spares)?;
    let client = clients.get_mut(target.console as usize).ok_or(13u64)?;
    if target.level >= sizes.levels {
        return Err(6);
    }
    if target.frame >= sizes.frames {
        return Err(7);
    }
    let left = 256 * (sizes.frames - target.frame);
    if length == 0 || target.offset > 255 || length as u64 > left - target.offset {
        return Err(8);
    }
    let (level, frame, offset) = (target.level as usize, target.frame as usize, target.offset as usize);
    let kind = session.domain;
    let (frame_orders, turn_orders) = (frame_numbers(kind) / 3, 3 + flushed(kind, 1));
    let marks = session.dirty_blocks[level];
    let needs_copy = has(sound.own & !session.dirty_segments, level);
    let before = match (needs_copy, has(sound.paired, level)) {
        (false, _) => Before::Nothing,
        (true, false) => Before::Pair(sound.new_spare(sizes.spares as usize).ok_or(9u64)?),
        (true, true) => Before::Marked(sound.spare_of(level)),
    };
    if needs_copy {
        if client.used >= client.quota {
            return Err(14);
        }
        if sound.free(sizes.spares) <= unused - client.reserved.saturating_sub(client.used) {
            return Err(15);
        }
    }
    let copied = match before {
        Before::Nothing => 0,
        Before::Pair(_) => frame_orders * sizes.frames as usize + turn_orders + 1 + flushed(kind, 1),
        Before::Marked(_) => frame_orders * marks.count_ones() as usize + turn_orders,
    };
    let words = (offset + length - 1) / 8 - offset / 8 + 1;
    let tape = tape.get_mut(..3 * (copied + words)).ok_or(11u64)?;
    match before {
        Before::Nothing => {}
        Before::Pair(spare) => take::<F>(image, sizes, kind, level, spare, tape),
        Before::Marked(spare) => copy_marked::<F>(image, session, level, spare, tape),
    }
    if needs_copy {
        client.used += 1;
        turn(image, sound.active, level, &mut tape[3 * (copied - turn_orders)..3 * copied]);
        session.dirty_blocks[level] = 0;
    }
    let first = sizes.in_level(level, frame) + offset;
    span::<F>(image, first, bytes, &mut tape[3 * copied..]);
    session.dirty_segments |= 1 << level;
    let more = (offset + length - 1) / FRAME;
    session.dirty_blocks[level] |= u64::MAX >> (63 - more) << frame;
    Ok(copied + words)
}

fn byte_in_word(image: &[u8], at: usize, byte: u8) -> [u64; 3] {
    let (place, shift) = (at & !7, 8 * (at & 7));
    let word = word_at(image, place) & !(0xff << shift) | (byte as u64) << shift;
    [1, place as u64, word]
}

fn take<F: Form>(image: &[u8], sizes: Sizes, kind: u64, level: usize, spare: usize, tape: &mut [u64]) {
    let (pair, rest) = tape.split_at_mut(3 + 3 * flushed(kind, 1));
    put(pair, 0, byte_in_word(image, PAIRS + spare, level as u8));
    flushes(&mut pair[3..], PAIRS);
    let frames = sizes.frames as usize;
    let parts = rest.chunks_exact_mut(frame_numbers(kind)).take(frames);
    copy_all::<F>(parts, &image[sizes.in_level(level, 0)..], sizes.in_spare(spare, 0));
}

fn copy_marked<F: Form>(image: &[u8], session: &Session, level: usize, spare: usize, tape: &mut [u64]) {
    let (sizes, mut marks) = (sizes_of(session), session.dirty_blocks[level]);
    let mut parts = tape.chunks_exact_mut(frame_numbers(session.domain));
    while let (true, Some(part)) = (marks != 0, parts.next()) {
        let f = marks.trailing_zeros() as usize;
        F::copy(part, sizes.in_spare(spare, f), &image[sizes.in_level(level, f)..]);
        marks &= marks - 1;
    }
}

/// The orders of turning a level to state 2, with a flush if there is room for it.
fn turn(image: &[u8], active: usize, level: usize, tape: &mut [u64]) {
    let last = tape.len() - 3;
    put(tape, 0, [3, 0, 0]);
    put(tape, 1, byte_in_word(image, active + level, 2));
    flushes(&mut tape[6..last], active);
    put(&mut tape[last..], 0, [3, 0, 0]);
}

/// The stores of a span, in one pass: the part of a word before the first whole
/// one, the whole words as they come, the part behind the last.
fn span<F: Form>(image: &[u8], first: usize, bytes: &[u8], tape: &mut [u64]) {
    let (low, skipped) = (first & !7, first & 7);
    let (mut to, mut rest, mut tape) = (low, bytes, tape);
    if skipped != 0 {
        let (part, behind) = bytes.split_at(bytes.len().min(8 - skipped));
        put(tape, 0, part_of_word(image, low, skipped, part));
        (to, rest, tape) = (low + 8, behind, &mut tape[3..]);
    }
    let (words, part) = rest.as_chunks::<8>();
    F::store(tape, to, words);
    if !part.is_empty() {
        put(tape, words.len(), part_of_word(image, to + 8 * words.len(), 0, part));
    }
}

/// The store of a word with fewer than eight bytes changed.
fn part_of_word(image: &[u8], place: usize, skipped: usize, part: &[u8]) -> [u64; 3] {
    let (mut word, mut shift) = (word_at(image, place), 8 * skipped);
    for byte in part {
        word = word & !(0xff << shift) | (*byte as u64) << shift;
        shift += 8;
    }
    [1, place as u64, word]
}

#[inline(never)]
pub fn discard<F: Form>(
    image: &[u8],
    session: &Session,
    level: u64,
    tape: &mut [u64],
    orders: &mut u64,
) -> u64 {
    answered(orders, discarding::<F>(image, session, level, tape))
}

/// The words of a frame of zeros.
const ZEROS: [[u8; 8]; 32] = [[0; 8]; 32];

fn discarding<F: Form>(image: &[u8], session: &Session, level: u64, tape: &mut [u64]) -> Result<usize, u64> {
    let sizes = sizes_of(session);
    let sound = Sound::of(image, sizes)?;
    if !is_true(&sound, session) {
        return Err(5);
    }
    if level >= sizes.levels {
        return Err(6);
    }
    let level = level as usize;
    if !has(session.dirty_segments, level) {
        return Ok(0);
    }
    let mut marks = session.dirty_blocks[level];
    let count = 32 * marks.count_ones() as usize;
    let tape = tape.get_mut(..3 * count).ok_or(11u64)?;
    let (own, spared) = (sizes.in_level(level, 0), has(sound.spared, level));
    let saved = if spared { &image[sizes.in_spare(sound.spare_of(level), 0)..] } else { &[] };
    for part in tape.chunks_exact_mut(96) {
        let at = FRAME * marks.trailing_zeros() as usize;
        let words = if spared { saved[at..at + FRAME].as_chunks().0 } else { &ZEROS };
        F::store(part, own + at, words);
        marks &= marks - 1;
    }
    Ok(count)
}

#[inline(never)]
pub fn save(
    image: &[u8],
    session: &mut Session,
    clients: &mut [Client],
    tape: &mut [u64],
    orders: &mut u64,
) -> u64 {
    answered(orders, saving(image, session, clients, tape))
}

fn saving(
    image: &[u8],
    session: &mut Session,
    clients: &mut [Client],
    tape: &mut [u64],
) -> Result<usize, u64> {
    let sizes = sizes_of(session);
    let sound = Sound::of(image, sizes)?;
    if !is_true(&sound, session) {
        return Err(5);
    }
    unused_shares(clients, sizes.spares)?;
    let epoch = sound.epoch.checked_add(1).ok_or(10u64)?;
    let at = match session.domain {
        ADR => flush_marked(&session.dirty_blocks, sizes, tape)?,
        _ => 0,
    };
    let last_orders = 12 + flushed(session.domain, 2);
    let rest = tape[3 * at..].as_chunks_mut::<3>().0.get_mut(..last_orders).ok_or(11u64)?;
    let idle = EVEN_STATES + ODD_STATES - sound.active;
    let set = turned(sound.own | sound.spared | session.dirty_segments);
    let (states, epochs) = rest.split_at_mut(9);
    states[0] = [3, 0, 0];
    for i in 0..8 {
        states[1 + i] = [1, (idle + 8 * i) as u64, set >> i & ONES];
    }
    let (fence, store) = ([3, 0, 0], [1, 0, epoch]);
    match session.domain {
        ADR => epochs.copy_from_slice(&[[2, idle as u64, 0], fence, store, [2, 0, 0], fence]),
        _ => epochs.copy_from_slice(&[fence, store, fence]),
    }
    session.dirty_segments = 0;
    forget_used(clients);
    Ok(at + last_orders)
}

/// The flushes of the marked frames, if there is room for them and for the rest of a
/// save; how many there are.
fn flush_marked(marks: &[u64; 64], sizes: Sizes, tape: &mut [u64]) -> Result<usize, u64> {
    let (room, levels) = (tape.len() / 3, sizes.levels as usize);
    let marked = || marks.iter().map(|m| m.count_ones() as usize).sum::<usize>();
    if room < 4 * levels * sizes.frames as usize + 14 && room < 4 * marked() + 14 {
        return Err(11);
    }
    let mut at = 0;
    for (i, eight) in marks.as_chunks::<8>().0[..levels.div_ceil(8)].iter().enumerate() {
        if eight.iter().fold(0, |all, m| all | m) == 0 {
            continue;
        }
        for (k, &word) in eight.iter().enumerate() {
            let mut marks = word;
            while marks != 0 {
                let frame = sizes.in_level(8 * i + k, marks.trailing_zeros() as usize);
                flushes(&mut tape[3 * at..3 * at + 12], frame);
                at += 4;
                marks &= marks - 1;
            }
        }
    }
    Ok(at)
}

#[inline(never)]
pub fn replay<F: Form>(image: &mut [u8], tape: &[u64], n: u64, orders: &mut u64) -> u64 {
    answered(orders, playing::<F>(image, tape, n))
}

fn playing<F: Form>(image: &mut [u8], tape: &[u64], n: u64) -> Result<usize, u64> {
    if !image.len().is_multiple_of(LINE) {
        return Err(2);
    }
    if !tape.len().is_multiple_of(3) {
        return Err(12);
    }
    let played = n.min(tape.len() as u64 / 3) as usize;
    let part = &tape[..3 * played];
    if !F::good(part, image.len()) {
        return Err(12);
    }
    F::play(image, part);
    Ok(played)
}

#[inline(never)]
pub fn read(page: Page, image: &[u8], sizes: Sizes, level: u64, frame: u64, found: &mut Extent) -> u64 {
    let part = reading(page, image, sizes, level, frame);
    let (start, size) = part.unwrap_or(None).map_or((0, 0), |start| (start, FRAME));
    *found = Extent { start: start as u64, size: size as u64 };
    part.err().unwrap_or(0)
}

fn reading(page: Page, image: &[u8], sizes: Sizes, level: u64, frame: u64) -> Result<Option<usize>, u64> {
    let sound = Sound::of(image, sizes)?;
    if level >= sizes.levels {
        return Err(6);
    }
    if frame >= sizes.frames {
        return Err(7);
    }
    let (level, frame) = (level as usize, frame as usize);
    let state = if page == Page::Working { 1 } else { sound.states[level] };
    Ok(match state {
        0 => None,
        1 => Some(sizes.in_level(level, frame)),
        _ => Some(sizes.in_spare(sound.spare_of(level), frame)),
    })
}

#[inline(never)]
pub fn same(first: &[u8], second: &[u8], sizes: Sizes, same: &mut u64) -> u64 {
    let alike = likeness(first, second, sizes);
    *same = u64::from(alike.unwrap_or(false));
    alike.err().unwrap_or(0)
}

/// The empty levels first, all at once; then the saved bytes of the others.
fn likeness(first: &[u8], second: &[u8], sizes: Sizes) -> Result<bool, u64> {
    let (a, b) = (Sound::of(first, sizes)?, Sound::of(second, sizes)?);
    let mut set = a.own | a.spared;
    if set != b.own | b.spared {
        return Ok(false);
    }
    let length = FRAME * sizes.frames as usize;
    let start = |sound: &Sound, l: usize| match has(sound.own, l) {
        true => sizes.in_level(l, 0),
        false => sizes.in_spare(sound.spare_of(l), 0),
    };
    while set != 0 {
        let l = set.trailing_zeros() as usize;
        if first[start(&a, l)..][..length] != second[start(&b, l)..][..length] {
            return Ok(false);
        }
        set &= set - 1;
    }
    Ok(true)
}

/// The fast calls in one of the forms, behind the common interface.
#[derive(Clone, Copy, PartialEq, Eq, Debug)]
pub enum Fast {
    Indexed,
    Chunked,
}

impl Fast {
    pub const FORMS: [Fast; 2] = [Fast::Indexed, Fast::Chunked];
}

/// A call of a history in this form.
fn made<F: Form>(deed: &Deed, image: &[u8], lent: &mut Lent, tape: &mut [u64]) -> u64 {
    let Lent { session, clients, ops } = lent;
    match deed {
        Deed::Open(sizes, kind) => open::<F>(image, *sizes, *kind, session, clients, tape, ops),
        Deed::Write(target, bytes) => write::<F>(image, session, clients, *target, bytes, tape, ops),
        Deed::Discard(level) => discard::<F>(image, session, *level, tape, ops),
        Deed::Save => save(image, session, clients, tape, ops),
    }
}

impl Calls for Fast {
    fn lay_out(&self, image: &mut [u8], sizes: Sizes) -> u64 {
        format(image, sizes)
    }

    fn make(&self, deed: &Deed, image: &[u8], Given { card, run, tape }: Given) -> Answer {
        let mut lent = Lent::of(card, run);
        let number = match self {
            Fast::Indexed => made::<Indexed>(deed, image, &mut lent, tape),
            Fast::Chunked => made::<Chunked>(deed, image, &mut lent, tape),
        };
        lent.answer(number, card, run)
    }

    fn play(&self, image: &mut [u8], tape: &[u64], n: u64) -> Answer {
        let mut orders = 0;
        let number = match self {
            Fast::Indexed => replay::<Indexed>(image, tape, n, &mut orders),
            Fast::Chunked => replay::<Chunked>(image, tape, n, &mut orders),
        };
        Answer { number, orders }
    }

    fn read(&self, page: Page, image: &[u8], sizes: Sizes, level: u64, frame: u64) -> Part {
        let mut found = Extent { start: 0, size: 0 };
        let number = read(page, image, sizes, level, frame, &mut found);
        Part { number, start: found.start, length: found.size }
    }

    fn like(&self, first: &[u8], second: &[u8], sizes: Sizes) -> (u64, bool) {
        let mut alike = 0;
        let number = same(first, second, sizes, &mut alike);
        (number, alike == 1)
    }
}
