//! Images, cards, runs, tapes and calls of every kind, made from a fixed seed.
//!
//! Sound images (section 3) have any states, pairs and epochs and rubbish in
//! every byte that is not named, some levels with all stops off; damage of each kind
//! of refusal is put on top. Twins of a sound image have its saved bytes elsewhere.
//! Runs (section 5.7) likewise have any numbers that 13 does not refuse, or are
//! spoiled. Kinds of module are 0 and 1, sometimes others. Nothing here calls an
//! implementation.

use crate::book::{saved_bytes, state_of, Call};
use crate::calls::*;
use crate::prng::Rng;

/// States of the levels and pairs of the spares of a sound image.
#[derive(Clone, PartialEq, Eq, Debug)]
pub struct Metadata {
    pub states: Vec<u8>,
    pub pairs: Vec<u8>,
}

/// Every sound choice of states and pairs.
pub fn all_sound(sizes: Sizes) -> Vec<Metadata> {
    let mut found = vec![Metadata { states: vec![], pairs: vec![] }];
    for _ in 0..sizes.spares {
        found = found.iter().flat_map(|m| with_one_more_pair(m, sizes.levels as u8)).collect();
    }
    for level in 0..sizes.levels as u8 {
        let with_state = |m: &Metadata| {
            let states: &[u8] = if m.pairs.contains(&level) { &[1, 2] } else { &[0, 1] };
            states.iter().map(|s| add_state(m, *s)).collect::<Vec<_>>()
        };
        found = found.iter().flat_map(with_state).collect();
    }
    found
}

fn with_one_more_pair(metadata: &Metadata, levels: u8) -> Vec<Metadata> {
    let open = (0..levels).filter(|level| !metadata.pairs.contains(level));
    let pair = |byte| {
        let mut next = metadata.clone();
        next.pairs.push(byte);
        next
    };
    open.chain([UNPAIRED]).map(pair).collect()
}

fn add_state(metadata: &Metadata, state: u8) -> Metadata {
    let mut next = metadata.clone();
    next.states.push(state);
    next
}

/// An image of these metadata, the idle line filled with one byte, the rest
/// laid out with zeros and the given level and spare bytes.
pub fn image_of(sizes: Sizes, epoch: u64, metadata: &Metadata, idle: u8, data: &[u8]) -> Vec<u8> {
    let mut image = vec![0; sizes.image_length()];
    image[DATA..].copy_from_slice(data);
    set_metadata(&mut image, sizes, epoch, metadata);
    let line = if epoch.is_multiple_of(2) { ODD_STATES } else { EVEN_STATES };
    image[line..line + LINE].fill(idle);
    image
}

fn set_metadata(image: &mut [u8], sizes: Sizes, epoch: u64, metadata: &Metadata) {
    put_word(image, EPOCH, epoch);
    for (i, size) in [sizes.levels, sizes.spares, sizes.frames].into_iter().enumerate() {
        put_word(image, HEADER + WORD * i, size);
    }
    let line = if epoch.is_multiple_of(2) { EVEN_STATES } else { ODD_STATES };
    image[line..line + LINE].fill(0);
    image[line..line + metadata.states.len()].copy_from_slice(&metadata.states);
    image[PAIRS..PAIRS + LINE].fill(UNPAIRED);
    image[PAIRS..PAIRS + metadata.pairs.len()].copy_from_slice(&metadata.pairs);
}

/// Level and spare bytes with every word different and none zero.
pub fn distinct_data(sizes: Sizes) -> Vec<u8> {
    let words = (sizes.image_length() - DATA) / WORD;
    (1..=words as u64).flat_map(|i| (i * 0x0101_0101).to_le_bytes()).collect()
}

/// Level and spare bytes that are zero but for a few words, so that there are
/// few stages: of a single frame words 0, 7, 9 and 31 in a level, 0 and 9 in a
/// spare, in three lines; of more frames the first and the last word in a level
/// and the first in a spare, on both sides of a frame's end.
pub fn sparse_data(sizes: Sizes) -> Vec<u8> {
    let mut data = vec![0; sizes.image_length() - DATA];
    let in_levels = sizes.page_length() / FRAME;
    for (i, frame) in data.chunks_mut(FRAME).enumerate() {
        let words: &[usize] = match (sizes.frames, i < in_levels) {
            (1, true) => &[0, 7, 9, 31],
            (1, false) => &[0, 9],
            (_, true) => &[0, 31],
            (_, false) => &[0],
        };
        for word in words {
            frame[word * WORD] = (16 * i + word + 1) as u8;
        }
    }
    data
}

pub fn sizes(rng: &mut Rng, most: usize) -> Sizes {
    let mut one = || rng.range(1, most) as u64;
    Sizes::new(one(), one(), one())
}

/// Sizes at the edges of the words and of the range.
pub fn edge_sizes(rng: &mut Rng) -> Sizes {
    let mut one = || rng.pick(&[1, 1, 2, 7, 8, 9, 63, 64]);
    Sizes::new(one(), one(), one())
}

pub fn metadata(rng: &mut Rng, sizes: Sizes) -> Metadata {
    let levels = sizes.levels as usize;
    let pairs = pairs_of(rng, sizes, (0..levels as u8).collect());
    let state = |level: usize| {
        let paired = pairs.contains(&(level as u8));
        if paired {
            rng.pick(&[1, 2])
        } else {
            rng.pick(&[0, 1])
        }
    };
    let states = (0..levels).map(state).collect();
    Metadata { states, pairs }
}

/// Metadata in which these levels are empty and no others.
fn metadata_with(rng: &mut Rng, sizes: Sizes, empty: &[bool]) -> Metadata {
    let set = (0..sizes.levels as u8).filter(|level| !empty[*level as usize]).collect();
    let pairs = pairs_of(rng, sizes, set);
    let state = |(level, empty): (usize, &bool)| match pairs.contains(&(level as u8)) {
        true => rng.pick(&[1, 2]),
        false => u8::from(!empty),
    };
    let states = empty.iter().enumerate().map(state).collect();
    Metadata { states, pairs }
}

/// Any pairs of the spares with these levels.
fn pairs_of(rng: &mut Rng, sizes: Sizes, mut open: Vec<u8>) -> Vec<u8> {
    let often = rng.range(1, 4);
    let pair = |_| match open.is_empty() || rng.once_in(often) {
        true => UNPAIRED,
        false => open.swap_remove(rng.below(open.len())),
    };
    (0..sizes.spares).map(pair).collect()
}

/// Where the saved bytes of a level start; an empty one has none.
fn saved_at(metadata: &Metadata, sizes: Sizes, level: usize) -> Option<usize> {
    let paired = || metadata.pairs.iter().position(|paired| *paired as usize == level);
    match metadata.states[level] {
        0 => None,
        1 => Some(sizes.in_level(level, 0)),
        _ => paired().map(|spare| sizes.in_spare(spare, 0)),
    }
}

pub fn epoch(rng: &mut Rng) -> u64 {
    let any = rng.word();
    rng.pick(&[0, 1, 2, 3, any, any, u64::MAX - 2, u64::MAX - 1, u64::MAX])
}

/// Any image that opening serves, with rubbish wherever nothing is named.
pub fn sound_image(rng: &mut Rng, sizes: Sizes) -> Vec<u8> {
    let mut image = rng.bytes(sizes.image_length());
    let metadata = metadata(rng, sizes);
    set_metadata(&mut image, sizes, epoch(rng), &metadata);
    if rng.once_in(2) {
        like_spares_and_levels(rng, &mut image, sizes, &metadata);
    }
    if rng.once_in(2) {
        silence(rng, &mut image, sizes, &metadata);
    }
    idle_states(rng, &mut image);
    image
}

/// Makes the rubbish of the idle line states, or leaves it.
fn idle_states(rng: &mut Rng, image: &mut [u8]) {
    if rng.once_in(2) {
        let line = if image[EPOCH].is_multiple_of(2) { ODD_STATES } else { EVEN_STATES };
        image[line..line + LINE].iter_mut().for_each(|state| *state %= 3);
    }
}

/// Another image that is alike this sound one (section 13.1): the same saved bytes
/// and the same empty levels; other pairs, states 1 and 2 and epoch, the rest
/// rubbish.
pub fn alike(rng: &mut Rng, image: &[u8], sizes: Sizes) -> Vec<u8> {
    twin(rng, image, sizes, &empties(image, sizes))
}

/// Another image with the same saved bytes that differs from this sound one in its
/// empty levels: of those whose saved bytes are zeros some, one at least, are empty
/// in one image and silent in the other. None if there is no such level.
pub fn silent_twin(rng: &mut Rng, image: &[u8], sizes: Sizes) -> Option<Vec<u8>> {
    let saved = saved_bytes(image, sizes);
    let levels = saved.chunks(FRAME * sizes.frames as usize);
    let zeros: Vec<usize> =
        (0..).zip(levels).filter(|(_, saved)| is_zero(saved)).map(|(level, _)| level).collect();
    if zeros.is_empty() {
        return None;
    }
    let surely = rng.pick(&zeros);
    let mut empty = empties(image, sizes);
    for level in zeros {
        empty[level] ^= level == surely || rng.once_in(2);
    }
    Some(twin(rng, image, sizes, &empty))
}

fn is_zero(bytes: &[u8]) -> bool {
    bytes.iter().all(|byte| *byte == 0)
}

/// Which levels of a sound image are empty.
fn empties(image: &[u8], sizes: Sizes) -> Vec<bool> {
    (0..sizes.levels as usize).map(|level| state_of(image, level) == 0).collect()
}

/// Another image with the same saved bytes as this sound one, in which these levels
/// are empty, and no others.
fn twin(rng: &mut Rng, image: &[u8], sizes: Sizes, empty: &[bool]) -> Vec<u8> {
    let mut other = rng.bytes(sizes.image_length());
    let metadata = metadata_with(rng, sizes, empty);
    let length = FRAME * sizes.frames as usize;
    for (level, saved) in saved_bytes(image, sizes).chunks(length).enumerate() {
        if let Some(start) = saved_at(&metadata, sizes, level) {
            other[start..start + length].copy_from_slice(saved);
        }
    }
    set_metadata(&mut other, sizes, epoch(rng), &metadata);
    idle_states(rng, &mut other);
    other
}

/// Makes some levels silent: their saved bytes are zeros.
fn silence(rng: &mut Rng, image: &mut [u8], sizes: Sizes, metadata: &Metadata) {
    for level in 0..sizes.levels as usize {
        if let Some(start) = saved_at(metadata, sizes, level).filter(|_| rng.once_in(2)) {
            image[start..start + FRAME * sizes.frames as usize].fill(0);
        }
    }
}

/// Makes some paired spares equal to their levels, and some empty levels zero.
fn like_spares_and_levels(rng: &mut Rng, image: &mut [u8], sizes: Sizes, metadata: &Metadata) {
    let length = FRAME * sizes.frames as usize;
    for (spare, &level) in metadata.pairs.iter().enumerate() {
        if level != UNPAIRED && rng.once_in(2) {
            let from = sizes.in_level(level as usize, 0);
            image.copy_within(from..from + length, sizes.in_spare(spare, 0));
        }
    }
    for (level, state) in metadata.states.iter().enumerate() {
        if *state == 0 && rng.once_in(2) {
            image[sizes.in_level(level, 0)..][..length].fill(0);
        }
    }
}

/// Damages an image in one of every kind of way; the length may change too.
pub fn damage(rng: &mut Rng, image: &mut Vec<u8>, sizes: Sizes) {
    if image.len() < DATA + FRAME {
        return;
    }
    let (levels, spares) = (sizes.levels as usize, sizes.spares as usize);
    let byte = rng.word() as u8;
    let state = rng.pick(&[0, 1, 2, 3, 254, 255]);
    let any_level = rng.below(levels) as u8;
    let pair = rng.pick(&[0, any_level, levels as u8, 64, 254, 255]);
    match rng.below(10) {
        0 => image[rng.range(HEADER, HEADER + 23)] = byte,
        1 => put_word(image, HEADER + WORD * rng.below(3), rng.pick(&[0, 1, 64, 65, u64::MAX])),
        2 => image[rng.pick(&[EVEN_STATES, ODD_STATES]) + rng.below(levels)] = state,
        3 => image[rng.pick(&[EVEN_STATES, ODD_STATES]) + rng.below(LINE)] = state,
        4 => image[PAIRS + rng.below(spares)] = pair,
        5 => image[PAIRS + rng.below(LINE)] = pair,
        6 => image[EPOCH] ^= 1,
        7 => image.truncate(image.len() - rng.pick(&[1, 63, 64, 256])),
        8 => image.resize(image.len() + rng.pick(&[1, 63, 64, 256]), byte),
        _ => image.truncate(rng.pick(&[0, 1, 7, 8, 63, 64, 87, 88, 191, 319, 320, 511, 512, 576])),
    }
}

/// A kind of module that there is.
pub fn kind(rng: &mut Rng) -> u64 {
    rng.pick(&[ADR, EADR])
}

/// A kind that there is not.
pub fn odd_kind(rng: &mut Rng) -> u64 {
    rng.pick(&[2, 2, 3, 255, 1 << 32, (1 << 32) + 1, u64::MAX])
}

/// Any kind: one in eight is one that there is not.
pub fn any_kind(rng: &mut Rng) -> u64 {
    match rng.once_in(8) {
        true => odd_kind(rng),
        false => kind(rng),
    }
}

/// A card for an image of these sizes, of either kind: true, or untrue in one of
/// every way.
pub fn card(rng: &mut Rng, image: &[u8], sizes: Sizes) -> Card {
    let mut card = Card::fresh(sizes, kind(rng));
    let line = if image.first().is_some_and(|b| b % 2 == 1) { ODD_STATES } else { EVEN_STATES };
    let levels = sizes.levels.min(MOST) as usize;
    let frames = sizes.frames.min(MOST);
    let below = |end: u64| if end == 64 { u64::MAX } else { (1 << end) - 1 };
    for level in 0..levels {
        if image.get(line + level) != Some(&1) && rng.once_in(2) {
            card.touched |= 1 << level;
        }
        card.marks[level] = match rng.below(4) {
            0 => 0,
            1 => below(frames),
            _ => rng.word() & rng.word() & below(frames),
        };
    }
    if rng.once_in(4) {
        spoil_card(rng, &mut card);
    }
    card
}

fn spoil_card(rng: &mut Rng, card: &mut Card) {
    let bit = 1 << rng.below(64);
    match rng.below(7) {
        0 => card.touched |= bit,
        1 => card.marks[rng.below(64)] |= bit,
        2 => card.marks[rng.below(card.sizes.levels.clamp(1, 64) as usize)] |= bit,
        3 => card.sizes = odd_sizes(rng, card.sizes),
        4 => card.touched = rng.word(),
        5 => card.kind = odd_kind(rng),
        _ => *card = Card::zeros(),
    }
}

/// Sizes that differ from these in one or two, in or out of range.
pub fn odd_sizes(rng: &mut Rng, sizes: Sizes) -> Sizes {
    let other = rng.pick(&[0, 1, 2, 3, 64, 65, 1 << 32, 1 << 56, u64::MAX]);
    match rng.below(4) {
        0 => Sizes { levels: other, ..sizes },
        1 => Sizes { spares: other, ..sizes },
        2 => Sizes { frames: other, ..sizes },
        _ => Sizes { levels: sizes.spares, spares: sizes.levels, ..sizes },
    }
}

/// A run that 13 does not refuse: up to eight consoles, whose shares together
/// are no more than the spares. A limit may be above the spares; a taken count is
/// often at the share or at the limit, or beside them.
pub fn run(rng: &mut Rng, spares: u64) -> Vec<Console> {
    let consoles = if rng.once_in(3) { rng.range(0, MOST_CONSOLES) } else { rng.range(1, 3) };
    let mut left = spares;
    let console = |_| {
        let share = match rng.below(8) {
            0..=2 => 0,
            3 => left,
            _ => rng.range(0, left.div_ceil(2) as usize) as u64,
        };
        left -= share;
        let limit = rng.pick(&[share, share + 1, share + 2, spares, spares + 1, spares + 2, u64::MAX]);
        let near = [0, 0, 0, share.saturating_sub(1), share, share + 1, limit.saturating_sub(1), limit];
        Console { share, limit, taken: rng.pick(&near).min(limit) }
    };
    (0..consoles).map(console).collect()
}

/// The run of a history: one console for which every spare is kept; two or three
/// that may take every spare, one of which is kept for the last; or any that 13 does
/// not refuse.
pub fn own_run(rng: &mut Rng, sizes: Sizes) -> Vec<Console> {
    let spares = sizes.spares;
    match rng.below(3) {
        0 => vec![Console::alone(sizes)],
        1 => {
            let mut run = vec![Console::new(0, spares); rng.range(1, 2)];
            run.push(Console::new(1, spares));
            run
        }
        _ => run(rng, spares),
    }
}

/// Any run: one in four is that of one console, one in four is refused with 13,
/// mostly for one reason alone.
pub fn any_run(rng: &mut Rng, sizes: Sizes) -> Vec<Console> {
    let spares = sizes.spares.min(MOST);
    let mut run = run(rng, spares);
    match rng.below(4) {
        0 => run = vec![Console::alone(sizes)],
        1 => spoil_run(rng, &mut run, spares),
        _ => {}
    }
    run
}

/// More than eight consoles, a share or a taken count above its limit, shares
/// that sum above the spares, among them some whose sum in 64 bits does not.
fn spoil_run(rng: &mut Rng, run: &mut Vec<Console>, spares: u64) {
    run.resize(run.len().max(2), Console::new(0, 1));
    let shares: u64 = run.iter().map(|console| console.share).sum();
    let one = run.iter().position(|console| console.share > 0).unwrap_or(0);
    let wrapping = Console::new(1 << 63 | rng.word(), u64::MAX);
    match rng.below(7) {
        0 => run.resize(rng.range(MOST_CONSOLES + 1, MOST_CONSOLES + 2), Console::new(0, 1)),
        1 => {
            let share = run[one].share.max(1);
            run[one] = Console { share, limit: share - 1, taken: run[one].taken.min(share - 1) };
        }
        2 => {
            let limit = run[one].limit.min(u64::MAX - 1);
            run[one] = Console { limit, taken: rng.pick(&[limit + 1, limit + 1, u64::MAX]), ..run[one] };
        }
        3 => {
            run[one].share += spares - shares + 1;
            run[one].limit = run[one].limit.max(run[one].share);
        }
        4 => {
            let others = shares - run[0].share - run[1].share;
            let sum = rng.below(spares as usize + 1) as u64;
            let share = sum.wrapping_sub(others).wrapping_sub(wrapping.share);
            run[..2].copy_from_slice(&[wrapping, Console { share, ..wrapping }]);
        }
        5 => *run = vec![Console::new(1 << 61, u64::MAX); MOST_CONSOLES],
        _ => run.fill_with(|| Console { share: rng.word(), limit: rng.word(), taken: rng.word() }),
    }
}

/// The number of a console of this run, sometimes of none.
pub fn console(rng: &mut Rng, run: &[Console]) -> u64 {
    let consoles = run.len() as u64;
    match run.is_empty() || rng.once_in(16) {
        true => rng.pick(&[consoles, consoles + 1, 8, 1 << 32, u64::MAX]),
        false => rng.below(run.len()) as u64,
    }
}

/// A write's target and bytes, of console 0: mostly good, about half of them over
/// several frames where a level has them, sometimes out of range: offsets behind
/// the frame with every kind of length, no bytes, one byte more than is left of the
/// level, as many bytes as a level has from any place on. Of one write in eight the
/// bytes are zeros.
pub fn writing(rng: &mut Rng, sizes: Sizes) -> (Target, Vec<u8>) {
    let frames = sizes.frames.clamp(1, 64) as usize;
    let offset = match rng.below(4) {
        0 => 0,
        1 => FRAME - 1,
        _ => rng.below(FRAME),
    };
    let long = frames > 1 && !rng.once_in(3);
    let frame = rng.below(if long { frames - 1 } else { frames });
    let (own, left) = (FRAME - offset, FRAME * (frames - frame) - offset);
    let length = if long { long_span(rng, own, left) } else { short_span(rng, own) };
    let mut target = Target {
        console: 0,
        level: rng.below(sizes.levels.clamp(1, 64) as usize) as u64,
        frame: frame as u64,
        offset: offset as u64,
    };
    let mut bytes = rng.bytes(length);
    match rng.below(24) {
        0 => target.level = rng.pick(&[sizes.levels, sizes.levels + 1, 64, 1 << 32, u64::MAX]),
        1 => target.frame = rng.pick(&[sizes.frames, sizes.frames + 1, 64, 1 << 32, u64::MAX]),
        2 | 6 => {
            target.offset = rng.pick(&[256, 256, 256, 257, 1 << 32, u64::MAX - 255, u64::MAX]);
            bytes.truncate(rng.pick(&[0, 1, 8, usize::MAX, usize::MAX]));
        }
        3 => bytes.clear(),
        4 => bytes = rng.bytes(left + 1),
        5 => bytes = rng.bytes(FRAME * frames),
        _ => {}
    }
    if rng.once_in(8) {
        bytes.fill(0);
    }
    (target, bytes)
}

/// A length that stays in its frame, of which so many bytes are left.
fn short_span(rng: &mut Rng, own: usize) -> usize {
    match rng.below(6) {
        0 => 1,
        1 => own,
        2 => own.min(8),
        _ => rng.range(1, own),
    }
}

/// A length from the end of its frame, of which so many bytes are left, up to
/// the end of its level: ends of frames and one byte before and behind them,
/// two frames, three, and all that are left.
fn long_span(rng: &mut Rng, own: usize, left: usize) -> usize {
    let some_end = own + FRAME * rng.range(0, (left - own) / FRAME);
    match rng.below(8) {
        0 => own + 1,
        1 => left,
        2 => some_end,
        3 => some_end - 1,
        4 => (some_end + 1).min(left),
        5 => rng.range(own + 1, own + FRAME),
        6 => rng.range(own + 1, left.min(own + 2 * FRAME)),
        _ => rng.range(own + 1, left),
    }
    .max(1)
}

/// The level of a discard, mostly one that there is.
pub fn discarding(rng: &mut Rng, sizes: Sizes) -> u64 {
    let levels = sizes.levels.clamp(1, MOST);
    match rng.once_in(16) {
        true => rng.pick(&[levels, levels + 1, 64, 1 << 32, u64::MAX]),
        false => rng.below(levels as usize) as u64,
    }
}

/// The level of a discard on this card, as often one that is touched as any.
pub fn discarding_on(rng: &mut Rng, card: &Card, sizes: Sizes) -> u64 {
    let touched: Vec<u64> = (0..MOST).filter(|level| card.touched >> level & 1 == 1).collect();
    match touched.is_empty() || rng.once_in(2) {
        true => discarding(rng, sizes),
        false => rng.pick(&touched),
    }
}

/// Any call of a history with this run, whose openings are given this kind: good ones
/// mostly, refused ones of each kind too, some lent another run. One in six is a
/// discard, which is lent none.
pub fn call(rng: &mut Rng, sizes: Sizes, kind: u64, own: &[Console]) -> Call {
    if rng.once_in(6) {
        let room = sizes.discard_room();
        let tape = match rng.below(4) {
            0 => rng.below(room + 1),
            1 => rng.below(3),
            _ => room + rng.below(3),
        };
        return Call { deed: Deed::Discard(discarding(rng, sizes)), lent: None, tape };
    }
    let lent = rng.once_in(12).then(|| any_run(rng, sizes));
    let deed = match rng.below(20) {
        0..=12 => {
            let (target, bytes) = writing(rng, sizes);
            let console = console(rng, lent.as_deref().unwrap_or(own));
            Deed::Write(Target { console, ..target }, bytes)
        }
        13..=17 => Deed::Save,
        18 if rng.once_in(2) => Deed::Open(odd_sizes(rng, sizes), kind),
        19 if rng.once_in(4) => Deed::Open(sizes, odd_kind(rng)),
        _ => Deed::Open(sizes, kind),
    };
    let room = sizes.room();
    let tape = match rng.below(12) {
        0 => rng.below(room + 1),
        1 => rng.below(64),
        _ => room + rng.below(3),
    };
    Call { deed, lent, tape }
}

/// A tape for the player, well formed for an image of this length or not.
pub fn player_tape(rng: &mut Rng, length: usize) -> Vec<u64> {
    let orders = rng.below(12);
    let mut tape: Vec<u64> = (0..orders).flat_map(|_| good_order(rng, length)).collect();
    if !tape.is_empty() && rng.once_in(3) {
        let at = rng.below(tape.len());
        let near = length as u64;
        tape[at] = rng.pick(&[0, 1, 2, 3, 4, 7, 8, 63, 64, near, near - near.min(8), u64::MAX, u64::MAX - 7]);
    }
    if rng.once_in(8) {
        tape.push(rng.word());
    }
    tape
}

fn good_order(rng: &mut Rng, length: usize) -> [u64; 3] {
    let at = |rng: &mut Rng, step: usize| (rng.below((length / step).max(1)) * step) as u64;
    match rng.below(5) {
        0 => [3, 0, 0],
        1 => [2, at(rng, LINE), 0],
        _ => [1, at(rng, WORD), rng.word()],
    }
}
