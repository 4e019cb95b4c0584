//! The cut model (section 7).
//!
//! The rule for a module of kind 0: after a cut each line, on its own, holds its
//! bytes after some first part of the stores to it, and that part has at least every
//! store before a flush of the line that a later fence followed. A module of kind 1
//! holds every store played: there is one image. `Module` keeps, line by line,
//! the stages that are still permitted, and is fed one order after the other;
//! `permitted` is the same rule read off a finished list of orders. `groups`
//! checks the two against each other.

use crate::calls::{Order, EADR, LINE, WORD};
use crate::prng::{mix, Rng};
use std::collections::BTreeMap;

pub type LineBytes = [u8; LINE];

/// Contents that a line may hold, with their share of the image's hash.
#[derive(Clone, Copy, PartialEq, Eq)]
pub struct Stage {
    pub bytes: LineBytes,
    hash: u128,
}

impl Stage {
    fn new(line: usize, bytes: LineBytes) -> Stage {
        let fold = |seed: u64| {
            bytes.chunks(WORD).fold(mix(seed ^ line as u64), |sum, word| {
                let word = u64::from_le_bytes(word.try_into().expect("a line is whole words"));
                mix(sum ^ word).wrapping_mul(0x9e37_79b9_7f4a_7c15)
            })
        };
        let hash = (fold(0x0123_4567_89ab_cdef) as u128) << 64 | fold(0xfedc_ba98_7654_3210) as u128;
        Stage { bytes, hash }
    }

    fn stored(&self, line: usize, offset: usize, word: u64) -> Stage {
        let mut bytes = self.bytes;
        bytes[offset..offset + WORD].copy_from_slice(&word.to_le_bytes());
        Stage::new(line, bytes)
    }
}

/// A line that was stored to: its permitted stages, the oldest first. A store
/// of what was there already is counted and makes no stage here.
#[derive(Clone)]
struct Waiting {
    stages: Vec<Stage>,
    /// Stores since the oldest stage.
    stores: usize,
    /// The stage that stood at the last flush not yet followed by a fence, and
    /// the stores up to it.
    flushed: Option<(usize, usize)>,
}

/// The module behind its cache: what each line may hold after a cut now.
#[derive(Clone)]
pub struct Module {
    kind: u64,
    newest: Vec<u8>,
    hash: u128,
    lines: BTreeMap<usize, Waiting>,
}

impl Module {
    /// A module of this kind on which all is held.
    pub fn held(kind: u64, image: &[u8]) -> Module {
        let lines = image.chunks(LINE).enumerate();
        let hash = lines
            .map(|(line, bytes)| Stage::new(line, bytes.try_into().expect("whole lines")).hash)
            .fold(0u128, u128::wrapping_add);
        Module { kind, newest: image.to_vec(), hash, lines: BTreeMap::new() }
    }

    /// What the calls see: every order played.
    pub fn image(&self) -> &[u8] {
        &self.newest
    }

    pub fn play(&mut self, order: Order) {
        match order {
            Order::Store { place, word } => self.store(place / LINE, place % LINE, word),
            Order::Flush { place } => {
                if let Some(waiting) = self.lines.get_mut(&(place / LINE)) {
                    waiting.flushed = Some((waiting.stages.len() - 1, waiting.stores));
                }
            }
            Order::Fence => {
                for waiting in self.lines.values_mut() {
                    if let Some((floor, stores)) = waiting.flushed.take() {
                        waiting.stages.drain(..floor);
                        waiting.stores -= stores;
                    }
                }
                self.lines.retain(|_, waiting| waiting.stores > 0);
            }
        }
        if self.kind == EADR {
            self.lines.clear();
        }
    }

    fn store(&mut self, line: usize, offset: usize, word: u64) {
        let bytes = &mut self.newest[line * LINE..][..LINE];
        let held = || vec![Stage::new(line, (&*bytes).try_into().expect("a whole line"))];
        let empty = || Waiting { stages: held(), stores: 0, flushed: None };
        let waiting = self.lines.entry(line).or_insert_with(empty);
        waiting.stores += 1;
        let old = *waiting.stages.last().expect("a line has a stage");
        let new = old.stored(line, offset, word);
        if new != old {
            waiting.stages.push(new);
            self.hash = self.hash.wrapping_sub(old.hash).wrapping_add(new.hash);
            bytes.copy_from_slice(&new.bytes);
        }
    }

    /// The lines that may hold more than one thing, each contents once, the
    /// oldest first and the newest last.
    pub fn cut(&self) -> Cut<'_> {
        let mut lines = Vec::new();
        let mut hash = self.hash;
        for (&line, waiting) in &self.lines {
            let newest = *waiting.stages.last().expect("a line has a stage");
            let mut stages: Vec<Stage> = Vec::new();
            for stage in &waiting.stages {
                if *stage != newest && !stages.contains(stage) {
                    stages.push(*stage);
                }
            }
            if !stages.is_empty() {
                stages.push(newest);
                hash = hash.wrapping_sub(newest.hash);
                lines.push((line, stages));
            }
        }
        let oldest = lines.iter().map(|(line, _)| self.oldest_of(*line)).collect();
        let ways = self.lines.iter().map(|(&line, waiting)| (line, waiting.stores as u128 + 1)).collect();
        Cut { newest: &self.newest, fixed: hash, lines, oldest, ways }
    }

    /// The bytes that this line holds at its oldest permitted stage.
    fn oldest_of(&self, line: usize) -> LineBytes {
        self.lines[&line].stages[0].bytes
    }
}

/// The images that may stand after a cut.
pub struct Cut<'a> {
    newest: &'a [u8],
    /// Hash of the lines that hold one thing only.
    fixed: u128,
    lines: Vec<(usize, Vec<Stage>)>,
    oldest: Vec<LineBytes>,
    /// For each line how many first parts of its stores may have reached it.
    ways: Vec<(usize, u128)>,
}

impl Cut<'_> {
    /// How many images there are.
    pub fn count(&self) -> u128 {
        self.lines.iter().fold(1u128, |n, (_, stages)| n.saturating_mul(stages.len() as u128))
    }

    /// In how many ways they are left: one for each choice of a first part of
    /// the stores to every line. Ways that differ in stores of what was there
    /// already, or in stores undone by later ones, leave the same image.
    pub fn ways(&self) -> u128 {
        self.ways.iter().fold(1u128, |n, (_, ways)| n.saturating_mul(*ways))
    }

    /// Only the images in which this line holds its newest stage. After a store
    /// to the line these are the ones that were not permitted before it.
    pub fn with_newest(mut self, line: usize) -> Self {
        if let Some((_, stages)) = self.lines.iter_mut().find(|(at, _)| *at == line) {
            stages.drain(..stages.len() - 1);
        }
        self.ways.retain(|(at, _)| *at != line);
        self
    }

    /// Visits every image, until one visit fails. The visitor gets the image's
    /// hash and may ask for the image itself.
    pub fn for_all<E>(
        &self,
        mut visit: impl FnMut(u128, &dyn Fn() -> Vec<u8>) -> Result<(), E>,
    ) -> Result<(), E> {
        let mut chosen = vec![0; self.lines.len()];
        loop {
            self.visit(&chosen, &mut visit)?;
            let Some(i) = (0..chosen.len()).find(|&i| chosen[i] + 1 < self.lines[i].1.len()) else {
                return Ok(());
            };
            chosen[i] += 1;
            chosen[..i].fill(0);
        }
    }

    /// Visits the image in which each line that may hold more than one thing is at
    /// its stage of this place.
    pub fn visit<T>(&self, chosen: &[usize], visit: impl FnOnce(u128, &dyn Fn() -> Vec<u8>) -> T) -> T {
        let hash = self
            .lines
            .iter()
            .zip(chosen)
            .fold(self.fixed, |sum, ((_, stages), &i)| sum.wrapping_add(stages[i].hash));
        visit(hash, &|| self.image(|i| self.lines[i].1[chosen[i]].bytes))
    }

    /// Of each such line the place of its oldest stage, 0 if that was left out, and of
    /// its newest, the last.
    pub fn stages(&self) -> Vec<(usize, usize)> {
        let lines = self.lines.iter().zip(&self.oldest);
        let place = |stages: &[Stage], bytes| stages.iter().position(|stage| stage.bytes == bytes);
        lines.map(|((_, stages), oldest)| (place(stages, *oldest).unwrap_or(0), stages.len() - 1)).collect()
    }

    /// Every waiting line at its oldest stage.
    pub fn all_oldest(&self) -> Vec<u8> {
        self.image(|i| self.oldest[i])
    }

    /// Every store has reached the module.
    pub fn all_newest(&self) -> Vec<u8> {
        self.newest.to_vec()
    }

    pub fn sample(&self, rng: &mut Rng) -> Vec<u8> {
        let chosen: Vec<LineBytes> =
            self.lines.iter().map(|(_, stages)| stages[rng.below(stages.len())].bytes).collect();
        self.image(|i| chosen[i])
    }

    fn image(&self, bytes: impl Fn(usize) -> LineBytes) -> Vec<u8> {
        let mut image = self.newest.to_vec();
        for (i, (line, _)) in self.lines.iter().enumerate() {
            image[line * LINE..][..LINE].copy_from_slice(&bytes(i));
        }
        image
    }
}

/// The rule read off a list of orders played since `held` on a module of this kind:
/// what one line may hold, once for each first part of the stores to it, in their
/// order.
pub fn permitted(kind: u64, held: &[u8], orders: &[Order], line: usize) -> Vec<LineBytes> {
    let of_line = |place: usize| place / LINE == line;
    let stores_before = |end: usize| {
        let is_store = |o: &&Order| matches!(o, Order::Store { place, .. } if of_line(*place));
        orders[..end].iter().filter(is_store).count()
    };
    let fenced = |at: usize| orders[at..].contains(&Order::Fence);
    let flushed = (0..orders.len())
        .filter(|&at| matches!(orders[at], Order::Flush { place } if of_line(place)) && fenced(at))
        .map(stores_before)
        .max()
        .unwrap_or(0);
    let floor = if kind == EADR { stores_before(orders.len()) } else { flushed };
    let mut bytes: LineBytes = held[line * LINE..][..LINE].try_into().expect("a whole line");
    let mut all = vec![bytes];
    for order in orders {
        if let Order::Store { place, word } = *order {
            if of_line(place) {
                bytes[place % LINE..][..WORD].copy_from_slice(&word.to_le_bytes());
                all.push(bytes);
            }
        }
    }
    all.split_off(floor)
}
