//! The book (section 8): what a history is compared with.
//!
//! The book is fed each call's arguments without image, card, run and tape, and
//! of the answer only whether it was served. `pages_read` is what the two reads of
//! the implementation under test give, and `alike` what its likeness does; the
//! explorer compares them with the book.

use crate::calls::*;
use std::fmt;

/// One call of a history: its arguments, the run that it is lent, if that is not
/// the history's own as the last call left it, and the length of its tape.
#[derive(Clone, PartialEq, Eq, Debug)]
pub struct Call {
    pub deed: Deed,
    pub lent: Option<Vec<Console>>,
    pub tape: usize,
}

impl fmt::Display for Call {
    fn fmt(&self, f: &mut fmt::Formatter) -> fmt::Result {
        write!(f, "{}", self.deed)?;
        match &self.lent {
            None => Ok(()),
            Some(run) => write!(f, ", lent {}", told(run)),
        }
    }
}

/// A run in words: each record's share, limit and taken count.
pub fn told(run: &[Console]) -> String {
    let records: Vec<String> = run.iter().map(Console::to_string).collect();
    format!("[{}]", records.join(" "))
}

/// A page: M×B frames, and which levels are set, bit by bit. A level is set by
/// the first save that finds it touched (section 11.2). The others are empty:
/// their bytes are zero and the saved read has no part of them (section 12.2).
#[derive(Clone, PartialEq, Eq, Hash)]
pub struct Contents {
    pub frames: Vec<u8>,
    pub set: u64,
}

/// The two pages.
#[derive(Clone, PartialEq, Eq)]
pub struct Book {
    sizes: Sizes,
    pub working: Contents,
    pub saved: Contents,
}

impl Book {
    /// The book at the start of a history: both pages hold the saved bytes of
    /// the image handed to the starting opening, which serves it.
    pub fn start(image: &[u8], sizes: Sizes) -> Book {
        let set = (0..sizes.levels as usize).filter(|level| state_of(image, *level) != 0);
        let saved =
            Contents { frames: saved_bytes(image, sizes), set: set.fold(0, |all, level| all | 1 << level) };
        Book::of(saved, sizes)
    }

    /// A book both of whose pages hold this.
    pub fn of(page: Contents, sizes: Sizes) -> Book {
        Book { sizes, working: page.clone(), saved: page }
    }

    pub fn feed(&mut self, deed: &Deed, served: bool) {
        match deed {
            _ if !served => {}
            Deed::Open(..) => self.working.clone_from(&self.saved),
            Deed::Save => self.saved.clone_from(&self.working),
            Deed::Discard(level) => self.drop_edits(*level as usize),
            Deed::Write(target, bytes) => {
                self.put(*target, bytes);
                self.working.set |= 1 << target.level;
            }
        }
    }

    /// Puts the saved bytes of a level into the working page. A level that was
    /// written stays one that the next save sets.
    fn drop_edits(&mut self, level: usize) {
        let length = FRAME * self.sizes.frames as usize;
        let own = length * level..length * (level + 1);
        self.working.frames[own.clone()].copy_from_slice(&self.saved.frames[own]);
    }

    /// Puts bytes into the working page, one after the other, over the ends of
    /// frames. What a wrong call lets run over the end of its level has no place
    /// there and is left out; the reads show it.
    fn put(&mut self, target: Target, bytes: &[u8]) {
        let length = FRAME * self.sizes.frames as usize;
        let level = &mut self.working.frames[length * target.level as usize..][..length];
        let first = (FRAME as u64 * target.frame).saturating_add(target.offset);
        level.iter_mut().skip(first as usize).zip(bytes).for_each(|(at, byte)| *at = *byte);
    }
}

/// The active state of a level.
pub fn state_of(image: &[u8], level: usize) -> u8 {
    let states = if image[EPOCH].is_multiple_of(2) { EVEN_STATES } else { ODD_STATES };
    image[states + level]
}

/// The saved bytes of a sound image, by its active states and its pairs.
pub fn saved_bytes(image: &[u8], sizes: Sizes) -> Vec<u8> {
    let length = FRAME * sizes.frames as usize;
    let mut page = Vec::new();
    for level in 0..sizes.levels as usize {
        let paired = || (0..MOST as usize).find(|s| image[PAIRS + s] == level as u8);
        match state_of(image, level) {
            0 => page.resize(page.len() + length, 0),
            1 => page.extend_from_slice(&image[sizes.in_level(level, 0)..][..length]),
            _ => {
                let spare = paired().expect("a level in state 2 has a spare");
                page.extend_from_slice(&image[sizes.in_spare(spare, 0)..][..length]);
            }
        }
    }
    page
}

/// What the two reads give in every frame: the working page's bytes and the
/// saved page, with zeros where a level is empty and there is no part.
pub fn pages_read<C: Calls>(calls: &C, image: &[u8], sizes: Sizes) -> Result<(Vec<u8>, Contents), String> {
    let mut working = Vec::new();
    let mut saved = Contents { frames: Vec::new(), set: 0 };
    for level in 0..sizes.levels {
        let mut parts = 0;
        for frame in 0..sizes.frames {
            let read = |kind| {
                let part = calls.read(kind, image, sizes, level, frame);
                let told = || format!("{kind:?} read of {level},{frame} answers {part:?}");
                part.of(image).filter(|_| part.number == 0).ok_or_else(told)
            };
            match (read(Page::Working)?, read(Page::Saved)?) {
                (own, part) if own.len() == FRAME && [0, FRAME].contains(&part.len()) => {
                    working.extend_from_slice(own);
                    saved.frames.extend_from_slice(part);
                    saved.frames.resize(working.len(), 0);
                    parts += part.len() / FRAME;
                }
                _ => return Err(format!("a read of {level},{frame} gives another part than a frame")),
            }
        }
        match parts as u64 {
            0 => {}
            n if n == sizes.frames => saved.set |= 1 << level,
            _ => return Err(format!("the saved read has only some frames of level {level}")),
        }
    }
    Ok((working, saved))
}

/// Are two boards alike? Asked in both orders, which must be served and agree.
pub fn alike<C: Calls>(calls: &C, first: &[u8], second: &[u8], sizes: Sizes) -> Result<bool, String> {
    match (calls.like(first, second, sizes), calls.like(second, first, sizes)) {
        ((0, yes), (0, turned)) if yes == turned => Ok(yes),
        (answer, turned) => Err(format!("likeness answers {answer:?}, and turned round {turned:?}")),
    }
}
