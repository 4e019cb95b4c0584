//! The calls as an interface, with the layout (sections 1 and 2), the card and
//! the consoles' records (section 5) and the orders (section 6) that they speak
//! of.
//!
//! `Reference`, `Fast` and, through the C interface, the proved library all
//! stand behind `Calls`, so that the same explorer and the same comparisons run
//! over each of them.

use std::fmt;

pub const WORD: usize = 8;
pub const LINE: usize = 64;
pub const FRAME: usize = 256;
pub const EPOCH: usize = 0;
pub const HEADER: usize = 64;
pub const EVEN_STATES: usize = 128;
pub const ODD_STATES: usize = 192;
pub const PAIRS: usize = 256;
pub const DATA: usize = 512;
pub const MOST: u64 = 64;
pub const MOST_CONSOLES: usize = 8;
pub const UNPAIRED: u8 = 255;

/// The kinds of module: at a cut the cache of kind 0 may lose what was not flushed,
/// that of kind 1 keeps every store. There is no other.
pub const ADR: u64 = 0;
pub const EADR: u64 = 1;

/// M, S and B.
#[derive(Clone, Copy, PartialEq, Eq, Debug)]
pub struct Sizes {
    pub levels: u64,
    pub spares: u64,
    pub frames: u64,
}

impl Sizes {
    pub const fn new(levels: u64, spares: u64, frames: u64) -> Sizes {
        Sizes { levels, spares, frames }
    }

    pub fn in_range(self) -> bool {
        [self.levels, self.spares, self.frames].iter().all(|n| (1..=MOST).contains(n))
    }

    /// Image length. The sizes are in range.
    pub fn image_length(self) -> usize {
        DATA + FRAME * (self.frames * (self.levels + self.spares)) as usize
    }

    /// First byte of a frame of a level.
    pub fn in_level(self, level: usize, frame: usize) -> usize {
        DATA + FRAME * (level * self.frames as usize + frame)
    }

    /// First byte of a frame of a spare.
    pub fn in_spare(self, spare: usize, frame: usize) -> usize {
        self.in_level(self.levels as usize + spare, frame)
    }

    /// Bytes of one page of the book.
    pub fn page_length(self) -> usize {
        FRAME * (self.levels * self.frames) as usize
    }

    /// A tape of this many numbers is long enough for every opening.
    pub fn opening_room(self) -> usize {
        3 * (36 * (self.levels * self.frames) as usize + 1)
    }

    /// A tape of this many numbers is long enough for every write: a whole
    /// level copied to a new spare, and every word of it stored.
    pub fn write_room(self) -> usize {
        3 * (36 * self.frames as usize + 6 + FRAME / WORD * self.frames as usize)
    }

    /// A tape of this many numbers is long enough for every discard: every word of
    /// a level stored.
    pub fn discard_room(self) -> usize {
        3 * FRAME / WORD * self.frames as usize
    }

    /// A tape of this many numbers is long enough for every save.
    pub fn save_room(self) -> usize {
        3 * (4 * (self.levels * self.frames) as usize + 14)
    }

    /// A tape of this many numbers is long enough for every call.
    pub fn room(self) -> usize {
        self.opening_room().max(self.write_room()).max(self.discard_room()).max(self.save_room())
    }
}

impl fmt::Display for Sizes {
    fn fmt(&self, f: &mut fmt::Formatter) -> fmt::Result {
        write!(f, "{},{},{}", self.levels, self.spares, self.frames)
    }
}

/// The session card.
#[derive(Clone, Copy, PartialEq, Eq, Debug)]
pub struct Card {
    pub sizes: Sizes,
    pub touched: u64,
    pub marks: [u64; 64],
    /// The kind of the module, as the opening was given it.
    pub kind: u64,
}

impl Card {
    /// A card of these sizes and this kind with no bits set.
    pub const fn fresh(sizes: Sizes, kind: u64) -> Card {
        Card { sizes, touched: 0, marks: [0; 64], kind }
    }

    pub const fn zeros() -> Card {
        Card::fresh(Sizes::new(0, 0, 0), 0)
    }
}

/// The record of a console (section 5.7): how many spares are kept for it, how
/// many it may take, and how many it has taken since the last save or opening.
#[derive(Clone, Copy, PartialEq, Eq, Debug)]
pub struct Console {
    pub share: u64,
    pub limit: u64,
    pub taken: u64,
}

impl Console {
    /// A console that has taken nothing.
    pub const fn new(share: u64, limit: u64) -> Console {
        Console { share, limit, taken: 0 }
    }

    /// The console of a module that has no other: every spare is kept for it.
    pub const fn alone(sizes: Sizes) -> Console {
        Console::new(sizes.spares, sizes.spares)
    }
}

impl fmt::Display for Console {
    fn fmt(&self, f: &mut fmt::Formatter) -> fmt::Result {
        write!(f, "{}/{}/{}", self.share, self.limit, self.taken)
    }
}

/// Who writes, by the number of its record, and where the write starts; from
/// there it may run on to the end of its level.
#[derive(Clone, Copy, PartialEq, Eq, Debug)]
pub struct Target {
    pub console: u64,
    pub level: u64,
    pub frame: u64,
    pub offset: u64,
}

/// One order of a tape.
#[derive(Clone, Copy, PartialEq, Eq, Debug)]
pub enum Order {
    Store { place: usize, word: u64 },
    Flush { place: usize },
    Fence,
}

impl Order {
    pub fn numbers(self) -> [u64; 3] {
        match self {
            Order::Store { place, word } => [1, place as u64, word],
            Order::Flush { place } => [2, place as u64, 0],
            Order::Fence => [3, 0, 0],
        }
    }

    /// The order that three numbers stand for in an image of this length, or
    /// none if they are ill formed.
    pub fn from_numbers(numbers: &[u64], length: usize) -> Option<Order> {
        let [kind, place, word] = *numbers else { return None };
        if place >= length as u64 {
            return None;
        }
        let at = place as usize;
        match kind {
            1 if at.is_multiple_of(WORD) => Some(Order::Store { place: at, word }),
            2 if at.is_multiple_of(LINE) && word == 0 => Some(Order::Flush { place: at }),
            3 if at == 0 && word == 0 => Some(Order::Fence),
            _ => None,
        }
    }
}

/// The orders on a tape that holds only well-formed ones.
pub fn orders_of(tape: &[u64], length: usize) -> Option<Vec<Order>> {
    tape.chunks(3).map(|numbers| Order::from_numbers(numbers, length)).collect()
}

/// A number of section 14's list (0 served) and the orders, written or played.
#[derive(Clone, Copy, PartialEq, Eq, Debug)]
pub struct Answer {
    pub number: u64,
    pub orders: u64,
}

impl Answer {
    pub fn served(self) -> bool {
        self.number == 0
    }
}

/// A read's number and its part of the image; length 0 is no part.
#[derive(Clone, Copy, PartialEq, Eq, Debug)]
pub struct Part {
    pub number: u64,
    pub start: u64,
    pub length: u64,
}

impl Part {
    pub fn of(self, image: &[u8]) -> Option<&[u8]> {
        let start = usize::try_from(self.start).ok()?;
        let length = usize::try_from(self.length).ok()?;
        image.get(start..start.checked_add(length)?)
    }
}

/// Which page a read shows.
#[derive(Clone, Copy, PartialEq, Eq, Debug)]
pub enum Page {
    Working,
    Saved,
}

/// A call of a history (section 8.1): its arguments without image, card, run and
/// tape.
#[derive(Clone, PartialEq, Eq, Debug)]
pub enum Deed {
    /// With the sizes and the kind of the module.
    Open(Sizes, u64),
    Write(Target, Vec<u8>),
    /// The unsaved edits of a level are dropped.
    Discard(u64),
    Save,
}

impl fmt::Display for Deed {
    fn fmt(&self, f: &mut fmt::Formatter) -> fmt::Result {
        match self {
            Deed::Open(sizes, kind) => write!(f, "open {sizes} as kind {kind}"),
            Deed::Discard(level) => write!(f, "discard of level {level}"),
            Deed::Save => write!(f, "save"),
            Deed::Write(target, bytes) => {
                let (Target { console, level, frame, offset }, length) = (target, bytes.len());
                write!(
                    f,
                    "console {console} writes {length} bytes to level {level} frame {frame} at {offset}"
                )
            }
        }
    }
}

/// What a call of a history is lent besides the image.
pub struct Given<'a> {
    pub card: &'a mut Card,
    pub run: &'a mut [Console],
    pub tape: &'a mut [u64],
}

impl<'a> Given<'a> {
    pub fn of(card: &'a mut Card, run: &'a mut [Console], tape: &'a mut [u64]) -> Given<'a> {
        Given { card, run, tape }
    }
}

/// The calls of sections 4, 6 and 9 to 13. `make` makes a call of a history; a discard
/// leaves the run alone, and is lent its card like a write, so that one is noticed
/// that changes it.
pub trait Calls {
    fn lay_out(&self, image: &mut [u8], sizes: Sizes) -> u64;
    fn make(&self, deed: &Deed, image: &[u8], given: Given) -> Answer;
    fn play(&self, image: &mut [u8], tape: &[u64], n: u64) -> Answer;
    fn read(&self, page: Page, image: &[u8], sizes: Sizes, level: u64, frame: u64) -> Part;
    fn like(&self, first: &[u8], second: &[u8], sizes: Sizes) -> (u64, bool);
}

pub fn word_at(image: &[u8], place: usize) -> u64 {
    u64::from_le_bytes(image[place..place + WORD].try_into().expect("eight bytes"))
}

pub fn put_word(image: &mut [u8], place: usize, word: u64) {
    image[place..place + WORD].copy_from_slice(&word.to_le_bytes());
}
