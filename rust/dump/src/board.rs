//! A sound board, as the lines of SPECIFICATION 21.3 and 21.4 describe it.

use std::str::Split;

/// Bytes before level 0.
const METADATA: u64 = 512;
/// Bytes of a frame.
const FRAME: u64 = 256;
/// Most levels, spares and frames.
const MOST: usize = 64;

/// What the lines of a sound image say.
#[derive(Clone, PartialEq, Eq, Debug)]
pub struct Board {
    pub bytes: u64,
    pub mains: usize,
    pub spares: usize,
    pub frames: usize,
    pub epoch: u64,
    pub states_at: u64,
    pub levels: Vec<Level>,
}

/// What the line of a level says.
#[derive(Clone, PartialEq, Eq, Debug)]
pub struct Level {
    pub state: u64,
    /// The spare that is paired with the level.
    pub spare: Option<usize>,
    /// Where its saved bytes start; an empty level has none.
    pub saved: Option<u64>,
    /// Where the level itself starts.
    pub working: u64,
    /// The frames in which saved and working bytes differ, upward.
    pub differ: Vec<usize>,
    /// Not empty, and all saved bytes are 0.
    pub silent: bool,
}

impl Board {
    /// The board of a text: nothing unless every line is well formed, the image
    /// is sound, there is a line for each level in order, and the lines agree
    /// with one another as those of a sound image do.
    pub fn read(text: &str) -> Option<Board> {
        let mut lines = text.strip_suffix('\n')?.split('\n');
        let mut board = first_line(lines.next()?)?;
        board.levels = lines.enumerate().map(|(i, line)| level_line(i, line)).collect::<Option<_>>()?;
        (board.sizes_fit() && board.levels_fit()).then_some(board)
    }

    /// Where a level starts (2.3).
    fn level_at(&self, i: usize) -> u64 {
        METADATA + self.row_bytes() * i as u64
    }

    /// Where a spare starts (2.3).
    pub fn spare_at(&self, j: usize) -> u64 {
        self.level_at(self.mains + j)
    }

    /// The bytes of a level, or of a spare.
    pub fn row_bytes(&self) -> u64 {
        FRAME * self.frames as u64
    }

    /// The level that a spare is paired with.
    pub fn level_of(&self, j: usize) -> Option<usize> {
        self.levels.iter().position(|level| level.spare == Some(j))
    }

    fn sizes_fit(&self) -> bool {
        [self.mains, self.spares, self.frames].iter().all(|size| (1..=MOST).contains(size))
            && self.levels.len() == self.mains
            && self.bytes == self.spare_at(self.spares)
            && self.states_at == if self.epoch.is_multiple_of(2) { 0x80 } else { 0xc0 }
    }

    fn levels_fit(&self) -> bool {
        self.levels.iter().enumerate().all(|(i, level)| self.level_fits(i, level))
    }

    /// Whether a sound image can have this level there (2.3, 2.6, 3.1, 21.4).
    fn level_fits(&self, i: usize, level: &Level) -> bool {
        let saved = match (level.state, level.spare) {
            (0, None) => !level.silent && level.saved.is_none(),
            (1, _) => level.differ.is_empty() && level.saved == Some(level.working),
            (2, Some(j)) => level.saved == Some(self.spare_at(j)),
            _ => false,
        };
        saved
            && level.working == self.level_at(i)
            && level.spare.is_none_or(|j| j < self.spares && self.level_of(j) == Some(i))
            && level.differ.is_sorted_by(|a, b| a < b)
            && level.differ.iter().all(|&frame| frame < self.frames)
    }
}

/// The first line (21.3), without the levels.
fn first_line(line: &str) -> Option<Board> {
    let mut words = line.split(' ');
    let board = Board {
        bytes: decimal(value(&mut words, "bytes=")?)?,
        mains: number(value(&mut words, "mains=")?)?,
        spares: number(value(&mut words, "spares=")?)?,
        frames: number(value(&mut words, "frames=")?)?,
        epoch: decimal(value(&mut words, "epoch=")?)?,
        states_at: address(value(&mut words, "states-at=")?)?,
        levels: Vec::new(),
    };
    (value(&mut words, "refusal=")? == "0" && words.next().is_none()).then_some(board)
}

/// The line of level `i` (21.4).
fn level_line(i: usize, line: &str) -> Option<Level> {
    let rest = line.strip_suffix(" silent");
    let mut words = rest.unwrap_or(line).split(' ');
    let place = number(value(&mut words, "level=")?)?;
    let level = Level {
        state: decimal(value(&mut words, "state=")?)?,
        spare: unless("-", value(&mut words, "spare=")?, number)?,
        saved: unless("empty", value(&mut words, "saved=")?, address)?,
        working: address(value(&mut words, "working=")?)?,
        differ: unless("-", value(&mut words, "differ=")?, list)?.unwrap_or_default(),
        silent: rest.is_some(),
    };
    (place == i && words.next().is_none()).then_some(level)
}

/// What stands behind the key in the next word.
fn value<'a>(words: &mut Split<'a, char>, key: &str) -> Option<&'a str> {
    words.next()?.strip_prefix(key)
}

/// Nothing for the word that says so, else what is read.
fn unless<T>(nothing: &str, word: &str, read: fn(&str) -> Option<T>) -> Option<Option<T>> {
    if word == nothing {
        Some(None)
    } else {
        read(word).map(Some)
    }
}

/// A decimal number without leading zeros.
fn decimal(word: &str) -> Option<u64> {
    word.parse().ok().filter(|number: &u64| number.to_string() == word)
}

fn number(word: &str) -> Option<usize> {
    decimal(word)?.try_into().ok()
}

/// A hexadecimal number in lower case without leading zeros.
fn address(word: &str) -> Option<u64> {
    u64::from_str_radix(word, 16).ok().filter(|address| format!("{address:x}") == word)
}

fn list(word: &str) -> Option<Vec<usize>> {
    word.split(',').map(number).collect()
}
