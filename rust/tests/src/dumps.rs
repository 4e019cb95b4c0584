//! The texts of the dump (section 21), written from its rules on the reference's judge
//! of images, and wrong versions of them.
//!
//! `Texts` is what the dump asks of whatever makes its texts; `dumped` compares any
//! implementation of it with the good one here.

use crate::calls::*;
use crate::reference::{active_line, idle_line, Board, Level, Refusal};
use std::fmt::{Display, Write};

/// The texts of the dump, each with the refusal of the image that it tells of.
pub trait Texts {
    /// The image's own sizes (section 21.2).
    fn own_sizes(&self, image: &[u8]) -> Sizes;
    /// The lines of an image (sections 21.3 and 21.4).
    fn dump_text(&self, image: &[u8], sizes: Sizes) -> (u64, String);
    /// The line of two images (section 21.5).
    fn same_text(&self, a: &[u8], b: &[u8], sizes: Sizes) -> (u64, String);
}

/// Wrong rules that a reader could take for those of section 21: six of sizes and the
/// first line, twelve of a level's line, eleven of the comparison's, and one of the number
/// beside the texts.
#[derive(Clone, Copy, PartialEq, Eq, Debug)]
pub enum Fault {
    /// A size whose word is not wholly in the file is 0.
    SizesOfWholeWords,
    /// Sizes are printed by their lower 32 bits.
    SizesIn32Bits,
    /// The image is judged by its own sizes, not by those that are given.
    JudgedByOwnSizes,
    /// Of a file below 8 bytes the epoch is filled up with zeros.
    EpochFilledUp,
    /// The line of states is said to be there if its first byte is.
    LineByItsStart,
    /// The line of states is said to be there only if both are.
    LineByBoth,
    /// The states that are printed stand on the idle line.
    IdleStates,
    /// Addresses are in capitals.
    UpperCase,
    /// Addresses have at least three digits.
    PaddedAddresses,
    /// The saved bytes of every set level are said to stand in the level.
    SavedInLevel,
    /// A spare is named only where it is in use, in state 2.
    SpareInUseOnly,
    /// An empty level is compared with itself, so that nothing in it differs.
    EmptyNeverDiffers,
    /// A level in state 1 is compared with its spare, if it has one.
    DiffersFromSpare,
    /// Only the first frame that differs is listed.
    FirstFrameOnly,
    /// An empty level is called silent.
    EmptySilent,
    /// A level is called silent by its working bytes.
    SilentByWorking,
    /// A level is called silent by its first frame.
    SilentByFirstFrame,
    /// Only a level in state 1 is called silent.
    SilentInState1,
    /// The first unlike level is looked for by the place of its saved bytes in A.
    FirstByAddress,
    /// A level that is empty in one alone does not make the two unlike.
    EmptinessIgnored,
    /// Levels that are empty in one alone come before all that differ by bytes.
    EmptinessFirst,
    /// A level that is empty in one alone has no frame and no byte.
    EmptinessWithoutPlace,
    /// Unlike by emptiness only: the first byte is named.
    EmptinessAtFirstByte,
    /// What stands in an empty level is compared.
    EmptyByItsBytes,
    /// A level in state 1 is unlike one in state 2.
    StatesUnlike,
    /// The working bytes are compared.
    WorkingCompared,
    /// The byte is counted from the start of its level.
    ByteOfLevel,
    /// The highest unlike byte of the frame is named.
    LastByte,
    /// B is judged before A.
    SecondJudgedFirst,
    /// The number beside a text is 0, whatever the text says.
    NumberLeftOut,
}

impl Fault {
    pub const ALL: [Fault; 30] = [
        Fault::SizesOfWholeWords,
        Fault::SizesIn32Bits,
        Fault::JudgedByOwnSizes,
        Fault::EpochFilledUp,
        Fault::LineByItsStart,
        Fault::LineByBoth,
        Fault::IdleStates,
        Fault::UpperCase,
        Fault::PaddedAddresses,
        Fault::SavedInLevel,
        Fault::SpareInUseOnly,
        Fault::EmptyNeverDiffers,
        Fault::DiffersFromSpare,
        Fault::FirstFrameOnly,
        Fault::EmptySilent,
        Fault::SilentByWorking,
        Fault::SilentByFirstFrame,
        Fault::SilentInState1,
        Fault::FirstByAddress,
        Fault::EmptinessIgnored,
        Fault::EmptinessFirst,
        Fault::EmptinessWithoutPlace,
        Fault::EmptinessAtFirstByte,
        Fault::EmptyByItsBytes,
        Fault::StatesUnlike,
        Fault::WorkingCompared,
        Fault::ByteOfLevel,
        Fault::LastByte,
        Fault::SecondJudgedFirst,
        Fault::NumberLeftOut,
    ];
}

/// The texts by the rules, or by a wrong one.
#[derive(Clone, Copy)]
pub struct Dumps {
    pub fault: Option<Fault>,
}

/// A sound image and what its metadata say.
struct Side<'a> {
    image: &'a [u8],
    board: Board,
}

impl<'a> Side<'a> {
    fn of(image: &'a [u8], sizes: Sizes) -> Result<Side<'a>, Refusal> {
        Ok(Side { image, board: Board::of(image, sizes)? })
    }

    fn empty(&self, level: usize) -> bool {
        self.board.levels[level] == Level::Empty
    }

    /// A level's saved bytes, zeros if it is empty.
    fn saved(&self, level: usize) -> Vec<u8> {
        self.board.frames().flat_map(|frame| self.board.saved(self.image, level, frame)).collect()
    }

    /// The bytes that stand in a level.
    fn working(&self, level: usize) -> Vec<u8> {
        let Sizes { frames, .. } = self.board.sizes;
        self.image[self.board.sizes.in_level(level, 0)..][..FRAME * frames as usize].to_vec()
    }

    /// The bytes that stand in a spare.
    fn in_spare(&self, spare: usize) -> Vec<u8> {
        let Sizes { frames, .. } = self.board.sizes;
        self.image[self.board.sizes.in_spare(spare, 0)..][..FRAME * frames as usize].to_vec()
    }
}

/// A value, or `-` for none.
fn or_none(value: Option<impl Display>) -> String {
    value.map_or("-".to_string(), |value| value.to_string())
}

/// The word at a place, where bytes behind the file's end are 0.
fn word_filled_up(image: &[u8], place: usize) -> u64 {
    let mut word = [0; WORD];
    word.iter_mut().zip(image.iter().skip(place)).for_each(|(to, byte)| *to = *byte);
    u64::from_le_bytes(word)
}

impl Texts for Dumps {
    fn own_sizes(&self, image: &[u8]) -> Sizes {
        let [levels, spares, frames] = [0, 1, 2].map(|i| {
            let place = HEADER + WORD * i;
            match self.has(Fault::SizesOfWholeWords) && image.len() < place + WORD {
                true => 0,
                false => word_filled_up(image, place),
            }
        });
        Sizes::new(levels, spares, frames)
    }

    fn dump_text(&self, image: &[u8], sizes: Sizes) -> (u64, String) {
        let judged = if self.has(Fault::JudgedByOwnSizes) { self.own_sizes(image) } else { sizes };
        match Side::of(image, judged) {
            Err(refusal) => (self.number(refusal), self.first_line(image, sizes, refusal as u64)),
            Ok(side) => {
                let mut text = self.first_line(image, sizes, 0);
                (0..side.board.levels.len()).for_each(|level| text += &self.level_line(&side, level));
                (0, text)
            }
        }
    }

    fn same_text(&self, a: &[u8], b: &[u8], sizes: Sizes) -> (u64, String) {
        let first = Side::of(a, sizes).map_err(|refusal| (refusal, 'A'));
        let second = Side::of(b, sizes).map_err(|refusal| (refusal, 'B'));
        let refused =
            |(refusal, image)| (self.number(refusal), format!("refusal={} image={image}\n", refusal as u64));
        match (first, second) {
            (Err(_), Err(of_b)) if self.has(Fault::SecondJudgedFirst) => refused(of_b),
            (Err(refusal), _) | (_, Err(refusal)) => refused(refusal),
            (Ok(first), Ok(second)) => (0, self.same_line(&first, &second)),
        }
    }
}

impl Dumps {
    pub const fn good() -> Dumps {
        Dumps { fault: None }
    }

    pub const fn faulty(fault: Fault) -> Dumps {
        Dumps { fault: Some(fault) }
    }

    fn has(&self, fault: Fault) -> bool {
        self.fault == Some(fault)
    }

    fn number(&self, refusal: Refusal) -> u64 {
        match self.has(Fault::NumberLeftOut) {
            true => 0,
            false => refusal as u64,
        }
    }

    fn address(&self, place: usize) -> String {
        match self.fault {
            Some(Fault::UpperCase) => format!("{place:X}"),
            Some(Fault::PaddedAddresses) => format!("{place:03x}"),
            _ => format!("{place:x}"),
        }
    }

    fn first_line(&self, image: &[u8], sizes: Sizes, refusal: u64) -> String {
        let there = image.len() >= WORD || self.has(Fault::EpochFilledUp);
        let epoch = there.then(|| word_filled_up(image, EPOCH));
        let ends = |line: usize| match self.fault {
            Some(Fault::LineByItsStart) => line + 1,
            Some(Fault::LineByBoth) => ODD_STATES + LINE,
            _ => line + LINE,
        };
        let line = epoch.map(active_line).filter(|line| ends(*line) <= image.len());
        let [levels, spares, frames] =
            [sizes.levels, sizes.spares, sizes.frames].map(|size| match self.has(Fault::SizesIn32Bits) {
                true => u64::from(size as u32),
                false => size,
            });
        format!(
            "bytes={} mains={levels} spares={spares} frames={frames} epoch={} states-at={} refusal={refusal}\n",
            image.len(),
            or_none(epoch),
            or_none(line.map(|line| self.address(line))),
        )
    }

    fn level_line(&self, side: &Side, level: usize) -> String {
        let (board, own) = (&side.board, side.board.sizes.in_level(level, 0));
        let state = match self.has(Fault::IdleStates) {
            true => side.image[idle_line(word_at(side.image, EPOCH)) + level],
            false => board.levels[level].state(),
        };
        let spare = match board.levels[level] {
            Level::Own { .. } if self.has(Fault::SpareInUseOnly) => None,
            Level::Empty => None,
            Level::Own { spare } => spare,
            Level::InSpare { spare } => Some(spare),
        };
        let saved = match board.saved_start(level, 0) {
            None => "empty".to_string(),
            Some(_) if self.has(Fault::SavedInLevel) => self.address(own),
            Some(start) => self.address(start),
        };
        let mut line = format!("level={level} state={state} spare={} saved={saved}", or_none(spare));
        let silent = if self.is_silent(side, level) { " silent" } else { "" };
        writeln!(line, " working={} differ={}{silent}", self.address(own), self.differ(side, level))
            .expect("a string takes all");
        line
    }

    /// The frames in which saved and working bytes differ.
    fn differ(&self, side: &Side, level: usize) -> String {
        let (mut saved, working) = (side.saved(level), side.working(level));
        match (side.board.levels[level], self.fault) {
            (Level::Empty, Some(Fault::EmptyNeverDiffers)) => saved.clone_from(&working),
            (Level::Own { spare: Some(spare) }, Some(Fault::DiffersFromSpare)) => {
                saved = side.in_spare(spare);
            }
            _ => {}
        }
        let frames = saved.chunks(FRAME).zip(working.chunks(FRAME)).enumerate();
        let unlike = frames.filter(|(_, (saved, working))| saved != working);
        let most = if self.has(Fault::FirstFrameOnly) { 1 } else { usize::MAX };
        let list: Vec<String> = unlike.map(|(frame, _)| frame.to_string()).take(most).collect();
        or_none(Some(list.join(",")).filter(|list| !list.is_empty()))
    }

    /// Whether a level is set, to silence.
    fn is_silent(&self, side: &Side, level: usize) -> bool {
        let mut bytes = side.saved(level);
        match self.fault {
            Some(Fault::SilentByWorking) => bytes = side.working(level),
            Some(Fault::SilentByFirstFrame) => bytes.truncate(FRAME),
            _ => {}
        }
        let may_be = match side.board.levels[level] {
            Level::Empty => self.has(Fault::EmptySilent),
            Level::Own { .. } => true,
            Level::InSpare { .. } => !self.has(Fault::SilentInState1),
        };
        may_be && bytes.iter().all(|byte| *byte == 0)
    }

    fn same_line(&self, a: &Side, b: &Side) -> String {
        let mut levels: Vec<usize> = (0..a.board.levels.len()).collect();
        match self.fault {
            Some(Fault::FirstByAddress) => levels.sort_by_key(|level| a.board.saved_start(*level, 0)),
            Some(Fault::EmptinessFirst) => levels.sort_by_key(|level| a.empty(*level) == b.empty(*level)),
            _ => {}
        }
        for level in levels {
            let by_state = match self.fault {
                Some(Fault::EmptinessIgnored) => false,
                Some(Fault::StatesUnlike) => a.board.levels[level].state() != b.board.levels[level].state(),
                _ => a.empty(level) != b.empty(level),
            };
            let at = self.unlike_at(a, b, level);
            if by_state || at.is_some() {
                return self.unlike_line(level, at, by_state);
            }
        }
        "same=1\n".to_string()
    }

    /// The line of two images that this level makes unlike, by its byte there or by
    /// the states alone.
    fn unlike_line(&self, level: usize, at: Option<usize>, by_state: bool) -> String {
        let at = match self.fault {
            Some(Fault::EmptinessWithoutPlace) if by_state => None,
            Some(Fault::EmptinessAtFirstByte) => at.or(Some(0)),
            _ => at,
        };
        let byte = |at| if self.has(Fault::ByteOfLevel) { at } else { at % FRAME };
        let frame = or_none(at.map(|at| at / FRAME));
        format!("same=0 level={level} frame={frame} at={}\n", or_none(at.map(byte)))
    }

    /// The lowest byte of a level, counted from its start, that is not saved alike.
    fn unlike_at(&self, a: &Side, b: &Side, level: usize) -> Option<usize> {
        let [first, second] = [a, b].map(|side| match self.fault {
            Some(Fault::WorkingCompared) => side.working(level),
            Some(Fault::EmptyByItsBytes) if side.empty(level) => side.working(level),
            _ => side.saved(level),
        });
        let unlike = |at: &usize| first[*at] != second[*at];
        let lowest = (0..first.len()).find(unlike)?;
        match self.has(Fault::LastByte) {
            true => (0..FRAME).map(|byte| lowest / FRAME * FRAME + byte).rfind(unlike),
            false => Some(lowest),
        }
    }
}
