//! Reference implementation of every call over plain slices.
//!
//! Written from sections 2 to 6 and 9 to 14. The metadata are read into a
//! `Board` whose levels are an enum, so that an unsound image cannot be
//! represented; a call first makes its whole list of orders and the next card,
//! and only then touches the tape, so that a refusal changes nothing. Checked
//! against the bench cases P1 to P10 and L1 to L7 and the sheet of section 17
//! (`groups`, `long`, `benches`) and, by the explorer, against demand 3 (section
//! 15); the library is checked against it.

use crate::calls::*;
use std::ops::RangeInclusive;

/// Section 14's refusals by number; the first that applies in the order of its
/// call is given.
#[derive(Clone, Copy, PartialEq, Eq, Debug)]
pub enum Refusal {
    Size = 1,
    Length = 2,
    Foreign = 3,
    Unsound = 4,
    Card = 5,
    Level = 6,
    Frame = 7,
    Span = 8,
    Spares = 9,
    Epoch = 10,
    TapeShort = 11,
    TapeBad = 12,
    Consoles = 13,
    Limit = 14,
    Shares = 15,
}

/// The faults of section 18.1, which a reader could mistake for good work, and
/// worthless programs of section 18.2 or like them: three wrong rules for the
/// states that a save stores (section 11.2), five for long writes (section 10),
/// six for the spare that a write takes (section 3.4), eleven for consoles
/// (sections 5.7 and 10.10), nine for discards (sections 10.12 and 10.13), six for
/// the kinds of module and six for likeness (section 13).
#[derive(Clone, Copy, PartialEq, Eq, Debug)]
pub enum Fault {
    StateBeforeFence,
    MarksClearedAtSave,
    OpeningSkipsLevelToSpare,
    NewByIdleLine,
    /// A level in state 2 that nobody touched stays in state 2.
    SaveKeepsRestored,
    /// An empty level that nobody touched gets state 1.
    SaveSetsEmpty,
    /// A level in state 1 gets state 2.
    SaveTurnsOwnToSpare,
    /// Of the frames that a span meets only the first is marked: fault 5.
    MarksFirstFrameOnly,
    /// The frame behind those that a span meets is marked too: program 11.
    MarksOneFrameMore,
    /// Offset 256 is taken: program 12.
    TakesOffset256,
    /// As many bytes as a level has are taken from any frame on: program 13.
    TakesLevelFromAnyFrame,
    /// Only the words of a span's first frame are stored: program 14.
    StoresFirstFrameOnly,
    /// All words of every frame that a span meets are stored: program 15.
    StoresWholeFrames,
    /// The highest unpaired spare is taken, or, if all are paired, the highest
    /// whose level is in state 1: program 16.
    TakesHighest,
    /// The same, but only where all spares are paired.
    TakesHighestPaired,
    /// A paired spare is taken though one is unpaired: program 17.
    TakesPairedFirst,
    /// Where all are paired, the spare of a level in state 2: program 18.
    TakesSpareInUse,
    /// Where all are paired, the lowest whatever its level's state: program 19.
    TakesLowestPaired,
    /// The highest is taken if a number other than 0 stood on the tape.
    TakesByTape,
    /// A copying write is charged though its tape is too short.
    ChargesRefused,
    /// A copying write is not charged if its level has a spare and no mark.
    ChargesMarkedOnly,
    /// A save leaves the taken counts as they are.
    SaveKeepsTaken,
    /// So does an opening.
    OpeningKeepsTaken,
    /// 14 is judged after 15.
    LimitAfterShares,
    /// The writer's own unused share is kept from it like the others'.
    OwnShareKept,
    /// The spare of the level that is written does not count as free.
    OwnSpareNotFree,
    /// A console above its share makes up for others that are below theirs.
    OverdrawnShares,
    /// The shares are summed up in 64 bits.
    SharesWrap,
    /// Share and taken count are held against the limit in one record only: the
    /// writer's, or the first.
    JudgesOneRecord,
    /// A write judges its run after its span.
    RunAfterSpan,
    /// A discard clears the marks of its level: fault 6.
    DiscardClearsMarks,
    /// A discard leaves its level untouched: program 30.
    DiscardClearsTouch,
    /// A discard stores every frame of its level, marked or not: program 31.
    DiscardStoresAllFrames,
    /// A discard flushes the frames that it stores: program 32.
    DiscardFlushes,
    /// A discard stores zeros whatever was saved: program 33.
    DiscardsToZeros,
    /// A discard of an empty level stores what the first spare has: program 34.
    DiscardsEmptyFromSpare,
    /// A discard stores the last marked frame first: program 35.
    DiscardsDownward,
    /// A discard stores the marked frames of an untouched level too, from its spare.
    DiscardsUntouched,
    /// A discard of an untouched level asks for the tape of a touched one: program
    /// 36.
    DiscardRefusesUntouched,
    /// The last flush of a tape of kind 1 is left in it.
    KeepsAFlush,
    /// The first fence of a tape of kind 1 is left out like its flushes.
    DropsAFence,
    /// A card of kind 1 gives the tapes of kind 0.
    FlushesAll,
    /// Kind 2 is taken for kind 1.
    TakesKind2,
    /// An opening judges the kind after the run.
    KindAfterRun,
    /// A write leaves a card of kind 0.
    WriteForgetsKind,
    /// Boards of equal saved bytes are alike, whatever is empty, as up to 3.0.0: program
    /// 46.
    LikeByBytes,
    /// The second image's states are read on the line that is active in the first:
    /// program 47.
    LikeByFirstLine,
    /// Both images' states are read on their idle lines: program 47 again.
    LikeByIdleLines,
    /// A level in state 2 is unlike one in state 1: program 48.
    LikeByStates,
    /// Only levels that are empty in the first image must be so in the other: program
    /// 49.
    LikeByFirstEmpties,
    /// As many levels must be empty in both, and not the same ones.
    LikeByCount,
}

#[derive(Clone, Copy)]
pub struct Reference {
    pub fault: Option<Fault>,
}

impl Reference {
    pub const fn good() -> Reference {
        Reference { fault: None }
    }

    pub const fn faulty(fault: Fault) -> Reference {
        Reference { fault: Some(fault) }
    }

    fn has(&self, fault: Fault) -> bool {
        self.fault == Some(fault)
    }
}

/// A level as sound metadata tell it: states 0, 1 and 2 with their spares.
#[derive(Clone, Copy, PartialEq, Eq, Debug)]
pub(crate) enum Level {
    Empty,
    Own { spare: Option<usize> },
    InSpare { spare: usize },
}

impl Level {
    pub(crate) fn state(self) -> u8 {
        match self {
            Level::Empty => 0,
            Level::Own { .. } => 1,
            Level::InSpare { .. } => 2,
        }
    }
}

/// What the metadata of a sound image say.
pub(crate) struct Board {
    pub(crate) sizes: Sizes,
    epoch: u64,
    pub(crate) levels: Vec<Level>,
    /// The level of each spare.
    owners: Vec<Option<usize>>,
}

impl Board {
    /// The board of an image, or the lowest of the refusals 1 to 4.
    pub(crate) fn of(image: &[u8], sizes: Sizes) -> Result<Board, Refusal> {
        if !sizes.in_range() {
            return Err(Refusal::Size);
        }
        if image.len() != sizes.image_length() {
            return Err(Refusal::Length);
        }
        let named = [sizes.levels, sizes.spares, sizes.frames];
        if (0..3).any(|i| word_at(image, HEADER + WORD * i) != named[i]) {
            return Err(Refusal::Foreign);
        }
        Board::sound(image, sizes).ok_or(Refusal::Unsound)
    }

    fn sound(image: &[u8], sizes: Sizes) -> Option<Board> {
        let (levels, spares) = (sizes.levels as usize, sizes.spares as usize);
        let epoch = word_at(image, EPOCH);
        let states = &image[active_line(epoch)..][..LINE];
        let pairs = &image[PAIRS..][..LINE];
        if states[levels..].iter().any(|s| *s != 0) || pairs[spares..].iter().any(|p| *p != UNPAIRED) {
            return None;
        }
        let mut spare_of = vec![None; levels];
        let mut owners = vec![None; spares];
        for (spare, &level) in pairs[..spares].iter().enumerate() {
            if level == UNPAIRED {
                continue;
            }
            let level = level as usize;
            if level >= levels || spare_of[level].replace(spare).is_some() {
                return None;
            }
            owners[spare] = Some(level);
        }
        let read = |level: usize| match (states[level], spare_of[level]) {
            (0, None) => Some(Level::Empty),
            (1, spare) => Some(Level::Own { spare }),
            (2, Some(spare)) => Some(Level::InSpare { spare }),
            _ => None,
        };
        let levels = (0..levels).map(read).collect::<Option<Vec<_>>>()?;
        Some(Board { sizes, epoch, levels, owners })
    }

    pub(crate) fn frames(&self) -> std::ops::Range<usize> {
        0..self.sizes.frames as usize
    }

    /// The spares that are unpaired, upward.
    fn unpaired(&self) -> impl DoubleEndedIterator<Item = usize> + '_ {
        (0..self.owners.len()).filter(|spare| self.owners[*spare].is_none())
    }

    /// The spares whose level is in this state, upward.
    fn of_levels_in(&self, state: u8) -> impl DoubleEndedIterator<Item = usize> + '_ {
        let is = move |level: usize| self.levels[level].state() == state;
        (0..self.owners.len()).filter(move |spare| self.owners[*spare].is_some_and(is))
    }

    /// The new spare (section 3.4): the lowest that is unpaired; if all are
    /// paired, the lowest whose level is in state 1.
    fn new_spare(&self) -> Option<usize> {
        self.unpaired().next().or_else(|| self.of_levels_in(1).next())
    }

    /// How many spares are free (section 3.2).
    fn free(&self) -> usize {
        let in_use = |level: usize| self.levels[level].state() == 2;
        self.owners.iter().filter(|owner| !owner.is_some_and(in_use)).count()
    }

    /// A frame's saved bytes: zeros in an empty level (section 2.6).
    pub(crate) fn saved(&self, image: &[u8], level: usize, frame: usize) -> Vec<u8> {
        match self.saved_start(level, frame) {
            Some(start) => image[start..start + FRAME].to_vec(),
            None => vec![0; FRAME],
        }
    }

    /// Where a frame's saved bytes stand; nowhere in an empty level.
    pub(crate) fn saved_start(&self, level: usize, frame: usize) -> Option<usize> {
        match self.levels[level] {
            Level::Empty => None,
            Level::Own { .. } => Some(self.sizes.in_level(level, frame)),
            Level::InSpare { spare } => Some(self.sizes.in_spare(spare, frame)),
        }
    }

    fn card_is_true(&self, card: &Card) -> bool {
        let levels = self.levels.len();
        let beyond = |bits: u64, end: u64| end < 64 && bits >> end != 0;
        let touched = |level: usize| card.touched >> level & 1 == 1;
        !beyond(card.touched, self.sizes.levels)
            && card.marks[levels..].iter().all(|marks| *marks == 0)
            && card.marks.iter().all(|marks| !beyond(*marks, self.sizes.frames))
            && !(0..levels).any(|l| touched(l) && self.levels[l].state() == 1)
    }
}

pub(crate) fn active_line(epoch: u64) -> usize {
    if epoch.is_multiple_of(2) {
        EVEN_STATES
    } else {
        ODD_STATES
    }
}

pub(crate) fn idle_line(epoch: u64) -> usize {
    active_line(epoch ^ 1)
}

/// The orders of copying the frame at `from` to `to`.
fn copy(orders: &mut Vec<Order>, image: &[u8], from: usize, to: usize) {
    store_frame(orders, image, Some(from), to);
    flush_frame(orders, to);
}

/// The orders of filling the frame at `to` with zeros.
fn fill(orders: &mut Vec<Order>, to: usize) {
    store_frame(orders, &[], None, to);
    flush_frame(orders, to);
}

/// The stores of a frame's words at `to`, as they stand at `from`, or zeros.
fn store_frame(orders: &mut Vec<Order>, image: &[u8], from: Option<usize>, to: usize) {
    let word = |at| from.map_or(0, |from| word_at(image, from + at));
    orders.extend((0..FRAME).step_by(WORD).map(|at| Order::Store { place: to + at, word: word(at) }));
}

fn flush_frame(orders: &mut Vec<Order>, at: usize) {
    orders.extend((0..FRAME / LINE).map(|i| Order::Flush { place: at + LINE * i }));
}

/// The store that changes one byte of the image, in its word.
fn store_byte(image: &[u8], at: usize, byte: u8) -> Order {
    let place = at / WORD * WORD;
    let mut bytes = word_at(image, place).to_le_bytes();
    bytes[at % WORD] = byte;
    Order::Store { place, word: u64::from_le_bytes(bytes) }
}

fn marked(marks: u64) -> impl Iterator<Item = usize> {
    (0..64).filter(move |frame| marks >> frame & 1 == 1)
}

fn is_flush(order: &Order) -> bool {
    matches!(order, Order::Flush { .. })
}

/// Puts the orders at the tape's start, or refuses a tape that is too short.
fn put_on(tape: &mut [u64], orders: &[Order]) -> Result<Answer, Refusal> {
    let room = tape.get_mut(..3 * orders.len()).ok_or(Refusal::TapeShort)?;
    for (numbers, order) in room.chunks_mut(3).zip(orders) {
        numbers.copy_from_slice(&order.numbers());
    }
    Ok(Answer { number: 0, orders: orders.len() as u64 })
}

fn refused(refusal: Refusal) -> Answer {
    Answer { number: refusal as u64, orders: 0 }
}

/// What a served save and a served opening do to the records (sections 11.8 and
/// 9.8).
fn forget_taken(run: &mut [Console]) {
    run.iter_mut().for_each(|console| console.taken = 0);
}

/// The orders of a served write, the next card, and whether its console is
/// charged.
struct Written {
    orders: Vec<Order>,
    card: Card,
    charged: bool,
}

impl Reference {
    /// Refusal 5 of a kind that there is not.
    fn judge_kind(&self, kind: u64) -> Result<(), Refusal> {
        match kind <= EADR || (kind == 2 && self.has(Fault::TakesKind2)) {
            true => Ok(()),
            false => Err(Refusal::Card),
        }
    }

    /// Refusal 5 of a card.
    fn judge_card(&self, board: &Board, card: &Card) -> Result<(), Refusal> {
        match board.card_is_true(card) {
            true => self.judge_kind(card.kind),
            false => Err(Refusal::Card),
        }
    }

    /// The orders for a module of this kind: for kind 1 the stores and fences alone,
    /// in their order.
    fn for_kind(&self, kind: u64, mut orders: Vec<Order>) -> Vec<Order> {
        if kind == ADR || self.has(Fault::FlushesAll) {
            return orders;
        }
        let place = match self.fault {
            Some(Fault::KeepsAFlush) => orders.iter().rposition(is_flush),
            Some(Fault::DropsAFence) => orders.iter().position(|order| *order == Order::Fence),
            _ => None,
        };
        let mut at = 0..;
        orders.retain(|order| is_flush(order) == (at.next() == place));
        orders
    }

    /// Refusal 13 (section 5.7), of a write with its console's number.
    fn judge_run(&self, run: &[Console], spares: u64, writer: Option<u64>) -> Result<(), Refusal> {
        let shares: u128 = run.iter().map(|console| u128::from(console.share)).sum();
        let shares = if self.has(Fault::SharesWrap) { u128::from(shares as u64) } else { shares };
        let one = run.get(writer.unwrap_or(0) as usize).map_or(&[][..], std::slice::from_ref);
        let judged = if self.has(Fault::JudgesOneRecord) { one } else { run };
        let is_bad = |console: &Console| console.share > console.limit || console.taken > console.limit;
        let refuses = writer.is_some_and(|writer| writer >= run.len() as u64)
            || run.len() > MOST_CONSOLES
            || judged.iter().any(is_bad)
            || shares > u128::from(spares);
        match refuses {
            true => Err(Refusal::Consoles),
            false => Ok(()),
        }
    }

    /// How many spares count as free for a copying write to a level with this spare,
    /// or none. A fault that takes spares in use for new ones has them free.
    fn free(&self, board: &Board, image: &[u8], spare: Option<usize>) -> usize {
        let in_state_2_idle = |level| image[idle_line(board.epoch) + level] == 2;
        match self.fault {
            Some(Fault::NewByIdleLine) => {
                board.owners.iter().filter(|owner| !owner.is_some_and(in_state_2_idle)).count()
            }
            Some(Fault::TakesSpareInUse | Fault::TakesLowestPaired) => board.owners.len(),
            Some(Fault::OwnSpareNotFree) => board.free() - usize::from(spare.is_some()),
            _ => board.free(),
        }
    }

    /// Refusals 14 and 15 (section 10.10) of a copying write, where so many spares
    /// are free.
    fn judge_charge(&self, free: usize, run: &[Console], writer: usize) -> Result<(), Refusal> {
        let Console { limit, taken, .. } = run[writer];
        let others = run.iter().enumerate().filter(|(i, _)| *i != writer || self.has(Fault::OwnShareKept));
        let unused = |console: &Console| i128::from(console.share) - i128::from(console.taken);
        let least = if self.has(Fault::OverdrawnShares) { i128::MIN } else { 0 };
        let kept: i128 = others.map(|(_, console)| unused(console).max(least)).sum();
        match (taken >= limit, free as i128 <= kept) {
            (_, true) if self.has(Fault::LimitAfterShares) => Err(Refusal::Shares),
            (true, _) => Err(Refusal::Limit),
            (false, true) => Err(Refusal::Shares),
            (false, false) => Ok(()),
        }
    }

    fn opening(&self, image: &[u8], sizes: Sizes, kind: u64, run: &[Console]) -> Result<Vec<Order>, Refusal> {
        let board = Board::of(image, sizes)?;
        let kind_judged = self.judge_kind(kind);
        if !self.has(Fault::KindAfterRun) {
            kind_judged?;
        }
        self.judge_run(run, sizes.spares, None)?;
        kind_judged?;
        let mut orders = Vec::new();
        for (l, level) in board.levels.iter().enumerate() {
            for f in board.frames() {
                let own = sizes.in_level(l, f);
                match *level {
                    Level::Empty => fill(&mut orders, own),
                    Level::Own { spare: Some(spare) } if !self.has(Fault::OpeningSkipsLevelToSpare) => {
                        copy(&mut orders, image, own, sizes.in_spare(spare, f))
                    }
                    Level::Own { .. } => {}
                    Level::InSpare { spare } => copy(&mut orders, image, sizes.in_spare(spare, f), own),
                }
            }
        }
        orders.push(Order::Fence);
        Ok(self.for_kind(kind, orders))
    }

    fn writing(
        &self,
        image: &[u8],
        card: &Card,
        run: &[Console],
        target: Target,
        bytes: &[u8],
    ) -> Result<Written, Refusal> {
        let board = Board::of(image, card.sizes)?;
        self.judge_card(&board, card)?;
        let run_judged = self.judge_run(run, card.sizes.spares, Some(target.console));
        if !self.has(Fault::RunAfterSpan) {
            run_judged?;
        }
        if target.level >= card.sizes.levels {
            return Err(Refusal::Level);
        }
        if target.frame >= card.sizes.frames {
            return Err(Refusal::Frame);
        }
        if self.refuses_span(target, bytes.len(), card.sizes.frames) {
            return Err(Refusal::Span);
        }
        if self.has(Fault::RunAfterSpan) {
            run_judged?;
        }
        let level = target.level as usize;
        let (mut next, mut charged) = (*card, false);
        let mut orders = Vec::new();
        if let (Level::Own { spare }, 0) = (board.levels[level], card.touched >> level & 1) {
            match spare {
                None => self.take_spare(&mut orders, &board, image, level)?,
                Some(spare) => {
                    for f in marked(card.marks[level]) {
                        let from = board.sizes.in_level(level, f);
                        copy(&mut orders, image, from, board.sizes.in_spare(spare, f));
                    }
                }
            }
            self.judge_charge(self.free(&board, image, spare), run, target.console as usize)?;
            charged = !(self.has(Fault::ChargesMarkedOnly) && orders.is_empty());
            self.turn_to_spare(&mut orders, &board, image, level);
            next.marks[level] = 0;
        }
        self.store_span(&mut orders, image, board.sizes, target, bytes);
        next.touched |= 1 << level;
        for frame in self.frames_to_mark(target, bytes.len()) {
            next.marks[level] |= 1 << frame;
        }
        if self.has(Fault::WriteForgetsKind) {
            next.kind = ADR;
        }
        Ok(Written { orders: self.for_kind(card.kind, orders), card: next, charged })
    }

    /// Has a span no bytes, does it start behind its frame, or does it end behind
    /// its level? The frame is one of the level's, so at least one is left from
    /// it on; the sum cannot wrap.
    fn refuses_span(&self, target: Target, length: usize, frames: u64) -> bool {
        let last_offset = if self.has(Fault::TakesOffset256) { FRAME } else { FRAME - 1 };
        let left = if self.has(Fault::TakesLevelFromAnyFrame) { frames } else { frames - target.frame };
        let end = u128::from(target.offset) + length as u128;
        length == 0 || target.offset > last_offset as u64 || end > FRAME as u128 * u128::from(left)
    }

    /// The frames that a served span meets: those that hold one of its bytes. A
    /// fault may go beyond its level, but not beyond the bits of a word.
    fn frames_to_mark(&self, target: Target, length: usize) -> RangeInclusive<u64> {
        let last = target.frame + (target.offset + length as u64 - 1) / FRAME as u64;
        let last = match self.fault {
            Some(Fault::MarksFirstFrameOnly) => target.frame,
            Some(Fault::MarksOneFrameMore) => last + 1,
            _ => last,
        };
        target.frame..=last.min(MOST - 1)
    }

    /// The unflushed stores of the words that a served span meets, from one
    /// frame of the level to the next without a gap.
    fn store_span(&self, orders: &mut Vec<Order>, image: &[u8], sizes: Sizes, target: Target, bytes: &[u8]) {
        let start = sizes.in_level(target.level as usize, target.frame as usize);
        let first = start + target.offset as usize;
        let bytes = match self.has(Fault::StoresFirstFrameOnly) {
            true => &bytes[..bytes.len().min(FRAME - target.offset as usize)],
            false => bytes,
        };
        let step = if self.has(Fault::StoresWholeFrames) { FRAME } else { WORD };
        let (low, high) = (first / step * step, (first + bytes.len()).div_ceil(step) * step);
        let mut part = image[low..high].to_vec();
        part[first - low..][..bytes.len()].copy_from_slice(bytes);
        orders.extend(
            (0..part.len()).step_by(WORD).map(|i| Order::Store { place: low + i, word: word_at(&part, i) }),
        );
    }

    /// Pairs the level with the new spare and copies all its frames there.
    fn take_spare(
        &self,
        orders: &mut Vec<Order>,
        board: &Board,
        image: &[u8],
        level: usize,
    ) -> Result<(), Refusal> {
        let spare = self.spare_to_take(board, image).ok_or(Refusal::Spares)?;
        orders.push(store_byte(image, PAIRS + spare, level as u8));
        orders.push(Order::Flush { place: PAIRS });
        for f in board.frames() {
            copy(orders, image, board.sizes.in_level(level, f), board.sizes.in_spare(spare, f));
        }
        Ok(())
    }

    /// The new spare, or what a fault takes for it.
    fn spare_to_take(&self, board: &Board, image: &[u8]) -> Option<usize> {
        let lowest_unpaired = board.unpaired().next();
        let highest_of_levels = || board.of_levels_in(1).next_back();
        match self.fault {
            Some(Fault::NewByIdleLine) => lowest_unpaired.or_else(|| {
                let in_state_1 = |level| image[idle_line(board.epoch) + level] == 1;
                board.owners.iter().position(|owner| owner.is_some_and(in_state_1))
            }),
            Some(Fault::TakesHighest) => board.unpaired().next_back().or_else(highest_of_levels),
            Some(Fault::TakesHighestPaired) => lowest_unpaired.or_else(highest_of_levels),
            Some(Fault::TakesPairedFirst) => board.of_levels_in(1).next().or(lowest_unpaired),
            Some(Fault::TakesSpareInUse) => lowest_unpaired.or_else(|| board.of_levels_in(2).next()),
            Some(Fault::TakesLowestPaired) => lowest_unpaired.or(Some(0)),
            _ => board.new_spare(),
        }
    }

    /// What a fault makes of the reference where these numbers stood on the tape.
    fn with_tape(&self, tape: &[u64]) -> Reference {
        match self.has(Fault::TakesByTape) && tape.iter().any(|number| *number != 0) {
            true => Reference::faulty(Fault::TakesHighest),
            false => *self,
        }
    }

    /// The fence after the copy and the durable turn of the level to state 2.
    fn turn_to_spare(&self, orders: &mut Vec<Order>, board: &Board, image: &[u8], level: usize) {
        let line = active_line(board.epoch);
        let store = store_byte(image, line + level, 2);
        let (first, second) = match self.has(Fault::StateBeforeFence) {
            false => (Order::Fence, store),
            true => (store, Order::Fence),
        };
        orders.extend([first, second, Order::Flush { place: line }, Order::Fence]);
    }

    /// The orders of a discard (section 10.12) and the card that it leaves, which
    /// is the one that it got (section 10.13).
    fn discarding(&self, image: &[u8], card: &Card, level: u64) -> Result<(Vec<Order>, Card), Refusal> {
        let board = Board::of(image, card.sizes)?;
        self.judge_card(&board, card)?;
        if level >= card.sizes.levels {
            return Err(Refusal::Level);
        }
        let level = level as usize;
        let mut orders = Vec::new();
        if card.touched >> level & 1 == 1 || self.has(Fault::DiscardsUntouched) {
            for f in self.frames_to_discard(card.marks[level], board.frames().len()) {
                let own = board.sizes.in_level(level, f);
                store_frame(&mut orders, image, self.discard_from(&board, level, f), own);
                if self.has(Fault::DiscardFlushes) {
                    flush_frame(&mut orders, own);
                }
            }
        }
        let mut next = *card;
        match self.fault {
            Some(Fault::DiscardClearsMarks) => next.marks[level] = 0,
            Some(Fault::DiscardClearsTouch) => next.touched &= !(1 << level),
            _ => {}
        }
        Ok((self.for_kind(card.kind, orders), next))
    }

    /// The frames that a discard of a touched level with these marks stores.
    fn frames_to_discard(&self, marks: u64, frames: usize) -> Vec<usize> {
        match self.fault {
            Some(Fault::DiscardStoresAllFrames) => (0..frames).collect(),
            Some(Fault::DiscardsDownward) => (0..frames).rev().filter(|f| marks >> f & 1 == 1).collect(),
            _ => marked(marks).collect(),
        }
    }

    /// Where the words stand that a discard stores in a frame: in the spare; in an
    /// empty level nowhere, they are zeros. Only a fault comes to a level in state 1.
    fn discard_from(&self, board: &Board, level: usize, frame: usize) -> Option<usize> {
        match board.levels[level] {
            _ if self.has(Fault::DiscardsToZeros) => None,
            Level::Empty if self.has(Fault::DiscardsEmptyFromSpare) => Some(board.sizes.in_spare(0, frame)),
            Level::Own { spare: Some(spare) } => Some(board.sizes.in_spare(spare, frame)),
            _ => board.saved_start(level, frame),
        }
    }

    fn saving(&self, image: &[u8], card: &Card, run: &[Console]) -> Result<(Vec<Order>, Card), Refusal> {
        let board = Board::of(image, card.sizes)?;
        self.judge_card(&board, card)?;
        self.judge_run(run, card.sizes.spares, None)?;
        let epoch = board.epoch.checked_add(1).ok_or(Refusal::Epoch)?;
        let mut orders = Vec::new();
        for (l, marks) in card.marks.iter().enumerate() {
            for f in marked(*marks) {
                flush_frame(&mut orders, board.sizes.in_level(l, f));
            }
        }
        orders.push(Order::Fence);
        let mut states = [0; LINE];
        for (l, level) in board.levels.iter().enumerate() {
            states[l] = self.saved_state(*level, card.touched >> l & 1 == 1);
        }
        let idle = idle_line(board.epoch);
        orders.extend(
            (0..LINE).step_by(WORD).map(|i| Order::Store { place: idle + i, word: word_at(&states, i) }),
        );
        orders.extend([Order::Flush { place: idle }, Order::Fence]);
        orders.push(Order::Store { place: EPOCH, word: epoch });
        orders.extend([Order::Flush { place: EPOCH }, Order::Fence]);
        let mut next = *card;
        next.touched = 0;
        if self.has(Fault::MarksClearedAtSave) {
            next.marks = [0; 64];
        }
        Ok((self.for_kind(card.kind, orders), next))
    }

    /// The state that a save stores for a level: 0 for an empty one that is
    /// not touched, 1 for every other.
    fn saved_state(&self, level: Level, touched: bool) -> u8 {
        match level {
            _ if touched => 1,
            Level::Empty if self.has(Fault::SaveSetsEmpty) => 1,
            Level::Empty => 0,
            Level::Own { .. } if self.has(Fault::SaveTurnsOwnToSpare) => 2,
            Level::InSpare { .. } if self.has(Fault::SaveKeepsRestored) => 2,
            Level::Own { .. } | Level::InSpare { .. } => 1,
        }
    }
}

/// Likeness (section 13.1): the same levels are empty, and all saved bytes agree.
impl Reference {
    fn likeness(&self, first: &[u8], second: &[u8], sizes: Sizes) -> Result<bool, Refusal> {
        let (a, b) = (Board::of(first, sizes)?, Board::of(second, sizes)?);
        let (own, others) = match self.fault {
            Some(Fault::LikeByFirstLine) => (active_line(a.epoch), active_line(a.epoch)),
            Some(Fault::LikeByIdleLines) => (idle_line(a.epoch), idle_line(b.epoch)),
            _ => (active_line(a.epoch), active_line(b.epoch)),
        };
        let levels = a.levels.len();
        let agree = |l| a.frames().all(|f| a.saved(first, l, f) == b.saved(second, l, f));
        let empties_agree = self.empties_agree(&first[own..][..levels], &second[others..][..levels]);
        Ok(empties_agree && (0..levels).all(agree))
    }

    /// Are the same levels in state 0? Which of the other states a level has makes no
    /// difference.
    fn empties_agree(&self, first: &[u8], second: &[u8]) -> bool {
        let count = |states: &[u8]| states.iter().filter(|state| **state == 0).count();
        let mut both = first.iter().zip(second);
        match self.fault {
            Some(Fault::LikeByBytes) => true,
            Some(Fault::LikeByStates) => first == second,
            Some(Fault::LikeByFirstEmpties) => both.all(|(a, b)| *a != 0 || *b == 0),
            Some(Fault::LikeByCount) => count(first) == count(second),
            _ => both.all(|(a, b)| (*a == 0) == (*b == 0)),
        }
    }
}

/// The orders that the player is to play.
fn playing(image: &[u8], tape: &[u64], n: u64) -> Result<Vec<Order>, Refusal> {
    if !image.len().is_multiple_of(LINE) {
        return Err(Refusal::Length);
    }
    if !tape.len().is_multiple_of(3) {
        return Err(Refusal::TapeBad);
    }
    let played = n.min(tape.len() as u64 / 3) as usize;
    orders_of(&tape[..3 * played], image.len()).ok_or(Refusal::TapeBad)
}

fn reading(page: Page, image: &[u8], sizes: Sizes, level: u64, frame: u64) -> Result<Part, Refusal> {
    let board = Board::of(image, sizes)?;
    if level >= sizes.levels {
        return Err(Refusal::Level);
    }
    if frame >= sizes.frames {
        return Err(Refusal::Frame);
    }
    let (level, frame) = (level as usize, frame as usize);
    let start = match page {
        Page::Working => Some(sizes.in_level(level, frame)),
        Page::Saved => board.saved_start(level, frame),
    };
    Ok(match start {
        Some(start) => Part { number: 0, start: start as u64, length: FRAME as u64 },
        None => Part { number: 0, start: 0, length: 0 },
    })
}

/// The calls of a history: their orders on the tape, and what a served one leaves in
/// card and run.
impl Reference {
    fn open(
        &self,
        image: &[u8],
        sizes: Sizes,
        kind: u64,
        card: &mut Card,
        run: &mut [Console],
        tape: &mut [u64],
    ) -> Result<Answer, Refusal> {
        let answer = self.opening(image, sizes, kind, run).and_then(|orders| put_on(tape, &orders));
        *card = if answer.is_ok() { Card::fresh(sizes, kind) } else { Card::zeros() };
        if answer.is_ok() && !self.has(Fault::OpeningKeepsTaken) {
            forget_taken(run);
        }
        answer
    }

    fn write(
        &self,
        image: &[u8],
        card: &mut Card,
        run: &mut [Console],
        target: Target,
        bytes: &[u8],
        tape: &mut [u64],
    ) -> Result<Answer, Refusal> {
        let written = self.with_tape(tape).writing(image, card, run, target, bytes)?;
        let answer = put_on(tape, &written.orders);
        if written.charged && (answer.is_ok() || self.has(Fault::ChargesRefused)) {
            run[target.console as usize].taken += 1;
        }
        if answer.is_ok() {
            *card = written.card;
        }
        answer
    }

    fn discard(
        &self,
        image: &[u8],
        card: &mut Card,
        level: u64,
        tape: &mut [u64],
    ) -> Result<Answer, Refusal> {
        let (orders, next) = self.discarding(image, card, level)?;
        let marks = card.marks[level as usize].count_ones() as usize;
        if self.has(Fault::DiscardRefusesUntouched) && tape.len() < 3 * FRAME / WORD * marks {
            return Err(Refusal::TapeShort);
        }
        let answer = put_on(tape, &orders)?;
        *card = next;
        Ok(answer)
    }

    fn save(
        &self,
        image: &[u8],
        card: &mut Card,
        run: &mut [Console],
        tape: &mut [u64],
    ) -> Result<Answer, Refusal> {
        let (orders, next) = self.saving(image, card, run)?;
        let answer = put_on(tape, &orders)?;
        *card = next;
        if !self.has(Fault::SaveKeepsTaken) {
            forget_taken(run);
        }
        Ok(answer)
    }
}

impl Calls for Reference {
    fn lay_out(&self, image: &mut [u8], sizes: Sizes) -> u64 {
        if !sizes.in_range() {
            return Refusal::Size as u64;
        }
        if image.len() != sizes.image_length() {
            return Refusal::Length as u64;
        }
        image.fill(0);
        for (i, size) in [sizes.levels, sizes.spares, sizes.frames].into_iter().enumerate() {
            put_word(image, HEADER + WORD * i, size);
        }
        image[PAIRS..PAIRS + LINE].fill(UNPAIRED);
        0
    }

    fn make(&self, deed: &Deed, image: &[u8], Given { card, run, tape }: Given) -> Answer {
        let answer = match deed {
            Deed::Open(sizes, kind) => self.open(image, *sizes, *kind, card, run, tape),
            Deed::Write(target, bytes) => self.write(image, card, run, *target, bytes, tape),
            Deed::Discard(level) => self.discard(image, card, *level, tape),
            Deed::Save => self.save(image, card, run, tape),
        };
        answer.unwrap_or_else(refused)
    }

    fn play(&self, image: &mut [u8], tape: &[u64], n: u64) -> Answer {
        match playing(image, tape, n) {
            Err(refusal) => refused(refusal),
            Ok(orders) => {
                for order in &orders {
                    if let Order::Store { place, word } = *order {
                        put_word(image, place, word);
                    }
                }
                Answer { number: 0, orders: orders.len() as u64 }
            }
        }
    }

    fn read(&self, page: Page, image: &[u8], sizes: Sizes, level: u64, frame: u64) -> Part {
        let none = |refusal| Part { number: refusal as u64, start: 0, length: 0 };
        reading(page, image, sizes, level, frame).unwrap_or_else(none)
    }

    fn like(&self, first: &[u8], second: &[u8], sizes: Sizes) -> (u64, bool) {
        match self.likeness(first, second, sizes) {
            Ok(yes) => (0, yes),
            Err(refusal) => (refusal as u64, false),
        }
    }
}
