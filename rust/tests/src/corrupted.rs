//! One answer of an implementation spoiled on purpose, to see that the
//! comparison reports it.
//!
//! `Corrupted` hands every call on and changes one thing that the n-th of its
//! kind answers or leaves: the number, the orders, the card, the run, the tape,
//! the image, a part, a likeness. `differential` runs its groups over such calls;
//! each must fail.

use crate::calls::*;
use std::cell::Cell;

/// What is spoiled, by the call that it belongs to; those of a deed belong to
/// opening, write, discard or save.
#[derive(Clone, Copy, PartialEq, Eq, Debug)]
pub enum Spoil {
    LaidOutNumber,
    LaidOutImage,
    Number(CallKind),
    Orders(CallKind),
    CardSizes(CallKind),
    CardTouched(CallKind),
    CardMarks(CallKind),
    CardKind(CallKind),
    RunShare(CallKind),
    RunLimit(CallKind),
    RunTaken(CallKind),
    TapeKind(CallKind),
    TapePlace(CallKind),
    TapeWord(CallKind),
    TapeBehind(CallKind),
    PlayedNumber,
    PlayedOrders,
    PlayedImage,
    ReadNumber,
    ReadStart,
    ReadLength,
    LikeNumber,
    Likeness,
}

#[derive(Clone, Copy, PartialEq, Eq, Debug)]
pub enum CallKind {
    Open,
    Write,
    Discard,
    Save,
}

impl Spoil {
    /// Every kind.
    pub fn all() -> Vec<Spoil> {
        use Spoil::*;
        let mut all = vec![LaidOutNumber, LaidOutImage, PlayedNumber, PlayedOrders, PlayedImage];
        all.extend([ReadNumber, ReadStart, ReadLength, LikeNumber, Likeness]);
        for deed in [CallKind::Open, CallKind::Write, CallKind::Discard, CallKind::Save] {
            all.extend([Number, Orders, CardSizes, CardTouched, CardMarks, CardKind].map(|kind| kind(deed)));
            all.extend([TapeKind, TapePlace, TapeWord, TapeBehind].map(|kind| kind(deed)));
            if deed != CallKind::Discard {
                all.extend([RunShare, RunLimit, RunTaken].map(|kind| kind(deed)));
            }
        }
        all
    }
}

pub struct Corrupted<'a, C: Calls> {
    calls: &'a C,
    spoil: Spoil,
    /// How many calls that can be spoiled so come before the one that is.
    left: Cell<u64>,
    done: Cell<bool>,
}

impl<'a, C: Calls> Corrupted<'a, C> {
    pub fn new(calls: &'a C, spoil: Spoil, after: u64) -> Corrupted<'a, C> {
        Corrupted { calls, spoil, left: Cell::new(after), done: Cell::new(false) }
    }

    /// Was there such a call?
    pub fn done(&self) -> bool {
        self.done.get()
    }

    /// Is this the call to spoil, where it can be spoiled so?
    fn now(&self, spoil: Spoil, can: bool) -> bool {
        if self.done.get() || self.spoil != spoil || !can {
            return false;
        }
        let left = self.left.get();
        self.left.set(left.saturating_sub(1));
        self.done.set(left == 0);
        left == 0
    }

    /// Spoils what opening, write, discard or save answers and leaves; a discard has
    /// no run.
    fn answered(
        &self,
        kind: CallKind,
        answer: Answer,
        card: &mut Card,
        run: &mut [Console],
        tape: &mut [u64],
    ) -> Answer {
        let end = (3 * answer.orders as usize).min(tape.len());
        let (last, behind) = (end.saturating_sub(3), end < tape.len());
        let mut tape_at = |spoil, at: usize, can| {
            if self.now(spoil, can) {
                tape[at] ^= 1;
            }
        };
        tape_at(Spoil::TapeKind(kind), last, end > 0);
        tape_at(Spoil::TapePlace(kind), 1, end > 0);
        tape_at(Spoil::TapeWord(kind), last + 2, end > 0);
        tape_at(Spoil::TapeBehind(kind), end, behind);
        card.sizes.spares ^= u64::from(self.now(Spoil::CardSizes(kind), true));
        card.touched ^= u64::from(self.now(Spoil::CardTouched(kind), true));
        card.marks[63] ^= u64::from(self.now(Spoil::CardMarks(kind), true));
        card.kind ^= u64::from(self.now(Spoil::CardKind(kind), true));
        if let Some(last) = run.last_mut() {
            last.share ^= u64::from(self.now(Spoil::RunShare(kind), true));
            last.limit ^= u64::from(self.now(Spoil::RunLimit(kind), true));
            last.taken ^= u64::from(self.now(Spoil::RunTaken(kind), true));
        }
        let number = answer.number + u64::from(self.now(Spoil::Number(kind), true));
        Answer { number, orders: self.orders(Spoil::Orders(kind), answer.orders) }
    }

    /// One order fewer, or one in place of none.
    fn orders(&self, spoil: Spoil, orders: u64) -> u64 {
        match self.now(spoil, true) {
            true => orders.checked_sub(1).unwrap_or(1),
            false => orders,
        }
    }
}

impl<C: Calls> Calls for Corrupted<'_, C> {
    fn lay_out(&self, image: &mut [u8], sizes: Sizes) -> u64 {
        let number = self.calls.lay_out(image, sizes);
        if self.now(Spoil::LaidOutImage, !image.is_empty()) {
            image[image.len() - 1] ^= 1;
        }
        number + u64::from(self.now(Spoil::LaidOutNumber, true))
    }

    fn make(&self, deed: &Deed, image: &[u8], Given { card, run, tape }: Given) -> Answer {
        let answer = self.calls.make(deed, image, Given::of(card, run, tape));
        match deed {
            Deed::Open(..) => self.answered(CallKind::Open, answer, card, run, tape),
            Deed::Write(..) => self.answered(CallKind::Write, answer, card, run, tape),
            Deed::Discard(_) => self.answered(CallKind::Discard, answer, card, &mut [], tape),
            Deed::Save => self.answered(CallKind::Save, answer, card, run, tape),
        }
    }

    fn play(&self, image: &mut [u8], tape: &[u64], n: u64) -> Answer {
        let answer = self.calls.play(image, tape, n);
        if self.now(Spoil::PlayedImage, !image.is_empty()) {
            image[image.len() / 2] ^= 1;
        }
        let number = answer.number + u64::from(self.now(Spoil::PlayedNumber, true));
        Answer { number, orders: self.orders(Spoil::PlayedOrders, answer.orders) }
    }

    fn read(&self, page: Page, image: &[u8], sizes: Sizes, level: u64, frame: u64) -> Part {
        let mut part = self.calls.read(page, image, sizes, level, frame);
        part.number += u64::from(self.now(Spoil::ReadNumber, true));
        part.start ^= u64::from(self.now(Spoil::ReadStart, true));
        part.length ^= u64::from(self.now(Spoil::ReadLength, true));
        part
    }

    fn like(&self, first: &[u8], second: &[u8], sizes: Sizes) -> (u64, bool) {
        let (number, alike) = self.calls.like(first, second, sizes);
        let spoiled = number + u64::from(self.now(Spoil::LikeNumber, true));
        (spoiled, alike ^ self.now(Spoil::Likeness, true))
    }
}
