//! The laws of the tapes: what orders a served call gives, by the kind of module, and
//! what becomes of the kind.
//!
//! How many stores, flushes and fences are due follows from the arguments, the card
//! and the image (sections 9 to 11); kind 1 has the same stores and fences and no
//! flush. That the stores and fences of kind 1 are those of kind 0, one by one and in
//! their order, is held by `kinds`, which makes each call for both.

use crate::book::state_of;
use crate::calls::*;
use crate::laws::{OfKind, Seen, Tried};

/// How many orders of each kind there are.
#[derive(Clone, Copy, PartialEq, Eq, Debug)]
struct Orders {
    stores: usize,
    flushes: usize,
    fences: usize,
}

impl Orders {
    fn of(orders: &[Order]) -> Orders {
        let count = |is: fn(&&Order) -> bool| orders.iter().filter(is).count();
        Orders {
            stores: count(|order| matches!(order, Order::Store { .. })),
            flushes: count(|order| matches!(order, Order::Flush { .. })),
            fences: count(|order| **order == Order::Fence),
        }
    }

    /// So many frames stored and flushed, with so many orders besides.
    fn copied(frames: usize, stores: usize, flushes: usize, fences: usize) -> Orders {
        Orders { stores: FRAME / WORD * frames + stores, flushes: FRAME / LINE * frames + flushes, fences }
    }

    /// What a served call is to give on a module of kind 0.
    fn due(Seen { deed, card, before, .. }: Seen) -> Orders {
        let marks = |level: usize| card.marks[level].count_ones() as usize;
        let touched = |level: usize| card.touched >> level & 1 == 1;
        match deed {
            Deed::Open(sizes, _) => {
                let treated = |level: &usize| state_of(before, *level) != 1 || has_spare(before, *level);
                let levels = (0..sizes.levels as usize).filter(treated).count();
                Orders::copied(levels * sizes.frames as usize, 0, 0, 1)
            }
            Deed::Write(target, bytes) => {
                let (level, first) = (target.level as usize, target.offset as usize);
                let words = (first + bytes.len()).div_ceil(WORD) - first / WORD;
                match (state_of(before, level) == 1 && !touched(level), has_spare(before, level)) {
                    (false, _) => Orders::copied(0, words, 0, 0),
                    (true, true) => Orders::copied(marks(level), words + 1, 1, 2),
                    (true, false) => Orders::copied(card.sizes.frames as usize, words + 2, 2, 2),
                }
            }
            Deed::Discard(level) => {
                let frames = if touched(*level as usize) { marks(*level as usize) } else { 0 };
                Orders { flushes: 0, ..Orders::copied(frames, 0, 0, 0) }
            }
            Deed::Save => {
                let marked: usize = (0..card.sizes.levels as usize).map(marks).sum();
                Orders { stores: 9, flushes: FRAME / LINE * marked + 2, fences: 3 }
            }
        }
    }
}

fn has_spare(image: &[u8], level: usize) -> bool {
    image[PAIRS..][..LINE].contains(&(level as u8))
}

/// Holds a call against the laws and adds it to what was tried: refusal 5 of an
/// opening exactly for a kind above 1 and before 13 and 11; the kind on the card that
/// is left; the orders of a served call.
pub fn hold(seen: Seen, tried: Tried) -> Result<Tried, String> {
    let Seen { deed, number, card, card_left, .. } = seen;
    let opens = matches!(deed, Deed::Open(..));
    let kind = if let Deed::Open(_, kind) = deed { *kind } else { card.kind };
    let due_5 = opens && kind > EADR;
    if opens && (number >= 5 || number == 0) && (number == 5) != due_5 {
        return Err(format!("an opening given kind {kind} answers {number}"));
    }
    let left = if opens && number != 0 { ADR } else { kind };
    if card_left.kind != left {
        return Err(format!("a card of kind {} is left, due {left}", card_left.kind));
    }
    let mut kinds = OfKind { fives: u64::from(number == 5 && due_5), ..OfKind::default() };
    if number == 0 {
        let (got, of_kind_0) = (Orders::of(seen.orders), Orders::due(seen));
        let flushes = if kind == ADR { of_kind_0.flushes } else { 0 };
        let due = Orders { flushes, ..of_kind_0 };
        if got != due {
            return Err(format!("a tape of kind {kind} has {got:?}, due {due:?}"));
        }
        kinds.unflushed = u64::from(kind == EADR && !seen.orders.is_empty());
    }
    Ok(Tried { kinds, ..tried })
}
