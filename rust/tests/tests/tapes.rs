//! The laws of the tapes over single calls, each law broken by hand.

use crpm_tests::arbitrary::{distinct_data, image_of, Metadata};
use crpm_tests::calls::*;
use crpm_tests::laws::{OfKind, Seen, Tried};
use crpm_tests::tapes::hold;

const SIZES: Sizes = Sizes::new(3, 2, 2);

/// Level 0 in state 1 with spare 0, level 1 in state 1 without one, level 2 empty.
fn image() -> Vec<u8> {
    let metadata = Metadata { states: vec![1, 1, 0], pairs: vec![0, UNPAIRED] };
    image_of(SIZES, 6, &metadata, 0, &distinct_data(SIZES))
}

/// So many stores, flushes and fences.
fn orders([stores, flushes, fences]: [usize; 3]) -> Vec<Order> {
    let mut orders = vec![Order::Store { place: 0, word: 0 }; stores];
    orders.extend(vec![Order::Flush { place: 0 }; flushes]);
    orders.extend(vec![Order::Fence; fences]);
    orders
}

/// A call on this card that heard this number, gave these orders and left a card of
/// this kind.
fn held(deed: &Deed, number: u64, card: &Card, counts: [usize; 3], left: u64) -> Result<OfKind, String> {
    let card_left = &Card { kind: left, ..*card };
    let (orders, before) = (&orders(counts), &image());
    let (tape, lent, after) = (0, &[], before);
    let seen =
        Seen { deed, number, tape, orders, card, card_left, lent, left: lent, before, after, alike: true };
    hold(seen, Tried::default()).map(|tried| tried.kinds)
}

/// A card with level 2 touched, two marks in level 0 and one in level 2.
fn card(kind: u64) -> Card {
    let mut card = Card::fresh(SIZES, kind);
    card.touched = 0b100;
    (card.marks[0], card.marks[2]) = (0b11, 0b10);
    card
}

fn write(level: u64, offset: u64, length: usize) -> Deed {
    Deed::Write(Target { console: 0, level, frame: 0, offset }, vec![1; length])
}

/// Each call with the orders of kind 0 that are due: two levels treated; the marked
/// frames to the own spare, a new spare, stores alone, each over two words; one frame
/// dropped, and none; a save of three marks.
fn all() -> Vec<(Deed, [usize; 3])> {
    vec![
        (Deed::Open(SIZES, ADR), [128, 16, 1]),
        (write(0, 6, 4), [67, 9, 2]),
        (write(1, 6, 4), [68, 10, 2]),
        (write(2, 6, 4), [2, 0, 0]),
        (Deed::Discard(2), [32, 0, 0]),
        (Deed::Discard(0), [0, 0, 0]),
        (Deed::Save, [9, 14, 3]),
    ]
}

/// As many stores, flushes and fences as are due, and for kind 1 no flush.
#[test]
fn the_orders_are_those_of_the_kind() {
    for (deed, [stores, flushes, fences]) in all() {
        let opens = matches!(deed, Deed::Open(..));
        for kind in [ADR, EADR] {
            let deed = if opens { Deed::Open(SIZES, kind) } else { deed.clone() };
            let due = [stores, if kind == ADR { flushes } else { 0 }, fences];
            let unflushed = u64::from(kind == EADR && stores > 0);
            let tried = OfKind { unflushed, ..OfKind::default() };
            assert_eq!(held(&deed, 0, &card(kind), due, kind), Ok(tried), "{deed} {kind}");
            for place in 0..3 {
                let mut more = due;
                more[place] += 1;
                assert!(held(&deed, 0, &card(kind), more, kind).is_err(), "{deed} {kind} {more:?}");
                let mut less = due;
                less[place] = less[place].saturating_sub(1);
                let told = held(&deed, 0, &card(kind), less, kind);
                assert_eq!(told.is_err(), due[place] > 0, "{deed} {kind} {less:?}");
            }
        }
    }
    let flushed = held(&Deed::Save, 0, &card(EADR), [9, 14, 3], EADR);
    let said = "a tape of kind 1 has Orders { stores: 9, flushes: 14, fences: 3 }, \
                due Orders { stores: 9, flushes: 0, fences: 3 }";
    assert_eq!(flushed, Err(said.to_string()));
}

/// The kind on the card: an opening's own, 0 if it is refused, and else what it was.
#[test]
fn the_kind_is_carried() {
    for kind in [ADR, EADR] {
        for (deed, [stores, flushes, fences]) in all().into_iter().skip(1) {
            let due = [stores, if kind == ADR { flushes } else { 0 }, fences];
            for left in [ADR, EADR, 2] {
                assert_eq!(
                    held(&deed, 0, &card(kind), due, left).is_ok(),
                    left == kind,
                    "{deed} {kind} {left}"
                );
                let refused = held(&deed, 11, &card(kind), [0; 3], left);
                assert_eq!(refused.is_ok(), left == kind, "{deed} {kind} {left}");
            }
        }
        let (open, flushes) = (Deed::Open(SIZES, kind), if kind == ADR { 16 } else { 0 });
        for left in [ADR, EADR, 2] {
            let served = held(&open, 0, &card(EADR - kind), [128, flushes, 1], left);
            assert_eq!(served.is_ok(), left == kind, "{kind} {left}");
            let refused = held(&open, 11, &card(EADR), [0; 3], left);
            assert_eq!(refused.is_ok(), left == ADR, "{kind} {left}");
        }
    }
}

/// 5 of an opening exactly for a kind above 1, after 1 to 4 and before 13 and 11.
#[test]
fn five_exactly_for_no_kind() {
    let heard = |kind, number| held(&Deed::Open(SIZES, kind), number, &card(ADR), [0; 3], ADR);
    for kind in [2, 3, 1 << 32, u64::MAX] {
        assert_eq!(heard(kind, 5), Ok(OfKind { fives: 1, ..OfKind::default() }));
        for number in 1..5 {
            assert_eq!(heard(kind, number), Ok(OfKind::default()), "{kind} {number}");
        }
        for number in [0, 11, 13] {
            let said = format!("an opening given kind {kind} answers {number}");
            assert_eq!(heard(kind, number), Err(said));
        }
    }
    for kind in [ADR, EADR] {
        assert_eq!(heard(kind, 5), Err(format!("an opening given kind {kind} answers 5")));
        assert!(heard(kind, 13).is_ok() && heard(kind, 11).is_ok());
    }
    assert!(held(&Deed::Save, 5, &card(2), [0; 3], 2).is_ok());
}
