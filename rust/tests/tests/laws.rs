//! The tally of the laws over single calls, each law broken by hand.

use crpm_tests::arbitrary::{distinct_data, image_of, Metadata};
use crpm_tests::book::state_of;
use crpm_tests::calls::*;
use crpm_tests::laws::*;

const SIZES: Sizes = Sizes::new(3, 2, 1);

fn image(states: [u8; 3], pairs: [u8; 2]) -> Vec<u8> {
    let metadata = Metadata { states: states.to_vec(), pairs: pairs.to_vec() };
    image_of(SIZES, 6, &metadata, 0, &distinct_data(SIZES))
}

/// A call without a tape, on the card of zeros and with a board alike the one before, for
/// laws that look at none of these.
const SEEN: Seen<'static> = Seen {
    deed: &Deed::Save,
    number: 0,
    tape: 0,
    orders: &[],
    card: &Card::zeros(),
    card_left: &Card::zeros(),
    lent: &[],
    left: &[],
    before: &[],
    after: &[],
    alike: true,
};

fn write_to(level: u64) -> Deed {
    write_by(0, level)
}

fn write_by(console: u64, level: u64) -> Deed {
    Deed::Write(Target { console, level, frame: 0, offset: 0 }, vec![1; WORD])
}

/// The records that a call leaves if each write to a level in state 1 is charged.
fn left_by(deed: &Deed, number: u64, before: &[u8], lent: &[Console]) -> Vec<Console> {
    let mut left = lent.to_vec();
    match deed {
        _ if number != 0 => {}
        Deed::Write(target, _) => {
            left[target.console as usize].taken += u64::from(state_of(before, target.level as usize) == 1)
        }
        Deed::Open(..) | Deed::Save => left.iter_mut().for_each(|console| console.taken = 0),
        Deed::Discard(_) => {}
    }
    left
}

/// One call of a history of one console that starts at the first image and leaves
/// the second.
fn one(deed: &Deed, number: u64, before: &[u8], after: &[u8]) -> Result<Tried, String> {
    let lent = [Console::alone(SIZES)];
    let left = left_by(deed, number, before, &lent);
    let seen = Seen { deed, number, lent: &lent, left: &left, before, after, ..SEEN };
    Tally::start(before, SIZES, &lent).feed(seen)
}

/// A save settles every level in state 2, touched or not.
#[test]
fn after_a_save_no_spare_is_taken() {
    let before = image([2, 1, 2], [0, 2]);
    let tried = one(&Deed::Save, 0, &before, &image([1, 1, 1], [0, 2])).expect("the law holds");
    assert_eq!((tried.saves, tried.settled, tried.empty), (1, 2, 0));
    for after in [image([2, 1, 1], [0, 2]), image([1, 1, 2], [0, 2]), before.clone()] {
        assert!(one(&Deed::Save, 0, &before, &after).is_err());
    }
    assert!(one(&Deed::Save, 11, &before, &before).is_ok());
    assert!(one(&Deed::Save, 11, &before, &image([1, 1, 1], [0, 2])).is_err());
}

/// A copying write takes one spare, every other call none.
#[test]
fn copying_writes_are_counted() {
    let (none, some) = (image([1, 0, 1], [UNPAIRED; 2]), image([2, 0, 1], [0, UNPAIRED]));
    assert_eq!(one(&write_to(0), 0, &none, &some).map(|tried| tried.copies), Ok(1));
    assert!(one(&write_to(0), 0, &none, &none).is_err());
    assert!(one(&write_to(0), 11, &none, &some).is_err());
    assert_eq!(one(&write_to(1), 0, &none, &none).map(|tried| tried.copies), Ok(0));
    assert_eq!(one(&write_to(0), 0, &some, &some).map(|tried| tried.copies), Ok(0));
    assert!(one(&Deed::Open(SIZES, ADR), 0, &some, &some).is_ok());
    assert!(one(&Deed::Open(SIZES, ADR), 0, &some, &none).is_err());
}

/// A level in state 2 without a spare, and a spare that two levels need.
#[test]
fn as_many_spares_as_levels_in_state_2() {
    let whole = image([2, 2, 1], [0, 1]);
    for after in [image([2, 2, 1], [0, UNPAIRED]), image([2, 1, 1], [0, 0])] {
        assert!(one(&Deed::Open(SIZES, ADR), 0, &whole, &after).is_err());
    }
}

/// 9 exactly where the write would copy and every spare is taken.
#[test]
fn nine_exactly_where_due() {
    let (all, one_left) = (image([2, 2, 1], [0, 1]), image([2, 1, 1], [0, 1]));
    assert_eq!(one(&write_to(2), 9, &all, &all).map(|tried| tried.nines), Ok(1));
    assert!(one(&write_to(2), 0, &all, &all).is_err());
    assert!(one(&write_to(2), 11, &all, &all).is_err());
    assert!(one(&write_to(0), 9, &all, &all).is_err());
    assert!(one(&write_to(2), 9, &one_left, &one_left).is_err());
    assert!(one(&write_to(2), 5, &all, &all).is_ok());
}

/// Over several calls: an opening keeps the count and forgets who was touched;
/// a save starts it anew.
#[test]
fn from_save_to_save() {
    let start = image([2, 1, 1], [0, UNPAIRED]);
    let full = image([2, 2, 1], [0, 1]);
    let saved = image([1, 1, 1], [0, 1]);
    let mut run = vec![Console::alone(SIZES)];
    let mut tally = Tally::start(&start, SIZES, &run);
    let calls = [
        (write_to(1), 0, &start, &full),
        (write_to(1), 0, &full, &full),
        (write_to(2), 9, &full, &full),
        (Deed::Open(SIZES, ADR), 0, &full, &full),
        (write_to(2), 9, &full, &full),
        (Deed::Save, 0, &full, &saved),
        (write_to(0), 0, &saved, &image([2, 1, 1], [0, 1])),
    ];
    let mut total = Tried::default();
    for (deed, number, before, after) in calls {
        let left = left_by(&deed, number, before, &run);
        let seen = Seen { deed: &deed, number, lent: &run, left: &left, before, after, ..SEEN };
        total.add(tally.feed(seen).expect("the laws hold"));
        run = left;
    }
    let Tried { saves, settled, empty, copies, nines, taken, spans, heard, discards, kinds, .. } = total;
    assert_eq!((saves, settled, empty, copies, nines), (1, 2, 0, 2, 2));
    assert_eq!(taken, Taken { unpaired: 1, ..Taken::default() });
    assert_eq!((spans, heard, discards), (Spans::default(), Heard::default(), Discards::default()));
    assert_eq!(kinds, OfKind::default());
}

/// A write to the last level, in state 1 and without a spare, from these states
/// of the others and these pairs: what was taken, or what was said.
fn taking(states: [u8; 2], before: [u8; 2], after: [u8; 2]) -> Result<Taken, String> {
    let [first, second] = states;
    let (before, after) = (image([first, second, 1], before), image([first, second, 2], after));
    one(&write_to(2), 0, &before, &after).map(|tried| tried.taken)
}

const NONE: Taken = Taken { unpaired: 0, of_levels: 0, passing: 0 };

/// The lowest unpaired spare; if all are paired, the lowest whose level is in
/// state 1; its pair byte and no other changes.
#[test]
fn the_new_spare_is_taken() {
    let unpaired = Ok(Taken { unpaired: 1, ..NONE });
    let of_level = Ok(Taken { of_levels: 1, ..NONE });
    assert_eq!(taking([1, 1], [UNPAIRED; 2], [2, UNPAIRED]), unpaired);
    assert_eq!(taking([1, 1], [0, UNPAIRED], [0, 2]), unpaired);
    assert_eq!(taking([2, 1], [0, UNPAIRED], [0, 2]), unpaired);
    assert_eq!(taking([1, 1], [UNPAIRED, 0], [2, 0]), unpaired);
    assert_eq!(taking([1, 1], [0, 1], [2, 1]), of_level);
    assert_eq!(taking([1, 2], [0, 1], [2, 1]), of_level);
    assert_eq!(taking([2, 1], [0, 1], [0, 2]), Ok(Taken { of_levels: 1, passing: 1, ..NONE }));
}

#[test]
fn no_other_spare_is_taken() {
    let said = |what: &str| Err(what.to_string());
    let lower_unpaired = said("spare 1 is taken: a lower one is unpaired");
    assert_eq!(taking([1, 1], [UNPAIRED; 2], [UNPAIRED, 2]), lower_unpaired);
    let other_unpaired = said("spare 0 is taken: it is paired and another is not");
    assert_eq!(taking([1, 1], [0, UNPAIRED], [2, UNPAIRED]), other_unpaired);
    let lower = said("spare 1 is taken: a lower one has its level in state 1");
    assert_eq!(taking([1, 1], [0, 1], [0, 2]), lower);
    assert_eq!(taking([2, 1], [0, 1], [2, 1]), said("spare 0 is taken: its level is not in state 1"));
    assert_eq!(
        taking([2, 1], [0, UNPAIRED], [2, UNPAIRED]),
        said("spare 0 is taken: its level is not in state 1")
    );
    let two = said("pair bytes of spares [0, 1] change, a spare due for level Some(2)");
    assert_eq!(taking([1, 1], [0, 1], [2, UNPAIRED]), two);
    let none = said("pair bytes of spares [] change, a spare due for level Some(2)");
    assert_eq!(taking([1, 1], [0, 1], [0, 1]), none);
    assert!(taking([1, 1], [0, 1], [1, 1]).is_err());
    let (mut before, mut after) = (image([1, 1, 1], [0, 1]), image([1, 1, 2], [0, 1]));
    after[PAIRS + 2] = 2;
    let none = "spare 2 is taken: there is none".to_string();
    assert_eq!(one(&write_to(2), 0, &before, &after).err(), Some(none));
    before = image([1, 1, 1], [2, 1]);
    after = image([1, 1, 2], [2, 2]);
    let own = "pair bytes of spares [1] change, a spare due for level None".to_string();
    assert_eq!(one(&write_to(2), 0, &before, &after).err(), Some(own));
}

/// No pair byte changes in any other call.
#[test]
fn other_calls_take_no_spare() {
    let (before, after) = (image([1, 1, 1], [0, UNPAIRED]), image([1, 1, 1], [0, 2]));
    let said = "pair bytes of spares [1] change, a spare due for level None".to_string();
    for (deed, number) in [(Deed::Save, 0), (Deed::Open(SIZES, ADR), 0), (write_to(2), 11), (write_to(3), 6)]
    {
        assert_eq!(one(&deed, number, &before, &after).err(), Some(said.clone()));
    }
}

/// 9 only where no spare is a new one.
#[test]
fn no_nine_beside_a_new_spare() {
    for (states, pairs, spare) in
        [([2, 1, 1], [0, 1], 1), ([1, 1, 1], [0, 1], 0), ([2, 1, 1], [0, UNPAIRED], 1)]
    {
        let image = image(states, pairs);
        let said = format!("a write answers 9, and spare {spare} is a new one");
        assert_eq!(one(&write_to(2), 9, &image, &image).err(), Some(said));
    }
}

const FRAMES: Sizes = Sizes::new(1, 1, 3);

/// A write to a level of three frames that is empty, paired with nothing.
fn long_write(frame: u64, offset: u64, length: usize, number: u64) -> Result<Spans, String> {
    let empty = Metadata { states: vec![0], pairs: vec![UNPAIRED] };
    let image = image_of(FRAMES, 6, &empty, 0, &distinct_data(FRAMES));
    let deed = &Deed::Write(Target { console: 0, level: 0, frame, offset }, vec![1; length]);
    let run = &[Console::alone(FRAMES)];
    let seen = Seen { deed, number, lent: run, left: run, before: &image, after: &image, ..SEEN };
    Ok(Tally::start(&image, FRAMES, run).feed(seen)?.spans)
}

/// Served spans by the frames that they meet.
#[test]
fn long_writes_are_counted() {
    let long = |frame, offset, length| long_write(frame, offset, length, 0).map(|spans| spans.long);
    for (frame, offset, length) in [(0, 0, 1), (0, 0, 256), (0, 255, 1), (2, 0, 256), (1, 30, 226)] {
        assert_eq!(long(frame, offset, length), Ok(0), "{frame} {offset} {length}");
    }
    for (frame, offset, length) in [(0, 0, 257), (0, 255, 2), (1, 30, 227), (0, 0, 768), (1, 255, 257)] {
        assert_eq!(long(frame, offset, length), Ok(1), "{frame} {offset} {length}");
    }
}

/// 8 exactly where one of its conditions holds; each is counted alone.
#[test]
fn eight_exactly_where_due() {
    let eights = |frame, offset, length| long_write(frame, offset, length, 8).map(|spans| spans.eights);
    assert_eq!(eights(0, 0, 0), Ok([1, 0, 0]));
    assert_eq!(eights(0, 255, 0), Ok([1, 0, 0]));
    assert_eq!(eights(0, 256, 1), Ok([0, 1, 0]));
    assert_eq!(eights(1, 256, 256), Ok([0, 1, 0]));
    assert_eq!(eights(0, 0, 769), Ok([0, 0, 1]));
    assert_eq!(eights(2, 255, 2), Ok([0, 0, 1]));
    for (offset, length) in [(256, 0), (256, 513), (768, 1), (u64::MAX, 1), (u64::MAX, 257)] {
        assert_eq!(eights(0, offset, length), Ok([0; 3]), "{offset} {length}");
        assert!(long_write(0, offset, length, 0).is_err(), "{offset} {length}");
    }
    for (frame, offset, length) in [(0, 0, 768), (2, 0, 256), (2, 255, 1), (0, 255, 513)] {
        assert!(eights(frame, offset, length).is_err(), "{frame} {offset} {length}");
        assert!(long_write(frame, offset, length, 0).is_ok(), "{frame} {offset} {length}");
        assert!(long_write(frame, offset, length, 11).is_ok(), "{frame} {offset} {length}");
    }
    let wraps = Target { console: 0, level: 0, frame: 0, offset: u64::MAX };
    assert_eq!(conditions_of_8(wraps, 2, 3), [false, true, true]);
}

/// A law that was never tried is no success.
#[test]
fn untried_laws_fail() {
    let spans = Spans { long: 1, long_copies: 1, eights: [1; 3] };
    let taken = Taken { unpaired: 1, of_levels: 1, passing: 1 };
    let heard = Heard { thirteens: 1, fourteens: 1, fifteens: 1, shares: 1 };
    let discards =
        Discards { from_spare: 1, to_zeros: 1, of_no_frame: 0, untouched: 1, short: 1, elevens: 1 };
    let kinds = OfKind { unflushed: 1, fives: 1, of_cards: 0 };
    let likes = Likes { alike: 1, moved: 1, empty: 1, in_first: 1, by_bytes: 1, ..Likes::default() };
    let (saves, settled, empty, copies, nines) = (1, 1, 1, 1, 1);
    let tried = Tried { saves, settled, empty, copies, nines, taken, spans, heard, discards, kinds, likes };
    assert!(tried.all_tried(&[]).is_ok());
    assert!(Tried { nines: 0, ..tried }.all_tried(&[NINES]).is_ok());
    assert!(Tried { spans: Spans::default(), ..tried }.all_tried(&OF_SPANS).is_ok());
    for untried in [Tried { nines: 0, ..tried }, Tried { settled: 0, ..tried }, Tried { saves: 0, ..tried }] {
        assert!(untried.all_tried(&[]).is_err());
    }
    assert!(Tried { taken: Taken::default(), ..tried }.all_tried(&OF_SPARES).is_ok());
    for taken in
        [Taken { unpaired: 0, ..taken }, Taken { of_levels: 0, ..taken }, Taken { passing: 0, ..taken }]
    {
        assert!(Tried { taken, ..tried }.all_tried(&[NINES]).is_err());
    }
    assert!(Tried { heard: Heard::default(), ..tried }.all_tried(&OF_CONSOLES).is_ok());
    for heard in [
        Heard { thirteens: 0, ..heard },
        Heard { fourteens: 0, ..heard },
        Heard { fifteens: 0, ..heard },
        Heard { shares: 0, ..heard },
    ] {
        assert!(Tried { heard, ..tried }.all_tried(&[NINES]).is_err());
    }
    assert!(Tried { kinds: OfKind::default(), ..tried }.all_tried(&OF_KINDS).is_ok());
    assert!(kinds.all_tried().is_err() && OfKind { of_cards: 1, ..kinds }.all_tried().is_ok());
    for kinds in [OfKind { unflushed: 0, ..kinds }, OfKind { fives: 0, ..kinds }] {
        assert!(Tried { kinds, ..tried }.all_tried(&[NINES]).is_err());
    }
    assert!(Tried { discards: Discards::default(), ..tried }.all_tried(&OF_DISCARDS).is_ok());
    assert!(discards.all_tried().is_err() && Discards { of_no_frame: 1, ..discards }.all_tried().is_ok());
    for discards in [
        Discards { from_spare: 0, ..discards },
        Discards { to_zeros: 0, ..discards },
        Discards { untouched: 0, ..discards },
        Discards { short: 0, ..discards },
        Discards { elevens: 0, ..discards },
    ] {
        assert!(Tried { discards, ..tried }.all_tried(&[NINES]).is_err());
    }
    assert!(likes.all_tried().is_err());
    assert!(Likes { in_second: 1, exchanged: 1, ..likes }.all_tried().is_ok());
    assert!(Tried { likes: Likes { alike: 1, ..Likes::default() }, ..tried }.all_tried(&OF_LIKES).is_ok());
    for likes in [
        Likes { alike: 0, ..likes },
        Likes { moved: 0, ..likes },
        Likes { empty: 0, ..likes },
        Likes { in_first: 0, ..likes },
        Likes { by_bytes: 0, ..likes },
    ] {
        assert!(Tried { likes, ..tried }.all_tried(&[NINES]).is_err());
    }
    for spans in [
        Spans { long: 0, ..spans },
        Spans { long_copies: 0, ..spans },
        Spans { eights: [0, 1, 1], ..spans },
        Spans { eights: [1, 0, 1], ..spans },
        Spans { eights: [1, 1, 0], ..spans },
    ] {
        assert!(spans.all_tried().is_err() && Tried { spans, ..tried }.all_tried(&[NINES]).is_err());
    }
}

/// A console's record with a taken count.
const fn record(share: u64, limit: u64, taken: u64) -> Console {
    Console { share, limit, taken }
}

/// One call of a history that is lent this run, which starts at the first image.
fn lent(deed: &Deed, number: u64, lent: &[Console], left: &[Console]) -> Result<Tried, String> {
    let before = &image([1, 1, 2], [UNPAIRED, 2]);
    let copied = &image([2, 1, 2], [0, 2]);
    let saved = &image([1, 1, 1], [UNPAIRED, 2]);
    let after = match deed {
        Deed::Write(..) if number == 0 => copied,
        Deed::Save if number == 0 => saved,
        _ => before,
    };
    Tally::start(before, SIZES, lent).feed(Seen { deed, number, lent, left, before, after, ..SEEN })
}

/// A copying write is charged to its console, once and alone; a refused one, and a
/// call that copies nothing, leave the records; a save and an opening clear the
/// counts and nothing else.
#[test]
fn records_are_left_as_due() {
    let run = [record(0, 2, 0), record(0, 3, 1)];
    let (by_first, by_second) = (write_by(0, 0), write_by(1, 0));
    let charged = [[record(0, 2, 1), run[1]], [run[0], record(0, 3, 2)]];
    assert!(lent(&by_first, 0, &run, &charged[0]).is_ok());
    assert!(lent(&by_second, 0, &run, &charged[1]).is_ok());
    for wrong in [run, charged[1], [record(0, 2, 2), run[1]], [record(0, 3, 1), run[1]]] {
        assert!(lent(&by_first, 0, &run, &wrong).is_err(), "{wrong:?}");
    }
    let above = [record(0, 2, 3), run[1]];
    let said = "a served call leaves [0/2/3 0/3/1], a count above its limit".to_string();
    assert_eq!(lent(&by_first, 0, &run, &above).err(), Some(said));
    assert!(lent(&by_first, 11, &run, &run).is_ok());
    assert!(lent(&by_first, 11, &run, &charged[0]).is_err());
    for deed in [Deed::Save, Deed::Open(SIZES, ADR)] {
        let cleared = [run[0], record(0, 3, 0)];
        assert!(lent(&deed, 0, &run, &cleared).is_ok(), "{deed}");
        assert!(lent(&deed, 0, &run, &run).is_err(), "{deed}");
        assert!(lent(&deed, 0, &run, &[cleared[0], record(1, 3, 0)]).is_err(), "{deed}");
        assert!(lent(&deed, 11, &run, &run).is_ok(), "{deed}");
        assert!(lent(&deed, 11, &run, &cleared).is_err(), "{deed}");
    }
    let touched = Seen {
        deed: &write_by(0, 2),
        number: 0,
        lent: &run,
        left: &run,
        before: &image([1, 1, 2], [UNPAIRED, 2]),
        after: &image([1, 1, 2], [UNPAIRED, 2]),
        ..SEEN
    };
    assert!(Tally::start(touched.before, SIZES, &run).feed(touched).is_ok());
    let charged = Seen { left: &charged[0], ..touched };
    assert!(Tally::start(touched.before, SIZES, &run).feed(charged).is_err());
}

/// 13 exactly where one of its conditions holds; a sum is one of natural numbers.
#[test]
fn thirteen_exactly_where_due() {
    let (good, far) = (record(1, 1, 0), u64::MAX);
    let runs: [(&[Console], usize); 8] = [
        (&[good; 9], 1),
        (&[record(1, 0, 0)], 2),
        (&[record(0, 1, 2)], 3),
        (&[record(0, far - 2, far - 1)], 3),
        (&[record(2, 2, 0), good], 4),
        (&[record(far, far, 0), record(3, far, 0)], 4),
        (&[record(1 << 61, far, 0); 8], 4),
        (&[record(far, far, 0); 8], 4),
    ];
    for (run, condition) in runs {
        assert!(conditions_of_13(Some(0), run, 2)[condition], "{run:?}");
        for deed in [Deed::Save, Deed::Open(SIZES, ADR), write_to(0)] {
            assert!(lent(&deed, 13, run, run).is_ok(), "{deed} {run:?}");
            let left = left_by(&deed, 0, &image([1; 3], [UNPAIRED; 2]), run);
            assert!(lent(&deed, 0, run, &left).is_err(), "{deed} {run:?}");
            assert!(lent(&deed, 11, run, run).is_err(), "{deed} {run:?}");
        }
    }
    for run in [&[][..], &[good], &[good; 2], &[record(2, far, far)], &[record(0, 0, 0); 8]] {
        assert_eq!(conditions_of_13(None, run, 2), [false; 5], "{run:?}");
        assert!(lent(&Deed::Save, 13, run, run).is_err(), "{run:?}");
        assert!(lent(&write_by(8, 0), 13, run, run).is_ok(), "{run:?}");
        assert!(lent(&write_by(run.len() as u64, 0), 11, run, run).is_err(), "{run:?}");
    }
}

/// 14 exactly at the limit, before 15; 15 exactly where no more spares are free
/// than the others have unused. One of two spares is free here.
#[test]
fn fourteen_and_fifteen_exactly_where_due() {
    let heard = |run: &[Console], number| lent(&write_by(0, 0), number, run, run).map(|tried| tried.heard);
    let cases: [(&[Console], u64); 9] = [
        (&[record(0, 0, 0)], 14),
        (&[record(1, 2, 2), record(1, 1, 0)], 14),
        (&[record(0, 1, 0), record(1, 1, 0)], 15),
        (&[record(1, 1, 0), record(1, 1, 0)], 15),
        (&[record(0, 1, 0), record(2, 3, 1)], 15),
        (&[record(0, 9, 8), record(0, 3, 3), record(1, 3, 0)], 15),
        (&[record(0, 1, 0), record(2, 2, 2)], 11),
        (&[record(2, 2, 1)], 11),
        (&[record(0, u64::MAX, 5), record(2, 9, 9)], 11),
    ];
    for (run, number) in cases {
        for other in [11, 14, 15] {
            assert_eq!(heard(run, other).is_ok(), other == number, "{run:?} {other}");
        }
    }
    let [fourteen, fifteen] = [(cases[0].0, 14), (cases[2].0, 15)].map(|(run, number)| heard(run, number));
    assert_eq!(fourteen, Ok(Heard { fourteens: 1, ..Heard::default() }));
    assert_eq!(fifteen, Ok(Heard { fifteens: 1, ..Heard::default() }));
    let dirty = write_by(0, 2);
    for number in [14, 15] {
        let run = [record(0, 0, 0), record(2, 2, 0)];
        assert!(lent(&dirty, number, &run, &run).is_err(), "a level in state 2 hears {number}");
    }
}

/// From a served save to the next opening a console below its share hears none of
/// 9, 14 and 15, while the run is lent on.
#[test]
fn shares_are_kept_since_a_save() {
    let run = [record(1, 2, 0), record(0, 2, 0)];
    let free = &image([1, 1, 1], [0, 1]);
    let said = |number| Err(format!("console 0 of [1/2/0 0/2/0], below its share, hears {number}"));
    let served = |tally: &mut Tally, deed: &Deed| {
        let seen = Seen { deed, lent: &run, left: &run, before: free, after: free, ..SEEN };
        tally.feed(seen).map(|tried| tried.saves)
    };
    let refused = |tally: &Tally, writer, number, run: &[Console]| {
        let deed = &write_by(writer, 0);
        let seen = Seen { deed, number, lent: run, left: run, before: free, after: free, ..SEEN };
        tally.clone().feed(seen).map(drop)
    };
    let mut tally = Tally::start(free, SIZES, &run);
    for number in [9, 14, 15] {
        assert_ne!(refused(&tally, 0, number, &run), said(number), "no save yet");
    }
    assert_eq!(served(&mut tally, &Deed::Save), Ok(1));
    for number in [9, 14, 15] {
        assert_eq!(refused(&tally, 0, number, &run), said(number));
        assert_ne!(refused(&tally, 1, number, &run), said(number));
        assert_ne!(refused(&tally, 0, number, &[run[0], record(0, 1, 0)]), said(number), "another run");
    }
    assert_eq!(served(&mut tally, &Deed::Open(SIZES, ADR)), Ok(0));
    assert_ne!(refused(&tally, 0, 15, &run), said(15), "opened since");
}

/// A share counts as needed if another console is above its own.
#[test]
fn needed_shares_are_counted() {
    let free = &image([1, 1, 1], [0, 1]);
    let needed = |first: Console| {
        let run = [first, record(0, 2, 0)];
        let copied = image([1, 2, 1], [0, 1]);
        let both = image([2, 2, 1], [0, 1]);
        let (after_second, after_first) =
            ([first, record(0, 2, 1)], [record(first.share, 2, 1), record(0, 2, 1)]);
        let mut tally = Tally::start(free, SIZES, &run);
        let mut feed = |deed: &Deed, lent: &[Console], left: &[Console], before: &[u8], after: &[u8]| {
            tally.feed(Seen { deed, lent, left, before, after, ..SEEN }).expect("the laws hold").heard.shares
        };
        let save = feed(&Deed::Save, &run, &run, free, free);
        let second = feed(&write_by(1, 1), &run, &after_second, free, &copied);
        [save, second, feed(&write_by(0, 0), &after_second, &after_first, &copied, &both)]
    };
    assert_eq!(needed(record(1, 2, 0)), [0, 0, 1]);
    assert_eq!(needed(record(0, 2, 0)), [0, 0, 0]);
}

/// One console for which every spare is kept hears none of 13, 14 and 15.
#[test]
fn the_only_console_hears_no_refusal_of_consoles() {
    let full = image([2, 2, 1], [0, 1]);
    for number in [14, 15] {
        let said = Some(format!("the only console, [2/2/0], hears {number}"));
        assert_eq!(one(&write_to(2), number, &full, &full).err(), said);
    }
    assert!(one(&Deed::Save, 13, &full, &full).is_err());
    let (deed, run) = (&write_by(1, 2), &[Console::alone(SIZES)]);
    let seen = Seen { deed, number: 13, lent: run, left: run, before: &full, after: &full, ..SEEN };
    assert!(Tally::start(&full, SIZES, run).feed(seen).is_ok(), "there is no console 1");
}

/// What the comparison counts of consoles: each condition of 13 alone, sums that
/// wrap, and the spares that 14, 15 and charges are about.
#[test]
fn charges_are_counted() {
    let fed = |writer, run: &[Console]| {
        let mut charges = Charges::default();
        charges.feed(writer, run, 2, 13);
        (charges.thirteens, charges.wrapped)
    };
    let far = u64::MAX;
    assert_eq!(fed(Some(1), &[record(2, 2, 0)]), ([1, 0, 0, 0, 0], 0));
    assert_eq!(fed(None, &[record(0, 0, 0); 9]), ([0, 1, 0, 0, 0], 0));
    assert_eq!(fed(None, &[record(1, 0, 0)]), ([0, 0, 1, 0, 0], 0));
    assert_eq!(fed(None, &[record(0, 1, 2)]), ([0, 0, 0, 1, 0], 0));
    assert_eq!(fed(None, &[record(3, 3, 0)]), ([0, 0, 0, 0, 1], 0));
    assert_eq!(fed(None, &[record(far, far, 0), record(3, far, 0)]), ([0, 0, 0, 0, 1], 1));
    assert_eq!(fed(Some(1), &[record(3, 3, 0)]), ([0; 5], 0));
    let mut all = Charges { thirteens: [1; 5], wrapped: 1, ..Charges::default() };
    let writes = [(14, 0, false), (14, 1, true), (15, 0, false), (15, 0, true)];
    writes.iter().for_each(|(number, marks, own)| all.feed_write(*number, *marks, *own, false));
    [(1, false), (1, true), (0, true)].iter().for_each(|(marks, own)| all.feed_write(0, *marks, *own, true));
    assert_eq!((all.fourteens, all.fifteens, all.charged), ([1; 2], [1; 2], [1; 3]));
    assert!(all.all_tried().is_ok());
    for untried in [
        Charges { thirteens: [1, 1, 0, 1, 1], ..all },
        Charges { wrapped: 0, ..all },
        Charges { fourteens: [1, 0], ..all },
        Charges { fifteens: [0, 1], ..all },
        Charges { charged: [1, 1, 0], ..all },
    ] {
        assert!(untried.all_tried().is_err());
    }
}

const TWO_FRAMES: Sizes = Sizes::new(2, 1, 2);

/// A discard as a call of a history.
#[derive(Clone)]
struct Discarded {
    level: u64,
    number: u64,
    tape: usize,
    orders: Vec<Order>,
    card: Card,
    left: Card,
    before: Vec<u8>,
    after: Vec<u8>,
}

/// What a discard of level 0 is to give, of which these frames are marked.
fn due_of(tally: &Tally, before: &[u8], saved: &[u8], frames: &[usize]) -> (Tally, Discarded) {
    let places = frames.iter().flat_map(|frame| (0..FRAME).step_by(WORD).map(move |at| FRAME * frame + at));
    let orders: Vec<Order> =
        places.map(|at| Order::Store { place: DATA + at, word: word_at(saved, at) }).collect();
    let mut card = Card::fresh(TWO_FRAMES, ADR);
    card.touched = u64::from(!frames.is_empty());
    card.marks[0] = frames.iter().fold(0, |marks, frame| marks | 1 << frame);
    let mut after = before.to_vec();
    after[DATA..DATA + saved.len()].copy_from_slice(saved);
    let (tape, before) = (3 * orders.len(), before.to_vec());
    (tally.clone(), Discarded { level: 0, number: 0, tape, orders, card, left: card, before, after })
}

/// A history that finds level 0 restored from its spare, or empty, and writes a word
/// to each of these frames of it; then the discard that is due.
fn edited(state: u8, frames: &[usize]) -> (Tally, Discarded) {
    let pair = if state == 0 { UNPAIRED } else { 0 };
    let metadata = Metadata { states: vec![state, 1], pairs: vec![pair] };
    let mut image = image_of(TWO_FRAMES, 6, &metadata, 0, &distinct_data(TWO_FRAMES));
    let spare = TWO_FRAMES.in_spare(0, 0);
    let saved = if state == 0 { vec![0; 2 * FRAME] } else { image[spare..].to_vec() };
    image[DATA..DATA + saved.len()].copy_from_slice(&saved);
    let run = [Console::alone(TWO_FRAMES)];
    let mut tally = Tally::start(&image, TWO_FRAMES, &run);
    for &frame in frames {
        let before = image.clone();
        image[DATA + FRAME * frame..][..WORD].fill(0xee);
        let target = Target { console: 0, level: 0, frame: frame as u64, offset: 0 };
        let deed = &Deed::Write(target, vec![0xee; WORD]);
        let seen = Seen { deed, lent: &run, left: &run, before: &before, after: &image, ..SEEN };
        tally.feed(seen).expect("the write keeps the laws");
    }
    due_of(&tally, &image, &saved, frames)
}

fn judged((tally, seen): (Tally, Discarded)) -> Result<Discards, String> {
    let Discarded { level, number, tape, orders, card, left, before, after } = &seen;
    let (run, deed) = (&[Console::alone(TWO_FRAMES)], &Deed::Discard(*level));
    let (number, tape) = (*number, *tape);
    let seen = Seen {
        deed,
        number,
        tape,
        orders,
        card,
        card_left: left,
        lent: run,
        left: run,
        before,
        after,
        alike: true,
    };
    tally.clone().feed(seen).map(|tried| tried.discards)
}

/// Discards by what they store, each with the tape that just suffices.
#[test]
fn discards_are_counted() {
    let none = Discards::default();
    assert_eq!(judged(edited(2, &[0])), Ok(Discards { from_spare: 1, ..none }));
    assert_eq!(judged(edited(2, &[0, 1])), Ok(Discards { from_spare: 1, ..none }));
    assert_eq!(judged(edited(0, &[1])), Ok(Discards { to_zeros: 1, ..none }));
    assert_eq!(judged(edited(2, &[])), Ok(Discards { untouched: 1, ..none }));
    let (tally, mut other) = edited(2, &[0]);
    (other.level, other.tape, other.orders) = (1, 0, vec![]);
    other.after.clone_from(&other.before);
    assert_eq!(judged((tally, other)), Ok(Discards { untouched: 1, ..none }));
    let mut fed = none;
    fed.feed(0, true, 2, 0, 0);
    fed.feed(0, false, 1, 0b11, 191);
    fed.feed(0, false, 1, 0b11, 192);
    fed.feed(11, true, 2, 0b1, 95);
    assert_eq!(fed, Discards { of_no_frame: 1, untouched: 2, short: 1, elevens: 1, ..none });
}

/// The number is that of the first condition, and there are as many orders as due.
#[test]
fn discards_hear_what_is_due() {
    let heard = |level, tape, number| {
        let (tally, due) = edited(2, &[0, 1]);
        let (orders, after) = (vec![], due.before.clone());
        judged((tally, Discarded { level, number, tape, orders, after, ..due }))
    };
    assert_eq!(heard(0, 191, 11), Ok(Discards { elevens: 1, ..Discards::default() }));
    assert_eq!(heard(2, 0, 6), Ok(Discards::default()));
    for (level, tape, number, due) in
        [(0, 191, 0, 11), (0, 192, 11, 0), (1, 0, 11, 0), (2, 0, 0, 6), (2, 0, 11, 6), (0, 192, 5, 0)]
    {
        let said = format!("a discard with a tape of {tape} numbers answers {number}, due {due}");
        assert_eq!(heard(level, tape, number), Err(said));
    }
    assert_eq!(heard(0, 192, 13), Err("a discard answers 13".to_string()));
    let (tally, due) = edited(2, &[0]);
    let zeros = Discarded { card: Card::zeros(), number: 1, orders: vec![], ..due };
    assert!(judged((tally.clone(), zeros.clone())).is_ok());
    assert!(judged((tally, Discarded { number: 0, ..zeros })).is_err());
}

/// Each thing that a served discard may get wrong.
#[test]
fn discards_store_what_is_due() {
    let broken = |frames: &[usize], spoil: fn(&mut Discarded)| {
        let (tally, mut seen) = edited(2, frames);
        spoil(&mut seen);
        judged((tally, seen)).expect_err("a law is broken")
    };
    let bytes = "a discard leaves other bytes than those saved, or changes others";
    assert_eq!(broken(&[1], |seen| seen.orders.truncate(31)), "a discard gives 31 orders, due 32");
    assert_eq!(broken(&[1], |seen| seen.orders.push(Order::Fence)), "a discard gives 33 orders, due 32");
    assert!(broken(&[1], |seen| seen.orders.swap(0, 1)).starts_with("a discard gives Store { place: 776"));
    assert!(
        broken(&[0, 1], |seen| seen.orders.rotate_left(32)).starts_with("a discard gives Store { place: 768")
    );
    let flush = |seen: &mut Discarded| seen.orders[31] = Order::Flush { place: 768 };
    assert!(broken(&[1], flush).starts_with("a discard gives Flush"));
    assert_eq!(broken(&[1], |seen| seen.left.touched = 0), "a discard changes the card");
    assert_eq!(broken(&[1], |seen| seen.left.marks[0] = 0), "a discard changes the card");
    for place in [DATA, DATA + 2 * FRAME, EVEN_STATES + 1, PAIRS, EPOCH] {
        let (tally, mut seen) = edited(2, &[1]);
        seen.after[place] ^= 1;
        assert_eq!(judged((tally, seen)), Err(bytes.to_string()), "{place}");
    }
}

/// A board of three levels whose saved bytes are zeros, in these states.
fn silent(states: [u8; 3], pairs: [u8; 2]) -> Vec<u8> {
    let metadata = Metadata { states: states.to_vec(), pairs: pairs.to_vec() };
    image_of(SIZES, 7, &metadata, 0, &vec![0; SIZES.image_length() - DATA])
}

/// Pairs of boards by what makes them alike or not.
#[test]
fn likes_are_counted() {
    let fed = |first: &[u8], second: &[u8]| {
        let mut likes = Likes::default();
        likes.feed(first, second, SIZES);
        likes
    };
    let none = Likes::default();
    let (set, moved) = (silent([1; 3], [UNPAIRED; 2]), silent([1, 2, 1], [UNPAIRED, 1]));
    assert_eq!(fed(&set, &set), Likes { alike: 1, ..none });
    assert_eq!(fed(&set, &moved), Likes { alike: 1, moved: 1, ..none });
    let [empty, two, other] = [[0, 1, 1], [0, 0, 1], [1, 1, 0]].map(|states| silent(states, [UNPAIRED; 2]));
    assert_eq!(fed(&empty, &empty), Likes { alike: 1, empty: 1, ..none });
    assert_eq!(fed(&empty, &set), Likes { in_first: 1, ..none });
    assert_eq!(fed(&moved, &empty), Likes { in_second: 1, ..none });
    assert_eq!(fed(&two, &empty), Likes { in_first: 1, ..none });
    assert_eq!(fed(&empty, &other), Likes { exchanged: 1, ..none });
    assert_eq!(fed(&two, &other), none, "one is empty in the second alone, two in the first");
    let mut sounding = moved.clone();
    sounding[SIZES.in_spare(1, 0) + 255] = 1;
    assert_eq!(fed(&sounding, &moved), Likes { by_bytes: 1, ..none });
    assert_eq!(fed(&sounding, &empty), none, "by bytes and by an empty level");
    sounding[SIZES.in_level(1, 0)] = 1;
    sounding[SIZES.in_spare(1, 0) + 255] = 0;
    assert_eq!(
        fed(&sounding, &set),
        Likes { alike: 1, moved: 1, ..none },
        "what is not saved does not count"
    );
}

/// Every call leaves a board alike the one before, and so does a save while nothing is
/// touched; a save of touched levels, if none was empty and the saved bytes stay.
#[test]
fn boards_stay_alike_up_to_a_save() {
    let run = [Console::alone(SIZES)];
    let fed = |tally: &mut Tally, deed: &Deed, number, boards: [&[u8]; 2], alike| {
        let [before, after] = boards;
        tally.feed(Seen { deed, number, lent: &run, left: &run, before, after, alike, ..SEEN }).map(drop)
    };
    let said = |alike: bool| format!("a call leaves a board alike the one before: {alike}, due {}", !alike);
    let (empty, set) = (silent([0, 2, 1], [UNPAIRED, 1]), silent([1; 3], [UNPAIRED, 1]));
    let saved = silent([0, 1, 1], [UNPAIRED, 1]);
    let start = Tally::start(&empty, SIZES, &run);
    let calls = [(write_to(0), 0), (write_to(2), 11), (Deed::Open(SIZES, ADR), 0), (Deed::Save, 11)];
    for (deed, number) in calls {
        for alike in [true, false] {
            let got = fed(&mut start.clone(), &deed, number, [&empty, &empty], alike);
            assert_eq!(got.err(), (!alike).then(|| said(alike)), "{deed}");
        }
    }
    let mut sounding = saved.clone();
    sounding[SIZES.in_level(1, 0)] = 1;
    for (level, after, due) in
        [(None, &saved, true), (Some(0), &set, false), (Some(1), &saved, true), (Some(1), &sounding, false)]
    {
        let mut tally = start.clone();
        if let Some(level) = level {
            fed(&mut tally, &write_to(level), 0, [&empty, &empty], true).expect("the write keeps the laws");
        }
        for alike in [true, false] {
            let got = fed(&mut tally.clone(), &Deed::Save, 0, [&empty, after], alike);
            assert_eq!(got.err(), (alike != due).then(|| said(alike)), "{level:?}");
        }
    }
}
