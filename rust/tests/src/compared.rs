//! Two implementations of the calls run side by side on equal inputs.
//!
//! Every call goes to both; answer, card, run, tape and image are compared byte for
//! byte (the images of reads and likeness where they are small), and the first
//! difference is kept. The caller gets what the tested one gave, so the explorer
//! over a `Compared` is a history through the tested one, held against the other
//! step by step. The numbers that each call knows are those of section 14.
//! Writes are counted by their spans, calls by the records and by the kind of module,
//! discards by what they store, and likenesses by what decides them (`laws`).

use crate::book::{state_of, told};
use crate::calls::*;
use crate::laws::{Charges, Discards, Likes, OfKind, Spans};
use std::cell::{Cell, RefCell};
use std::collections::BTreeMap;

/// The numbers that each call knows, 0 for served.
const LISTED: [(&str, &[u64]); 8] = [
    ("discard", &[0, 1, 2, 3, 4, 5, 6, 11]),
    ("lay_out", &[0, 1, 2]),
    ("like", &[0, 1, 2, 3, 4]),
    ("open", &[0, 1, 2, 3, 4, 5, 11, 13]),
    ("play", &[0, 2, 12]),
    ("read", &[0, 1, 2, 3, 4, 6, 7]),
    ("save", &[0, 1, 2, 3, 4, 5, 10, 11, 13]),
    ("write", &[0, 1, 2, 3, 4, 5, 6, 7, 8, 9, 11, 13, 14, 15]),
];

/// The longest image that is kept beside each read and each likeness.
const SMALL: usize = 4096;

/// A copy of a small image, and whether the image is as its copy.
fn small(image: &[u8]) -> Option<Vec<u8>> {
    (image.len() <= SMALL).then(|| image.to_vec())
}

/// Where two tapes differ first, if they do.
fn tapes(got: &[u64], due: &[u64]) -> String {
    match got.chunks(3).zip(due.chunks(3)).position(|(got, due)| got != due) {
        None => "tapes alike".to_string(),
        Some(at) => {
            let order = |tape: &[u64]| format!("{:x?}", tape.chunks(3).nth(at).unwrap_or_default());
            format!("order {at} (hexadecimal) {}, due {}", order(got), order(due))
        }
    }
}

/// The name of a call that writes a tape, as it is listed.
fn name_of(deed: &Deed) -> &'static str {
    match deed {
        Deed::Open(..) => "open",
        Deed::Write(..) => "write",
        Deed::Discard(_) => "discard",
        Deed::Save => "save",
    }
}

fn unchanged(kept: Option<Vec<u8>>, image: &[u8]) -> bool {
    kept.is_none_or(|kept| kept == image)
}

pub struct Compared<'a, G: Calls, T: Calls> {
    good: &'a G,
    tested: &'a T,
    answers: RefCell<BTreeMap<(&'static str, u64), u64>>,
    spans: Cell<Spans>,
    charges: Cell<Charges>,
    discards: Cell<Discards>,
    kinds: Cell<OfKind>,
    likes: Cell<Likes>,
    differences: Cell<u64>,
    first: RefCell<Option<String>>,
}

impl<'a, G: Calls, T: Calls> Compared<'a, G, T> {
    pub fn new(good: &'a G, tested: &'a T) -> Compared<'a, G, T> {
        let (answers, first, differences) = (RefCell::default(), RefCell::default(), Cell::new(0));
        let (spans, charges) = (Cell::default(), Cell::default());
        let (discards, kinds, likes) = (Cell::default(), Cell::default(), Cell::default());
        Compared { good, tested, answers, spans, charges, discards, kinds, likes, differences, first }
    }

    /// How many writes of each kind of span were compared.
    pub fn spans(&self) -> Spans {
        self.spans.get()
    }

    /// How many calls of each kind that the records decide were compared.
    pub fn charges(&self) -> Charges {
        self.charges.get()
    }

    /// How many discards of each kind were compared.
    pub fn discards(&self) -> Discards {
        self.discards.get()
    }

    /// How many calls of each that the kind of module decides were compared.
    pub fn kinds(&self) -> OfKind {
        self.kinds.get()
    }

    /// How many pairs of sound images of each kind were compared for likeness.
    pub fn likes(&self) -> Likes {
        self.likes.get()
    }

    /// How many calls were compared.
    pub fn calls(&self) -> u64 {
        self.answers.borrow().values().sum()
    }

    /// How many calls of a kind were due this number.
    pub fn answered(&self, call: &'static str, number: u64) -> u64 {
        self.answers.borrow().get(&(call, number)).copied().unwrap_or(0)
    }

    /// How many of them differed.
    pub fn differences(&self) -> u64 {
        self.differences.get()
    }

    /// Each call has given every number of its list, and none besides.
    pub fn covers_all_numbers(&self) -> Result<(), String> {
        let seen: Vec<(&str, u64)> = self.answers.borrow().keys().copied().collect();
        let mut listed: Vec<(&str, u64)> =
            LISTED.iter().flat_map(|(call, numbers)| numbers.iter().map(|n| (*call, *n))).collect();
        listed.sort();
        match seen == listed {
            true => Ok(()),
            false => Err(format!("answers seen {seen:?}, listed {listed:?}")),
        }
    }

    /// The first difference, if there was one.
    pub fn verdict(&self) -> Result<(), String> {
        match &*self.first.borrow() {
            None => Ok(()),
            Some(first) => Err(format!("{} differences, first: {first}", self.differences.get())),
        }
    }

    /// Counts a call by its run, and a write by its span and by what it copies,
    /// from the image and the card that it got.
    fn count(&self, deed: &Deed, image: &[u8], card: &Card, lent: &[Console], number: u64, changes: bool) {
        let (mut charges, mut spans) = (self.charges.get(), self.spans.get());
        match deed {
            Deed::Open(sizes, _) => charges.feed(None, lent, sizes.spares, number),
            Deed::Save => charges.feed(None, lent, card.sizes.spares, number),
            Deed::Discard(_) => {}
            Deed::Write(target, bytes) => {
                charges.feed(Some(target.console), lent, card.sizes.spares, number);
                if [0, 14, 15].contains(&number) {
                    let level = target.level as usize;
                    let own = image[PAIRS..][..card.sizes.spares as usize].contains(&(level as u8));
                    charges.feed_write(number, card.marks[level], own, changes);
                }
                if [0, 8].contains(&number) {
                    spans.feed(*target, bytes.len(), card.sizes.frames, number, changes);
                }
            }
        }
        self.charges.set(charges);
        self.spans.set(spans);
    }

    /// Counts a discard by what it stores, from the image and the card that it got.
    fn count_discard(&self, level: u64, image: &[u8], card: &Card, tape: usize, number: u64) {
        if [0, 11].contains(&number) {
            let (mut discards, level) = (self.discards.get(), level as usize);
            let (touched, state) = (card.touched >> level & 1 == 1, state_of(image, level));
            discards.feed(number, touched, state, card.marks[level], tape);
            self.discards.set(discards);
        }
    }

    /// Counts a call by the kind of module, from what it got and what was due. A card's
    /// kind alone is refused if the same card of kind 0 is not.
    fn count_kind(&self, deed: &Deed, image: &[u8], card: &Card, lent: &[Console], due: Answer) {
        let kind = if let Deed::Open(_, kind) = deed { *kind } else { card.kind };
        let opens = matches!(deed, Deed::Open(..));
        let kind_alone = || {
            let (mut of_kind_0, mut run) = (Card { kind: ADR, ..*card }, lent.to_vec());
            self.good.make(deed, image, Given::of(&mut of_kind_0, &mut run, &mut [])).number != 5
        };
        let mut kinds = self.kinds.get();
        kinds.unflushed += u64::from(due.orders > 0 && kind == EADR);
        kinds.fives += u64::from(due.number == 5 && opens);
        kinds.of_cards += u64::from(due.number == 5 && !opens && kind > EADR && kind_alone());
        self.kinds.set(kinds);
    }

    fn judge(&self, call: &'static str, number: u64, same: bool, tell: impl Fn() -> String) {
        *self.answers.borrow_mut().entry((call, number)).or_default() += 1;
        if !same {
            self.differences.set(self.differences.get() + 1);
            self.first.borrow_mut().get_or_insert_with(tell);
        }
    }
}

impl<G: Calls, T: Calls> Calls for Compared<'_, G, T> {
    fn lay_out(&self, image: &mut [u8], sizes: Sizes) -> u64 {
        let mut copy = image.to_vec();
        let due = self.good.lay_out(&mut copy, sizes);
        let got = self.tested.lay_out(image, sizes);
        self.judge("lay_out", due, due == got && copy == image, || {
            format!("lay_out {sizes} on {} bytes: {got}, due {due}", copy.len())
        });
        got
    }

    /// Makes the call on both, on equal copies of what it is lent.
    fn make(&self, deed: &Deed, image: &[u8], Given { card, run, tape }: Given) -> Answer {
        let (kept, given, lent) = (image.to_vec(), *card, run.to_vec());
        let (mut card_due, mut run_due, mut tape_due) = (given, lent.clone(), tape.to_vec());
        let due = self.good.make(deed, image, Given::of(&mut card_due, &mut run_due, &mut tape_due));
        let got = self.tested.make(deed, image, Given::of(card, run, tape));
        match deed {
            Deed::Discard(level) => self.count_discard(*level, image, &given, tape.len(), due.number),
            _ => self.count(deed, image, &given, &lent, due.number, run_due != lent),
        }
        self.count_kind(deed, image, &given, &lent, due);
        let same = (got, &*card, &*run) == (due, &card_due, &run_due) && tape_due == tape && kept == image;
        self.judge(name_of(deed), due.number, same, || {
            let (told, lent) = (tapes(tape, &tape_due), told(&lent));
            let got = format!("{got:?} {card:?} {run:?}");
            format!(
                "{deed}, lent {lent}, tape {}: {told}; {got}, due {due:?} {card_due:?} {run_due:?}",
                tape.len()
            )
        });
        got
    }

    fn play(&self, image: &mut [u8], tape: &[u64], n: u64) -> Answer {
        let (mut copy, kept) = (image.to_vec(), tape.to_vec());
        let due = self.good.play(&mut copy, tape, n);
        let got = self.tested.play(image, tape, n);
        self.judge("play", due.number, due == got && copy == image && kept == tape, || {
            format!("play {n} of {} numbers on {} bytes: {got:?}, due {due:?}", tape.len(), copy.len())
        });
        got
    }

    fn read(&self, page: Page, image: &[u8], sizes: Sizes, level: u64, frame: u64) -> Part {
        let kept = small(image);
        let due = self.good.read(page, image, sizes, level, frame);
        let got = self.tested.read(page, image, sizes, level, frame);
        self.judge("read", due.number, due == got && unchanged(kept, image), || {
            format!("{page:?} read {sizes} {level},{frame}: {got:?}, due {due:?}")
        });
        got
    }

    fn like(&self, first: &[u8], second: &[u8], sizes: Sizes) -> (u64, bool) {
        let kept = (small(first), small(second));
        let due = self.good.like(first, second, sizes);
        let got = self.tested.like(first, second, sizes);
        let same = due == got && unchanged(kept.0, first) && unchanged(kept.1, second);
        if due.0 == 0 {
            let mut likes = self.likes.get();
            likes.feed(first, second, sizes);
            self.likes.set(likes);
        }
        self.judge("like", due.0, same, || format!("like {sizes}: {got:?}, due {due:?}"));
        got
    }
}
