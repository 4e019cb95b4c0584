//! What opening shows of an image: each image is opened once.

use crate::Watch;
use crpm_tests::book::{pages_read, Contents};
use crpm_tests::calls::*;
use crpm_tests::explore::ByHash;
use std::collections::HashMap;

pub struct Openings<'a, C: Calls> {
    calls: &'a C,
    sizes: Sizes,
    tape: Vec<u64>,
    /// The number of the page that an image shows, if it shows one.
    known: ByHash<Option<usize>>,
    pages: HashMap<Contents, usize>,
    /// The call of the sheet at which the work is.
    pub place: String,
    watch: Watch<'a>,
}

impl<'a, C: Calls> Openings<'a, C> {
    pub fn new(calls: &'a C, sizes: Sizes, watch: Watch<'a>) -> Openings<'a, C> {
        let tape = vec![0; sizes.opening_room()];
        let (known, pages) = (ByHash::default(), HashMap::new());
        Openings { calls, sizes, tape, known, pages, place: String::new(), watch }
    }

    /// The number under which this page is known.
    pub fn number(&mut self, page: &Contents) -> usize {
        let next = self.pages.len();
        match self.pages.get(page) {
            Some(number) => *number,
            None => *self.pages.entry(page.clone()).or_insert(next),
        }
    }

    /// The number of the page that opening shows of an image with this hash.
    pub fn page_of(&mut self, hash: u128, image: &dyn Fn() -> Vec<u8>) -> Option<usize> {
        if let Some(page) = self.known.get(&hash) {
            return *page;
        }
        let page = self.shown(image()).map(|page| self.number(&page));
        self.known.insert(hash, page);
        self.tell();
        page
    }

    /// The page that opening shows of an image (section 8.8): it is served, and once
    /// its orders are played both reads give that page. None if it shows none.
    pub fn shown(&mut self, mut image: Vec<u8>) -> Option<Contents> {
        let (mut card, mut run) = (Card::zeros(), [Console::alone(self.sizes)]);
        let given = Given::of(&mut card, &mut run, &mut self.tape);
        let answer = self.calls.make(&Deed::Open(self.sizes, ADR), &image, given);
        let orders = self.tape.get(..answer.orders.saturating_mul(3) as usize)?;
        let played = self.calls.play(&mut image, orders, answer.orders);
        let (working, saved) = pages_read(self.calls, &image, self.sizes).ok()?;
        (answer.served() && played == answer && working == saved.frames).then_some(saved)
    }

    pub fn tell(&mut self) {
        (self.watch)(&self.place, self.known.len());
    }
}
