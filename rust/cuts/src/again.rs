//! Boards that were reopened after a cut and go on with the rest of the sheet, which is
//! cut once more.

use crate::cutter::{Cutter, History};
use crate::lines::Totals;
use crate::Named;
use crpm_tests::book::Book;
use crpm_tests::calls::{Calls, Deed, ADR};
use std::collections::{BTreeMap, BTreeSet};

/// Of the boards that the cuts of a call may leave no more go on.
const MOST_BOARDS: usize = 1000;

/// Behind the cuts of a call no more calls are made once so many images were opened
/// there; or, if that is more, as many as `Plan::most`.
pub const MOST_IMAGES: u64 = 100_000;

/// Of the images that a cut behind a cut may leave so many are opened, or a thousandth of
/// `Plan::most`, if that is more.
const AT_A_CUT: u64 = 100;

/// The different boards that the cuts of one call may leave and that opening serves.
#[derive(Default)]
pub struct Boards {
    /// By their hashes.
    met: BTreeSet<u128>,
    cut: usize,
    /// How many boards this cut was the first to leave.
    new: usize,
    /// Those that go on: in turn the first that each cut was the first to leave, then
    /// the second, and so on.
    kept: BTreeMap<(usize, usize), Vec<u8>>,
}

/// What was found behind the cuts of a call.
#[derive(Default)]
pub struct GoneOn {
    /// Different boards, and how many of them went on to the end of the sheet.
    pub boards: usize,
    pub tried: usize,
    pub totals: Totals,
    /// Cuts at which not all images were opened.
    pub sampled: u64,
}

impl Boards {
    /// What is offered from now on was left by the next cut.
    pub fn next_cut(&mut self) {
        self.cut += 1;
        self.new = 0;
    }

    /// A board that this cut may leave.
    pub fn offer(&mut self, hash: u128, image: &dyn Fn() -> Vec<u8>) {
        if !self.met.insert(hash) {
            return;
        }
        let turn = (self.new, self.cut);
        self.new += 1;
        if self.kept.len() < MOST_BOARDS {
            self.kept.insert(turn, image());
        } else if self.kept.last_key_value().is_some_and(|(last, _)| turn < *last) {
            self.kept.pop_last();
            self.kept.insert(turn, image());
        }
    }

    /// Goes on with the boards, one after the other. `most` is the plan's.
    pub fn go_on<C: Calls>(self, cutter: &mut Cutter<C>, rest: &[Named], most: u64) -> GoneOn {
        let mut found = GoneOn { boards: self.met.len(), ..GoneOn::default() };
        let mut reopened = BTreeSet::new();
        for image in self.kept.values() {
            let page = cutter.openings.shown(image.clone()).expect("opening shows a page of each board");
            let book = Book::of(page, cutter.sizes);
            let mut history = History::start(image, book, cutter.sizes);
            let opening = Deed::Open(cutter.sizes, ADR);
            if !found.step(cutter, &mut history, &opening, most) {
                break;
            }
            // what the opening left is done once, if nothing of it waits
            let done = history.module.cut().count() == 1 && !reopened.insert(history.module.image().to_vec());
            let mut rest = rest.iter().filter(|_| !done);
            if !rest.all(|(_, deed)| found.step(cutter, &mut history, deed, most)) {
                break;
            }
            found.tried += 1;
        }
        found
    }
}

impl GoneOn {
    /// Goes on with one call, unless enough images were opened already.
    fn step<C: Calls>(
        &mut self,
        cutter: &mut Cutter<C>,
        history: &mut History,
        deed: &Deed,
        most: u64,
    ) -> bool {
        if self.totals.images >= most.max(MOST_IMAGES) {
            return false;
        }
        let looks = cutter.step(history, deed, most.min(AT_A_CUT).max(most / 1000), None).looks;
        self.totals.add(&looks);
        self.sampled += looks.iter().filter(|look| look.sampled()).count() as u64;
        true
    }
}
