//! Calls of a history, each with its cuts.

use crate::again::Boards;
use crate::images::for_tried;
use crate::openings::Openings;
use crate::Watch;
use crpm_tests::book::Book;
use crpm_tests::calls::*;
use crpm_tests::crash::Module;
use crpm_tests::explore::is_epoch_store;

/// A history in progress (section 8), of one console on a module of kind 0.
pub struct History {
    pub module: Module,
    card: Card,
    run: [Console; 1],
    book: Book,
}

impl History {
    /// Before the opening of this image, all held.
    pub fn start(image: &[u8], book: Book, sizes: Sizes) -> History {
        let (card, run) = (Card::zeros(), [Console::alone(sizes)]);
        History { module: Module::held(ADR, image), card, run, book }
    }
}

/// What images that a cut may leave show.
#[derive(Clone, Copy, PartialEq, Eq, Default)]
pub struct Shows {
    pub old: bool,
    pub new: bool,
    pub other: bool,
}

/// What was found at one cut.
#[derive(Clone, Copy)]
pub struct Look {
    /// How many images it may leave, and how many were opened.
    pub images: u128,
    pub tried: u64,
    pub shows: Shows,
    /// How many of those opened showed what may not be shown.
    pub other: u64,
}

impl Look {
    /// Were not all images opened?
    pub fn sampled(&self) -> bool {
        u128::from(self.tried) < self.images
    }
}

/// A call that was played whole: its answer, and what was found at each cut, from 0
/// orders played to all.
pub struct Step {
    pub answer: Answer,
    pub looks: Vec<Look>,
}

/// The numbers of the pages before and after a call, and which may be shown at a cut.
struct Due {
    old: usize,
    new: usize,
    may_old: bool,
    may_new: bool,
}

impl Due {
    fn shows(&self, page: Option<usize>) -> Shows {
        let old = page == Some(self.old) && self.may_old;
        let new = page == Some(self.new) && self.may_new;
        let same = self.old == self.new;
        Shows { old: old || new && same, new: new && !same, other: !old && !new }
    }
}

pub struct Cutter<'a, C: Calls> {
    calls: &'a C,
    pub sizes: Sizes,
    pub openings: Openings<'a, C>,
    tape: Vec<u64>,
}

impl<'a, C: Calls> Cutter<'a, C> {
    pub fn new(calls: &'a C, sizes: Sizes, watch: Watch<'a>) -> Cutter<'a, C> {
        Cutter { calls, sizes, openings: Openings::new(calls, sizes, watch), tape: vec![0; sizes.room()] }
    }

    /// The work is at this call of the sheet.
    pub fn at(&mut self, name: &str) {
        self.openings.place = name.to_string();
    }

    /// Makes a call and plays its orders, and looks at the cut after each; where one
    /// may leave more than `most` images, at some. The boards get the images that opening
    /// serves.
    pub fn step(
        &mut self,
        history: &mut History,
        deed: &Deed,
        most: u64,
        mut boards: Option<&mut Boards>,
    ) -> Step {
        let old = self.openings.number(&history.book.saved);
        let (answer, orders) = self.make(history, deed);
        let new = self.openings.number(&history.book.saved);
        let epoch_store = orders.iter().position(is_epoch_store).filter(|_| *deed == Deed::Save);
        let mut looks: Vec<Look> = Vec::new();
        for p in 0..=orders.len() {
            if p > 0 {
                history.module.play(orders[p - 1]);
            }
            let may_old = p < orders.len();
            let may_new = !may_old || epoch_store.is_some_and(|at| at < p);
            let due = Due { old, new, may_old, may_new };
            // a flush alone permits no image and forbids none
            let flushed = p > 0 && matches!(orders[p - 1], Order::Flush { .. });
            let same = looks.last().copied().filter(|_| flushed && may_old);
            looks.push(same.unwrap_or_else(|| self.look(&history.module, due, most, boards.as_deref_mut())));
        }
        Step { answer, looks }
    }

    /// Makes a call and feeds the book.
    fn make(&mut self, history: &mut History, deed: &Deed) -> (Answer, Vec<Order>) {
        let image = history.module.image();
        let given = Given::of(&mut history.card, &mut history.run, &mut self.tape);
        let answer = self.calls.make(deed, image, given);
        let orders = orders_of(&self.tape[..3 * answer.orders as usize], image.len());
        history.book.feed(deed, answer.served());
        (answer, orders.expect("calls write well-formed orders"))
    }

    /// Opens what may stand after a cut now.
    fn look(&mut self, module: &Module, due: Due, most: u64, mut boards: Option<&mut Boards>) -> Look {
        self.openings.tell();
        if let Some(boards) = &mut boards {
            boards.next_cut();
        }
        let cut = module.cut();
        let (mut shows, mut other) = (Shows::default(), 0);
        let tried = for_tried(&cut, most, &mut |hash, image| {
            let page = self.openings.page_of(hash, image);
            let shown = due.shows(page);
            shows.old |= shown.old;
            shows.new |= shown.new;
            shows.other |= shown.other;
            other += u64::from(shown.other);
            if let (Some(boards), Some(_)) = (&mut boards, page) {
                boards.offer(hash, image);
            }
        });
        Look { images: cut.count(), tried, shows, other }
    }
}
