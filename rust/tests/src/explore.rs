//! The explorer: demand 3 (section 15) over a history, for every cut in it.
//!
//! It runs over any implementation of the calls. A history (section 8) threads
//! one image, one card, one run of consoles, one book and the module behind its
//! cache; at a cut (section 7) every permitted image (or the extreme ones and
//! samples) is opened again, also after openings that were themselves cut, each
//! lent any run that 13 does not refuse, and the first opening that finishes must
//! be served and show a permitted page. The faults of section 18 are caught by it
//! (`selftest`). After each call both reads must give the book's pages, and the
//! laws of sections 11.5, 10.9, 3.4, 10.10, 15.7, 10.12 and 13 (`laws`) and those of the
//! tapes (`tapes`) must hold.
//!
//! A module has a kind, and its openings are given one. Demand 3 supposes that they
//! are the same; a module of kind 1 whose openings are given kind 0 keeps it too, and
//! one of kind 0 whose openings are given kind 1 does not (`kinds`).
//!
//! A page is shown only if the levels that were never set, and no others, are
//! empty: a little more than the demand asks, as a level of zeros would do.
//!
//! With `Images::All` chains of cut openings of any length are covered: every
//! image that stands after a cut opening is explored in its turn, until no new
//! one is found. All of them must show the same page, which is a little more
//! than the demand asks while either page may be shown.
//!
//! What is counted of a cut: each line that waits holds its bytes after some
//! first part of its stores, a stage. A choice of one stage for every line is a
//! *way* for the cut to fall. An *image* is what then stands: two ways leave the
//! same image where a line has the same bytes at two stages, as after a store of
//! what was there already. The explorer goes through the images, each once a
//! cut; the ways are only counted. Different cuts can leave the same image: over
//! a history the *distinct* images are fewer than the images, and only these are
//! opened again.

use crate::arbitrary;
use crate::book::*;
use crate::calls::*;
use crate::crash::Module;
use crate::laws::{Seen, Tally, Tried};
use crate::prng::Rng;
use crate::tapes;
use std::collections::{BTreeSet, HashMap};
use std::hash::{BuildHasherDefault, Hasher};

/// Which images of a cut are looked at.
#[derive(Clone, Copy, PartialEq, Eq, Debug)]
pub enum Images {
    /// Every permitted one; more than the cap is an error.
    All { cap: u128 },
    /// Both extremes and so many samples, each after a random chain of up to
    /// three cut openings.
    Some { samples: usize },
    /// Every permitted one up to the cap, else both extremes and so many
    /// samples; each after such a chain.
    Few { cap: u128, samples: usize },
}

/// Which cuts and images the explorer looks at in one call.
#[derive(Clone, Copy, PartialEq, Eq, Debug)]
pub struct Plan {
    pub images: Images,
    /// With more orders than this, only cuts near a fence and a few others.
    pub every_cut_up_to: usize,
}

impl Plan {
    pub const ALL: Plan = Plan { images: Images::All { cap: 1 << 20 }, every_cut_up_to: usize::MAX };
}

/// The kind of a module, and the kind that its openings are given.
#[derive(Clone, Copy, PartialEq, Eq, Debug)]
pub struct Kinds {
    pub module: u64,
    pub given: u64,
}

impl Kinds {
    pub const ADR: Kinds = Kinds { module: ADR, given: ADR };
    pub const EADR: Kinds = Kinds { module: EADR, given: EADR };
    pub const EADR_AS_ADR: Kinds = Kinds { module: EADR, given: ADR };
    pub const ADR_AS_EADR: Kinds = Kinds { module: ADR, given: EADR };
}

/// What was looked at; `LEGEND` says it for those who read the lines.
#[derive(Clone, Copy, Default, Debug)]
pub struct Counts {
    pub histories: u64,
    pub calls: u64,
    pub cuts: u64,
    /// Images looked at, cut by cut.
    pub images: u64,
    /// The ways to leave them (with `Images::All`).
    pub ways: u128,
    /// Different images opened again (with `Images::All`).
    pub distinct: u64,
    /// Openings that finished, each checked by both reads.
    pub openings: u64,
    /// How often each law and each kind of span was tried.
    pub tried: Tried,
}

/// What the counts mean.
pub const LEGEND: &str = "images: contents that a cut can leave, those looked at, each once a cut
ways: choices of how many of its waiting stores reached each line; several ways can leave the same image
distinct: images that differ, over all cuts; each is opened again once
restored levels settled, empty levels kept: those in state 2 and in state 0 that nobody had touched, at served saves
spares taken: by writes that needed a new one; passed over: with a lower one whose level was in state 2
long writes: served writes over several frames; refusals 8: those by one of its conditions alone
shares needed: copying writes of a console below its share, since a save, while another was above its own
discards from a spare, to zeros: of marked frames of touched levels; untouched levels get no order, whatever the tape
unflushed tapes: of served calls in a session of kind 1; refusals 5 of a kind: of openings that were given one above 1
boards alike: two, in a history those before and after a call; with a level moved: in state 1 in one, in state 2 in the other
boards unlike by a level empty: in one of them alone, of equal saved bytes; by bytes: with the same levels empty";

/// A history in progress: what stands, the card last answered, the consoles'
/// records as the last call left them, the book, and the tally of the laws.
#[derive(Clone)]
pub struct History {
    pub module: Module,
    pub card: Card,
    pub run: Vec<Console>,
    pub book: Book,
    tally: Tally,
}

/// A served or refused call of a history.
pub struct Step {
    pub answer: Answer,
    pub orders: Vec<Order>,
    /// The pages that the images looked at showed, cut by cut.
    pub shown: Vec<BTreeSet<usize>>,
}

pub struct Explorer<'a, C: Calls> {
    calls: &'a C,
    sizes: Sizes,
    kinds: Kinds,
    rng: Rng,
    /// The page that an image shows, by the image's hash of 128 bits.
    known: ByHash<usize>,
    pages: Vec<Contents>,
    tape: Vec<u64>,
    counts: Counts,
    laws: bool,
}

/// What is known of images, by their hashes of 128 bits.
pub type ByHash<T> = HashMap<u128, T, BuildHasherDefault<AlreadyHashed>>;

/// The keys are hashes already.
#[derive(Default)]
pub struct AlreadyHashed(u64);

impl Hasher for AlreadyHashed {
    fn write(&mut self, bytes: &[u8]) {
        self.0 = bytes.iter().fold(self.0, |sum, byte| sum.rotate_left(8) ^ *byte as u64);
    }

    fn write_u128(&mut self, hash: u128) {
        self.0 = hash as u64;
    }

    fn finish(&self) -> u64 {
        self.0
    }
}

/// Fills the tapes before a call, to see which numbers it leaves alone.
const RUBBISH: u64 = 0xa5a5_5a5a_dead_beef;

impl<'a, C: Calls> Explorer<'a, C> {
    /// An explorer of histories with these sizes on a module of kind 0.
    pub fn new(calls: &'a C, sizes: Sizes, seed: u64) -> Explorer<'a, C> {
        Explorer {
            calls,
            sizes,
            kinds: Kinds::ADR,
            rng: Rng::new(seed),
            known: HashMap::default(),
            pages: Vec::new(),
            tape: vec![RUBBISH; sizes.opening_room()],
            counts: Counts::default(),
            laws: true,
        }
    }

    /// The same with these kinds.
    pub fn of(self, kinds: Kinds) -> Self {
        Explorer { kinds, ..self }
    }

    /// An explorer that holds histories against demand 3 and the book alone.
    pub fn without_laws(self) -> Self {
        Explorer { laws: false, ..self }
    }

    /// What was looked at so far.
    pub fn counts(&self) -> Counts {
        Counts { distinct: self.known.len() as u64, ..self.counts }
    }

    /// The number under which this page is known.
    pub fn page_number(&mut self, page: &Contents) -> usize {
        let known = self.pages.iter().position(|p| p == page);
        known.unwrap_or_else(|| {
            self.pages.push(page.clone());
            self.pages.len() - 1
        })
    }

    /// Starts a history of one console at an image that opening must serve. Cuts
    /// in the starting opening itself are looked at too.
    pub fn start(&mut self, image: &[u8], plan: Plan) -> Result<History, String> {
        self.start_lent(image, &[Console::alone(self.sizes)], plan)
    }

    /// The same with this run, which 13 does not refuse.
    pub fn start_lent(&mut self, image: &[u8], run: &[Console], plan: Plan) -> Result<History, String> {
        let book = Book::start(image, self.sizes);
        let saved = self.page_number(&book.saved);
        self.look_at(&self.held(image), plan, &[saved])?;
        let mut run = run.to_vec();
        let orders = self.opening(image, &mut run)?;
        let mut module = self.held(image);
        orders.iter().for_each(|order| module.play(*order));
        if module.cut().count() != 1 {
            return Err("a finished opening leaves something waiting".to_string());
        }
        let tally = Tally::start(image, self.sizes, &run);
        let card = Card::fresh(self.sizes, self.kinds.given);
        let history = History { module, card, run, book, tally };
        self.check_reads(&history)?;
        match !self.laws || alike(self.calls, image, history.module.image(), self.sizes)? {
            true => Ok(history),
            false => Err("a finished opening leaves a board unlike the one before".to_string()),
        }
    }

    /// The module with this image on it, all held.
    fn held(&self, image: &[u8]) -> Module {
        Module::held(self.kinds.module, image)
    }

    /// Runs one call of a history, looks at its cuts and plays it.
    pub fn step(&mut self, history: &mut History, call: &Call, plan: Plan) -> Result<Step, String> {
        self.counts.calls += 1;
        let image = history.module.image().to_vec();
        let mut tape = vec![RUBBISH; call.tape];
        let lent = call.lent.clone().unwrap_or_else(|| history.run.clone());
        let (card, mut left) = (history.card, lent.clone());
        let answer = self.call(&image, &mut history.card, &mut left, &call.deed, &mut tape)?;
        if call.lent.is_none() {
            history.run.clone_from(&left);
        }
        let orders = written(&tape, answer, image.len())?;
        let before = history.book.clone();
        history.book.feed(&call.deed, answer.served());
        let epoch_store = orders.iter().position(is_epoch_store).filter(|_| call.deed == Deed::Save);
        let mut shown = Vec::new();
        for p in 0..=orders.len() {
            if p > 0 {
                history.module.play(orders[p - 1]);
            }
            if !self.wanted(plan, &orders, p) {
                continue;
            }
            let finished = if p == orders.len() { &history.book } else { &before };
            let mut allowed = vec![self.page_number(&finished.saved)];
            if epoch_store.is_some_and(|at| at < p) && p < orders.len() {
                allowed.push(self.page_number(&before.working));
            }
            self.check_player(&image, &tape[..3 * orders.len()], p, history.module.image())?;
            let told = |what| format!("{call}, cut after {p} of {} orders: {what}", orders.len());
            shown.push(self.look_at(&history.module, plan, &allowed).map_err(told)?);
        }
        self.check_reads(history)?;
        if self.laws {
            let alike = self.check_likeness(&image, &before, history);
            let alike = alike.map_err(|what| format!("{call}: {what}"))?;
            let seen = Seen {
                deed: &call.deed,
                number: answer.number,
                tape: call.tape,
                orders: &orders,
                card: &card,
                card_left: &history.card,
                lent: &lent,
                left: &left,
                before: &image,
                after: history.module.image(),
                alike,
            };
            let tried = history.tally.feed(seen).and_then(|tried| tapes::hold(seen, tried));
            self.counts.tried.add(tried.map_err(|what| format!("{call}: {what}"))?);
        }
        Ok(Step { answer, orders, shown })
    }

    fn call(
        &mut self,
        image: &[u8],
        card: &mut Card,
        run: &mut [Console],
        deed: &Deed,
        tape: &mut [u64],
    ) -> Result<Answer, String> {
        let unchanged = if matches!(deed, Deed::Open(..)) { Card::zeros() } else { *card };
        let lent = run.to_vec();
        let answer = self.calls.make(deed, image, Given::of(card, run, tape));
        match answer.served() || (*card == unchanged && *run == lent && answer.orders == 0) {
            true => Ok(answer),
            false => Err("a refused call changes the card or the run, or reports orders".to_string()),
        }
    }

    /// Is this cut looked at?
    fn wanted(&mut self, plan: Plan, orders: &[Order], p: usize) -> bool {
        let near_fence = || orders[p.saturating_sub(2)..orders.len().min(p + 1)].contains(&Order::Fence);
        let all = orders.len() <= plan.every_cut_up_to;
        let at_an_end = p <= 2 || p == orders.len();
        all || at_an_end || near_fence() || self.rng.once_in(orders.len().div_ceil(8))
    }

    /// The player gets the orders' part of the tape and plays `p` of them.
    fn check_player(&self, image: &[u8], part: &[u64], p: usize, due: &[u8]) -> Result<(), String> {
        let mut played = image.to_vec();
        let answer = self.calls.play(&mut played, part, p as u64);
        match answer == (Answer { number: 0, orders: p as u64 }) && played == due {
            true => Ok(()),
            false => Err(format!("the player answers {answer:?} to {p} orders, or plays them wrongly")),
        }
    }

    /// Both reads give both pages of the book.
    fn check_reads(&self, history: &History) -> Result<(), String> {
        let (working, saved) = pages_read(self.calls, history.module.image(), self.sizes)?;
        match working == history.book.working.frames && saved == history.book.saved {
            true => Ok(()),
            false => Err("the reads do not give the book's pages".to_string()),
        }
    }

    /// Whether the board before a call, with its book, and the one after it are alike:
    /// exactly if the saved read of every frame gives the same in both, or no part.
    fn check_likeness(&self, image: &[u8], before: &Book, history: &History) -> Result<bool, String> {
        let alike = alike(self.calls, image, history.module.image(), self.sizes)?;
        match alike == (before.saved == history.book.saved) {
            true => Ok(alike),
            false => Err(format!("alike the board before: {alike}, due {}", !alike)),
        }
    }

    /// Looks at what may stand after a cut now: each image looked at must show
    /// one of the allowed pages. Gives the pages shown.
    fn look_at(&mut self, module: &Module, plan: Plan, allowed: &[usize]) -> Result<BTreeSet<usize>, String> {
        self.counts.cuts += 1;
        match plan.images {
            Images::All { cap } => self.look_at_all(module, cap, allowed),
            Images::Some { samples } => self.look_at_some(module, 0, samples, allowed),
            Images::Few { cap, samples } => self.look_at_some(module, cap, samples, allowed),
        }
    }

    fn look_at_all(
        &mut self,
        module: &Module,
        cap: u128,
        allowed: &[usize],
    ) -> Result<BTreeSet<usize>, String> {
        let cut = module.cut();
        if cut.count() > cap {
            return Err(format!("{} images are more than the cap", cut.count()));
        }
        self.counts.ways = self.counts.ways.saturating_add(cut.ways());
        let mut shown = BTreeSet::new();
        cut.for_all(|hash, image| {
            self.counts.images += 1;
            let page = match self.known.get(&hash) {
                Some(page) => *page,
                None => self.explore_openings(hash, image())?,
            };
            shown.insert(page);
            self.is_allowed(page, allowed)
        })?;
        Ok(shown)
    }

    fn look_at_some(
        &mut self,
        module: &Module,
        cap: u128,
        samples: usize,
        allowed: &[usize],
    ) -> Result<BTreeSet<usize>, String> {
        let cut = module.cut();
        let mut images = Vec::new();
        if cut.count() <= cap {
            cut.for_all(|_, image| {
                images.push(image());
                Ok::<(), String>(())
            })?;
        } else {
            images.extend([cut.all_oldest(), cut.all_newest()]);
            images.extend((0..samples).map(|_| cut.sample(&mut self.rng)));
        }
        let mut shown = BTreeSet::new();
        for image in images {
            self.counts.images += 1;
            let chain = self.rng.below(4);
            let stands = self.after_cut_openings(image, chain)?;
            let page = self.finish(&stands)?;
            shown.insert(page);
            self.is_allowed(page, allowed)?;
        }
        Ok(shown)
    }

    fn is_allowed(&self, page: usize, allowed: &[usize]) -> Result<(), String> {
        if allowed.contains(&page) {
            return Ok(());
        }
        let frames = |page: usize| &self.pages[page].frames;
        match allowed.iter().any(|other| frames(*other) == frames(page)) {
            true => Err("opening again shows other levels empty than those never set".to_string()),
            false => Err("opening again shows a page that is not permitted".to_string()),
        }
    }

    /// What stands after a chain of openings, each cut at random.
    fn after_cut_openings(&mut self, image: Vec<u8>, chain: usize) -> Result<Vec<u8>, String> {
        let mut stands = image;
        for _ in 0..chain {
            let orders = self.opening_again(&stands)?;
            let mut module = self.held(&stands);
            let p = self.rng.range(0, orders.len());
            orders[..p].iter().for_each(|order| module.play(*order));
            stands = module.cut().sample(&mut self.rng);
        }
        Ok(stands)
    }

    /// The page that an image shows, with every image that any chain of cut
    /// openings can leave of it showing the same. A store permits new images,
    /// those with its line at the newest stage; a flush or a fence permits none.
    fn explore_openings(&mut self, hash: u128, image: Vec<u8>) -> Result<usize, String> {
        let page = self.finish(&image)?;
        self.known.insert(hash, page);
        let mut unexplored = vec![image];
        while let Some(image) = unexplored.pop() {
            let orders = self.opening_again(&image)?;
            let mut module = self.held(&image);
            for order in orders {
                module.play(order);
                self.counts.cuts += 1;
                let Order::Store { place, .. } = order else { continue };
                let cut = module.cut().with_newest(place / LINE);
                self.counts.ways = self.counts.ways.saturating_add(cut.ways());
                cut.for_all(|hash, stands| {
                    self.counts.images += 1;
                    if !self.known.contains_key(&hash) {
                        let stands = stands();
                        let other = self.finish(&stands)?;
                        self.known.insert(hash, other);
                        unexplored.push(stands);
                    }
                    match self.known[&hash] == page {
                        true => Ok(()),
                        false => Err("a cut opening changes the page shown".to_string()),
                    }
                })?;
            }
        }
        Ok(page)
    }

    /// The orders of opening this image after a cut, lent any run that 13 does not
    /// refuse.
    fn opening_again(&mut self, image: &[u8]) -> Result<Vec<Order>, String> {
        let mut run = arbitrary::run(&mut self.rng, self.sizes.spares);
        self.opening(image, &mut run)
    }

    /// The orders of opening this image, which must be served.
    fn opening(&mut self, image: &[u8], run: &mut [Console]) -> Result<Vec<Order>, String> {
        let n = open_again(self.calls, image, self.sizes, self.kinds.given, run, &mut self.tape)?;
        let orders = self.tape.get(..n.saturating_mul(3)).and_then(|part| orders_of(part, image.len()));
        orders.ok_or("opening's tape is bad".to_string())
    }

    /// Opens an image again, with a tape that is just long enough, and
    /// finishes: the page shown by both reads.
    fn finish(&mut self, image: &[u8]) -> Result<usize, String> {
        self.counts.openings += 1;
        let n = self.opening_again(image)?.len();
        let exact = &mut self.tape[..3 * n];
        let mut run = arbitrary::run(&mut self.rng, self.sizes.spares);
        open_again(self.calls, image, self.sizes, self.kinds.given, &mut run, exact)?;
        let mut played = image.to_vec();
        let answer = self.calls.play(&mut played, exact, n as u64);
        if answer != (Answer { number: 0, orders: n as u64 }) {
            return Err("the player does not play an opening's tape".to_string());
        }
        let (working, saved) = pages_read(self.calls, &played, self.sizes)?;
        match working == saved.frames {
            true => Ok(self.page_number(&saved)),
            false => Err("after opening again the two reads differ".to_string()),
        }
    }
}

/// Opens an image again; this must be served and leave the records with no spare
/// taken (section 9.8). Gives the number of orders.
fn open_again<C: Calls>(
    calls: &C,
    image: &[u8],
    sizes: Sizes,
    kind: u64,
    run: &mut [Console],
    tape: &mut [u64],
) -> Result<usize, String> {
    let mut card = Card::zeros();
    let due: Vec<Console> = run.iter().map(|console| Console { taken: 0, ..*console }).collect();
    let answer = calls.make(&Deed::Open(sizes, kind), image, Given::of(&mut card, run, tape));
    if !answer.served() || card != Card::fresh(sizes, kind) {
        return Err(format!("opening again answers {}", answer.number));
    }
    match *run == due {
        true => Ok(answer.orders as usize),
        false => Err(format!("opening again leaves {} where {} are due", told(run), told(&due))),
    }
}

/// Is this the store of the epoch?
pub fn is_epoch_store(order: &Order) -> bool {
    matches!(order, Order::Store { place: EPOCH, .. })
}

/// The orders that a call wrote; the numbers after them keep their contents.
fn written(tape: &[u64], answer: Answer, length: usize) -> Result<Vec<Order>, String> {
    let end = answer.orders.saturating_mul(3) as usize;
    let part = tape.get(..end).ok_or("more orders are reported than the tape can hold")?;
    if tape[end..].iter().any(|number| *number != RUBBISH) {
        return Err("numbers behind the orders are changed".to_string());
    }
    orders_of(part, length).ok_or("an order is ill formed".to_string())
}
