//! Two benches, one sheet (section 17.6): nothing is left to choose, so what
//! stood in memory beforehand makes no difference.
//!
//! A bench is a module with its card, its run of consoles and a tape. Its image is
//! laid out over rubbish, and its tape holds rubbish before every call. The sheet here is
//! written with what it prints and with the pairs after each group; it runs on
//! two benches, one of whose memory held zeros, the other's random numbers,
//! and after every call both have the same orders, cards and dumps. So do
//! random histories. Like the other groups these run over any implementation of
//! the calls; over a `Compared` what the benches do is the reference's too.

use crate::arbitrary;
use crate::book::{alike, Call};
use crate::calls::*;
use crate::groups::{due, laws_tried, lines_due, plain};
use crate::laws::{Seen, Tally, Tried};
use crate::prng::Rng;
use crate::report::{Found, Outcome};
use crate::sheet;
use crate::tapes;

/// What stands in memory before anyone writes there.
pub enum Rubbish {
    Zeros,
    Random(Rng),
}

impl Rubbish {
    fn numbers(&mut self, length: usize) -> Vec<u64> {
        match self {
            Rubbish::Zeros => vec![0; length],
            Rubbish::Random(rng) => rng.words(length),
        }
    }

    fn bytes(&mut self, length: usize) -> Vec<u8> {
        match self {
            Rubbish::Zeros => vec![0; length],
            Rubbish::Random(rng) => rng.bytes(length),
        }
    }
}

/// A module with its card and its run; what stands on its tape before a call is
/// rubbish.
pub struct Bench<'a, C: Calls> {
    calls: &'a C,
    rubbish: Rubbish,
    image: Vec<u8>,
    card: Card,
    run: Vec<Console>,
}

/// What a call answered, wrote and left on a bench.
#[derive(Clone)]
pub struct Ran {
    pub answer: Answer,
    /// How many numbers its tape had, and those of its orders.
    pub tape: usize,
    pub orders: Vec<u64>,
    /// The card as it was lent and as it was left.
    pub card_lent: Card,
    pub card: Card,
    /// The run as it was lent and as it was left.
    pub lent: Vec<Console>,
    pub left: Vec<Console>,
    /// The image before it, and after its orders were played.
    pub before: Vec<u8>,
    pub dump: Vec<u8>,
}

impl Ran {
    /// Feeds a tally the call, whose orders are well formed, and holds its tape.
    pub fn feed<C: Calls>(&self, calls: &C, tally: &mut Tally, call: &Call) -> Result<Tried, String> {
        let orders = orders_of(&self.orders, self.dump.len()).ok_or("an order is ill formed")?;
        let Ran { answer, tape, card_lent, card, lent, left, before, dump, .. } = self;
        let seen = Seen {
            deed: &call.deed,
            number: answer.number,
            tape: *tape,
            orders: &orders,
            card: card_lent,
            card_left: card,
            lent,
            left,
            before,
            after: dump,
            alike: alike(calls, before, dump, tally.sizes)?,
        };
        tally.feed(seen).and_then(|tried| tapes::hold(seen, tried))
    }
}

impl<'a, C: Calls> Bench<'a, C> {
    /// A bench of one console, whose image is laid out over rubbish.
    pub fn laid_out(calls: &'a C, sizes: Sizes, mut rubbish: Rubbish) -> Bench<'a, C> {
        let mut image = rubbish.bytes(sizes.image_length());
        calls.lay_out(&mut image, sizes);
        Bench { calls, rubbish, image, card: Card::zeros(), run: vec![Console::alone(sizes)] }
    }

    /// Runs a call, with rubbish on its tape, which is so many numbers longer than
    /// the call asks for, and plays its orders.
    pub fn run(&mut self, call: &Call, longer: usize) -> Ran {
        let tape = call.tape + longer;
        let mut orders = self.rubbish.numbers(tape);
        let lent = call.lent.as_ref().unwrap_or(&self.run).clone();
        let (card_lent, mut left) = (self.card, lent.clone());
        let answer =
            self.calls.make(&call.deed, &self.image, Given::of(&mut self.card, &mut left, &mut orders));
        if call.lent.is_none() {
            self.run.clone_from(&left);
        }
        orders.truncate(answer.orders.saturating_mul(3) as usize);
        let before = self.image.clone();
        self.calls.play(&mut self.image, &orders, answer.orders);
        let (card, dump) = (self.card, self.image.clone());
        Ran { answer, tape, orders, card_lent, card, lent, left, before, dump }
    }
}

/// A sheet of levels of one frame with two spares, what it prints, and the pair
/// bytes of the spares after each of its groups.
pub struct Written {
    pub name: &'static str,
    pub input: &'static str,
    pub printed: &'static str,
    pairs: &'static [[u8; 2]],
}

/// Unpaired.
const NO: u8 = UNPAIRED;

/// The sheet of section 17.6.
pub fn sheet_of_17_6() -> Written {
    Written {
        name: "the sheet of 17.6",
        input: include_str!("../../../examples/benches.sheet"),
        printed: "open=0 orders=109
step=1 write=0 orders=1 save=- orders=0 epoch=0
step=2 write=0 orders=1 save=- orders=0 epoch=0
step=3 write=0 orders=1 save=0 orders=26 epoch=1
step=4 write=0 orders=43 save=0 orders=26 epoch=2
step=5 write=0 orders=43 save=0 orders=26 epoch=3
step=6 write=0 orders=41 save=0 orders=26 epoch=4
step=7 write=0 orders=43 save=- orders=0 epoch=4
step=8 write=0 orders=43 save=- orders=0 epoch=4
step=9 write=9 orders=0 save=0 orders=26 epoch=5
step=10 write=0 orders=43 save=- orders=0 epoch=5
",
        pairs: &[[NO, NO], [NO, NO], [NO, NO], [1, NO], [1, 0], [1, 0], [2, 0], [2, 1], [2, 1], [0, 1]],
    }
}

/// Runs a sheet on a bench, which must print what is written, line by line, and
/// have the pairs after each group.
fn as_written<C: Calls>(calls: &C, written: &Written, rubbish: Rubbish) -> Result<Vec<Ran>, String> {
    let Written { name, input, printed, pairs } = written;
    let (mut all_ran, mut pairs_seen) = (Vec::new(), vec![[0; 2]; pairs.len() + 1]);
    let output = sheet::printed_on(calls, rubbish, sheet::HALF, input.as_bytes(), |group, _, ran| {
        pairs_seen[group].copy_from_slice(&ran.dump[PAIRS..][..2]);
        all_ran.push(ran.clone());
    });
    lines_due(name, &output, printed)?;
    for (group, expected) in (1..).zip(*pairs) {
        due(&format!("{name}, pairs after group {group}"), pairs_seen[group], *expected)?;
    }
    Ok(all_ran)
}

/// Both benches ran this call with the same outcome.
fn same(call: &str, first: &Ran, second: &Ran) -> Result<(), String> {
    let agree = |what: &str, agree: bool| match agree {
        true => Ok(()),
        false => Err(format!("{call}: two benches have different {what}")),
    };
    agree("answers", first.answer == second.answer)?;
    agree("orders", first.orders == second.orders)?;
    agree("cards", first.card == second.card)?;
    agree("runs", first.left == second.left)?;
    agree("dumps", first.before == second.before && first.dump == second.dump)
}

/// The sheet of 17.6 on two benches: as written, and the same after every call.
pub fn one_sheet<C: Calls>(calls: &C) -> Outcome {
    let written = sheet_of_17_6();
    let first = as_written(calls, &written, Rubbish::Zeros)?;
    let second = as_written(calls, &written, Rubbish::Random(Rng::new(9)))?;
    for (number, (first, second)) in first.iter().zip(&second).enumerate() {
        same(&format!("{}, call {number}", written.name), first, second)?;
    }
    let ran = first.len() as u64;
    let text = format!("as written, {ran} calls with the same orders and dumps on two benches");
    Ok(Found::new(text, &[("calls on two benches", ran)]))
}

/// Random histories on two benches, from laid-out images and from sound ones, of
/// either kind of module, of one console or of several, with the same orders and dumps after every call,
/// whatever stood on their tapes and however long these are. Each law must be
/// tried.
pub fn random_histories<C: Calls>(calls: &C, seed: u64, histories: u64) -> Outcome {
    let mut rng = Rng::new(seed);
    let (mut tried, mut ran) = (Tried::default(), 0);
    for number in 0..histories {
        let sizes = sizes(&mut rng);
        let rubbish = [Rubbish::Zeros, Rubbish::Random(Rng::new(rng.word()))];
        let [mut one, mut other] = rubbish.map(|rubbish| Bench::laid_out(calls, sizes, rubbish));
        if !rng.once_in(3) {
            one.image = arbitrary::sound_image(&mut rng, sizes);
            other.image.clone_from(&one.image);
        }
        let kind = arbitrary::kind(&mut rng);
        let run = arbitrary::own_run(&mut rng, sizes);
        one.run.clone_from(&run);
        other.run.clone_from(&run);
        let mut tally = Tally::start(&one.image, sizes, &run);
        for place in 0..=CALLS {
            let call = match place {
                0 => plain(Deed::Open(sizes, kind), sizes),
                _ => arbitrary::call(&mut rng, sizes, kind, &run),
            };
            let first = one.run(&call, 0);
            // the second tape may be longer, where the first was long enough
            let longer = if first.answer.number == 11 { 0 } else { rng.range(0, 40) };
            let second = other.run(&call, longer);
            let told = format!("history {number}, sizes {sizes}: {call}");
            same(&told, &first, &second)?;
            let fed = first.feed(calls, &mut tally, &call);
            tried.add(fed.map_err(|what| format!("{told}: {what}"))?);
            ran += 1;
        }
    }
    tried.all_tried(&[])?;
    let text = format!("{histories} histories, {ran} calls with the same orders and dumps on two benches");
    Ok(Found::new(format!("{text}; {}", laws_tried(tried)), &[("calls on two benches", ran)]))
}

/// How many calls a random history has after its opening.
const CALLS: usize = 24;

/// Any small sizes; as often more levels than spares, of which there are two or
/// three; sometimes edges.
fn sizes(rng: &mut Rng) -> Sizes {
    match rng.below(50) {
        0 => arbitrary::edge_sizes(rng),
        1..=24 => Sizes::new(rng.range(4, 6) as u64, rng.range(2, 3) as u64, rng.range(1, 2) as u64),
        _ => arbitrary::sizes(rng, 4),
    }
}
