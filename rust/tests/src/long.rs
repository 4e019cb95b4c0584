//! The group of long writes: the registrations of 700 bytes of section 17.5, at
//! every cut, or at those that the plan chooses.
//!
//! The steps L1 to L7 stand in a table with what section 17.5 expects of them.
//! They are gone through by numbers first: orders, marks, the stores of the
//! spans, both reads byte by byte. Then power goes at the cuts of each, and
//! opening again shows a page of the table whole, never a mixture: the page last
//! saved, or either of two in a save's window. `after_cuts` goes on from there;
//! `longest_writes` tries the tape that always suffices (section 6.4).
//! Like the other groups these run over any implementation of the calls.

use crate::arbitrary::{distinct_data, image_of, Metadata};
use crate::book::{pages_read, Call, Contents};
use crate::calls::*;
use crate::crash::Module;
use crate::explore::*;
use crate::groups::{cut_line, due, found, laid_out, plain};
use crate::prng::Rng;
use crate::report::{Found, Outcome};
use std::collections::BTreeSet;

const SIZES: Sizes = Sizes::new(1, 1, 4);
const OFFSET: u64 = 30;

/// A step of the story and what is due of it.
struct Row {
    name: &'static str,
    deed: Deed,
    number: u64,
    orders: u64,
    /// The marks of the level on the card after it.
    marks: u64,
    /// The stores to the spare: the words of the frames copied.
    copied: usize,
    /// The page after it, and the page last saved, by their places in `pages`.
    working: usize,
    saved: usize,
}

/// Bytes of which none is zero, at each place others for each turn.
fn registration(turn: usize, length: usize) -> Vec<u8> {
    (0..length).map(|i| (1 + (7 * i + 85 * turn) % 255) as u8).collect()
}

fn write(frame: u64, offset: u64, turn: usize, length: usize) -> Deed {
    Deed::Write(Target { console: 0, level: 0, frame, offset }, registration(turn, length))
}

/// The pages of the story: zeros, then each with one more registration, at 30
/// bytes behind the start of its frame.
fn pages() -> [Vec<u8>; 5] {
    let with = |page: &[u8], at: usize, turn, length| {
        let mut next = page.to_vec();
        next[at..at + length].copy_from_slice(&registration(turn, length));
        next
    };
    let zeros = vec![0; 1024];
    let first = with(&zeros, 30, 0, 700);
    let second = with(&first, 286, 1, 700);
    let third = with(&second, 30, 2, 700);
    let last = with(&third, 30, 0, 994);
    [zeros, first, second, third, last]
}

fn rows() -> Vec<Row> {
    let row = |name, deed, (number, orders, marks), copied, (working, saved)| Row {
        name,
        deed,
        number,
        orders,
        marks,
        copied,
        working,
        saved,
    };
    vec![
        row("L1", Deed::Open(SIZES, ADR), (0, 145, 0), 0, (0, 0)),
        row("L2", write(0, OFFSET, 0, 700), (0, 89, 0b0111), 0, (1, 0)),
        row("L3", Deed::Save, (0, 26, 0b0111), 0, (1, 1)),
        row("L4", write(1, OFFSET, 1, 700), (0, 239, 0b1110), 128, (2, 1)),
        row("L5", Deed::Save, (0, 26, 0b1110), 0, (2, 2)),
        row("L6", write(0, OFFSET, 2, 700), (0, 201, 0b0111), 96, (3, 2)),
        row("L7, 700 bytes from frame 2", write(2, OFFSET, 0, 700), (8, 0, 0b0111), 0, (3, 2)),
        row("L7, a byte at 256", write(0, 256, 0, 1), (8, 0, 0b0111), 0, (3, 2)),
        row("L7, 994 bytes", write(0, OFFSET, 0, 994), (0, 125, 0b1111), 0, (4, 2)),
        row("L7, 995 bytes", write(0, OFFSET, 0, 995), (8, 0, 0b1111), 0, (4, 2)),
    ]
}

/// The places of the words that a call stores in the level, and how many it
/// stores in the spare.
fn stores(orders: &[Order]) -> (Vec<usize>, usize) {
    let spare = SIZES.in_spare(0, 0);
    let places = orders.iter().filter_map(|order| match order {
        Order::Store { place, .. } if *place >= DATA => Some(*place),
        _ => None,
    });
    let (copied, own): (Vec<usize>, Vec<usize>) = places.partition(|place| *place >= spare);
    (own, copied.len())
}

/// What is kept between the calls of one console.
struct Kept {
    card: Card,
    run: [Console; 1],
}

impl Kept {
    fn before_opening() -> Kept {
        Kept { card: Card::zeros(), run: [Console::alone(SIZES)] }
    }

    /// A call's answer, and the numbers of its orders.
    fn answered<C: Calls>(&mut self, calls: &C, image: &[u8], deed: &Deed) -> (Answer, Vec<u64>) {
        let mut tape = vec![0; SIZES.room()];
        let answer = calls.make(deed, image, Given::of(&mut self.card, &mut self.run, &mut tape));
        tape.truncate(answer.orders.saturating_mul(3) as usize);
        (answer, tape)
    }
}

/// The story without cuts.
fn by_numbers<C: Calls>(calls: &C) -> Result<(), String> {
    let (mut image, mut kept) = (laid_out(calls, SIZES)?, Kept::before_opening());
    for Row { name, deed, number, orders, marks, copied, working, saved } in rows() {
        let (answer, tape) = kept.answered(calls, &image, &deed);
        due(&format!("{name} number"), answer.number, number)?;
        due(&format!("{name} orders"), answer.orders, orders)?;
        due(&format!("{name} marks"), kept.card.marks[0], marks)?;
        let (places, in_spare) = stores(&orders_of(&tape, image.len()).ok_or("an order is ill formed")?);
        due(&format!("{name} words copied"), in_spare, copied)?;
        if name == "L2" {
            due("L2 stores", places, (536..=1240).step_by(8).collect())?;
        }
        calls.play(&mut image, &tape, answer.orders);
        let read = pages_read(calls, &image, SIZES)?;
        let page = |at: usize| pages()[at].clone();
        due(&format!("{name} reads"), (read.0, read.1.frames), (page(working), page(saved)))?;
    }
    Ok(())
}

/// The story with this plan for its cuts, which looks at every cut of a save.
pub fn long_writes<C: Calls>(calls: &C, plan: Plan) -> Outcome {
    by_numbers(calls)?;
    let mut explorer = Explorer::new(calls, SIZES, 7);
    let mut history = explorer.start(&laid_out(calls, SIZES)?, plan)?;
    let pages = pages().map(|frames| {
        let set = u64::from(frames.iter().any(|byte| *byte != 0));
        explorer.page_number(&Contents { frames, set })
    });
    let mut before = 0;
    for Row { name, deed, saved, .. } in rows().into_iter().skip(1) {
        let call: Call = plain(deed, SIZES);
        let told = |what| format!("{name}: {what}");
        let step = explorer.step(&mut history, &call, plan).map_err(told)?;
        let shows = |at: usize| BTreeSet::from([pages[at]]);
        if call.deed == Deed::Save {
            cut_line(name, &step, Kinds::ADR)?;
            due(&format!("{name}, the page before"), step.shown.first(), Some(&shows(before)))?;
            due(&format!("{name}, the page after"), step.shown.last(), Some(&shows(saved)))?;
        } else {
            let other = step.shown.iter().find(|shown| **shown != shows(saved));
            due(&format!("{name}, another page than that last saved"), other, None)?;
        }
        before = saved;
    }
    let counts = Counts { histories: 1, ..explorer.counts() };
    let Counts { calls, cuts, images, openings, .. } = counts;
    let text = format!("L1 to L7: {calls} calls, {cuts} cuts, {images} images, {openings} finished openings");
    Ok(found(format!("{text}, each of one page whole"), counts))
}

/// Power goes at every cut of L1 to L4. From the oldest and the newest image
/// left and from a sample the story goes on: the opening shows the page last
/// saved or, in L3, its new one; then a registration is written and saved, and
/// it stands whole over what was shown, after one more opening too.
pub fn after_cuts<C: Calls>(calls: &C) -> Outcome {
    let (mut rng, mut restarts) = (Rng::new(8), 0);
    let (mut module, mut kept) = (Module::held(ADR, &laid_out(calls, SIZES)?), Kept::before_opening());
    let mut before = 0;
    for Row { name, deed, saved, .. } in rows().into_iter().take(4) {
        let (_, tape) = kept.answered(calls, module.image(), &deed);
        let orders = orders_of(&tape, module.image().len()).ok_or("an order is ill formed")?;
        for p in 0..=orders.len() {
            if p > 0 {
                module.play(orders[p - 1]);
            }
            let cut = module.cut();
            for image in [cut.all_oldest(), cut.all_newest(), cut.sample(&mut rng)] {
                let told = |what| format!("{name}, cut after {p} of {} orders: {what}", orders.len());
                register_again(calls, image, [before, saved]).map_err(told)?;
                restarts += 1;
            }
        }
        before = saved;
    }
    Ok(Found::new(format!("{restarts} restarts, a registration written and saved after each"), &[]))
}

/// Opens an image, which shows one of these pages, writes a registration, saves
/// it and opens again.
fn register_again<C: Calls>(calls: &C, mut image: Vec<u8>, shown: [usize; 2]) -> Result<(), String> {
    let mut kept = Kept::before_opening();
    let mut served = |image: &mut [u8], deed: Deed| {
        let (answer, tape) = kept.answered(calls, image, &deed);
        calls.play(image, &tape, answer.orders);
        due(&plain(deed, SIZES).to_string(), answer.number, 0)
    };
    served(&mut image, Deed::Open(SIZES, ADR))?;
    let (mut page, saved) = pages_read(calls, &image, SIZES)?;
    due("both reads alike", page == saved.frames, true)?;
    due("a page of the story whole", shown.iter().any(|at| pages()[*at] == page), true)?;
    served(&mut image, write(0, OFFSET, 2, 700))?;
    served(&mut image, Deed::Save)?;
    page[30..730].copy_from_slice(&registration(2, 700));
    for _ in 0..2 {
        let (working, saved) = pages_read(calls, &image, SIZES)?;
        due("the registration whole", working == page && saved.frames == page, true)?;
        served(&mut image, Deed::Open(SIZES, ADR))?;
    }
    Ok(())
}

/// The longest write there is for every size of a level: all its bytes, with a
/// copy of it to a new spare. It fills the tape that always suffices; with a
/// number less it hears 11, with a byte more 8.
pub fn longest_writes<C: Calls>(calls: &C) -> Outcome {
    for frames in 1..=MOST {
        let sizes = Sizes::new(1, 1, frames);
        let own = Metadata { states: vec![1], pairs: vec![UNPAIRED] };
        let image = image_of(sizes, 6, &own, 0, &distinct_data(sizes));
        let (length, orders) = (256 * frames as usize, 36 * frames + 6 + 32 * frames);
        let bytes = registration(1, length + 1);
        let write = |length: usize, numbers: u64| {
            let (mut card, mut tape) = (Card::fresh(sizes, ADR), vec![0; numbers as usize]);
            let target = Target { console: 0, level: 0, frame: 0, offset: 0 };
            let (mut run, deed) = ([Console::alone(sizes)], Deed::Write(target, bytes[..length].to_vec()));
            let answer = calls.make(&deed, &image, Given::of(&mut card, &mut run, &mut tape));
            ((answer.number, answer.orders, card.marks[0]), tape)
        };
        let told = |what| format!("the longest write at {sizes}, {what}");
        let (answer, tape) = write(length, 3 * orders);
        due(&told("its orders and marks"), answer, (0, orders, u64::MAX >> (64 - frames)))?;
        due(&told("a number less"), write(length, 3 * orders - 1).0, (11, 0, 0))?;
        due(&told("a byte more"), write(length + 1, 3 * orders).0, (8, 0, 0))?;
        let mut played = image.clone();
        calls.play(&mut played, &tape, orders);
        let (working, saved) = pages_read(calls, &played, sizes)?;
        due(&told("the working page"), working == bytes[..length], true)?;
        due(&told("the saved page"), saved.frames == image[DATA..][..length], true)?;
    }
    Ok(Found::new(format!("{MOST} sizes of a level, each with the tape that just suffices"), &[]))
}
