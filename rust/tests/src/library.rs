//! The proved library behind the common interface, in two ways: `Library` calls
//! the C interface as it stands, `Wrapped` the safe calls of crate `crpm`.

use crate::calls::*;
use crate::raw::{self, Extent, Lent, UNWRITTEN};
use crpm::ffi::Session;
use crpm::{Client, Domain, Layout, Op, Ops, Refusal};

/// The C interface: what is answered and left is what the library writes.
pub struct Library;

impl Calls for Library {
    fn lay_out(&self, image: &mut [u8], sizes: Sizes) -> u64 {
        raw::format(image, sizes)
    }

    fn make(&self, deed: &Deed, image: &[u8], Given { card, run, tape }: Given) -> Answer {
        let mut lent = Lent::of(card, run);
        let Lent { session, clients, ops } = &mut lent;
        let number = match deed {
            Deed::Open(sizes, kind) => raw::open(image, *sizes, *kind, session, clients, tape, ops),
            Deed::Write(target, bytes) => raw::write(image, session, clients, *target, bytes, tape, ops),
            Deed::Discard(level) => raw::discard(image, session, *level, tape, ops),
            Deed::Save => raw::checkpoint(image, session, clients, tape, ops),
        };
        lent.answer(number, card, run)
    }

    fn play(&self, image: &mut [u8], tape: &[u64], n: u64) -> Answer {
        let mut orders = UNWRITTEN;
        let number = raw::replay(image, tape, n, &mut orders);
        Answer { number, orders }
    }

    fn read(&self, page: Page, image: &[u8], sizes: Sizes, level: u64, frame: u64) -> Part {
        let mut found = Extent { start: UNWRITTEN, size: UNWRITTEN };
        let number = raw::read(page, image, sizes, level, frame, &mut found);
        Part { number, start: found.start, length: found.size }
    }

    fn like(&self, first: &[u8], second: &[u8], sizes: Sizes) -> (u64, bool) {
        let mut same = UNWRITTEN;
        let number = raw::same(first, second, sizes, &mut same);
        match same {
            0 | 1 => (number, same == 1),
            _ => (UNWRITTEN, false),
        }
    }
}

/// The safe calls. What a refusal leaves is what section 14 says: the types
/// show no more of it. An opening with a kind that the type has not is left to
/// `Library`.
pub struct Wrapped;

fn layout(sizes: Sizes) -> Result<Layout, Refusal> {
    Layout::new(sizes.levels as usize, sizes.spares as usize, sizes.frames as usize)
}

fn number<T>(result: Result<T, Refusal>) -> u64 {
    result.err().map_or(0, Refusal::number)
}

/// The orders that the operations stand for; they must be those on the tape.
fn answer(result: Result<Ops, Refusal>) -> Answer {
    let orders = result.map_or(0, |ops| {
        let numbers = ops.into_iter().flat_map(|op| {
            match op {
                Op::Store { place, word } => Order::Store { place, word },
                Op::Clwb { place } => Order::Flush { place },
                Op::Sfence => Order::Fence,
            }
            .numbers()
        });
        match numbers.eq(ops.numbers().iter().copied()) {
            true => ops.len() as u64,
            false => UNWRITTEN,
        }
    });
    Answer { number: number(result), orders }
}

/// Runs a call on a session and clients of any contents.
fn with_lent<'a>(
    card: &mut Card,
    run: &mut [Console],
    call: impl FnOnce(&mut crpm::Session, &mut [Client]) -> Result<Ops<'a>, Refusal>,
) -> Answer {
    let mut lent = Lent::of(card, run);
    // SAFETY: a `crpm::Session` has the layout of its words.
    let session = unsafe { &mut *std::ptr::from_mut(&mut lent.session).cast() };
    let answer = answer(call(session, &mut lent.clients));
    lent.hand_back(card, run);
    answer
}

impl Calls for Wrapped {
    fn lay_out(&self, image: &mut [u8], sizes: Sizes) -> u64 {
        number(layout(sizes).and_then(|layout| crpm::format(image, layout)))
    }

    fn make(&self, deed: &Deed, image: &[u8], Given { card, run, tape }: Given) -> Answer {
        match deed {
            Deed::Open(_, 2..) => Library.make(deed, image, Given::of(card, run, tape)),
            Deed::Open(sizes, kind) => {
                let domain = if *kind == ADR { Domain::Adr } else { Domain::Eadr };
                let mut lent = Lent::of(card, run);
                let opened = layout(*sizes)
                    .and_then(|layout| crpm::open(image, layout, domain, &mut lent.clients, tape));
                lent.session = opened.as_ref().map_or(Session::ZEROS, |(session, _)| *session.words());
                lent.hand_back(card, run);
                answer(opened.map(|(_, ops)| ops))
            }
            Deed::Write(Target { console, level, frame, offset }, bytes) => {
                let [client, main, block, offset] = [console, level, frame, offset].map(|n| *n as usize);
                with_lent(card, run, |session, clients| {
                    crpm::write(image, session, clients, client, main, block, offset, bytes, tape)
                })
            }
            Deed::Discard(level) => {
                with_lent(card, run, |session, _| crpm::discard(image, session, *level as usize, tape))
            }
            Deed::Save => {
                with_lent(card, run, |session, clients| crpm::checkpoint(image, session, clients, tape))
            }
        }
    }

    fn play(&self, image: &mut [u8], tape: &[u64], n: u64) -> Answer {
        let played = crpm::replay(image, tape, n as usize);
        Answer { number: number(played), orders: played.unwrap_or(0) as u64 }
    }

    fn read(&self, page: Page, image: &[u8], sizes: Sizes, level: u64, frame: u64) -> Part {
        let (main, block) = (level as usize, frame as usize);
        let part = layout(sizes).and_then(|layout| match page {
            Page::Working => crpm::read_working(image, layout, main, block).map(Some),
            Page::Saved => crpm::read_checkpoint(image, layout, main, block),
        });
        let (start, length) = part
            .ok()
            .flatten()
            .map_or((0, 0), |bytes| (bytes.as_ptr().addr() - image.as_ptr().addr(), bytes.len()));
        Part { number: number(part), start: start as u64, length: length as u64 }
    }

    fn like(&self, first: &[u8], second: &[u8], sizes: Sizes) -> (u64, bool) {
        let same = layout(sizes).and_then(|layout| crpm::same_checkpoint(first, second, layout));
        (number(same), same.unwrap_or(false))
    }
}
