//! The C interface over slices: each function hands on what it is given and
//! returns the library's number; what the library writes is left as it wrote it.

use crate::calls::{Answer, Card, Console, Page, Sizes, Target};
use crpm::ffi::{self, Client, Session};

pub fn session_of(card: &Card) -> Session {
    let Sizes { levels, spares, frames } = card.sizes;
    Session {
        mains: levels,
        backups: spares,
        blocks: frames,
        dirty_segments: card.touched,
        dirty_blocks: card.marks,
        domain: card.kind,
    }
}

fn card_of(session: &Session) -> Card {
    let sizes = Sizes::new(session.mains, session.backups, session.blocks);
    Card { sizes, touched: session.dirty_segments, marks: session.dirty_blocks, kind: session.domain }
}

fn client_of(console: &Console) -> Client {
    Client { reserved: console.share, quota: console.limit, used: console.taken }
}

fn console_of(client: &Client) -> Console {
    Console { share: client.reserved, limit: client.quota, taken: client.used }
}

/// What a result holds before a call, which must write it.
pub const UNWRITTEN: u64 = u64::MAX;

/// A card and a run as the interface has them, and where a call writes the number
/// of its operations.
pub struct Lent {
    pub session: Session,
    pub clients: Vec<Client>,
    pub ops: u64,
}

impl Lent {
    pub fn of(card: &Card, run: &[Console]) -> Lent {
        Lent { session: session_of(card), clients: run.iter().map(client_of).collect(), ops: UNWRITTEN }
    }

    /// Hands back what a call left.
    pub fn hand_back(&self, card: &mut Card, run: &mut [Console]) {
        *card = card_of(&self.session);
        run.iter_mut().zip(&self.clients).for_each(|(console, client)| *console = console_of(client));
    }

    /// The same with what it answered.
    pub fn answer(&self, number: u64, card: &mut Card, run: &mut [Console]) -> Answer {
        self.hand_back(card, run);
        Answer { number, orders: self.ops }
    }
}

pub fn format(image: &mut [u8], sizes: Sizes) -> u64 {
    let Sizes { levels, spares, frames } = sizes;
    // SAFETY: the slice is valid for its length and not shared.
    unsafe { ffi::crpm_format(image.as_mut_ptr(), image.len(), levels, spares, frames) }
}

pub fn open(
    image: &[u8],
    sizes: Sizes,
    kind: u64,
    session: &mut Session,
    clients: &mut [Client],
    trace: &mut [u64],
    ops: &mut u64,
) -> u64 {
    // SAFETY: each slice is valid for its length, each reference for what it
    // points to; what is lent for change is not shared.
    unsafe {
        ffi::crpm_open(
            image.as_ptr(),
            image.len(),
            sizes.levels,
            sizes.spares,
            sizes.frames,
            kind,
            session,
            clients.as_mut_ptr(),
            clients.len(),
            trace.as_mut_ptr(),
            trace.len(),
            ops,
        )
    }
}

pub fn write(
    image: &[u8],
    session: &mut Session,
    clients: &mut [Client],
    target: Target,
    bytes: &[u8],
    trace: &mut [u64],
    ops: &mut u64,
) -> u64 {
    // SAFETY: as in `open`.
    unsafe {
        ffi::crpm_write(
            image.as_ptr(),
            image.len(),
            session,
            clients.as_mut_ptr(),
            clients.len(),
            target.console,
            target.level,
            target.frame,
            target.offset,
            bytes.as_ptr(),
            bytes.len(),
            trace.as_mut_ptr(),
            trace.len(),
            ops,
        )
    }
}

/// The session is lent for change, so that one is noticed that the library changes.
pub fn discard(image: &[u8], session: &mut Session, level: u64, trace: &mut [u64], ops: &mut u64) -> u64 {
    let session = std::ptr::from_mut(session).cast_const();
    // SAFETY: as in `open`.
    unsafe {
        ffi::crpm_discard(image.as_ptr(), image.len(), session, level, trace.as_mut_ptr(), trace.len(), ops)
    }
}

pub fn checkpoint(
    image: &[u8],
    session: &mut Session,
    clients: &mut [Client],
    trace: &mut [u64],
    ops: &mut u64,
) -> u64 {
    // SAFETY: as in `open`.
    unsafe {
        ffi::crpm_checkpoint(
            image.as_ptr(),
            image.len(),
            session,
            clients.as_mut_ptr(),
            clients.len(),
            trace.as_mut_ptr(),
            trace.len(),
            ops,
        )
    }
}

pub fn replay(image: &mut [u8], trace: &[u64], n: u64, played: &mut u64) -> u64 {
    // SAFETY: as in `open`.
    unsafe { ffi::crpm_replay(image.as_mut_ptr(), image.len(), trace.as_ptr(), trace.len(), n, played) }
}

/// Where a read says that its part starts, and its size.
#[derive(Clone, Copy, PartialEq, Eq, Debug)]
pub struct Extent {
    pub start: u64,
    pub size: u64,
}

pub fn read(page: Page, image: &[u8], sizes: Sizes, level: u64, frame: u64, found: &mut Extent) -> u64 {
    let call = match page {
        Page::Working => ffi::crpm_read_working,
        Page::Saved => ffi::crpm_read_checkpoint,
    };
    // SAFETY: as in `open`.
    unsafe {
        call(
            image.as_ptr(),
            image.len(),
            sizes.levels,
            sizes.spares,
            sizes.frames,
            level,
            frame,
            &mut found.start,
            &mut found.size,
        )
    }
}

pub fn same(first: &[u8], second: &[u8], sizes: Sizes, same: &mut u64) -> u64 {
    // SAFETY: as in `open`.
    unsafe {
        ffi::crpm_same_checkpoint(
            first.as_ptr(),
            first.len(),
            second.as_ptr(),
            second.len(),
            sizes.levels,
            sizes.spares,
            sizes.frames,
            same,
        )
    }
}
