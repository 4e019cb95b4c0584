//! Checkpoints in non-volatile memory that no power cut divides.
//!
//! Non-volatile memory stands behind a processor cache. When power fails, the
//! cache may have written back any of the lines that were waiting, so an update
//! in place can leave any mixture of old and new. This library, which is proved
//! in Rattle, keeps a checkpoint whole through every such cut; this crate is its
//! C interface (`include/crpm.h`) for Rust: the same nine calls by the same
//! names, in the same order of parameters.
//!
//! An *image* is the contents of the module's memory. A call reads it and
//! writes what is to be done to it on a *trace* that the caller lends: stores,
//! write-backs and fences. The caller carries these [`Ops`] out, all of them
//! and in their order, before the next call. Only [`format()`] and [`replay`]
//! change an image.
//!
//! Modules are of two kinds, by what a power cut leaves of the cache before
//! them, and an opening is told which it is: a [`Domain`].
//!
//! ```
//! use crpm::{Client, Domain, Layout, Op, Ops, Refusal};
//!
//! fn main() -> Result<(), Refusal> {
//!     let layout = Layout::new(2, 1, 1)?; // main segments, backup segments, blocks
//!     let mut image = vec![0; layout.image_size()]; // stands for the module's memory
//!     let mut trace = vec![0; layout.trace_length()];
//!     let mut clients = [Client::new(1, 1)]; // one, for which every backup segment is kept
//!     crpm::format(&mut image, layout)?; // on a module: flush every line, then fence
//!
//!     // a program's start; on a module: flush every line and fence before it
//!     let (mut session, ops) = crpm::open(&image, layout, Domain::Adr, &mut clients, &mut trace)?;
//!     carry_out(&mut image, ops);
//!     let ops = crpm::write(&image, &mut session, &mut clients, 0, 0, 0, 6, b"oboe", &mut trace)?;
//!     carry_out(&mut image, ops);
//!     let ops = crpm::checkpoint(&image, &mut session, &mut clients, &mut trace)?;
//!     carry_out(&mut image, ops);
//!
//!     let block = crpm::read_checkpoint(&image, layout, 0, 0)?.expect("it was written to");
//!     assert_eq!(&block[6..10], b"oboe");
//!     Ok(())
//! }
//!
//! /// On memory without a cache before it. On a module `Clwb` and `Sfence` are
//! /// the processor's instructions.
//! fn carry_out(image: &mut [u8], ops: Ops) {
//!     for op in ops {
//!         match op {
//!             Op::Store { place, word } => image[place..][..8].copy_from_slice(&word.to_le_bytes()),
//!             Op::Clwb { .. } | Op::Sfence => {}
//!         }
//!     }
//! }
//! ```
//!
//! # What every caller must know
//!
//! - At a program's start, always, and after a call whose operations were not
//!   all carried out: flush every line of the image and fence, then [`open`]. A
//!   process that was killed or gave up among the operations of a call leaves
//!   stores that are not durable, and an opening flushes no metadata: without
//!   this a later power cut can lose or mix checkpoints. After a power cut the
//!   flush changes nothing. On [`Domain::Eadr`] nothing needs flushing, and it
//!   does no harm.
//! - Give every opening the module's own [`Domain`]; in doubt [`Domain::Adr`].
//!   With [`Domain::Eadr`] on a module that is not, a power cut can lose or mix the
//!   bytes of finished checkpoints, and no call can check it.
//! - After [`format()`] on a module, flush every line and fence before anything
//!   else. A format whose lines never reached the module can lose every later
//!   checkpoint. That an opening is served is no sign that a format finished:
//!   keep a mark of your own, outside the image, set after that fence.
//! - Never format because an opening was refused; keep the dump first.
//! - A [`Session`] belongs to the image that it was opened on, until the next
//!   opening of that image. It cannot be copied, and it ends with the process:
//!   after a restart, open. [`Refusal::BadSession`] does not catch every wrong
//!   one, and a wrong one that is served can turn the checkpoint to old bytes.
//! - The image is the module's memory, mapped so that a flush reaches it. Its
//!   byte 0 stands at an address divisible by 64, and the processor's cache line
//!   is 64 bytes. Each store of a trace is one aligned 8-byte store.
//! - One image, one writer: nothing else stores into it. Several clients that
//!   write the same image are lent to its calls as one run of [`Client`]s, which
//!   only the calls change; then a client below its reserved backup segments is
//!   never refused with [`Refusal::NoFreeBackup`], [`Refusal::QuotaReached`] or
//!   [`Refusal::BackupsReserved`], from the first served checkpoint after the
//!   latest opening on, whatever the others write. The first opening of a program
//!   is lent a run with nothing used.
//!
//! # Building
//!
//! The library is linked in: `target/staticlib/libcapi.a` of this repository
//! (`scripts/prove capi` writes it), or the file that the environment variable
//! `CRPM_LIBRARY` names by its absolute path, such as an installed
//! `/usr/local/lib/libcrpm.a`.

#![no_std]
#![deny(missing_docs)]

mod domain;
pub mod ffi;
mod layout;
mod refusal;
mod trace;

pub use domain::Domain;
pub use ffi::Client;
pub use layout::*;
pub use refusal::Refusal;
pub use trace::*;

/// The version of the interface.
pub const VERSION: &str = env!("CARGO_PKG_VERSION");

/// What is known of an image since it was opened: which main segments and
/// blocks were written to.
///
/// [`open`] makes it, [`write()`] and [`checkpoint`] take it and change it,
/// [`discard`] only reads it; a refused call leaves it as it was. It has the
/// layout of `struct crpm_session`, so that a pointer to one of C can be cast.
#[derive(PartialEq, Eq, Debug)]
#[repr(transparent)]
pub struct Session(ffi::Session);

impl Session {
    /// Its words.
    pub const fn words(&self) -> &ffi::Session {
        &self.0
    }
}

/// The library returns no other numbers than 0 and those of the refusals.
fn served(status: u64) -> Result<(), Refusal> {
    match status {
        0 => Ok(()),
        number => Err(Refusal::ALL[number as usize - 1]),
    }
}

/// Formats an image: epoch 0, these sizes, every state 0, no backup segment
/// paired, every segment zero. Whatever was there is lost.
///
/// A format is not safe against a power cut: format again after one. The next
/// opening may serve what a cut left and show old bytes, so only a mark of your
/// own says that it finished.
///
/// # Errors
///
/// [`Refusal::BadLength`].
pub fn format(image: &mut [u8], layout: Layout) -> Result<(), Refusal> {
    // SAFETY: the slice is valid for its length and not shared.
    served(unsafe {
        ffi::crpm_format(
            image.as_mut_ptr(),
            image.len(),
            layout.mains() as u64,
            layout.backups() as u64,
            layout.blocks() as u64,
        )
    })
}

/// Opens an image, which recovers: once its operations are carried out, the
/// working bytes are those of the last checkpoint. At a program's start flush
/// every line of the image and fence before it. Nothing is used by any client
/// then.
///
/// The session has the kind of the module, which the calls up to the next opening
/// find there. With [`Domain::Eadr`] none of them gives [`Op::Clwb`].
///
/// ```
/// # fn main() -> Result<(), crpm::Refusal> {
/// use crpm::{Domain, Op};
/// # let layout = crpm::Layout::new(2, 1, 1)?;
/// # let (mut image, mut trace) = (vec![0; layout.image_size()], vec![0; layout.trace_length()]);
/// # let mut clients = [crpm::Client::new(1, 1)];
/// # crpm::format(&mut image, layout)?;
///
/// let (_, ops) = crpm::open(&image, layout, Domain::Adr, &mut clients, &mut trace)?;
/// assert_eq!(ops.len(), 73);
/// let (session, ops) = crpm::open(&image, layout, Domain::Eadr, &mut clients, &mut trace)?;
/// assert_eq!(ops.len(), 65);
/// assert!(!ops.into_iter().any(|op| matches!(op, Op::Clwb { .. })));
/// assert_eq!(session.words().domain, Domain::Eadr.number());
/// # Ok(())
/// # }
/// ```
///
/// # Errors
///
/// In this order: [`Refusal::BadLength`] to [`Refusal::Invalid`],
/// [`Refusal::BadClients`], [`Refusal::TraceShort`].
pub fn open<'t>(
    image: &[u8],
    layout: Layout,
    domain: Domain,
    clients: &mut [Client],
    trace: &'t mut [u64],
) -> Result<(Session, Ops<'t>), Refusal> {
    let (mut session, mut ops) = (ffi::Session::ZEROS, 0);
    // SAFETY: each slice is valid for its length, each reference for what it
    // points to; what is lent for change is not shared.
    served(unsafe {
        ffi::crpm_open(
            image.as_ptr(),
            image.len(),
            layout.mains() as u64,
            layout.backups() as u64,
            layout.blocks() as u64,
            domain.number(),
            &mut session,
            clients.as_mut_ptr(),
            clients.len(),
            trace.as_mut_ptr(),
            trace.len(),
            &mut ops,
        )
    })?;
    Ok((Session(session), Ops::first(trace, ops)))
}

/// Writes bytes to a main segment, from an offset in a block on.
///
/// They may run on through the following blocks, to the end of the main segment:
/// the offset is 0 to 255, and offset and length together at most
/// [`BLOCK_SIZE`] times the blocks from this one on. Byte k of a main segment has
/// block k / 256 and offset k % 256. The main segment is copied once at most,
/// however long the write is. If it needs a new backup segment for that, it takes
/// the lowest unpaired one; if all are paired, the lowest whose main segment is in
/// state 1. So the same calls on the same image always give the same operations.
/// Every block that the write meets becomes dirty.
///
/// `client` is the number of the writer's record. A write that copies its main
/// segment, whether to a new backup segment or to its own, and even if no block of
/// it is dirty, adds 1 to what that client has used.
///
/// ```
/// # fn main() -> Result<(), crpm::Refusal> {
/// let layout = crpm::Layout::new(1, 1, 4)?;
/// let mut image = vec![0; layout.image_size()];
/// let mut trace = vec![0; layout.trace_length()];
/// let mut clients = [crpm::Client::new(1, 1)];
/// crpm::format(&mut image, layout)?;
/// let (mut session, ops) = crpm::open(&image, layout, crpm::Domain::Adr, &mut clients, &mut trace)?;
/// crpm::replay(&mut image, ops, ops.len())?; // stands for carrying out
///
/// // from byte 30 of block 0 over blocks 0, 1 and 2
/// let bytes: Vec<u8> = (0..700).map(|i| i as u8).collect();
/// let ops = crpm::write(&image, &mut session, &mut clients, 0, 0, 0, 30, &bytes, &mut trace)?;
/// assert_eq!(ops.len(), 89); // one store for each word that it meets
/// assert_eq!(session.words().dirty_blocks[0], 0b0111);
/// crpm::replay(&mut image, ops, ops.len())?;
/// let blocks = [0, 1, 2].map(|block| crpm::read_working(&image, layout, 0, block));
/// assert_eq!(blocks[0]?[30..], bytes[..226]);
/// assert_eq!(blocks[1]?[..], bytes[226..482]);
/// assert_eq!(blocks[2]?[..218], bytes[482..]);
///
/// // one byte more than the main segment has from there on
/// let refused = crpm::write(&image, &mut session, &mut clients, 0, 0, 0, 30, &[0; 995], &mut trace);
/// assert_eq!(refused, Err(crpm::Refusal::BadSpan));
/// # Ok(())
/// # }
/// ```
///
/// # Errors
///
/// In this order: [`Refusal::BadLength`] to [`Refusal::BadSession`],
/// [`Refusal::BadClients`], [`Refusal::NoSuchMain`] to [`Refusal::NoFreeBackup`],
/// [`Refusal::QuotaReached`], [`Refusal::BackupsReserved`],
/// [`Refusal::TraceShort`].
#[allow(clippy::too_many_arguments)] // those of the C interface
pub fn write<'t>(
    image: &[u8],
    session: &mut Session,
    clients: &mut [Client],
    client: usize,
    main: usize,
    block: usize,
    offset: usize,
    bytes: &[u8],
    trace: &'t mut [u64],
) -> Result<Ops<'t>, Refusal> {
    let mut ops = 0;
    // SAFETY: as in `open`.
    served(unsafe {
        ffi::crpm_write(
            image.as_ptr(),
            image.len(),
            &mut session.0,
            clients.as_mut_ptr(),
            clients.len(),
            client as u64,
            main as u64,
            block as u64,
            offset as u64,
            bytes.as_ptr(),
            bytes.len(),
            trace.as_mut_ptr(),
            trace.len(),
            &mut ops,
        )
    })?;
    Ok(Ops::first(trace, ops))
}

/// Drops what was written to a main segment since the last checkpoint: once its
/// operations are carried out, the working bytes of the main segment are those of
/// the checkpoint.
///
/// For each dirty block of a dirty main segment they are 32 stores, upward: its
/// words as they stand in the backup segment, or zeros if no checkpoint has bytes of
/// this main segment. None is flushed, and there is no fence. A main segment that is
/// not dirty gets no operation, and then any trace is long enough, even one of no
/// numbers. The session stays: the main segment and its blocks stay dirty, since a
/// later checkpoint must still flush them. No client is charged, and the backup
/// segment stays in use until the checkpoint. A power cut inside the call or after it
/// shows the last checkpoint, as one inside a write does.
///
/// ```
/// # fn main() -> Result<(), crpm::Refusal> {
/// let layout = crpm::Layout::new(2, 1, 1)?;
/// let mut image = vec![0; layout.image_size()];
/// let mut trace = vec![0; layout.trace_length()];
/// let mut clients = [crpm::Client::new(1, 1)];
/// crpm::format(&mut image, layout)?;
/// let (mut session, ops) = crpm::open(&image, layout, crpm::Domain::Adr, &mut clients, &mut trace)?;
/// crpm::replay(&mut image, ops, ops.len())?; // stands for carrying out
/// let ops = crpm::write(&image, &mut session, &mut clients, 0, 0, 0, 6, b"oboe", &mut trace)?;
/// crpm::replay(&mut image, ops, ops.len())?;
/// let ops = crpm::checkpoint(&image, &mut session, &mut clients, &mut trace)?;
/// crpm::replay(&mut image, ops, ops.len())?;
///
/// // an edit, and its end
/// let ops = crpm::write(&image, &mut session, &mut clients, 0, 0, 0, 6, b"flue", &mut trace)?;
/// crpm::replay(&mut image, ops, ops.len())?;
/// assert_eq!(&crpm::read_working(&image, layout, 0, 0)?[6..10], b"flue");
/// let ops = crpm::discard(&image, &session, 0, &mut trace)?;
/// assert_eq!(ops.len(), 32); // one dirty block
/// crpm::replay(&mut image, ops, ops.len())?;
/// assert_eq!(&crpm::read_working(&image, layout, 0, 0)?[6..10], b"oboe");
/// assert_eq!(session.words().dirty_segments, 1);
///
/// // nobody wrote to main segment 1
/// assert!(crpm::discard(&image, &session, 1, &mut [])?.is_empty());
/// # Ok(())
/// # }
/// ```
///
/// # Errors
///
/// In this order: [`Refusal::BadLength`] to [`Refusal::NoSuchMain`],
/// [`Refusal::TraceShort`].
pub fn discard<'t>(
    image: &[u8],
    session: &Session,
    main: usize,
    trace: &'t mut [u64],
) -> Result<Ops<'t>, Refusal> {
    let mut ops = 0;
    // SAFETY: as in `open`.
    served(unsafe {
        ffi::crpm_discard(
            image.as_ptr(),
            image.len(),
            &session.0,
            main as u64,
            trace.as_mut_ptr(),
            trace.len(),
            &mut ops,
        )
    })?;
    Ok(Ops::first(trace, ops))
}

/// Makes the working bytes the checkpoint, in one step: a power cut shows the
/// old checkpoint or the new one, whole. Every backup segment is free after it, and
/// nothing is used by any client.
///
/// # Errors
///
/// In this order: [`Refusal::BadLength`] to [`Refusal::BadSession`],
/// [`Refusal::BadClients`], [`Refusal::EpochLimit`], [`Refusal::TraceShort`].
pub fn checkpoint<'t>(
    image: &[u8],
    session: &mut Session,
    clients: &mut [Client],
    trace: &'t mut [u64],
) -> Result<Ops<'t>, Refusal> {
    let mut ops = 0;
    // SAFETY: as in `open`.
    served(unsafe {
        ffi::crpm_checkpoint(
            image.as_ptr(),
            image.len(),
            &mut session.0,
            clients.as_mut_ptr(),
            clients.len(),
            trace.as_mut_ptr(),
            trace.len(),
            &mut ops,
        )
    })?;
    Ok(Ops::first(trace, ops))
}

/// Carries out the stores among the first `n` operations of a trace, or among
/// all if there are fewer, and says how many operations were played.
///
/// It flushes nothing and waits for nothing: it is for benches, dumps and
/// simulation. The trace is [`Ops`], or numbers that are operations and
/// nothing more.
///
/// # Errors
///
/// [`Refusal::BadLength`], [`Refusal::TraceBad`].
pub fn replay(image: &mut [u8], trace: impl AsRef<[u64]>, n: usize) -> Result<usize, Refusal> {
    let (trace, mut played) = (trace.as_ref(), 0);
    // SAFETY: as in `open`.
    served(unsafe {
        ffi::crpm_replay(image.as_mut_ptr(), image.len(), trace.as_ptr(), trace.len(), n as u64, &mut played)
    })?;
    Ok(played as usize)
}

/// A block as it stands now: that part of the image. It is borrowed from the
/// image, so it is read again once operations were carried out.
///
/// # Errors
///
/// [`Refusal::BadLength`] to [`Refusal::Invalid`], [`Refusal::NoSuchMain`],
/// [`Refusal::NoSuchBlock`].
pub fn read_working(
    image: &[u8],
    layout: Layout,
    main: usize,
    block: usize,
) -> Result<&[u8; BLOCK_SIZE], Refusal> {
    let part = read(ffi::crpm_read_working, image, layout, main, block)?;
    Ok(part.expect("a working block has bytes"))
}

/// A block as of the last checkpoint: that part of the image. It is borrowed from
/// the image, as by [`read_working`].
///
/// There is none of a main segment that is empty, of which no checkpoint was ever made;
/// its bytes count as zeros. One that was saved with all bytes zero has a part, of zeros.
///
/// # Errors
///
/// [`Refusal::BadLength`] to [`Refusal::Invalid`], [`Refusal::NoSuchMain`],
/// [`Refusal::NoSuchBlock`].
pub fn read_checkpoint(
    image: &[u8],
    layout: Layout,
    main: usize,
    block: usize,
) -> Result<Option<&[u8; BLOCK_SIZE]>, Refusal> {
    read(ffi::crpm_read_checkpoint, image, layout, main, block)
}

type Read = unsafe extern "C" fn(*const u8, usize, u64, u64, u64, u64, u64, *mut u64, *mut u64) -> u64;

/// The part of the image that a read finds; none if its size is 0.
fn read(
    call: Read,
    image: &[u8],
    layout: Layout,
    main: usize,
    block: usize,
) -> Result<Option<&[u8; BLOCK_SIZE]>, Refusal> {
    let (mut start, mut size) = (0, 0);
    // SAFETY: as in `open`.
    served(unsafe {
        call(
            image.as_ptr(),
            image.len(),
            layout.mains() as u64,
            layout.backups() as u64,
            layout.blocks() as u64,
            main as u64,
            block as u64,
            &mut start,
            &mut size,
        )
    })?;
    Ok(image[start as usize..][..size as usize].first_chunk())
}

/// Whether two images of this layout have the same checkpoint: whether
/// [`read_checkpoint`] gives the same bytes of every block in both, or none in both.
/// A refusal of the first image comes before one of the second.
///
/// So one that is empty, which has no checkpoint part, and one that was saved with all
/// bytes zero are not the same, although all their bytes are zero. Whether a
/// checkpoint stands in its main segment or in the backup segment makes no difference,
/// and neither do epochs and pairs.
///
/// ```
/// # fn main() -> Result<(), crpm::Refusal> {
/// let layout = crpm::Layout::new(2, 1, 1)?;
/// let mut image = vec![0; layout.image_size()];
/// let mut trace = vec![0; layout.trace_length()];
/// let mut clients = [crpm::Client::new(1, 1)];
/// crpm::format(&mut image, layout)?;
/// let formatted = image.clone();
/// let (mut session, ops) = crpm::open(&image, layout, crpm::Domain::Adr, &mut clients, &mut trace)?;
/// crpm::replay(&mut image, ops, ops.len())?; // stands for carrying out
///
/// // a zero where zeros stand, and a checkpoint of it
/// let ops = crpm::write(&image, &mut session, &mut clients, 0, 0, 0, 0, &[0], &mut trace)?;
/// crpm::replay(&mut image, ops, ops.len())?;
/// assert!(crpm::same_checkpoint(&formatted, &image, layout)?);
/// let ops = crpm::checkpoint(&image, &mut session, &mut clients, &mut trace)?;
/// crpm::replay(&mut image, ops, ops.len())?;
/// assert_eq!(crpm::read_checkpoint(&image, layout, 0, 0)?, Some(&[0; 256]));
/// assert_eq!(crpm::read_checkpoint(&image, layout, 1, 0)?, None);
/// assert!(!crpm::same_checkpoint(&formatted, &image, layout)?);
///
/// // the next write copies it to the backup segment, where it is the same checkpoint
/// let saved = image.clone();
/// let ops = crpm::write(&image, &mut session, &mut clients, 0, 0, 0, 0, b"oboe", &mut trace)?;
/// crpm::replay(&mut image, ops, ops.len())?;
/// assert!(crpm::same_checkpoint(&saved, &image, layout)?);
/// # Ok(())
/// # }
/// ```
///
/// # Errors
///
/// [`Refusal::BadLength`] to [`Refusal::Invalid`].
pub fn same_checkpoint(a: &[u8], b: &[u8], layout: Layout) -> Result<bool, Refusal> {
    let mut same = 0;
    // SAFETY: as in `open`.
    served(unsafe {
        ffi::crpm_same_checkpoint(
            a.as_ptr(),
            a.len(),
            b.as_ptr(),
            b.len(),
            layout.mains() as u64,
            layout.backups() as u64,
            layout.blocks() as u64,
            &mut same,
        )
    })?;
    Ok(same == 1)
}
