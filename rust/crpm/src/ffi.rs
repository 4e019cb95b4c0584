//! The C interface as include/crpm.h declares it: what the safe calls are made
//! of. The rules for its callers stand in that file.
//!
//! `scripts/declarations` holds these declarations against the header and the
//! library's source.

/// `struct crpm_session`: what is known of an image since it was opened.
#[repr(C)]
#[derive(Clone, Copy, PartialEq, Eq, Debug)]
pub struct Session {
    /// Main segments.
    pub mains: u64,
    /// Backup segments.
    pub backups: u64,
    /// Blocks of a segment.
    pub blocks: u64,
    /// Bit i: main segment i was written to since the last checkpoint.
    pub dirty_segments: u64,
    /// Word i, bit b: block b of main segment i may differ from its backup
    /// segment.
    pub dirty_blocks: [u64; 64],
    /// The kind of the module: [`crate::Domain`] by its number.
    pub domain: u64,
}

impl Session {
    /// The session of zeros, which a refused opening leaves.
    pub const ZEROS: Session =
        Session { mains: 0, backups: 0, blocks: 0, dirty_segments: 0, dirty_blocks: [0; 64], domain: 0 };
}

/// `struct crpm_client`: how many backup segments a client may take.
///
/// The clients of an image are numbered by their places in the run that its calls
/// are lent, [`crate::MOST_CLIENTS`] at most. Reserved backup segments are at most
/// those of the image, all clients' together, and at most the client's quota.
///
/// ```
/// # fn main() -> Result<(), crpm::Refusal> {
/// use crpm::{Client, Domain, Refusal};
///
/// // two backup segments, one for each client; each may take both
/// let layout = crpm::Layout::new(3, 2, 1)?;
/// let mut clients = [Client::new(1, 2); 2];
/// # let (mut image, mut trace) = (vec![0; layout.image_size()], vec![0; layout.trace_length()]);
/// crpm::format(&mut image, layout)?;
/// let (mut session, ops) = crpm::open(&image, layout, Domain::Adr, &mut clients, &mut trace)?;
/// crpm::replay(&mut image, ops, ops.len())?; // stands for carrying out
/// for main in 0..3 {
///     let ops = crpm::write(&image, &mut session, &mut clients, 0, main, 0, 0, b"oboe", &mut trace)?;
///     crpm::replay(&mut image, ops, ops.len())?;
/// }
/// let ops = crpm::checkpoint(&image, &mut session, &mut clients, &mut trace)?;
/// crpm::replay(&mut image, ops, ops.len())?;
///
/// // client 0 takes its own backup segment, and not that of client 1
/// let ops = crpm::write(&image, &mut session, &mut clients, 0, 0, 0, 0, b"flue", &mut trace)?;
/// crpm::replay(&mut image, ops, ops.len())?;
/// assert_eq!(clients[0].used, 1);
/// let refused = crpm::write(&image, &mut session, &mut clients, 0, 1, 0, 0, b"flue", &mut trace);
/// assert_eq!(refused, Err(Refusal::BackupsReserved));
/// let ops = crpm::write(&image, &mut session, &mut clients, 1, 1, 0, 0, b"reed", &mut trace)?;
/// crpm::replay(&mut image, ops, ops.len())?;
/// assert_eq!(clients[1].used, 1);
/// # Ok(())
/// # }
/// ```
#[repr(C)]
#[derive(Clone, Copy, PartialEq, Eq, Debug)]
pub struct Client {
    /// Backup segments that are kept for it.
    pub reserved: u64,
    /// Backup segments that it may take between one checkpoint or opening and the
    /// next.
    pub quota: u64,
    /// Backup segments that it has taken since the last checkpoint or opening.
    pub used: u64,
}

impl Client {
    /// A client that has taken nothing.
    pub const fn new(reserved: u64, quota: u64) -> Client {
        Client { reserved, quota, used: 0 }
    }
}

extern "C" {
    /// Formats an image.
    pub fn crpm_format(image: *mut u8, image_length: usize, mains: u64, backups: u64, blocks: u64) -> u64;
    /// Opens an image, which recovers.
    pub fn crpm_open(
        image: *const u8,
        image_length: usize,
        mains: u64,
        backups: u64,
        blocks: u64,
        domain: u64,
        session: *mut Session,
        clients: *mut Client,
        clients_length: usize,
        trace: *mut u64,
        trace_length: usize,
        ops: *mut u64,
    ) -> u64;
    /// Writes bytes to a main segment, from an offset in a block on.
    pub fn crpm_write(
        image: *const u8,
        image_length: usize,
        session: *mut Session,
        clients: *mut Client,
        clients_length: usize,
        client: u64,
        main: u64,
        block: u64,
        offset: u64,
        bytes: *const u8,
        bytes_length: usize,
        trace: *mut u64,
        trace_length: usize,
        ops: *mut u64,
    ) -> u64;
    /// Drops what was written to a main segment since the last checkpoint.
    pub fn crpm_discard(
        image: *const u8,
        image_length: usize,
        session: *const Session,
        main: u64,
        trace: *mut u64,
        trace_length: usize,
        ops: *mut u64,
    ) -> u64;
    /// Makes the working bytes the checkpoint.
    pub fn crpm_checkpoint(
        image: *const u8,
        image_length: usize,
        session: *mut Session,
        clients: *mut Client,
        clients_length: usize,
        trace: *mut u64,
        trace_length: usize,
        ops: *mut u64,
    ) -> u64;
    /// Carries out the stores among the first n operations of a trace.
    pub fn crpm_replay(
        image: *mut u8,
        image_length: usize,
        trace: *const u64,
        trace_length: usize,
        n: u64,
        played: *mut u64,
    ) -> u64;
    /// Finds a block as it stands now.
    pub fn crpm_read_working(
        image: *const u8,
        image_length: usize,
        mains: u64,
        backups: u64,
        blocks: u64,
        main: u64,
        block: u64,
        start: *mut u64,
        size: *mut u64,
    ) -> u64;
    /// Finds a block as of the last checkpoint; there may be none.
    pub fn crpm_read_checkpoint(
        image: *const u8,
        image_length: usize,
        mains: u64,
        backups: u64,
        blocks: u64,
        main: u64,
        block: u64,
        start: *mut u64,
        size: *mut u64,
    ) -> u64;
    /// Whether two images have the same checkpoint: the same bytes, and no part of the
    /// same main segments.
    pub fn crpm_same_checkpoint(
        a: *const u8,
        a_length: usize,
        b: *const u8,
        b_length: usize,
        mains: u64,
        backups: u64,
        blocks: u64,
        same: *mut u64,
    ) -> u64;
}
