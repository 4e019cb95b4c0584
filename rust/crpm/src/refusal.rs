//! Why a call was not served.

use core::error::Error;
use core::fmt;

/// Why a call was not served: the first that applies in the order that the call
/// names them in. A refused call changes neither image, trace nor clients and
/// leaves the session as it came.
#[derive(Clone, Copy, PartialEq, Eq, Hash, Debug)]
#[repr(u64)]
pub enum Refusal {
    /// A size is not 1 to 64.
    BadSize = 1,
    /// The image has another length (replay: not divisible by 64).
    BadLength = 2,
    /// The image holds other sizes.
    Foreign = 3,
    /// States and pairs of the image do not fit one another.
    Invalid = 4,
    /// The session does not fit the image, or names no kind of module.
    BadSession = 5,
    /// There is no such main segment.
    NoSuchMain = 6,
    /// There is no such block.
    NoSuchBlock = 7,
    /// No bytes to write, an offset that is not in the block, or bytes that leave
    /// their main segment.
    BadSpan = 8,
    /// A write needs a new backup segment, and none is free; a checkpoint frees
    /// them all.
    NoFreeBackup = 9,
    /// A checkpoint at epoch 2^64 - 1.
    EpochLimit = 10,
    /// The trace is too short for the operations.
    TraceShort = 11,
    /// Replay: the length is not divisible by 3, or an operation is ill formed.
    TraceBad = 12,
    /// The run of clients: there is no client of that number, there are more than
    /// 8, a client's reserved or used backup segments are above its quota, or the
    /// reserved ones are more together than there are.
    BadClients = 13,
    /// A write copies its main segment, and its client has taken as many backup
    /// segments as its quota says; a checkpoint sets the count to 0.
    QuotaReached = 14,
    /// A write copies its main segment, and the backup segments that are free are
    /// all kept for other clients; a checkpoint frees every one.
    BackupsReserved = 15,
}

impl Refusal {
    /// All of them, by their numbers.
    pub const ALL: [Refusal; 15] = [
        Refusal::BadSize,
        Refusal::BadLength,
        Refusal::Foreign,
        Refusal::Invalid,
        Refusal::BadSession,
        Refusal::NoSuchMain,
        Refusal::NoSuchBlock,
        Refusal::BadSpan,
        Refusal::NoFreeBackup,
        Refusal::EpochLimit,
        Refusal::TraceShort,
        Refusal::TraceBad,
        Refusal::BadClients,
        Refusal::QuotaReached,
        Refusal::BackupsReserved,
    ];

    /// The number that the C interface returns.
    pub const fn number(self) -> u64 {
        self as u64
    }
}

impl fmt::Display for Refusal {
    fn fmt(&self, f: &mut fmt::Formatter<'_>) -> fmt::Result {
        let text = match self {
            Refusal::BadSize => "a size is not 1 to 64",
            Refusal::BadLength => "the image has another length",
            Refusal::Foreign => "the image holds other sizes",
            Refusal::Invalid => "states and pairs of the image do not fit one another",
            Refusal::BadSession => "the session does not fit the image",
            Refusal::NoSuchMain => "there is no such main segment",
            Refusal::NoSuchBlock => "there is no such block",
            Refusal::BadSpan => "no bytes to write, an offset that is not in the block, or bytes that leave their main segment",
            Refusal::NoFreeBackup => "no backup segment is free",
            Refusal::EpochLimit => "the epoch is at its limit",
            Refusal::TraceShort => "the trace is too short",
            Refusal::TraceBad => "the trace is ill formed",
            Refusal::BadClients => "there is no such client, or the run of clients is not one of this image",
            Refusal::QuotaReached => "the client has taken as many backup segments as it may",
            Refusal::BackupsReserved => "the free backup segments are kept for other clients",
        };
        write!(f, "{text} (refusal {})", self.number())
    }
}

impl Error for Refusal {}
