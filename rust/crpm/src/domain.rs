//! The kinds of module.

/// The kind of a module, by what a power cut leaves of the cache before it (the
/// persistence domain).
///
/// [`Domain::Adr`] is right on every module, so give it in doubt: on one of the
/// other kind it costs write-backs and no more.
#[derive(Clone, Copy, PartialEq, Eq, Hash, Debug)]
#[repr(u64)]
pub enum Domain {
    /// A power cut may lose what was not written back and fenced.
    Adr = 0,
    /// A power cut leaves every store. Right only where the platform guarantees
    /// that the caches are flushed on a power failure.
    Eadr = 1,
}

impl Domain {
    /// The number that the C interface takes.
    pub const fn number(self) -> u64 {
        self as u64
    }
}
