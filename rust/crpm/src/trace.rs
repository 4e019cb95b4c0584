//! The operations that a call writes on its trace.

/// Numbers of an operation: kind, place, word.
pub const OP_NUMBERS: usize = 3;
/// The kind of a store of a word, at a place divisible by 8.
pub const OP_STORE: u64 = 1;
/// The kind of a write-back of the line at a place divisible by 64; the word
/// is 0.
pub const OP_CLWB: u64 = 2;
/// The kind of a fence, which waits for what was written back; place and word
/// are 0.
pub const OP_SFENCE: u64 = 3;

/// An operation to carry out. Places are bytes of the image.
#[derive(Clone, Copy, PartialEq, Eq, Hash, Debug)]
pub enum Op {
    /// Store a word, least significant byte first: one aligned 8-byte store.
    Store {
        /// Divisible by 8.
        place: usize,
        /// The word.
        word: u64,
    },
    /// Write back the line (`clwb`).
    Clwb {
        /// Divisible by 64.
        place: usize,
    },
    /// Wait for what was written back (`sfence`).
    Sfence,
}

/// The operations that a served call wrote on its trace, in their order.
#[derive(Clone, Copy, PartialEq, Eq, Debug)]
#[must_use = "the operations of a served call are to be carried out before the next call"]
pub struct Ops<'t>(&'t [[u64; OP_NUMBERS]]);

impl<'t> Ops<'t> {
    /// The first operations of a trace.
    pub(crate) fn first(trace: &'t [u64], ops: u64) -> Ops<'t> {
        Ops(&trace.as_chunks().0[..ops as usize])
    }

    /// How many there are.
    pub const fn len(self) -> usize {
        self.0.len()
    }

    /// Whether there is none.
    pub const fn is_empty(self) -> bool {
        self.0.is_empty()
    }

    /// The numbers on the trace: [`OP_NUMBERS`] for each operation.
    pub const fn numbers(self) -> &'t [u64] {
        self.0.as_flattened()
    }
}

impl AsRef<[u64]> for Ops<'_> {
    fn as_ref(&self) -> &[u64] {
        self.numbers()
    }
}

impl<'t> IntoIterator for Ops<'t> {
    type Item = Op;
    type IntoIter = core::iter::Map<core::slice::Iter<'t, [u64; OP_NUMBERS]>, fn(&[u64; OP_NUMBERS]) -> Op>;

    fn into_iter(self) -> Self::IntoIter {
        self.0.iter().map(decoded)
    }
}

/// The operation that three numbers of a served call stand for.
fn decoded(&[kind, place, word]: &[u64; OP_NUMBERS]) -> Op {
    let place = place as usize;
    match kind {
        OP_STORE => Op::Store { place, word },
        OP_CLWB => Op::Clwb { place },
        _ => Op::Sfence,
    }
}
