//! Where things stand in an image.

use crate::{Refusal, OP_NUMBERS};

/// Bytes of a word, least significant first.
pub const WORD_SIZE: usize = 8;
/// Bytes of a cache line.
pub const LINE_SIZE: usize = 64;
/// Bytes of a block.
pub const BLOCK_SIZE: usize = 256;
/// Bytes before main segment 0.
pub const METADATA_SIZE: usize = 512;
/// Most main segments, backup segments and blocks.
pub const MOST: usize = 64;
/// Most clients of one image.
pub const MOST_CLIENTS: usize = 8;

/// Where the committed epoch stands: a word, the number of checkpoints.
pub const EPOCH_AT: usize = 0;
/// Where the number of main segments stands: a word.
pub const MAINS_AT: usize = 64;
/// Where the number of backup segments stands: a word.
pub const BACKUPS_AT: usize = 72;
/// Where the number of blocks of a segment stands: a word.
pub const BLOCKS_AT: usize = 80;
/// Where the states for even epochs stand, and a line on those for odd epochs:
/// a byte for each main segment.
pub const STATES_AT: usize = 128;
/// Where the pairs stand: for each backup segment its main segment, a byte.
pub const PAIRS_AT: usize = 256;
/// The pair byte of a backup segment that has no main segment.
pub const UNPAIRED: u8 = 255;

/// State of a main segment that is empty: no checkpoint was ever made of it, so it has
/// no checkpoint part, and its checkpoint bytes count as zeros.
pub const SS_INITIAL: u8 = 0;
/// State of a main segment whose checkpoint stands in itself.
pub const SS_MAIN: u8 = 1;
/// State of a main segment whose checkpoint stands in its backup segment.
pub const SS_BACKUP: u8 = 2;

/// The three sizes of an image, each 1 to [`MOST`].
#[derive(Clone, Copy, PartialEq, Eq, Hash, Debug)]
pub struct Layout {
    mains: usize,
    backups: usize,
    blocks: usize,
}

impl Layout {
    /// A layout of so many main segments, backup segments and blocks in each
    /// segment, or [`Refusal::BadSize`].
    pub const fn new(mains: usize, backups: usize, blocks: usize) -> Result<Layout, Refusal> {
        if in_range(mains) && in_range(backups) && in_range(blocks) {
            Ok(Layout { mains, backups, blocks })
        } else {
            Err(Refusal::BadSize)
        }
    }

    /// Main segments.
    pub const fn mains(self) -> usize {
        self.mains
    }

    /// Backup segments.
    pub const fn backups(self) -> usize {
        self.backups
    }

    /// Blocks of a segment.
    pub const fn blocks(self) -> usize {
        self.blocks
    }

    /// Bytes of an image.
    pub const fn image_size(self) -> usize {
        self.backup_at(self.backups)
    }

    /// Where a main segment starts.
    pub const fn main_at(self, main: usize) -> usize {
        METADATA_SIZE + BLOCK_SIZE * self.blocks * main
    }

    /// Where a backup segment starts.
    pub const fn backup_at(self, backup: usize) -> usize {
        self.main_at(self.mains + backup)
    }

    /// Numbers of a trace that are always enough for an opening.
    pub const fn open_trace_length(self) -> usize {
        OP_NUMBERS * (36 * self.blocks * self.mains + 1)
    }

    /// Numbers of a trace that are always enough for a write, however long: the
    /// main segment copied to a new backup segment, and every word of it stored.
    pub const fn write_trace_length(self) -> usize {
        OP_NUMBERS * (36 * self.blocks + 6 + 32 * self.blocks)
    }

    /// Numbers of a trace that are always enough for a discard: every word of a
    /// main segment.
    pub const fn discard_trace_length(self) -> usize {
        OP_NUMBERS * 32 * self.blocks
    }

    /// Numbers of a trace that are always enough for a checkpoint.
    pub const fn checkpoint_trace_length(self) -> usize {
        OP_NUMBERS * (4 * self.blocks * self.mains + 14)
    }

    /// Numbers of a trace that are always enough for all four: the greatest of
    /// them. With one main segment that is a write's, with more mostly an
    /// opening's; a discard never needs as many as a write.
    pub const fn trace_length(self) -> usize {
        let (open, write) = (self.open_trace_length(), self.write_trace_length());
        let greater = if open > write { open } else { write };
        let checkpoint = self.checkpoint_trace_length();
        if greater > checkpoint {
            greater
        } else {
            checkpoint
        }
    }
}

const fn in_range(size: usize) -> bool {
    1 <= size && size <= MOST
}
