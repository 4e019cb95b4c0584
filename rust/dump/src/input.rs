//! The bytes of a dump: from a file or from standard input, as they are or as text.

use crate::xxd::{self, Bad};
use crpm::{BLOCK_SIZE, METADATA_SIZE, MOST};
use std::ffi::OsStr;
use std::fs::File;
use std::io::{self, IsTerminal, Read, Write};
use std::os::fd::AsFd;

/// Bytes of the largest image.
pub const MOST_BYTES: usize = METADATA_SIZE + BLOCK_SIZE * MOST * (MOST + MOST);
/// Most bytes of a dump as text: twice what `xxd -c 1` writes of the largest image, a row
/// a byte.
pub const MOST_TEXT: usize = 32 * MOST_BYTES;

/// The bytes of a dump, or why there are none.
pub fn image(file: &OsStr, as_text: bool) -> Result<Vec<u8>, String> {
    let name = if file == "-" { "standard input".to_string() } else { file.display().to_string() };
    let most = if as_text { MOST_TEXT } else { MOST_BYTES };
    let read = read(file, most).map_err(|error| format!("{name}: cannot be read: {error}"))?;
    let too_long = format!("{name}: longer than 2,097,664 bytes, the largest image");
    match read {
        None if as_text => Err(format!("{name}: longer than {most} bytes of text")),
        None => Err(too_long),
        Some(text) if as_text => xxd::bytes(&text, MOST_BYTES).map_err(|bad| match bad {
            Bad::Line { number, reason } => format!("{name}: line {number}: {reason}"),
            Bad::TooLong => too_long,
        }),
        Some(image) => Ok(image),
    }
}

/// What a file holds; none if that is more than so many bytes, of which one more is read.
fn read(file: &OsStr, most: usize) -> io::Result<Option<Vec<u8>>> {
    let from = if file == "-" { standard_input()? } else { File::open(file)? };
    let mut bytes = Vec::new();
    from.take(most as u64 + 1).read_to_end(&mut bytes)?;
    Ok(Some(bytes).filter(|bytes| bytes.len() <= most))
}

/// Standard input without a buffer, so that no more of it is taken than is asked for.
fn standard_input() -> io::Result<File> {
    let input = io::stdin();
    if input.is_terminal() {
        let _ = writeln!(io::stderr(), "dump: reading a dump from standard input; Ctrl-D ends it");
    }
    Ok(File::from(input.as_fd().try_clone_to_owned()?))
}
