//! The saved frames of a sound image in hexadecimal, by the library's checkpoint read.

use crpm::{Layout, Refusal, BLOCK_SIZE};

/// The first row of a table.
pub const HEADER: &str = "level,frame,from,bytes\n";

/// A saved frame: where it stands, and its bytes.
type Saved<'a> = (usize, &'a [u8; BLOCK_SIZE]);

fn layout([levels, spares, frames]: [u64; 3]) -> Result<Layout, Refusal> {
    Layout::new(levels as usize, spares as usize, frames as usize)
}

/// A saved frame; an empty level has none.
fn saved(image: &[u8], layout: Layout, level: usize, frame: usize) -> Result<Option<Saved<'_>>, Refusal> {
    let bytes = crpm::read_checkpoint(image, layout, level, frame)?;
    Ok(bytes.map(|bytes| (bytes.as_ptr().addr() - image.as_ptr().addr(), bytes)))
}

fn hexadecimal(bytes: &[u8]) -> String {
    let digits = bytes.iter().flat_map(|byte| [byte >> 4, byte & 15]);
    digits.map(|digit| char::from(b"0123456789abcdef"[usize::from(digit)])).collect()
}

/// The lines of an image, and behind each level's line one for each of its saved frames.
pub fn behind_levels(text: &str, image: &[u8], sizes: [u64; 3]) -> Result<String, Refusal> {
    let layout = layout(sizes)?;
    let mut lines = text.split_inclusive('\n');
    let mut with_frames = lines.next().unwrap_or_default().to_string();
    for (level, line) in lines.enumerate() {
        with_frames += line;
        for frame in 0..layout.blocks() {
            if let Some((from, bytes)) = saved(image, layout, level, frame)? {
                with_frames += &format!("frame={frame} from={from:x} bytes={}\n", hexadecimal(bytes));
            }
        }
    }
    Ok(with_frames)
}

/// A table of all frames; those of an empty level have no bytes.
pub fn table(image: &[u8], sizes: [u64; 3]) -> Result<String, Refusal> {
    let layout = layout(sizes)?;
    let mut table = HEADER.to_string();
    for level in 0..layout.mains() {
        for frame in 0..layout.blocks() {
            table += &match saved(image, layout, level, frame)? {
                Some((from, bytes)) => format!("{level},{frame},{from:x},{}\n", hexadecimal(bytes)),
                None => format!("{level},{frame},empty,\n"),
            };
        }
    }
    Ok(table)
}
