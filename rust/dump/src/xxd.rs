//! A dump as text, as `xxd` and `xxd -a` write it.
//!
//! A row is an offset in hexadecimal, a colon, a space, groups of two or more
//! hexadecimal digits parted by one space, two spaces or more, and a column of text,
//! which is not read. Groups and rows may have any length, digits may be capitals. Each
//! row starts where the one before ended. A line `*` stands behind a row of zeros for
//! more zeros, up to the row behind it.

/// Why a text is not a dump.
#[derive(Clone, PartialEq, Eq, Debug)]
pub enum Bad {
    /// This line, counted from 1, is not one that xxd writes there.
    Line { number: usize, reason: String },
    /// It has more bytes than are asked for.
    TooLong,
}

/// What the line before was.
#[derive(Clone, Copy, PartialEq, Eq)]
enum Before {
    Nothing,
    Row,
    ZeroRow,
    Star,
}

/// The bytes of a dump, at most so many.
pub fn bytes(text: &[u8], most: usize) -> Result<Vec<u8>, Bad> {
    let (mut image, mut before, mut last) = (Vec::new(), Before::Nothing, 0);
    for (number, line) in (1..).zip(lines(text)) {
        let bad = |reason: String| Bad::Line { number, reason };
        last = number;
        if line == b"*" {
            if before != Before::ZeroRow {
                return Err(bad("`*` stands behind a row of zeros only".to_string()));
            }
            before = Before::Star;
            continue;
        }
        let (offset, row) = row(line).map_err(|reason| bad(reason.to_string()))?;
        let follows = match before {
            Before::Star => offset >= image.len() as u64,
            _ => offset == image.len() as u64,
        };
        if !follows {
            return Err(bad(format!(
                "the row starts at {offset:x}, the bytes so far end at {:x}",
                image.len()
            )));
        }
        if offset.saturating_add(row.len() as u64) > most as u64 {
            return Err(Bad::TooLong);
        }
        image.resize(offset as usize, 0);
        image.extend_from_slice(&row);
        before = if row.iter().all(|byte| *byte == 0) { Before::ZeroRow } else { Before::Row };
    }
    match before {
        Before::Star => Err(Bad::Line { number: last, reason: "no row follows this `*`".to_string() }),
        _ => Ok(image),
    }
}

/// The lines without their ends, which are LF or CR LF.
fn lines(text: &[u8]) -> impl Iterator<Item = &[u8]> {
    text.split_inclusive(|byte| *byte == b'\n').map(|line| {
        let line = line.strip_suffix(b"\n").unwrap_or(line);
        line.strip_suffix(b"\r").unwrap_or(line)
    })
}

/// The offset and the bytes of a row, or what is wrong with it.
fn row(line: &[u8]) -> Result<(u64, Vec<u8>), &'static str> {
    let colon = line.iter().position(|byte| *byte == b':').ok_or("no offset and colon")?;
    let offset = offset(&line[..colon]).ok_or("the offset is not a hexadecimal number")?;
    let rest = line[colon + 1..].strip_prefix(b" ").ok_or("no space behind the colon")?;
    let end = rest.windows(2).position(|two| two == b"  ").ok_or("no two spaces before the text column")?;
    let mut row = Vec::new();
    for group in rest[..end].split(|byte| *byte == b' ') {
        let pairs = group.chunks(2).map(|pair| match pair {
            [high, low] => Some(digit(*high)? << 4 | digit(*low)?),
            _ => None,
        });
        let bytes = pairs.collect::<Option<Vec<u8>>>().filter(|bytes| !bytes.is_empty());
        row.extend(bytes.ok_or("a group is not hexadecimal digits, two a byte")?);
    }
    Ok((offset, row))
}

fn digit(byte: u8) -> Option<u8> {
    (byte as char).to_digit(16).map(|value| value as u8)
}

/// One to sixteen hexadecimal digits.
fn offset(digits: &[u8]) -> Option<u64> {
    if digits.is_empty() || digits.len() > 16 {
        return None;
    }
    digits.iter().try_fold(0, |offset, byte| Some(offset << 4 | u64::from(digit(*byte)?)))
}
