//! The bench sheet: what the sheet program and the upgrade program must print for
//! any input bytes.
//!
//! Written from section 16. A sheet runs with one console, for which every spare
//! is kept. Checked against the corner sheets (`corners`), whose outputs are
//! written by hand; both programs are checked against it.
//! `benches` runs sheets over any implementation of the calls.

use crate::benches::{Bench, Ran, Rubbish};
use crate::book::Call;
use crate::calls::*;
use crate::groups::plain;
use crate::reference::Reference;

/// A sheet has no more bytes.
pub const MOST_BYTES: usize = 4096;
const MOST_DIGITS: usize = 2048;

/// The number of the first bad or missing line, or 0 for a sheet too long.
pub type BadLine = usize;

/// A good sheet.
pub struct Sheet {
    levels: u64,
    /// As its line says, if it has one.
    spares: Option<u64>,
    frames: u64,
    pub groups: Vec<Group>,
}

/// A write, and whether a save follows.
pub struct Group {
    pub target: Target,
    pub bytes: Vec<u8>,
    pub save: bool,
}

/// How many spares a sheet has that leaves their line out, by its levels and frames.
pub type Rule = fn(levels: u64, frames: u64) -> u64;

/// Half as many as levels, rounded up (section 16.1).
pub const HALF: Rule = |levels, _| levels.div_ceil(2);

/// The older rule, as many as levels (section 16.8).
pub const OLDER: Rule = |levels, _| levels;

/// The whole standard output for this standard input.
pub fn printed(input: &[u8]) -> Vec<u8> {
    printed_by(HALF, input)
}

/// The same under any rule.
pub fn printed_by(rule: Rule, input: &[u8]) -> Vec<u8> {
    printed_on(&Reference::good(), Rubbish::Zeros, rule, input, |_, _, _| ())
}

/// The same on a bench of these calls, whose memory held rubbish. Each call is
/// shown with the number of its group, 0 for the opening.
pub fn printed_on<C: Calls>(
    calls: &C,
    rubbish: Rubbish,
    rule: Rule,
    input: &[u8],
    show: impl FnMut(usize, &Call, &Ran),
) -> Vec<u8> {
    match Sheet::read(input) {
        Ok(sheet) => {
            let sizes = sheet.sizes(rule);
            sheet.run(Bench::laid_out(calls, sizes, rubbish), sizes, show).into_bytes()
        }
        Err(line) => refused(line),
    }
}

/// What every program prints for a bad sheet.
pub fn refused(line: BadLine) -> Vec<u8> {
    format!("sheet={line}\n").into_bytes()
}

/// How a good sheet without a line of spares gets one.
pub struct Upgrade {
    /// How many of its lines stand before the new one.
    pub before: usize,
    /// How many spares the new line says.
    pub spares: Rule,
    /// How many bytes the sheet may have then.
    pub most: usize,
}

impl Upgrade {
    /// By section 16.8: as many spares as mains, in the second line.
    pub const GOOD: Upgrade = Upgrade { before: 1, spares: OLDER, most: MOST_BYTES };

    /// The sheet with the new line; every other line stays.
    fn rewritten(&self, sheet: &Sheet, input: &[u8]) -> Vec<u8> {
        let line = format!("spares={}\n", (self.spares)(sheet.levels, sheet.frames));
        let mut lines: Vec<&[u8]> = input.split_inclusive(|byte| *byte == b'\n').collect();
        lines.insert(self.before, line.as_bytes());
        lines.concat()
    }
}

/// The whole standard output of the upgrade program (section 16.9) for this
/// standard input.
pub fn upgraded(input: &[u8]) -> Vec<u8> {
    upgraded_by(&Upgrade::GOOD, input)
}

/// The same by any upgrade.
pub fn upgraded_by(upgrade: &Upgrade, input: &[u8]) -> Vec<u8> {
    match Sheet::read(input) {
        Err(line) => refused(line),
        Ok(Sheet { spares: Some(spares), .. }) => format!("spares={spares}\n").into_bytes(),
        Ok(sheet) => match upgrade.rewritten(&sheet, input) {
            long if long.len() > upgrade.most => format!("bytes={}\n", long.len()).into_bytes(),
            rewritten => rewritten,
        },
    }
}

/// The lines not yet read, and how many were.
struct Lines<'a> {
    rest: &'a [u8],
    read: usize,
}

impl<'a> Lines<'a> {
    /// The next line without its byte 10, if it is ended by one.
    fn peek(&self) -> Option<&'a [u8]> {
        let end = self.rest.iter().position(|byte| *byte == b'\n')?;
        Some(&self.rest[..end])
    }

    /// Reads one `key=value` line by its key and a reader of the value.
    fn read<T>(&mut self, key: &str, value: impl Fn(&'a [u8]) -> Option<T>) -> Result<T, BadLine> {
        let line = self.peek();
        self.read += 1;
        let read = line.and_then(|line| value(value_of(line, key)?));
        self.rest = &self.rest[line.map_or(0, |line| line.len() + 1)..];
        read.ok_or(self.read)
    }
}

fn value_of<'a>(line: &'a [u8], key: &str) -> Option<&'a [u8]> {
    line.strip_prefix(key.as_bytes())?.strip_prefix(b"=")
}

/// A decimal number of 1 to 3 digits without a leading zero.
fn number(value: &[u8]) -> Option<u64> {
    match value {
        [b'0'] => Some(0),
        [b'1'..=b'9', rest @ ..] if rest.len() <= 2 && rest.iter().all(u8::is_ascii_digit) => {
            std::str::from_utf8(value).ok()?.parse().ok()
        }
        _ => None,
    }
}

fn size(value: &[u8]) -> Option<u64> {
    number(value).filter(|n| (1..=4).contains(n))
}

fn flag(value: &[u8]) -> Option<bool> {
    match value {
        b"0" => Some(false),
        b"1" => Some(true),
        _ => None,
    }
}

fn hexadecimal(value: &[u8]) -> Option<Vec<u8>> {
    let digit = |byte: u8| match byte {
        b'0'..=b'9' => Some(byte - b'0'),
        b'a'..=b'f' => Some(byte - b'a' + 10),
        _ => None,
    };
    if value.len() > MOST_DIGITS || value.len() % 2 == 1 {
        return None;
    }
    value.chunks(2).map(|two| Some(16 * digit(two[0])? + digit(two[1])?)).collect()
}

impl Sheet {
    /// The sheet that these bytes are, or its first bad line.
    pub fn read(input: &[u8]) -> Result<Sheet, BadLine> {
        if input.len() > MOST_BYTES {
            return Err(0);
        }
        let mut lines = Lines { rest: input, read: 0 };
        let levels = lines.read("mains", size)?;
        let named = lines.peek().is_some_and(|line| value_of(line, "spares").is_some());
        let spares = if named { Some(lines.read("spares", size)?) } else { None };
        let frames = lines.read("frames", size)?;
        let mut groups = Vec::new();
        while !lines.rest.is_empty() {
            groups.push(Group::read(&mut lines)?);
        }
        Ok(Sheet { levels, spares, frames, groups })
    }

    /// Its sizes, where this rule stands for a line of spares left out.
    pub fn sizes(&self, rule: Rule) -> Sizes {
        let spares = self.spares.unwrap_or_else(|| rule(self.levels, self.frames));
        Sizes::new(self.levels, spares, self.frames)
    }

    fn run<C: Calls>(
        &self,
        mut bench: Bench<C>,
        sizes: Sizes,
        mut show: impl FnMut(usize, &Call, &Ran),
    ) -> String {
        let mut run = |group: usize, deed: Deed| {
            let call = plain(deed, sizes);
            let ran = bench.run(&call, 0);
            show(group, &call, &ran);
            ran
        };
        let Ran { answer: opened, .. } = run(0, Deed::Open(sizes, ADR));
        let mut text = format!("open={} orders={}\n", opened.number, opened.orders);
        for (i, group) in (1..).zip(&self.groups) {
            let mut ran = run(i, Deed::Write(group.target, group.bytes.clone()));
            text += &format!("step={i} write={} orders={} ", ran.answer.number, ran.answer.orders);
            if group.save {
                ran = run(i, Deed::Save);
                text += &format!("save={} orders={}", ran.answer.number, ran.answer.orders);
            } else {
                text += "save=- orders=0";
            }
            text += &format!(" epoch={}\n", word_at(&ran.dump, EPOCH));
        }
        text
    }
}

impl Group {
    fn read(lines: &mut Lines) -> Result<Group, BadLine> {
        let level = lines.read("level", number)?;
        let frame = lines.read("frame", number)?;
        let offset = lines.read("at", number)?;
        let bytes = lines.read("bytes", hexadecimal)?;
        let save = lines.read("save", flag)?;
        Ok(Group { target: Target { console: 0, level, frame, offset }, bytes, save })
    }
}
