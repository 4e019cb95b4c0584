//! The sheet program and the upgrade program against `sheet`: corner sheets, random
//! good sheets and damaged ones go to their standard input, and their standard output
//! is compared. What the one rewrites the other prints as the older rule did.
//!
//! Seeds are fixed.

use crpm_tests::benches::Rubbish;
use crpm_tests::calls::Deed;
use crpm_tests::laws::{Tally, Tried};
use crpm_tests::prng::Rng;
use crpm_tests::reference::Reference;
use crpm_tests::report::{arguments, Found, Outcome, Suite, NOT_RUN};
use crpm_tests::sheet::{self, Upgrade};
use crpm_tests::{corners, corners::Corner};
use std::io::{self, Write};
use std::path::{Path, PathBuf};
use std::process::{ChildStdin, Command, ExitCode, Stdio};
use std::thread::sleep;
use std::time::{Duration, Instant};

const RANDOM_SHEETS: usize = 6000;
const IN_PIECES: usize = 60;
const TIME_LIMIT: Duration = Duration::from_secs(60);
const LONGEST: usize = 4096;

const USAGE: &str = "usage: sheets [PROGRAM [UPGRADE]]
Compares the sheet program and the upgrade program with the reference; by default they are target/bin/sheet and
target/bin/sheet_upgrade of this repository.
A line for each group, totals at the end. Status: 0 passed, 1 a difference, 2 wrong arguments or no program.";

fn main() -> ExitCode {
    let given = match arguments(USAGE, &[], 2) {
        Ok(given) => given,
        Err(status) => return status,
    };
    let built = Path::new(env!("CARGO_MANIFEST_DIR")).join("../../target/bin");
    let names = ["sheet", "sheet_upgrade"];
    let [program, upgrade] = [0, 1].map(|i| given.get(i).map_or(built.join(names[i]), PathBuf::from));
    for (path, name) in [&program, &upgrade].into_iter().zip(names) {
        if !path.is_file() {
            eprintln!("no program {name} at {}; `scripts/prove {name}` makes it", path.display());
            return ExitCode::from(NOT_RUN);
        }
    }
    let mut suite = Suite::default();
    suite.add("corner sheets", || all_print(&program, &corners::all()));
    suite.add("upgrade corners", || all_print(&upgrade, &corners::upgrades()));
    suite.add("spoiled outputs", || spoiled_outputs(&program, &corners::all()));
    suite.add("spoiled upgrades", || spoiled_outputs(&upgrade, &corners::upgrades()));
    suite.add("random sheets", || random_sheets(&program));
    suite.add("random upgrades", || random_upgrades(&program, &upgrade));
    suite.run("sheets")
}

fn all_print(program: &Path, corners: &[Corner]) -> Outcome {
    for Corner { input, output, .. } in corners {
        check(program, input, output.as_bytes(), 1)?;
    }
    let sheets = corners.len();
    Ok(Found::new(format!("{sheets}"), &[("sheets compared", sheets as u64)]))
}

/// Hands random sheets on, each with the number of pieces to feed it in.
fn over_random_sheets(
    seed: u64,
    mut compare: impl FnMut(&[u8], usize) -> Result<(), String>,
) -> Result<(), String> {
    let start = Instant::now();
    let mut rng = Rng::new(seed);
    for number in 0..RANDOM_SHEETS {
        let input = random_sheet(&mut rng);
        let pieces = if number < IN_PIECES { rng.range(2, 4) } else { 1 };
        compare(&input, pieces)?;
        if start.elapsed() > TIME_LIMIT {
            return Err(format!("only {} sheets in {} s", number + 1, TIME_LIMIT.as_secs()));
        }
    }
    Ok(())
}

fn random_sheets(program: &Path) -> Outcome {
    let (mut good, mut bad, mut long, mut tried) = (0, 0, 0, Tried::default());
    over_random_sheets(61, |input, pieces| {
        let (due, laws) = printed_by_laws(input)?;
        tried.add(laws);
        check(program, input, &due, pieces)?;
        match due.starts_with(b"sheet=") {
            true => bad += 1,
            false => {
                good += 1;
                long += u64::from(has_long_line(input));
            }
        }
        Ok(())
    })?;
    if long == 0 {
        return Err("no good sheet has bytes for more than a frame".to_string());
    }
    tried.taken.all_tried()?;
    if tried.nines == 0 {
        return Err("no write hears 9".to_string());
    }
    let text = format!("{good} good, {long} of them with bytes for more than a frame, {bad} bad");
    let spares = tried.taken.named().map(|(name, count)| format!("{count} {name}")).join(", ");
    let text = format!("{text}; {spares}, {} refusals 9", tried.nines);
    Ok(Found::new(text, &[("sheets compared", good + bad)]))
}

/// The upgrade program over random sheets. For a sheet that it rewrites the sheet
/// program then prints what the older rule printed for the sheet as it was, and
/// `sheet=0` for one that would be too long; a bad sheet, one with a line of spares
/// and one of one level print the same under both rules (section 16.8).
fn random_upgrades(program: &Path, upgrade: &Path) -> Outcome {
    let mut seen = Upgrades::default();
    over_random_sheets(63, |input, pieces| {
        let due = sheet::upgraded(input);
        check(upgrade, input, &due, pieces)?;
        let older = sheet::printed_by(sheet::OLDER, input);
        let differ = sheet::printed(input) != older;
        let key = due.split(|byte| *byte == b'=').next().unwrap_or_default();
        match key {
            b"sheet" => seen.bad += 1,
            b"spares" => seen.with_line += 1,
            b"bytes" => {
                seen.too_long += 1;
                let any_length = Upgrade { most: usize::MAX, ..Upgrade::GOOD };
                check(program, &sheet::upgraded_by(&any_length, input), b"sheet=0\n", 1)?;
            }
            _ => {
                seen.rewritten += 1;
                seen.changed += u64::from(differ);
                check(program, &due, &older, 1)?;
            }
        }
        let alike = matches!(key, b"sheet" | b"spares") || input.starts_with(b"mains=1\n");
        match alike && differ {
            true => Err(format!("the rules differ on sheet {:?}", String::from_utf8_lossy(input))),
            false => Ok(()),
        }
    })?;
    seen.found()
}

/// How many sheets are of each kind of section 16.9, and how many of the rewritten
/// ones would print otherwise as they were.
#[derive(Default)]
struct Upgrades {
    bad: u64,
    with_line: u64,
    too_long: u64,
    rewritten: u64,
    changed: u64,
}

impl Upgrades {
    /// There must be some of each.
    fn found(&self) -> Outcome {
        let counts = [
            (self.bad, "bad"),
            (self.with_line, "with a line of spares"),
            (self.too_long, "too long with one"),
            (self.rewritten, "rewritten"),
            (self.changed, "of these that print otherwise as they were"),
        ];
        let text = counts.map(|(count, kind)| format!("{count} {kind}")).join(", ");
        if counts.iter().any(|(count, _)| *count == 0) {
            return Err(format!("some are missing: {text}"));
        }
        let compared = self.bad + self.with_line + self.too_long + self.rewritten;
        Ok(Found::new(
            text,
            &[("upgrades compared", compared), ("sheets compared", self.rewritten + self.too_long)],
        ))
    }
}

/// What a sheet prints, and what it tries of the laws, which must hold.
fn printed_by_laws(input: &[u8]) -> Result<(Vec<u8>, Tried), String> {
    let (mut tally, mut all) = (None, Ok(Tried::default()));
    let good = Reference::good();
    let due = sheet::printed_on(&good, Rubbish::Zeros, sheet::HALF, input, |_, call, ran| {
        match (&call.deed, &mut tally, &mut all) {
            (Deed::Open(sizes, _), _, _) => tally = Some(Tally::start(&ran.before, *sizes, &ran.left)),
            (_, Some(tally), Ok(tried)) => match ran.feed(&good, tally, call) {
                Ok(more) => tried.add(more),
                Err(what) => all = Err(format!("{call}: {what}")),
            },
            _ => {}
        }
    });
    Ok((due, all?))
}

fn has_long_line(sheet: &[u8]) -> bool {
    sheet.split(|byte| *byte == b'\n').any(|line| line.starts_with(b"bytes=") && line.len() > 6 + 2 * 256)
}

/// A corner's output with one byte changed, left out or added is a difference.
fn spoiled_outputs(program: &Path, corners: &[Corner]) -> Outcome {
    let mut rng = Rng::new(62);
    let mut noticed = 0;
    for corner in corners.iter().step_by(5) {
        let mut due = corner.output.clone().into_bytes();
        let at = rng.below(due.len());
        match rng.below(3) {
            0 => due[at] ^= 1,
            1 => drop(due.remove(at)),
            _ => due.push(b'\n'),
        }
        if check(program, &corner.input, &due, 1).is_ok() {
            return Err(format!("a spoiled output of {} passes", corner.name));
        }
        noticed += 1;
    }
    Ok(Found::new(format!("{noticed} noticed"), &[("spoiled outputs noticed", noticed)]))
}

/// Feeds the input, in pieces with pauses between them, and compares.
fn check(program: &Path, input: &[u8], due: &[u8], pieces: usize) -> Result<(), String> {
    let mut child = Command::new(program)
        .stdin(Stdio::piped())
        .stdout(Stdio::piped())
        .spawn()
        .map_err(|error| format!("{}: {error}", program.display()))?;
    let stdin = child.stdin.take().ok_or("no pipe")?;
    feed(stdin, input, pieces).map_err(|error| error.to_string())?;
    let output = child.wait_with_output().map_err(|error| error.to_string())?;
    match output.stdout == due && output.status.success() {
        true => Ok(()),
        false => Err(format!(
            "{}: sheet {:?}\nprints {:?}\ndue {:?}",
            program.display(),
            String::from_utf8_lossy(input),
            String::from_utf8_lossy(&output.stdout),
            String::from_utf8_lossy(due)
        )),
    }
}

/// A program that ends before it has read everything is no error here.
fn feed(mut stdin: ChildStdin, input: &[u8], pieces: usize) -> io::Result<()> {
    for (i, piece) in input.chunks((input.len() / pieces).max(1)).enumerate() {
        if i > 0 && pieces > 1 {
            sleep(Duration::from_millis(5));
        }
        match stdin.write_all(piece) {
            Err(error) if error.kind() == io::ErrorKind::BrokenPipe => return Ok(()),
            result => result?,
        }
    }
    Ok(())
}

fn random_sheet(rng: &mut Rng) -> Vec<u8> {
    let mut lines = random_lines(rng);
    if rng.once_in(3) {
        damage_lines(rng, &mut lines);
    }
    let mut bytes = lines.concat().into_bytes();
    if rng.once_in(6) {
        damage_bytes(rng, &mut bytes);
    }
    bytes
}

/// The lines of a good sheet; the groups may be refused by the calls.
fn random_lines(rng: &mut Rng) -> Vec<String> {
    let (mains, spares, frames) = (rng.range(1, 4), rng.range(1, 4), rng.range(1, 4));
    let mut lines = vec![format!("mains={mains}\n")];
    if rng.once_in(2) {
        lines.push(format!("spares={spares}\n"));
    }
    lines.push(format!("frames={frames}\n"));
    let groups = rng.pick(&[0, 1, 3, 8, 20, 60, 120]);
    for _ in 0..rng.range(groups / 2, groups) {
        let group = random_group(rng, mains, frames);
        if length(&lines) + length(&group) > LONGEST && !rng.once_in(20) {
            break;
        }
        lines.extend(group);
    }
    if rng.once_in(10) {
        fill(rng, &mut lines, mains);
    }
    lines
}

fn length(lines: &[String]) -> usize {
    lines.iter().map(String::len).sum()
}

/// Adds groups up to about the greatest length, the last of them as long as it takes.
fn fill(rng: &mut Rng, lines: &mut Vec<String>, mains: usize) {
    let mut left = rng.range(LONGEST - 12, LONGEST + 3).saturating_sub(length(lines));
    while left > 35 {
        let next = if left > 2000 { 1000 } else { left };
        lines.extend(group_of_length(rng, mains, next));
        left -= next;
    }
}

/// A group of so many bytes, which are more than 35: with an offset of one digit it
/// has 35 and two for each byte that it writes.
fn group_of_length(rng: &mut Rng, mains: usize, length: usize) -> [String; 5] {
    let at = if length % 2 == 1 { rng.below(10) } else { rng.range(10, 99) };
    let level = rng.below(mains);
    lines_of(rng, level, 0, at, (length - 35) / 2)
}

fn random_group(rng: &mut Rng, mains: usize, frames: usize) -> [String; 5] {
    let near = |rng: &mut Rng, end: usize| match rng.below(16) {
        0 => rng.range(end, 999),
        1 => end,
        _ => rng.below(end),
    };
    let (level, frame, at) = (near(rng, mains), near(rng, frames), near(rng, 256));
    let left = (256 * frames.saturating_sub(frame)).saturating_sub(at).min(1024);
    let count = match rng.below(12) {
        0 => 0,
        1 => rng.below(257),
        2 => left,
        3 => (left + 1).min(1024),
        4 => rng.range(0, left),
        5 => 256usize.saturating_sub(at) + rng.range(1, 8),
        6 => rng.pick(&[1023, 1024, 1024, 1025]),
        _ => rng.range(1, 12),
    };
    lines_of(rng, level, frame, at, count)
}

/// The lines of a group that writes so many bytes there.
fn lines_of(rng: &mut Rng, level: usize, frame: usize, at: usize, count: usize) -> [String; 5] {
    let bytes: String = rng.bytes(count).iter().map(|byte| format!("{byte:02x}")).collect();
    let save = usize::from(rng.once_in(3));
    [
        format!("level={level}\n"),
        format!("frame={frame}\n"),
        format!("at={at}\n"),
        format!("bytes={bytes}\n"),
        format!("save={save}\n"),
    ]
}

fn damage_lines(rng: &mut Rng, lines: &mut Vec<String>) {
    let at = rng.below(lines.len());
    let other = rng.below(lines.len());
    match rng.below(6) {
        0 => drop(lines.remove(at)),
        1 => lines.insert(at, lines[other].clone()),
        2 => lines.swap(at, other),
        3 => lines.insert(at, "\n".to_string()),
        4 => lines.truncate(at),
        _ => lines[at] = bad_value(rng, &lines[at]),
    }
}

fn bad_value(rng: &mut Rng, line: &str) -> String {
    let key = line.split('=').next().unwrap_or("");
    let values =
        ["", "0", "00", "01", "4", "5", "99", "999", "1000", "-1", " 1", "1 ", "1\r", "A0", "a", "0g"];
    format!("{key}={}\n", rng.pick(&values))
}

fn damage_bytes(rng: &mut Rng, bytes: &mut Vec<u8>) {
    if bytes.is_empty() {
        return;
    }
    let at = rng.below(bytes.len());
    let byte = rng.word() as u8;
    match rng.below(6) {
        0 => bytes[at] = byte,
        1 => bytes[at] ^= 1 << rng.below(8),
        2 => drop(bytes.remove(at)),
        3 => bytes.insert(at, rng.pick(b"\n\r =0aA9\0")),
        4 => bytes.truncate(at),
        _ => bytes.resize(rng.range(4090, 4100), byte),
    }
}
