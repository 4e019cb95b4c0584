//! The command: reads a bench sheet and shows its power cuts, over the proved library.

use crpm_cuts::{show, Plan};
use crpm_tests::library::Library;
use crpm_tests::report::NOT_RUN;
use crpm_tests::sheet::{refused, Sheet, MOST_BYTES};
use std::ffi::OsString;
use std::fs::File;
use std::io::{self, stdin, stdout, BufWriter, IsTerminal, Read, Write};
use std::process::ExitCode;
use std::time::{Duration, Instant};

const USAGE: &str = include_str!("../../usage.txt");

/// Whoever waits longer than this hears how far the work is, and then now and then.
const PATIENCE: Duration = Duration::from_secs(2);
const NOW_AND_THEN: Duration = Duration::from_secs(10);

fn main() -> ExitCode {
    match Asked::of(std::env::args_os().skip(1)) {
        Ok(Some(asked)) => asked.run(),
        Ok(None) => print(USAGE.as_bytes()).err().unwrap_or(ExitCode::SUCCESS),
        Err(why) => not_run(&format!("{why}\n{}", USAGE.trim_end())),
    }
}

/// Says why on standard error, which may be closed.
fn not_run(why: &str) -> ExitCode {
    let _ = writeln!(io::stderr(), "cuts: {why}");
    ExitCode::from(NOT_RUN)
}

fn unwritten(why: io::Error) -> ExitCode {
    not_run(&format!("standard output could not be written: {why}"))
}

fn print(text: &[u8]) -> Result<(), ExitCode> {
    stdout().write_all(text).map_err(unwritten)
}

/// What the arguments ask for.
struct Asked {
    /// None: standard input.
    file: Option<OsString>,
    plan: Plan,
}

impl Asked {
    /// None: they ask for help.
    fn of(mut arguments: impl Iterator<Item = OsString>) -> Result<Option<Asked>, String> {
        let (mut files, mut most, mut again, mut options) = (Vec::new(), None, false, true);
        while let Some(argument) = arguments.next() {
            match argument.as_encoded_bytes() {
                b"--" if options => options = false,
                b"--help" | b"-h" if options => return Ok(None),
                b"--again" if options && !again => again = true,
                b"--most" if options && most.is_none() => most = Some(number(arguments.next())?),
                b"--again" | b"--most" if options => {
                    return Err(format!("{} is given twice", argument.display()))
                }
                [b'-', _, ..] if options => return Err(format!("unknown option {}", argument.display())),
                _ => files.push(argument),
            }
        }
        if files.len() > 1 {
            return Err("more than one sheet".to_string());
        }
        let file = files.pop().filter(|file| file != "-");
        Ok(Some(Asked { file, plan: Plan { most: most.unwrap_or(Plan::DEFAULT.most), again } }))
    }

    fn run(&self) -> ExitCode {
        let input = match self.read() {
            Ok(input) => input,
            Err(why) => return not_run(&why),
        };
        match Sheet::read(&input) {
            Ok(sheet) => self.show(&sheet),
            Err(line) => print(&refused(line)).err().unwrap_or_else(|| not_run(&bad_sheet(line))),
        }
    }

    /// The sheet. One byte more than it may have shows that it is longer.
    fn read(&self) -> Result<Vec<u8>, String> {
        let mut input = Vec::new();
        let most = MOST_BYTES as u64 + 1;
        let (name, read) = match &self.file {
            Some(file) => {
                let opened = File::open(file);
                let read = opened.and_then(|opened| opened.take(most).read_to_end(&mut input));
                (file.display().to_string(), read)
            }
            None => {
                if stdin().is_terminal() {
                    let _ =
                        writeln!(io::stderr(), "cuts: reading a sheet from standard input; Ctrl-D ends it");
                }
                ("standard input".to_string(), stdin().take(most).read_to_end(&mut input))
            }
        };
        match read {
            Ok(_) => Ok(input),
            Err(why) => Err(format!("{name}: cannot be read: {why}")),
        }
    }

    fn show(&self, sheet: &Sheet) -> ExitCode {
        let mut next = Instant::now() + PATIENCE;
        let mut watch = |place: &str, images: usize| {
            if Instant::now() >= next {
                next = Instant::now() + NOW_AND_THEN;
                let _ = writeln!(io::stderr(), "cuts: at {place}, {images} different images opened so far");
            }
        };
        let mut out = BufWriter::new(stdout());
        match show(&Library, sheet, &self.plan, &mut out, &mut watch) {
            Ok(totals) => ExitCode::from(totals.status()),
            Err(why) => unwritten(why),
        }
    }
}

/// The number behind `--most`.
fn number(value: Option<OsString>) -> Result<u64, String> {
    let digits =
        value.and_then(|value| value.into_string().ok()).filter(|n| n.bytes().all(|b| b.is_ascii_digit()));
    let number = digits.and_then(|digits| digits.parse().ok()).filter(|n| *n >= 1);
    number.ok_or("--most takes a number, 1 or more".to_string())
}

fn bad_sheet(line: usize) -> String {
    match line {
        0 => "the sheet is longer than 4,096 bytes".to_string(),
        _ => format!("the sheet is bad: line {line} is bad or missing; ./sheet says why"),
    }
}
