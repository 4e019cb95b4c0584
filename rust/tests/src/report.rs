//! What the programs print, a line for each group and one at the end, what they
//! answer to their arguments, and their exit status.

use std::collections::BTreeMap;
use std::ffi::OsString;
use std::process::ExitCode;
use std::sync::atomic::{AtomicUsize, Ordering};
use std::sync::mpsc::{channel, Sender};
use std::thread;
use std::time::Instant;

/// What a group found: a line for the reader and counts for the closing line,
/// or what failed.
pub type Outcome = Result<Found, String>;

pub struct Found {
    pub text: String,
    pub counts: Vec<(&'static str, u64)>,
}

impl Found {
    pub fn new(text: impl Into<String>, counts: &[(&'static str, u64)]) -> Found {
        Found { text: text.into(), counts: counts.to_vec() }
    }
}

/// Suite of checks, each by itself.
#[derive(Default)]
pub struct Suite<'a>(Vec<Group<'a>>);

struct Group<'a> {
    name: String,
    run: Box<dyn Fn() -> Outcome + Sync + 'a>,
}

impl<'a> Suite<'a> {
    pub fn add(&mut self, name: impl Into<String>, run: impl Fn() -> Outcome + Sync + 'a) {
        self.0.push(Group { name: name.into(), run: Box::new(run) });
    }

    /// Runs all groups, as many at a time as there are processors, and prints a
    /// line as each is done and one at the end. The status is 1 if one failed.
    pub fn run(&self, program: &str) -> ExitCode {
        let next = AtomicUsize::new(0);
        let work = |done: Sender<Done>| {
            while let Some(Group { name, run }) = self.0.get(next.fetch_add(1, Ordering::Relaxed)) {
                let start = Instant::now();
                let outcome = run();
                let line = Done { name: name.clone(), outcome, seconds: start.elapsed().as_secs_f64() };
                done.send(line).expect("someone prints");
            }
        };
        let mut totals = Totals::default();
        thread::scope(|scope| {
            let (sender, receiver) = channel();
            for _ in 0..thread::available_parallelism().map_or(1, usize::from) {
                let sender = sender.clone();
                scope.spawn(|| work(sender));
            }
            drop(sender);
            receiver.into_iter().for_each(|done| totals.print(done));
        });
        totals.close(program)
    }
}

/// A group that was run.
struct Done {
    name: String,
    outcome: Outcome,
    seconds: f64,
}

/// What the groups counted, and how many failed.
#[derive(Default)]
struct Totals {
    groups: u64,
    counts: BTreeMap<&'static str, u64>,
    failures: u64,
}

impl Totals {
    fn print(&mut self, done: Done) {
        let (verdict, text) = match done.outcome {
            Ok(found) => {
                for (what, count) in found.counts {
                    *self.counts.entry(what).or_default() += count;
                }
                ("ok", found.text)
            }
            Err(text) => {
                self.failures += 1;
                ("FAILED", text)
            }
        };
        self.groups += 1;
        println!("{verdict} {}: {text} ({:.1} s)", done.name, done.seconds);
    }

    fn close(&self, program: &str) -> ExitCode {
        let counts: String = self.counts.iter().map(|(what, count)| format!("{count} {what}, ")).collect();
        println!("{program}: {} groups, {counts}failures {}", self.groups, self.failures);
        match self.failures {
            0 => ExitCode::SUCCESS,
            _ => ExitCode::FAILURE,
        }
    }
}

/// The status of a program that was called wrongly or had nothing to test.
pub const NOT_RUN: u8 = 2;

/// The arguments: some of these options, and up to so many others. `--help`
/// prints the usage and ends with status 0; what is not known ends with 2.
pub fn arguments(usage: &str, options: &[&str], others: usize) -> Result<Vec<OsString>, ExitCode> {
    let given: Vec<OsString> = std::env::args_os().skip(1).collect();
    if given.iter().any(|argument| argument == "--help") {
        println!("{usage}");
        return Err(ExitCode::SUCCESS);
    }
    let mut left = 0..others;
    let mut known = |argument: &OsString| match argument.as_encoded_bytes() {
        [b'-', ..] => options.iter().any(|option| argument == option),
        _ => left.next().is_some(),
    };
    match given.iter().find(|argument| !known(argument)) {
        None => Ok(given),
        Some(argument) => {
            eprintln!("unknown argument {argument:?}\n{usage}");
            Err(ExitCode::from(NOT_RUN))
        }
    }
}
