//! The arguments.

use std::ffi::{OsStr, OsString};

/// What `--help` prints, and what follows the word on a wrong argument.
pub const USAGE: &str = include_str!("../usage.txt");

/// How an image is shown.
#[derive(Clone, Copy, PartialEq, Eq, Debug)]
pub enum View {
    Lines,
    Frames,
    Csv,
    Svg,
}

/// What is asked for. Sizes are levels, spares and frames; a file `-` is standard input.
#[derive(Clone, PartialEq, Eq, Debug)]
pub enum Request {
    Help,
    Show { file: OsString, sizes: Option<[u64; 3]>, xxd: bool, view: View },
    Compare { a: OsString, b: OsString, sizes: Option<[u64; 3]>, xxd: bool },
}

/// The options, each at most once, and the files.
#[derive(Default)]
struct Given {
    sizes: Option<[u64; 3]>,
    xxd: Option<()>,
    view: Option<View>,
    files: Vec<OsString>,
}

/// What the arguments ask for, or what is wrong with them.
pub fn parse(mut arguments: impl Iterator<Item = OsString>) -> Result<Request, String> {
    let mut given = Given::default();
    while let Some(argument) = arguments.next() {
        match argument.to_str() {
            Some("--help" | "-h") => return Ok(Request::Help),
            Some("--") => {
                given.files.extend(arguments);
                break;
            }
            Some("--sizes") => put(&mut given.sizes, sizes(arguments.next())?, "--sizes is given twice")?,
            Some("--xxd") => put(&mut given.xxd, (), "--xxd is given twice")?,
            Some("--frames") => given.view(View::Frames)?,
            Some("--csv") => given.view(View::Csv)?,
            Some("--svg") => given.view(View::Svg)?,
            _ if is_option(&argument) => return Err(format!("unknown option {argument:?}")),
            _ => given.files.push(argument),
        }
    }
    given.request()
}

impl Given {
    fn view(&mut self, view: View) -> Result<(), String> {
        put(&mut self.view, view, "only one of --frames, --csv and --svg can be given")
    }

    fn request(self) -> Result<Request, String> {
        let Given { sizes, xxd, view, files } = self;
        let xxd = xxd.is_some();
        let mut files = files.into_iter();
        match (files.next(), files.next(), files.next()) {
            (_, _, Some(_)) => Err("more than two files".to_string()),
            (Some(_), Some(_), _) if view.is_some() => {
                Err("--frames, --csv and --svg are for one file".to_string())
            }
            (Some(a), Some(b), _) if a == "-" && b == "-" => {
                Err("only one of the two files can be standard input".to_string())
            }
            (Some(a), Some(b), _) => Ok(Request::Compare { a, b, sizes, xxd }),
            (file, ..) => {
                let file = file.unwrap_or_else(|| OsString::from("-"));
                Ok(Request::Show { file, sizes, xxd, view: view.unwrap_or(View::Lines) })
            }
        }
    }
}

/// Puts a value where none was, or says what is wrong with a second one.
fn put<T>(place: &mut Option<T>, value: T, twice: &str) -> Result<(), String> {
    match place.replace(value) {
        None => Ok(()),
        Some(_) => Err(twice.to_string()),
    }
}

/// Whether this looks like an option; `-` is a file.
fn is_option(argument: &OsStr) -> bool {
    argument.as_encoded_bytes().starts_with(b"-") && argument != "-"
}

/// Three numbers with commas.
fn sizes(given: Option<OsString>) -> Result<[u64; 3], String> {
    let given = given.ok_or("--sizes needs M,S,B")?;
    let numbers = given.to_str().and_then(|text| text.split(',').map(number).collect::<Option<Vec<u64>>>());
    numbers
        .and_then(|numbers| numbers.try_into().ok())
        .ok_or_else(|| format!("--sizes {given:?}: three decimal numbers with commas are expected, as 3,2,2"))
}

/// A decimal number below 2^64: digits alone, without leading zeros.
fn number(digits: &str) -> Option<u64> {
    let plain = digits.bytes().all(|digit| digit.is_ascii_digit());
    let leading = digits.len() > 1 && digits.starts_with('0');
    digits.parse().ok().filter(|_| plain && !leading)
}
