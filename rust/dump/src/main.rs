//! The program: what it answers goes to standard output and standard error.

use std::env;
use std::io::{self, Write};
use std::process::ExitCode;

fn main() -> ExitCode {
    let answer = crpm_dump::answer(env::args_os().skip(1));
    let mut out = io::stdout();
    let written = out.write_all(answer.printed.as_bytes()).and_then(|()| out.flush());
    // What cannot be said on standard error is left unsaid.
    let _ = io::stderr().write_all(answer.said.as_bytes());
    match written {
        Ok(()) => ExitCode::from(answer.status),
        Err(error) => {
            let _ = writeln!(io::stderr(), "dump: standard output could not be written: {error}");
            ExitCode::from(crpm_dump::NOT_DONE)
        }
    }
}
