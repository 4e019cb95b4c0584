//! The programs as they are called: the quick groups pass, and arguments,
//! closing lines and exit statuses are as their usage says.

use std::path::Path;
use std::process::{Command, Output};

const SELFTEST: &str = env!("CARGO_BIN_EXE_selftest");
const DIFFERENTIAL: &str = env!("CARGO_BIN_EXE_differential");
const SHEETS: &str = env!("CARGO_BIN_EXE_sheets");
const SPEED: &str = env!("CARGO_BIN_EXE_speed");

fn run(program: &str, arguments: &[&str]) -> Output {
    Command::new(program).args(arguments).output().expect("the program starts")
}

fn printed(output: &Output) -> String {
    String::from_utf8_lossy(&output.stdout).into_owned()
}

/// The program passes, and its last line has totals.
fn passes(name: &str, program: &str, arguments: &[&str]) {
    let output = run(program, arguments);
    let text = printed(&output);
    let last = text.lines().last().unwrap_or_default();
    assert!(output.status.success(), "{text}");
    assert!(last.starts_with(&format!("{name}: ")) && last.ends_with(", failures 0"), "{text}");
}

#[test]
fn selftest_passes() {
    passes("selftest", SELFTEST, &[]);
}

#[test]
fn quick_differential_passes() {
    passes("differential", DIFFERENTIAL, &["--quick"]);
}

#[test]
fn usage() {
    for program in [SELFTEST, DIFFERENTIAL, SHEETS, SPEED] {
        let help = run(program, &["--help"]);
        let text = printed(&help);
        assert!(text.starts_with("usage: ") && help.status.code() == Some(0), "{program}: {text}");
        for wrong in [&["--unknown"][..], &["one", "two", "three"]] {
            let output = run(program, wrong);
            let said = String::from_utf8_lossy(&output.stderr);
            assert_eq!(output.status.code(), Some(2), "{program} {wrong:?}");
            assert!(said.ends_with(&text) && output.stdout.is_empty(), "{program} {wrong:?}: {said}");
        }
    }
}

/// `true` prints nothing, which is no sheet's output.
#[test]
fn a_difference_is_status_1() {
    let output = run(SHEETS, &["/bin/true", "/bin/true"]);
    let text = printed(&output);
    assert_eq!(output.status.code(), Some(1), "{text}");
    assert!(text.ends_with(", failures 4\n"), "{text}");
}

#[test]
fn no_sheet_program_is_status_2() {
    for programs in [&["/no/program"][..], &["/bin/true", "/no/program"]] {
        assert_eq!(run(SHEETS, programs).status.code(), Some(2), "{programs:?}");
    }
}

/// Without the library the crate does not build, and says what to do.
#[test]
fn no_library_no_build() {
    let crpm = Path::new(env!("CARGO_MANIFEST_DIR")).join("../crpm/Cargo.toml");
    for library in ["/no/library.a", "", "/"] {
        let output = Command::new(env!("CARGO"))
            .args(["check", "--offline", "--target-dir", env!("CARGO_TARGET_TMPDIR"), "--manifest-path"])
            .arg(&crpm)
            .env("CRPM_LIBRARY", library)
            .output()
            .expect("cargo starts");
        let said = String::from_utf8_lossy(&output.stderr);
        assert!(!output.status.success(), "{library:?}: {said}");
        let word = "; run `scripts/prove capi` first, or set CRPM_LIBRARY";
        assert!(said.contains("CRPM_LIBRARY names no file: ") && said.contains(word), "{library:?}: {said}");
    }
}
