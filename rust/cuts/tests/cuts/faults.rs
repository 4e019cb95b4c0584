//! Faults of section 18.1, each on a sheet that shows it. The sixth is of discards, which
//! a sheet has not.

use crate::common::{sheet_named, shown, AGAIN};
use crpm_cuts::Plan;
use crpm_tests::library::Library;
use crpm_tests::reference::{Fault, Reference};
use crpm_tests::sheet::Sheet;
use std::fs;
use std::path::Path;

/// Each fault, its sheet, and what is seen on it.
const FAULTS: [(Fault, &str, Seen); 6] = [
    (Fault::StateBeforeFence, "state-before-fence", Seen::AtOnce),
    (Fault::MarksClearedAtSave, "marks-cleared", Seen::AtOnce),
    (Fault::OpeningSkipsLevelToSpare, "opening-skips-copy", Seen::Again),
    (Fault::NewByIdleLine, "spare-by-idle-line", Seen::AtOnce),
    (Fault::MarksFirstFrameOnly, "first-frame-marked", Seen::AtOnce),
    // no fault of 18.1: an empty level is silent after the save
    (Fault::SaveSetsEmpty, "first", Seen::AtOnce),
];

#[derive(PartialEq, Eq)]
enum Seen {
    AtOnce,
    /// Only behind a cut.
    Again,
}

#[test]
fn faults_show_other() {
    for (fault, name, seen) in FAULTS {
        let faulty = Reference::faulty(fault);
        let (text, once) = shown(&faulty, sheet_named(name), &Plan::DEFAULT);
        assert_eq!(once.other > 0, seen == Seen::AtOnce, "{fault:?}: {text}");
        assert_eq!(text.contains("other\n"), once.other > 0, "{fault:?}: {text}");
        let (text, again) = shown(&faulty, sheet_named(name), &AGAIN);
        assert!(again.other > once.other, "{fault:?}: {text}");
        assert_eq!((once.status(), again.status()), (u8::from(seen == Seen::AtOnce), 1), "{fault:?}");
    }
}

#[test]
fn no_fault_no_other() {
    for (_, name, _) in FAULTS {
        for plan in [Plan::DEFAULT, AGAIN] {
            let (text, good) = shown(&Reference::good(), sheet_named(name), &plan);
            assert_eq!((good.other, good.status()), (0, 0), "{name}: {text}");
            let (text, library) = shown(&Library, sheet_named(name), &plan);
            assert_eq!(library.other, 0, "{name}: {text}");
        }
    }
}

/// On its own sheet each fault is seen with few images of a cut too: one line alone that
/// arrived, or was left behind, is enough.
#[test]
fn few_images_show_other() {
    for (fault, name, _) in FAULTS {
        let (text, few) = shown(&Reference::faulty(fault), sheet_named(name), &Plan { most: 3, ..AGAIN });
        assert!(few.other > 0, "{fault:?}: {text}");
    }
}

/// Every file beside them is a good sheet, and the sheet of a fault.
#[test]
fn sheets_of_faults() {
    let folder = Path::new(env!("CARGO_MANIFEST_DIR")).join("sheets");
    let files = fs::read_dir(folder).expect("the folder is there");
    let mut names = Vec::new();
    for path in files.map(|file| file.expect("it can be read").path()) {
        assert!(Sheet::read(&fs::read(&path).expect("it can be read")).is_ok(), "{}", path.display());
        names.push(path.file_stem().expect("a name").to_string_lossy().into_owned());
    }
    names.sort();
    let mut due: Vec<&str> =
        FAULTS.iter().map(|(_, name, _)| *name).filter(|name| *name != "first").collect();
    due.sort();
    assert_eq!(names, due);
}
