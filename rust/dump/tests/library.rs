//! The library of the texts as it is called: room for a text, and none to link.

use crpm_dump::proved::{self, ffi};
use crpm_tests::arbitrary::{self, image_of, Metadata};
use crpm_tests::calls::*;
use crpm_tests::prng::Rng;
use std::path::Path;
use std::process::Command;

const SIZES: Sizes = Sizes::new(3, 2, 2);
/// What stands in the room before a call.
const BEFORE: u8 = 0xa5;

type Call<'a> = &'a dyn Fn(&mut [u8], &mut u64) -> u64;

/// A text fits exactly where there is room for it; elsewhere the room stays as it was.
/// Whatever the room, the number and the length are the same.
fn fits(name: &str, call: Call, (refusal, text): (u64, String)) {
    let length = text.len();
    for room in [0, 1, length - 1, length, length + 1, length + 100] {
        let (mut out, mut size) = (vec![BEFORE; room], u64::MAX);
        assert_eq!(call(&mut out, &mut size), refusal, "{name}, room {room}");
        assert_eq!(size as usize, length, "{name}, room {room}");
        match room < length {
            true => assert!(out.iter().all(|byte| *byte == BEFORE), "{name}, room {room}"),
            false => assert_eq!(&out[..length], text.as_bytes(), "{name}, room {room}"),
        }
    }
}

/// Both texts of these images.
fn texts(name: &str, a: &[u8], b: &[u8], sizes: Sizes) {
    let Sizes { levels, spares, frames } = sizes;
    let dump = |out: &mut [u8], size: &mut u64| {
        let (at, length) = (out.as_mut_ptr(), out.len());
        // SAFETY: each slice is valid for its length, the reference for what it points to.
        unsafe { ffi::crpm_dump_text(a.as_ptr(), a.len(), levels, spares, frames, at, length, size) }
    };
    let same = |out: &mut [u8], size: &mut u64| {
        let (at, length) = (out.as_mut_ptr(), out.len());
        let (first, second) = ((a.as_ptr(), a.len()), (b.as_ptr(), b.len()));
        // SAFETY: as above.
        unsafe {
            ffi::crpm_same_text(
                first.0, first.1, second.0, second.1, levels, spares, frames, at, length, size,
            )
        }
    };
    fits(name, &dump, proved::dump_text(a, [levels, spares, frames]));
    fits(name, &same, proved::same_text(a, b, [levels, spares, frames]));
}

#[test]
fn room_for_a_text() {
    let metadata = Metadata { states: vec![1, 2, 0], pairs: vec![UNPAIRED, 1] };
    let board = image_of(SIZES, 7, &metadata, 2, &arbitrary::distinct_data(SIZES));
    let mut other = board.clone();
    other[ODD_STATES + 2] = 1;
    texts("a board", &board, &other, SIZES);
    texts("a board and itself", &board, &board, SIZES);
    texts("refused", &board[1..], &board, SIZES);
    texts("no bytes", &[], &[], Sizes::new(u64::MAX, u64::MAX, u64::MAX));
    let most = Sizes::new(MOST, MOST, MOST);
    let mut rng = Rng::new(66);
    let [large, another] = [0, 1].map(|_| arbitrary::sound_image(&mut rng, most));
    texts("64,64,64", &large, &another, most);
}

/// Without the library the crate does not build, and says what to do.
#[test]
fn no_library_no_build() {
    let manifest = Path::new(env!("CARGO_MANIFEST_DIR")).join("Cargo.toml");
    for library in ["/no/library.a", "", "/"] {
        let output = Command::new(env!("CARGO"))
            .args(["check", "--offline", "--target-dir", env!("CARGO_TARGET_TMPDIR"), "--manifest-path"])
            .arg(&manifest)
            .env("CRPM_DUMP_LIBRARY", library)
            .output()
            .expect("cargo starts");
        let said = String::from_utf8_lossy(&output.stderr);
        assert!(!output.status.success(), "{library:?}: {said}");
        let word = "; run `scripts/prove dump` first, or set CRPM_DUMP_LIBRARY";
        assert!(
            said.contains("CRPM_DUMP_LIBRARY names no file: ") && said.contains(word),
            "{library:?}: {said}"
        );
    }
}
