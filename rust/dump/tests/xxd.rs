//! Dumps as text: rows of every form, bad lines by their numbers, and xxd itself.

use crpm_dump::xxd::{bytes, Bad};
use crpm_tests::prng::Rng;
use std::io::Write;
use std::process::{Command, Stdio};
use std::thread;

const MOST: usize = 4096;

#[test]
fn forms_of_rows() {
    let ends = "00000000: 4772 65  Gre\n00000003: 6174            at\n";
    for text in [
        ends,
        "00000000: 47 72 65 61 74  Great\n",
        "0: 4772656174  Great\n",
        "00000000: 4772 6561 74  Great",
        "00000000: 4772 6561 74  Great\r\n",
        "00000000: 4772 6561 74  \n",
        "00000000: 477265 6174  :  : 00 *\n",
    ] {
        assert_eq!(bytes(text.as_bytes(), MOST), Ok(b"Great".to_vec()), "{text:?}");
    }
    assert_eq!(bytes(b"", MOST), Ok(vec![]));
    assert_eq!(bytes(b"00000000: AbFf  ..\n", MOST), Ok(vec![0xab, 0xff]));
    assert_eq!(bytes(b"0: 00  .\n*\n5: 01  .\n", MOST), Ok(vec![0, 0, 0, 0, 0, 1]));
    assert_eq!(bytes(b"0: 00  .\n*\n5: 00  .\n*\n8: 02  .\n", MOST), Ok(vec![0, 0, 0, 0, 0, 0, 0, 0, 2]));
}

/// The number of the line that is bad, and why.
fn bad_line(text: &[u8]) -> (usize, String) {
    match bytes(text, MOST) {
        Err(Bad::Line { number, reason }) => (number, reason),
        other => panic!("{:?} gives {other:?}", String::from_utf8_lossy(text)),
    }
}

#[test]
fn bad_lines() {
    const GROUP: &str = "a group is not hexadecimal digits, two a byte";
    const COLUMN: &str = "no two spaces before the text column";
    const STAR: &str = "`*` stands behind a row of zeros only";
    let row = "00000000: 4772  Gr\n";
    for (text, number, reason) in [
        ("\n", 1, "no offset and colon"),
        ("4772 6561 74\n", 1, "no offset and colon"),
        (": 4772  Gr\n", 1, "the offset is not a hexadecimal number"),
        (" 00000000: 4772  Gr\n", 1, "the offset is not a hexadecimal number"),
        ("0000000g: 4772  Gr\n", 1, "the offset is not a hexadecimal number"),
        ("00000000000000000: 4772  Gr\n", 1, "the offset is not a hexadecimal number"),
        ("00000000:4772  Gr\n", 1, "no space behind the colon"),
        ("00000000: 4772 Gr\n", 1, COLUMN),
        ("00000000: 4772\n", 1, COLUMN),
        ("00000000: 477  Gr\n", 1, GROUP),
        ("00000000: 47g2  Gr\n", 1, GROUP),
        ("00000000: +1-1  Gr\n", 1, GROUP),
        ("00000000:   636261  abc\n", 1, GROUP),
        ("00000002: 4772  Gr\n", 1, "the row starts at 2, the bytes so far end at 0"),
        (&format!("{row}00000001: 65  e\n"), 2, "the row starts at 1, the bytes so far end at 2"),
        (&format!("{row}00000003: 65  e\n"), 2, "the row starts at 3, the bytes so far end at 2"),
        (
            &format!("{row}ffffffffffffffff: 65  e\n"),
            2,
            "the row starts at ffffffffffffffff, the bytes so far end at 2",
        ),
        (&format!("{row}\n00000002: 65  e\n"), 2, "no offset and colon"),
        ("*\n", 1, STAR),
        (&format!("{row}*\n00000008: 65  e\n"), 2, STAR),
        ("0: 00  .\n*\n*\n8: 65  e\n", 3, STAR),
        ("0: 00  .\n* \n8: 65  e\n", 2, "no offset and colon"),
        ("0: 0000  ..\n*\n1: 65  e\n", 3, "the row starts at 1, the bytes so far end at 2"),
        ("0: 00  .\n*\n", 2, "no row follows this `*`"),
    ] {
        assert_eq!(bad_line(text.as_bytes()), (number, reason.to_string()), "{text:?}");
    }
    assert_eq!(bad_line(b"0: 00  .\n\xff\x00\n").0, 2);
}

/// No more bytes than are asked for, however far a row behind `*` is.
#[test]
fn too_long() {
    for (text, most) in [
        ("0: 4772  Gr\n", 1),
        ("0: 47  G\n1: 72  r\n", 1),
        ("0: 00  .\n*\n4: 47  G\n", 4),
        ("0: 00  .\n*\nffffffffffffffff: 47  G\n", MOST),
        ("0: 00  .\n*\n200200: 47  G\n", 2_097_664),
    ] {
        assert_eq!(bytes(text.as_bytes(), most), Err(Bad::TooLong), "{text:?}");
    }
    let largest = bytes(b"0: 00  .\n*\n2001ff: 47  G\n", 2_097_664).expect("the largest image");
    assert_eq!((largest.len(), largest[2_097_663]), (2_097_664, 0x47));
}

/// What xxd makes of some bytes.
fn xxd(arguments: &[&str], input: &[u8]) -> Vec<u8> {
    let (piped, shown) = (Stdio::piped, format!("xxd {arguments:?}"));
    let mut child = Command::new("xxd").args(arguments).stdin(piped()).stdout(piped()).spawn().expect(&shown);
    let mut pipe = child.stdin.take().expect(&shown);
    thread::scope(|scope| {
        scope.spawn(move || pipe.write_all(input).expect("xxd reads"));
        let output = child.wait_with_output().expect(&shown);
        assert!(output.status.success(), "{shown}");
        output.stdout
    })
}

/// Bytes of which many are zeros, in short and long runs.
fn sparse(rng: &mut Rng) -> Vec<u8> {
    let mut image = Vec::new();
    for _ in 0..rng.below(8) {
        let length = rng.pick(&[1, 7, 16, 33, 256, 300]);
        let run = if rng.once_in(2) { vec![0; length] } else { rng.bytes(length) };
        image.extend(run);
    }
    image
}

/// The text that xxd writes gives its bytes, as `xxd -r` does.
#[test]
fn as_xxd_writes_and_reads() {
    if Command::new("xxd").arg("-v").output().is_err() {
        println!("left out: xxd is not on the path");
        return;
    }
    let mut rng = Rng::new(64);
    for options in [
        &[][..],
        &["-a"],
        &["-u"],
        &["-g", "1"],
        &["-g", "0", "-a"],
        &["-g", "3"],
        &["-g", "4", "-a", "-u"],
        &["-c", "1"],
        &["-c", "7", "-a"],
        &["-c", "32", "-g", "8"],
        &["-c", "256", "-a"],
    ] {
        for _ in 0..12 {
            let image = sparse(&mut rng);
            let text = xxd(options, &image);
            let columns = if options.contains(&"-c") { &options[..2] } else { &[] };
            assert_eq!(bytes(&text, MOST), Ok(image.clone()), "{options:?}");
            assert_eq!(xxd(&[&["-r"], columns].concat(), &text), image, "{options:?}");
        }
    }
}

/// Of the other forms of xxd those that cannot be told by one row are refused with the
/// second at the latest.
#[test]
fn other_forms_of_xxd() {
    if Command::new("xxd").arg("-v").output().is_err() {
        println!("left out: xxd is not on the path");
        return;
    }
    let image = Rng::new(65).bytes(50);
    for (options, line) in
        [(["-p", "-u"], 1), (["-i", "-u"], 1), (["-b", "-u"], 2), (["-s", "16"], 1), (["-o", "16"], 1)]
    {
        assert_eq!(bad_line(&xxd(&options, &image)).0, line, "{options:?}");
    }
}
