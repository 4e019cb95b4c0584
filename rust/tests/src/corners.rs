//! Corner sheets with the output that section 16 asks for, of the sheet program
//! and of the upgrade program, written by hand.
//!
//! `selftest` holds `sheet` against them, `sheets` the two programs. The sheet
//! of section 17.6 (`benches`) is among them.

use crate::benches;

pub struct Corner {
    pub name: String,
    pub input: Vec<u8>,
    pub output: String,
}

const HEAD: &str = "mains=2\nspares=1\nframes=1\n";
const GROUP: &str = "level=0\nframe=0\nat=6\nbytes=a1b2c3d4\nsave=1\n";
const OPEN: &str = "open=0 orders=73\n";

/// Of the sheet program.
pub fn all() -> Vec<Corner> {
    let mut corners = whole_outputs();
    corners.extend(one_spare_left_out());
    corners.extend(two_spares_left_out());
    corners.extend(bad_lines());
    corners.extend(bad_values());
    corners.extend(broken_off());
    corners.extend(lengths());
    corners.extend(long_writes());
    let written = benches::sheet_of_17_6();
    corners.push(corner(written.input, written.printed));
    corners
}

/// Of the upgrade program.
pub fn upgrades() -> Vec<Corner> {
    let mut corners = rewritten();
    corners.extend(not_rewritten());
    corners.extend(lengths_of_upgrades());
    corners
}

fn corner(input: impl AsRef<[u8]>, output: impl Into<String>) -> Corner {
    let input = input.as_ref().to_vec();
    let shown = &input[..input.len().min(60)];
    Corner { name: String::from_utf8_lossy(shown).escape_debug().to_string(), input, output: output.into() }
}

fn bad(input: impl AsRef<[u8]>, line: usize) -> Corner {
    corner(input, format!("sheet={line}\n"))
}

fn group(level: &str, frame: &str, at: &str, bytes: &str, save: &str) -> String {
    format!("level={level}\nframe={frame}\nat={at}\nbytes={bytes}\nsave={save}\n")
}

/// A group for each of these levels that writes the first word of its first
/// frame, and whether a save follows it.
fn words(levels: &[(&str, &str)]) -> String {
    levels.iter().map(|(level, save)| group(level, "0", "0", "0102030405060708", save)).collect()
}

/// Good sheets: the specification's own, refused calls, a write that hears 9 and
/// is served after a save.
fn whole_outputs() -> Vec<Corner> {
    let step = |n: u32, rest: &str| format!("step={n} {rest}\n");
    let one = |rest: &str| format!("{OPEN}step=1 {rest}\n");
    let sheet = |groups: &str| format!("{HEAD}{groups}");
    let four = words(&[("0", "0"), ("1", "1"), ("0", "0"), ("1", "0")]);
    let first_three = [
        step(1, "write=0 orders=1 save=- orders=0 epoch=0"),
        step(2, "write=0 orders=1 save=0 orders=22 epoch=1"),
        step(3, "write=0 orders=43 save=- orders=0 epoch=1"),
    ]
    .concat();
    let fourth = |rest: &str| format!("{OPEN}{first_three}step=4 {rest} save=- orders=0 epoch=1\n");
    let saved_then_served = [
        step(4, "write=9 orders=0 save=0 orders=22 epoch=2"),
        step(5, "write=0 orders=43 save=- orders=0 epoch=2"),
    ]
    .concat();
    let five = words(&[("0", "0"), ("1", "1"), ("0", "0"), ("1", "1"), ("1", "0")]);
    vec![
        corner(sheet(GROUP), one("write=0 orders=2 save=0 orders=18 epoch=1")),
        corner(HEAD, OPEN),
        corner("mains=1\nspares=1\nframes=1\n", "open=0 orders=37\n"),
        corner("mains=4\nframes=4\n", "open=0 orders=577\n"),
        corner("mains=4\nspares=1\nframes=1\n", "open=0 orders=145\n"),
        corner("mains=2\nspares=4\nframes=1\n", OPEN),
        corner("mains=2\nspares=1\nframes=4\n", "open=0 orders=289\n"),
        corner(sheet(&group("0", "0", "0", "00", "0")), one("write=0 orders=1 save=- orders=0 epoch=0")),
        corner(sheet(&group("1", "0", "0", "00", "0")), one("write=0 orders=1 save=- orders=0 epoch=0")),
        corner(sheet(&group("2", "0", "0", "00", "0")), one("write=6 orders=0 save=- orders=0 epoch=0")),
        corner(sheet(&group("999", "0", "0", "00", "1")), one("write=6 orders=0 save=0 orders=14 epoch=1")),
        corner(sheet(&group("0", "1", "0", "00", "1")), one("write=7 orders=0 save=0 orders=14 epoch=1")),
        corner(sheet(&group("0", "999", "0", "", "0")), one("write=7 orders=0 save=- orders=0 epoch=0")),
        corner(sheet(&group("0", "0", "0", "", "0")), one("write=8 orders=0 save=- orders=0 epoch=0")),
        corner(sheet(&group("0", "0", "256", "00", "0")), one("write=8 orders=0 save=- orders=0 epoch=0")),
        corner(sheet(&group("0", "0", "999", "00", "0")), one("write=8 orders=0 save=- orders=0 epoch=0")),
        corner(sheet(&group("0", "0", "255", "00", "0")), one("write=0 orders=1 save=- orders=0 epoch=0")),
        corner(
            sheet(&group("1", "0", "0", &"ff".repeat(256), "1")),
            one("write=0 orders=32 save=0 orders=18 epoch=1"),
        ),
        corner(
            sheet(&group("1", "0", "1", &"ff".repeat(256), "0")),
            one("write=8 orders=0 save=- orders=0 epoch=0"),
        ),
        corner(format!("mains=2\nspares=2\nframes=1\n{four}"), fourth("write=0 orders=43")),
        corner(format!("{HEAD}{four}"), fourth("write=9 orders=0")),
        corner(format!("{HEAD}{five}"), format!("{OPEN}{first_three}{saved_then_served}")),
    ]
}

/// A sheet of one or two levels that leaves the line of spares out has one: the
/// second level that is to be copied hears 9, however many frames there are. With
/// two spares it is served.
fn one_spare_left_out() -> Vec<Corner> {
    let alone = words(&[("0", "1"), ("0", "1"), ("0", "0")]);
    let alone_printed = "open=0 orders=37
step=1 write=0 orders=1 save=0 orders=18 epoch=1
step=2 write=0 orders=43 save=0 orders=18 epoch=2
step=3 write=0 orders=41 save=- orders=0 epoch=2
";
    let both = words(&[("0", "0"), ("1", "1"), ("0", "0"), ("1", "0")]);
    let both_printed = |open: &str, copied: &str, last: &str| {
        format!(
            "open=0 orders={open}
step=1 write=0 orders=1 save=- orders=0 epoch=0
step=2 write=0 orders=1 save=0 orders=22 epoch=1
step=3 write=0 orders={copied} save=- orders=0 epoch=1
step=4 {last} save=- orders=0 epoch=1
"
        )
    };
    vec![
        corner(format!("mains=1\nframes=1\n{alone}"), alone_printed),
        corner(format!("mains=2\nframes=1\n{both}"), both_printed("73", "43", "write=9 orders=0")),
        corner(format!("mains=2\nframes=4\n{both}"), both_printed("289", "151", "write=9 orders=0")),
        corner(
            format!("mains=2\nspares=2\nframes=4\n{both}"),
            both_printed("289", "151", "write=0 orders=151"),
        ),
    ]
}

/// A sheet of three or four levels that leaves the line of spares out has two: the
/// third level that is to be copied hears 9. With as many spares as levels it is
/// served. After a save all are free.
fn two_spares_left_out() -> Vec<Corner> {
    let three = words(&[("0", "0"), ("1", "0"), ("2", "1"), ("0", "0"), ("1", "0"), ("2", "0")]);
    let three_printed = |open: &str, last: &str| {
        format!(
            "open=0 orders={open}
step=1 write=0 orders=1 save=- orders=0 epoch=0
step=2 write=0 orders=1 save=- orders=0 epoch=0
step=3 write=0 orders=1 save=0 orders=26 epoch=1
step=4 write=0 orders=43 save=- orders=0 epoch=1
step=5 write=0 orders=43 save=- orders=0 epoch=1
step=6 {last} save=- orders=0 epoch=1
"
        )
    };
    let written = words(&[("0", "0"), ("1", "0"), ("2", "0"), ("3", "1")]);
    let again = words(&[("3", "0"), ("2", "0"), ("1", "0"), ("0", "1"), ("0", "0")]);
    let four_printed = "open=0 orders=145
step=1 write=0 orders=1 save=- orders=0 epoch=0
step=2 write=0 orders=1 save=- orders=0 epoch=0
step=3 write=0 orders=1 save=- orders=0 epoch=0
step=4 write=0 orders=1 save=0 orders=30 epoch=1
step=5 write=0 orders=43 save=- orders=0 epoch=1
step=6 write=0 orders=43 save=- orders=0 epoch=1
step=7 write=9 orders=0 save=- orders=0 epoch=1
step=8 write=9 orders=0 save=0 orders=30 epoch=2
step=9 write=0 orders=43 save=- orders=0 epoch=2
";
    vec![
        corner(format!("mains=3\nframes=1\n{three}"), three_printed("109", "write=9 orders=0")),
        corner(format!("mains=3\nspares=3\nframes=1\n{three}"), three_printed("109", "write=0 orders=43")),
        corner(format!("mains=4\nframes=1\n{three}"), three_printed("145", "write=9 orders=0")),
        corner(format!("mains=4\nspares=4\nframes=1\n{three}"), three_printed("145", "write=0 orders=43")),
        corner(format!("mains=4\nframes=1\n{written}{again}"), four_printed),
    ]
}

/// Lines out of order, unknown, repeated, blank, with strange bytes.
fn bad_lines() -> Vec<Corner> {
    let with = |line: &str| format!("{HEAD}{line}");
    vec![
        bad("", 1),
        bad("\n", 1),
        bad("\n\n", 1),
        bad("spares=1\n", 1),
        bad("frames=1\n", 1),
        bad("Mains=1\nframes=1\n", 1),
        bad("main=1\nframes=1\n", 1),
        bad("mainss=1\nframes=1\n", 1),
        bad("mains\nframes=1\n", 1),
        bad("mains:1\nframes=1\n", 1),
        bad("mains =1\nframes=1\n", 1),
        bad("mains= 1\nframes=1\n", 1),
        bad(" mains=1\nframes=1\n", 1),
        bad("mains=1 \nframes=1\n", 1),
        bad("mains=1\r\nframes=1\r\n", 1),
        bad("mains=1\0\nframes=1\n", 1),
        bad("mains=2\nspares= 1\nframes=1\n", 2),
        bad("mains=2\nspares=1\0\nframes=1\n", 2),
        bad("mains=2\nspares=1\nframes=1 \n", 3),
        bad("\u{feff}mains=1\nframes=1\n", 1),
        bad("mains=1\n\nframes=1\n", 2),
        bad("mains=1\nmains=1\nframes=1\n", 2),
        bad("mains=1\nspares=1\nspares=1\nframes=1\n", 3),
        bad("mains=1\nframes=1\nspares=1\n", 3),
        bad("mains=1\nframes=1\nframes=1\n", 3),
        bad("mains=1\nlevel=0\n", 2),
        bad("mains=1\nframes=1\n\n", 3),
        bad(with("\n"), 4),
        bad(with("frame=0\n"), 4),
        bad(with("step=0\n"), 4),
        bad(with("save=0\n"), 4),
        bad(with("level=0\nlevel=0\n"), 5),
        bad(with("level=0\nframe=0\nframe=0\n"), 6),
        bad(with("level=0\nframe=0\nat=0\nsave=0\n"), 7),
        bad(with("level=0\nframe=0\nat=0\nbytes=00\nlevel=0\n"), 8),
        bad(with(&format!("{GROUP}\n")), 9),
        bad(with(&format!("{GROUP}mains=1\n")), 9),
        bad(with(&format!("{GROUP}{GROUP}x\n")), 14),
        bad(format!("mains=2\nframes=1\n{GROUP}x\n"), 8),
    ]
}

/// Values out of form or range, each key at its own line.
fn bad_values() -> Vec<Corner> {
    let mut corners = Vec::new();
    for value in ["", "00", "01", "007", "0001", "1000", "+1", "-1", "1a", "a", "1.", "0x1", "1=1", "\u{663}"]
    {
        corners.push(bad(format!("mains={value}\nspares=1\nframes=1\n"), 1));
        corners.push(bad(format!("mains=1\nspares={value}\nframes=1\n"), 2));
        corners.push(bad(format!("mains=1\nspares=1\nframes={value}\n"), 3));
        corners.push(bad(format!("{HEAD}{}", group(value, "0", "0", "", "0")), 4));
        corners.push(bad(format!("{HEAD}{}", group("0", value, "0", "", "0")), 5));
        corners.push(bad(format!("{HEAD}{}", group("0", "0", value, "", "0")), 6));
        corners.push(bad(format!("{HEAD}{}", group("0", "0", "0", "", value)), 8));
    }
    for value in ["0", "5", "10", "999"] {
        corners.push(bad(format!("mains={value}\nspares=1\nframes=1\n"), 1));
        corners.push(bad(format!("mains=1\nspares={value}\nframes=1\n"), 2));
        corners.push(bad(format!("mains=1\nframes={value}\n"), 2));
    }
    for value in ["2", "-", "10", "yes"] {
        corners.push(bad(format!("{HEAD}{}", group("0", "0", "0", "", value)), 8));
    }
    let long = "00".repeat(1025);
    for value in ["0", "0a0", "0A", "A0", "0g", " 00", "00 ", "0x", &long, &long[..2049], &long[..2047]] {
        corners.push(bad(format!("{HEAD}{}", group("0", "0", "0", value, "0")), 7));
    }
    corners
}

/// Sheets that end too soon: after each line, and inside each line.
fn broken_off() -> Vec<Corner> {
    let whole = format!("{HEAD}{GROUP}");
    let mut corners = Vec::new();
    for end in 0..whole.len() {
        let part = &whole[..end];
        let present = part.matches('\n').count();
        match part == HEAD {
            true => corners.push(corner(part, OPEN)),
            false => corners.push(bad(part, present + 1)),
        }
    }
    corners
}

/// Seven groups of 547 bytes that fill a frame, and one of 34 bytes, the digits of
/// its offset and two for each of so many bytes that it writes there.
fn eight_groups(at: &str, count: usize) -> String {
    let full = group("0", "0", "0", &"5a".repeat(256), "0").repeat(7);
    full + &group("0", "0", at, &"5a".repeat(count), "0")
}

/// Sheets of 4,096 and more bytes, and the most groups.
fn lengths() -> Vec<Corner> {
    let exact = format!("mains=1\nspares=1\nframes=1\n{}", eight_groups("0", 103));
    assert_eq!(exact.len(), 4096);
    let mut output = "open=0 orders=37\n".to_string();
    for step in 1..=8 {
        let orders = if step < 8 { 32 } else { 13 };
        output += &format!("step={step} write=0 orders={orders} save=- orders=0 epoch=0\n");
    }
    let most = format!("mains=1\nframes=1\n{}", group("0", "0", "0", "", "1").repeat(116));
    let mut saves = "open=0 orders=37\n".to_string();
    for step in 1..=116 {
        saves += &format!("step={step} write=8 orders=0 save=0 orders=14 epoch={step}\n");
    }
    vec![
        corner(&exact, output),
        bad(format!("{exact}\n"), 0),
        bad(format!("{exact}{GROUP}"), 0),
        bad(format!("{}x", &exact[..4095]), 43),
        bad(format!("x{}", &exact[1..]), 1),
        bad(format!("x{exact}"), 0),
        bad("x".repeat(4096), 1),
        bad("x".repeat(4097), 0),
        bad("\n".repeat(4097), 0),
        bad("mains=1\n".repeat(100_000), 0),
        corner(most, saves),
    ]
}

/// Writes that run on through the frames of their level, up to its end and
/// beyond it, and what the sheet's own limits leave of them.
fn long_writes() -> Vec<Corner> {
    let bytes = |count: usize| "5a".repeat(count);
    let sheet = |frames: u32, groups: &str| format!("mains=1\nspares=1\nframes={frames}\n{groups}");
    let open = |frames: u32| format!("open=0 orders={}\n", 36 * frames + 1);
    let one = |frames: u32, at: &str, frame: &str, count: usize, save: &str, rest: &str| {
        let group = group("0", frame, at, &bytes(count), save);
        corner(sheet(frames, &group), format!("{}step=1 {rest}\n", open(frames)))
    };
    let unsaved = |write: u32, orders: u32| format!("write={write} orders={orders} save=- orders=0 epoch=0");
    let served = |orders: u32| unsaved(0, orders);
    let refused = unsaved(8, 0);
    // The greatest line, in a level that it fills, then its last byte again,
    // for which the level is copied to a new spare.
    let whole = [group("0", "0", "0", &bytes(1024), "1"), group("0", "3", "255", "01", "1")].concat();
    let whole_printed = open(4)
        + "step=1 write=0 orders=128 save=0 orders=30 epoch=1\n"
        + "step=2 write=0 orders=151 save=0 orders=18 epoch=2\n";
    // Up to the end of the last of two levels.
    let beside = format!("mains=2\nspares=1\nframes=4\n{}", group("1", "1", "200", &bytes(568), "1"));
    // Over a frame's end three times, each saved: into an empty level, with a
    // copy of the level to a new spare, with a copy of the two frames marked.
    let thrice = [
        group("0", "0", "252", "0102030405060708", "1"),
        group("0", "1", "252", &bytes(5), "1"),
        group("0", "0", "255", &bytes(2), "1"),
    ];
    let thrice_printed = open(3)
        + "step=1 write=0 orders=2 save=0 orders=22 epoch=1\n"
        + "step=2 write=0 orders=116 save=0 orders=22 epoch=2\n"
        + "step=3 write=0 orders=78 save=0 orders=22 epoch=3\n";
    // 4,096 bytes: the greatest line and, behind it, as long a one as can be.
    let (first, second) = (group("0", "0", "0", &bytes(1024), "0"), group("0", "0", "30", &bytes(980), "0"));
    let full = format!("mains=1\nframes=4\n{first}{second}");
    assert_eq!(full.len(), 4096);
    let full_printed = format!("{}step=1 {}\nstep=2 {}\n", open(4), served(128), served(124));
    vec![
        corner(sheet(4, &whole), whole_printed),
        corner(beside, "open=0 orders=289\nstep=1 write=0 orders=71 save=0 orders=26 epoch=1\n"),
        corner(sheet(3, &thrice.concat()), thrice_printed),
        corner(&full, full_printed),
        bad(format!("{full}\n"), 0),
        bad(full.replace("save=0\n", "save=10\n"), 0),
        bad(full.replacen("5a", "5A", 1), 6),
        bad(format!("{}x", &full[..4095]), 12),
        one(4, "30", "0", 700, "1", "write=0 orders=89 save=0 orders=26 epoch=1"),
        one(4, "30", "0", 994, "0", &served(125)),
        one(4, "30", "0", 995, "0", &refused),
        one(4, "30", "2", 482, "0", &served(61)),
        one(4, "30", "2", 483, "0", &refused),
        one(4, "1", "0", 1024, "0", &refused),
        one(4, "0", "1", 1024, "0", &refused),
        one(4, "0", "1", 768, "0", &served(96)),
        one(4, "255", "3", 2, "0", &refused),
        one(4, "255", "2", 2, "0", &served(2)),
        one(4, "256", "0", 1, "0", &refused),
        one(4, "0", "4", 1024, "0", &unsaved(7, 0)),
        one(3, "0", "0", 769, "1", "write=8 orders=0 save=0 orders=14 epoch=1"),
        one(2, "1", "0", 256, "1", "write=0 orders=33 save=0 orders=22 epoch=1"),
        one(2, "1", "1", 256, "0", &refused),
        one(1, "1", "0", 256, "0", &refused),
        one(1, "0", "0", 257, "0", &refused),
        one(1, "0", "0", 1024, "1", "write=8 orders=0 save=0 orders=14 epoch=1"),
    ]
}

/// Good sheets without a line of spares.
fn rewritten() -> Vec<Corner> {
    let refused = group("999", "0", "0", "", "1");
    vec![
        corner(format!("mains=2\nframes=1\n{GROUP}"), format!("mains=2\nspares=2\nframes=1\n{GROUP}")),
        corner("mains=1\nframes=4\n", "mains=1\nspares=1\nframes=4\n"),
        corner("mains=2\nframes=3\n", "mains=2\nspares=2\nframes=3\n"),
        corner("mains=3\nframes=1\n", "mains=3\nspares=3\nframes=1\n"),
        corner(
            format!("mains=4\nframes=2\n{refused}{GROUP}"),
            format!("mains=4\nspares=4\nframes=2\n{refused}{GROUP}"),
        ),
    ]
}

/// Sheets with a line of spares, and bad ones.
fn not_rewritten() -> Vec<Corner> {
    let unended = &GROUP[..GROUP.len() - 1];
    vec![
        corner(format!("{HEAD}{GROUP}"), "spares=1\n"),
        corner("mains=2\nspares=2\nframes=1\n", "spares=2\n"),
        corner("mains=4\nspares=3\nframes=1\n", "spares=3\n"),
        corner("mains=1\nspares=4\nframes=1\n", "spares=4\n"),
        bad("", 1),
        bad("mains=2", 1),
        bad("mains=2\n", 2),
        bad("mains=2\nframes=1", 2),
        bad("mains=2\nframes=5\n", 2),
        bad("mains=2\nspares=1", 2),
        bad("mains=2\nspares=1\n", 3),
        bad("mains=2\nspares=\nframes=1\n", 2),
        bad("mains=2\nspares=5\nframes=1\n", 2),
        bad("mains=2\n spares=2\nframes=1\n", 2),
        bad("mains=2\nspares=2\nspares=2\nframes=1\n", 3),
        bad("mains=2\nframes=1\nspares=2\n", 3),
        bad("spares=2\nmains=2\nframes=1\n", 1),
        bad("mains=2\r\nframes=1\r\n", 1),
        bad(format!("mains=2\nframes=1\n{unended}"), 7),
        bad(format!("mains=2\nframes=1\n{GROUP}\n"), 8),
    ]
}

/// Sheets without a line of spares that have room for it or not: up to 4,087 bytes
/// are rewritten.
fn lengths_of_upgrades() -> Vec<Corner> {
    let rest = format!("frames=1\n{}", eight_groups("0", 103));
    let (most, with_line) = (format!("mains=2\n{rest}"), format!("mains=2\nspares=2\n{rest}"));
    let longer = |at: &str, count: usize| format!("mains=2\nframes=1\n{}", eight_groups(at, count));
    let (one_more, longest, too_long) = (longer("10", 103), longer("10", 107), longer("0", 108));
    let all = [&most, &with_line, &one_more, &longest, &too_long];
    assert_eq!(all.map(String::len), [4087, 4096, 4088, 4096, 4097]);
    vec![
        corner(&most, &with_line),
        corner(&with_line, "spares=2\n"),
        corner(&one_more, "bytes=4097\n"),
        corner(&longest, "bytes=4105\n"),
        bad(format!("{}x", &longest[..4095]), 42),
        bad(&too_long, 0),
        bad("mains=1\n".repeat(100_000), 0),
    ]
}
