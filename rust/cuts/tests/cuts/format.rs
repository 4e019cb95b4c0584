//! What is printed, to the byte; worked out by hand.

use crate::common::{sheet, sheet_named, shown, AGAIN};
use crpm_cuts::{Plan, MOST_IMAGES};
use crpm_tests::library::Library;
use crpm_tests::reference::{Fault, Reference};

/// The lines over the library.
fn printed(input: &[u8], plan: &Plan) -> String {
    shown(&Library, input, plan).0
}

fn most(most: u64) -> Plan {
    Plan { most, ..Plan::DEFAULT }
}

/// tests/cuts/run says how the numbers come about.
#[test]
fn first_sheet() {
    let due = include_str!("../../../../tests/cuts/first.txt");
    assert_eq!(printed(sheet_named("first"), &Plan::DEFAULT), due);
    assert_eq!(printed(sheet_named("first"), &most(3)), due, "three images are the most that it has");
    assert_eq!(printed(sheet_named("first"), &AGAIN), include_str!("../../../../tests/cuts/first-again.txt"));
}

/// With two of three images opened the lines of those cuts say so and stand alone. At
/// each of the 6 cuts with three images, one image fewer is opened than by default.
#[test]
fn first_sheet_with_two_images_a_cut() {
    let due = "\
open=0 orders=73
cut=0..73 images=1 shows=old
step=1 write=0 orders=2
cut=0..1 images=1..2 shows=old
cut=2 images=3 tried=2 shows=old
step=1 save=0 orders=18
cut=0..4 images=3 tried=2 shows=old
cut=5..15 images=1..2 shows=old
cut=16..17 images=2 shows=old,new
cut=18 images=1 shows=new
cuts=96 images=114 other=0
";
    assert_eq!(printed(sheet_named("first"), &most(2)), due);
}

/// One image a cut is the oldest: while the epoch waits it shows the old page.
#[test]
fn one_image_is_the_oldest() {
    let text = printed(sheet_named("first"), &most(1));
    assert!(text.contains("\ncut=16..17 images=2 tried=1 shows=old\ncut=18 images=1 shows=new\n"), "{text}");
}

/// A save that does not flush the second frame of a write of two words. Two lines wait: 4
/// images, after the first fence 2, and twice as many while the line of states (cuts 6
/// to 14) or the epoch (16 and 17) waits. With the new epoch and without the second
/// word it shows neither page: one image at cuts 16, 17 and 18.
#[test]
fn other_is_shown() {
    let due = "\
open=0 orders=73
cut=0..73 images=1 shows=old
step=1 write=0 orders=2
cut=0..2 images=1..4 shows=old
step=1 save=0 orders=18
cut=0..15 images=2..4 shows=old
cut=16..17 images=4 shows=old,new,other
cut=18 images=2 shows=new,other
cuts=96 images=151 other=3
";
    let faulty = Reference::faulty(Fault::MarksFirstFrameOnly);
    assert_eq!(shown(&faulty, sheet_named("first-frame-marked"), &Plan::DEFAULT).0, due);
}

/// A refused write has one cut, a save that changes no page says old: 1 image, or 2
/// while the epoch waits (cuts 12 and 13 of 14).
#[test]
fn a_page_that_stays_is_old() {
    let due = "\
open=0 orders=37
cut=0..37 images=1 shows=old
step=1 write=6 orders=0
cut=0 images=1 shows=old
step=1 save=0 orders=14
cut=0..14 images=1..2 shows=old
cuts=54 images=56 other=0
";
    assert_eq!(printed(&sheet([1, 1, 1], &[(9, 0, 0, &[1], 1)]), &Plan::DEFAULT), due);
}

/// Zeros are written to an empty level: no byte changes, and yet the page that is saved is
/// a new one, on which the level is silent. Only the line of states and the epoch wait.
#[test]
fn silent_is_new() {
    let due = "\
open=0 orders=37
cut=0..37 images=1 shows=old
step=1 write=0 orders=1
cut=0..1 images=1 shows=old
step=1 save=0 orders=18
cut=0..15 images=1..2 shows=old
cut=16..17 images=2 shows=old,new
cut=18 images=1 shows=new
cuts=59 images=70 other=0
";
    assert_eq!(printed(&sheet([1, 1, 1], &[(0, 0, 0, &[0], 1)]), &Plan::DEFAULT), due);
}

/// A sheet without groups is opened and no more.
#[test]
fn no_groups() {
    let due = "open=0 orders=37\ncut=0..37 images=1 shows=old\ncuts=38 images=38 other=0\n";
    assert_eq!(printed(&sheet([1, 1, 1], &[]), &Plan::DEFAULT), due);
}

/// 20 words over 20 lines, which all wait: 2 to the 20 images, of which 1000 are opened.
#[test]
fn many_images() {
    let lines: Vec<_> = (0..20).map(|i| (i / 16, i / 4 % 4, 64 * (i % 4), &[7u8][..], 0)).collect();
    let text = printed(&sheet([2, 1, 4], &lines), &Plan::DEFAULT);
    let due = "\nstep=17 write=0 orders=1
cut=0 images=65536 shows=old
cut=1 images=131072 tried=1000 shows=old
";
    assert!(text.contains(due), "{text}");
    assert!(text.contains("\ncut=0..1 images=524288..1048576 tried=1000 shows=old\ncuts="), "{text}");
}

/// The numbers of a line of `key=number` fields, by their keys.
fn fields(line: &str) -> Vec<(&str, u64)> {
    line.split(' ')
        .map(|field| field.split_once('=').expect("a key"))
        .map(|(key, value)| (key, value.parse().expect("a number")))
        .collect()
}

/// Behind the cuts of long writes not every board goes on: only so many images are opened
/// there, and the line says how many boards went on to the end.
#[test]
fn not_every_board_goes_on() {
    let text = printed(sheet_named("long"), &AGAIN);
    let mut left = 0;
    for line in text.lines().filter(|line| line.starts_with("again=")) {
        let fields = fields(line);
        let of = |key| fields.iter().find(|(known, _)| *known == key).map(|(_, number)| *number);
        let images = of("images").expect("images");
        assert!(images < 2 * MOST_IMAGES, "{line}");
        if let Some(tried) = of("tried") {
            assert!(Some(tried) < of("again") && images >= MOST_IMAGES, "{line}");
            left += 1;
        }
    }
    assert_eq!(left, 4, "{text}");
}
