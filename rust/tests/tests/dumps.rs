//! The texts of the dump by the reference: two boards by hand, and that the comparison
//! notices each wrong version.

use crpm_tests::arbitrary::{image_of, Metadata};
use crpm_tests::calls::*;
use crpm_tests::dumped::compared;
use crpm_tests::dumps::{Dumps, Fault, Texts};

const SIZES: Sizes = Sizes::new(3, 2, 2);

/// Level 0 set to silence, level 1 in spare 1 with another second frame, level 2 empty
/// with a byte in it; the idle line says otherwise.
fn board() -> Vec<u8> {
    let metadata = Metadata { states: vec![1, 2, 0], pairs: vec![UNPAIRED, 1] };
    let mut image = image_of(SIZES, 7, &metadata, 2, &[0; 10 * FRAME]);
    image[SIZES.in_spare(1, 1) + 9] = 5;
    image[SIZES.in_level(2, 0)] = 1;
    image
}

#[test]
fn a_board_by_hand() {
    let expected = "bytes=3072 mains=3 spares=2 frames=2 epoch=7 states-at=c0 refusal=0
level=0 state=1 spare=- saved=200 working=200 differ=- silent
level=1 state=2 spare=1 saved=a00 working=400 differ=1
level=2 state=0 spare=- saved=empty working=600 differ=0
";
    let image = board();
    assert_eq!(Dumps::good().own_sizes(&image), SIZES);
    assert_eq!(Dumps::good().dump_text(&image, SIZES), (0, expected.to_string()));
}

#[test]
fn two_boards_by_hand() {
    let (first, mut second) = (board(), board());
    let same = |second: &[u8]| Dumps::good().same_text(&first, second, SIZES);
    assert_eq!(same(&second), (0, "same=1\n".to_string()));
    second[ODD_STATES + 2] = 1;
    assert_eq!(same(&second), (0, "same=0 level=2 frame=0 at=0\n".to_string()));
    second[SIZES.in_level(2, 0)] = 0;
    assert_eq!(same(&second), (0, "same=0 level=2 frame=- at=-\n".to_string()));
    second[SIZES.in_spare(1, 1) + 9] = 0;
    assert_eq!(same(&second), (0, "same=0 level=1 frame=1 at=9\n".to_string()));
    second[PAIRS + 1] = 0;
    assert_eq!(same(&second), (4, "refusal=4 image=B\n".to_string()));
}

#[test]
fn every_kind_of_answer_is_asked_for() {
    let found = compared(&Dumps::good(), 61, 100);
    assert!(found.is_ok(), "{:?}", found.err());
}

#[test]
fn each_wrong_version_is_noticed() {
    for fault in Fault::ALL {
        let told = compared(&Dumps::faulty(fault), 62, 100).err();
        assert!(told.is_some_and(|told| told.contains(", due ")), "{fault:?}");
    }
}
