//! The texts of the dump, as the program has them, against those of the reference.

use crpm_dump::board::Board;
use crpm_dump::proved;
use crpm_tests::arbitrary;
use crpm_tests::calls::Sizes;
use crpm_tests::dumped::compared;
use crpm_tests::dumps::Texts;
use crpm_tests::prng::Rng;

struct Proved;

fn numbers(sizes: Sizes) -> [u64; 3] {
    [sizes.levels, sizes.spares, sizes.frames]
}

impl Texts for Proved {
    fn own_sizes(&self, image: &[u8]) -> Sizes {
        let [levels, spares, frames] = proved::own_sizes(image);
        Sizes::new(levels, spares, frames)
    }

    fn dump_text(&self, image: &[u8], sizes: Sizes) -> (u64, String) {
        proved::dump_text(image, numbers(sizes))
    }

    fn same_text(&self, a: &[u8], b: &[u8], sizes: Sizes) -> (u64, String) {
        proved::same_text(a, b, numbers(sizes))
    }
}

#[test]
fn the_texts_are_those_of_the_reference() {
    let found = compared(&Proved, 63, 3000);
    println!("{}", found.as_ref().map_or_else(String::clone, |found| found.text.clone()));
    assert!(found.is_ok());
}

/// The lines of every sound image can be drawn.
#[test]
fn the_lines_make_a_board() {
    let mut rng = Rng::new(67);
    for round in 0..2000 {
        let sizes = match round % 100 {
            0 => arbitrary::edge_sizes(&mut rng),
            _ => arbitrary::sizes(&mut rng, 5),
        };
        let image = arbitrary::sound_image(&mut rng, sizes);
        let (refusal, text) = proved::dump_text(&image, numbers(sizes));
        assert!(refusal == 0 && Board::read(&text).is_some(), "{text}");
    }
}
