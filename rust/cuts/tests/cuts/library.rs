//! Over the library the same is printed as over the reference.

use crate::common::{random_sheet, shown, AGAIN, SHEETS};
use crpm_cuts::Plan;
use crpm_tests::library::Library;
use crpm_tests::prng::Rng;
use crpm_tests::reference::Reference;

fn same(name: &str, input: &[u8], plan: &Plan) -> String {
    let (text, totals) = shown(&Library, input, plan);
    assert_eq!(text, shown(&Reference::good(), input, plan).0, "{name}");
    assert_eq!(totals.other, 0, "{name}: {text}");
    text
}

#[test]
fn sheets_in_files() {
    for (name, input) in SHEETS {
        for most in [1, 20, 5000] {
            same(name, input, &Plan { most, ..AGAIN });
        }
    }
}

#[test]
fn random_sheets() {
    let mut rng = Rng::new(71);
    let mut refused = 0;
    for number in 0..150 {
        let input = random_sheet(&mut rng);
        let most = rng.pick(&[1, 10, 2000]);
        let text = same(&format!("sheet {number}"), &input, &Plan { most, again: number % 3 == 0 });
        refused += usize::from(text.contains("write=6 ") || text.contains("write=9 "));
    }
    assert!((10..140).contains(&refused), "{refused} sheets with refused writes");
}
