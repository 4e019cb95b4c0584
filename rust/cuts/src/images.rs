//! Which images of a cut are opened: all, or some of many.

use crpm_tests::crash::Cut;
use crpm_tests::prng::Rng;
use std::collections::BTreeSet;
use std::convert::Infallible;

/// Where not all images of a cut are opened, these are the most.
const SAMPLE: u64 = 1000;

/// Gets an image's hash and, if it asks, the image.
pub type Visit<'a> = &'a mut dyn FnMut(u128, &dyn Fn() -> Vec<u8>);

/// Visits every image of a cut if they are no more than `most`, else some; each once.
/// Gives how many.
pub fn for_tried(cut: &Cut, most: u64, visit: Visit) -> u64 {
    if cut.count() > u128::from(most) {
        return for_some(cut, most.min(SAMPLE), visit);
    }
    let Ok(()) = cut.for_all(|hash, image| {
        visit(hash, image);
        Ok::<(), Infallible>(())
    });
    cut.count() as u64
}

/// Visits so many of a cut's images, which are more: the oldest, the newest, and then in
/// turn one with a line at its newest stage and the others at their oldest, one with that
/// line at its oldest and the others at their newest, and a random one; random ones when
/// every line had its turn.
fn for_some(cut: &Cut, most: u64, visit: Visit) -> u64 {
    let (oldest, newest): (Vec<usize>, Vec<usize>) = cut.stages().into_iter().unzip();
    let but = |stages: &[usize], line: usize, stage: usize| {
        let mut stages = stages.to_vec();
        stages[line] = stage;
        stages
    };
    // the same cut has the same sample, wherever and whenever it is looked at
    let mut rng = Rng::new(cut.visit(&newest, |hash, _| hash as u64));
    let in_turn = (0..).flat_map(|line| {
        let of_line = || [but(&oldest, line, newest[line]), but(&newest, line, oldest[line])];
        let random = newest.iter().map(|last| rng.below(last + 1)).collect();
        (line < newest.len()).then(of_line).into_iter().flatten().chain([random])
    });
    let mut visited = BTreeSet::new();
    for chosen in [oldest.clone(), newest.clone()].into_iter().chain(in_turn) {
        cut.visit(&chosen, |hash, image| {
            if visited.insert(hash) {
                visit(hash, image);
            }
        });
        if visited.len() as u64 == most {
            break;
        }
    }
    most
}
