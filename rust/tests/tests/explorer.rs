//! The explorer with plans that the programs do not use.

use crpm_tests::arbitrary::{self, Metadata};
use crpm_tests::book::Call;
use crpm_tests::calls::*;
use crpm_tests::crash::Module;
use crpm_tests::explore::{Explorer, Images, Kinds, Plan};
use crpm_tests::reference::{Fault, Reference};

const SIZES: Sizes = Sizes::new(1, 1, 1);

/// A call of so few orders that one in eight of its cuts is none.
#[test]
fn few_orders_and_few_cuts() {
    let calls = Reference::good();
    let empty = Metadata { states: vec![0], pairs: vec![UNPAIRED] };
    let image = arbitrary::image_of(SIZES, 0, &empty, 0, &arbitrary::distinct_data(SIZES));
    let mut explorer = Explorer::new(&calls, SIZES, 1);
    let plan = Plan { images: Images::Some { samples: 1 }, every_cut_up_to: 0 };
    let mut history = explorer.start(&image, plan).expect("the image opens");
    let target = Target { console: 0, level: 0, frame: 0, offset: 0 };
    let call = Call { deed: Deed::Write(target, vec![1; 7 * WORD]), lent: None, tape: SIZES.room() };
    let step = explorer.step(&mut history, &call, plan).expect("the write is served");
    assert_eq!(step.orders.len(), 7);
    assert!((4..=8).contains(&step.shown.len()), "{} cuts", step.shown.len());
}

/// Stores of 1, 0 and 0 to a word of zeros: four first parts, two contents.
#[test]
fn more_ways_than_images() {
    let mut module = Module::held(ADR, &[0; 2 * LINE]);
    for word in [1, 0, 0] {
        module.play(Order::Store { place: 0, word });
    }
    assert_eq!((module.cut().count(), module.cut().ways()), (2, 4));
    module.play(Order::Store { place: LINE, word: 5 });
    assert_eq!((module.cut().count(), module.cut().ways()), (4, 8));
    module.play(Order::Flush { place: 0 });
    assert_eq!((module.cut().count(), module.cut().ways()), (4, 8));
    module.play(Order::Fence);
    assert_eq!((module.cut().count(), module.cut().ways()), (2, 2));
}

/// Two waiting lines leave four images: all of them up to the cap, else the two
/// extremes and the samples.
#[test]
fn few_images_or_samples() {
    let calls = Reference::good();
    let sizes = Sizes::new(1, 1, 2);
    let empty = Metadata { states: vec![0], pairs: vec![UNPAIRED] };
    let image = arbitrary::image_of(sizes, 0, &empty, 0, &arbitrary::sparse_data(sizes));
    let looked_at = |cap, samples| {
        let mut explorer = Explorer::new(&calls, sizes, 1);
        let plan = Plan { images: Images::Few { cap, samples }, every_cut_up_to: usize::MAX };
        let mut history = explorer.start(&image, plan).expect("the image opens");
        let before = explorer.counts().images;
        let target = Target { console: 0, level: 0, frame: 0, offset: 252 };
        let call = Call { deed: Deed::Write(target, vec![1; WORD]), lent: None, tape: sizes.room() };
        let step = explorer.step(&mut history, &call, plan).expect("the write is served");
        assert_eq!((step.orders.len(), step.shown.len()), (2, 3));
        explorer.counts().images - before
    };
    assert_eq!(looked_at(4, 9), 1 + 2 + 4);
    assert_eq!(looked_at(3, 9), 1 + 2 + 11);
}

/// Makes these calls one after the other on a laid-out module and plays their orders;
/// an opening is given the second kind. Gives what each way of a cut then leaves.
fn left_after(calls: &Reference, kinds: Kinds, deeds: &[Deed]) -> Vec<Vec<u8>> {
    let mut image = vec![0; SIZES.image_length()];
    calls.lay_out(&mut image, SIZES);
    let (mut card, mut run) = (Card::zeros(), [Console::alone(SIZES)]);
    let mut module = Module::held(kinds.module, &image);
    for deed in [&[Deed::Open(SIZES, kinds.given)], deeds].concat() {
        let mut tape = vec![0; SIZES.room()];
        let answer = calls.make(&deed, module.image(), Given::of(&mut card, &mut run, &mut tape));
        assert_eq!(answer.number, 0);
        let orders = orders_of(&tape[..3 * answer.orders as usize], image.len()).expect("well formed");
        orders.into_iter().for_each(|order| module.play(order));
    }
    let mut images = Vec::new();
    let visit = |_, image: &dyn Fn() -> Vec<u8>| {
        images.push(image());
        Ok::<(), String>(())
    };
    module.cut().for_all(visit).expect("nothing fails");
    images
}

const WRITTEN: u64 = 0x7777;

/// A word at the start of the level.
fn word() -> Deed {
    let target = Target { console: 0, level: 0, frame: 0, offset: 0 };
    Deed::Write(target, WRITTEN.to_le_bytes().to_vec())
}

/// On a laid-out image a word is written, dropped and saved. A power cut after the
/// save leaves one image, which shows zeros; had the discard cleared the marks, the
/// save would not flush the frame, and the word that was never saved might stand.
#[test]
fn a_dropped_word_is_flushed_by_the_save() {
    let ran = |calls: &Reference| {
        let images = left_after(calls, Kinds::ADR, &[word(), Deed::Discard(0), Deed::Save]);
        let stands = |image: &Vec<u8>| {
            assert_eq!((image[EPOCH], image[ODD_STATES]), (1, 1), "saved, and the level set");
            word_at(image, DATA)
        };
        images.iter().map(stands).collect::<Vec<u64>>()
    };
    assert_eq!(ran(&Reference::good()), [0]);
    assert_eq!(ran(&Reference::faulty(Fault::DiscardClearsMarks)), [WRITTEN, 0]);
}

/// Epoch, state and word that may stand after a save that is finished: those saved,
/// whichever kind the module is and whether its openings are given it or kind 0. On a
/// module of kind 0 whose openings were given kind 1 the save can be lost, in any part.
#[test]
fn the_wrong_kind_loses_a_finished_save() {
    let saved = |kinds: Kinds| {
        let images = left_after(&Reference::good(), kinds, &[word(), Deed::Save]);
        let mut stands: Vec<(u8, u8, u64)> =
            images.iter().map(|image| (image[EPOCH], image[ODD_STATES], word_at(image, DATA))).collect();
        stands.sort();
        stands
    };
    for kinds in [Kinds::ADR, Kinds::EADR, Kinds::EADR_AS_ADR] {
        assert_eq!(saved(kinds), [(1, 1, WRITTEN)], "{kinds:?}");
    }
    let mut parts = Vec::new();
    for epoch in [0, 1] {
        for state in [0, 1] {
            parts.extend([0, WRITTEN].map(|word| (epoch, state, word)));
        }
    }
    assert_eq!(saved(Kinds::ADR_AS_EADR), parts);
}

/// A module of kind 1 holds every store as it is played, flushed or not.
#[test]
fn kind_1_holds_every_store() {
    let mut module = Module::held(EADR, &[0; 2 * LINE]);
    for (place, word) in [(0, 1), (LINE, 2), (0, 3)] {
        module.play(Order::Store { place, word });
        let cut = module.cut();
        assert_eq!((cut.count(), cut.ways()), (1, 1));
        assert_eq!(word_at(&cut.all_oldest(), place), word);
        assert_eq!(cut.all_oldest(), cut.all_newest());
    }
}
