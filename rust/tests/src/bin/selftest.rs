//! The explorer over the reference alone; calls no library.
//!
//! Checked against the specification: the bench cases, the cut model, demand 3
//! over every permitted image of single calls, of short histories of one console
//! and of two and of the first save after a restart, over the stories of long
//! writes, of two consoles and of discards and over random histories, with the laws
//! of sections 11.5, 10.9, 3.4, 10.10, 15.7, 10.12 and 13 and those of the tapes counted
//! in all of them; both kinds of module, and openings that are given the wrong one;
//! likeness of boards, each with each; sheets and random histories on two benches; each
//! fault must be caught by what it breaks, and those that keep demand 3 must keep it;
//! the corner sheets print as they should, and wrong rules for spares left out and wrong
//! upgrades of sheets do not.

use crpm_tests::calls::Sizes;
use crpm_tests::compared::Compared;
use crpm_tests::explore::{Images, Kinds, Plan, LEGEND};
use crpm_tests::fast::Fast;
use crpm_tests::groups::{self, Laws, Random};
use crpm_tests::long::{after_cuts, long_writes, longest_writes};
use crpm_tests::reference::{Fault, Reference};
use crpm_tests::report::{arguments, Found, Outcome, Suite};
use crpm_tests::restart::{restored_levels, restored_levels_without_laws};
use crpm_tests::sheet::{self, Rule, Upgrade};
use crpm_tests::{arbitrary, benches, consoles, corners, corners::Corner, discards, kinds, likeness};
use std::process::ExitCode;

const USAGE: &str = "usage: selftest
Checks the second program by itself: the reference, the crash model and the explorer.
A line for each group, totals at the end. Status: 0 passed, 1 failed, 2 wrong arguments.";

const SMALL: Sizes = Sizes::new(1, 1, 1);
const TWO: Sizes = Sizes::new(2, 1, 1);
const FOUR: Sizes = Sizes::new(2, 2, 1);
const FIVE: Sizes = Sizes::new(3, 2, 1);
const SMALL_OF_FRAMES: Sizes = Sizes::new(1, 1, 2);
const TWO_OF_FRAMES: Sizes = Sizes::new(2, 1, 2);
const STORY: Sizes = Sizes::new(6, 4, 1);
const STORY_OF_FRAMES: Sizes = Sizes::new(4, 2, 2);

fn main() -> ExitCode {
    if let Err(status) = arguments(USAGE, &[], 0) {
        return status;
    }
    println!("{LEGEND}");
    let good = Reference::good();
    let mut suite = Suite::default();
    all_good(&mut suite, &good);
    faults(&mut suite);
    suite.add("faults among any contents", || differ(&good));
    suite.add("forms of the benchmark", || forms_agree(&good));
    sheets(&mut suite);
    suite.run("selftest")
}

/// The reference by every group.
fn all_good<'a>(suite: &mut Suite<'a>, good: &'a Reference) {
    suite.add("cut model", || groups::crash_model(4000));
    suite.add("bench cases", || groups::bench_cases(good));
    suite.add("waiting lines", || groups::waiting_lines(good));
    suite.add("single calls 1,1,1", || groups::single_calls(good, Kinds::ADR));
    suite.add("single calls 1,1,1, kind 1", || groups::single_calls(good, Kinds::EADR));
    for (sizes, depth, kinds) in HISTORIES {
        let (of_kind, explore) = (told(kinds), move || groups::short_histories(good, sizes, depth, kinds));
        suite.add(format!("histories up to {depth} at {sizes}{of_kind}"), explore);
    }
    suite.add("long writes at 1,1,4", || long_writes(good, EVERY_CUT));
    suite.add("long writes after cuts", || after_cuts(good));
    suite.add("longest writes", || longest_writes(good));
    suite.add("discards at 2,1,2", || discards::story(good, Plan::ALL));
    suite.add("discards of 17.8", || discards::worked_example(good));
    suite.add("longest discards", || discards::longest(good));
    suite.add("stage and gallery at 5,3,1", || consoles::story(good));
    suite.add("two consoles up to 3 at 2,1,1", || consoles::of_two(good, TWO, 3, 7, Plan::ALL));
    suite.add("two consoles up to 3 at 3,2,1", || consoles::of_two(good, FIVE, 3, 8, FEW_CUTS));
    suite.add("random histories", || groups::random_histories(good, random(21, 40)));
    for kinds in [Kinds::ADR, Kinds::EADR, Kinds::EADR_AS_ADR] {
        for sizes in [STORY, STORY_OF_FRAMES] {
            let explore = move || restored_levels(good, sizes, kinds);
            suite.add(format!("restored levels at {sizes}{}", told(kinds)), explore);
        }
    }
    suite.add("both kinds", || kinds::both(good, 46, 4000));
    suite.add("bench cases, kind 1", || kinds::bench_cases(good));
    suite.add("wrong kinds", || kinds::wrong_kind(good));
    suite.add("likeness of 17.11", || likeness::worked_example(good));
    suite.add("likeness of boards", || likeness::boards(good, 49, 200));
    suite.add("two benches, one sheet", || benches::one_sheet(good));
    suite.add("two benches, random histories", || benches::random_histories(good, 45, 200));
}

/// Short histories: their sizes and lengths, and the kinds of module.
const HISTORIES: [(Sizes, usize, Kinds); 11] = [
    (SMALL, 5, Kinds::ADR),
    (SMALL, 5, Kinds::EADR),
    (TWO, 4, Kinds::ADR),
    (TWO, 4, Kinds::EADR),
    (TWO, 3, Kinds::EADR_AS_ADR),
    (FOUR, 2, Kinds::ADR),
    (FOUR, 2, Kinds::EADR),
    (SMALL_OF_FRAMES, 4, Kinds::ADR),
    (SMALL_OF_FRAMES, 4, Kinds::EADR),
    (TWO_OF_FRAMES, 3, Kinds::ADR),
    (TWO_OF_FRAMES, 3, Kinds::EADR),
];

/// The kinds in a group's name, where they are not 0.
fn told(kinds: Kinds) -> &'static str {
    match kinds {
        Kinds::EADR => ", kind 1",
        Kinds::EADR_AS_ADR => ", kind 1 as 0",
        _ => "",
    }
}

/// Each fault by what it breaks.
fn faults(suite: &mut Suite) {
    for (fault, sizes, breaks) in FAULTS {
        suite.add(format!("fault {fault:?}"), move || caught(fault, sizes, Kinds::ADR, breaks));
    }
    for (fault, breaks) in FAULTS_OF_KIND {
        suite.add(format!("fault {fault:?}"), move || caught(fault, ONE_FRAME, Kinds::EADR, breaks));
    }
    for fault in KINDS_THAT_KEEP_DEMAND_3 {
        let faulty = Reference::faulty(fault);
        let keeps = move || groups::short_histories_without_laws(&faulty, TWO, 3, Kinds::EADR);
        suite.add(format!("fault {fault:?} keeps demand 3"), keeps);
    }
    for (fault, breaks) in FAULTS_OF_SAVE {
        let story = move || restored_levels(&Reference::faulty(fault), STORY, Kinds::ADR);
        suite.add(format!("fault {fault:?} after a restart"), move || heard(story(), breaks));
    }
    for (fault, breaks) in FAULTS_OF_WRITE {
        let story = move || long_writes(&Reference::faulty(fault), EVERY_CUT);
        suite.add(format!("fault {fault:?} in long writes"), move || heard(story(), breaks));
    }
    for (fault, breaks, on_sheets) in FAULTS_OF_SPARE {
        suite.add(format!("fault {fault:?} keeps demand 3"), move || keeps_demand_3(fault));
        let faulty = Reference::faulty(fault);
        let laws = move || {
            groups::short_histories(&faulty, FOUR, 1, Kinds::ADR)?;
            restored_levels(&faulty, STORY_OF_FRAMES, Kinds::ADR)
        };
        suite.add(format!("fault {fault:?} by the laws"), move || heard(laws(), breaks));
        let sheets = move || benches::one_sheet(&faulty);
        suite.add(format!("fault {fault:?} on the sheet"), move || heard(sheets(), on_sheets));
    }
    for (fault, breaks) in FAULTS_OF_CONSOLES {
        let faulty = Reference::faulty(fault);
        let explored = move || consoles::of_two(&faulty, TWO, 2, 21, FEW_CUTS);
        suite.add(format!("fault {fault:?} at two consoles"), move || heard(explored(), breaks));
    }
    for (fault, breaks) in FAULTS_OF_DISCARD {
        let story = move || discards::story(&Reference::faulty(fault), Plan::ALL);
        suite.add(format!("fault {fault:?} in the story"), move || heard(story(), breaks));
    }
    for fault in DISCARDS_THAT_KEEP_DEMAND_3 {
        suite.add(format!("fault {fault:?} keeps demand 3"), move || discards_keep_demand_3(fault));
    }
    for (fault, in_story, of_boards) in FAULTS_OF_LIKENESS {
        let faulty = Reference::faulty(fault);
        let story = move || likeness::worked_example(&faulty);
        suite.add(format!("fault {fault:?} in 17.11"), move || heard(story(), in_story));
        let boards = move || likeness::boards(&faulty, 49, 200);
        suite.add(format!("fault {fault:?} among boards"), move || heard(boards(), of_boards));
    }
    let clears_touch = Reference::faulty(Fault::DiscardClearsTouch);
    suite.add("fault DiscardClearsTouch keeps demand 3 where no level is empty", move || {
        groups::short_histories_of_set_levels(&clears_touch, TWO, 4)
    });
    suite.add("fault TakesByTape on two benches", || {
        heard(on_two_benches(Fault::TakesByTape), "two benches have different orders")
    });
    suite.add("fault OverdrawnShares on two benches", || {
        heard(on_two_benches(Fault::OverdrawnShares), "due of 14 and 15: Some(15)")
    });
    suite.add("fault LikeByBytes on two benches", || {
        heard(on_two_benches(Fault::LikeByBytes), "a board alike the one before: true, due false")
    });
    suite.add("fault LikeByStates on two benches", || {
        heard(on_two_benches(Fault::LikeByStates), "a board alike the one before: false, due true")
    });
}

/// The corner sheets, and what they show of wrong rules and upgrades.
fn sheets(suite: &mut Suite) {
    suite.add("corner sheets", || all_print(&corners::all(), sheet::printed));
    for (name, rule, breaks) in WRONG_RULES {
        let wrong = move || all_print(&corners::all(), |input| sheet::printed_by(rule, input));
        suite.add(format!("spares left out: {name}"), move || heard(wrong(), breaks));
    }
    suite.add("upgrade corners", || all_print(&corners::upgrades(), sheet::upgraded));
    for (name, upgrade, breaks) in WRONG_UPGRADES {
        let wrong = move || all_print(&corners::upgrades(), |input| sheet::upgraded_by(&upgrade, input));
        suite.add(format!("upgrade: {name}"), move || heard(wrong(), breaks));
    }
}

const ONE_FRAME: &[Sizes] = &[SMALL, TWO];
const FRAMES: &[Sizes] = &[SMALL_OF_FRAMES];

/// Each fault that the explorer shows, the sizes of the histories, and what
/// must be said of it. A save that keeps restored levels, a write that takes offset
/// 256, the discards that keep demand 3 and wrong likenesses break neither it nor the
/// book, and only the laws show them.
const FAULTS: [(Fault, &[Sizes], &str); 27] = [
    (Fault::StateBeforeFence, ONE_FRAME, "opening again answers 4"),
    (Fault::MarksClearedAtSave, ONE_FRAME, "opening again shows a page that is not permitted"),
    (Fault::OpeningSkipsLevelToSpare, ONE_FRAME, "opening again shows a page that is not permitted"),
    (Fault::NewByIdleLine, ONE_FRAME, "opening again answers 4"),
    (Fault::TakesSpareInUse, ONE_FRAME, "opening again answers 4"),
    (Fault::TakesLowestPaired, ONE_FRAME, "opening again answers 4"),
    (Fault::SaveKeepsRestored, ONE_FRAME, "save: levels in state 2: 1, spares not free: 1, due 0 of each"),
    (Fault::SaveSetsEmpty, ONE_FRAME, "opening again shows other levels empty than those never set"),
    (Fault::SaveTurnsOwnToSpare, ONE_FRAME, "opening again answers 4"),
    (Fault::MarksFirstFrameOnly, FRAMES, "opening again shows a page that is not permitted"),
    (Fault::TakesOffset256, FRAMES, "a write (refusal 8 due: true) answers 0"),
    (Fault::TakesLevelFromAnyFrame, FRAMES, "opening again shows a page that is not permitted"),
    (Fault::StoresFirstFrameOnly, FRAMES, "the reads do not give the book's pages"),
    (Fault::DiscardClearsMarks, ONE_FRAME, "opening again shows a page that is not permitted"),
    (Fault::DiscardClearsTouch, ONE_FRAME, "opening again shows other levels empty than those never set"),
    (Fault::DiscardStoresAllFrames, FRAMES, "a discard gives 64 orders, due 32"),
    (Fault::DiscardFlushes, ONE_FRAME, "a discard gives 36 orders, due 32"),
    (Fault::DiscardsToZeros, ONE_FRAME, "the reads do not give the book's pages"),
    (Fault::DiscardsEmptyFromSpare, ONE_FRAME, "the reads do not give the book's pages"),
    (
        Fault::DiscardsDownward,
        FRAMES,
        "a discard gives Store { place: 768, word: 17 }, due Store { place: 512, word: 1 }",
    ),
    (Fault::DiscardsUntouched, ONE_FRAME, "opening again shows a page that is not permitted"),
    (Fault::DiscardRefusesUntouched, ONE_FRAME, "a discard with a tape of 95 numbers answers 11, due 0"),
    (Fault::LikeByBytes, ONE_FRAME, "save: alike the board before: true, due false"),
    (Fault::LikeByFirstLine, ONE_FRAME, "save: likeness answers (0, true), and turned round (0, false)"),
    (Fault::LikeByIdleLines, ONE_FRAME, "save: alike the board before: false, due true"),
    (Fault::LikeByStates, ONE_FRAME, "at 0: alike the board before: false, due true"),
    (Fault::LikeByFirstEmpties, ONE_FRAME, "save: likeness answers (0, false), and turned round (0, true)"),
];

/// The faults of discards, and what is due otherwise in their story.
const FAULTS_OF_DISCARD: [(Fault, &str); 9] = [
    (Fault::DiscardClearsMarks, "a discard changes the card"),
    (Fault::DiscardClearsTouch, "a discard changes the card"),
    (Fault::DiscardStoresAllFrames, "a discard gives 64 orders, due 32"),
    (Fault::DiscardFlushes, "a discard gives 36 orders, due 32"),
    (Fault::DiscardsToZeros, "discard of level 0, the reads do not give the book's pages"),
    (Fault::DiscardsEmptyFromSpare, "discard of level 1, the reads do not give the book's pages"),
    (
        Fault::DiscardsDownward,
        "a discard gives Store { place: 768, word: 572662306 }, due Store { place: 512, word: 0 }",
    ),
    (Fault::DiscardsUntouched, "a discard gives 32 orders, due 0"),
    (Fault::DiscardRefusesUntouched, "a discard with a tape of 0 numbers answers 11, due 0"),
];

/// The faults of discards that no page shows, at any cut.
const DISCARDS_THAT_KEEP_DEMAND_3: [Fault; 4] = [
    Fault::DiscardStoresAllFrames,
    Fault::DiscardFlushes,
    Fault::DiscardsDownward,
    Fault::DiscardRefusesUntouched,
];

/// The faults of the kinds of module that a module of kind 1 shows, and what is said of
/// each.
const FAULTS_OF_KIND: [(Fault, &str); 5] = [
    (
        Fault::KeepsAFlush,
        "has Orders { stores: 9, flushes: 1, fences: 3 }, due Orders { stores: 9, flushes: 0, fences: 3 }",
    ),
    (
        Fault::DropsAFence,
        "has Orders { stores: 9, flushes: 0, fences: 2 }, due Orders { stores: 9, flushes: 0, fences: 3 }",
    ),
    (
        Fault::FlushesAll,
        "has Orders { stores: 9, flushes: 2, fences: 3 }, due Orders { stores: 9, flushes: 0, fences: 3 }",
    ),
    (Fault::TakesKind2, "an opening given kind 2 answers 0"),
    (Fault::WriteForgetsKind, "a card of kind 0 is left, due 1"),
];

/// Those of them that no page shows on a module of kind 1, at any cut.
const KINDS_THAT_KEEP_DEMAND_3: [Fault; 4] =
    [Fault::KeepsAFlush, Fault::DropsAFence, Fault::FlushesAll, Fault::WriteForgetsKind];

/// The faults of likeness, and what is due otherwise in the table of 17.11 and among
/// boards. In a history none becomes empty, so that its laws show all but the last.
const FAULTS_OF_LIKENESS: [(Fault, &str, &str); 6] = [
    (
        Fault::LikeByBytes,
        "step 2: save, with the board of step 0, alike: true, due false",
        "alike, as the saved reads are: (0, true), due (0, false)",
    ),
    (
        Fault::LikeByFirstLine,
        "step 2: save, with the board of step 0, likeness answers (0, true), and turned round (0, false)",
        "a likeness turned round: (0, false), due (0, true)",
    ),
    (
        Fault::LikeByIdleLines,
        "step 2: save, with the board of step 0, alike: true, due false",
        "alike, as the saved reads are: (0, true), due (0, false)",
    ),
    (
        Fault::LikeByStates,
        "to level 0 frame 0 at 0, with the board of step 2, alike: false, due true",
        "alike, as the saved reads are: (0, false), due (0, true)",
    ),
    (
        Fault::LikeByFirstEmpties,
        "step 2: save, with the board of step 0, likeness answers (0, false), and turned round (0, true)",
        "a likeness turned round: (0, true), due (0, false)",
    ),
    (
        Fault::LikeByCount,
        "the other level and the board of step 2, alike: true, due false",
        "alike, as the saved reads are: (0, true), due (0, false)",
    ),
];

/// The faults of a save's states, and what is heard after a restart.
const FAULTS_OF_SAVE: [(Fault, &str); 3] = [
    (
        Fault::SaveKeepsRestored,
        "after a restart console 0 writes 8 bytes to level 4 frame 0 at 192: 9, due 0",
    ),
    (Fault::SaveSetsEmpty, "saved read of the last level: 256, due 0"),
    (
        Fault::SaveTurnsOwnToSpare,
        "after a restart console 0 writes 8 bytes to level 4 frame 0 at 192: 4, due 0",
    ),
];

/// The faults of long writes, and what is due otherwise in their story.
const FAULTS_OF_WRITE: [(Fault, &str); 6] = [
    (Fault::MarksFirstFrameOnly, "L2 marks: 1, due 7"),
    (Fault::MarksOneFrameMore, "L2 marks: 15, due 7"),
    (Fault::TakesOffset256, "L7, a byte at 256 number: 0, due 8"),
    (Fault::TakesLevelFromAnyFrame, "L7, 700 bytes from frame 2 number: 0, due 8"),
    (Fault::StoresFirstFrameOnly, "L2 orders: 29, due 89"),
    (Fault::StoresWholeFrames, "L2 orders: 96, due 89"),
];

/// The faults of the new spare that keep demand 3: what the law of section 3.4
/// says of each, and where it leaves what is written of the sheets. The first
/// prints what the reference prints, from every laid-out image: it is the
/// reference with the spares counted downward.
const FAULTS_OF_SPARE: [(Fault, &str, &str); 3] = [
    (
        Fault::TakesHighest,
        "spare 1 is taken: a lower one is unpaired",
        "the sheet of 17.6, pairs after group 4: [255, 1], due [1, 255]",
    ),
    (
        Fault::TakesHighestPaired,
        "spare 1 is taken: a lower one has its level in state 1",
        "the sheet of 17.6: \"step=8 write=0 orders=41 save=- orders=0 epoch=4\", \
         due \"step=8 write=0 orders=43 save=- orders=0 epoch=4\"",
    ),
    (
        Fault::TakesPairedFirst,
        "spare 0 is taken: it is paired and another is not",
        "the sheet of 17.6: \"step=6 write=0 orders=43 save=0 orders=26 epoch=4\", \
         due \"step=6 write=0 orders=41 save=0 orders=26 epoch=4\"",
    ),
];

/// The faults of consoles that two of them show, and what is said of each.
const FAULTS_OF_CONSOLES: [(Fault, &str); 11] = [
    (Fault::ChargesRefused, "a refused call changes the card or the run, or reports orders"),
    (Fault::ChargesMarkedOnly, "a call lent [0/0/0 0/1/0] leaves [0/0/0 0/1/0], due [0/0/0 0/1/1]"),
    (Fault::SaveKeepsTaken, "save: a call lent [0/0/0 0/1/1] leaves [0/0/0 0/1/1], due [0/0/0 0/1/0]"),
    (Fault::OpeningKeepsTaken, " are due"),
    (Fault::LimitAfterShares, "[0/0/0 1/1/0] answers 15 with 0 spares in use, due of 14 and 15: Some(14)"),
    (Fault::OwnShareKept, "console 1 of [0/0/0 1/1/0], below its share, hears 15"),
    (Fault::OwnSpareNotFree, "[0/0/0 0/1/0] answers 15 with 0 spares in use, due of 14 and 15: None"),
    (Fault::SharesWrap, "(refusal 13 due: true) answers 0"),
    (Fault::JudgesOneRecord, "a call lent [0/1/0 0/1/2] (refusal 13 due: true) answers 0"),
    (Fault::KindAfterRun, "an opening given kind 2 answers 13"),
    (Fault::RunAfterSpan, "a call lent [0/1/0 0/1/2] (refusal 13 due: true) answers 8"),
];

/// Wrong rules for a line of spares left out, and what the corner sheets show of
/// each.
const WRONG_RULES: [(&str, Rule, &str); 5] = [
    (
        "half of the levels, rounded down",
        |levels, _| levels / 2,
        "\"open=1 orders=0\", due \"open=0 orders=37\"",
    ),
    (
        "as many as levels",
        sheet::OLDER,
        "\"step=4 write=0 orders=43 save=- orders=0 epoch=1\", \
         due \"step=4 write=9 orders=0 save=- orders=0 epoch=1\"",
    ),
    (
        "one fewer than levels, one at least",
        |levels, _| (levels - 1).max(1),
        "\"step=6 write=0 orders=43 save=- orders=0 epoch=1\", \
         due \"step=6 write=9 orders=0 save=- orders=0 epoch=1\"",
    ),
    (
        "one",
        |_, _| 1,
        "\"step=5 write=9 orders=0 save=- orders=0 epoch=1\", \
         due \"step=5 write=0 orders=43 save=- orders=0 epoch=1\"",
    ),
    (
        "half of the frames",
        |_, frames| frames.div_ceil(2),
        "\"step=4 write=0 orders=151 save=- orders=0 epoch=1\", \
         due \"step=4 write=9 orders=0 save=- orders=0 epoch=1\"",
    ),
];

/// Wrong upgrades, and what their corners show of each.
const WRONG_UPGRADES: [(&str, Upgrade, &str); 6] = [
    ("the line put first", Upgrade { before: 0, ..Upgrade::GOOD }, "\"spares=2\", due \"mains=2\""),
    ("the line put third", Upgrade { before: 2, ..Upgrade::GOOD }, "\"frames=1\", due \"spares=2\""),
    (
        "half as many spares",
        Upgrade { spares: sheet::HALF, ..Upgrade::GOOD },
        "\"spares=1\", due \"spares=2\"",
    ),
    ("any length", Upgrade { most: usize::MAX, ..Upgrade::GOOD }, "\"mains=2\", due \"bytes=4097\""),
    ("a byte more", Upgrade { most: 4097, ..Upgrade::GOOD }, "\"mains=2\", due \"bytes=4097\""),
    ("a byte fewer", Upgrade { most: 4095, ..Upgrade::GOOD }, "\"bytes=4096\", due \"mains=2\""),
];

const EVERY_CUT: Plan = Plan { images: Images::Few { cap: 256, samples: 32 }, every_cut_up_to: usize::MAX };
/// Every image of the cuts near a fence and at the ends of a call.
const FEW_CUTS: Plan = Plan { images: Images::All { cap: 1 << 20 }, every_cut_up_to: 0 };

fn random(seed: u64, histories: usize) -> Random {
    let plan = Plan { images: Images::Some { samples: 2 }, every_cut_up_to: 300 };
    Random { seed, histories, calls: 12, most: 3, plan, laws: Laws::Tried }
}

/// The explorer must find what the fault breaks, by demand 3 and the book
/// first and then by the laws; the shortest histories are tried first.
fn caught(fault: Fault, sizes: &[Sizes], kinds: Kinds, breaks: &str) -> Outcome {
    let faulty = Reference::faulty(fault);
    for explore in [groups::short_histories_without_laws, groups::short_histories] {
        for depth in 1..=3 {
            for sizes in sizes {
                if let Err(witness) = explore(&faulty, *sizes, depth, kinds) {
                    return noticed(witness, breaks);
                }
            }
        }
    }
    Err("not caught".to_string())
}

/// The explorer finds nothing by demand 3 and the book.
fn keeps_demand_3(fault: Fault) -> Outcome {
    let faulty = Reference::faulty(fault);
    let random = Random { laws: Laws::LeftOut, ..random(22, 20) };
    let runs = [
        groups::short_histories_without_laws(&faulty, FOUR, 2, Kinds::ADR)?,
        groups::random_histories(&faulty, random)?,
        restored_levels_without_laws(&faulty, STORY)?,
        restored_levels_without_laws(&faulty, STORY_OF_FRAMES)?,
    ];
    let counts: Vec<(&str, u64)> = runs.into_iter().flat_map(|found| found.counts).collect();
    let sum = |what| counts.iter().filter(|(name, _)| *name == what).map(|(_, count)| count).sum::<u64>();
    Ok(Found { text: format!("{} histories, {} images", sum("histories"), sum("images")), counts })
}

/// The explorer finds nothing by demand 3 and the book in histories with discards.
fn discards_keep_demand_3(fault: Fault) -> Outcome {
    let faulty = Reference::faulty(fault);
    groups::short_histories_without_laws(&faulty, SMALL, 3, Kinds::ADR)?;
    groups::short_histories_without_laws(&faulty, TWO_OF_FRAMES, 3, Kinds::ADR)
}

/// What random histories on two benches show of a fault: one that takes spares by
/// what stood on the tape, one that only three consoles show, wrong likenesses by the
/// law alone.
fn on_two_benches(fault: Fault) -> Outcome {
    benches::random_histories(&Reference::faulty(fault), 45, 200)
}

/// The numbers and the reads of a story must show the fault.
fn heard(story: Outcome, breaks: &str) -> Outcome {
    match story {
        Err(witness) => noticed(witness, breaks),
        Ok(_) => Err("not caught".to_string()),
    }
}

/// Among calls with any contents each fault of long writes, of the new spare, of
/// consoles, of discards, of kinds and of likeness answers or leaves something else
/// than the reference.
fn differ(good: &Reference) -> Outcome {
    let mut differences = Vec::new();
    let of_writes = FAULTS_OF_WRITE.map(|(fault, _)| fault);
    let of_discards = FAULTS_OF_DISCARD.map(|(fault, _)| fault);
    let of_spares = FAULTS_OF_SPARE.map(|(fault, ..)| fault);
    let in_use = [Fault::TakesSpareInUse, Fault::TakesLowestPaired];
    let of_consoles = FAULTS_OF_CONSOLES.map(|(fault, _)| fault);
    let of_three = [Fault::OverdrawnShares];
    let of_kinds = FAULTS_OF_KIND.map(|(fault, _)| fault);
    let of_likeness = FAULTS_OF_LIKENESS.map(|(fault, ..)| fault);
    let others = [&of_spares[..], &in_use, &of_consoles, &of_three, &of_kinds, &of_likeness].concat();
    let of_frames = [&of_writes[..], &of_discards].concat();
    for fault in of_frames.iter().chain(&others) {
        let faulty = Reference::faulty(*fault);
        let both = Compared::new(good, &faulty);
        match of_frames.contains(fault) {
            true => groups::any_contents(&both, 33, 200, |rng| arbitrary::sizes(rng, 3)),
            false => groups::any_contents(&both, 33, 1000, |_| FIVE),
        }
        if both.differences() == 0 {
            return Err(format!("{fault:?} is not noticed"));
        }
        differences.push(format!("{} of {fault:?}", both.differences()));
    }
    let caught = differences.len() as u64;
    Ok(Found::new(format!("differences: {}", differences.join(", ")), &[("faults caught", caught)]))
}

fn noticed(witness: String, breaks: &str) -> Outcome {
    match witness.ends_with(breaks) {
        true => Ok(Found::new(format!("caught: {witness}"), &[("faults caught", 1)])),
        false => Err(format!("caught otherwise: {witness}, due: {breaks}")),
    }
}

/// The Rust forms that the benchmark measures give what the reference gives.
fn forms_agree(good: &Reference) -> Outcome {
    let mut calls = 0;
    for form in Fast::FORMS {
        let compared = Compared::new(good, &form);
        groups::any_contents(&compared, 31, 300, |rng| arbitrary::sizes(rng, 4));
        groups::any_contents(&compared, 32, 2, arbitrary::edge_sizes);
        groups::bench_cases(&compared)?;
        restored_levels(&compared, STORY_OF_FRAMES, Kinds::ADR)?;
        long_writes(&compared, EVERY_CUT)?;
        longest_writes(&compared)?;
        consoles::story(&compared)?;
        discards::story(&compared, FEW_CUTS)?;
        discards::worked_example(&compared)?;
        discards::longest(&compared)?;
        kinds::both(&compared, 48, 400)?;
        kinds::bench_cases(&compared)?;
        likeness::worked_example(&compared)?;
        likeness::boards(&compared, 50, 20)?;
        benches::one_sheet(&compared)?;
        compared.verdict()?;
        compared.spans().all_tried()?;
        compared.charges().all_tried()?;
        compared.discards().all_tried()?;
        compared.kinds().all_tried()?;
        compared.likes().all_tried()?;
        calls += compared.calls();
    }
    Ok(Found::new(format!("{calls} calls as the reference"), &[("calls compared", calls)]))
}

/// All print as they should.
fn all_print(corners: &[Corner], printed: impl Fn(&[u8]) -> Vec<u8>) -> Outcome {
    for Corner { name, input, output } in corners {
        groups::lines_due(name, &printed(input), output)?;
    }
    let sheets = corners.len();
    Ok(Found::new(format!("{sheets} sheets print as they should"), &[("sheets", sheets as u64)]))
}
