//! The proved library against the reference, through the C interface, and the
//! safe calls of crate `crpm` too.
//!
//! Compared byte for byte: each call with any contents; random histories step
//! by step, cut at every order and opened again through the library's own
//! calls; every permitted image of single calls, of short histories of one console
//! and of two and of the first save after a restart; the stories of long writes, of
//! two consoles and of discards at every cut; both kinds of module, each call for
//! both and histories on either; likeness of images with their twins and of boards, each
//! with each; sheets and random histories on two benches. In every history the laws of
//! sections 11.5, 10.9, 3.4, 10.10, 15.7, 10.12 and 13 and those of the tapes are
//! counted. Then the library's answers are spoiled one at a time, and each
//! group must notice. Seeds are fixed.

use crpm_tests::calls::*;
use crpm_tests::compared::Compared;
use crpm_tests::corrupted::{CallKind, Corrupted, Spoil};
use crpm_tests::explore::{Images, Kinds, Plan, LEGEND};
use crpm_tests::groups::{self, Laws, Random};
use crpm_tests::library::{Library, Wrapped};
use crpm_tests::long::{after_cuts, long_writes, longest_writes};
use crpm_tests::reference::Reference;
use crpm_tests::report::{arguments, Found, Outcome, Suite};
use crpm_tests::restart::restored_levels;
use crpm_tests::{arbitrary, benches, consoles, discards, kinds, likeness};
use std::process::ExitCode;

const USAGE: &str = "usage: differential [--quick]
Compares the library with the reference, call by call. --quick: fewer inputs, some seconds.
A line for each group, totals at the end. Status: 0 passed, 1 a difference, 2 wrong arguments.";

type Pair<'a, C> = Compared<'a, Reference, C>;
type SpoiledPair<'a> = Compared<'a, Reference, Corrupted<'a, Library>>;
type SpoiledRun<'a> = &'a dyn Fn(&SpoiledPair) -> Outcome;

const SMALL: Sizes = Sizes::new(1, 1, 1);
const TWO: Sizes = Sizes::new(2, 1, 1);
const FIVE: Sizes = Sizes::new(3, 2, 1);
const SMALL_OF_FRAMES: Sizes = Sizes::new(1, 1, 2);
const TWO_OF_FRAMES: Sizes = Sizes::new(2, 1, 2);
const STORY: Sizes = Sizes::new(6, 4, 1);
const STORY_OF_FRAMES: Sizes = Sizes::new(4, 2, 2);
const SHORT_STORY: Sizes = Sizes::new(3, 1, 1);
const EVERY_CUT: Plan = Plan { images: Images::Some { samples: 2 }, every_cut_up_to: 400 };
const SOME_CUTS: Plan = Plan { images: Images::Some { samples: 1 }, every_cut_up_to: 20 };
/// Every cut of the saves of long writes, few cuts of the writes.
const SOME_OF_SAVES: Plan = Plan { images: Images::Few { cap: 4, samples: 1 }, every_cut_up_to: 30 };
/// Every image of the cuts near a fence and at the ends of a call.
const FEW_CUTS: Plan = Plan { images: Images::All { cap: 1 << 20 }, every_cut_up_to: 0 };
const FEW_IMAGES: Plan = Plan { images: Images::Few { cap: 256, samples: 32 }, every_cut_up_to: usize::MAX };

fn main() -> ExitCode {
    let given = match arguments(USAGE, &["--quick"], 0) {
        Ok(given) => given,
        Err(status) => return status,
    };
    println!("{LEGEND}");
    let mut suite = Suite::default();
    match given.is_empty() {
        true => all(&mut suite),
        false => quick(&mut suite),
    }
    suite.run("differential")
}

fn all(suite: &mut Suite) {
    suite.add("any contents, sizes 1 to 4", || any_small(&Library, 40_000));
    suite.add("any contents, sizes 1 to 64", any_large);
    suite.add("bench cases", || compared(&Library, |both| groups::bench_cases(both)));
    suite.add("waiting lines", || compared(&Library, |both| groups::waiting_lines(both)));
    suite.add("restored levels at 6,4,1", || restored(STORY, Kinds::ADR));
    suite.add("restored levels at 6,4,1, kind 1", || restored(STORY, Kinds::EADR));
    suite.add("restored levels at 4,2,2", || restored(STORY_OF_FRAMES, Kinds::ADR));
    suite.add("restored levels at 4,2,2, kind 1", || restored(STORY_OF_FRAMES, Kinds::EADR));
    suite.add("long writes at 1,1,4", || compared(&Library, |both| long_writes(both, FEW_IMAGES)));
    suite.add("long writes after cuts", || compared(&Library, |both| after_cuts(both)));
    suite.add("longest writes", || compared(&Library, |both| longest_writes(both)));
    suite.add("discards at 2,1,2", || compared(&Library, |both| discards::story(both, Plan::ALL)));
    suite.add("discards of 17.8", || compared(&Library, |both| discards::worked_example(both)));
    suite.add("longest discards", || compared(&Library, |both| discards::longest(both)));
    suite.add("stage and gallery at 5,3,1", || compared(&Library, |both| consoles::story(both)));
    suite.add("two consoles up to 3 at 2,1,1", || of_two(TWO, 21, Plan::ALL));
    suite.add("two consoles up to 3 at 3,2,1", || of_two(FIVE, 4, FEW_CUTS));
    suite.add("both kinds", || compared(&Library, |both| kinds::both(both, 46, 20_000)));
    suite.add("bench cases, kind 1", || compared(&Library, |both| kinds::bench_cases(both)));
    suite.add("wrong kinds", || compared(&Library, |both| kinds::wrong_kind(both)));
    suite.add("likeness of 17.11", || compared(&Library, |both| likeness::worked_example(both)));
    suite.add("likeness of boards", || compared(&Library, |both| likeness::boards(both, 49, 500)));
    suite.add("two benches, one sheet", || compared(&Library, |both| benches::one_sheet(both)));
    suite.add("two benches, random histories", || two_benches(1000));
    suite.add("random histories, sizes 1 to 3", || histories(random(41, 1200, 12, 3, EVERY_CUT)));
    suite.add("random histories, sizes 1 to 9", || histories(random(42, 150, 40, 9, SOME_CUTS)));
    suite.add("random histories, sizes 1 to 64", || {
        histories(Random { laws: Laws::Held, ..random(43, 5, 16, 64, SOME_CUTS) })
    });
    suite.add("single calls at 1,1,1", || single(Kinds::ADR));
    suite.add("single calls at 1,1,1, kind 1", || single(Kinds::EADR));
    suite.add("histories up to 5 at 1,1,1", || short(SMALL, 5, Kinds::ADR));
    suite.add("histories up to 4 at 1,1,1, kind 1", || short(SMALL, 4, Kinds::EADR));
    suite.add("histories up to 4 at 2,1,1", || short(TWO, 4, Kinds::ADR));
    suite.add("histories up to 4 at 2,1,1, kind 1", || short(TWO, 4, Kinds::EADR));
    suite.add("histories up to 3 at 2,1,1, kind 1 as 0", || short(TWO, 3, Kinds::EADR_AS_ADR));
    suite.add("histories up to 4 at 1,1,2", || short(SMALL_OF_FRAMES, 4, Kinds::ADR));
    suite.add("histories up to 3 at 2,1,2", || short(TWO_OF_FRAMES, 3, Kinds::ADR));
    suite.add("histories up to 3 at 2,1,2, kind 1", || short(TWO_OF_FRAMES, 3, Kinds::EADR));
    suite.add("safe calls, any contents", || any_small(&Wrapped, 10_000));
    suite.add("safe calls, bench cases", || compared(&Wrapped, |both| groups::bench_cases(both)));
    suite.add("safe calls, both kinds", || compared(&Wrapped, |both| kinds::both(both, 47, 5_000)));
    suite.add("safe calls, stage and gallery", || compared(&Wrapped, |both| consoles::story(both)));
    suite.add("safe calls, discards", || compared(&Wrapped, |both| discards::story(both, FEW_CUTS)));
    suite.add("safe calls, likeness of 17.11", || compared(&Wrapped, |both| likeness::worked_example(both)));
    suite.add("safe calls, long writes", || compared(&Wrapped, |both| long_writes(both, SOME_OF_SAVES)));
    suite.add("spoiled answers, any contents", spoiled_contents);
    suite.add("spoiled answers, histories", spoiled_histories);
}

fn quick(suite: &mut Suite) {
    suite.add("any contents, sizes 1 to 4", || any_small(&Library, 5_000));
    suite.add("bench cases", || compared(&Library, |both| groups::bench_cases(both)));
    suite.add("restored levels at 6,4,1", || restored(STORY, Kinds::ADR));
    suite.add("long writes at 1,1,4", || compared(&Library, |both| long_writes(both, FEW_IMAGES)));
    suite.add("discards at 2,1,2", || compared(&Library, |both| discards::story(both, Plan::ALL)));
    suite.add("stage and gallery at 5,3,1", || compared(&Library, |both| consoles::story(both)));
    suite.add("two consoles up to 3 at 3,2,1", || of_two(FIVE, 1, FEW_CUTS));
    suite.add("both kinds", || compared(&Library, |both| kinds::both(both, 46, 2_000)));
    suite.add("bench cases, kind 1", || compared(&Library, |both| kinds::bench_cases(both)));
    suite.add("likeness of 17.11", || compared(&Library, |both| likeness::worked_example(both)));
    suite.add("likeness of boards", || compared(&Library, |both| likeness::boards(both, 49, 100)));
    suite.add("two benches, one sheet", || compared(&Library, |both| benches::one_sheet(both)));
    suite.add("two benches, random histories", || two_benches(200));
    suite.add("random histories, sizes 1 to 3", || histories(random(41, 60, 12, 3, EVERY_CUT)));
    suite.add("histories up to 3 at 2,1,1", || short(TWO, 3, Kinds::ADR));
    suite.add("histories up to 3 at 2,1,1, kind 1", || short(TWO, 3, Kinds::EADR));
    suite.add("histories up to 3 at 1,1,2", || short(SMALL_OF_FRAMES, 3, Kinds::ADR));
    suite.add("safe calls, any contents", || any_small(&Wrapped, 5_000));
    suite.add("safe calls, bench cases", || compared(&Wrapped, |both| groups::bench_cases(both)));
    suite.add("spoiled answers, any contents", spoiled_contents);
}

/// Runs a group over both and adds the verdict of the comparison.
fn compared<C: Calls>(calls: &C, run: impl FnOnce(&Pair<C>) -> Outcome) -> Outcome {
    let good = Reference::good();
    let both = Compared::new(&good, calls);
    let outcome = run(&both);
    both.verdict()?;
    let Found { text, mut counts } = outcome?;
    counts.push(("calls compared", both.calls()));
    Ok(Found { text: format!("{text}, {} calls compared", both.calls()), counts })
}

fn any_small<C: Calls>(calls: &C, rounds: usize) -> Outcome {
    compared(calls, |both| {
        groups::any_contents(both, 51, rounds, |rng| arbitrary::sizes(rng, 4));
        both.covers_all_numbers()?;
        kinds_tried(both, "every number of each call's list occurs, none besides")
    })
}

fn any_large() -> Outcome {
    compared(&Library, |both| {
        groups::any_contents(both, 52, 1000, |rng| arbitrary::sizes(rng, 16));
        groups::any_contents(both, 53, 400, arbitrary::edge_sizes);
        groups::any_contents(both, 54, 4, |_| Sizes::new(64, 64, 64));
        kinds_tried(both, "edges and the greatest sizes")
    })
}

/// Adds the writes by their spans, the calls by the records and by the kind of module,
/// the discards by what they store and the likenesses by what decides them, of which
/// none may be missing.
fn kinds_tried<C: Calls>(both: &Pair<C>, text: &str) -> Outcome {
    both.spans().all_tried()?;
    both.charges().all_tried()?;
    both.discards().all_tried()?;
    both.kinds().all_tried()?;
    both.likes().all_tried()?;
    let mut named = [&both.spans().named()[..], &both.charges().named(), &both.discards().named()].concat();
    named.extend(both.kinds().named());
    named.extend(both.likes().named());
    let told: Vec<String> = named.iter().map(|(name, count)| format!("{count} {name}")).collect();
    Ok(Found::new(format!("{text}; {}", told.join(", ")), &named))
}

fn single(kinds: Kinds) -> Outcome {
    compared(&Library, |both| groups::single_calls(both, kinds))
}

fn short(sizes: Sizes, depth: usize, kinds: Kinds) -> Outcome {
    compared(&Library, |both| groups::short_histories(both, sizes, depth, kinds))
}

fn restored(sizes: Sizes, kinds: Kinds) -> Outcome {
    compared(&Library, |both| restored_levels(both, sizes, kinds))
}

fn of_two(sizes: Sizes, runs: usize, plan: Plan) -> Outcome {
    compared(&Library, |both| consoles::of_two(both, sizes, 3, runs, plan))
}

fn two_benches(histories: u64) -> Outcome {
    compared(&Library, |both| benches::random_histories(both, 45, histories))
}

/// Random histories that must try each law.
const fn random(seed: u64, histories: usize, calls: usize, most: usize, plan: Plan) -> Random {
    Random { seed, histories, calls, most, plan, laws: Laws::Tried }
}

fn histories(random: Random) -> Outcome {
    compared(&Library, |both| {
        let mut found = groups::random_histories(both, random)?;
        found.text += &format!(", {} saves refused at the last epoch", both.answered("save", 10));
        Ok(found)
    })
}

const AFTER: [u64; 5] = [0, 1, 4, 9, 23];

/// One spoiled answer among calls with any contents is one difference.
fn spoiled_contents() -> Outcome {
    let good = Reference::good();
    let mut noticed = 0;
    for spoil in Spoil::all() {
        for after in AFTER {
            let spoiled = Corrupted::new(&Library, spoil, after);
            let both = Compared::new(&good, &spoiled);
            groups::any_contents(&both, 55, 40, |rng| arbitrary::sizes(rng, 3));
            if !spoiled.done() || both.differences() != 1 {
                return Err(format!("{spoil:?} after {after}: {} differences", both.differences()));
            }
            noticed += 1;
        }
    }
    let kinds = Spoil::all().len();
    let text = format!("{noticed} of {kinds} kinds, each reported as one difference");
    Ok(Found::new(text, &[("spoiled answers noticed", noticed)]))
}

/// One spoiled answer in a history, by the group that runs it.
fn spoiled_histories() -> Outcome {
    let plan = Plan { images: Images::Some { samples: 1 }, every_cut_up_to: 20 };
    let random = Random { laws: Laws::Held, ..random(44, 8, 8, 2, plan) };
    let (all, few) = (Spoil::all(), [Spoil::Number(CallKind::Write), Spoil::PlayedImage, Spoil::ReadStart]);
    let few_of_likeness = [Spoil::LikeNumber, Spoil::Likeness, Spoil::ReadLength];
    let runs: [(&str, &[Spoil], SpoiledRun); 14] = [
        ("bench cases", &all, &|both| groups::bench_cases(both)),
        ("waiting lines", &all, &|both| groups::waiting_lines(both)),
        ("restored levels", &all, &|both| restored_levels(both, SHORT_STORY, Kinds::ADR)),
        ("long writes", &all, &|both| long_writes(both, SOME_OF_SAVES)),
        ("long writes after cuts", &few, &|both| after_cuts(both)),
        ("discards", &all, &|both| discards::story(both, plan)),
        ("stage and gallery", &all, &|both| consoles::story(both)),
        ("bench cases, kind 1", &all, &|both| kinds::bench_cases(both)),
        ("likeness of 17.11", &all, &|both| likeness::worked_example(both)),
        ("likeness of boards", &few_of_likeness, &|both| likeness::boards(both, 49, 20)),
        ("two benches", &all, &|both| benches::one_sheet(both)),
        ("random histories", &all, &|both| groups::random_histories(both, random)),
        ("single calls", &few, &|both| groups::single_calls(both, Kinds::ADR)),
        ("short histories", &all, &|both| groups::short_histories(both, SMALL, 2, Kinds::EADR)),
    ];
    let (mut lines, mut noticed) = (Vec::new(), 0);
    for (name, kinds, run) in runs {
        let here = spoiled_in(name, kinds, run)?;
        lines.push(format!("{name} {here}"));
        noticed += here;
    }
    Ok(Found::new(format!("noticed in {}", lines.join(", ")), &[("spoiled answers noticed", noticed)]))
}

/// How many spoiled answers there were in this group, all of them noticed.
fn spoiled_in(name: &str, kinds: &[Spoil], run: SpoiledRun) -> Result<u64, String> {
    let good = Reference::good();
    let mut noticed = 0;
    for &spoil in kinds {
        for after in [0, 3] {
            let spoiled = Corrupted::new(&Library, spoil, after);
            let both = Compared::new(&good, &spoiled);
            let outcome = run(&both);
            if spoiled.done() && outcome.is_ok() && both.verdict().is_ok() {
                return Err(format!("{name}: {spoil:?} after {after} is not noticed"));
            }
            noticed += u64::from(spoiled.done());
        }
    }
    match noticed {
        0 => Err(format!("{name}: no answer was spoiled")),
        _ => Ok(noticed),
    }
}
