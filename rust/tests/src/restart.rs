//! The group of restored levels: the first save after a restart, at every cut.
//!
//! Power goes at any cut of writes that take every spare, and of the calls
//! before them. Opening restores up to as many levels as there are spares. The
//! first save after it settles them, whether they are touched or not, and is
//! cut at every order, as are the calls around it; where every spare restored a
//! level, power also comes back after each cut up to the end of that save, and
//! the story goes on. Before that save a level may be written, and its edits
//! dropped again.
//! Like the other groups it runs over any implementation of the calls.

use crate::book::Call;
use crate::calls::*;
use crate::explore::*;
use crate::groups::{all_found, cut_line, due, laid_out, plain, states};
use crate::laws::{never_at, OF_CONSOLES, OF_DISCARDS, OF_KINDS, OF_SPANS, UNFLUSHED};
use crate::report::{Found, Outcome};
use std::collections::BTreeMap;

/// The level that has no spare, and the empty one.
fn own_and_empty(sizes: Sizes) -> (u64, u64) {
    (sizes.spares, sizes.spares + 1)
}

/// Every spare has restored a level, one level is in state 1, the last empty.
fn restored(sizes: Sizes) -> Vec<u8> {
    [vec![2; sizes.spares as usize], vec![1, 0]].concat()
}

/// A write of a word that names its level and its turn, to a frame and a line
/// that change with the turn.
fn word_to(sizes: Sizes, level: u64, turn: u8) -> Call {
    let frame = (level + u64::from(turn)) % sizes.frames;
    let target = Target { console: 0, level, frame, offset: 64 * u64::from(turn % 4) };
    plain(Deed::Write(target, vec![0x10 * turn + level as u8 + 1; WORD]), sizes)
}

/// Before the power goes: all levels but the last are written and saved, then
/// as many written again as there are spares. Each of these takes a spare.
fn before_restart(sizes: Sizes) -> Vec<Call> {
    let mut calls: Vec<Call> = (0..=sizes.spares).map(|level| word_to(sizes, level, 0)).collect();
    calls.push(plain(Deed::Save, sizes));
    calls.extend((0..sizes.spares).map(|level| word_to(sizes, level, 1)));
    calls
}

/// What is done to a level before the first save: it is written, or discarded, both
/// before it is written and after.
#[derive(Clone, Copy, PartialEq, Eq)]
enum Between {
    Nothing,
    Written(u64),
    Dropped(u64),
}

/// After it, up to the first save, with the numbers due if every spare restored
/// a level.
fn up_to_save(sizes: Sizes, between: Between) -> Vec<(Call, u64)> {
    let (own, _) = own_and_empty(sizes);
    let (write, discard) = (|level| word_to(sizes, level, 2), |level| plain(Deed::Discard(level), sizes));
    let mut calls = vec![write(own)];
    match between {
        Between::Nothing => {}
        Between::Written(level) => calls.push(write(level)),
        Between::Dropped(level) => calls.extend([discard(level), write(level), discard(level)]),
    }
    calls.push(plain(Deed::Save, sizes));
    (0..).zip(calls).map(|(place, call)| (call, if place == 0 { 9 } else { 0 })).collect()
}

/// After the first save: as many levels can be copied as there are spares; then
/// comes 9 again, up to the next save.
fn after_save(sizes: Sizes) -> Vec<(Call, u64)> {
    let (own, _) = own_and_empty(sizes);
    let mut calls = vec![(word_to(sizes, own, 3), 0)];
    calls.extend((0..own - 1).map(|level| (word_to(sizes, level, 3), 0)));
    calls.push((word_to(sizes, own - 1, 3), 9));
    calls.extend([(plain(Deed::Save, sizes), 0), (word_to(sizes, own - 1, 4), 0)]);
    calls
}

fn after_restart(sizes: Sizes, between: Between) -> Vec<(Call, u64)> {
    [up_to_save(sizes, between), after_save(sizes)].concat()
}

/// The story by the numbers heard, by the states, and by the last level's saved
/// read, which has a part only once the level is written and saved, even if its edits
/// were dropped. There are no cuts, and no law is counted.
fn by_numbers<C: Calls>(calls: &C, sizes: Sizes, kind: u64, between: Between) -> Result<(), String> {
    let (mut image, mut card, mut run) = (laid_out(calls, sizes)?, Card::zeros(), [Console::alone(sizes)]);
    let mut hear = |image: &mut [u8], call: &Call| {
        let mut tape = vec![0; call.tape];
        let answer = calls.make(&call.deed, image, Given::of(&mut card, &mut run, &mut tape));
        calls.play(image, &tape[..3 * answer.orders as usize], answer.orders);
        answer.number
    };
    let open = plain(Deed::Open(sizes, kind), sizes);
    for call in [vec![open.clone()], before_restart(sizes), vec![open]].concat() {
        due(&call.to_string(), hear(&mut image, &call), 0)?;
    }
    let (_, empty) = own_and_empty(sizes);
    let part = |image: &[u8]| calls.read(Page::Saved, image, sizes, empty, 0).length;
    due("saved read of the last level", part(&image), 0)?;
    due("states after the restart", states(&image, sizes), restored(sizes))?;
    for (call, number) in after_restart(sizes, between) {
        due(&format!("after a restart {call}"), hear(&mut image, &call), number)?;
    }
    let written = [Between::Written(empty), Between::Dropped(empty)].contains(&between);
    let length = if written { FRAME as u64 } else { 0 };
    due("saved read of the last level after saves", part(&image), length)
}

/// Histories that start after a restart, by the image that then stands.
type Restarts = BTreeMap<Vec<u8>, History>;

/// Runs these calls, and power goes at any cut of them: opening starts a history
/// from each image left.
fn restarts<C: Calls>(
    explorer: &mut Explorer<C>,
    mut history: History,
    calls: &[Call],
) -> Result<Restarts, String> {
    let mut opened = Restarts::new();
    for call in calls {
        let mut module = history.module.clone();
        let orders = explorer.step(&mut history, call, Plan::ALL)?.orders;
        for p in 0..=orders.len() {
            if p > 0 {
                module.play(orders[p - 1]);
            }
            module.cut().for_all(|_, image| {
                let start = explorer.start(&image(), Plan::ALL)?;
                opened.entry(start.module.image().to_vec()).or_insert(start);
                Ok::<(), String>(())
            })?;
        }
    }
    Ok(opened)
}

/// The explorer with what it has gone through.
struct Story<'a, C: Calls> {
    explorer: Explorer<'a, C>,
    sizes: Sizes,
    kinds: Kinds,
    histories: u64,
    cut_lines: u64,
}

impl<C: Calls> Story<'_, C> {
    /// Goes on after a restart, with the cut line of each save that has a new
    /// page. The numbers are due only if every spare restored a level.
    fn go_on(&mut self, start: &History, between: Between, all_restored: bool) -> Result<(), String> {
        let mut history = start.clone();
        self.histories += 1;
        for (call, number) in after_restart(self.sizes, between) {
            let new_page = history.book.working != history.book.saved;
            let step = self.explorer.step(&mut history, &call, Plan::ALL)?;
            if all_restored {
                due(&call.to_string(), step.answer.number, number)?;
            }
            if call.deed == Deed::Save && new_page {
                cut_line("save", &step, self.kinds)?;
                self.cut_lines += 1;
            }
        }
        Ok(())
    }
}

/// The group at these sizes, which have two levels more than spares.
pub fn restored_levels<C: Calls>(calls: &C, sizes: Sizes, kinds: Kinds) -> Outcome {
    let (restarts, counts) = all_restarts(calls, sizes, kinds, Explorer::new(calls, sizes, 6))?;
    let [.., of_short, of_elevens] = OF_DISCARDS;
    let mut left_out = [&never_at(sizes)[..], &OF_SPANS, &OF_CONSOLES, &OF_KINDS].concat();
    left_out.extend([of_short, of_elevens]);
    left_out.retain(|name| kinds.given == ADR || *name != UNFLUSHED);
    counts.tried.all_tried(&left_out)?;
    Ok(told(restarts, counts))
}

/// The same with demand 3 and the book alone, on a module of kind 0, for faults that
/// keep them.
pub fn restored_levels_without_laws<C: Calls>(calls: &C, sizes: Sizes) -> Outcome {
    let explorer = Explorer::new(calls, sizes, 6).without_laws();
    let (restarts, counts) = all_restarts(calls, sizes, Kinds::ADR, explorer)?;
    Ok(told(restarts, counts))
}

/// The line of the group.
fn told(restarts: String, counts: Counts) -> Found {
    let Found { text, counts } = all_found(counts);
    Found { text: format!("{restarts}; {text}"), counts }
}

/// What was gone through, in words and in counts.
fn all_restarts<C: Calls>(
    calls: &C,
    sizes: Sizes,
    kinds: Kinds,
    explorer: Explorer<C>,
) -> Result<(String, Counts), String> {
    let mut explorer = explorer.of(kinds);
    let (_, empty) = own_and_empty(sizes);
    due("levels", sizes.levels, empty + 1)?;
    let written = Between::Written(empty);
    let betweens =
        [written, Between::Nothing, Between::Written(0), Between::Dropped(0), Between::Dropped(empty)];
    betweens.iter().try_for_each(|between| by_numbers(calls, sizes, kinds.given, *between))?;
    let start = explorer.start(&laid_out(calls, sizes)?, Plan::ALL)?;
    let first = restarts(&mut explorer, start, &before_restart(sizes))?;
    let mut story = Story { explorer, sizes, kinds, histories: 1, cut_lines: 0 };
    first.values().try_for_each(|start| story.go_on(start, written, false))?;
    let mut all = first.values().filter(|start| states(start.module.image(), sizes) == restored(sizes));
    let (Some(all_restored), None) = (all.next(), all.next()) else {
        return Err("not one restart with every spare taken".to_string());
    };
    let mut again = 0;
    for between in betweens {
        story.go_on(all_restored, between, true)?;
        let calls: Vec<Call> = up_to_save(sizes, between).into_iter().map(|(call, _)| call).collect();
        let second = restarts(&mut story.explorer, all_restored.clone(), &calls)?;
        second.values().try_for_each(|start| story.go_on(start, written, false))?;
        again += second.len();
    }
    let counts = Counts { histories: story.histories, ..story.explorer.counts() };
    let restarts = format!("{} restarts that differ and {again} after the first save", first.len());
    Ok((format!("{restarts}, {} cut lines of saves", story.cut_lines), counts))
}
