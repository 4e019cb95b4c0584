//! What a power cut at each moment of a bench sheet may leave, and what opening then
//! shows.
//!
//! A sheet (section 16 of docs/SPECIFICATION.md) is run call by call over any
//! implementation of the calls, on a module behind its cache (section 7). At each cut
//! the images that may stand are opened (`images` says which, where they are many), and
//! what opening shows is held against the book (section 8). With `Plan::again` the
//! boards that were reopened go on with the rest of the sheet and are cut once more
//! (`again`). What is printed is in `lines`.

mod again;
mod cutter;
mod images;
mod lines;
mod openings;

use again::Boards;
use crpm_tests::book::Book;
use crpm_tests::calls::{Calls, Deed, ADR};
use crpm_tests::sheet::{Sheet, HALF};
use cutter::{Cutter, History};
use std::io::{self, Write};

pub use again::MOST_IMAGES;
pub use lines::Totals;

/// How much is looked at.
pub struct Plan {
    /// Where a cut may leave more images, not all are opened.
    pub most: u64,
    /// What was reopened goes on with the sheet and is cut again.
    pub again: bool,
}

impl Plan {
    pub const DEFAULT: Plan = Plan { most: 100_000, again: false };
}

/// Is told again and again at which call the work is, and how many different images
/// were opened so far.
pub type Watch<'a> = &'a mut dyn FnMut(&str, usize);

/// Shows every call of a sheet with its cuts. Fails only where it cannot write.
pub fn show<C: Calls>(
    calls: &C,
    sheet: &Sheet,
    plan: &Plan,
    out: &mut impl Write,
    watch: Watch,
) -> io::Result<Totals> {
    let sizes = sheet.sizes(HALF);
    let mut image = vec![0; sizes.image_length()];
    calls.lay_out(&mut image, sizes);
    let mut history = History::start(&image, Book::start(&image, sizes), sizes);
    let mut cutter = Cutter::new(calls, sizes, watch);
    let mut totals = Totals::default();
    let mut rest = &calls_of(sheet, Deed::Open(sizes, ADR))[..];
    while let [(name, deed), behind @ ..] = rest {
        let mut boards = plan.again.then(Boards::default);
        cutter.at(name);
        let step = cutter.step(&mut history, deed, plan.most, boards.as_mut());
        out.write_all(lines::of_call(name, &step).as_bytes())?;
        totals.add(&step.looks);
        if let Some(boards) = boards {
            cutter.at(&format!("{name}, again"));
            let gone_on = boards.go_on(&mut cutter, behind, plan.most);
            out.write_all(lines::of_again(&gone_on).as_bytes())?;
            totals.join(gone_on.totals);
        }
        out.flush()?;
        rest = behind;
    }
    out.write_all(lines::of_totals(totals).as_bytes())?;
    out.flush()?;
    Ok(totals)
}

/// A call of a sheet, with what is printed before its number.
type Named = (String, Deed);

/// The opening and the calls of each group, in their order.
fn calls_of(sheet: &Sheet, opening: Deed) -> Vec<Named> {
    let mut calls = vec![("open".to_string(), opening)];
    for (step, group) in (1..).zip(&sheet.groups) {
        calls.push((format!("step={step} write"), Deed::Write(group.target, group.bytes.clone())));
        if group.save {
            calls.push((format!("step={step} save"), Deed::Save));
        }
    }
    calls
}
