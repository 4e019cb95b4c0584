//! The lines that are printed.

use crate::again::GoneOn;
use crate::cutter::{Look, Shows, Step};
use std::fmt::Display;

/// Cuts looked at, images opened, each once a cut, and those of them that showed what
/// may not be shown.
#[derive(Clone, Copy, PartialEq, Eq, Default, Debug)]
pub struct Totals {
    pub cuts: u64,
    pub images: u64,
    pub other: u64,
}

impl Totals {
    /// The exit status.
    pub fn status(self) -> u8 {
        u8::from(self.other > 0)
    }

    pub(crate) fn add(&mut self, looks: &[Look]) {
        for look in looks {
            self.join(Totals { cuts: 1, images: look.tried, other: look.other });
        }
    }

    pub(crate) fn join(&mut self, more: Totals) {
        self.cuts += more.cuts;
        self.images += more.images;
        self.other += more.other;
    }
}

/// The line of a call, and those of its cuts: neighbours that show the same are one.
pub fn of_call(name: &str, step: &Step) -> String {
    let mut text = format!("{name}={} orders={}\n", step.answer.number, step.answer.orders);
    let mut first = 0;
    for same in step.looks.chunk_by(|a, b| a.shows == b.shows && a.sampled() == b.sampled()) {
        let end = first + same.len();
        text += &format!("cut={} images={}", span(first..end), span(same.iter().map(|look| look.images)));
        if same[0].sampled() {
            text += &format!(" tried={}", span(same.iter().map(|look| look.tried)));
        }
        text += &format!(" shows={}\n", told(same[0].shows));
        first = end;
    }
    text
}

/// The line of the boards that went on.
pub fn of_again(found: &GoneOn) -> String {
    let mut text = format!("again={}", found.boards);
    if found.tried < found.boards {
        text += &format!(" tried={}", found.tried);
    }
    text += &format!(" cuts={}", found.totals.cuts);
    if found.sampled > 0 {
        text += &format!(" sampled={}", found.sampled);
    }
    text + &format!(" images={} other={}\n", found.totals.images, found.totals.other)
}

/// The last line.
pub fn of_totals(Totals { cuts, images, other }: Totals) -> String {
    format!("cuts={cuts} images={images} other={other}\n")
}

/// The least and the greatest of these numbers; once, if they are the same.
fn span<T: Ord + Copy + Display>(numbers: impl Iterator<Item = T> + Clone) -> String {
    let (least, greatest) = (numbers.clone().min(), numbers.max());
    match (least, greatest) {
        (Some(least), Some(greatest)) if least < greatest => format!("{least}..{greatest}"),
        _ => least.map_or(String::new(), |only| only.to_string()),
    }
}

fn told(shows: Shows) -> String {
    let all = [(shows.old, "old"), (shows.new, "new"), (shows.other, "other")];
    all.into_iter().filter_map(|(shown, name)| shown.then_some(name)).collect::<Vec<_>>().join(",")
}
