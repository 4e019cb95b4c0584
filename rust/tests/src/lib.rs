//! Independent second program for the checkpoint library.
//!
//! Everything here is written from docs/SPECIFICATION.md alone, whose sections
//! the comments cite, not from the library; only `fast`, with which the
//! library's speed is compared, takes a shape from it. The words are those of
//! the trade, level, spare, frame, card, console, tape, order, save: the glossary
//! (section 20) has the library's names for them. `raw` and `library` stand
//! where the two meet.
//!
//! Four programs: `selftest` checks the reference, the crash model and the
//! explorer by themselves; `differential` compares the library with the
//! reference, `sheets` the sheet program and the upgrade program; `speed` measures.
//! `cargo test` runs the first two, the second in short, and holds include/crpm.h
//! against crate `crpm` and the reference. Crate `crpm-dump` is compared with `dumps`
//! in its own tests.

pub mod arbitrary;
pub mod benches;
pub mod book;
pub mod calls;
pub mod compared;
pub mod consoles;
pub mod corners;
pub mod corrupted;
pub mod crash;
pub mod discards;
pub mod dumped;
pub mod dumps;
pub mod explore;
pub mod fast;
pub mod groups;
pub mod kinds;
pub mod laws;
pub mod library;
pub mod likeness;
pub mod long;
pub mod prng;
pub mod raw;
pub mod reference;
pub mod report;
pub mod restart;
pub mod sheet;
pub mod tapes;
