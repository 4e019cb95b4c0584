//! The engine over the reference, over its faults and over the library.

mod common;
mod faults;
mod format;
mod library;
mod rules;
mod wrong;
