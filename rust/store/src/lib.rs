//! A stored desk: a list and its sheet in a folder, changed by several clerks, one save at a time.
//!
//! Whatever judges, mends, verifies or runs a day again is a call of the library; this crate keeps
//! what they leave, so that a save that was acknowledged is there after any crash, and the sheet
//! that is shown is the one judged from the list that is shown. docs/OPERATING.md has the layout.

#![forbid(unsafe_code)]

pub mod commands;
pub mod dates;
pub mod disk;
pub mod generation;
pub mod log;
pub mod making;
pub mod opening;
pub mod store;
pub mod sums;
pub mod words;
