//! Owners' lists without a loss: a list filed under an old header, what it changes, what is
//! refused and why, what a spreadsheet added taken off, whether a sheet is the right one, and
//! what a day's saves leave.
//!
//! Whatever accepts or refuses is a call of the library; this crate reads files, calls, compares
//! bytes, and says in words what came of it.

#![forbid(unsafe_code)]

pub mod asked;
pub mod carriages;
pub mod changes;
pub mod cleaning;
pub mod days;
pub mod filings;
pub mod lists;
pub mod programs;
pub mod rules;
pub mod saving;
pub mod sheets;
pub mod status;
pub mod words;
