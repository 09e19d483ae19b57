//! Filing files of document 01, and wishes 1, 2, 4 and 6 to 12 of 02, written a second time from
//! the papers alone.
//!
//! A filing file is one header and up to 298 stations, each a record of 219 bytes. This crate
//! reads and writes records, judges a file into a sheet, replaces a record, shows a field and
//! turns stations into semicolon lines and back, and carriages' lines into stations, and counts by operator. It shares no line with the proved library; the
//! two are compared on random input.
//!
//! ```
//! let mut file = [b' '; 2 * 219];
//! let mut sheet = [0; 15];
//! peer::judge(&file, &mut sheet).unwrap();
//! assert_eq!(sheet, [3, 0, 0, 0, 0, 0, 15, 5, 1, 0, 1, 0, 1, b'2', b'C']);
//! file[0] = b'1';
//! assert_eq!(peer::judge(&file[..100], &mut sheet), Err(peer::Refusal::FileNotRecords));
//! ```

#![forbid(unsafe_code)]

pub mod carriages;
mod columns;
mod file;
mod header;
mod kinds;
pub mod lists;
mod operators;
mod reading;
mod refusal;
mod replaying;
mod rules;
mod spelling;
mod station;
mod values;
mod verifying;

/// The number of the rules followed here: 1 for document 01, 2 with wish 2 of 02.
pub const RULES: u32 = 2;

pub use columns::{Record, HEADER_FIELDS, RECORD_LENGTH, STATION_FIELDS};
pub use file::{judge, locate, replace, sheet_length, show, MAX_FILE_LENGTH, MAX_STATIONS};
pub use header::{header_code, Header};
pub use kinds::{station_kind, Kind};
pub use operators::{operators, Operator};
pub use refusal::Refusal;
pub use replaying::{replay, Replayed};
pub use station::{station_code, Station};
pub use values::{Date, Frequency, Kilometres, Metres, Place, Tenths, Unit};
pub use verifying::verify;
