//! A semicolon list taken in, line by line.

use desk::{Refusal, MAX_STATIONS, RECORD_LENGTH};

/// The lines of a text: each ends with its line feed, and what stands behind the last one is a
/// line too.
pub fn lines(text: &[u8]) -> impl Iterator<Item = &[u8]> {
    text.split_inclusive(|&byte| byte == b'\n')
}

/// What a list brings in.
pub struct Taken<'text> {
    /// The records of the lines that are accepted.
    pub records: Vec<u8>,
    /// The lines that are not: their number from 1, their bytes and why.
    pub refused: Vec<(usize, &'text [u8], Refusal)>,
}

/// Takes in the lines of a list; a good line behind 298 records is refused with 1.
pub fn take_in(text: &[u8]) -> Taken<'_> {
    let mut taken = Taken { records: Vec::new(), refused: Vec::new() };
    for (index, line) in lines(text).enumerate() {
        let mut record = [0; RECORD_LENGTH];
        match desk::list_in(line, &mut record) {
            Err(refusal) => taken.refused.push((index + 1, line, refusal)),
            Ok(()) if taken.records.len() == MAX_STATIONS * RECORD_LENGTH => {
                taken.refused.push((index + 1, line, Refusal::FileTooLong));
            }
            Ok(()) => taken.records.extend_from_slice(&record),
        }
    }
    taken
}
