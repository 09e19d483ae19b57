//! Carriages taken in: the defaults as one line of a semicolon list, then a line for each carriage.

use desk::{Refusal, MAX_LINE_LENGTH, MAX_STATIONS, RECORD_LENGTH};

use crate::lists::lines;

/// What a text of carriages brings in.
pub struct Depot<'text> {
    /// The records of the carriages that are accepted.
    pub records: Vec<u8>,
    /// The lines that are not: their number from 1, their bytes and why. The first is the defaults'.
    pub refused: Vec<(usize, &'text [u8], Refusal)>,
}

/// Takes in the defaults and the carriages; where the defaults' line is refused, nothing else is
/// asked. A good carriage behind 298 records is refused with 1.
pub fn take_in(text: &[u8]) -> Depot<'_> {
    let mut depot = Depot { records: Vec::new(), refused: Vec::new() };
    let mut rows = lines(text).zip(1..);
    let mut defaults = [0; RECORD_LENGTH];
    if let Some((line, number)) = rows.next() {
        if let Err(refusal) = desk::list_in(line, &mut defaults) {
            depot.refused.push((number, line, refusal));
            return depot;
        }
    }
    for (line, number) in rows {
        let mut record = [0; RECORD_LENGTH];
        match desk::carriage(line, &defaults, &mut record) {
            Err(refusal) => depot.refused.push((number, line, refusal)),
            Ok(()) if depot.records.len() == MAX_STATIONS * RECORD_LENGTH => {
                depot.refused.push((number, line, Refusal::FileTooLong));
            }
            Ok(()) => depot.records.extend_from_slice(&record),
        }
    }
    depot
}

/// The lines of records that were accepted.
pub fn listed(records: &[u8]) -> Result<Vec<u8>, Refusal> {
    let mut list = Vec::new();
    for record in records.chunks(RECORD_LENGTH) {
        let mut line = [0; MAX_LINE_LENGTH];
        let length = desk::list_out(record, &mut line)?;
        list.extend_from_slice(&line[..length]);
    }
    Ok(list)
}

/// Why a carriage's line is refused, in words.
pub fn explain(line: &[u8], refusal: Refusal) -> String {
    match refusal {
        Refusal::NotALine => {
            let marks = desk::line_marks(line);
            let ended = if marks.ended { "" } else { ", and it does not end in a line feed" };
            format!(
                "the line has {} semicolons; a carriage's line is number;frequency;unit;power;13X, with 4{ended}",
                marks.semicolons
            )
        }
        Refusal::FieldTooLong => {
            "the frequency may have 11 bytes, its unit 1, the power 6 and 13X 15".to_string()
        }
        Refusal::NotTwelveDigits => {
            "the vehicle number is twelve digits, without spaces or hyphens".to_string()
        }
        Refusal::LastDigitWrong => {
            "the vehicle number's last digit does not fit the others; one of them is mistyped"
                .to_string()
        }
        Refusal::NotMobileDefaults => {
            "the defaults in line 1 are no ML station: 6A has to be ML".to_string()
        }
        Refusal::FileTooLong => {
            "a filing has at most 298 stations; this carriage is one more".to_string()
        }
        Refusal::RuleBroken { code } => {
            format!("the carriage's station breaks rule {code}; docs/RULES.md says it in words")
        }
        other => other.to_string(),
    }
}
