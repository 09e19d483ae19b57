//! A filing in memory: its records, fields and report, all by the library's calls.

use std::path::Path;

use desk::{Finding, Refusal, Replayed, MAX_STATIONS, RECORD_LENGTH};

use crate::asked;
use crate::rules;
use crate::status::{Outcome, Trouble};

/// The field of a header that holds the number of stations.
const COUNT: usize = 9;

/// The field of a station that holds its reference, 13X.
const REFERENCE: usize = 30;

/// Where operator and site stand in 13X: its places 6 to 11.
const SITE: std::ops::Range<usize> = 5..11;

/// The bytes of a row of a sheet: a code, and a twin and a clash of two bytes each.
pub const ROW_WIDTH: usize = 5;

/// A file that the library judges, and the sheet that it gave.
#[derive(Clone, Debug, PartialEq, Eq)]
pub struct Filing {
    bytes: Vec<u8>,
    sheet: Vec<u8>,
}

impl Filing {
    /// Judges bytes; they are refused where they are no filing.
    pub fn new(bytes: Vec<u8>) -> Result<Filing, Refusal> {
        let records = (bytes.len() / RECORD_LENGTH).clamp(1, MAX_STATIONS + 1);
        let mut sheet = vec![0; desk::sheet_length(records - 1)];
        desk::judge(&bytes, &mut sheet)?;
        Ok(Filing { bytes, sheet })
    }

    /// Reads and judges a file.
    pub fn read(path: &Path) -> Outcome<Filing> {
        let bytes = asked::read(path)?;
        let length = bytes.len();
        Filing::new(bytes).map_err(|refusal| {
            let number = refusal.number();
            let name = path.display();
            Trouble::Refused(format!(
                "{name} is no filing: refused {number}, it has {length} bytes: {refusal}"
            ))
        })
    }

    /// A filing and a sheet that was stored beside it, with what verifying finds of that; where it is
    /// not right the filing is judged again.
    pub fn stored(
        bytes: Vec<u8>,
        sheet: Vec<u8>,
    ) -> Result<(Filing, Result<Finding, Refusal>), Refusal> {
        let found = desk::verify(&bytes, &sheet);
        let filing = match found {
            Ok(Finding::Right) => Filing { bytes, sheet },
            _ => Filing::new(bytes)?,
        };
        Ok((filing, found))
    }

    /// Puts records under the header of this filing, the number of stations set.
    pub fn with_records(&self, records: &[u8]) -> Result<Filing, Refusal> {
        let mut bytes = self.bytes[..RECORD_LENGTH].to_vec();
        let count = format!("{:6}", records.len() / RECORD_LENGTH);
        let (before, width) = place(&bytes, 0, COUNT);
        if count.len() == width {
            bytes[before..before + width].copy_from_slice(count.as_bytes());
        }
        bytes.extend_from_slice(records);
        Filing::new(bytes)
    }

    /// Runs a trace of saves on the filing, which then is what they left, with its sheet.
    pub fn replay(&mut self, trace: &[u8]) -> Replayed {
        desk::replay(&mut self.bytes, &mut self.sheet, trace).expect("a filing has its lengths")
    }

    /// Puts in a record, 0 being the header, mends the sheet and answers how many rows were written.
    pub fn replace(&mut self, number: usize, record: &[u8]) -> Result<usize, Refusal> {
        desk::replace(&mut self.bytes, &mut self.sheet, number, record)
    }

    /// The sheet that the filing is judged to.
    pub fn sheet(&self) -> &[u8] {
        &self.sheet
    }

    /// All bytes.
    pub fn bytes(&self) -> &[u8] {
        &self.bytes
    }

    /// How many stations there are.
    pub fn stations(&self) -> usize {
        self.bytes.len() / RECORD_LENGTH - 1
    }

    /// A record, 0 being the header.
    pub fn record(&self, number: usize) -> &[u8] {
        &self.bytes[number * RECORD_LENGTH..][..RECORD_LENGTH]
    }

    /// A field of a record, 0 being the header.
    pub fn field(&self, number: usize, field: usize) -> &[u8] {
        desk::show(&self.bytes, number, field).expect("a filing has its fields")
    }

    /// The reference of a station, 13X.
    pub fn reference(&self, station: usize) -> &[u8] {
        self.field(station, REFERENCE)
    }

    /// The code of the header, 0 where it breaks no rule.
    pub fn header_code(&self) -> u8 {
        self.sheet[ROW_WIDTH * self.stations() + 3]
    }

    /// How many stations are bad.
    pub fn bad(&self) -> usize {
        self.number(ROW_WIDTH * self.stations() + 6)
    }

    /// The desk's report: the header's code, a line for each bad station, the totals.
    pub fn report(&self) -> String {
        let mut report = format!("header {}\n", self.header_code());
        for station in 1..=self.stations() {
            if self.is_bad(station) {
                report += &self.row(station);
            }
        }
        report + &format!("stations {} bad {}\n", self.stations(), self.bad())
    }

    /// Whether a station's row is bad.
    pub fn is_bad(&self, station: usize) -> bool {
        (self.code(station), self.twin(station), self.clash(station)) != (0, 0, 0)
    }

    /// A station's row, as the report has it where it is bad.
    pub fn row(&self, station: usize) -> String {
        let (code, twin, clash) = (self.code(station), self.twin(station), self.clash(station));
        format!("station {station} code {code} twin {twin} clash {clash}\n")
    }

    /// What each bad line of the report means, with the field's bytes.
    pub fn explained(&self) -> String {
        let mut words = String::new();
        let code = self.header_code().into();
        if code != 0 {
            let field = if code > rules::HEADER_FIELDS { COUNT } else { code };
            words += &format!(
                "header: {} is {}; the rule: {}\n",
                rules::header_title(code),
                quoted(self.field(0, field)),
                rules::header_rule(code)
            );
        }
        for station in 1..=self.stations() {
            let twin = self.twin(station);
            if twin != 0 {
                let reference = quoted(self.reference(station));
                words += &format!("station {station}: 13X {reference} is that of station {twin} too; one of them needs another reference, or has to go\n");
            }
            let clash = self.clash(station);
            if clash != 0 {
                let site = quoted(&self.reference(station)[SITE]);
                words += &format!("station {station}: operator and site {site} are those of station {clash} too, which stands at another place (4C) or height (9Y); a site has one of each, so correct the one that is wrong, or give one station another site\n");
            }
        }
        words
    }

    /// A station's code, as its row says it.
    fn code(&self, station: usize) -> u8 {
        self.sheet[ROW_WIDTH * (station - 1)]
    }

    /// A station's twin.
    fn twin(&self, station: usize) -> usize {
        self.number(ROW_WIDTH * (station - 1) + 1)
    }

    /// A station's clash.
    fn clash(&self, station: usize) -> usize {
        self.number(ROW_WIDTH * (station - 1) + 3)
    }

    /// A number of two bytes of the sheet, high byte first.
    fn number(&self, place: usize) -> usize {
        u16::from_be_bytes([self.sheet[place], self.sheet[place + 1]]).into()
    }
}

/// Bytes between quotation marks; those that cannot be printed as `\xff`.
pub fn quoted(bytes: &[u8]) -> String {
    format!("\"{}\"", bytes.escape_ascii().to_string().replace("\\'", "'"))
}

/// Where a field stands in a file: the bytes before it, and its length.
fn place(file: &[u8], number: usize, field: usize) -> (usize, usize) {
    let (_, offset, length) = desk::raw::show(file, number, field);
    (offset, length)
}
