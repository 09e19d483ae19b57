//! Headers: the typed form, its rules, reading and writing.

use crate::columns::{part, part_mut, Record, HEADER_FIELDS};
use crate::refusal::Refusal;
use crate::rules::holds;
use crate::values::Date;
use crate::{reading, rules, spelling};

/// A header with its numbers and date as values and all else as its bytes. It has no fax: that is
/// judged in its columns, by rule 7, and then dropped (wish 10 of 02).
#[derive(Clone, Copy, Debug, PartialEq, Eq)]
pub struct Header {
    /// 1: the file's number on its medium.
    pub number: i64,
    /// 2: what the file holds.
    pub content: [u8; 80],
    /// 3: the letter O.
    pub kind: u8,
    /// 4: the country of origin, AUT.
    pub origin: [u8; 3],
    /// 5: the e-mail address.
    pub email: [u8; 40],
    /// 6: the telephone number.
    pub telephone: [u8; 20],
    /// 8: the person responsible.
    pub person: [u8; 20],
    /// 9: the count of stations.
    pub count: i64,
    /// 10: the day on which the file was made; a valid header has one.
    pub date: Option<Date>,
    /// 11: the country of destination, AUT.
    pub destination: [u8; 3],
    /// 12: the file's unique number.
    pub unique: Option<i64>,
    /// 13: the version, 1.0.
    pub version: [u8; 3],
    /// 14: reserved, blank.
    pub reserved: [u8; 7],
}

/// The code of the first of the rules 1 to 14 that a record breaks as a header, or 0.
pub fn header_code(record: &Record) -> u8 {
    Header::parse(record).err().unwrap_or(0)
}

/// As [`header_code`], and 15 if the count is not `stations`.
pub(crate) fn header_code_in_file(record: &Record, stations: usize) -> u8 {
    match Header::parse(record) {
        Ok(header) if header.count == stations as i64 => 0,
        Ok(_) => 15,
        Err(code) => code,
    }
}

impl Header {
    /// The empty header: numbers 0, date and unique number blank, text all spaces.
    pub const EMPTY: Header = Header {
        number: 0,
        content: [b' '; 80],
        kind: b' ',
        origin: [b' '; 3],
        email: [b' '; 40],
        telephone: [b' '; 20],
        person: [b' '; 20],
        count: 0,
        date: None,
        destination: [b' '; 3],
        unique: None,
        version: [b' '; 3],
        reserved: [b' '; 7],
    };

    /// Reads a header from a record that breaks none of the rules 1 to 14; 01 has the empty header
    /// stand for a refused one, which is what `unwrap_or_default` gives.
    pub fn read(record: &[u8]) -> Result<Header, Refusal> {
        let record = record.try_into().map_err(|_| Refusal::RecordLength)?;
        Header::parse(record).map_err(Refusal::RuleBroken)
    }

    /// Writes a header that breaks none of the rules 1 to 14, in the one spelling.
    pub fn write(&self, out: &mut [u8]) -> Result<(), Refusal> {
        let record = out.try_into().map_err(|_| Refusal::BufferLength)?;
        self.check().map_err(Refusal::RuleBroken)?;
        self.spell(record);
        Ok(())
    }

    /// The code of the first of the rules 1 to 14 that the typed header breaks, or 0; never 7.
    pub fn code(&self) -> u8 {
        self.check().err().unwrap_or(0)
    }

    #[inline]
    fn parse(record: &Record) -> Result<Header, u8> {
        Ok(Header {
            number: reading::whole(columns::<2>(record, 1)).ok_or(1)?,
            content: kept(record, 2, rules::text)?,
            kind: kept(record, 3, |text| text == b"O").map(|[byte]| byte)?,
            origin: kept(record, 4, |text| text == b"AUT")?,
            email: kept(record, 5, rules::email)?,
            telephone: kept(record, 6, rules::text)?,
            person: {
                holds(7, rules::text(columns::<20>(record, 7)))?;
                kept(record, 8, rules::text)?
            },
            count: reading::whole(columns::<6>(record, 9)).ok_or(9)?,
            date: Some(reading::date(columns::<8>(record, 10)).ok_or(10)?),
            destination: kept(record, 11, |text| text == b"AUT")?,
            unique: reading::optional(columns::<6>(record, 12), reading::whole).ok_or(12)?,
            version: kept(record, 13, |text| text == b"1.0")?,
            reserved: kept(record, 14, reading::blank)?,
        })
    }

    fn check(&self) -> Result<(), u8> {
        holds(1, (0..=99).contains(&self.number))?;
        holds(2, rules::text(&self.content))?;
        holds(3, self.kind == b'O')?;
        holds(4, self.origin == *b"AUT")?;
        holds(5, rules::email(&self.email))?;
        holds(6, rules::text(&self.telephone))?;
        holds(8, rules::text(&self.person))?;
        holds(9, (0..=999_999).contains(&self.count))?;
        holds(10, self.date.is_some_and(rules::date))?;
        holds(11, self.destination == *b"AUT")?;
        holds(12, self.unique.is_none_or(|number| (0..=999_999).contains(&number)))?;
        holds(13, self.version == *b"1.0")?;
        holds(14, reading::blank(&self.reserved))
    }

    fn spell(&self, record: &mut Record) {
        spelling::digits(columns_mut::<2>(record, 1), self.number.unsigned_abs());
        *columns_mut(record, 2) = self.content;
        *columns_mut(record, 3) = [self.kind];
        *columns_mut(record, 4) = self.origin;
        *columns_mut(record, 5) = self.email;
        *columns_mut(record, 6) = self.telephone;
        *columns_mut(record, 7) = [b' '; 20];
        *columns_mut(record, 8) = self.person;
        spelling::digits(columns_mut::<6>(record, 9), self.count.unsigned_abs());
        spelling::optional(columns_mut::<8>(record, 10), self.date, spelling::date);
        *columns_mut(record, 11) = self.destination;
        spelling::optional(columns_mut::<6>(record, 12), self.unique, |out, number| {
            spelling::digits(out, number.unsigned_abs())
        });
        *columns_mut(record, 13) = self.version;
        *columns_mut(record, 14) = self.reserved;
    }
}

impl Default for Header {
    fn default() -> Header {
        Header::EMPTY
    }
}

#[inline(always)]
fn columns<const N: usize>(record: &Record, code: u8) -> &[u8; N] {
    part(record, &HEADER_FIELDS, code)
}

#[inline(always)]
fn columns_mut<const N: usize>(record: &mut Record, code: u8) -> &mut [u8; N] {
    part_mut(record, &HEADER_FIELDS, code)
}

#[inline(always)]
fn kept<const N: usize>(
    record: &Record,
    code: u8,
    rule: impl FnOnce(&[u8; N]) -> bool,
) -> Result<[u8; N], u8> {
    let text = columns(record, code);
    holds(code, rule(text))?;
    Ok(*text)
}
