//! The library's refusals.

use std::fmt;

/// Why a call was refused; a refused call changes no lent byte.
#[derive(Clone, Copy, Debug, PartialEq, Eq)]
pub enum Refusal {
    /// 1: the file is longer than 65,481 bytes.
    FileTooLong,
    /// 2: the file's length is zero or no multiple of 219.
    FileNotRecords,
    /// 3: the lent sheet is not exactly 5n + 10 bytes.
    SheetLength,
    /// 4: the sheet's trailer lacks "2C", width 5 or distance 5n + 10.
    SheetTrailer,
    /// 5: the record number is above n.
    NoSuchRecord,
    /// 6: the record offered is not 219 bytes.
    RecordLength,
    /// 7: the buffer to write into is not 219 bytes.
    BufferLength,
    /// 8: stations have fields 1 to 30, the header 1 to 14.
    NoSuchField,
    /// 9: a record or value breaks a rule.
    RuleBroken {
        /// The code of the first rule broken.
        code: u8,
    },
    /// 10: the line has not its semicolons, twenty-nine for a station and four for a carriage, and
    /// one line feed as its last byte.
    NotALine,
    /// 11: a field of the line is longer than its columns.
    FieldTooLong,
    /// 12: the lent buffer is shorter than the line.
    BufferTooShort,
    /// 14: the vehicle number has not twelve digits.
    NotTwelveDigits,
    /// 15: the last digit of the vehicle number is wrong.
    LastDigitWrong,
    /// 16: the defaults are not a station of class ML that breaks no rule.
    NotMobileDefaults,
    /// 17: the lent list has fewer rows than operators found.
    TooFewRows,
}

impl Refusal {
    /// The refusal with this number; none for 0.
    ///
    /// # Panics
    ///
    /// With 13 or a number above 17, which the library never gives.
    pub(crate) fn from_numbers(number: u8, code: u8) -> Option<Refusal> {
        let refusal = match number {
            0 => return None,
            1 => Refusal::FileTooLong,
            2 => Refusal::FileNotRecords,
            3 => Refusal::SheetLength,
            4 => Refusal::SheetTrailer,
            5 => Refusal::NoSuchRecord,
            6 => Refusal::RecordLength,
            7 => Refusal::BufferLength,
            8 => Refusal::NoSuchField,
            9 => Refusal::RuleBroken { code },
            10 => Refusal::NotALine,
            11 => Refusal::FieldTooLong,
            12 => Refusal::BufferTooShort,
            14 => Refusal::NotTwelveDigits,
            15 => Refusal::LastDigitWrong,
            16 => Refusal::NotMobileDefaults,
            17 => Refusal::TooFewRows,
            _ => panic!("the library has no refusal {number}"),
        };
        Some(refusal)
    }

    /// The refusal's number.
    ///
    /// ```
    /// assert_eq!(desk::Refusal::SheetLength.number(), 3);
    /// assert_eq!(desk::Refusal::RuleBroken { code: 17 }.number(), 9);
    /// ```
    pub fn number(self) -> u8 {
        match self {
            Refusal::FileTooLong => 1,
            Refusal::FileNotRecords => 2,
            Refusal::SheetLength => 3,
            Refusal::SheetTrailer => 4,
            Refusal::NoSuchRecord => 5,
            Refusal::RecordLength => 6,
            Refusal::BufferLength => 7,
            Refusal::NoSuchField => 8,
            Refusal::RuleBroken { .. } => 9,
            Refusal::NotALine => 10,
            Refusal::FieldTooLong => 11,
            Refusal::BufferTooShort => 12,
            Refusal::NotTwelveDigits => 14,
            Refusal::LastDigitWrong => 15,
            Refusal::NotMobileDefaults => 16,
            Refusal::TooFewRows => 17,
        }
    }
}

impl fmt::Display for Refusal {
    fn fmt(&self, f: &mut fmt::Formatter<'_>) -> fmt::Result {
        match self {
            Refusal::FileTooLong => write!(f, "the file is longer than 65,481 bytes"),
            Refusal::FileNotRecords => write!(f, "the file's length is zero or no multiple of 219"),
            Refusal::SheetLength => write!(f, "the sheet is not as long as its form asks"),
            Refusal::SheetTrailer => write!(f, "the sheet's trailer is not that of this file"),
            Refusal::NoSuchRecord => write!(f, "the file has no record with this number"),
            Refusal::RecordLength => write!(f, "the record is not 219 bytes"),
            Refusal::BufferLength => write!(f, "the buffer is not 219 bytes"),
            Refusal::NoSuchField => write!(f, "the record has no field with this number"),
            Refusal::RuleBroken { code } => write!(f, "rule {code} is broken"),
            Refusal::NotALine => write!(f, "the line has not its semicolons and one line feed"),
            Refusal::FieldTooLong => write!(f, "a field of the line is longer than its columns"),
            Refusal::BufferTooShort => write!(f, "the buffer is shorter than the line"),
            Refusal::NotTwelveDigits => write!(f, "the vehicle number has not twelve digits"),
            Refusal::LastDigitWrong => write!(f, "the vehicle number's last digit is wrong"),
            Refusal::NotMobileDefaults => write!(f, "the defaults are not an accepted ML station"),
            Refusal::TooFewRows => write!(f, "the list has fewer rows than operators were found"),
        }
    }
}

impl std::error::Error for Refusal {}

#[cfg(test)]
mod tests {
    use super::*;

    #[test]
    fn numbers_are_kept() {
        assert_eq!(Refusal::from_numbers(0, 0), None);
        for number in (1..=12).chain(14..=16) {
            assert_eq!(Refusal::from_numbers(number, 5).map(Refusal::number), Some(number));
        }
        assert_eq!(Refusal::from_numbers(9, 5), Some(Refusal::RuleBroken { code: 5 }));
    }
}
