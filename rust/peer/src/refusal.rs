//! The reasons for which a call does nothing, by their numbers in 01 and in wishes 1, 6 and 9 of 02. No call gives
//! 13, which was wish 4's and went with wish 8.

use std::fmt;

/// Why a call was refused; a refused call changes no lent byte.
#[derive(Clone, Copy, Debug, PartialEq, Eq)]
pub enum Refusal {
    /// 1: the file is longer than 65,481 bytes.
    FileTooLong,
    /// 2: the file's length is zero or no multiple of 219.
    FileNotRecords,
    /// 3: the lent sheet is not exactly 5n + 10 bytes.
    SheetLength,
    /// 4: the sheet's trailer lacks "2C", width 5 or distance 5n + 10.
    SheetTrailer,
    /// 5: the record number is above n.
    NoSuchRecord,
    /// 6: the record offered is not 219 bytes.
    RecordLength,
    /// 7: the buffer to write into is not 219 bytes.
    BufferLength,
    /// 8: there is no such field.
    NoSuchField,
    /// 9: a record or typed value breaks a rule, the first of them with this code.
    RuleBroken(u8),
    /// 10: the line has not twenty-nine semicolons and one line feed as its last byte.
    NotALine,
    /// 11: a field of the line is longer than its columns.
    FieldTooLong,
    /// 12: the lent buffer is shorter than the line.
    BufferTooShort,
    /// 14: the vehicle number has not twelve digits.
    NotTwelveDigits,
    /// 15: the last digit of the vehicle number is wrong.
    LastDigitWrong,
    /// 16: the defaults are not an accepted ML station.
    NotMobileDefaults,
    /// 17: the lent list has fewer rows than operators found.
    TooFewRows,
}

impl Refusal {
    /// The refusal's number.
    pub fn number(self) -> u8 {
        match self {
            Refusal::FileTooLong => 1,
            Refusal::FileNotRecords => 2,
            Refusal::SheetLength => 3,
            Refusal::SheetTrailer => 4,
            Refusal::NoSuchRecord => 5,
            Refusal::RecordLength => 6,
            Refusal::BufferLength => 7,
            Refusal::NoSuchField => 8,
            Refusal::RuleBroken(_) => 9,
            Refusal::NotALine => 10,
            Refusal::FieldTooLong => 11,
            Refusal::BufferTooShort => 12,
            Refusal::NotTwelveDigits => 14,
            Refusal::LastDigitWrong => 15,
            Refusal::NotMobileDefaults => 16,
            Refusal::TooFewRows => 17,
        }
    }

    /// The code of the first broken rule, 0 with any refusal but 9.
    pub fn code(self) -> u8 {
        match self {
            Refusal::RuleBroken(code) => code,
            _ => 0,
        }
    }
}

impl fmt::Display for Refusal {
    fn fmt(&self, f: &mut fmt::Formatter<'_>) -> fmt::Result {
        match self {
            Refusal::RuleBroken(code) => write!(f, "refused 9, code {code}"),
            _ => write!(f, "refused {}", self.number()),
        }
    }
}

impl std::error::Error for Refusal {}
