//! A generation: the list and its sheet in one file, `state`, with how far the day is then.
//!
//! The file is one line of words, the list, the sheet:
//!
//! `store 1 open day 8 saves 123 sum S morning M before 2026-11-15 rules 2 list 65481 sheet 1500 check C`
//!
//! The check sum is that of the words before it and of the list. The sheet is not under it: it
//! follows from the list, and is verified.

use std::path::Path;

use owners::status::{Outcome, Trouble};

use crate::sums;

/// The form of the file that this desk writes and reads.
const FORM: &str = "1";

/// What the words before a list and its sheet say of the day that they are in.
#[derive(Clone, Debug, PartialEq, Eq)]
pub struct Generation {
    /// Whether its day is over; then nothing is saved to it any more.
    pub closed: bool,
    /// The number of the day, counted from 1.
    pub day: usize,
    /// How many of the day's saves are in the list.
    pub saves: usize,
    /// The sum of these saves.
    pub sum: u64,
    /// The sum of the morning's list.
    pub morning: u64,
    /// The name that the day before is kept under, or `-`.
    pub before: String,
    /// The number of the rules that the sheet was judged by.
    pub rules: u32,
}

impl Generation {
    /// The words that stand before the check sum.
    fn words(&self, list: &[u8], sheet: &[u8]) -> String {
        format!(
            "store {FORM} {} day {} saves {} sum {} morning {} before {} rules {} list {} sheet {}",
            if self.closed { "closed" } else { "open" },
            self.day,
            self.saves,
            sums::spelled(self.sum),
            sums::spelled(self.morning),
            self.before,
            self.rules,
            list.len(),
            sheet.len()
        )
    }

    /// The bytes of the file, with a list and its sheet.
    pub fn bytes(&self, list: &[u8], sheet: &[u8]) -> Vec<u8> {
        let words = self.words(list, sheet);
        let check = sums::more(sums::more(sums::NOTHING, words.as_bytes()), list);
        let line = format!("{words} check {}\n", sums::spelled(check));
        [line.as_bytes(), list, sheet].concat()
    }

    /// Reads the bytes of a file: the words, the list and the sheet. What is not byte for byte as
    /// this desk writes it is refused.
    pub fn read<'b>(path: &Path, bytes: &'b [u8]) -> Outcome<(Generation, &'b [u8], &'b [u8])> {
        let trouble = |why: &str| Trouble::Unusable(format!("{} {why}", path.display()));
        if !bytes.starts_with(b"store ") {
            return Err(trouble("holds foreign bytes: it is not the state of a store"));
        }
        let damaged = || trouble("is damaged: its check sum is not that of what it holds");
        let end = bytes.iter().position(|&byte| byte == b'\n').ok_or_else(damaged)?;
        let (line, rest) = (&bytes[..end], &bytes[end + 1..]);
        let line = std::str::from_utf8(line).map_err(|_| damaged())?;
        let form = line.split(' ').nth(1).unwrap_or("");
        let read = Generation::from_line(line, rest);
        match read.filter(|(words, list, sheet)| words.bytes(list, sheet) == bytes) {
            Some(read) => Ok(read),
            None if form.parse::<u32>().is_ok_and(|form| form > 1) => {
                Err(trouble(&format!("has form {form}: a newer desk wrote it")))
            }
            None => Err(damaged()),
        }
    }

    /// What the words of a line say, and the bytes behind it.
    fn from_line<'b>(line: &str, rest: &'b [u8]) -> Option<(Generation, &'b [u8], &'b [u8])> {
        let mut words = line.split(' ').skip(2);
        let closed = words.next()? == "closed";
        let mut value = || words.nth(1);
        let sum = |digits: &str| u64::from_str_radix(digits, 16).ok();
        let (day, saves) = (value()?.parse().ok()?, value()?.parse().ok()?);
        let (sum, morning) = (sum(value()?)?, sum(value()?)?);
        let (before, rules) = (value()?.to_string(), value()?.parse().ok()?);
        let length: usize = value()?.parse().ok()?;
        let (list, sheet) = rest.split_at_checked(length)?;
        Some((Generation { closed, day, saves, sum, morning, before, rules }, list, sheet))
    }
}

#[cfg(test)]
mod tests {
    use super::*;

    const LIST: &[u8] = b"a list\nof two lines";
    const SHEET: &[u8] = b"and a sheet";

    fn some() -> Generation {
        Generation {
            closed: false,
            day: 8,
            saves: 123,
            sum: 7,
            morning: u64::MAX,
            before: "2026-11-15".to_string(),
            rules: 2,
        }
    }

    fn read(bytes: &[u8]) -> Result<(Generation, &[u8], &[u8]), String> {
        Generation::read(Path::new("state"), bytes).map_err(|trouble| trouble.to_string())
    }

    #[test]
    fn what_is_written_is_read() {
        for closed in [false, true] {
            let written = Generation { closed, ..some() };
            assert_eq!(read(&written.bytes(LIST, SHEET)), Ok((written, LIST, SHEET)));
        }
    }

    #[test]
    fn a_changed_byte_is_found_but_in_the_sheet() {
        let bytes = some().bytes(LIST, SHEET);
        let sheet = bytes.len() - SHEET.len();
        for place in 0..bytes.len() {
            for mask in [1, 2, 0x20, 0x80, 0xff] {
                let mut changed = bytes.clone();
                changed[place] ^= mask;
                assert_eq!(read(&changed).is_ok(), place >= sheet, "byte {place}");
            }
        }
        assert!(read(&bytes[..bytes.len() - 1]).is_err(), "a byte is missing");
        assert!(read(&[&bytes[..], b"x"].concat()).is_err(), "a byte too many");
    }

    #[test]
    fn other_files_are_told_apart() {
        assert!(read(b"").unwrap_err().contains("foreign bytes"));
        assert!(read(b"store 2 open\n").unwrap_err().contains("a newer desk wrote it"));
        assert!(read(&some().bytes(LIST, SHEET)[..40]).unwrap_err().contains("is damaged"));
    }
}
