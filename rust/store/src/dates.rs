//! The date that a day is kept under.

use std::time::{SystemTime, UNIX_EPOCH};

const DAY: u64 = 24 * 60 * 60;

/// Today's date in UTC, as `2026-11-16`.
pub fn today() -> String {
    let since = SystemTime::now().duration_since(UNIX_EPOCH).unwrap_or_default();
    date(since.as_secs() / DAY)
}

/// The date of a day, counted from 1 January 1970.
fn date(day: u64) -> String {
    let mut left = day;
    let mut year = 1970;
    while left >= length_of(year) {
        left -= length_of(year);
        year += 1;
    }
    let february = length_of(year) - 337;
    let mut month = 1;
    for length in [31, february, 31, 30, 31, 30, 31, 31, 30, 31, 30] {
        if left < length {
            break;
        }
        left -= length;
        month += 1;
    }
    format!("{year:04}-{month:02}-{:02}", left + 1)
}

/// How many days a year has.
fn length_of(year: u64) -> u64 {
    let leap = year.is_multiple_of(4) && (!year.is_multiple_of(100) || year.is_multiple_of(400));
    365 + u64::from(leap)
}

#[cfg(test)]
mod tests {
    use super::*;

    #[test]
    fn days_have_their_dates() {
        let days = [0, 58, 59, 789, 790, 11_016, 20_772, 20_819];
        let dates = days.map(date);
        let wanted = ["1970-01-01", "1970-02-28", "1970-03-01", "1972-02-29", "1972-03-01"];
        assert_eq!(dates[..5], wanted);
        assert_eq!(dates[5..], ["2000-02-29", "2026-11-15", "2027-01-01"]);
    }
}
