//! The fields and rules in a clerk's words, as docs/RULES.md has them: the page is read, not repeated.

use std::sync::OnceLock;

/// The page that clerks read.
const PAGE: &str = include_str!("../../../docs/RULES.md");

/// How many fields a station has.
pub const STATION_FIELDS: usize = 30;

/// How many fields a header has.
pub const HEADER_FIELDS: usize = 14;

/// The rule that a code of the page names.
#[derive(Clone, Copy, Debug, PartialEq, Eq)]
pub enum Rule {
    /// Codes 1 to 30 of a station: the field's title and what it may hold.
    Field {
        /// As the page has it: `6A class of station`.
        title: &'static str,
        /// What the field may hold.
        rule: &'static str,
        /// A good example; a space is written as a raised dot.
        good: &'static str,
    },
    /// Codes 31 to 39: where the rule is broken, and how to mend it.
    Between {
        /// Where it is broken.
        broken: &'static str,
        /// What mends it.
        mend: &'static str,
    },
}

/// The rule of a station's code, 1 to 39.
pub fn station_rule(code: usize) -> Option<Rule> {
    if let [title, _, rule, good, ..] = row("## Stations: each field by itself", code)?[..] {
        return Some(Rule::Field { title, rule, good });
    }
    None
}

/// The rule between fields of a station's code, 31 to 39.
pub fn between_rule(code: usize) -> Option<Rule> {
    if let [broken, mend] = row("## Stations: between fields", code)?[..] {
        return Some(Rule::Between { broken, mend });
    }
    None
}

/// What field `number` of a station is called: `6A class of station`.
pub fn station_title(number: usize) -> &'static str {
    match station_rule(number) {
        Some(Rule::Field { title, .. }) => title,
        _ => "",
    }
}

/// The paper's name of field `number` of a station: `6A`, or `unit of 1A`.
pub fn station_name(number: usize) -> &'static str {
    short(station_title(number))
}

/// What field `number` of a header is called.
pub fn header_title(number: usize) -> &'static str {
    row("## Headers", number).and_then(|cells| cells.first().copied()).unwrap_or("")
}

/// What a header may hold in the field of a code, 1 to 15.
pub fn header_rule(code: usize) -> &'static str {
    row("## Headers", code).and_then(|cells| cells.get(2).copied()).unwrap_or("")
}

/// The row of titles that goes above a list for the spreadsheet.
pub fn titles() -> &'static str {
    static TITLES: OnceLock<String> = OnceLock::new();
    TITLES.get_or_init(|| {
        (1..=STATION_FIELDS).map(station_title).collect::<Vec<_>>().join(";") + "\n"
    })
}

/// The paper's name at the front of a title; a unit has none of its own.
fn short(title: &'static str) -> &'static str {
    if title.starts_with(|first: char| first.is_ascii_digit()) {
        title.split(' ').next().unwrap_or(title)
    } else {
        title
    }
}

/// The cells behind the code in the row of a code, in the table under a heading.
fn row(heading: &str, code: usize) -> Option<Vec<&'static str>> {
    let section = PAGE.split_once(heading)?.1;
    let section = section.split("\n## ").next()?;
    section.lines().find_map(|line| {
        let cells: Vec<_> = line.strip_prefix("| ")?.strip_suffix(" |")?.split(" | ").collect();
        let (number, rest) = cells.split_first()?;
        (number.parse() == Ok(code)).then(|| rest.to_vec())
    })
}

#[cfg(test)]
mod tests {
    use super::*;

    #[test]
    fn every_code_has_its_row() {
        for code in 1..=STATION_FIELDS {
            assert!(matches!(station_rule(code), Some(Rule::Field { .. })), "code {code}");
            assert!(!titles().contains(";;") && !station_name(code).is_empty(), "code {code}");
        }
        for code in 31..=39 {
            assert!(matches!(between_rule(code), Some(Rule::Between { .. })), "code {code}");
        }
        for code in 1..=HEADER_FIELDS + 1 {
            assert!(!header_title(code).is_empty() && !header_rule(code).is_empty(), "{code}");
        }
        assert_eq!((station_rule(31), between_rule(40), header_title(16)), (None, None, ""));
    }

    #[test]
    fn names_are_the_papers() {
        assert_eq!((station_name(1), station_name(2), station_name(4)), ("1A", "unit of 1A", "6A"));
        assert_eq!(station_title(30), "13X reference");
        assert_eq!(header_title(9), "number of stations");
        assert_eq!(titles().matches(';').count(), 29);
    }
}
