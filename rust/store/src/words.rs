//! What is said of a store when it is opened, saved to or closed.

use std::path::Path;

use desk::{Finding, Refusal, SAVE_LENGTH};
use owners::rules::{self, Rule};
use owners::sheets;

/// Why a stored sheet is judged again, where it is.
pub fn judged_again(
    found: Result<Finding, Refusal>,
    stations: usize,
    length: usize,
    rules: u32,
) -> Option<String> {
    let why = match found {
        _ if rules != desk::rules() => {
            format!("was judged by rules {rules}, and today's are {}", desk::rules())
        }
        Ok(Finding::Right) => return None,
        Ok(Finding::WrongAt { offset }) => {
            format!("was wrong at {offset}, {}", sheets::part(stations, offset))
        }
        Err(_) => format!("has {length} bytes, which are not those of today's form"),
    };
    Some(format!("the stored sheet {why}; it is judged again"))
}

/// Saves that stood in the log and not yet in the state.
pub fn run_again(saves: usize) -> String {
    match saves {
        1 => "a save was logged and not yet in the state; it is run again".to_string(),
        _ => format!("{saves} saves were logged and not yet in the state; they are run again"),
    }
}

/// A last save that was not written to its end.
pub fn dropped(bytes: usize) -> String {
    match bytes {
        SAVE_LENGTH => "a last save was logged without its check; it is dropped".to_string(),
        _ => format!("a last save was cut short, {bytes} of {SAVE_LENGTH} bytes; it is dropped"),
    }
}

/// A day that was closed and not yet put where it is kept.
pub fn kept(name: &str) -> String {
    format!("the day before is put into days/{name}")
}

/// A day that could not be put there.
pub fn not_kept(name: &str, why: &str) -> String {
    format!("the day before cannot be put into days/{name} yet: {why}")
}

/// A store that could not be written, and what became of it.
pub fn not_written(folder: &Path, why: &str, back: bool) -> String {
    let then = match back {
        true => "nothing is changed",
        false => "what stands of it shows when the store is opened next",
    };
    format!("{} cannot be written: {why}; {then}", folder.display())
}

/// Why a value or a line is refused, with the rule in words.
pub fn broken(refusal: Refusal) -> String {
    let Refusal::RuleBroken { code } = refusal else {
        return format!("refused {}, {refusal}", refusal.number());
    };
    let number = code.into();
    match rules::station_rule(number).or_else(|| rules::between_rule(number)) {
        Some(Rule::Field { title, rule, good }) => {
            format!("refused 9 code {code}, {title}; its rule: {rule}; good is {good}")
        }
        Some(Rule::Between { broken, mend }) => {
            format!("refused 9 code {code}, {broken}; mend it by {mend}")
        }
        None => format!("refused 9 code {code}"),
    }
}
