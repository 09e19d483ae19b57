//! The day run again (02, wish 11).

use crate::columns::RECORD_LENGTH;
use crate::file::{judge, replace};
use crate::refusal::Refusal;

/// What a run of saves was.
#[derive(Clone, Copy, Debug, Default, PartialEq, Eq)]
pub struct Replayed {
    /// The saves that were accepted.
    pub accepted: usize,
    /// The saves that were refused.
    pub refused: usize,
    /// The save that the run stopped at, counted from 1, or 0.
    pub stopped: usize,
}

/// Runs the saves of a trace in order and leaves the list and its sheet.
pub fn replay(file: &mut [u8], sheet: &mut [u8], trace: &[u8]) -> Result<Replayed, Refusal> {
    judge(file, sheet)?;
    let mut day = Replayed::default();
    for (index, save) in trace.chunks(3 + RECORD_LENGTH).enumerate() {
        let Some(number) = number(save) else {
            day.stopped = index + 1;
            break;
        };
        match replace(file, sheet, number, &save[3..]) {
            Ok(_) => day.accepted += 1,
            Err(_) => day.refused += 1,
        }
    }
    Ok(day)
}

/// The record number of a save; none where it is cut short or its first three bytes are not digits.
fn number(save: &[u8]) -> Option<usize> {
    let digits = save.get(..3).filter(|digits| digits.iter().all(u8::is_ascii_digit))?;
    (save.len() == 3 + RECORD_LENGTH)
        .then(|| digits.iter().fold(0, |number, digit| 10 * number + usize::from(digit - b'0')))
}

#[cfg(test)]
mod tests {
    use super::*;

    #[test]
    fn saves_run_in_order_up_to_one_that_is_cut() {
        let mut file = [b' '; 3 * 219];
        let mut sheet = vec![0; crate::sheet_length(2)];
        let save = |number: &str, byte: u8| [number.as_bytes(), &[byte; 219]].concat();
        let mut trace = [save("001", b'a'), save("003", b'b'), save("000", b'c')].concat();
        trace.extend(save("002", b'd'));
        trace.pop();
        let day = replay(&mut file, &mut sheet, &trace);
        assert_eq!(day, Ok(Replayed { accepted: 2, refused: 1, stopped: 4 }));
        assert_eq!(file, [[b'c'; 219], [b'a'; 219], [b' '; 219]].concat()[..]);
        trace.splice(222..223, *b" ");
        let day = replay(&mut file, &mut sheet, &trace);
        assert_eq!(day, Ok(Replayed { accepted: 1, refused: 0, stopped: 2 }));
        assert_eq!(replay(&mut file[1..], &mut sheet, &trace), Err(Refusal::FileNotRecords));
    }
}
