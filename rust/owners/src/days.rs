//! A day run again: the saves of a trace on the morning's list, read in parts.

use std::io::{self, Read};

use desk::SAVE_LENGTH;

use crate::filings::Filing;

/// How many saves are read at once, so that a trace may be longer than memory.
const SAVES_AT_ONCE: usize = 1000;

/// What running a trace told; the filing it ran on is what it left.
#[derive(Debug, Default, PartialEq, Eq)]
pub struct Day {
    /// The saves that were put in.
    pub accepted: usize,
    /// The saves whose number is above the last station's.
    pub refused: usize,
    /// The save that the run stopped at, counted from 1, and its bytes.
    pub stopped: Option<(usize, Vec<u8>)>,
}

/// Runs a trace on a filing, part after part: each goes on where the one before ended, which is
/// proved to end as the whole would.
pub fn run(filing: &mut Filing, mut trace: impl Read) -> io::Result<Day> {
    let mut day = Day::default();
    let mut part = Vec::new();
    loop {
        part.clear();
        let most = (SAVES_AT_ONCE * SAVE_LENGTH) as u64;
        if trace.by_ref().take(most).read_to_end(&mut part)? == 0 {
            return Ok(day);
        }
        let before = day.accepted + day.refused;
        let told = filing.replay(&part);
        day.accepted += told.accepted;
        day.refused += told.refused;
        if let Some(number) = told.stopped {
            let save = part.chunks(SAVE_LENGTH).nth(number - 1).unwrap_or_default();
            day.stopped = Some((before + number, save.to_vec()));
            return Ok(day);
        }
    }
}

/// Why a save stops a run, in words.
pub fn why(save: &[u8]) -> String {
    match save.get(..3) {
        Some(digits) if save.len() == SAVE_LENGTH => {
            format!("begins with {}, which are not three digits", crate::filings::quoted(digits))
        }
        _ => format!("is cut short: it has {} of {SAVE_LENGTH} bytes", save.len()),
    }
}

#[cfg(test)]
mod tests {
    use super::*;

    /// Bytes that come in parts of a few, as from a pipe.
    struct Dripping<'a>(&'a [u8]);

    impl Read for Dripping<'_> {
        fn read(&mut self, buffer: &mut [u8]) -> io::Result<usize> {
            let size = self.0.len().min(buffer.len()).min(17);
            let (now, later) = self.0.split_at(size);
            buffer[..size].copy_from_slice(now);
            self.0 = later;
            Ok(size)
        }
    }

    fn filing() -> Filing {
        Filing::new(vec![b' '; 3 * 219]).expect("two stations")
    }

    #[test]
    fn a_trace_in_parts_ends_as_one_call_does() {
        let save = |index: usize| {
            [format!("{:03}", index % 4).as_bytes(), &[b'0' + (index % 10) as u8; 219]].concat()
        };
        for cut in [0, 1, 221] {
            let saves = 2 * SAVES_AT_ONCE + 500;
            let mut trace: Vec<u8> = (0..saves).flat_map(save).collect();
            trace.truncate(trace.len() - cut);
            let (mut parts, mut whole) = (filing(), filing());
            let day = run(&mut parts, Dripping(&trace)).expect("it is read");
            let told = whole.replay(&trace);
            assert_eq!((day.accepted, day.refused), (told.accepted, told.refused));
            assert_eq!(day.stopped.map(|(number, _)| number), told.stopped);
            assert_eq!(told.stopped.is_some(), cut != 0);
            assert_eq!((parts.bytes(), parts.sheet()), (whole.bytes(), whole.sheet()));
        }
    }

    #[test]
    fn a_stop_is_told_in_words() {
        assert_eq!(why(&[b'7'; 221]), "is cut short: it has 221 of 222 bytes");
        assert_eq!(why(b"0"), "is cut short: it has 1 of 222 bytes");
        assert_eq!(why(&[b' '; 222]), "begins with \"   \", which are not three digits");
    }
}
