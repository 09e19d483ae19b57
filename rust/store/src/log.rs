//! The log of a day: the saves, 222 bytes each as a trace has them, and beside them their checks, a
//! line for each save with the sum of all saves up to it.
//!
//! A save counts where both are whole and agree. At most the last one does not: whoever opens the
//! log to write takes such a one off before anything else.

use std::fs::{self, File};
use std::io::{self, Read, Seek, SeekFrom};
use std::path::{Path, PathBuf};

use desk::{RECORD_LENGTH, SAVE_LENGTH};
use owners::asked::plain;
use owners::status::{Outcome, Trouble};

use crate::disk::{self, Disk};
use crate::sums;

/// The length of a line of checks.
const LINE: usize = 17;

/// The file of saves.
pub fn saves(folder: &Path) -> PathBuf {
    folder.join("saves")
}

/// The file of checks.
pub fn checks(folder: &Path) -> PathBuf {
    folder.join("checks")
}

/// What stands in a log behind the saves that a generation counts.
#[derive(Debug, PartialEq, Eq)]
pub struct Tail {
    /// The saves that are whole.
    pub saves: Vec<u8>,
    /// The sum of all saves with them.
    pub sum: u64,
    /// How much there is of a last save that is not.
    pub torn: Option<usize>,
}

/// Reads what stands behind as many saves as are counted, whose sum is given.
pub fn tail(folder: &Path, counted: usize, sum: u64) -> Outcome<Tail> {
    let (saves_path, checks_path) = (saves(folder), checks(folder));
    let mut found = behind(&saves_path, counted * SAVE_LENGTH)?;
    let lines = behind(&checks_path, counted * LINE)?;
    let mut tail = Tail { saves: Vec::new(), sum, torn: None };
    let mut whole = 0;
    for (index, save) in found.chunks(SAVE_LENGTH).enumerate() {
        let sum = sums::more(tail.sum, save);
        if save.len() != SAVE_LENGTH || lines.chunks(LINE).nth(index) != Some(&line(sum)[..]) {
            tail.torn = Some(save.len());
            break;
        }
        tail.sum = sum;
        whole += 1;
    }
    if found.len() > (whole + 1) * SAVE_LENGTH {
        let why = format!("is damaged: save {} is not the one that was made", counted + whole + 1);
        return Err(Trouble::Unusable(format!("{} {why}", saves_path.display())));
    }
    if lines.len() > (whole + 1) * LINE {
        return Err(short(&saves_path));
    }
    if lines.len() > whole * LINE {
        tail.torn = tail.torn.or(Some(0));
    }
    found.truncate(whole * SAVE_LENGTH);
    tail.saves = found;
    Ok(tail)
}

/// All saves that a generation counts, whose sum must be the one given.
pub fn counted(folder: &Path, counted: usize, sum: u64) -> Outcome<Vec<u8>> {
    let path = saves(folder);
    let mut found = behind(&path, 0)?;
    if found.len() < counted * SAVE_LENGTH {
        return Err(short(&path));
    }
    found.truncate(counted * SAVE_LENGTH);
    if sums::more(sums::NOTHING, &found) != sum {
        let why = "is damaged: its check sum is not that of the saves that were made";
        return Err(Trouble::Unusable(format!("{} {why}", path.display())));
    }
    Ok(found)
}

/// Makes the empty log of a new day.
pub fn begin(disk: &dyn Disk, folder: &Path, like: &Path) -> io::Result<()> {
    for path in [saves(folder), checks(folder)] {
        disk.put(&path, b"", disk::permissions(like))?;
        disk.sync(&path)?;
    }
    Ok(())
}

/// Puts a save behind the others, and its check, the sum of all; both are on the disk then.
pub fn append(disk: &dyn Disk, folder: &Path, save: &[u8], sum: u64) -> io::Result<()> {
    disk.append(&saves(folder), save)?;
    disk.append(&checks(folder), &line(sum))?;
    disk.sync(&saves(folder))?;
    disk.sync(&checks(folder))
}

/// Cuts the log back to as many saves as are counted.
pub fn cut(disk: &dyn Disk, folder: &Path, counted: usize) -> io::Result<()> {
    disk.cut(&saves(folder), counted * SAVE_LENGTH)?;
    disk.cut(&checks(folder), counted * LINE)?;
    disk.sync(&saves(folder))?;
    disk.sync(&checks(folder))
}

/// Takes back what a save left of itself in the log, where it left anything; answers whether the
/// log then ends behind the saves that are counted.
pub fn take_back(disk: &dyn Disk, folder: &Path, counted: usize) -> bool {
    let ends = |path: PathBuf, length: usize| {
        fs::metadata(path).is_ok_and(|found| found.len() == (counted * length) as u64)
    };
    ends(saves(folder), SAVE_LENGTH) && ends(checks(folder), LINE)
        || cut(disk, folder, counted).is_ok()
}

/// The record in a save, and its number.
pub fn parts(save: &[u8]) -> (usize, &[u8]) {
    let (digits, record) = save.split_at(save.len() - RECORD_LENGTH);
    (digits.iter().fold(0, |number, digit| 10 * number + usize::from(digit - b'0')), record)
}

/// The line of a sum.
fn line(sum: u64) -> Vec<u8> {
    format!("{}\n", sums::spelled(sum)).into_bytes()
}

/// The bytes of a file behind an offset, which it has to reach.
fn behind(path: &Path, offset: usize) -> Outcome<Vec<u8>> {
    let unreadable = |error: io::Error| Trouble::unreadable(path, plain(&error));
    let mut file = File::open(path).map_err(unreadable)?;
    if file.metadata().map_err(unreadable)?.len() < offset as u64 {
        return Err(short(path));
    }
    let mut bytes = Vec::new();
    file.seek(SeekFrom::Start(offset as u64)).map_err(unreadable)?;
    file.read_to_end(&mut bytes).map_err(unreadable)?;
    Ok(bytes)
}

/// A file that has lost saves.
fn short(path: &Path) -> Trouble {
    Trouble::Unusable(format!("{} is damaged: saves are missing at its end", path.display()))
}
