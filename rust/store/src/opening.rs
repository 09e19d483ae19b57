//! A store looked at: its generation read, its sheet verified, its log run from there.

use std::fs::{self, File, TryLockError};
use std::io::{self, Read};
use std::path::{Path, PathBuf};

use owners::asked::plain;
use owners::filings::Filing;
use owners::status::{Outcome, Trouble};

use crate::generation::Generation;
use crate::log;
use crate::words;

/// More bytes than the words, the longest list and its sheet have.
const MOST: u64 = 1 << 20;

/// What a store holds, the saves of its log run, and what was not as it should be.
pub struct Found {
    /// How far the day is, with all saves of the log.
    pub generation: Generation,
    /// The list after all saves of the log, and its sheet.
    pub filing: Filing,
    /// Why the stored sheet was judged again.
    pub judged: Option<String>,
    /// How many saves of the log were not in the state.
    pub run: usize,
    /// How much there is of a last save that is not whole.
    pub torn: Option<usize>,
    /// Whether the day before still has to be put where it is kept.
    pub unkept: bool,
}

impl Found {
    /// Whether nothing has to be written before the store is used.
    pub fn is_settled(&self) -> bool {
        self.judged.is_none() && self.run == 0 && self.torn.is_none() && !self.unkept
    }

    /// What was not as it should be, a sentence each.
    pub fn said(&self) -> Vec<String> {
        let run = (self.run > 0).then(|| words::run_again(self.run));
        let kept = self.unkept.then(|| words::kept(&self.generation.before));
        let all = [self.judged.clone(), run, self.torn.map(words::dropped), kept];
        all.into_iter().flatten().collect()
    }
}

/// The file of the generation.
pub fn state(folder: &Path) -> PathBuf {
    folder.join("state")
}

/// The folder of an open day.
pub fn day(folder: &Path, number: usize) -> PathBuf {
    folder.join(format!("day-{number}"))
}

/// The folder of a generation's day: that of a closed day is the one that its state stands in.
pub fn day_of(folder: &Path, generation: &Generation) -> PathBuf {
    if generation.closed {
        return folder.to_path_buf();
    }
    day(folder, generation.day)
}

/// The lock of a store, which one process holds at a time and a dead one does not.
pub fn lock(folder: &Path) -> Outcome<File> {
    let unreadable = |error| Trouble::unreadable(folder, plain(&error));
    let lock = File::open(folder).map_err(|error| no_store(folder, &error))?;
    lock.lock().map_err(unreadable)?;
    Ok(lock)
}

/// The lock of a store, where nobody holds it.
pub fn try_lock(folder: &Path) -> Outcome<Option<File>> {
    let lock = File::open(folder).map_err(|error| no_store(folder, &error))?;
    match lock.try_lock() {
        Ok(()) => Ok(Some(lock)),
        Err(TryLockError::WouldBlock) => Ok(None),
        Err(TryLockError::Error(error)) => Err(Trouble::unreadable(folder, plain(&error))),
    }
}

/// Looks at a store; nothing is changed.
pub fn look(folder: &Path) -> Outcome<Found> {
    let path = state(folder);
    let bytes = read_state(&path).map_err(|error| no_store(folder, &error))?;
    let (mut generation, list, sheet) = Generation::read(&path, &bytes)?;
    let (mut filing, found) = Filing::stored(list.to_vec(), sheet.to_vec()).map_err(|refusal| {
        Trouble::Unusable(format!("{} holds no filing: {refusal}", path.display()))
    })?;
    let rules = generation.rules;
    let judged = words::judged_again(found, filing.stations(), sheet.len(), rules);
    let tail = log::tail(&day_of(folder, &generation), generation.saves, generation.sum)?;
    let told = filing.replay(&tail.saves);
    if told.refused > 0 || told.stopped.is_some() {
        let why = "has saves that are not for the list of the state";
        return Err(Trouble::Unusable(format!("{} {why}", folder.display())));
    }
    generation.saves += told.accepted;
    generation.sum = tail.sum;
    generation.rules = desk::rules();
    let unkept =
        !generation.closed && generation.day > 1 && day(folder, generation.day - 1).exists();
    Ok(Found { generation, filing, judged, run: told.accepted, torn: tail.torn, unkept })
}

/// The bytes of a state; what is longer than any state is not read to its end.
fn read_state(path: &Path) -> io::Result<Vec<u8>> {
    let mut bytes = Vec::new();
    File::open(path)?.take(MOST).read_to_end(&mut bytes)?;
    Ok(bytes)
}

/// Why there is no store.
fn no_store(folder: &Path, error: &io::Error) -> Trouble {
    let missing = error.kind() == io::ErrorKind::NotFound;
    let why = match fs::metadata(folder) {
        Ok(there) if !there.is_dir() => "it is no folder".to_string(),
        Ok(_) if missing => "it has no state".to_string(),
        Err(_) if missing => "there is no such folder".to_string(),
        _ => return Trouble::unreadable(folder, plain(error)),
    };
    Trouble::Unusable(format!("{} is no store: {why}", folder.display()))
}
