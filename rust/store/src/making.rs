//! A store made from a list, and the folder of a day.

use std::fs;
use std::io;
use std::path::Path;

use owners::asked::plain;
use owners::filings::Filing;
use owners::status::{Outcome, Trouble};

use crate::disk::{self, Disk};
use crate::generation::Generation;
use crate::log;
use crate::opening::{self, day, state};
use crate::store::cannot;
use crate::sums;

/// Makes a store: a folder that is new, or empty, or was left by a run that was ended while it made
/// one.
pub fn make(folder: &Path, list: &Filing, disk: &dyn Disk) -> Outcome<()> {
    let is_new = !folder.exists();
    if is_new {
        disk.make_folder(folder, None).map_err(|error| match error.kind() {
            io::ErrorKind::NotFound => {
                cannot(folder, &io::Error::other("there is no such folder"), true)
            }
            _ => cannot(folder, &error, true),
        })?;
    }
    let _lock = opening::lock(folder)?;
    is_free(folder)?;
    fill(folder, list, disk).map_err(|error| {
        let back = !state(folder).exists() && unmake(folder, is_new, disk).is_ok();
        cannot(folder, &error, back)
    })
}

/// Takes away what was made of a store that has no state yet.
fn unmake(folder: &Path, is_new: bool, disk: &dyn Disk) -> io::Result<()> {
    let begun = disk::beside(&state(folder));
    if begun.exists() {
        disk.remove(&begun)?;
    }
    remove_day(disk, &day(folder, 1))?;
    if is_new {
        disk.remove_folder(folder)?;
    }
    Ok(())
}

/// Writes the first day and, when that is on the disk, the state.
fn fill(folder: &Path, list: &Filing, disk: &dyn Disk) -> io::Result<()> {
    let path = state(folder);
    make_day(disk, folder, 1, list)?;
    disk.sync(folder)?;
    disk::replace(disk, &path, &first(list).bytes(list.bytes(), list.sheet()), &path)?;
    disk.sync(folder)?;
    disk.sync(&folder.canonicalize()?.join(".."))
}

/// The generation that a list begins.
pub(crate) fn first(list: &Filing) -> Generation {
    Generation {
        closed: false,
        day: 1,
        saves: 0,
        sum: sums::NOTHING,
        morning: sums::more(sums::NOTHING, list.bytes()),
        before: "-".to_string(),
        rules: desk::rules(),
    }
}

/// Makes the folder of a day: the morning's list, and an empty log, with the permissions that the
/// store has. One that a run left unfinished goes first.
pub(crate) fn make_day(
    disk: &dyn Disk,
    store: &Path,
    number: usize,
    list: &Filing,
) -> io::Result<()> {
    let (folder, like) = (day(store, number), state(store));
    remove_day(disk, &folder)?;
    disk.make_folder(&folder, disk::permissions(store))?;
    let morning = folder.join("morning");
    disk.put(&morning, list.bytes(), disk::permissions(&like))?;
    disk.sync(&morning)?;
    log::begin(disk, &folder, &like)?;
    disk.sync(&folder)
}

/// Takes away the folder of a day that no state names, where it is there.
pub(crate) fn remove_day(disk: &dyn Disk, folder: &Path) -> io::Result<()> {
    if !folder.exists() {
        return Ok(());
    }
    for entry in fs::read_dir(folder)? {
        disk.remove(&entry?.path())?;
    }
    disk.remove_folder(folder)
}

/// Whether nothing is in a folder but what a run left that was ended while it made a store there.
fn is_free(folder: &Path) -> Outcome<()> {
    let unusable = |why: &str| Trouble::Unusable(format!("{} {why}", folder.display()));
    let begun = [".state.new", "day-1"];
    let entries =
        fs::read_dir(folder).map_err(|error| Trouble::unreadable(folder, plain(&error)))?;
    for entry in entries.flatten() {
        match entry.file_name().to_string_lossy().as_ref() {
            "state" => return Err(unusable("is a store already")),
            name if begun.contains(&name) => (),
            _ => return Err(unusable("is not empty")),
        }
    }
    Ok(())
}
