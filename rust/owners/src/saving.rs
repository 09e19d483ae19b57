//! A file written whole or not at all.

use std::ffi::OsString;
use std::fs::{self, File, OpenOptions};
use std::io::{self, Read, Write};
use std::path::{Path, PathBuf};
use std::process;

/// How far a save has come; whoever watches it may end the run at any of them.
#[derive(Clone, Copy, Debug, PartialEq, Eq)]
pub enum Stage {
    /// The file beside it is there, and empty.
    Created,
    /// It holds half of the bytes.
    Half,
    /// It holds all of them.
    Written,
    /// They are on the disk.
    Synced,
    /// It stands in the old file's place.
    Renamed,
}

/// Puts bytes into a file: into a new one beside it, which then takes its place. Whatever happens
/// before that, what the file held before is there. Answers whether the folder is on the disk
/// too, so that not even a power cut can bring the old file back.
pub fn save(path: &Path, bytes: &[u8], watch: &mut dyn FnMut(Stage)) -> io::Result<bool> {
    // Where the name is a link, the file that it leads to is replaced, and the link stays.
    let place = fs::canonicalize(path).unwrap_or_else(|_| path.to_path_buf());
    let beside = beside(&place);
    let done = fill(&beside, &place, bytes, watch).and_then(|()| fs::rename(&beside, &place));
    if let Err(error) = done {
        let _ = fs::remove_file(&beside);
        return Err(error);
    }
    watch(Stage::Renamed);
    Ok(File::open(folder(&place)).and_then(|folder| folder.sync_all()).is_ok())
}

/// Writes the bytes into a new file beside the old one, with its permissions, and looks whether
/// they stand there.
fn fill(beside: &Path, place: &Path, bytes: &[u8], watch: &mut dyn FnMut(Stage)) -> io::Result<()> {
    let mut file = OpenOptions::new().read(true).write(true).create_new(true).open(beside)?;
    watch(Stage::Created);
    if let Ok(old) = fs::metadata(place) {
        file.set_permissions(old.permissions())?;
    }
    let (front, back) = bytes.split_at(bytes.len() / 2);
    file.write_all(front)?;
    watch(Stage::Half);
    file.write_all(back)?;
    watch(Stage::Written);
    file.sync_all()?;
    let mut found = Vec::new();
    File::open(beside)?.read_to_end(&mut found)?;
    if found != bytes {
        return Err(io::Error::other("what was written does not come back"));
    }
    watch(Stage::Synced);
    Ok(())
}

/// The name of the new file: hidden, in the same folder, and of this run alone.
fn beside(place: &Path) -> PathBuf {
    let mut name = OsString::from(".");
    name.push(place.file_name().unwrap_or_default());
    name.push(format!(".new-{}", process::id()));
    folder(place).join(name)
}

/// The folder that a file stands in.
fn folder(place: &Path) -> &Path {
    match place.parent() {
        Some(folder) if !folder.as_os_str().is_empty() => folder,
        _ => Path::new("."),
    }
}
