//! Whatever changes the disk: each call is one step, and a run may be ended between any two.
//!
//! Tests put a disk of their own in the place of the machine's, which stops, fails or forgets.

use std::fs::{self, File, OpenOptions, Permissions};
use std::io::{self, Write};
use std::path::Path;

/// The steps that a store is changed by. Nothing is on the disk for certain before it is synced: a
/// file's bytes with the file, a name with its folder.
pub trait Disk {
    /// Makes a folder.
    fn make_folder(&self, path: &Path, permissions: Option<Permissions>) -> io::Result<()>;

    /// Makes a new file with these bytes, in the place of one that may be there.
    fn put(&self, path: &Path, bytes: &[u8], permissions: Option<Permissions>) -> io::Result<()>;

    /// Puts bytes behind those of a file.
    fn append(&self, path: &Path, bytes: &[u8]) -> io::Result<()>;

    /// Cuts a file to a length.
    fn cut(&self, path: &Path, length: usize) -> io::Result<()>;

    /// Waits until a file or a folder is on the disk.
    fn sync(&self, path: &Path) -> io::Result<()>;

    /// Gives a file or a folder another name, in the place of a file that may bear it.
    fn rename(&self, from: &Path, to: &Path) -> io::Result<()>;

    /// Takes away a file.
    fn remove(&self, path: &Path) -> io::Result<()>;

    /// Takes away a folder that holds nothing.
    fn remove_folder(&self, path: &Path) -> io::Result<()>;
}

/// The machine's own.
pub struct Native;

impl Disk for Native {
    fn make_folder(&self, path: &Path, permissions: Option<Permissions>) -> io::Result<()> {
        fs::create_dir(path)?;
        permissions.map_or(Ok(()), |permissions| fs::set_permissions(path, permissions))
    }

    fn put(&self, path: &Path, bytes: &[u8], permissions: Option<Permissions>) -> io::Result<()> {
        // What a dead process left may belong to somebody else, and not be ours to write.
        match fs::remove_file(path) {
            Err(error) if error.kind() != io::ErrorKind::NotFound => return Err(error),
            _ => (),
        }
        let mut file = OpenOptions::new().write(true).create_new(true).open(path)?;
        if let Some(permissions) = permissions {
            file.set_permissions(permissions)?;
        }
        file.write_all(bytes)
    }

    fn append(&self, path: &Path, bytes: &[u8]) -> io::Result<()> {
        OpenOptions::new().append(true).open(path)?.write_all(bytes)
    }

    fn cut(&self, path: &Path, length: usize) -> io::Result<()> {
        OpenOptions::new().write(true).open(path)?.set_len(length as u64)
    }

    fn sync(&self, path: &Path) -> io::Result<()> {
        // All bytes of the file are synced, whoever wrote them through which opening of it.
        File::open(path)?.sync_all()
    }

    fn rename(&self, from: &Path, to: &Path) -> io::Result<()> {
        fs::rename(from, to)
    }

    fn remove(&self, path: &Path) -> io::Result<()> {
        fs::remove_file(path)
    }

    fn remove_folder(&self, path: &Path) -> io::Result<()> {
        fs::remove_dir(path)
    }
}

/// Makes a file with these bytes that are on the disk, under the name of one that may be there:
/// whole or not at all. Afterwards its folder has to be synced.
pub fn replace(disk: &dyn Disk, path: &Path, bytes: &[u8], like: &Path) -> io::Result<()> {
    let beside = beside(path);
    disk.put(&beside, bytes, permissions(like))?;
    disk.sync(&beside)?;
    disk.rename(&beside, path)
}

/// Where a file is written before it takes its place.
pub fn beside(path: &Path) -> std::path::PathBuf {
    let name = path.file_name().unwrap_or_default().to_string_lossy();
    path.with_file_name(format!(".{name}.new"))
}

/// The permissions of a file or a folder that is there.
pub fn permissions(path: &Path) -> Option<Permissions> {
    fs::metadata(path).ok().map(|there| there.permissions())
}
