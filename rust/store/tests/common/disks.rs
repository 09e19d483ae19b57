//! Disks that are not to be relied on.

use std::cell::{Cell, RefCell};
use std::fs::{self, OpenOptions, Permissions};
use std::io;
use std::os::unix::fs::FileExt;
use std::path::{Path, PathBuf};
use std::process;

use store::disk::{Disk, Native};

/// How a process ends at the step that it is told to stop at.
pub const STOPPED: i32 = 42;

/// What becomes of that which was not synced when the process ends.
#[derive(Clone, Copy, Debug, PartialEq, Eq)]
pub enum Unsynced {
    /// It stays: the process was killed, and the machine went on.
    Stays,
    /// It is gone: the power was cut.
    IsLost,
    /// Files have their lengths, and zeros for their bytes.
    IsZeros,
    /// Some is gone and some is not, in one of three ways.
    IsMixed(usize),
}

pub const ALL: [Unsynced; 6] = [
    Unsynced::Stays,
    Unsynced::IsLost,
    Unsynced::IsZeros,
    Unsynced::IsMixed(0),
    Unsynced::IsMixed(1),
    Unsynced::IsMixed(2),
];

/// What undoes a step that is not on the disk yet.
enum Undo {
    Cut(PathBuf, usize),
    Fill(PathBuf, Vec<u8>),
    Remove(PathBuf),
    Rename(PathBuf, PathBuf, Option<Vec<u8>>),
}

/// A disk that ends the process before, in the middle of, or after a step; nothing is synced for
/// good but what it was told to.
pub struct Stopping {
    at: usize,
    unsynced: Unsynced,
    steps: Cell<usize>,
    undo: RefCell<Vec<(PathBuf, Undo)>>,
}

impl Stopping {
    pub fn at(step: usize, unsynced: Unsynced) -> Stopping {
        Stopping { at: step, unsynced, steps: Cell::new(0), undo: RefCell::new(Vec::new()) }
    }

    /// A moment at which the process may end.
    fn tick(&self) {
        self.steps.set(self.steps.get() + 1);
        if self.steps.get() == self.at {
            self.forget();
            process::exit(STOPPED);
        }
    }

    fn forget(&self) {
        for (index, (_, undo)) in self.undo.take().into_iter().enumerate().rev() {
            let undone = match self.unsynced {
                Unsynced::Stays => false,
                Unsynced::IsLost => true,
                Unsynced::IsZeros => matches!(undo, Undo::Cut(..)),
                Unsynced::IsMixed(way) => (self.at + index + way).is_multiple_of(3),
            };
            if undone {
                // What stood in a file that is gone is gone with it.
                let _ = undo.apply(self.unsynced == Unsynced::IsZeros);
            }
        }
    }

    /// Notes what undoes a step as long as this is not synced.
    fn note(&self, synced_with: &Path, undo: Undo) {
        self.undo.borrow_mut().push((synced_with.to_path_buf(), undo));
    }

    fn append_in_two(&self, path: &Path, bytes: &[u8]) -> io::Result<()> {
        let (front, back) = bytes.split_at(bytes.len() / 2);
        Native.append(path, front)?;
        self.tick();
        Native.append(path, back)
    }
}

impl Undo {
    fn apply(self, zeros: bool) -> io::Result<()> {
        match self {
            Undo::Cut(path, length) if zeros => {
                let file = OpenOptions::new().write(true).open(path)?;
                let many = file.metadata()?.len() as usize - length;
                file.write_all_at(&vec![0; many], length as u64)
            }
            Undo::Cut(path, length) => Native.cut(&path, length),
            Undo::Fill(path, bytes) => fs::write(path, bytes),
            Undo::Remove(path) if path.is_dir() => fs::remove_dir_all(path),
            Undo::Remove(path) => fs::remove_file(path),
            Undo::Rename(from, to, old) => {
                fs::rename(&to, from)?;
                old.map_or(Ok(()), |bytes| fs::write(to, bytes))
            }
        }
    }
}

/// The folder that a name stands in.
fn folder(path: &Path) -> &Path {
    path.parent().expect("a folder")
}

impl Disk for Stopping {
    fn make_folder(&self, path: &Path, permissions: Option<Permissions>) -> io::Result<()> {
        self.tick();
        Native.make_folder(path, permissions)?;
        self.note(folder(path), Undo::Remove(path.to_path_buf()));
        self.tick();
        Ok(())
    }

    fn put(&self, path: &Path, bytes: &[u8], permissions: Option<Permissions>) -> io::Result<()> {
        self.tick();
        let old = fs::read(path).ok();
        Native.put(path, b"", permissions)?;
        let undo = match old {
            Some(bytes) => Undo::Fill(path.to_path_buf(), bytes),
            None => Undo::Remove(path.to_path_buf()),
        };
        self.note(folder(path), undo);
        self.note(path, Undo::Cut(path.to_path_buf(), 0));
        self.tick();
        self.append_in_two(path, bytes)?;
        self.tick();
        Ok(())
    }

    fn append(&self, path: &Path, bytes: &[u8]) -> io::Result<()> {
        self.tick();
        let length = fs::metadata(path)?.len() as usize;
        self.note(path, Undo::Cut(path.to_path_buf(), length));
        self.append_in_two(path, bytes)?;
        self.tick();
        Ok(())
    }

    fn cut(&self, path: &Path, length: usize) -> io::Result<()> {
        self.tick();
        self.note(path, Undo::Fill(path.to_path_buf(), fs::read(path)?));
        Native.cut(path, length)?;
        self.tick();
        Ok(())
    }

    fn sync(&self, path: &Path) -> io::Result<()> {
        self.tick();
        let path = path.canonicalize()?;
        let is_other = |with: &Path| with.canonicalize().map_or(true, |with| with != path);
        self.undo.borrow_mut().retain(|(with, _)| is_other(with));
        self.tick();
        Ok(())
    }

    fn rename(&self, from: &Path, to: &Path) -> io::Result<()> {
        self.tick();
        let old = fs::read(to).ok();
        Native.rename(from, to)?;
        // Bytes that were not synced go with their file.
        for (with, undo) in self.undo.borrow_mut().iter_mut() {
            if let Undo::Cut(path, _) = undo {
                if path == from {
                    *with = to.to_path_buf();
                    *path = to.to_path_buf();
                }
            }
        }
        self.note(folder(to), Undo::Rename(from.to_path_buf(), to.to_path_buf(), old));
        self.tick();
        Ok(())
    }

    fn remove(&self, path: &Path) -> io::Result<()> {
        self.tick();
        Native.remove(path)?;
        self.tick();
        Ok(())
    }

    fn remove_folder(&self, path: &Path) -> io::Result<()> {
        self.tick();
        Native.remove_folder(path)?;
        self.tick();
        Ok(())
    }
}

/// A disk on which one step fails, or that step and all behind it; half of what is written comes
/// through.
pub struct Failing {
    at: usize,
    for_good: bool,
    steps: Cell<usize>,
}

impl Failing {
    pub fn at(step: usize, for_good: bool) -> Failing {
        Failing { at: step, for_good, steps: Cell::new(0) }
    }

    /// Whether the step that fails was come to.
    pub fn has_failed(&self) -> bool {
        self.steps.get() >= self.at
    }

    fn step(&self) -> io::Result<()> {
        self.steps.set(self.steps.get() + 1);
        let fails = self.steps.get() == self.at || self.for_good && self.has_failed();
        match fails {
            true => Err(io::Error::from(io::ErrorKind::StorageFull)),
            false => Ok(()),
        }
    }
}

impl Disk for Failing {
    fn make_folder(&self, path: &Path, permissions: Option<Permissions>) -> io::Result<()> {
        self.step()?;
        Native.make_folder(path, permissions)
    }

    fn put(&self, path: &Path, bytes: &[u8], permissions: Option<Permissions>) -> io::Result<()> {
        if let Err(error) = self.step() {
            Native.put(path, &bytes[..bytes.len() / 2], permissions)?;
            return Err(error);
        }
        Native.put(path, bytes, permissions)
    }

    fn append(&self, path: &Path, bytes: &[u8]) -> io::Result<()> {
        if let Err(error) = self.step() {
            Native.append(path, &bytes[..bytes.len() / 2])?;
            return Err(error);
        }
        Native.append(path, bytes)
    }

    fn cut(&self, path: &Path, length: usize) -> io::Result<()> {
        self.step()?;
        Native.cut(path, length)
    }

    fn sync(&self, path: &Path) -> io::Result<()> {
        self.step()?;
        Native.sync(path)
    }

    fn rename(&self, from: &Path, to: &Path) -> io::Result<()> {
        self.step()?;
        Native.rename(from, to)
    }

    fn remove(&self, path: &Path) -> io::Result<()> {
        // A full disk takes things away all the same.
        Native.remove(path)
    }

    fn remove_folder(&self, path: &Path) -> io::Result<()> {
        Native.remove_folder(path)
    }
}

/// The machine's disk without its syncs, to be measured beside it.
pub struct Hasty;

impl Disk for Hasty {
    fn make_folder(&self, path: &Path, permissions: Option<Permissions>) -> io::Result<()> {
        Native.make_folder(path, permissions)
    }

    fn put(&self, path: &Path, bytes: &[u8], permissions: Option<Permissions>) -> io::Result<()> {
        Native.put(path, bytes, permissions)
    }

    fn append(&self, path: &Path, bytes: &[u8]) -> io::Result<()> {
        Native.append(path, bytes)
    }

    fn cut(&self, path: &Path, length: usize) -> io::Result<()> {
        Native.cut(path, length)
    }

    fn sync(&self, _: &Path) -> io::Result<()> {
        Ok(())
    }

    fn rename(&self, from: &Path, to: &Path) -> io::Result<()> {
        Native.rename(from, to)
    }

    fn remove(&self, path: &Path) -> io::Result<()> {
        Native.remove(path)
    }

    fn remove_folder(&self, path: &Path) -> io::Result<()> {
        Native.remove_folder(path)
    }
}
