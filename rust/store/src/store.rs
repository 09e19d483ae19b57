//! A store that is open: saved to, closed for the day, begun anew.

use std::fs::{self, File};
use std::io;
use std::path::{Path, PathBuf};
use std::thread;
use std::time::Duration;

use owners::asked::plain;
use owners::filings::Filing;
use owners::programs::refused;
use owners::status::{Outcome, Trouble};

use crate::dates;
use crate::disk::{self, Disk};
use crate::generation::Generation;
use crate::log;
use crate::making::{first, make_day, remove_day};
use crate::opening::{self, day, day_of, look, state, Found};
use crate::sums;
use crate::words;

/// How often a reader looks again where a store seems bad: a writer may be closing the day.
const LOOKS: usize = 5;

/// A store and what it holds.
pub struct Store<'d> {
    disk: &'d dyn Disk,
    folder: PathBuf,
    found: Found,
    /// What was not as it should be, a sentence each.
    pub said: Vec<String>,
    /// Held as long as the store is open to be changed.
    _lock: Option<File>,
}

/// A day's own list and what was saved to it.
pub struct Day {
    /// The morning's list.
    pub morning: Filing,
    /// The saves, 222 bytes each.
    pub saves: Vec<u8>,
}

impl<'d> Store<'d> {
    /// Opens a store to be read, without waiting for anybody. Where it was left unsettled and no
    /// writer is at work, it is settled; where that cannot be written, the reader goes on without.
    pub fn read(folder: &Path, disk: &'d dyn Disk) -> Outcome<Store<'d>> {
        let mut looks = 1;
        let found = loop {
            match look(folder) {
                Ok(found) => break found,
                Err(trouble) if looks == LOOKS => return Err(trouble),
                Err(_) => thread::sleep(Duration::from_millis(2)),
            }
            looks += 1;
        };
        if found.is_settled() {
            return Ok(Store::open(folder, disk, found, None));
        }
        match opening::try_lock(folder)? {
            Some(_lock) => {
                let mut store = Store::open(folder, disk, look(folder)?, None);
                // Who may not write reads all the same.
                let _ = store.settle();
                Ok(store)
            }
            // A writer is at work: it settles the log itself.
            None => {
                let said = found.judged.clone().into_iter().collect();
                Ok(Store { said, ..Store::open(folder, disk, found, None) })
            }
        }
    }

    /// Opens a store to be read, with its day; a day that is closed meanwhile is looked for again.
    pub fn read_day(folder: &Path, disk: &'d dyn Disk) -> Outcome<(Store<'d>, Day)> {
        let mut looks = 1;
        loop {
            let store = Store::read(folder, disk)?;
            match store.day() {
                Ok(day) => return Ok((store, day)),
                Err(trouble) if looks == LOOKS => return Err(trouble),
                Err(_) => thread::sleep(Duration::from_millis(2)),
            }
            looks += 1;
        }
    }

    /// Opens a store to be changed: waits until no other writer has it, and settles it.
    pub fn write(folder: &Path, disk: &'d dyn Disk) -> Outcome<Store<'d>> {
        let lock = opening::lock(folder)?;
        let found = look(folder)?;
        if found.generation.closed {
            let why = format!("{} is a day that is closed", folder.display());
            return Err(refused(&why));
        }
        let mut store = Store::open(folder, disk, found, Some(lock));
        store.settle().map_err(|error| cannot(folder, &error, false))?;
        Ok(store)
    }

    /// A store as it was found.
    fn open(folder: &Path, disk: &'d dyn Disk, found: Found, lock: Option<File>) -> Store<'d> {
        let said = found.said();
        Store { disk, folder: folder.to_path_buf(), found, said, _lock: lock }
    }

    /// Puts on the disk what was found on opening; that may be ended at any moment and done again.
    fn settle(&mut self) -> io::Result<()> {
        if self.found.torn.is_some() {
            log::cut(self.disk, &self.day_folder(), self.saves())?;
        }
        if self.found.run > 0 || self.found.judged.is_some() {
            self.put_state(&self.found.generation, &self.found.filing)?;
            self.disk.sync(&self.folder)?;
        }
        if self.found.unkept {
            self.try_to_keep();
        }
        Ok(())
    }

    /// The list and its sheet.
    pub fn filing(&self) -> &Filing {
        &self.found.filing
    }

    /// How many saves the day has.
    pub fn saves(&self) -> usize {
        self.found.generation.saves
    }

    /// The folder of the day.
    pub fn day_folder(&self) -> PathBuf {
        day_of(&self.folder, &self.found.generation)
    }

    /// The day's morning and saves, as they were made.
    pub fn day(&self) -> Outcome<Day> {
        let (folder, generation) = (self.day_folder(), &self.found.generation);
        let saves = log::counted(&folder, generation.saves, generation.sum)?;
        let path = folder.join("morning");
        let bytes = fs::read(&path).map_err(|error| Trouble::unreadable(&path, plain(&error)))?;
        let damaged = |why| Trouble::Unusable(format!("{} is damaged: {why}", path.display()));
        if sums::more(sums::NOTHING, &bytes) != generation.morning {
            return Err(damaged("its check sum is not that of the morning's list"));
        }
        let morning = Filing::new(bytes).map_err(|_| damaged("it is no filing"))?;
        Ok(Day { morning, saves })
    }

    /// Puts in a record, 0 being the header: first into the log, then into the state. Answers how
    /// many rows were written; the save is on the disk then.
    pub fn save(&mut self, number: usize, record: &[u8]) -> Outcome<usize> {
        let mut filing = self.filing().clone();
        let rows = filing
            .replace(number, record)
            .map_err(|refusal| refused(&format!("refused {}, {refusal}", refusal.number())))?;
        let save = [format!("{number:03}").as_bytes(), record].concat();
        let sum = sums::more(self.found.generation.sum, &save);
        let saves = self.saves() + 1;
        let next = Generation { saves, sum, ..self.found.generation.clone() };
        let folder = self.day_folder();
        let put = log::append(self.disk, &folder, &save, sum)
            .and_then(|()| self.put_state(&next, &filing));
        if let Err(error) = put {
            let back = self.stands() && log::take_back(self.disk, &folder, self.saves());
            return Err(cannot(&self.folder, &error, back));
        }
        self.disk.sync(&self.folder).map_err(|error| cannot(&self.folder, &error, false))?;
        (self.found.generation, self.found.filing) = (next, filing);
        Ok(rows)
    }

    /// Whether the state that this store was opened from still stands.
    fn stands(&self) -> bool {
        let path = state(&self.folder);
        fs::read(&path).is_ok_and(|bytes| {
            Generation::read(&path, &bytes).is_ok_and(|(found, ..)| found == self.found.generation)
        })
    }

    /// Writes a generation in the place of the one that stands; then the folder has to be synced.
    fn put_state(&self, generation: &Generation, filing: &Filing) -> io::Result<()> {
        let path = state(&self.folder);
        let bytes = generation.bytes(filing.bytes(), filing.sheet());
        disk::replace(self.disk, &path, &bytes, &path)
    }

    /// Closes the day, and begins one with a list; answers the name that the day is kept under.
    /// The new state is what closes it: before that nothing has changed, and what comes behind it
    /// is done when the store is opened next, if not now.
    pub fn close_day(&mut self, list: &Filing) -> Outcome<String> {
        self.is_the_day_run()?;
        if self.found.unkept {
            self.keep_day_before().map_err(|error| cannot(&self.folder, &error, true))?;
        }
        let name = self.free_name();
        let number = self.found.generation.day + 1;
        let next = Generation { day: number, before: name.clone(), ..first(list) };
        let begun = self.begin_next(&next, list).and_then(|()| self.put_state(&next, list));
        if let Err(error) = begun {
            let back = self.stands() && remove_day(self.disk, &day(&self.folder, number)).is_ok();
            return Err(cannot(&self.folder, &error, back));
        }
        self.disk.sync(&self.folder).map_err(|error| cannot(&self.folder, &error, false))?;
        (self.found.generation, self.found.filing) = (next, list.clone());
        self.try_to_keep();
        Ok(name)
    }

    /// Puts the folder of the day before where it is kept; where that fails it stays where it is,
    /// and saves go on.
    fn try_to_keep(&mut self) {
        let kept = self.keep_day_before();
        self.found.unkept = kept.is_err();
        if let Err(error) = kept {
            let name = &self.found.generation.before;
            self.said.retain(|said| said != &words::kept(name));
            self.said.push(words::not_kept(name, &plain(&error)));
        }
    }

    /// Whether the day's saves lead from its morning to the list.
    fn is_the_day_run(&self) -> Outcome<()> {
        let mut day = self.day()?;
        day.morning.replay(&day.saves);
        if day.morning == *self.filing() {
            return Ok(());
        }
        let why = "is damaged: the day's saves do not lead to its list";
        Err(Trouble::Unusable(format!("{} {why}", self.folder.display())))
    }

    /// Makes the folder of the next day, and leaves the state of this one in its folder.
    fn begin_next(&self, next: &Generation, list: &Filing) -> io::Result<()> {
        let like = state(&self.folder);
        make_day(self.disk, &self.folder, next.day, list)?;
        self.disk.sync(&self.folder)?;
        let closed = Generation { closed: true, ..self.found.generation.clone() };
        let bytes = closed.bytes(self.filing().bytes(), self.filing().sheet());
        let folder = self.day_folder();
        disk::replace(self.disk, &state(&folder), &bytes, &like)?;
        self.disk.sync(&folder)
    }

    /// Puts the folder of the day before where it is kept.
    fn keep_day_before(&self) -> io::Result<()> {
        let days = self.folder.join("days");
        if !days.exists() {
            // Nothing is put into a folder that may be gone after a power cut.
            self.disk.make_folder(&days, disk::permissions(&self.folder))?;
            self.disk.sync(&self.folder)?;
        }
        let generation = &self.found.generation;
        let mut place = days.join(&generation.before);
        if place.exists() {
            place = days.join(self.free_name());
        }
        self.disk.rename(&day(&self.folder, generation.day - 1), &place)?;
        self.disk.sync(&days)?;
        self.disk.sync(&self.folder)
    }

    /// Today's date, counted on where a day is kept under it already.
    fn free_name(&self) -> String {
        let today = dates::today();
        let names = (2..).map(|number| format!("{today}-{number}"));
        let mut names = std::iter::once(today.clone()).chain(names);
        let days = self.folder.join("days");
        names.find(|name| !days.join(name).exists()).unwrap_or(today)
    }
}

/// A store that cannot be written, and whether what was begun is taken back.
pub(crate) fn cannot(folder: &Path, error: &io::Error, back: bool) -> Trouble {
    Trouble::Unusable(words::not_written(folder, &plain(error), back))
}
