//! What the tests share: folders of their own, records at random, and disks that stop, fail and
//! forget.

#![allow(dead_code)]

pub mod disks;

use std::path::{Path, PathBuf};
use std::{env, fs, process};

use desk::{Finding, RECORD_LENGTH};
use owners::filings::Filing;
use store::disk::Native;
use store::making::make;
use store::store::Store;

/// Station S of the paper.
pub const STATION: &[u8; RECORD_LENGTH] = include_bytes!("../../../desk/station-s.txt");

/// Where folders are made: `STORE_TEST_DIR`, else in memory where the machine has that.
pub fn base() -> PathBuf {
    let memory = PathBuf::from("/dev/shm");
    let given = env::var_os("STORE_TEST_DIR").map(PathBuf::from);
    given.unwrap_or_else(|| if memory.is_dir() { memory } else { env::temp_dir() })
}

/// A folder of a test's own, which goes with it.
pub struct Folder(pub PathBuf);

impl Folder {
    pub fn new(name: &str) -> Folder {
        let folder = base().join(format!("store-{name}-{}", process::id()));
        let _ = fs::remove_dir_all(&folder);
        fs::create_dir_all(&folder).unwrap();
        Folder(folder)
    }

    pub fn join(&self, name: &str) -> PathBuf {
        self.0.join(name)
    }
}

impl Drop for Folder {
    fn drop(&mut self) {
        let _ = fs::remove_dir_all(&self.0);
    }
}

/// Numbers at random, the same for the same seed.
pub struct Random(pub u64);

impl Random {
    pub fn below(&mut self, bound: usize) -> usize {
        self.0 ^= self.0 << 13;
        self.0 ^= self.0 >> 7;
        self.0 ^= self.0 << 17;
        ((self.0 >> 16) % bound as u64) as usize
    }
}

/// A header that breaks no rule, with a text in its content.
pub fn header(stations: usize, text: &str) -> Vec<u8> {
    let mut header = vec![b' '; RECORD_LENGTH];
    header[..2].copy_from_slice(b" 1");
    header[2..2 + text.len()].copy_from_slice(text.as_bytes());
    header[82..86].copy_from_slice(b"OAUT");
    header[186..192].copy_from_slice(format!("{stations:6}").as_bytes());
    header[192..203].copy_from_slice(b"02012024AUT");
    header[209..212].copy_from_slice(b"1.0");
    header
}

/// Station S at one of nine sites, with a number in its reference and a text in 13Z.
pub fn station(site: usize, number: usize, text: &str) -> Vec<u8> {
    let mut record = STATION.to_vec();
    record[137..150].copy_from_slice(b"2            ");
    record[150..150 + text.len()].copy_from_slice(text.as_bytes());
    record[204..219].copy_from_slice(format!("AUT2311AB0{site}A{number:03}").as_bytes());
    record
}

/// A filing of good stations.
pub fn filing(stations: usize) -> Filing {
    let records = (1..=stations).map(|number| station(number % 10, number, "MORNING"));
    let bytes = std::iter::once(header(stations, "")).chain(records).flatten().collect();
    Filing::new(bytes).expect("a filing")
}

/// A save at random of a list: a good record, one with a byte damaged, a twin, one that stands at
/// another height, a header; each with a text that tells it from all others.
pub fn any_save(random: &mut Random, stations: usize, text: &str) -> (usize, Vec<u8>) {
    let number = random.below(stations) + 1;
    let mut record = station(random.below(10), random.below(300), text);
    match random.below(10) {
        0 => return (0, header(stations + random.below(2), text)),
        1..=3 => record[random.below(130)] = random.below(256) as u8,
        4..=5 => record[107..111].copy_from_slice(format!("{:04}", random.below(5)).as_bytes()),
        _ => (),
    }
    (number, record)
}

/// A store of good stations.
pub fn store_of(folder: &Path, stations: usize) {
    make(folder, &filing(stations), &Native).expect("a store");
}

/// Opens a store, and asks of it what must hold at any time: its sheet is the one judged from its
/// list, and the day's saves lead from the morning to it.
pub fn open(folder: &Path) -> Store<'static> {
    let store = Store::read(folder, &Native).unwrap_or_else(|trouble| panic!("{trouble}"));
    let filing = store.filing();
    assert_eq!(desk::verify(filing.bytes(), filing.sheet()), Ok(Finding::Right));
    let mut day = store.day().unwrap_or_else(|trouble| panic!("{trouble}"));
    let told = day.morning.replay(&day.saves);
    assert_eq!((told.accepted, told.refused, told.stopped), (store.saves(), 0, None));
    assert_eq!(&day.morning, filing, "the day's saves lead elsewhere");
    store
}

/// A save as the log has it.
pub fn as_save(number: usize, record: &[u8]) -> Vec<u8> {
    [format!("{number:03}").as_bytes(), record].concat()
}
