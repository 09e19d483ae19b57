//! Several clerks at once: no acknowledged save is missing, and the sheet is right at any time.
//!
//! What is short runs with the other tests; the long runs are asked for by `--ignored`, one after
//! the other: `cargo test --release -p store --test clerks -- --ignored --nocapture --test-threads=1`.

mod common;

use std::collections::VecDeque;
use std::fs::{self, File, OpenOptions};
use std::io::Write;
use std::path::{Path, PathBuf};
use std::process::{Child, Command, Stdio};
use std::sync::atomic::{AtomicBool, Ordering};
use std::thread;
use std::time::{Duration, Instant};
use std::{env, io};

use common::disks::Hasty;
use common::{any_save, as_save, open, store_of, Folder, Random};
use desk::{Finding, MAX_STATIONS, SAVE_LENGTH};
use store::disk::{Disk, Native};
use store::store::Store;

/// The variables in which a clerk finds the store, its name and how many saves it makes.
const STORE: &str = "STORE_TEST_STORE";
const CLERK: &str = "STORE_TEST_CLERK";
const SAVES: &str = "STORE_TEST_SAVES";

/// Where a clerk writes down what was acknowledged.
fn acknowledged(place: &Path, clerk: &str) -> PathBuf {
    place.with_file_name(format!("acknowledged-{clerk}"))
}

/// Not a test of its own: a clerk, where one is named. Each save opens the store anew, as the
/// program does.
#[test]
fn clerk_at_work() {
    let (Some(place), Ok(clerk)) = (env::var_os(STORE), env::var(CLERK)) else {
        return;
    };
    let place = PathBuf::from(place);
    let saves: usize = env::var(SAVES).unwrap().parse().unwrap();
    let mut random = Random(clerk.bytes().fold(99, |seed, byte| seed * 131 + u64::from(byte)));
    let path = acknowledged(&place, &clerk);
    let mut book = OpenOptions::new().create(true).append(true).open(path).unwrap();
    for index in 0..saves {
        let (number, record) = any_save(&mut random, MAX_STATIONS, &format!("{clerk} {index}"));
        Store::write(&place, &Native).unwrap().save(number, &record).unwrap();
        book.write_all(&as_save(number, &record)).unwrap();
    }
}

/// A clerk in a process of its own.
fn clerk(place: &Path, name: &str, saves: usize) -> Child {
    Command::new(env::current_exe().unwrap())
        .args(["--exact", "clerk_at_work"])
        .env(STORE, place)
        .env(CLERK, name)
        .env(SAVES, saves.to_string())
        .stdout(Stdio::null())
        .stderr(Stdio::null())
        .spawn()
        .unwrap()
}

/// What a clerk wrote down, save by save.
fn book(place: &Path, name: &str) -> VecDeque<Vec<u8>> {
    let bytes = fs::read(acknowledged(place, name)).unwrap_or_default();
    bytes.chunks_exact(SAVE_LENGTH).map(<[u8]>::to_vec).collect()
}

/// Asks whether a log holds all that the clerks wrote down, each in its order, and for each clerk at
/// most one save that it did not come to write down.
fn hold_all(saves: &[u8], books: &mut [VecDeque<Vec<u8>>]) {
    let mut others = 0;
    for save in saves.chunks(SAVE_LENGTH) {
        match books.iter_mut().find(|book| book.front().is_some_and(|next| next == save)) {
            Some(book) => drop(book.pop_front()),
            None => others += 1,
        }
    }
    for book in books.iter() {
        assert!(book.is_empty(), "{} acknowledged saves are missing", book.len());
    }
    assert!(others <= books.len(), "{others} saves are nobody's");
}

/// Clerks at work beside readers, who always find a right sheet and nothing to say.
fn clerks(name: &str, many: usize, saves: usize) {
    let folder = Folder::new(name);
    let place = folder.join("box");
    store_of(&place, MAX_STATIONS);
    let names: Vec<String> = (0..many).map(|index| format!("CLERK {index}")).collect();
    let begun = Instant::now();
    let at_work: Vec<Child> = names.iter().map(|name| clerk(&place, name, saves)).collect();
    let (over, mut reads) = (AtomicBool::new(false), 0);
    thread::scope(|scope| {
        let reader = scope.spawn(|| {
            let mut reads = 0;
            while !over.load(Ordering::Relaxed) {
                let store = Store::read(&place, &Native).unwrap();
                let filing = store.filing();
                assert_eq!(desk::verify(filing.bytes(), filing.sheet()), Ok(Finding::Right));
                assert_eq!(store.said, Vec::<String>::new());
                reads += 1;
                thread::sleep(Duration::from_millis(1));
            }
            reads
        });
        for mut clerk in at_work {
            assert!(clerk.wait().unwrap().success(), "a clerk failed");
        }
        over.store(true, Ordering::Relaxed);
        reads = reader.join().unwrap();
    });
    let took = begun.elapsed();
    let store = open(&place);
    assert_eq!(store.saves(), many * saves);
    let mut books: Vec<_> = names.iter().map(|name| book(&place, name)).collect();
    hold_all(&store.day().unwrap().saves, &mut books);
    let each = (many * saves) as f64 / took.as_secs_f64();
    println!("{many} clerks, {saves} saves each: {took:.1?}, {each:.0} saves a second, {reads} reads beside");
}

#[test]
fn two_and_four_clerks() {
    clerks("two", 2, 100);
    clerks("four", 4, 50);
}

/// A clerk at work while the day is closed again and again, and somebody reads it.
#[test]
fn days_closed_beside_a_clerk() {
    let folder = Folder::new("closing");
    let place = folder.join("box");
    store_of(&place, MAX_STATIONS);
    let mut at_work = clerk(&place, "CLERK", 200);
    let over = AtomicBool::new(false);
    thread::scope(|scope| {
        scope.spawn(|| {
            while !over.load(Ordering::Relaxed) {
                let (store, mut day) = Store::read_day(&place, &Native).unwrap();
                day.morning.replay(&day.saves);
                assert_eq!(&day.morning, store.filing());
            }
        });
        while at_work.try_wait().unwrap().is_none() {
            let mut store = Store::write(&place, &Native).unwrap();
            let list = store.filing().clone();
            store.close_day(&list).unwrap();
            assert_eq!(store.said, Vec::<String>::new());
            drop(store);
            thread::sleep(Duration::from_millis(5));
        }
        over.store(true, Ordering::Relaxed);
    });
    assert!(at_work.wait().unwrap().success());
    let days = fs::read_dir(place.join("days")).unwrap().map(|day| day.unwrap().path());
    let saves = days.chain([place.clone()]).flat_map(|day| open(&day).day().unwrap().saves);
    let mut saves: Vec<u8> = saves.collect();
    let mut book: Vec<u8> = book(&place, "CLERK").into_iter().flatten().collect();
    assert_eq!(book.len(), 200 * SAVE_LENGTH);
    // Folders come in any order, and each save is told from all others.
    sort(&mut saves);
    sort(&mut book);
    assert_eq!(saves, book);
}

/// Puts saves in the order of their bytes.
fn sort(saves: &mut Vec<u8>) {
    let mut each: Vec<Vec<u8>> = saves.chunks(SAVE_LENGTH).map(<[u8]>::to_vec).collect();
    each.sort();
    *saves = each.concat();
}

#[test]
#[ignore = "a long run"]
fn two_and_four_clerks_with_ten_thousand_saves_each() {
    clerks("two-long", 2, 10_000);
    clerks("four-long", 4, 10_000);
}

/// Two clerks who are killed at a moment at random, again and again.
fn killed(name: &str, kills: usize) {
    let folder = Folder::new(name);
    let place = folder.join("box");
    store_of(&place, MAX_STATIONS);
    let mut random = Random(2026);
    let (mut seen, mut said, mut all) = (0, 0, 0);
    for round in 0..kills / 2 {
        let names = [format!("A {round}"), format!("B {round}")];
        let mut at_work: Vec<Child> =
            names.iter().map(|name| clerk(&place, name, usize::MAX)).collect();
        for clerk in &mut at_work {
            thread::sleep(Duration::from_micros(random.below(20_000) as u64));
            clerk.kill().unwrap();
        }
        for clerk in &mut at_work {
            clerk.wait().unwrap();
        }
        let store = open(&place);
        said += store.said.len();
        let saves = store.day().unwrap().saves;
        let mut books: Vec<_> = names.iter().map(|name| book(&place, name)).collect();
        hold_all(&saves[seen..], &mut books);
        all += (saves.len() - seen) / SAVE_LENGTH;
        seen = saves.len();
        if round % 100 == 99 {
            let mut store = Store::write(&place, &Native).unwrap();
            let list = store.filing().clone();
            store.close_day(&list).unwrap();
            seen = 0;
        }
        for name in &names {
            let _ = fs::remove_file(acknowledged(&place, name));
        }
    }
    println!("{kills} clerks killed, {all} saves, the store unsettled {said} times: all holds");
}

#[test]
fn clerks_killed_at_random() {
    killed("killed", 30);
}

#[test]
#[ignore = "a long run"]
fn a_thousand_clerks_killed_at_random() {
    killed("killed-long", 1_000);
}

/// Saves a second, by one clerk that opens the store for each.
fn speed(place: &Path, disk: &dyn Disk, saves: usize) -> f64 {
    let mut random = Random(5);
    let begun = Instant::now();
    for index in 0..saves {
        let (number, record) = any_save(&mut random, MAX_STATIONS, &format!("SPEED {index}"));
        Store::write(place, disk).unwrap().save(number, &record).unwrap();
    }
    saves as f64 / begun.elapsed().as_secs_f64()
}

/// Appends of a save's bytes to a plain file a second, synced or not.
fn plain(path: &Path, saves: usize, synced: bool) -> io::Result<f64> {
    let mut file = File::create(path)?;
    let begun = Instant::now();
    for _ in 0..saves {
        file.write_all(&[b'7'; SAVE_LENGTH])?;
        if synced {
            file.sync_all()?;
        }
    }
    Ok(saves as f64 / begun.elapsed().as_secs_f64())
}

#[test]
#[ignore = "a measurement"]
fn saves_a_second() {
    let folder = Folder::new("speed");
    let place = folder.join("box");
    store_of(&place, MAX_STATIONS);
    println!("on {}, saves a second", common::base().display());
    println!("a store, synced: {:.0}", speed(&place, &Native, 500));
    println!("a store, not synced: {:.0}", speed(&place, &Hasty, 5_000));
    let path = folder.join("plain");
    println!("a plain file, synced: {:.0}", plain(&path, 500, true).unwrap());
    println!("a plain file, not synced: {:.0}", plain(&path, 5_000, false).unwrap());
}
