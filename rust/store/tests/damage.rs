//! Stores that were damaged: what is wrong is found, or does no harm, and nothing is changed by
//! whoever finds it.

mod common;

use std::collections::BTreeMap;
use std::fs;
use std::path::{Path, PathBuf};

use common::disks::Failing;
use common::{any_save, filing, open, store_of, Folder, Random};
use desk::SAVE_LENGTH;
use owners::filings::Filing;
use owners::status::Outcome;
use store::disk::Native;
use store::generation::Generation;
use store::making::make;
use store::store::Store;

/// A store of six stations with five saves; answers the states after each number of saves.
fn five_saves(place: &Path) -> Vec<(Vec<u8>, Filing)> {
    store_of(place, 6);
    let mut random = Random(7);
    let state = || fs::read(place.join("state")).unwrap();
    let mut states = vec![(state(), open(place).filing().clone())];
    for index in 0..5 {
        let (number, record) = any_save(&mut random, 6, &format!("SAVE {index}"));
        let mut store = Store::write(place, &Native).unwrap();
        store.save(number, &record).unwrap();
        states.push((state(), store.filing().clone()));
    }
    states
}

/// All files below a folder, and their bytes.
fn files(folder: &Path) -> BTreeMap<PathBuf, Vec<u8>> {
    let mut found = BTreeMap::new();
    for entry in fs::read_dir(folder).unwrap() {
        let path = entry.unwrap().path();
        match path.is_dir() {
            true => found.extend(files(&path)),
            false => drop(found.insert(path.clone(), fs::read(path).unwrap())),
        }
    }
    found
}

/// Puts files back as they were.
fn put_back(folder: &Path, wanted: &BTreeMap<PathBuf, Vec<u8>>) {
    fs::remove_dir_all(folder).unwrap();
    for (path, bytes) in wanted {
        fs::create_dir_all(path.parent().unwrap()).unwrap();
        fs::write(path, bytes).unwrap();
    }
}

/// What a reader finds: the list, or that the store is bad; and so of the day.
fn found(place: &Path) -> (Option<Filing>, Option<Vec<u8>>, Vec<String>) {
    match Store::read(place, &Native) {
        Ok(store) => {
            let day = store.day().ok().map(|mut day| {
                day.morning.replay(&day.saves);
                day.morning.bytes().to_vec()
            });
            (Some(store.filing().clone()), day, store.said)
        }
        Err(_) => (None, None, Vec::new()),
    }
}

#[test]
fn a_flipped_byte_is_found_or_does_no_harm() {
    let folder = Folder::new("flips");
    let place = folder.join("box");
    let states = five_saves(&place);
    let right = &states[5].1;
    // Once with the newest state, and once with one that is two saves older than the log.
    for state in [5, 3] {
        fs::write(place.join("state"), &states[state].0).unwrap();
        let all = files(&place);
        for (path, bytes) in &all {
            for offset in (0..bytes.len()).step_by(10) {
                let mut changed = bytes.clone();
                changed[offset] ^= 1 << (offset % 8);
                put_back(&place, &all);
                fs::write(path, &changed).unwrap();
                let before = files(&place);
                let when = format!("{} at {offset} with state {state}", path.display());
                let (list, day, said) = found(&place);
                match list {
                    Some(list) if &list == right => {
                        if day.is_none() {
                            assert!(Store::write(&place, &Native)
                                .unwrap()
                                .close_day(right)
                                .is_err());
                        }
                    }
                    // The last save of the log, which no state counts, is no longer whole.
                    Some(list) => {
                        assert_eq!((state, &list), (3, &states[4].1), "{when}");
                        assert!(said.iter().any(|words| words.contains("is dropped")), "{when}");
                    }
                    None => assert_eq!(files(&place), before, "{when}: changed by a reader"),
                }
                if let Some(day) = day {
                    let list = Store::read(&place, &Native).unwrap().filing().bytes().to_vec();
                    assert_eq!(day, list, "{when}");
                }
            }
        }
        put_back(&place, &all);
    }
}

#[test]
fn a_last_save_cut_short_is_dropped() {
    let folder = Folder::new("torn");
    let place = folder.join("box");
    let states = five_saves(&place);
    let (saves, checks) = (place.join("day-1/saves"), place.join("day-1/checks"));
    let (all, lines) = (fs::read(&saves).unwrap(), fs::read(&checks).unwrap());
    fs::write(place.join("state"), &states[4].0).unwrap();
    for length in 0..=SAVE_LENGTH {
        for line in [0, 1, 16, 17] {
            fs::write(place.join("state"), &states[4].0).unwrap();
            fs::write(&saves, &all[..4 * SAVE_LENGTH + length]).unwrap();
            fs::write(&checks, &lines[..4 * 17 + line]).unwrap();
            let is_whole = length == SAVE_LENGTH && line == 17;
            let store = open(&place);
            let wanted = if is_whole { &states[5].1 } else { &states[4].1 };
            assert_eq!(store.filing(), wanted, "{length} bytes, {line} of its check");
            let said = match (is_whole, length, line) {
                (true, _, _) => {
                    vec!["a save was logged and not yet in the state; it is run again".to_string()]
                }
                (_, 0, 0) => vec![],
                (_, SAVE_LENGTH, _) => {
                    vec!["a last save was logged without its check; it is dropped".to_string()]
                }
                _ => {
                    vec![format!("a last save was cut short, {length} of 222 bytes; it is dropped")]
                }
            };
            assert_eq!(store.said, said);
            assert_eq!(open(&place).said, Vec::<String>::new(), "it is said once");
        }
    }
}

#[test]
fn an_older_generation_with_newer_saves() {
    let folder = Folder::new("older");
    let place = folder.join("box");
    let states = five_saves(&place);
    for (bytes, _) in &states {
        fs::write(place.join("state"), bytes).unwrap();
        assert_eq!(open(&place).filing(), &states[5].1);
        assert_eq!(fs::read(place.join("state")).unwrap(), states[5].0, "it is stored");
    }
}

#[test]
fn saves_that_are_gone_are_missed() {
    let folder = Folder::new("gone");
    let place = folder.join("box");
    five_saves(&place);
    let all = files(&place);
    for path in all.keys() {
        put_back(&place, &all);
        fs::remove_file(path).unwrap();
        let left = files(&place);
        let (list, day, _) = found(&place);
        assert!(list.is_none() || day.is_none(), "{}", path.display());
        assert_eq!(files(&place), left, "{}", path.display());
    }
    for cut in 1..3 * SAVE_LENGTH {
        put_back(&place, &all);
        let saves = place.join("day-1/saves");
        fs::write(&saves, &all[&saves][..5 * SAVE_LENGTH - cut]).unwrap();
        assert!(Store::read(&place, &Native).is_err(), "{cut} bytes are gone");
        assert!(Store::write(&place, &Native).is_err(), "{cut} bytes are gone");
    }
}

#[test]
fn a_sheet_of_other_rules_or_form_is_judged_again() {
    let folder = Folder::new("rules");
    let place = folder.join("box");
    let states = five_saves(&place);
    let right = &states[5].1;
    let path = place.join("state");
    let (generation, list, sheet) = Generation::read(&path, &states[5].0).unwrap();
    let older = Generation { rules: 1, ..generation.clone() };
    let mut wrong = sheet.to_vec();
    wrong[6] ^= 1;
    let form = [&sheet[..18], b"\x00\x1c\x03\x00\x00\x00\x00\x002B"].concat();
    let rules = format!("was judged by rules 1, and today's are {}", desk::rules());
    let cases = [
        (older.bytes(list, sheet), &rules[..]),
        (older.bytes(list, &form), &rules),
        (generation.bytes(list, &wrong), "was wrong at 6, the twin of station 2"),
        (generation.bytes(list, &form), "has 28 bytes, which are not those of today's form"),
        (generation.bytes(list, b""), "has 0 bytes, which are not those of today's form"),
    ];
    for (bytes, why) in cases {
        fs::write(&path, bytes).unwrap();
        let store = open(&place);
        assert_eq!(store.said, [format!("the stored sheet {why}; it is judged again")]);
        assert_eq!(store.filing(), right);
        assert_eq!(fs::read(&path).unwrap(), states[5].0, "it is stored");
        assert_eq!(open(&place).said, Vec::<String>::new());
    }
}

/// Where the days cannot be put, saves go on and no second day is closed.
#[test]
fn no_place_for_days() {
    let folder = Folder::new("days");
    let place = folder.join("box");
    let states = five_saves(&place);
    let list = &states[5].1;
    fs::write(place.join("days"), b"somebody's file").unwrap();
    let mut store = Store::write(&place, &Native).unwrap();
    let name = store.close_day(list).unwrap();
    let said =
        |store: &Store| store.said.len() == 1 && store.said[0].contains("cannot be put into");
    assert!(said(&store), "{:?}", store.said);
    drop(store);
    assert!(said(&open(&place)));
    let mut store = Store::write(&place, &Native).unwrap();
    assert!(said(&store));
    store.save(1, list.record(2)).unwrap();
    let list = store.filing().clone();
    let trouble = store.close_day(&list).unwrap_err().to_string();
    assert!(trouble.contains("nothing is changed"), "{trouble}");
    drop(store);
    assert_eq!(open(&place).saves(), 1);
    fs::remove_file(place.join("days")).unwrap();
    assert_eq!(open(&place).said, [format!("the day before is put into days/{name}")]);
    assert_eq!(open(&place.join("days").join(name)).saves(), 5);
    Store::write(&place, &Native).unwrap().close_day(&list).unwrap();
    assert_eq!(fs::read_dir(place.join("days")).unwrap().count(), 2);
}

/// A step of `new` fails: there is a store, or nothing, and that is said.
fn failing_new(place: &Path, disk: &Failing) {
    let done = make(place, &filing(6), disk);
    let is_there = place.join("state").exists();
    match done {
        Ok(()) => assert!(is_there),
        Err(trouble) => {
            let said = trouble.to_string();
            assert_eq!(place.exists(), is_there, "{said}");
            assert_eq!(!is_there, said.contains("nothing is changed"), "{said}");
        }
    }
    if !is_there {
        store_of(place, 6);
    }
}

/// A step of a change fails: where it is said that nothing is changed, nothing is.
fn failing_change(place: &Path, disk: &Failing, change: fn(&mut Store) -> Outcome<()>) {
    five_saves(place);
    let list = open(place).filing().clone();
    let done = change(&mut Store::write(place, disk).unwrap());
    let Err(trouble) = done else {
        assert_ne!(open(place).saves(), 5, "it was done");
        return;
    };
    let said = trouble.to_string();
    assert!(said.contains("cannot be written: no storage space"), "{said}");
    if said.contains("nothing is changed") {
        assert_eq!((open(place).saves(), open(place).filing()), (5, &list), "{said}");
        assert!(!place.join("day-2").exists(), "{said}");
    }
}

/// A save of a station.
fn save(store: &mut Store) -> Outcome<()> {
    let record = store.filing().record(3).to_vec();
    store.save(1, &record).map(|_| ())
}

/// The end of a day.
fn close_day(store: &mut Store) -> Outcome<()> {
    let list = store.filing().clone();
    store.close_day(&list).map(|_| ())
}

/// A disk that is full: whatever step fails, nothing is changed or all is, what is said is so, and
/// all goes on when there is room again.
#[test]
fn a_step_that_fails() {
    let folder = Folder::new("full");
    let place = folder.join("box");
    let tried: [fn(&Path, &Failing); 3] = [
        failing_new,
        |place, disk| failing_change(place, disk, save),
        |place, disk| failing_change(place, disk, close_day),
    ];
    for (tried, for_good) in tried.into_iter().flat_map(|tried| [(tried, false), (tried, true)]) {
        let mut step = 1;
        loop {
            let disk = Failing::at(step, for_good);
            tried(&place, &disk);
            let before = open(&place).saves();
            save(&mut Store::write(&place, &Native).unwrap()).unwrap();
            assert_eq!(open(&place).saves(), before + 1);
            fs::remove_dir_all(&place).unwrap();
            if !disk.has_failed() {
                break;
            }
            step += 1;
        }
        assert!(step > 5, "only {step} steps failed");
    }
}
