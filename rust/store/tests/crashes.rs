//! A run that is ended before, in the middle of, or after any of its steps leaves a store that
//! opens, with every save that was acknowledged, and of the one in hand all or nothing.

mod common;

use std::ffi::OsString;
use std::path::{Path, PathBuf};
use std::process::{Command, Stdio};
use std::{env, fs};

use common::disks::{Stopping, Unsynced, ALL, STOPPED};
use common::{filing, header, open, station, store_of, Folder};
use desk::MAX_LINE_LENGTH;
use store::commands;
use store::disk::Native;
use store::store::Store;
use store::sums;

/// The variables in which a run that is to end finds its folder, its step and what is forgotten.
const FOLDER: &str = "STORE_TEST_FOLDER";
const STEP: &str = "STORE_TEST_STEP";
const UNSYNCED: &str = "STORE_TEST_UNSYNCED";
const SCRIPT: &str = "STORE_TEST_SCRIPT";

/// The commands of a run: each kind of change, and saves that are good, bad and a header's.
const SCRIPTS: [&[&str]; 2] = [
    &[
        "new box filing",
        "save box 1 good",
        "save box 2 bad",
        "save box 0 header",
        "day box",
        "save box 3 good",
        "file-list --yes --fewer box list",
        "save box 1 bad",
        "set box 2 power -5.5",
        "day box",
    ],
    // One save on a store that is there.
    &["save box 1 good"],
];

/// Runs a command in a folder, as the program does; its words are names in that folder.
fn run(folder: &Path, command: &str, disk: &dyn store::disk::Disk) {
    let places = ["box", "filing", "good", "bad", "header", "list"];
    let words = command.split(' ').map(|word| match places.contains(&word) {
        true => folder.join(word).into_os_string(),
        false => OsString::from(word),
    });
    let _ = commands::run(words, disk);
}

/// The files that the commands name.
fn files(folder: &Path) {
    let list: Vec<u8> = (1..=4).flat_map(|number| line(&station(3, number, "LISTED"))).collect();
    let files = [
        ("filing", filing(6).bytes().to_vec()),
        ("good", station(2, 22, "A GOOD ONE")),
        ("bad", vec![b'7'; 219]),
        ("header", header(5, "ANOTHER")),
        ("list", list),
    ];
    for (name, bytes) in files {
        fs::write(folder.join(name), bytes).unwrap();
    }
}

fn line(record: &[u8]) -> Vec<u8> {
    let mut line = vec![0; MAX_LINE_LENGTH];
    let length = desk::list_out(record, &mut line).unwrap();
    line.truncate(length);
    line
}

/// Not a test of its own: the run that ends at a step, where one is named. What was acknowledged is
/// counted in a file.
#[test]
fn ends_where_it_is_told() {
    let word = |name| env::var(name).ok().and_then(|text| text.parse::<usize>().ok());
    let (Some(folder), Some(step)) = (env::var_os(FOLDER), word(STEP)) else {
        return;
    };
    let folder = PathBuf::from(folder);
    let disk = Stopping::at(step, ALL[word(UNSYNCED).unwrap()]);
    for (index, command) in SCRIPTS[word(SCRIPT).unwrap()].iter().enumerate() {
        run(&folder, command, &disk);
        fs::write(folder.join("acknowledged"), (index + 1).to_string()).unwrap();
    }
}

/// Runs a script in a process of its own up to a step; answers whether it was ended there, and how
/// many of its commands were acknowledged.
fn run_to(folder: &Path, script: usize, step: usize, unsynced: usize) -> (bool, usize) {
    let _ = fs::remove_file(folder.join("acknowledged"));
    let ended = Command::new(env::current_exe().unwrap())
        .args(["--exact", "ends_where_it_is_told"])
        .env(FOLDER, folder)
        .env(STEP, step.to_string())
        .env(UNSYNCED, unsynced.to_string())
        .env(SCRIPT, script.to_string())
        .stdin(Stdio::null())
        .output()
        .unwrap();
    let code = ended.status.code();
    let said = String::from_utf8_lossy(&ended.stdout);
    assert!(code == Some(STOPPED) || code == Some(0), "step {step}: {said}");
    let acknowledged = fs::read_to_string(folder.join("acknowledged")).unwrap_or_default();
    (code == Some(STOPPED), acknowledged.parse().unwrap_or(0))
}

/// What is in a store: the list, and the saves of each day that it keeps and of today, by their
/// sums.
#[derive(Debug, PartialEq, Eq)]
struct Held {
    list: u64,
    saves: Vec<(usize, u64)>,
}

fn held(folder: &Path) -> Held {
    let sum = |bytes: &[u8]| sums::more(sums::NOTHING, bytes);
    let list = sum(open(folder).filing().bytes());
    let mut days: Vec<_> = fs::read_dir(folder.join("days"))
        .map(|days| days.map(|day| day.unwrap().path()).collect())
        .unwrap_or_default();
    days.sort();
    days.push(folder.to_path_buf());
    let counted = |day: &PathBuf| {
        let saves = open(day).day().unwrap().saves;
        (saves.len(), sum(&saves))
    };
    Held { list, saves: days.iter().map(counted).collect() }
}

/// Walks a script: for each step it is ended there, and what is left is one of two states.
fn walk(unsynced: Unsynced) {
    let kind = ALL.iter().position(|&kind| kind == unsynced).unwrap();
    let whole = Folder::new(&format!("whole-{kind}"));
    files(&whole.0);
    let mut states = vec![None];
    for command in SCRIPTS[0] {
        run(&whole.0, command, &Native);
        states.push(Some(held(&whole.join("box"))));
    }
    let mut step = 1;
    loop {
        let folder = Folder::new(&format!("walk-{kind}"));
        files(&folder.0);
        let (stopped, acknowledged) = run_to(&folder.0, 0, step, kind);
        let place = folder.join("box");
        let when = format!("{unsynced:?}, step {step}, {acknowledged} acknowledged");
        if place.join("state").exists() {
            let found = Some(held(&place));
            let may_be = &states[acknowledged..states.len().min(acknowledged + 2)];
            assert!(may_be.contains(&found), "{when}: {found:?}");
        } else {
            assert_eq!(acknowledged, 0, "{when}: the store is gone");
            run(&folder.0, SCRIPTS[0][0], &Native);
        }
        // What was found is settled, and all goes on.
        assert_eq!(open(&place).said, Vec::<String>::new(), "{when}");
        let before = open(&place).saves();
        run(&folder.0, "save box 3 good", &Native);
        assert_eq!(open(&place).saves(), before + 1, "{when}");
        run(&folder.0, "day box", &Native);
        assert_eq!(open(&place).saves(), 0, "{when}");
        if !stopped {
            assert_eq!(acknowledged, SCRIPTS[0].len());
            break;
        }
        step += 1;
    }
    println!("unsynced {unsynced:?}: a run of ten commands ended at {} moments", step - 1);
    assert!(step > 100, "only {step} steps were walked");
}

#[test]
fn killed_at_every_step() {
    walk(Unsynced::Stays);
}

#[test]
fn power_cut_at_every_step() {
    walk(Unsynced::IsLost);
}

#[test]
fn power_cut_at_every_step_with_lengths_kept() {
    walk(Unsynced::IsZeros);
}

#[test]
fn power_cut_at_every_step_with_some_kept() {
    for way in 0..3 {
        walk(Unsynced::IsMixed(way));
    }
}

/// One store through some hundred saves, each ended at the next step of all that a save has.
#[test]
fn some_hundred_saves_on_one_store() {
    let folder = Folder::new("hundred");
    files(&folder.0);
    let place = folder.join("box");
    store_of(&place, 6);
    let (mut saves, mut ends, mut step) = (0, 0, 1);
    while ends < 300 {
        let kind = ends % ALL.len();
        let (stopped, acknowledged) = run_to(&folder.0, 1, step, kind);
        let found = open(&place).saves();
        assert!(found == saves + acknowledged || found == saves + 1, "step {step}, {kind}");
        saves = found;
        ends += 1;
        step = if stopped { step + usize::from(kind == ALL.len() - 1) } else { 1 };
    }
    assert!(saves > 50, "only {saves} saves came through");
    assert_eq!(Store::read(&place, &Native).unwrap().said, Vec::<String>::new());
}
