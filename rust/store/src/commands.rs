//! The commands: what each is asked, does and prints, and how it ends.

use std::ffi::{OsStr, OsString};
use std::path::Path;
use std::process::ExitCode;

use desk::{Refusal, RECORD_LENGTH, SAVE_LENGTH};
use owners::asked::{self, Asked};
use owners::filings::{quoted, Filing};
use owners::programs::{can_hold, help, offered, put, refused, told, write};
use owners::rules;
use owners::status::{Outcome, Trouble};

use crate::disk::Disk;
use crate::log::parts;
use crate::making::make;
use crate::store::{Day, Store};
use crate::words;

/// The tool whose first lines say how each command is used.
const TOOL: &str = include_str!("../../../tools/store");

/// A command: its name, its options and what it does.
struct Command {
    name: &'static str,
    options: &'static [&'static str],
    act: fn(&Asked, &dyn Disk) -> Outcome<()>,
}

const COMMANDS: &[Command] = &[
    Command { name: "new", options: &[], act: new },
    Command { name: "report", options: &[], act: report },
    Command { name: "explain", options: &[], act: hand_out },
    Command { name: "operators", options: &[], act: hand_out },
    Command { name: "list", options: &[], act: hand_out },
    Command { name: "save", options: &["--line"], act: save },
    Command { name: "set", options: &[], act: set },
    Command { name: "show", options: &[], act: show },
    Command { name: "file-list", options: &["--yes", "--fewer"], act: file_list },
    Command { name: "export", options: &[], act: export },
    Command { name: "saves", options: &[], act: saves },
    Command { name: "again", options: &[], act: again },
    Command { name: "day", options: &[], act: day },
];

/// Runs the command that the first word names.
pub fn run(words: impl Iterator<Item = OsString>, disk: &dyn Disk) -> ExitCode {
    let mut words = words.peekable();
    let name = words.next().unwrap_or_default();
    let name = name.to_string_lossy();
    let done = match COMMANDS.iter().find(|command| command.name == name) {
        Some(command) => {
            Asked::parse(values_last(words), command.options).and_then(|asked| match asked.help {
                true => put(help(TOOL).as_bytes()),
                false => (command.act)(&asked, disk),
            })
        }
        None if name == "-h" || name == "--help" => put(help(TOOL).as_bytes()),
        None if name.is_empty() => Err(Trouble::Wrong("no command is named".to_string())),
        None => Err(Trouble::Wrong(format!("there is no command {name}"))),
    };
    let Err(trouble) = done else {
        return ExitCode::SUCCESS;
    };
    match &trouble {
        Trouble::Wrong(why) => eprintln!("store: {why}; usage: {}", usage(&name)),
        why => eprintln!("store: {why}"),
    }
    trouble.status()
}

/// How a command is used, as its line of the tool says; where there is no such command, how any is.
fn usage(name: &str) -> String {
    let help = help(TOOL);
    let of = |start: &str| {
        let line = help.lines().map(|line| line.trim_start_matches("usage: ").trim_start());
        line.filter_map(|line| line.split("  ").next()).find(|line| line.starts_with(start))
    };
    let own = of(&format!("tools/store {name} ")).or_else(|| of("tools/store "));
    own.unwrap_or("").to_string()
}

/// The words with `--` before a number below zero, so that it is taken for a value.
fn values_last(words: impl Iterator<Item = OsString>) -> Vec<OsString> {
    let is_value = |word: &OsString| {
        let digits = word.as_encoded_bytes().strip_prefix(b"-");
        digits.is_some_and(|digits| digits.first().is_some_and(u8::is_ascii_digit))
    };
    let mut words: Vec<OsString> = words.collect();
    if let Some(place) = words.iter().position(is_value) {
        words.insert(place, "--".into());
    }
    words
}

/// The words of a command, where there are as many as it takes.
fn words_of<const N: usize>(asked: &Asked) -> Outcome<[&OsStr; N]> {
    let words: Vec<&OsStr> = asked.files.iter().map(|word| word.as_os_str()).collect();
    <[&OsStr; N]>::try_from(words).map_err(|words| {
        Trouble::Wrong(match words.get(N) {
            Some(word) => format!("{} is a word too many", word.to_string_lossy()),
            None => format!("{} of {N} words are there", words.len()),
        })
    })
}

/// A number of records or saves.
fn number(word: &OsStr) -> Outcome<usize> {
    let text = word.to_string_lossy();
    let wrong = || Trouble::Wrong(format!("{text} is no number"));
    match text.bytes().all(|byte| byte.is_ascii_digit()) {
        true => text.parse().map_err(|_| wrong()),
        false => Err(wrong()),
    }
}

/// Says what was not as it should be when a store was opened.
fn say(folder: &OsStr, store: &Store) {
    for words in &store.said {
        eprintln!("store: {}: {words}", Path::new(folder).display());
    }
}

/// A store to be read.
fn read<'d>(folder: &OsStr, disk: &'d dyn Disk) -> Outcome<Store<'d>> {
    let store = Store::read(Path::new(folder), disk)?;
    say(folder, &store);
    Ok(store)
}

/// A store to be changed.
fn change<'d>(folder: &OsStr, disk: &'d dyn Disk) -> Outcome<Store<'d>> {
    let store = Store::write(Path::new(folder), disk)?;
    say(folder, &store);
    Ok(store)
}

/// How a report ends: clean, or with something bad in it.
fn judged(filing: &Filing) -> Outcome<()> {
    match (filing.stations(), filing.header_code(), filing.bad()) {
        (0, _, _) => Err(Trouble::Refused("there is no station".to_string())),
        (_, 0, 0) => Ok(()),
        _ => Err(Trouble::Refused("something is bad, as the report says".to_string())),
    }
}

/// Makes a store from a filing, and prints its report.
fn new(asked: &Asked, disk: &dyn Disk) -> Outcome<()> {
    let [folder, path] = words_of(asked)?;
    let filing = Filing::read(Path::new(path))?;
    make(Path::new(folder), &filing, disk)?;
    put(filing.report().as_bytes())?;
    let name = Path::new(folder).display();
    eprintln!("store: {name} is made, {} stations", filing.stations());
    judged(&filing)
}

/// Prints the report of the stored sheet.
fn report(asked: &Asked, disk: &dyn Disk) -> Outcome<()> {
    let [folder] = words_of(asked)?;
    let store = read(folder, disk)?;
    put(store.filing().report().as_bytes())?;
    judged(store.filing())
}

/// The stored list, which tools/store hands to the proved program that prints what was asked.
fn hand_out(asked: &Asked, disk: &dyn Disk) -> Outcome<()> {
    let [folder] = words_of(asked)?;
    put(read(folder, disk)?.filing().bytes())
}

/// Saves a record, from a file or from a line.
fn save(asked: &Asked, disk: &dyn Disk) -> Outcome<()> {
    let [folder, station, given] = words_of(asked)?;
    let station = number(station)?;
    let record = match asked.has("--line") {
        true if station == 0 => {
            return Err(Trouble::Wrong("a line is a station's, and 0 is the header".to_string()))
        }
        true => record_of(given.as_encoded_bytes())?,
        false => asked::read(Path::new(given))?,
    };
    stored(&mut change(folder, disk)?, station, &record)
}

/// The record that a line makes; where it is refused, why is said.
fn record_of(line: &[u8]) -> Outcome<Vec<u8>> {
    let line = [line.strip_suffix(b"\n").unwrap_or(line), b"\n"].concat();
    let mut record = vec![0; RECORD_LENGTH];
    match desk::list_in(&line, &mut record) {
        Ok(()) => Ok(record),
        Err(refusal) => {
            eprint!("{}", told(1, &line, refusal));
            Err(refused("the line is refused"))
        }
    }
}

/// Saves a record, and prints how many rows were written and how its own stands then.
fn stored(store: &mut Store, station: usize, record: &[u8]) -> Outcome<()> {
    let rows = store.save(station, record)?;
    let filing = store.filing();
    let (verdict, is_bad) = match station {
        0 => (format!("header {}\n", filing.header_code()), filing.header_code() != 0),
        _ => (filing.row(station), filing.is_bad(station)),
    };
    put(format!("rows {rows}\n{verdict}").as_bytes())?;
    match is_bad {
        true => Err(Trouble::Refused("it is saved, and bad".to_string())),
        false => Ok(()),
    }
}

/// A call that sets a value of a record, or makes it blank.
type Setter = fn(&mut [u8], Option<i64>) -> Result<(), Refusal>;

/// The values that can be set: the name, the setter, and whether it counts tenths.
const SETTERS: [(&str, Setter, bool); 5] = [
    ("power", desk::set_power, true),
    ("azimuth", desk::set_azimuth, true),
    ("elevation", desk::set_elevation, true),
    ("height", desk::set_height, false),
    ("ground", set_ground, false),
];

/// Sets the height above ground, which is never blank: rule 21 is broken then.
fn set_ground(record: &mut [u8], metres: Option<i64>) -> Result<(), Refusal> {
    metres.map_or(Err(Refusal::RuleBroken { code: 21 }), |metres| desk::set_ground(record, metres))
}

/// Sets one value of a station, and saves the record that this makes.
fn set(asked: &Asked, disk: &dyn Disk) -> Outcome<()> {
    let [folder, station, what, value] = words_of(asked)?;
    let station = number(station)?;
    let what = what.to_string_lossy();
    let Some((_, setter, tenths)) = SETTERS.iter().find(|(name, ..)| *name == what) else {
        return Err(Trouble::Wrong(format!("{what} cannot be set")));
    };
    if station == 0 {
        return Err(Trouble::Wrong(format!("0 is the header, which has no {what}")));
    }
    let value = value_of(&value.to_string_lossy(), *tenths)?;
    let mut store = change(folder, disk)?;
    if station > store.filing().stations() {
        return Err(refused(&words::broken(Refusal::NoSuchRecord)));
    }
    let mut record = store.filing().record(station).to_vec();
    setter(&mut record, value).map_err(|refusal| refused(&words::broken(refusal)))?;
    stored(&mut store, station, &record)
}

/// What a typed value says, in tenths or whole; none for `blank`.
fn value_of(text: &str, tenths: bool) -> Outcome<Option<i64>> {
    if text == "blank" {
        return Ok(None);
    }
    let wrong = || {
        let form = if tenths { "a number with at most one digit behind a point" } else { "whole" };
        Trouble::Wrong(format!("{text} is not {form}, nor blank"))
    };
    let digits = text.strip_prefix(['-', '+']).unwrap_or(text);
    let (whole, part) = match digits.split_once('.') {
        Some((whole, part)) if tenths && part.len() == 1 => (whole, part),
        None => (digits, if tenths { "0" } else { "" }),
        _ => return Err(wrong()),
    };
    let all = format!("{whole}{part}");
    if whole.is_empty() || !all.bytes().all(|byte| byte.is_ascii_digit()) {
        return Err(wrong());
    }
    let count: i64 = all.parse().map_err(|_| wrong())?;
    Ok(Some(if text.starts_with('-') { -count } else { count }))
}

/// Prints the bytes of a field.
fn show(asked: &Asked, disk: &dyn Disk) -> Outcome<()> {
    let [folder, record, field] = words_of(asked)?;
    let record = number(record)?;
    let text = field.to_string_lossy();
    let named = |&number: &usize| record > 0 && rules::station_name(number) == text;
    let field = match (1..=rules::STATION_FIELDS).find(named) {
        Some(field) => field,
        None => number(field)?,
    };
    let store = read(folder, disk)?;
    match desk::show(store.filing().bytes(), record, field) {
        Ok(bytes) => put(format!("{}\n", quoted(bytes)).as_bytes()),
        Err(refusal) => Err(Trouble::Refused(words::broken(refusal))),
    }
}

/// Files a whole list, its changes shown first; the day is closed.
fn file_list(asked: &Asked, disk: &dyn Disk) -> Outcome<()> {
    let [folder, path] = words_of(asked)?;
    let (place, list) = (Path::new(folder), Path::new(path));
    if list == Path::new("-") && !asked.has("--yes") {
        return Err(Trouble::Wrong("a list on standard input needs --yes".to_string()));
    }
    // Nobody waits while the question stands.
    let old = read(folder, disk)?.filing().clone();
    let new = offered(asked, &old, place, &asked::read(list)?, place)?;
    let mut store = change(folder, disk)?;
    if store.filing() != &old {
        return Err(refused(&format!("{} has changed meanwhile", place.display())));
    }
    closed(&mut store, &new, folder)?;
    eprintln!("store: {} is written, {} stations", place.display(), new.stations());
    judged(&new)
}

/// Closes the day; the list goes on.
fn day(asked: &Asked, disk: &dyn Disk) -> Outcome<()> {
    let [folder] = words_of(asked)?;
    let mut store = change(folder, disk)?;
    let list = store.filing().clone();
    closed(&mut store, &list, folder)
}

/// Closes the day, and prints how many saves are kept and where.
fn closed(store: &mut Store, next: &Filing, folder: &OsStr) -> Outcome<()> {
    let saves = store.saves();
    store.said.clear();
    let name = store.close_day(next)?;
    say(folder, store);
    put(format!("saves {saves} kept days/{name}\n").as_bytes())
}

/// Writes the list to a file.
fn export(asked: &Asked, disk: &dyn Disk) -> Outcome<()> {
    let [folder, path] = words_of(asked)?;
    let path = Path::new(path);
    if path == Path::new("-") {
        return put(read(folder, disk)?.filing().bytes());
    }
    can_hold(path)?;
    let folder_of = path.parent().filter(|folder| !folder.as_os_str().is_empty());
    let place = folder_of.unwrap_or(Path::new(".")).canonicalize();
    if let (Ok(place), Ok(own)) = (place, Path::new(folder).canonicalize()) {
        if place.starts_with(own) {
            return Err(Trouble::Wrong(format!("{} is inside the store", path.display())));
        }
    }
    let store = read(folder, disk)?;
    write(path, store.filing().bytes())?;
    eprintln!("store: {} is written, {} stations", path.display(), store.filing().stations());
    Ok(())
}

/// Prints the day's saves, a line for each.
fn saves(asked: &Asked, disk: &dyn Disk) -> Outcome<()> {
    let [folder] = words_of(asked)?;
    let (store, Day { saves, .. }) = Store::read_day(Path::new(folder), disk)?;
    say(folder, &store);
    let mut text = String::new();
    for (index, save) in saves.chunks(SAVE_LENGTH).enumerate() {
        let (number, record) = parts(save);
        let (whose, checked) = match number {
            0 => ("header".to_string(), desk::check_header(record)),
            _ => (format!("station {number}"), desk::check_station(record)),
        };
        let code = match checked {
            Err(Refusal::RuleBroken { code }) => code,
            _ => 0,
        };
        text += &format!("save {} {whose} code {code}\n", index + 1);
    }
    text += &format!("saves {}\n", saves.len() / SAVE_LENGTH);
    put(text.as_bytes())
}

/// Runs the day's first saves again, and prints what they left.
fn again(asked: &Asked, disk: &dyn Disk) -> Outcome<()> {
    let mut words = asked.files.iter().map(|word| word.as_os_str());
    let folder = words.next().ok_or_else(|| Trouble::Wrong("no store is named".to_string()))?;
    let wanted = words.next().map(number).transpose()?;
    if let Some(word) = words.next() {
        return Err(Trouble::Wrong(format!("{} is a word too many", word.to_string_lossy())));
    }
    let (store, mut day) = Store::read_day(Path::new(folder), disk)?;
    say(folder, &store);
    let all = store.saves();
    let wanted = wanted.unwrap_or(all);
    if wanted > all {
        return Err(Trouble::Refused(format!("the day has {all} saves, not {wanted}")));
    }
    let told = day.morning.replay(&day.saves[..wanted * SAVE_LENGTH]);
    let stopped = told.stopped.unwrap_or(0);
    let counts = format!("saves {} refused {} stopped {stopped}\n", told.accepted, told.refused);
    put(counts.as_bytes())?;
    put(day.morning.report().as_bytes())?;
    if wanted == all && &day.morning != store.filing() {
        let why = "is damaged: the day's saves do not lead to its list";
        return Err(Trouble::Unusable(format!("{} {why}", Path::new(folder).display())));
    }
    judged(&day.morning)
}
