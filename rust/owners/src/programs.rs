//! The programs: what each is asked, does and prints, and how it ends.

use std::ffi::OsString;
use std::fs;
use std::io::{self, BufRead, Write};
use std::os::unix::fs::MetadataExt;
use std::path::Path;
use std::process::ExitCode;

use desk::{Finding, LongField, Refusal, RECORD_LENGTH};

use crate::asked::{self, plain, read, Asked};
use crate::carriages;
use crate::changes::Changes;
use crate::cleaning::clean;
use crate::days;
use crate::filings::Filing;
use crate::lists::{lines, take_in};
use crate::rules;
use crate::saving::save;
use crate::sheets;
use crate::status::{Outcome, Trouble};
use crate::words::{explain, kind_words};

/// A program: its name, its options, the tool whose first lines say how it is used, and what it
/// does.
struct Program {
    name: &'static str,
    options: &'static [&'static str],
    usage: &'static str,
    act: fn(&Asked) -> Outcome<()>,
}

/// What a program does, as its tool's first lines say.
pub fn help(tool: &str) -> String {
    let lines = tool.lines().skip_while(|line| line.starts_with("#!"));
    let said = lines.map_while(|line| line.strip_prefix('#'));
    said.map(|line| format!("{}\n", line.strip_prefix(' ').unwrap_or(line))).collect()
}

const PROGRAMS: &[Program] = &[
    Program {
        name: "file_list",
        options: &["--yes", "--fewer"],
        usage: include_str!("../../../tools/file_list"),
        act: file_list,
    },
    Program {
        name: "changes",
        options: &[],
        usage: include_str!("../../../tools/changes"),
        act: changes,
    },
    Program {
        name: "clean_list",
        options: &[],
        usage: include_str!("../../../tools/clean_list"),
        act: clean_list,
    },
    Program {
        name: "filing",
        options: &[],
        usage: include_str!("../../../tools/filing"),
        act: filing,
    },
    Program {
        name: "verify",
        options: &[],
        usage: include_str!("../../../tools/verify"),
        act: verify,
    },
    Program {
        name: "carriages",
        options: &["--records"],
        usage: include_str!("../../../tools/carriages"),
        act: carriages,
    },
    Program {
        name: "replay",
        options: &[],
        usage: include_str!("../../../tools/replay"),
        act: replay,
    },
    Program {
        name: "titles",
        options: &[],
        usage: "# usage: owners titles\n",
        act: |asked| asked.exactly::<0>().and_then(|_| put(rules::titles().as_bytes())),
    },
    Program { name: "words", options: &[], usage: "# usage: owners words LIST\n", act: words },
];

/// Runs a program by its name.
pub fn run(name: &str, words: impl Iterator<Item = OsString>) -> ExitCode {
    let Some(program) = PROGRAMS.iter().find(|program| program.name == name) else {
        eprintln!("owners: there is no program {name}");
        return ExitCode::from(2);
    };
    let asked = match Asked::parse(words, program.options) {
        Ok(asked) => asked,
        Err(trouble) => return end(program, trouble),
    };
    let done = if asked.help { put(help(program.usage).as_bytes()) } else { (program.act)(&asked) };
    match done {
        Ok(()) => ExitCode::SUCCESS,
        Err(trouble) => end(program, trouble),
    }
}

/// Says why a run ends, on one line.
fn end(program: &Program, trouble: Trouble) -> ExitCode {
    let help = help(program.usage);
    let usage = help.lines().find(|line| line.starts_with("usage: ")).unwrap_or("");
    match &trouble {
        Trouble::Wrong(why) => eprintln!("{}: {why}; {usage}", program.name),
        why => eprintln!("{}: {why}", program.name),
    }
    trouble.status()
}

/// Writes to standard output.
pub fn put(bytes: &[u8]) -> Outcome<()> {
    let mut out = io::stdout();
    let written = out.write_all(bytes).and_then(|()| out.flush());
    written.map_err(|error| {
        Trouble::Unusable(format!("standard output cannot be written: {}", plain(&error)))
    })
}

fn file_list(asked: &Asked) -> Outcome<()> {
    let [old_path, list_path, new_path] = asked.exactly()?;
    let input = Path::new("-");
    if old_path == input || new_path == input {
        return Err(Trouble::Wrong("OLD and NEW have to be files".to_string()));
    }
    if list_path == input && !asked.has("--yes") {
        return Err(Trouble::Wrong("a list on standard input needs --yes".to_string()));
    }
    can_hold(new_path)?;
    if same_file(list_path, new_path) {
        return Err(Trouble::Wrong("NEW is the list itself".to_string()));
    }
    let old = Filing::read(old_path)?;
    let new = offered(asked, &old, old_path, &read(list_path)?, new_path)?;
    if read(old_path)? != old.bytes() {
        return Err(refused(&format!("{} has changed meanwhile", old_path.display())));
    }
    write(new_path, new.bytes())?;
    eprintln!("file_list: {} is written, {} stations", new_path.display(), new.stations());
    match new.bad() {
        0 => Ok(()),
        bad => Err(Trouble::Refused(format!("{} bad, as the report says", are(bad)))),
    }
}

/// What a list makes of an old filing: its report and what changes are shown, and it is asked
/// whether to write.
pub fn offered(
    asked: &Asked,
    old: &Filing,
    old_path: &Path,
    list: &[u8],
    new_path: &Path,
) -> Outcome<Filing> {
    let new = listed(old, list)?;
    put(new.report().as_bytes())?;
    eprint!("{}", new.explained());
    if new.header_code() != 0 {
        return Err(refused("the header breaks a rule"));
    }
    let changes = Changes::between(old, &new);
    put(changes.text().as_bytes())?;
    if !asked.has("--fewer") && (changes.gone > 0 || new.stations() < old.stations()) {
        return Err(refused(&format!(
            "{} has {} stations, the list {}, and {} gone; --fewer files it all the same",
            old_path.display(),
            old.stations(),
            new.stations(),
            are(changes.gone)
        )));
    }
    if !asked.has("--yes") && !agreed(new_path)? {
        return Err(refused("the answer was not yes"));
    }
    Ok(new)
}

/// How many are, or that one is.
fn are(number: usize) -> String {
    format!("{number} {}", if number == 1 { "is" } else { "are" })
}

/// The filing that a list makes under an old header; each line that is refused is named.
fn listed(old: &Filing, list: &[u8]) -> Outcome<Filing> {
    let taken = take_in(list);
    for &(number, line, refusal) in &taken.refused {
        eprint!("{}", told(number, line, refusal));
    }
    match taken.refused.len() {
        0 if taken.records.is_empty() => Err(refused("the list has no line")),
        0 => old.with_records(&taken.records).map_err(|refusal| refused(&refusal.to_string())),
        lines => {
            let all = lines + taken.records.len() / RECORD_LENGTH;
            Err(refused(&format!("of the list's {all} lines {} refused", are(lines))))
        }
    }
}

/// A refusal before anything is written.
pub fn refused(why: &str) -> Trouble {
    Trouble::Refused(format!("nothing is written: {why}"))
}

/// A refused line's number, its refusal and the code that comes with it.
fn named(number: usize, refusal: Refusal) -> String {
    let code = match refusal {
        Refusal::RuleBroken { code } => format!(" code {code}"),
        _ => String::new(),
    };
    format!("line {number} refused {}{code}\n", refusal.number())
}

/// A refused line, as list_in names it, and words behind it.
pub fn told(number: usize, line: &[u8], refusal: Refusal) -> String {
    let mut text = named(number, refusal);
    text.pop();
    match refusal {
        Refusal::NotALine => {
            let marks = desk::line_marks(line);
            let ended = if marks.ended { "yes" } else { "no" };
            text += &format!(" semicolons {} line feed {ended}", marks.semicolons);
        }
        Refusal::FieldTooLong => {
            if let Some(LongField { number, length, most }) = desk::long_field(line) {
                let name = rules::station_name(number);
                text += &format!(" field {number} {name} length {length} most {most}");
            }
        }
        Refusal::RuleBroken { .. } => {
            if let Ok(Some((_, kind))) = desk::line_kind(line) {
                text += &format!(" {}", kind_words(kind));
            }
        }
        _ => (),
    }
    text + "\n" + &indented(number, line, refusal)
}

/// The words of a refusal, a line each.
fn indented(number: usize, line: &[u8], refusal: Refusal) -> String {
    explain(number, line, refusal).iter().map(|words| format!("    {words}\n")).collect()
}

/// Asks whether to write.
fn agreed(path: &Path) -> Outcome<bool> {
    let there = if path.exists() { "; what it holds now is replaced" } else { "" };
    eprint!("write {}{there}? [yes or no] ", path.display());
    let mut answer = String::new();
    let got = io::stdin().lock().read_line(&mut answer);
    got.map_err(|error| Trouble::unreadable(Path::new("the answer"), plain(&error)))?;
    if !answer.ends_with('\n') {
        eprintln!();
    }
    Ok(matches!(answer.trim().to_ascii_lowercase().as_str(), "yes" | "y"))
}

/// Whether a name can be that of a file that is written: not a folder or a device, and in a folder
/// that is there.
pub fn can_hold(path: &Path) -> Outcome<()> {
    let why = match fs::metadata(path) {
        Ok(there) if there.is_dir() => "it is a directory".to_string(),
        Ok(there) if !there.is_file() => "it is no file".to_string(),
        Ok(_) => return Ok(()),
        Err(error) if error.kind() != io::ErrorKind::NotFound => plain(&error),
        Err(_) if path.symlink_metadata().is_ok() => "it is a link that leads nowhere".to_string(),
        Err(_) => match path.parent() {
            _ if path.file_name().is_none() => "it is no file's name".to_string(),
            Some(folder) if !folder.as_os_str().is_empty() && !folder.is_dir() => {
                "there is no such folder".to_string()
            }
            _ => return Ok(()),
        },
    };
    Err(Trouble::Unusable(format!("{} cannot be written: {why}", path.display())))
}

/// Whether two names are those of one file.
fn same_file(one: &Path, other: &Path) -> bool {
    match (fs::metadata(one), fs::metadata(other)) {
        (Ok(one), Ok(other)) => (one.dev(), one.ino()) == (other.dev(), other.ino()),
        _ => false,
    }
}

/// Writes a file whole, or says why it could not.
pub fn write(path: &Path, bytes: &[u8]) -> Outcome<()> {
    let synced = save(path, bytes, &mut |_| ()).map_err(|error| {
        let why = plain(&error);
        let name = path.display();
        Trouble::Unusable(format!("{name} cannot be written: {why}; every file is as it was"))
    })?;
    if !synced {
        eprintln!("{} is written, but its folder could not be synced", path.display());
    }
    Ok(())
}

fn changes(asked: &Asked) -> Outcome<()> {
    let [old, new] = asked.exactly()?;
    let (old, new_path) = (Filing::read(old)?, new);
    let new = Filing::read(new_path)?;
    put(Changes::between(&old, &new).text().as_bytes())?;
    match new.stations() {
        0 => Err(Trouble::Refused(format!("{} has no station", new_path.display()))),
        _ => Ok(()),
    }
}

fn clean_list(asked: &Asked) -> Outcome<()> {
    let [list] = asked.exactly()?;
    let cleaned = clean(&read(list)?)?;
    for change in &cleaned.changes {
        eprintln!("{change}");
    }
    put(&cleaned.text)?;
    match cleaned.text.is_empty() {
        true => Err(Trouble::Refused("no row is left".to_string())),
        false => Ok(()),
    }
}

fn filing(asked: &Asked) -> Outcome<()> {
    let mut files = asked.files.iter().map(|file| file.as_path());
    let Some(header_path) = files.next() else {
        return Err(Trouble::Wrong("no filing is named".to_string()));
    };
    let records_path = files.next().unwrap_or(Path::new("-"));
    let new_path = files.next();
    if let Some(word) = files.next() {
        return Err(Trouble::Wrong(format!("{} is a word too many", word.display())));
    }
    if let Some(path) = new_path {
        can_hold(path)?;
    }
    let bytes = read(header_path)?;
    if bytes.len() < RECORD_LENGTH {
        let name = header_path.display();
        return Err(Trouble::Refused(format!(
            "{name} has no header of 219 bytes; was it emptied by > before this began?"
        )));
    }
    let header = Filing::new(bytes[..RECORD_LENGTH].to_vec())
        .map_err(|refusal| Trouble::Refused(refusal.to_string()))?;
    let records = read(records_path)?;
    if records.is_empty() || records.len() % RECORD_LENGTH != 0 {
        return Err(Trouble::Refused(format!("{} bytes are no records of 219", records.len())));
    }
    let new = header
        .with_records(&records)
        .map_err(|refusal| Trouble::Refused(format!("refused {}: {refusal}", refusal.number())))?;
    match new_path {
        Some(path) => write(path, new.bytes()),
        None => put(new.bytes()),
    }
}

fn verify(asked: &Asked) -> Outcome<()> {
    let [file_path, sheet_path] = asked.exactly()?;
    if [file_path, sheet_path] == [Path::new("-"); 2] {
        return Err(Trouble::Wrong("one of them has to be a file".to_string()));
    }
    let (file, sheet) = (read(file_path)?, read(sheet_path)?);
    let (file_name, sheet_name) = (file_path.display(), sheet_path.display());
    match desk::verify(&file, &sheet) {
        Ok(Finding::Right) => put(b"right\n"),
        Ok(Finding::WrongAt { offset }) => {
            let part = sheets::part(file.len() / RECORD_LENGTH - 1, offset);
            put(format!("wrong at {offset}: {part}\n").as_bytes())?;
            Err(Trouble::Refused(format!(
                "{sheet_name} is not the sheet that {file_name} is judged to"
            )))
        }
        Err(refusal) => {
            put(format!("refused {}\n", refusal.number()).as_bytes())?;
            Err(Trouble::Refused(sheets::why(&file, &sheet, refusal)))
        }
    }
}

fn carriages(asked: &Asked) -> Outcome<()> {
    let [path] = asked.exactly()?;
    let text = read(path)?;
    let depot = carriages::take_in(&text);
    for &(number, line, refusal) in &depot.refused {
        if number == 1 {
            eprint!("{}", told(number, line, refusal));
        } else {
            eprint!("{}", named(number, refusal));
            eprintln!("    {}", carriages::explain(line, refusal));
        }
    }
    let accepted = depot.records.len() / RECORD_LENGTH;
    match depot.refused.len() {
        0 if accepted == 0 => Err(Trouble::Refused("there is no carriage".to_string())),
        0 if asked.has("--records") => put(&depot.records),
        0 => {
            let list = carriages::listed(&depot.records);
            put(&list.map_err(|refusal| Trouble::Refused(refusal.to_string()))?)
        }
        lines => Err(Trouble::Refused(format!("nothing is printed: {} refused", are(lines)))),
    }
}

fn replay(asked: &Asked) -> Outcome<()> {
    let names: Vec<&Path> = asked.files.iter().map(|file| file.as_path()).collect();
    let (inputs, outputs) = names.split_at(names.len().min(2));
    let [morning, trace] = inputs[..] else {
        return Err(Trouble::Wrong(format!("{} of 2 files are named", inputs.len())));
    };
    if inputs == [Path::new("-"); 2] {
        return Err(Trouble::Wrong("one of them has to be a file".to_string()));
    }
    if let Some(word) = outputs.get(2) {
        return Err(Trouble::Wrong(format!("{} is a word too many", word.display())));
    }
    for (index, path) in outputs.iter().enumerate() {
        can_hold(path)?;
        let others = inputs.iter().chain(&outputs[..index]);
        if others.into_iter().any(|other| other == path || same_file(other, path)) {
            let name = path.display();
            return Err(Trouble::Wrong(format!("{name} is named twice, and is not written over")));
        }
    }
    let mut filing = Filing::read(morning)?;
    let day = days::run(&mut filing, asked::open(trace)?)
        .map_err(|error| Trouble::unreadable(trace, plain(&error)))?;
    let stopped = day.stopped.as_ref().map_or(0, |(number, _)| *number);
    put(format!("saves {} refused {} stopped {stopped}\n", day.accepted, day.refused).as_bytes())?;
    put(filing.report().as_bytes())?;
    if let Some(list) = outputs.first() {
        write(list, filing.bytes())?;
    }
    if let [list, sheet] = outputs {
        write(sheet, filing.sheet()).map_err(|trouble| {
            Trouble::Unusable(format!("{trouble}, but {} is written", list.display()))
        })?;
    }
    if let Some((number, save)) = &day.stopped {
        let why = days::why(save);
        return Err(Trouble::Refused(format!("save {number} {why}; the saves before it stand")));
    }
    match (day.refused, filing.header_code(), filing.bad()) {
        (0, 0, 0) => Ok(()),
        (0, _, _) => Err(Trouble::Refused("something is bad, as the report says".to_string())),
        (saves, _, _) => Err(Trouble::Refused(format!(
            "of the saves {} refused, with a number above {}",
            are(saves),
            filing.stations()
        ))),
    }
}

/// Behind each line of standard input that names a refused line of the list: why, in words.
fn words(asked: &Asked) -> Outcome<()> {
    let [list] = asked.exactly()?;
    let list = read(list)?;
    let list: Vec<&[u8]> = lines(&list).collect();
    for said in io::stdin().lock().lines() {
        let said = said.map_err(|error| Trouble::unreadable(Path::new("-"), plain(&error)))?;
        put(format!("{said}\n").as_bytes())?;
        let numbers: Vec<usize> = said.split(' ').filter_map(|word| word.parse().ok()).collect();
        if !said.starts_with("line ") || !said.contains(" refused ") {
            continue;
        }
        if let [number, named, ..] = numbers[..] {
            if let Some(line) = number.checked_sub(1).and_then(|index| list.get(index)) {
                let refusal = desk::list_in(line, &mut [0; RECORD_LENGTH])
                    .err()
                    .unwrap_or(Refusal::FileTooLong);
                if usize::from(refusal.number()) == named {
                    put(indented(number, line, refusal).as_bytes())?;
                }
            }
        }
    }
    Ok(())
}
