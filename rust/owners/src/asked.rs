//! What a program was asked on its command line.

use std::ffi::{OsStr, OsString};
use std::fs::File;
use std::io::{self, Read};
use std::path::{Path, PathBuf};

use crate::status::{Outcome, Trouble};

/// The most bytes of a list that are read; one of 298 stations has at most 74,202.
const MOST: u64 = 16 << 20;

/// The words of a command line: options of the program's own, and files.
#[derive(Debug, Default, PartialEq, Eq)]
pub struct Asked {
    /// Whether help was asked for.
    pub help: bool,
    options: Vec<&'static str>,
    /// The files, in their order.
    pub files: Vec<PathBuf>,
}

impl Asked {
    /// Sorts the words; behind `--` all are files, and `-` alone is one.
    pub fn parse(
        words: impl IntoIterator<Item = OsString>,
        known: &[&'static str],
    ) -> Outcome<Asked> {
        let mut asked = Asked::default();
        let mut files_only = false;
        for word in words {
            let option = known.iter().find(|option| OsStr::new(option) == word);
            if files_only || word == "-" || !word.as_encoded_bytes().starts_with(b"-") {
                asked.files.push(word.into());
            } else if word == "--" {
                files_only = true;
            } else if word == "-h" || word == "--help" {
                asked.help = true;
            } else if let Some(option) = option {
                asked.options.push(option);
            } else {
                let why = format!("there is no option {}", word.to_string_lossy());
                return Err(Trouble::Wrong(why));
            }
        }
        Ok(asked)
    }

    /// Whether an option was given.
    pub fn has(&self, option: &str) -> bool {
        self.options.contains(&option)
    }

    /// The files, where there are as many as the program takes.
    pub fn exactly<const N: usize>(&self) -> Outcome<[&Path; N]> {
        let files: Vec<&Path> = self.files.iter().map(PathBuf::as_path).collect();
        <[&Path; N]>::try_from(files).map_err(|files| {
            Trouble::Wrong(match files.get(N) {
                Some(word) => format!("{} is a word too many", word.display()),
                None => format!("{} of {N} files are named", files.len()),
            })
        })
    }
}

/// A file, or standard input where it is `-`, to be read in parts.
pub fn open(path: &Path) -> Outcome<Box<dyn Read>> {
    if path == Path::new("-") {
        return Ok(Box::new(io::stdin()));
    }
    let trouble = |error: io::Error| Trouble::unreadable(path, plain(&error));
    let file = File::open(path).map_err(trouble)?;
    match file.metadata().map_err(trouble)?.is_dir() {
        true => Err(Trouble::unreadable(path, "it is a directory")),
        false => Ok(Box::new(file)),
    }
}

/// All bytes of a file, or of standard input where it is `-`.
pub fn read(path: &Path) -> Outcome<Vec<u8>> {
    let mut bytes = Vec::new();
    let got = open(path)?.take(MOST + 1).read_to_end(&mut bytes);
    let got = got.map_err(|error| Trouble::unreadable(path, plain(&error)))?;
    if got as u64 > MOST {
        return Err(Trouble::unreadable(path, format!("it has more than {MOST} bytes")));
    }
    Ok(bytes)
}

/// What went wrong, in words and without the system's number.
pub fn plain(error: &io::Error) -> String {
    match error.kind() {
        io::ErrorKind::NotFound => "there is no such file".to_string(),
        io::ErrorKind::PermissionDenied => "it is not permitted".to_string(),
        _ => {
            let text = error.to_string();
            text.split(" (os error").next().unwrap_or(&text).to_lowercase()
        }
    }
}

#[cfg(test)]
mod tests {
    use super::*;

    fn asked(words: &[&str]) -> Outcome<Asked> {
        Asked::parse(words.iter().map(OsString::from), &["--yes", "--fewer"])
    }

    #[test]
    fn words_are_sorted() {
        let all = asked(&["--yes", "my filing", "--", "--fewer", "-"]).unwrap();
        assert!(all.has("--yes") && !all.has("--fewer") && !all.help);
        assert_eq!(all.exactly(), Ok(["my filing", "--fewer", "-"].map(Path::new)));
        assert!(asked(&["-h"]).unwrap().help);
    }

    #[test]
    fn wrong_words_are_refused() {
        let why = |words: &[&str]| {
            asked(words).and_then(|asked| asked.exactly::<1>().map(|_| ())).unwrap_err().to_string()
        };
        assert_eq!(why(&["--no"]), "there is no option --no");
        assert_eq!(why(&["-x"]), "there is no option -x");
        assert_eq!(why(&["a", "b"]), "b is a word too many");
        assert_eq!(why(&[]), "0 of 1 files are named");
    }
}
