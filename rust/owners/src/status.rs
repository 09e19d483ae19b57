//! How a run ends: its exit status, and why.

use std::fmt;
use std::path::Path;
use std::process::ExitCode;

/// Why a run did not end all clean.
#[derive(Debug, PartialEq, Eq)]
pub enum Trouble {
    /// Something is bad or refused: status 1.
    Refused(String),
    /// A file cannot be read or written: status 2.
    Unusable(String),
    /// The words of the call are wrong: status 2.
    Wrong(String),
}

impl Trouble {
    /// A file that cannot be read.
    pub fn unreadable(path: &Path, why: impl fmt::Display) -> Trouble {
        Trouble::Unusable(format!("{} cannot be read: {why}", path.display()))
    }

    /// The exit status.
    pub fn status(&self) -> ExitCode {
        match self {
            Trouble::Refused(_) => ExitCode::from(1),
            Trouble::Unusable(_) | Trouble::Wrong(_) => ExitCode::from(2),
        }
    }
}

impl fmt::Display for Trouble {
    fn fmt(&self, f: &mut fmt::Formatter<'_>) -> fmt::Result {
        let (Trouble::Refused(why) | Trouble::Unusable(why) | Trouble::Wrong(why)) = self;
        f.write_str(why)
    }
}

/// What a run gives, or why it does not.
pub type Outcome<T> = Result<T, Trouble>;
