//! One program for all the tools: `owners NAME WORDS`, as tools/NAME calls it.

use std::env;
use std::process::ExitCode;

fn main() -> ExitCode {
    let mut words = env::args_os().skip(1);
    let name = words.next().unwrap_or_default();
    owners::programs::run(&name.to_string_lossy(), words)
}
