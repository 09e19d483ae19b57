//! The program: `store COMMAND WORDS`, as tools/store calls it.

use std::env;
use std::process::ExitCode;

fn main() -> ExitCode {
    store::commands::run(env::args_os().skip(1), &store::disk::Native)
}
