//! Compares the desk library with the peer: `differential [count]`.

use std::process::ExitCode;

fn main() -> ExitCode {
    let count = match std::env::args().nth(1).map(|argument| argument.parse()) {
        None => differential::DEFAULT_COUNT,
        Some(Ok(count)) => count,
        Some(Err(error)) => {
            eprintln!("differential [count]: {error}");
            return ExitCode::FAILURE;
        }
    };
    let tally = differential::run(count);
    println!("{tally}");
    tally.assert_complete();
    println!("the library and the peer agree");
    ExitCode::SUCCESS
}
