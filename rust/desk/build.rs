//! Links the desk library, `libdesk_c.a`, from the directory that `DESK_LIB_DIR` names.

use std::path::PathBuf;
use std::{env, process};

const VARIABLE: &str = "DESK_LIB_DIR";
const LIBRARY: &str = "libdesk_c.a";

fn main() {
    println!("cargo:rerun-if-env-changed={VARIABLE}");
    let directory = match env::var_os(VARIABLE) {
        Some(value) => PathBuf::from(value),
        None => stop(&format!("set {VARIABLE} to the directory that holds {LIBRARY}")),
    };
    let directory = match directory.canonicalize() {
        Ok(directory) => directory,
        Err(error) => stop(&format!("{VARIABLE}={}: {error}", directory.display())),
    };
    let library = directory.join(LIBRARY);
    if !library.is_file() {
        stop(&format!("{VARIABLE}: there is no {LIBRARY} in {}", directory.display()));
    }
    println!("cargo:rerun-if-changed={}", library.display());
    println!("cargo:rustc-link-search=native={}", directory.display());
    println!("cargo:rustc-link-lib=static=desk_c");
}

fn stop(message: &str) -> ! {
    eprintln!("error: {message}");
    process::exit(1)
}
