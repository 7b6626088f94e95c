//! A peer in plain Rust without contracts, which runs a batch as `renamer run` does, by single steps, and prints the same:
//!
//!     plain WIRING HAND FORM     on the network in the file WIRING, as `renamer show` prints it

mod network;
mod reading;
mod walks;

use std::io::{self, Write as _};
use std::process::ExitCode;

fn main() -> ExitCode {
    let words: Vec<String> = std::env::args().skip(1).collect();
    match reading::walk(&words) {
        Ok(text) => {
            io::stdout().write_all(text.as_bytes()).expect("a writer that takes all");
            ExitCode::SUCCESS
        }
        Err(refused) => {
            eprintln!("{refused}");
            ExitCode::FAILURE
        }
    }
}
