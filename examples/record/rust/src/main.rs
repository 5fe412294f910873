//! Checks the transcript on standard input. From the top of the repository:
//!
//!     (cd crates/dsr_check_c && rt lib)
//!     export DSR_CHECK_LIBRARIES="$PWD/crates/dsr_check_c/out:$(dirname "$(rt doc)")/c"
//!     cargo run --manifest-path examples/record/rust/Cargo.toml < TRANSCRIPT
//!
//! It prints what was found, and ends with its number: 0 for a run.

use check_record::{check, Report};
use std::io::{self, Read};
use std::process::ExitCode;

fn main() -> io::Result<ExitCode> {
    let mut text = Vec::new();
    io::stdin().read_to_end(&mut text)?;
    let status = match check(&text) {
        Report::Run { entries, history, accepted } => {
            println!("entries {entries}\nhistory {history}\naccepted {accepted}");
            0
        }
        Report::BadShape => {
            println!("the shape is not allowed");
            1
        }
        Report::BadText { line } => {
            println!("bad text in line {line}");
            13
        }
        Report::NotARun { line } => {
            println!("not a run at line {line}");
            14
        }
        Report::NoMemory => {
            println!("no memory");
            12
        }
    };
    Ok(ExitCode::from(status))
}
