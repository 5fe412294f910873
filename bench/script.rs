// uses: dsr_names dsr_script
//! What it costs to read a serve script: reads one from standard input, and prints the nanoseconds that `Script::read` took.
//! `bench/script` runs it.
#![tactic(auto)]

use dsr_names::{Outside, read_input};
use dsr_script::Script;
use std::process::ExitCode;
use std::time::Instant;

/// How long it took to read the text.
fn time_to_read(rt: &HostRuntime, text: &[u8]) -> Option<u128> {
    let start = Instant::now(rt).ok()?;
    let script = Script::read(rt.alloc(), text).ok()?;
    let took = start.elapsed(rt).ok()?.as_nanos();
    if script.shape().n() == 16 {
        Some(took)
    } else {
        None
    }
}

fn main(rt: HostRuntime) -> std::io::Result<ExitCode> {
    let Ok(text) = read_input(rt.alloc(), &mut Outside(rt.stdin())) else {
        return Ok(ExitCode::FAILURE);
    };
    let Some(took) = time_to_read(&rt, text.as_slice()) else {
        return Ok(ExitCode::FAILURE);
    };
    println!(rt; "{took}")?;
    Ok(ExitCode::SUCCESS)
}
