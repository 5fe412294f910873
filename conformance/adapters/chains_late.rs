//! A wrong adapter: chains.rs, but it takes a chain with more signatures than the round has, as if it could do no harm. So a traitor can hand out in
//! round 1 what only the last round may bring. The rows that notice it are in chains_late.known:
//!
//!     rustc --edition 2021 -O conformance/adapters/chains_late.rs -o late
//!     conformance/run.py --group chain --known conformance/adapters/chains_late.known ./late

#[allow(dead_code)]
#[path = "chains.rs"]
mod chains;

fn main() -> std::io::Result<()> {
    let mut faults = chains::FAULTS;
    faults[1].1 = |q| q.signatures.len() < q.count;
    chains::answer_all(&faults)
}
