//! An adapter in Rust, as an example: it answers `check`, and skips all other calls.
//!
//!     rustc --edition 2021 -O conformance/adapters/chains.rs -o chains
//!     conformance/run.py --group chain ./chains
//!
//! It reads `row NAME` and `> CALL` on standard input, and writes one `< ANSWER` for each call. Chains stay texts here: a signature is on
//! the statement that fits its place if no other statement is spelled out beside it.

use std::io::{self, BufRead, Write};

/// Whether a chain is proper for round `count` of `slot`, with these numbers of replicas and clients.
pub struct Question<'a> {
    replicas: u64,
    clients: u64,
    slot: u64,
    pub count: usize,
    chain_slot: u64,
    /// Each as `c0#1:write:a:5~c0`.
    requests: Vec<&'a str>,
    /// Each as `r0`, or as `r0(1/idle/-)`.
    pub signatures: Vec<&'a str>,
}

/// A fault: its name, and whether a chain has it.
pub type Fault = (&'static str, fn(&Question) -> bool);

/// All faults. The first that holds is the answer.
pub const FAULTS: [Fault; 7] = [
    ("other-slot", |q| q.chain_slot != q.slot),
    ("wrong-count", |q| q.signatures.len() != q.count),
    ("wrong-sender", |q| q.signers().first() != Some(&format!("r{}", q.slot % q.replicas).as_str())),
    ("no-replica", |q| !q.signers().iter().all(|signer| number_after('r', signer).is_some_and(|number| number < q.replicas))),
    ("signed-twice", |q| {
        let signers = q.signers();
        (0..signers.len()).any(|place| signers[..place].contains(&signers[place]))
    }),
    ("misfit", |q| q.signers() != q.signatures),
    ("bad-request", |q| !q.requests.iter().all(|request| q.is_asked(request))),
];

impl<'a> Question<'a> {
    /// Reads the operands of `check`: the four of the shape, the slot, the round and the chain. Returns the greatest round too.
    fn read(text: &'a str) -> Option<(Question<'a>, usize)> {
        let words: Vec<&str> = text.split(' ').collect();
        let [replicas, traitors, clients, _, slot, count, chain] = words[..] else { return None };
        let parts = split(chain, '/');
        let [chain_slot, value, signatures] = parts[..] else { return None };
        let question = Question {
            replicas: replicas.parse().ok()?,
            clients: clients.parse().ok()?,
            slot: slot.parse().ok()?,
            count: count.parse().ok()?,
            chain_slot: chain_slot.parse().ok()?,
            requests: if value == "idle" { Vec::new() } else { split(value, ',') },
            signatures: if signatures == "-" { Vec::new() } else { split(signatures, '+') },
        };
        Some((question, traitors.parse::<usize>().ok()? + 1))
    }

    fn signers(&self) -> Vec<&'a str> {
        self.signatures.iter().map(|signature| signature.split('(').next().unwrap_or("")).collect()
    }

    /// Whether beside the request stands the signature of its client on it, and the client is of the shape.
    fn is_asked(&self, request: &str) -> bool {
        let client = request.split('#').next().unwrap_or("");
        let signature = request.split_once('~').map(|(_, signature)| signature);
        signature == Some(client) && number_after('c', client).is_some_and(|number| number < self.clients)
    }
}

/// The number of an actor of this kind.
fn number_after(kind: char, actor: &str) -> Option<u64> {
    actor.strip_prefix(kind)?.parse().ok()
}

/// The items of a text that this mark joins outside parentheses.
fn split(text: &str, mark: char) -> Vec<&str> {
    let (mut items, mut begin, mut depth) = (Vec::new(), 0, 0);
    for (place, letter) in text.char_indices() {
        match letter {
            '(' => depth += 1,
            ')' => depth -= 1,
            _ if letter == mark && depth == 0 => {
                items.push(&text[begin..place]);
                begin = place + letter.len_utf8();
            }
            _ => {}
        }
    }
    items.push(&text[begin..]);
    items
}

fn answer(faults: &[Fault], call: &str) -> &'static str {
    let Some(operands) = call.strip_prefix("check ") else { return "skip" };
    let Some((question, last)) = Question::read(operands) else { return "bad-row" };
    if question.count < 1 || question.count > last {
        return "no-call";
    }
    faults.iter().find(|(_, holds)| holds(&question)).map_or("ok", |(name, _)| name)
}

/// Answers all calls by these faults.
pub fn answer_all(faults: &[Fault]) -> io::Result<()> {
    let mut output = io::stdout().lock();
    for line in io::stdin().lock().split(b'\n') {
        let line = line?;
        if let Some(call) = line.strip_prefix(b"> ") {
            writeln!(output, "< {}", answer(faults, &String::from_utf8_lossy(call)))?;
        }
    }
    Ok(())
}

fn main() -> io::Result<()> {
    answer_all(&FAULTS)
}
