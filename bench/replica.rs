// uses: dsr_names dsr_request dsr_desk dsr_chain dsr_replica
//! Loyal replicas that go through rounds: the arguments are n, f, and how many parts of 20 rounds. In each round client 0 asks
//! every replica to write the round's number, the sender of the slot that begins proposes it, all post to all, and all take from
//! all. After each part it prints a line: how many rounds there were, the nanoseconds that the part took, and what the system
//! says of the memory (`/proc/self/statm`: numbers of pages, the second of those in memory). Its status is 0 where each replica
//! has processed one request for each closed slot. `bench/replica` runs it.
#![tactic(auto)]

ghost use Rattle.std.specs.Prelude.{◌≡◌, ◌∷◌, [], IfSome, if◌then◌else◌};
ghost use Rattle.dsr_envelope.specs.declared.pick.Pick.TheVariants.{Plain, From};

use dsr_chain::SignedRequest;
use dsr_desk::{Key, Keys};
use dsr_names::{Actor, ClientId, ReplicaId, Shape};
use dsr_replica::{Clients, Due, Envelope, Pick, Replica};
use dsr_request::{Name, Op, Request};
use std::alloc::Global;
use std::env;
use std::fs;
use std::process::ExitCode;
use std::time::Instant;

/// How many rounds a part has.
const PART: u64 = 20;

/// The replicas by their numbers, and the client's key.
#[derive(Drop)]
struct Group {
    replicas: Vec<Replica>,
    client: Key,
}

fn replica_of(alloc: Global, keys: &mut Keys, shape: &Shape, number: u8) -> Option<Replica> {
    let key = keys.take(Actor::Replica(ReplicaId::new(number).ok()?))?;
    if !shape.has(key.signer()) {
        return None;
    }
    Replica::new(alloc, key, shape).ok()
}

fn begin(alloc: Global, n: u8, f: u8) -> Option<Group> {
    let shape = Shape::new(n, f, 1, 0).ok()?;
    let mut keys = Keys::new(alloc, shape).ok()?;
    let client = keys.take(Actor::Client(ClientId::FIRST))?;
    let mut replicas = Vec::new(alloc);
    for number in 0..shape.n() {
        let replica = replica_of(alloc, &mut keys, &shape, number)?;
        replicas.push(replica).ok()?;
    }
    Some(Group { replicas, client })
}

/// The request of this round, signed.
fn ask_of(client: &Key, round: u64) -> Option<SignedRequest> {
    let name = Name::read(b"a").ok()?;
    let op = Op::Write { name, value: round };
    let number = round.checked_add(1)?;
    let request = Request::new(ClientId::FIRST, number, op).ok()?;
    Some(SignedRequest::by(request, client))
}

fn take_ask(alloc: Global, replica: &mut Replica, ask: SignedRequest) -> Option<()> {
    if replica.shape().m() == 0 {
        return None;
    }
    let envelope = Envelope::ask(alloc, ask).ok()?;
    replica.ask_taken(ClientId::FIRST, envelope);
    Some(())
}

/// The choice of the client's held request, or of nothing in particular.
fn choice(proposes: bool) -> Option<Pick>
    ensures { IfSome result (λ pick. pick ≡ (if proposes then From (0 ∷ []) else Plain)) }
{
    if proposes {
        Some(Pick::From(Clients::of(&[ClientId::FIRST])?))
    } else {
        Some(Pick::Plain)
    }
}

fn post(alloc: Global, replica: &mut Replica, to: ReplicaId, proposes: bool) -> Option<Envelope> {
    let envelope = replica.envelope_for(alloc, to, choice(proposes)?).ok()?;
    if !replica.allows(to, choice(proposes)?) {
        return None;
    }
    replica.posted(to, choice(proposes)?);
    Some(envelope)
}

fn take(replica: &mut Replica, from: ReplicaId, envelope: Envelope) -> Option<()> {
    replica.room().ok()?;
    if !replica.has_room() || replica.due() != Due::Take(from) {
        return None;
    }
    replica.taken(from, envelope);
    Some(())
}

/// The replica posts to all, into their boxes: at the post to replica 0 it proposes the held request, if it is to.
fn post_all(
    alloc: Global,
    replica: &mut Replica,
    boxes: &mut Vec<Vec<Envelope>>,
    proposes: bool,
) -> Option<()> {
    for to in 0..boxes.len() {
        let number = ReplicaId::new(u8::try_from(to).ok()?).ok()?;
        let envelope = post(alloc, replica, number, proposes && to == 0)?;
        boxes.get_mut(to)?.push(envelope).ok()?;
    }
    Some(())
}

/// The replica takes from all what is in its box, by the posters' numbers.
fn take_all(replica: &mut Replica, envelopes: &mut Vec<Envelope>) -> Option<()> {
    let mut from = 0u8;
    for envelope in envelopes.drain(..) {
        take(replica, ReplicaId::new(from).ok()?, envelope)?;
        from = from.checked_add(1)?;
    }
    Some(())
}

fn go_through_round(
    alloc: Global,
    group: &mut Group,
    boxes: &mut Vec<Vec<Envelope>>,
    round: u64,
) -> Option<()> {
    let ask = ask_of(&group.client, round)?;
    let n = group.replicas.len();
    for number in 0..n {
        let replica = group.replicas.get_mut(number)?;
        take_ask(alloc, replica, ask)?;
        let proposes = round.checked_rem(n as u64)? == number as u64;
        post_all(alloc, replica, boxes, proposes)?;
    }
    for number in 0..n {
        take_all(group.replicas.get_mut(number)?, boxes.get_mut(number)?)?;
    }
    Some(())
}

/// Goes through the rounds of a part from this one on, and prints what it cost.
fn go_through_part(
    rt: &HostRuntime,
    group: &mut Group,
    boxes: &mut Vec<Vec<Envelope>>,
    first: u64,
) -> Option<()> {
    let end = first.checked_add(PART)?;
    let start = Instant::now(rt).ok()?;
    for round in first..end {
        go_through_round(rt.alloc(), group, boxes, round)?;
    }
    let time = start.elapsed(rt).ok()?.as_nanos();
    let memory = fs::read_to_string(rt, "/proc/self/statm").ok()?;
    print!(rt; "{end} {time} {memory}").ok()
}

/// Whether each replica processed as many requests.
fn have_processed(group: &Group, requests: u64) -> bool {
    let mut all = true;
    for replica in group.replicas.as_slice() {
        all = all && replica.history().len() as u64 == requests;
    }
    all
}

/// Goes through the rounds in parts, and tells whether each replica processed a request for each closed slot.
fn measure(rt: &HostRuntime, n: u8, f: u8, parts: u64) -> Option<bool> {
    let mut group = begin(rt.alloc(), n, f)?;
    let mut boxes = Vec::new(rt.alloc());
    for _ in 0..n {
        boxes.push(Vec::new(rt.alloc())).ok()?;
    }
    for part in 0..parts {
        go_through_part(rt, &mut group, &mut boxes, part.checked_mul(PART)?)?;
    }
    let closed = parts.checked_mul(PART)?.saturating_sub(u64::from(f));
    Some(have_processed(&group, closed))
}

/// The three numbers of the arguments.
fn numbers(rt: &HostRuntime) -> Option<(u8, u8, u64)> {
    let mut words = env::args(rt).ok()?.skip(1);
    let n = words.next()?.parse().ok()?;
    let f = words.next()?.parse().ok()?;
    let parts = words.next()?.parse().ok()?;
    Some((n, f, parts))
}

fn main(rt: HostRuntime) -> ExitCode {
    let Some((n, f, parts)) = numbers(&rt) else {
        return ExitCode::from(2);
    };
    match measure(&rt, n, f, parts) {
        Some(true) => ExitCode::SUCCESS,
        _ => ExitCode::FAILURE,
    }
}
