// uses: dsr_names dsr_request dsr_desk dsr_chain dsr_slot
//! What calls on chains cost: for each number of requests and of signatures a line with both, and the nanoseconds that all
//! copies, all copies that are extended, all checks, and all chains took that a slot drops since their content is kept.
//! `bench/chains` runs it.
#![tactic(auto)]

use dsr_chain::{Batch, Chain, SignedRequest, SlotValue};
use dsr_desk::{Key, Keys};
use dsr_names::{Actor, ClientId, ReplicaId, Shape};
use dsr_request::{Name, Op, Request};
use dsr_slot::SlotState;
use std::alloc::Global;
use std::process::ExitCode;
use std::time::Instant;

/// How often each call is made.
const CALLS: u32 = 20_000;

/// Fifteen replicas, seven of them traitors at most, and eight clients: chains of up to eight signatures are proper.
fn shape() -> Option<Shape> {
    Shape::new(15, 7, 8, 0).ok()
}

fn replica_key(keys: &mut Keys, number: u8) -> Option<Key> {
    keys.take(Actor::Replica(ReplicaId::new(number).ok()?))
}

/// The client's first request, with its signature.
fn signed_by(keys: &mut Keys, number: u8) -> Option<SignedRequest> {
    let client = ClientId::new(number).ok()?;
    let op = Op::Write {
        name: Name::read(b"a").ok()?,
        value: 5,
    };
    let key = keys.take(Actor::Client(client))?;
    Some(SignedRequest::by(Request::new(client, 1, op).ok()?, &key))
}

/// The value of so many requests, each of another client.
fn value_of(alloc: Global, keys: &mut Keys, requests: u8) -> Option<SlotValue> {
    if requests == 0 {
        return Some(SlotValue::Idle);
    }
    let mut signed = Vec::new(alloc);
    for number in 0..requests {
        signed.push(signed_by(keys, number)?).ok()?;
    }
    Some(SlotValue::Act(Batch::of(signed.as_slice())?))
}

/// The chain longer by this key's signature, if it has less than 16.
fn extended(alloc: Global, chain: Chain, key: &Key) -> Option<Chain> {
    if chain.signatures().len() < 16 {
        chain.extend(alloc, key).ok()
    } else {
        None
    }
}

/// The chain of slot 0 that so many replicas signed.
fn chain_of(alloc: Global, keys: &mut Keys, requests: u8, signatures: u8) -> Option<Chain> {
    let value = value_of(alloc, keys, requests)?;
    let key = replica_key(keys, 0)?;
    let mut chain = Chain::start(alloc, 0, value, &key).ok()?;
    for number in 1..signatures {
        let key = replica_key(keys, number)?;
        chain = extended(alloc, chain, &key)?;
    }
    Some(chain)
}

/// How long it took to copy the chain again and again.
fn time_of_copies(rt: &HostRuntime, chain: &Chain) -> Option<u128> {
    let start = Instant::now(rt).ok()?;
    for _ in 0..CALLS {
        let copy = chain.try_copy().ok()?;
        if copy.slot() != 0 {
            return None;
        }
    }
    Some(start.elapsed(rt).ok()?.as_nanos())
}

/// How long it took to copy and extend the chain again and again.
fn time_of_extensions(rt: &HostRuntime, chain: &Chain, key: &Key) -> Option<u128> {
    let start = Instant::now(rt).ok()?;
    for _ in 0..CALLS {
        let longer = extended(rt.alloc(), chain.try_copy().ok()?, key)?;
        if longer.slot() != 0 {
            return None;
        }
    }
    Some(start.elapsed(rt).ok()?.as_nanos())
}

/// How long it took to check the chain again and again, each time to be proper.
fn time_of_checks(rt: &HostRuntime, shape: &Shape, chain: &Chain, round: u8) -> Option<u128> {
    if round == 0 || round > shape.f() + 1 {
        return None;
    }
    let start = Instant::now(rt).ok()?;
    for _ in 0..CALLS {
        chain.check(shape, 0, round).ok()?;
    }
    Some(start.elapsed(rt).ok()?.as_nanos())
}

/// Closes the slot's next round, if it has one.
fn close_next(state: &mut SlotState, chains: &mut Vec<Chain>) -> Option<()> {
    let closed = state.closed_rounds();
    if state.decide().is_some() {
        return None;
    }
    state.close_round(closed + 1, chains);
    Some(())
}

/// How long it took a slot to close the round in which it read the chain again and again: it keeps the first.
fn time_of_drops(rt: &HostRuntime, shape: &Shape, chain: &Chain, round: u8) -> Option<u128> {
    let mut state = SlotState::new(shape, 0);
    let mut chains = Vec::new(rt.alloc());
    for _ in 1..round {
        close_next(&mut state, &mut chains)?;
    }
    for _ in 0..CALLS {
        chains.push(chain.try_copy().ok()?).ok()?;
    }
    let start = Instant::now(rt).ok()?;
    close_next(&mut state, &mut chains)?;
    Some(start.elapsed(rt).ok()?.as_nanos())
}

/// The times of copies, extensions, checks and drops of the chain of so many requests and signatures.
fn times(rt: &HostRuntime, requests: u8, signatures: u8) -> Option<(u128, u128, u128, u128)> {
    let shape = shape()?;
    let mut keys = Keys::new(rt.alloc(), shape).ok()?;
    let chain = chain_of(rt.alloc(), &mut keys, requests, signatures)?;
    let next = replica_key(&mut keys, 14)?;
    Some((
        time_of_copies(rt, &chain)?,
        time_of_extensions(rt, &chain, &next)?,
        time_of_checks(rt, &shape, &chain, signatures)?,
        time_of_drops(rt, &shape, &chain, signatures)?,
    ))
}

fn main(rt: HostRuntime) -> std::io::Result<ExitCode> {
    for requests in [0, 1, 8] {
        for signatures in [1, 2, 4, 8] {
            let Some((copies, extensions, checks, drops)) = times(&rt, requests, signatures) else {
                return Ok(ExitCode::FAILURE);
            };
            println!(rt; "{requests} {signatures} {copies} {extensions} {checks} {drops}")?;
        }
    }
    Ok(ExitCode::SUCCESS)
}
