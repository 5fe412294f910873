// uses: dsr_names dsr_desk dsr_boxes dsr_mail
//! What a step of the mail costs: client 0 tells client 1 its seen front again and again, and client 1 takes it, each in a thread of its own
//! that tries until it has done so often. Beside it a number goes through a lock of the toolchain's in the same way. For each number of
//! steps a line with it, and the nanoseconds that it took at the mail and with the lock. `bench/mail` runs it.
#![tactic(auto)]

ghost use Rattle.std.specs.Prelude.{◌≡◌, All, map};
ghost use Rattle.dsr_boxes.specs.Pass.{IsPassOf, new_pass};
ghost use Rattle.dsr_mail.specs.Seats.{is_client, actors_of};

use dsr_desk::Keys;
use dsr_mail::{ClientSeat, Mail};
use dsr_names::{Actor, ClientId, Shape};
use std::alloc::Global;
use std::process::ExitCode;
use std::sync::{Mutex, Wait};
use std::thread::{Threads, join, map_vec};
use std::time::{Clock, Instant};

/// A client's seat, with the mail that it is at.
#[derive(Drop)]
struct Seated<'a> {
    mail: &'a Mail,
    seat: ClientSeat,
    ghost own: { IsPassOf mail.now seat },
}

impl<'a> Seated<'a> {
    /// Whether client 0 could tell client 1, or client 1 take it.
    fn step(&mut self, alloc: Global) -> bool {
        let (first, second) = (Actor::Client(ClientId::FIRST), Actor::Client(ClientId::of(1)));
        if self.seat.client().number() == 0 {
            self.tell(alloc, second)
        } else {
            self.take(first)
        }
    }

    fn tell(&mut self, alloc: Global, to: Actor) -> bool {
        match self.seat.try_tell(alloc, self.mail, to) {
            Ok(()) => true,
            Err(_) => false,
        }
    }

    fn take(&mut self, from: Actor) -> bool {
        match self.seat.try_take(self.mail, from) {
            Ok(_) => true,
            Err(_) => false,
        }
    }
}

/// Tries until it has done so many steps.
fn step_all<R: Wait>(rt: &R, alloc: Global, seated: Seated, steps: u64) {
    let mut seated = seated;
    let mut done = 0;
    for _ in rt.forever() {
        if done >= steps {
            break;
        }
        if seated.step(alloc) {
            done += 1;
        }
    }
}

/// So many steps of each of these clients at the mail, in threads of their own.
fn at_mail<R: Threads + Wait + Sync>(
    rt: &R,
    alloc: Global,
    mail: &Mail,
    clients: Vec<ClientSeat>,
    steps: u64,
) -> Option<()>
    requires { All (IsPassOf mail.now) clients.items }
{
    map_vec(
        rt,
        clients,
        &|seat: ClientSeat|
            requires { IsPassOf mail.now seat }
        { step_all(rt, alloc, Seated { mail, seat }, steps) },
    )
    .ok()?;
    Some(())
}

/// How long so many steps take at this mail, where nothing was done yet.
fn time_at<R: Threads + Wait + Clock + Sync>(
    rt: &R,
    alloc: Global,
    mail: &Mail,
    clients: Vec<ClientSeat>,
    steps: u64,
) -> Option<u128>
    requires { clients.items ≡ map (new_pass mail.now) (actors_of is_client mail.now.shape) }
{
    let start = Instant::now(rt).ok()?;
    at_mail(rt, alloc, mail, clients, steps)?;
    Some(start.elapsed(rt).ok()?.as_nanos())
}

/// How long so many steps take at a mail of one replica and two clients.
fn time_of_mail<R: Threads + Wait + Clock + Sync>(
    rt: &R,
    alloc: Global,
    steps: u64,
) -> Option<u128> {
    let shape = Shape::new(1, 0, 2, 0).ok()?;
    let keys = Keys::new(alloc, shape).ok()?;
    let Ok((mail, seats)) = Mail::open(alloc, shape, keys) else {
        return None;
    };
    time_at(rt, alloc, &mail, seats.clients, steps)
}

/// Puts so many numbers, each where there is none.
fn put_all<R: Wait>(rt: &R, slot: &Mutex<Option<u64>>, steps: u64) {
    let mut done = 0;
    for _ in rt.forever() {
        if done >= steps {
            break;
        }
        let mut guard = slot.lock(rt);
        if guard.is_none() {
            *guard = Some(done);
            done += 1;
        }
    }
}

/// Takes so many numbers.
fn get_all<R: Wait>(rt: &R, slot: &Mutex<Option<u64>>, steps: u64) {
    let mut done = 0;
    for _ in rt.forever() {
        if done >= steps {
            break;
        }
        let mut guard = slot.lock(rt);
        if guard.is_some() {
            *guard = None;
            done += 1;
        }
    }
}

/// How long so many steps take with a lock.
fn time_of_lock<R: Threads + Wait + Clock + Sync>(rt: &R, steps: u64) -> Option<u128> {
    let slot = Mutex::new(None);
    let start = Instant::now(rt).ok()?;
    join(
        rt,
        || put_all(rt, &slot, steps),
        || get_all(rt, &slot, steps),
    );
    Some(start.elapsed(rt).ok()?.as_nanos())
}

fn main(rt: HostRuntime) -> std::io::Result<ExitCode> {
    for steps in [10_000, 100_000, 1_000_000] {
        let (Some(mail), Some(lock)) = (
            time_of_mail(&rt, rt.alloc(), steps),
            time_of_lock(&rt, steps),
        ) else {
            return Ok(ExitCode::FAILURE);
        };
        println!(rt; "{steps} {mail} {lock}")?;
    }
    Ok(ExitCode::SUCCESS)
}
