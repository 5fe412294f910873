//! What a step costs in plain Rust, for each number of steps a line with it and the nanoseconds that it took: a number through a lock, shared
//! numbers through a lock with a log at each end, and a number through a channel. One thread puts and another takes, and each tries again
//! and again. `bench/mail` runs it.

use std::env;
use std::hint::black_box;
use std::sync::mpsc::sync_channel;
use std::sync::{Arc, Mutex};
use std::thread::scope;
use std::time::Instant;

/// A number goes through a lock.
fn through_lock(steps: u64) {
    let slot = Mutex::new(None);
    scope(|threads| {
        threads.spawn(|| {
            let mut done = 0;
            while done < steps {
                let mut guard = slot.lock().unwrap();
                if guard.is_none() {
                    *guard = Some(done);
                    done += 1;
                }
            }
        });
        let mut done = 0;
        while done < steps {
            if let Some(number) = slot.lock().unwrap().take() {
                black_box::<u64>(number);
                done += 1;
            }
        }
    });
}

/// A shared number goes through a lock, and each end keeps it.
fn through_lock_with_logs(steps: u64) {
    let slot: Mutex<Option<Arc<u64>>> = Mutex::new(None);
    scope(|threads| {
        threads.spawn(|| {
            let mut log = Vec::new();
            while (log.len() as u64) < steps {
                let mut guard = slot.lock().unwrap();
                if guard.is_none() {
                    let number = Arc::new(log.len() as u64);
                    *guard = Some(number.clone());
                    log.push(number);
                }
            }
            black_box(log);
        });
        let mut log = Vec::new();
        while (log.len() as u64) < steps {
            if let Some(number) = slot.lock().unwrap().take() {
                log.push(number);
            }
        }
        black_box(log);
    });
}

/// A number goes through a channel that has room for one.
fn through_channel(steps: u64) {
    let (sender, receiver) = sync_channel(1);
    scope(|threads| {
        threads.spawn(move || {
            let mut done = 0;
            while done < steps {
                if sender.try_send(done).is_ok() {
                    done += 1;
                }
            }
        });
        let mut done = 0;
        while done < steps {
            if let Ok(number) = receiver.try_recv() {
                black_box::<u64>(number);
                done += 1;
            }
        }
    });
}

/// How long a function takes for so many steps, in nanoseconds.
fn time_of(function: fn(u64), steps: u64) -> u128 {
    let start = Instant::now();
    function(steps);
    start.elapsed().as_nanos()
}

fn main() {
    for word in env::args().skip(1) {
        let steps: u64 = word.parse().unwrap();
        let lock = time_of(through_lock, steps);
        let logged = time_of(through_lock_with_logs, steps);
        let channel = time_of(through_channel, steps);
        println!("{steps} {lock} {logged} {channel}");
    }
}
