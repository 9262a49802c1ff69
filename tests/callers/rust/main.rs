//! Calls the static library with inputs drawn from a seed, and stops where it
//! does not do as the second program does.
//!
//! Each session of calls has a seed of its own, the first one SEED and every
//! later one the next number, so that a session can be had again by itself.

mod archive;
mod guarded;
mod inputs;
mod session;

use std::env;
use std::process::ExitCode;
use std::time::{Duration, Instant};

use second::interface;

use crate::session::Session;

const SESSION_CALLS: u64 = 300;

enum Until {
    Calls(u64),
    Time(Instant),
}

fn main() -> ExitCode {
    let mut arguments = env::args();
    let name = arguments.next().unwrap_or_default();
    interface::assert_offsets();
    let (until, seed) = match read(&arguments.collect::<Vec<_>>()) {
        Some(asked) => asked,
        None => {
            eprintln!("usage: {name} calls|seconds COUNT SEED");
            return ExitCode::from(2);
        }
    };
    match run(&until, seed) {
        Ok(calls) => {
            println!("{name}: {calls} calls, seed {seed}");
            ExitCode::SUCCESS
        }
        Err(message) => {
            eprintln!("{name}: {message}");
            ExitCode::FAILURE
        }
    }
}

fn read(arguments: &[String]) -> Option<(Until, u64)> {
    let (unit, count, seed) = match arguments {
        [unit, count, seed] => (unit, count, seed),
        _ => return None,
    };
    let count = count.parse().ok()?;
    let until = match unit.as_str() {
        "calls" => Until::Calls(count),
        "seconds" => Until::Time(Instant::now() + Duration::from_secs(count)),
        _ => return None,
    };
    Some((until, seed.parse().ok()?))
}

/// Makes sessions of calls, and gives how many calls there were.
fn run(until: &Until, first_seed: u64) -> Result<u64, String> {
    let mut calls = 0;
    let mut seed = first_seed;
    loop {
        let left = match until {
            Until::Calls(count) => count - calls,
            Until::Time(end) if Instant::now() < *end => SESSION_CALLS,
            Until::Time(_) => 0,
        };
        if left == 0 {
            return Ok(calls);
        }
        let mut session = Session::new(seed);
        for call in 1..=left.min(SESSION_CALLS) {
            session.call().map_err(|what| format!("seed {seed}, call {call}: {what}"))?;
            calls += 1;
        }
        seed = seed.wrapping_add(1);
    }
}
