//! Compares the proved library and `busline` with the second model, on seeded
//! random inputs and on the worked examples (EX-1 to EX-12).
//!
//! `compare [NAME...]` runs all tests or the named ones. `COMPARE_SEED` sets
//! the seed, `BUSLINE` the path of the program. One line for each test, then `N
//! passed, M failed`.

mod answers;
mod busline;
mod case;
mod coverage;
mod draw;
mod in_turn;
mod lent;
mod library;
mod limit;
mod request;
mod shrink;
mod tests;
mod ways;
mod wrapper;

use std::env;
use std::path::PathBuf;
use std::process::ExitCode;
use std::thread;
use std::time::Instant;

use model::gen::Rng;

use busline::Busline;
use tests::{Test, TESTS};

const DEFAULT_SEED: u64 = 106;

/// Relative to the folder of this package.
const DEFAULT_BUSLINE: &str = "../../crates/busline/out/busline";

fn main() -> ExitCode {
    let seed = match seed() {
        Ok(seed) => seed,
        Err(message) => return unusable(&message),
    };
    let busline = Busline::new(&busline_path());
    let names: Vec<String> = env::args().skip(1).collect();
    if let Some(name) = names.iter().find(|name| !is_known(name)) {
        return unusable(&format!("there is no test {name}"));
    }
    let chosen = |test: &&Test| names.is_empty() || names.iter().any(|name| name == test.name);
    let (mut passed, mut failed) = (0, 0);
    for test in TESTS.iter().filter(chosen) {
        if run(test, seed, &busline) {
            passed += 1;
        } else {
            failed += 1;
        }
    }
    println!("{passed} passed, {failed} failed");
    if failed == 0 {
        ExitCode::SUCCESS
    } else {
        ExitCode::FAILURE
    }
}

/// Runs a test and prints its line. True if it passed.
fn run(test: &Test, seed: u64, busline: &Busline) -> bool {
    let name = test.name;
    let start = Instant::now();
    let mut rng = rng_of(seed, name);
    // In a thread of its own, so that a panic counts as a failure of this
    // test and the others still run.
    let result = thread::scope(|scope| {
        let body = scope.spawn(|| (test.run)(&mut rng, busline));
        body.join()
            .unwrap_or_else(|_| Err("a panic, shown above".to_string()))
    });
    let seconds = start.elapsed().as_secs_f64();
    match &result {
        Ok(size) => println!("ok {name} seed={seed} ({size}; {seconds:.1} s)"),
        Err(smallest) => println!("FAILED {name} seed={seed} smallest: {smallest}"),
    }
    result.is_ok()
}

/// Each test has numbers of its own, so that it does the same alone.
fn rng_of(seed: u64, name: &str) -> Rng {
    let mixed = name.bytes().fold(seed, |state, byte| {
        Rng::new(state ^ u64::from(byte)).next_u64()
    });
    Rng::new(mixed)
}

fn seed() -> Result<u64, String> {
    match env::var("COMPARE_SEED") {
        Ok(text) => text
            .parse()
            .map_err(|_| format!("COMPARE_SEED is not a number: {text}")),
        Err(_) => Ok(DEFAULT_SEED),
    }
}

fn busline_path() -> PathBuf {
    env::var_os("BUSLINE").map_or_else(
        || PathBuf::from(env!("CARGO_MANIFEST_DIR")).join(DEFAULT_BUSLINE),
        PathBuf::from,
    )
}

fn is_known(name: &str) -> bool {
    TESTS.iter().any(|test| test.name == name)
}

fn unusable(message: &str) -> ExitCode {
    eprintln!("{message}");
    ExitCode::from(2)
}
