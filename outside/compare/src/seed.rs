//! The seed of a run: SCOTERLIME_SEED, or the clock.

use reference::random::Numbers;
use std::env;
use std::time::{SystemTime, UNIX_EPOCH};

/// Random numbers for a test, whose seed is printed.
pub fn numbers(test: &str) -> Numbers {
    let seed = match env::var("SCOTERLIME_SEED") {
        Ok(given) => given.parse().expect("SCOTERLIME_SEED is a number"),
        Err(_) => clock(),
    };
    println!("{test}: SCOTERLIME_SEED={seed}");
    Numbers::new(seed)
}

fn clock() -> u64 {
    let now = SystemTime::now().duration_since(UNIX_EPOCH);
    now.map_or(1, |time| time.as_nanos() as u64 >> 8)
}
