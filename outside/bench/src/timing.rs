//! The least time of several, in microseconds.

use std::time::Instant;

#[derive(Clone, Copy)]
pub struct Times {
    pub proved: f64,
    pub reference: f64,
}

/// Times both in turn, so that a busy machine slows both. What `reset` gives
/// is handed to each call anew and is not timed.
pub fn both<M>(
    turns: usize,
    reset: impl FnMut() -> M,
    mut proved: impl FnMut(&mut M),
    mut reference: impl FnMut(&mut M),
) -> Times {
    let [proved, reference] = least(turns, reset, [&mut proved, &mut reference]);
    Times { proved, reference }
}

/// The same of any number of calls.
pub fn least<M, const N: usize>(
    turns: usize,
    mut reset: impl FnMut() -> M,
    mut calls: [&mut dyn FnMut(&mut M); N],
) -> [f64; N] {
    let mut times = [f64::MAX; N];
    for _ in 0..turns {
        for (time, call) in times.iter_mut().zip(&mut calls) {
            let mut memory = reset();
            *time = time.min(microseconds(|| call(&mut memory)));
        }
    }
    times
}

/// How long one call takes.
pub fn microseconds(call: impl FnOnce()) -> f64 {
    let began = Instant::now();
    call();
    began.elapsed().as_secs_f64() * 1e6
}
