//! Both sides of a call, and their times.

use std::hint::black_box;
use std::time::{Duration, Instant};

/// A call of the proved library and its match in Rust, on the same input.
pub trait Sides {
    /// Runs the proved library.
    fn proved(&mut self);

    /// Runs the Rust made for speed.
    fn rust(&mut self);

    /// Panics unless the last runs of both sides gave the same answer.
    fn compare(&self);
}

/// One of the sides.
#[derive(Clone, Copy)]
pub enum Side {
    /// The proved library.
    Proved,
    /// The Rust made for speed.
    Rust,
}

/// A figure of each side.
#[derive(Clone, Copy)]
pub struct Both<T> {
    /// That of the proved library.
    pub proved: T,
    /// That of the Rust made for speed.
    pub rust: T,
}

impl<T> Both<T> {
    /// What becomes of both figures.
    pub fn map<U>(self, change: impl Fn(T) -> U) -> Both<U> {
        Both { proved: change(self.proved), rust: change(self.rust) }
    }
}

/// The time of one run, and what it gives.
pub fn once<T>(run: impl FnOnce() -> T) -> (Duration, T) {
    let start = Instant::now();
    let result = run();
    (start.elapsed(), result)
}

/// Rounds over all inputs of a table: a machine that is busy for some seconds slows
/// some rounds of each row, and not all runs of one.
const ROUNDS: usize = 20;

/// Runs of each side on an input in a round; the first ones find cold caches.
const TURNS: usize = 20;

/// For each input the best times of 400 runs, the sides in turns. Their answers are
/// compared after each turn.
pub fn best_times(inputs: &mut [impl Sides]) -> Vec<Both<Duration>> {
    let mut best = vec![Both { proved: Duration::MAX, rust: Duration::MAX }; inputs.len()];
    for _ in 0..ROUNDS {
        inputs.iter_mut().zip(&mut best).for_each(|(sides, best)| improve(best, sides));
    }
    best
}

/// Improves the best times by those of one round.
fn improve(best: &mut Both<Duration>, sides: &mut impl Sides) {
    for _ in 0..TURNS {
        best.proved = best.proved.min(once(|| sides.proved()).0);
        best.rust = best.rust.min(once(|| sides.rust()).0);
        sides.compare();
    }
}

/// Bytes of a block that no run asks for at once.
const LARGE_BLOCK: usize = 16 << 20;

/// Frees a large block. From then on the system's allocator keeps what is freed, and
/// no measured run waits for new pages because one before it gave them back.
pub fn warm_up_allocator() {
    drop(black_box(vec![1u8; LARGE_BLOCK]));
}
