// Time per call of several subjects in one run, their rounds taking turns.
use std::time::{Duration, Instant};

// How many rounds a subject has, and how long each is about.
#[derive(Clone, Copy)]
pub struct Rounds {
    pub number: usize,
    pub length: Duration,
}

// Seconds per call in a round of so many calls.
fn round(calls: usize, call: &mut dyn FnMut()) -> f64 {
    let began = Instant::now();
    for _ in 0..calls {
        call();
    }
    began.elapsed().as_secs_f64() / calls as f64
}

// How many calls fill about a round; the first one warms the caches.
fn calls_for(length: Duration, call: &mut dyn FnMut()) -> usize {
    call();
    let once = round(3, call).max(1e-9);
    ((length.as_secs_f64() / once) as usize).clamp(1, 1_000_000)
}

// Seconds per call of each subject: its best round. What disturbs the machine only makes a round longer.
pub fn best_rounds<const N: usize>(rounds: Rounds, mut subjects: [&mut dyn FnMut(); N]) -> [f64; N] {
    let calls = subjects.each_mut().map(|call| calls_for(rounds.length, *call));
    let mut best = [f64::MAX; N];
    for _ in 0..rounds.number {
        for (i, call) in subjects.iter_mut().enumerate() {
            best[i] = best[i].min(round(calls[i], *call));
        }
    }
    best
}
