// How the calls of a benchmark are measured: by the clock, or counted by callgrind, under which the program then runs.
use crate::counting::counted_calls;
use crate::timing::{best_rounds, Rounds};

pub enum Meter {
    // Seconds: the best of these rounds.
    Clock(Rounds),
    // Callgrind writes one dump for each subject; these are the dumps so far.
    Callgrind { dumps: u32 },
}

// A move that toggles has two kinds of calls.
pub const COUNTED_CALLS: usize = 2;

impl Meter {
    // For each subject the seconds of a call, or the number of the dump that has its instructions.
    pub fn measure<const N: usize>(&mut self, subjects: [&mut dyn FnMut(); N]) -> [f64; N] {
        match self {
            Meter::Clock(rounds) => best_rounds(*rounds, subjects),
            Meter::Callgrind { dumps } => subjects.map(|call| {
                call();
                counted_calls(COUNTED_CALLS, call);
                *dumps += 1;
                f64::from(*dumps)
            }),
        }
    }
}
