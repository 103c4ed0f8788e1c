// Picks that are no elements, near and far; and what shows a library that cuts picks to fewer bits.

use crate::entry_inputs::StepInput;
use crate::rng::Rng;
use paper::{step, Answer, Pick};

/// A number that is no element: just past them, far past them, or one whose low bits are this element's.
pub fn no_element(rng: &mut Rng, elements: u32, element: Pick) -> Pick {
    let high = 1 << rng.pick(&[16, 16, 17, 31, 32, 32, 47, 48, 63, 63]);
    match rng.weighted(&[20, 14, 46, 8, 4, 8]) {
        0 => Pick::from(elements + rng.below(2)),
        1 => rng.pick(&[65_535, 65_536, (1 << 32) - 1, 1 << 32, Pick::MAX, Pick::MAX]),
        2 => high + element,
        3 => high + Pick::from(elements),
        4 => high,
        _ => (rng.draw() | 1) << 16 | element,
    }
}

/// Makes one pick a number that is no element, or adds such a one.
pub fn spoil_by_no_element(rng: &mut Rng, elements: u32, picks: &mut Vec<Pick>) {
    let place = rng.index(picks.len() + 1);
    if place < picks.len() && rng.percent(70) {
        picks[place] = no_element(rng, elements, picks[place]);
    } else {
        let element = Pick::from(rng.below(elements));
        let past = no_element(rng, elements, element);
        picks.insert(place, past);
    }
}

/// What shows that picks are cut to their low bits, so many of them.
#[derive(Debug, Clone, Copy, PartialEq, Eq, PartialOrd, Ord)]
pub enum Cut {
    /// The move is refused by 9 for a pick, and answered otherwise with its picks cut.
    Seen(u32),
    /// The same, and accepted with its picks cut.
    Accepted(u32),
}

impl Cut {
    const BITS: [u32; 4] = [16, 32, 48, 63];

    pub const ALL: [Cut; 8] = [
        Cut::Seen(16),
        Cut::Seen(32),
        Cut::Seen(48),
        Cut::Seen(63),
        Cut::Accepted(16),
        Cut::Accepted(32),
        Cut::Accepted(48),
        Cut::Accepted(63),
    ];
}

/// What a single move with this answer shows, each once.
pub fn cuts(input: &StepInput, answer: Answer) -> Vec<Cut> {
    if answer.number != 9 || answer.p == 0 || input.picks.iter().all(|&pick| pick < 1 << 16) {
        return Vec::new();
    }
    let mut shown = Vec::new();
    for bits in Cut::BITS {
        let picks: Vec<Pick> = input.picks.iter().map(|pick| pick & ((1 << bits) - 1)).collect();
        let cut = step(&input.book, &mut input.contents.clone(), input.agent, &picks, input.lent);
        shown.extend((cut != answer).then_some(Cut::Seen(bits)));
        shown.extend((cut == Answer::ACCEPTED).then_some(Cut::Accepted(bits)));
    }
    shown
}
