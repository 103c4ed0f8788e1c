// The table of all comparisons: random inputs, every small input, picks at places past an answer's room, and the logs of the benchmarks.
use crate::comparison::{Class, Comparison};
use crate::loads;
use crate::question::{Question, Reply};
use inputs::*;
use paper::{Answer, Outcome, Pick, MOST_PLACE};

// Random inputs, sound and damaged, by seed and number.
pub static RANDOM: [Comparison; 4] = [
    Comparison {
        name: "books",
        entry: "rental_check_book",
        inputs: || 200_000,
        question: |seed, number| Question::Book(book_input(&mut Rng::for_input(seed, number))),
        classes: no_more,
        floors: || answers([0, 1, 3, 4, 5, 6, 7, 8], 1_000),
    },
    Comparison {
        name: "single moves",
        entry: "rental_move",
        inputs: || 100_000,
        question: |seed, number| Question::Move(step_input(&mut Rng::for_input(seed, number))),
        classes: classes_of_move,
        floors: || {
            let numbers = answers((0..=9).chain(11..=15).chain([18, 19]), 500);
            let accepted =
                [(Class::ChangesNothing, 10_000), (Class::WithPicks, 5_000), (Class::ManyPicks, 50)];
            let often = [(Class::Cut(Cut::Seen(16)), 1_000), (Class::Cut(Cut::Seen(32)), 500)];
            [numbers, all(Cut::ALL, Class::Cut, 25), accepted.into(), often.into()].concat()
        },
    },
    Comparison {
        name: "logs",
        entry: "rental_run_log",
        inputs: || 200_000,
        question: |seed, number| Question::Log(run_input(&mut Rng::for_input(seed, number))),
        classes: classes_of_log,
        floors: || {
            let ways = [
                all(Idle::ALL, Class::Idle, 300),
                all(Picked::ALL, Class::Picked, 400),
                all(Released::ALL, Class::Released, 200),
                all(Tallied::ALL, Class::Tallied, 3_000),
                all(Counted::ALL, Class::Counted, 400),
            ];
            let often = [(Class::Picked(Picked::Accepted), 25_000), (Class::Counted(Counted::Once), 2_500)];
            [answers(Answer::NUMBERS, 500), ways.concat(), often.into()].concat()
        },
    },
    Comparison {
        name: "whole inputs",
        entry: "rental_report_input",
        inputs: || 300_000,
        question: |seed, number| Question::Input(report_input(&mut Rng::for_input(seed, number))),
        classes: classes_of_tally,
        floors: || [answers(Answer::NUMBERS, 500), all(Tallied::ALL, Class::Tallied, 4_000)].concat(),
    },
];

// Every small input, given to each entry, and every small single move; the seed does not matter.
pub static SMALL: [Comparison; 5] = [
    Comparison {
        name: "small books",
        entry: "rental_check_book",
        inputs: small_inputs,
        question: |_, number| Question::Book(small_input(number).book),
        classes: no_more,
        floors: || answers([0, 1, 3, 4, 5, 6, 7, 8], 200),
    },
    Comparison {
        name: "small single moves",
        entry: "rental_move",
        inputs: small_inputs,
        question: |_, number| Question::Move(small_input(number).first_move()),
        classes: no_more,
        floors: || answers([0, 1, 3, 4, 5, 6, 7, 8, 11, 12, 13, 15, 18, 19], 4),
    },
    Comparison {
        name: "small logs",
        entry: "rental_run_log",
        inputs: small_inputs,
        question: |_, number| Question::Log(small_input(number).run()),
        classes: classes_of_tally,
        floors: || {
            let numbers = [0, 1].into_iter().chain(3..=13).chain([15, 17, 18, 19]);
            [answers(numbers, 20), all(Tallied::ALL, Class::Tallied, 1_000)].concat()
        },
    },
    Comparison {
        name: "small whole inputs",
        entry: "rental_report_input",
        inputs: small_inputs,
        question: |_, number| Question::Input(small_input(number).input()),
        classes: classes_of_tally,
        floors: || {
            let numbers = (0..=13).chain([15, 17, 18, 19]);
            [answers(numbers, 3), all(Tallied::ALL, Class::Tallied, 1_000)].concat()
        },
    },
    Comparison {
        name: "small picks",
        entry: "rental_move",
        inputs: small_moves,
        question: |_, number| Question::Move(small_move(number)),
        classes: no_more,
        floors: || [answers([0, 9, 18, 19], 50), answers([11, 12, 15], 12)].concat(),
    },
];

// Inputs made one by one.
pub static MADE: [Comparison; 2] = [
    Comparison {
        name: "places of picks",
        entry: "rental_move",
        inputs: || 1 + (PLACES.len() * NO_ELEMENTS.len()) as u64,
        question: |_, number| Question::Move(pick_at_place(number as usize)),
        classes: |_, reply| vec![Class::Place(reply.answer.p, reply.answer.q)],
        floors: || {
            let places = PLACES.map(|place| Class::Place((place + 1).min(MOST_PLACE) as u32, 0));
            let least = NO_ELEMENTS.len() as u64;
            let at_places = places.map(|place| (place, least));
            [&[(Class::Answer(9), 24), (Class::Answer(19), 1), (Class::Place(0, 1), 1)], &at_places[..]]
                .concat()
        },
    },
    Comparison {
        name: "logs of the benchmarks",
        entry: "rental_run_log",
        inputs: || loads::LOGS.len() as u64,
        question: |_, number| Question::Log(loads::LOGS[number as usize]().run()),
        classes: classes_of_tally,
        floors: || {
            let tallies = [
                (Tallied::Issued, 6),
                (Tallied::Returned, 7),
                (Tallied::Both, 5),
                (Tallied::BeforeRefused, 1),
            ];
            let tallies = tallies.map(|(way, least)| (Class::Tallied(way), least));
            [&[(Class::Answer(0), 14), (Class::Answer(12), 1)], &tallies[..]].concat()
        },
    },
];

pub fn comparisons() -> impl Iterator<Item = &'static Comparison> {
    RANDOM.iter().chain(&SMALL).chain(&MADE)
}

// The comparison of this name.
pub fn named(name: &str) -> &'static Comparison {
    comparisons().find(|comparison| comparison.name == name).expect(name)
}

fn no_more(_: &Question, _: &Reply) -> Vec<Class> {
    Vec::new()
}

// A floor for each of these answers.
fn answers(numbers: impl IntoIterator<Item = u32>, least: u64) -> Vec<(Class, u64)> {
    numbers.into_iter().map(|number| (Class::Answer(number), least)).collect()
}

// A floor for each class of a kind.
fn all<T, const N: usize>(classes: [T; N], class: fn(T) -> Class, least: u64) -> Vec<(Class, u64)> {
    classes.into_iter().map(|way| (class(way), least)).collect()
}

fn classes_of_move(question: &Question, reply: &Reply) -> Vec<Class> {
    let Question::Move(input) = question else { return Vec::new() };
    let accepted = [
        (reply.contents == input.contents, Class::ChangesNothing),
        (!input.picks.is_empty(), Class::WithPicks),
        (input.picks.len() > paper::CHOICE_LINES, Class::ManyPicks),
    ];
    let holding = accepted.into_iter().filter(|(holds, _)| *holds && reply.answer == Answer::ACCEPTED);
    holding.map(|(_, class)| class).chain(cuts(input, reply.answer).into_iter().map(Class::Cut)).collect()
}

// What the tally of a log or a whole input shows.
fn classes_of_tally(_: &Question, reply: &Reply) -> Vec<Class> {
    let outcome = reply.tally.map(|tally| Outcome { answer: reply.answer, tally });
    outcome.into_iter().flat_map(tallied_ways).map(Class::Tallied).collect()
}

fn classes_of_log(question: &Question, reply: &Reply) -> Vec<Class> {
    let Question::Log(RunInput { book, log, .. }) = question else { return Vec::new() };
    let idle = idle_ways(book, log, reply.answer).into_iter().map(Class::Idle);
    let picked = picked_ways(book, log, reply.answer).into_iter().map(Class::Picked);
    let released = released_ways(book, log, reply.answer).into_iter().map(Class::Released);
    let counted = counted_ways(book, log, reply.answer).into_iter().map(Class::Counted);
    idle.chain(picked).chain(released).chain(counted).chain(classes_of_tally(question, reply)).collect()
}

// Where a pick is no element: the place of the answer is its index + 1, as far as an answer has room for it.
const PLACES: [usize; 6] = [0, 256, 65_536, MOST_PLACE - 1, MOST_PLACE, MOST_PLACE + 2];
const NO_ELEMENTS: [Pick; 4] = [4, (1 << 16) + 3, (1 << 32) + 3, Pick::MAX];

// Choose x in a universe, which holds at 3, and skip: all picks are 3 but one, or all of them, so that all but the first are left over.
fn pick_at_place(number: usize) -> StepInput {
    let book = "4 4 2 2 / 1 1 0 0 / 1 3 0 0 / 1 3 0 0 / 20 0 0 0 / 28 0 1 0 / 1 3 0 0 / 1 3 0 2";
    let mut picks = vec![3; MOST_PLACE + 3];
    if let Some(&place) = PLACES.get(number / NO_ELEMENTS.len()) {
        picks[place] = NO_ELEMENTS[number % NO_ELEMENTS.len()];
    }
    StepInput::from_start(padded(book), 0, picks)
}
