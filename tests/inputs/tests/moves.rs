// What holds of every move: sound contents stay sound, and only what is read decides; where a release is, also where its label is held.

use inputs::{books, fitting_picks, is_release, spoil_picks, step_input, tables, Counts, Rng, StepInput};
use paper::*;

const SEED: u64 = 21;

/// A sound book, two sound tables with equal static locations, and an agent with picks, which mostly fit the first.
struct TwoTables {
    book: Book,
    first: Vec<u16>,
    second: Vec<u16>,
    agent: usize,
    picks: Vec<Pick>,
}

fn two_tables(input: u64) -> TwoTables {
    let mut rng = Rng::for_input(SEED, input);
    let draft = books::sound(&mut rng);
    let book = check_book(&draft.text()).expect("a sound book");
    let first = tables::sound(&mut rng, &draft, &book);
    let mut second = tables::sound(&mut rng, &draft, &book);
    for function in book.functions.iter().filter(|function| !function.dynamic) {
        second[function.run()].copy_from_slice(&first[function.run()]);
    }
    let agent = rng.index(book.agents.len());
    let mut picks = fitting_picks(&mut rng, &book, &first, agent, 40);
    if rng.percent(15) {
        spoil_picks(&mut rng, draft.elements, &mut picks);
    }
    TwoTables { book, first, second, agent, picks }
}

/// A walk's outcome with its list, and the locations that it read.
fn walked(tables: &TwoTables, contents: &[u16]) -> (Result<Vec<Instruction>, Refusal>, Vec<bool>) {
    let book = &tables.book;
    let mut readers = vec![0; book.locations];
    let mut marks = Marks { readers: &mut readers, writers: &mut [], bit: 1 };
    let mut list = Vec::new();
    let outcome = walk_move(book, contents, tables.agent, &tables.picks, &mut marks, &mut list);
    (outcome.map(|()| list), readers.into_iter().map(|mark| mark != 0).collect())
}

/// The claim on reads, with equal picks and tables that agree on the reads, and on Reserve when the walk is refused.
#[test]
fn only_what_is_read_decides() {
    let (mut numbers, mut with_picks, mut with_release) = (Counts::new(), 0, 0);
    for input in 0..9_000 {
        let tables = two_tables(input);
        let TwoTables { book, first, picks, .. } = &tables;
        let mut second = tables.second.clone();
        let (outcome, read) = walked(&tables, first);
        let differ = |a: &[u16], b: &[u16]| a.iter().zip(b).any(|(a, b)| a != b);
        let same = |location: usize| read[location] || (outcome.is_err() && location < book.elements);
        for location in (0..book.locations).filter(|&location| same(location)) {
            second[location] = first[location];
        }
        if differ(first, &second) {
            let number = outcome.as_ref().map_or_else(|refusal| refusal.number, |_| 0);
            numbers.add(number);
            with_picks += usize::from(number == 0 && !picks.is_empty());
            with_release += usize::from(outcome.as_ref().is_ok_and(|list| list.iter().any(is_release)));
        }
        assert_eq!(walked(&tables, &second).0, outcome, "input {input}");
    }
    println!("walks: {numbers}; of those to the end {with_picks} with picks, {with_release} with a release");
    numbers.assert_floors([(0, 1_000), (11, 1), (12, 200), (13, 1), (14, 1), (18, 50), (19, 200)]);
    let refused: u64 = [11, 12, 13, 14, 18, 19].into_iter().map(|number| numbers.of(number)).sum();
    assert!(refused >= 300, "{numbers}");
    assert!(
        with_picks >= 500 && with_release >= 200,
        "{with_picks} with picks, {with_release} with a release"
    );
}

/// With equal picks and tables that agree on the reads, a move that releases gives the same updates if both tables hold the released labels at
/// the same locations; otherwise it may not.
#[test]
fn equal_reads_and_equal_holders_give_equal_updates() {
    let (mut fired, mut others) = (0, 0);
    for input in 0..18_000 {
        let TwoTables { book, first, mut second, agent, picks } = two_tables(input);
        let mut list = Vec::new();
        let walk = walk_move(&book, &first, agent, &picks, &mut Marks::none(), &mut list);
        if walk.is_err() || !list.iter().any(is_release) {
            continue;
        }
        let Ok((reads, _)) = reads_and_writes(&book, &first, agent, &picks) else { continue };
        reads.into_iter().for_each(|location| second[location] = first[location]);
        if first == second {
            continue;
        }
        fired += 1;
        let mut again = Vec::new();
        let walk = walk_move(&book, &second, agent, &picks, &mut Marks::none(), &mut again);
        assert_eq!((walk, &again), (Ok(()), &list), "input {input}");
        let expected = updates(&book, &first, &list);
        others += usize::from(updates(&book, &second, &list) != expected);
        let is_released = |value: u16| list.contains(&Instruction::Release { label: value });
        for (value, &held) in second.iter_mut().zip(&first) {
            if is_released(*value) {
                *value = held;
            }
        }
        assert_eq!(updates(&book, &second, &list), expected, "input {input}");
    }
    println!("{fired} moves that release, {others} with other updates where other locations hold the label");
    assert!(fired >= 500 && others >= 50, "{fired} moves that release, {others} with other updates");
}

#[test]
fn moves_keep_contents_sound() {
    let (mut changed, mut idle, mut refused) = (0, 0, 0);
    for input in 0..20_000 {
        let StepInput { book: text, contents: mut after, agent, picks, lent } =
            step_input(&mut Rng::for_input(SEED, input));
        let Ok(book) = check_book(&text) else { continue };
        let before = after.clone();
        if step(&text, &mut after, agent, &picks, lent).number == 0 {
            *(if after == before { &mut idle } else { &mut changed }) += 1;
            assert_eq!(fault_in_table(&book, &after), None, "input {input}");
            assert_eq!(after[book.locations..], before[book.locations..]);
        } else {
            refused += 1;
            assert_eq!(after, before, "input {input}");
        }
    }
    let enough = changed >= 3_000 && idle >= 2_000 && refused >= 3_000;
    assert!(enough, "{changed} changed something, {idle} nothing, {refused} were refused");
}

/// The contents after these instructions, one location at a time, in the words of SPECIFICATION 4.
fn by_the_words(book: &Book, before: &[u16], list: &[Instruction]) -> Vec<u16> {
    let released = |label: usize| list.contains(&Instruction::Release { label: label as u16 });
    let mut after = before.to_vec();
    for function in book.functions.iter().filter(|function| function.dynamic) {
        for (offset, location) in function.run().enumerate() {
            let row = offset / book.elements.pow(function.arity.saturating_sub(1));
            let arguments = [row, offset % book.elements];
            let mut used = arguments[..function.arity as usize].iter();
            if used.any(|&argument| released(argument)) || released(before[location] as usize) {
                after[location] = function.default_value();
            }
        }
    }
    for instruction in list {
        match *instruction {
            Instruction::Release { label } => after[label as usize] = TRUE,
            Instruction::Update { location, value } => after[location] = value,
        }
    }
    after
}

#[test]
fn a_move_leaves_what_its_instructions_say() {
    let mut with_release = 0;
    for input in 0..6_000 {
        let TwoTables { book, first: before, agent, picks, .. } = two_tables(input);
        let mut after = before.clone();
        let mut list = Vec::new();
        if fire_move(&book, &mut after, agent, &picks, Marks::none(), &mut list).is_ok() {
            with_release += usize::from(list.iter().any(is_release));
            assert_eq!(after, by_the_words(&book, &before, &list), "input {input}");
        }
    }
    assert!(with_release >= 100, "only {with_release} moves with a release");
}
