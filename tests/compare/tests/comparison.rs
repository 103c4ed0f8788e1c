// The loop of the comparisons keeps what is answered differently, and only that; a floor that is missed is noticed.
use compare::comparison::{Class, Compared, Comparison};
use compare::comparisons::{named, RANDOM};
use compare::question::{independent, proved, Implementation, Question, Reply};
use inputs::{small_input, small_inputs, StepInput};
use paper::{Answer, Pick, Tally};
use std::fs;
use std::path::{Path, PathBuf};

// A folder of this test's own, empty at first.
fn folder(name: &str) -> PathBuf {
    let folder = std::env::temp_dir().join(format!("rental-{name}-{}", std::process::id()));
    let _ = fs::remove_dir_all(&folder);
    folder
}

// What a comparison finds in its first inputs between an implementation and the independent one.
fn compared(name: &str, implementation: Implementation, inputs: u64, folder: &Path) -> Compared {
    let mut compared = named(name).begin(1, [implementation, independent], folder.to_path_buf());
    compared.compare(0..inputs).expect("a folder that can be written");
    compared
}

// The proved code, but for a log: there it accepts what is refused by 11.
fn accepting_11(question: &Question) -> Reply {
    let reply = proved(question);
    if reply.answer.number == 11 && matches!(question, Question::Log(_)) {
        Reply { answer: Answer::ACCEPTED, ..reply }
    } else {
        reply
    }
}

// The proved code, but for one part of its reply.
fn changed(question: &Question, change: impl FnOnce(&mut Reply)) -> Reply {
    let mut reply = proved(question);
    change(&mut reply);
    reply
}

// The same for the tally.
fn changed_tally(question: &Question, change: impl FnOnce(&mut Tally)) -> Reply {
    changed(question, |reply| change(reply.tally.as_mut().expect("a tally")))
}

// A comparison for each part of a reply, and an implementation that changes it.
const CHANGED: [(&str, Implementation); 12] = [
    ("books", |question| changed(question, |reply| reply.answer.number += 1)),
    ("books", |question| changed(question, |reply| reply.answer.p += 1)),
    ("logs", |question| changed(question, |reply| reply.answer.q += 1)),
    ("single moves", |question| changed(question, |reply| reply.contents.push(0))),
    ("logs", |question| {
        changed(question, |reply| reply.contents.iter_mut().take(1).for_each(|value| *value ^= 1))
    }),
    ("logs", |question| {
        changed(question, |reply| reply.readers.iter_mut().take(1).for_each(|mark| *mark ^= 1 << 63))
    }),
    ("logs", |question| {
        changed(question, |reply| reply.writers.iter_mut().take(1).for_each(|mark| *mark ^= 1))
    }),
    ("whole inputs", |question| changed(question, |reply| reply.printed.push(0xa5))),
    ("logs", |question| changed_tally(question, |tally| tally.issued += 1)),
    ("logs", |question| changed_tally(question, |tally| tally.returned += 1)),
    ("whole inputs", |question| changed_tally(question, |tally| tally.issued += 1)),
    ("whole inputs", |question| changed_tally(question, |tally| tally.returned += 1)),
];

fn file(folder: &Path, name: &str) -> Vec<u8> {
    fs::read(folder.join(name)).expect("a kept file")
}

// The first small log of one move that sets a relation to a non-Boolean.
fn refused_by_11() -> u64 {
    let by_11 = |&number: &u64| paper::report(&small_input(number).input()).starts_with(b"    11");
    (0..small_inputs()).find(by_11).expect("one of 11")
}

#[test]
fn a_planted_difference_is_kept() {
    let (folder, refused) = (folder("planted"), refused_by_11());
    for name in ["small books", "small single moves", "small whole inputs"] {
        let mut same = named(name).begin(1, [accepting_11, independent], folder.clone());
        same.compare_one(refused).expect("nothing to write");
        assert_eq!((same.inputs, same.differences), (1, 0), "{name}");
    }
    let mut compared = named("small logs").begin(1, [accepting_11, independent], folder.clone());
    compared.compare_one(refused).expect("a folder that can be written");
    assert_eq!((compared.inputs, compared.differences, compared.kept.len()), (1, 1, 1));
    let kept = folder.join(format!("small-logs-seed-1-{refused}"));
    assert_eq!(compared.kept[0].folder, kept);
    assert_eq!(file(&kept, "book.txt"), small_input(refused).book);
    assert_eq!(file(&kept, "log.txt"), small_input(refused).log);
    assert!(file(&kept, "proved.txt").starts_with(b"0 0 0\n"));
    assert!(file(&kept, "independent.txt").starts_with(b"11 0 "));
    assert_eq!(fs::read_dir(&folder).expect("the folder").count(), 1);
    fs::remove_dir_all(folder).expect("the folder");
}

// The message has the name, the seed, the number, both answers and the input.
#[test]
fn a_difference_is_told() {
    let (folder, refused) = (folder("told"), refused_by_11());
    let mut compared = named("small logs").begin(1, [accepting_11, independent], folder.clone());
    compared.compare_one(refused).expect("a folder that can be written");
    let message = compared.fault().expect("a difference");
    let book = String::from_utf8(small_input(refused).book).expect("ASCII");
    let input =
        format!("small logs, seed 1, input {refused}: line 0 of the replies is '0 0 0' proved, '11 0 ");
    for part in [&input, &book, "--- log, ", "1 compared, 1 differences"] {
        assert!(message.contains(part), "no '{part}' in {message}");
    }
    fs::remove_dir_all(folder).expect("the folder");
}

#[test]
fn each_part_of_a_reply_is_compared() {
    let folder = folder("parts");
    for (part, (name, implementation)) in CHANGED.into_iter().enumerate() {
        let compared = compared(name, implementation, 50, &folder);
        // A table may have no record.
        assert!(compared.differences >= 45, "part {part}: {compared}");
    }
    fs::remove_dir_all(folder).expect("the folder");
}

#[test]
fn answers_alike_leave_nothing() {
    let folder = folder("alike");
    for Comparison { name, .. } in &RANDOM {
        let compared = compared(name, proved, 50, &folder);
        assert_eq!((compared.inputs, compared.differences), (50, 0), "{name}");
    }
    assert!(!folder.exists());
}

// Too few inputs miss the floors, even where nothing differs.
#[test]
fn floors_are_looked_at() {
    let folder = folder("floors");
    let missed = compared("books", independent, 50, &folder).fault().expect("a floor is missed");
    assert!(missed.contains("came up") && missed.contains("not 1000"), "{missed}");
    let mut places = named("places of picks").begin(1, [independent; 2], folder);
    places.compare(0..1).expect("nothing to write");
    assert!(places.fault().is_some_and(|fault| fault.contains("Answer(9) came up 1 times, not 24")));
    assert_eq!(places.counts.of(Class::Place(1, 0)), 1);
}

// The proved code, given the low 16 or 32 bits of each pick.
fn cut_to_16(question: &Question) -> Reply {
    cut(question, 1 << 16)
}

fn cut_to_32(question: &Question) -> Reply {
    cut(question, 1 << 32)
}

fn cut(question: &Question, bound: Pick) -> Reply {
    let Question::Move(input) = question else { return proved(question) };
    let picks = input.picks.iter().map(|pick| pick % bound).collect();
    proved(&Question::Move(StepInput { picks, ..input.clone() }))
}

// A library that cuts picks answers small moves and random inputs differently.
#[test]
fn cut_picks_differ() {
    for (name, implementation) in [("cut-to-16", cut_to_16 as Implementation), ("cut-to-32", cut_to_32)] {
        let folder = folder(name);
        let all = named("small picks").inputs;
        let small = compared("small picks", implementation, all(), &folder).differences;
        let random = compared("single moves", implementation, 2_000, &folder).differences;
        println!("{name}: {small} small moves, {random} random inputs differ");
        assert!(small >= 1_000 && random >= 5, "{name}");
        fs::remove_dir_all(folder).expect("the folder");
    }
}
