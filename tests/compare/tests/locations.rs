// Every location of small books, by each entry that finds one from a function with its arguments or takes one apart again: contents lines and what
// is printed, sets and reads, marks, 8 of a lent table, releases, and 15 beside one. The number of a location is counted here, one after another.
use compare::question::{independent, proved, Question, Reply};
use inputs::{compact_of, text_of, BookAndLog, BookDraft, LogDraft, StepInput};
use paper::{Answer, Line, FALSE, INSTRUCTIONS, TRUE, UNDEF};

// E and P.
const SIZES: [[u32; 2]; 5] = [[4, 4], [5, 4], [6, 4], [7, 4], [5, 5]];

// The kinds of up to three functions.
const KINDS: [[u32; 3]; 5] = [[2, 2, 2], [0, 1, 2], [1, 2, 3], [2, 3, 0], [3, 0, 1]];

// Nullary functions of the books with rules. They hold labels for the first and the second argument, a value or a label to release, and what is read.
const HOLDERS: [[u32; 2]; 4] = [[0, 2]; 4];
const VALUE: usize = 2;
const READ: usize = 3;

// The permanent element that is used as a value.
const NUMBER: u32 = 3;

// A location: its number, and its function with as many arguments as that has.
#[derive(Debug)]
struct Location {
    number: usize,
    function: u32,
    arguments: Vec<u32>,
}

impl Location {
    // The contents line that gives it a value.
    fn line(&self, value: u32) -> Line {
        let argument = |i: usize| self.arguments.get(i).copied().unwrap_or(0);
        [self.function, argument(0), argument(1), value]
    }
}

// All lists of this length of numbers below a bound, those with the lower first number first.
fn lists_of(bound: u32, length: u32) -> Vec<Vec<u32>> {
    (0..length).fold(vec![Vec::new()], |lists, _| {
        let longer =
            |list: &Vec<u32>| (0..bound).map(|next| [&list[..], &[next]].concat()).collect::<Vec<_>>();
        lists.iter().flat_map(longer).collect()
    })
}

// All locations of a book, counted function after function and argument after argument.
fn counted(draft: &BookDraft) -> Vec<Location> {
    let mut locations = Vec::new();
    for function in 0..draft.functions.len() as u32 {
        for arguments in lists_of(draft.elements, draft.arity(function)) {
            locations.push(Location { number: locations.len(), function, arguments });
        }
    }
    locations
}

// A book with a rule that does nothing, or with holders and no rule yet.
struct Small {
    draft: BookDraft,
    locations: Vec<Location>,
    // The number of each holder's location.
    holders: Vec<usize>,
}

// Reserve, then every list of two or three arities with each of the kinds, of each size.
fn lists() -> impl Iterator<Item = ([u32; 2], Vec<[u32; 2]>)> {
    let arities = [2, 3].into_iter().flat_map(|length| lists_of(3, length));
    let with_kinds = |arities: Vec<u32>| {
        KINDS.map(|kinds| arities.iter().zip(kinds).map(|(&arity, kind)| [arity, kind]).collect::<Vec<_>>())
    };
    let lists: Vec<_> = arities.flat_map(with_kinds).collect();
    SIZES.into_iter().flat_map(move |size| lists.clone().into_iter().map(move |list| (size, list)))
}

fn books_without_rules() -> impl Iterator<Item = Small> {
    lists().map(|([elements, permanent], list)| {
        let mut draft = BookDraft::new(elements, permanent, &list);
        let skip = draft.skip();
        draft.agent(skip, 0);
        Small { locations: counted(&draft), draft, holders: Vec::new() }
    })
}

// The holders stand before the list, and behind it.
fn books_with_holders() -> impl Iterator<Item = Small> {
    lists().flat_map(|([elements, permanent], list)| {
        let orders = [([&HOLDERS[..], &list].concat(), 1), ([&list[..], &HOLDERS].concat(), list.len() + 1)];
        orders.map(|(functions, first)| {
            let draft = BookDraft::new(elements, permanent, &functions);
            let locations = counted(&draft);
            let number = |function: usize| {
                let is_its = |location: &&Location| location.function as usize == function;
                locations.iter().find(is_its).expect("each function has a location").number
            };
            let holders = (first..first + HOLDERS.len()).map(number).collect();
            Small { draft, locations, holders }
        })
    })
}

// The reply of the proved code, which is that of the independent one.
fn reply(question: Question) -> Reply {
    let reply = proved(&question);
    let files = || question.files().into_iter().map(|(name, text)| (name, String::from_utf8(text)));
    assert!(reply == independent(&question), "they differ: {:#?}", files().collect::<Vec<_>>());
    reply
}

// How many locations were tried, and a floor of it.
fn assert_tried(what: &str, tried: usize, floor: usize) {
    println!("{what}: {tried} locations");
    assert!(tried >= floor, "{what}: {tried} locations, not {floor}");
}

// What may stand in a book's table.
impl Small {
    fn is_label(&self, element: u32) -> bool {
        element >= self.draft.permanent
    }

    fn labels(&self) -> std::ops::Range<u32> {
        self.draft.permanent..self.draft.elements
    }

    fn default(&self, location: &Location) -> u16 {
        if self.draft.is_relation(location.function) {
            FALSE
        } else {
            UNDEF
        }
    }

    // Whether a value can stand at a location while all else is at its default, but for this label on the roll.
    fn can_hold(&self, location: &Location, value: u32, free: Option<u32>) -> bool {
        let Location { function, ref arguments, .. } = *location;
        if value == u32::from(self.default(location)) {
            return true;
        }
        if value >= self.draft.elements || self.draft.is_relation(function) && value != u32::from(TRUE) {
            return false;
        }
        let mut named = arguments.iter().copied().chain([value]);
        match (function, self.draft.is_dynamic(function)) {
            (0, _) => self.is_label(arguments[0]),
            (_, true) => named.all(|element| Some(element) != free),
            (_, false) => named.all(|element| !self.is_label(element)),
        }
    }

    // A value other than the default: the last that can stand there with no label on the roll, if one can.
    fn other(&self, location: &Location) -> Option<u32> {
        let values = 0..self.draft.elements;
        let value = values.rev().find(|&value| self.can_hold(location, value, None))?;
        (value != u32::from(self.default(location))).then_some(value)
    }

    // The same, but permanent, and whether it can stand there or not.
    fn permanent_other(&self, location: &Location) -> u32 {
        if self.draft.is_relation(location.function) {
            u32::from(TRUE)
        } else {
            NUMBER
        }
    }

    fn is_holder(&self, location: &Location) -> bool {
        self.holders.contains(&location.number)
    }

    // Its locations but for Reserve and the holders.
    fn listed(&self) -> impl Iterator<Item = &Location> {
        self.locations.iter().filter(|location| location.function != 0 && !self.is_holder(location))
    }
}

// Tables.
impl Small {
    // The defaults.
    fn defaults(&self) -> Vec<u16> {
        self.locations.iter().map(|location| self.default(location)).collect()
    }

    // The defaults but for these values.
    fn table(&self, held: impl IntoIterator<Item = (usize, u32)>) -> Vec<u16> {
        let mut table = self.defaults();
        held.into_iter().for_each(|(number, value)| table[number] = value as u16);
        table
    }

    // A value other than the default wherever one can stand, but for Reserve and the holders.
    fn others(&self) -> Vec<u16> {
        self.table(self.listed().filter_map(|location| Some((location.number, self.other(location)?))))
    }

    // What a release of a label leaves.
    fn released(&self, table: &[u16], label: u32) -> Vec<u16> {
        let value = |location: &Location| {
            let (held, is_argument) = (table[location.number], location.arguments.contains(&label));
            match location.function {
                0 if is_argument => TRUE,
                function if !self.draft.is_dynamic(function) => held,
                _ if is_argument || u32::from(held) == label => self.default(location),
                _ => held,
            }
        };
        self.locations.iter().map(value).collect()
    }

    // For messages.
    fn shown(&self) -> String {
        let BookDraft { elements, permanent, ref functions, .. } = self.draft;
        format!("E {elements}, P {permanent}, functions {}", compact_of(functions))
    }
}

// A single move of an agent; gives the answer and the table that it leaves.
fn moved(book: &BookDraft, agent: usize, table: &[u16]) -> (Answer, Vec<u16>) {
    let (book, contents, picks) = (book.text(), table.to_vec(), Vec::new());
    let input = StepInput { book, contents, agent, picks, lent: INSTRUCTIONS };
    let reply = reply(Question::Move(input));
    (reply.answer, reply.contents)
}

// ---- contents lines, and what is printed

// A book with these contents lines starts with this table, and they are what is printed.
fn assert_starts(small: &Small, contents: Vec<Line>, table: &[u16]) {
    let shown = format!("{}, contents {}", small.shown(), compact_of(&contents));
    let printed = text_of(&[&[[0, 0, 0, contents.len() as u32]], &contents[..]].concat());
    let book = BookDraft { contents, ..small.draft.clone() }.text();
    let log = LogDraft::default().text();
    let logged = BookAndLog { book, log };
    assert_eq!(reply(Question::Input(logged.input())).printed, printed, "{shown}");
    let start = reply(Question::Log(logged.run()));
    assert_eq!((start.answer, &start.contents[..]), (Answer::ACCEPTED, table), "{shown}");
}

#[test]
fn contents_lines_stand_at_their_locations_and_are_printed() {
    let mut tried = 0;
    for small in books_without_rules() {
        for location in &small.locations {
            let Some(value) = small.other(location) else { continue };
            assert_starts(&small, vec![location.line(value)], &small.table([(location.number, value)]));
            tried += 1;
        }
        let all = small.listed().filter_map(|location| Some(location.line(small.other(location)?)));
        assert_starts(&small, all.collect(), &small.others());
    }
    assert_tried("contents lines", tried, 26_000);
}

// ---- sets and reads

// Nodes at a location.
impl Small {
    fn holder(&self, draft: &mut BookDraft, holder: usize) -> u32 {
        draft.nullary(self.locations[self.holders[holder]].function)
    }

    // The term of a location, in which a holder stands for a label.
    fn term(&self, draft: &mut BookDraft, location: &Location) -> u32 {
        let operand = |(holder, &element): (usize, &u32)| {
            if self.is_label(element) {
                self.holder(draft, holder)
            } else {
                draft.element(element)
            }
        };
        let operands: Vec<u32> = location.arguments.iter().enumerate().map(operand).collect();
        match operands[..] {
            [] => draft.nullary(location.function),
            [argument] => draft.unary(location.function, argument),
            [first, second] => draft.binary(location.function, first, second),
            _ => unreachable!("no function has three arguments"),
        }
    }

    // What the holders have to hold for such a term.
    fn held<'a>(&'a self, location: &'a Location) -> impl Iterator<Item = (usize, u32)> + 'a {
        let held = self.holders.iter().copied().zip(location.arguments.iter().copied());
        held.filter(|&(_, element)| self.is_label(element))
    }

    // Agent 0 sets a location, if its function is dynamic, and the last agent reads it.
    fn setting_and_reading(&self, location: &Location) -> BookDraft {
        let mut draft = self.draft.clone();
        if draft.is_dynamic(location.function) {
            let (term, value) = (self.term(&mut draft, location), self.holder(&mut draft, VALUE));
            let set = draft.set(term, value);
            draft.agent(set, 0);
        }
        let (read, term) = (self.holder(&mut draft, READ), self.term(&mut draft, location));
        let set = draft.set(read, term);
        draft.agent(set, 1);
        draft
    }
}

// Whatever stands elsewhere, a set changes the location and nothing else, and a read gets what stands there.
fn assert_set_and_read(small: &Small, location: &Location, elsewhere: &[u16]) {
    let shown = || format!("{}, {location:?}", small.shown());
    let book = small.setting_and_reading(location);
    let other = small.other(location);
    let mut before = elsewhere.to_vec();
    before[location.number] = small.default(location);
    let held = small.held(location).chain(other.map(|value| (small.holders[VALUE], value)));
    held.for_each(|(number, value)| before[number] = value as u16);
    let mut after = before.clone();
    after[location.number] = other.map_or(small.default(location), |value| value as u16);
    if small.draft.is_dynamic(location.function) {
        assert_eq!(moved(&book, 0, &before), (Answer::ACCEPTED, after.clone()), "set: {}", shown());
    }
    let reader = book.agents.len() - 1;
    for table in [before, after] {
        let mut read = table.clone();
        read[small.holders[READ]] = table[location.number];
        assert_eq!(moved(&book, reader, &table), (Answer::ACCEPTED, read), "read: {}", shown());
    }
}

#[test]
fn sets_and_reads_are_of_the_location() {
    let mut tried = 0;
    for small in books_with_holders() {
        let elsewhere = [small.defaults(), small.others()];
        for location in small.listed() {
            elsewhere.iter().for_each(|table| assert_set_and_read(&small, location, table));
            tried += 1;
        }
    }
    assert_tried("sets and reads", tried, 60_000);
}

// Agent 0 sets a location, then agent 1 reads it: what each of the two moves reads and writes is marked, and what is read is the value set.
fn assert_marked(small: &Small, location: &Location) {
    let (value, locations) = (small.permanent_other(location), small.locations.len());
    let held: Vec<_> = small.held(location).chain([(small.holders[VALUE], value)]).collect();
    let mut book = small.setting_and_reading(location);
    book.contents = held.iter().map(|&(number, value)| small.locations[number].line(value)).collect();
    let log = LogDraft::in_sequence(vec![0, 1]).text();
    let run = reply(Question::Log(BookAndLog { book: book.text(), log }.run()));
    let [mut readers, mut writers] = [vec![0; locations], vec![0; locations]];
    small.held(location).for_each(|(number, _)| readers[number] = 0b11);
    readers[small.holders[VALUE]] = 0b01;
    readers[location.number] = 0b10;
    writers[location.number] = 0b01;
    writers[small.holders[READ]] = 0b10;
    let set = [(location.number, value), (small.holders[READ], value)];
    let contents = small.table(held.into_iter().chain(set));
    let shown = || format!("{}, {location:?}", small.shown());
    assert_eq!((run.answer, run.contents), (Answer::ACCEPTED, contents), "{}", shown());
    assert_eq!((run.readers, run.writers), (readers, writers), "{}", shown());
}

#[test]
fn marks_are_at_the_location() {
    let mut tried = 0;
    for small in books_with_holders() {
        for location in small.listed().filter(|location| small.draft.is_dynamic(location.function)) {
            assert_marked(&small, location);
            tried += 1;
        }
    }
    assert_tried("marks", tried, 36_000);
}

// ---- 8 of a lent table

#[test]
fn lent_tables_are_refused_at_the_location() {
    let mut tried = 0;
    for small in books_without_rules() {
        let locations = small.locations.len();
        let short = Answer { number: 2, p: locations as u32, q: 0 };
        assert_eq!(moved(&small.draft, 0, &small.defaults()[1..]).0, short, "{}", small.shown());
        for location in &small.locations {
            let free = small.labels().filter(|_| location.function != 0).map(Some).chain([None]);
            let elements = small.draft.elements;
            let values = [u32::from(UNDEF), u32::from(TRUE), elements - 1, elements];
            for (free, value) in free.flat_map(|free| values.map(|value| (free, value))) {
                // Reserve is function 0, so the label is its location there.
                let roll = free.map(|label| (label as usize, u32::from(TRUE)));
                let table = small.table(roll.into_iter().chain([(location.number, value)]));
                let answer = if small.can_hold(location, value, free) {
                    Answer::ACCEPTED
                } else {
                    Answer { number: 8, p: location.number as u32, q: 0 }
                };
                let shown = || format!("{}, {value} at {location:?}, roll {free:?}", small.shown());
                assert_eq!(moved(&small.draft, 0, &table), (answer, table), "{}", shown());
            }
            tried += 1;
        }
    }
    assert_tried("lent tables", tried, 35_000);
}

// ---- releases

// Tables for a release of a label that a holder has: permanent values, and all values in turns.
fn tables_for_release(small: &Small, label: u32) -> [Vec<u16>; 2] {
    let holder = (small.holders[VALUE], label);
    let can_hold = |&(location, value): &(&Location, u32)| small.can_hold(location, value, None);
    let number = |(location, value): (&Location, u32)| (location.number, value);
    let permanent = small.listed().map(|location| (location, small.permanent_other(location)));
    let values = (0..small.draft.elements).cycle();
    let in_turns = small.listed().zip(values);
    [
        small.table(permanent.filter(can_hold).map(number).chain([holder])),
        small.table(in_turns.filter(can_hold).map(number).chain([holder])),
    ]
}

#[test]
fn releases_clear_what_has_or_holds_the_label() {
    let mut tried = 0;
    for small in books_with_holders() {
        let mut book = small.draft.clone();
        let label = small.holder(&mut book, VALUE);
        let release = book.release(label);
        book.agent(release, 0);
        for label in small.labels() {
            for table in tables_for_release(&small, label) {
                let left = small.released(&table, label);
                assert_eq!(moved(&book, 0, &table), (Answer::ACCEPTED, left), "{}, {label}", small.shown());
            }
            tried += small.locations.len();
        }
    }
    assert_tried("releases", tried, 117_000);
}

// A book in which agent 0 sets a location to a permanent value and releases a label.
fn setting_and_releasing(small: &Small, location: &Location) -> BookDraft {
    let mut draft = small.draft.clone();
    let (term, value) = (small.term(&mut draft, location), draft.element(small.permanent_other(location)));
    let set = draft.set(term, value);
    let label = small.holder(&mut draft, VALUE);
    let release = draft.release(label);
    let both = draft.both(set, release);
    draft.agent(both, 0);
    draft
}

#[test]
fn a_set_clashes_with_a_release_where_the_label_is_an_argument() {
    let mut tried = 0;
    for small in books_with_holders() {
        for location in small.listed().filter(|location| small.draft.is_dynamic(location.function)) {
            let book = setting_and_releasing(&small, location);
            for label in small.labels() {
                let table = small.table(small.held(location).chain([(small.holders[VALUE], label)]));
                let expected = if location.arguments.contains(&label) {
                    (Answer { number: 15, p: 0, q: location.number as u32 }, table.clone())
                } else {
                    let mut left = small.released(&table, label);
                    left[location.number] = small.permanent_other(location) as u16;
                    (Answer::ACCEPTED, left)
                };
                assert_eq!(moved(&book, 0, &table), expected, "{}, {label} at {location:?}", small.shown());
                tried += 1;
            }
        }
    }
    assert_tried("sets beside releases", tried, 57_000);
}
