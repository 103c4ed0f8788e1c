// Sound books: functions, contents, rules and agents at random, from tiny to full size.

use crate::book_draft::{BookDraft, RESERVE};
use crate::choice_rules::{choosing, choosing_in_shared};
use crate::release_rules::{self, releasing_or_not};
use crate::rng::Rng;
use crate::root_rules::{self, at_own_element, importing_or_releasing};
use paper::Line;
use std::collections::BTreeMap;

pub const MOST_NODES: usize = 1_024;
const MOST_LOCATIONS: usize = 65_536;

/// Bounds of a size of books.
struct Size {
    elements: (u32, u32),
    functions: (u32, u32),
    /// The most rules of a root.
    rules: u32,
    roots: u32,
    agents: u32,
    locations: usize,
}

const TINY: Size =
    Size { elements: (4, 9), functions: (1, 5), rules: 4, roots: 2, agents: 4, locations: 400 };
const SMALL: Size =
    Size { elements: (8, 24), functions: (2, 8), rules: 10, roots: 3, agents: 6, locations: 1_500 };
const MIDDLING: Size =
    Size { elements: (25, 130), functions: (4, 12), rules: 30, roots: 5, agents: 16, locations: 3_000 };

/// The nullary function that holds a label, where a book is about labels.
const HOLDER: u32 = 2;

/// The universe of most choices, where a book is about these, and the unary function that they set.
const FIRST_UNIVERSE: u32 = 1;
const NOTES: u32 = 2;

/// What the rules of a book are about; `THEMES` has them all, with how likely each is.
#[derive(Clone, Copy, PartialEq, Eq)]
enum Theme {
    Any,
    /// Each agent sets what is at its own element.
    OwnElement,
    /// Imports and releases.
    Labels,
    Choices,
    /// Choices in one universe, which some agents change.
    SharedUniverse,
    /// Agents that release labels while others set locations.
    Releases,
}

const THEMES: [Theme; 6] =
    [Theme::Any, Theme::OwnElement, Theme::Labels, Theme::Choices, Theme::SharedUniverse, Theme::Releases];
const WEIGHTS: [u32; 6] = [26, 4, 11, 23, 10, 26];

/// A sound book, mostly small.
pub fn sound(rng: &mut Rng) -> BookDraft {
    if rng.below(1_200) == 0 {
        return full(rng);
    }
    let size = [&TINY, &SMALL, &MIDDLING][rng.weighted(&[47, 45, 8])];
    let theme = THEMES[rng.weighted(&WEIGHTS)];
    let careful = rng.percent(60);
    let mut draft = without_rules(rng, size, theme);
    let least = if theme == Theme::Releases { 2 } else { 1 };
    let count = rng.range(least, (size.roots + least - 1).min(draft.permanent));
    let mut roots: Vec<u32> = (0..count)
        .map(|number| {
            let rules = rng.range(1, size.rules);
            match theme {
                Theme::Any => root_rules::root(rng, &mut draft, careful, rules),
                Theme::OwnElement => at_own_element(rng, &mut draft),
                Theme::Labels => importing_or_releasing(rng, &mut draft, careful),
                Theme::Choices => mostly_choosing(rng, &mut draft, careful),
                Theme::SharedUniverse => choosing_in_shared(rng, &mut draft, FIRST_UNIVERSE, NOTES),
                Theme::Releases => releasing_or_not(rng, &mut draft, careful, number),
            }
        })
        .collect();
    // An agent that changes nothing, most often beside releases.
    if count < draft.permanent && rng.percent(if theme == Theme::Labels { 60 } else { 25 }) {
        roots.push(root_rules::idle(rng, &mut draft));
    }
    // A book of long rules may have too many nodes: then another one.
    if draft.nodes.len() > MOST_NODES {
        return sound(rng);
    }
    add_agents(rng, &mut draft, &roots, size.agents);
    if theme == Theme::Releases {
        release_rules::fill_slots(rng, &mut draft);
    }
    draft
}

/// Elements, functions and contents of a size.
fn without_rules(rng: &mut Rng, size: &Size, theme: Theme) -> BookDraft {
    let least = if theme == Theme::Releases { release_rules::ELEMENTS } else { size.elements.0 };
    let elements = rng.range(least.max(size.elements.0), size.elements.1);
    let most_labels = (elements - 4).min(elements / 2 + 1);
    let labels = match theme {
        Theme::Labels | Theme::Releases => most_labels,
        _ => rng.range(0, most_labels),
    };
    let mut draft = BookDraft::new(elements, elements - labels, &functions_of(rng, theme));
    for _ in 1..rng.range(size.functions.0, size.functions.1) {
        let mut function = any_function(rng);
        draft.functions.push(function);
        if draft.locations() > size.locations {
            function[0] = rng.below(2);
            *draft.functions.last_mut().expect("just added") = function;
        }
    }
    draft.contents = match theme {
        Theme::Releases => {
            let share = rng.pick(&[0, 30, 50]);
            entries_with(rng, &draft, share)
        }
        _ => entries(rng, &draft),
    };
    if theme == Theme::Labels && rng.percent(60) {
        hold_label(rng, &mut draft);
    }
    if theme == Theme::SharedUniverse || (theme == Theme::Choices && rng.percent(90)) {
        add_members(rng, &mut draft);
    }
    draft
}

/// The functions, as arity and kind, that the rules of a theme are about.
fn functions_of(rng: &mut Rng, theme: Theme) -> Vec<[u32; 2]> {
    match theme {
        Theme::Any | Theme::OwnElement => Vec::new(),
        // A universe, the holder, and a function for the labels.
        Theme::Labels => vec![[1, 3], [0, 2], [1, 2]],
        // A universe to pick from, and something to set.
        Theme::Choices | Theme::SharedUniverse => {
            let universe = if theme == Theme::SharedUniverse { 3 } else { rng.pick(&[1, 3, 3]) };
            vec![[1, universe], [1, rng.pick(&[2, 2, 3])]]
        }
        Theme::Releases => release_rules::FUNCTIONS.to_vec(),
    }
}

/// A rule with a choice, alone or beside one at the agent's own element; or a rule without a choice.
fn mostly_choosing(rng: &mut Rng, draft: &mut BookDraft, careful: bool) -> u32 {
    match rng.weighted(&[64, 14, 8, 14]) {
        0 => choosing(rng, draft, careful),
        1 => {
            let (choice, other) = (choosing(rng, draft, careful), at_own_element(rng, draft));
            draft.both(choice, other)
        }
        2 => importing_or_releasing(rng, draft, careful),
        _ => root_rules::root(rng, draft, careful, 4),
    }
}

/// Lets the first universe of a draft have members.
fn add_members(rng: &mut Rng, draft: &mut BookDraft) {
    let universe = FIRST_UNIVERSE;
    let bound = if draft.is_dynamic(universe) { draft.elements } else { draft.permanent };
    for _ in 0..rng.range(1, 5) {
        let element = rng.below(bound);
        if !draft.is_given(0, element) && !draft.is_given(universe, element) {
            draft.insert_contents([universe, element, 0, 2]);
        }
    }
}

/// Lets the holder hold a label in use, if there is one.
fn hold_label(rng: &mut Rng, draft: &mut BookDraft) {
    if let Some(label) = rng.any(&draft.used_labels()) {
        draft.contents.retain(|line| line[0] != HOLDER);
        draft.insert_contents([HOLDER, 0, 0, label]);
    }
}

fn any_function(rng: &mut Rng) -> Line {
    let arity = rng.weighted(&[32, 52, 16]) as u32;
    let kind = match arity {
        0 => rng.weighted(&[6, 4, 55, 35]),
        _ => rng.weighted(&[10, 14, 36, 40]),
    };
    [arity, kind as u32, 0, 0]
}

/// Contents lines that keep the rules, for the functions of a draft.
pub fn entries(rng: &mut Rng, draft: &BookDraft) -> Vec<Line> {
    let share = rng.pick(&[0, 30, 60, 60, 100]);
    entries_with(rng, draft, share)
}

/// The same, with this share of the labels on the roll, in hundredths.
fn entries_with(rng: &mut Rng, draft: &BookDraft, share: u32) -> Vec<Line> {
    let free: Vec<bool> =
        (0..draft.elements).map(|element| element >= draft.permanent && rng.percent(share)).collect();
    let on_roll = (0..draft.elements).filter(|&element| free[element as usize]);
    let mut lines: Vec<Line> = on_roll.map(|label| [0, label, 0, 2]).collect();
    for function in 1..draft.functions.len() as u32 {
        fill(rng, draft, function, &free, &mut lines);
    }
    lines
}

/// Adds sound lines of one function: none, a few or many.
fn fill(rng: &mut Rng, draft: &BookDraft, function: u32, free: &[bool], lines: &mut Vec<Line>) {
    let dynamic = draft.is_dynamic(function);
    let mut least = 0;
    if dynamic && draft.is_relation(function) && draft.arity(function) == 1 && rng.percent(40) {
        least = draft.permanent;
    }
    let bound = if dynamic { draft.elements } else { draft.permanent };
    let allowed: Vec<u32> = (least..bound).filter(|&element| !free[element as usize]).collect();
    if allowed.is_empty() {
        return;
    }
    let labels: Vec<u32> = (draft.permanent..bound).filter(|&element| !free[element as usize]).collect();
    let mode = rng.weighted(&[25, 40, 15, 20]);
    let arity = draft.arity(function);
    let small = draft.size(function) <= 700;
    let mut found: BTreeMap<(u32, u32), u32> = BTreeMap::new();
    match mode {
        0 => {}
        2 | 3 if small => {
            let share = if mode == 3 { 100 } else { 50 };
            for arguments in all_arguments(arity, &allowed) {
                if rng.percent(share) {
                    found.insert(arguments, value(rng, draft, function, &labels));
                }
            }
        }
        _ => {
            for _ in 0..rng.range(1, 4) {
                let arguments = some_arguments(rng, arity, &allowed);
                found.insert(arguments, value(rng, draft, function, &labels));
            }
        }
    }
    lines.extend(found.into_iter().map(|((first, second), value)| [function, first, second, value]));
}

fn all_arguments(arity: u32, allowed: &[u32]) -> Vec<(u32, u32)> {
    match arity {
        0 => vec![(0, 0)],
        1 => allowed.iter().map(|&first| (first, 0)).collect(),
        _ => allowed.iter().flat_map(|&first| allowed.iter().map(move |&second| (first, second))).collect(),
    }
}

fn some_arguments(rng: &mut Rng, arity: u32, allowed: &[u32]) -> (u32, u32) {
    let first = rng.pick(allowed);
    let second = rng.pick(allowed);
    [(0, 0), (first, 0), (first, second)][arity as usize]
}

/// A value other than the default; labels are those in use, none for a static function.
fn value(rng: &mut Rng, draft: &BookDraft, function: u32, labels: &[u32]) -> u32 {
    if draft.is_relation(function) {
        return 2;
    }
    match rng.any(labels) {
        Some(label) if rng.percent(35) => label,
        _ if rng.percent(60) => 3 + rng.below((draft.permanent - 3).min(6)),
        _ => rng.range(1, draft.permanent - 1),
    }
}

/// Agents with ascending elements, at most so many; each root gets one at least.
fn add_agents(rng: &mut Rng, draft: &mut BookDraft, roots: &[u32], most: u32) {
    let most = most.min(draft.permanent).min(16);
    let count = rng.range(roots.len() as u32, most.max(roots.len() as u32)) as usize;
    let mut assigned: Vec<u32> = roots.to_vec();
    while assigned.len() < count {
        let root = rng.pick(roots);
        let place = rng.index(assigned.len() + 1);
        assigned.insert(place, root);
    }
    let mut elements: Vec<u32> = Vec::new();
    let mut element = 0;
    for left in (0..count as u32).rev() {
        // As many elements as agents left have to stay above.
        let spare = draft.permanent - element - left - 1;
        element += rng.below(spare.min(3) + 1);
        elements.push(element);
        element += 1;
    }
    draft.agents = assigned.into_iter().zip(elements).map(|(root, element)| [root, element, 0, 0]).collect();
}

/// A book at one or more of its bounds.
pub fn full(rng: &mut Rng) -> BookDraft {
    let (elements, functions) = full_functions(rng);
    let permanent = rng.pick(&[4, elements / 2, elements - 1, elements]);
    let mut draft = BookDraft { functions, ..BookDraft::new(elements, permanent, &[]) };
    debug_assert!(draft.locations() <= MOST_LOCATIONS);
    draft.contents = if rng.percent(25) { every_location(rng, &draft) } else { entries(rng, &draft) };
    let count = rng.range(1, 4);
    let mut roots: Vec<u32> = (0..count).map(|_| root_rules::root(rng, &mut draft, true, 8)).collect();
    if draft.nodes.len() > MOST_NODES - 6 {
        return full(rng);
    }
    let last = roots.last_mut().expect("there is a root");
    if rng.percent(60) && draft.depth(*last) < root_rules::MOST_DEPTH {
        *last = pad_nodes(&mut draft, *last, MOST_NODES);
    }
    let agents = if rng.percent(60) { 16 } else { 4 };
    add_agents(rng, &mut draft, &roots, agents);
    draft
}

/// Elements and functions of books with many locations; some fill the table to its last record.
fn full_functions(rng: &mut Rng) -> (u32, Vec<Line>) {
    let (elements, arities): (u32, Vec<u32>) = match rng.below(6) {
        0 => (10_000, vec![1; rng.range(1, 5) as usize]),
        1 => (2_048, vec![1; 31]),
        2 => (4_096, vec![1; 15]),
        3 => (255, vec![2, 1, 0]),
        4 => (127, vec![2, 2, 2, 2, 1, 1, 0, 0]),
        _ => (rng.range(200, 2_000), vec![1; rng.range(3, 31) as usize]),
    };
    let mut functions = vec![RESERVE];
    functions.extend(arities.into_iter().map(|arity| [arity, any_function(rng)[1], 0, 0]));
    (elements, functions)
}

/// A contents line for each location that can have one: no label is free, so none is a trace.
fn every_location(rng: &mut Rng, draft: &BookDraft) -> Vec<Line> {
    let mut lines = Vec::new();
    for function in 1..draft.functions.len() as u32 {
        let bound = if draft.is_dynamic(function) { draft.elements } else { draft.permanent };
        let allowed: Vec<u32> = (0..bound).collect();
        let labels: Vec<u32> = (draft.permanent..bound).collect();
        for (first, second) in all_arguments(draft.arity(function), &allowed) {
            lines.push([function, first, second, value(rng, draft, function, &labels)]);
        }
    }
    lines
}

/// Joins rules without effect to a root until the draft has exactly this many nodes; at least six
/// are missing. Gives the new root.
pub fn pad_nodes(draft: &mut BookDraft, root: u32, target: usize) -> u32 {
    let missing = target - draft.nodes.len() - 1;
    let first = if missing.is_multiple_of(2) {
        let fails = draft.element(1);
        let (b, c) = (draft.skip(), draft.skip());
        draft.conditional(fails, b, c)
    } else {
        draft.skip()
    };
    let skips = (target - draft.nodes.len() - 1) / 2;
    let rules: Vec<u32> = std::iter::once(first).chain((0..skips).map(|_| draft.skip())).collect();
    let joined = draft.joined(rules, BookDraft::both);
    draft.both(root, joined)
}
