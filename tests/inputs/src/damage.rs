// Damaged books: each refusal of the book's checks, alone and with others, and plain garbage.

use crate::book_draft::{BookDraft, RESERVE};
use crate::books::{self, MOST_NODES};
use crate::faults;
use crate::lines::{one_more, text_of};
use crate::nodes::{is_binder, is_rule, operand_fields};
use crate::rng::Rng;
use crate::root_rules::{deepen, MOST_DEPTH};
use paper::{Line, LINE_BYTES};

/// A book with one fault, or a few, from any of the book's checks.
pub fn damaged(rng: &mut Rng) -> Vec<u8> {
    let mut draft = books::sound(rng);
    let faults = if rng.percent(80) { 1 } else { rng.range(2, 3) };
    let mut numbers: Vec<u32> =
        (0..faults).map(|_| [1, 3, 4, 5, 6, 7, 8][rng.weighted(&[18, 14, 10, 16, 20, 10, 16])]).collect();
    // Faults of the lines come before those of the header, and those of the text last.
    numbers.sort_unstable_by(|a, b| b.cmp(a));
    numbers.iter().for_each(|&number| spoil_draft(rng, &mut draft, number));
    let mut lines = draft.lines();
    if numbers.contains(&3) {
        spoil_header(rng, &mut lines);
    }
    let mut text = text_of(&lines);
    if numbers.contains(&1) {
        spoil_text(rng, &mut text);
    }
    text
}

/// Makes a refusal of this number likely, 4 to 8.
fn spoil_draft(rng: &mut Rng, draft: &mut BookDraft, number: u32) {
    match number {
        4 => spoil_function(rng, draft),
        5 => spoil_node(rng, draft),
        6 => spoil_tree(rng, draft),
        7 => spoil_agent(rng, draft),
        8 => faults::spoil_contents(rng, draft),
        _ => {}
    }
}

/// A header field past its bound, often by one; or L past its own.
fn spoil_header(rng: &mut Rng, lines: &mut Vec<Line>) {
    let [elements, ..] = lines[0];
    let field = rng.index(9);
    let far = rng.pick(&[99_999, 100_000, 999_999]);
    let past: &[u32] = match field {
        0 => &[0, 3, 10_001, 65_536, far],
        1 => &[0, 3, elements + 1, far],
        2 => &[0, 33, far],
        3 => &[0, 1_025, far],
        4 => &[0, 17, far],
        5 => &[65_537, far],
        6 | 7 => &[1, 2, far],
        _ => return too_many_locations(rng, lines),
    };
    lines[field / 4][field % 4] = rng.pick(past);
}

/// Functions with more locations than the table has, often by one.
fn too_many_locations(rng: &mut Rng, lines: &mut Vec<Line>) {
    let (elements, arities): (u32, Vec<u32>) = match rng.below(5) {
        0 => (4_096, [vec![1; 15], vec![0]].concat()),
        1 => (2_048, [vec![1; 30], vec![2]].concat()),
        2 => (255, vec![2, 1, 0, 0]),
        3 => (256, vec![2]),
        _ => (rng.range(260, 10_000), vec![2; rng.range(1, 31) as usize]),
    };
    let before = lines[0][2] as usize;
    let added = arities.iter().map(|&arity| [arity, rng.below(4), 0, 0]);
    let functions: Vec<Line> = std::iter::once(RESERVE).chain(added).collect();
    lines[0] = [elements, lines[0][1], functions.len() as u32, lines[0][3]];
    lines.splice(2..2 + before, functions);
}

fn spoil_function(rng: &mut Rng, draft: &mut BookDraft) {
    let function = rng.index(draft.functions.len());
    let field = rng.index(4);
    let line = &mut draft.functions[function];
    line[field] = match field {
        0 if function == 0 => rng.pick(&[0, 2, 3]),
        0 => rng.pick(&[3, 4, 99]),
        1 if function == 0 => rng.pick(&[0, 1, 2, 4]),
        1 => rng.pick(&[4, 5, 99]),
        _ => rng.pick(&[1, 2, 999_999]),
    };
}

/// One field of a node line: another kind, a wrong operand or function, an unused field in use.
fn spoil_node(rng: &mut Rng, draft: &mut BookDraft) {
    let node = rng.index(draft.nodes.len());
    let field = rng.index(4);
    let (e, p) = (draft.elements, draft.permanent);
    let (f, n) = (draft.functions.len() as u32, draft.nodes.len() as u32);
    let own = node as u32;
    let any_node = rng.below(n);
    let value = match field {
        0 => rng.pick(&[0, 1, 2, 3, 4, 5, 6, 7, 8, 13, 14, 15, 19, 20, 21, 22, 23, 24, 25, 26, 27, 28, 29]),
        _ => rng.pick(&[0, 1, 7, 8, own, own + 1, own.saturating_sub(1), any_node, f - 1, f, p - 1, p, e, n]),
    };
    draft.nodes[node][field] = value;
}

/// A fault of use, binding, depth or nesting.
fn spoil_tree(rng: &mut Rng, draft: &mut BookDraft) {
    if draft.nodes.len() + 80 > MOST_NODES {
        return spoil_use(rng, draft);
    }
    match rng.below(6) {
        0 | 1 => spoil_use(rng, draft),
        2 => unbound(rng, draft),
        3 => bound_again(rng, draft),
        4 => {
            let target = MOST_DEPTH + rng.pick(&[1, 1, 1, 2, 5]);
            rewrap(rng, draft, |rng, draft, root| deepen(rng, draft, root, target));
        }
        _ => third_forall(rng, draft),
    }
}

/// Two uses of one node, a node without use, or an operand that is a root too.
fn spoil_use(rng: &mut Rng, draft: &mut BookDraft) {
    let node = rng.index(draft.nodes.len());
    match rng.below(4) {
        0 | 1 => use_another(rng, draft, node),
        2 if draft.nodes.len() < MOST_NODES => {
            let line = rng.pick(&[[20, 0, 0, 0], [3, 0, 0, 0], [1, 3, 0, 0]]);
            draft.nodes.push(line);
        }
        _ => {
            let agent = rng.index(draft.agents.len());
            draft.agents[agent][0] = rng.below(draft.nodes.len() as u32 + 1);
        }
    }
}

/// Lets an operand place of a node hold another node of the same sort.
fn use_another(rng: &mut Rng, draft: &mut BookDraft, node: usize) {
    let users: Vec<usize> =
        (0..draft.nodes.len()).filter(|&user| !operand_fields(draft.nodes[user][0]).is_empty()).collect();
    let Some(&user) = users.iter().find(|&&user| user >= node).or(users.last()) else { return };
    let kind = draft.nodes[user][0];
    let (field, rule) = rng.pick(operand_fields(kind));
    let location = kind == 21 && field == 1;
    let lower: Vec<u32> = (0..user as u32)
        .filter(|&other| {
            let line = &draft.nodes[other as usize];
            is_rule(line) == rule && (!location || matches!(line[0], 4..=6))
        })
        .collect();
    if let Some(other) = rng.any(&lower) {
        draft.nodes[user][field] = other;
    }
}

/// Puts the tree of one root, as all its agents name it, under more rules.
fn rewrap(rng: &mut Rng, draft: &mut BookDraft, wrap: impl FnOnce(&mut Rng, &mut BookDraft, u32) -> u32) {
    let agent = rng.index(draft.agents.len());
    let old = draft.agents[agent][0];
    if old as usize >= draft.nodes.len() {
        return;
    }
    let new = wrap(rng, draft, old);
    draft.agents.iter_mut().filter(|line| line[0] == old).for_each(|line| line[0] = new);
}

/// A variable node without a binder around it: beside the root, or by another number.
fn unbound(rng: &mut Rng, draft: &mut BookDraft) {
    let variables: Vec<usize> = (0..draft.nodes.len()).filter(|&node| draft.nodes[node][0] == 2).collect();
    let binders: Vec<usize> = (0..draft.nodes.len()).filter(|&node| is_binder(&draft.nodes[node])).collect();
    let choice = rng.below(3);
    match (choice, rng.any(&variables), rng.any(&binders)) {
        (0, Some(node), _) => draft.nodes[node][1] = rng.below(8),
        (1, _, Some(node)) => draft.nodes[node][1] = rng.below(8),
        _ => rewrap(rng, draft, |rng, draft, root| {
            let variable = rng.below(8);
            let term = draft.variable(variable);
            if rng.percent(50) {
                // The b of a let that binds it.
                return draft.let_in(variable, term, root);
            }
            let release = draft.release(term);
            draft.both(root, release)
        }),
    }
}

/// A binder of a variable that is bound around it.
fn bound_again(rng: &mut Rng, draft: &mut BookDraft) {
    let binders: Vec<Line> = draft.nodes.iter().copied().filter(is_binder).collect();
    let universes = draft.universes(false);
    let variable = rng.any(&binders).map_or(rng.below(8), |line| line[1]);
    rewrap(rng, draft, |rng, draft, mut root| {
        for _ in 0..if binders.is_empty() { 2 } else { 1 } {
            root = match rng.any(&universes) {
                Some(universe) if rng.percent(60) => {
                    let bind = rng.pick(&[BookDraft::for_all, BookDraft::choose]);
                    bind(draft, variable, universe, root)
                }
                _ => {
                    let value = draft.agent_element();
                    draft.let_in(variable, value, root)
                }
            };
        }
        root
    });
}

/// Three foralls or more around one another, with variables that are free where that can be.
fn third_forall(rng: &mut Rng, draft: &mut BookDraft) {
    let universes = draft.universes(false);
    let Some(universe) = rng.any(&universes) else { return unbound(rng, draft) };
    let used: Vec<u32> = draft.nodes.iter().filter(|line| is_binder(line)).map(|line| line[1]).collect();
    let free: Vec<u32> = (0..8).filter(|variable| !used.contains(variable)).collect();
    let count = rng.range(1, 4) as usize;
    rewrap(rng, draft, |_, draft, mut root| {
        for &variable in free.iter().take(count) {
            if draft.depth(root) < MOST_DEPTH {
                root = draft.for_all(variable, universe, root);
            }
        }
        root
    });
}

fn spoil_agent(rng: &mut Rng, draft: &mut BookDraft) {
    let last = draft.agents.len() - 1;
    let agent = rng.index(last + 1);
    match rng.below(6) {
        0 => draft.agents[agent][1] = rng.pick(&[draft.permanent, draft.elements, 999_999]),
        1 if last > 0 => {
            let other = rng.index(last);
            draft.agents[other + 1][1] = draft.agents[other][1];
        }
        2 if last > 0 => {
            let other = rng.index(last);
            let element = draft.agents[other][1];
            draft.agents[other][1] = draft.agents[other + 1][1];
            draft.agents[other + 1][1] = element;
        }
        3 | 4 => odd_root(rng, draft),
        _ => draft.agents[agent][rng.range(2, 3) as usize] = rng.pick(&[1, 999_999]),
    }
}

/// One more agent, or one of those that share a root, with a root that is no rule.
fn odd_root(rng: &mut Rng, draft: &mut BookDraft) {
    let agent = rng.index(draft.agents.len());
    let root = draft.agents[agent][0];
    let shared = draft.agents.iter().filter(|line| line[0] == root).count() > 1;
    let odd = if rng.percent(50) && draft.nodes.len() < MOST_NODES {
        draft.element(3)
    } else {
        draft.nodes.len() as u32
    };
    if shared || draft.agents.len() == 16 {
        draft.agents[agent][0] = odd;
    } else {
        let element = draft.agents.last().map_or(0, |line| one_more(line[1]));
        draft.agents.push([odd, element, 0, 0]);
    }
}

/// Bytes changed, added, cut or swapped.
pub fn spoil_text(rng: &mut Rng, text: &mut Vec<u8>) {
    if text.is_empty() {
        return text.push(b'0');
    }
    // The first lines, which are headers, more often than the others.
    let lines = if rng.percent(20) { 3 } else { text.len() / LINE_BYTES };
    let line = rng.index(lines.clamp(1, text.len().div_ceil(LINE_BYTES))) * LINE_BYTES;
    let end = (line + LINE_BYTES).min(text.len());
    let at = rng.range(line as u32, end as u32 - 1) as usize;
    match rng.below(12) {
        0 => text[at] = rng.pick(b" 0123456789\n\t+-,.x\r"),
        1 => text[at] = rng.below(256) as u8,
        2 => text.truncate(at),
        3 => text.truncate(line),
        4 => drop(text.remove(at)),
        5 => text.insert(at, rng.pick(b" 01\n\r")),
        6 => spoil_field(rng, &mut text[line..end]),
        7 => drop(text.drain(line..end)),
        8 => {
            let copy = text[line..end].to_vec();
            text.extend(copy);
        }
        9 => {
            let copy = text[line..end].to_vec();
            text.splice(line..line, copy);
        }
        10 => swap_lines(rng, text, line),
        _ => text.extend(std::iter::repeat_n(rng.pick(b" 0\nx"), rng.range(1, 30) as usize)),
    }
}

/// One field of a line, or its end, in a form that is not allowed.
fn spoil_field(rng: &mut Rng, line: &mut [u8]) {
    if line.len() < LINE_BYTES {
        return line[0] = b'x';
    }
    let forms: [&[u8]; 8] =
        [b"      ", b"    07", b"1     ", b"   1 1", b"    +1", b"    -1", b"\t    1", b"    00"];
    let field = rng.index(5);
    match field {
        4 => line[LINE_BYTES - 1] = rng.pick(b" 0\r"),
        _ => line[field * 6..][..6].copy_from_slice(rng.pick(&forms)),
    }
}

fn swap_lines(rng: &mut Rng, text: &mut [u8], line: usize) {
    let other = rng.index((text.len() / LINE_BYTES).max(1)) * LINE_BYTES;
    if line.max(other) + LINE_BYTES <= text.len() {
        for byte in 0..LINE_BYTES {
            text.swap(line + byte, other + byte);
        }
    }
}

/// Text that was never a book: bytes, digits, or a header with lines of any numbers.
pub fn garbage(rng: &mut Rng) -> Vec<u8> {
    let length = rng.below(400) as usize;
    match rng.below(4) {
        0 => (0..length).map(|_| rng.below(256) as u8).collect(),
        1 => (0..length).map(|_| rng.pick(b"  0123456789\n")).collect(),
        2 => text_of(&(0..rng.below(12)).map(|_| any_line(rng)).collect::<Vec<_>>()),
        _ => {
            let (f, n, a, c) = (rng.range(1, 4), rng.range(1, 8), rng.range(1, 3), rng.below(5));
            let e = rng.range(4, 12);
            let mut lines = vec![[e, rng.range(4, e), f, n], [a, c, 0, 0], [1, 3, 0, 0]];
            lines.extend((0..f + n + a + c - 1).map(|_| any_line(rng)));
            text_of(&lines)
        }
    }
}

fn any_line(rng: &mut Rng) -> Line {
    let most = rng.pick(&[2, 8, 29]);
    [0; 4].map(|_| if rng.percent(60) { rng.below(most) } else { 0 })
}
