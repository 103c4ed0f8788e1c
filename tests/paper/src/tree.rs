// Check 6 of a book: how often each node is used, then binding, depth and nesting.

use crate::answer::Answer;
use crate::node::Node;

const MOST_DEPTH: u32 = 32;
const MOST_FORALLS: u32 = 2;

/// What surrounds a node in its tree.
#[derive(Clone, Copy)]
struct Around {
    /// The variables bound there, one bit for each.
    bound: u8,
    /// The node's depth; a root has 1.
    depth: u32,
    /// How many foralls are around it.
    foralls: u32,
}

const ROOT: Around = Around { bound: 0, depth: 1, foralls: 0 };

/// 6 over nodes whose lines are sound, with roots as the agent lines name them.
pub fn check(nodes: &[Node], roots: impl Iterator<Item = usize>) -> Result<(), Answer> {
    match misused(nodes, roots).or_else(|| misplaced(nodes)) {
        Some(node) => Err(Answer::refused(6, node, 0)),
        None => Ok(()),
    }
}

/// The least node that is neither a root and no operand, nor an operand once and no root.
fn misused(nodes: &[Node], roots: impl Iterator<Item = usize>) -> Option<usize> {
    let mut is_root = vec![false; nodes.len()];
    for root in roots {
        if let Some(flag) = is_root.get_mut(root) {
            *flag = true;
        }
    }
    let mut uses = vec![0; nodes.len()];
    for operand in nodes.iter().flat_map(Node::operands) {
        uses[operand] += 1;
    }
    (0..nodes.len()).find(|&node| uses[node] != if is_root[node] { 0 } else { 1 })
}

/// The least node that is an unbound variable, binds a bound variable, is too deep or is a third
/// nested forall. Operands have lower numbers, so going down each node comes before its operands;
/// nodes that are no operand keep the surroundings of a root.
fn misplaced(nodes: &[Node]) -> Option<usize> {
    let mut around = vec![ROOT; nodes.len()];
    let mut least = None;
    for (number, node) in nodes.iter().enumerate().rev() {
        let here = around[number];
        if at_fault(node, here) {
            least = Some(number);
        }
        let forall = matches!(node, Node::ForAll { .. });
        let below =
            Around { bound: here.bound, depth: here.depth + 1, foralls: here.foralls + u32::from(forall) };
        for operand in node.operands() {
            around[operand] = below;
        }
        if let Some((variable, body)) = node.binding() {
            around[body].bound |= 1 << variable;
        }
    }
    least
}

fn at_fault(node: &Node, here: Around) -> bool {
    let bound = |variable: usize| here.bound & (1 << variable) != 0;
    here.depth > MOST_DEPTH
        || match *node {
            Node::Variable(variable) => !bound(variable),
            Node::ForAll { variable, .. } => bound(variable) || here.foralls >= MOST_FORALLS,
            Node::Let { variable, .. } | Node::Import { variable, .. } | Node::Choose { variable, .. } => {
                bound(variable)
            }
            _ => false,
        }
}
