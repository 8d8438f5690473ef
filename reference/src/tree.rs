//! The tree and what follows it.

use crate::chip::Rectangle;
use crate::reply::{Number, BAD_TOKEN, NOT_ONE_STANDING};

/// Most modules that the limits allow.
pub const MOST_MODULES: usize = 16;
/// Most tokens: 2m-1 for the most modules.
pub const MOST_TOKENS: usize = 2 * MOST_MODULES - 1;

/// The two kinds of cut.
#[derive(Clone, Copy, Debug, PartialEq, Eq)]
pub enum Cut {
    Vertical,
    Horizontal,
}

/// A token's meaning.
#[derive(Clone, Copy, Debug, PartialEq, Eq)]
pub enum Token {
    Cut(Cut),
    Module(usize),
}

/// "0 is a vertical cut, 1 a horizontal cut, k+2 is module k." None for a token over m+1.
pub fn token(number: usize, modules: usize) -> Option<Token> {
    match number {
        0 => Some(Token::Cut(Cut::Vertical)),
        1 => Some(Token::Cut(Cut::Horizontal)),
        _ if number <= modules + 1 => Some(Token::Module(number - 2)),
        _ => None,
    }
}

/// The tree rules, judged token by token.
pub struct Standing {
    modules: usize,
    things: usize,
    seen: [bool; MOST_MODULES],
}

impl Standing {
    /// Before the first token nothing stands. `modules` is within its limits.
    pub fn new(modules: usize) -> Standing {
        Standing {
            modules,
            things: 0,
            seen: [false; MOST_MODULES],
        }
    }

    /// 5: "token over m+1, module repeated, or cut with fewer than two things standing".
    pub fn take(&mut self, number: usize) -> Result<(), Number> {
        match token(number, self.modules) {
            None => return Err(BAD_TOKEN),
            Some(Token::Module(k)) => {
                if self.seen[k] {
                    return Err(BAD_TOKEN);
                }
                self.seen[k] = true;
                self.things += 1;
            }
            // The cut takes two things away and stands itself.
            Some(Token::Cut(_)) => {
                if self.things < 2 {
                    return Err(BAD_TOKEN);
                }
                self.things -= 1;
            }
        }
        Ok(())
    }

    /// 6: "tokens used up and not exactly one thing stands".
    pub fn end(&self) -> Result<(), Number> {
        if self.things == 1 {
            Ok(())
        } else {
            Err(NOT_ONE_STANDING)
        }
    }
}

/// "Node t is the token at position t, counted from 0; the last is the root."
#[derive(Clone, Copy, Debug, PartialEq, Eq)]
pub enum Node {
    Leaf { module: usize },
    Cut { cut: Cut, left: usize, right: usize },
}

/// The nodes of a lawful tree.
///
/// "A cut joins the two things standing last, the earlier being its left child."
pub fn nodes(tokens: &[usize], modules: usize) -> Vec<Node> {
    let mut nodes = Vec::new();
    let mut standing = Vec::new();
    for (t, &number) in tokens.iter().enumerate() {
        match token(number, modules).expect("a lawful token") {
            Token::Module(module) => nodes.push(Node::Leaf { module }),
            Token::Cut(cut) => {
                let right = standing.pop().expect("a thing stands");
                let left = standing.pop().expect("a second thing stands");
                nodes.push(Node::Cut { cut, left, right });
            }
        }
        standing.push(t);
    }
    nodes
}

/// The modules that stand in the part of the tree under node t.
pub fn modules_under(nodes: &[Node], t: usize) -> Vec<usize> {
    match nodes[t] {
        Node::Leaf { module } => vec![module],
        Node::Cut { left, right, .. } => {
            let mut modules = modules_under(nodes, left);
            modules.extend(modules_under(nodes, right));
            modules
        }
    }
}

/// The node whose child t is; none above the root.
fn parent(nodes: &[Node], t: usize) -> Option<usize> {
    nodes.iter().position(|node| match *node {
        Node::Leaf { .. } => false,
        Node::Cut { left, right, .. } => left == t || right == t,
    })
}

/// The way from node t up to the root, both included, child before parent.
pub fn way_up(nodes: &[Node], t: usize) -> Vec<usize> {
    let mut way = vec![t];
    let mut here = t;
    while let Some(above) = parent(nodes, here) {
        way.push(above);
        here = above;
    }
    way
}

/// True if `a` and `b` stand in the order of the cut, `a` being of the left child.
///
/// "It follows the tree if at each vertical cut every rectangle of the left child ends at or
/// before the column where any rectangle of the right child begins; at a horizontal cut the left
/// child is below in the same sense."
pub fn in_order(cut: Cut, a: Rectangle, b: Rectangle) -> bool {
    match cut {
        Cut::Vertical => a.right() <= b.corner.x,
        Cut::Horizontal => a.top() <= b.corner.y,
    }
}

/// True if the rectangles, one for each module in module order, keep the cut that is node t.
/// A leaf has nothing to keep.
pub fn kept(nodes: &[Node], t: usize, rectangles: &[Rectangle]) -> bool {
    let Node::Cut { cut, left, right } = nodes[t] else {
        return true;
    };
    let rights = modules_under(nodes, right);
    modules_under(nodes, left).iter().all(|&a| {
        rights
            .iter()
            .all(|&b| in_order(cut, rectangles[a], rectangles[b]))
    })
}
