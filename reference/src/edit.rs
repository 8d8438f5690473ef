//! Edits: change one need or turn one cut, and bring the lists up to date.

use crate::chip::Amounts;
use crate::design::{lawful_need, test, Design};
use crate::lists::{all_stairs, relist};
use crate::reply::{Number, BAD_EDIT, DONE, NOT_RELIED_ON, TOO_SHORT};
use crate::tree::{way_up, Node};

/// "Change the need of module k, or turn the cut at position t into the other kind."
#[derive(Clone, Copy, Debug, PartialEq, Eq)]
pub enum Edit {
    Need { module: usize, need: Amounts },
    Turn { position: usize },
}

/// The number, and the design handed back: with the one change, or unchanged if refused.
#[derive(Clone, Copy, Debug, PartialEq, Eq)]
pub struct EditReply {
    pub number: Number,
    pub design: Design,
}

/// The design with the one change, and the changed node.
///
/// 11: "edit names no module or no cut, or the new need breaks the limits".
fn changed(design: &Design, nodes: &[Node], edit: Edit) -> Result<(Design, usize), Number> {
    let mut after = *design;
    match edit {
        Edit::Need { module, need } => {
            let leaf = Node::Leaf { module };
            let position = nodes.iter().position(|&node| node == leaf);
            let t = position.ok_or(BAD_EDIT)?;
            if !lawful_need(need) {
                return Err(BAD_EDIT);
            }
            after.needs[module] = need;
            Ok((after, t))
        }
        Edit::Turn { position } => {
            let Some(Node::Cut { .. }) = nodes.get(position) else {
                return Err(BAD_EDIT);
            };
            // 0 is a vertical cut, 1 a horizontal one.
            after.tokens[position] = 1 - after.tokens[position];
            Ok((after, position))
        }
    }
}

/// The tests in their order: 4, 5 or 6, then 11, 8, 9.
fn granted(design: &Design, edit: Edit, work: &[u8]) -> Result<(Design, usize), Number> {
    test(design)?;
    let (after, t) = changed(design, &design.nodes(), edit)?;
    if work.len() < design.work_needed() {
        return Err(TOO_SHORT);
    }
    if !all_stairs(design, work) {
        return Err(NOT_RELIED_ON);
    }
    Ok((after, t))
}

/// The service edit.
///
/// It "relists the changed node and each node above it, child before parent".
pub fn edit(design: &Design, edit: Edit, work: &mut [u8]) -> EditReply {
    match granted(design, edit, work) {
        Err(number) => EditReply {
            number,
            design: *design,
        },
        Ok((after, changed_node)) => {
            let nodes = after.nodes();
            for t in way_up(&nodes, changed_node) {
                relist(&after, &nodes, t, work);
            }
            EditReply {
                number: DONE,
                design: after,
            }
        }
    }
}
