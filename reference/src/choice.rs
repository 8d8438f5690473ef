//! Choosing one floorplan: the services place and plan.

use crate::chip::{Chip, Corner, Rectangle, Shape, CHIP_CORNER};
use crate::design::{test, Design};
use crate::lists::{all_stairs, corner_after, fill, paired, stored_shapes};
use crate::reply::{Number, DONE, NOT_RELIED_ON, NO_PLACEMENT, TOO_SHORT};
use crate::tree::{Cut, Node};

/// The reply of plan and place: the number, and the box (0 and 0 unless the number is 0).
#[derive(Clone, Copy, Debug, PartialEq, Eq)]
pub struct PlaceReply {
    pub number: Number,
    pub box_width: usize,
    pub box_height: usize,
}

fn refused(number: Number) -> PlaceReply {
    PlaceReply {
        number,
        box_width: 0,
        box_height: 0,
    }
}

/// "From the root's list at (0, 0) take the shape of least area w·h; of equals the narrowest."
fn choose(root_list: &[Shape]) -> Option<Shape> {
    let by_area_then_width = |shape: &&Shape| (shape.area(), shape.w);
    root_list.iter().min_by_key(by_area_then_width).copied()
}

/// The left shape, the right corner and the right shape that a cut of this shape takes.
///
/// "A vertical cut with shape (w, h) at (x, y) takes the first shape of the left list there for
/// which the right list at (x+w1, y) has a shape with w1+w2 = w and the greater height h. A
/// horizontal cut takes the first left shape for which the right list at (x, y+h1) has one with
/// h1+h2 = h and the greater width w."
fn take_pair(
    chip: &Chip,
    work: &[u8],
    (cut, left, right): (Cut, usize, usize),
    corner: Corner,
    shape: Shape,
) -> Option<(Shape, Corner, Shape)> {
    for l in stored_shapes(chip, work, left, corner) {
        let Some(after) = corner_after(chip, cut, corner, l) else {
            continue;
        };
        for r in stored_shapes(chip, work, right, after) {
            if paired(cut, l, r) == shape {
                return Some((l, after, r));
            }
        }
    }
    None
}

/// Goes down from node t with this shape at this corner and gives each module its rectangle.
///
/// None "if a chosen shape has no pair below it or a leaf's shape does not suit". What was taken
/// is not taken back.
fn go_down(
    design: &Design,
    nodes: &[Node],
    work: &[u8],
    t: usize,
    corner: Corner,
    shape: Shape,
) -> Option<Vec<(usize, Rectangle)>> {
    let chip = &design.chip;
    match nodes[t] {
        Node::Leaf { module } => {
            let rectangle = Rectangle { corner, shape };
            let suits = chip.suits(rectangle, design.needs[module]);
            suits.then(|| vec![(module, rectangle)])
        }
        Node::Cut { cut, left, right } => {
            let (l, after, r) = take_pair(chip, work, (cut, left, right), corner, shape)?;
            let mut rectangles = go_down(design, nodes, work, left, corner, l)?;
            rectangles.extend(go_down(design, nodes, work, right, after, r)?);
            Some(rectangles)
        }
    }
}

/// A row: four bytes x, y, w, h. The rectangle is on a chip.
pub fn row_bytes(r: Rectangle) -> [u8; 4] {
    let numbers = [r.corner.x.0, r.corner.y.0, r.shape.w.0, r.shape.h.0];
    numbers.map(|number| u8::try_from(number).expect("a place on the chip fits a byte"))
}

/// Place over work that is long enough: 9, 10, or the floorplan.
fn place_from_lists(design: &Design, work: &[u8], rows: &mut [u8]) -> PlaceReply {
    if !all_stairs(design, work) {
        return refused(NOT_RELIED_ON);
    }
    let nodes = design.nodes();
    let root = nodes.len() - 1;
    let root_list = stored_shapes(&design.chip, work, root, CHIP_CORNER);
    let Some(chosen) = choose(&root_list) else {
        return refused(NO_PLACEMENT);
    };
    let Some(rectangles) = go_down(design, &nodes, work, root, CHIP_CORNER, chosen) else {
        return refused(NOT_RELIED_ON);
    };
    // "Rows out: four bytes x, y, w, h for each module, in module order; lent bytes past 4m stay."
    for (module, rectangle) in rectangles {
        rows[4 * module..4 * module + 4].copy_from_slice(&row_bytes(rectangle));
    }
    PlaceReply {
        number: DONE,
        box_width: chosen.w.0,
        box_height: chosen.h.0,
    }
}

/// The design's own test, then 8 for either buffer.
fn test_with_buffers(design: &Design, work: &[u8], rows: &[u8]) -> Result<(), Number> {
    test(design)?;
    if work.len() < design.work_needed() || rows.len() < design.rows_needed() {
        return Err(TOO_SHORT);
    }
    Ok(())
}

/// The service place: 4, 5 or 6, then 8, 9, 10.
pub fn place(design: &Design, work: &[u8], rows: &mut [u8]) -> PlaceReply {
    match test_with_buffers(design, work, rows) {
        Err(number) => refused(number),
        Ok(()) => place_from_lists(design, work, rows),
    }
}

/// The service plan: list, then place. 4, 5 or 6, then 8, 10.
pub fn plan(design: &Design, work: &mut [u8], rows: &mut [u8]) -> PlaceReply {
    if let Err(number) = test_with_buffers(design, work, rows) {
        return refused(number);
    }
    fill(design, work);
    place_from_lists(design, work, rows)
}
