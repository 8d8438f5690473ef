//! Shapes of a node at a corner, and which of them no other dominates.

use crate::chip::{Amounts, Chip, Columns, Corner, Rectangle, Rows, Shape};
use crate::tree::{in_order, Cut};

/// "A shape dominates another at the same corner if it is no wider and no higher."
pub fn dominates(a: Shape, b: Shape) -> bool {
    a != b && a.w <= b.w && a.h <= b.h
}

/// "The list holds exactly the shapes that no other dominates, widths rising, heights falling."
pub fn undominated(mut shapes: Vec<Shape>) -> Vec<Shape> {
    shapes.sort();
    shapes.dedup();
    let no_other_dominates = |b: &Shape| !shapes.iter().any(|&a| dominates(a, *b));
    shapes.iter().copied().filter(no_other_dominates).collect()
}

/// "For a leaf, the shapes at corner (x, y) are the (w, h) whose rectangle from (x, y) is on the
/// chip and suits the need."
pub fn leaf_shapes_at(chip: &Chip, need: Amounts, corner: Corner) -> Vec<Shape> {
    let rectangles = chip.rectangles_at(corner);
    let suitable = rectangles.into_iter().filter(|&r| chip.suits(r, need));
    suitable.map(|r| r.shape).collect()
}

/// The shapes of a leaf anywhere on the chip, each as the rectangle from its corner.
pub fn leaf_shapes(chip: &Chip, need: Amounts) -> Vec<Rectangle> {
    let rectangles = chip.rectangles();
    let suitable = rectangles.into_iter().filter(|&r| chip.suits(r, need));
    suitable.collect()
}

/// The shapes of a cut anywhere on the chip, each as the rectangle from its corner.
///
/// "For a cut they are the bounding boxes, with lower left corner exactly (x, y), of a shape of
/// each child anywhere on the chip, the two in the cut's order."
pub fn cut_shapes(
    chip: &Chip,
    cut: Cut,
    left: &[Rectangle],
    right: &[Rectangle],
) -> Vec<Rectangle> {
    let mut is_shape = vec![false; rectangle_numbers(chip)];
    for &a in left {
        for &b in right {
            if in_order(cut, a, b) {
                is_shape[rectangle_number(chip, bounding_box(a, b))] = true;
            }
        }
    }
    let rectangles = chip.rectangles();
    let shapes = rectangles
        .into_iter()
        .filter(|&r| is_shape[rectangle_number(chip, r)]);
    shapes.collect()
}

/// Of the shapes anywhere, those at one corner.
pub fn shapes_at(shapes: &[Rectangle], corner: Corner) -> Vec<Shape> {
    let here = shapes.iter().filter(|r| r.corner == corner);
    here.map(|r| r.shape).collect()
}

/// The least rectangle round two rectangles.
pub fn bounding_box(a: Rectangle, b: Rectangle) -> Rectangle {
    let corner = Corner {
        x: a.corner.x.min(b.corner.x),
        y: a.corner.y.min(b.corner.y),
    };
    let shape = Shape {
        w: a.right().max(b.right()) - corner.x,
        h: a.top().max(b.top()) - corner.y,
    };
    Rectangle { corner, shape }
}

/// A number of its own for each rectangle on the chip, below `rectangle_numbers`.
fn rectangle_number(chip: &Chip, r: Rectangle) -> usize {
    let (Columns(width), Rows(height)) = (chip.width, chip.height);
    let corner = r.corner.y.0 * width + r.corner.x.0;
    (corner * width + (r.shape.w.0 - 1)) * height + (r.shape.h.0 - 1)
}

fn rectangle_numbers(chip: &Chip) -> usize {
    let cells = chip.width.0 * chip.height.0;
    cells * cells
}
