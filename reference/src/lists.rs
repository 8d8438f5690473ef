//! Lists in lent work bytes: slots, stairs, and the service that fills them.

use crate::chip::{Chip, Columns, Corner, Rectangle, Rows, Shape};
use crate::design::{test, Design};
use crate::reply::{Number, DONE, TOO_SHORT};
use crate::shapes::{cut_shapes, leaf_shapes, leaf_shapes_at, shapes_at, undominated};
use crate::tree::{Cut, Node};

/// "Node t at corner (x, y) has a slot of W bytes starting at ((t·H + y)·W + x)·W."
pub fn slot_start(chip: &Chip, t: usize, corner: Corner) -> usize {
    let (Columns(width), Rows(height)) = (chip.width, chip.height);
    ((t * height + corner.y.0) * width + corner.x.0) * width
}

/// The bytes of a slot.
pub fn slot<'a>(chip: &Chip, work: &'a [u8], t: usize, corner: Corner) -> &'a [u8] {
    let start = slot_start(chip, t, corner);
    &work[start..start + chip.width.0]
}

/// "Byte j of the slot is the height of the listed shape of width j+1, or 0 where there is none."
pub fn stored_shapes(chip: &Chip, work: &[u8], t: usize, corner: Corner) -> Vec<Shape> {
    let mut shapes = Vec::new();
    for (j, &height) in slot(chip, work, t, corner).iter().enumerate() {
        if height != 0 {
            shapes.push(Shape {
                w: Columns(j + 1),
                h: Rows(usize::from(height)),
            });
        }
    }
    shapes
}

/// Writes a whole slot.
fn store(chip: &Chip, work: &mut [u8], t: usize, corner: Corner, listed: &[Shape]) {
    let start = slot_start(chip, t, corner);
    let slot = &mut work[start..start + chip.width.0];
    slot.fill(0);
    for shape in listed {
        slot[shape.w.0 - 1] = u8::try_from(shape.h.0).expect("a height fits a byte");
    }
}

/// "A slot is a stair if its nonzero bytes fall strictly, none exceeds H-y, and none stands at a
/// width over W-x."
pub fn is_stair(chip: &Chip, work: &[u8], t: usize, corner: Corner) -> bool {
    let shapes = stored_shapes(chip, work, t, corner);
    let falling = shapes.windows(2).all(|pair| pair[0].h > pair[1].h);
    let fitting = shapes
        .iter()
        .all(|s| s.h <= chip.height - corner.y && s.w <= chip.width - corner.x);
    falling && fitting
}

/// True if every slot of every node is a stair.
pub fn all_stairs(design: &Design, work: &[u8]) -> bool {
    let corners = design.chip.corners();
    (0..design.tree().len()).all(|t| {
        corners
            .iter()
            .all(|&corner| is_stair(&design.chip, work, t, corner))
    })
}

/// The right child's corner: beside the left shape at a vertical cut, above it at a horizontal
/// one. None where the chip has no such corner.
pub fn corner_after(chip: &Chip, cut: Cut, corner: Corner, left: Shape) -> Option<Corner> {
    let after = match cut {
        Cut::Vertical => Corner {
            x: corner.x + left.w,
            y: corner.y,
        },
        Cut::Horizontal => Corner {
            x: corner.x,
            y: corner.y + left.h,
        },
    };
    (after.x < chip.width && after.y < chip.height).then_some(after)
}

/// The shape of a left shape and a right one beside or above it.
pub fn paired(cut: Cut, left: Shape, right: Shape) -> Shape {
    match cut {
        Cut::Vertical => Shape {
            w: left.w + right.w,
            h: left.h.max(right.h),
        },
        Cut::Horizontal => Shape {
            w: left.w.max(right.w),
            h: left.h + right.h,
        },
    }
}

/// "All pairings of the children's stored shapes in the pattern above (right child's corner
/// beside or above the left shape) that fit on the chip."
fn pairings(
    chip: &Chip,
    work: &[u8],
    cut: Cut,
    left: usize,
    right: usize,
    corner: Corner,
) -> Vec<Shape> {
    let mut pairings = Vec::new();
    for l in stored_shapes(chip, work, left, corner) {
        let Some(after) = corner_after(chip, cut, corner, l) else {
            continue;
        };
        for r in stored_shapes(chip, work, right, after) {
            let shape = paired(cut, l, r);
            if chip.has(Rectangle { corner, shape }) {
                pairings.push(shape);
            }
        }
    }
    pairings
}

/// Lists one node again: a leaf from its need, a cut by pairing its children's stored shapes.
pub fn relist(design: &Design, nodes: &[Node], t: usize, work: &mut [u8]) {
    let chip = &design.chip;
    for corner in chip.corners() {
        let shapes = match nodes[t] {
            Node::Leaf { module } => leaf_shapes_at(chip, design.needs[module], corner),
            Node::Cut { cut, left, right } => pairings(chip, work, cut, left, right, corner),
        };
        store(chip, work, t, corner, &undominated(shapes));
    }
}

/// The lists by pairing: every node from its children's lists.
pub fn list_by_pairing(design: &Design, work: &mut [u8]) {
    let nodes = design.nodes();
    for t in 0..nodes.len() {
        relist(design, &nodes, t, work);
    }
}

/// The lists by document 01's definition: every node from all shapes of its children, anywhere
/// on the chip, listed or not.
pub fn list_by_definition(design: &Design, work: &mut [u8]) {
    let chip = &design.chip;
    let mut shapes: Vec<Vec<Rectangle>> = Vec::new();
    for (t, node) in design.nodes().into_iter().enumerate() {
        shapes.push(match node {
            Node::Leaf { module } => leaf_shapes(chip, design.needs[module]),
            Node::Cut { cut, left, right } => cut_shapes(chip, cut, &shapes[left], &shapes[right]),
        });
        for corner in chip.corners() {
            let listed = undominated(shapes_at(&shapes[t], corner));
            store(chip, work, t, corner, &listed);
        }
    }
}

/// Most rectangles on a chip that is listed by the definition; a cut looks at all pairs of them.
const FEW_RECTANGLES: usize = 1_300;

/// True if the chip is small enough to be listed by the definition.
pub fn is_small(chip: &Chip) -> bool {
    let (Columns(w), Rows(h)) = (chip.width, chip.height);
    (w * (w + 1) / 2) * (h * (h + 1) / 2) <= FEW_RECTANGLES
}

/// Fills the lists of a lawful design into work that is long enough.
pub fn fill(design: &Design, work: &mut [u8]) {
    if is_small(&design.chip) {
        list_by_definition(design, work);
    } else {
        list_by_pairing(design, work);
    }
}

/// The service list: 4, 5 or 6 for the design, then 8, otherwise the full lists.
pub fn list(design: &Design, work: &mut [u8]) -> Number {
    if let Err(number) = test(design) {
        return number;
    }
    if work.len() < design.work_needed() {
        return TOO_SHORT;
    }
    fill(design, work);
    DONE
}
