//! The checker: judges a floorplan without using lists.

use crate::chip::{Columns, Corner, Rectangle, Rows, Shape};
use crate::design::{test, Design};
use crate::reply::{Number, CUT_NOT_KEPT, DONE, OFF_THE_CHIP, SHORT_OF_NEED, TOO_SHORT};
use crate::tree::kept;

/// The number and the name: "the module (12, 13) or the token's position (14), and 0 with any
/// other reply".
#[derive(Clone, Copy, Debug, PartialEq, Eq)]
pub struct CheckReply {
    pub number: Number,
    pub name: usize,
}

/// The rectangle in the row of a module: four bytes x, y, w, h.
pub fn row(rows: &[u8], module: usize) -> Rectangle {
    let number = |i: usize| usize::from(rows[4 * module + i]);
    Rectangle {
        corner: Corner {
            x: Columns(number(0)),
            y: Rows(number(1)),
        },
        shape: Shape {
            w: Columns(number(2)),
            h: Rows(number(3)),
        },
    }
}

/// The service check: 4, 5 or 6, "then 8, then modules in order (12 before 13 for each), then
/// cuts in token order".
pub fn check(design: &Design, rows: &[u8]) -> CheckReply {
    if let Err(number) = test(design) {
        return CheckReply { number, name: 0 };
    }
    if rows.len() < design.rows_needed() {
        return CheckReply {
            number: TOO_SHORT,
            name: 0,
        };
    }
    let rectangles: Vec<Rectangle> = (0..design.modules).map(|k| row(rows, k)).collect();
    for (k, &rectangle) in rectangles.iter().enumerate() {
        if !design.chip.has(rectangle) {
            return CheckReply {
                number: OFF_THE_CHIP,
                name: k,
            };
        }
        if !design.chip.suits(rectangle, design.needs[k]) {
            return CheckReply {
                number: SHORT_OF_NEED,
                name: k,
            };
        }
    }
    let nodes = design.nodes();
    for t in 0..nodes.len() {
        if !kept(&nodes, t, &rectangles) {
            return CheckReply {
                number: CUT_NOT_KEPT,
                name: t,
            };
        }
    }
    CheckReply {
        number: DONE,
        name: 0,
    }
}
