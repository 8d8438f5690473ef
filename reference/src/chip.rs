//! Chip, rectangles and needs.

use std::ops::{Add, Sub};

/// A number of columns, or the number of a column counted from the left.
///
/// "Columns and rows are units that the source counts apart, and the code shall not let a row
/// count stand for a column count."
#[derive(Clone, Copy, Debug, Default, PartialEq, Eq, PartialOrd, Ord)]
pub struct Columns(pub usize);

/// A number of rows, or the number of a row counted from below.
#[derive(Clone, Copy, Debug, Default, PartialEq, Eq, PartialOrd, Ord)]
pub struct Rows(pub usize);

impl Add for Columns {
    type Output = Columns;
    fn add(self, other: Columns) -> Columns {
        Columns(self.0 + other.0)
    }
}

impl Sub for Columns {
    type Output = Columns;
    fn sub(self, other: Columns) -> Columns {
        Columns(self.0 - other.0)
    }
}

impl Add for Rows {
    type Output = Rows;
    fn add(self, other: Rows) -> Rows {
        Rows(self.0 + other.0)
    }
}

impl Sub for Rows {
    type Output = Rows;
    fn sub(self, other: Rows) -> Rows {
        Rows(self.0 - other.0)
    }
}

/// A lower left corner (x, y).
#[derive(Clone, Copy, Debug, PartialEq, Eq)]
pub struct Corner {
    pub x: Columns,
    pub y: Rows,
}

/// The corner of the chip, (0, 0).
pub const CHIP_CORNER: Corner = Corner {
    x: Columns(0),
    y: Rows(0),
};

/// A shape (w, h).
#[derive(Clone, Copy, Debug, PartialEq, Eq, PartialOrd, Ord)]
pub struct Shape {
    pub w: Columns,
    pub h: Rows,
}

impl Shape {
    pub fn area(self) -> usize {
        self.w.0 * self.h.0
    }
}

/// A rectangle (x, y, w, h): a shape at a corner.
#[derive(Clone, Copy, Debug, PartialEq, Eq)]
pub struct Rectangle {
    pub corner: Corner,
    pub shape: Shape,
}

impl Rectangle {
    /// The first column after the rectangle, x+w.
    pub fn right(self) -> Columns {
        self.corner.x + self.shape.w
    }

    /// The first row above the rectangle, y+h.
    pub fn top(self) -> Rows {
        self.corner.y + self.shape.h
    }
}

/// So many CLBs, RAMs and multipliers. A need is such a triple.
#[derive(Clone, Copy, Debug, Default, PartialEq, Eq)]
pub struct Amounts {
    pub clbs: usize,
    pub rams: usize,
    pub multipliers: usize,
}

impl Amounts {
    /// True if there is at least as much of each as in `need`.
    pub fn cover(self, need: Amounts) -> bool {
        self.clbs >= need.clbs && self.rams >= need.rams && self.multipliers >= need.multipliers
    }
}

pub const CLB: usize = 0;
pub const RAM: usize = 1;
pub const MULTIPLIER: usize = 2;

/// Most columns that the limits allow.
pub const MOST_COLUMNS: usize = 64;
/// Most rows that the limits allow.
pub const MOST_ROWS: usize = 64;

/// The chip: W, H, B and the kinds of the columns. Places of `kinds` from W on are ignored.
#[derive(Clone, Copy, Debug, PartialEq, Eq)]
pub struct Chip {
    pub width: Columns,
    pub height: Rows,
    pub block: Rows,
    pub kinds: [usize; MOST_COLUMNS],
}

impl Chip {
    /// "A rectangle is (x, y, w, h), w and h at least 1, x+w at most W, y+h at most H."
    pub fn has(&self, r: Rectangle) -> bool {
        let not_empty = r.shape.w >= Columns(1) && r.shape.h >= Rows(1);
        not_empty && r.right() <= self.width && r.top() <= self.height
    }

    /// The blocks of one column of kind 1 or 2 that stand whole in the rows of the rectangle.
    ///
    /// "Blocks in kinds 1 and 2 are B rows high, start at row 0 and follow without gaps; rows
    /// above the last whole block hold nothing." "It holds a block only if it covers all the
    /// block's rows."
    fn blocks_covered(&self, r: Rectangle) -> usize {
        let mut covered = 0;
        let mut first = Rows(0);
        while first + self.block <= self.height {
            let end = first + self.block;
            if r.corner.y <= first && end <= r.top() {
                covered += 1;
            }
            first = end;
        }
        covered
    }

    /// What the rectangle holds. "A CLB column holds one CLB in each row."
    pub fn holds(&self, r: Rectangle) -> Amounts {
        let blocks = self.blocks_covered(r);
        let mut held = Amounts::default();
        for column in r.corner.x.0..r.right().0 {
            match self.kinds[column] {
                CLB => held.clbs += r.shape.h.0,
                RAM => held.rams += blocks,
                MULTIPLIER => held.multipliers += blocks,
                _ => unreachable!("kinds are tested before anything is counted"),
            }
        }
        held
    }

    /// "A rectangle suits it if it holds at least that many of each."
    pub fn suits(&self, r: Rectangle, need: Amounts) -> bool {
        self.holds(r).cover(need)
    }

    /// All corners of the chip, row by row from below, each row from the left.
    pub fn corners(&self) -> Vec<Corner> {
        let mut corners = Vec::new();
        for y in 0..self.height.0 {
            for x in 0..self.width.0 {
                corners.push(Corner {
                    x: Columns(x),
                    y: Rows(y),
                });
            }
        }
        corners
    }

    /// All rectangles on the chip with this lower left corner.
    pub fn rectangles_at(&self, corner: Corner) -> Vec<Rectangle> {
        let mut rectangles = Vec::new();
        for w in 1..=(self.width - corner.x).0 {
            for h in 1..=(self.height - corner.y).0 {
                let shape = Shape {
                    w: Columns(w),
                    h: Rows(h),
                };
                rectangles.push(Rectangle { corner, shape });
            }
        }
        rectangles
    }

    /// All rectangles on the chip.
    pub fn rectangles(&self) -> Vec<Rectangle> {
        let corners = self.corners();
        corners
            .into_iter()
            .flat_map(|corner| self.rectangles_at(corner))
            .collect()
    }
}
