//! A design as a value, its limits, and when two designs are the same.

use crate::chip::{Amounts, Chip, Columns, Rows, MOST_COLUMNS, MOST_ROWS, MULTIPLIER};
use crate::reply::{Number, OVER_LIMITS};
use crate::tree::{nodes, Node, Standing, MOST_MODULES, MOST_TOKENS};

/// Most that a need may ask for of one thing.
pub const MOST_NEEDED: usize = 65_535;

/// A chip, the modules' needs and a tree.
///
/// "Places beyond W, m and 2m-1 in it are ignored."
#[derive(Clone, Copy, Debug, PartialEq, Eq)]
pub struct Design {
    pub chip: Chip,
    pub modules: usize,
    pub needs: [Amounts; MOST_MODULES],
    pub tokens: [usize; MOST_TOKENS],
}

/// "The design that a refused reading hands back is all zeros."
pub const ALL_ZEROS: Design = Design {
    chip: Chip {
        width: Columns(0),
        height: Rows(0),
        block: Rows(0),
        kinds: [0; MOST_COLUMNS],
    },
    modules: 0,
    needs: [Amounts {
        clbs: 0,
        rams: 0,
        multipliers: 0,
    }; MOST_MODULES],
    tokens: [0; MOST_TOKENS],
};

// "Limits: W 1..64, H 1..64, B 1..H, kinds 0..2, modules m 1..16, each of a need's three numbers
// 0..65,535, not all three zero."

pub fn lawful_width(w: Columns) -> bool {
    Columns(1) <= w && w <= Columns(MOST_COLUMNS)
}

pub fn lawful_height(h: Rows) -> bool {
    Rows(1) <= h && h <= Rows(MOST_ROWS)
}

pub fn lawful_block(block: Rows, height: Rows) -> bool {
    Rows(1) <= block && block <= height
}

pub fn lawful_kind(kind: usize) -> bool {
    kind <= MULTIPLIER
}

pub fn lawful_modules(m: usize) -> bool {
    (1..=MOST_MODULES).contains(&m)
}

pub fn lawful_need(need: Amounts) -> bool {
    let numbers = [need.clbs, need.rams, need.multipliers];
    numbers.iter().all(|&n| n <= MOST_NEEDED) && numbers.iter().any(|&n| n != 0)
}

/// "A design handed over as a value is tested first by the same limits and tree rules, in file
/// order, with 4, 5 or 6 at position 0."
pub fn test(design: &Design) -> Result<(), Number> {
    let chip = &design.chip;
    lawful(lawful_width(chip.width))?;
    lawful(lawful_height(chip.height))?;
    lawful(lawful_block(chip.block, chip.height))?;
    for x in 0..chip.width.0 {
        lawful(lawful_kind(chip.kinds[x]))?;
    }
    lawful(lawful_modules(design.modules))?;
    for k in 0..design.modules {
        lawful(lawful_need(design.needs[k]))?;
    }
    let mut standing = Standing::new(design.modules);
    for &number in design.tree() {
        standing.take(number)?;
    }
    standing.end()
}

fn lawful(holds: bool) -> Result<(), Number> {
    if holds {
        Ok(())
    } else {
        Err(OVER_LIMITS)
    }
}

impl Design {
    /// The tokens that count, 2m-1 of them. `modules` is within its limits.
    pub fn tree(&self) -> &[usize] {
        &self.tokens[..2 * self.modules - 1]
    }

    /// The nodes of a lawful design.
    pub fn nodes(&self) -> Vec<Node> {
        nodes(self.tree(), self.modules)
    }

    /// "Work needs (2m-1)·H·W·W bytes."
    pub fn work_needed(&self) -> usize {
        let w = self.chip.width.0;
        (2 * self.modules - 1) * self.chip.height.0 * w * w
    }

    /// "Rows out: four bytes x, y, w, h for each module."
    pub fn rows_needed(&self) -> usize {
        4 * self.modules
    }
}

/// True if two lawful designs are called the same: ignored places don't count.
pub fn same(a: &Design, b: &Design) -> bool {
    a.chip.width == b.chip.width
        && a.chip.height == b.chip.height
        && a.chip.block == b.chip.block
        && a.chip.kinds[..a.chip.width.0] == b.chip.kinds[..b.chip.width.0]
        && a.modules == b.modules
        && a.needs[..a.modules] == b.needs[..b.modules]
        && a.tree() == b.tree()
}
