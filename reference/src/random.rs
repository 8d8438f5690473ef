//! Random designs, damages, edits, stairs, terms and nets, the same for the same seed.

use crate::chip::{Amounts, Chip, Columns, Corner, Rectangle, Rows, Shape};
use crate::choice::row_bytes;
use crate::design::{lawful_need, Design, ALL_ZEROS, MOST_NEEDED};
use crate::edit::Edit;
use crate::lists::slot_start;
use crate::score::{Kind, Net, Term, MOST_NAMES, MOST_NETS, MOST_TERMS, MOST_WEIGHT};

/// Numbers by chance, the same for the same seed.
pub struct Chance(pub u64);

impl Chance {
    fn next(&mut self) -> u64 {
        self.0 = self.0.wrapping_add(0x9e37_79b9_7f4a_7c15);
        let mut z = self.0;
        z = (z ^ (z >> 30)).wrapping_mul(0xbf58_476d_1ce4_e5b9);
        z = (z ^ (z >> 27)).wrapping_mul(0x94d0_49bb_1331_11eb);
        z ^ (z >> 31)
    }

    /// A number from 0 to n-1.
    pub fn below(&mut self, n: usize) -> usize {
        (self.next() % n as u64) as usize
    }

    /// A number from low to high, both included.
    pub fn between(&mut self, low: usize, high: usize) -> usize {
        low + self.below(high - low + 1)
    }

    /// True once in n times.
    pub fn once_in(&mut self, n: usize) -> bool {
        self.below(n) == 0
    }

    pub fn one_of(&mut self, numbers: &[usize]) -> usize {
        numbers[self.below(numbers.len())]
    }

    pub fn byte(&mut self) -> u8 {
        self.next() as u8
    }
}

pub fn random_design(chance: &mut Chance) -> Design {
    // The greatest W, H and m.
    let (most_w, most_h, most_m) = match chance.below(32) {
        0..=13 => (3, 3, 3),
        14..=27 => (7, 7, 5),
        28 | 29 => (64, 2, 4),
        30 => (2, 64, 4),
        _ => (16, 16, 8),
    };
    let w = near_limit(chance, most_w);
    let h = near_limit(chance, most_h);
    let m = chance.between(1, most_m);
    design_of_size(chance, w, h, m)
}

/// Above 7 the greatest itself half the time.
fn near_limit(chance: &mut Chance, most: usize) -> usize {
    if most > 7 && chance.once_in(2) {
        most
    } else {
        chance.between(1, most)
    }
}

pub fn design_of_size(chance: &mut Chance, w: usize, h: usize, m: usize) -> Design {
    let mut design = ALL_ZEROS;
    design.chip = random_chip(chance, w, h);
    design.modules = m;
    for k in 0..m {
        design.needs[k] = random_need(chance, &design.chip, m);
    }
    let tokens = random_tokens(chance, m);
    design.tokens[..tokens.len()].copy_from_slice(&tokens);
    fill_ignored_places(chance, &mut design);
    design
}

fn random_chip(chance: &mut Chance, w: usize, h: usize) -> Chip {
    let mut chip = ALL_ZEROS.chip;
    chip.width = Columns(w);
    chip.height = Rows(h);
    chip.block = Rows(chance.between(1, h));
    let clbs_only = chance.once_in(4);
    for x in 0..w {
        chip.kinds[x] = if clbs_only || chance.once_in(2) {
            0
        } else {
            chance.below(3)
        };
    }
    chip
}

/// Part of what some rectangle holds that takes about one m-th of the chip; sometimes more than
/// the chip has.
fn random_need(chance: &mut Chance, chip: &Chip, m: usize) -> Amounts {
    if chance.once_in(40) {
        return large_need(chance);
    }
    let most = (chip.width.0 * chip.height.0 / m).max(2);
    let held = chip.holds(random_rectangle(chance, chip, most));
    let need = Amounts {
        clbs: chance.between(0, held.clbs),
        rams: chance.between(0, held.rams),
        multipliers: chance.between(0, held.multipliers),
    };
    if lawful_need(need) {
        need
    } else {
        small_need(chance, chip)
    }
}

/// A rectangle on the chip of at most so many cells.
fn random_rectangle(chance: &mut Chance, chip: &Chip, most: usize) -> Rectangle {
    let corner = Corner {
        x: Columns(chance.below(chip.width.0)),
        y: Rows(chance.below(chip.height.0)),
    };
    let (Columns(wide), Rows(high)) = (chip.width - corner.x, chip.height - corner.y);
    let w = chance.between(1, wide.min(most));
    let h = chance.between(1, high.min(most / w));
    let shape = Shape {
        w: Columns(w),
        h: Rows(h),
    };
    Rectangle { corner, shape }
}

/// One of what some column of the chip holds.
fn small_need(chance: &mut Chance, chip: &Chip) -> Amounts {
    let mut numbers = [0; 3];
    numbers[chip.kinds[chance.below(chip.width.0)]] = 1;
    amounts(numbers)
}

fn large_need(chance: &mut Chance) -> Amounts {
    let numbers = [0, 1, 127, 128, 16_383, 16_384, MOST_NEEDED];
    let some = chance.one_of(&numbers[1..]);
    amounts([some, chance.one_of(&numbers), chance.one_of(&numbers)])
}

pub fn amounts([clbs, rams, multipliers]: [usize; 3]) -> Amounts {
    Amounts {
        clbs,
        rams,
        multipliers,
    }
}

/// A random lawful tree of m modules.
fn random_tokens(chance: &mut Chance, m: usize) -> Vec<usize> {
    let mut modules: Vec<usize> = (0..m).collect();
    let mut tokens = Vec::new();
    let mut standing = 0;
    while tokens.len() < 2 * m - 1 {
        let cut_now = modules.is_empty() || (standing >= 2 && chance.once_in(2));
        if cut_now {
            tokens.push(chance.below(2));
            standing -= 1;
        } else {
            let k = modules.swap_remove(chance.below(modules.len()));
            tokens.push(k + 2);
            standing += 1;
        }
    }
    tokens
}

/// Places beyond W, m and 2m-1 are ignored: sometimes they hold anything.
fn fill_ignored_places(chance: &mut Chance, design: &mut Design) {
    if chance.once_in(2) {
        return;
    }
    for kind in design.chip.kinds.iter_mut().skip(design.chip.width.0) {
        *kind = chance.below(300);
    }
    for need in design.needs.iter_mut().skip(design.modules) {
        need.clbs = chance.below(70_000);
    }
    for token in design.tokens.iter_mut().skip(2 * design.modules - 1) {
        *token = chance.below(40);
    }
}

/// An edit that is mostly lawful.
pub fn random_edit(chance: &mut Chance, design: &Design) -> Edit {
    let position = chance.below(2 * design.modules);
    let one_too_many = usize::from(chance.once_in(8));
    let module = chance.below(design.modules + one_too_many);
    let need = match chance.below(12) {
        0 => amounts([0, 0, 0]),
        1 => amounts([0, MOST_NEEDED + 1, 0]),
        _ => random_need(chance, &design.chip, design.modules),
    };
    if chance.once_in(2) {
        Edit::Turn { position }
    } else {
        Edit::Need { module, need }
    }
}

/// Damages bytes in one place.
pub fn damage(chance: &mut Chance, bytes: &mut Vec<u8>) {
    let place = chance.below(bytes.len() + 1);
    match chance.below(5) {
        0 => bytes.truncate(place),
        1 => bytes.insert(place, chance.byte()),
        2 => bytes.insert(place, [0x80, 0x81, 0x00, 0xff][chance.below(4)]),
        _ if place == bytes.len() => bytes.push(0),
        3 => bytes[place] = chance.byte(),
        _ => bytes[place] = chance.below(20) as u8,
    }
}

/// A row for each module, a rectangle on the chip.
pub fn random_rows(chance: &mut Chance, design: &Design) -> Vec<u8> {
    let most = design.chip.width.0 * design.chip.height.0;
    let mut rows = Vec::new();
    for _ in 0..design.modules {
        rows.extend(row_bytes(random_rectangle(chance, &design.chip, most)));
    }
    rows
}

/// Changes one number of one module's row, mostly by one.
pub fn change_row(chance: &mut Chance, design: &Design, rows: &mut [u8]) {
    let place = chance.below(design.rows_needed());
    rows[place] = match chance.below(8) {
        0 => chance.byte(),
        1 => chance.below(design.chip.width.0) as u8,
        2 => chance.below(design.chip.height.0) as u8,
        n if n < 6 => rows[place].wrapping_add(1),
        _ => rows[place].wrapping_sub(1),
    };
}

/// Sets one value of a lawful design to a number near some limit.
pub fn change_value(chance: &mut Chance, design: &mut Design) {
    let near = chance.one_of(&[0, 1, 2, 3, 16, 17, 18, 63, 64, 65, 65_535, 65_536]);
    match chance.below(7) {
        0 => design.chip.width = Columns(near),
        1 => design.chip.height = Rows(near),
        2 => design.chip.block = Rows(near),
        3 => design.chip.kinds[chance.below(design.chip.width.0)] = near,
        4 => design.modules = near,
        5 => design.needs[chance.below(design.modules)] = amounts([near, 0, 0]),
        _ => design.tokens[chance.below(2 * design.modules - 1)] = near,
    }
}

/// Work in which every slot is a stair, some of them changed from the design's own lists.
pub fn strangers_stairs(chance: &mut Chance, design: &Design, own_lists: &[u8]) -> Vec<u8> {
    let mut work = own_lists.to_vec();
    let often = chance.between(1, 12);
    for t in 0..design.tree().len() {
        for corner in design.chip.corners() {
            if chance.once_in(often) {
                random_stair(chance, design, &mut work, t, corner);
            }
        }
    }
    work
}

fn random_stair(chance: &mut Chance, design: &Design, work: &mut [u8], t: usize, corner: Corner) {
    let start = slot_start(&design.chip, t, corner);
    work[start..start + design.chip.width.0].fill(0);
    let mut height = (design.chip.height - corner.y).0;
    for j in 0..(design.chip.width - corner.x).0 {
        if height > 0 && chance.once_in(2) {
            height = chance.below(height + 1);
            work[start + j] = height as u8;
            height = height.saturating_sub(1);
        }
    }
}

/// Makes one slot of one node no stair, in one of the three ways.
pub fn spoil_a_stair(chance: &mut Chance, design: &Design, work: &mut [u8]) {
    let chip = &design.chip;
    let corners = chip.corners();
    let corner = corners[chance.below(corners.len())];
    let t = chance.below(design.tree().len());
    let start = slot_start(chip, t, corner);
    let (wide, high) = (chip.width - corner.x, chip.height - corner.y);
    let slot = &mut work[start..start + chip.width.0];
    if wide >= Columns(2) && chance.once_in(2) {
        slot[wide.0 - 2] = 1;
        slot[wide.0 - 1] = 1;
    } else if wide < chip.width && chance.once_in(2) {
        slot[wide.0] = 1;
    } else {
        slot[0] = (high.0 + chance.between(1, 100)) as u8;
    }
}

/// Terms that are mostly lawful: now and then there are too many, or one has a weight out of its range.
pub fn random_terms(chance: &mut Chance) -> Vec<Term> {
    let count = match chance.below(16) {
        0 => MOST_TERMS,
        1 => chance.between(MOST_TERMS + 1, 2 * MOST_TERMS),
        _ => chance.between(0, MOST_TERMS),
    };
    let kinds = [Kind::Area, Kind::Ratio, Kind::Wire];
    let mut terms = Vec::new();
    for _ in 0..count {
        let (kind, weight) = (kinds[chance.below(kinds.len())], weight_within(chance));
        terms.push(Term { kind, weight });
    }
    if count > 0 && chance.once_in(6) {
        terms[chance.below(count)].weight = weight_outside(chance);
    }
    terms
}

fn weight_within(chance: &mut Chance) -> f64 {
    match chance.below(8) {
        0 => [0.0, -0.0, 1.0, MOST_WEIGHT][chance.below(4)],
        1 => f64::from_bits(MOST_WEIGHT.to_bits() - 1),
        // the smallest numbers, which have fewer digits
        2 => f64::from_bits(chance.next() >> chance.between(12, 63)),
        // any bits up to the greatest weight's
        3 => f64::from_bits(chance.next() % MOST_WEIGHT.to_bits()),
        4 => chance.between(0, 1_000_000) as f64,
        _ => chance.between(0, 1_000_000) as f64 / chance.between(1, 1_000) as f64,
    }
    .min(MOST_WEIGHT)
}

fn weight_outside(chance: &mut Chance) -> f64 {
    const SIGN: u64 = 1 << 63;
    let infinity = f64::INFINITY.to_bits();
    let any_sign = chance.next() & SIGN;
    match chance.below(7) {
        0 => f64::from_bits(MOST_WEIGHT.to_bits() + 1),
        1 => f64::from_bits(SIGN + 1),
        2 => f64::from_bits(any_sign + infinity),
        // what is no number: any sign, and any bits but zeros after the exponent
        3 => f64::from_bits(any_sign + infinity + 1),
        4 => f64::from_bits(any_sign + infinity + (chance.next() >> 12).max(1)),
        5 => -weight_within(chance).max(1.0),
        _ => 1_000_001.0 * chance.between(1, 1_000) as f64,
    }
}

/// Nets that are mostly lawful: now and then there are too many, or one is none. No number in them is over 255.
pub fn random_nets(chance: &mut Chance, modules: usize) -> Vec<Net> {
    let count = match chance.below(16) {
        0 => MOST_NETS,
        1 => chance.between(MOST_NETS + 1, 2 * MOST_NETS),
        2..=5 => chance.between(0, MOST_NETS),
        _ => chance.between(0, 4),
    };
    let mut nets = Vec::new();
    for _ in 0..count {
        let names = chance.between(1, MOST_NAMES);
        nets.push(random_names(chance, names, modules));
    }
    if count > 0 && chance.once_in(6) {
        let net = chance.below(count);
        nets[net] = no_net(chance, modules);
    }
    nets
}

fn random_names(chance: &mut Chance, names: usize, modules: usize) -> Net {
    (0..names).map(|_| chance.below(modules)).collect()
}

fn no_net(chance: &mut Chance, modules: usize) -> Net {
    match chance.below(5) {
        0 => Net::new(),
        1 => random_names(chance, MOST_NAMES + 1, modules),
        2 => {
            let names = chance.between(MOST_NAMES + 1, 255);
            random_names(chance, names, modules)
        }
        wrong => {
            let names = chance.between(1, MOST_NAMES);
            let mut net = random_names(chance, names, modules);
            let missing = chance.between(modules, 255);
            net[chance.below(names)] = if wrong == 3 { modules } else { missing };
            net
        }
    }
}
