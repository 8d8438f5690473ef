//! The bench examples P1 to P12 and those marked "Run only", each on a line.

use crate::bytes::read;
use crate::chip::{Amounts, Chip, Columns, Corner, Rectangle, Rows, Shape, CHIP_CORNER};
use crate::choice::{place, plan, PlaceReply};
use crate::design::{Design, ALL_ZEROS};
use crate::edit::{edit, Edit};
use crate::lists::{list, list_by_pairing, slot, slot_start, stored_shapes};
use crate::program::plan_program;
use crate::reply::{Number, DONE, NO_PLACEMENT, TOO_SHORT};

/// The input D of document 01.
const D: [u8; 19] = [
    0x01, 0x05, 0x06, 0x03, 0x00, 0x01, 0x02, 0x00, 0x00, 0x02, 0x02, 0x01, 0x00, 0x03, 0x00, 0x01,
    0x02, 0x03, 0x00,
];

/// What the plan program prints for D.
const D_PRINTED: &str = "plan 0 4 3\n0 0 0 2 3\n1 2 0 2 3\n";

/// Where D's cut stands, which is its root.
const D_ROOT: usize = 2;

/// Runs all examples; true if all hold.
pub fn run() -> bool {
    let examples: [(&str, bool); 24] = [
        (
            "D printed by the plan program",
            plan_program(&D) == D_PRINTED,
        ),
        ("P1 list on E at (4,1)", e_lists((4, 1), &[(4, 6), (5, 5)])),
        (
            "P2 list on E at (10,0)",
            e_lists((10, 0), &[(3, 12), (4, 6), (5, 4), (6, 3)]),
        ),
        (
            "P3 list on E at (10,6)",
            e_lists((10, 6), &[(4, 6), (5, 4), (6, 3)]),
        ),
        (
            "P4 E holds in (0,0,4,6)",
            e_holds((0, 0, 4, 6)) == (12, 2, 2),
        ),
        ("P5 E holds in (0,1,2,4)", e_holds((0, 1, 2, 4)).1 == 0),
        ("P6 E holds in (0,1,2,5)", e_holds((0, 1, 2, 5)).1 == 1),
        ("P7 D's root slot", p7()),
        ("P8 D with its cut turned", p8()),
        ("P9 D with need 1 as (4,0,1)", p9()),
        ("P10 D with RAM need 3 in module 0", p10()),
        ("P11 four CLB columns", p11()),
        ("P12 D's last three bytes 02 02 00", reads(&p12(), 5, 17)),
        ("empty input", reads(&[], 1, 0)),
        ("D plus a byte", reads(&[&D[..], &[0]].concat(), 7, 19)),
        (
            "W as 81 00",
            reads(&[&[1, 0x81, 0], &D[2..]].concat(), 2, 1),
        ),
        ("W 64 accepted", reads(&wide_d(64), 0, 0)),
        ("W 65", reads(&wide_d(65), 4, 1)),
        ("B 7 with H 6", reads(&d_with(3, 7), 4, 3)),
        ("first byte 2", reads(&d_with(0, 2), 3, 0)),
        ("module 1 all zero", reads(&module_1_all_zero(), 4, 13)),
        ("tokens starting 00", reads(&d_with(16, 0), 5, 16)),
        ("work one byte short", one_byte_short()),
        ("D listed by pairing as by definition", d_by_pairing()),
    ];
    for (name, holds) in examples {
        println!("{name}: {}", if holds { "holds" } else { "DIFFERS" });
    }
    examples.iter().all(|&(_, holds)| holds)
}

/// Chip E: "kinds 0 1 2 0 0 four times, H 12, B 3".
fn chip_e() -> Chip {
    let mut chip = ALL_ZEROS.chip;
    chip.width = Columns(20);
    chip.height = Rows(12);
    chip.block = Rows(3);
    for x in 0..20 {
        chip.kinds[x] = [0, 1, 2, 0, 0][x % 5];
    }
    chip
}

fn corner(x: usize, y: usize) -> Corner {
    Corner {
        x: Columns(x),
        y: Rows(y),
    }
}

fn shapes(pairs: &[(usize, usize)]) -> Vec<Shape> {
    let shape = |&(w, h): &(usize, usize)| Shape {
        w: Columns(w),
        h: Rows(h),
    };
    pairs.iter().map(shape).collect()
}

fn need(clbs: usize, rams: usize, multipliers: usize) -> Amounts {
    Amounts {
        clbs,
        rams,
        multipliers,
    }
}

fn one_module(chip: Chip, need: Amounts) -> Design {
    let mut design = ALL_ZEROS;
    design.chip = chip;
    design.modules = 1;
    design.needs[0] = need;
    design.tokens[0] = 2;
    design
}

/// The full lists of a lawful design.
fn listed(design: &Design) -> Vec<u8> {
    let mut work = vec![0; design.work_needed()];
    assert_eq!(list(design, &mut work), DONE);
    work
}

/// The list of need (12,1,1) on E at a corner.
fn e_lists((x, y): (usize, usize), expected: &[(usize, usize)]) -> bool {
    let design = one_module(chip_e(), need(12, 1, 1));
    let work = listed(&design);
    stored_shapes(&design.chip, &work, 0, corner(x, y)) == shapes(expected)
}

fn e_holds((x, y, w, h): (usize, usize, usize, usize)) -> (usize, usize, usize) {
    let held = chip_e().holds(Rectangle {
        corner: corner(x, y),
        shape: shapes(&[(w, h)])[0],
    });
    (held.clbs, held.rams, held.multipliers)
}

fn d() -> Design {
    read(&D).design
}

fn d_root_slot(design: &Design, work: &[u8]) -> Vec<u8> {
    slot(&design.chip, work, D_ROOT, CHIP_CORNER).to_vec()
}

fn p7() -> bool {
    let design = d();
    slot_start(&design.chip, D_ROOT, CHIP_CORNER) == 300
        && d_root_slot(&design, &listed(&design)) == [0, 0, 0, 3, 0]
}

fn done(box_width: usize, box_height: usize) -> PlaceReply {
    PlaceReply {
        number: DONE,
        box_width,
        box_height,
    }
}

/// "D with its cut turned: root list at (0,0) is (3,6), rectangles (0,0,2,3), (0,3,3,3)."
fn p8() -> bool {
    let mut work = listed(&d());
    let turned = edit(&d(), Edit::Turn { position: D_ROOT }, &mut work);
    let root_list = stored_shapes(&turned.design.chip, &work, D_ROOT, CHIP_CORNER);
    let mut rows = [0; 8];
    let placed = place(&turned.design, &work, &mut rows);
    turned.number == DONE
        && work == listed(&turned.design)
        && root_list == shapes(&[(3, 6)])
        && placed == done(3, 6)
        && rows == [0, 0, 2, 3, 0, 3, 3, 3]
}

/// "D with need 1 as (4,0,1): root slot `00 00 00 04 03`; box (5,3), full chip width."
fn p9() -> bool {
    let mut work = listed(&d());
    let larger = Edit::Need {
        module: 1,
        need: need(4, 0, 1),
    };
    let edited = edit(&d(), larger, &mut work);
    let mut rows = [0; 8];
    edited.number == DONE
        && work == listed(&edited.design)
        && d_root_slot(&edited.design, &work) == [0, 0, 0, 4, 3]
        && place(&edited.design, &work, &mut rows) == done(5, 3)
}

fn p10() -> bool {
    let mut design = d();
    design.needs[0].rams = 3;
    let mut work = vec![0; design.work_needed()];
    let mut rows = [0; 8];
    let reply = plan(&design, &mut work, &mut rows);
    let no_box = (reply.box_width, reply.box_height) == (0, 0);
    reply.number == NO_PLACEMENT && no_box && rows == [0; 8]
}

/// "Four CLB columns, H 4, B 1, one module (12,0,0): (3,4), (4,3); the first is chosen."
fn p11() -> bool {
    let mut chip = ALL_ZEROS.chip;
    chip.width = Columns(4);
    chip.height = Rows(4);
    chip.block = Rows(1);
    let design = one_module(chip, need(12, 0, 0));
    let mut work = listed(&design);
    let list = stored_shapes(&design.chip, &work, 0, CHIP_CORNER);
    let reply = plan(&design, &mut work, &mut [0; 4]);
    list == shapes(&[(3, 4), (4, 3)]) && reply == done(3, 4)
}

fn p12() -> Vec<u8> {
    [&D[..16], &[2, 2, 0]].concat()
}

fn reads(bytes: &[u8], number: Number, position: usize) -> bool {
    let reply = read(bytes);
    let refused = number != DONE;
    reply.number == number && reply.position == position && (reply.design == ALL_ZEROS) == refused
}

fn d_with(position: usize, byte: u8) -> Vec<u8> {
    let mut bytes = D.to_vec();
    bytes[position] = byte;
    bytes
}

/// D with so many columns, the further ones being CLB columns.
fn wide_d(columns: u8) -> Vec<u8> {
    let further = vec![0; usize::from(columns) - 5];
    [&D[..1], &[columns], &D[2..9], &further, &D[9..]].concat()
}

fn module_1_all_zero() -> Vec<u8> {
    [&D[..13], &[0, 0, 0], &D[16..]].concat()
}

fn one_byte_short() -> bool {
    let design = d();
    let short = design.work_needed() - 1;
    let mut work = vec![0xee; short];
    let mut rows = [0xee; 8];
    let planned = plan(&design, &mut work, &mut rows).number;
    let edited = edit(&design, Edit::Turn { position: D_ROOT }, &mut work);
    list(&design, &mut work) == TOO_SHORT
        && planned == TOO_SHORT
        && place(&design, &work, &mut rows).number == TOO_SHORT
        && edited.number == TOO_SHORT
        && edited.design == design
        && work == vec![0xee; short]
        && rows == [0xee; 8]
}

fn d_by_pairing() -> bool {
    let mut work = vec![0; d().work_needed()];
    list_by_pairing(&d(), &mut work);
    work == listed(&d())
}
