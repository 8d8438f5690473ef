//! The services on random designs, against the definitions and against the user's demands.

use crate::bytes::{design_numbers, numbers_bytes, read, write};
use crate::check::{check, row};
use crate::chip::{Amounts, Chip, Columns, Corner, Rectangle, Rows, Shape, CHIP_CORNER};
use crate::choice::{place, plan, row_bytes};
use crate::design::{lawful_need, same, test, Design, ALL_ZEROS};
use crate::edit::{edit, Edit};
use crate::lists::{
    all_stairs, is_small, list, list_by_definition, list_by_pairing, slot_start, stored_shapes,
};
use crate::program::plan_program;
use crate::random::{
    change_row, change_value, damage, design_of_size, random_design, random_edit, random_nets,
    random_rows, random_terms, spoil_a_stair, strangers_stairs, Chance,
};
use crate::reply::{
    Number, BAD_EDIT, BAD_NET, BAD_NUMBER, BAD_TERM, BAD_TOKEN, DONE, NOT_RELIED_ON, NO_PLACEMENT,
    OVER_LIMITS, TOO_SHORT,
};
use crate::score::{score, Kind, Net, Term};
use crate::tree::{way_up, Node};

/// A self-check: true if it was made, false if it is not for this design, else what is wrong.
type Outcome = Result<bool, String>;
type SelfCheck = fn(&mut Chance, &Design) -> Outcome;

/// What lent bytes hold before a service is called.
const LENT: u8 = 0xee;
/// So many lent bytes more than are needed.
const SPARE: usize = 3;
/// Most floorplans that a search looks at.
const MOST_FLOORPLANS: usize = 50_000;

/// Makes and tries `count` designs; true if nothing is wrong.
pub fn run(seed: u64, count: usize) -> bool {
    let self_checks: [(&str, SelfCheck); 12] = [
        ("written and read", written_and_read),
        ("damaged bytes", damaged_bytes),
        ("changed values", changed_values),
        ("lists by definition and by pairing", lists_two_ways),
        ("lists and suitable rectangles", lists_are_complete),
        ("plan and check", plan_and_check),
        ("plan and search", plan_and_search),
        ("check and cells", check_and_cells),
        ("runs of edits", runs_of_edits),
        ("place over a stranger's stairs", place_over_stairs),
        ("edit over a stranger's stairs", edit_over_stairs),
        ("score and cells", score_and_cells),
    ];
    let mut chance = Chance(seed);
    let mut made = [0; 12];
    let mut wrong = 0;
    for _ in 0..count {
        let design = random_design(&mut chance);
        for (i, (name, self_check)) in self_checks.iter().enumerate() {
            match self_check(&mut chance, &design) {
                Ok(was_made) => made[i] += usize::from(was_made),
                Err(what) => {
                    wrong += 1;
                    println!("{name}: {what}: design {}", hex(&bytes_of(&design)));
                }
            }
        }
    }
    for (i, (name, _)) in self_checks.iter().enumerate() {
        println!("{name}: made for {} of {count} designs", made[i]);
    }
    println!("random: seed {seed}, {count} designs, {wrong} wrong");
    wrong == 0
}

fn bytes_of(design: &Design) -> Vec<u8> {
    numbers_bytes(&design_numbers(design))
}

fn hex(bytes: &[u8]) -> String {
    bytes.iter().map(|byte| format!("{byte:02x}")).collect()
}

fn demand(rule: bool, otherwise: &str) -> Result<(), String> {
    if rule {
        Ok(())
    } else {
        Err(otherwise.to_string())
    }
}

/// Lent work with spare bytes behind what is needed.
fn lent_work(design: &Design) -> Vec<u8> {
    vec![LENT; design.work_needed() + SPARE]
}

fn lent_rows(design: &Design) -> Vec<u8> {
    vec![LENT; design.rows_needed() + SPARE]
}

/// The full lists, with the spare bytes behind them.
fn listed(design: &Design) -> Vec<u8> {
    let mut work = lent_work(design);
    assert_eq!(list(design, &mut work), DONE);
    work
}

/// "Given room, accepted bytes, written again, are the same bytes; a lawful design, written and
/// read, is the same design." Every few times with a design at the limits.
fn written_and_read(chance: &mut Chance, small: &Design) -> Outcome {
    let design = if chance.once_in(8) {
        design_of_size(chance, 64, 64, 16)
    } else {
        *small
    };
    let expected = bytes_of(&design);
    let mut out = vec![LENT; expected.len() + SPARE];
    let written = write(&design, &mut out);
    demand(written.number == DONE, "a lawful design is not written")?;
    demand(written.count == expected.len(), "the byte count is wrong")?;
    demand(out[..written.count] == expected, "the bytes are wrong")?;
    demand(out[written.count..] == [LENT; SPARE], "bytes past stay")?;
    let reading = read(&out[..written.count]);
    demand(reading.number == DONE, "the bytes are not read")?;
    demand(reading.position == 0, "position 0 when done")?;
    demand(same(&reading.design, &design), "another design is read")?;
    let mut short = vec![LENT; expected.len() - 1];
    let refused = write(&design, &mut short);
    demand(
        (refused.number, refused.count) == (TOO_SHORT, 0),
        "8, count 0",
    )?;
    demand(short.iter().all(|&b| b == LENT), "8 changes nothing")?;
    Ok(true)
}

/// Damaged bytes are refused with nothing read, or accepted and written again the same.
fn damaged_bytes(chance: &mut Chance, design: &Design) -> Outcome {
    for _ in 0..8 {
        let mut bytes = bytes_of(design);
        for _ in 0..chance.between(1, 2) {
            damage(chance, &mut bytes);
        }
        let reading = read(&bytes);
        let printed = plan_program(&bytes);
        if reading.number == DONE {
            let mut out = vec![LENT; bytes.len()];
            let written = write(&reading.design, &mut out);
            demand(written.number == DONE, "accepted, then not written")?;
            demand(written.count == bytes.len(), "accepted, another count")?;
            demand(out == bytes, "accepted, other bytes written")?;
            let texts = ["plan 0 ", "plan 8 0\n", "plan 10 0\n"];
            let known = texts.iter().any(|text| printed.starts_with(text));
            demand(known, "the program prints something else")?;
        } else {
            demand((1..=7).contains(&reading.number), "1 to 7 from reading")?;
            demand(reading.position <= bytes.len(), "position past the end")?;
            demand(reading.design == ALL_ZEROS, "a refused reading: all zeros")?;
            let text = format!("plan {} {}\n", reading.number, reading.position);
            demand(printed == text, "the program prints the refusal")?;
        }
    }
    Ok(true)
}

/// A design with one value changed is judged alike as a value and in bytes, and every service
/// says so with nothing changed.
fn changed_values(chance: &mut Chance, design: &Design) -> Outcome {
    let mut changed = *design;
    change_value(chance, &mut changed);
    let judged = test(&changed);
    let numbers = design_numbers(&changed);
    let number = read(&numbers_bytes(&numbers)).number;
    // A number that no file can carry is 2 in bytes, 4 or 5 as a value.
    if number == BAD_NUMBER {
        let refused = [Err(OVER_LIMITS), Err(BAD_TOKEN)].contains(&judged);
        demand(refused, "4 or 5 for a number over 65,535")?;
    } else {
        let expected = if number == DONE { Ok(()) } else { Err(number) };
        demand(judged == expected, "value and bytes are judged apart")?;
    }
    let Err(number) = judged else {
        return Ok(true);
    };
    let mut lent = vec![LENT; 600];
    let before = lent.clone();
    let turn = Edit::Turn { position: 99 };
    demand(write(&changed, &mut lent).number == number, "write")?;
    demand(list(&changed, &mut lent) == number, "list")?;
    demand(check(&changed, &lent).number == number, "check")?;
    demand(check(&changed, &lent).name == 0, "check names 0")?;
    demand(score(&changed, &lent, &[], &[]).number == number, "score")?;
    let mut rows = before.clone();
    demand(
        plan(&changed, &mut lent, &mut rows).number == number,
        "plan",
    )?;
    demand(place(&changed, &lent, &mut rows).number == number, "place")?;
    let edited = edit(&changed, turn, &mut lent);
    demand(edited.number == number, "edit")?;
    demand(edited.design == changed, "edit hands back another design")?;
    demand(lent == before && rows == before, "lent bytes are changed")?;
    Ok(true)
}

/// The pairing of the children's lists gives what the definition says.
fn lists_two_ways(_: &mut Chance, design: &Design) -> Outcome {
    if !is_small(&design.chip) {
        return Ok(false);
    }
    let (mut one, mut other) = (lent_work(design), lent_work(design));
    list_by_definition(design, &mut one);
    list_by_pairing(design, &mut other);
    demand(one == other, "the lists differ")?;
    Ok(true)
}

/// Each list is a stair, a leaf's listed shapes suit, and each suitable rectangle contains a
/// listed one.
fn lists_are_complete(_: &mut Chance, design: &Design) -> Outcome {
    let chip = &design.chip;
    let work = listed(design);
    demand(all_stairs(design, &work), "a list is no stair")?;
    demand(work[design.work_needed()..] == [LENT; SPARE], "bytes after")?;
    for (t, node) in design.nodes().into_iter().enumerate() {
        let Node::Leaf { module } = node else {
            continue;
        };
        for r in chip.rectangles() {
            let list = stored_shapes(chip, &work, t, r.corner);
            let listed_inside = list.iter().any(|&s| fits_in(s, r.shape));
            let suits = suits_by_cells(chip, r, design.needs[module]);
            demand(listed_inside == suits, "a leaf's list is wrong")?;
        }
    }
    Ok(true)
}

fn fits_in(shape: Shape, room: Shape) -> bool {
    shape.w <= room.w && shape.h <= room.h
}

/// "The rectangles follow it, lie on the chip, meet the needs and share no cell."
fn plan_and_check(_: &mut Chance, design: &Design) -> Outcome {
    let (mut work, mut rows) = (lent_work(design), lent_rows(design));
    let reply = plan(design, &mut work, &mut rows);
    demand(work == listed(design), "plan leaves other lists")?;
    if reply.number == NO_PLACEMENT {
        demand(rows == lent_rows(design), "10 changes rows")?;
        demand(
            (reply.box_width, reply.box_height) == (0, 0),
            "10 has no box",
        )?;
        return Ok(true);
    }
    demand(reply.number == DONE, "plan gives 0 or 10")?;
    demand(check(design, &rows).number == DONE, "the checker refuses")?;
    demand(share_no_cell(design, &rows), "two share a cell")?;
    let (Columns(w), Rows(h)) = box_round(design, &rows);
    demand((reply.box_width, reply.box_height) == (w, h), "another box")?;
    demand(
        rows[design.rows_needed()..] == [LENT; SPARE],
        "rows past 4m",
    )?;
    let mut again = lent_rows(design);
    demand(place(design, &work, &mut again) == reply, "place differs")?;
    demand(again == rows, "place gives other rows")?;
    Ok(true)
}

fn share_no_cell(design: &Design, rows: &[u8]) -> bool {
    let chip = &design.chip;
    let mut taken = vec![false; chip.width.0 * chip.height.0];
    for k in 0..design.modules {
        let r = row(rows, k);
        for y in r.corner.y.0..r.top().0 {
            for x in r.corner.x.0..r.right().0 {
                let cell = &mut taken[y * chip.width.0 + x];
                if *cell {
                    return false;
                }
                *cell = true;
            }
        }
    }
    true
}

/// The box round the rectangles, drawn from the chip's lower left corner.
fn box_round(design: &Design, rows: &[u8]) -> (Columns, Rows) {
    let (mut right, mut top) = (Columns(0), Rows(0));
    for k in 0..design.modules {
        right = right.max(row(rows, k).right());
        top = top.max(row(rows, k).top());
    }
    (right, top)
}

/// No placement is said "exactly if no placement on the chip follows the tree and meets every
/// need"; otherwise "no such placement has a box of smaller area".
fn plan_and_search(_: &mut Chance, design: &Design) -> Outcome {
    let Some(least) = least_area(design) else {
        return Ok(false);
    };
    let reply = plan(design, &mut lent_work(design), &mut lent_rows(design));
    match least {
        None => demand(reply.number == NO_PLACEMENT, "there is no placement")?,
        Some(area) => {
            demand(reply.number == DONE, "there is a placement")?;
            demand(reply.box_width * reply.box_height == area, "not least")?;
        }
    }
    Ok(true)
}

/// The least box of all placements, by trying every rectangle for every module; the outer none
/// means that there are too many to try.
fn least_area(design: &Design) -> Option<Option<usize>> {
    let rectangles = design.chip.rectangles();
    let mut suitable: Vec<Vec<Rectangle>> = Vec::new();
    let mut floorplans: usize = 1;
    for k in 0..design.modules {
        let suits = |r: &Rectangle| suits_by_cells(&design.chip, *r, design.needs[k]);
        suitable.push(rectangles.iter().copied().filter(suits).collect());
        floorplans = floorplans.saturating_mul(suitable[k].len());
    }
    if floorplans > MOST_FLOORPLANS {
        return None;
    }
    let mut least = None;
    for n in 0..floorplans {
        let rows = floorplan(&suitable, n);
        if check(design, &rows).number == DONE {
            let (Columns(w), Rows(h)) = box_round(design, &rows);
            least = Some(least.unwrap_or(w * h).min(w * h));
        }
    }
    Some(least)
}

/// Floorplan n of all those that give each module one of its suitable rectangles, as rows.
fn floorplan(suitable: &[Vec<Rectangle>], mut n: usize) -> Vec<u8> {
    let mut rows = Vec::new();
    for choices in suitable {
        rows.extend(row_bytes(choices[n % choices.len()]));
        n /= choices.len();
    }
    rows
}

/// The checker passes exactly the lawful placements, told cell by cell and pair by pair.
fn check_and_cells(chance: &mut Chance, design: &Design) -> Outcome {
    let mut rows = lent_rows(design);
    let planned = plan(design, &mut lent_work(design), &mut rows);
    if planned.number != DONE {
        rows = random_rows(chance, design);
    }
    for _ in 0..8 {
        let passes = check(design, &rows).number == DONE;
        demand(passes == is_lawful(design, &rows), "the checker is wrong")?;
        change_row(chance, design, &mut rows);
    }
    Ok(true)
}

fn is_lawful(design: &Design, rows: &[u8]) -> bool {
    let modules: Vec<usize> = (0..design.modules).collect();
    modules.iter().all(|&k| design.chip.has(row(rows, k)))
        && modules
            .iter()
            .all(|&k| suits_by_cells(&design.chip, row(rows, k), design.needs[k]))
        && follows_the_tree(design, rows)
}

/// Looks at each cell of each column of a rectangle on the chip. A cell is the last of a block if
/// the rows up to it, from row 0, make whole blocks; the block is held if its first cell is in
/// the rectangle, too.
fn suits_by_cells(chip: &Chip, r: Rectangle, need: Amounts) -> bool {
    let mut held = [0; 3];
    for x in r.corner.x.0..r.right().0 {
        for y in r.corner.y.0..r.top().0 {
            let unit = if chip.kinds[x] == 0 { 1 } else { chip.block.0 };
            let is_last = (y + 1) % unit == 0;
            if is_last && y + 1 >= r.corner.y.0 + unit {
                held[chip.kinds[x]] += 1;
            }
        }
    }
    held[0] >= need.clbs && held[1] >= need.rams && held[2] >= need.multipliers
}

/// Goes through the tokens with the modules of each thing that stands.
fn follows_the_tree(design: &Design, rows: &[u8]) -> bool {
    let mut standing: Vec<Vec<usize>> = Vec::new();
    for &number in design.tree() {
        if number >= 2 {
            standing.push(vec![number - 2]);
            continue;
        }
        let later = standing.pop().expect("the tree is lawful");
        let earlier = standing.last_mut().expect("the tree is lawful");
        for &a in earlier.iter() {
            for &b in &later {
                let (a, b) = (row(rows, a), row(rows, b));
                let apart = match number {
                    0 => a.right() <= b.corner.x,
                    _ => a.top() <= b.corner.y,
                };
                if !apart {
                    return false;
                }
            }
        }
        earlier.extend(later);
    }
    true
}

/// "After any run of edits the lists equal, byte for byte, a fresh listing of the design as it
/// now stands; and no granted edit has altered a list off the way from the edited node up to the
/// root."
fn runs_of_edits(chance: &mut Chance, design: &Design) -> Outcome {
    let mut design = *design;
    let mut work = listed(&design);
    for _ in 0..6 {
        let (before, work_before) = (design, work.clone());
        let wanted = random_edit(chance, &design);
        let reply = edit(&design, wanted, &mut work);
        design = reply.design;
        match edited_node(&before, wanted) {
            None => {
                demand(reply.number == BAD_EDIT, "11 for this edit")?;
                demand(design == before, "11 changes the design")?;
            }
            Some(t) => {
                demand(reply.number == DONE, "this edit is granted")?;
                demand(one_change(&before, wanted) == design, "another change")?;
                demand(off_the_way_same(&before, t, &work_before, &work), "off")?;
            }
        }
        demand(work == listed(&design), "not a fresh listing")?;
    }
    Ok(true)
}

/// The node that a lawful edit names.
fn edited_node(design: &Design, wanted: Edit) -> Option<usize> {
    let tree = design.tree();
    match wanted {
        Edit::Need { need, .. } if !lawful_need(need) => None,
        Edit::Need { module, .. } => tree.iter().position(|&token| token == module + 2),
        Edit::Turn { position } => tree.get(position).filter(|&&t| t < 2).map(|_| position),
    }
}

/// The design with that one change.
fn one_change(design: &Design, wanted: Edit) -> Design {
    let mut changed = *design;
    match wanted {
        Edit::Need { module, need } => changed.needs[module] = need,
        Edit::Turn { position } => {
            changed.tokens[position] = if design.tokens[position] == 0 { 1 } else { 0 };
        }
    }
    changed
}

/// True if only lists on the way from node t up to the root differ.
fn off_the_way_same(design: &Design, t: usize, before: &[u8], after: &[u8]) -> bool {
    let way = way_up(&design.nodes(), t);
    let start = |t: usize| slot_start(&design.chip, t, CHIP_CORNER);
    let lists_same = (0..design.tree().len())
        .filter(|t| !way.contains(t))
        .all(|t| before[start(t)..start(t + 1)] == after[start(t)..start(t + 1)]);
    lists_same && before[design.work_needed()..] == after[design.work_needed()..]
}

/// "A placed floorplan is lawful over all work bytes."
fn place_over_stairs(chance: &mut Chance, design: &Design) -> Outcome {
    let mut work = strangers_stairs(chance, design, &listed(design));
    demand(all_stairs(design, &work), "the stranger's are stairs")?;
    let mut rows = lent_rows(design);
    let reply = place(design, &work, &mut rows);
    let root = design.tree().len() - 1;
    let root_list = stored_shapes(&design.chip, &work, root, CHIP_CORNER);
    demand(
        (reply.number == NO_PLACEMENT) == root_list.is_empty(),
        "10 exactly if the root's list is empty",
    )?;
    if reply.number == DONE {
        demand(check(design, &rows).number == DONE, "an unlawful floorplan")?;
        let (Columns(w), Rows(h)) = box_round(design, &rows);
        let inside = w <= reply.box_width && h <= reply.box_height;
        demand(inside, "a rectangle ends past the box")?;
    } else {
        demand(rows == lent_rows(design), "a refusal changes rows")?;
        demand((reply.box_width, reply.box_height) == (0, 0), "no box")?;
    }
    spoil_a_stair(chance, design, &mut work);
    let spoiled = work.clone();
    let refused = place(design, &work, &mut rows).number;
    demand(refused == NOT_RELIED_ON, "place gives 9")?;
    let wanted = random_edit(chance, design);
    if edited_node(design, wanted).is_some() {
        let reply = edit(design, wanted, &mut work);
        demand(reply.number == NOT_RELIED_ON, "edit gives 9")?;
        demand(reply.design == *design, "9 changes the design")?;
        demand(work == spoiled, "9 changes work")?;
    }
    Ok(true)
}

/// An edit over any stairs writes only on its way, leaves stairs, and fills
/// each slot on the way by the rule.
fn edit_over_stairs(chance: &mut Chance, design: &Design) -> Outcome {
    let before = strangers_stairs(chance, design, &listed(design));
    let wanted = random_edit(chance, design);
    let Some(t) = edited_node(design, wanted) else {
        return Ok(false);
    };
    let mut work = before.clone();
    let reply = edit(design, wanted, &mut work);
    demand(reply.number == DONE, "this edit is granted")?;
    demand(off_the_way_same(design, t, &before, &work), "off the way")?;
    demand(all_stairs(design, &work), "an edit leaves no stair")?;
    for t in way_up(&design.nodes(), t) {
        for r in design.chip.rectangles() {
            let list = stored_shapes(&design.chip, &work, t, r.corner);
            let listed_inside = list.iter().any(|&s| fits_in(s, r.shape));
            let inside = contains_a_shape(&reply.design, &work, t, r);
            demand(listed_inside == inside, "a relisted slot is wrong")?;
        }
    }
    Ok(true)
}

/// True if the rectangle contains a shape of node t at its own corner: for a leaf one that suits,
/// for a cut a pairing of the children's stored shapes, told here by columns and rows alone.
fn contains_a_shape(design: &Design, work: &[u8], t: usize, r: Rectangle) -> bool {
    let chip = &design.chip;
    let (left, right) = match design.nodes()[t] {
        Node::Leaf { module } => return suits_by_cells(chip, r, design.needs[module]),
        Node::Cut { left, right, .. } => (left, right),
    };
    for a in stored_shapes(chip, work, left, r.corner) {
        let (a_end, a_top) = (r.corner.x + a.w, r.corner.y + a.h);
        let (x, y) = match design.tokens[t] {
            0 => (a_end, r.corner.y),
            _ => (r.corner.x, a_top),
        };
        if x >= r.right() || y >= r.top() {
            continue;
        }
        for b in stored_shapes(chip, work, right, Corner { x, y }) {
            let inside = a_end.max(x + b.w) <= r.right() && a_top.max(y + b.h) <= r.top();
            if inside {
                return true;
            }
        }
    }
    false
}

/// The score is what a count of cells and of pairs of centres comes to, also where it is refused.
fn score_and_cells(chance: &mut Chance, design: &Design) -> Outcome {
    let mut rows = lent_rows(design);
    let planned = plan(design, &mut lent_work(design), &mut rows);
    if planned.number != DONE {
        rows = random_rows(chance, design);
    }
    for _ in 0..8 {
        let (terms, nets) = (random_terms(chance), random_nets(chance, design.modules));
        let reply = score(design, &rows, &terms, &nets);
        let checked = check(design, &rows);
        let number = match checked.number {
            DONE => judged(design, &terms, &nets),
            refused => refused,
        };
        demand(reply.number == number, "another number")?;
        demand(reply.name == checked.name, "another name than the checker's")?;
        let expected = match number {
            DONE => scored_by_cells(design, &rows, &terms, &nets),
            _ => [0.0, 0.0],
        };
        let got = [reply.scored.total, reply.scored.last];
        demand(got.map(f64::to_bits) == expected.map(f64::to_bits), "another score")?;
        if chance.once_in(4) {
            change_row(chance, design, &mut rows);
        }
    }
    Ok(true)
}

/// 15, 16 or 0. Weights are told by their bits, which rise with the number above zero; a module is
/// missing if no token names it.
fn judged(design: &Design, terms: &[Term], nets: &[Net]) -> Number {
    let most = 1_000_000_f64.to_bits();
    let minus_zero = 1 << 63;
    let in_range = |term: &Term| term.weight.to_bits() <= most || term.weight.to_bits() == minus_zero;
    if terms.len() > 8 || terms.iter().any(|term| !in_range(term)) {
        return BAD_TERM;
    }
    let missing = |k: &usize| !design.tree().contains(&(k + 2));
    let no_net = |net: &Net| net.is_empty() || net.len() > 16 || net.iter().any(missing);
    if nets.len() > 32 || nets.iter().any(no_net) {
        return BAD_NET;
    }
    DONE
}

/// The total and the last amount.
fn scored_by_cells(design: &Design, rows: &[u8], terms: &[Term], nets: &[Net]) -> [f64; 2] {
    let amount = |term: &Term| match term.kind {
        Kind::Area => cells_of_the_box(design, rows) as f64,
        Kind::Wire => nets.iter().map(|net| farthest_apart(rows, net)).sum::<usize>() as f64,
        Kind::Ratio => {
            let sides = (0..design.modules).map(|k| row(rows, k).shape);
            let both = sides.flat_map(|s| [(s.w.0, s.h.0), (s.h.0, s.w.0)]);
            both.fold(0.0, |sum, (a, b)| sum + a as f64 / b as f64)
        }
    };
    let total = terms.iter().fold(0.0, |sum, term| sum + amount(term) * term.weight);
    [total, terms.last().map_or(0.0, amount)]
}

/// Counts the cells of the chip that have a module's cell in their column or right of it, and one
/// in their row or above it.
fn cells_of_the_box(design: &Design, rows: &[u8]) -> usize {
    let modules = || (0..design.modules).map(|k| row(rows, k));
    let in_box = |cell: &Corner| {
        modules().any(|r| cell.x < r.right()) && modules().any(|r| cell.y < r.top())
    };
    design.chip.corners().iter().filter(|cell| in_box(cell)).count()
}

/// Of all pairs of members, how far two doubled centres are apart at most across, and up.
fn farthest_apart(rows: &[u8], net: &Net) -> usize {
    let centre = |k: usize| {
        let [x, y, w, h] = [0, 1, 2, 3].map(|i| usize::from(rows[4 * k + i]));
        (2 * x + w, 2 * y + h)
    };
    let (mut across, mut up) = (0, 0);
    for &a in net {
        for &b in net {
            across = across.max(centre(a).0.abs_diff(centre(b).0));
            up = up.max(centre(a).1.abs_diff(centre(b).1));
        }
    }
    across + up
}
