//! The draw program: a floorplan as text or as an SVG drawing, from a header, a design and a plan's text.
//!
//! Everything is counted cell by cell: a block is a list of cells, and a region has those that it has.

use crate::bytes::read;
use crate::check::check;
use crate::chip::{Amounts, Chip, Rectangle, CLB, MOST_COLUMNS, MOST_ROWS, MULTIPLIER, RAM};
use crate::check::row;
use crate::design::Design;
use crate::reply::{Number, DONE};
use crate::tree::MOST_MODULES;

const NOT_READ: &str = "not read: the input is no whole header, design and plan\n";

/// A block of a RAM or multiplier column: its column and its rows, from below.
struct Block {
    kind: usize,
    column: usize,
    rows: Vec<usize>,
}

/// A floorplan that the checker has passed.
struct Floorplan {
    design: Design,
    regions: Vec<Rectangle>,
    box_width: usize,
    box_height: usize,
}

/// What the program prints for this input.
pub fn draw_program(input: &[u8]) -> String {
    draw(input).unwrap_or_else(|why| why)
}

fn draw(input: &[u8]) -> Result<String, String> {
    let (svg, design, plan) = parts(input).ok_or(NOT_READ)?;
    let lines: Vec<&str> = plan.lines().collect();
    let answer = numbers(lines[0].strip_prefix("plan ").ok_or(NOT_READ)?).ok_or(NOT_READ)?;
    let (box_width, box_height) = match answer[..] {
        [0, width, height] => (width, height),
        [number, position] if number != 0 => return Err(refusal("plan", number, position)),
        _ => return Err(NOT_READ.to_string()),
    };
    let reading = read(design);
    if reading.number != DONE {
        return Err(refusal("read", reading.number.into(), reading.position));
    }
    let design = reading.design;
    let rows = rows(&lines[1..], design.modules).ok_or(NOT_READ)?;
    let reply = check(&design, &rows);
    if reply.number != DONE {
        return Err(refusal("the checker", reply.number.into(), reply.name));
    }
    if box_width > MOST_COLUMNS || box_height > MOST_ROWS {
        return Err(NOT_READ.to_string());
    }
    let regions = (0..design.modules).map(|k| row(&rows, k)).collect();
    let floorplan = Floorplan { design, regions, box_width, box_height };
    Ok(if svg { floorplan.svg() } else { floorplan.text() })
}

/// The header line, `text LENGTH` or `svg LENGTH`, then so many bytes, then lines that all end.
fn parts(input: &[u8]) -> Option<(bool, &[u8], &str)> {
    let end = input.iter().position(|&b| b == b'\n')?;
    let header = std::str::from_utf8(&input[..end]).ok()?;
    let (style, length) = header.split_once(' ')?;
    let svg = match style {
        "text" => false,
        "svg" => true,
        _ => return None,
    };
    let length = number(length)?;
    let rest = &input[end + 1..];
    if length > rest.len() {
        return None;
    }
    let (design, plan) = rest.split_at(length);
    let plan = std::str::from_utf8(plan).ok()?;
    plan.ends_with('\n').then_some((svg, design, plan))
}

fn number(word: &str) -> Option<usize> {
    let digits = !word.is_empty() && word.len() <= 18 && word.bytes().all(|b| b.is_ascii_digit());
    if digits { word.parse().ok() } else { None }
}

fn numbers(line: &str) -> Option<Vec<usize>> {
    line.split(' ').map(number).collect()
}

/// The rows that the lines say: `k x y w h` for each module in order, and no line more.
fn rows(lines: &[&str], modules: usize) -> Option<Vec<u8>> {
    let mut rows = Vec::new();
    for (k, line) in lines.iter().enumerate() {
        let said = numbers(line)?;
        if said.len() != 5 || said[0] != k {
            return None;
        }
        for &n in &said[1..] {
            rows.push(u8::try_from(n).ok()?);
        }
    }
    let whole = lines.len() == modules;
    rows.resize(4 * MOST_MODULES.max(modules), 0);
    whole.then_some(rows)
}

fn refusal(who: &str, number: usize, value: usize) -> String {
    let place = match number {
        1..=7 => format!(" at byte {value}"),
        12 | 13 => format!(" for module {value}"),
        14 => format!(" for token {value}"),
        _ => String::new(),
    };
    let cause = match number as Number {
        1 => "the bytes end inside or before a number",
        2 => "a number is not written in its shortest form, or is too large",
        3 => "the form number is not 1",
        4 => "a value breaks the limits",
        5 => "a token names no module, or one that stands already, or cuts too few things",
        6 => "the tokens leave more than one thing standing",
        7 => "bytes follow the last token",
        8 => "the design is too large for the plan program",
        10 => "there is no placement",
        12 => "its region is not on the chip",
        13 => "its region is short of its need",
        14 => "the cut is not kept",
        _ => "the design can't be drawn",
    };
    format!("not drawn: {who} replies {number}{place}: {cause}\n")
}

fn sign(k: usize) -> char {
    let signs = "0123456789abcdefghijklmnopqrstuvwxyzABCDEFGHIJKLMNOPQRSTUVWXYZ@#";
    signs.chars().nth(k).unwrap_or('?')
}

fn letter(kind: usize) -> char {
    match kind {
        CLB => 'C',
        RAM => 'R',
        _ => 'M',
    }
}

fn many(n: usize, thing: &str) -> String {
    format!("{n} {thing}{}", if n == 1 { "" } else { "s" })
}

fn amounts(a: Amounts) -> String {
    format!("{}, {}, {}", many(a.clbs, "CLB"), many(a.rams, "RAM"), many(a.multipliers, "multiplier"))
}

/// `row 4`, or `rows 4 to 6`.
fn span(thing: &str, places: &[usize]) -> String {
    match (places.first(), places.last()) {
        (Some(a), Some(b)) if a == b => format!("{thing} {a}"),
        (Some(a), Some(b)) => format!("{thing}s {a} to {b}"),
        _ => unreachable!("a region has cells"),
    }
}

fn has(r: &Rectangle, column: usize, row: usize) -> bool {
    let columns = r.corner.x.0..r.right().0;
    let rows = r.corner.y.0..r.top().0;
    columns.contains(&column) && rows.contains(&row)
}

/// The blocks of the RAM and multiplier columns, column by column.
fn blocks(chip: &Chip) -> Vec<Block> {
    let mut blocks = Vec::new();
    for column in 0..chip.width.0 {
        let kind = chip.kinds[column];
        if kind != RAM && kind != MULTIPLIER {
            continue;
        }
        let mut first = 0;
        while first + chip.block.0 <= chip.height.0 {
            let rows = (first..first + chip.block.0).collect();
            blocks.push(Block { kind, column, rows });
            first += chip.block.0;
        }
    }
    blocks
}

impl Block {
    /// The block's rows that a region has.
    fn rows_in(&self, r: &Rectangle) -> Vec<usize> {
        let rows = self.rows.iter().copied();
        rows.filter(|&y| has(r, self.column, y)).collect()
    }

    fn is_cut_by(&self, r: &Rectangle) -> bool {
        let inside = self.rows_in(r).len();
        0 < inside && inside < self.rows.len()
    }
}

impl Floorplan {
    /// What is said of region k: its name, then the other lines.
    fn words(&self, k: usize) -> (String, Vec<String>) {
        let chip = &self.design.chip;
        let r = &self.regions[k];
        let need = self.design.needs[k];
        let columns: Vec<usize> = (r.corner.x.0..r.right().0).collect();
        let rows: Vec<usize> = (r.corner.y.0..r.top().0).collect();
        let name = format!("module {k}: {}, {}", span("column", &columns), span("row", &rows));
        let cells = columns.len() * rows.len();
        let taken = need.clbs + chip.block.0 * (need.rams + need.multipliers);
        let mut words = vec![
            format!("needs {}", amounts(need)),
            format!("holds {}", amounts(chip.holds(*r))),
            format!("idle cells: {} of {cells}", cells - taken),
        ];
        for block in blocks(chip).iter().filter(|b| b.is_cut_by(r)) {
            words.extend(self.cut_words(k, block));
        }
        if words.len() == 3 {
            words.push("cuts no block".to_string());
        }
        (name, words)
    }

    fn cut_words(&self, k: usize, block: &Block) -> Vec<String> {
        let mut words = vec![format!(
            "cuts the {} block in column {}, {}: has {} of it, and the block is not counted",
            if block.kind == RAM { "RAM" } else { "multiplier" },
            block.column,
            span("row", &block.rows),
            span("row", &block.rows_in(&self.regions[k])),
        )];
        for (other, r) in self.regions.iter().enumerate() {
            let rows = block.rows_in(r);
            if other != k && !rows.is_empty() {
                words.push(format!(
                    "shares that block with module {other}, which has {} of it",
                    span("row", &rows)
                ));
            }
        }
        words
    }

    fn cuts(&self) -> usize {
        let blocks = blocks(&self.design.chip);
        let of = |r| blocks.iter().filter(|b| b.is_cut_by(r)).count();
        self.regions.iter().map(of).sum()
    }

    fn text(&self) -> String {
        let chip = &self.design.chip;
        let wide = (chip.height.0 - 1).to_string().len();
        let mut text = String::new();
        for y in (0..chip.height.0).rev() {
            text += &format!("{y:>wide$} ");
            for x in 0..chip.width.0 {
                let owner = self.regions.iter().position(|r| has(r, x, y));
                text += &format!(" {}", owner.map_or('.', sign));
            }
            text += "\n";
        }
        text += &" ".repeat(wide + 1);
        for x in 0..chip.width.0 {
            text += &format!(" {}", letter(chip.kinds[x]));
        }
        text += &format!(
            "\n\nbox from the lower left corner: {}, {}\nRAM and multiplier blocks: {} each, from row 0\n\n",
            many(self.box_width, "column"),
            many(self.box_height, "row"),
            many(chip.block.0, "row"),
        );
        for k in 0..self.regions.len() {
            let (name, words) = self.words(k);
            text += &format!("{}  {name}\n", sign(k));
            for line in words {
                text += &format!("   {line}\n");
            }
        }
        text + &format!("\ndrawn: {}, cuts of blocks: {}\n", many(self.regions.len(), "module"), self.cuts())
    }

    fn svg(&self) -> String {
        let chip = &self.design.chip;
        let sheet = Sheet::of(chip);
        let mut words = String::new();
        let mut y = sheet.words_top;
        for k in 0..self.regions.len() {
            let (name, lines) = self.words(k);
            words += &format!("<text x=\"24\" y=\"{y}\" font-weight=\"bold\">{name}</text>\n");
            y += LINE;
            for line in lines {
                words += &text(44, y, &line);
                y += LINE;
            }
        }
        let mut svg = sheet.head(y);
        svg += &self.titles();
        svg += &sheet.chip(chip);
        svg += &sheet.axes(chip);
        for r in &self.regions {
            svg += &sheet.cells(r).inside().rect(REGION);
        }
        for r in &self.regions {
            for block in blocks(chip).iter().filter(|b| b.is_cut_by(r)) {
                svg += &sheet.rows_of(block.column, &block.rows_in(r)).rect("fill=\"url(#cut)\"");
                svg += &sheet.rows_of(block.column, &block.rows).rect("fill=\"none\" stroke=\"#c00020\" stroke-width=\"3\"");
            }
        }
        for (k, r) in self.regions.iter().enumerate() {
            svg += &sheet.cells(r).name(k);
        }
        let (w, h) = (CELL * self.box_width, CELL * self.box_height);
        let y = TOP + CELL * chip.height.0 - h;
        svg += &Area { x: LEFT - 4, y: y - 4, w: w + 8, h: h + 8 }.rect(BOX);
        svg + &sheet.legend() + &words + "</svg>\n"
    }

    fn titles(&self) -> String {
        let chip = &self.design.chip;
        format!(
            "<text x=\"24\" y=\"32\" font-size=\"18\" font-weight=\"bold\">Floorplan of {}</text>\n",
            many(self.regions.len(), "module")
        ) + &text(
            24,
            54,
            &format!(
                "Chip: {}, {}; blocks {} high. Box: {}, {}.",
                many(chip.width.0, "column"),
                many(chip.height.0, "row"),
                many(chip.block.0, "row"),
                many(self.box_width, "column"),
                many(self.box_height, "row")
            ),
        )
    }
}

const CELL: usize = 28;
const LEFT: usize = 64;
const TOP: usize = 88;
const LINE: usize = 18;
const CLBS: &str = "fill=\"#f1f4ee\" stroke=\"#c3cabd\"";
const RAM_BLOCK: &str = "fill=\"#a9c9ee\" stroke=\"#1f4e86\"";
const MULTIPLIER_BLOCK: &str = "fill=\"#e0973f\" stroke=\"#6b3d00\"";
const NO_BLOCK: &str = "fill=\"#ffffff\" stroke=\"#888888\"";
const REGION: &str = "fill=\"#000000\" fill-opacity=\"0.1\" stroke=\"#111111\" stroke-width=\"3\"";
const BOX: &str = "fill=\"none\" stroke=\"#7a00a8\" stroke-width=\"2\" stroke-dasharray=\"9 5\"";
const CUT: &str = "fill=\"url(#cut)\" stroke=\"#c00020\" stroke-width=\"3\"";

/// A rectangle of the sheet, in pixels from its upper left corner.
struct Area {
    x: usize,
    y: usize,
    w: usize,
    h: usize,
}

fn text(x: usize, y: usize, words: &str) -> String {
    format!("<text x=\"{x}\" y=\"{y}\">{words}</text>\n")
}

impl Area {
    fn rect(&self, style: &str) -> String {
        let Area { x, y, w, h } = self;
        format!("<rect x=\"{x}\" y=\"{y}\" width=\"{w}\" height=\"{h}\" {style}/>\n")
    }

    fn inside(&self) -> Area {
        Area { x: self.x + 2, y: self.y + 2, w: self.w - 4, h: self.h - 4 }
    }

    /// The module's name in the middle, along the columns or up the rows; its number where the name has no room.
    fn name(&self, k: usize) -> String {
        let (x, y) = (self.x + self.w / 2, self.y + self.h / 2);
        let flat = self.w >= 3 * CELL;
        let up = !flat && self.h >= 3 * CELL;
        let (w, h) = (if flat { 76 } else { 20 }, if up { 76 } else { 20 });
        let ground = Area { x: x - w / 2, y: y - h / 2, w, h };
        let turn = if up { " rotate(-90)" } else { "" };
        let name = if flat || up { format!("module {k}") } else { k.to_string() };
        ground.rect("fill=\"#ffffff\" fill-opacity=\"0.85\"")
            + &format!(
                "<text y=\"5\" text-anchor=\"middle\" font-weight=\"bold\" transform=\"translate({x} {y}){turn}\">{name}</text>\n"
            )
    }
}

/// Where things stand around a chip.
struct Sheet {
    columns: usize,
    rows: usize,
    words_top: usize,
}

impl Sheet {
    fn of(chip: &Chip) -> Sheet {
        let (columns, rows) = (chip.width.0, chip.height.0);
        Sheet { columns, rows, words_top: TOP + (CELL * rows + 76).max(232) }
    }

    fn legend_left(&self) -> usize {
        LEFT + CELL * self.columns + 24
    }

    fn cells(&self, r: &Rectangle) -> Area {
        Area {
            x: LEFT + CELL * r.corner.x.0,
            y: TOP + CELL * (self.rows - r.top().0),
            w: CELL * r.shape.w.0,
            h: CELL * r.shape.h.0,
        }
    }

    fn rows_of(&self, column: usize, rows: &[usize]) -> Area {
        let highest = rows[rows.len() - 1];
        Area { x: LEFT + CELL * column, y: TOP + CELL * (self.rows - 1 - highest), w: CELL, h: CELL * rows.len() }
    }

    fn head(&self, bottom: usize) -> String {
        let wide = (self.legend_left() + 320).max(800);
        format!(
            "<svg xmlns=\"http://www.w3.org/2000/svg\" width=\"{wide}\" height=\"{bottom}\" viewBox=\"0 0 {wide} {bottom}\" \
             font-family=\"Helvetica, Arial, sans-serif\" font-size=\"13\" fill=\"#222222\">\n\
             <pattern id=\"clb\" patternUnits=\"userSpaceOnUse\" x=\"{LEFT}\" y=\"{TOP}\" width=\"{CELL}\" height=\"{CELL}\">\
             <rect width=\"{CELL}\" height=\"{CELL}\" {CLBS}/></pattern>\n\
             <pattern id=\"cut\" patternUnits=\"userSpaceOnUse\" width=\"7\" height=\"7\" patternTransform=\"rotate(45)\">\
             <rect width=\"7\" height=\"7\" fill=\"#ffffff\"/><rect width=\"3\" height=\"7\" fill=\"#c00020\"/></pattern>\n\
             <rect width=\"100%\" height=\"100%\" fill=\"#ffffff\"/>\n"
        )
    }

    fn chip(&self, chip: &Chip) -> String {
        let whole = Area { x: LEFT, y: TOP, w: CELL * self.columns, h: CELL * self.rows };
        let mut svg = whole.rect(NO_BLOCK);
        let blocks = blocks(chip);
        for column in 0..self.columns {
            if chip.kinds[column] == CLB {
                let area = Area { x: LEFT + CELL * column, y: TOP, w: CELL, h: CELL * self.rows };
                svg += &area.rect("fill=\"url(#clb)\"");
            }
            for block in blocks.iter().filter(|b| b.column == column) {
                let style = if block.kind == RAM { RAM_BLOCK } else { MULTIPLIER_BLOCK };
                svg += &self.rows_of(column, &block.rows).rect(style);
            }
        }
        svg
    }

    fn axes(&self, chip: &Chip) -> String {
        let below = TOP + CELL * self.rows;
        let mut svg = "<g font-size=\"11\" text-anchor=\"end\">\n".to_string();
        svg += &text(LEFT - 10, TOP - 8, "row");
        for y in 0..self.rows {
            svg += &text(LEFT - 10, TOP + CELL * (self.rows - y) - 10, &y.to_string());
        }
        svg += &text(LEFT - 10, below + 20, "column");
        svg += &text(LEFT - 10, below + 37, "kind");
        svg += "</g>\n<g font-size=\"11\" text-anchor=\"middle\">\n";
        for x in 0..self.columns {
            let middle = LEFT + CELL * x + CELL / 2;
            svg += &text(middle, below + 20, &x.to_string());
            svg += &text(middle, below + 37, &letter(chip.kinds[x]).to_string());
        }
        svg + "</g>\n"
    }

    fn legend(&self) -> String {
        let entries = [
            (CLBS, "CLB (column of kind C)"),
            (RAM_BLOCK, "RAM block (kind R)"),
            (MULTIPLIER_BLOCK, "multiplier block (kind M)"),
            (NO_BLOCK, "no block above the last whole one"),
            (REGION, "region of a module"),
            (BOX, "box of the floorplan"),
            (CUT, "block that a region cuts: not counted"),
        ];
        let x = self.legend_left();
        let mut svg = String::new();
        for (i, (style, words)) in entries.iter().enumerate() {
            let y = TOP + 30 * i;
            svg += &Area { x, y, w: 28, h: 20 }.rect(style);
            svg += &text(x + 38, y + 15, words);
        }
        svg
    }
}
