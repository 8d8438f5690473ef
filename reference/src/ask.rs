//! Answers requests as the program `ask` does, from the page docs/ASK.md, and makes requests of
//! stored cases.

use std::fmt::Write;
use std::fs;
use std::path::Path;

use crate::bytes::{read, write};
use crate::check::check;
use crate::chip::{Amounts, Columns, Corner, Rows};
use crate::choice::{place, plan, PlaceReply};
use crate::design::{Design, ALL_ZEROS};
use crate::edit::{edit, Edit};
use crate::json::{parse, Json};
use crate::lists::{list, slot_start};
use crate::reply::{Number, DONE};
use crate::score::{score, Kind, Net, Term};

const MOST_LINE: usize = 16_384;
const MOST_WORK: usize = 2_097_152;
const MOST_ROWS: usize = 1_024;
const MOST_WRITTEN: usize = 4_096;
const MOST_READ: usize = 8_192;
const MOST_KINDS: usize = 64;
const MOST_MODULES: usize = 16;
const MOST_TOKENS: usize = 31;

/// What is held between requests.
struct Held {
    design: Design,
    work: Vec<u8>,
    rows: Vec<u8>,
}

/// The answers to all requests, a line each.
pub fn answers(requests: &[u8]) -> String {
    let mut held = Held {
        design: ALL_ZEROS,
        work: Vec::new(),
        rows: Vec::new(),
    };
    let mut text = String::new();
    let mut lines: Vec<&[u8]> = requests.split(|&byte| byte == b'\n').collect();
    if lines.last() == Some(&&b""[..]) {
        lines.pop();
    }
    for (i, line) in lines.iter().enumerate() {
        let answer = if line.len() >= MOST_LINE {
            Err("too long")
        } else if line.is_empty() || line.starts_with(b"#") {
            Ok(String::new())
        } else {
            held.answer(&String::from_utf8_lossy(line))
        };
        match answer {
            Ok(answer) if answer.is_empty() => {}
            Ok(answer) => writeln!(text, "{answer}").unwrap(),
            Err(why) => writeln!(text, "bad {}: {why}", i + 1).unwrap(),
        }
    }
    text
}

/// What a line comes to, or why it is bad.
type Judged<T> = Result<T, &'static str>;

const NO_REQUEST: &str = "no such request";
const WRONG_COUNT: &str = "wrong number of words";
const NO_NUMBER: &str = "not a number";
const NO_BYTES: &str = "not bytes";
const NO_ROOM: &str = "more than there is";

/// The numbers of words that a request of this name may have, its name among them.
fn counts(name: &str) -> &'static [usize] {
    match name {
        "design" => &[8],
        "work" | "poke" | "rows" | "row" | "write" => &[3],
        "read" => &[2],
        "slot" => &[4],
        "edit" => &[3, 6],
        "list" | "plan" | "place" | "check" => &[1],
        _ => &[],
    }
}

impl Held {
    /// The answer to one line, empty if there is none to give; or why the line is bad.
    fn answer(&mut self, line: &str) -> Judged<String> {
        let words: Vec<&str> = line.split(' ').collect();
        if words[0] == "score" {
            return self.score(&words[1..]);
        }
        let counts = counts(words[0]);
        if counts.is_empty() {
            return Err(NO_REQUEST);
        }
        if !counts.contains(&words.len()) {
            return Err(WRONG_COUNT);
        }
        match words[..] {
            ["design", w, h, b, kinds, m, needs, tokens] => {
                self.design = design([w, h, b, kinds, m, needs, tokens])?;
                Ok(String::new())
            }
            ["work", n, fill] => {
                self.work = lent(n, fill, MOST_WORK)?;
                Ok(String::new())
            }
            ["rows", n, fill] => {
                self.rows = lent(n, fill, MOST_ROWS)?;
                Ok(String::new())
            }
            ["poke", at, bytes] => put(&mut self.work, at, bytes),
            ["row", at, bytes] => put(&mut self.rows, at, bytes),
            ["read", bytes] => self.read(bytes),
            ["write", n, fill] => self.write(n, fill),
            ["slot", t, x, y] => self.slot(t, x, y),
            ["list"] => {
                let number = list(&self.design, &mut self.work);
                Ok(format!("list {number} {}", hash(&self.work)))
            }
            ["plan"] => {
                let reply = plan(&self.design, &mut self.work, &mut self.rows);
                Ok(self.floorplan("plan", reply))
            }
            ["place"] => {
                let reply = place(&self.design, &self.work, &mut self.rows);
                Ok(self.floorplan("place", reply))
            }
            ["check"] => {
                let reply = check(&self.design, &self.rows);
                Ok(format!("check {} {}", reply.number, reply.name))
            }
            ["edit", "turn", t] => self.edit(Edit::Turn {
                position: number(t)?,
            }),
            ["edit", "need", k, clbs, rams, multipliers] => self.edit(Edit::Need {
                module: number(k)?,
                need: Amounts {
                    clbs: number(clbs)?,
                    rams: number(rams)?,
                    multipliers: number(multipliers)?,
                },
            }),
            _ => Err(NO_REQUEST),
        }
    }

    fn read(&mut self, word: &str) -> Judged<String> {
        let bytes = bytes(word, MOST_READ)?;
        let reply = read(&bytes);
        self.design = reply.design;
        let (number, position) = (reply.number, reply.position);
        Ok(format!("read {number} {position} {}", shown(&self.design)))
    }

    fn write(&self, n: &str, fill: &str) -> Judged<String> {
        let mut out = lent(n, fill, MOST_WRITTEN)?;
        let reply = write(&self.design, &mut out);
        let bytes = answered(reply.number, &out);
        Ok(format!("write {} {} {bytes}", reply.number, reply.count))
    }

    /// The bytes of node t's slot at a corner, where the design's tree, its chip and the lent work have it.
    fn slot(&self, t: &str, x: &str, y: &str) -> Judged<String> {
        let chip = &self.design.chip;
        let (t, x, y) = (number(t)?, number(x)?, number(y)?);
        let limits = chip.width.0 <= 64 && chip.height.0 <= 64 && self.design.modules <= 16;
        let on = x < chip.width.0 && y < chip.height.0 && t + 1 < 2 * self.design.modules;
        if !(limits && on) {
            return Err(NO_ROOM);
        }
        let corner = Corner {
            x: Columns(x),
            y: Rows(y),
        };
        let start = slot_start(chip, t, corner);
        let slot = self.work.get(start..start + chip.width.0).ok_or(NO_ROOM)?;
        Ok(format!("slot {}", hex(slot)))
    }

    fn floorplan(&self, service: &str, reply: PlaceReply) -> String {
        let (number, w, h) = (reply.number, reply.box_width, reply.box_height);
        let rows = answered(number, &self.rows);
        format!("{service} {number} {w} {h} {rows} {}", hash(&self.work))
    }

    fn score(&self, words: &[&str]) -> Judged<String> {
        let (terms, nets) = terms_and_nets(words)?;
        let reply = score(&self.design, &self.rows, &terms, &nets);
        let (total, last) = (reply.scored.total.to_bits(), reply.scored.last.to_bits());
        Ok(format!("score {} {} {total:016x} {last:016x}", reply.number, reply.name))
    }

    fn edit(&mut self, change: Edit) -> Judged<String> {
        let reply = edit(&self.design, change, &mut self.work);
        self.design = reply.design;
        let work = hash(&self.work);
        Ok(format!("edit {} {} {work}", reply.number, shown(&self.design)))
    }
}

/// What a service put into lent bytes: nothing, unless it is done.
fn answered(number: Number, bytes: &[u8]) -> String {
    hex(if number == DONE { bytes } else { &[] })
}

/// A decimal number of at most 18 digits.
fn number(word: &str) -> Judged<usize> {
    let digits = !word.is_empty() && word.len() <= 18 && word.bytes().all(|b| b.is_ascii_digit());
    if digits {
        word.parse().map_err(|_| NO_NUMBER)
    } else {
        Err(NO_NUMBER)
    }
}

/// The terms and nets of a score, in the order of their words. A net has all words up to the next one that begins
/// a term or a net.
fn terms_and_nets(words: &[&str]) -> Judged<(Vec<Term>, Vec<Net>)> {
    let (mut terms, mut nets) = (Vec::new(), Vec::<Net>::new());
    let mut in_net = false;
    let mut rest = words.iter();
    while let Some(&word) = rest.next() {
        if let Some(kind) = kind_of(word) {
            let weight = weight(rest.next().ok_or(WRONG_COUNT)?)?;
            terms.push(Term { kind, weight });
            in_net = false;
        } else if word == "net" {
            nets.push(Net::new());
            in_net = true;
        } else if !in_net {
            return Err(NO_REQUEST);
        } else if let Some(net) = nets.last_mut() {
            net.push(number(word)?);
        }
    }
    Ok((terms, nets))
}

fn kind_of(word: &str) -> Option<Kind> {
    match word {
        "area" => Some(Kind::Area),
        "ratio" => Some(Kind::Ratio),
        "wire" => Some(Kind::Wire),
        _ => None,
    }
}

/// A weight: its bits in exactly 16 hexadecimal digits, the high ones first, or a whole number of at most 15
/// decimal digits, which an f64 holds as it is.
fn weight(word: &str) -> Judged<f64> {
    if word.len() == 16 {
        let high_first = bytes(word, 8).map_err(|_| NO_NUMBER)?;
        let bits = high_first.iter().fold(0, |bits, &byte| bits << 8 | u64::from(byte));
        return Ok(f64::from_bits(bits));
    }
    if word.len() > 15 {
        return Err(NO_NUMBER);
    }
    Ok(number(word)? as f64)
}

/// Bytes, if they are no more than there are places: the length is judged first, then the digits.
fn bytes(word: &str, places: usize) -> Judged<Vec<u8>> {
    if word == "-" {
        return Ok(Vec::new());
    }
    let digit = |byte: u8| match byte {
        b'0'..=b'9' => Ok(byte - b'0'),
        b'a'..=b'f' => Ok(byte - b'a' + 10),
        _ => Err(NO_BYTES),
    };
    if word.is_empty() || word.len() % 2 != 0 {
        return Err(NO_BYTES);
    }
    if word.len() / 2 > places {
        return Err(NO_ROOM);
    }
    word.as_bytes()
        .chunks(2)
        .map(|pair| Ok(16 * digit(pair[0])? + digit(pair[1])?))
        .collect()
}

/// A number that is at most so much.
fn number_to(most: usize, word: &str) -> Judged<usize> {
    let n = number(word)?;
    if n > most {
        return Err(NO_ROOM);
    }
    Ok(n)
}

fn lent(n: &str, fill: &str, most: usize) -> Judged<Vec<u8>> {
    let n = number_to(most, n)?;
    let fill = number_to(255, fill)?;
    Ok(vec![fill as u8; n])
}

fn put(lent: &mut [u8], at: &str, word: &str) -> Judged<String> {
    let at = number_to(lent.len(), at)?;
    let bytes = bytes(word, lent.len() - at)?;
    lent[at..at + bytes.len()].copy_from_slice(&bytes);
    Ok(String::new())
}

fn design([w, h, b, kinds, m, needs, tokens]: [&str; 7]) -> Judged<Design> {
    let mut design = ALL_ZEROS;
    design.chip.width = Columns(number(w)?);
    design.chip.height = Rows(number(h)?);
    design.chip.block = Rows(number(b)?);
    for (place, kind) in design.chip.kinds.iter_mut().zip(bytes(kinds, MOST_KINDS)?) {
        *place = usize::from(kind);
    }
    design.modules = number(m)?;
    if needs != "-" {
        for (i, word) in needs.split(',').enumerate() {
            let need = design.needs.get_mut(i / 3).ok_or(NO_ROOM)?;
            let n = number(word)?;
            match i % 3 {
                0 => need.clbs = n,
                1 => need.rams = n,
                _ => need.multipliers = n,
            }
        }
    }
    for (place, token) in design.tokens.iter_mut().zip(bytes(tokens, MOST_TOKENS)?) {
        *place = usize::from(token);
    }
    Ok(design)
}

/// A design in words: W kinds, 3m needs, 2m-1 tokens, or as many as there are places, and more up to the last that is not zero.
fn shown(design: &Design) -> String {
    let chip = &design.chip;
    let m = design.modules.min(MOST_MODULES);
    let mut needs = Vec::new();
    for need in &design.needs {
        needs.extend([need.clbs, need.rams, need.multipliers]);
    }
    let needs: Vec<String> = whole(&needs, 3 * m).iter().map(usize::to_string).collect();
    let needs = if needs.is_empty() {
        "-".to_string()
    } else {
        needs.join(",")
    };
    format!(
        "{} {} {} {} {} {needs} {}",
        chip.width.0,
        chip.height.0,
        chip.block.0,
        small(&chip.kinds, chip.width.0),
        design.modules,
        small(&design.tokens, (2 * m).saturating_sub(1))
    )
}

/// The first `count`, or as many as there are, and more up to the last that is not zero.
fn whole(numbers: &[usize], count: usize) -> &[usize] {
    let last = numbers.iter().rposition(|&n| n != 0).map_or(0, |i| i + 1);
    &numbers[..last.max(count.min(numbers.len()))]
}

fn small(numbers: &[usize], count: usize) -> String {
    hex(&whole(numbers, count).iter().map(|&n| n as u8).collect::<Vec<u8>>())
}

fn hex(bytes: &[u8]) -> String {
    if bytes.is_empty() {
        return "-".to_string();
    }
    bytes.iter().map(|byte| format!("{byte:02x}")).collect()
}

/// FNV-1a with 64 bits.
fn hash(bytes: &[u8]) -> String {
    let mut hash = 0xcbf2_9ce4_8422_2325_u64;
    for &byte in bytes {
        hash = (hash ^ u64::from(byte)).wrapping_mul(0x0100_0000_01b3);
    }
    format!("{hash:016x}")
}

/// The requests that ask one file of stored cases.
pub fn requests(file: &Path) -> Result<String, String> {
    let text = fs::read_to_string(file).map_err(|e| e.to_string())?;
    let name = file.file_name().and_then(|name| name.to_str()).unwrap_or("");
    let mut requests = String::new();
    for line in text.lines() {
        let case = parse(line)?;
        if case.find("wide").is_some() && !held_in_bytes(&case)? {
            continue;
        }
        let asked = match name {
            "base_read.jsonl" => format!("read {}\n", hex_or_none(&case, "in")?),
            "base_write.jsonl" => asked_design(&case)? + &lending("write", &case, "out_len")?,
            "base_list.jsonl" => asked_design(&case)? + &lending("work", &case, "work_len")? + "list\n",
            "base_plan.jsonl" => {
                let work = lending("work", &case, "work_len")?;
                asked_design(&case)? + &work + &lending("rows", &case, "rows_len")? + "plan\n"
            }
            "base_check.jsonl" => asked_design(&case)? + &given_rows(&case)? + "check\n",
            "base_place.jsonl" => {
                let rows = lending("rows", &case, "rows_len")?;
                given_work(&case)? + &rows + &asked_design(&case)? + "place\n"
            }
            "base_edit.jsonl" => {
                let change = asked_edit(case.field("edit")?)?;
                given_work(&case)? + &asked_design(&case)? + &change
            }
            "base_runs.jsonl" => asked_run(&case)?,
            "o01_score.jsonl" => asked_design(&case)? + &given_rows(&case)? + &asked_score(&case)?,
            _ => return Err(format!("{name}: no requests of such cases")),
        };
        requests += &asked;
    }
    Ok(requests)
}

/// Kinds and tokens of a request are bytes.
fn held_in_bytes(case: &Json) -> Result<bool, String> {
    let Some(design) = case.find("design") else {
        return Ok(true);
    };
    let mut numbers = design.field("kinds")?.numbers()?;
    numbers.extend(design.field("tokens")?.numbers()?);
    Ok(numbers.iter().all(|&n| n < 256))
}

fn hex_or_none(case: &Json, field: &str) -> Result<String, String> {
    Ok(hex(&case.field(field)?.hex()?))
}

fn asked_design(case: &Json) -> Result<String, String> {
    design_request(case.field("design")?)
}

fn design_request(stored: &Json) -> Result<String, String> {
    let number = |field: &str| stored.field(field)?.number();
    let small = |field: &str| -> Result<String, String> {
        let numbers = stored.field(field)?.numbers()?;
        Ok(hex(&numbers.iter().map(|&n| n as u8).collect::<Vec<u8>>()))
    };
    let mut needs = Vec::new();
    for need in stored.field("needs")?.list()? {
        needs.extend(need.numbers()?.iter().map(usize::to_string));
    }
    let needs = if needs.is_empty() {
        "-".to_string()
    } else {
        needs.join(",")
    };
    Ok(format!(
        "design {} {} {} {} {} {needs} {}\n",
        number("W")?,
        number("H")?,
        number("B")?,
        small("kinds")?,
        number("m")?,
        small("tokens")?
    ))
}

fn lending(word: &str, case: &Json, length: &str) -> Result<String, String> {
    let (n, fill) = (case.field(length)?.number()?, case.field("fill")?.number()?);
    Ok(format!("{word} {n} {fill}\n"))
}

fn given_rows(case: &Json) -> Result<String, String> {
    let rows = case.field("rows")?.hex()?;
    Ok(format!("rows {} 0\nrow 0 {}\n", rows.len(), hex(&rows)))
}

/// Work that is given, or the lists of another design with some bytes changed.
fn given_work(case: &Json) -> Result<String, String> {
    if let Some(work) = case.find("work") {
        let work = work.hex()?;
        let mut asked = format!("work {} 0\n", work.len());
        for (i, part) in work.chunks(4096).enumerate() {
            writeln!(asked, "poke {} {}", 4096 * i, hex(part)).unwrap();
        }
        return Ok(asked);
    }
    let listed = case.field("work_of")?;
    let w = listed.field("W")?.number()?;
    let size = (2 * listed.field("m")?.number()? - 1) * listed.field("H")?.number()? * w * w;
    let mut asked = design_request(listed)? + &format!("work {size} 0\nlist\n");
    for poke in case.field("pokes")?.list()? {
        let numbers = poke.numbers()?;
        writeln!(asked, "poke {} {:02x}", numbers[0], numbers[1]).unwrap();
    }
    Ok(asked)
}

fn asked_edit(stored: &Json) -> Result<String, String> {
    match stored.list()? {
        [kind, k, numbers] if kind.text()? == "need" => {
            let n = numbers.numbers()?;
            Ok(format!("edit need {} {} {} {}\n", k.number()?, n[0], n[1], n[2]))
        }
        [_, t] => Ok(format!("edit turn {}\n", t.number()?)),
        _ => Err("neither a need nor a turn".to_string()),
    }
}

fn asked_run(case: &Json) -> Result<String, String> {
    let design = case.field("design")?;
    let (m, w) = (design.field("m")?.number()?, design.field("W")?.number()?);
    let size = (2 * m - 1) * design.field("H")?.number()? * w * w;
    let mut asked = design_request(design)? + &format!("work {size} 0\nlist\n");
    for step in case.field("steps")?.list()? {
        asked += &asked_edit(step.field("edit")?)?;
    }
    Ok(asked + &format!("rows {} 0\nplace\n", 4 * m))
}

fn asked_score(case: &Json) -> Result<String, String> {
    let mut asked = "score".to_string();
    for term in case.field("terms")?.list()? {
        let [kind, weight] = term.list()? else {
            return Err("a term is a kind and a weight".to_string());
        };
        write!(asked, " {} {}", kind.text()?, weight.text()?).unwrap();
    }
    for net in case.field("nets")?.list()? {
        asked += " net";
        for k in net.numbers()? {
            write!(asked, " {k}").unwrap();
        }
    }
    Ok(asked + "\n")
}
