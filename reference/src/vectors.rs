//! Runs stored cases, one JSON record on each line, and compares every answer.
//!
//! The name of a file says which service its cases are for: `base_read.jsonl` and so on, and `o01_score.jsonl` for the
//! score that order 1 adds. Files of orders that are still to come are passed over.

use std::fmt::Debug;
use std::fs;
use std::path::Path;

use crate::bytes::{read, write};
use crate::check::check;
use crate::chip::{Amounts, Columns, Rows};
use crate::choice::{place, plan, PlaceReply};
use crate::design::{Design, ALL_ZEROS};
use crate::edit::{edit, Edit};
use crate::json::{parse, Json};
use crate::lists::list;
use crate::program::plan_program;
use crate::reply::{Number, DONE};
use crate::score::{score, Kind, Net, Term};

/// What a case comes to: nothing if all is as stored, else what differs.
type Outcome = Result<(), String>;

/// The files of orders that have landed.
const ORDERS: [&str; 1] = ["o01_score.jsonl"];

/// Runs every `base_*.jsonl` file of the folder and those of the orders; true if nothing differs.
pub fn run_folder(folder: &Path) -> Result<bool, String> {
    let mut names = Vec::new();
    for entry in fs::read_dir(folder).map_err(|e| e.to_string())? {
        let entry = entry.map_err(|e| e.to_string())?;
        let name = entry.file_name().to_string_lossy().into_owned();
        let is_base = name.starts_with("base_") && name.ends_with(".jsonl");
        if is_base || ORDERS.contains(&name.as_str()) {
            names.push(name);
        }
    }
    names.sort();
    let mut all_same = !names.is_empty();
    for name in names {
        let text = fs::read_to_string(folder.join(&name)).map_err(|e| e.to_string())?;
        all_same &= run_file(&name, &text)?;
    }
    Ok(all_same)
}

/// Runs the cases of one file and prints how many differ, and which.
fn run_file(name: &str, text: &str) -> Result<bool, String> {
    let run_case = case_of(name)?;
    let mut cases = 0;
    let mut differing = Vec::new();
    for (i, line) in text.lines().enumerate() {
        cases += 1;
        if let Err(what) = parse(line).and_then(|case| run_case(&case)) {
            differing.push(format!("  line {}: {what}", i + 1));
        }
    }
    println!("{name}: {cases} cases, {} differ", differing.len());
    for line in &differing {
        println!("{line}");
    }
    Ok(differing.is_empty())
}

fn case_of(name: &str) -> Result<fn(&Json) -> Outcome, String> {
    match name {
        "base_read.jsonl" => Ok(read_case),
        "base_write.jsonl" => Ok(write_case),
        "base_list.jsonl" => Ok(list_case),
        "base_plan.jsonl" => Ok(plan_case),
        "base_place.jsonl" => Ok(place_case),
        "base_edit.jsonl" => Ok(edit_case),
        "base_runs.jsonl" => Ok(runs_case),
        "base_check.jsonl" => Ok(check_case),
        "base_program.jsonl" => Ok(program_case),
        "o01_score.jsonl" => Ok(score_case),
        _ => Err(format!("{name}: no service of that name")),
    }
}

fn read_case(case: &Json) -> Outcome {
    let reply = read(&case.field("in")?.hex()?);
    same_number(case, reply.number)?;
    same("position", &reply.position, &case.field("pos")?.number()?)?;
    let expected = match case.find("design") {
        Some(stored) => design(stored)?,
        None => ALL_ZEROS,
    };
    same("design", &reply.design, &expected)
}

fn write_case(case: &Json) -> Outcome {
    let mut out = lent(case, "out_len")?;
    let reply = write(&design(case.field("design")?)?, &mut out);
    same_number(case, reply.number)?;
    same("count", &reply.count, &case.field("count")?.number()?)?;
    same("out", &out, &case.field("out")?.hex()?)
}

fn list_case(case: &Json) -> Outcome {
    let mut work = lent(case, "work_len")?;
    let number = list(&design(case.field("design")?)?, &mut work);
    same_number(case, number)?;
    same_work(case, &work)
}

fn plan_case(case: &Json) -> Outcome {
    let mut work = lent(case, "work_len")?;
    let mut rows = lent(case, "rows_len")?;
    let reply = plan(&design(case.field("design")?)?, &mut work, &mut rows);
    same_number(case, reply.number)?;
    same_box_and_rows(case, reply, &rows)?;
    same_work(case, &work)
}

fn place_case(case: &Json) -> Outcome {
    let work = work_before_place(case)?;
    let mut rows = lent(case, "rows_len")?;
    let reply = place(&design(case.field("design")?)?, &work, &mut rows);
    same_number(case, reply.number)?;
    same_box_and_rows(case, reply, &rows)
}

/// Work that is given, or the lists of another design with some bytes changed.
fn work_before_place(case: &Json) -> Result<Vec<u8>, String> {
    if let Some(work) = case.find("work") {
        return work.hex();
    }
    let listed = design(case.field("work_of")?)?;
    let mut work = vec![0; listed.work_needed()];
    same("listing number", &list(&listed, &mut work), &DONE)?;
    for poke in case.field("pokes")?.list()? {
        let [offset, byte] = poke.numbers()?[..] else {
            return Err("a poke is an offset and a byte".to_string());
        };
        work[offset] = byte as u8;
    }
    Ok(work)
}

fn edit_case(case: &Json) -> Outcome {
    let before = design(case.field("design")?)?;
    let mut work = case.field("work")?.hex()?;
    let mut expected_work = work.clone();
    for run in case.field("changed")?.list()? {
        let [offset, bytes] = run.list()? else {
            return Err("a changed run is an offset and bytes".to_string());
        };
        let (offset, bytes) = (offset.number()?, bytes.hex()?);
        expected_work[offset..offset + bytes.len()].copy_from_slice(&bytes);
    }
    let mut expected = before;
    if let Some(after) = case.find("after") {
        put_needs(&mut expected, after.field("needs")?)?;
        put_tokens(&mut expected, after.field("tokens")?)?;
    }
    let reply = edit(&before, edit_of(case.field("edit")?)?, &mut work);
    same_number(case, reply.number)?;
    same("design", &reply.design, &expected)?;
    same("work", &work, &expected_work)
}

/// A run of edits over a design's own lists, each handed the design the last one left.
fn runs_case(case: &Json) -> Outcome {
    let mut design = design(case.field("design")?)?;
    let mut work = vec![0; design.work_needed()];
    same("listing number", &list(&design, &mut work), &DONE)?;
    for step in case.field("steps")?.list()? {
        let reply = edit(&design, edit_of(step.field("edit")?)?, &mut work);
        same_number(step, reply.number)?;
        same_work(step, &work)?;
        design = reply.design;
    }
    let mut rows = vec![0; design.rows_needed()];
    let reply = place(&design, &work, &mut rows);
    let number = usize::from(reply.number);
    same("placing number", &number, &case.field("place")?.number()?)?;
    same("box", &box_of(reply), &case.field("box")?.numbers()?)?;
    same("rows", &rows, &case.field("rows")?.hex()?)
}

fn check_case(case: &Json) -> Outcome {
    let rows = case.field("rows")?.hex()?;
    let reply = check(&design(case.field("design")?)?, &rows);
    same_number(case, reply.number)?;
    same("name", &reply.name, &case.field("name")?.number()?)
}

fn program_case(case: &Json) -> Outcome {
    let printed = plan_program(&case.field("stdin")?.hex()?);
    same("text", &printed.as_str(), &case.field("stdout")?.text()?)
}

fn score_case(case: &Json) -> Outcome {
    let rows = case.field("rows")?.hex()?;
    let (terms, nets) = (terms(case)?, nets(case)?);
    let reply = score(&design(case.field("design")?)?, &rows, &terms, &nets);
    same_number(case, reply.number)?;
    same("name", &reply.name, &case.field("name")?.number()?)?;
    same("total", &reply.scored.total.to_bits(), &bits(case.field("total")?)?)?;
    same("last", &reply.scored.last.to_bits(), &bits(case.field("last")?)?)
}

fn terms(case: &Json) -> Result<Vec<Term>, String> {
    let mut terms = Vec::new();
    for stored in case.field("terms")?.list()? {
        let [kind, weight] = stored.list()? else {
            return Err("a term is a kind and a weight".to_string());
        };
        let kind = match kind.text()? {
            "area" => Kind::Area,
            "ratio" => Kind::Ratio,
            "wire" => Kind::Wire,
            other => return Err(format!("no term: {other}")),
        };
        let weight = f64::from_bits(bits(weight)?);
        terms.push(Term { kind, weight });
    }
    Ok(terms)
}

fn nets(case: &Json) -> Result<Vec<Net>, String> {
    case.field("nets")?.list()?.iter().map(Json::numbers).collect()
}

/// The bits of an f64, stored as hexadecimal digits, the high byte first.
fn bits(stored: &Json) -> Result<u64, String> {
    let bytes: [u8; 8] = stored.hex()?.try_into().map_err(|_| "an f64 has eight bytes")?;
    Ok(u64::from_be_bytes(bytes))
}

fn same<T: PartialEq + Debug>(what: &str, got: &T, stored: &T) -> Outcome {
    if got == stored {
        Ok(())
    } else {
        Err(format!("{what} is {got:?}, stored is {stored:?}"))
    }
}

fn same_number(case: &Json, number: Number) -> Outcome {
    let stored = case.field("reply")?.number()?;
    same("number", &usize::from(number), &stored)
}

fn box_of(reply: PlaceReply) -> Vec<usize> {
    vec![reply.box_width, reply.box_height]
}

fn same_box_and_rows(case: &Json, reply: PlaceReply, rows: &[u8]) -> Outcome {
    same("box", &box_of(reply), &case.field("box")?.numbers()?)?;
    same("rows", &rows, &case.field("rows")?.hex()?.as_slice())
}

/// Work stored in full or as a hash.
fn same_work(case: &Json, work: &[u8]) -> Outcome {
    match case.find("work") {
        Some(stored) => same("work", &work, &stored.hex()?.as_slice()),
        None => {
            let hash = format!("{:016x}", fnv(work));
            same(
                "work hash",
                &hash.as_str(),
                &case.field("work_fnv")?.text()?,
            )
        }
    }
}

/// FNV-1a with 64 bits.
fn fnv(bytes: &[u8]) -> u64 {
    let mut hash = 0xcbf2_9ce4_8422_2325_u64;
    for &byte in bytes {
        hash = (hash ^ u64::from(byte)).wrapping_mul(0x0100_0000_01b3);
    }
    hash
}

/// A lent buffer: so many bytes `fill`.
fn lent(case: &Json, length: &str) -> Result<Vec<u8>, String> {
    let fill = case.field("fill")?.number()? as u8;
    Ok(vec![fill; case.field(length)?.number()?])
}

/// A design as stored; places that are not stored are zero.
fn design(stored: &Json) -> Result<Design, String> {
    let mut design = ALL_ZEROS;
    design.chip.width = Columns(stored.field("W")?.number()?);
    design.chip.height = Rows(stored.field("H")?.number()?);
    design.chip.block = Rows(stored.field("B")?.number()?);
    put_numbers(&mut design.chip.kinds, &stored.field("kinds")?.numbers()?)?;
    design.modules = stored.field("m")?.number()?;
    put_needs(&mut design, stored.field("needs")?)?;
    put_tokens(&mut design, stored.field("tokens")?)?;
    Ok(design)
}

fn put_numbers(places: &mut [usize], numbers: &[usize]) -> Outcome {
    let count = numbers.len();
    let first = places.get_mut(..count).ok_or("too many numbers stored")?;
    first.copy_from_slice(numbers);
    Ok(())
}

fn put_needs(design: &mut Design, stored: &Json) -> Outcome {
    for (k, stored_need) in stored.list()?.iter().enumerate() {
        let place = design.needs.get_mut(k).ok_or("too many needs stored")?;
        *place = need(stored_need)?;
    }
    Ok(())
}

fn put_tokens(design: &mut Design, stored: &Json) -> Outcome {
    put_numbers(&mut design.tokens, &stored.numbers()?)
}

fn need(stored: &Json) -> Result<Amounts, String> {
    let [clbs, rams, multipliers] = stored.numbers()?[..] else {
        return Err("a need has three numbers".to_string());
    };
    Ok(Amounts {
        clbs,
        rams,
        multipliers,
    })
}

fn edit_of(stored: &Json) -> Result<Edit, String> {
    match stored.list()? {
        [kind, k, numbers] if kind.text()? == "need" => Ok(Edit::Need {
            module: k.number()?,
            need: need(numbers)?,
        }),
        [kind, t] if kind.text()? == "turn" => Ok(Edit::Turn {
            position: t.number()?,
        }),
        _ => Err("neither a need nor a turn".to_string()),
    }
}
