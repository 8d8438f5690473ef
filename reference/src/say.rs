//! What the plan program's answer means, in words (docs/FORMAT.md, "What the reply means").

use crate::bytes::read;
use crate::chip::{Amounts, Chip, CLB, MOST_COLUMNS, MOST_ROWS, MULTIPLIER, RAM};
use crate::choice::plan;
use crate::design::Design;
use crate::fields::{field, fields_of, item, values, Field};
use crate::program::{MOST_INPUT, WORK};
use crate::reply::{
    Number, BAD_NUMBER, BAD_TOKEN, BYTES_AFTER, BYTES_END, DONE, NOT_FORM_1, NO_PLACEMENT, OVER_LIMITS,
    TOO_SHORT,
};
use crate::tree::MOST_MODULES;
use crate::typed::{is_text, is_typed};

/// The line for these bytes.
pub fn say(input: &[u8]) -> String {
    let bytes = &input[..input.len().min(MOST_INPUT)];
    let reading = read(bytes);
    if reading.number == DONE {
        return planned(&reading.design) + "\n";
    }
    if is_typed(bytes) {
        return "these are hexadecimal digits typed as text; ./hex turns them into a design\n".into();
    }
    if is_text(bytes) {
        return "this is text and no design; ./hex says what is wrong with it as hexadecimal digits\n".into();
    }
    let place = reading.position;
    let numbers = values(bytes);
    let before = numbers.iter().filter(|n| n.start < place).count();
    let name = field(&fields_of(bytes), before);
    let wrong = wrong(bytes, place, name, reading.number);
    format!("byte {place}: {}: {wrong}\n", name.name())
}

fn wrong(bytes: &[u8], place: usize, name: Field, number: Number) -> String {
    let value = || item(bytes, place).value.expect("a number");
    match number {
        BYTES_END if place == bytes.len() => "the bytes end".into(),
        BYTES_END => "the bytes end inside it".into(),
        BAD_NUMBER => bad_number(&bytes[place..]),
        NOT_FORM_1 => format!("it is {} and has to be 1", value()),
        OVER_LIMITS => over_limits(bytes, name, value()),
        BAD_TOKEN => bad_token(bytes, name, value()),
        BYTES_AFTER => "nothing may follow".into(),
        other => panic!("reading never replies {other}"),
    }
}

fn bad_number(rest: &[u8]) -> String {
    let mut value = 0;
    for (i, &byte) in rest.iter().take(3).enumerate() {
        value += usize::from(byte & 0x7f) << (7 * i);
        if byte == 0 {
            return format!("it is {value}, in more bytes than that takes");
        }
        if byte < 0x80 {
            return format!("it is {value}; at most 65535");
        }
    }
    "its third byte has the top bit set, but a number has at most three bytes".into()
}

fn over_limits(bytes: &[u8], name: Field, value: usize) -> String {
    let most = match name {
        Field::Width => MOST_COLUMNS.to_string(),
        Field::Height => MOST_ROWS.to_string(),
        Field::Block => format!("{}, as H is", values(bytes)[2].value.expect("H")),
        Field::Kind(_) => return format!("it is {value}; at most 2 (0 CLB, 1 RAM, 2 multiplier)"),
        Field::Modules => MOST_MODULES.to_string(),
        _ => return "it and the two after it are all zero".into(),
    };
    if value == 0 {
        return "it is 0; at least 1".into();
    }
    format!("it is {value}; at most {most}")
}

fn bad_token(bytes: &[u8], name: Field, value: usize) -> String {
    let Field::Token { first_is_1, count } = name else {
        panic!("a token");
    };
    let modules = (count + 1) / 2;
    if value < 2 {
        // which tokens came before is counted anew
        let all = values(bytes);
        let first = all.len().min(5 + all[1].value.expect("W") + 3 * modules);
        let so_far = &all[first..first + first_is_1 - 1];
        let cuts = so_far.iter().filter(|n| n.value < Some(2)).count();
        return match so_far.len() - 2 * cuts {
            0 => "a cut joins two things, and nothing stands yet".into(),
            1 => "a cut joins two things, and only one stands".into(),
            more => panic!("{more} stand"),
        };
    }
    if value <= modules + 1 {
        return format!("module {} stands already", value - 2);
    }
    format!(
        "it is {value}, which is module {}; modules are 0 to {}",
        value - 2,
        modules - 1
    )
}

fn planned(design: &Design) -> String {
    let mut work = vec![0; WORK];
    let mut rows = [0; 4 * MOST_MODULES];
    let reply = plan(design, &mut work, &mut rows);
    match reply.number {
        DONE => format!(
            "done: the box has {} columns and {} rows",
            reply.box_width, reply.box_height
        ),
        TOO_SHORT => format!(
            "too large: the lists take {} bytes of work, this program has {WORK}; docs/FORMAT.md says what plans larger designs",
            design.work_needed()
        ),
        NO_PLACEMENT => no_placement(design),
        other => panic!("plan of a lawful design never replies {other}"),
    }
}

/// What the whole chip holds.
fn chip_has(chip: &Chip) -> Amounts {
    let columns = |kind| {
        let kinds = &chip.kinds[..chip.width.0];
        kinds.iter().filter(|&&k| k == kind).count()
    };
    let blocks = chip.height.0 / chip.block.0;
    Amounts {
        clbs: columns(CLB) * chip.height.0,
        rams: columns(RAM) * blocks,
        multipliers: columns(MULTIPLIER) * blocks,
    }
}

fn no_placement(design: &Design) -> String {
    let has = chip_has(&design.chip);
    let needs = &design.needs[..design.modules];
    let kinds = [
        ("CLBs", has.clbs, needs.iter().map(|n| n.clbs).sum::<usize>()),
        ("RAMs", has.rams, needs.iter().map(|n| n.rams).sum()),
        (
            "multipliers",
            has.multipliers,
            needs.iter().map(|n| n.multipliers).sum(),
        ),
    ];
    let short: Vec<String> = kinds
        .iter()
        .filter(|(_, has, need)| has < need)
        .map(|(kind, has, need)| format!("the chip has {has} {kind}, the modules need {need}"))
        .collect();
    if short.is_empty() {
        return "no placement: the chip has enough of each, but not in rectangles that lie as the tree says"
            .into();
    }
    format!("no placement: {}", short.join("; "))
}
