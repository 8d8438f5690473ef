//! The independent implementation of the planner's services, and what is run with it.
//!
//! `reference vectors FOLDER` runs stored cases, `reference examples` the bench examples,
//! `reference random SEED COUNT` the services on random designs against the definitions,
//! `reference plan` the plan program on standard input, and `reference ask` answers requests;
//! `reference requests FILE` makes requests of stored cases; `reference say` says what the plan program's
//! answer means, `reference hex` and `hex_back` turn typed text into bytes and back; `reference cases`, `says` and `hexes` are the plan program, `say`, and typed text turned and
//! turned back, on many inputs, each with its length in two bytes before it; `damaged` and `typed` write such inputs; `reference draw` is the draw program.

mod ask;
mod bytes;
mod check;
mod chip;
mod choice;
mod damaged;
mod design;
mod draw;
mod edit;
mod examples;
mod fields;
mod json;
mod lists;
mod program;
mod random;
mod reply;
mod say;
mod score;
mod shapes;
mod tree;
mod trials;
mod typed;
mod vectors;

use std::env;
use std::io::{self, Read, Write};
use std::path::Path;
use std::process::ExitCode;

const USAGE: &str = "usage: reference vectors FOLDER
       reference examples
       reference random SEED COUNT
       reference plan < FILE
       reference ask < REQUESTS
       reference requests FILE
       reference cases < INPUTS
       reference say < FILE
       reference hex < TEXT
       reference hex_back < FILE
       reference says < INPUTS
       reference hexes < INPUTS
       reference damaged
       reference typed
       reference draw < INPUT";

fn main() -> ExitCode {
    let arguments: Vec<String> = env::args().skip(1).collect();
    let words: Vec<&str> = arguments.iter().map(String::as_str).collect();
    let outcome = match words[..] {
        ["vectors", folder] => vectors::run_folder(Path::new(folder)),
        ["examples"] => Ok(examples::run()),
        ["random", seed, count] => random_designs(seed, count),
        ["plan"] => answer_standard_input(program::plan_program),
        ["say"] => answer_standard_input(say::say),
        ["hex"] => answer_standard_input(typed::hex_program),
        ["hex_back"] => answer_standard_input(typed::hex_back_program),
        ["ask"] => ask_standard_input(),
        ["cases"] => answer_cases(program::plan_program),
        ["says"] => answer_cases(say::say),
        ["hexes"] => answer_cases(typed::round_trip),
        ["damaged"] => write_out(&damaged::designs()),
        ["typed"] => write_out(&damaged::typed()),
        ["draw"] => draw_standard_input(),
        ["requests", file] => ask::requests(Path::new(file)).map(|text| {
            print!("{text}");
            true
        }),
        _ => Err(USAGE.to_string()),
    };
    match outcome {
        Ok(true) => ExitCode::SUCCESS,
        Ok(false) => ExitCode::from(1),
        Err(what) => {
            eprintln!("{what}");
            ExitCode::from(2)
        }
    }
}

fn random_designs(seed: &str, count: &str) -> Result<bool, String> {
    let seed = seed.parse().map_err(|_| USAGE.to_string())?;
    let count = count.parse().map_err(|_| USAGE.to_string())?;
    Ok(trials::run(seed, count))
}

fn answer_standard_input<T: AsRef<[u8]>>(answer: fn(&[u8]) -> T) -> Result<bool, String> {
    let mut input = Vec::new();
    let mut limited = io::stdin().lock().take(program::MOST_INPUT as u64);
    limited.read_to_end(&mut input).map_err(|e| e.to_string())?;
    write_out(answer(&input).as_ref())
}

fn write_out(bytes: &[u8]) -> Result<bool, String> {
    let mut out = io::stdout().lock();
    out.write_all(bytes).map_err(|e| e.to_string())?;
    Ok(true)
}

fn answer_cases(answer: fn(&[u8]) -> String) -> Result<bool, String> {
    let mut input = Vec::new();
    let mut stdin = io::stdin().lock();
    stdin.read_to_end(&mut input).map_err(|e| e.to_string())?;
    let mut rest = &input[..];
    while let [low, high, after @ ..] = rest {
        let long = (usize::from(*low) + 256 * usize::from(*high)).min(after.len());
        print!("{}", answer(&after[..long]));
        rest = &after[long..];
    }
    Ok(true)
}

fn draw_standard_input() -> Result<bool, String> {
    let mut input = Vec::new();
    let mut stdin = io::stdin().lock();
    stdin.read_to_end(&mut input).map_err(|e| e.to_string())?;
    print!("{}", draw::draw_program(&input));
    Ok(true)
}

fn ask_standard_input() -> Result<bool, String> {
    let mut input = Vec::new();
    let mut stdin = io::stdin().lock();
    stdin.read_to_end(&mut input).map_err(|e| e.to_string())?;
    print!("{}", ask::answers(&input));
    Ok(true)
}
