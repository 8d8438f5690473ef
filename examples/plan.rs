//! Plans a design from Rust: `plan FILE` prints what the plan program prints: `plan 0 W H`, the box, and a line `k x y w h` for
//! each module, or a refusal, `plan N P`. The exit status is 0 done, 1 refused, 2 could not read or write. (A closed output is
//! not seen here: Rust's library opens /dev/null in its place.)

use std::env;
use std::fs::File;
use std::io::{self, Read, Write};
use std::process::ExitCode;

#[link(name = "cellweaver_c", kind = "static")]
extern "C" {
    fn cellweaver_sizes(
        bytes: *const u8,
        bytes_length: usize,
        width: *mut usize,
        height: *mut usize,
        modules: *mut usize,
        work: *mut usize,
        rows: *mut usize,
        value: *mut usize,
    ) -> usize;
    fn cellweaver_plan(
        bytes: *const u8,
        bytes_length: usize,
        work: *mut u8,
        work_length: usize,
        rows: *mut u8,
        rows_length: usize,
        width: *mut usize,
        height: *mut usize,
        value: *mut usize,
    ) -> usize;
}

/// A refusal: its number, and what stands beside it.
struct Refused(usize, usize);

/// The bytes that the lists of the design want, and its rows.
fn sizes(bytes: &[u8]) -> Result<(usize, usize), Refused> {
    let (mut width, mut height, mut modules, mut work, mut rows, mut value) = (0, 0, 0, 0, 0, 0);
    // The pointer comes with its own length, and each place is lent to nobody else. That is all that is asked.
    let number = unsafe {
        cellweaver_sizes(
            bytes.as_ptr(),
            bytes.len(),
            &mut width,
            &mut height,
            &mut modules,
            &mut work,
            &mut rows,
            &mut value,
        )
    };
    match number {
        0 => Ok((work, rows)),
        _ => Err(Refused(number, value)),
    }
}

/// The box's width and height.
fn plan(bytes: &[u8], work: &mut [u8], rows: &mut [u8]) -> Result<(usize, usize), Refused> {
    let (mut width, mut height, mut value) = (0, 0, 0);
    // Each pointer comes with its own length, and what is lent to be written is lent to nobody else. That is all that is asked.
    let number = unsafe {
        cellweaver_plan(
            bytes.as_ptr(),
            bytes.len(),
            work.as_mut_ptr(),
            work.len(),
            rows.as_mut_ptr(),
            rows.len(),
            &mut width,
            &mut height,
            &mut value,
        )
    };
    match number {
        0 => Ok((width, height)),
        _ => Err(Refused(number, value)),
    }
}

/// The design's rows as lines, over just the bytes that it wants.
fn planned(bytes: &[u8]) -> Result<String, Refused> {
    let (work, rows) = sizes(bytes)?;
    let (mut work, mut rows) = (vec![0; work], vec![0; rows]);
    let (width, height) = plan(bytes, &mut work, &mut rows)?;
    let mut text = format!("plan 0 {width} {height}\n");
    for (k, row) in rows.chunks(4).enumerate() {
        text += &format!("{k} {} {} {} {}\n", row[0], row[1], row[2], row[3]);
    }
    Ok(text)
}

/// The first bytes of a file, enough to decide every reading.
fn design(name: &str) -> io::Result<Vec<u8>> {
    let mut bytes = Vec::new();
    File::open(name)?.take(4096).read_to_end(&mut bytes)?;
    Ok(bytes)
}

/// Prints what plan answers for a design, and says whether it was done.
fn print_plan(bytes: &[u8]) -> io::Result<bool> {
    let (text, done) = match planned(bytes) {
        Ok(text) => (text, true),
        Err(Refused(number, value)) => (format!("plan {number} {value}\n"), false),
    };
    let mut out = io::stdout();
    out.write_all(text.as_bytes())?;
    out.flush()?;
    Ok(done)
}

fn main() -> ExitCode {
    let names: Vec<String> = env::args().skip(1).collect();
    let [name] = &names[..] else {
        eprintln!("usage: plan FILE");
        return ExitCode::from(2);
    };
    match design(name).and_then(|bytes| print_plan(&bytes)) {
        Ok(true) => ExitCode::SUCCESS,
        Ok(false) => ExitCode::from(1),
        Err(error) => {
            eprintln!("plan: {name}: {error}");
            ExitCode::from(2)
        }
    }
}
