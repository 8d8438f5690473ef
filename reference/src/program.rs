//! The plan program.

use crate::bytes::read;
use crate::check::row;
use crate::choice::plan;
use crate::reply::DONE;
use crate::tree::MOST_MODULES;

/// "The program reads at most 4,096 bytes, enough to decide every reading."
pub const MOST_INPUT: usize = 4_096;
/// "It keeps a work array of 65,536 bytes."
pub const WORK: usize = 65_536;

/// What the program prints for this standard input.
///
/// It "prints "plan", the number, then box width and height (0), or the position (1 to 7;
/// otherwise 0). On 0 a line for each module follows: k x y w h."
pub fn plan_program(input: &[u8]) -> String {
    let reading = read(&input[..input.len().min(MOST_INPUT)]);
    if reading.number != DONE {
        return format!("plan {} {}\n", reading.number, reading.position);
    }
    let design = reading.design;
    let mut work = vec![0; WORK];
    let mut rows = [0; 4 * MOST_MODULES];
    let reply = plan(&design, &mut work, &mut rows);
    if reply.number != DONE {
        return format!("plan {} 0\n", reply.number);
    }
    let mut text = format!("plan 0 {} {}\n", reply.box_width, reply.box_height);
    for k in 0..design.modules {
        let (corner, shape) = (row(&rows, k).corner, row(&rows, k).shape);
        text += &format!(
            "{k} {} {} {} {}\n",
            corner.x.0, corner.y.0, shape.w.0, shape.h.0
        );
    }
    text
}
