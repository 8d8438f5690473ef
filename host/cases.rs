//! Makes random cases for the static library, and the answers that the independent implementation gives.
//!
//! `cases SEED COUNT FILE` writes requests for host/driver.c to standard output, and the expected answers to FILE. Each case has its
//! own chance, made of the seed and its number, so that it is the same whatever COUNT is. host/README.md has the form of both.

#![allow(dead_code)] // the independent implementation has more than is asked of it here

#[path = "../reference/src/bytes.rs"]
mod bytes;
#[path = "../reference/src/check.rs"]
mod check;
#[path = "../reference/src/chip.rs"]
mod chip;
#[path = "../reference/src/choice.rs"]
mod choice;
#[path = "../reference/src/design.rs"]
mod design;
#[path = "../reference/src/edit.rs"]
mod edit;
#[path = "../reference/src/lists.rs"]
mod lists;
#[path = "../reference/src/random.rs"]
mod random;
#[path = "../reference/src/reply.rs"]
mod reply;
#[path = "../reference/src/score.rs"]
mod score;
#[path = "../reference/src/shapes.rs"]
mod shapes;
#[path = "../reference/src/tree.rs"]
mod tree;

use design::Design;
use edit::Edit;
use random::Chance;
use reply::DONE;
use score::{Kind, Net, Term};
use std::fs::File;
use std::io::{self, BufWriter, Write};
use std::process::ExitCode;

/// The longest lawful design: `out` has to have room for it when an edit is asked.
const DESIGN_ROOM: usize = 244;

/// What is lent: a design's bytes, work, rows, a place for a design's bytes, and a score's kinds, weights and nets. The
/// driver holds the same.
#[derive(Default)]
struct Lent {
    bytes: Vec<u8>,
    work: Vec<u8>,
    rows: Vec<u8>,
    out: Vec<u8>,
    kinds: Vec<u8>,
    weights: Vec<u8>,
    nets: Vec<u8>,
}

/// An answer: the number, the value, and the box's width and height, or the bits of a score's total and last amount.
type Answer = [usize; 4];

fn plainly(number: u8, value: usize) -> Answer {
    [number.into(), value, 0, 0]
}

fn placed(reply: choice::PlaceReply) -> Answer {
    [reply.number.into(), 0, reply.box_width, reply.box_height]
}

/// Where requests go, and the expected answers.
struct Caller {
    requests: BufWriter<io::Stdout>,
    expected: BufWriter<File>,
    lent: Lent,
    calls: u64,
}

impl Caller {
    fn request(&mut self, letter: u8, numbers: &[usize]) -> io::Result<()> {
        self.requests.write_all(&[letter])?;
        for &number in numbers {
            self.requests.write_all(&(number as u64).to_le_bytes())?;
        }
        Ok(())
    }

    fn lend(&mut self, letter: u8, bytes: Vec<u8>) -> io::Result<()> {
        self.request(letter, &[bytes.len()])?;
        self.requests.write_all(&bytes)?;
        let lent = &mut self.lent;
        *match letter {
            b'b' => &mut lent.bytes,
            b'w' => &mut lent.work,
            b'r' => &mut lent.rows,
            b'o' => &mut lent.out,
            b'k' => &mut lent.kinds,
            b'g' => &mut lent.weights,
            _ => &mut lent.nets,
        } = bytes;
        Ok(())
    }

    fn expect(&mut self, call: &str, answer: Answer) -> io::Result<()> {
        let Lent { bytes, work, rows, out, kinds, weights, nets } = &self.lent;
        // FNV-1a with 64 bits over all that is lent
        let mut sum: u64 = 0xcbf2_9ce4_8422_2325;
        for buffer in [bytes, work, rows, out, kinds, weights, nets] {
            for &byte in buffer {
                sum = (sum ^ u64::from(byte)).wrapping_mul(0x0100_0000_01b3);
            }
        }
        let [number, value, width, height] = answer;
        self.calls += 1;
        writeln!(self.expected, "{call} {number} {value} {width} {height} {sum:016x}")
    }

    /// Asks a service: in C a design is its bytes, so a refused reading is the answer of every call.
    fn ask(&mut self, letter: u8, call: &str, service: impl FnOnce(&Design, &mut Lent) -> Answer) -> io::Result<Answer> {
        self.request(letter, &[])?;
        self.answer(call, service)
    }

    fn answer(&mut self, call: &str, service: impl FnOnce(&Design, &mut Lent) -> Answer) -> io::Result<Answer> {
        let reading = bytes::read(&self.lent.bytes);
        let answer = match reading.number {
            DONE => service(&reading.design, &mut self.lent),
            number => plainly(number, reading.position),
        };
        self.expect(call, answer)?;
        Ok(answer)
    }

    fn read(&mut self) -> io::Result<Answer> {
        self.ask(b'R', "read", |_, _| plainly(DONE, 0))
    }

    /// Two answers: W and H, then m and the bytes that lists and rows take; zeros with a refusal.
    fn sizes(&mut self) -> io::Result<()> {
        self.ask(b'S', "sizes", |design, _| [DONE.into(), 0, design.chip.width.0, design.chip.height.0])?;
        let reading = bytes::read(&self.lent.bytes);
        let wants = match reading.number {
            DONE => [reading.design.modules, reading.design.work_needed(), reading.design.rows_needed()],
            _ => [0; 3],
        };
        self.expect("wants", [reading.number.into(), wants[0], wants[1], wants[2]])
    }

    fn write(&mut self) -> io::Result<Answer> {
        self.ask(b'W', "write", |design, lent| {
            let reply = bytes::write(design, &mut lent.out);
            plainly(reply.number, reply.count)
        })
    }

    fn list(&mut self) -> io::Result<Answer> {
        self.ask(b'L', "list", |design, lent| plainly(lists::list(design, &mut lent.work), 0))
    }

    fn plan(&mut self) -> io::Result<Answer> {
        self.ask(b'P', "plan", |design, lent| placed(choice::plan(design, &mut lent.work, &mut lent.rows)))
    }

    fn place(&mut self) -> io::Result<Answer> {
        self.ask(b'A', "place", |design, lent| placed(choice::place(design, &lent.work, &mut lent.rows)))
    }

    fn check(&mut self) -> io::Result<Answer> {
        self.ask(b'C', "check", |design, lent| {
            let reply = check::check(design, &lent.rows);
            plainly(reply.number, reply.name)
        })
    }

    fn score(&mut self) -> io::Result<Answer> {
        self.ask(b'V', "score", |design, lent| {
            let reply = score::score(design, &lent.rows, &terms_of(lent), &nets_of(&lent.nets));
            let [total, last] = [reply.scored.total, reply.scored.last].map(|number| number.to_bits() as usize);
            [reply.number.into(), reply.name, total, last]
        })
    }

    /// Edits; the design that a granted edit hands back is the next one to be handed over.
    fn edit(&mut self, wanted: Edit) -> io::Result<Answer> {
        let call = match wanted {
            Edit::Need { module, need } => {
                self.request(b'N', &[module, need.clbs, need.rams, need.multipliers])?;
                "need"
            }
            Edit::Turn { position } => {
                self.request(b'T', &[position])?;
                "turn"
            }
        };
        let answer = self.answer(call, |design, lent| edit_into_out(design, wanted, lent))?;
        if answer[0] == usize::from(DONE) {
            self.lent.bytes = self.lent.out[..answer[1]].to_vec();
        }
        Ok(answer)
    }
}

/// "11, 8, 9", where `out` counts among the buffers that may be too short; then the new design's bytes are put there.
fn edit_into_out(design: &Design, wanted: Edit, lent: &mut Lent) -> Answer {
    let room = lent.out.len() >= DESIGN_ROOM;
    let work: &mut [u8] = if room { &mut lent.work } else { &mut [] };
    let reply = edit::edit(design, wanted, work);
    if reply.number != DONE {
        return plainly(reply.number, 0);
    }
    let written = bytes::write(&reply.design, &mut lent.out);
    plainly(written.number, written.count)
}

/// What is no term in C is refused as one whose weight is not a number.
const NO_TERM: Term = Term { kind: Kind::Area, weight: f64::NAN };

/// The terms that stand in kinds and weights, which have to be as many.
fn terms_of(lent: &Lent) -> Vec<Term> {
    let number = |bits: &[u8]| f64::from_le_bytes(bits.try_into().expect("eight bytes"));
    let weights: Vec<f64> = lent.weights.chunks_exact(8).map(number).collect();
    if weights.len() != lent.kinds.len() {
        return vec![NO_TERM];
    }
    let term = |(&kind, weight): (&u8, f64)| match kind {
        0 => Term { kind: Kind::Area, weight },
        1 => Term { kind: Kind::Ratio, weight },
        2 => Term { kind: Kind::Wire, weight },
        _ => NO_TERM,
    };
    lent.kinds.iter().zip(weights).map(term).collect()
}

/// The nets that stand one after another, each with its length before it. Bytes that end inside a net are refused as an
/// empty one.
fn nets_of(bytes: &[u8]) -> Vec<Net> {
    let mut nets = Vec::new();
    let mut rest = bytes;
    while let [n, after @ ..] = rest {
        let members = after.get(..usize::from(*n)).unwrap_or(&[]);
        nets.push(members.iter().map(|&k| k.into()).collect());
        if members.len() < usize::from(*n) {
            break;
        }
        rest = &after[members.len()..];
    }
    nets
}

fn bytes_of(design: &Design) -> Vec<u8> {
    bytes::numbers_bytes(&bytes::design_numbers(design))
}

/// So many bytes of one value, or of any.
fn some_bytes(chance: &mut Chance, length: usize) -> Vec<u8> {
    if chance.once_in(2) {
        return vec![chance.byte(); length];
    }
    (0..length).map(|_| chance.byte()).collect()
}

/// A length near what is needed: mostly enough, sometimes one short or far too short.
fn near(chance: &mut Chance, needed: usize) -> usize {
    match chance.below(16) {
        0 => needed - 1,
        1 => chance.below(needed),
        2..=5 => needed,
        _ => needed + chance.below(20),
    }
}

/// Lends all that a design may want, as a rule enough of it.
fn lend_for(caller: &mut Caller, chance: &mut Chance, design: &Design) -> io::Result<()> {
    let work = near(chance, design.work_needed());
    let rows = near(chance, design.rows_needed());
    let out = near(chance, DESIGN_ROOM);
    caller.lend(b'b', bytes_of(design))?;
    caller.lend(b'w', some_bytes(chance, work))?;
    caller.lend(b'r', some_bytes(chance, rows))?;
    caller.lend(b'o', some_bytes(chance, out))
}

/// Lends terms and nets, as a rule lawful ones, and now and then some that are none in C alone.
fn lend_score(caller: &mut Caller, chance: &mut Chance, modules: usize) -> io::Result<()> {
    let terms = random::random_terms(chance);
    let mut kinds: Vec<u8> = terms.iter().map(|term| term.kind as u8).collect();
    let mut weights: Vec<u8> = terms.iter().flat_map(|term| term.weight.to_le_bytes()).collect();
    let mut nets = Vec::new();
    for net in random::random_nets(chance, modules) {
        nets.push(net.len() as u8);
        nets.extend(net.iter().map(|&k| k as u8));
    }
    match chance.below(24) {
        0 => kinds.push(chance.byte() % 3),
        1 => weights.extend(1.0_f64.to_le_bytes()),
        2 if !kinds.is_empty() => {
            let place = chance.below(kinds.len());
            kinds[place] = chance.byte().max(3);
        }
        3 => nets.truncate(chance.below(nets.len() + 1)),
        4 => random::damage(chance, &mut nets),
        _ => (),
    }
    caller.lend(b'k', kinds)?;
    caller.lend(b'g', weights)?;
    caller.lend(b'n', nets)
}

/// A planned floorplan, or any rows where there is none, scored by several lists of terms and nets; now and then with a
/// fault in the rows.
fn scores(caller: &mut Caller, chance: &mut Chance, design: &Design) -> io::Result<()> {
    lend_for(caller, chance, design)?;
    let planned = caller.plan()?;
    let times = if planned[0] == usize::from(DONE) { 8 } else { 2 };
    if planned[0] != usize::from(DONE) && chance.once_in(2) {
        let rows = random::random_rows(chance, design);
        caller.lend(b'r', rows)?;
    }
    for _ in 0..chance.between(1, times) {
        lend_score(caller, chance, design.modules)?;
        caller.score()?;
        let rows = caller.lent.rows.clone();
        if rows.len() >= design.rows_needed() && chance.once_in(6) {
            let mut changed = rows.clone();
            random::change_row(chance, design, &mut changed);
            caller.lend(b'r', changed)?;
            caller.score()?;
            caller.lend(b'r', rows)?;
        }
    }
    Ok(())
}

/// A whole design: read, written, listed, planned, placed, and its floorplan checked, also with a fault in it.
fn whole(caller: &mut Caller, chance: &mut Chance, design: &Design) -> io::Result<()> {
    lend_for(caller, chance, design)?;
    caller.read()?;
    caller.sizes()?;
    let out = near(chance, caller.lent.bytes.len());
    caller.lend(b'o', some_bytes(chance, out))?;
    caller.write()?;
    if chance.once_in(2) {
        caller.list()?;
    }
    caller.plan()?;
    caller.place()?;
    caller.check()?;
    if chance.once_in(2) {
        let rows = random::random_rows(chance, design);
        caller.lend(b'r', rows)?;
    }
    let mut rows = caller.lent.rows.clone();
    if rows.len() >= design.rows_needed() {
        random::change_row(chance, design, &mut rows);
        caller.lend(b'r', rows)?;
    }
    caller.check().map(|_| ())
}

/// Damaged bytes, read, and asked of some service.
fn damaged(caller: &mut Caller, chance: &mut Chance, design: &Design) -> io::Result<()> {
    lend_for(caller, chance, design)?;
    let mut bytes = bytes_of(design);
    for _ in 0..chance.between(1, 3) {
        random::damage(chance, &mut bytes);
    }
    caller.lend(b'b', bytes)?;
    caller.read()?;
    caller.sizes()?;
    let wanted = random::random_edit(chance, design);
    lend_score(caller, chance, design.modules)?;
    match chance.below(7) {
        0 => caller.write(),
        1 => caller.list(),
        2 => caller.plan(),
        3 => caller.place(),
        4 => caller.check(),
        5 => caller.score(),
        _ => caller.edit(wanted),
    }?;
    Ok(())
}

/// A run of edits, each handed the design that the last one left and the same work; then placed.
fn edit_run(caller: &mut Caller, chance: &mut Chance, design: &Design) -> io::Result<()> {
    lend_for(caller, chance, design)?;
    caller.list()?;
    for _ in 0..chance.between(1, 8) {
        if chance.once_in(8) {
            let out = near(chance, DESIGN_ROOM);
            caller.lend(b'o', some_bytes(chance, out))?;
        }
        let now = bytes::read(&caller.lent.bytes).design;
        caller.edit(random::random_edit(chance, &now))?;
    }
    caller.place()?;
    caller.check().map(|_| ())
}

/// Stairs that a stranger wrote, or no stairs at all: placed and edited.
fn stranger(caller: &mut Caller, chance: &mut Chance, design: &Design) -> io::Result<()> {
    lend_for(caller, chance, design)?;
    let mut work = vec![0; design.work_needed()];
    lists::fill(design, &mut work);
    if !chance.once_in(8) {
        work = random::strangers_stairs(chance, design, &work);
    }
    match chance.below(8) {
        0 => random::spoil_a_stair(chance, design, &mut work),
        1 => {
            let place = chance.below(work.len());
            work[place] = chance.byte();
        }
        2 => work = some_bytes(chance, design.work_needed()),
        _ => (),
    }
    work.extend(some_bytes(chance, 3));
    caller.lend(b'w', work)?;
    caller.place()?;
    caller.check()?;
    for _ in 0..chance.between(1, 3) {
        let now = bytes::read(&caller.lent.bytes).design;
        caller.edit(random::random_edit(chance, &now))?;
        caller.place()?;
    }
    Ok(())
}

/// The sizes of large designs, W, H and m, in turn; those at all limits once in a while.
fn large_design(chance: &mut Chance, turn: usize) -> Design {
    let (w, h, m) = match turn % 8 {
        0 => (64, chance.between(1, 8), 16),
        1 => (chance.between(1, 8), 64, 16),
        2 => (24, 24, 16),
        3 => (32, 16, chance.between(1, 16)),
        4 => (16, 32, chance.between(1, 16)),
        5 => (64, 64, 1),
        6 => (chance.between(9, 20), chance.between(9, 20), 16),
        _ if turn % 64 == 7 => (64, 64, 16),
        _ => (chance.between(20, 40), chance.between(20, 40), 4),
    };
    random::design_of_size(chance, w, h, m)
}

/// Every so many cases a large one.
const LARGE: usize = 200;

const KINDS: [(&str, fn(&mut Caller, &mut Chance, &Design) -> io::Result<()>); 5] = [
    ("whole designs", whole),
    ("damaged designs", damaged),
    ("edit runs", edit_run),
    ("strangers' stairs", stranger),
    ("scores", scores),
];

fn make(seed: u64, count: usize, file: &str) -> io::Result<()> {
    let mut caller = Caller {
        requests: BufWriter::new(io::stdout()),
        expected: BufWriter::new(File::create(file)?),
        lent: Lent::default(),
        calls: 0,
    };
    let (mut made, mut large) = ([0; KINDS.len()], 0);
    for number in 0..count {
        let mut chance = Chance(seed.wrapping_mul(0x9e37_79b9).wrapping_add(number as u64) << 16);
        let design = if number % LARGE == LARGE - 1 {
            large += 1;
            large_design(&mut chance, large - 1)
        } else {
            random::random_design(&mut chance)
        };
        let kind = chance.below(KINDS.len());
        made[kind] += 1;
        KINDS[kind].1(&mut caller, &mut chance, &design)?;
    }
    caller.request(b'E', &[])?;
    writeln!(caller.expected, "end {}", caller.calls)?;
    caller.requests.flush()?;
    caller.expected.flush()?;
    let kinds: Vec<String> = KINDS.iter().zip(made).map(|((name, _), n)| format!("{n} {name}")).collect();
    eprintln!("cases: seed {seed}: {count} cases ({}; {large} of them large), {} calls", kinds.join(", "), caller.calls);
    Ok(())
}

fn main() -> ExitCode {
    let words: Vec<String> = std::env::args().skip(1).collect();
    let [seed, count, file] = &words[..] else {
        eprintln!("usage: cases SEED COUNT FILE");
        return ExitCode::from(2);
    };
    let (Ok(seed), Ok(count)) = (seed.parse(), count.parse()) else {
        eprintln!("usage: cases SEED COUNT FILE");
        return ExitCode::from(2);
    };
    match make(seed, count, file) {
        Ok(()) => ExitCode::SUCCESS,
        Err(what) => {
            eprintln!("cases: {what}");
            ExitCode::from(2)
        }
    }
}
