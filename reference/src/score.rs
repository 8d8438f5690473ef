//! The score beside a floorplan: what order 1 of document 02 adds up.

use crate::check::{check, row};
use crate::chip::{Columns, Rectangle, Rows, Shape, CHIP_CORNER};
use crate::design::Design;
use crate::reply::{Number, BAD_NET, BAD_TERM, DONE};
use crate::shapes::bounding_box;

/// "Terms come as a list of up to eight."
pub const MOST_TERMS: usize = 8;
/// "Over up to 32 nets."
pub const MOST_NETS: usize = 32;
/// Names in a net: as many as there can be modules. A list of more is no net.
pub const MOST_NAMES: usize = 16;
/// "A weight outside 0 to 1,000,000 or not a number" is refused: both ends and -0.0 are inside.
pub const MOST_WEIGHT: f64 = 1_000_000.0;

/// What a term measures.
#[derive(Clone, Copy, Debug, PartialEq, Eq)]
pub enum Kind {
    Area,
    Ratio,
    Wire,
}

/// A term: "each being area, ratio or wire, and each carrying its own weight as an f64".
#[derive(Clone, Copy, Debug)]
pub struct Term {
    pub kind: Kind,
    pub weight: f64,
}

/// The modules that a net names. A module named twice counts once, as a box round it is the same.
pub type Net = Vec<usize>;

/// "The running total and the last term's amount are kept together as one record of f64 values."
#[derive(Clone, Copy, Debug)]
pub struct Scored {
    pub total: f64,
    pub last: f64,
}

/// "Both values 0, as with no terms."
pub const NOTHING_SCORED: Scored = Scored {
    total: 0.0,
    last: 0.0,
};

/// The number, the checker's name beside its own refusals, and the two values.
#[derive(Clone, Copy, Debug)]
pub struct ScoreReply {
    pub number: Number,
    pub name: usize,
    pub scored: Scored,
}

/// The service score. "First all of the checker's own, then 15 for a ninth term or a weight outside
/// 0 to 1,000,000 or not a number, then 16 for a 33rd net or one that is empty or names a missing
/// module." 16 is judged also where no term is wire.
pub fn score(design: &Design, rows: &[u8], terms: &[Term], nets: &[Net]) -> ScoreReply {
    let checked = check(design, rows);
    if checked.number != DONE {
        return refused(checked.number, checked.name);
    }
    if terms.len() > MOST_TERMS || !terms.iter().all(|term| lawful_weight(term.weight)) {
        return refused(BAD_TERM, 0);
    }
    let lawful = |net: &Net| lawful_net(net, design.modules);
    if nets.len() > MOST_NETS || !nets.iter().all(lawful) {
        return refused(BAD_NET, 0);
    }
    let floorplan: Vec<Rectangle> = (0..design.modules).map(|k| row(rows, k)).collect();
    ScoreReply {
        number: DONE,
        name: 0,
        scored: scored(&floorplan, terms, nets),
    }
}

fn refused(number: Number, name: usize) -> ScoreReply {
    ScoreReply {
        number,
        name,
        scored: NOTHING_SCORED,
    }
}

/// A NaN is neither at least 0 nor at most anything.
fn lawful_weight(weight: f64) -> bool {
    0.0 <= weight && weight <= MOST_WEIGHT
}

fn lawful_net(net: &Net, modules: usize) -> bool {
    (1..=MOST_NAMES).contains(&net.len()) && net.iter().all(|&k| k < modules)
}

/// "Each term's amount times its weight is added to the total, from zero." The product rounds, and
/// then the sum.
fn scored(floorplan: &[Rectangle], terms: &[Term], nets: &[Net]) -> Scored {
    let mut kept = NOTHING_SCORED;
    for term in terms {
        let amount = match term.kind {
            Kind::Area => area(floorplan) as f64,
            Kind::Ratio => ratio(floorplan),
            Kind::Wire => wire(floorplan, nets) as f64,
        };
        let weighted = amount * term.weight;
        kept = Scored {
            total: kept.total + weighted,
            last: amount,
        };
    }
    kept
}

/// "Area is w·h of the box from the chip's lower left corner."
fn area(floorplan: &[Rectangle]) -> usize {
    let at_the_corner = Rectangle {
        corner: CHIP_CORNER,
        shape: Shape {
            w: Columns(0),
            h: Rows(0),
        },
    };
    floorplan.iter().copied().fold(at_the_corner, bounding_box).shape.area()
}

/// "Ratio adds w/h and then h/w for each module in module order, from zero." These are two
/// additions, and each division rounds before it is added.
fn ratio(floorplan: &[Rectangle]) -> f64 {
    let mut sum = 0.0;
    for rectangle in floorplan {
        let (w, h) = (rectangle.shape.w.0 as f64, rectangle.shape.h.0 as f64);
        sum += w / h;
        sum += h / w;
    }
    sum
}

/// "Wire adds, over up to 32 nets, the half perimeter of the box round the members' doubled centres
/// 2x+w and 2y+h."
fn wire(floorplan: &[Rectangle], nets: &[Net]) -> usize {
    nets.iter().map(|net| half_perimeter(floorplan, net)).sum()
}

fn half_perimeter(floorplan: &[Rectangle], net: &Net) -> usize {
    let members: Vec<Rectangle> = net.iter().map(|&k| floorplan[k]).collect();
    let (left, right) = ends(members.iter().map(|r| r.corner.x + r.right()));
    let (low, high) = ends(members.iter().map(|r| r.corner.y + r.top()));
    (right - left).0 + (high - low).0
}

/// Where the box round some places begins and ends. A lawful net has a member, so there is a place.
fn ends<T: Ord>(places: impl Iterator<Item = T> + Clone) -> (T, T) {
    let first = places.clone().min().expect("a net has a member");
    let last = places.max().expect("a net has a member");
    (first, last)
}
