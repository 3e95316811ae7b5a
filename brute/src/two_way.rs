//! Random two-way rules of all shapes, with a reverse rule and without one.

use crate::generate::{connected, heads_and_body, variables_of, Style};
use crate::random::Random;
use crate::rows::{two_way, Row};

/// How many literals are kept, rewritten and in the body: all that question 8 lets pass.
pub const SHAPES: [[usize; 3]; 14] = [
    [0, 1, 0],
    [0, 1, 1],
    [0, 1, 2],
    [0, 2, 0],
    [0, 2, 1],
    [0, 2, 2],
    [1, 1, 0],
    [1, 1, 1],
    [1, 1, 2],
    [1, 2, 0],
    [1, 2, 1],
    [1, 2, 2],
    [2, 1, 0],
    [2, 1, 1],
];
/// A rule of the wanted sort is drawn so often; then any will do.
const TRIES: usize = 30;

/// What becomes of the reverse reading.
#[derive(Clone, Copy, PartialEq, Eq)]
enum Reverse {
    There,
    NotRestricted,
    NotConnected,
    EmptyBody,
}

/// Half with their reverse, and each way to lack it.
const WANTED: &[Reverse] = &[
    Reverse::There,
    Reverse::There,
    Reverse::There,
    Reverse::There,
    Reverse::NotRestricted,
    Reverse::NotRestricted,
    Reverse::NotConnected,
    Reverse::EmptyBody,
];

/// The literals of a two-way rule.
struct Drawn {
    kept: Vec<Row>,
    rewritten: Vec<Row>,
    body: Vec<Row>,
}

pub fn random_two_way(random: &mut Random, style: &Style) -> Row {
    let wanted = *random.pick(WANTED);
    let reversed = wanted == Reverse::There && random.percent(style.reversed);
    let unmended = random.percent(style.unmended);
    let mut drawn = draw(random, style, wanted, reversed);
    for _ in 0..TRIES {
        if drawn.reverse() == wanted && (unmended || drawn.forward_fits()) {
            break;
        }
        drawn = draw(random, style, wanted, reversed);
    }
    two_way(&drawn.kept, &drawn.rewritten, &drawn.body)
}

/// Literals in a shape with an empty body where that is wanted, and with none where it is not.
fn draw(random: &mut Random, style: &Style, wanted: Reverse, reversed: bool) -> Drawn {
    let mut shape = *random.pick(&SHAPES);
    while (shape[2] == 0) != (wanted == Reverse::EmptyBody) {
        shape = *random.pick(&SHAPES);
    }
    let [kept, rewritten, body] = shape;
    let (from, to) = if reversed {
        (body, rewritten)
    } else {
        (rewritten, body)
    };
    let (mut heads, to) = heads_and_body(random, style, kept + from, to);
    // A single head that is left is none of the kept ones.
    let from = heads.split_off(kept.min(heads.len() - 1));
    let (rewritten, body) = if reversed { (to, from) } else { (from, to) };
    Drawn {
        kept: heads,
        rewritten,
        body,
    }
}

impl Drawn {
    fn reverse(&self) -> Reverse {
        let heads = [&self.kept[..], &self.body].concat();
        if self.body.is_empty() {
            Reverse::EmptyBody
        } else if !binds(&heads, &self.rewritten) {
            Reverse::NotRestricted
        } else if !all_connected(&heads) {
            Reverse::NotConnected
        } else {
            Reverse::There
        }
    }

    /// Do questions 12 and 14 let the forward rule pass?
    fn forward_fits(&self) -> bool {
        let heads = [&self.kept[..], &self.rewritten].concat();
        binds(&heads, &self.body) && all_connected(&heads)
    }
}

fn binds(heads: &[Row], body: &[Row]) -> bool {
    let bound = variables_of(heads);
    variables_of(body).iter().all(|name| bound.contains(name))
}

fn all_connected(heads: &[Row]) -> bool {
    heads.len() == 1 || (0..heads.len()).all(|place| connected(heads, place))
}

/// How many rules a line of kind 3 or 8 counts as at question 9.
pub fn counted(row: &[i32]) -> usize {
    match row {
        [8, _, _, body, ..] if *body > 0 => 2,
        _ => 1,
    }
}
