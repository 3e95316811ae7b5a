//! One text compared: what the library's reader of DIMACS CNF gives against the second implementation.

use crate::case::{InWords, Reading};
use crate::dimacs::{self, Cnf};
use crate::interface::{
    self, Lent, THUNYAWORM_CNF_LITERALS, THUNYAWORM_CNF_PLACES, THUNYAWORM_CNF_STARTS,
};
use crate::shrink;

/// What the reader has to be lent.
const STARTS: usize = 577;
const LITERALS: usize = 4_608;
const PLACES: usize = 3;

/// What a call that shows no difference came to.
pub enum Same {
    /// Too little was lent, and nothing was done.
    Nothing,
    Refused(u64),
    Clauses,
}

/// A text with all that the reader needs, and no more.
pub fn of(text: Vec<u8>) -> Reading {
    Reading {
        text,
        starts: THUNYAWORM_CNF_STARTS,
        literals: THUNYAWORM_CNF_LITERALS,
        places: THUNYAWORM_CNF_PLACES,
    }
}

/// What has to be handed back, and to stand in front of what is lent.
#[derive(Default)]
struct Expected {
    count: usize,
    places: Vec<u64>,
    starts: Vec<u16>,
    literals: Vec<u16>,
}

fn expect(reading: &Reading) -> (Same, Expected) {
    let enough = reading.starts >= STARTS && reading.literals >= LITERALS;
    if !enough || reading.places < PLACES {
        return (Same::Nothing, Expected::default());
    }
    match dimacs::read(&reading.text) {
        Err(number) => {
            let expected = Expected {
                count: 1,
                places: vec![number],
                ..Expected::default()
            };
            (Same::Refused(number), expected)
        }
        Ok(cnf) => {
            let expected = Expected {
                count: 3,
                places: vec![0, cnf.atoms as u64, cnf.clauses.len() as u64],
                starts: starts(&cnf),
                literals: literals(&cnf),
            };
            (Same::Clauses, expected)
        }
    }
}

/// Where each clause starts among the literals and where the last one ends, zeros behind.
fn starts(cnf: &Cnf) -> Vec<u16> {
    let mut starts = vec![0; STARTS];
    for (place, clause) in cnf.clauses.iter().enumerate() {
        starts[place + 1] = starts[place] + clause.len() as u16;
    }
    starts
}

/// All literals, each as twice its atom's number and 1 more where it is negated, zeros behind.
fn literals(cnf: &Cnf) -> Vec<u16> {
    let mut literals: Vec<u16> = cnf
        .clauses
        .iter()
        .flatten()
        .map(|&number| 2 * number.unsigned_abs() as u16 + u16::from(number < 0))
        .collect();
    literals.resize(LITERALS, 0);
    literals
}

/// What the reader came to, or all differences in words.
pub fn check(reading: &Reading) -> Result<Same, Vec<String>> {
    let (same, expected) = expect(reading);
    let read = interface::read_cnf(reading);
    let mut differences = Vec::new();
    if read.count != expected.count {
        differences.push(format!(
            "reader: {} handed back, expected {}",
            read.count, expected.count
        ));
    }
    compare("places", &read.places, &expected.places, &mut differences);
    compare("starts", &read.starts, &expected.starts, &mut differences);
    compare(
        "literals",
        &read.literals,
        &expected.literals,
        &mut differences,
    );
    if differences.is_empty() {
        Ok(same)
    } else {
        Err(differences)
    }
}

/// What was lent after its call: the expected values at its front, all others as they were.
fn compare<T: Copy + PartialEq + std::fmt::Display>(
    name: &str,
    lent: &Lent<T>,
    expected: &[T],
    differences: &mut Vec<String>,
) {
    let front = lent.front(expected.len());
    if let Some(place) = (0..front.len()).find(|&place| front[place] != expected[place]) {
        let (value, expected) = (front[place], expected[place]);
        differences.push(format!(
            "reader: place {place} of the {name} is {value}, expected {expected}"
        ));
    }
    if !lent.unchanged_behind(expected.len()) {
        differences.push(format!(
            "reader: {name} that are not to be written are changed"
        ));
    }
}

/// A differing text made smaller and described.
pub fn report(reading: &Reading) -> String {
    let smallest = shrink::shrink_text(reading);
    let mut text = smallest.in_words();
    text.push_str(&match dimacs::read(&smallest.text) {
        Ok(cnf) => format!("by the second implementation: {cnf:?}\n"),
        Err(number) => format!("by the second implementation: {number}\n"),
    });
    text.push_str("differences:\n");
    for difference in check(&smallest).err().unwrap_or_default() {
        text.push_str(&format!("- {difference}\n"));
    }
    text
}
