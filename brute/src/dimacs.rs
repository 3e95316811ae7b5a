//! DIMACS CNF as request 2/14 of document 02 has it: the clauses of a search that has ended, their text,
//! and the reader of such texts. The reader cuts a text into lines and the lines into words.

use crate::ended::Ended;
use crate::problem::{Literal, Problem};
use std::fmt::{Display, Write};
use std::str::FromStr;

/// The most atoms, clauses and literals of a clause that the reader takes.
pub const ATOMS: usize = 256;
pub const CLAUSES: usize = 576;
pub const LITERALS: usize = 8;

/// Clauses over atoms that are numbered from 1; the number of a negated one is negative.
#[derive(Clone, PartialEq, Eq, Debug)]
pub struct Cnf {
    pub atoms: usize,
    pub clauses: Vec<Vec<i32>>,
}

impl Cnf {
    /// The goal clauses as the sheet has them, then the log, over the table.
    pub fn of(problem: &Problem, ended: &Ended) -> Cnf {
        let number = |literal: &Literal| {
            let place = ended.table.iter().position(|&atom| atom == literal.atom);
            let number = place.expect("every atom of a clause is in the table") as i32 + 1;
            if literal.negated {
                -number
            } else {
                number
            }
        };
        let logged = ended.log.iter().map(|logged| &logged.literals);
        Cnf {
            atoms: ended.table.len(),
            clauses: problem
                .clauses
                .iter()
                .chain(logged)
                .map(|literals| literals.iter().map(number).collect())
                .collect(),
        }
    }

    pub fn text(&self) -> Vec<u8> {
        let mut text = format!("p cnf {} {}\n", self.atoms, self.clauses.len());
        for clause in &self.clauses {
            for number in clause {
                write!(text, "{number} ").expect("a string takes all");
            }
            text.push_str("0\n");
        }
        text.into_bytes()
    }
}

/// The clauses of a text, or 21 for its first line, or 22 for what follows.
pub fn read(text: &[u8]) -> Result<Cnf, u64> {
    let mut lines: Vec<&[u8]> = text.split(|&byte| byte == b'\n').collect();
    // What stands behind the last LF is no line.
    let rest = lines.pop().unwrap_or_default();
    let (first, lines) = lines.split_first().ok_or(21u64)?;
    let (atoms, count) = header(first).ok_or(21u64)?;
    if lines.len() != count || !rest.is_empty() {
        return Err(22);
    }
    let clauses: Option<Vec<Vec<i32>>> = lines.iter().map(|line| clause(line, atoms)).collect();
    Ok(Cnf {
        atoms,
        clauses: clauses.ok_or(22u64)?,
    })
}

/// The atoms and clauses of a first line.
fn header(line: &[u8]) -> Option<(usize, usize)> {
    let [b"p", b"cnf", atoms, clauses] = words(line)[..] else {
        return None;
    };
    let atoms = number(atoms).filter(|&atoms| atoms <= ATOMS)?;
    let clauses = number(clauses).filter(|&clauses| clauses <= CLAUSES)?;
    Some((atoms, clauses))
}

fn clause(line: &[u8], atoms: usize) -> Option<Vec<i32>> {
    let (last, words) = words(line).split_last().map(|(l, w)| (*l, w.to_vec()))?;
    if last != b"0" || words.len() > LITERALS {
        return None;
    }
    let in_range = |number: &i32| (1..=atoms).contains(&(number.unsigned_abs() as usize));
    words
        .into_iter()
        .map(|word| number(word).filter(in_range))
        .collect()
}

/// What one blank each stands between.
fn words(line: &[u8]) -> Vec<&[u8]> {
    line.split(|&byte| byte == b' ').collect()
}

/// A number in the one way to write it: it is written again and must be the same word.
fn number<T: FromStr + Display>(word: &[u8]) -> Option<T> {
    let word = std::str::from_utf8(word).ok()?;
    let number: T = word.parse().ok()?;
    (number.to_string() == word).then_some(number)
}
