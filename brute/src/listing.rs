//! The listing as bytes.

use crate::ended::{Ended, Verdict};
use crate::problem::{Literal, Problem};
use crate::reader::Refusal;
use std::fmt::Write;

fn narrow(text: &mut String, value: i64) {
    write!(text, "{value:>4}").expect("a string takes all");
}

fn wide(text: &mut String, value: u64) {
    write!(text, "{value:>12}").expect("a string takes all");
}

/// The signed symbol, then its constants.
fn put_literal(text: &mut String, literal: Literal, problem: &Problem) {
    let symbol = literal.atom.symbol as i64;
    narrow(text, if literal.negated { -symbol } else { symbol });
    for &constant in &literal.atom.constants[..problem.arities[literal.atom.symbol - 1]] {
        narrow(text, constant as i64);
    }
}

pub fn write(ended: &Ended, problem: &Problem) -> Vec<u8> {
    let mut text = String::new();
    let [verdict, atoms, logged, decisions, conflicts] = ended.values();
    for value in [5, verdict, atoms, logged] {
        narrow(&mut text, value as i64);
    }
    wide(&mut text, decisions);
    wide(&mut text, conflicts);
    text.push('\n');
    for logged in &ended.log {
        for value in [6, logged.rule as i64, logged.literals.len() as i64] {
            narrow(&mut text, value);
        }
        for &literal in &logged.literals {
            put_literal(&mut text, literal, problem);
        }
        text.push('\n');
    }
    if ended.verdict == Verdict::Unknown {
        for &literal in &ended.set {
            narrow(&mut text, 7);
            put_literal(&mut text, literal, problem);
            text.push('\n');
        }
    }
    text.into_bytes()
}

/// The line of kind 9 that the program prints for a refusal.
pub fn refusal_line(refusal: Refusal) -> Vec<u8> {
    format!("{:>4}{:>4}{:>4}\n", 9, refusal.number, refusal.line).into_bytes()
}
