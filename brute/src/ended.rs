//! What a search comes to, as the listing tells it.

use crate::problem::{Atom, Literal};

#[derive(Clone, Copy, PartialEq, Eq, Debug)]
pub enum Verdict {
    Unsat = 0,
    Unknown = 1,
    Spent = 2,
    Full = 3,
}

/// A logged clause with the number of its rule, from 1.
pub struct Logged {
    pub rule: usize,
    pub literals: Vec<Literal>,
}

pub struct Ended {
    pub verdict: Verdict,
    pub table: Vec<Atom>,
    pub log: Vec<Logged>,
    pub decisions: u64,
    pub conflicts: u64,
    /// The set literals in table order.
    pub set: Vec<Literal>,
}

impl Ended {
    /// The record of an answer: which it is, atoms, logged clauses, decisions, conflicts.
    pub fn values(&self) -> [u64; 5] {
        [
            self.verdict as u64,
            self.table.len() as u64,
            self.log.len() as u64,
            self.decisions,
            self.conflicts,
        ]
    }
}
