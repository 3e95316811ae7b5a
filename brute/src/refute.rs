//! Decides a DIMACS CNF text by a small search of its own. Request 9: what is answered UNSAT has to be refuted by
//! whoever has the text alone. So nothing here is shared with the rest of the brute force, and nothing is known of
//! sheets and rules; `brute/run --refute` is this file with its input and output.

/// What a text comes to.
#[derive(Clone, Copy, PartialEq, Eq, Debug)]
pub enum Decided {
    Satisfiable,
    /// After so many decisions; with none by units alone.
    Unsatisfiable {
        decisions: u64,
    },
    TooLarge,
}

/// Clauses over atoms that are numbered from 1; the number of a negated one is negative.
struct Text {
    atoms: usize,
    clauses: Vec<Vec<i32>>,
}

/// Decides a text, or gives up where it looks at more clauses than `effort`. Nothing if it is no such text.
pub fn decide(text: &[u8], effort: u64) -> Option<Decided> {
    let text = read(text)?;
    let holders = holders(&text);
    let search = Search {
        clauses: &text.clauses,
        holders: &holders,
        values: vec![None; text.atoms + 1],
        trail: Vec::new(),
        done: 0,
        decisions: 0,
        effort,
    };
    Some(search.run())
}

/// The header, and then numbers of which 0 ends a clause, however they are put on lines. A line with c in front is a
/// comment. A literal that stands twice in a clause is taken once.
fn read(text: &[u8]) -> Option<Text> {
    let text = std::str::from_utf8(text).ok()?;
    let lines = text.lines().filter(|line| !line.starts_with('c'));
    let mut words = lines.flat_map(str::split_whitespace);
    if [words.next()?, words.next()?] != ["p", "cnf"] {
        return None;
    }
    let atoms: usize = words.next()?.parse().ok()?;
    let count: usize = words.next()?.parse().ok()?;
    let mut clauses = Vec::new();
    let mut clause = Vec::new();
    for word in words {
        let number: i32 = word.parse().ok()?;
        if number.unsigned_abs() as usize > atoms {
            return None;
        }
        if number == 0 {
            clauses.push(std::mem::take(&mut clause));
        } else if !clause.contains(&number) {
            clause.push(number);
        }
    }
    (clause.is_empty() && clauses.len() == count).then_some(Text { atoms, clauses })
}

/// The place of a literal among all literals.
fn place(literal: i32) -> usize {
    2 * literal.unsigned_abs() as usize + usize::from(literal < 0)
}

/// The clauses that hold a literal, by its place.
fn holders(text: &Text) -> Vec<Vec<usize>> {
    let mut holders = vec![Vec::new(); 2 * text.atoms + 2];
    for (index, clause) in text.clauses.iter().enumerate() {
        for &literal in clause {
            holders[place(literal)].push(index);
        }
    }
    holders
}

/// A literal that became true.
struct Setting {
    literal: i32,
    decided: bool,
}

struct Search<'a> {
    clauses: &'a [Vec<i32>],
    holders: &'a [Vec<usize>],
    /// By atom; place 0 is not used.
    values: Vec<Option<bool>>,
    trail: Vec<Setting>,
    /// How many entries of the trail have had the clauses looked at that hold the other sign.
    done: usize,
    decisions: u64,
    /// Clauses that may still be looked at.
    effort: u64,
}

impl Search<'_> {
    /// Units as far as they go, then the first unset atom, true before false.
    fn run(mut self) -> Decided {
        // Nothing is decided yet, so a clause that can't hold ends it.
        if !(0..self.clauses.len()).all(|clause| self.look_at(clause)) {
            return Decided::Unsatisfiable { decisions: 0 };
        }
        loop {
            let can_hold = self.units();
            if self.effort == 0 {
                return Decided::TooLarge;
            }
            if can_hold {
                let atoms = 1..self.values.len();
                match atoms.into_iter().find(|&atom| self.values[atom].is_none()) {
                    None => return Decided::Satisfiable,
                    Some(atom) => {
                        self.decisions += 1;
                        self.set(atom as i32, true);
                    }
                }
            } else if !self.turn_back() {
                return Decided::Unsatisfiable {
                    decisions: self.decisions,
                };
            }
        }
    }

    /// Looks at each clause in which a literal became false. Can all of them hold?
    fn units(&mut self) -> bool {
        let holders = self.holders;
        while let Some(setting) = self.trail.get(self.done) {
            let falsified = place(-setting.literal);
            self.done += 1;
            if !holders[falsified]
                .iter()
                .all(|&clause| self.look_at(clause))
            {
                return false;
            }
        }
        true
    }

    /// Can a clause still hold? Where a single literal is left for that, it becomes true.
    fn look_at(&mut self, clause: usize) -> bool {
        self.effort = self.effort.saturating_sub(1);
        let mut left = None;
        for &literal in &self.clauses[clause] {
            match self.values[literal.unsigned_abs() as usize] {
                Some(value) if value == (literal > 0) => return true,
                Some(_) => (),
                None if left.is_some() => return true,
                None => left = Some(literal),
            }
        }
        if let Some(literal) = left {
            self.set(literal, false);
        }
        left.is_some()
    }

    fn set(&mut self, literal: i32, decided: bool) {
        self.values[literal.unsigned_abs() as usize] = Some(literal > 0);
        self.trail.push(Setting { literal, decided });
    }

    /// Undoes all down to the latest decision and takes the other sign of that one; tells whether there was one.
    fn turn_back(&mut self) -> bool {
        while let Some(Setting { literal, decided }) = self.trail.pop() {
            self.values[literal.unsigned_abs() as usize] = None;
            if decided {
                self.done = self.trail.len();
                self.set(-literal, false);
                return true;
            }
        }
        false
    }
}
