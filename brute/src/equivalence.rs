//! What request 7 shows of two-way rules, tried on sheets with few atoms: an assignment that makes one hold as an
//! equivalence satisfies every filling of the rules that it stands for, and the other way too where the reverse is
//! among them or the body is empty. The equivalence is read from the sheet's columns; nothing of what turns a line
//! into rules is used for it.

use crate::meaning::all_fillings;
use crate::problem::{Atom, Literal, Problem, Rule};
use crate::rows::{literals, rows, Row};

/// Assignments are enumerated up to so many atoms.
const ATOMS: usize = 12;

/// Literals that are to hold: the place of each one's atom, and whether that is to be true.
type Literals = Vec<(usize, bool)>;

#[derive(Default)]
pub struct Outcome {
    /// The two-way rules that were tried.
    pub tried: u64,
    /// Those whose rules an assignment satisfies that does not make the equivalence hold.
    pub says_more: u64,
}

/// All two-way rules of an accepted sheet on every assignment. An error names one that is not as it should be.
pub fn check(sheet: &[u8], problem: &Problem) -> Result<Outcome, String> {
    let mut outcome = Outcome::default();
    if problem.atom_count() > ATOMS {
        return Ok(outcome);
    }
    let mut lines = rows(sheet).unwrap_or_default();
    lines.retain(|row| [3, 8].contains(&row[0]));
    for (row, line) in lines.iter().zip(&problem.rule_lines) {
        if row[0] == 8 {
            outcome.tried += 1;
            outcome.says_more += u64::from(says_more(row, &line.rules(), problem)?);
        }
    }
    Ok(outcome)
}

/// Does a two-way rule say more than the rules that it stands for? It may where the reverse is missing.
fn says_more(row: &Row, rules: &[Rule], problem: &Problem) -> Result<bool, String> {
    let equivalences = equivalences(row, problem).ok_or("a two-way rule that cannot be read")?;
    let fillings: Vec<[Literals; 2]> = rules
        .iter()
        .flat_map(|rule| rule_fillings(rule, problem))
        .collect();
    let may_say_more = rules.len() == 1 && row[3] > 0;
    let mut more = false;
    for assignment in 0..1u32 << problem.atom_count() {
        let all_hold = |literals: &Literals| {
            literals
                .iter()
                .all(|&(place, sign)| (assignment >> place & 1 == 1) == sign)
        };
        let body_holds = |body: &Literals| !body.is_empty() && all_hold(body);
        let equivalent = equivalences.iter().all(|[kept, rewritten, body]| {
            !all_hold(kept) || all_hold(rewritten) == body_holds(body)
        });
        let satisfied = fillings
            .iter()
            .all(|[heads, body]| !all_hold(heads) || body_holds(body));
        more |= satisfied && !equivalent;
        if equivalent && !satisfied || more && !may_say_more {
            return Err(format!(
                "request 7: with assignment {assignment:b} the equivalence {row:?} and its rules come apart"
            ));
        }
    }
    Ok(more)
}

/// Every filling of a line of kind 8: kept heads, rewritten heads, body.
fn equivalences(row: &Row, problem: &Problem) -> Option<Vec<[Literals; 3]>> {
    let arities: Vec<i32> = problem.arities.iter().map(|&arity| arity as i32).collect();
    let all = literals(row, &arities)?;
    let mut names: Vec<i32> = all
        .iter()
        .flat_map(|literal| &literal[1..])
        .copied()
        .collect();
    names.retain(|&term| term > 0);
    names.sort();
    names.dedup();
    let (kept, rewritten) = (row[1] as usize, row[2] as usize);
    let count = problem.constants.pow(names.len() as u32);
    let filling = |mut number: usize| {
        let mut filled = all.clone();
        for &name in &names {
            let constant = (number % problem.constants + 1) as i32;
            number /= problem.constants;
            for term in filled.iter_mut().flat_map(|literal| &mut literal[1..]) {
                // A constant is negative until all names are gone.
                if *term == name {
                    *term = -constant;
                }
            }
        }
        let mut rest: Literals = filled.iter().map(|row| of_row(row, problem)).collect();
        let body = rest.split_off(kept + rewritten);
        let rewritten = rest.split_off(kept);
        [rest, rewritten, body]
    };
    Some((0..count).map(filling).collect())
}

fn of_row(row: &Row, problem: &Problem) -> (usize, bool) {
    let mut constants = [0; 3];
    for (constant, &term) in constants.iter_mut().zip(&row[1..]) {
        *constant = term.unsigned_abs() as usize;
    }
    let symbol = row[0].unsigned_abs() as usize;
    (problem.code(Atom { symbol, constants }), row[0] > 0)
}

/// Every filling of a rule: heads, body.
fn rule_fillings(rule: &Rule, problem: &Problem) -> Vec<[Literals; 2]> {
    let of_literal = |literal: Literal| (problem.code(literal.atom), !literal.negated);
    all_fillings(problem, &rule.variables())
        .iter()
        .map(|filling| {
            [&rule.heads, &rule.body].map(|patterns| {
                patterns
                    .iter()
                    .map(|pattern| of_literal(pattern.filled(filling)))
                    .collect()
            })
        })
        .collect()
}
