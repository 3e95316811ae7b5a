//! Request 9: each logged clause follows from one filling of the rule whose number stands on its line. The clauses are
//! read from the listing's bytes, and fillings and assignments are enumerated; nothing is used of how a search comes to
//! its clauses.

use crate::carried::Carried;
use crate::ended::Logged;
use crate::problem::{Atom, Filling, Literal, Problem, Rule};
use crate::told;

/// A logged clause has at most three negated heads and one body literal. The assignments of a longer one are not begun.
const LITERALS: usize = 4;

/// All logged clauses of a listing. An error names the line of one that does not follow.
pub fn check(listing: &[u8], problem: &Problem) -> Result<Carried, String> {
    let clauses = told::logged_clauses(listing, &problem.arities)
        .ok_or("request 9: a logged clause cannot be read")?;
    let told = told::first_line(listing).map(|values| values[2]);
    if told != Some(clauses.len() as u64) {
        return Err("request 9: the first line tells of other than the logged clauses".into());
    }
    let mut carried = Carried::default();
    for (line, logged) in clauses {
        let followed = of_rule(&logged, problem).ok_or_else(|| {
            let number = logged.rule;
            format!(
                "request 9: line {line} of the listing follows from no filling of rule {number}"
            )
        })?;
        carried.add(&followed);
    }
    Ok(carried)
}

/// A logged clause that follows from a filling of its rule.
fn of_rule(logged: &Logged, problem: &Problem) -> Option<Carried> {
    let rule = problem.rules.get(logged.rule.checked_sub(1)?)?;
    let says_less = follows(&logged.literals, rule, problem)?;
    Some(Carried {
        followed: 1,
        of_two: u64::from(rule.body.len() == 2),
        says_less: u64::from(says_less),
        ..Carried::default()
    })
}

/// Does the clause follow from a filling of the rule? Of the first such filling, whether the clause says less than it.
fn follows(clause: &[Literal], rule: &Rule, problem: &Problem) -> Option<bool> {
    if clause.len() > LITERALS {
        return None;
    }
    // Head by head, so that the first heads have all their constants early.
    let mut variables: Vec<usize> = Vec::new();
    for head in &rule.heads {
        let of_head = (1..=6).filter(|&variable| head.holds_variable(variable));
        let new: Vec<usize> = of_head.filter(|name| !variables.contains(name)).collect();
        variables.extend(new);
    }
    walk(clause, rule, problem, &variables, &mut [0; 7])
}

/// The same with constants for some variables; the others get theirs in every way. An assignment that makes a head
/// false satisfies the filling. So a clause without that head's negation does not follow, unless it always holds, and
/// this part of the walk ends.
fn walk(
    clause: &[Literal],
    rule: &Rule,
    problem: &Problem,
    variables: &[usize],
    filling: &mut Filling,
) -> Option<bool> {
    let always = || {
        clause
            .iter()
            .any(|literal| clause.contains(&literal.negation()))
    };
    for head in &rule.heads {
        let complete = !variables.iter().any(|&name| head.holds_variable(name));
        if complete && !clause.contains(&head.filled(filling).negation()) && !always() {
            return None;
        }
    }
    let Some((&variable, rest)) = variables.split_first() else {
        let [heads, body] = [&rule.heads, &rule.body].map(|patterns| {
            let literals = patterns.iter().map(|pattern| pattern.filled(filling));
            literals.collect::<Vec<Literal>>()
        });
        return tried(&heads, &body, clause);
    };
    (1..=problem.constants).find_map(|constant| {
        filling[variable] = constant;
        walk(clause, rule, problem, rest, filling)
    })
}

/// Every assignment of the atoms at hand: does each that satisfies the filling satisfy the clause? If so, whether one
/// satisfies the clause alone.
fn tried(heads: &[Literal], body: &[Literal], clause: &[Literal]) -> Option<bool> {
    let mut atoms: Vec<Atom> = Vec::new();
    let [heads, body, clause] = [heads, body, clause].map(|literals| {
        let placed = literals.iter().map(|literal| {
            let known = atoms.iter().position(|&atom| atom == literal.atom);
            let place = known.unwrap_or(atoms.len());
            if known.is_none() {
                atoms.push(literal.atom);
            }
            (place, !literal.negated)
        });
        placed.collect::<Vec<(usize, bool)>>()
    });
    let mut says_less = false;
    for assignment in 0..1u32 << atoms.len() {
        let holds = |&(place, sign): &(usize, bool)| (assignment >> place & 1 == 1) == sign;
        // An empty body is false.
        let body_holds = !body.is_empty() && body.iter().all(holds);
        let satisfied = !heads.iter().all(holds) || body_holds;
        let clause_holds = clause.iter().any(holds);
        if satisfied && !clause_holds {
            return None;
        }
        says_less |= clause_holds && !satisfied;
    }
    Some(says_less)
}
