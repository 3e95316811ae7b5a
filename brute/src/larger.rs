//! Demand 3: a sheet that keeps an UNSAT one's constants, symbols, rules and clauses is never answered
//! UNKNOWN, at whatever budget, and no assignment satisfies it.

use crate::blanks;
use crate::carried::Carried;
use crate::case::Case;
use crate::check::{check, Same};
use crate::ended::Verdict;
use crate::generate::{any_style, random_atom, random_clause, random_rule};
use crate::meaning;
use crate::random::Random;
use crate::reader::{self, ROOM};
use crate::rows::{lines, rows, text, Row};

/// Assignments are enumerated up to so many atoms.
const ATOMS: usize = 14;
/// The share of larger sheets with blank columns, in percent.
const BLANKS: usize = 50;
/// The kinds of the lines that rules stand in, in any order among each other.
const RULES: [i32; 2] = [3, 8];

/// What came of a larger sheet.
#[derive(Default)]
pub struct Outcome {
    pub calls: u64,
    pub enumerated: bool,
    pub other_blanks: bool,
    /// A two-way rule stands at another place among the rules.
    pub two_way_moved: bool,
    pub carried: Carried,
}

/// A sheet that keeps the given accepted one, with more besides, in another order and often with other blank
/// columns. Nothing if it would be refused, at a limit or at a rule that came besides.
pub fn larger(random: &mut Random, sheet: &[u8]) -> Option<Vec<u8>> {
    let first = rows(sheet)?;
    let constants = first[0][1] as usize;
    let more_constants = if random.percent(50) {
        constants
    } else {
        (constants + random.between(1, 2)).min(32)
    };
    let symbols = of_kinds(&first, &[2]);
    let mut arities: Vec<usize> = symbols.iter().map(|row| row[1] as usize).collect();
    for _ in 0..random.below(3) {
        arities.push(random.below(3));
    }
    let (mut rules, mut clauses) = (of_kinds(&first, &RULES), of_kinds(&first, &[4]));
    // The lines count as a set: a line that stands twice may stand once.
    if random.percent(50) {
        once(&mut rules);
        once(&mut clauses);
    }
    let style = any_style(random, more_constants, arities);
    if !style.arities.is_empty() {
        for _ in 0..random.below(4) {
            rules.push(random_rule(random, &style));
        }
        let atoms: Vec<Row> = (0..3)
            .map(|_| random_atom(random, more_constants, &style.arities, &style.heads))
            .collect();
        for _ in 0..random.below(5) {
            clauses.push(random_clause(random, &atoms, 30, 40));
        }
    }
    random.shuffle(&mut rules);
    random.shuffle(&mut clauses);
    let mut second = vec![vec![1, more_constants as i32]];
    second.extend(style.arities.iter().map(|&arity| vec![2, arity as i32]));
    second.extend(rules);
    second.extend(clauses);
    let mut second = text(&second);
    if random.percent(BLANKS) {
        second = blanks::put(random, &second);
    }
    assert!(
        keeps(&first, &rows(&second)?),
        "the larger sheet does not keep the smaller one"
    );
    reader::read(&second, ROOM).is_ok().then_some(second)
}

fn of_kinds(rows: &[Row], kinds: &[i32]) -> Vec<Row> {
    let mut rows = rows.to_vec();
    rows.retain(|row| kinds.contains(&row[0]));
    rows
}

/// Does another line stand, among the rules, at the place of a line of kind 8? All lines are kept, so that one has
/// moved.
fn two_way_moved(first: &[u8], second: &[u8]) -> bool {
    let rules = |sheet| rows(sheet).map(|rows| of_kinds(&rows, &RULES));
    let (Some(first), Some(second)) = (rules(first), rules(second)) else {
        return false;
    };
    let mut pairs = first.iter().zip(&second);
    pairs.any(|(one, other)| one[0] == 8 && one != other)
}

/// Is a line kept, but with other blank columns? All behind the first are kept; then one isn't there in its bytes.
fn other_blanks(first: &[u8], second: &[u8]) -> bool {
    let (first, second) = (lines(first), lines(second));
    first[1..].iter().any(|line| !second.contains(line))
}

fn once(rows: &mut Vec<Row>) {
    let mut kept: Vec<Row> = Vec::new();
    for row in rows.drain(..) {
        if !kept.contains(&row) {
            kept.push(row);
        }
    }
    *rows = kept;
}

/// Does the second sheet keep the first one's constants, symbols, rules and clauses? Of a line only the filled
/// columns count.
fn keeps(first: &[Row], second: &[Row]) -> bool {
    first[0][1] <= second[0][1]
        && of_kinds(second, &[2]).starts_with(&of_kinds(first, &[2]))
        && first
            .iter()
            .filter(|row| row[0] >= 3)
            .all(|row| second.contains(row))
}

/// The larger sheet at several budgets, compared as every call is; and by its assignments if they are few.
pub fn check_larger(
    random: &mut Random,
    first: &[u8],
    second: &[u8],
) -> Result<Outcome, (Case, Vec<String>)> {
    let mut outcome = Outcome {
        other_blanks: other_blanks(first, second),
        two_way_moved: two_way_moved(first, second),
        ..Outcome::default()
    };
    for budget in [0, 1 + random.below(6) as u32, 1_000_000] {
        let case = Case {
            sheet: second.to_vec(),
            budget,
            room: ROOM,
            export: None,
        };
        match check(&case) {
            Err(differences) => return Err((case, differences)),
            Ok(Same::Ended { ended, .. }) if ended.verdict == Verdict::Unknown => {
                return Err((
                    case,
                    vec!["demand 3: UNKNOWN, though the smaller sheet is UNSAT".into()],
                ));
            }
            Ok(Same::Ended { carried, .. }) => {
                outcome.calls += 1;
                outcome.carried.add(&carried);
            }
            Ok(_) => outcome.calls += 1,
        }
    }
    let Ok(problem) = reader::read(second, ROOM) else {
        return Ok(outcome);
    };
    if problem.atom_count() <= ATOMS {
        outcome.enumerated = true;
        if meaning::satisfiable(&problem) {
            let case = Case {
                sheet: second.to_vec(),
                budget: 0,
                room: ROOM,
                export: None,
            };
            return Err((
                case,
                vec![
                    "demand 3: an assignment satisfies it, though the smaller sheet is UNSAT"
                        .into(),
                ],
            ));
        }
    }
    Ok(outcome)
}
