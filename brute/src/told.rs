//! What a listing says, back from its bytes.

use crate::ended::Logged;
use crate::problem::{Atom, Literal};

/// The numbers of a listing's first line: answer, atoms, logged clauses, decisions, conflicts.
pub fn first_line(listing: &[u8]) -> Option<[u64; 5]> {
    let text = std::str::from_utf8(listing).ok()?;
    let words: Vec<&str> = text.split('\n').next()?.split_whitespace().collect();
    let [kind, numbers @ ..] = words.as_slice() else {
        return None;
    };
    if *kind != "5" || numbers.len() != 5 {
        return None;
    }
    let mut values = [0; 5];
    for (value, word) in values.iter_mut().zip(numbers) {
        *value = word.parse().ok()?;
    }
    Some(values)
}

/// The clauses of the lines of kind 6 with their rules' numbers, each with the number of its line.
pub fn logged_clauses(listing: &[u8], arities: &[usize]) -> Option<Vec<(usize, Logged)>> {
    of_kind(listing, 6)?
        .into_iter()
        .map(|(line, columns)| {
            let [rule, count, rest @ ..] = columns.as_slice() else {
                return None;
            };
            let literals = literals(rest, arities)?;
            let rule = usize::try_from(*rule).ok()?;
            (usize::try_from(*count) == Ok(literals.len()))
                .then_some((line, Logged { rule, literals }))
        })
        .collect()
}

/// The literals of the lines of kind 7.
pub fn set_literals(listing: &[u8]) -> Option<Vec<Literal>> {
    of_kind(listing, 7)?
        .into_iter()
        .map(|(_, columns)| literal(&columns))
        .collect()
}

/// The lines of a kind: the number of each, from 1, and the numbers behind its kind.
fn of_kind(listing: &[u8], kind: i64) -> Option<Vec<(usize, Vec<i64>)>> {
    let text = std::str::from_utf8(listing).ok()?;
    let start = format!("{kind:>4}");
    let lines = text.lines().enumerate();
    lines
        .filter(|(_, line)| line.starts_with(&start))
        .map(|(index, line)| {
            let words = line.split_whitespace().skip(1);
            let numbers: Option<Vec<i64>> = words.map(|word| word.parse().ok()).collect();
            Some((index + 1, numbers?))
        })
        .collect()
}

/// Literals one behind the other, each with as many arguments as its symbol has.
fn literals(mut columns: &[i64], arities: &[usize]) -> Option<Vec<Literal>> {
    let mut literals = Vec::new();
    while let Some(&symbol) = columns.first() {
        let arity = arities.get((symbol.unsigned_abs() as usize).checked_sub(1)?)?;
        literals.push(literal(columns.get(..1 + arity)?)?);
        columns = &columns[1 + arity..];
    }
    Some(literals)
}

/// A literal of a signed symbol and its arguments.
fn literal(columns: &[i64]) -> Option<Literal> {
    let (&symbol, arguments) = columns.split_first()?;
    if arguments.len() > 3 {
        return None;
    }
    let mut constants = [0; 3];
    for (constant, &argument) in constants.iter_mut().zip(arguments) {
        *constant = argument as usize;
    }
    let atom = Atom {
        symbol: symbol.unsigned_abs() as usize,
        constants,
    };
    Some(Literal {
        negated: symbol < 0,
        atom,
    })
}
