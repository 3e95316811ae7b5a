//! The reader of sheets: questions 1 to 14 of documents 01 and 02, asked in order, with 14 between 12
//! and 13. Blank columns are passed over, so that from 7 on there are filled ones only.

use crate::problem::{Atom, Literal, Pattern, Problem, Rule, RuleLine, Term, TwoWay};

/// The room that question 1 asks for.
pub const ROOM: usize = 45_056;
/// The longest sheet.
pub const SHEET: usize = 16_384;
/// The longest line, LF not counted.
pub const LINE: usize = 136;

/// What the 4 bytes of a column are.
pub enum Column {
    Number(i32),
    /// Blanks alone.
    Nothing,
    Fault,
}

/// The number of the question that was answered no, and the line, from 1; 0 for the call's own questions.
#[derive(Clone, Copy, PartialEq, Eq, Debug)]
pub struct Refusal {
    pub number: u64,
    pub line: u64,
}

pub fn read(sheet: &[u8], room: usize) -> Result<Problem, Refusal> {
    let call = |number| Refusal { number, line: 0 };
    if room < ROOM {
        return Err(call(1));
    }
    if sheet.len() > SHEET {
        return Err(call(2));
    }
    if sheet.is_empty() {
        return Err(call(3));
    }
    let mut problem = Problem::default();
    let mut rank_before = None;
    for (index, line) in sheet.split_inclusive(|&byte| byte == b'\n').enumerate() {
        match read_line(line, rank_before, &mut problem) {
            Ok(rank) => rank_before = Some(rank),
            Err(number) => {
                return Err(Refusal {
                    number,
                    line: index as u64 + 1,
                })
            }
        }
    }
    Ok(problem)
}

/// Questions 4 to 14 of one line. Hands back its kind's rank, or the number of the first no.
fn read_line(line: &[u8], rank_before: Option<i32>, problem: &mut Problem) -> Result<i32, u64> {
    let Some((b'\n', text)) = line.split_last() else {
        return Err(4);
    };
    // Before anything is passed over: a blank column is part of the length.
    if text.len() < 4 || text.len() > LINE || text.len() % 4 != 0 {
        return Err(5);
    }
    let columns = filled(text).ok_or(6u64)?;
    // A line of blanks has no kind, so none that fits.
    let kind = *columns.first().ok_or(7u64)?;
    // Two-way rules stand among the rules, in any order.
    let rank = if kind == 8 { 3 } else { kind };
    let kind_fits = match rank_before {
        None => kind == 1,
        Some(before) => (2..=4).contains(&rank) && rank >= before,
    };
    if !kind_fits {
        return Err(7);
    }
    match kind {
        1 => constants_line(&columns, problem)?,
        2 => symbol_line(&columns, problem)?,
        3 => rule_line(&columns, problem)?,
        8 => two_way_line(&columns, problem)?,
        _ => clause_line(&columns, problem)?,
    }
    Ok(rank)
}

/// The numbers of a line's filled columns, if no column is a fault.
pub fn filled(text: &[u8]) -> Option<Vec<i32>> {
    let mut numbers = Vec::with_capacity(text.len() / 4);
    for bytes in text.chunks(4) {
        match column(bytes) {
            Column::Number(number) => numbers.push(number),
            Column::Nothing => (),
            Column::Fault => return None,
        }
    }
    Some(numbers)
}

/// A decimal right-justified with blanks: no leading zero, no plus, no -0.
pub fn column(bytes: &[u8]) -> Column {
    let blanks = bytes.iter().take_while(|&&byte| byte == b' ').count();
    let (negative, digits) = match &bytes[blanks..] {
        [] => return Column::Nothing,
        [b'-', digits @ ..] => (true, digits),
        digits => (false, digits),
    };
    if digits.is_empty() || !digits.iter().all(u8::is_ascii_digit) {
        return Column::Fault;
    }
    if digits[0] == b'0' && (negative || digits.len() > 1) {
        return Column::Fault;
    }
    let size = digits
        .iter()
        .fold(0, |size, &digit| size * 10 + i32::from(digit - b'0'));
    Column::Number(if negative { -size } else { size })
}

/// Question 8 of one number: is it there and in range?
fn number(columns: &[i32], place: usize, lowest: i32, highest: i32) -> Result<usize, u64> {
    match columns.get(place) {
        Some(&value) if (lowest..=highest).contains(&value) => Ok(value as usize),
        _ => Err(8),
    }
}

fn constants_line(columns: &[i32], problem: &mut Problem) -> Result<(), u64> {
    let constants = number(columns, 1, 1, 32)?;
    if columns.len() > 2 {
        return Err(11);
    }
    problem.constants = constants;
    Ok(())
}

fn symbol_line(columns: &[i32], problem: &mut Problem) -> Result<(), u64> {
    let arity = number(columns, 1, 0, 3)?;
    if problem.arities.len() == 16 {
        return Err(9);
    }
    if columns.len() > 2 {
        return Err(11);
    }
    problem.arities.push(arity);
    Ok(())
}

fn rule_line(columns: &[i32], problem: &mut Problem) -> Result<(), u64> {
    let head_count = number(columns, 1, 1, 3)?;
    let body_count = number(columns, 2, 0, 2)?;
    room_for_rules(1, problem)?;
    let [heads, body] = patterns(columns, 3, [head_count, body_count], problem)?;
    let rule = Rule { heads, body };
    variables_fit(&rule)?;
    problem.add_rule_line(RuleLine::One(rule));
    Ok(())
}

fn two_way_line(columns: &[i32], problem: &mut Problem) -> Result<(), u64> {
    let kept_count = number(columns, 1, 0, 2)?;
    let rewritten_count = number(columns, 2, 1, 2)?;
    let body_count = number(columns, 3, 0, 2)?;
    if kept_count + rewritten_count > 3 || kept_count + body_count > 3 {
        return Err(8);
    }
    // Whether the reverse is there makes no difference here.
    room_for_rules(if body_count > 0 { 2 } else { 1 }, problem)?;
    let counts = [kept_count, rewritten_count, body_count];
    let [kept, rewritten, body] = patterns(columns, 4, counts, problem)?;
    let two_way = TwoWay {
        kept,
        rewritten,
        body,
    };
    variables_fit(&two_way.forward())?;
    problem.add_rule_line(RuleLine::Two(two_way));
    Ok(())
}

/// Question 9 of a line that counts as so many rules.
fn room_for_rules(more: usize, problem: &Problem) -> Result<(), u64> {
    if problem.rules_counted() + more > 32 {
        return Err(9);
    }
    Ok(())
}

/// Questions 10 and 11 of a line whose literals begin at a place: so many of each part.
fn patterns<const PARTS: usize>(
    columns: &[i32],
    mut place: usize,
    counts: [usize; PARTS],
    problem: &Problem,
) -> Result<[Vec<Pattern>; PARTS], u64> {
    let mut parts = [const { Vec::new() }; PARTS];
    for (part, count) in parts.iter_mut().zip(counts) {
        for _ in 0..count {
            part.push(pattern(columns, &mut place, problem)?);
        }
    }
    if place < columns.len() {
        return Err(11);
    }
    Ok(parts)
}

/// Questions 12 and 14.
fn variables_fit(rule: &Rule) -> Result<(), u64> {
    if !rule.range_restricted() {
        return Err(12);
    }
    if !rule.heads_connected() {
        return Err(14);
    }
    Ok(())
}

fn clause_line(columns: &[i32], problem: &mut Problem) -> Result<(), u64> {
    let count = number(columns, 1, 0, 8)?;
    if problem.clauses.len() == 64 {
        return Err(9);
    }
    let mut place = 2;
    let mut clause = Vec::with_capacity(count);
    for _ in 0..count {
        clause.push(ground_literal(columns, &mut place, problem)?);
    }
    if place < columns.len() {
        return Err(11);
    }
    problem.add_clause(clause);
    if problem.goal_atoms.len() > 64 {
        return Err(13);
    }
    Ok(())
}

/// The next column; a missing one is a no to question 10.
fn next(columns: &[i32], place: &mut usize) -> Result<i32, u64> {
    let value = *columns.get(*place).ok_or(10u64)?;
    *place += 1;
    Ok(value)
}

/// The sign and the number of a declared symbol.
fn symbol(columns: &[i32], place: &mut usize, problem: &Problem) -> Result<(bool, usize), u64> {
    let value = next(columns, place)?;
    let symbol = value.unsigned_abs() as usize;
    if symbol == 0 || symbol > problem.arities.len() {
        return Err(10);
    }
    Ok((value < 0, symbol))
}

fn pattern(columns: &[i32], place: &mut usize, problem: &Problem) -> Result<Pattern, u64> {
    let (negated, symbol) = symbol(columns, place, problem)?;
    let mut terms = Vec::new();
    for _ in 0..problem.arities[symbol - 1] {
        let value = next(columns, place)?;
        terms.push(match value {
            1..=6 => Term::Variable(value as usize),
            _ if value < 0 && -value as usize <= problem.constants => {
                Term::Constant(-value as usize)
            }
            _ => return Err(10),
        });
    }
    Ok(Pattern {
        negated,
        symbol,
        terms,
    })
}

fn ground_literal(columns: &[i32], place: &mut usize, problem: &Problem) -> Result<Literal, u64> {
    let (negated, symbol) = symbol(columns, place, problem)?;
    let mut constants = [0; 3];
    for constant in &mut constants[..problem.arities[symbol - 1]] {
        let value = next(columns, place)?;
        if value < 1 || value as usize > problem.constants {
            return Err(10);
        }
        *constant = value as usize;
    }
    Ok(Literal {
        negated,
        atom: Atom { symbol, constants },
    })
}
