//! A sheet as rows of numbers, the form in which sheets are made, enlarged and made smaller. A row is what
//! the filled columns of a line hold.

use crate::reader::filled;

pub type Row = Vec<i32>;

/// A row as a line: columns of 4 bytes, then LF.
pub fn line(row: &[i32]) -> Vec<u8> {
    let mut text: String = row.iter().map(|number| format!("{number:>4}")).collect();
    text.push('\n');
    text.into_bytes()
}

pub fn text(rows: &[Row]) -> Vec<u8> {
    rows.iter().flat_map(|row| line(row)).collect()
}

/// The lines of a sheet or text as they stand, each with its LF; the last may have none.
pub fn lines(bytes: &[u8]) -> Vec<Vec<u8>> {
    bytes
        .split_inclusive(|&byte| byte == b'\n')
        .map(<[u8]>::to_vec)
        .collect()
}

/// The rows of a sheet, without blank columns, if every line is one of columns.
pub fn rows(sheet: &[u8]) -> Option<Vec<Row>> {
    sheet
        .split_inclusive(|&byte| byte == b'\n')
        .map(|line| match line.split_last() {
            Some((b'\n', text)) if text.len() % 4 == 0 => filled(text),
            _ => None,
        })
        .collect()
}

/// The columns before the literals: the kind and the counts.
pub fn front(row: &[i32]) -> Option<&[i32]> {
    let length = match row.first()? {
        3 => 3,
        8 => 4,
        _ => 2,
    };
    row.get(..length)
}

/// The literals of a rule, two-way rule or clause row as rows of their own, if its columns allow it.
pub fn literals(row: &[i32], arities: &[i32]) -> Option<Vec<Row>> {
    let mut rest = &row[front(row)?.len()..];
    let mut literals = Vec::new();
    while let Some(&symbol) = rest.first() {
        let arity = *arities.get((symbol.unsigned_abs() as usize).checked_sub(1)?)?;
        let length = 1 + usize::try_from(arity).ok()?;
        literals.push(rest.get(..length)?.to_vec());
        rest = &rest[length..];
    }
    Some(literals)
}

pub fn rule(heads: &[Row], body: &[Row]) -> Row {
    let mut row = vec![3, heads.len() as i32, body.len() as i32];
    row.extend(heads.iter().chain(body).flatten());
    row
}

pub fn two_way(kept: &[Row], rewritten: &[Row], body: &[Row]) -> Row {
    let counts = [kept.len(), rewritten.len(), body.len()];
    let mut row = vec![8];
    row.extend(counts.map(|count| count as i32));
    row.extend(kept.iter().chain(rewritten).chain(body).flatten());
    row
}

pub fn clause(literals: &[Row]) -> Row {
    let mut row = vec![4, literals.len() as i32];
    row.extend(literals.iter().flatten());
    row
}

/// A literal with the other sign.
pub fn negated(literal: &Row) -> Row {
    let mut row = literal.clone();
    row[0] = -row[0];
    row
}
