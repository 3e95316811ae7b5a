//! A case that shows a difference is made smaller: without lines, blank columns, literals, symbols, constants,
//! bytes, and with a smaller budget, as long as it still shows one. So is a text, without lines and bytes.

use crate::blanks;
use crate::case::{Case, Reading};
use crate::check::check;
use crate::export::EXPORT;
use crate::reader::ROOM;
use crate::reading;
use crate::rows::{clause, front, line, lines, literals, rows, rule, two_way, Row};
use std::time::{Duration, Instant};

/// A sheet near the limits of the search may take long; the smallest one so far has to do then.
const PATIENCE: Duration = Duration::from_secs(20);

pub fn shrink(case: &Case) -> Case {
    smallest(case, candidates, |candidate| check(candidate).is_err())
}

pub fn shrink_text(reading: &Reading) -> Reading {
    smallest(reading, smaller_texts, |candidate| {
        reading::check(candidate).is_err()
    })
}

/// Takes the first smaller one that still differs, for as long as there is one.
fn smallest<T: Clone>(
    first: &T,
    candidates: impl Fn(&T) -> Vec<T>,
    differs: impl Fn(&T) -> bool,
) -> T {
    let began = Instant::now();
    let mut smallest = first.clone();
    let still_differs = |candidate: &T| began.elapsed() < PATIENCE && differs(candidate);
    while let Some(smaller) = candidates(&smallest).into_iter().find(still_differs) {
        smallest = smaller;
    }
    smallest
}

/// Smaller cases, the boldest first. Each is smaller by length, then by budget, then by its numbers, so
/// that shrinking ends.
fn candidates(case: &Case) -> Vec<Case> {
    let mut all = Vec::new();
    let with_sheet = |sheet: Vec<u8>| Case {
        sheet,
        ..case.clone()
    };
    if case.export.is_some() {
        all.push(Case {
            export: None,
            ..case.clone()
        });
    }
    for part in [32, 8, 4, 2, 1] {
        all.extend(without_lines(&case.sheet, part).into_iter().map(with_sheet));
    }
    if case.export.is_some_and(|export| export > EXPORT) {
        all.push(Case {
            export: Some(EXPORT),
            ..case.clone()
        });
    }
    if case.room > ROOM {
        all.push(Case {
            room: ROOM,
            ..case.clone()
        });
    }
    for budget in [0, case.budget / 2, case.budget.saturating_sub(1)] {
        if budget < case.budget {
            all.push(Case {
                budget,
                ..case.clone()
            });
        }
    }
    all.extend(without_blanks(&case.sheet).into_iter().map(with_sheet));
    match rows(&case.sheet) {
        Some(rows) if !rows.is_empty() && rows.iter().all(|row| !row.is_empty()) => {
            let lines = lines(&case.sheet);
            all.extend(
                simpler_rows(&rows)
                    .iter()
                    .map(|rows| with_sheet(with_blanks_of(&lines, rows))),
            );
        }
        _ => {
            all.extend(without_parts(&case.sheet).into_iter().map(with_sheet));
        }
    }
    all
}

/// Shorter texts, with the count of clauses that fits and without.
fn smaller_texts(reading: &Reading) -> Vec<Reading> {
    let text = &reading.text;
    let mut all: Vec<Vec<u8>> = Vec::new();
    for part in [128, 32, 8, 2, 1] {
        let shorter = without_lines(text, part);
        all.extend(shorter.iter().map(|shorter| counted(shorter)));
        all.extend(shorter);
    }
    all.extend(without_parts(text));
    all.retain(|shorter| shorter.len() < text.len());
    all.into_iter()
        .map(|text| Reading {
            text,
            ..reading.clone()
        })
        .collect()
}

/// A text with a first line that counts the lines behind it.
fn counted(text: &[u8]) -> Vec<u8> {
    let mut lines = lines(text);
    let count = lines.len().saturating_sub(1);
    if let Some(first) = lines.first_mut() {
        if let Some(blank) = first.iter().rposition(|&byte| byte == b' ') {
            first.truncate(blank + 1);
            first.extend(format!("{count}\n").bytes());
        }
    }
    lines.concat()
}

/// Without each part, the largest first; small parts only of what is small already, since each is a copy.
fn without_parts(bytes: &[u8]) -> Vec<Vec<u8>> {
    let parts = [4096, 512, 64, 16, 4, 1];
    parts
        .into_iter()
        .filter(|part| bytes.len() / part < 512)
        .flat_map(|part| without_bytes(bytes, part))
        .collect()
}

fn without_lines(text: &[u8], part: usize) -> Vec<Vec<u8>> {
    let lines: Vec<&[u8]> = text.split_inclusive(|&byte| byte == b'\n').collect();
    let mut all = Vec::new();
    for from in (0..lines.len()).step_by(part) {
        let to = (from + part).min(lines.len());
        all.push([&lines[..from], &lines[to..]].concat().concat());
    }
    all
}

fn without_bytes(bytes: &[u8], part: usize) -> Vec<Vec<u8>> {
    let mut all = Vec::new();
    for from in (0..bytes.len()).step_by(part) {
        let to = (from + part).min(bytes.len());
        all.push([&bytes[..from], &bytes[to..]].concat());
    }
    all
}

/// Without all blank columns, then without those of a line, then without each.
fn without_blanks(sheet: &[u8]) -> Vec<Vec<u8>> {
    let lines = lines(sheet);
    let mut bare = lines.clone();
    bare.iter_mut().for_each(|line| blanks::take(line, || true));
    let mut all = vec![bare.concat()];
    let with_line = |index: usize, line: Vec<u8>| {
        let mut lines = lines.clone();
        lines[index] = line;
        lines.concat()
    };
    for (index, line) in bare.into_iter().enumerate() {
        all.push(with_line(index, line));
    }
    for (index, line) in lines.iter().enumerate() {
        for place in blanks::places(line) {
            let mut line = line.clone();
            blanks::take_one(&mut line, place);
            all.push(with_line(index, line));
        }
    }
    all.retain(|shorter| shorter.len() < sheet.len());
    all
}

/// Rows as a sheet, each with the blank columns that stood in its line; an empty row is none.
fn with_blanks_of(lines: &[Vec<u8>], rows: &[Row]) -> Vec<u8> {
    let mut sheet = Vec::new();
    for (old, row) in lines.iter().zip(rows).filter(|(_, row)| !row.is_empty()) {
        let mut line = line(row);
        for place in blanks::places(old) {
            blanks::put_one(&mut line, place, usize::MAX);
        }
        sheet.extend(line);
    }
    sheet
}

fn simpler_rows(rows: &[Row]) -> Vec<Vec<Row>> {
    let mut all = Vec::new();
    let with_row = |index: usize, row: Row| {
        let mut rows = rows.to_vec();
        rows[index] = row;
        rows
    };
    let arities: Vec<i32> = rows
        .iter()
        .filter(|row| row[0] == 2 && row.len() > 1)
        .map(|row| row[1])
        .collect();
    for (index, row) in rows.iter().enumerate() {
        all.extend(
            without_literal(row, &arities)
                .into_iter()
                .map(|row| with_row(index, row)),
        );
    }
    for symbol in 1..=arities.len() {
        all.extend(without_symbol(rows, &arities, symbol as i32));
    }
    if rows[0].len() > 1 && rows[0][1] > 1 {
        all.push(with_row(0, vec![1, rows[0][1] - 1]));
    }
    // Constants become lower, variables too, numbers come nearer to 0, one column at a time.
    for (index, row) in rows.iter().enumerate() {
        for place in 1..row.len() {
            let lower = match row[place] {
                -1..=1 => continue,
                number => number - number.signum(),
            };
            let mut row = row.clone();
            row[place] = lower;
            all.push(with_row(index, row));
        }
    }
    all
}

/// A rule, two-way rule or clause less one of its literals, with the counts that fit; of a two-way rule also each
/// of its readings, as a rule.
fn without_literal(row: &[i32], arities: &[i32]) -> Vec<Row> {
    let (Some(all), Some(front)) = (literals(row, arities), front(row)) else {
        return Vec::new();
    };
    if !matches!(row[0], 3 | 4 | 8) {
        return Vec::new();
    }
    let parts = split(&all, &front[1..]);
    let mut smaller = Vec::new();
    if let [kept, rewritten, body] = &parts[..] {
        smaller.push(rule(&[&kept[..], rewritten].concat(), body));
        smaller.push(rule(&[&kept[..], body].concat(), rewritten));
    }
    for part in 0..parts.len() {
        for place in 0..parts[part].len() {
            let mut rest = parts.clone();
            rest[part].remove(place);
            smaller.push(match &rest[..] {
                [kept, rewritten, body] => two_way(kept, rewritten, body),
                [heads, body] => rule(heads, body),
                _ => clause(&rest.concat()),
            });
        }
    }
    smaller
}

/// The literals in parts of so many, as far as there are any; what is left over is in the last part.
fn split(literals: &[Row], counts: &[i32]) -> Vec<Vec<Row>> {
    let mut rest = literals.iter().cloned();
    let mut parts: Vec<Vec<Row>> = counts
        .iter()
        .map(|&count| rest.by_ref().take(count.max(0) as usize).collect())
        .collect();
    if let Some(last) = parts.last_mut() {
        last.extend(rest);
    }
    parts
}

/// The sheet without a symbol that no literal uses, the later ones renumbered. Its row becomes an empty one.
fn without_symbol(rows: &[Row], arities: &[i32], symbol: i32) -> Option<Vec<Row>> {
    let mut smaller = Vec::new();
    let mut seen = 0;
    for row in rows {
        match row[0] {
            2 => {
                seen += 1;
                smaller.push(if seen == symbol {
                    Row::new()
                } else {
                    row.clone()
                });
            }
            3 | 4 | 8 => {
                let mut all = literals(row, arities)?;
                if all.iter().any(|literal| literal[0].abs() == symbol) {
                    return None;
                }
                for literal in &mut all {
                    if literal[0].abs() > symbol {
                        literal[0] -= literal[0].signum();
                    }
                }
                let mut row = front(row)?.to_vec();
                row.extend(all.into_iter().flatten());
                smaller.push(row);
            }
            _ => smaller.push(row.clone()),
        }
    }
    Some(smaller)
}
