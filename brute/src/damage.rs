//! Damage to a sheet: to single bytes, to lines, to its columns, by blanks, and to its two-way rules.

use crate::blanks::{put_some, text, BLANK};
use crate::random::Random;
use crate::reader::{column, Column, LINE};
use crate::rows;

const BYTES: &[u8] = b"  --+0011223456789\n\r\t\0x";
const COLUMNS: &[&[u8]] = &[
    b"   -", b"  -0", b" -00", b"  +1", b"  01", b" 001", b"0001", b"1   ", b" 1  ", b"1 1 ",
    b"  1 ", b"   \t", b"   \0", b"   x", b"    ", b"- 1 ", b" - 1", b"--1 ", b"  1-", b"1.00",
    b"\r  1", b"   \xB2", b"\x1F   ", b"   !",
];
const NUMBERS: &[i32] = &[
    0, 1, 2, 3, 4, 5, 6, 7, 8, 9, 10, 16, 17, 32, 33, 64, 65, 999, 9999, -1, -2, -3, -4, -33, -999,
];

/// Counts of a two-way rule that are in range, though a sum of them is not.
const SUMS: &[[i32; 3]] = &[[2, 2, 0], [2, 2, 1], [2, 2, 2], [2, 1, 2]];

pub fn damaged(random: &mut Random, sheet: &[u8]) -> Vec<u8> {
    match random.below(12) {
        0..=2 => bytes(random, sheet),
        3..=4 => lines(random, sheet),
        5 => blanks(random, sheet),
        6..=7 => two_way(random, sheet).unwrap_or_else(|| bytes(random, sheet)),
        _ => columns(random, sheet).unwrap_or_else(|| bytes(random, sheet)),
    }
}

fn bytes(random: &mut Random, sheet: &[u8]) -> Vec<u8> {
    let mut sheet = sheet.to_vec();
    let place = random.below(sheet.len() + 1);
    match random.below(8) {
        0 => sheet.insert(place, *random.pick(BYTES)),
        1 => sheet.insert(place, random.below(256) as u8),
        2 => sheet.truncate(place),
        3 => drop(sheet.pop()),
        _ if place == sheet.len() => sheet.extend(b"    "),
        4 => drop(sheet.remove(place)),
        5 => sheet[place] = random.below(256) as u8,
        6 => sheet[place] ^= 1 << random.below(8),
        _ => sheet[place] = *random.pick(BYTES),
    }
    sheet
}

fn lines(random: &mut Random, sheet: &[u8]) -> Vec<u8> {
    let mut lines = rows::lines(sheet);
    if lines.is_empty() {
        return b"\n".to_vec();
    }
    let (here, there) = (random.below(lines.len()), random.below(lines.len()));
    match random.below(7) {
        0 => drop(lines.remove(here)),
        1 => lines.insert(there, lines[here].clone()),
        2 => lines.swap(here, there),
        3 => lines.insert(here, b"\n".to_vec()),
        4 => {
            let end = lines[here].len() - 1;
            lines[here].insert(end, b'\r');
        }
        5 => lines.push(b"   1   2\n".to_vec()),
        _ => {
            // A column that is no number, over an existing one or behind the line.
            let place = 4 * random.below(lines[here].len() / 4 + 1);
            let end = (place + 4).min(lines[here].len() - 1);
            lines[here].splice(place.min(end)..end, random.pick(COLUMNS).iter().copied());
        }
    }
    lines.concat()
}

/// Lines of blanks, lines filled with blank columns up to the longest that there may be or to one more, and blanks
/// beside the columns.
fn blanks(random: &mut Random, sheet: &[u8]) -> Vec<u8> {
    let mut lines = rows::lines(sheet);
    let here = random.below(lines.len() + 1);
    if here == lines.len() || random.percent(20) {
        let mut line = BLANK.repeat(random.between(1, LINE / 4 + 1));
        line.push(b'\n');
        lines.insert(here, line);
        return lines.concat();
    }
    let line = &mut lines[here];
    let length = text(line).len();
    match random.below(4) {
        0 => line[..length].fill(b' '),
        1 => {
            let longest = *random.pick(&[LINE, LINE + 4]);
            put_some(random, line, LINE, longest);
        }
        2 => put_blanks(random, line, 4),
        _ => {
            let part = random.between(1, 3);
            put_blanks(random, line, part);
            put_blanks(random, line, 4 - part);
        }
    }
    lines.concat()
}

/// Puts blanks at any byte of a line.
fn put_blanks(random: &mut Random, line: &mut Vec<u8>, count: usize) {
    let at = random.below(text(line).len() + 1);
    line.splice(at..at, vec![b' '; count]);
}

/// Damage to the columns of one line, blank ones among them; nothing if it is no line of columns.
fn columns(random: &mut Random, sheet: &[u8]) -> Option<Vec<u8>> {
    let mut lines = rows::lines(sheet);
    let here = random.below(lines.len().max(1));
    let text = text(lines.get(here)?);
    let length = text.len();
    if length % 4 != 0 {
        return None;
    }
    let mut columns: Vec<Vec<u8>> = text.chunks(4).map(<[u8]>::to_vec).collect();
    let new = if random.percent(15) {
        BLANK.to_vec()
    } else {
        number(*random.pick(NUMBERS))
    };
    let place = random.below(columns.len() + 1);
    match random.below(6) {
        0 => columns.insert(place, new),
        1 => columns.push(new),
        2 => drop(columns.pop()),
        3 if place < columns.len() => drop(columns.remove(place)),
        4 => count_off(random, &mut columns),
        _ if place < columns.len() => columns[place] = new,
        _ => columns.push(new),
    }
    lines[here].splice(..length, columns.concat());
    Some(lines.concat())
}

/// Damage to one line of kind 8, or to a rule that becomes one: other counts, another kind, another order of lines.
/// Nothing if there is none.
fn two_way(random: &mut Random, sheet: &[u8]) -> Option<Vec<u8>> {
    let mut lines = rows::lines(sheet);
    let rules: Vec<usize> = (0..lines.len())
        .filter(|&place| [Some(3), Some(8)].contains(&kind(&lines[place])))
        .collect();
    let two_ways: Vec<usize> = rules
        .iter()
        .copied()
        .filter(|&place| kind(&lines[place]) == Some(8))
        .collect();
    if two_ways.is_empty() || random.percent(10) {
        let here = *rules.get(random.below(rules.len().max(1)))?;
        put_numbers(&mut lines[here], 0, &[8]);
        return Some(lines.concat());
    }
    let here = *random.pick(&two_ways);
    match random.below(8) {
        0 => put_numbers(&mut lines[here], 0, &[3]),
        1 => {
            let line = lines.remove(here);
            lines.push(line);
        }
        2 => lines.insert(here + 1, b"   2   1\n".to_vec()),
        3..=4 => put_numbers(&mut lines[here], 1, &random.pick(SUMS)[..]),
        5 => put_numbers(
            &mut lines[here],
            1,
            &[0; 3].map(|_| random.below(5) as i32 - 1),
        ),
        _ => {
            let place = random.between(1, 3);
            put_numbers(&mut lines[here], place, &[*random.pick(&[-1, 0, 1, 2, 3])]);
        }
    }
    Some(lines.concat())
}

fn kind(line: &[u8]) -> Option<i32> {
    let columns: Vec<&[u8]> = text(line).chunks_exact(4).collect();
    numbers(&columns).first().map(|&(_, kind)| kind)
}

/// Writes numbers over the filled columns from a place on, as many as there are.
fn put_numbers(line: &mut [u8], from: usize, new: &[i32]) {
    let columns: Vec<&[u8]> = text(line).chunks_exact(4).collect();
    let old = numbers(&columns);
    for (&(place, _), &value) in old.iter().skip(from).zip(new) {
        line[4 * place..4 * place + 4].copy_from_slice(&number(value));
    }
}

/// The places and numbers of the filled columns that hold one.
fn numbers(columns: &[impl AsRef<[u8]>]) -> Vec<(usize, i32)> {
    let number = |(place, bytes): (usize, _)| match column(AsRef::as_ref(bytes)) {
        Column::Number(value) => Some((place, value)),
        _ => None,
    };
    columns.iter().enumerate().filter_map(number).collect()
}

fn number(value: i32) -> Vec<u8> {
    format!("{value:>4}").into_bytes()
}

/// One more or one less of what the line counts: one of the first numbers behind the kind.
fn count_off(random: &mut Random, columns: &mut [Vec<u8>]) {
    let numbers = numbers(columns);
    let counts = match numbers.first() {
        Some((_, 8)) => 3,
        _ => 2,
    };
    if numbers.len() > 1 {
        let (place, value) = numbers[1 + random.below(counts.min(numbers.len() - 1))];
        columns[place] = number(value + *random.pick(&[-1, 1]));
    }
}
