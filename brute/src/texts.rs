//! Random texts for the reader of DIMACS CNF: well-formed ones within its limits, ones that pass a limit by
//! one, and ones that are damaged afterwards, in bytes, lines, words and counts.

use crate::case::Reading;
use crate::dimacs::{Cnf, ATOMS, CLAUSES, LITERALS};
use crate::random::Random;
use crate::reading;

const BYTES: &[u8] = b"   --+00112579\n\n\r\t\0pcnfx%.";
/// Ways in which no number is to be written, and numbers around the limits.
const WORDS: &[&str] = &[
    "", "-", "--1", "-0", "00", "01", "-01", "+1", "+0", "-+1", "1-", "1.0", "0x1", "1e2", "c",
    "p", "cnf", "%", "8", "9", "255", "256", "257", "-256", "-257", "575", "576", "577", "999",
    "1000",
];
/// Numbers that are 0 or 1 once more where a word's width cuts them, and long ones.
const LARGE: &[&str] = &[
    "65536",
    "65537",
    "-65537",
    "4294967296",
    "4294967297",
    "-4294967297",
    "18446744073709551615",
    "18446744073709551616",
    "18446744073709551617",
    "-18446744073709551617",
    "100000000000000000000000",
    "000000000000000000000001",
    "340282366920938463463374607431768211457",
];
const LINES: &[&str] = &[
    "", " ", "0", "1 0", "-1 0", "c", "c x", "%\n0", "1 0 1 0", "0 0", "1", " 0", "0 ", "0\r",
    "\r", "\0",
];

pub fn reading(random: &mut Random) -> Reading {
    let mut reading = reading::of(text(random));
    if random.percent(6) {
        reading.starts += random.below(40);
        reading.literals += random.below(40);
        reading.places += random.below(4);
    }
    if random.percent(2) {
        let lent = *random.pick(&[0, 1, 2]);
        let length = [
            &mut reading.starts,
            &mut reading.literals,
            &mut reading.places,
        ];
        for (place, length) in length.into_iter().enumerate() {
            if place == lent || random.percent(10) {
                *length = if random.percent(60) {
                    *length - 1
                } else {
                    random.below(*length)
                };
            }
        }
    }
    reading
}

fn text(random: &mut Random) -> Vec<u8> {
    if random.percent(3) {
        return noise(random);
    }
    let mut text = cnf(random).text();
    if random.percent(65) {
        for _ in 0..*random.pick(&[1, 1, 1, 2, 3]) {
            text = damaged(random, &text);
        }
    }
    text
}

/// Clauses within the limits; now and then one of them is passed by one.
fn cnf(random: &mut Random) -> Cnf {
    let large = random.percent(2);
    let atoms = match random.below(20) {
        0 => 0,
        1..=2 => ATOMS,
        3 => ATOMS + 1,
        4..=5 => random.between(90, ATOMS),
        6..=8 => random.between(9, 99),
        _ => random.between(1, 9),
    };
    let count = match random.below(20) {
        _ if large => *random.pick(&[CLAUSES - 1, CLAUSES, CLAUSES, CLAUSES, CLAUSES + 1]),
        0..=1 => 0,
        2 => random.between(8, 101),
        _ => random.between(1, 7),
    };
    let longest = *random.pick(&[1, 3, 3, LITERALS, LITERALS]);
    let beyond = random.percent(3);
    // As many literals as there can be.
    let full = large && random.percent(40);
    let clause = |random: &mut Random| -> Vec<i32> {
        let length = match random.below(50) {
            _ if atoms == 0 => usize::from(beyond),
            0 if beyond => LITERALS + 1,
            _ if full => LITERALS,
            1..=4 => LITERALS,
            _ => random.below(longest + 1),
        };
        (0..length)
            .map(|_| {
                let most = if beyond && random.one_in(1, 8) {
                    atoms + 1
                } else {
                    atoms.max(1)
                };
                let number = random.between(if full { most / 2 + 1 } else { 1 }, most) as i32;
                if full || random.percent(50) {
                    -number
                } else {
                    number
                }
            })
            .collect()
    };
    Cnf {
        atoms,
        clauses: (0..count).map(|_| clause(random)).collect(),
    }
}

fn damaged(random: &mut Random, text: &[u8]) -> Vec<u8> {
    match random.below(10) {
        0..=2 => bytes(random, text),
        3..=5 => lines(random, text),
        6 => counts(random, text),
        _ => words(random, text),
    }
}

fn bytes(random: &mut Random, text: &[u8]) -> Vec<u8> {
    let mut text = text.to_vec();
    let place = random.below(text.len() + 1);
    match random.below(9) {
        0 => text.insert(place, *random.pick(BYTES)),
        1 => text.insert(place, random.below(256) as u8),
        2 => text.truncate(place),
        3 => drop(text.pop()),
        _ if place == text.len() => text.push(*random.pick(BYTES)),
        4 => drop(text.remove(place)),
        5 => text[place] = random.below(256) as u8,
        6 => text[place] ^= 1 << random.below(8),
        7 => text.insert(place, text[place]),
        _ => text[place] = *random.pick(BYTES),
    }
    text
}

fn lines(random: &mut Random, text: &[u8]) -> Vec<u8> {
    let mut lines: Vec<Vec<u8>> = text
        .split_inclusive(|&byte| byte == b'\n')
        .map(<[u8]>::to_vec)
        .collect();
    let mut line = random.pick(LINES).as_bytes().to_vec();
    if random.percent(85) {
        line.push(b'\n');
    }
    if lines.is_empty() {
        return line;
    }
    let (here, there) = (random.below(lines.len()), random.below(lines.len()));
    match random.below(8) {
        0 => drop(lines.remove(here)),
        1 => lines.insert(there, lines[here].clone()),
        2 => lines.swap(here, there),
        3 => lines.insert(here, line),
        4 => lines.push(line),
        5 => lines[here] = line,
        6 => with_return(&mut lines[here]),
        _ => lines.iter_mut().for_each(with_return),
    }
    lines.concat()
}

/// CR before the LF.
fn with_return(line: &mut Vec<u8>) {
    let end = line.len() - 1;
    line.insert(end, b'\r');
}

/// Another word in a line, or other bytes between its words.
fn words(random: &mut Random, text: &[u8]) -> Vec<u8> {
    let mut lines: Vec<Vec<Vec<u8>>> = text
        .split(|&byte| byte == b'\n')
        .map(|line| {
            line.split(|&byte| byte == b' ')
                .map(<[u8]>::to_vec)
                .collect()
        })
        .collect();
    // Half of the time the first line: it has most of what can be wrong.
    let here = match random.below(2) {
        0 => 0,
        _ => random.below(lines.len()),
    };
    let line = &mut lines[here];
    let place = random.below(line.len());
    let word = &mut line[place];
    match random.below(10) {
        0 => word.insert(0, *random.pick(b"0+- \t")),
        1 => word.push(*random.pick(b"0 \t\r.-")),
        2 => word.extend(b"0".repeat(random.between(1, 25))),
        3 => drop(word.splice(0..0, b"0".repeat(random.between(1, 25)))),
        4 => drop(line.remove(place)),
        5 => line.insert(place, line[place].clone()),
        6 => line.insert(place, random.pick(WORDS).as_bytes().to_vec()),
        7 => *word = random.pick(LARGE).as_bytes().to_vec(),
        _ => *word = random.pick(WORDS).as_bytes().to_vec(),
    }
    let lines: Vec<Vec<u8>> = lines.iter().map(|words| words.join(&b' ')).collect();
    lines.join(&b'\n')
}

/// A count in the first line that is one too high or too low.
fn counts(random: &mut Random, text: &[u8]) -> Vec<u8> {
    let end = text.iter().position(|&byte| byte == b'\n');
    let (first, rest) = text.split_at(end.unwrap_or(text.len()));
    let mut words: Vec<String> = String::from_utf8_lossy(first)
        .split(' ')
        .map(str::to_string)
        .collect();
    let place = random.below(words.len());
    if let Ok(count) = words[place].parse::<i64>() {
        words[place] = count.saturating_add(*random.pick(&[-1, 1])).to_string();
    }
    [words.join(" ").as_bytes(), rest].concat()
}

/// Bytes that are hardly a text.
fn noise(random: &mut Random) -> Vec<u8> {
    match random.below(4) {
        0 => Vec::new(),
        1 => (0..random.below(40))
            .map(|_| random.below(256) as u8)
            .collect(),
        2 => (0..random.below(60)).map(|_| *random.pick(BYTES)).collect(),
        _ => {
            let mut text = b"p cnf 2 1\n".to_vec();
            text.extend((0..random.below(12)).map(|_| *random.pick(b"1200  -\n")));
            text
        }
    }
}
