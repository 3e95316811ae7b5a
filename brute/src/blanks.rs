//! Blank columns put into sheets, taken out of them and found in them.

use crate::random::Random;
use crate::reader::{LINE, SHEET};
use crate::rows::lines;

pub const BLANK: &[u8] = b"    ";

/// A sheet with blank columns in some of its lines or in all: before the kind, between columns, behind the last.
/// No line gets longer than 136 bytes by them, so that a sheet that is accepted without them still is.
pub fn put(random: &mut Random, sheet: &[u8]) -> Vec<u8> {
    let share = *random.pick(&[20, 40, 100, 100]);
    let most = *random.pick(&[1, 2, 4, LINE / 4]);
    // Now and then the same columns in every line, as where an order desk lines up its wishes.
    let lined_up: Option<Vec<usize>> = random
        .percent(20)
        .then(|| (0..most.min(4)).map(|_| random.below(8)).collect());
    let mut lines = lines(sheet);
    for line in &mut lines {
        if let Some(places) = &lined_up {
            places.iter().for_each(|&place| put_one(line, place, LINE));
        } else if random.percent(share) {
            let count = random.between(1, most);
            put_some(random, line, count, LINE);
        }
    }
    lines.concat()
}

/// Puts so many blank columns into a line, or as many as there is room for, the two ends as often as between.
pub fn put_some(random: &mut Random, line: &mut Vec<u8>, count: usize, longest: usize) {
    for _ in 0..count {
        let end = text(line).len() / 4;
        let place = match random.below(4) {
            0 => 0,
            1 => end,
            _ => random.below(end + 1),
        };
        put_one(line, place, longest);
    }
}

/// Puts a blank column at this place or, where the line ends before it, behind the last.
pub fn put_one(line: &mut Vec<u8>, place: usize, longest: usize) {
    let length = text(line).len();
    if length + BLANK.len() <= longest {
        let at = 4 * place.min(length / 4);
        line.splice(at..at, BLANK.iter().copied());
    }
}

/// Other bytes with the same filled columns, line by line: no call may tell them from the sheet, whether it is
/// accepted or refused. Nothing where question 2, 4 or 5 is answered no, since these see the blank columns.
pub fn other(random: &mut Random, sheet: &[u8]) -> Option<Vec<u8>> {
    let mut lines = lines(sheet);
    if !sheet.ends_with(b"\n") || !lines.iter().all(|line| has_columns(line)) {
        return None;
    }
    let share = *random.pick(&[0, 50, 100]);
    for line in &mut lines {
        take(line, || random.percent(share));
    }
    let other = put(random, &lines.concat());
    (sheet.len() <= SHEET && other.len() <= SHEET && other != sheet).then_some(other)
}

fn has_columns(line: &[u8]) -> bool {
    let length = text(line).len();
    (4..=LINE).contains(&length) && length % 4 == 0
}

/// Takes blank columns out of a line, each if it is to go, but not the line's only column.
pub fn take(line: &mut Vec<u8>, mut goes: impl FnMut() -> bool) {
    for place in places(line).into_iter().rev() {
        if text(line).len() > BLANK.len() && goes() {
            take_one(line, place);
        }
    }
}

pub fn take_one(line: &mut Vec<u8>, place: usize) {
    line.drain(4 * place..4 * place + 4);
}

/// The places of a line's blank columns, lowest first.
pub fn places(line: &[u8]) -> Vec<usize> {
    let columns: Vec<&[u8]> = text(line).chunks(4).collect();
    (0..columns.len())
        .filter(|&place| columns[place] == BLANK)
        .collect()
}

/// A line without its LF.
pub fn text(line: &[u8]) -> &[u8] {
    line.strip_suffix(b"\n").unwrap_or(line)
}
