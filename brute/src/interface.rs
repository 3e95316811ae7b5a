//! The library's calls. What is lent comes from the middle of larger buffers filled with a pattern, so that
//! every value that a call changes, inside or outside, can be seen.

use crate::case::{Case, Reading};
use crate::watch;

include!("../../include/thunyaworm.rs");

/// Values before and behind the lent ones, not lent.
const MARGIN: usize = 64;
/// Places for values that are lent, more than an answer takes.
const VALUES: usize = 8;

/// A lent buffer with what it held before.
#[derive(PartialEq)]
pub struct Lent<T> {
    before: Vec<T>,
    values: Vec<T>,
    length: usize,
}

pub type Room = Lent<u8>;

impl<T: Copy + PartialEq> Lent<T> {
    fn new(length: usize, pattern: impl Fn(usize) -> T) -> Lent<T> {
        let before: Vec<T> = (0..length + 2 * MARGIN).map(pattern).collect();
        Lent {
            values: before.clone(),
            before,
            length,
        }
    }

    fn lent(&mut self) -> &mut [T] {
        &mut self.values[MARGIN..MARGIN + self.length]
    }

    /// The first values that were lent.
    pub fn front(&self, count: usize) -> &[T] {
        &self.values[MARGIN..MARGIN + count.min(self.length)]
    }

    /// Is every value as it was, but for the first `count` of the lent ones?
    pub fn unchanged_behind(&self, count: usize) -> bool {
        let front = MARGIN + count.min(self.length);
        self.values[..MARGIN] == self.before[..MARGIN]
            && self.values[front..] == self.before[front..]
    }
}

/// With `inverted` each byte of the pattern is another, so that a byte that is written can hide behind its
/// pattern in one call at most.
fn room(length: usize, inverted: bool) -> Room {
    let mask = if inverted { 0xFF } else { 0 };
    Lent::new(length, |place| (place * 167 + 13) as u8 ^ mask)
}

fn numbers(length: usize) -> Lent<u16> {
    Lent::new(length, |place| (place * 40_503 + 25_931) as u16)
}

fn places(length: usize) -> Lent<u64> {
    Lent::new(length, |_| 0xA5C3_0F96_5A3C_F069)
}

/// What the first call hands back.
#[derive(PartialEq)]
pub struct Solved {
    pub values: Vec<u64>,
    /// Are the places behind the values as they were?
    pub rest_unchanged: bool,
    pub room: Room,
}

/// What the second call hands back, and the one for what the program prints.
#[derive(PartialEq)]
pub struct Listed {
    pub length: usize,
    pub room: Room,
}

/// What the export call hands back, and all that was lent to it.
#[derive(PartialEq)]
pub struct Exported {
    pub length: usize,
    pub places: Lent<u64>,
    pub room: Room,
    pub export: Room,
}

/// What the reader of DIMACS CNF hands back, and all that was lent to it.
pub struct Read {
    pub count: usize,
    pub starts: Lent<u16>,
    pub literals: Lent<u16>,
    pub places: Lent<u64>,
}

pub fn both_calls(case: &Case) -> (Solved, Listed) {
    (solve(case), listing(case))
}

fn solve(case: &Case) -> Solved {
    let (count, places, room) = first_call(case, VALUES);
    Solved {
        values: places.front(count).to_vec(),
        rest_unchanged: places.unchanged_behind(count),
        room,
    }
}

/// With fewer places than an answer takes the first call and the export do nothing and hand back 0.
pub fn need_their_places(case: &Case) -> bool {
    (0..THUNYAWORM_PLACES).all(|lent| {
        let (count, places, room) = first_call(case, lent);
        let exported = export(case, THUNYAWORM_EXPORT, lent);
        count == 0
            && places.unchanged_behind(0)
            && room.unchanged_behind(0)
            && exported.length == 0
            && exported.places.unchanged_behind(0)
            && exported.room.unchanged_behind(0)
            && exported.export.unchanged_behind(0)
    })
}

fn listing(case: &Case) -> Listed {
    into_room("second call", case, thunyaworm_listing)
}

/// The call for what the program prints.
pub fn print(case: &Case) -> Listed {
    into_room("print call", case, thunyaworm_print)
}

type IntoRoom = unsafe extern "C" fn(*const u8, usize, u32, *mut u8, usize) -> usize;

/// A call that hands back how many bytes at the front of a room it has written.
fn into_room(name: &'static str, case: &Case, call: IntoRoom) -> Listed {
    let mut room = room(case.room, true);
    let lent = room.lent();
    let length = watch::watched(name, case, || {
        // SAFETY: each pointer comes from a slice and goes with that slice's length.
        unsafe {
            call(
                case.sheet.as_ptr(),
                case.sheet.len(),
                case.budget,
                lent.as_mut_ptr(),
                lent.len(),
            )
        }
    });
    Listed { length, room }
}

/// The first call with so many places lent: the number that it hands back, the places, the room.
fn first_call(case: &Case, lent: usize) -> (usize, Lent<u64>, Room) {
    let (mut room, mut values) = (room(case.room, false), places(lent));
    let (bytes, lent) = (room.lent(), values.lent());
    let count = watch::watched("first call", case, || {
        // SAFETY: as above.
        unsafe {
            thunyaworm_solve(
                case.sheet.as_ptr(),
                case.sheet.len(),
                case.budget,
                bytes.as_mut_ptr(),
                bytes.len(),
                lent.as_mut_ptr(),
                lent.len(),
            )
        }
    });
    (count, values, room)
}

/// The export call with an export room of this length.
pub fn export_call(case: &Case, length: usize) -> Exported {
    export(case, length, VALUES)
}

fn export(case: &Case, length: usize, lent: usize) -> Exported {
    let mut all = Exported {
        length: 0,
        places: places(lent),
        room: room(case.room, true),
        export: room(length, false),
    };
    let (bytes, text, lent) = (all.room.lent(), all.export.lent(), all.places.lent());
    all.length = watch::watched("export call", case, || {
        // SAFETY: as above.
        unsafe {
            thunyaworm_export(
                case.sheet.as_ptr(),
                case.sheet.len(),
                case.budget,
                bytes.as_mut_ptr(),
                bytes.len(),
                text.as_mut_ptr(),
                text.len(),
                lent.as_mut_ptr(),
                lent.len(),
            )
        }
    });
    all
}

pub fn read_cnf(reading: &Reading) -> Read {
    let mut all = Read {
        count: 0,
        starts: numbers(reading.starts),
        literals: numbers(reading.literals),
        places: places(reading.places),
    };
    let (starts, literals, lent) = (all.starts.lent(), all.literals.lent(), all.places.lent());
    all.count = watch::watched("reader of DIMACS CNF", reading, || {
        // SAFETY: as above.
        unsafe {
            thunyaworm_read_cnf(
                reading.text.as_ptr(),
                reading.text.len(),
                starts.as_mut_ptr(),
                starts.len(),
                literals.as_mut_ptr(),
                literals.len(),
                lent.as_mut_ptr(),
                lent.len(),
            )
        }
    });
    all
}
