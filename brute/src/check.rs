//! One sheet compared: what the reader, the search and the meaning expect against what the library's
//! calls do; its two-way rules against the rules that the search has for them; and the logged clauses against their
//! rules.

use crate::carried::Carried;
use crate::case::{printable, Case, InWords};
use crate::dimacs::Cnf;
use crate::ended::Ended;
use crate::equivalence;
use crate::export::{self, EXPORT};
use crate::follows;
use crate::interface::{self, Listed, Room, Solved};
use crate::listing;
use crate::meaning::{self, Meaning};
use crate::problem::{Literal, Problem};
use crate::reader::{self, Refusal};
use crate::search::{self, Events};
use crate::told;

/// The search gives up where it looks at more clauses and fillings; the library is not asked then.
const EFFORT: u64 = 20_000_000;

enum Expected {
    Refused(Refusal),
    Ended {
        problem: Problem,
        ended: Ended,
        events: Events,
        listing: Vec<u8>,
        cnf: Cnf,
    },
    TooLarge,
}

/// What a call that shows no difference came to.
pub enum Same {
    Refused(Refusal),
    Ended {
        problem: Problem,
        ended: Ended,
        events: Events,
        by_meaning: bool,
        two_ways: equivalence::Outcome,
        carried: Carried,
    },
    TooLarge,
}

fn expect(case: &Case) -> Expected {
    match reader::read(&case.sheet, case.room) {
        Err(refusal) => Expected::Refused(refusal),
        Ok(problem) => match search::search(&problem, case.budget, EFFORT) {
            None => Expected::TooLarge,
            Some((ended, events)) => {
                let listing = listing::write(&ended, &problem);
                let cnf = Cnf::of(&problem, &ended);
                Expected::Ended {
                    problem,
                    ended,
                    events,
                    listing,
                    cnf,
                }
            }
        },
    }
}

/// What the call came to, or all differences in words.
pub fn check(case: &Case) -> Result<Same, Vec<String>> {
    let expected = expect(case);
    if let Expected::TooLarge = expected {
        return Ok(Same::TooLarge);
    }
    let (first, second) = interface::both_calls(case);
    let printed = case.export.map(|_| interface::print(case));
    let mut differences = Vec::new();
    let mut carried = Carried::default();
    for length in export_rooms(case, &first) {
        carried.add(&compare_export(case, length, &expected, &mut differences));
    }
    let same = match expected {
        Expected::Refused(refusal) => {
            compare(
                &first,
                &second,
                &[refusal.number, refusal.line],
                b"",
                &mut differences,
            );
            compare_printed(printed, &printed_refusal(refusal), &mut differences);
            Same::Refused(refusal)
        }
        Expected::Ended {
            problem,
            ended,
            events,
            listing,
            ..
        } => {
            compare(&first, &second, &ended.values(), &listing, &mut differences);
            compare_printed(printed, &listing, &mut differences);
            let by_meaning = compare_meaning(&first, &second, &problem, &mut differences);
            let two_ways = equivalence::check(&case.sheet, &problem).unwrap_or_else(|difference| {
                differences.push(difference);
                equivalence::Outcome::default()
            });
            match follows::check(second.room.front(second.length), &problem) {
                Ok(followed) => carried.add(&followed),
                Err(difference) => differences.push(difference),
            }
            Same::Ended {
                problem,
                ended,
                events,
                by_meaning,
                two_ways,
                carried,
            }
        }
        Expected::TooLarge => Same::TooLarge,
    };
    if differences.is_empty() {
        Ok(same)
    } else {
        Err(differences)
    }
}

/// Does a call of the library tell two cases apart, by what it hands back or by a byte of what is lent?
pub fn told_apart(one: &Case, other: &Case) -> bool {
    let others = |case: &Case| {
        case.export
            .map(|length| (interface::export_call(case, length), interface::print(case)))
    };
    interface::both_calls(one) != interface::both_calls(other) || others(one) != others(other)
}

/// Both calls against the expected values and the expected front of the room, byte by byte; all other
/// bytes have to be as they were.
fn compare(
    first: &Solved,
    second: &Listed,
    values: &[u64],
    listing: &[u8],
    differences: &mut Vec<String>,
) {
    if first.values != values {
        differences.push(format!(
            "first call: values {:?}, expected {values:?}",
            first.values
        ));
    }
    if !first.rest_unchanged {
        differences.push("first call: places behind the values are changed".into());
    }
    compare_room("first call", &first.room, listing, differences);
    compare_listed("second call", second, listing, differences);
    if first.values.len() == 5 {
        let told = told::first_line(second.room.front(second.length));
        let agrees = told.is_some_and(|told| told[..] == first.values[..]);
        if !agrees {
            differences.push(format!(
                "values {:?}, but the listing's first line has {told:?}",
                first.values
            ));
        }
    }
}

/// A call that hands back how many bytes it has written at the room's front.
fn compare_listed(call: &str, listed: &Listed, written: &[u8], differences: &mut Vec<String>) {
    let (length, expected) = (listed.length, written.len());
    if length != expected {
        differences.push(format!("{call}: length {length}, expected {expected}"));
    }
    compare_room(call, &listed.room, written, differences);
}

/// The call for what the program prints, if it was made.
fn compare_printed(printed: Option<Listed>, written: &[u8], differences: &mut Vec<String>) {
    if let Some(printed) = printed {
        compare_listed("print call", &printed, written, differences);
    }
}

/// What is printed of a refusal into a room: its line, but nothing where the room is too small.
fn printed_refusal(refusal: Refusal) -> Vec<u8> {
    match refusal.number {
        1 => Vec::new(),
        _ => listing::refusal_line(refusal),
    }
}

/// A room after its call: what was written at its front, all other bytes as they were.
pub fn compare_room(call: &str, room: &Room, written: &[u8], differences: &mut Vec<String>) {
    if room.front(written.len()) != written {
        differences.push(format!("{call}: other bytes at the room's front"));
    }
    if !room.unchanged_behind(written.len()) {
        differences.push(format!("{call}: bytes behind are changed"));
    }
}

/// The lengths of the export rooms that are lent: the case's own, and for an UNSAT answer one that is large enough,
/// since request 9 speaks of every such answer.
fn export_rooms(case: &Case, first: &Solved) -> Vec<usize> {
    let mut rooms: Vec<usize> = case.export.into_iter().collect();
    if first.values.first() == Some(&0) && !rooms.iter().any(|&length| length >= EXPORT) {
        rooms.push(EXPORT);
    }
    rooms
}

/// The export call with an export room of this length.
fn compare_export(
    case: &Case,
    length: usize,
    expected: &Expected,
    differences: &mut Vec<String>,
) -> Carried {
    let first = match expected {
        Expected::Refused(refusal) => Some(*refusal),
        _ => None,
    };
    match (export::refusal(first, length), expected) {
        (Some(refusal), _) => {
            let values = [refusal.number, refusal.line];
            export::compare(case, length, &values, b"", None, differences)
        }
        (
            None,
            Expected::Ended {
                ended,
                listing,
                cnf,
                ..
            },
        ) => export::compare(
            case,
            length,
            &ended.values(),
            listing,
            Some(cnf),
            differences,
        ),
        _ => Carried::default(),
    }
}

/// The library's answer against the meaning of the sheet; tells whether the meaning was small enough.
fn compare_meaning(
    first: &Solved,
    second: &Listed,
    problem: &Problem,
    differences: &mut Vec<String>,
) -> bool {
    let answer = first.values.first();
    match meaning::decide(problem) {
        Meaning::TooLarge => return false,
        Meaning::NoChoiceIsGood => {
            if answer == Some(&1) {
                differences.push("meaning: no choice is good, but the answer is UNKNOWN".into());
            }
        }
        Meaning::First(good) => {
            if answer == Some(&0) {
                differences.push("meaning: a choice is good, but the answer is UNSAT".into());
            }
            if answer == Some(&1) {
                let set = told::set_literals(second.room.front(second.length)).unwrap_or_default();
                if !good.choice.iter().all(|literal| set.contains(literal)) {
                    differences.push("meaning: the setting is not the first good choice".into());
                }
                if !same_set(&set, &good.closure) {
                    differences.push("meaning: the set literals are not the closure".into());
                }
            }
        }
    }
    true
}

fn same_set(one: &[Literal], other: &[Literal]) -> bool {
    one.len() == other.len() && one.iter().all(|literal| other.contains(literal))
}

/// A case and both results in words, for the report of a difference.
pub fn describe(case: &Case, differences: &[String]) -> String {
    let (first, second) = interface::both_calls(case);
    let rooms = export_rooms(case, &first);
    let mut text = case.in_words();
    text.push_str("expected, by the second implementation:\n");
    match expect(case) {
        Expected::Refused(refusal) => text.push_str(&format!(
            "refusal {} line {}\n",
            refusal.number, refusal.line
        )),
        Expected::Ended {
            problem,
            listing,
            cnf,
            ..
        } => {
            text.push_str(&printable(&listing));
            if !rooms.is_empty() {
                text.push_str(&printable(&cnf.text()));
            }
            match meaning::decide(&problem) {
                Meaning::NoChoiceIsGood => text.push_str("by the meaning: no choice is good\n"),
                Meaning::First(_) => text.push_str("by the meaning: some choice is good\n"),
                Meaning::TooLarge => (),
            }
        }
        Expected::TooLarge => text.push_str("too large\n"),
    }
    text.push_str(&format!(
        "the library: values {:?}, listing of {} bytes:\n",
        first.values, second.length
    ));
    text.push_str(&printable(second.room.front(second.length)));
    for length in rooms {
        text.push_str(&export::describe(case, length));
    }
    text.push_str("differences:\n");
    for difference in differences {
        text.push_str(&format!("- {difference}\n"));
    }
    text
}
