//! The export call compared: its record, both rooms, and the text, which both readers have to read back and which has
//! to be refuted where the record says UNSAT.

use crate::carried::{self, Carried};
use crate::case::{printable, Case};
use crate::check::compare_room;
use crate::dimacs::{self, Cnf};
use crate::interface;
use crate::reader::Refusal;
use crate::reading;

/// The room that question 15 asks for.
pub const EXPORT: usize = 16_384;

/// What an export is refused for, where the first call is refused for that or for nothing: 15 comes straight
/// after 1.
pub fn refusal(first: Option<Refusal>, export: usize) -> Option<Refusal> {
    match first {
        Some(Refusal { number: 1, .. }) => first,
        _ if export < EXPORT => Some(Refusal {
            number: 15,
            line: 0,
        }),
        _ => first,
    }
}

/// The export against the expected values, the expected front of the listing room and the expected clauses;
/// a refusal has none. What came of request 9 is handed back.
pub fn compare(
    case: &Case,
    length: usize,
    values: &[u64],
    listing: &[u8],
    cnf: Option<&Cnf>,
    differences: &mut Vec<String>,
) -> Carried {
    let exported = interface::export_call(case, length);
    let handed = exported.places.front(values.len());
    if handed != values {
        differences.push(format!("export: values {handed:?}, expected {values:?}"));
    }
    if !exported.places.unchanged_behind(values.len()) {
        differences.push("export: places behind the values are changed".into());
    }
    compare_room("export, listing room", &exported.room, listing, differences);
    let text = cnf.map_or_else(Vec::new, Cnf::text);
    if exported.length != text.len() {
        differences.push(format!(
            "export: length {}, expected {}",
            exported.length,
            text.len()
        ));
    }
    compare_room("export", &exported.export, &text, differences);
    let Some(cnf) = cnf else {
        return Carried::default();
    };
    let text = exported.export.front(exported.length);
    read_back(text, cnf, differences);
    carried::refute(text, handed[0] == 0, cnf).unwrap_or_else(|difference| {
        differences.push(difference);
        Carried::default()
    })
}

/// A text of the library read back by the second implementation, and by the library just as by that one.
fn read_back(text: &[u8], cnf: &Cnf, differences: &mut Vec<String>) {
    match dimacs::read(text) {
        Ok(read) if read == *cnf => (),
        Ok(_) => differences.push("export: other clauses are read back".into()),
        Err(number) => differences.push(format!("export: reading back gives {number}")),
    }
    if let Err(more) = reading::check(&reading::of(text.to_vec())) {
        differences.extend(more.into_iter().map(|more| format!("export, {more}")));
    }
}

/// The library's text, for the report of a difference.
pub fn describe(case: &Case, length: usize) -> String {
    let exported = interface::export_call(case, length);
    format!(
        "the library's export, {} bytes:\n{}",
        exported.length,
        printable(exported.export.front(exported.length))
    )
}
