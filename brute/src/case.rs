//! The arguments of a call, and how they are shown.

/// Arguments that can be shown.
pub trait InWords {
    fn in_words(&self) -> String;
}

/// A call on a sheet.
#[derive(Clone)]
pub struct Case {
    pub sheet: Vec<u8>,
    pub budget: u32,
    pub room: usize,
    /// The length of the export room; without one only an UNSAT answer is exported, and nothing is printed.
    pub export: Option<usize>,
}

impl InWords for Case {
    fn in_words(&self) -> String {
        let length = self.sheet.len();
        let export = self
            .export
            .map_or_else(String::new, |export| format!("export room {export}, "));
        format!(
            "budget {}, room {}, {export}sheet of {length} bytes:\n{}",
            self.budget,
            self.room,
            printable(&self.sheet)
        )
    }
}

/// A call of the reader of DIMACS CNF, with the lengths of what is lent.
#[derive(Clone)]
pub struct Reading {
    pub text: Vec<u8>,
    pub starts: usize,
    pub literals: usize,
    pub places: usize,
}

impl InWords for Reading {
    fn in_words(&self) -> String {
        let length = self.text.len();
        format!(
            "{} starts, {} literals, {} places, text of {length} bytes:\n{}",
            self.starts,
            self.literals,
            self.places,
            printable(&self.text)
        )
    }
}

/// Bytes as text; those that are no plain text are shown as numbers, as is a blank before an LF, so that it is
/// seen; and a missing last LF is told.
pub fn printable(bytes: &[u8]) -> String {
    let mut text = String::new();
    for (place, &byte) in bytes.iter().enumerate() {
        match byte {
            b' ' if bytes.get(place + 1) == Some(&b'\n') => text.push_str("<32>"),
            b'\n' | b' '..=b'~' => text.push(byte as char),
            _ => text.push_str(&format!("<{byte}>")),
        }
    }
    if bytes.last().is_some_and(|&byte| byte != b'\n') {
        text.push_str("<no LF>\n");
    }
    text
}
