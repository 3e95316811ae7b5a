//! What requests 3, 5 and 7 speak of, and how many calls met it.

use crate::blanks::{places, text, BLANK};
use crate::met_two_way::MetTwoWay;
use crate::reader::{Refusal, LINE};
use crate::rows::lines;
use crate::search::Events;

#[derive(Default)]
pub struct Met {
    answered: u64,
    before: u64,
    between: u64,
    behind: u64,
    full: u64,
    refused: u64,
    no_kind: u64,
    too_long: u64,
    slipped: u64,
    repeated_head: u64,
    two_of_three: u64,
    all_three: u64,
    repeated_and_body: u64,
    repeated_sets: u64,
    repeated_passed_over: u64,
    pub two_way: MetTwoWay,
}

impl Met {
    pub fn count_answered(&mut self, sheet: &[u8]) {
        let lines = lines(sheet);
        let met = |test: fn(&[u8]) -> bool| u64::from(lines.iter().any(|line| test(line)));
        self.answered += met(has_blank);
        self.before += met(|line| line.starts_with(BLANK));
        self.between += met(has_blank_between);
        self.behind += met(|line| text(line).ends_with(BLANK));
        self.full += met(|line| text(line).len() == LINE && has_blank(line));
    }

    pub fn count_events(&mut self, events: &Events) {
        self.repeated_head += u64::from(events.repeated_head > 0);
        self.two_of_three += u64::from(events.two_of_three > 0);
        self.all_three += u64::from(events.all_three > 0);
        self.repeated_and_body += u64::from(events.repeated_and_body > 0);
        self.repeated_sets += u64::from(events.repeated_sets > 0);
        self.repeated_passed_over += u64::from(events.repeated_passed_over > 0);
    }

    pub fn count_refused(&mut self, sheet: &[u8], refusal: Refusal) {
        let lines = lines(sheet);
        self.refused += u64::from(lines.iter().any(|line| has_blank(line)));
        // Line 0 is no line.
        let Some(index) = (refusal.line as usize).checked_sub(1) else {
            return;
        };
        self.two_way.count_refused(&lines[..=index], refusal);
        let (line, text) = (&lines[index], text(&lines[index]));
        match refusal.number {
            5 => self.too_long += u64::from(text.len() == LINE + 4 && has_blank(line)),
            6 => self.slipped += u64::from(text.chunks(4).any(slipped)),
            7 => self.no_kind += u64::from(4 * places(line).len() == text.len()),
            _ => (),
        }
    }

    pub fn named(&self) -> Vec<(&'static str, u64)> {
        let mut all = vec![
            ("sheet with blank columns answered", self.answered),
            ("blank column before the kind", self.before),
            ("blank column between others", self.between),
            ("blank column behind the last", self.behind),
            ("line of 136 bytes with blank columns", self.full),
            ("sheet with blank columns refused", self.refused),
            ("line of blanks refused with 7", self.no_kind),
            (
                "line of 140 bytes with blank columns refused with 5",
                self.too_long,
            ),
            ("blanks out of place refused with 6", self.slipped),
            ("instance with a repeated head logged", self.repeated_head),
            ("two of three heads alike", self.two_of_three),
            ("three heads alike", self.all_three),
            (
                "repeated head, and the body literal stands there too",
                self.repeated_and_body,
            ),
            (
                "created atom set by a clause with a repeated head",
                self.repeated_sets,
            ),
            (
                "created atom not set by a clause with a repeated head",
                self.repeated_passed_over,
            ),
        ];
        all.extend(self.two_way.named());
        all
    }
}

fn has_blank(line: &[u8]) -> bool {
    !places(line).is_empty()
}

/// Is a blank column between two that are not?
fn has_blank_between(line: &[u8]) -> bool {
    let columns: Vec<&[u8]> = text(line).chunks(4).collect();
    let filled: Vec<usize> = (0..columns.len())
        .filter(|&place| columns[place] != BLANK)
        .collect();
    filled.windows(2).any(|pair| pair[1] > pair[0] + 1)
}

/// Does a column that is not blank end with a blank?
fn slipped(column: &[u8]) -> bool {
    column != BLANK && column.ends_with(b" ")
}
