//! How often each answer, each refusal and each event of the search came up, and what came of texts.

use crate::carried::Carried;
use crate::case::Case;
use crate::check::Same;
use crate::equivalence;
use crate::export;
use crate::larger;
use crate::met::Met;
use crate::reader::Refusal;
use crate::reading;
use crate::search::Events;

/// From so many sheets on, everything that can come up has to.
const LONG_RUN: u64 = 20_000;

const ANSWERS: [&str; 4] = ["UNSAT", "UNKNOWN", "SPENT", "FULL"];

#[derive(Default)]
pub struct Tally {
    pub sheets: u64,
    calls: u64,
    too_large: u64,
    by_meaning: u64,
    answers: [u64; 4],
    /// By number; place 0 is not used.
    refusals: [u64; 16],
    events: Events,
    met: Met,
    two_ways: equivalence::Outcome,
    carried: Carried,
    /// Sheets that no call told from one with other blank columns.
    pub alike: u64,
    larger_sheets: u64,
    larger_calls: u64,
    larger_other_blanks: u64,
    larger_two_way_moved: u64,
    enumerated: u64,
    exports: u64,
    texts: u64,
    /// Given clauses, refused with 21, refused with 22, lent too little.
    read: [u64; 4],
}

impl Tally {
    pub fn count(&mut self, case: &Case, same: &Same) {
        self.calls += 1;
        match same {
            Same::TooLarge => self.too_large += 1,
            Same::Refused(refusal) => {
                self.refusals[refusal.number as usize] += 1;
                self.met.count_refused(&case.sheet, *refusal);
                self.count_export(case, Some(*refusal));
            }
            Same::Ended {
                problem,
                ended,
                events: new,
                by_meaning,
                two_ways,
                carried,
            } => {
                self.answers[ended.verdict as usize] += 1;
                self.met.count_answered(&case.sheet);
                self.met.count_events(new);
                self.met.two_way.count_answered(problem, ended);
                self.two_ways.tried += two_ways.tried;
                self.two_ways.says_more += two_ways.says_more;
                self.carried.add(carried);
                self.by_meaning += u64::from(*by_meaning);
                let sum = &mut self.events;
                sum.backwards += new.backwards;
                sum.passed_over += new.passed_over;
                sum.not_repeated += new.not_repeated;
                sum.flip_undone += new.flip_undone;
                sum.logged_conflict += new.logged_conflict;
                sum.full_table += new.full_table;
                sum.full_log += new.full_log;
                sum.created_unset += new.created_unset;
                self.count_export(case, None);
            }
        }
    }

    fn count_export(&mut self, case: &Case, first: Option<Refusal>) {
        let Some(length) = case.export else {
            return;
        };
        self.exports += 1;
        let refusal = export::refusal(first, length);
        self.refusals[15] += u64::from(refusal.is_some_and(|refusal| refusal.number == 15));
    }

    pub fn count_text(&mut self, same: &reading::Same) {
        self.texts += 1;
        let place = match same {
            reading::Same::Clauses => 0,
            reading::Same::Refused(21) => 1,
            reading::Same::Refused(_) => 2,
            reading::Same::Nothing => 3,
        };
        self.read[place] += 1;
    }

    pub fn count_larger(&mut self, outcome: &larger::Outcome) {
        self.larger_sheets += 1;
        self.larger_calls += outcome.calls;
        self.carried.add(&outcome.carried);
        self.enumerated += u64::from(outcome.enumerated);
        self.larger_other_blanks += u64::from(outcome.other_blanks);
        self.larger_two_way_moved += u64::from(outcome.two_way_moved);
    }

    fn named(&self) -> Vec<(String, u64)> {
        let mut all: Vec<(String, u64)> = ANSWERS
            .iter()
            .zip(self.answers)
            .map(|(name, count)| (name.to_string(), count))
            .collect();
        all.extend((1..16).map(|number| (format!("refusal {number}"), self.refusals[number])));
        let met = self.met.named().into_iter();
        all.extend(met.map(|(name, count)| (name.to_string(), count)));
        let events = &self.events;
        for (name, count) in [
            (
                "goal atom set backwards by a logged clause",
                events.backwards,
            ),
            ("unit on a created atom passed over", events.passed_over),
            (
                "literal not repeated in a logged clause",
                events.not_repeated,
            ),
            ("flipped decision undone", events.flip_undone),
            ("conflict in a logged clause", events.logged_conflict),
            ("FULL by the table", events.full_table),
            ("FULL by the log", events.full_log),
            ("created atom unset in the end", events.created_unset),
            ("answer decided by the meaning", self.by_meaning),
            (
                "two-way rule with all assignments, against its rules",
                self.two_ways.tried,
            ),
            (
                "two-way rule that says more than its rules",
                self.two_ways.says_more,
            ),
            ("sheet with other blank columns, all the same", self.alike),
            ("larger sheet of an UNSAT one", self.larger_sheets),
            ("larger sheet with all its assignments", self.enumerated),
            (
                "larger sheet that keeps a line with other blank columns",
                self.larger_other_blanks,
            ),
            (
                "larger sheet with a two-way rule at another place",
                self.larger_two_way_moved,
            ),
            ("export", self.exports),
            ("text read", self.read[0]),
            ("text refused with 21", self.read[1]),
            ("text refused with 22", self.read[2]),
            ("text with too little lent", self.read[3]),
        ] {
            all.push((name.to_string(), count));
        }
        let carried = self.carried.named().into_iter();
        all.extend(carried.map(|(name, count)| (name.to_string(), count)));
        all
    }

    /// The counts, one a line, and what a long run should have met and did not.
    pub fn print(&self) -> bool {
        println!(
            "{:>9} calls on random sheets, {} on larger ones, {} on random texts",
            self.calls, self.larger_calls, self.texts
        );
        println!(
            "{:>9} left out as too large for the second implementation",
            self.too_large
        );
        println!(
            "{:>9} UNSAT texts too large to refute",
            self.carried.too_large
        );
        for (name, count) in self.named() {
            println!("{count:>9} {name}");
        }
        let missing: Vec<String> = self
            .named()
            .into_iter()
            .filter(|&(_, count)| count == 0)
            .map(|(name, _)| name)
            .collect();
        let complete = missing.is_empty() || self.sheets < LONG_RUN;
        if !complete {
            println!("never came up: {}", missing.join(", "));
        }
        complete
    }
}
