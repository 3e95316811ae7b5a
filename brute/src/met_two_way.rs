//! What request 7 speaks of, and how many calls met it.

use crate::ended::Ended;
use crate::problem::{Problem, RuleLine, TwoWay};
use crate::reader::{filled, Refusal};
use crate::rows::Row;
use crate::two_way::{counted, SHAPES};

#[derive(Default)]
pub struct MetTwoWay {
    answered: u64,
    /// By place in `SHAPES`.
    shapes: [u64; SHAPES.len()],
    reverse: u64,
    not_restricted: u64,
    not_connected: u64,
    empty_body: u64,
    reverse_logged: u64,
    logged_behind: u64,
    after_clause: u64,
    symbol_behind: u64,
    count: u64,
    sum: u64,
    one_more: u64,
    two_more: u64,
    rule_behind: u64,
    /// By number, from 10 on.
    refused: [u64; 15],
}

impl MetTwoWay {
    pub fn count_answered(&mut self, problem: &Problem, ended: &Ended) {
        let two_ways: Vec<&TwoWay> = problem
            .rule_lines
            .iter()
            .filter_map(|line| match line {
                RuleLine::Two(two_way) => Some(two_way),
                RuleLine::One(_) => None,
            })
            .collect();
        let met = |test: fn(&TwoWay) -> bool| u64::from(two_ways.iter().any(|line| test(line)));
        self.answered += met(|_| true);
        for (count, shape) in self.shapes.iter_mut().zip(SHAPES) {
            *count += u64::from(two_ways.iter().any(|line| shape_of(line) == shape));
        }
        self.reverse += met(TwoWay::has_reverse);
        self.empty_body += met(|line| line.body.is_empty());
        self.not_restricted +=
            met(|line| !line.body.is_empty() && !line.reverse().range_restricted());
        self.not_connected += met(|line| {
            let reverse = line.reverse();
            !line.body.is_empty() && reverse.range_restricted() && !reverse.heads_connected()
        });
        self.count_logged(problem, ended);
    }

    /// Was a reverse rule logged? Was a rule logged that stands behind a two-way rule without its reverse?
    fn count_logged(&mut self, problem: &Problem, ended: &Ended) {
        let (mut last, mut reverses, mut first_missing) = (0, Vec::new(), usize::MAX);
        for line in &problem.rule_lines {
            last += line.rules().len();
            match line {
                RuleLine::Two(two_way) if two_way.has_reverse() => reverses.push(last),
                RuleLine::Two(two_way) if !two_way.body.is_empty() => {
                    first_missing = first_missing.min(last);
                }
                _ => (),
            }
        }
        let logged = |test: &dyn Fn(usize) -> bool| {
            u64::from(ended.log.iter().any(|logged| test(logged.rule)))
        };
        self.reverse_logged += logged(&|rule| reverses.contains(&rule));
        self.logged_behind += logged(&|rule| rule > first_missing);
    }

    /// A refusal at the last of these lines.
    pub fn count_refused(&mut self, lines: &[Vec<u8>], refusal: Refusal) {
        let rows: Vec<Row> = lines
            .iter()
            .map(|line| {
                line.strip_suffix(b"\n")
                    .and_then(filled)
                    .unwrap_or_default()
            })
            .collect();
        let [earlier @ .., row] = &rows[..] else {
            return;
        };
        let (kind, before) = (kind(row), earlier.last().and_then(|row| kind(row)));
        match refusal.number {
            7 => {
                self.after_clause += u64::from(kind == Some(8) && before == Some(4));
                self.symbol_behind += u64::from(kind == Some(2) && before == Some(8));
            }
            8 if kind == Some(8) => {
                let in_range = matches!(row[..], [_, 0..=2, 1..=2, 0..=2, ..]);
                self.sum += u64::from(in_range);
                self.count += u64::from(!in_range);
            }
            9 => self.count_too_many(earlier, kind),
            number if kind == Some(8) => self.refused[number as usize] += 1,
            _ => (),
        }
    }

    /// One rule too many, of this kind: how many were counted before, and were two-way rules among them?
    fn count_too_many(&mut self, earlier: &[Row], refused: Option<i32>) {
        let rules = earlier
            .iter()
            .filter(|row| [Some(3), Some(8)].contains(&kind(row)));
        let before: usize = rules.map(|row| counted(row)).sum();
        let two_way_before = earlier.iter().any(|row| kind(row) == Some(8));
        self.one_more += u64::from(refused == Some(8) && before == 32);
        self.two_more += u64::from(refused == Some(8) && before == 31);
        self.rule_behind += u64::from(refused == Some(3) && two_way_before);
    }

    pub fn named(&self) -> Vec<(&'static str, u64)> {
        let rarest = self.shapes.iter().min().copied().unwrap_or_default();
        vec![
            ("sheet with a two-way rule answered", self.answered),
            ("two-way rule of the rarest of its 14 shapes", rarest),
            ("two-way rule with its reverse", self.reverse),
            (
                "two-way rule whose reverse is not range restricted",
                self.not_restricted,
            ),
            (
                "two-way rule whose reverse is not connected",
                self.not_connected,
            ),
            ("two-way rule with an empty body", self.empty_body),
            ("clause of a reverse rule logged", self.reverse_logged),
            (
                "rule logged behind a two-way rule without its reverse",
                self.logged_behind,
            ),
            (
                "two-way rule after a clause refused with 7",
                self.after_clause,
            ),
            (
                "symbol after a two-way rule refused with 7",
                self.symbol_behind,
            ),
            ("two-way rule refused with 8 for a count", self.count),
            ("two-way rule refused with 8 for a sum alone", self.sum),
            (
                "two-way rule refused with 9, 32 rules being counted",
                self.one_more,
            ),
            (
                "two-way rule refused with 9, 31 rules being counted",
                self.two_more,
            ),
            ("rule behind two-way rules refused with 9", self.rule_behind),
            ("two-way rule refused with 10", self.refused[10]),
            ("two-way rule refused with 11", self.refused[11]),
            ("two-way rule refused with 12", self.refused[12]),
            ("two-way rule refused with 14", self.refused[14]),
        ]
    }
}

fn kind(row: &Row) -> Option<i32> {
    row.first().copied()
}

fn shape_of(two_way: &TwoWay) -> [usize; 3] {
    [&two_way.kept, &two_way.rewritten, &two_way.body].map(Vec::len)
}
