//! brute [SEED [COUNT]]: random sheets, each decided from its meaning and by a second implementation
//! of document 01's search, compared with the library's calls; and random texts for its reader of DIMACS CNF. The text
//! of each UNSAT sheet is refuted by itself, and each logged clause has to follow from one filling of its rule.
//! brute --vectors FOLDER: stored sheets with listings and exports, and stored texts, instead.
//! brute --texts FOLDER [SEED [COUNT]]: writes random sheets with the library's listings and exported texts, so many
//! of UNSAT sheets and some of others; nothing is compared.
//!
//! Nothing here is shared with the solver. The last line tells the differences; exit status 1 if there
//! are any, if a long run never met an answer or a refusal that can come up, or if a call hangs.

mod blanks;
mod carried;
mod case;
mod check;
mod damage;
mod dimacs;
mod ended;
mod equivalence;
mod export;
mod exports;
mod follows;
mod generate;
mod interface;
mod larger;
mod listing;
mod meaning;
mod met;
mod met_two_way;
mod problem;
mod random;
mod reader;
mod reading;
mod refute;
mod rows;
mod search;
mod shrink;
mod stored;
mod tally;
mod texts;
mod told;
mod two_way;
mod vectors;
mod watch;

use case::{printable, Case, InWords, Reading};
use check::Same;
use ended::Verdict;
use interface::{THUNYAWORM_EXPORT, THUNYAWORM_ROOM, THUNYAWORM_SHEET_BUFFER};
use random::Random;
use std::io;
use std::path::Path;
use std::process::ExitCode;
use std::time::{Duration, Instant};
use tally::Tally;

const SEED: u64 = 20_230_517;
/// About 40 seconds.
const COUNT: u64 = 90_000;
/// The texts of UNSAT sheets that are written for a SAT program.
const UNSAT_TEXTS: u64 = 300;
/// The share of sheets with which a text comes, in percent; the texts' random numbers have another seed.
const TEXTS: usize = 50;
const TEXT_SEED: u64 = 0x7465_7874;
/// The share of sheets that are called once more with other blank columns, in percent.
const OTHER_BLANKS: usize = 20;
/// A run ends at so many differences.
const ENOUGH: u64 = 3;
/// A call of the library needs about 1.5 MB of stack.
const STACK: usize = 64 << 20;

fn main() -> ExitCode {
    watch::start();
    let worker = std::thread::Builder::new()
        .stack_size(STACK)
        .spawn(run)
        .expect("a thread");
    match worker.join() {
        Ok(true) => ExitCode::SUCCESS,
        _ => ExitCode::FAILURE,
    }
}

fn run() -> bool {
    let words: Vec<String> = std::env::args().skip(1).collect();
    match words
        .iter()
        .map(String::as_str)
        .collect::<Vec<_>>()
        .as_slice()
    {
        ["--vectors", folder] => or_error(vectors::run(Path::new(folder))),
        ["--texts", folder, numbers @ ..] => match seed_and_count(numbers, UNSAT_TEXTS) {
            Some((seed, count)) => {
                or_error(exports::write(Path::new(folder), seed, count).map(|()| true))
            }
            None => usage(),
        },
        numbers => match seed_and_count(numbers, COUNT) {
            Some((seed, count)) => random_sheets(seed, count),
            None => usage(),
        },
    }
}

fn or_error(result: io::Result<bool>) -> bool {
    result.unwrap_or_else(|error| {
        eprintln!("brute: {error}");
        false
    })
}

/// What the last words say; where they say nothing, the seed is a fixed one, and the count this.
fn seed_and_count(words: &[&str], count: u64) -> Option<(u64, u64)> {
    match words {
        [] => Some((SEED, count)),
        [seed] => Some((seed.parse().ok()?, count)),
        [seed, count] => Some((seed.parse().ok()?, count.parse().ok()?)),
        _ => None,
    }
}

fn usage() -> bool {
    eprintln!(
        "usage: brute [SEED [COUNT]] | brute --vectors FOLDER | brute --texts FOLDER [SEED [COUNT]]"
    );
    false
}

fn random_sheets(seed: u64, count: u64) -> bool {
    let mut tally = Tally::default();
    let mut differences = 0;
    for report in edges() {
        differences += 1;
        println!("{report}");
    }
    let mut told = Instant::now();
    for index in 0..count {
        if differences >= ENOUGH {
            break;
        }
        if told.elapsed() > Duration::from_secs(5) {
            eprintln!("brute: {index} of {count} sheets, seed {seed}");
            told = Instant::now();
        }
        tally.sheets += 1;
        let name = format!("sheet {index} of seed {seed}");
        watch::from(name.clone());
        if let Err(report) = one_sheet(&mut Random::new(seed, index), &mut tally) {
            differences += 1;
            println!("{name}, made smaller:\n{report}");
        }
        let name = format!("text {index} of seed {seed}");
        watch::from(name.clone());
        if let Err(report) = one_text(&mut Random::new(seed ^ TEXT_SEED, index), &mut tally) {
            differences += 1;
            println!("{name}, made smaller:\n{report}");
        }
    }
    let complete = tally.print();
    println!("brute: {} sheets, {differences} differences", tally.sheets);
    complete && differences == 0
}

/// What is lent, at its edges, for small sheets and texts: the reports of all differences.
fn edges() -> Vec<String> {
    watch::from("with too little lent".into());
    let mut reports = Vec::new();
    let sheets = [
        b"   1   1\n".to_vec(),
        b"       1       1    \n".to_vec(),
        b"    \n".to_vec(),
        Vec::new(),
        vec![b' '; THUNYAWORM_SHEET_BUFFER],
    ];
    for sheet in sheets {
        let (room, export) = (THUNYAWORM_ROOM, THUNYAWORM_EXPORT);
        for (room, export) in [
            (room, export),
            (room, export - 1),
            (room - 1, export),
            (room - 1, export - 1),
            (0, 0),
        ] {
            let case = Case {
                sheet: sheet.clone(),
                budget: 0,
                room,
                export: Some(export),
            };
            reports.extend(compared(&case).err());
            if !interface::need_their_places(&case) {
                reports.push(
                    "with fewer than five places a call does not leave all unchanged and hand back 0"
                        .into(),
                );
            }
        }
    }
    for text in ["p cnf 1 1\n-1 0\n", "p cnf 1 1\n0", ""] {
        let enough = reading::of(text.as_bytes().to_vec());
        let (starts, literals, places) = (enough.starts, enough.literals, enough.places);
        for (starts, literals, places) in [
            (starts, literals, places),
            (starts - 1, literals, places),
            (starts, literals - 1, places),
            (starts, literals, places - 1),
            (starts + 1, literals + 1, places + 1),
            (0, 0, 0),
        ] {
            let reading = Reading {
                text: text.as_bytes().to_vec(),
                starts,
                literals,
                places,
            };
            reports.extend(read(&reading).err());
        }
    }
    reports
}

/// One random sheet, at its budget and now and then at budgets around the decisions that it took, or with
/// other blank columns; for an UNSAT one now and then a larger sheet. An error is a report.
fn one_sheet(random: &mut Random, tally: &mut Tally) -> Result<(), String> {
    let case = generate::case(random);
    let same = compared(&case)?;
    tally.count(&case, &same);
    if random.percent(OTHER_BLANKS) {
        tally.alike += u64::from(with_other_blanks(random, &case)?);
    }
    let Same::Ended { ended, .. } = &same else {
        return Ok(());
    };
    if ended.decisions > 0 && random.percent(25) {
        let most = ended.decisions as u32;
        for budget in [most - 1, most, random.below(most as usize) as u32] {
            let case = Case {
                budget,
                ..case.clone()
            };
            tally.count(&case, &compared(&case)?);
        }
    }
    if ended.verdict == Verdict::Unsat && random.percent(40) {
        if let Some(second) = larger::larger(random, &case.sheet) {
            let outcome = larger::check_larger(random, &case.sheet, &second).map_err(
                |(case_two, differences)| {
                    if check::check(&case_two).is_err() {
                        report(&case_two)
                    } else {
                        let smaller = format!("the smaller sheet:\n{}", printable(&case.sheet));
                        smaller + &check::describe(&case_two, &differences)
                    }
                },
            )?;
            tally.count_larger(&outcome);
        }
    }
    Ok(())
}

/// The same call on a sheet with other blank columns, if there is one. An error is a report.
fn with_other_blanks(random: &mut Random, case: &Case) -> Result<bool, String> {
    let Some(sheet) = blanks::other(random, &case.sheet) else {
        return Ok(false);
    };
    let other = Case {
        sheet,
        ..case.clone()
    };
    if !check::told_apart(case, &other) {
        return Ok(true);
    }
    // The second implementation's report is the smaller one, if it sees the difference.
    compared(&other)?;
    let (case, other) = (case.in_words(), other.in_words());
    Err(format!(
        "{case}told from the one with other blank columns:\n{other}"
    ))
}

/// Now and then a random text. An error is a report.
fn one_text(random: &mut Random, tally: &mut Tally) -> Result<(), String> {
    if random.percent(TEXTS) {
        tally.count_text(&read(&texts::reading(random))?);
    }
    Ok(())
}

fn read(reading: &Reading) -> Result<reading::Same, String> {
    reading::check(reading).map_err(|_| reading::report(reading))
}

fn compared(case: &Case) -> Result<Same, String> {
    check::check(case).map_err(|_| report(case))
}

/// A differing case made smaller and described.
fn report(case: &Case) -> String {
    let smallest = shrink::shrink(case);
    let differences = check::check(&smallest).err().unwrap_or_default();
    check::describe(&smallest, &differences)
}
