//! refuter: reads a DIMACS CNF text from standard input and prints UNSATISFIABLE or SATISFIABLE, with exit status 20
//! or 10 as SAT programs have it; 1 if it is no such text or too large. It is for those who have no SAT program, and
//! made of nothing but the small search in `refute`: neither the library nor the rest of the brute force is in it.

mod refute;

use refute::Decided;
use std::io::{self, Read};
use std::process::ExitCode;

/// About ten seconds. A text of an UNSAT sheet takes far less, since its clauses were found by a search like this one;
/// one of a FULL sheet may take more.
const EFFORT: u64 = 2_000_000_000;

fn main() -> ExitCode {
    let mut text = Vec::new();
    if let Err(error) = io::stdin().read_to_end(&mut text) {
        eprintln!("refuter: {error}");
        return ExitCode::FAILURE;
    }
    match refute::decide(&text, EFFORT) {
        Some(Decided::Unsatisfiable { .. }) => {
            println!("UNSATISFIABLE");
            ExitCode::from(20)
        }
        Some(Decided::Satisfiable) => {
            println!("SATISFIABLE");
            ExitCode::from(10)
        }
        Some(Decided::TooLarge) => {
            eprintln!("refuter: too large");
            ExitCode::FAILURE
        }
        None => {
            eprintln!("refuter: no DIMACS CNF text");
            ExitCode::FAILURE
        }
    }
}
