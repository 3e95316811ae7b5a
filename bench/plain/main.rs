//! plain: a sheet on standard input, its listing on standard output, as the proved program does it.
//! An ordinary implementation of document 01's search with vectors and loops, to measure the proved one
//! against. Reader and listing are those of the brute force.

#[path = "../../brute/src/ended.rs"]
mod ended;
#[path = "../../brute/src/listing.rs"]
mod listing;
#[path = "../../brute/src/problem.rs"]
#[allow(dead_code)] // The brute force asks more of a problem.
mod problem;
#[path = "../../brute/src/reader.rs"]
mod reader;
mod search;

use std::io::{self, Read, Write};

const BUDGET: u32 = 1_000_000;

fn main() -> io::Result<()> {
    let mut bytes = Vec::new();
    io::stdin().read_to_end(&mut bytes)?;
    let out = match reader::read(&bytes, reader::ROOM) {
        Err(refusal) => listing::refusal_line(refusal),
        Ok(problem) => listing::write(&search::search(&problem, BUDGET), &problem),
    };
    io::stdout().write_all(&out)
}
