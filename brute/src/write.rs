//! write listings FOLDER: writes beside each sheet of a folder the listing that the program has to print.
//! write exports FOLDER: writes beside each sheet of a folder its listing and the exported text, empty for a refusal.
//! write answers FOLDER: writes beside each text of a folder what the reader of such texts gives.
//! write trials: writes crates/trials/stdout, what that program has to print for crates/trials/stdin.
//!
//! Listings and texts are those at the budget beside the sheet, or else at the program's.
//! All of it comes from the second implementation of documents 01 and 02. The proved library is not linked, so
//! that nothing can come from it, and that expected output can be made before there is a library.

mod dimacs;
mod ended;
mod listing;
mod problem;
mod reader;
mod search;
mod stored;
mod trials;

use std::fs;
use std::io;
use std::path::Path;
use std::process::ExitCode;

const TRIALS: &str = "crates/trials";

fn main() -> ExitCode {
    let words: Vec<String> = std::env::args().skip(1).collect();
    let words: Vec<&str> = words.iter().map(String::as_str).collect();
    let written = match words.as_slice() {
        ["listings", folder] => write_listings(Path::new(folder)),
        ["exports", folder] => write_exports(Path::new(folder)),
        ["answers", folder] => write_answers(Path::new(folder)),
        ["trials"] => write_trials(Path::new(TRIALS)),
        _ => Err(io::Error::other(
            "usage: write listings FOLDER | write exports FOLDER | write answers FOLDER | write trials",
        )),
    };
    match written {
        Ok(()) => ExitCode::SUCCESS,
        Err(error) => {
            eprintln!("write: {error}");
            ExitCode::FAILURE
        }
    }
}

fn write_listings(folder: &Path) -> io::Result<()> {
    write_beside(folder, "sheet", "listing", |path| {
        Ok(stored::printed(&fs::read(path)?, stored::budget(path)?))
    })
}

fn write_exports(folder: &Path) -> io::Result<()> {
    write_listings(folder)?;
    write_beside(folder, "sheet", "cnf", |path| {
        Ok(stored::exported(&fs::read(path)?, stored::budget(path)?))
    })
}

fn write_answers(folder: &Path) -> io::Result<()> {
    write_beside(folder, "cnf", "answer", |path| {
        Ok(stored::read_answer(&fs::read(path)?))
    })
}

/// Writes beside each file of a folder with one extension a file with another.
fn write_beside(
    folder: &Path,
    given: &str,
    written: &str,
    made: impl Fn(&Path) -> io::Result<Vec<u8>>,
) -> io::Result<()> {
    let files = stored::files(folder, given)?;
    if files.is_empty() {
        let none = format!("no .{given} in {}", folder.display());
        return Err(io::Error::other(none));
    }
    let mut changed = 0;
    for path in &files {
        changed += u64::from(put(&path.with_extension(written), &made(path)?)?);
    }
    println!("write: {} of .{written}, {changed} changed", files.len());
    Ok(())
}

fn write_trials(folder: &Path) -> io::Result<()> {
    let input = fs::read(folder.join("stdin"))?;
    let output = trials::printed(&input).map_err(io::Error::other)?;
    let changed = u64::from(put(&folder.join("stdout"), &output)?);
    println!("write: 1 output, {changed} changed");
    Ok(())
}

/// Writes a file that does not hold these bytes yet; tells whether it did.
fn put(path: &Path, bytes: &[u8]) -> io::Result<bool> {
    if fs::read(path).is_ok_and(|stored| stored == bytes) {
        return Ok(false);
    }
    fs::write(path, bytes)?;
    println!("changed: {}", path.display());
    Ok(true)
}
