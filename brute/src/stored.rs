//! Stored sheets, and what has to be printed for them by the second implementation alone.

use crate::dimacs::{self, Cnf};
use crate::ended::Ended;
use crate::listing::{self, refusal_line};
use crate::problem::Problem;
use crate::reader::{self, Refusal, ROOM};
use crate::search;
use std::fs;
use std::io;
use std::path::{Path, PathBuf};

/// The program's budget.
pub const BUDGET: u32 = 1_000_000;

/// What is in a folder, by name.
pub fn entries(folder: &Path) -> io::Result<Vec<PathBuf>> {
    let mut entries: Vec<_> = folder
        .read_dir()?
        .map(|entry| Ok(entry?.path()))
        .collect::<io::Result<_>>()?;
    entries.sort();
    Ok(entries)
}

/// The files of a folder with one extension.
pub fn files(folder: &Path, wanted: &str) -> io::Result<Vec<PathBuf>> {
    let mut files = entries(folder)?;
    files.retain(|path| {
        path.extension()
            .is_some_and(|extension| extension == wanted)
    });
    Ok(files)
}

/// The budget beside a sheet; where there is none, the program's.
pub fn budget(sheet: &Path) -> io::Result<u32> {
    let path = sheet.with_extension("budget");
    if !path.exists() {
        return Ok(BUDGET);
    }
    let text = fs::read_to_string(&path)?;
    text.trim_end()
        .parse()
        .map_err(|_| io::Error::other(format!("no budget in {}", path.display())))
}

/// What a sheet says and what its search comes to, however long that takes.
pub fn answer(sheet: &[u8], budget: u32, room: usize) -> Result<(Problem, Ended), Refusal> {
    let problem = reader::read(sheet, room)?;
    let (ended, _) = search::search(&problem, budget, u64::MAX).expect("any effort is allowed");
    Ok((problem, ended))
}

/// What the program prints for a sheet, were this its budget.
pub fn printed(sheet: &[u8], budget: u32) -> Vec<u8> {
    match answer(sheet, budget, ROOM) {
        Ok((problem, ended)) => listing::write(&ended, &problem),
        Err(refusal) => refusal_line(refusal),
    }
}

/// The exported text, empty for a refusal.
pub fn exported(sheet: &[u8], budget: u32) -> Vec<u8> {
    match answer(sheet, budget, ROOM) {
        Ok((problem, ended)) => Cnf::of(&problem, &ended).text(),
        Err(_) => Vec::new(),
    }
}

/// What is stored beside a text: 21, 22, or 0 with the atoms and clauses and then each clause on a line.
pub fn read_answer(text: &[u8]) -> Vec<u8> {
    let lines = match dimacs::read(text) {
        Err(number) => vec![number.to_string()],
        Ok(cnf) => {
            let mut lines = vec![format!("0 {} {}", cnf.atoms, cnf.clauses.len())];
            lines.extend(cnf.clauses.iter().map(|clause| {
                let numbers: Vec<String> = clause.iter().map(i32::to_string).collect();
                numbers.join(" ")
            }));
            lines
        }
    };
    lines
        .iter()
        .flat_map(|line| format!("{line}\n").into_bytes())
        .collect()
}
