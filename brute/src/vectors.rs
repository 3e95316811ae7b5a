//! Stored sheets with the listings that the program prints for them, some with a budget and the exported text,
//! and stored texts with what is read from them: the second implementation, and then the library, against each.

use crate::carried::Carried;
use crate::case::Case;
use crate::check::{check, Same};
use crate::export::EXPORT;
use crate::reader::ROOM;
use crate::reading;
use crate::stored::{budget, entries, exported, files, printed, read_answer};
use crate::watch;
use std::fs;
use std::io;
use std::path::Path;

#[derive(Default)]
struct Counts {
    passed: u64,
    failed: u64,
    carried: Carried,
}

impl Counts {
    /// Counts a file, and prints what is wrong with it.
    fn count(&mut self, path: &Path, faults: &[String]) {
        if faults.is_empty() {
            self.passed += 1;
        } else {
            self.failed += 1;
        }
        for fault in faults {
            println!("{}: {fault}", path.display());
        }
    }
}

/// All of a folder and of the folders in it. Tells whether all passed, and there is something.
pub fn run(folder: &Path) -> io::Result<bool> {
    let mut counts = Counts::default();
    all_in(folder, &mut counts)?;
    let Counts {
        passed,
        failed,
        carried,
    } = counts;
    println!(
        "{:>9} UNSAT texts refuted, {} logged clauses that follow from one filling",
        carried.refuted, carried.followed
    );
    println!("vectors: {passed} passed, {failed} failed");
    if passed + failed == 0 {
        eprintln!("brute: no sheet and no answer in {}", folder.display());
    }
    Ok(failed == 0 && passed > 0)
}

fn all_in(folder: &Path, counts: &mut Counts) -> io::Result<()> {
    for path in files(folder, "sheet")? {
        watch::from(path.display().to_string());
        let faults = sheet_faults(&path, &mut counts.carried)?;
        counts.count(&path, &faults);
    }
    for path in files(folder, "answer")? {
        watch::from(path.display().to_string());
        counts.count(&path, &text_faults(&path)?);
    }
    for path in entries(folder)?.iter().filter(|path| path.is_dir()) {
        all_in(path, counts)?;
    }
    Ok(())
}

/// A sheet with its listing and, where there is one, its exported text.
fn sheet_faults(path: &Path, carried: &mut Carried) -> io::Result<Vec<String>> {
    let case = Case {
        sheet: fs::read(path)?,
        budget: budget(path)?,
        room: ROOM,
        export: Some(EXPORT),
    };
    let mut faults = Vec::new();
    if printed(&case.sheet, case.budget) != fs::read(path.with_extension("listing"))? {
        faults.push("the second implementation's listing differs".into());
    }
    let text = path.with_extension("cnf");
    if text.exists() && exported(&case.sheet, case.budget) != fs::read(text)? {
        faults.push("the second implementation's export differs".into());
    }
    match check(&case) {
        Ok(Same::TooLarge) => faults.push("too large for the second implementation".into()),
        Ok(Same::Ended { carried: new, .. }) => {
            if new.too_large > 0 {
                faults.push("too large to refute".into());
            }
            carried.add(&new);
        }
        Ok(Same::Refused(_)) => (),
        Err(differences) => faults.extend(differences),
    }
    Ok(faults)
}

/// A text with what is read from it.
fn text_faults(path: &Path) -> io::Result<Vec<String>> {
    let text = fs::read(path.with_extension("cnf"))?;
    let mut faults = Vec::new();
    if read_answer(&text) != fs::read(path)? {
        faults.push("the second implementation differs".into());
    }
    faults.extend(reading::check(&reading::of(text)).err().unwrap_or_default());
    Ok(faults)
}
