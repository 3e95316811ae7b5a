//! Random sheets with the library's listings and exported texts, written into a folder as `tests/vectors/02/export` has
//! them. `tests/sat.sh` gives the texts to a SAT program.

use crate::case::Case;
use crate::export::EXPORT;
use crate::generate;
use crate::interface;
use crate::random::Random;
use crate::reader::ROOM;
use crate::watch;
use std::fs;
use std::io;
use std::path::Path;

/// For so many UNSAT sheets there is one with another answer.
const OTHERS: u64 = 3;

/// Writes sheets until so many of them are UNSAT. Each has a logged clause: without one its text says nothing of rules.
pub fn write(folder: &Path, seed: u64, count: u64) -> io::Result<()> {
    fs::create_dir_all(folder)?;
    let (mut unsat, mut others, mut index) = (0, 0, 0);
    while unsat < count {
        watch::from(format!("sheet {index} of seed {seed}"));
        let case = Case {
            room: ROOM,
            ..generate::case(&mut Random::new(seed, index))
        };
        let (first, listed) = interface::both_calls(&case);
        let wanted = match first.values[..] {
            [0, _, logged, _, _] if logged > 0 => Some(&mut unsat),
            [_, _, logged, _, _] if logged > 0 && others < unsat / OTHERS => Some(&mut others),
            _ => None,
        };
        if let Some(written) = wanted {
            *written += 1;
            let listing = listed.room.front(listed.length);
            write_one(&folder.join(index.to_string()), &case, listing)?;
        }
        index += 1;
    }
    println!("texts: {unsat} of UNSAT sheets, {others} of others");
    Ok(())
}

fn write_one(path: &Path, case: &Case, listing: &[u8]) -> io::Result<()> {
    let exported = interface::export_call(case, EXPORT);
    let text = exported.export.front(exported.length);
    fs::write(path.with_extension("sheet"), &case.sheet)?;
    fs::write(path.with_extension("budget"), format!("{}\n", case.budget))?;
    fs::write(path.with_extension("listing"), listing)?;
    fs::write(path.with_extension("cnf"), text)
}
