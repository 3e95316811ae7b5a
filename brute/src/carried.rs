//! Request 9: the clauses carry an UNSAT alone. The text of an UNSAT sheet is refuted, and how often what the request
//! speaks of came up.

use crate::dimacs::Cnf;
use crate::refute::{self, Decided};

/// A refutation is given up where it looks at more clauses.
const EFFORT: u64 = 20_000_000;
/// Assignments are enumerated up to so many atoms.
const ATOMS: usize = 10;

#[derive(Default)]
pub struct Carried {
    /// UNSAT texts that were refuted, those of them that took decisions, and those that were too large for it.
    pub refuted: u64,
    pub took_decisions: u64,
    pub too_large: u64,
    /// Texts, of all answers, that every assignment was tried on: those that none satisfies, and those that one does.
    pub none_satisfies: u64,
    pub one_satisfies: u64,
    /// Logged clauses that follow from one filling of their rule.
    pub followed: u64,
    /// Those whose rule has two body literals.
    pub of_two: u64,
    /// Those that an assignment satisfies which does not satisfy the filling.
    pub says_less: u64,
}

impl Carried {
    pub fn add(&mut self, other: &Carried) {
        self.refuted += other.refuted;
        self.took_decisions += other.took_decisions;
        self.too_large += other.too_large;
        self.none_satisfies += other.none_satisfies;
        self.one_satisfies += other.one_satisfies;
        self.followed += other.followed;
        self.of_two += other.of_two;
        self.says_less += other.says_less;
    }

    /// All but those that are too large, which need not come up.
    pub fn named(&self) -> [(&'static str, u64); 7] {
        [
            ("UNSAT text refuted", self.refuted),
            (
                "UNSAT text that took decisions to refute",
                self.took_decisions,
            ),
            (
                "text that no assignment satisfies, all being tried",
                self.none_satisfies,
            ),
            (
                "text that an assignment satisfies, all being tried",
                self.one_satisfies,
            ),
            (
                "logged clause that follows from one filling of its rule",
                self.followed,
            ),
            (
                "logged clause of a rule with two body literals",
                self.of_two,
            ),
            (
                "logged clause that says less than its filling",
                self.says_less,
            ),
        ]
    }
}

/// The library's text of a sheet, for an UNSAT one to be refuted. With few atoms the refutation is held to all
/// assignments of the clauses that the text has to have, whatever the answer. An error tells what is wrong.
pub fn refute(text: &[u8], unsat: bool, cnf: &Cnf) -> Result<Carried, String> {
    let mut carried = Carried::default();
    let few = cnf.atoms <= ATOMS;
    if !unsat && !few {
        return Ok(carried);
    }
    let decided = refute::decide(text, EFFORT).ok_or("request 9: the text cannot be read")?;
    if unsat {
        match decided {
            Decided::Satisfiable => {
                return Err("request 9: UNSAT, but an assignment satisfies the text".into());
            }
            Decided::Unsatisfiable { decisions } => {
                carried.refuted += 1;
                carried.took_decisions += u64::from(decisions > 0);
            }
            Decided::TooLarge => carried.too_large += 1,
        }
    }
    if few && decided != Decided::TooLarge {
        let satisfiable = satisfiable(cnf);
        if (decided == Decided::Satisfiable) != satisfiable {
            return Err("request 9: the refutation and all assignments come apart".into());
        }
        carried.one_satisfies += u64::from(satisfiable);
        carried.none_satisfies += u64::from(!satisfiable);
    }
    Ok(carried)
}

/// Does an assignment satisfy the clauses? To be asked of few atoms only.
fn satisfiable(cnf: &Cnf) -> bool {
    (0..1u32 << cnf.atoms).any(|assignment| {
        let holds =
            |&number: &i32| (assignment >> (number.unsigned_abs() - 1) & 1 == 1) == (number > 0);
        cnf.clauses.iter().all(|clause| clause.iter().any(holds))
    })
}
