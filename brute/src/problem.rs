//! What an accepted sheet says: symbols, rules and clauses, in the words of document 01; two-way rules, in those of
//! request 7.

/// A symbol with constants. Symbols and constants count from 1; places behind the arity are 0.
#[derive(Clone, Copy, PartialEq, Eq, Debug)]
pub struct Atom {
    pub symbol: usize,
    pub constants: [usize; 3],
}

/// An atom or its negation.
#[derive(Clone, Copy, PartialEq, Eq, Debug)]
pub struct Literal {
    pub negated: bool,
    pub atom: Atom,
}

impl Literal {
    pub fn negation(self) -> Literal {
        Literal {
            negated: !self.negated,
            atom: self.atom,
        }
    }
}

/// An argument in a rule.
#[derive(Clone, Copy, PartialEq, Eq, Debug)]
pub enum Term {
    Variable(usize),
    Constant(usize),
}

/// A literal of a rule, with terms in the place of constants.
#[derive(Clone, Debug)]
pub struct Pattern {
    pub negated: bool,
    pub symbol: usize,
    pub terms: Vec<Term>,
}

/// A constant for each of the variables 1 to 6; place 0 and unbound variables hold 0.
pub type Filling = [usize; 7];

impl Pattern {
    pub fn holds_variable(&self, variable: usize) -> bool {
        self.terms.contains(&Term::Variable(variable))
    }

    pub fn shares_variable(&self, other: &Pattern) -> bool {
        (1..=6).any(|variable| self.holds_variable(variable) && other.holds_variable(variable))
    }

    pub fn filled(&self, filling: &Filling) -> Literal {
        let mut constants = [0; 3];
        for (place, term) in self.terms.iter().enumerate() {
            constants[place] = match *term {
                Term::Variable(variable) => filling[variable],
                Term::Constant(constant) => constant,
            };
        }
        Literal {
            negated: self.negated,
            atom: Atom {
                symbol: self.symbol,
                constants,
            },
        }
    }
}

/// A propagation rule; an empty body means false.
#[derive(Clone, Debug)]
pub struct Rule {
    pub heads: Vec<Pattern>,
    pub body: Vec<Pattern>,
}

impl Rule {
    /// The variables that occur, lowest first. By range restriction all of them stand in the head.
    pub fn variables(&self) -> Vec<usize> {
        (1..=6)
            .filter(|&variable| self.heads.iter().any(|head| head.holds_variable(variable)))
            .collect()
    }

    /// Does each body variable stand in the head?
    pub fn range_restricted(&self) -> bool {
        let in_some = |literals: &[Pattern], variable| {
            literals
                .iter()
                .any(|literal| literal.holds_variable(variable))
        };
        (1..=6).all(|variable| !in_some(&self.body, variable) || in_some(&self.heads, variable))
    }

    /// Does each of several heads share a variable with another one? A single head needs no other.
    pub fn heads_connected(&self) -> bool {
        let connected = |place: usize| {
            self.heads
                .iter()
                .enumerate()
                .any(|(other, head)| other != place && self.heads[place].shares_variable(head))
        };
        self.heads.len() == 1 || (0..self.heads.len()).all(connected)
    }
}

/// What a line of kind 8 says: where the kept heads hold, the rewritten ones all hold exactly if the body does; an
/// empty body means false.
#[derive(Clone, Debug)]
pub struct TwoWay {
    pub kept: Vec<Pattern>,
    pub rewritten: Vec<Pattern>,
    pub body: Vec<Pattern>,
}

impl TwoWay {
    pub fn forward(&self) -> Rule {
        Rule {
            heads: [&self.kept[..], &self.rewritten].concat(),
            body: self.body.clone(),
        }
    }

    /// The reverse reading, whether or not it is a rule.
    pub fn reverse(&self) -> Rule {
        Rule {
            heads: [&self.kept[..], &self.body].concat(),
            body: self.rewritten.clone(),
        }
    }

    pub fn has_reverse(&self) -> bool {
        let reverse = self.reverse();
        !self.body.is_empty() && reverse.range_restricted() && reverse.heads_connected()
    }
}

/// What a line of kind 3 or 8 says.
#[derive(Clone, Debug)]
pub enum RuleLine {
    One(Rule),
    Two(TwoWay),
}

impl RuleLine {
    /// The rules that the line stands for, in the order in which they are numbered.
    pub fn rules(&self) -> Vec<Rule> {
        match self {
            RuleLine::One(rule) => vec![rule.clone()],
            RuleLine::Two(two_way) if two_way.has_reverse() => {
                vec![two_way.forward(), two_way.reverse()]
            }
            RuleLine::Two(two_way) => vec![two_way.forward()],
        }
    }

    /// What the line counts as at question 9: two rules for a two-way rule with a body, whether or not its reverse is
    /// there, and otherwise one.
    fn counted(&self) -> usize {
        match self {
            RuleLine::Two(two_way) if !two_way.body.is_empty() => 2,
            _ => 1,
        }
    }
}

#[derive(Clone, Debug, Default)]
pub struct Problem {
    pub constants: usize,
    pub arities: Vec<usize>,
    /// The lines of kinds 3 and 8: what an assignment has to satisfy.
    pub rule_lines: Vec<RuleLine>,
    /// The rules that they stand for, by number: what the search works on.
    pub rules: Vec<Rule>,
    pub clauses: Vec<Vec<Literal>>,
    /// The atoms of the clauses in order of first appearance.
    pub goal_atoms: Vec<Atom>,
}

impl Problem {
    pub fn add_rule_line(&mut self, line: RuleLine) {
        self.rules.extend(line.rules());
        self.rule_lines.push(line);
    }

    /// The rules as question 9 counts them.
    pub fn rules_counted(&self) -> usize {
        self.rule_lines.iter().map(RuleLine::counted).sum()
    }

    pub fn add_clause(&mut self, clause: Vec<Literal>) {
        for literal in &clause {
            if !self.goal_atoms.contains(&literal.atom) {
                self.goal_atoms.push(literal.atom);
            }
        }
        self.clauses.push(clause);
    }

    /// How many atoms there are over the sheet's symbols and constants.
    pub fn atom_count(&self) -> usize {
        self.arities
            .iter()
            .map(|&arity| self.constants.pow(arity as u32))
            .sum()
    }

    /// The place of an atom among all atoms over the sheet's symbols and constants, from 0.
    pub fn code(&self, atom: Atom) -> usize {
        let mut code = 0;
        for place in 0..self.arities[atom.symbol - 1] {
            code = code * self.constants + atom.constants[place] - 1;
        }
        for &arity in &self.arities[..atom.symbol - 1] {
            code += self.constants.pow(arity as u32);
        }
        code
    }
}
