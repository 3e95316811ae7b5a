//! Random sheets of many shapes, small enough that their meaning can be enumerated, with budgets and
//! rooms; some of them to be exported. Two-way rules stand among the rules in many. One sheet in three gets
//! blank columns, and one in four or so is damaged afterwards.

use crate::blanks;
use crate::case::Case;
use crate::damage;
use crate::export::EXPORT;
use crate::random::Random;
use crate::reader::{ROOM, SHEET};
use crate::rows::{clause, negated, rule, text, Row};
use crate::two_way;

/// The share of sheets that are exported whatever the answer, in percent: the export searches once more. Those that are
/// answered UNSAT all are.
const EXPORTED: usize = 35;
/// The share of sheets that get blank columns, in percent.
const BLANKS: usize = 35;

pub fn case(random: &mut Random) -> Case {
    let (mut sheet, limits) = sheet(random);
    if random.percent(BLANKS) {
        sheet = blanks::put(random, &sheet);
    }
    if !limits && random.percent(24) {
        for _ in 0..*random.pick(&[1, 1, 1, 2, 3]) {
            sheet = damage::damaged(random, &sheet);
        }
    }
    Case {
        sheet,
        budget: budget(random),
        room: room(random),
        export: random.percent(EXPORTED).then(|| export(random)),
    }
}

/// A sheet, and whether it is one at the limits, where a damage would hide what it is for.
fn sheet(random: &mut Random) -> (Vec<u8>, bool) {
    match random.below(2000) {
        0..=1 => (text(&log_limit(random)), true),
        2..=15 => (text(&table_limit(random)), true),
        16..=105 => (text(&sheet_limits(random)), true),
        106..=139 => (raw(random), true),
        140..=199 => (text(&wide(random)), false),
        200..=399 => (text(&tight(random)), false),
        400..=599 => (text(&order(random)), false),
        600..=899 => (text(&derived(random)), false),
        900..=999 => (text(&joins(random)), false),
        1000..=1199 => (text(&heads_alike(random)), false),
        1200..=1649 => (text(&rewriting(random)), false),
        _ => (text(&general(random)), false),
    }
}

fn budget(random: &mut Random) -> u32 {
    match random.below(10) {
        0 => u32::MAX,
        1 => random.below(300) as u32,
        2..=4 => random.below(7) as u32,
        _ => 1_000_000,
    }
}

fn room(random: &mut Random) -> usize {
    match random.below(400) {
        0 => ROOM - 1,
        1 => random.below(ROOM),
        2..=40 => ROOM + random.below(200),
        _ => ROOM,
    }
}

fn export(random: &mut Random) -> usize {
    match random.below(100) {
        0 => EXPORT - 1,
        1 => random.below(EXPORT),
        2..=11 => EXPORT + random.below(200),
        _ => EXPORT,
    }
}

/// How the rules and clauses of one sheet are drawn; shares in percent.
pub struct Style {
    pub constants: usize,
    pub arities: Vec<usize>,
    /// The symbols that heads and bodies are drawn from.
    pub heads: Vec<usize>,
    pub bodies: Vec<usize>,
    pub negated_heads: usize,
    pub negated_bodies: usize,
    pub false_bodies: usize,
    /// Constants among the arguments in rules.
    pub constant_terms: usize,
    /// The heads with symbol and sign of an earlier one, so that a filling can make both one literal.
    pub heads_alike: usize,
    /// The rules whose heads stay as they come, so that question 14 turns some away.
    pub unmended: usize,
    /// Two-way rules among the rules.
    pub two_ways: usize,
    /// The two-way rules with a reverse that are drawn as that one: it fires more often then.
    pub reversed: usize,
}

impl Style {
    fn rows(&self) -> Vec<Row> {
        let mut rows = vec![vec![1, self.constants as i32]];
        rows.extend(self.arities.iter().map(|&arity| vec![2, arity as i32]));
        rows
    }

    /// From `least` to `most` atoms with these symbols.
    fn atoms(&self, random: &mut Random, least: usize, most: usize, symbols: &[usize]) -> Vec<Row> {
        (0..random.between(least, most))
            .map(|_| random_atom(random, self.constants, &self.arities, symbols))
            .collect()
    }
}

/// A style in which every symbol may stand everywhere.
pub fn any_style(random: &mut Random, constants: usize, arities: Vec<usize>) -> Style {
    let symbols: Vec<usize> = (1..=arities.len()).collect();
    Style {
        constants,
        heads: symbols.clone(),
        bodies: symbols,
        arities,
        negated_heads: *random.pick(&[0, 10, 25, 50]),
        negated_bodies: *random.pick(&[0, 20, 40, 60]),
        false_bodies: *random.pick(&[0, 20, 50]),
        constant_terms: 12,
        heads_alike: 12,
        unmended: 4,
        two_ways: *random.pick(&[0, 0, 25, 60]),
        reversed: 50,
    }
}

fn signed(random: &mut Random, symbol: usize, negated_share: usize) -> i32 {
    if random.percent(negated_share) {
        -(symbol as i32)
    } else {
        symbol as i32
    }
}

/// A literal of a rule over the given variables; with none of them, constants alone.
fn pattern(
    random: &mut Random,
    style: &Style,
    symbols: &[usize],
    share: usize,
    names: &[i32],
) -> Row {
    let symbol = *random.pick(symbols);
    let mut row = vec![signed(random, symbol, share)];
    for _ in 0..style.arities[symbol - 1] {
        let constant = names.is_empty() || random.percent(style.constant_terms);
        row.push(if constant {
            -(random.between(1, style.constants) as i32)
        } else {
            *random.pick(names)
        });
    }
    row
}

pub fn variables_of(literals: &[Row]) -> Vec<i32> {
    literals
        .iter()
        .flat_map(|literal| literal[1..].iter().copied())
        .filter(|&term| term > 0)
        .collect()
}

/// Does the head at this place share a variable with another?
pub fn connected(heads: &[Row], place: usize) -> bool {
    let own = variables_of(&heads[place..=place]);
    let others = [&heads[..place], &heads[place + 1..]].concat();
    variables_of(&others).iter().any(|name| own.contains(name))
}

/// Mends several heads that do not hang together: one without arguments gives way to one with some, and one
/// that shares no variable gets one of another head. Where no symbol has arguments a single head stays.
fn mend(random: &mut Random, style: &Style, names: &[i32], heads: &mut Vec<Row>) {
    let mut symbols = style.heads.clone();
    symbols.retain(|&symbol| style.arities[symbol - 1] > 0);
    if symbols.is_empty() {
        heads.truncate(1);
    }
    if heads.len() == 1 {
        return;
    }
    for head in heads.iter_mut().filter(|head| head.len() == 1) {
        *head = pattern(random, style, &symbols, style.negated_heads, names);
    }
    for place in 0..heads.len() {
        if connected(heads, place) {
            continue;
        }
        let other = (place + random.between(1, heads.len() - 1)) % heads.len();
        let known = variables_of(&heads[other..=other]);
        let shared = *random.pick(if known.is_empty() { names } else { &known });
        if known.is_empty() {
            put_term(random, &mut heads[other], shared);
        }
        put_term(random, &mut heads[place], shared);
    }
}

/// Writes a term over one of a literal's arguments.
fn put_term(random: &mut Random, literal: &mut Row, term: i32) {
    let place = random.between(1, literal.len() - 1);
    literal[place] = term;
}

/// A line of kind 3 or 8.
pub fn random_rule(random: &mut Random, style: &Style) -> Row {
    if random.percent(style.two_ways) {
        return two_way::random_two_way(random, style);
    }
    let head_count = *random.pick(&[1, 1, 1, 2, 2, 2, 2, 3, 3]);
    rule_with(random, style, head_count)
}

fn rule_with(random: &mut Random, style: &Style, head_count: usize) -> Row {
    let body_count = if random.percent(style.false_bodies) {
        0
    } else {
        *random.pick(&[0, 1, 1, 1, 1, 2, 2])
    };
    let (heads, body) = heads_and_body(random, style, head_count, body_count);
    rule(&heads, &body)
}

/// The literals of a rule: few variables of any numbers, so that gaps and other orders come up. Where no symbol has
/// arguments there is one head, however many are asked for.
pub fn heads_and_body(
    random: &mut Random,
    style: &Style,
    head_count: usize,
    body_count: usize,
) -> (Vec<Row>, Vec<Row>) {
    let mut names: Vec<i32> = (1..=6).collect();
    random.shuffle(&mut names);
    let most = match style.constants {
        1..=3 => 6,
        4..=5 => 4,
        6..=9 => 3,
        _ => 2,
    };
    names.truncate(random.between(1, most));
    let mut heads: Vec<Row> = Vec::new();
    for _ in 0..head_count {
        let earlier = (!heads.is_empty()).then(|| random.pick(&heads).clone());
        let head = match (random.below(100), earlier) {
            (0..=2, Some(earlier)) => earlier,
            (3..=5, Some(earlier)) => negated(&earlier),
            (share, Some(mut again)) if share < 6 + style.heads_alike => {
                for term in &mut again[1..] {
                    *term = *random.pick(&names);
                }
                again
            }
            _ => pattern(random, style, &style.heads, style.negated_heads, &names),
        };
        heads.push(head);
    }
    let unmended = random.percent(style.unmended);
    if !unmended {
        mend(random, style, &names, &mut heads);
    }
    let bound = variables_of(&heads);
    let mut body = Vec::new();
    for _ in 0..body_count {
        let literal = match random.below(100) {
            0..=9 => negated(random.pick(&heads)),
            10..=12 => random.pick(&heads).clone(),
            // Question 12, more often where 14 may be broken too.
            13..=17 if unmended || random.one_in(1, 20) => {
                pattern(random, style, &style.bodies, 20, &[1, 2, 3, 4, 5, 6])
            }
            _ => pattern(random, style, &style.bodies, style.negated_bodies, &bound),
        };
        body.push(literal);
    }
    (heads, body)
}

pub fn random_atom(
    random: &mut Random,
    constants: usize,
    arities: &[usize],
    symbols: &[usize],
) -> Row {
    let symbol = *random.pick(symbols);
    let mut row = vec![symbol as i32];
    row.extend((0..arities[symbol - 1]).map(|_| random.between(1, constants) as i32));
    row
}

/// A clause over some atoms, now and then with a literal twice, with both signs, or empty.
pub fn random_clause(
    random: &mut Random,
    atoms: &[Row],
    units: usize,
    negated_share: usize,
) -> Row {
    let length = match random.below(100) {
        0 if random.one_in(1, 2) => 0,
        1..=6 => random.between(4, 8),
        _ if random.percent(units) => 1,
        _ => random.between(2, 3),
    };
    let mut literals: Vec<Row> = Vec::new();
    for _ in 0..length {
        let literal = match (random.below(100), literals.last()) {
            (0..=7, Some(last)) => last.clone(),
            (8..=12, Some(last)) => negated(last),
            _ => {
                let atom = random.pick(atoms);
                if random.percent(negated_share) {
                    negated(atom)
                } else {
                    atom.clone()
                }
            }
        };
        literals.push(literal);
    }
    clause(&literals)
}

fn random_arities(random: &mut Random, count: usize, constants: usize) -> Vec<usize> {
    let choices: &[usize] = if constants > 3 {
        &[0, 1, 1, 1, 2]
    } else {
        &[0, 0, 1, 1, 1, 1, 1, 2, 2, 3]
    };
    (0..count).map(|_| *random.pick(choices)).collect()
}

/// Any symbols, any rules, any clauses, all few.
fn general(random: &mut Random) -> Vec<Row> {
    let constants = *random.pick(&[1, 1, 2, 2, 2, 2, 3, 3, 3, 4, 5]);
    let count = random.between(1, 5);
    let arities = random_arities(random, count, constants);
    let style = any_style(random, constants, arities);
    let mut rows = style.rows();
    for _ in 0..random.below(7) {
        rows.push(random_rule(random, &style));
    }
    let atoms = style.atoms(random, 1, 8, &style.heads);
    let units = *random.pick(&[5, 30, 60]);
    let negated_share = *random.pick(&[5, 25, 50]);
    for _ in 0..random.below(11) {
        rows.push(random_clause(random, &atoms, units, negated_share));
    }
    rows
}

/// More constants and goal atoms than the meaning can be enumerated for: longer logs and listings, constants
/// of two digits.
fn wide(random: &mut Random) -> Vec<Row> {
    let constants = random.between(6, 14);
    let arities: Vec<usize> = (0..random.between(2, 6))
        .map(|_| random.between(1, 2))
        .collect();
    let mut style = any_style(random, constants, arities);
    style.negated_heads = *random.pick(&[0, 5, 20]);
    style.false_bodies = *random.pick(&[0, 15, 30]);
    let mut rows = style.rows();
    for _ in 0..random.between(2, 8) {
        rows.push(random_rule(random, &style));
    }
    let atoms = style.atoms(random, 10, 40, &style.heads);
    let units = *random.pick(&[10, 50, 80]);
    for _ in 0..random.between(8, 40) {
        rows.push(random_clause(random, &atoms, units, 15));
    }
    rows
}

/// Many clauses of two and three literals over few atoms: decisions and conflicts.
fn tight(random: &mut Random) -> Vec<Row> {
    let constants = random.between(1, 3);
    let arities = vec![1, 1, 1, 1, 0];
    let mut style = any_style(random, constants, arities);
    style.false_bodies = 60;
    let mut rows = style.rows();
    for _ in 0..random.below(6) {
        rows.push(random_rule(random, &style));
    }
    let count = random.between(4, 9);
    let mut atoms: Vec<Row> = Vec::new();
    while atoms.len() < count.min(4 * constants + 1) {
        let atom = random_atom(random, constants, &style.arities, &style.heads);
        if !atoms.contains(&atom) {
            atoms.push(atom);
        }
    }
    let negated_share = *random.pick(&[35, 50, 65]);
    for _ in 0..random.between(2 * count, 4 * count) {
        rows.push(random_clause(random, &atoms, 2, negated_share));
    }
    rows
}

/// An order with free pairs: the shape of document 01's printed sheet.
fn order(random: &mut Random) -> Vec<Row> {
    let constants = random.between(2, 5);
    let mut rows = vec![vec![1, constants as i32], vec![2, 2]];
    let (x, y, z) = *random.pick(&[(1, 2, 3), (3, 1, 2), (2, 5, 4), (6, 4, 1)]);
    let lt = |a: i32, b: i32| vec![1, a, b];
    let not = |a: i32, b: i32| vec![-1, a, b];
    let rules = [
        rule(&[lt(x, y), lt(y, z)], &[lt(x, z)]),
        rule(&[lt(x, x)], &[]),
        rule(&[lt(x, y), lt(y, x)], &[]),
        rule(&[lt(x, y)], &[not(y, x)]),
        rule(&[not(x, z), lt(x, y)], &[not(y, z)]),
        rule(&[not(x, z), lt(y, z)], &[not(x, y)]),
        rule(&[lt(x, y), lt(y, z)], &[lt(x, z), not(z, x)]),
    ];
    rows.push(rules[0].clone());
    for extra in &rules[1..] {
        if random.percent(45) {
            rows.push(extra.clone());
        }
    }
    random.shuffle(&mut rows[2..]);
    for _ in 0..random.between(2, 8) {
        let (a, b) = (
            random.between(1, constants) as i32,
            random.between(1, constants) as i32,
        );
        rows.push(match random.below(5) {
            0 => clause(&[lt(a, b)]),
            1 => clause(&[not(a, b)]),
            2 => clause(&[lt(a, b), not(b, a)]),
            _ => clause(&[lt(a, b), lt(b, a)]),
        });
    }
    rows
}

/// Clauses over some symbols and rules that create atoms of others, with all signs: what may set a
/// created atom, and what it then fires.
fn derived(random: &mut Random) -> Vec<Row> {
    let constants = *random.pick(&[1, 1, 2, 2, 3]);
    let goal: Vec<usize> = (1..=random.between(2, 3)).collect();
    let arities: Vec<usize> = (0..goal.len() + random.between(2, 4))
        .map(|_| *random.pick(&[0, 1, 1, 1]))
        .collect();
    let mut style = any_style(random, constants, arities);
    style.negated_heads = *random.pick(&[15, 30]);
    style.negated_bodies = *random.pick(&[30, 50]);
    style.unmended = 2;
    style.bodies = (1..=style.arities.len())
        .flat_map(|s| {
            if s > goal.len() {
                vec![s, s, s]
            } else {
                vec![s]
            }
        })
        .collect();
    let mut rows = style.rows();
    for _ in 0..random.between(3, 9) {
        rows.push(random_rule(random, &style));
    }
    rows.extend(few_clauses(random, &style, &goal));
    rows
}

/// One to seven clauses over two to six atoms with these symbols.
fn few_clauses(random: &mut Random, style: &Style, symbols: &[usize]) -> Vec<Row> {
    let atoms = style.atoms(random, 2, 6, symbols);
    (0..random.between(1, 7))
        .map(|_| random_clause(random, &atoms, 25, 35))
        .collect()
}

/// Rules of two and three heads with arguments enough for chains, over so many facts that they fire.
fn joins(random: &mut Random) -> Vec<Row> {
    let constants = *random.pick(&[2, 2, 3]);
    let arities = vec![2, random.between(1, 3), random.below(3)];
    let mut style = any_style(random, constants, arities);
    style.heads = vec![1, 1, 2];
    style.negated_heads = 5;
    style.constant_terms = *random.pick(&[5, 40]);
    style.unmended = 10;
    let mut rows = style.rows();
    for _ in 0..random.between(1, 2) {
        let head_count = *random.pick(&[2, 3, 3]);
        rows.push(rule_with(random, &style, head_count));
    }
    let atoms = style.atoms(random, 4, 20, &style.heads);
    rows.extend(atoms.iter().map(|atom| clause(std::slice::from_ref(atom))));
    for _ in 0..random.below(4) {
        rows.push(random_clause(random, &atoms, 10, 15));
    }
    rows
}

/// Heads alike in symbol and sign over few constants, so that one literal serves two or three of them; atoms
/// that rules create stand in such heads too, with decisions that undo them.
fn heads_alike(random: &mut Random) -> Vec<Row> {
    let constants = *random.pick(&[1, 2, 2, 3]);
    let goal = [1, 2];
    let arities = [1, 2, 1, 2, 1].to_vec();
    let mut style = any_style(random, constants, arities);
    style.heads_alike = 70;
    style.negated_heads = *random.pick(&[0, 10, 30]);
    style.bodies = vec![1, 2, 3, 3, 4, 4, 5, 5];
    let mut rows = style.rows();
    for _ in 0..random.between(2, 7) {
        // Many rules begin with what the clauses speak of, or nothing would be created.
        style.heads = if random.percent(40) {
            goal.to_vec()
        } else {
            (1..=5).collect()
        };
        let head_count = *random.pick(&[1, 2, 2, 3, 3]);
        rows.push(if random.percent(style.two_ways / 2) {
            two_way::random_two_way(random, &style)
        } else {
            rule_with(random, &style, head_count)
        });
    }
    rows.extend(few_clauses(random, &style, &goal));
    rows
}

/// Two-way rules between symbols that the clauses speak of and others, most with their reverse, among a few rules:
/// what one of them creates fires others, forwards and in reverse.
fn rewriting(random: &mut Random) -> Vec<Row> {
    let constants = *random.pick(&[1, 1, 2, 2, 3]);
    let (goal, others) = ([1, 2, 3], [4, 5, 6]);
    let mut arities = vec![1; 6];
    arities[2] = *random.pick(&[0, 1, 2]);
    arities[5] = *random.pick(&[0, 1, 2]);
    let mut style = any_style(random, constants, arities);
    style.negated_heads = *random.pick(&[0, 5, 20]);
    style.negated_bodies = *random.pick(&[0, 20, 40]);
    style.false_bodies = 10;
    style.two_ways = *random.pick(&[60, 100]);
    style.reversed = 80;
    let mut rows = style.rows();
    for _ in 0..random.between(2, 8) {
        (style.heads, style.bodies) = match random.below(4) {
            0..=1 => (goal.to_vec(), others.to_vec()),
            2 => (goal.to_vec(), (1..=6).collect()),
            _ => ((1..=6).collect(), (1..=6).collect()),
        };
        rows.push(random_rule(random, &style));
    }
    let atoms = style.atoms(random, 3, 8, &goal);
    for atom in &atoms {
        if random.percent(50) {
            rows.push(clause(std::slice::from_ref(atom)));
        }
    }
    let negated_share = *random.pick(&[10, 30, 50]);
    for _ in 0..random.between(1, 5) {
        rows.push(random_clause(random, &atoms, 5, negated_share));
    }
    rows
}

/// A clause that is always satisfied and brings its atoms into the table.
fn tautology(atoms: &[Row]) -> Row {
    let mut literals = atoms.to_vec();
    literals.push(negated(&atoms[0]));
    clause(&literals)
}

fn all_of(symbol: i32, count: usize) -> Vec<Row> {
    (1..=count as i32)
        .map(|constant| vec![symbol, constant])
        .collect()
}

/// The same with 1 as a second argument, the one by which heads hang together.
fn all_with_one(symbol: i32, count: usize) -> Vec<Row> {
    (1..=count as i32)
        .map(|constant| vec![symbol, constant, 1])
        .collect()
}

/// Around 256 atoms: two symbols create every pair, other goal atoms make up the rest.
fn table_limit(random: &mut Random) -> Vec<Row> {
    let (f, g, e, r) = (1, 2, 3, 4);
    let mut rows = vec![vec![1, 32], vec![2, 2], vec![2, 2], vec![2, 1], vec![2, 2]];
    // The shared variable has the lowest number, so that the plain walk over the fillings stays short.
    rows.push(rule(&[vec![f, 2, 1], vec![g, 3, 1]], &[vec![r, 2, 3]]));
    if random.percent(50) {
        rows.push(rule(
            &[vec![r, 2, 1], vec![e, 1]],
            &[vec![*random.pick(&[1, -1]) * f, 2, -1]],
        ));
    }
    if random.percent(50) {
        rows.push(rule(
            &[vec![r, 3, 4], vec![-e, 3]],
            &[vec![*random.pick(&[1, -1]) * r, 4, 3]],
        ));
    }
    let rest = if random.percent(30) {
        17
    } else {
        random.between(13, 21)
    };
    if random.percent(50) {
        rows.extend(all_of(e, rest).chunks(7).map(tautology));
    } else {
        rows.extend(all_of(e, rest).chunks(8).map(clause));
    }
    let mut units: Vec<Row> = all_with_one(f, 15);
    units.extend(all_with_one(g, 14));
    if random.percent(50) {
        let place = random.below(units.len());
        units[place] = negated(&units[place]);
    }
    rows.extend(
        units
            .iter()
            .map(|literal| clause(std::slice::from_ref(literal))),
    );
    rows
}

/// Around 512 logged clauses: at most one of 32 atoms, at most one of a few, and, as long as z is true,
/// an end that always fails, so that every pair is tried and logged. With z false a few more follow. The
/// pairs' constants are told apart by n, the lower one first; the 32 atoms have two.
fn log_limit(random: &mut Random) -> Vec<Row> {
    let (h, g, p, q, z, r, t, n) = (1, 2, 3, 4, 5, 6, 7, 8);
    let mut rows = vec![vec![1, 7]];
    rows.extend([2, 1, 0, 0, 1, 2, 1, 2].map(|arity| vec![2, arity]));
    rows.push(rule(&[vec![h, 1, 3], vec![h, 2, 4], vec![n, 1, 2]], &[]));
    rows.push(rule(&[vec![h, 3, 1], vec![h, 3, 2], vec![n, 1, 2]], &[]));
    rows.push(rule(&[vec![g, 3], vec![g, 2], vec![n, 2, 3]], &[]));
    let last = [
        vec![],
        vec![vec![t, 5]],
        vec![vec![t, 5]],
        vec![vec![r, 5, 4], vec![t, 5]],
        vec![vec![-z, 4]],
    ];
    let body: &Vec<Row> = random.pick(&last);
    rows.push(rule(&[vec![r, 5, 4], vec![-z, 4]], body));
    random.shuffle(&mut rows[9..]);
    rows.push(tautology(&[vec![z, 1]]));
    let pairs = (0..32).map(|place| vec![h, place / 6 + 1, place % 6 + 1]);
    rows.extend(pairs.collect::<Vec<Row>>().chunks(7).map(tautology));
    rows.push(tautology(&all_of(g, random.between(5, 6))));
    for (a, b) in [(p, q), (p, -q), (-p, q), (-p, -q)] {
        rows.push(clause(&[vec![-z, 1], vec![a], vec![b]]));
    }
    rows.push(tautology(&all_with_one(r, random.between(1, 7))));
    for high in 2..=6 {
        rows.extend((1..high).map(|low| clause(&[vec![n, low, high]])));
    }
    rows
}

/// Sheets at one of the limits of document 01, or one beyond it.
fn sheet_limits(random: &mut Random) -> Vec<Row> {
    let constants = random.between(1, 32);
    let mut rows = vec![vec![1, constants as i32]];
    let which = *random.pick(&[0, 0, 1, 1, 1, 1, 2, 2, 3, 3, 3, 3, 4, 5]);
    match which {
        0 => {
            rows.extend((0..random.between(15, 17)).map(|_| vec![2, random.below(4) as i32]));
        }
        1 => {
            rows.extend([vec![2, 0], vec![2, 1], vec![2, 1]]);
            let most = random.between(31, 33);
            let two_ways = *random.pick(&[0, 20, 60, 100]);
            let mut counted = 0;
            while counted < most {
                let mut style = any_style(random, constants.min(3), vec![0, 1, 1]);
                style.two_ways = two_ways;
                // One rule too many is turned away for that, however its heads are.
                style.unmended = if counted == 32 { 60 } else { 0 };
                let row = random_rule(random, &style);
                counted += two_way::counted(&row);
                rows.push(row);
            }
        }
        2 => {
            rows.extend([vec![2, 0], vec![2, 0], vec![2, 1]]);
            let atoms = [vec![1], vec![2], vec![3, 1], vec![3, constants as i32]];
            for _ in 0..random.between(63, 65) {
                rows.push(random_clause(random, &atoms, 1, 40));
            }
        }
        3 => {
            rows[0][1] = 32;
            rows.extend([vec![2, 1], vec![2, 1], vec![2, 0], vec![2, 1]]);
            rows.push(rule(&[vec![1, 1], vec![2, 1]], &[vec![-4, 1]]));
            let mut atoms: Vec<Row> = all_of(1, 32);
            atoms.extend(all_of(2, 32));
            atoms.push(vec![3]);
            atoms.truncate(random.between(63, 65));
            rows.extend(atoms.chunks(random.between(2, 8)).map(|part| {
                let literals: Vec<Row> = part
                    .iter()
                    .map(|atom| {
                        if random.percent(40) {
                            negated(atom)
                        } else {
                            atom.clone()
                        }
                    })
                    .collect();
                clause(&literals)
            }));
        }
        4 => {
            rows.push(vec![2, 3]);
            let atoms: Vec<Row> = (0..8)
                .map(|_| random_atom(random, constants, &[3], &[1]))
                .collect();
            let mut row = clause(&atoms);
            if random.percent(50) {
                row.push(1);
            }
            rows.push(row);
        }
        _ => {
            // Constants of two digits, in clauses and in a rule, at the edge of their range.
            rows.extend([vec![2, 2], vec![2, 2]]);
            let last = constants as i32;
            let over = last + random.below(2) as i32;
            rows.push(rule(
                &[vec![1, -last, 4], vec![2, 4, 2]],
                &[vec![-1, *random.pick(&[2, 4, -1, -over]), 4]],
            ));
            let shared = *random.pick(&[1, last]);
            rows.push(clause(&[vec![1, last, shared]]));
            rows.push(clause(&[vec![2, shared, *random.pick(&[1, last, over])]]));
        }
    }
    // Which question comes first, where the last line breaks two of them?
    let end = rows.len() - 1;
    if random.percent(if which < 3 { 50 } else { 20 }) {
        match random.below(6) {
            0..=1 => rows[end][1] = 9,
            2 => rows[end].push(1),
            3 => rows[end].truncate(2),
            4 => rows[end].truncate(1),
            _ => rows[end][0] = 1,
        }
    } else if which < 2 {
        rows.push(clause(&[]));
    }
    rows
}

/// Bytes that are hardly a sheet: none, too many, blanks, noise.
fn raw(random: &mut Random) -> Vec<u8> {
    match random.below(7) {
        0 => Vec::new(),
        1 => vec![b' '; SHEET + random.below(2)],
        2 => vec![b'\n'; random.between(1, 3)],
        3 => text(&vec![vec![1, 1]; 2000])[..SHEET + random.below(2)].to_vec(),
        4 => (0..random.between(1, 40))
            .map(|_| random.below(256) as u8)
            .collect(),
        5 => (0..random.between(1, 80))
            .map(|_| *random.pick(b"  1234-0\n"))
            .collect(),
        _ => {
            let mut sheet = random.pick(&[&b"   1   1\n"[..], b""]).to_vec();
            sheet.extend(vec![b' '; random.between(1, 150)]);
            if random.percent(50) {
                sheet.push(b'\n');
            }
            sheet
        }
    }
}
