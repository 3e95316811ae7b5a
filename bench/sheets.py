#!/usr/bin/env python3
"""sheets.py FOLDER: writes the sheets of the bench, FAMILY_NAME.sheet.

Five families: a cycles and lines of an order, closed under transitivity; b searches with many decisions
and conflicts; c joins of three heads, in which step B does the work; d build sheets of a timing machine,
as an order desk and a drawing office would write them; e worst cases for step B, in a small size. Every
sheet is the same in every run."""

import os
import random
import sys


class Sheet:
    """A sheet by its lines; symbols are handed back as their numbers."""

    def __init__(self, constants):
        self.constants = constants
        self.arities = []
        self.rules = []
        self.clauses = []
        self.goal = set()

    def symbol(self, arity):
        self.arities.append(arity)
        return len(self.arities)

    def rule(self, heads, body):
        self.rules.append([3, len(heads), len(body)] + [n for literal in heads + body for n in literal])

    def clause(self, *literals):
        """Adds the clause unless it would be one goal atom or one clause too many."""
        atoms = {(abs(literal[0]),) + literal[1:] for literal in literals}
        if len(self.goal | atoms) > 64 or len(self.clauses) == 64:
            return
        self.goal |= atoms
        self.clauses.append([4, len(literals)] + [n for literal in literals for n in literal])

    def text(self):
        lines = [[1, self.constants]] + [[2, arity] for arity in self.arities] + self.rules + self.clauses
        return ''.join(''.join('%4d' % number for number in line) + '\n' for line in lines)


# ---- a: an order, closed under transitivity

def order_rules(sheet, before):
    sheet.rule([(before, 1, 2), (before, 2, 3)], [(before, 1, 3)])
    sheet.rule([(before, 1, 1)], [])
    sheet.rule([(before, 1, 2), (before, 2, 1)], [])


def cycle(count):
    """1 before 2 before ... before 1: UNSAT."""
    sheet = Sheet(count)
    before = sheet.symbol(2)
    order_rules(sheet, before)
    for k in range(1, count + 1):
        sheet.clause((before, k, k % count + 1))
    return sheet


def line(count):
    """The same without the last step: the whole closure and no conflict."""
    sheet = Sheet(count)
    before = sheet.symbol(2)
    order_rules(sheet, before)
    for k in range(1, count):
        sheet.clause((before, k, k + 1))
    return sheet


# ---- b: decisions and conflicts

def pigeons(pigeon_count, hole_count):
    """Each pigeon has a hole, no hole has two: UNSAT if there are too few holes. A third head says which are
    two, since one literal may serve two heads."""
    sheet = Sheet(max(pigeon_count, hole_count))
    sits, other = sheet.symbol(2), sheet.symbol(2)
    sheet.rule([(sits, 1, 3), (sits, 2, 3), (other, 1, 2)], [])
    for pigeon in range(1, pigeon_count + 1):
        sheet.clause(*[(sits, pigeon, hole) for hole in range(1, hole_count + 1)])
    for pigeon in range(1, pigeon_count + 1):
        for higher in range(pigeon + 1, pigeon_count + 1):
            sheet.clause((other, pigeon, higher))
    return sheet


def colours(nodes, colour_count, edge_count, seed):
    """A random graph to be coloured."""
    draw = random.Random(seed)
    sheet = Sheet(max(nodes, colour_count))
    edge, colour = sheet.symbol(2), sheet.symbol(2)
    sheet.rule([(edge, 1, 2), (colour, 1, 3), (colour, 2, 3)], [])
    for node in range(1, nodes + 1):
        sheet.clause(*[(colour, node, k) for k in range(1, colour_count + 1)])
    pairs = [(x, y) for x in range(1, nodes + 1) for y in range(x + 1, nodes + 1)]
    for x, y in sorted(draw.sample(pairs, edge_count)):
        sheet.clause((edge, x, y))
    return sheet


def threes(atoms, clauses, seed):
    """Random clauses of three literals, no rule."""
    draw = random.Random(seed)
    sheet = Sheet(atoms)
    p = sheet.symbol(1)
    for _ in range(clauses):
        sheet.clause(*[(draw.choice([p, -p]), k) for k in draw.sample(range(1, atoms + 1), 3)])
    return sheet


def no_first(count):
    """Every pair is ordered, but each has one before it: UNSAT."""
    sheet = Sheet(count)
    before = sheet.symbol(2)
    order_rules(sheet, before)
    for x in range(1, count + 1):
        for y in range(x + 1, count + 1):
            sheet.clause((before, x, y), (before, y, x))
    for x in range(1, count + 1):
        sheet.clause(*[(before, y, x) for y in range(1, count + 1) if y != x])
    return sheet


# ---- c: joins

def join(heads, body, arities, constants, facts, free, seed, last=()):
    """One rule over random facts; some facts are free, so that step B runs again after each decision. Last is
    what the arguments of every fact end with."""
    draw = random.Random(seed)
    sheet = Sheet(constants)
    for arity in arities:
        sheet.symbol(arity)
    sheet.rule(heads, body)
    symbols = sorted({abs(head[0]) for head in heads})
    drawn = []
    while len(drawn) < facts + free:
        symbol = draw.choice(symbols)
        count = arities[symbol - 1] - len(last)
        fact = (symbol,) + tuple(draw.randint(1, constants) for _ in range(count)) + last
        if fact not in drawn:
            drawn.append(fact)
    for fact in drawn[:facts]:
        sheet.clause(fact)
    for k in range(facts, facts + free, 4):
        sheet.clause(*drawn[k:k + 4])
    return sheet


# ---- d: build sheets

def machine(heads, amplifiers, holders, others, seed, crossed=False):
    """A timing machine to be put together: which heads, amplifiers and holders are mounted, and in what
    order. With crossed, wishes are added that may not go with the rest."""
    draw = random.Random(seed)
    numbers = iter(range(1, 33))
    stands_there = [next(numbers) for _ in range(2)]
    head_parts = [next(numbers) for _ in range(heads)]
    amplifier_parts = [next(numbers) for _ in range(amplifiers)]
    holder_parts = [next(numbers) for _ in range(holders)]
    other_parts = [next(numbers) for _ in range(others)]
    positions = [next(numbers) for _ in range(3)]
    parts = stands_there + head_parts + amplifier_parts + holder_parts + other_parts
    sheet = Sheet(positions[-1])
    mounted, before, serves, stands, holds, excludes = (sheet.symbol(arity) for arity in (1, 2, 2, 2, 2, 2))
    sheet.rule([(before, 1, 1)], [])
    sheet.rule([(excludes, 1, 2), (mounted, 1), (mounted, 2)], [])
    sheet.rule([(holds, 1, 2)], [(mounted, 1)])
    sheet.rule([(serves, 1, 2)], [(mounted, 1), (mounted, 2)])
    sheet.rule([(serves, 1, 2)], [(before, 1, 2)])
    sheet.rule([(stands, 1, 2)], [(mounted, 1), (before, 2, 1)])
    sheet.rule([(before, 1, 2), (before, 2, 3)], [(before, 1, 3)])

    for group in (head_parts, amplifier_parts, holder_parts):
        for k, first in enumerate(group):
            for second in group[k + 1:]:
                if draw.random() < .35:
                    sheet.clause((excludes, first, second))
    for part in other_parts:
        sheet.clause((mounted, part))
    for _ in range(others + 2):
        # By number, so that these alone make no circle; a serving amplifier goes against that order.
        first, second = sorted(draw.sample(parts[2:], 2))
        sheet.clause((before, first, second))
    for k in range(0, heads, 2):
        sheet.clause(*[(stands, part, draw.choice(stands_there)) for part in head_parts[k:k + 3]])
    for part in head_parts:
        for stand in stands_there:
            if (stands, part, stand) in sheet.goal:
                able = draw.sample(amplifier_parts, 2)
                sheet.clause((-stands, part, stand), *[(serves, amplifier, part) for amplifier in able])
    for position in positions:
        sheet.clause(*[(holds, part, position) for part in draw.sample(holder_parts, 2)])
    if crossed:
        for amplifier in draw.sample(amplifier_parts, amplifiers // 2):
            sheet.clause((-mounted, amplifier))
    return sheet


# ---- e: worst cases. Free atoms are decided first, and below them four clauses have no way out: UNSAT after
# all choices. With more constants, literals, rules and free atoms these spend any budget.

def free(sheet, symbol, count, *last):
    for first in range(1, count + 1, 8):
        sheet.clause(*[(symbol, k) + last for k in range(first, min(first + 8, count + 1))])


def no_way_out(sheet):
    p, q = sheet.symbol(0), sheet.symbol(0)
    for x in (p, -p):
        for y in (q, -q):
            sheet.clause((x,), (y,))


def facts(sheet, symbol, count, *last):
    for k in range(1, count + 1):
        sheet.clause((symbol, k) + last)


def star(constants, rows, columns, rule_count, free_count):
    """Every pair of the literals t, with a third, is an instance and satisfied. Each decision adds a t with a
    shared constant of its own."""
    sheet = Sheet(constants)
    f, row, column, t, w = (sheet.symbol(arity) for arity in (1, 2, 2, 3, 0))
    sheet.rule([(row, 1, 3), (column, 2, 3)], [(t, 1, 2, 3)])
    for sign in (f, -f):
        sheet.rule([(sign, 1)], [(t, -constants, 1, -constants)])
    for _ in range(rule_count):
        sheet.rule([(t, 1, 2, 6), (t, 3, 4, 6), (t, -1, 5, 6)], [(w,), (t, 1, 2, 6)])
    facts(sheet, row, rows, 1)
    facts(sheet, column, columns, 1)
    sheet.clause((w,))
    free(sheet, f, free_count)
    no_way_out(sheet)
    return sheet


def undecided(constants, rows, columns, rule_count):
    """The joins of star stand before the rule that makes their literals: one t after the other is logged, and
    no decision is made."""
    sheet = Sheet(constants)
    row, column, t, w = (sheet.symbol(arity) for arity in (2, 2, 3, 0))
    for _ in range(rule_count):
        sheet.rule([(t, 1, 2, 6), (t, 3, 4, 6), (t, -1, 5, 6)], [(w,), (t, 1, 2, 6)])
    sheet.rule([(row, 1, 3), (column, 2, 3)], [(t, 1, 2, 3)])
    facts(sheet, row, rows, 1)
    facts(sheet, column, columns, 1)
    sheet.clause((w,))
    return sheet


def big_join(constants, rule_count, free_count):
    """Every decision is a head of every rule; the two other heads are a big join, satisfied."""
    sheet = Sheet(constants)
    d, f, a, b, pair = (sheet.symbol(arity) for arity in (1, 2, 3, 3, 2))
    sheet.rule([(d, 1)], [(a, 1, -1, -1), (a, 1, -2, -1)])
    sheet.rule([(d, 1)], [(b, 1, -1, -1), (b, 1, -2, -1)])
    sheet.rule([(a, 1, 2, 5), (b, 3, 4, 5)], [(pair, 2, 4)])
    for k in range(rule_count):
        sheet.rule([(f if k % 2 else -f, 5, 6), (a, 3, 1, 6), (b, 4, 2, 6)], [(pair, 1, 2)])
    facts(sheet, d, constants)
    free(sheet, f, free_count, 1)
    no_way_out(sheet)
    return sheet


def knot(constants, side, rule_count, free_count):
    """Like big_join, but all variables hang together by the heads and two body literals of three variables."""
    sheet = Sheet(constants)
    f, z, e, t, cube = (sheet.symbol(arity) for arity in (1, 2, 2, 3, 3))
    sheet.rule([(z, 1, 4), (z, 2, 4), (z, 3, 4)], [(t, 1, 2, 3), (cube, 1, 2, 3)])
    for sign in (f, -f):
        sheet.rule([(sign, 1)], [(e, 1, -1), (e, 1, -2)])
    for _ in range(rule_count):
        sheet.rule([(e, 6, 1), (t, 1, 3, 5), (t, 2, 4, 1)], [(cube, 3, 4, 5), (cube, 1, 2, 5)])
    facts(sheet, z, side, 1)
    free(sheet, f, free_count)
    no_way_out(sheet)
    return sheet


def echo(constants, rows, columns, rule_count, free_count):
    """All literals t are set anew by either choice of g, and all their pairs are instances, satisfied by bodies
    that repeat a variable: whoever doesn't ask about these on the way goes over all pairs."""
    sheet = Sheet(constants)
    f, g, row, column, t = (sheet.symbol(arity) for arity in (1, 1, 2, 2, 3))
    for sign in (g, -g):
        sheet.rule([(sign, 3), (row, 1, 3), (column, 2, 3)], [(t, 1, 2, 3)])
    for _ in range(rule_count):
        sheet.rule([(t, 1, 2, 6), (t, 3, 4, 6), (t, -1, 5, 6)], [(t, 1, 1, 6), (t, 3, 3, 6)])
    facts(sheet, row, rows, 1)
    facts(sheet, column, columns, 1)
    free(sheet, f, free_count)
    sheet.clause((g, 1), (-g, 1))
    no_way_out(sheet)
    return sheet


def dead_end(constants, parts, columns, rule_count, free_count):
    """No instance at all: t and s never agree on the last variable, and each new e is held against all pairs
    of them."""
    sheet = Sheet(constants)
    f, g, part, column, e, t, s, r = (sheet.symbol(arity) for arity in (1, 1, 2, 2, 2, 3, 3, 2))
    sheet.rule([(part, 1, 3), (column, 2, 3)], [(s, 1, 2, 3)])
    sheet.rule([(part, 1, 3)], [(t, -1, 1, -constants)])
    for sign in (g, -g):
        sheet.rule([(sign, 3), (part, 1, 3)], [(e, 1, -1)])
    for _ in range(rule_count):
        sheet.rule([(e, 5, 1), (t, 1, 2, 6), (s, 3, 4, 6)], [(r, 5, 1), (r, 1, 5)])
    facts(sheet, part, parts, 1)
    facts(sheet, column, columns, 1)
    free(sheet, f, free_count)
    sheet.clause((g, 1), (-g, 1))
    no_way_out(sheet)
    return sheet


def diagonal(constants, rows, columns, rule_count, free_count):
    """No instance at all: no t has one constant twice, which only the test of all heads tells."""
    sheet = Sheet(constants)
    f, g, row, column, e, t, r = (sheet.symbol(arity) for arity in (1, 1, 2, 2, 2, 3, 2))
    for sign in (g, -g):
        sheet.rule([(sign, 3), (row, 1, 3), (column, 2, 3)], [(t, 1, 2, 3)])
        sheet.rule([(sign, 3), (row, 1, 3)], [(e, 1, 3)])
    for _ in range(rule_count):
        sheet.rule([(e, 5, 6), (t, 1, 2, 6), (t, 3, 3, 6)], [(r, 5, 6), (r, 6, 5)])
    facts(sheet, row, rows, 1)
    for k in range(rows + 1, rows + columns + 1):
        sheet.clause((column, k, 1))
    free(sheet, f, free_count)
    sheet.clause((g, 1), (-g, 1))
    no_way_out(sheet)
    return sheet


U, T, OUT = 1, 2, 3
SHEETS = {
    'a_cycle_08': cycle(8), 'a_cycle_12': cycle(12), 'a_cycle_16': cycle(16), 'a_cycle_20': cycle(20),
    'a_line_10': line(10), 'a_line_16': line(16), 'a_line_22': line(22),
    'b_pigeons_5_4': pigeons(5, 4), 'b_pigeons_6_5': pigeons(6, 5), 'b_pigeons_7_6': pigeons(7, 6),
    'b_colours_9_3': colours(9, 3, 20, 3), 'b_colours_6_4': colours(6, 4, 14, 5),
    'b_threes_13': threes(13, 64, 20), 'b_threes_14': threes(14, 64, 51), 'b_no_first_5': no_first(5),
    'c_path_12': join([(U, 1, 2), (U, 2, 3), (U, 3, 4)], [(OUT, 1, 4)], [2, 3, 2], 12, 24, 8, 1),
    'c_path_32': join([(U, 1, 2), (U, 2, 3), (U, 3, 4)], [(OUT, 1, 4)], [2, 3, 2], 32, 40, 8, 2),
    'c_triangle_16': join([(U, 1, 2), (U, 2, 3), (U, 1, 3)], [(OUT, 1, 3)], [2, 3, 2], 16, 40, 12, 3),
    'c_late_16': join([(U, 1, 4), (U, 2, 4), (U, 3, 4)], [(OUT, 1, 3)], [2, 3, 2], 16, 28, 8, 4),
    'c_wide_16': join([(T, 1, 2, 3), (U, 3, 4), (-U, 4, 1)], [], [2, 3, 2], 16, 40, 12, 5),
    'c_hub_10': join([(T, 2, 3, 1), (T, 4, 5, 1)], [(OUT, 2, 5)], [2, 3, 2], 10, 16, 8, 6, (1,)),
    'c_cross_06': join([(T, 1, 3, 5), (T, 2, 4, 6), (U, 5, 6)], [(OUT, 1, 6)], [2, 3, 2], 6, 36, 4, 7),
    'd_machine_1': machine(2, 2, 3, 3, 1), 'd_machine_2': machine(3, 3, 3, 4, 31),
    'd_machine_3': machine(4, 4, 4, 4, 19), 'd_machine_4': machine(4, 4, 5, 5, 12),
    'd_machine_5': machine(6, 6, 5, 5, 7), 'd_crossed_1': machine(4, 4, 4, 4, 19, True),
    'd_crossed_2': machine(5, 5, 5, 6, 30, True), 'd_crossed_3': machine(6, 6, 5, 5, 29, True),
    'e_star': star(6, 4, 5, 4, 4), 'e_undecided': undecided(6, 5, 6, 3), 'e_big_join': big_join(6, 8, 4),
    'e_knot': knot(6, 4, 16, 4), 'e_echo': echo(6, 5, 6, 3, 3), 'e_dead_end': dead_end(7, 6, 6, 8, 3),
    'e_diagonal': diagonal(11, 6, 5, 8, 3),
}


def main(folder):
    os.makedirs(folder, exist_ok=True)
    for name, sheet in SHEETS.items():
        with open(os.path.join(folder, name + '.sheet'), 'w', encoding='ascii') as file:
            file.write(sheet.text())


if __name__ == '__main__':
    if len(sys.argv) != 2:
        sys.exit(__doc__)
    main(sys.argv[1])
