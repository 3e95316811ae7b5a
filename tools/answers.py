#!/usr/bin/env python3
"""Turns the proofs of a crate's functions from Proof.antt to Invariants.antt and Answers.antt.

usage: tools/answers.py CRATE..

The crates below have to prove. In each Proof.antt the answers that are found by a search go; the others keep their text and get the
goal's name of today, and the steps that they cite are cited by name, with no path of .before. What can't be turned is left with its
old name, which the next check points at.
"""

import json
import os
import re
import subprocess
import sys
import tempfile

TRIVIAL = re.compile(r"\S+ (?:\w+ )*?c(?: κs)? = (?:search rules|\(search rules\)|omega arith)\s*")
TOKEN = r"(?<![\w'₀·-])%s(?![\w'₀-])"


# of each function, by its path: the names of its `requires` and of its `ensures`
CLAUSES = {}
# and the arrays that it reads as slices
WHOLE = {}


def read_clauses():
    for folder, below, files in os.walk("crates"):
        below[:] = [x for x in below if x != "out"]
        for name in files:
            if not name.endswith(".rt"):
                continue
            parts = os.path.join(folder, name).split(os.sep)
            crate, module = parts[1], [x.removesuffix(".rt") for x in parts[3:]]
            module = [] if module == ["lib"] or module == ["main"] else [x for x in module if x != "mod"]
            with open(os.path.join(folder, name), encoding="utf-8") as file:
                text = file.read()
            inside = None
            for m in re.finditer(r"^impl(?:<.*?>)? (\w+)|^ *(?:pub )?(?:const )?(?:unsafe )?(?:extern \"C\" )?fn (\w+)|^ +(requires|ensures)\*? ?(\w*) ?\{|^\}", text, re.M):
                if m[1]:
                    inside = m[1]
                elif m[2]:
                    path = "::".join([crate, *module, *([inside] if inside else []), m[2]])
                    CLAUSES[path] = ([], [])
                    WHOLE[path] = re.findall(r"let (_\w+): [^=]*= (?:&)?(\w+);", text[m.start():].split("\n}", 1)[0])
                elif m[3]:
                    CLAUSES[path][m[3] == "ensures"].append(m[4])
                else:
                    inside = None


# stands before a step's name that is today's already
DONE = "\x01"


def norm(name):
    return name.replace("_", "-").lower()


def names_of(crate):
    to = tempfile.mkdtemp(prefix="names-")
    subprocess.run(["rt", "check", "--generated", to, "--old-names"], cwd=f"crates/{crate}", capture_output=True, text=True)
    with open(os.path.join(to, "names.json"), encoding="utf-8") as f:
        return json.load(f)


class Function:
    def __init__(self, entry):
        self.needs = entry["needs"]
        self.fields = {}
        self.callee = {}
        for _old, _above, (old, new), callee, _more in entry["places"]:
            self.fields.setdefault(norm(old), new)
            if callee:
                self.callee[norm(old)] = entry["params"].get(callee, [])
        self.places = {norm(p[0]): new for p, new in zip(entry["places"], entry["places_by_name"])}
        self.loops = [(old, new, names, changed) for ((old, new), names), changed in zip(entry["loops"], entry["changed"])]
        for old, new, _n, _c in self.loops:
            self.fields[norm(old)] = new
        # what a match tells: the value's parts and the equation, under the arm's name
        self.told = {}
        for arm in entry["arms"]:
            for name, field, path in arm[2] if arm else ():
                if path and path[0] == "given":
                    self.told[norm(field), tuple(path)] = f"{arm[0]}.{name}"
        self.asked = entry["asked"]
        # the names of the clauses, of callees and of the function itself
        self.clauses = {}
        for _old, _above, (_o, new), callee, _more in entry["places"]:
            ensures = CLAUSES.get(callee or "", ([], []))[1]
            if len(ensures) > 1:
                self.clauses[new] = ensures
        self.requires = []
        self.whole = []

    def goal(self, old):
        """Today's name of a goal, by the name that its type had."""
        at = norm(old)
        for was, now in self.needs:
            if norm(was) == at:
                return now
        fits = [it for it in self.needs if at.endswith("-" + norm(it[0]))]
        if fits:
            return max(fits, key=lambda it: len(it[0]))[1]
        return next((now for _was, now in self.needs if norm(now) == at), None)


def blocks(text):
    return [b for b in re.split(r"\n{2,}", text.strip()) if b.strip()]


def flattened(text, f):
    """Steps by name: no .before, today's field names, `is` for what a match tells."""
    aliases = {}
    # a let that only walks back is an alias of the facts
    changed = True
    while changed:
        changed = False
        while re.search(r"(?<![\w'.-])\((\w+)\)(?=[.\s)])", text):
            text = re.sub(r"(?<![\w'.-])\((\w+)\)(?=[.\s)])", r"\1", text)
        m = re.search(r"\n?[ ]*let ([\w-]+) = (c|[\w]+(?=\.before))((?:\.before)*) in(?=[ \n])", text)
        if m:
            name = m[1]
            text = text[: m.start()] + text[m.end():]
            base = m[2]
            text = re.sub(r"(?<![\w'.-])" + re.escape(name) + r"(?![\w'-])", base, text)
            changed = True
    text = re.sub(r"(?:\.before)+(?![\w'-])", "", text)

    # what a call leaves in what it was lent: a tuple's place is a name today
    lets = dict(re.findall(r"let ([\w-]+) = c\.([\w-]+) in", text))

    def lent(m):
        field = lets.get(m[1], m[2])
        if m[2] and m[1] != "c":
            field = m[2]
        params = f.callee.get(norm(field or ""), [])
        k = m[3].count(".1")
        last = m[3].endswith(".0")
        if last and k < len(params):
            return m[0][: m[0].index(".new")] + ".new." + params[k]
        if not last and k and k < len(params) + 1:
            return m[0][: m[0].index(".new")] + ".new." + params[k if k < len(params) else -1]
        return m[0]

    text = re.sub(r"(?<![\w'.])(\w+)(?:\.([\w-]+))?\.new((?:\.[01])+)(?![\w.]*[01])", lent, text)

    text = text.replace(".type-inv", ".type_inv")

    def told(m):
        path = tuple(m[2][1:].split("."))
        new = f.told.get((norm(m[1]), path))
        return "." + new if new else m[0]

    text = re.sub(r"\.([a-z][\w-]*)(\.given(?:\.[01])+)(?![\w'-])", told, text)

    others = set(re.findall(r"let ([\w-]+) = ", text))

    def field(m):
        new = None if m[1] in others else f.fields.get(norm(m[2]))
        return f"{m[1]}.{DONE + new if new else m[2]}"

    text = re.sub(r"(?<![\w'.-])([\w-]+)\.([a-z-][\w-]*)(?![\w'-])", field, text)
    return text


def finished(text, f):
    """What is left once all steps have their names."""
    text = text.replace(DONE, "")
    text = re.sub(r"(?<![\w'.])\((\w+)\)\.", r"\1.", text)
    # names of facts that have changed
    text = re.sub(r"(?<![\w'.-])c\.pre\b", "c.requires", text)
    text = re.sub(r"(\.(?:[\w-]+-test|if-[\w-]+))\.taken\b", r"\1.true", text)
    text = re.sub(r"(\.(?:[\w-]+-test|if-[\w-]+))\.left\b", r"\1.false", text)
    text = re.sub(r"\.inv\b", ".invariant", text)
    # the length of an array that is read as a slice
    for name, array in f.whole:
        if len([n for n, _a in f.whole if n == name]) == 1:
            text = re.sub(rf"\bc\.{name}(-\d+)?-1\.given\.0", f"c.told-{array}", text)
    # a test of a negation tells what it negates
    text = re.sub(r"not-(true|false) _ (\w+\.if-not-[\w-]+\.(?:true|false))", r"\2", text)
    text = re.sub(r"\(ap not (\(.*?\)|[\w.-]+) ∙ (\w+\.if-not-[\w-]+\.(?:true|false))\)", r"(ap not (\1 ∙ \2))", text)
    # a clause that has a name is cited by it
    for new, names in f.clauses.items():
        text = re.sub(r"(?<![\w'.-])(\w+)\." + re.escape(new) + r"\.ensures\.([0-9])(?![0-9])", lambda m: f"{m[1]}.{new}.ensures.{names[int(m[2])]}" if int(m[2]) < len(names) else m[0], text)
        for m in re.findall(r"let ([\w-]+) = c\." + re.escape(new) + r" in", text):
            text = re.sub(r"(?<![\w'.-])" + re.escape(m) + r"\.ensures\.([0-9])(?![0-9])", lambda k, m=m, names=names: f"{m}.ensures.{names[int(k[1])]}" if int(k[1]) < len(names) else k[0], text)
    if len(f.requires) > 1:
        text = re.sub(r"(?<![\w'.-])c\.requires\.([0-9])(?![0-9])", lambda m: f"c.requires.{f.requires[int(m[1])]}" if int(m[1]) < len(f.requires) else m[0], text)
    return text


def expanded(text, given):
    """The helpers over a step's facts: a fact by a let before the answer, what is no fact written out at its use."""
    lets = ""
    for name, params, type_, body in reversed(given):
        at, found = 0, False
        while True:
            m = re.compile(r"(?<![\w'.-])" + re.escape(name) + r"(?![\w'.-])").search(lets + text, at)
            if not m:
                break
            whole = lets + text
            i, args = m.end(), []
            while len(args) < len(params) and i < len(whole) and whole[i] == " ":
                i += 1
                start, depth = i, 0
                while i < len(whole) and (depth or whole[i] not in " \n),;]}"):
                    depth += whole[i] in "([{"
                    depth -= whole[i] in ")]}"
                    i += 1
                args.append(whole[start:i])
            if len(args) < len(params):
                at = m.end()
                continue
            split = len(lets)
            if type_:
                new, found = name, True
            else:
                term = body
                for p, a in zip(params, args):
                    term = re.sub(r"(?<![\w'.-])" + re.escape(p) + r"(?![\w'-])", lambda _m: a, term)
                term = term.strip()
                new = term if re.fullmatch(r"[\w.-]+", term) else f"({term})"
            begin = m.start()
            if begin and whole[begin - 1] == "(" and i < len(whole) and whole[i] == ")":
                begin, i = begin - 1, i + 1
            whole = whole[:begin] + new + whole[i:]
            if begin < split:
                lets, text = whole[: split + len(new) - (i - begin)], whole[split + len(new) - (i - begin):]
            else:
                lets, text = whole[:split], whole[split:]
            at = begin + len(new)
        if found:
            term = re.sub(r"(?<![\w'.-])" + re.escape(params[0]) + r"(?![\w'-])", "c", body).rstrip()
            kind = re.sub(r"(?<![\w'.-])" + re.escape(params[0]) + r"(?![\w'-])", "c", type_).strip()
            lets = f"\n    let {name} : {kind} =" + re.sub(r"\n", "\n    ", term) + "\n    in" + lets
    if not lets:
        return text
    return lets + ("\n   " + text if text.startswith(" ") else text)


def recorded(term, names):
    """A tuple at the end of the term, as the record of the named clauses."""
    for start in range(len(term)):
        if term[start] == "(":
            depth, cuts, end = 0, [], None
            for i in range(start, len(term)):
                depth += term[i] in "([{"
                depth -= term[i] in ")]}"
                if depth == 1 and term[i] == ",":
                    cuts.append(i)
                if depth == 0:
                    end = i
                    break
            if end is None or term[end + 1:].strip():
                continue
            parts, at = [], start + 1
            for cut in cuts + [end]:
                parts.append(term[at:cut].strip())
                at = cut + 1
            if parts[-1] == "":
                parts.pop()
            if len(parts) == len(names):
                return term[:start] + "record { " + "; ".join(f"{n} = {p}" for n, p in zip(names, parts)) + " }"
            if len(parts) > len(names):
                parts[len(names) - 1:] = ["(" + ", ".join(parts[len(names) - 1:]) + ")"]
                return term[:start] + "record { " + "; ".join(f"{n} = {p}" for n, p in zip(names, parts)) + " }"
    return term


def invariant(block, f):
    """An invariant or a measure over the record of the variables."""
    block = "\n".join(x for x in block.split("\n") if not x.startswith("--"))
    sign, body = block.split("\n", 1)
    extra = ""
    while not re.match(r"\S+ .*=", body.split("\n")[0]) and body.startswith("unfolding"):
        head, body = body.split("\n", 1)
        extra += head + "\n"
    m = re.match(r"abbrev (?:pub )?(invariant|decreases)-(\S+) :", sign)
    kind, was = m[1], m[2]
    names, new, changed = None, None, None
    for o, n, v, c in f.loops:
        if norm(o) == norm(was):
            names, new, changed = v, n, c
    head, term = body.split("=", 1)
    params = head.split()[1:]
    order = [(v, True) for v in names] + [(v, False) for v, c in zip(names, changed) if c]
    if len(params) != len(order):
        return f"-- look: {params} and {order}\n" + block, new
    turn = {}
    for p, (v, initial) in zip(params, order):
        is_changed = changed[names.index(v)]
        turn[p] = f"l.initial.{v}" if initial and is_changed else f"l.{v}"
    def one(m):
        return turn.get(m[0], m[0])
    term = re.sub(r"(?<![\w'₀.·-])[A-Za-z_][\w'₀-]*", one, term)
    return f"abbrev pub {kind}-{new} : goal.{kind}-{new}\n{extra}{kind}-{new} l ={term}", new


def turn(path, f, crate, module):
    with open(path, encoding="utf-8") as file:
        text = file.read()
    head, uses, given, answers = [], [], [], []
    helpers, unfolded = [], []
    for block in blocks(text):
        lines = block.split("\n")
        while lines and lines[0].startswith("--") and not uses and not answers and not given:
            head.append(lines.pop(0))
        comment = []
        while lines and lines[0].startswith("--"):
            comment.append(lines.pop(0))
        if not lines:
            answers.append("\n".join(comment))
            continue
        block = "\n".join(lines)
        if lines[0].startswith("use "):
            uses += [x for x in lines if not re.search(r"\.(Statement\.\{statement\}|Tie as tie)$", x)]
        elif re.match(r"pub \S+-spec :|pub \S+_spec :", lines[0]):
            continue
        elif re.match(r"abbrev (pub )?(invariant|decreases)-", lines[0]):
            given.append("\n".join(comment + [invariant(block, f)[0]]))
        elif re.match(r"\S+ :(?: tie\.Need-|$)", lines[0]):
            if lines[0].endswith(" :"):
                lines[:2] = [lines[0] + " " + lines[1].strip()]
            old = re.match(r"(\S+) : tie\.Need-(\S+)", lines[0])
            body = lines[1:]
            unfold = []
            while body and body[0].startswith("unfolding"):
                unfold.append(body.pop(0))
            body = "\n".join(body)
            goal = f.goal(old[2])
            if TRIVIAL.fullmatch(body) and not unfold:
                continue
            if goal is None:
                comment.append(f"-- look: {old[2]} is no goal today")
                goal = old[2]
            m = re.match(re.escape(old[1]) + r"((?: [\wκμ']+)*) =", body)
            args = m[1].replace(" κs", "") if m else " c"
            rest = body[m.end():] if m else body
            rest = finished(flattened(expanded(flattened(rest, f), helpers), f), f)
            if unfolded and not unfold:
                unfold = ["unfolding " + " ".join(unfolded)]
            elif unfolded:
                unfold[0] += "".join(" " + x for u in unfolded for x in u.split() if x not in unfold[0].split())
            asked = next((f.asked[was] for was, now in f.needs if now == goal and was in f.asked), None)
            if asked:
                rest = recorded(rest, asked)
            answers.append("\n".join(comment + [f"pub {goal} : goal.{goal}"] + unfold + [f"{goal}{args} ={rest}"]))
        else:
            block = flattened(block, f)
            def place(m):
                return "goal." + f.places.get(norm(m[1]), m[1])
            typed = "tie." in block
            block = re.sub(r"tie\.([\w-]+)((?: invariant-\S+| decreases-[\w-]+)*)", place, block)
            m = re.fullmatch(r"(?:abbrev )?(\S+) : (.*?)\n((?:unfolding [^\n]*\n)?)\1((?: [\w']+)+) =(.*)", block, re.S)
            if typed and m:
                sign, params = m[2], m[4].split()
                result = re.split(r" →\s*|\n\s*→ ", sign)
                lasting = None
                named = re.match(r"\((\w+) : goal\.[^)]*\)\s*→ (.*)", sign, re.S)
                if named and len(params) == 1:
                    lasting = named[2].strip()
                    lasting = re.sub(r"(?<![\w'.-])" + re.escape(named[1]) + r"(?![\w'-])", params[0], lasting)
                helpers.append((m[1], params, lasting, m[5]))
                if m[3]:
                    unfolded.append(m[3][len("unfolding "):].strip())
            else:
                answers.append("\n".join(comment + [finished(expanded(block, helpers), f)]))
    folder = os.path.dirname(path)
    top = f"Rattle.{crate}.proofs.{module}"
    if given:
        with open(os.path.join(folder, "Invariants.antt"), "w", encoding="utf-8") as file:
            file.write("\n".join(head + uses + [f"use {top}.Given as goal", ""]) + "\n" + "\n\n".join(given) + "\n")
    if answers:
        with open(os.path.join(folder, "Answers.antt"), "w", encoding="utf-8") as file:
            file.write("\n".join(head + uses + [f"use {top}.Goals as goal", ""]) + "\n" + "\n\n".join(answers) + "\n")
    os.remove(path)


def main():
    read_clauses()
    for crate in sys.argv[1:]:
        names = names_of(crate)
        for folder, below, files in os.walk(f"crates/{crate}/proofs"):
            below.sort()
            if "Proof.antt" not in files:
                continue
            module = os.path.relpath(folder, f"crates/{crate}/proofs").replace(os.sep, ".")
            key = f"Rattle-{crate}-proofs.{module}.Lts"
            if key not in names:
                print(f"look: {folder}: no names")
                continue
            f = Function(names[key])
            f.whole = WHOLE.get("::".join([crate, *module.split(".")]), [])
            f.requires = CLAUSES.get("::".join([crate, *module.split(".")]), ([], []))[0]
            turn(os.path.join(folder, "Proof.antt"), f, crate, module)


if __name__ == "__main__":
    sys.exit(main())
