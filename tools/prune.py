#!/usr/bin/env python3
"""Deletes the answers of a crate that the check finds alone.

Run in the crate's folder (committed, green):  ../../tools/prune.py [--margin] [PREFIX]
PREFIX: only proof folders whose path under proofs/ begins so.  It takes out all answers `pub G : goal.G` of each proofs/**/Answers.antt,
checks, puts back those that the check asks for, until the crate is proved; a file without answers goes.  With --margin it then also
checks with half the limits and puts back what that needs.  Run `rt tidy` afterwards.
"""
import os, re, subprocess, sys

margin = '--margin' in sys.argv
prefix = next((a for a in sys.argv[1:] if not a.startswith('-')), '')
START = re.compile(r'^pub ([^\s:]+) : goal\.')

def split(text):
    """head, and blocks: (name or None, text)"""
    parts = re.split(r'\n\n+', text.rstrip('\n'))
    blocks = []
    for part in parts:
        name = None
        for line in part.split('\n'):
            m = START.match(line)
            if m:
                name = m.group(1)
                break
        if name is None and blocks and not re.match(r'^(pub |abbrev |unfoldable |--|use |module |data |record |[\w\-\'◌]+ :)', part):
            blocks[-1] = (blocks[-1][0], blocks[-1][1] + '\n\n' + part)
        else:
            blocks.append((name, part))
    return blocks

files = {}
for root, _, names in os.walk('proofs'):
    # proofs/Answers.antt itself is a module of lemmas
    if root != 'proofs' and 'Answers.antt' in names and os.path.relpath(root, 'proofs').startswith(prefix):
        path = os.path.join(root, 'Answers.antt')
        files[path] = split(open(path).read())

keep = {path: set() for path in files}

def write(path):
    blocks = [t for n, t in files[path] if n is None or n in keep[path]]
    if keep[path]:
        open(path, 'w').write('\n\n'.join(blocks) + '\n')
    elif os.path.exists(path):
        os.remove(path)

def check(*args):
    p = subprocess.run(['rt', 'check', *args], capture_output=True, text=True)
    return p.returncode, p.stdout + p.stderr

for path in files:
    write(path)
for round in range(12):
    code, out = check()
    asked = {}
    for m in re.finditer(r'expected answers in (?:\./)?(proofs/\S+?/Answers\.antt); `search` did not prove (.*)', out):
        asked.setdefault(m.group(1), set()).update(re.findall(r'`([^`]+)`', m.group(2)))
    changed = False
    for path in files:
        own = {n for n, _ in files[path] if n}
        want = asked.get(path, set())
        hit = set()
        for w in want:
            if w in own:
                hit.add(w)
            else:  # a clause of it, or the goal that it is a clause of
                hit |= {n for n in own if w.startswith(n + '-') or n.startswith(w + '-')} or own
        if hit - keep[path]:
            keep[path] |= hit
            changed = True
            write(path)
    broken = set(re.findall(r'^fn \S+: (?:not proved|no proof).*$', out, re.M))
    print('round', round, 'exit', code, 'kept', sum(map(len, keep.values())), 'of', sum(1 for b in files.values() for n, _ in b if n), flush=True)
    if not changed:
        if code != 0:
            # something else is said: put back everything of the functions named
            for line in broken:
                print('  ', line[:200])
            back = False
            for path in files:
                folder = os.path.relpath(os.path.dirname(path), 'proofs').replace('/', '::')
                if any(('::' + folder + ':') in line for line in broken) and keep[path] != {n for n, _ in files[path] if n}:
                    keep[path] = {n for n, _ in files[path] if n}
                    write(path)
                    back = True
            if back:
                continue
            print(out[-3000:])
        break
if margin:
    for round in range(6):
        code, out = check('--margin')
        asked = {}
        for m in re.finditer(r'expected answers in (?:\./)?(proofs/\S+?/Answers\.antt); `search` did not prove (.*)', out):
            asked.setdefault(m.group(1), set()).update(re.findall(r'`([^`]+)`', m.group(2)))
        hit = False
        for path, want in asked.items():
            if path in files:
                own = {n for n, _ in files[path] if n}
                new = {n for n in own if n in want} - keep[path]
                if new:
                    keep[path] |= new
                    hit = True
                    write(path)
        print('margin', round, 'exit', code, 'kept', sum(map(len, keep.values())), flush=True)
        if not hit:
            break
    code, out = check()
    print('at the end: exit', code)
for path in sorted(files):
    print(len(keep[path]), 'of', sum(1 for n, _ in files[path] if n), path)
