#!/usr/bin/env python3
"""beside.py OLD NEW: public signatures with their clauses, types, definitions and theorems of the checkout NEW that OLD has otherwise.

It prints markdown, as docs/DESIGN-PASS.md ends with it: that page leaves out what is new in specs, and lemmas of proofs.
"""
import glob, os, re, sys
old, new = sys.argv[1:3]

def crates(root):
    return [l.split(':')[0].split()[0] for l in open(root + '/crates.txt') if l.strip() and not l.startswith('#')]

def strip(text):
    text = re.sub(r'^\s*//.*\n', '', text, flags=re.M)
    return re.sub(r'\s*// .*$', '', text, flags=re.M)

def src_items(root, crate):
    """(key -> text) of public functions (signature and clauses), structs, enums, constants, types, impls' ghost members"""
    items = {}
    for p in sorted(glob.glob(f'{root}/crates/{crate}/src/**/*.rt', recursive=True)):
        mod = os.path.relpath(p, f'{root}/crates/{crate}/src')[:-3].replace('/', '::')
        mod = '' if mod in ('lib', 'main') else mod + '::'
        lines = open(p).read().split('\n')
        ctx = ''
        i = 0
        while i < len(lines):
            l = lines[i]
            m = re.match(r'^impl(?:<[^>]*>)? (.*) \{$', l)
            if m:
                ctx = m.group(1)
                if ' for ' in ctx:
                    body = []
                    j = i
                    while lines[j] != '}':
                        body.append(lines[j]); j += 1
                    ghosts = [b for b in body if 'ghost' in b and 'ghost use' not in b]
                    items[f'{mod}impl {ctx}'] = '\n'.join([l] + ghosts + ['}'])
            if l == '}':
                ctx = ''
            m = re.match(r'^( *)((?:pub )?(?:extern "C" )?fn (\w+).*)$', l)
            if m and not (' for ' in ctx):
                j = i
                text = []
                while True:
                    text.append(lines[j])
                    if lines[j].endswith(' {') or lines[j].strip() == '{' or lines[j].endswith(';'):
                        if j == i or lines[j].strip() in ('{',) or lines[j].endswith(' {'):
                            break
                    j += 1
                    if j >= len(lines): break
                t = '\n'.join(text)
                t = re.sub(r'\s*\{\s*$', '', strip(t))
                pub = m.group(2).startswith('pub')
                typ = re.sub(r'<.*', '', ctx) + '::' if ctx else ''
                items[f'{mod}{typ}{m.group(3)}'] = (t, pub)
                i = j
            m = re.match(r'^pub (struct|enum) (\w+)', l)
            if m:
                j = i
                text = []
                while True:
                    text.append(lines[j])
                    if lines[j] == '}' or lines[j].endswith(';'): break
                    j += 1
                items[f'{mod}{m.group(1)} {m.group(2)}'] = strip('\n'.join(text))
                i = j
            m = re.match(r'^pub (const|type) (\w+)', l)
            if m:
                items[f'{mod}{m.group(1)} {m.group(2)}'] = strip(l)
            i += 1
    return items

START = re.compile(r"^(\s*)((?:abbrev |unfoldable |opaque )?pub )(?:(record|data|ruleset) )?([^\s:({]+)")
def antt_items(root, crate, folder):
    """(name -> (module, kind, text)): definitions whole, theorems by their statement"""
    out = {}
    for p in sorted(glob.glob(f'{root}/crates/{crate}/{folder}/**/*.antt', recursive=True)):
        base = os.path.basename(p)[:-5]
        if base in ('Lib', 'Answers', 'Invariants'): continue
        mod = os.path.relpath(p, f'{root}/crates/{crate}/{folder}')[:-5].replace('/', '.')
        params = []
        lines = open(p).read().split('\n')
        i = 0
        while i < len(lines):
            l = lines[i]
            m = START.match(l)
            if not m or l.strip().startswith('pub mod') or l.startswith('use '):
                i += 1; continue
            indent, mark, kind, name = m.groups()
            text = [l]; j = i + 1
            while j < len(lines) and (lines[j].startswith(indent + ' ') or lines[j] == '' and j + 1 < len(lines) and lines[j + 1].startswith(indent + '  ')):
                text.append(lines[j]); j += 1
            definition = kind in ('record', 'data', 'ruleset') or 'abbrev' in mark or 'unfoldable' in mark
            if definition and kind is None:
                while j < len(lines) and lines[j].strip() and not START.match(lines[j]) and not lines[j].strip().startswith('--') and (lines[j].startswith(indent) and not re.match(r'\s*module ', lines[j])):
                    text.append(lines[j]); j += 1
            # the module's parameters that stand around it
            around = [x for x in lines[:i] if re.match(r'\s*module _', x) and len(x) - len(x.lstrip()) < len(indent)]
            t = '\n'.join(x for x in text if not x.strip().startswith('--') and not x.strip().startswith('unfolding ')).rstrip()
            out[name] = (mod, 'definition' if definition else 'theorem', (('\n'.join(around[-2:]) + '\n') if indent and around else '') + t)
            i = max(j, i + 1)
    return out

def norm(t):
    return re.sub(r'\s+', ' ', t)

def show(title, a, b):
    print(f'**{title}**\n')
    print('```diff')
    for l in (a or '').split('\n') if a else []: print('- ' + l)
    for l in (b or '').split('\n') if b else []: print('+ ' + l)
    print('```\n')

total = {}
def count(k): total[k] = total.get(k, 0) + 1
for crate in crates(new):
    parts = []
    a, b = src_items(old, crate), src_items(new, crate)
    for k in sorted(set(a) | set(b)):
        x, y = a.get(k), b.get(k)
        px = x[1] if isinstance(x, tuple) else True if x else None
        py = y[1] if isinstance(y, tuple) else True if y else None
        if not (px or py): continue
        x = x[0] if isinstance(x, tuple) else x
        y = y[0] if isinstance(y, tuple) else y
        if x is None or y is None or norm(x) != norm(y):
            parts.append((('gone: ' if y is None else 'new: ' if x is None else '') + '`' + k + '`', x, y)); count('src ' + ('gone' if y is None else 'new' if x is None else 'changed'))
    for folder in ('specs', 'proofs'):
        a, b = antt_items(old, crate, folder), antt_items(new, crate, folder)
        for k in sorted(set(a) | set(b)):
            x, y = a.get(k), b.get(k)
            if folder == 'proofs' and not (x and y) : continue
            if x and y and norm(x[2]) == norm(y[2]): continue
            kind = (y or x)[1]
            mod = (y or x)[0]
            parts.append((('gone: ' if y is None else 'new: ' if x is None else '') + f'`{folder}/{mod}` {kind} `{k}`', x and x[2], y and y[2])); count(f'{folder} {kind} ' + ('gone' if y is None else 'new' if x is None else 'changed'))
    if parts:
        print(f'### {crate}\n')
        for p in parts: show(*p)
print(total, file=sys.stderr)
