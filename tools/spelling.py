#!/usr/bin/env python3
"""Brings the repository's own names to one spelling: definitions, lemmas, fields and local names in snake case.

usage: python3 tools/spelling.py [--dry]      at the top of the repository, once, after the spelling of the language was turned

Types, modules and constructors (a capital first) keep their names, and so do functions of src/, exported names, strings and what a
library has: in each file the names that it imports from another library, and names after a dot that no file here declares.
It prints what falls together or is left.
"""
import os, re, sys

DRY = '--dry' in sys.argv
ROOT = 'crates'
OWN = {l.split(':')[0].split()[0] for l in open('crates.txt') if ':' in l and not l.startswith('#')}
WORD = re.compile(r"[^\s(){},;.\[\]\"⟦⟧⟨⟩`«»&|!=+*/%<>^~@$#?:\\]+")
PLAIN = re.compile(r"^[a-z][A-Za-z0-9_'₀-₉-]*$")


def snake(n):
    s = re.sub(r'([a-z0-9])([A-Z])', r'\1_\2', n)
    s = re.sub(r'([A-Z])([A-Z][a-z])', r'\1_\2', s)
    return s.replace('-', '_').lower()


def odd(n):
    return bool(PLAIN.match(n)) and n != snake(n) and n not in ('')


def files(ext):
    for folder, dirs, names in os.walk(ROOT):
        dirs[:] = sorted(d for d in dirs if d != 'out')
        for n in sorted(names):
            if n.endswith(ext):
                yield os.path.join(folder, n)


def split_comment(line, mark):
    """The code and the comment of a line; a mark in a string does not count."""
    inside = False
    i = 0
    while i < len(line):
        if line[i] == '"' and (i == 0 or line[i - 1] != '\\'):
            inside = not inside
        if not inside and line.startswith(mark, i) and (mark == '//' or i == 0 or line[i - 1] in ' \t('):
            return line[:i], line[i:]
        i += 1
    return line, ''


def foreign_of(text):
    out = set()
    for m in re.finditer(r'(?:ghost )?use ([\w·.\'+-]+)\.\{([^}]*)\}', text):
        path = m.group(1)
        p = path.split('.')
        if p[0] == 'Rattle' and len(p) > 1 and p[1] in OWN and not (len(p) > 3 and p[3] in ('contracts', 'declared')) and not ('Symbol' in p or 'Key' in p):
            continue
        for n in m.group(2).split(','):
            n = n.strip()
            if not n:
                continue
            out.add(n.split(' as ')[0].strip())
    return out


DECL = re.compile(r"^\s*(?:(?:abbrev|unfoldable|pub|private|instance|ruleset)\s+)*([a-z][^\s(){}.,:;]*)(?:\s[^:=]*)?\s:\s")
declared = set()
stated = set()
for p in files('.antt'):
    for line in open(p, encoding='utf-8'):
        code, _ = split_comment(line, '--')
        m = DECL.match(code)
        if m:
            declared.add(m.group(1))
            if '/specs/' in p:
                stated.add(m.group(1))

# Names that would fall together: what specs/ states keeps the plain spelling, and a lemma beside it ends in _lem.
seen = {}
for p in files('.antt'):
    for n in set(WORD.findall(open(p, encoding='utf-8').read())):
        if odd(n) or n in declared:
            seen.setdefault(snake(n), set()).add(n)
LEFT = {'slice-ty'}
# Names that another name of ours has already in the plain spelling: a field in_place, a constructor named_table, a local name is_name.
chosen = {'inPlace': 'is_in_place', 'namedTable': 'named_in_table', 'allOnce': 'all_once', 'all_once': 'all_once_lem', 'is_name': 'is_name_lem', 'x_Fits': 'x_fits'}
for s, who in sorted(seen.items()):
    if len(who) < 2 or who & set(chosen):
        continue
    order = sorted(who, key=lambda n: (n not in stated, '-' in n, n != s, n))
    if order[0] != s:
        chosen[order[0]] = s
    if sum(n in stated for n in who) > 1:
        print('look: stated twice:', s, sorted(who))
    for n in order[1:]:
        chosen[n] = s + '_lem'
        print('turned: ' + n + ' to ' + s + '_lem, beside ' + order[0])

moved = {}
skipped = {}


def turn(code, foreign, dotted_ok):
    def one(m):
        n = m.group(0)
        if not (odd(n) or n in chosen) or n in foreign or n in LEFT:
            return n
        before = code[:m.start()]
        if before.endswith('.') and not before.endswith(' .') and (n not in declared or (not odd(n) and n in chosen)) and re.search(r"[\w')\]₀-₉]\.$", before):
            skipped.setdefault(n, 0)
            skipped[n] += 1
            return n
        if re.search(r"(?<![\w'])(tie|goal|goals|code|mir'|T'|LL)\.$", before):
            return n
        moved.setdefault(n, chosen.get(n, snake(n)))
        return moved[n]
    return WORD.sub(one, code)


def turn_comment(text):
    """In a comment: names in back quotes and names with a capital inside, where they are ours."""
    def tick(m):
        return '`' + re.sub(r"[a-z][A-Za-z0-9_'-]*", lambda w: chosen.get(w.group(0), snake(w.group(0))) if (odd(w.group(0)) and w.group(0) in declared) else w.group(0), m.group(1)) + '`'
    text = re.sub(r'`([^`]*)`', tick, text)
    return re.sub(r"(?<![\w'`-])[a-z]+[A-Z][A-Za-z0-9']*(?![\w-])", lambda w: chosen.get(w.group(0), snake(w.group(0))) if w.group(0) in declared else w.group(0), text)


def strings_apart(code, f):
    parts = re.split(r'("(?:[^"\\]|\\.)*")', code)
    return ''.join(x if i % 2 else f(x) for i, x in enumerate(parts))


tokens = {}
out = {}
for ext, mark in (('.antt', '--'), ('.rt', '//')):
    for p in files(ext):
        text = open(p, encoding='utf-8').read()
        foreign = foreign_of(text)
        if ext == '.rt':
            # a name of the code itself has no dash and no capital: only names that files of specs/ and proofs/ declare are turned
            foreign |= {n for n in WORD.findall(text) if (odd(n) and n not in declared) or not odd(n)}
        new = []
        for line in text.split('\n'):
            code, comment = split_comment(line, mark)
            # the dashes of a use line's path stay
            m = re.match(r"^(\s*(?:pub )?(?:ghost )?use )([\w.'+-]+)(.*)$", code)
            if m:
                tail = m.group(3)
                own = 'Rattle.' in m.group(2)
                path_names = m.group(2)
                new.append(m.group(1) + path_names + (strings_apart(tail, lambda x: turn(x, foreign, True))) + turn_comment(comment))
                continue
            new.append(strings_apart(code, lambda x: turn(x, foreign, True)) + turn_comment(comment))
        t = '\n'.join(new)
        out[p] = (text, t)
        for n in set(WORD.findall(text)):
            tokens.setdefault(n, set()).add(p)

# edits: the names that were turned, in the texts
for p in files('.edit'):
    text = open(p, encoding='utf-8').read()
    new = []
    for line in text.split('\n'):
        if line.startswith(('old:', 'new:')):
            line = line[:4] + WORD.sub(lambda m: snake(m.group(0)) if odd(m.group(0)) and (m.group(0) in moved or '-' not in m.group(0) and snake(m.group(0)) in tokens) else m.group(0), line[4:])
        new.append(line)
    out[p] = (text, '\n'.join(new))

together = {}
for a, b in moved.items():
    together.setdefault(b, set()).add(a)
for b, who in sorted(together.items()):
    if b.endswith('_lem') and len(who) == 1 and b not in tokens:
        continue
    if len(who) > 1:
        print('look: fall together:', b, sorted(who))
    elif b in tokens:
        a = next(iter(who))
        both = tokens[b] & tokens.get(a, set())
        if both:
            print('look: already there in a file that has both:', b, 'from', a, sorted(both)[:4])
        elif a in declared and b in declared:
            print('look: declared under both spellings:', b, 'from', a)
for n, k in sorted(skipped.items()):
    print('left: after a dot, declared nowhere here:', n, k)
print(len(moved), 'names turned')
if not DRY:
    for p, (a, b) in out.items():
        if a != b:
            open(p, 'w', encoding='utf-8').write(b)
