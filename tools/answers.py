#!/usr/bin/env python3
"""Turns the old proofs of functions (Proof.antt over a Tie) into Invariants.antt and Answers.antt.

usage: python3 tools/answers.py NAMES.json CRATE [FUNCTION..]     in crates/; NAMES.json is what `rt check --generated DIR --old-names` wrote for that crate

Only proofs that close a Tie are turned; what it cannot place is printed. Answers that say only `search rules` are left out, since the check tries them.
"""
import json, os, re, sys

names = json.load(open(sys.argv[1]))
crate = sys.argv[2]
only = set(sys.argv[3:])


def norm(s):
    return s.replace('-', '_')


def split_blocks(text):
    blocks, cur = [], []
    for line in text.split('\n'):
        if line.strip() == '':
            if cur:
                blocks.append(cur)
            cur = []
        else:
            cur.append(line)
    if cur:
        blocks.append(cur)
    return blocks


def old_key(need):
    """What names.json calls a need of the old Tie."""
    k = norm(need)
    out = [k]
    if k.startswith('overflow_'):
        out.append(k[9:])
    if k.startswith('slice_bounds_'):
        out.append('part_' + k[13:])
    if k.startswith('nonzero_'):
        out.append(k[8:])
    return out


def convert(folder, key):
    p = os.path.join(folder, 'Proof.antt')
    text = open(p, encoding='utf-8').read()
    if 'tie.spec' not in text:
        print('left: by hand', p)
        return
    rec = names.get(key)
    if rec is None:
        print('left: no names for', p, key)
        return
    fn = key.split('.Lts')[0].split('proofs.', 1)[1]
    head, uses, blocks = [], [], []
    for b in split_blocks(text):
        if all(l.startswith('--') for l in b) and not uses and not blocks:
            head += b
            continue
        rest = []
        for l in b:
            if l.startswith('--') and not uses and not blocks and not rest:
                head.append(l)
            elif l.startswith('use ') and not rest:
                uses.append(l)
            else:
                rest.append(l)
        if rest:
            blocks.append(rest)
    # the needs by their old names
    by_old = {}
    for old, new in rec['needs']:
        by_old.setdefault(norm(old), new)
    # steps: old to new, longest first
    steps = {}
    clauses = {}
    kept = {}
    for i, pl in enumerate(rec['places']):
        old, new = pl[2]
        if not old:
            continue
        steps[norm(old)] = new
        cl = rec['clauses'][i] if i < len(rec['clauses']) else None
        if pl[3] and pl[3] in rec['params']:
            kept[norm(old)] = rec['params'][pl[3]]
        if cl and cl.get('fields'):
            clauses[norm(old)] = cl['fields']
    loops = {}
    for n, (pair, vs) in enumerate(rec['loops']):
        loops[norm(pair[0])] = (pair[1], vs, rec['changed'][n])
        steps[norm(pair[0])] = pair[1]
    own = clauses_of(fn)
    inv, ans, other = [], [], []
    # lemmas of the file about a state of the old Tie become names within the answers that use them
    local = {}
    for b in blocks:
        said = []
        while b and b[0].startswith('--'):
            said.append(b.pop(0))
        if not b or not re.match(r"^([\w'-]+) : \(([\w']+) : tie\.[^)]*\) ?(.*)$", b[0]):
            b[:0] = said
        if not b:
            continue
        q = re.match(r"^([\w'-]+) : \(([\w']+) : tie\.[^)]*\) ?(.*)$", b[0])
        if not q:
            continue
        name, x, rest = q.group(1), q.group(2), q.group(3)
        sig, body, opens = [rest], [], []
        for l in b[1:]:
            if body:
                body.append(l)
            elif l.startswith('unfolding'):
                opens.append(l)
            elif l.startswith(name + ' '):
                body.append(l)
            else:
                sig.append(l)
        d = re.match(r"(?s)^%s %s((?: [\w'₀-₉_]+)*) =\s*(.*)$" % (re.escape(name), re.escape(x)), '\n'.join(body))
        if not d or sum(l.startswith(name + ' ') for l in body) != 1:
            print('look:', p, 'a lemma about a state:', name)
            continue
        kind = ' '.join(l.strip() for l in sig).strip()
        kind = kind[1:].strip() if kind.startswith('→') else kind
        at = lambda t: re.sub(r"(?<![\w.'-])%s(?![\w'-])" % re.escape(x), 'c', t)
        args = d.group(1).split()
        value = ('λ %s. ' % ' '.join(args) if args else '') + ' '.join(l.strip() for l in at(d.group(2)).split('\n'))
        local[name] = ('let %s : %s = %s in' % (name, at(kind), value), opens)
        b.clear()
    blocks = [b for b in blocks if b]
    order = list(local)
    for i, b in enumerate(blocks):
        if not re.match(r"^[^\s:]+ : tie\.Need", b[0]):
            continue
        text = '\n'.join(b[1:])
        need = []
        for name in reversed(order):
            word = re.compile(r"(?<![\w.'-])%s(?![\w'-])" % re.escape(name))
            if word.search(text) or any(word.search(local[n][0].split(' = ', 1)[1]) for n in need):
                need.append(name)
        if not need:
            continue
        lets = ' '.join(local[n][0] for n in reversed(need))
        opens = [o for n in reversed(need) for o in local[n][1]]
        eq = text.index(' =')
        text = text[:eq + 2] + ' ' + lets + text[eq + 2:]
        text = inline(text)
        text = re.sub(r"\.before(?![\w'-])", '', text)
        text = inline(text)
        for name in need:
            text = re.sub(r"\((?<![\w.'-])%s c\)" % re.escape(name), name, text)
            text = re.sub(r"(?<![\w.'-])%s c(?![\w'.-])" % re.escape(name), name, text)
        blocks[i] = [b[0]] + opens + text.split('\n')
    for b in blocks:
        m = re.match(r"^(abbrev )?(pub )?([^\s:]+) : tie\.(Need|invariant|decreases)-(\S+)", b[0])
        if m and m.group(4) == 'Need':
            new = None
            for k in old_key(m.group(5)):
                if k in by_old:
                    new = by_old[k]
                    break
            body = b[1:]
            own_name = m.group(3)
            plain = [l for l in body if not l.startswith('unfolding')]
            trivial = len(plain) == 1 and re.match(r"^\S+ c( κs)? = search rules$", plain[0]) and not any(l.startswith('unfolding') for l in body)
            if trivial:
                continue
            if new is None:
                print('look:', p, 'no goal for', m.group(5), '::', ' '.join(body)[:160])
                continue
            out = ['pub %s : goal.%s' % (new, new)]
            for l in body:
                l = re.sub(r"^%s c( κs)? =" % re.escape(own_name), lambda q: '%s c =' % new, l)
                out.append(l)
            text = inline('\n'.join(out[1:]))
            out = [out[0]] + path(text, steps, clauses, kept).split('\n')
            if m.group(5).startswith('returns') and own and len(own) > 1:
                out = record_of(out, new, own)
            ans.append(out)
        elif m:
            pair = loops.get(norm(m.group(5)))
            if pair is None:
                print('look:', p, 'no loop', m.group(5))
                continue
            new, vs, ch = pair
            body = b[1:]
            name = '%s-%s' % (m.group(4), new)
            first = body[0]
            if first.startswith('unfolding'):
                pre, body = [first], body[1:]
            else:
                pre = []
            q = re.match(r"^(\S+)((?: [^\s=]+)*) =(.*)$", body[0])
            params = [x.strip('«»') for x in q.group(2).split()]
            want = len(vs) + sum(ch)
            if len(params) != want:
                print('look:', p, 'parameters', params, vs, ch)
            sub = {}
            for i, v in enumerate(vs):
                if i < len(params):
                    sub[params[i]] = ('l.initial.' if ch[i] else 'l.') + v
            rest = [v for v, c in zip(vs, ch) if c]
            for i, v in enumerate(rest):
                if len(vs) + i < len(params):
                    sub[params[len(vs) + i]] = 'l.' + v
            lines = [q.group(3)] + body[1:]
            lines = [subst(l, sub) for l in lines]
            inv.append(['abbrev pub %s : goal.%s' % (name, name)] + pre + ['%s l =%s' % (name, lines[0])] + lines[1:])
        elif re.match(r"^pub \S+_spec : ", b[0]):
            continue
        else:
            other.append(path('\n'.join(b), steps, clauses, kept).split('\n'))
    keep = [u for u in uses if 'Statement' not in u and not u.rstrip().endswith('Tie as tie')]

    def with_uses(body, module):
        text = '\n'.join('\n'.join(x) for x in body)
        words = set(re.split(r"[\s(){},;\[\]]+", text)) | set(re.findall(r"[^\s(){},;.\[\]]+", text))
        out = []
        for u in keep:
            q = re.match(r"^use ([^{]*)\.\{([^}]*)\}$", u)
            if not q:
                out.append(u)
                continue
            got = []
            for n in q.group(2).split(','):
                n = n.strip()
                bare = n.split(' as ')[-1].strip()
                op = bare.replace('◌', '').strip()
                if bare in words or (('◌' in bare) and op in words):
                    got.append(n)
            if got:
                out.append('use %s.{%s}' % (q.group(1), ', '.join(got)))
        if 'ap not c.' in text:
            have = ' '.join(out)
            for n, home in (('ap', 'mathlib.Core.Path'), ('not', 'mathlib.Core.Bool')):
                if not re.search(r"[{ ]%s[,}]" % n, have):
                    out.append('use %s.{%s}' % (home, n))
        out.append('use Rattle.%s.proofs.%s.%s as goal' % (crate, fn, module))
        return out

    if inv:
        lines = head + with_uses(inv, 'Given') + ['']
        lines += ['\n'.join(x) + '\n' for x in inv]
        open(os.path.join(folder, 'Invariants.antt'), 'w', encoding='utf-8').write('\n'.join(lines).rstrip('\n') + '\n')
    if ans:
        body = other + ans
        lines = head + with_uses(body, 'Goals') + ['']
        lines += ['\n'.join(x) + '\n' for x in body]
        open(os.path.join(folder, 'Answers.antt'), 'w', encoding='utf-8').write('\n'.join(lines).rstrip('\n') + '\n')
    elif other:
        print('look:', p, 'lemmas that no answer uses now')
    os.remove(p)
    if not inv and not ans:
        try:
            os.removedirs(folder)
        except OSError:
            pass


def subst(line, sub):
    line = re.sub(r"«(\w+)»", lambda m: sub.get(m.group(1), sub.get(m.group(0), m.group(0))), line)
    return re.sub(r"(?<![\w.'₀-₉-])([a-z_][\w'₀-₉-]*)", lambda m: sub.get(m.group(1), m.group(1)), line)


def inline(text):
    """Without names for paths from c, so that each fact is cited by its own path: the last first, each as far as its parentheses go."""
    while True:
        found = list(re.finditer(r"let ([\w'₀-₉]+) = (c(?:\.[\w'-]+)*) in[ \n]+(?=\S)", text))
        if not found:
            return text
        m = found[-1]
        end, depth = m.end(), 0
        while end < len(text):
            if text[end] in '([{':
                depth += 1
            elif text[end] in ')]}':
                depth -= 1
                if depth < 0:
                    break
            end += 1
        rest = re.sub(r"(?<![\w.'₀-₉])%s(?![\w'₀-₉-])" % re.escape(m.group(1)), lambda _: m.group(2), text[m.end():end])
        text = text[:m.start()] + rest + text[end:]


def path(line, steps, clauses, kept):
    calls = {steps[k] for k in kept} | {re.sub(r'-(then|else|in)-.*$', '', steps[k]) for k in kept}
    line = re.sub(r"\.before(?![\w'-])", '', line)

    def one(m):
        k = norm(m.group(1))
        new = steps.get(k)
        if new is None and k.endswith('_lem'):
            k = k[:-4]
            new = steps.get(k)
        if new is None:
            return m.group(0)
        tail = m.group(2) or ''
        q = re.match(r"^\.auto((?:\.1)*)\.0(?![\w])(.*)$", tail)
        if q and k in kept:
            n = len(q.group(1)) // 2
            if n < len(kept[k]):
                return '.' + new + '.auto.' + kept[k][n] + q.group(2)
        if tail.startswith('.ensures') and k in clauses:
            f = clauses[k]
            parts = tail.split('.')[2:]
            i = 0
            while parts and i < len(f) - 1 and parts[0] in ('0', '1'):
                if parts[0] == '0':
                    parts.pop(0)
                    tail = '.ensures.' + f[i] + ''.join('.' + x for x in parts)
                    break
                parts.pop(0)
                i += 1
                if i == len(f) - 1:
                    tail = '.ensures.' + f[i] + ''.join('.' + x for x in parts)
                    break
        return '.' + new + tail
    line = re.sub(r"\.([a-z_][\w'-]*)((?:\.[a-z_0-9]+)*)", one, line)
    # the test of `if !x` is x's now
    # (where x is a call), and elsewhere it stays
    called = lambda w: re.sub(r'^if-not-', '', w.split('.')[1]) in calls
    line = re.sub(r"not-(true|false) _ (c\.if-not-[\w-]+\.\1)(?![\w.-])", lambda m: '@' + m.group(2) if called(m.group(2)) else m.group(0), line)
    line = re.sub(r"(?<!@)(c\.if-not-[\w-]+\.(?:true|false))(?![\w.-])", lambda m: '(ap not %s)' % m.group(1) if called(m.group(1)) else m.group(1), line)
    return line.replace('@c.if-not', 'c.if-not')


def record_of(out, new, own):
    """An answer to a contract of several clauses that was a pair is a record by their names."""
    text = '\n'.join(out[1:])
    m = re.match(r"(?s)^((?:unfolding[^\n]*\n)?)(.*?) =\s*(.*)$", text)
    if not m:
        return out
    body = m.group(3).strip()
    start = opening(body)
    if start is None:
        if re.match(r"^(search|omega|grind|cc|simp|rw|refl|subst|λ|absurd|record)\b", body):
            return out
        if body.startswith('let '):
            cut = body.rindex(' in ') + 4 if ' in ' in body else 0
            if re.match(r"^\s*(search|omega|grind|cc|simp|rw|refl|subst|λ|absurd|record)\b", body[cut:]):
                return out
        ways = ['given' + '.1' * i + '.0' for i in range(len(own) - 1)] + ['given' + '.1' * (len(own) - 1)]
        s = m.group(1) + m.group(2) + ' =\n    let given = ' + body + ' in\n    record { ' + '; '.join('%s = %s' % (a, b) for a, b in zip(own, ways)) + ' }'
        return [out[0]] + s.split('\n')
    parts = top_parts(body[start:])
    parts = flat(parts, len(own))
    if not parts or len(parts) != len(own):
        return out
    s = m.group(1) + m.group(2) + ' = ' + body[:start] + 'record { ' + '; '.join('%s = %s' % (a, b.strip()) for a, b in zip(own, parts)) + ' }'
    return [out[0]] + s.split('\n')


def opening(body):
    """Where the tuple begins that the body ends with, if it is the whole of it or what a let gives."""
    if not body.endswith(')'):
        return None
    depth = 0
    for i in range(len(body) - 1, -1, -1):
        if body[i] in ')]}':
            depth += 1
        if body[i] in '([{':
            depth -= 1
            if depth == 0:
                before = body[:i].rstrip()
                return i if before == '' or before.endswith(' in') or before.endswith('\nin') else None
    return None


def flat(parts, n):
    """A tuple whose last part is a tuple, as one of n parts."""
    while parts and len(parts) < n and parts[-1].strip().startswith('(') and opening(parts[-1].strip()) == 0:
        last = top_parts(parts[-1].strip())
        if not last or len(last) < 2:
            break
        parts = parts[:-1] + last
    return parts


def top_parts(body):
    depth, cur, parts = 0, '', []
    for i, ch in enumerate(body):
        if ch in '([{':
            depth += 1
            if depth == 1:
                continue
        if ch in ')]}':
            depth -= 1
            if depth == 0:
                if body[i + 1:].strip():
                    return None
                parts.append(cur)
                return [x for x in parts if x.strip()]
        if ch == ',' and depth == 1:
            parts.append(cur)
            cur = ''
            continue
        cur += ch
    return None


SRC = {}


def clauses_of(fn):
    """The names of the ensures of a function of the crate, where it has two or more."""
    mod, _, name = fn.rpartition('.')
    m = mod.split('.')
    files = [os.path.join(crate, 'src', *[x for x in m if x[:1].islower()]) + '.rt', os.path.join(crate, 'src', 'lib.rt'), os.path.join(crate, 'src', 'main.rt')]
    for f in files:
        if not os.path.exists(f):
            continue
        t = open(f, encoding='utf-8').read()
        q = re.search(r"fn %s\s*[(<][^{]*?((?:\n\s+(?:requires|ensures)[^\n]*)+)" % re.escape(name), t)
        if q:
            return re.findall(r"ensures\*? (\w+) \{", q.group(1))
    return []


base = 'Rattle-%s-proofs.' % crate
for key in names:
    if not key.startswith(base) or not key.endswith('.Lts'):
        continue
    fn = key[len(base):-4]
    folder = os.path.join(crate, 'proofs', *fn.split('.'))
    if only and fn not in only and fn.split('.')[-1] not in only:
        continue
    if os.path.exists(os.path.join(folder, 'Proof.antt')):
        convert(folder, key)
