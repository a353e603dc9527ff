#!/usr/bin/env python3
"""Mends answers that are tuples where a record is asked, by what a check said.

usage: python3 tools/records.py LOG     in the crate's folder; LOG is what `rt check` wrote
"""
import os, re, sys
here = os.path.dirname(os.path.abspath(__file__))
text = open(os.path.join(here, 'answers.py'), encoding='utf-8').read()
space = {}
exec(text[text.index('def opening'):text.index('SRC = {}')], space)
log = open(sys.argv[1], encoding='utf-8').read().replace('so far: ', '')
seen = set()
for m in re.finditer(r"(?m)^(\S+Answers\.antt):(\d+):(\d+): error: `([^`]+)`: a value of [^\n]*\n\s+is built with `record \{ ([^}]*) \}`, not as a tuple", log):
    f, line, col, name, fields = m.group(1), int(m.group(2)), int(m.group(3)), m.group(4), m.group(5)
    if (f, name) in seen:
        continue
    seen.add((f, name))
    own = [x.split('=')[0].strip() for x in fields.split(';')]
    t = open(f, encoding='utf-8').read()
    q = re.search(r"(?ms)^%s c =\s*(.*?)(?=\n\n|\Z)" % re.escape(name), t)
    if not q:
        print('left:', f, name)
        continue
    body = q.group(1).rstrip()
    start = space['opening'](body)
    parts = space['top_parts'](body[start:]) if start is not None else None
    parts = space['flat'](parts, len(own))
    if not parts:
        print('left:', f, name, body[:100])
        continue
    if len(parts) != len(own):
        print('left:', f, name, own, len(parts))
        continue
    new = body[:start] + 'record { ' + '; '.join('%s = %s' % (a, b.strip()) for a, b in zip(own, parts)) + ' }'
    t = t[:q.start(1)] + new + t[q.start(1) + len(body):]
    open(f, 'w', encoding='utf-8').write(t)
    print('mended', f, name)
