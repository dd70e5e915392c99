#!/usr/bin/env python3
"""The list of cases of calls_run: make_cases.py HARNESS SERVE > crates/calls_run/stdin
HARNESS is what build.sh made from a checkout of numbat, SERVE the program `serve`. Edge cases (edges.py) and random ones (fixed seeds) are asked of
`serve`; an answer is stored only if numbat gives the same, or our own reading of the rules where numbat has no counterpart, or if it differs from
numbat's by a known difference, by the rule for it or as model.py confirms. The comment of a case says which. crates/calls_run/README.md has the form."""
import os, re, subprocess, sys, tempfile
HERE = os.path.dirname(os.path.abspath(__file__))
sys.path.insert(0, HERE)
import compare, edges, requests
BLOCK = 65536
# how many of each kind of edge case are kept: one in so many
THIN = {'one word is wrong': 24, 'kinds': 12, 'cut off': 12, 'exponents': 4, 'no exponent': 4, 'no product': 4, 'bindings': 24, 'well formed': 4, 'contains': 3, 'replaced in a set': 3,
        'replaced in a type': 2, 'a type': 3, 'comparing': 3, 'pool and table lent': 3, 'quantifying': 3, 'instantiating': 2, 'the work buffer': 3, 'nesting of what is given': 3,
        'added to a long set': 11, 'asking for a name': 3, 'entering': 2, 'a table': 3, 'length of a list': 4, 'records': 2, 'records, then 6': 2, 'judged': 23, 'bounds of the judge': 6, 'places': 5, 'a list of types': 3, 'many entries': 2, 'nesting in the judge': 3, 'records in the judge': 2, 'long lists of the judge': 3, 'what the judge is lent': 4,
        'the ceiling': 8, 'the ceiling of what is no set': 3, 'what the ceiling is lent': 2, 'several sets over no table': 3, 'work for several sets': 2, 'several sets': 6,
        'lengths': 5, 'a false length': 24, 'room for answers': 3, 'room for several sets': 3, 'a name is both, for the judge': 2, 'the first failure, 7 or 8': 2, 'one of several is no set': 3, 'a dimension and another kind': 5, 'meaning the same': 5, 'instantiating beside parameters': 4, 'records of new constraints': 5, 'what confirming is lent': 3}
RANDOM = (('small', 500), ('rich', 260), ('structs', 260), ('wide', 240), ('shared', 60), ('limits', 6), ('damaged', 80))
# a long case is left out: the list is for reading, too
LONG = 900
LONGEST = 10000


def plain(q):
    """the names of a request that can be written in the list, or None"""
    if q.result > 41472 or q.work > 16400 or q.work_was != requests.WORK_WAS or max(map(len, q.lists)) > 8200:
        return None
    if not q.whole:
        ok = len(q.pool) <= 8200 and len(q.table) <= 260 and not any(q.pool) and not any(q.table)
        return [] if ok else None
    names, at = [], 0
    for e in q.table[1:q.table[0] + 1] if q.table else []:
        names.append(bytes(q.pool[at:e]))
        at = e
    good = len(q.table) == len(names) + 1 == (q.table or [0])[0] + 1 and at == len(q.pool) and len(set(names)) == len(names) and len(names) <= 256
    if not good or any(not 1 <= len(n) <= 48 or re.search(rb'[^!-~]', n) for n in names):
        return None
    return [n.decode() for n in names]


def words(ws):
    """the length, and the words up to a last record that is only repeated from there on"""
    shown = len(ws)
    while shown > 4 and ws[shown - 1] == ws[shown - 5]:
        shown -= 1
    if len(ws) - shown < 32:
        shown = len(ws)
    return ' '.join(['%d:' % len(ws)] + [str(w) for w in ws[:shown]])


def lines(comment, q, names, r):
    pool, table = (8192, 257) if q.whole else (len(q.pool), len(q.table))
    out = ['# ' + (comment if len(comment) < 300 else comment[:297] + '..'), ' '.join(['case'] + names),
           'asks %d %d %d lent %d %d %d %d' % (q.call, q.x, q.y, pool, table, q.result, q.work)]
    out += ['%s %s' % (n, words(l)) for n, l in zip(('first', 'second', 'third', 'fourth'), q.sent())]
    out.append('gives %d %d %d %d, %s' % (*r[:4], words(r[5])))
    return '\n'.join(out) + '\n'


def in_blocks(cases):
    """empty lines fill blocks up, so that no case lies across the end of one, for readers that take blocks"""
    text = ''
    for c in cases:
        left = BLOCK - len(text) % BLOCK
        if left < len(c) + 1:
            text += '\n' * left
        text += c
    return text


def chosen(harness):
    seen = {}
    for why, q in edges.cases(compare.LAST):
        n = seen[why] = seen.get(why, -1) + 1
        k = THIN.get(re.sub(', other numbers$', '', why), 1) * (3 if why.endswith('other numbers') else 1)
        if n % k == 0:
            yield why, q
    for kind, n in RANDOM:    # of the calls that numbat has
        data = subprocess.run([harness] + ['dump', kind, '2026', str(n), str(compare.CALLS & (1 << 28) - 1)], stdout=subprocess.PIPE, check=True).stdout
        for d in requests.split(data):
            yield 'random, ' + kind, requests.unpack(d)


def main():
    harness, serve = sys.argv[1:]
    cases = [(why, q, plain(q)) for why, q in chosen(harness)]
    cases = [c for c in cases if c[2] is not None]
    data = b''.join(q.bytes() for _, q, _ in cases)
    with tempfile.NamedTemporaryFile() as f:
        f.write(data)
        f.flush()
        said = subprocess.run([harness] + ['check', serve, f.name], stdout=subprocess.PIPE, text=True).stdout.splitlines()
    answers = requests.replies(subprocess.run([serve], input=data, stdout=subprocess.PIPE).stdout)
    out, count = [], {}
    for (why, q, names), r, line in zip(cases, answers, said):
        f = line.split('\t')
        if f[0] == 'S':
            who, case = f[1], f[2]
        else:
            n = compare.explain(f[2], f[3], f[4]) if f[0] == 'D' else None
            if n is None:
                sys.exit('not explained: ' + line[:1000])
            who, case = 'difference ' + ' and '.join(map(str, n)), f[2]
        if not r[4] & 1 or len(r[5]) > q.result:    # what stands behind the set, or past the buffer, is not the list's to say
            continue
        c = lines('%s: %s%s' % (who, why, ': ' + case if case else ''), q, names, r)
        if len(c) > (LONG if 'random' in why else LONGEST) and (why != 'added to a long set' or count.get('long', 0) == 2):
            continue
        if len(c) > LONGEST:
            count['long'] = count.get('long', 0) + 1
        out.append(c)
        k = who.split()[0]
        count[k] = count.get(k, 0) + 1
    sys.stdout.write(in_blocks(out))
    sys.stderr.write('%d cases: %s\n' % (len(out), count))


if __name__ == '__main__':
    main()
