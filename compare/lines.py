#!/usr/bin/env python3
"""Calculation lines once more: what the steps issue, and the answer, over the solver and the judge of model.py. own.py makes the line cases of
calls_run from `cases`. lines.py SERVE COUNT SEED compares random lines, some with open references; SERVE is the program `serve`."""
import os, random, sys
from fractions import Fraction as F
HERE = os.path.dirname(os.path.abspath(__file__))
sys.path.insert(0, HERE)
import model, requests
ABOUT = 'a line'
STEP = {'+': 3, '-': 4, '*': 5, '/': 6, '?': 8, 'if': 9}
KM, H, EUR, ONE = '(dim (b km 1 1))', '(dim (b h 1 1))', '(dim (b eur 1 1))', '(dim)'
PAYEE = '(struct Payee () ((iban (str))))'
OTHER = '(struct Other () ((iban (str))))'
# Two types that the solver makes equal with y bound to Bool, which stands in a product of the first.
RATIO = '(struct P ((dim (v x 1 1) (v y -1 1)) (list (var y))) ())', '(struct P ((dim) (list (bool))) ())'


def var(x): return ('var', x)


def issued(v, step, st):
    """the constraints of a step with the variable v; its operands leave the stack"""
    k = step[0]
    if k in ('const', 'ref'):
        return [('eq', var(v), step[1])]
    if k == '^':
        x = st.pop()
        return [('isdim', var(x)), ('eq', var(v), ('dim', model.mk({('v', x): F(step[1], step[2])})))]
    if k == 'if':
        r, l, c = st.pop(), st.pop(), st.pop()
        return [('eq', var(c), ('bool',)), ('eq', var(l), var(r)), ('eq', var(v), var(l))]
    r, l = st.pop(), st.pop()
    both = [('isdim', var(l)), ('isdim', var(r))]
    if k in '*/':
        return both + [('eq', var(v), ('dim', model.mk({('v', l): F(1), ('v', r): F(1 if k == '*' else -1)})))]
    return both + [('eq', var(l), var(r)), ('eq', var(v), ('bool',) if k == '?' else var(l))]


def answer(steps, names):
    """the refusal past the checks at entry, or the type of the last step"""
    cs, st = [], []
    for v, s in zip(names, steps):
        cs += issued(v, s, st)
        st.append(v)
    if sum(map(model.crecs, cs)) > 2048:
        return 8
    said = model.parse(model.solve(cs))
    if said[0] != 'accepted':
        return {'unsolved': 5, 'nondim': 6}.get(said[0]) or int(said[0][-1])
    bs, bounds = model.found(said)
    return model.judged(cs, bs, bounds) or model.rep(var(names[len(steps) - 1]), bs)


class Line:
    """a line as text: constants and references with their types"""
    def __init__(self, text, known=(), lent=None, more=(), **room):
        self.known, self.room = [model.rd(model.parse(t)[0]) for t in known], room
        self.steps = [self.step(p) for p in model.parse(text)]
        self.lent = ['v%02d' % i for i in range(len(self.steps))] if lent is None else lent
        self.more = more

    def step(self, p):
        if isinstance(p, str):
            return (p,)
        if p[0] == '^':
            return ('^', int(p[1]), int(p[2]))
        return ('ref', self.known[int(p[1])], int(p[1])) if p[0] == 'ref' else ('const', model.rd(p))

    def request(self):
        w, words, types, lines = requests.Words(self.more), [], [], []
        for t in self.known:
            lines.append(len(types) // 4)
            types += w.type(t)
        for s in self.steps:
            if s[0] == 'const':
                words += [1, len(types) // 4, 0, 0]
                types += w.type(s[1])
            elif s[0] == 'ref':
                words += [2, s[2], 0, 0]
            else:
                words += [7, 0, s[1] & 0xffffffff, s[2]] if s[0] == '^' else [STEP[s[0]], 0, 0, 0]
        lent = [n if isinstance(n, int) else w.number(n) for n in self.lent]
        return requests.Request(31, w.names, [words, types, lines, lent], **self.room), w

    def expected(self): return answer(self.steps, self.lent)


def said():
    """why, the line, and the answer where the checks at entry refuse it"""
    for op in '+-*/?':
        yield 'each step', Line('%s %s %s' % (KM, KM, op)), None
        yield 'other dimensions', Line('%s %s %s' % (KM, H, op)), None
        yield 'not a dimension', Line('(bool) %s %s' % (KM, op)), None
    yield 'each step', Line(KM), None
    yield 'each step', Line('(ref 0)', [EUR]), None
    yield 'each step', Line('(ref 1) (ref 0) /', [H, KM]), None
    yield 'each step', Line('%s %s ? %s %s if' % (KM, KM, EUR, EUR)), None
    yield 'a condition that is money', Line('%s %s %s if' % (EUR, KM, KM)), None
    yield 'arms that differ', Line('(bool) %s %s if' % (KM, H)), None
    for t in (KM, ONE, '(dim (b km 2 1) (b h -1 1))', '(bool)'):
        for n, d in ((0, 1), (1, 1), (1, 2), (-2147483647, 1), (2147483647, 2)):
            yield 'raised', Line('%s (^ %d %d)' % (t, n, d)), None
    yield 'raised by no fraction', Line(KM + ' (^ 0 2)'), 1
    yield 'raised by no fraction', Line(KM + ' (^ 2 4)'), 1
    yield 'raised out of range', Line('%s (^ 2147483647 1) (^ 2 1)' % KM), None
    yield "a payee's record beside another's", Line('(bool) %s %s if' % (PAYEE, OTHER)), None
    yield "a payee's record beside its own", Line('(bool) %s %s if' % (PAYEE, PAYEE)), None
    yield "a payee's record compared", Line('%s %s ?' % (PAYEE, OTHER)), None
    yield 'lists', Line('(bool) (list %s) (list %s) if' % (KM, KM)), None
    yield 'arms that the judge denies', Line('(bool) (ref 0) %s if' % RATIO[1], [RATIO[0]]), None
    yield 'a missing operand', Line(KM + ' +'), 1
    yield 'two types left', Line('%s %s' % (KM, KM)), 1
    yield 'an empty line', Line(''), 1
    yield 'an open constant', Line('(var x)'), 1
    yield 'an open reference', Line('(ref 0)', ['(var x)']), None
    yield 'open references', Line('(ref 0) %s +' % KM, ['(var x)']), None
    yield 'open references', Line('%s (ref 0) *' % ONE, ['(par p)']), None
    yield 'open references', Line('(ref 0) %s *' % ONE, ['(par p)']), None
    yield 'open references', Line('(ref 0) (ref 1) +', ['(var x)', '(par x)']), None
    yield 'open references', Line('(ref 0) (^ 1 2) (ref 0) *', ['(dim (v x 1 1) (b km 1 1))']), None
    yield '128 steps', Line('%s %s' % (KM, ' '.join('(^ 1 1)' for _ in range(127)))), None
    yield '129 steps', Line('%s %s' % (KM, ' '.join('(^ 1 1)' for _ in range(128)))), 8
    for n in (2, 3, 4):
        yield 'names lent', Line('%s %s *' % (KM, H), lent=['a', 'b', 'c', 'd'][:n]), 10 if n < 3 else None
    yield 'a name lent twice', Line('%s %s *' % (KM, H), lent=['a', 'b', 'a']), 4
    yield 'a name lent twice that no step needs', Line('%s %s *' % (KM, H), lent=['a', 'b', 'c', 'b']), 4
    yield "a field's name lent", Line(PAYEE, lent=['iban']), 4
    yield "a struct's name lent", Line(PAYEE, lent=['Payee']), 4
    yield "a dimension's name lent", Line('%s %s *' % (KM, H), lent=['a', 'km', 'b']), 4
    yield "a reference's name lent", Line('(ref 0)', ['(var x)'], lent=['x']), 4
    yield 'a name of a type that no step points to', Line(KM, ['(var x)'], lent=['x']), None
    yield 'a number lent that is not held', Line(KM, lent=[200]), 3
    yield 'names in another order', Line('%s %s *' % (KM, H), lent=['c', 'b', 'a'], more=['a', 'b', 'c']), None
    wide = '(fn (%s) (bool))' % ' '.join(['(str)'] * 1000)
    yield 'a set of over 2,048 records', Line('(bool) (ref 0) (ref 0) if', [wide]), None
    yield 'a long reference', Line('(ref 0)', [wide]), None
    yield 'a short result buffer', Line(KM, result=8191), 10
    yield 'a short work buffer', Line(KM, work=16383), 10
    many = '(dim %s)' % ' '.join('(b d%02d 1 1)' % i for i in range(64))
    yield 'over 64 factors', Line('%s %s *' % (many, EUR)), None
    yield '64 factors', Line('%s %s /' % (many, many)), None
    for i in range(1, 10):
        yield 'a sum of products', Line(' '.join('%s %s *' % ((KM, H), (H, KM))[(j * i) % 2] for j in range(i % 9 + 2)) + ' +' * (i % 9 + 1)), None


def some_type(r, deep=0, open_ones=False):
    k = r.randrange(12)
    if open_ones and k < 5:
        return r.choice(['(var x)', '(var y)', '(par p)', '(dim (v x %d 2) (b km 1 1))' % r.choice((1, 2, 3)), '(dim (v x 1 1))', '(list (var y))', '(dim (p p 1 1))'])
    if k < 8:
        return '(dim%s)' % ''.join(' (b %s %d %d)' % (n, r.choice((-2, -1, 1, 1, 2, 3)), r.choice((1, 1, 1, 2))) for n in ('eur', 'h', 'km') if r.randrange(2))
    if k < 10 or deep > 1:
        return r.choice(['(bool)', '(str)', '(bool)', PAYEE, OTHER])
    return r.choice(['(list %s)' % some_type(r, deep + 1), '(fn (%s) %s)' % (some_type(r, deep + 1), some_type(r, deep + 1))])


def random_line(r):
    """a whole line: every step finds its operands, and one type is left"""
    wide = r.randrange(3) == 0
    known = [some_type(r, 0, wide) for _ in range(r.randrange(1, 4))]
    out, n, want = [], 0, r.randrange(1, 9)
    pool = [some_type(r) for _ in range(2)]
    while want > 0 or n != 1:
        k = r.randrange(8) if want > 0 else 3
        if n >= 3 and k == 7:
            out.append('if')
            n -= 2
        elif n >= 2 and k in (3, 4, 5):
            out.append(r.choice('+-*/*/?'))
            n -= 1
        elif n >= 1 and k == 6:
            out.append('(^ %d %d)' % r.choice(((0, 1), (1, 1), (1, 2), (-1, 1), (2, 1), (-3, 2), (2147483647, 1))))
        else:
            out.append(r.choice(pool + ['(ref %d)' % r.randrange(len(known))]))
            n += 1
        want -= 1
    lent = ['v%02d' % i for i in range(len(out))]
    r.shuffle(lent)
    return Line(' '.join(out), known, lent)


def answered(cases):
    """each case with its request, its names, and what is to be said"""
    for why, line, known in cases:
        q, w = line.request()
        want = line.expected() if known is None else known
        words = requests.measured(w.type(want)) if isinstance(want, tuple) else []
        yield why, q, w.names, (want if isinstance(want, int) else 0, len(words) // 4, 0, 0), words


def cases():
    return answered(said())


if __name__ == '__main__':
    import own
    r = random.Random(int(sys.argv[3]))
    own.compared(sys.argv[1], answered(('random', random_line(r), None) for _ in range(int(sys.argv[2]))))
