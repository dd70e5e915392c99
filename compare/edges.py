"""Edge cases of every call: the examples K1 to K14, each refusal with its neighbour that is none, each limit with one less, and what mutants have
been seen to get wrong. `cases(last)` gives (what it is about, request) for the calls up to a number."""
import requests
from requests import Request, of

TOP = 2147483647
K = [('K1', 'solve'), ('K2', 'solve (eq (var x) (bool))'), ('K3', 'solve (eq (var x) (dim (v x 2 1)))'), ('K4', 'solve (eq (list (var x)) (var x))'),
     ('K5', 'solve (scalar (v x 2 1) (b L -3 1))'), ('K6', 'solve (eq (var x) (dim (v y 1 1) (v z 1 1))) (eq (var y) (bool))'),
     ('K7', 'solve (isdim (par a))'), ('K8', 'solve (isdim (dim (v x 1 1) (v y -1 1)))'), ('K9', 'solve (eq (dim (v x 1 1)) (bool))'),
     ('K10', 'solve (eq (dim (v x 1 1) (v y 1 1)) (dim (v x 1 1) (v z 1 1))) (eq (var x) (bool))'),
     ('K11', 'solve (eq (var x) (par x))'), ('K12', 'solve (eq (struct P ((var x)) ()) (struct P ((bool)) ()))'), ('K13', 'solve (scalar (b L 1 1))'),
     ('K14', 'solve (scalar (v x 1 2) (v y 2147483647 1))'), ('K14 with x^1', 'solve (scalar (v x 1 1) (v y 2147483647 1))')]


def nest(n, t):
    return '(list ' * n + t + ')' * n


def dims(n, off=0, power='1 1'):
    return ' '.join('(b D%02d %s)' % (i + off, power) for i in range(n))


def rules():
    """lines of all calls on types and sets"""
    yield from K
    for c in ('(eq (bool) (bool))', '(eq (bool) (str))', '(eq (str) (date))', '(eq (list (bool)) (list (str)))', '(eq (var x) (var x))', '(eq (var x) (var y))',
              '(eq (par a) (par b))', '(eq (par a) (var x))', '(eq (fn ((var x)) (bool)) (fn ((bool)) (var y)))', '(eq (fn ((var x) (var y)) (var z)) (fn ((bool) (str)) (date)))',
              '(eq (fn () (var x)) (fn ((bool)) (var x)))', '(eq (struct P () ()) (struct Q () ()))', '(eq (struct P ((var x) (var y)) ()) (struct P ((bool) (str)) ()))',
              '(eq (struct P ((var x)) ((f (var x)))) (struct P ((var x)) ((g (var x)))))', '(eq (struct P () ((f (var x)))) (struct P () ((f (bool)))))',
              '(eq (dim (v x 1 1)) (dim (v y 1 1)))', '(eq (dim (v x 2 1)) (dim (v y 1 1)))', '(eq (dim (b L 1 1)) (dim (b L 1 1) (b M 1 1)))', '(eq (dim) (dim))',
              '(eq (var x) (dim (v x 1 1) (b L 1 1)))', '(eq (dim (v x 1 1) (b L 1 1)) (var x))', '(eq (var x) (struct P ((var x)) ()))', '(eq (var x) (struct P () ((f (var x)))))',
              '(isdim (dim))', '(isdim (bool))', '(isdim (var x))', '(isdim (par a))', '(isdim (dim (v x 1 1) (p a 1 1)))', '(isdim (list (var x)))', '(scalar)', '(scalar (b L 1 1))',
              '(scalar (p a 1 1))', '(scalar (v x 3 2) (v y -1 2) (p a 1 1) (b L 2 3))', '(hasfield (struct P () ((f (bool)))) f (bool))', '(hasfield (struct P () ((f (bool)))) f (str))',
              '(hasfield (struct P () ((f (bool)))) g (bool))', '(hasfield (struct P () ((f (var x)))) f (bool))', '(hasfield (var x) f (bool))', '(hasfield (bool) f (var y))'):
        yield 'a constraint alone', 'solve ' + c
        yield 'added', 'add ' + c
        yield 'added to a set', 'add (eq (var w) (bool)) (isdim (var v)) ' + c
        yield 'well formed', 'is_set ' + c
    for s in ('(isdim (var x)) (isdim (var x)) (isdim (var b)) (isdim (par a))', '(isdim (var x)) (isdim (bool))', '(eq (var x) (list (var y))) (eq (var y) (bool))',
              '(eq (var x) (dim (v y 1 1))) (eq (var y) (bool))', '(eq (var y) (dim (v x 2 1))) (eq (var x) (bool))', '(eq (var x) (bool)) (eq (var y) (dim (v x 2 1)))',
              '(eq (var x) (dim (v y 2 1) (b L 1 1))) (eq (var y) (dim (v z 1 2) (b L 1 1))) (isdim (var z))', '(scalar (v x 1 1) (v y -1 1)) (scalar (v x 2 1) (b L -2 1))',
              '(scalar (v x 1 1)) (eq (list (var x)) (list (bool)))', '(eq (var x) (var y)) (eq (var y) (var z)) (eq (var z) (str))', '(eq (var b) (fn ((var x)) (var y))) (eq (var b) (fn ((bool)) (list (var x))))',
              '(eq (var x) (dim (v y 2147483647 1))) (eq (var y) (dim (v z 2 1)))', '(eq (var z) (list (var x))) (eq (var x) (list (var x)))', '(eq (var x) (bool)) (eq (var x) (str))',
              '(eq (list (var b)) (var b)) (eq (var x) (bool))', '(eq (var x) (bool)) (scalar (v x 1 1))', '(eq (var x) (dim (b L 1 1))) (scalar (v x 1 1) (b L -1 1))'):
        yield 'a set', 'solve ' + s
    types = ('(var x)', '(par a)', '(bool)', '(dim)', '(dim (v x 1 1))', '(dim (v x 2 1))', '(dim (v x 1 1) (v y -1 1) (p a 2 1) (b L -1 3))', '(list (var x))', '(fn ((var x) (par a)) (var y))',
             '(fn () (bool))', '(struct P ((var y)) ((f (par a)) (g (var x))))', '(struct P ((dim (v z 1 1))) ())', '(struct P () ((f (var z)) (g (var y))))', '(fn ((var z) (var y) (var x)) (par b))')
    binds = ('', '(bind x (bool))', '(bind x (dim (v y 2 1)))', '(bind x (var y)) (bind y (var x))', '(bind x (dim (v y 1 1) (b L 1 1))) (bind y (dim (v x 1 1)))', '(bind x (str)) (bind x (bool))',
             '(bind y (bool)) (bind x (dim (b M 1 2)))', '(bind x (par b))', '(bind z (bool)) (bind x (list (var x)))', '(bind x (dim))', '(bind a (bool))')
    for t in types:
        yield 'closed', 'closed ' + t
        yield 'a type', 'is_type ' + t
        for p in (0, 1):
            yield 'variables', 'vars %s %d' % (t, p)
            for n in ('x', 'a', 'y'):
                yield 'contains', 'contains %s %s %d' % (t, n, p)
        for b in binds:
            yield 'replaced in a type', 'replace %s %s' % (t, b)
            yield 'bindings', 'is_bindings ' + b
            yield 'replaced in a set', 'replaceset (set (eq %s (bool)) (scalar (v x 1 1)) (scalar (v x 1 1) (v y 2 1)) (hasfield %s f (var x)) (isdim (dim (v x 1 1)))) %s' % (t, t, b)
    yield 'a name is both', 'closed (fn ((var x)) (par x))'
    yield 'a name is both', 'contains (fn ((var x)) (par x)) x 0'
    yield 'a name is both', 'vars (dim (v x 1 1) (p x 1 1)) 1'
    yield 'a name is both', 'replace (par x) (bind x (bool))'
    yield 'a name is both, in two bindings', 'replace (bool) (bind x (par y)) (bind y (bool))'
    yield 'a name is both, in a set', 'solve (eq (var x) (bool)) (isdim (dim (p x 1 1)))'
    yield 'a base dimension may have a variable\'s name', 'solve (eq (var x) (dim (b x 1 1)))'


def values():
    ends = ((TOP, 1), (-TOP, 1), (1, TOP), (-1, TOP), (TOP - 1, TOP), (1, 1), (1, 2), (-1, 2), (0, 1), (46341, 1), (1, 46341), (1, 65536), (1, 32768), (3, 2))
    for op in ('add', 'mul', 'div', 'neg'):
        for x in ends:
            for y in ends if op != 'neg' else ((1, 1),):
                yield 'exponents', Request({'add': 5, 'mul': 6, 'neg': 7, 'div': 8}[op], (), [[x[0] & 0xffffffff, x[1], y[0] & 0xffffffff, y[1]]])
    for bad in ([0x80000000, 1, 1, 1], [1, 1, 0x80000000, 1], [1, 0, 1, 1], [2, 2, 1, 1], [1, 0x80000000, 1, 1], [0, 2, 1, 1]):
        for call in (5, 6, 7, 8):
            yield 'no exponent', Request(call, (), [bad])
    for l in ('prod mul (dim (v x 1 1)) (dim (v x -1 1))', 'prod mul (dim (v x 1 2)) (dim (v x 1 2))', 'prod mul (dim (v x 2147483647 1)) (dim (v x 1 1))', 'prod div (dim (p a 1 1)) (dim (b L 1 1))',
              'prod inv (dim (v x 2 3) (q 0 1 1) (p a -1 1) (b L 1 1))', 'prod pow (dim (v x 2 3) (b L 1 1)) 3 2', 'prod pow (dim (v x 2 3)) 0 1', 'prod pow (dim (v x 46341 1)) 46341 1',
              'prod mul (dim (q 1 1 1) (b L 1 1)) (dim (v y 1 1) (q 0 1 1) (p b 1 1))', 'prod mul (dim) (dim)'):
        yield 'products', of(l)
    for n, m, off in ((64, 0, 0), (63, 1, 63), (64, 1, 64), (32, 32, 32), (33, 32, 33), (64, 64, 0)):
        yield 'products at 64 factors', of('prod mul (dim %s) (dim %s)' % (dims(n), dims(m, off)))
        yield 'products at 64 factors', of('prod div (dim %s) (dim %s)' % (dims(n), dims(m, off)))
    yield '7 before 8', of('prod mul (dim %s) (dim (b D63 1 1) (b E 1 1))' % dims(64, 0, '2147483647 1'))
    for x, words in ((65, []), (1, [11, 9, 1, 1]), (1, [11, 0, 0, 1]), (2, [13, 0, 1, 1, 11, 1, 1, 1]), (2, [11, 0, 1, 1, 11, 0, 1, 1]), (1, [14, 0, 1, 1]), (1, [15, 4000000000, 1, 1]), (0, [9, 9, 9, 9])):
        for call in (9, 10, 11, 12):
            yield 'no product', Request(call, ('x', 'L'), [words, [1, 1]], x=x, y=0)


def names():
    full = ['n%03d' % i for i in range(256)]
    long = ['%02d' % (i % 100) + chr(65 + i // 100) + 'z' * 45 for i in range(170)]    # 8,160 bytes
    letters = lambda s: [[], list(s.encode() if isinstance(s, str) else s)]
    for table, tries in (([], ('', 'x', 'a' * 48, 'a' * 49)), (['x', 'y'], ('x', 'y', 'z', 'xy', '')), (full, ('n000', 'n255', 'new', '')),
                         (long, ('a' * 32, 'a' * 33, 'b', long[0], long[169])), (long + ['q' * 32], ('b', 'q' * 32))):
        for t in tries:
            yield 'entering', Request(3, table, letters(t))
        for x in (0, 1, max(0, len(table) - 1), len(table), 256, 4294967295):
            yield 'asking for a name', Request(2, table, x=x)
        yield 'a table', Request(1, table)
    for t in ([257] + list(range(1, 257)), [1, 0], [1, 49], [1, 48], [2, 1, 1], [2, 2, 1], [2, 1, 2], [1, 8193], [4294967295], [3, 1, 2, 3], [0, 7]):
        for call in (1, 2, 3, 14):
            yield 'a table', Request(call, pool=b'xxyyz' + b'q' * 60, table=t, lists=[[4, 0, 0, 0], [120]])
    for a in ('', 'a', 'b', 'ab', 'aa', 'b' * 48, '\u00e9'):
        for b in ('', 'a', 'b', 'ab', 'aa', 'b' * 47 + 'a'):
            yield 'comparing', Request(4, (), [list(a.encode()), list(b.encode())])
    for pool, table in ((8191, 257), (8192, 256), (8192, 257), (9000, 300), (0, 0)):
        for call in (1, 2, 3, 13, 17, 18, 19, 20, 23, 24, 9):
            yield 'pool and table lent', Request(call, pool=bytes(pool), table=[0] * table, whole=0, lists=[[], [120]])


def limits():
    for n in (62, 63, 64):
        for b in ('(bool)', '(list (bool))', '(fn ((bool)) (bool))'):
            yield 'nesting', of('replace %s (bind x %s)' % (nest(n, '(var x)'), b))
            yield 'nesting', of('replaceset (set (isdim %s)) (bind x %s)' % (nest(n, '(var x)'), b))
            yield 'nesting', of('solve (eq (var x) %s) (eq (var y) %s)' % (nest(n, '(var y)'), b))
        for call in ('closed %s', 'is_type %s', 'is_set (isdim %s)', 'is_set (eq (bool) %s)', 'is_set (hasfield %s f (bool))', 'is_bindings (bind x %s)', 'add (isdim %s)', 'solve (isdim %s)'):
            yield 'nesting of what is given', of(call % nest(n, '(bool)'))
            yield 'nesting of what is given', of(call % ('(struct P () ((f %s)))' % nest(n - 1, '(bool)')))
    for n in (1020, 1021, 1022, 1023):
        f = '(fn (%s) (var y))' % ' '.join(['(var y)'] * n)
        yield 'records', of('solve (eq (var x) %s) (eq (var y) (list (bool)))' % f)
        yield 'records', of('replace %s (bind y (list (bool)))' % f)
        yield 'records, then 6', of('replaceset (set (eq (bool) %s) (scalar (v y 1 1))) (bind y (list (bool)))' % f)
    for n in (1018, 1019, 1020):    # 2,046, 2,048 and 2,050 records at the end of the second round
        yield 'records, exactly', of('solve (eq (var x) (fn (%s) (var y))) (eq (var y) (list (bool))) (eq (par a) (par b))' % ' '.join(['(var y)'] * n))
    for n in (2044, 2045, 2046, 2047, 2048, 2049):
        q = of('solve (eq (var x) (bool))')
        q.lists[0] = [20, 0, 0, 0, 7, n - 3, 0, 0] + [4, 0, 0, 0] * (n - 2)
        yield 'a long list', q
        for c in ('(eq (var x) (bool))', '(eq (bool) (bool))', '(eq (bool) (str))', '(scalar)'):
            p = of('add (bool) ' + c) if False else of('add ' + c)
            p.lists[0], p.x = [21, 0, 0, 0, 4, 0, 0, 0] * (n // 2) + ([] if n % 2 == 0 else [22, 0, 0, 0]), n
            yield 'added to a long set', p
            s = of('add ' + c)
            s.lists[0], s.x = [21, 0, 0, 0, 7, n - 3, 0, 0] + [4, 0, 0, 0] * (n - 2), n
            yield 'added to a long set', s
    for extra in (0, 1, 3, 4):
        q = of('solve')
        q.lists[0] = [21, 0, 0, 0, 4, 0, 0, 0] * 1024 + [0] * extra
        yield 'length of a list', q
        yield 'length of a list', Request(23, ('x',), [[21, 0, 0, 0, 4, 0, 0, 0][:8 - extra]])
    a, b = dims(33), dims(32, 33)
    for p in ('(v x 1 1)', '(v x 2 1)', '(v x 1 1) (v y 1 1)'):
        yield '64 factors', of('replace (dim %s %s) (bind x (dim %s))' % (p, a, b))
        yield '64 factors', of('replace (dim %s %s) (bind x (dim %s))' % (p, dims(32), b))
        yield '64 factors', of('solve (eq (var x) (dim %s)) (scalar %s %s)' % (b, p, a))
    yield '6 before 7', of('replace (dim (v w 1 1) (v x 1 1) (v y -2147483647 1)) (bind w (dim (v y 2147483647 1))) (bind x (dim (v y 2147483647 1))) (bind y (bool))')
    for r in (0, 8191, 8192, 8193):
        for l in ('solve (eq (var x) (bool))', 'replace (var x) (bind x (bool))', 'replaceset (set (eq (var x) (bool))) (bind x (bool))', 'vars (var x) 0', 'add (eq (var x) (bool))', 'closed (bool)'):
            yield 'the result buffer', of(l, result=r)
    for w in (0, 8192, 16383, 16384, 16385, 20000):
        for l in ('solve (eq (var x) (bool))', 'solve (scalar (b L 1 1))', 'replace (var x) (bind x (bool))', 'replace (par x) (bind x (bool))', 'replaceset (set) ', 'is_set', 'vars (var x) 0'):
            yield 'the work buffer', of(l, work=w)
    yield 'what is lent', Request(24, result=8191)
    yield 'what is lent', Request(24, work=16383)
    yield 'what is lent', Request(24)
    # the order of refusals: 10, 8, 1, 4
    for call in (21, 22, 23):
        for work, n, bad, mixed in ((16383, 8196, 1, 1), (16384, 8196, 1, 1), (16384, 0, 1, 1), (16384, 0, 0, 1), (16384, 0, 0, 0)):
            words = ([20, 0, 0, 0] if call != 21 else []) + [7, 1, 0, 0, 1, 0, 0, 0, 2, 0 if mixed else 1, 0, 0] + ([4, 0, 0, 0] if call != 21 else []) + ([99, 0, 0, 0] if bad else [])
            yield 'the order of refusals', Request(call, ('x', 'a'), [words + [0] * max(0, n - len(words)), []], work=work)


# a good list for each call that asks whether it is well formed, and what else takes such a list
GOOD = {14: [8, 0, 1, 2, 7, 1, 0, 0, 1, 1, 0, 0, 10, 0, 0, 0, 2, 2, 0, 0, 9, 3, 0, 0, 3, 3, 0, 0, 11, 1, 1, 1, 12, 2, 3, 2, 13, 4, 4294967295, 1, 9, 4, 0, 0, 6, 0, 0, 0],
        13: [20, 0, 0, 0, 1, 1, 0, 0, 4, 0, 0, 0, 21, 0, 0, 0, 3, 1, 0, 0, 11, 1, 2, 1, 22, 0, 0, 0, 3, 1, 0, 0, 12, 2, 1, 2, 23, 3, 0, 0, 8, 0, 0, 1, 9, 3, 0, 0, 5, 0, 0, 0, 1, 1, 0, 0],
        15: [26, 2, 0, 0, 7, 1, 0, 0, 14, 1, 0, 0, 3, 2, 0, 0, 15, 0, 1, 1, 15, 1, 1, 1, 25, 1, 1, 0, 25, 2, 0, 0],
        16: [24, 1, 0, 0, 4, 0, 0, 0, 24, 1, 0, 0, 3, 1, 0, 0, 11, 4, 1, 3]}
ALSO = {14: (17, 18, 19, 21), 13: (22, 23), 15: (), 16: ()}


def malformed():
    good = GOOD
    names = ('P', 'x', 'a', 'f', 'g')
    also = ALSO
    for call, words in good.items():
        for c in (call,) + also[call]:
            yield 'well formed', Request(c, names, [words], x=1)
        for i in range(len(words)):
            for v in (words[i] + 1, words[i] - 1, 0, 5, 4294967295, 0x80000000):
                if v & 0xffffffff != words[i]:
                    for c in (call,) + (also[call][-1:] if i % 3 == 0 else ()):
                        yield 'one word is wrong', Request(c, names, [words[:i] + [v & 0xffffffff] + words[i + 1:]], x=1)
        for i in range(0, len(words) + 1):
            yield 'cut off', Request(call, names, [words[:i]])
    yield 'a field twice', Request(14, names, [[8, 0, 0, 2, 9, 3, 0, 0, 4, 0, 0, 0, 9, 3, 0, 0, 4, 0, 0, 0]])
    yield 'two types', Request(14, names, [[4, 0, 0, 0, 4, 0, 0, 0]])
    yield 'no type', Request(14, names, [[]])
    for kind in list(range(0, 28)) + [4294967295]:
        for call in (13, 14, 15, 16, 23):
            yield 'kinds', Request(call, names, [[kind, 0, 0, 0, 4, 0, 0, 0, 4, 0, 0, 0][:4 + 4 * (kind % 3)]])


def schemes():
    types = ('(var x)', '(par a)', '(bool)', '(dim (v x 1 1))', '(dim (v x 2 1) (v y -1 1) (p a 1 1))', '(fn ((var y) (par a)) (var x))', '(struct P ((var y)) ((f (var x)) (g (var y))))', '(list (dim (p a 1 1)))')
    for t in types:
        for b in ('', 'x', 'x a x', 'y w'):
            for n in ('', 'x', 'a', 'x y', 'y x', 'x x', 'w x a'):
                yield 'quantifying', of('quantify %s (bounds %s) (names %s)' % (t, b, n))
            yield 'generalising', of('generalize %s (bounds %s)' % (t, b))
    for s in ('(scheme 0 (dim (v x 1 1)) (bounds))', '(scheme 1 (q 0) (bounds (q 0)))', '(scheme 2 (fn ((q 1) (q 0)) (dim (q 0 1 1) (q 1 -1 1))) (bounds (q 1) x))', '(scheme 2 (dim (q 0 2 1) (q 1 -1 1)) (bounds))',
              '(scheme 1 (dim (v x 1 1) (q 0 1 1)) (bounds))', '(scheme 1 (dim (v x -1 1) (q 0 1 1)) (bounds))', '(scheme 3 (bool) (bounds (q 2)))', '(concrete (bool))', '(scheme 2 (dim (v x 2147483647 1) (q 0 2147483647 1) (q 1 -2147483647 1)) (bounds))',
              '(scheme 1 (dim (v x 2147483647 1) (q 0 1 1)) (bounds))', '(scheme 1 (struct P ((q 0)) ((f (dim (q 0 1 2) (b L 1 1))))) (bounds))'):
        for n in ('', 'x', 'y', 'x x', 'x y', 'x y z', 'a'):
            yield 'instantiating', of('instantiate %s (names %s)' % (s, n))
        yield 'generalising a scheme', of('generalize %s (bounds x)' % s)
        yield 'a scheme', of('is_scheme ' + s)
    for n in (2045, 2046):
        q = of('quantify (bool) (bounds) (names)')
        q.lists[0] = [7, n, 0, 0] + [4, 0, 0, 0] * (n + 1)
        yield 'records of a scheme', q
        g = of('generalize (bool) (bounds)')
        g.lists[0] = [26, 0, 1, 0, 7, n - 1, 0, 0] + [4, 0, 0, 0] * n
        yield 'records of a scheme', g
    yield 'a name is both', of('generalize (fn ((var x)) (par x)) (bounds)')
    yield 'a name is both', of('quantify (fn ((var x)) (par x)) (bounds) (names x)')
    yield 'a name is both', of('instantiate (scheme 1 (fn ((var x)) (par x)) (bounds)) (names y)')
    for k in (3, 4294967295):
        yield 'a number that is not held', Request(25, ('x',), [[4, 0, 0, 0], [], [k]])
        yield 'a number that is not held', Request(27, ('x',), [[26, 0, 1, 0, 4, 0, 0, 0], [k]])
    yield 'many names', Request(25, ('x',), [[1, 0, 0, 0], [], [0] * 2048])
    yield 'many names', Request(25, ('x',), [[1, 0, 0, 0], [], [0] * 2049])
    yield 'many names', Request(27, ('x',), [[26, 2048, 0, 0, 14, 2047, 0, 0], [0] * 2048])
    yield 'many names', Request(27, ('x',), [[26, 2049, 0, 0, 14, 2048, 0, 0], [0] * 2049])


# the constraints of a set by itself, for the judge too
ALONE = ('(eq (bool) (bool))', '(eq (bool) (str))', '(eq (var x) (var x))', '(eq (var x) (var y))', '(eq (par a) (par b))', '(eq (par a) (var x))', '(eq (list (var x)) (list (bool)))',
         '(eq (fn ((var x)) (var y)) (fn ((bool)) (var y)))', '(eq (fn () (var x)) (fn ((bool)) (var x)))', '(eq (struct P ((var x)) ((f (var x)))) (struct P ((bool)) ((g (str)))))',
         '(eq (struct P ((var x)) ()) (struct Q ((var x)) ()))', '(eq (dim (v x 1 1)) (bool))', '(eq (dim (v x 1 1)) (var y))', '(eq (dim (v x 2 1)) (dim (v y 1 1)))', '(eq (list (dim (v x 1 1))) (list (var y)))',
         '(eq (dim (p a 1 1)) (par a))', '(eq (dim) (dim))', '(isdim (dim))', '(isdim (bool))', '(isdim (var x))', '(isdim (par a))', '(isdim (dim (v x 1 1) (p a 1 1) (b L 1 1)))', '(isdim (list (var x)))',
         '(scalar)', '(scalar (b L 1 1))', '(scalar (v x 1 1))', '(scalar (v x 2 1) (v y -1 1))', '(scalar (v x 1 1) (b L -1 1))', '(hasfield (struct P () ((f (bool)))) f (bool))',
         '(hasfield (struct P () ((f (var x)))) f (var y))', '(hasfield (struct P () ((f (bool)))) g (bool))', '(hasfield (var x) f (bool))')
BINDS = ('', '(bind x (bool))', '(bind x (var y))', '(bind y (dim (v x 2 1)))', '(bind x (dim (b L 1 1)))', '(bind x (dim (v y 1 2)))', '(bind x (var y)) (bind y (var x))', '(bind x (struct P () ((f (bool)))))',
         '(bind x (dim)) (bind y (dim))', '(bind y (bool)) (bind x (par a))', '(bind x (dim (v x 1 1)))', '(bind x (str)) (bind y (str))')


def judge():
    yield 'the judge on K1', of('judge (set) (bounds)')
    yield 'the judge on K2', of('judge (set (eq (var x) (bool))) (bind x (bool)) (bounds)')
    yield 'the judge on K2, no', of('judge (set (eq (var x) (bool))) (bind x (str)) (bounds)')
    yield 'the judge on K3', of('judge (set (eq (var x) (dim (v x 2 1)))) (bind x (dim)) (bounds)')
    yield 'the judge on K5', of('judge (set (scalar (v x 2 1) (b L -3 1))) (bind x (dim (b L 3 2))) (bounds)')
    yield 'the judge on K8', of('judge (set (isdim (dim (v x 1 1) (v y -1 1)))) (bounds x y)')
    yield 'the judge on K10', of('judge (set (eq (dim (v x 1 1) (v y 1 1)) (dim (v x 1 1) (v z 1 1))) (eq (var x) (bool))) (bind y (var z)) (bind x (bool)) (bounds)')
    for c in ALONE:
        for b in BINDS:
            yield 'judged', of('judge (set %s) %s (bounds %s)' % (c, b, 'a x y' if len(b) % 2 else ''))
    for s in ('(isdim (var x))', '(isdim (par a))', '(isdim (dim (v x 1 1) (p a 1 1)))'):
        for b in ('', 'x', 'a', 'a x', 'a w x', 'x a', 'x x', 'a b'):
            yield 'bounds of the judge', of('judge (set %s) (bounds %s)' % (s, b))
    far, many = '(bind y (dim (v z %d 1)))' % TOP, dims(40, 30)
    for s, b in (('(eq (bool) (str)) (scalar (v y 2 1))', far), ('(scalar (v y 2 1)) (eq (bool) (str))', far), ('(eq (var x) (bool)) (scalar (v y 2 1))', far + ' (bind x (bool))'),
                 ('(eq (dim (v y 2 1)) (dim (v x 2 1)))', far + ' (bind x (bool))'), ('(eq (dim (v x 2 1)) (dim (v y 2 1)))', far + ' (bind x (bool))'),
                 ('(scalar (v x 1 1) %s)' % dims(30), '(bind x (dim %s))' % many), ('(scalar (v x 1 1) (v y 2 1) %s)' % dims(30), far + ' (bind x (dim %s))' % many),
                 ('(eq (bool) (dim (v x 1 1) (v w 2 1)))', '(bind x (bool)) (bind w (dim (v z %d 1)))' % TOP), ('(hasfield (dim (v x 2 1)) f (dim (v y 2 1)))', far + ' (bind x (bool))')):
        yield 'the first failure, 7 or 8', of('judge (set %s) %s (bounds)' % (s, b))
    for n in (62, 63, 64):
        yield 'nesting in the judge', of('judge (set (isdim %s)) (bind x (list (bool))) (bounds)' % nest(n, '(var x)'))
        yield 'nesting in the judge', of('judge (set (eq (var x) (var x))) (bind x %s) (bounds)' % nest(n, '(bool)'))
    for n in (1019, 1020, 1021, 1022, 1023):
        q = of('judge (set (isdim (var x))) (bind x (list (bool))) (bounds)')
        q.lists[0] = [21, 0, 0, 0, 7, n, 0, 0] + [1, 0, 0, 0] * (n + 1)
        yield 'records in the judge', q
    k2, t = [20, 0, 0, 0, 1, 0, 0, 0, 4, 0, 0, 0], [99, 7, 7, 7, 4, 0, 0, 0, 3, 1, 0, 0, 11, 0, 1, 1, 8, 2, 0, 1, 9, 2, 0, 0, 4, 0, 0, 0]
    names = ('x', 'y', 'P')
    for e in ([0, 1], [0, 0], [0, 2], [0, 3], [0, 4], [0, 5], [0, 6], [0, 7], [0, 8], [0, 4294967295], [0, 1, 1, 1], [0, 1, 0, 1], [0, 1, 0, 2], [1, 0], [3, 1], [256, 1], [4294967295, 1], [0, 1, 1], [0, 1, 1, 6, 2, 4], [0]):
        yield 'places', Request(28, names, [k2, e, t, []])
    for types in (t + [4], t + [4, 0], t[:-1], [], [4, 0, 0], [10, 0, 0, 0]):
        yield 'a list of types', Request(28, names, [k2, [0, 1] if len(types) > 8 else [0, 0], types, []])
    for d in ([25, 0, 0, 0], [25, 0, 1, 0], [25, 0, 0, 1], [25, 3, 0, 0], [24, 0, 0, 0], [25, 0, 0], [25, 0, 0, 0, 25, 1, 0, 0], [25, 1, 0, 0, 25, 0, 0, 0], [25, 0, 0, 0] * 2, [25, 0, 0, 0, 4, 0, 0, 0]):
        yield 'bounds of the judge', Request(28, names, [k2, [0, 1], t, d])
    for s, e, w, d in (([2, 0, 0, 0], [0, 1], t, []), ([1, 0, 0, 0], [0, 0], [2, 0, 0, 0], []), ([1, 0, 0, 0], [0, 0], [2, 1, 0, 0], []), ([1, 0, 0, 0], [0, 0, 1, 0], [2, 1, 0, 0], []), ([1, 0, 0, 0], [1, 0], [2, 0, 0, 0], []),
                       ([1, 0, 0, 0], [], [2, 0, 0, 0], []), ([1, 0, 0, 0], [], [], [25, 1, 0, 0])):
        yield 'a name is both, for the judge', Request(28, names, [[21, 0, 0, 0] + s, e, w, d])
    many = ['n%03d' % i for i in range(256)]
    for n in (256, 2048, 2049, 5120):
        yield 'many entries', Request(28, many, [k2, [w for i in range(n) for w in (i % 256, 0)], [4, 0, 0, 0], []])
        yield 'many entries', Request(28, many, [k2, [w for i in range(n) for w in (i, 0)], [4, 0, 0, 0], []])
    for n in (2048, 2049):
        yield 'long lists of the judge', Request(28, many, [k2, [0, 0], [4, 0, 0, 0] * n, []])
        yield 'long lists of the judge', Request(28, many, [k2, [0, 0], [4, 0, 0, 0], [25, 0, 0, 0] * n])
        yield 'long lists of the judge', Request(28, many, [[21, 0, 0, 0, 7, n - 3, 0, 0] + [4, 0, 0, 0] * (n - 2), [0, 0], [4, 0, 0, 0], []])
    for w in (0, 16383, 16384, 20000):
        yield 'what the judge is lent', Request(28, names, [k2, [0, 1], t, []], work=w)
        yield 'what the judge is lent', Request(28, names, [k2, [0, 0], t, []], work=w, result=0)
    for pool, table in ((8191, 257), (8192, 256), (8192, 257)):
        yield 'what the judge is lent', Request(28, pool=bytes(pool), table=[0] * table, whole=0)


def sheets():
    """the ceiling, and several sets in one call"""
    for c in ALONE:
        yield 'the ceiling', of('ceiling ' + c)
    many = ['n%03d' % i for i in range(256)]
    for s in ('', '(eq (var x) (var y)) (scalar (v z 1 1) (v x 2 1) (p a 1 1) (b y 1 1))', '(eq (var x) (par x))', '(hasfield (struct P ((var x)) ((f (var y)))) f (fn ((var z) (var x)) (dim (v w 1 2))))'):
        yield 'the ceiling', of('ceiling ' + s)
    for n in (255, 256):
        yield 'the ceiling of many variables', Request(29, many, [[20, 0, 0, 0, 7, n - 1, 0, 0] + [w for i in range(n) for w in (1, i, 0, 0)] + [4, 0, 0, 0]])
    for n in (2048, 2049):
        yield 'the ceiling of a long list', Request(29, ('x',), [[21, 0, 0, 0, 7, n - 3, 0, 0] + [1, 0, 0, 0] * (n - 2)])
    for l in ([20, 0, 0, 0, 1, 0, 0, 0], [99, 0, 0, 0], [21, 0, 0, 0, 1, 1, 0, 0], [21, 0, 0]):
        yield 'the ceiling of what is no set', Request(29, ('x',), [l])
    for pool, table in ((8191, 257), (8192, 256), (8192, 257)):
        yield 'what the ceiling is lent', Request(29, pool=bytes(pool), table=[0] * table, whole=0, result=0, work=0)
    sets = ['(set)', '(set (eq (var x) (bool)))', '(set (eq (list (var x)) (var x)))', '(set (isdim (dim (v x 1 1) (v y -1 1))))', '(set (eq (var x) (par x)))', '(set (eq (var x) (dim (v x 2 1))))',
            '(set (eq (var y) (dim (v x 2 1))) (eq (var x) (bool)))', '(set (scalar (v x 1 2) (v y 2147483647 1)))']
    yield 'several sets', of('batch')
    for i, s in enumerate(sets):
        yield 'several sets', of('batch ' + s)
        yield 'several sets', of('batch %s %s' % (s, sets[i - 1]))
        yield 'several sets', of('batch %s %s %s' % (s, sets[i - 3], s))
    yield 'several sets', of('batch ' + ' '.join(sets))
    two, k2 = 'batch %s %s' % (sets[3], sets[1]), [20, 0, 0, 0, 1, 0, 0, 0, 4, 0, 0, 0]
    for n in (0, 1, 7, 8, 9, 12):
        yield 'room for answers', of(two, x=n, result=n + 16384)
    for n in (8, 9, 16390, 16391, 16392, 16400):
        yield 'room for several sets', of(two, result=n)
    for n in (0, 16383, 16384):
        yield 'work for several sets', of(two, work=n)
    for lengths in ([], [3], [6], [7], [3, 2], [3, 3], [4, 3], [2, 4], [0, 6], [6, 0], [0, 6, 0], [5, 1], [3, 3, 4294967295], [1073741824, 6], [4294967295, 7], [2147483648, 2147483648, 6]):
        q = Request(30, ('x',), [k2 + k2, lengths], x=4 * len(lengths), result=4 * len(lengths) + 8192 * len(lengths))
        yield 'lengths', q
        if len(lengths) == 2:
            yield 'lengths', Request(30, ('x',), [k2 + k2 + [0], lengths], x=8, result=q.result)
    for bad in ([99, 0, 0, 0], [20, 0, 0, 0, 1, 1, 0, 0, 4, 0, 0, 0], [1, 0, 0, 0], [22, 0, 0, 0, 4, 0, 0, 0], [26, 0, 0, 0, 4, 0, 0, 0]):
        yield 'one of several is no set', Request(30, ('x',), [k2 + bad + k2, [3, len(bad) // 4, 3]], x=12, result=12 + 24576)
    long = [21, 0, 0, 0, 7, 2046, 0, 0] + [1, 0, 0, 0] * 2047
    yield 'one of several is too long', Request(30, ('x',), [k2 + long + k2, [3, 2049, 3]], x=12, result=12 + 24576)
    yield 'one of several is too long', Request(30, ('x',), [k2 + [21, 0, 0, 0, 7, 2045, 0, 0] + [1, 0, 0, 0] * 2046 + k2, [3, 2048, 3]], x=12, result=12 + 24576)
    for n in (63, 64, 65):
        yield 'sets in one call', Request(30, ('x',), [k2 * n, [3] * n], x=4 * n, result=8196 * n)
        yield 'sets in one call', Request(30, ('x',), [k2 * n, [3] * n], x=4 * n, result=8196 * n - 1)
    yield 'sets in one call', Request(30, ('x',), [k2 * 64, [3] * 64], x=512, result=533504)
    for t in ([1, 0], [2, 2, 1], [257]):
        yield 'several sets over no table', Request(30, pool=b'xy', table=t, lists=[k2 + k2, [3, 3]], x=8, result=16392)
    for pool, table in ((8191, 257), (8192, 256), (8192, 257)):
        yield 'several sets over no table', Request(30, pool=bytes(pool), table=[0] * table, whole=0, lists=[[], [0, 0]], x=8, result=16392)


def kinds_differ():
    """Where kinds differ, one variable to the power 1 counts as a variable, on either side"""
    for t in ('(bool)', '(list (var y))', '(fn () (bool))', '(struct P () ())', '(var y)', '(par b)'):
        for d in ('(dim (v x 1 1))', '(dim (v x 2 1))', '(dim (v x 1 1) (v y 1 1))', '(dim (p a 1 1))', '(dim)'):
            yield 'a dimension and another kind', of('add (eq %s %s)' % (d, t))
            yield 'a dimension and another kind', of('add (eq (var w) (bool)) (eq %s %s)' % (t, d))


def same_meaning():
    """for the judge one variable to the power 1 means that variable, and a struct means its name and arguments"""
    for a, b, bind in (('(dim (v x 1 1))', '(var x)', ''), ('(list (dim (v x 1 1)))', '(list (var x))', ''), ('(dim (v x 2 1))', '(var x)', ''), ('(dim (v x 1 1))', '(dim (v x 1 1))', ''), ('(var y)', '(var x)', '(bind y (dim (v x 1 1)))'),
                       ('(fn ((var y)) (bool))', '(fn ((var x)) (bool))', '(bind y (dim (v x 1 1)))'), ('(dim (v x 1 1) (v y 1 1))', '(dim (v x 1 1) (v y 1 1))', ''), ('(dim (v x 1 1) (v y 1 1))', '(var x)', ''), ('(dim (p a 1 1))', '(par a)', ''),
                       ('(dim (b L 1 1))', '(var x)', ''), ('(struct P ((bool)) ((f (str))))', '(struct P ((bool)) ())', ''), ('(struct P () ((f (var x)) (g (bool))))', '(struct P () ())', ''), ('(struct P ((bool)) ())', '(struct P ((bool) (str)) ())', ''),
                       ('(struct P ((bool)) ((f (str))))', '(struct P ((bool) (str)) ((f (str))))', ''), ('(struct P ((bool)) ((f (str))))', '(struct P ((str)) ((f (str))))', ''), ('(list (struct P ((var x)) ((f (date)))))', '(list (struct P ((bool)) ()))', '(bind x (bool))')):
        yield 'meaning the same', of('judge (set (eq %s %s)) %s (bounds)' % (a, b, bind))
        yield 'meaning the same', of('judge (set (eq %s %s)) %s (bounds)' % (b, a, bind))
        yield 'meaning the same', of('judge (set (hasfield (struct Q () ((f %s) (g (bool)))) f %s)) %s (bounds)' % (a, b, bind))


def parameters_stay():
    for t in ('(fn ((q 0)) (par a))', '(dim (q 0 1 1) (p a 1 1))', '(dim (p a 1 1))', '(struct P ((par x)) ((f (q 0)) (g (par a))))', '(fn ((par a) (var y)) (dim (v y 1 1) (p x 2 1)))'):
        for n in ('x', 'a', 'y'):
            yield 'instantiating beside parameters', of('instantiate (scheme 1 %s (bounds a (q 0))) (names %s)' % (t, n))


def confirmed():
    """the call that solves and judges: K1 to K14, what the judge denies, what it refuses, and what it is lent"""
    for why, line in K:
        yield 'confirming, ' + why, of(line.replace('solve', 'confirm', 1))
    x, p = '(dim (v x 1 1) (v y 1 1))', '(dim (p a 1 1) (b L 1 1))'
    for s in ('(eq %s (dim (v x 1 1) (v z 1 1))) (eq (var x) (bool))' % x, '(eq (var x) (bool)) (eq %s (dim (v x 1 1) (v z 1 1)))' % x, '(eq %s (dim (v x 1 1) (v z 1 1))) (eq (var x) %s)' % (x, p),
              '(isdim (dim (v x 1 1))) (eq (var x) (bool))', '(eq (dim (v x 1 1)) (var y)) (eq (var x) (bool))', '(isdim (var x)) (eq (var y) (var x))', '(eq (var x) (str)) (eq (var x) (bool))'):
        yield 'confirming', of('confirm ' + s)
    # put in at once, the first constraint nests as deep as both together, where solving has taken a list from it
    for n, m in ((31, 32), (32, 32), (1, 62), (1, 63)):
        yield 'nesting in what is confirmed', of('confirm (eq %s %s) (eq (var y) %s)' % (nest(n, '(var x)'), nest(n, '(var y)'), nest(m, '(bool)')))
    for n in (46340, 46341):
        yield 'powers in what is confirmed', of('confirm (eq (dim (v x %d 1)) (dim (v y %d 1))) (eq (list (var y)) (list (dim (b L %d 1))))' % (n, n, n))
    for room in ({'result': 8191}, {'work': 16383}, {'result': 8192, 'work': 16384}, {'result': 8200, 'work': 16400}):
        yield 'what confirming is lent', of('confirm (eq (var x) (bool))', **room)
        yield 'what confirming is lent', of(K[9][1].replace('solve', 'confirm', 1), **room)
    yield 'what confirming is lent', Request(32, pool=bytes(8191), table=[0] * 257, whole=0)
    yield 'what confirming is lent', Request(32, pool=bytes(8192), table=[0] * 256, whole=0)
    for n in (8192, 8193):
        yield 'what confirming is lent', Request(32, lists=[[0] * n])
    yield 'confirming what is no set', Request(32, ('x',), [[1, 0, 0, 0]])
    yield 'confirming what is no set', Request(32, ('x',), [[20, 0, 0, 0, 1, 0, 0, 0]])


def new_records():
    """constraints that a split makes, alone over 2,048 records: 3 a parameter"""
    for n in (680, 681, 682, 683):
        f = lambda w: [7, n, 0, 0] + w * (n + 1)
        yield 'records of new constraints', Request(23, ('x', 'P'), [[20, 0, 0, 0] + f([1, 0, 0, 0]) + f([4, 0, 0, 0])])
        yield 'records of new constraints', Request(23, ('x', 'P'), [[20, 0, 0, 0] + f([8, 1, 0, 0]) + f([5, 0, 0, 0])])
        yield 'records of new constraints', Request(23, ('x', 'P'), [[20, 0, 0, 0, 8, 1, n, 0] + [1, 0, 0, 0] * n + [8, 1, n, 0] + [6, 0, 0, 0] * n])


def false_lengths():
    """one record says a false length: always 1"""
    names = ('P', 'x', 'a', 'f', 'g')
    for call, words in GOOD.items():
        right = Request(call, names, [words]).sent()[0]
        for i in range(0, len(right), 4):
            for by in (1, -1, 2048, -(right[i] // 65536)):
                for c in (call,) + ALSO[call]:
                    q = Request(c, names, [right[:i] + [right[i] + by * 65536 & 0xffffffff] + right[i + 1:]], x=1)
                    q.ready = True
                    yield 'a false length', q
    for i, (call, lists) in enumerate(((21, [[1, 1, 0, 0], [24, 1, 0, 0, 4, 0, 0, 0]]), (25, [[1, 1, 0, 0], [25, 1, 0, 0], [1]]), (26, [[26, 0, 1, 0, 1, 1, 0, 0], [25, 1, 0, 0]]), (27, [[26, 1, 0, 0, 14, 0, 0, 0, 25, 0, 1, 0], [1]]),
                                       (20, [[21, 0, 0, 0, 1, 1, 0, 0], [21, 0, 0, 0, 1, 1, 0, 0]]), (28, [[21, 0, 0, 0, 1, 1, 0, 0], [1, 0], [10, 0, 0, 0, 4, 0, 0, 0], [25, 1, 0, 0]]), (29, [[21, 0, 0, 0, 1, 1, 0, 0]]),
                                       (30, [[21, 0, 0, 0, 1, 1, 0, 0] * 2, [2, 2]]))):
        for k in requests.RECORDS[call]:
            for at in range(0, len(lists[k]), 4):
                q = Request(call, names, lists, x=2 if call == 20 else 8, result=8192 if call != 30 else 16392)
                q.lists, q.ready = [list(l) for l in q.sent()], True
                q.lists[k][at] += 65536
                yield 'a false length', q


def cases(last=24):
    out = [(why, of(line)) for why, line in rules()]
    # the same with other numbers: the first name isn't number 0
    out += [(why + ', other numbers', of(line, order=('L', 'f', 'y', 'b', 'P', 'a', 'x'))) for why, line in rules() if line.split()[0] in ('solve', 'vars', 'replaceset')]
    parts = [values(), names(), limits(), malformed()] + [schemes()] * (last >= 25) + [judge()] * (last >= 28) + [sheets()] * (last >= 29) + [kinds_differ(), same_meaning(), parameters_stay(), new_records()] + [confirmed()] * (last >= 32) + [false_lengths()]
    for part in parts:
        out += list(part)
    return [(why, q) for why, q in out if q.call <= last and max(map(len, q.lists)) <= 10240]
