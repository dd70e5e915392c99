#!/usr/bin/env python3
"""Time and stack of the compiled calls at their limits: extremes.py [SERVE] [WORD]. A call's stack is what `serve` needs for it beyond what it needs for
comparing two names with a result buffer of that kind (the usual or the large one); its time is that of a request, with reading, clearing the buffers and
answering. With WORD only the rows whose text has it, as `extremes.py SERVE nested`. What the frame of `called` holds for every call, as the arrays of
`confirm` and `check_line`, is in neither figure: bindings/rust/examples/extremes.rs measures the exported functions."""
import os, resource, subprocess, sys
HERE = os.path.dirname(os.path.abspath(__file__))
sys.path.insert(0, HERE)
import requests
from requests import Request, of
from edges import dims, nest


def deep(records, var=(1, 0, 0, 0), leaf=(3, 2, 0, 0, 11, 0, 2, 1, 11, 2, 1, 1)):
    """wide and nested in one, of so many records: a struct of arguments `var`, whose last one is 62 structs around a product (of x, number 0, and y, number 2)"""
    wide = records - 63 - len(leaf) // 4
    return [8, 1, wide + 1, 0] + list(var) * wide + [8, 1, 1, 0] * 62 + list(leaf)


def wide_and_nested():
    """the same type for each call that is lent a list: the deepest stacks that were found"""
    names, x, z, w = ('x', 'P', 'y', 'z', 'w'), [1, 0, 0, 0], [1, 3, 0, 0], [1, 4, 0, 0]
    bound = [20, 0, 0, 0] + z + deep(2043) + [20, 0, 0, 0] + x + w    # ?z ~ the type, ?x ~ ?w
    what = ', a wide struct that ends in 62 nested ones'
    yield 'solve' + what, Request(23, names, [bound])
    yield 'confirm' + what, Request(32, names, [bound])
    yield '1 set in one call' + what, Request(30, names, [bound, [2048]], x=4, result=8196)
    yield 'replace in a type' + what, Request(21, names, [deep(2048), [24, 0, 0, 0] + w])
    yield 'replace in a set' + what, Request(22, names, [[21, 0, 0, 0] + deep(2047), [24, 0, 0, 0] + w])
    yield 'judge' + what, Request(28, names, [[20, 0, 0, 0] + z + deep(2046), [0, 0], w, []])
    yield 'quantify' + what, Request(25, names, [deep(2047), [], [0, 2]])
    yield 'generalise' + what, Request(26, names, [[26, 0, 1, 0] + deep(2047), []])
    yield 'instantiate' + what, Request(27, names, [[26, 2, 0, 0] + deep(2047, (14, 0, 0, 0), (3, 2, 0, 0, 15, 0, 2, 1, 15, 1, 1, 1)), [0, 2]])
    yield 'is it a set' + what, Request(13, names, [[21, 0, 0, 0] + deep(2047)])
    yield 'closed' + what, Request(18, names, [deep(2048)])
    yield 'variables' + what, Request(19, names, [deep(2048)], y=1)
    yield 'the ceiling' + what, Request(29, names, [[21, 0, 0, 0] + deep(2047)])
    yield 'add' + what, Request(20, names, [[], [21, 0, 0, 0] + deep(2047)])
    yield 'a line that is a reference' + what, Request(31, names, [[2, 0, 0, 0], deep(2046), [0], [4]])


def cases():
    yield 'compare two names', Request(4, (), [[97], [98]])
    yield 'solve the empty set', of('solve')
    v = ['v%03d' % i for i in range(250)]
    words = [w for i in range(682) for w in (20, 0, 0, 0, 1, i % 250, 0, 0, 1, (i * 7 + 1) % 250, 0, 0)]
    yield 'solve 682 equalities of 250 variables', Request(23, v, [words])
    yield 'solve functions of 670 parameters', Request(23, ('x',), [[20, 0, 0, 0, 7, 670, 0, 0] + [1, 0, 0, 0] * 671 + [7, 670, 0, 0] + [4, 0, 0, 0] * 671])
    yield 'solve functions of 680 parameters, struct by struct', Request(23, ('x', 'P'), [[20, 0, 0, 0, 7, 680, 0, 0] + [8, 1, 0, 0] * 681 + [7, 680, 0, 0] + [8, 1, 0, 0] * 680 + [4, 0, 0, 0]])
    yield 'solve: a function of 2,038 parameters takes a binding', Request(23, ('x', 'y'), [[20, 0, 0, 0, 1, 0, 0, 0, 7, 2038, 0, 0] + [1, 1, 0, 0] * 2039 + [20, 0, 0, 0, 1, 1, 0, 0, 4, 0, 0, 0]])
    yield 'confirm: the same function, which the judge finds too long', Request(32, ('x', 'y'), [[20, 0, 0, 0, 1, 0, 0, 0, 7, 2038, 0, 0] + [1, 1, 0, 0] * 2039 + [20, 0, 0, 0, 1, 1, 0, 0, 4, 0, 0, 0]])
    yield 'confirm: a function of 1,018 parameters takes a binding', Request(32, ('x', 'y'), [[20, 0, 0, 0, 1, 0, 0, 0, 7, 1018, 0, 0] + [1, 1, 0, 0] * 1019 + [20, 0, 0, 0, 1, 1, 0, 0, 4, 0, 0, 0]])
    yield 'confirm 682 equalities of 250 variables', Request(32, v, [words])
    yield 'solve 16 equalities of 62 nested lists', of('solve ' + ' '.join('(eq %s %s)' % (nest(62, '(var x)'), nest(62, '(var y)')) for _ in range(16)))
    yield 'solve a chain of 200 functions', Request(23, v, [[w for i in range(200) for w in (20, 0, 0, 0, 1, i, 0, 0, 7, 1, 0, 0, 1, i + 1, 0, 0, 4, 0, 0, 0)]])
    yield 'solve 31 products of 64 factors', of('solve ' + ' '.join('(scalar (v x%02d 1 2) %s)' % (i, dims(63, i % 5, '3 7')) for i in range(31)))
    yield 'solve products that pass 64 factors', of('solve (eq (var x) (dim %s)) ' % dims(64) + ' '.join('(scalar (v x 1 1) %s)' % dims(60, i % 4, '-1 1') for i in range(30)))
    yield 'solve is-dimension of 64 variables, 30 times', of('solve ' + ' '.join('(isdim (dim %s))' % ' '.join('(v y%02d 1 1)' % j for j in range(64)) for _ in range(30)))
    yield 'replace in a function of 2,040 parameters', Request(21, ('x',), [[7, 2040, 0, 0] + [1, 0, 0, 0] * 2041, [24, 0, 0, 0, 4, 0, 0, 0]])
    yield 'replace in a struct of 2,040 arguments', Request(21, ('x', 'P'), [[8, 1, 2040, 0] + [1, 0, 0, 0] * 2040, [24, 0, 0, 0, 4, 0, 0, 0]])
    yield 'replace in 63 nested lists', of('replace %s (bind x (bool))' % nest(63, '(var x)'))
    yield 'replace 64 factors by products of 28', of('replace (dim %s) %s' % (' '.join('(v z%02d 1 1)' % i for i in range(64)), ' '.join('(bind z%02d (dim %s))' % (i, dims(28)) for i in range(64))))
    yield 'replace in a set of 2,048 records, 1,024 bindings', Request(22, ('x', 'y'), [[21, 0, 0, 0, 1, 0, 0, 0] * 1024, [24, 1, 0, 0, 4, 0, 0, 0] * 1023 + [24, 0, 0, 0, 4, 0, 0, 0]])
    yield 'replace where nothing fits: 2,048 parameters by 2,040 records', Request(21, ('x',), [[7, 2046, 0, 0] + [1, 0, 0, 0] * 2047, [24, 0, 0, 0, 7, 2040, 0, 0] + [4, 0, 0, 0] * 2041])
    yield 'quantify a function of 2,040 parameters', Request(25, ('x',), [[7, 2040, 0, 0] + [1, 0, 0, 0] * 2041, [], [0]])
    yield 'instantiate a function of 2,040 parameters', Request(27, ('x',), [[26, 1, 0, 0, 7, 2040, 0, 0] + [14, 0, 0, 0] * 2041, [0]])
    yield 'generalise a function of 255 names', Request(26, ['n%03d' % i for i in range(256)], [[26, 0, 1, 0, 7, 254, 0, 0] + [w for i in range(255) for w in (1, 254 - i, 0, 0)], []])
    full = ['n%03d' % i for i in range(256)]
    yield 'check a full table', Request(1, ['%02d' % (i % 100) + chr(65 + i // 100) + 'z' * 29 for i in range(256)])
    yield 'enter into a table of 255 names', Request(3, full[:255], [[], list(b'another')])
    yield 'a type nested 64 deep', of('closed ' + nest(63, '(bool)'))
    yield 'variables of a type with 255 names', Request(19, full, [[7, 254, 0, 0] + [w for i in range(255) for w in (1, 254 - i, 0, 0)]], y=1)
    yield 'add to a set of 2,040 records', Request(20, ('x',), [[21, 0, 0, 0, 1, 0, 0, 0] * 1020, [21, 0, 0, 0, 1, 0, 0, 0]], x=2040)
    fn = [7, 2040, 0, 0] + [1, 0, 0, 0] * 2041
    yield 'judge a function of 2,040 parameters', Request(28, ('x',), [[21, 0, 0, 0] + fn, [0, 0], [4, 0, 0, 0], []])
    yield 'judge 682 equalities of 250 variables', Request(28, v, [words, [w for i in range(250) for w in (i, 0)], [4, 0, 0, 0], []])
    yield 'judge 682 equalities of two types of 1,021 records', Request(28, v, [[20, 0, 0, 0, 1, 0, 0, 0, 1, 1, 0, 0] * 682, [0, 0, 1, 0], [7, 1019, 0, 0] + [4, 0, 0, 0] * 1020, []])
    yield 'judge 31 products of 64 factors', of('judge (set %s) %s (bounds)' % (' '.join('(scalar %s)' % ' '.join('(v z%02d 1 1)' % i for i in range(64)) for _ in range(31)), ' '.join('(bind z%02d (dim %s))' % (i, dims(28, 0, '%d 1' % (1 - 2 * (i % 2)))) for i in range(64))))
    yield 'judge 5,120 entries', Request(28, full, [[], [w for i in range(5120) for w in (i, 0)], [4, 0, 0, 0], []])
    yield 'judge 256 entries, the last of which is one of the others', Request(28, full, [[], [w for i in list(range(255)) + [0] for w in (i, 0)], [4, 0, 0, 0], []])
    yield 'the ceiling of 256 variables', Request(29, full, [[20, 0, 0, 0, 7, 255, 0, 0] + [w for i in range(256) for w in (1, i, 0, 0)] + [4, 0, 0, 0]])
    double = [w for i in range(7) for w in (20, 0, 0, 0, 1, i, 0, 0, 7, 1, 0, 0, 1, i + 1, 0, 0, 1, i + 1, 0, 0)]
    yield '64 sets in one call, each of 7 doublings', Request(30, v, [double * 64, [35] * 64], x=256, result=256 + 64 * 8192)
    yield '1 set of 2,046 records by that call', Request(30, v, [words, [2046]], x=4, result=8196)
    yield '2 sets by that call, one of 2,046 records', Request(30, v, [words + words[:1500], [2046, 375]], x=8, result=16392)
    yield 'a line that is a reference of 2,040 parameters', Request(31, ('x', 'v'), [[2, 0, 0, 0], fn, [0], [1]])
    km = [3, 1, 0, 0, 13, 128, 1, 1]
    yield 'a line of 128 steps', Request(31, v[:129], [[1, 0, 0, 0] + [7, 0, 1, 1] * 127, km, [], list(range(128))])
    yield 'a line of 64 summands', Request(31, v[:129], [[1, 0, 0, 0] * 64 + [3, 0, 0, 0] * 63, km, [], list(range(127))])
    yield 'multiply two products of 64 factors', of('prod mul (dim %s) (dim %s)' % (dims(64, 0, '3 7'), dims(64, 0, '5 11')))
    yield from wide_and_nested()


def cpu(serve, data):
    """the processor time that the program took"""
    before = resource.getrusage(resource.RUSAGE_CHILDREN)
    subprocess.run([serve], input=data, stdout=subprocess.PIPE)
    after = resource.getrusage(resource.RUSAGE_CHILDREN)
    return after.ru_utime - before.ru_utime + after.ru_stime - before.ru_stime


def runs(serve, data, stack):
    def limit():
        resource.setrlimit(resource.RLIMIT_STACK, (stack, stack))
    p = subprocess.run([serve], input=data, stdout=subprocess.PIPE, preexec_fn=limit)
    return p.returncode == 0 and len(p.stdout) > 0


def stack_of(serve, data):
    low, high = 64 << 10, 64 << 20
    while high - low > 4096:
        mid = (low + high) // 2
        if runs(serve, data, mid):
            high = mid
        else:
            low = mid
    return high


def main():
    args = sys.argv[1:]
    serve = args[0] if args else os.path.join(HERE, '../crates/serve/out/serve')
    # what comparing two names needs
    base = {large: stack_of(serve, Request(4, (), [[97], [98]], result=9217 if large else 9216).bytes()) for large in (False, True)}
    print('| call | records | refusal | rounds | time of a request | stack |\n|---|---|---|---|---|---|')
    for what, q in cases():
        if args[1:] and args[1] not in what:
            continue
        one = q.bytes()
        r = requests.replies(subprocess.run([serve], input=one, stdout=subprocess.PIPE).stdout)[0]
        n = 20
        best = min((cpu(serve, one * (n + 1)) - cpu(serve, one)) / n for _ in range(3))
        s = stack_of(serve, one)
        print('| %s | %d | %d | %d | %.2f ms | %d KB |' % (what, len(q.lists[0]) // 4, r[0], r[3], best * 1000, max(0, s - base[q.result > 9216]) // 1024), flush=True)
    print('\nThe program itself needs %d KB, with a large result buffer %d KB.' % (base[False] // 1024, base[True] // 1024))


if __name__ == '__main__':
    main()
