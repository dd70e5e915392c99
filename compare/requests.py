"""Requests of `serve` from cases written as text (the lines that model.py answers), and answers read back: docs/SERVE.md has the form."""
import os
import re
import struct
from array import array
import model

# how many calls there are: the last number that `Call::from_number` knows
NUMBERS = os.path.join(os.path.dirname(os.path.abspath(__file__)), '../crates/calls_defined/src/numbers.rt')
VARIANTS = re.findall(r'(\d+) => Some\(Call::(\w+)\)', open(NUMBERS).read())
LAST = max(int(n) for n, _ in VARIANTS)

CALLS = {'check_table': 1, 'name_of': 2, 'enter': 3, 'compare': 4, 'exp add': 5, 'exp mul': 6, 'exp neg': 7, 'exp div': 8,
         'prod mul': 9, 'prod div': 10, 'prod inv': 11, 'prod pow': 12, 'is_set': 13, 'is_type': 14, 'is_scheme': 15, 'is_bindings': 16,
         'contains': 17, 'closed': 18, 'vars': 19, 'add': 20, 'replace': 21, 'replaceset': 22, 'solve': 23, 'lent': 24,
         'quantify': 25, 'generalize': 26, 'instantiate': 27, 'judge': 28, 'ceiling': 29, 'batch': 30, 'line': 31, 'confirm': 32}
# a later call is none of the harness; it has the name that it has in the source, and its first list is a set
KNOWN = max(CALLS.values())
CALLS.update({re.sub(r'(?<=[a-z])(?=[A-Z])', '_', name).lower(): int(n) for n, name in VARIANTS if int(n) > KNOWN})
RESULT_WAS, WORK_WAS = 0xaaaaaaaa, 0x55555555

# ---- word 0 of a record: the only place that knows its form

# which lists of a call are records
RECORDS = {**{n: (0,) for n in (13, 14, 15, 16, 17, 18, 19, 23, 27, 29, 30, 32)}, **{n: (0, 1) for n in (20, 21, 22, 25, 26)}, 28: (0, 2, 3), 31: (1,)}


def head(kind, n):
    """word 0 of a record of this kind whose part has so many records"""
    return kind + 65536 * n & 0xffffffff


def inner(kind, a, b, c, behind):
    """how many parts, of those that stand behind it, belong to a record"""
    return {3: a, 7: a + 1, 8: b + c, 9: 1, 10: 1, 20: 2, 21: 1, 22: 1, 23: 2, 24: 1, 26: behind}.get(kind, 0)


def measured(ws):
    """a list that was written with kinds alone, as it is sent. A part that is cut off goes as far as the list"""
    out, parts = list(ws), []
    for i in range(len(ws) // 4 * 4 - 4, -1, -4):
        n = min(inner(*ws[i:i + 4], len(parts)), len(parts))
        own = 1 + sum(parts[len(parts) - n:])
        del parts[len(parts) - n:]
        parts.append(own)
        out[i] = head(ws[i], own)
    return out


class Request:
    def __init__(self, call, names=(), lists=(), x=0, y=0, result=8192, work=16384, pool=None, table=None, whole=1, work_was=WORK_WAS):
        data = ''.join(names).encode()
        ends = [len(names)]
        at = 0
        for n in names:
            at += len(n.encode())
            ends.append(at)
        self.names, self.call, self.x, self.y = list(names), call, x, y
        self.pool = data if pool is None else pool
        self.table = ends if table is None else table
        self.lists = [list(l) for l in lists] + [[]] * (4 - len(lists))
        self.result, self.work, self.whole, self.work_was = result, work, whole, work_was
        self.ready = False    # the lists are as they are sent

    def sent(self):
        """the lists as they are sent"""
        if self.ready:
            return self.lists
        return [measured(l) if i in RECORDS.get(self.call, (0,) if self.call > KNOWN else ()) else l for i, l in enumerate(self.lists)]

    def bytes(self):
        body = bytes(self.pool) + bytes(-len(self.pool) % 4)
        for ws in [self.table] + self.sent():
            body += array('I', ws).tobytes()
        a, b, c, d = map(len, self.lists)
        return struct.pack('<16I', len(body), self.call, self.x & 0xffffffff, self.y & 0xffffffff, RESULT_WAS, self.result, self.work_was, self.work,
                           len(self.pool), len(self.table), a, b, 0, c, d, self.whole) + body


def replies(data):
    """each answer: refusal, value, more, rounds, flags, words"""
    out, at = [], 0
    while at + 28 <= len(data):
        size, *head, n = struct.unpack_from('<7I', data, at)
        out.append((*head, array('I', data[at + 28:at + 28 + 4 * n]).tolist()))
        at += size
    return out


def split(data):
    """requests as bytes, one after another"""
    at = 0
    while at < len(data):
        n = 64 + struct.unpack_from('<I', data, at)[0]
        yield data[at:at + n]
        at += n


def unpack(data):
    """a request from its bytes"""
    h = struct.unpack_from('<16I', data)
    at = 64 + (h[8] + 3) // 4 * 4
    q = Request(h[1], x=h[2], y=h[3], result=h[5], work=h[7], pool=data[64:64 + h[8]], whole=h[15], work_was=h[6])
    parts = []
    for n in (h[9], h[10], h[11], h[13], h[14]):
        parts.append(array('I', data[at:at + 4 * n]).tolist())
        at += 4 * n
    q.table, q.lists, q.ready = parts[0], parts[1:], True
    return q


# ---- text to words

FACTOR = {'v': 11, 'p': 12, 'b': 13, 'q': 15}


class Words:
    """names get numbers as they come, or in the order given"""
    def __init__(self, order=()):
        self.names = list(order)

    def number(self, n):
        if n not in self.names:
            self.names.append(n)
        return self.names.index(n)

    def factors(self, fs):
        return [w for c, n, e in fs for w in (FACTOR[c], n if c == 'q' else self.number(n), e.numerator & 0xffffffff, e.denominator)]

    def type(self, t):
        h = t[0]
        if h in ('var', 'par'):
            return [1 if h == 'var' else 2, self.number(t[1]), 0, 0]
        if h == 'q':
            return [14, t[1], 0, 0]
        if h == 'dim':
            return [3, len(t[1]), 0, 0] + self.factors(t[1])
        if h in ('bool', 'str', 'date'):
            return [{'bool': 4, 'str': 5, 'date': 6}[h], 0, 0, 0]
        if h == 'fn':
            return [7, len(t[1]), 0, 0] + [w for u in t[1] for w in self.type(u)] + self.type(t[2])
        if h == 'list':
            return [10, 0, 0, 0] + self.type(t[1])
        fs = sorted(t[3], key=lambda f: f[0].encode())
        return ([8, self.number(t[1]), len(t[2]), len(fs)] + [w for u in t[2] for w in self.type(u)]
                + [w for n, u in fs for w in [9, self.number(n), 0, 0] + self.type(u)])

    def con(self, c):
        if c[0] == 'eq':
            return [20, 0, 0, 0] + self.type(c[1]) + self.type(c[2])
        if c[0] == 'isdim':
            return [21, 0, 0, 0] + self.type(c[1])
        if c[0] == 'scalar':
            return [22, 0, 0, 0, 3, len(c[1]), 0, 0] + self.factors(c[1])
        return [23, self.number(c[2]), 0, 0] + self.type(c[1]) + self.type(c[3])

    def set(self, cs):
        return [w for c in cs for w in self.con(model.rc(c))]

    def bindings(self, bs):
        return [w for b in bs for w in [24, self.number(b[1]), 0, 0] + self.type(model.rd(b[2]))]

    def bounds(self, x):
        return [w for n in x[1:] for w in ([25, self.number(n), 0, 0] if isinstance(n, str) else [25, int(n[1]), 1, 0])]

    def scheme(self, s):
        if s[0] == 'scheme':
            return [26, int(s[1]), 0, 0] + self.type(model.rd(s[2])) + self.bounds(s[3])
        return [26, 0, 1, 0] + self.type(model.rd(s[1] if s[0] == 'concrete' else s))


def of(line, order=(), **more):
    """the request of a line; `order` gives names their numbers"""
    a = model.parse(line)
    c, a = a[0], a[1:]
    w = Words(order)
    x = y = 0
    if c == 'exp':
        c, lists = 'exp ' + a[0], [[int(n) & 0xffffffff for n in a[1:]]]
    elif c == 'prod':
        c, p = 'prod ' + a[0], w.factors(model.rd(a[1])[1])
        q = [int(n) & 0xffffffff for n in a[2:]] if a[0] == 'pow' else w.factors(model.rd(a[2])[1]) if len(a) > 2 else []
        lists, x, y = [p, q], len(p) // 4, 0 if a[0] == 'pow' else len(q) // 4
    elif c in ('solve', 'confirm', 'is_set', 'ceiling'):
        lists = [w.set(a)]
    elif c == 'judge':    # the set, bindings, bounds
        lists = [w.set(a[0][1:]), [], [], []]
        for b in a[1:-1]:
            lists[1] += [w.number(b[1]), len(lists[2]) // 4]
            lists[2] += w.type(model.rd(b[2]))
        lists[3] = w.bounds(a[-1])
    elif c == 'batch':    # sets
        sets = [w.set(s[1:]) for s in a]
        lists = [[n for s in sets for n in s], [len(s) // 4 for s in sets]]
        x = 4 * len(sets)
        more.setdefault('result', x + 8192 * len(sets))
    elif c == 'is_bindings':
        lists = [w.bindings(a)]
    elif c == 'is_scheme':
        lists = [w.scheme(a[0])]
    elif c == 'add':    # the last is added to the others
        lists = [w.set(a[:-1]), w.set(a[-1:])]
        x = len(lists[0]) // 4
    elif c == 'replace':
        lists = [w.type(model.rd(a[0])), w.bindings(a[1:])]
    elif c == 'replaceset':
        lists = [w.set(a[0][1:]), w.bindings(a[1:])]
    elif c in ('closed', 'is_type', 'vars'):
        lists, y = [w.type(model.rd(a[0]))], int(a[1]) if c == 'vars' else 0
    elif c == 'contains':
        lists, x, y = [w.type(model.rd(a[0]))], w.number(a[1]), int(a[2])
    elif c == 'quantify':
        lists = [w.type(model.rd(a[0])), w.bounds(a[1]), [w.number(n) for n in a[2][1:]]]
    elif c == 'generalize':
        lists = [w.scheme(a[0]), w.bounds(a[1])]
    elif c == 'instantiate':
        lists = [w.scheme(a[0]), [w.number(n) for n in a[1][1:]]]
    elif CALLS.get(c, 0) > KNOWN:
        lists = [w.set(a)]
    else:
        raise ValueError(line)
    more.setdefault('x', x)
    more.setdefault('y', y)
    return Request(CALLS[c], w.names, lists, **more)
