#!/usr/bin/env python3
"""The list of cases of sheets_run: make_sheets.py > crates/sheets_run/stdin
Sheets as text, read and written as docs/GRAMMAR.md asks. The answers are those of the reader and the writer in this file, which were written from docs/GRAMMAR.md and
the rules alone. crates/sheets_run/README.md has the form of the list."""
import sys
from fractions import Fraction
BLOCK = 65536
TOP = 2147483647
LENT = (8192, 257, 8192, 16384)


class Outside(Exception):
    """12: a line outside the grammar, at this column"""


class Refused(Exception):
    """another refusal: its number and its column"""


# ---- the grammar: a line becomes steps, from left to right

def plain(b): return 65 <= b <= 90 or 97 <= b <= 122 or 48 <= b <= 57 or b == 95 or b >= 128


class Line:
    def __init__(self, text):
        self.b, self.i, self.steps = text, 0, []

    def blanks(self):
        while self.i < len(self.b) and self.b[self.i] in b' \t\r':
            self.i += 1
        return self.i + 1

    def here(self): return self.b[self.i:self.i + 1]

    def next(self):
        self.blanks()
        return self.here()

    def fit(self, sign):
        """a sign or a keyword, with nothing inside it"""
        for x in sign:
            if self.here() != bytes([x]):
                raise Outside(self.i + 1)
            self.i += 1

    def sign(self, sign):
        self.blanks()
        self.fit(sign)

    def step(self, *s): self.steps.append(s)

    def name(self):
        """as far as it goes"""
        column, out = self.i + 1, b''
        while self.i < len(self.b) and (plain(self.b[self.i]) or self.here() == b'\\'):
            if plain(self.b[self.i]):
                out += self.here()
                self.i += 1
                continue
            self.i += 1
            for _ in range(2):
                if self.here() not in [bytes([x]) for x in b'0123456789abcdefABCDEF']:
                    raise Outside(self.i + 1)
                self.i += 1
            out += bytes([int(self.b[self.i - 2:self.i], 16)])
        self.step('name', out, column)

    def digits(self):
        self.blanks()
        n = self.i
        while self.here().isdigit():
            self.i += 1
        if n == self.i:
            raise Outside(self.i + 1)
        return int(self.b[n:self.i])

    def power(self):
        if self.next() != b'^':
            return 1, 1, 0
        column = self.blanks()
        self.sign(b'^')
        self.sign(b'(')
        minus = self.next() == b'-'
        if minus:
            self.sign(b'-')
        n, d = self.digits(), 1
        if self.next() == b'/':
            self.sign(b'/')
            d = self.digits()
        self.sign(b')')
        return -n if minus else n, d, column

    def factor(self):
        mark = self.next()
        column = self.i + 1
        if mark not in (b'?', b'!', b'#'):
            raise Outside(column)
        self.fit(mark)
        self.name()
        self.step('factor', mark, *self.power(), column)

    def dimension(self):
        self.step('count', 1, self.blanks())
        self.step('scalar')
        self.sign(b'[')
        if self.next() != b']':
            self.factor()
            while self.next() == b'*':
                self.sign(b'*')
                self.factor()
        self.step('left', self.blanks())
        self.sign(b']')

    def types(self, depth):
        n = 1
        self.type(depth)
        while self.next() == b',':
            self.sign(b',')
            self.type(depth)
            n += 1
        return n

    def field(self, depth, first):
        column = self.blanks()
        self.name()
        self.step('field', first, column)
        self.sign(b':')
        self.type(depth)

    def type(self, depth):
        """a type, this deep; the first one that is 65 deep ends the line"""
        first = self.next()
        column = self.i + 1
        if not first or first not in b'?![BSDFL@':
            raise Outside(column)
        if depth == 65:
            self.step('refuse', 1, column)
            raise StopIteration
        if first == b'[':
            return self.dimension()
        self.step('count', 1, column)
        if first in b'?!':
            self.fit(first)
            self.name()
            self.step('open', first)
        elif first in b'BSD':
            word = {b'B': b'Bool', b'S': b'String', b'D': b'DateTime'}[first]
            self.fit(word)
            self.step('basic', word)
        elif first == b'F':
            for x in (b'Fn', b'[', b'('):
                self.sign(x)
            n = 0 if self.next() == b')' else self.types(depth + 1)
            for x in (b')', b'->'):
                self.sign(x)
            self.type(depth + 1)
            self.sign(b']')
            self.step('fn', n)
        elif first == b'L':
            for x in (b'List', b'<'):
                self.sign(x)
            self.type(depth + 1)
            self.sign(b'>')
            self.step('list')
        else:
            self.struct(depth)

    def struct(self, depth):
        self.fit(b'@')
        self.name()
        n = m = 0
        if self.next() == b'<':
            self.sign(b'<')
            n = self.types(depth + 1)
            self.sign(b'>')
        if self.next() == b'{':
            self.sign(b'{')
            self.field(depth + 1, True)
            m = 1
            while self.next() == b',':
                self.sign(b',')
                self.field(depth + 1, False)
                m += 1
            self.sign(b'}')
        self.step('struct', n, m)

    def constraint(self):
        self.step('count', 1, self.blanks())
        if self.next() == b'H':
            self.sign(b'HasField')
            self.sign(b'(')
            self.type(1)
            self.sign(b',')
            self.sign(b'"')
            self.name()
            self.fit(b'"')
            self.sign(b',')
            self.type(1)
            self.sign(b')')
            self.step('has')
        else:
            dimension = self.next() == b'['
            self.type(1)
            then = self.next()
            if then == b'~':
                self.sign(b'~')
                self.type(1)
                self.step('equal')
            elif then == b':':
                self.sign(b':')
                self.sign(b'DType')
                self.step('isdim')
            elif then == b'=' and dimension:
                self.sign(b'=')
                self.sign(b'Scalar')
                self.step('isscalar')
            else:
                raise Outside(self.i + 1)
        if self.next():
            raise Outside(self.i + 1)

    def read(self):
        if not self.next():
            return []
        if self.next() == b'-':
            self.sign(b'--')
            return []
        try:
            self.constraint()
        except StopIteration:
            pass
        return self.steps


# ---- what the steps mean

RANK = {b'?': 0, b'!': 1, b'#': 2}


class Sheet:
    def __init__(self, names):
        self.names, self.fresh, self.records, self.cons = list(names), 0, 0, []

    def enter(self, name, column):
        if not 1 <= len(name) <= 48:
            raise Refused(2, column)
        if name not in self.names:
            if len(self.names) == 256 or sum(map(len, self.names)) + len(name) > 8192:
                raise Refused(3, column)
            self.names.append(name)
            self.fresh += 1
        return name

    def count(self, n, column):
        if self.records + n > 2048:
            raise Refused(8, column)
        self.records += n

    def times(self, p, mark, name, num, den, at, column):
        if den == 0 or abs(num) > TOP or den > TOP:
            raise Refused(7, at)
        f = dict(p)
        e = f.pop((RANK[mark], name), 0) + Fraction(num, den)
        if abs(e.numerator) > TOP or e.denominator > TOP:
            raise Refused(7, column)
        if e:
            f[RANK[mark], name] = e
        if len(f) > 64:
            raise Refused(8, column)
        return sorted(f.items())

    def line(self, steps):
        s, fields = [], []
        for what, *x in steps:
            if what == 'count':
                self.count(*x)
            elif what == 'name':
                s.append(self.enter(*x))
            elif what == 'refuse':
                raise Refused(*x)
            elif what == 'open':
                s.append(('open', x[0], s.pop()))
            elif what == 'basic':
                s.append(('basic', x[0]))
            elif what == 'scalar':
                s.append([])
            elif what == 'factor':
                name = s.pop()
                s.append(self.times(s.pop(), x[0], name, *x[1:]))
            elif what == 'left':
                self.count(len(s[-1]), x[0])
                s.append(('dim', s.pop()))
            elif what == 'field':
                first, column = x
                if not first and not self.before(s) < s[-1]:
                    raise Refused(1, column)
                self.count(1, column)
            else:
                self.build(what, x, s)
        self.cons += s

    def before(self, s):
        """the name of the field before: its type stands behind it"""
        return s[-3]

    def build(self, what, x, s):
        def pop(n):
            out = s[len(s) - n:]
            del s[len(s) - n:]
            return out
        if what == 'fn':
            r = s.pop()
            s.append(('fn', pop(x[0]), r))
        elif what == 'list':
            s.append(('list', s.pop()))
        elif what == 'struct':
            fs = pop(2 * x[1])
            ts = pop(x[0])
            s.append(('struct', s.pop(), ts, list(zip(fs[::2], fs[1::2]))))
        elif what == 'equal':
            s.append(('equal', *pop(2)))
        elif what == 'isdim':
            s.append(('isdim', s.pop()))
        elif what == 'isscalar':
            s.append(('isscalar', s.pop()))
        elif what == 'has':
            s.append(('has', *pop(3)))


def read(text, names):
    """the sheet, or (refusal, line, column)"""
    sheet = Sheet(names)
    for k, l in enumerate(text.split(b'\n'), 1):
        try:
            sheet.line(Line(l).read())
        except Outside as x:
            return 12, k, x.args[0]
        except Refused as x:
            return x.args[0], k, x.args[1]
    return sheet


# ---- records and text of what was read

def part(kind, a, b, c, inner):
    n = 1 + sum(len(x) for x in inner) // 4
    return [kind + 65536 * n, a, b, c] + sum(inner, [])


def words(t, at):
    k = t[0]
    if k == 'open':
        return part({b'?': 1, b'!': 2}[t[1]], at(t[2]), 0, 0, [])
    if k == 'basic':
        return part({b'Bool': 4, b'String': 5, b'DateTime': 6}[t[1]], 0, 0, 0, [])
    if k == 'dim':
        return part(3, len(t[1]), 0, 0, [part(11 + r, at(n), e.numerator % 2 ** 32, e.denominator, []) for (r, n), e in t[1]])
    if k == 'fn':
        return part(7, len(t[1]), 0, 0, [words(x, at) for x in t[1] + [t[2]]])
    if k == 'list':
        return part(10, 0, 0, 0, [words(t[1], at)])
    if k == 'struct':
        return part(8, at(t[1]), len(t[2]), len(t[3]), [words(x, at) for x in t[2]] + [part(9, at(n), 0, 0, [words(x, at)]) for n, x in t[3]])
    if k == 'has':
        return part(23, at(t[2]), 0, 0, [words(t[1], at), words(t[3], at)])
    return part({'equal': 20, 'isdim': 21, 'isscalar': 22}[k], 0, 0, 0, [words(x, at) for x in t[1:]])


def spelt(name): return b''.join(bytes([b]) if plain(b) else b'\\%02x' % b for b in name)


def power(e):
    if e == 1:
        return b''
    return b'^(%d)' % e.numerator if e.denominator == 1 else b'^(%d/%d)' % (e.numerator, e.denominator)


def text(t):
    k = t[0]
    if k == 'open':
        return t[1] + spelt(t[2])
    if k == 'basic':
        return t[1]
    if k == 'dim':
        return b'[' + b' * '.join(b'?!#'[r:r + 1] + spelt(n) + power(e) for (r, n), e in t[1]) + b']'
    if k == 'fn':
        return b'Fn[(' + b', '.join(map(text, t[1])) + b') -> ' + text(t[2]) + b']'
    if k == 'list':
        return b'List<' + text(t[1]) + b'>'
    if k == 'struct':
        ts = b'<' + b', '.join(map(text, t[2])) + b'>' if t[2] else b''
        fs = b'{' + b', '.join(spelt(n) + b': ' + text(x) for n, x in t[3]) + b'}' if t[3] else b''
        return b'@' + spelt(t[1]) + ts + fs
    if k == 'has':
        return b'HasField(' + text(t[1]) + b', "' + spelt(t[2]) + b'", ' + text(t[3]) + b')'
    return text(t[1]) + {'equal': b' ~ ', 'isdim': b': DType', 'isscalar': b' = Scalar'}[k] + (text(t[2]) if k == 'equal' else b'')


# ---- the cases

def nested(n, inner=b'Bool'): return b'List<' * (n - 1) + inner + b'>' * (n - 1)


def productions():
    """each production of the grammar, and lines around them"""
    for l in (b'?x ~ !a', b'Bool ~ String', b'DateTime ~ ?x', b'[] ~ []', b'[#L] ~ ?x', b'[?x * !a * #L^(2) * #M^(-3) * #T^(3/2) * ?y^(-1/2)] = Scalar', b'?x: DType', b'Fn[() -> Bool]: DType',
              b'Fn[(?x) -> ?y] ~ ?z', b'Fn[(?x, List<Bool>, [#L]) -> Fn[() -> String]] ~ ?z', b'List<List<?x>>: DType', b'@P: DType', b'@P<?x>: DType', b'@P<?x, Bool>{a: ?x, b: [#L]}: DType',
              b'@P{a: @Q{a: ?x}}: DType', b'HasField(@P{name: String}, "name", String)', b'HasField(?x, "a", ?y)', b'[] = Scalar', b'[#L * ?x * #L^(2/4)] = Scalar', b'[?x * ?x^(-1)] = Scalar',
              b'[?x^(0)]: DType', b'[!x * ?x * #x]: DType', b'', b'   \t\r ', b'-- a comment ~ ?x', b'--', b'  -- indented', b'?x~?y', b'[?x*?y^(-3/2)]=Scalar', b'  ?x\t~ \r ?y  ',
              b'Fn [ ( ?x , ?y ) -> ?z ] : DType', b'@P < ?x > { a : Bool , b : String } : DType', b'HasField ( ?x , "a" , ?y )', b'[ ?x ^ ( - 3 / 2 ) ] = Scalar', b'[?x^(4/2)]: DType',
              b'[?x^(007)]: DType', b'[?x^(2147483647)]: DType', b'[?x^(-2147483647/2147483646)]: DType', b'?\\41\\42: DType', b'?\\e4\\C3: DType', b'?caf\xc3\xa9: DType'):
        yield 'a line', l
        yield 'a line and its line feed', l + b'\n'


def lines():
    """several lines: blank ones, comments, ends of lines, and the first bad one"""
    yield 'the empty text', b''
    yield 'a line feed', b'\n'
    yield 'many line feeds', b'\n' * 1000
    yield 'CRLF', b'?x ~ ?y\r\n?y: DType\r\n'
    yield 'no last line feed', b'?x ~ ?y\n?y: DType'
    yield 'blank and comment lines', b'\n  \n-- x\n?x ~ ?y\n\n-- y\n?y: DType\n\n'
    yield 'a name of all lines', b'?x ~ ?y\n?z ~ ?x\n?u ~ ?z\n'
    yield 'the first bad line', b'?x ~ ?y\n?new ~\n?other ?\n'
    yield 'the second bad line', b'?x ~ ?y\n?u: DType\n?v: DType?\n?w ~\n'
    yield 'names of a refused sheet', b'?n1 ~ ?n2\n?n3 ~ ?n4\n@P{b: Bool, a: Bool}: DType\n'
    yield 'a comment behind a line', b'?x ~ ?y -- no\n'
    yield 'a long line of blanks', b' ' * 100000
    yield 'a line of 100,000 bytes, 12 at its end', b'?x ~ ?y' + b' ' * 99992 + b'!'
    yield 'a comment of 100,000 bytes', b'--' + b'x' * 99998 + b'\n?x: DType\n'
    yield 'a name of 100,000 bytes', b'?' + b'x' * 99990 + b': DType'
    yield 'bad after 60,000 lines', b'\n' * 60000 + b'?'


def outside():
    """12: each place where a line can stop fitting"""
    whole = [b'?x ~ !a', b'HasField(@P<?x>{a: Bool}, "n", [#L^(-3/2)])', b'[?x * #L] = Scalar', b'Fn[(?x, ?y) -> List<Bool>]: DType', b'DateTime ~ String']
    for l in whole:
        for i in range(len(l)):
            yield 'cut off', l[:i]
            yield 'a byte too many', l[:i] + b'$' + l[i:]
    for l in (b'-', b'- -', b'x', b'?x', b'?x =', b'?x = Scalar', b'Bool = Scalar', b'[?x]', b'[?x] =', b'[?x] = Scalars', b'?x: D', b'?x: DTypes', b'? x: DType', b'?x ~ ?y ~ ?z', b'[?x ?y]: DType', b'[*]: DType',
              b'[Bool]: DType', b'[?x^2]: DType', b'[?x^()]: DType', b'[?x^(1/)]: DType', b'[?x^(--1)]: DType', b'[?x^(1/-2)]: DType', b'?x\\4: DType', b'?x\\4g: DType', b'?\\', b'Fn[() - > Bool]: DType', b'Fn[(,) -> Bool]: DType',
              b'@P<>: DType', b'@P{}: DType', b'@P{a}: DType', b'@ P: DType', b'HasField(?x, "a" , ?y) ~ ?z', b'HasField(?x, " a", ?y)', b'HasField(?x, "a ", ?y)', b'List<>: DType', b'Boolean: DType', b'bool: DType', b'#x: DType', b'Hx', b'\x00', b'?x ~ ?y\x00'):
        yield 'outside the grammar', l


def every_byte():
    """each byte, in a name as it is and escaped, between signs, and first in a line"""
    for b in range(256):
        x = bytes([b])
        yield 'byte %d in a name' % b, b'?a' + x + b'b: DType'
        yield 'byte %d in a name, escaped' % b, b'?a\\%02xb: DType' % b
        if b % 8 == 0 or b < 48:
            yield 'byte %d between signs' % b, b'?a ' + x + b' ~ ?b'
            yield 'byte %d first' % b, x + b'?a ~ ?b'


def refusals():
    """the other refusals, each with its line and column"""
    for l in (b'?: DType', b'? ~ ?x', b'@: DType', b'[#]: DType', b'@P{: Bool}: DType', b'@P{ : Bool}: DType', b'HasField(?x, "", ?y)', b'?' + b'n' * 48 + b': DType', b'?' + b'n' * 49 + b': DType',
              b'?' + b'\\0a' * 48 + b': DType', b'?' + b'\\0a' * 49 + b': DType', b'@P{' + b'n' * 49 + b': Bool}: DType', b'HasField(?x, "' + b'n' * 49 + b'", ?y)'):
        yield '2', l
    for l in (b'[?x^(2147483648)]: DType', b'[?x^(-2147483648)]: DType', b'[?x^(1/2147483648)]: DType', b'[?x^(1/0)]: DType', b'[?x^(0/0)]: DType', b'[?x ^(99999999999999999999999999)]: DType',
              b'[?x^(2147483647) * ?x]: DType', b'[?x^(1/2147483647) * ?x^(1/2147483646)]: DType', b'[#^(1/0)]: DType', b'[?new^(1/0)]: DType', b'[?x * ?y^(1/0) * ?' + b'n' * 49 + b']: DType',
              b'[?x^(-2147483647) * ?x^(-1)] = Scalar', b'[?x^(2147483647/2147483646) * ?x^(2147483645/2147483644)]: DType'):
        yield '7', l
    for l in (b'@P{a: Bool, a: Bool}: DType', b'@P{b: Bool, a: Bool}: DType', b'@P{a: Bool, ab: Bool, b: Bool}: DType', b'@P{ab: Bool, a: Bool}: DType', b'@P{b: Bool, a: ?' + b'n' * 49 + b'}: DType',
              b'@P{b: Bool, a: Bool}: DType?', b'@P{Z: Bool, a: Bool, \xff: Bool}: DType', b'@P{a: @Q{b: Bool}, b: Bool}: DType'):
        yield '1, fields', l
    for n in (64, 65, 66, 200):
        yield '%d deep' % n, nested(n) + b': DType'
    yield '65 deep, and nothing behind it is looked at', nested(65)[:5 * 64 + 4] + b'$$$'
    yield '65 deep, a byte that begins no type', nested(65, b'$') + b': DType'
    yield '65 deep, a keyword that is none', nested(65, b'Bo') + b': DType'
    yield '65 deep, behind a name of 49 bytes', b'@P{' + b'n' * 49 + b': ' + nested(64) + b'}: DType'
    yield '65 deep on the right', b'?x ~ ' + nested(65)
    yield '65 deep in a function', b'Fn[(' * 64 + b'?x'
    yield '65 deep in a structure', b'@P<' * 64 + b'[#L]' + b'>' * 64 + b': DType'


def factors(n, power=b''): return b'[' + b' * '.join(b'#f%d' % i + power for i in range(n)) + b']'


def limits():
    yield '64 factors', factors(64) + b' = Scalar'
    yield '65 factors', factors(65) + b' = Scalar'
    yield '65 factors, one of power 0', factors(64)[:-1] + b' * #g^(0)] = Scalar'
    yield '65 factors, one twice', factors(64)[:-1] + b' * #f3] = Scalar'
    yield '64 factors that vanish, and more', factors(64)[:-1] + b' * ' + factors(64, b'^(-1)')[1:-1] + b' * ?x] = Scalar'
    yield '2,048 records', b'?x: DType\n' * 1024
    yield '2,049 records, at the type', b'?x: DType\n' * 1023 + b'Bool ~ Bool\n'
    yield '2,049 records, at the line', b'?x: DType\n' * 1024 + b'  ?y: DType\n'
    yield '2,049 records, then 12', b'?x: DType\n' * 1024 + b'  ?y: DTyp\n'
    yield '2,049 records, at a field', b'?x: DType\n' * 1023 + b'@P{a: Bool}: DType\n'
    yield '2,049 records, at a bracket', b'?x: DType\n' * 1022 + b'?x ~ [ #L * #M ]\n'
    yield '2,049 records, at a dimension', b'?x: DType\n' * 1023 + b'?x ~ []\n'
    yield '2,048 records, full lists', b'List<List<List<Bool>>> ~ List<Bool>\n' * 292 + b'?x: DType\n?x: DType\n'
    yield '3,000 lines', b'-- x\n' * 3000 + b'?x: DType\n'
    for n in (254, 255, 256):
        many = b''.join(b'?n%d: DType\n' % i for i in range(n))
        yield '%d names, and more' % n, many + b'?x: DType\n?y: DType\n'
        yield '%d names, and a name held' % n, many + b'?n3 ~ ?n7\n'
    yield 'the pool is full', b''.join(b'?%03d' % i + b'n' * 45 + b': DType\n' for i in range(171)) + b'?x: DType\n'
    yield 'a 65th factor whose name finds the table full', b''.join(b'?n%d: DType\n' % i for i in range(192)) + factors(64)[:-1] + b' * #new] = Scalar'


def given():
    """names held before, and what is lent"""
    yield 'names held', b'?x ~ !y\n?z: DType\n', [b'x', b'y', b'z'], LENT, 0
    yield 'names held, others new', b'?x ~ !new\n?z: DType\n', [b'z', b'x'], LENT, 0
    yield 'names held, refused', b'?x ~ !new\n?z\n', [b'z', b'x'], LENT, 0
    yield 'order by bytes, not by number', b'[?z * ?x * ?y] = Scalar\n@P{a: Bool, b: Bool}: DType', [b'z', b'y', b'x', b'b', b'a'], LENT, 0
    yield 'longer buffers', b'?x ~ !new\n', [b'x'], (8200, 260, 8200, 16400), 0
    yield 'longer buffers, refused', b'?x ~ !new\n?', [b'x'], (8200, 260, 8200, 16400), 0
    for i in range(4):
        short = tuple(n - (i == j) for j, n in enumerate(LENT))
        yield '10', b'?x ~ !new\n', [], short, 0
        yield '10 before 12', b'?\n', [], short, 0
        yield 'no room at all', b'?x ~ !new\n', [], tuple(n * (i != j) for j, n in enumerate(LENT)), 0
    yield '1, the table', b'?x ~ !new\n', [], LENT, 257
    yield '1 before 12', b'$\n', [], LENT, 300
    yield '10 before 1', b'?x ~ !new\n', [], (8192, 257, 8192, 16383), 257


def cases():
    for f in (productions, lines, outside, every_byte, refusals, limits):
        for why, t in f():
            yield why, t, [], LENT, 0
    yield from given()


# ---- the form of the list

def runs(xs):
    """how often, how many, and these: pieces that are repeated are written once"""
    out, i, single = [], 0, []

    def put():
        while single:
            piece, single[:] = single[:60000], single[60000:]
            out.append('1 %d %s' % (len(piece), ' '.join(map(str, piece))))
    while i < len(xs):
        best = (1, 1)
        for w in (1, 4, 8, 10, 12, 20, 36, 40, 48):
            n = 1
            while xs[i + n * w:i + (n + 1) * w] == xs[i:i + w] and len(xs[i:i + w]) == w:
                n += 1
            if n * w > best[0] * best[1] and n > 3 and n * w > 40:
                best = (n, w)
        n, w = best
        if n == 1:
            single.append(xs[i])
        else:
            put()
            out.append('%d %d %s' % (n, w, ' '.join(map(str, xs[i:i + w]))))
        i += n * w
    put()
    return ' '.join(out)


def row(word, *more): return ' '.join([word] + [str(m) for m in more if m != '']) + '\n'


def named(names): return ' '.join(' '.join(map(str, [len(n), *n])) for n in names)


def one(why, t, names, lent, spoil):
    shown = t if len(t) < 120 else t[:100] + b' ..'
    out = '# %s: %s\n' % (why, repr(shown)[2:-1]) + row('case', len(names), named(names)) + row('lent', *lent, spoil) + row('text', runs(list(t)))
    if any(a < b for a, b in zip(lent, LENT)):
        r = (10, 0, 0)
    elif spoil:
        r = (1, 0, 0)
    else:
        r = read(t, names)
    if isinstance(r, tuple):
        return out + row('gives', *r, 0)
    at = r.names.index
    ws = sum((words(c, at) for c in r.cons), [])
    back = b''.join(text(c) + b'\n' for c in r.cons)
    again = read(back, r.names)
    assert len(ws) == 4 * r.records and again.cons == r.cons and again.fresh == 0 and len(back) <= 173 * r.records, why
    return out + row('gives', 0, r.records, len(r.cons), r.fresh) + row('new', r.fresh, named(r.names[len(names):])) + row('words', runs(ws)) + row('back', runs(list(back)))


def in_blocks(texts):
    """empty lines fill blocks up, so that no case lies across the end of one, for readers that take blocks"""
    out = ''
    for c in texts:
        left = BLOCK - len(out) % BLOCK
        assert len(c) < BLOCK, c[:200]
        if left < len(c) + 1:
            out += '\n' * left
        out += c
    return out


def main():
    sys.stdout.write(in_blocks(one(*c) for c in cases()))


if __name__ == '__main__':
    main()
