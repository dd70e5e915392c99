"""Sheets as text: the reader and the writer, from the papers, the readings T1 to T5 and docs/GRAMMAR.md.

A line is first parsed into events in their order; then the events are carried out from left to right.
"""

from records import FACTOR_KINDS
from values import BASE, LIMIT, PARAMETER, VARIABLE, Refused, enter, multiply, reduced

BLANKS = b" \t\r"
SIGNS = b"ABCDEFGHIJKLMNOPQRSTUVWXYZabcdefghijklmnopqrstuvwxyz0123456789_"
HEX = b"0123456789abcdefABCDEF"
MARKS = {ord("?"): VARIABLE, ord("!"): PARAMETER, ord("#"): BASE}
STARTS = b"?![BSDFL@"
END = -1


class At(Exception):
    """A refusal in a line, at a column counted from 1."""

    def __init__(self, number, column):
        super().__init__(number, column)
        self.number, self.column = number, column


class TooDeep(Exception):
    pass


class Line:
    """Holds a line against the grammar; events tell what it means."""

    def __init__(self, line):
        self.line, self.at, self.events = line, 0, []

    def raw(self):
        return self.line[self.at] if self.at < len(self.line) else END

    def next(self):
        while self.raw() != END and self.raw() in BLANKS:
            self.at += 1
        return self.raw()

    def bad(self):
        raise At(12, self.at + 1)

    def word(self, word):
        """A sign or keyword, behind blanks."""
        self.next()
        for byte in word:
            if self.raw() != byte:
                self.bad()
            self.at += 1

    def is_next(self, sign):
        return self.next() == ord(sign)

    def event(self, *event):
        self.events.append(event)

    def name(self):
        """A name as far as it goes: its bytes and the column of its first byte."""
        found, column = bytearray(), self.at + 1
        while self.raw() != END and (self.raw() in SIGNS or self.raw() >= 128 or self.raw() == ord("\\")):
            if self.raw() == ord("\\"):
                pair = b""
                for _ in range(2):
                    self.at += 1
                    if self.raw() == END or self.raw() not in HEX:
                        self.bad()
                    pair += bytes([self.raw()])
                found.append(int(pair, 16))
            else:
                found.append(self.raw())
            self.at += 1
        return bytes(found), column

    def digits(self):
        self.next()
        start = self.at
        while self.raw() != END and self.raw() in b"0123456789":
            self.at += 1
        if self.at == start:
            self.bad()
        figures = self.line[start:self.at].lstrip(b"0")
        return int(figures or b"0") if len(figures) <= 10 else LIMIT + 1

    def power(self):
        self.word(b"^")
        column = self.at
        self.word(b"(")
        minus = self.is_next("-")
        if minus:
            self.at += 1
        num, den = self.digits(), 1
        if self.is_next("/"):
            self.at += 1
            den = self.digits()
        self.word(b")")
        return (-num if minus else num), den, column

    def factor(self):
        if self.next() not in MARKS:
            self.bad()
        tag, column = MARKS[self.raw()], self.at + 1
        self.at += 1
        name, where = self.name()
        power = self.power() if self.is_next("^") else (1, 1, 0)
        self.event("factor", tag, column, name, where, *power)

    def dimension(self):
        self.event("type", 3, self.at + 1, None)
        self.word(b"[")
        if not self.is_next("]"):
            self.factor()
            while self.is_next("*"):
                self.at += 1
                self.factor()
        self.word(b"]")
        self.event("close", self.at)

    def separated(self, depth, end):
        """Types with commas between, up to a sign that isn't taken."""
        count = 1
        self.type(depth)
        while self.next() != ord(end):
            self.word(b",")
            self.type(depth)
            count += 1
        return count

    def fields(self, depth):
        count = 0
        self.word(b"{")
        while True:
            self.next()
            name, column = self.name()
            self.event("field", name, column, count == 0)
            self.word(b":")
            self.type(depth)
            self.event("end")
            count += 1
            if self.is_next("}"):
                self.at += 1
                return count
            self.word(b",")

    def struct(self, depth, head):
        self.at += 1
        name, column = self.name()
        self.event("name", name, column)
        arguments = fields = 0
        if self.is_next("<"):
            self.at += 1
            arguments = self.separated(depth + 1, ">")
            self.word(b">")
        if self.is_next("{"):
            fields = self.fields(depth + 1)
        head.append((arguments, fields))

    def function(self, depth, head):
        for word in (b"Fn", b"[", b"("):
            self.word(word)
        head.append(0 if self.is_next(")") else self.separated(depth + 1, ")"))
        self.word(b")")
        self.word(b"->")
        self.type(depth + 1)
        self.word(b"]")

    def type(self, depth=1):
        sign = self.next()
        if sign == END or sign not in STARTS:
            self.bad()
        if depth > 64:
            self.event("deep", self.at + 1)
            raise TooDeep
        column, head = self.at + 1, []
        if sign == ord("["):
            self.dimension()
            self.event("end")
            return True
        if sign in b"?!":
            self.event("type", 1 if sign == ord("?") else 2, column, None)
            self.at += 1
            self.event("name", *self.name())
        elif sign in b"BSD":
            word, kind = {ord("B"): (b"Bool", 4), ord("S"): (b"String", 5), ord("D"): (b"DateTime", 6)}[sign]
            self.event("type", kind, column, None)
            self.word(word)
        elif sign == ord("L"):
            self.event("type", 10, column, None)
            for word in (b"List", b"<"):
                self.word(word)
            self.type(depth + 1)
            self.word(b">")
        else:
            self.event("type", 8 if sign == ord("@") else 7, column, head)
            (self.struct if sign == ord("@") else self.function)(depth, head)
        self.event("end")
        return False

    def field_line(self, start):
        start.append(23)
        for word in (b"HasField", b"("):
            self.word(word)
        self.type()
        self.word(b",")
        self.word(b'"')
        name, column = self.name()
        self.event("asked", name, column)
        if self.raw() != ord('"'):
            self.bad()
        self.at += 1
        self.word(b",")
        self.type()
        self.word(b")")

    def typed_line(self, start):
        is_dimension = self.type()
        sign = self.next()
        if sign == ord("~"):
            self.at += 1
            start.append(20)
            self.type()
        elif sign == ord(":"):
            self.at += 1
            start.append(21)
            self.word(b"DType")
        elif sign == ord("=") and is_dimension:
            self.at += 1
            start.append(22)
            self.word(b"Scalar")
        else:
            self.bad()

    def parse(self):
        """True where the line holds a constraint; events up to a type nested too deep."""
        sign = self.next()
        if sign == END:
            return False
        if sign == ord("-"):
            self.word(b"--")
            return False
        start = []
        self.event("constraint", start, self.at + 1)
        try:
            (self.field_line if sign == ord("H") else self.typed_line)(start)
            if self.next() != END:
                self.bad()
        except TooDeep:
            pass
        return True


class Sheet:
    """Carries out a line's events: names are entered, records written."""

    def __init__(self, names):
        self.names, self.records, self.open, self.new = names, [], [], 0
        self.factors, self.last = (), []

    def entered(self, name, column):
        try:
            number, new = enter(self.names, name)
        except Refused as refused:
            raise At(refused.number, column) from None
        self.new += new
        return number

    def record(self, kind, column, a=0, b=0, c=0):
        if len(self.records) == 2048:
            raise At(8, column)
        self.records.append([kind, a, b, c])

    def start(self, kind, column, a=0):
        self.open.append(len(self.records))
        self.record(kind, column, a)

    def end(self):
        place = self.open.pop()
        self.records[place][0] += 65536 * (len(self.records) - place)

    def factor(self, tag, column, name, where, num, den, power):
        number = self.entered(name, where)
        if abs(num) > LIMIT or den > LIMIT or den == 0:
            raise At(7, power)
        num, den = reduced(num, den)
        try:
            self.factors = multiply(self.names, self.factors, ((tag, number, num, den),) if num else ())
        except Refused as refused:
            raise At(refused.number, column) from None

    def close(self, column):
        self.records[self.open[-1]][1] = len(self.factors)
        for tag, name, num, den in self.factors:
            self.record(FACTOR_KINDS[tag] + 65536, column, name, num % 2**32, den)
        self.factors = ()

    def field(self, name, column, first):
        number = self.entered(name, column)
        if not first and self.names[self.last[-1]] >= self.names[number]:
            raise At(1, column)
        self.last[-1] = number
        self.start(9, column, number)

    def counts(self, kind, head):
        """Words b and c of a struct, a of a function; unknown where the line ends at a type nested too deep."""
        place = self.open[-1]
        if kind == 8:
            self.records[place][2:] = head[0] if head else (0, 0)
        elif kind == 7:
            self.records[place][1] = head[0] if head else 0

    def line(self, events):
        self.open, self.last = [], []
        kinds = []
        for event in events:
            what = event[0]
            if what == "constraint":
                self.start(event[1][0] if event[1] else 0, event[2])
            elif what == "type":
                self.start(event[1], event[2])
                self.last.append(None)
                kinds.append(event[1])
                self.counts(event[1], event[3])
            elif what in ("name", "asked"):
                place = self.open[0] if what == "asked" else self.open[-1]
                self.records[place][1] = self.entered(*event[1:])
            elif what == "factor":
                self.factor(*event[1:])
            elif what == "close":
                self.close(event[1])
            elif what == "field":
                self.field(*event[1:])
                kinds.append(9)
            elif what == "end":
                self.end()
                if kinds.pop() != 9:
                    self.last.pop()
            else:
                raise At(1, event[1])
        self.end()


def read_text(names, text):
    """(records, constraints, new names), and the names behind them; Refused at a line and a column as At with the line."""
    sheet, constraints = Sheet(list(names)), 0
    for number, line in enumerate(text.split(b"\n"), 1):
        parsed = Line(line)
        try:
            if parsed.parse():
                sheet.line(parsed.events)
                constraints += 1
        except At as at:
            at.line = number
            raise
    return [word for record in sheet.records for word in record], constraints, sheet.new, sheet.names


def written_name(name):
    return b"".join(bytes([byte]) if byte in SIGNS or byte >= 128 else b"\\%02x" % byte for byte in name)


def written_factor(names, factor):
    tag, name, num, den = factor
    mark = {VARIABLE: b"?", PARAMETER: b"!", BASE: b"#"}[tag]
    power = b"" if (num, den) == (1, 1) else b"^(%d)" % num if den == 1 else b"^(%d/%d)" % (num, den)
    return mark + written_name(names[name]) + power


def written_type(names, one):
    kind = one[0]
    if kind in ("bool", "string", "date"):
        return {"bool": b"Bool", "string": b"String", "date": b"DateTime"}[kind]
    if kind in ("var", "par"):
        return (b"?" if kind == "var" else b"!") + written_name(names[one[1]])
    if kind == "dim":
        return b"[" + b" * ".join(written_factor(names, factor) for factor in one[1]) + b"]"
    if kind == "list":
        return b"List<" + written_type(names, one[1]) + b">"
    if kind == "fn":
        return b"Fn[(" + b", ".join(written_type(names, part) for part in one[1]) + b") -> " + written_type(names, one[2]) + b"]"
    arguments = b"<" + b", ".join(written_type(names, part) for part in one[2]) + b">" if one[2] else b""
    fields = b", ".join(written_name(names[name]) + b": " + written_type(names, part) for name, part in one[3])
    return b"@" + written_name(names[one[1]]) + arguments + (b"{" + fields + b"}" if fields else b"")


def written_line(names, constraint):
    kind = constraint[0]
    if kind == "equal":
        return b" ~ ".join(written_type(names, side) for side in constraint[1:])
    if kind == "isdim":
        return written_type(names, constraint[1]) + b": DType"
    if kind == "scalar":
        return written_type(names, constraint[1]) + b" = Scalar"
    _, name, struct, asked = constraint
    return b'HasField(%b, "%b", %b)' % (written_type(names, struct), written_name(names[name]), written_type(names, asked))
