"""Records read into trees and written back, from the papers on records and lengths, and their readings.

A type is a tuple: ('var', name), ('par', name), ('dim', factors), ('bool',), ('string',), ('date',), ('fn', parameters, result),
('struct', name, arguments, ((field, type), ..)), ('list', type), ('quant', index). A constraint: ('equal', type, type), ('isdim', type),
('scalar', dimension), ('field', name, type, type).
"""

from values import BASE, PARAMETER, QUANTIFIED, VARIABLE, Refused, factor_order, is_exponent, signed

PLAIN = {4: ("bool",), 5: ("string",), 6: ("date",)}
PLAIN_KINDS = {"bool": 4, "string": 5, "date": 6}
FACTORS = {11: VARIABLE, 15: QUANTIFIED, 12: PARAMETER, 13: BASE}
FACTOR_KINDS = {tag: kind for kind, tag in FACTORS.items()}
PARTS = {20: 2, 21: 1, 22: 1, 23: 2}


class Bad(Exception):
    """Not well formed."""


class Reader:
    """Reads one list of words; quantified is the count of a scheme's indices, None outside schemes."""

    def __init__(self, names, words):
        self.names, self.words, self.records = names, words, len(words) // 4
        self.quantified = None
        self.order = factor_order(names)

    def record(self, place):
        if place >= self.records:
            raise Bad
        head, a, b, c = self.words[4 * place:4 * place + 4]
        return head & 0xFFFF, head >> 16, a, b, c

    def held(self, name):
        if name >= len(self.names):
            raise Bad
        return name

    def indexed(self, index):
        if self.quantified is None or index >= self.quantified:
            raise Bad
        return index

    def factor(self, place):
        kind, length, name, num, den = self.record(place)
        num = signed(num)
        if kind not in FACTORS or length != 1 or num == 0 or not is_exponent(num, den):
            raise Bad
        name = self.indexed(name) if kind == 15 else self.held(name)
        return FACTORS[kind], name, num, den

    def dimension(self, place, count):
        if count > 64:
            raise Bad
        factors = tuple(self.factor(place + i) for i in range(count))
        keys = [self.order(factor) for factor in factors]
        if any(keys[i] >= keys[i + 1] for i in range(count - 1)):
            raise Bad
        return ("dim", factors), place + count

    def types(self, place, count, depth):
        found = []
        for _ in range(count):
            one, place = self.type(place, depth)
            found.append(one)
        return tuple(found), place

    def fields(self, place, count, depth):
        found = []
        for _ in range(count):
            kind, length, name, b, c = self.record(place)
            if kind != 9 or b or c:
                raise Bad
            self.held(name)
            if found and self.names[found[-1][0]] >= self.names[name]:
                raise Bad
            one, end = self.type(place + 1, depth)
            if end - place != length:
                raise Bad
            found.append((name, one))
            place = end
        return tuple(found), place

    def type(self, place, depth=1):
        """The type that starts here, and the place behind it."""
        kind, length, a, b, c = self.record(place)
        if depth > 64 or (c and kind != 8) or (b and kind != 8) or (a and kind in (4, 5, 6, 10)):
            raise Bad
        if kind in PLAIN:
            found, end = PLAIN[kind], place + 1
        elif kind in (1, 2):
            found, end = ("var" if kind == 1 else "par", self.held(a)), place + 1
        elif kind == 14:
            found, end = ("quant", self.indexed(a)), place + 1
        elif kind == 3:
            found, end = self.dimension(place + 1, a)
        elif kind == 7:
            parameters, end = self.types(place + 1, a, depth + 1)
            result, end = self.type(end, depth + 1)
            found = ("fn", parameters, result)
        elif kind == 8:
            self.held(a)
            arguments, end = self.types(place + 1, b, depth + 1)
            fields, end = self.fields(end, c, depth + 1)
            found = ("struct", a, arguments, fields)
        elif kind == 10:
            one, end = self.type(place + 1, depth + 1)
            found = ("list", one)
        else:
            raise Bad
        if end - place != length:
            raise Bad
        return found, end

    def constraint(self, place):
        kind, length, a, b, c = self.record(place)
        if kind not in PARTS or b or c or (a and kind != 23):
            raise Bad
        parts, end = self.types(place + 1, PARTS[kind], 1)
        if end - place != length or (kind == 22 and parts[0][0] != "dim"):
            raise Bad
        if kind == 23:
            return ("field", self.held(a)) + parts, end
        return ({20: "equal", 21: "isdim", 22: "scalar"}[kind],) + parts, end

    def whole(self):
        if len(self.words) % 4:
            raise Bad

    def one_type(self):
        self.whole()
        found, end = self.type(0)
        if end != self.records:
            raise Bad
        return found

    def set(self):
        self.whole()
        found, place = [], 0
        while place < self.records:
            one, place = self.constraint(place)
            found.append(one)
        return found

    def bindings(self):
        self.whole()
        found, place = [], 0
        while place < self.records:
            kind, length, name, b, c = self.record(place)
            if kind != 24 or b or c:
                raise Bad
            one, end = self.type(place + 1)
            if end - place != length:
                raise Bad
            found.append((self.held(name), one))
            place = end
        return found

    def bounds(self, place=0):
        """Bounds up to the end: (name, 0), or in a scheme (index, 1)."""
        self.whole()
        found = []
        while place < self.records:
            kind, length, name, indexed, c = self.record(place)
            if kind != 25 or length != 1 or c or indexed > 1:
                raise Bad
            found.append((self.indexed(name) if indexed else self.held(name), indexed))
            place += 1
        return found

    def scheme(self):
        """(count, concrete, type, bounds)."""
        self.whole()
        kind, length, count, concrete, c = self.record(0)
        if kind != 26 or length != self.records or c or concrete > 1 or (concrete and count):
            raise Bad
        self.quantified = count
        found, end = self.type(1)
        bounds = self.bounds(end)
        if concrete and bounds:
            raise Bad
        return count, concrete, found, bounds


def read(names, words, what):
    """One list, as Reader's method what reads it; 1 where it isn't well formed."""
    try:
        return getattr(Reader(names, words), what)()
    except Bad:
        raise Refused(1) from None


def size(one):
    """How many records a type has."""
    kind = one[0]
    if kind == "dim":
        return 1 + len(one[1])
    if kind == "fn":
        return 1 + sum(map(size, one[1])) + size(one[2])
    if kind == "struct":
        return 1 + sum(map(size, one[2])) + sum(1 + size(field) for _, field in one[3])
    return 1 + size(one[1]) if kind == "list" else 1


def inner(one):
    """The types directly inside a type, in stored order."""
    kind = one[0]
    if kind == "fn":
        return one[1] + (one[2],)
    if kind == "struct":
        return one[2] + tuple(field for _, field in one[3])
    return (one[1],) if kind == "list" else ()


def nesting(one):
    return 1 + max(map(nesting, inner(one)), default=0)


def sides(constraint):
    """The types of a constraint, in stored order."""
    return constraint[2:] if constraint[0] == "field" else constraint[1:]


def size_of(constraint):
    return 1 + sum(map(size, sides(constraint)))


def write_type(one):
    kind = one[0]
    if kind in PLAIN_KINDS:
        return [PLAIN_KINDS[kind] + 65536, 0, 0, 0]
    if kind in ("var", "par", "quant"):
        return [{"var": 1, "par": 2, "quant": 14}[kind] + 65536, one[1], 0, 0]
    if kind == "dim":
        head = (3, len(one[1]), 0, 0)
        tail = [word for tag, name, num, den in one[1] for word in (FACTOR_KINDS[tag] + 65536, name, num % 2**32, den)]
    elif kind == "struct":
        head = (8, one[1], len(one[2]), len(one[3]))
        tail = [word for part in one[2] for word in write_type(part)]
        for name, field in one[3]:
            inside = write_type(field)
            tail += [9 + 65536 * (1 + len(inside) // 4), name, 0, 0] + inside
    else:
        head = (7, len(one[1]), 0, 0) if kind == "fn" else (10, 0, 0, 0)
        tail = [word for part in inner(one) for word in write_type(part)]
    return [head[0] + 65536 * (1 + len(tail) // 4), *head[1:]] + tail


def write_constraint(constraint):
    tail = [word for side in sides(constraint) for word in write_type(side)]
    kind = {"equal": 20, "isdim": 21, "scalar": 22, "field": 23}[constraint[0]]
    name = constraint[1] if constraint[0] == "field" else 0
    return [kind + 65536 * (1 + len(tail) // 4), name, 0, 0] + tail


def write_set(constraints):
    return [word for constraint in constraints for word in write_constraint(constraint)]


def write_binding(name, one):
    tail = write_type(one)
    return [24 + 65536 * (1 + len(tail) // 4), name, 0, 0] + tail


def write_bounds(bounds):
    return [word for name, indexed in bounds for word in (25 + 65536, name, indexed, 0)]


def write_scheme(count, concrete, one, bounds):
    tail = write_type(one) + write_bounds(bounds)
    return [26 + 65536 * (1 + len(tail) // 4), count, concrete, 0] + tail


def marks(one, found=None):
    """The variables and the parameters that a type holds: two sets of names."""
    found = (set(), set()) if found is None else found
    if one[0] in ("var", "par"):
        found[one[0] == "par"].add(one[1])
    elif one[0] == "dim":
        for tag, name, _, _ in one[1]:
            if tag in (VARIABLE, PARAMETER):
                found[tag == PARAMETER].add(name)
    for part in inner(one):
        marks(part, found)
    return found


def quantified(one):
    if one[0] == "dim":
        return any(factor[0] == QUANTIFIED for factor in one[1])
    return one[0] == "quant" or any(map(quantified, inner(one)))


def check_mixed(types, variables=()):
    """4 where one name is both a variable and a parameter."""
    found = (set(variables), set())
    for one in types:
        marks(one, found)
    if found[0] & found[1]:
        raise Refused(4)
