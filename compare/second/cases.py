"""Inputs: small structured ones, most of them with no fault or one or several, so that the order of refusals shows; and some at the limits."""

from array import array

from records import write_binding, write_bounds, write_constraint, write_scheme, write_set, write_type
from solving import solve
from text import written_line
from values import BASE, LIMIT, PARAMETER, QUANTIFIED, VARIABLE, Refused, factor_order

SEEDS = [b"x", b"y", b"z", b"a", b"b", b"L", b"M", b"P", b"Q", b"f", b"g", b"xy", b"x\0", b"\xff", b"A b", b"~", b"\n", b"Bool", b"0", b"n" * 48, b"--",
         b'"', b"\xc3\xa9", b"aa", b"ab", b"a" * 47]
NUMBERS = [0, 1, 2, 3, 4, 5, 7, 8, 10, 11, 13, 14, 20, 24, 25, 26, 63, 64, 65, 255, 256, 257, 2048, 65535, 65536, 65537, 131072, 2**30, 2**30 + 1,
           LIMIT, LIMIT + 1, 2**32 - 1, 2**32 - 2]


BOOL = ("bool",)


def words(some):
    return array("I", some)


def table_of(names, behind=None):
    """Pool and table; behind fills what no name uses."""
    text = b"".join(names)
    pool = text + (behind or bytes(8192))[:8192 - len(text)]
    ends, end = [len(names)], 0
    for name in names:
        end += len(name)
        ends.append(end)
    return pool, words(ends + [0] * (257 - len(ends)))


class Makes:
    """Makes parts over a choice of names."""

    def __init__(self, rng, most=10):
        self.rng = rng
        chosen = rng.sample(SEEDS, rng.randint(2, most)) if rng.random() < 0.98 else []
        self.names = chosen
        count = len(chosen)
        numbers = list(range(count))
        rng.shuffle(numbers)
        cut = rng.randint(1, count) if count else 0
        self.vars = numbers[:cut][:rng.randint(1, 5)]
        self.pars = numbers if rng.random() < 0.06 else numbers[cut:]  # now and then both roles: 4

    def any_name(self):
        return self.rng.randrange(len(self.names)) if self.names else 0

    def var(self):
        return self.rng.choice(self.vars) if self.vars else 0

    def par(self):
        return self.rng.choice(self.pars) if self.pars else None

    def exponent(self):
        rng = self.rng
        if rng.random() < 0.9:
            return rng.choice([(1, 1), (1, 1), (1, 1), (-1, 1), (2, 1), (-2, 1), (1, 2), (-1, 2), (3, 1), (3, 2), (-2, 3), (4, 3)])
        return rng.choice([(LIMIT, 1), (-LIMIT, 1), (1, LIMIT), (-1, LIMIT), (LIMIT, 2), (LIMIT - 1, 1), (2, LIMIT), (65536, 1), (1, 65537), (46341, 46340)])

    def factors(self, most=4, quantified=0):
        rng, found = self.rng, {}
        for _ in range(rng.choice([0, 1, 1, 1, 2, 2, 3, most])):
            tag = rng.choice([VARIABLE, VARIABLE, VARIABLE, PARAMETER, BASE, QUANTIFIED if quantified else VARIABLE])
            name = self.var() if tag == VARIABLE else self.par() if tag == PARAMETER else self.any_name()
            if tag == QUANTIFIED:
                name = rng.randrange(quantified)
            if name is not None and (tag == QUANTIFIED or self.names):
                found[tag, name] = self.exponent()
        return tuple(sorted((key + power for key, power in found.items()), key=factor_order(self.names)))

    def dim(self, quantified=0):
        return ("dim", self.factors(quantified=quantified))

    def type(self, depth=3, quantified=0):
        rng = self.rng
        pick = rng.random()
        if depth == 0:
            pick *= 0.75
        if pick < 0.35 and self.names:
            if quantified and rng.random() < 0.5:
                return ("quant", rng.randrange(quantified))
            par = self.par() if rng.random() < 0.15 else None
            return ("var", self.var()) if par is None else ("par", par)
        if pick < 0.6:
            return self.dim(quantified)
        if pick < 0.75:
            return (rng.choice(["bool", "bool", "string", "date"]),)
        if pick < 0.82:
            return ("list", self.type(depth - 1, quantified))
        if pick < 0.9 or not self.names:
            return ("fn", tuple(self.type(depth - 1, quantified) for _ in range(rng.choice([0, 1, 1, 2]))), self.type(depth - 1, quantified))
        return self.struct(depth, quantified)

    def struct(self, depth=2, quantified=0):
        rng = self.rng
        arguments = tuple(self.type(depth - 1, quantified) for _ in range(rng.choice([0, 0, 1, 1, 2])))
        fields = sorted({self.any_name() for _ in range(rng.choice([0, 0, 1, 2]))}, key=lambda name: self.names[name])
        return ("struct", self.any_name(), arguments, tuple((name, self.type(depth - 1, quantified)) for name in fields))

    def like(self, one):
        """A type that may be made equal to this one."""
        rng = self.rng
        if rng.random() < 0.25:
            return ("var", self.var()) if self.names else one
        if one[0] == "list":
            return ("list", self.like(one[1]))
        if one[0] == "fn":
            return ("fn", tuple(map(self.like, one[1])), self.like(one[2]))
        if one[0] == "struct":
            return ("struct", one[1], tuple(map(self.like, one[2])), tuple((name, self.like(part)) for name, part in one[3]))
        if one[0] == "dim" and rng.random() < 0.6:
            return self.dim()
        return one

    def constraint(self, depth=2):
        pick = self.rng.random()
        if pick < 0.45:
            one = self.type(depth)
            return ("equal", one, self.like(one)) if self.rng.random() < 0.8 else ("equal", one, self.type(depth))
        if pick < 0.6:
            return ("isdim", self.type(1))
        if pick < 0.85 or not self.names:
            return ("scalar", self.dim())
        struct = self.struct() if self.rng.random() < 0.7 else self.type(depth)
        name = self.rng.choice(struct[3])[0] if struct[0] == "struct" and struct[3] and self.rng.random() < 0.8 else self.any_name()
        return ("field", name, struct, self.type(1))

    def set(self, most=5):
        style = self.rng.random()
        count = self.rng.randint(0, most)
        if style < 0.2:
            return [("scalar", self.dim()) for _ in range(count)]
        if style > 0.93 and len(self.vars) > 1:
            return self.cancelling()
        if style < 0.3:
            return [self.rng.choice([("scalar", self.dim()), ("equal", self.dim(), self.dim())]) for _ in range(count)]
        return [self.constraint(self.rng.choice([0, 1, 2, 2, 3])) for _ in range(count)]

    def cancelling(self):
        """As K10: a variable that vanishes from a product, and is then something else; the judge may say no."""
        rng = self.rng
        x = self.var()
        one, two = self.factors(), self.factors()
        shared = tuple(factor for factor in one if factor[:2] != (VARIABLE, x)) + ((VARIABLE, x, 1, 1),)
        other = tuple(factor for factor in two if factor[:2] != (VARIABLE, x)) + ((VARIABLE, x, 1, 1),)
        sides = [("dim", tuple(sorted(side, key=factor_order(self.names)))) for side in (shared, other)]
        late = rng.choice([("equal", ("var", x), self.type(1)), ("equal", ("list", ("var", x)), ("list", BOOL)), self.constraint()])
        return [("equal", *sides), late] + [self.constraint(1) for _ in range(rng.choice([0, 0, 1]))]

    def bindings(self, most=4):
        return [(self.var(), self.type(self.rng.choice([0, 0, 1, 2]))) for _ in range(self.rng.randint(0, most))] if self.names else []

    def bounds(self, most=4):
        return [(self.any_name(), 0) for _ in range(self.rng.randint(0, most))] if self.names else []

    def scheme(self):
        rng = self.rng
        if rng.random() < 0.4:
            return 0, 1, self.type(), []
        count = rng.randint(0, 4) if rng.random() < 0.93 else rng.choice([2**31, 2**32 - 1, 256, 65536])
        bounds = [(rng.randrange(count), 1) if count and rng.random() < 0.7 else (self.any_name(), 0) for _ in range(rng.randint(0, 3))]
        return count, 0, self.type(3, count), [bound for bound in bounds if bound[1] or self.names]


# ---- faults ----

def worsen(rng, some):
    """One fault in a list of words."""
    some = words(some)
    pick = rng.random()
    if pick < 0.55 and some:
        place = rng.randrange(len(some))
        old = some[place]
        some[place] = rng.choice([(old + 1) % 2**32, (old - 1) % 2**32, rng.choice(NUMBERS), (old + 65536) % 2**32, old ^ (1 << rng.randrange(32)),
                                  rng.choice(some)])
    elif pick < 0.62 and some:
        place = 4 * rng.randrange((len(some) + 3) // 4)
        del some[place:place + 4]
    elif pick < 0.69 and some:
        place = 4 * rng.randrange((len(some) + 3) // 4)
        some[place:place] = some[place:place + 4]
    elif pick < 0.76 and len(some) >= 8:
        one, two = (4 * rng.randrange(len(some) // 4) for _ in range(2))
        some[one:one + 4], some[two:two + 4] = some[two:two + 4], some[one:one + 4]
    elif pick < 0.86 and some:
        del some[rng.randrange(len(some)):]
    elif pick < 0.96:
        some.extend([rng.choice(NUMBERS) for _ in range(rng.randint(1, 5))])
    else:
        size = rng.choice([2047, 2048, 2049, 4096, 4097, 4098, 8188, 8192, 8192, 8193, 8195, 8196, 8200])
        some.extend([rng.choice([0, 0, some[0] if some else 1])] * max(0, size - len(some)))
    return some


def worsen_table(rng, pool, table):
    pool, table = bytearray(pool), words(table)
    count = min(table[0], 256)
    pick = rng.random()
    if pick < 0.2:
        table[0] = rng.choice([count + 1, 257, 256, 2**32 - 1, 0, max(count - 1, 0)])
    elif pick < 0.6 and count:
        place = 1 + rng.randrange(count)
        table[place] = rng.choice([(table[place] + 1) % 2**32, (table[place] - 1) % 2**32, 8192, 8193, 0, 2**32 - 1, (table[place] + 48) % 2**32])
    elif pick < 0.8 and count > 1:
        one, two = rng.sample(range(count), 2)
        start, end = (table[one] if one else 0), table[one + 1]
        other = table[two] if two else 0
        pool[other:other + end - start] = pool[start:end]
        pool = pool[:8192]
    elif count < 255:
        table[count + 1] = rng.choice(NUMBERS)
    return bytes(pool), table


def resize(rng, buffer, least):
    """Shorter or longer than asked for."""
    size = rng.choice([0, least - 1, least - 1, least, least + 1, least + 7])
    if isinstance(buffer, bytes):
        return (buffer + bytes(rng.randrange(256) for _ in range(16)))[:max(size, 0)]
    some = buffer[:max(size, 0)]
    some.extend([rng.choice(NUMBERS) for _ in range(size - len(some))])
    return some


LEAST = {"pool": 8192, "table": 257, "result": 8192, "work": 16384, "kept": 32768, "skipped": 2049, "buffer": 8192}
FILLED = {"result": words([0xA5A5A5A5] * 8200), "work": words([0x5A5A5A5A] * 16400), "kept": b"\x3C" * 32800, "skipped": words([0x3C3C3C3C] * 2060),
          "text": b"\x77" * 354320, "buffer": words([0x11111111] * 8200)}
RANDOM = bytes((i * i * 7 + i // 3) % 251 for i in range(8192))


def standard(rng, makes, keys):
    """Pool, table and buffers, all good."""
    pool, table = table_of(makes.names, RANDOM if rng.random() < 0.5 else None)
    if rng.random() < 0.2:
        for place in range(table[0] + 1, 257):
            table[place] = rng.choice(NUMBERS)
    given = {"pool": pool, "table": table, "answer": words([0xEE] * rng.choice([3] * 20 + [0, 1, 2, 5]))}
    for key in keys:
        given[key] = filled(rng, makes, key)
    return given


def filled(rng, makes, key):
    """What a buffer holds before the call: a pattern, zero, or records of another set."""
    size, pick = LEAST[key], rng.random()
    if pick < 0.6 or isinstance(FILLED[key], bytes) or not makes.names:
        return FILLED[key][:size]
    if pick < 0.7:
        return words(bytes(4 * size))
    some = words(write_set([("equal", ("var", 0), BOOL), ("scalar", ("dim", ((VARIABLE, 0, 1, 1),))), ("isdim", ("var", 0))]) + [rng.choice(NUMBERS)] * 4)
    return (some * (size // len(some) + 1))[:size]


def faults(rng, given, lists, chance=0.45):
    """None, one or several faults in lists, table and buffers."""
    while rng.random() < chance:
        pick = rng.random()
        if pick < 0.75 and lists:
            key = rng.choice(lists)
            given[key] = worsen(rng, given[key])
        elif pick < 0.87:
            if len(given["pool"]) == 8192 and len(given["table"]) == 257:
                given["pool"], given["table"] = worsen_table(rng, given["pool"], given["table"])
        else:
            key = rng.choice([key for key in given if key in LEAST])
            given[key] = resize(rng, given[key], LEAST[key])
        chance = 0.4
    return given


# ---- calls ----

def with_set(rng):
    makes = Makes(rng)
    given = dict(standard(rng, makes, ("result", "work")), set=words(write_set(makes.set(rng.choice([2, 3, 5, 8])))))
    return faults(rng, given, ["set"])


def rows(rng):
    """Equal-scalars alone, small and at the second engine's limits."""
    makes = Makes(rng)
    if rng.random() < 0.15:
        makes.names = [b"v%d" % i for i in range(60)]
        makes.vars = rng.sample(range(30), rng.choice([5, 24, 25]))
        makes.pars = rng.sample(range(30, 60), rng.choice([3, 12, 13]))
    given = standard(rng, makes, ("result", "work"))
    count = rng.choice([1, 2, 3, 4, 6, 10, 23, 24, 25]) if rng.random() < 0.3 else rng.randint(0, 5)
    given["set"] = words(write_set([("scalar", ("dim", makes.factors(rng.choice([3, 4, 8])))) for _ in range(count)]))
    return faults(rng, given, ["set"], 0.25)


def with_type(rng):
    makes = Makes(rng)
    given = dict(standard(rng, makes, ("result",)), words=words(write_type(makes.type(rng.choice([0, 1, 2, 3])))))
    given.update(name=rng.choice([makes.any_name(), makes.any_name(), len(makes.names), 2**32 - 1]), parameters=rng.choice([0, 1, 1, 1, 2, 2**32 - 1]))
    return faults(rng, given, ["words"])


def soup(rng):
    """A few records that only look like some."""
    kinds = [1, 2, 3, 4, 5, 6, 7, 8, 9, 10, 11, 12, 13, 14, 15, 20, 21, 22, 23, 24, 25, 26]
    some = []
    for _ in range(rng.randint(1, 5)):
        length = rng.choice([1, 1, 1, 2, 2, 3, 4, 5])
        a, b, c = (rng.choice([0, 0, 0, 1, 1, 2, rng.choice(NUMBERS)]) for _ in range(3))
        some += [rng.choice(kinds) + 65536 * length, a, b, c]
    return words(some)


def check_list(rng):
    makes = Makes(rng)
    pick = rng.randrange(4)
    some = (write_type(makes.type()), write_set(makes.set()), write_scheme(*makes.scheme()),
            [word for one in makes.bindings() for word in write_binding(*one)])[pick]
    some = words(some) if rng.random() < 0.7 else soup(rng)
    given = dict(standard(rng, makes, ("result", "work")), words=some, set=some)
    return faults(rng, given, ["words"], 0.3)


def adding(rng):
    makes = Makes(rng)
    given = standard(rng, makes, ("buffer",))
    held = words(write_set(makes.set(4)))
    given["buffer"][:len(held)] = held
    given["count"] = len(held) // 4
    given["constraint"] = words(write_constraint(makes.constraint()))
    pick = rng.random()
    if pick < 0.04:
        given["count"] = rng.choice([0, 1, 2048, 2049, 2**62, 2**64 - 1, 2**32, given["count"] + 1])
    elif pick < 0.1:
        full = [("isdim", ("bool",))] * 1024
        free = rng.randrange(0, 6)
        given["count"] = 2048 - 2 * free
        given["buffer"] = words(write_set(full))
    if rng.random() < 0.1:
        given["buffer"] = worsen(rng, given["buffer"][:4 * min(given["count"], 2048)] or words([0]))
        given["buffer"].extend([3] * (8192 - len(given["buffer"])))
    return faults(rng, given, ["constraint"])


def replacing(rng, key="words"):
    makes = Makes(rng)
    given = standard(rng, makes, ("result", "work"))
    given[key] = words(write_type(makes.type()) if key == "words" else write_set(makes.set()))
    given["bindings"] = words([word for one in makes.bindings() for word in write_binding(*one)])
    return faults(rng, given, [key, "bindings"])


def replacing_set(rng):
    return replacing(rng, "set")


def batch(rng):
    makes = Makes(rng)
    given = standard(rng, makes, ("work",))
    count = rng.choice([0, 1, 2, 3, 3, 4]) if rng.random() < 0.97 else rng.choice([63, 64, 65, 66])
    sets = [words(write_set(makes.set(3))) for _ in range(count)]
    sets = [worsen(rng, one) if rng.random() < 0.15 else one for one in sets]
    lengths = [len(one) // 4 for one in sets]
    given["sets"] = words([word for one in sets for word in one])
    given["lengths"] = words(lengths)
    if rng.random() < 0.15:
        given["lengths"] = worsen(rng, given["lengths"])[:70]
    count = len(given["lengths"])
    given["result"] = words([0xA5A5A5A5]) * (8192 * count + rng.choice([0, 0, 0, 0, 0, 3, -1 if count else 0]))
    given["answers"] = words([0x99]) * (4 * count + rng.choice([0, 0, 0, 0, 0, 2, -1 if count else 0]))
    return faults(rng, given, [], 0.15)


def judged(rng):
    makes = Makes(rng)
    given = standard(rng, makes, ("work",))
    constraints = makes.set(4)
    bindings, bounds = makes.bindings(3), [name for name, _ in makes.bounds(3)]
    if rng.random() < 0.75:
        try:
            _, found, held, remains = solve(makes.names, constraints)
            if remains is None:
                bindings, bounds = found, held
        except (Refused, KeyError, IndexError):
            pass
    bindings = [one for one in bindings if rng.random() < 0.97]
    rng.shuffle(bindings)
    entries, types = [], []
    for name, one in bindings:
        if rng.random() < 0.2:
            types += write_type(makes.type(1))
        entries += [name, len(types) // 4]
        types += write_type(one if rng.random() < 0.97 else makes.type(1))
    if rng.random() < 0.1:
        bounds = [name for name in bounds if rng.random() < 0.5]
    if rng.random() < 0.9:
        bounds = sorted(set(bounds), key=lambda name: makes.names[name])
    given.update(set=words(write_set(constraints)), entries=words(entries), types=words(types), bounds=words(write_bounds([(name, 0) for name in bounds])))
    return faults(rng, given, ["set", "entries", "entries", "types", "bounds"], 0.35)


def calculation(rng):
    makes = Makes(rng, 6)
    given = standard(rng, makes, ())
    held = len(makes.names)
    count = rng.randint(0, 9)
    lent = [b"t%d" % i for i in range(count + rng.choice([0, 0, 1]))]
    makes_names = makes.names + lent
    given = dict(standard(rng, type("Named", (), {"names": makes_names}), ("result", "work")))
    types, places = [], []
    for _ in range(rng.randint(1, 4)):
        places.append(len(types) // 4)
        one = rng.choice([makes.dim(), makes.dim(), ("bool",), makes.type(1)])
        types += write_type(one)
    closed = []
    for one in ([("dim", tuple(factor for factor in makes.factors() if factor[0] == BASE)) for _ in range(2)] + [("bool",)]):
        closed.append(len(types) // 4)
        types += write_type(one)
    steps, depth = [], 0
    for i in range(count):
        left = count - i
        if depth == 0 or (depth < left and rng.random() < 0.5):
            steps += rng.choice([[1, rng.choice(closed if rng.random() < 0.95 else places), 0, 0], [2, rng.randrange(len(places)), 0, 0]])
            depth += 1
        elif depth >= 3 and rng.random() < 0.3:
            steps += [9, 0, 0, 0]
            depth -= 2
        elif depth >= 2 and rng.random() < 0.7:
            steps += [rng.choice([3, 4, 5, 5, 6, 6, 8]), 0, 0, 0]
            depth -= 1
        else:
            num, den = makes.exponent() if rng.random() < 0.9 else (0, 1)
            steps += [7, 0, num % 2**32, den]
    numbers = list(range(held, held + len(lent)))
    rng.shuffle(numbers)
    given.update(steps=words(steps), types=words(types), lines=words(places), names=words(numbers))
    return faults(rng, given, ["steps", "steps", "types", "lines", "names"], 0.35)


def quantifying(rng):
    makes = Makes(rng)
    given = standard(rng, makes, ("result", "work"))
    handed = [makes.any_name() for _ in range(rng.randint(0, 4))] if makes.names else []
    given.update(words=words(write_type(makes.type())), bounds=words(write_bounds(makes.bounds())), names=words(handed))
    return faults(rng, given, ["words", "bounds", "names"])


def generalising(rng):
    makes = Makes(rng)
    given = dict(standard(rng, makes, ("result", "work")), scheme=words(write_scheme(*makes.scheme())), bounds=words(write_bounds(makes.bounds())))
    return faults(rng, given, ["scheme", "bounds"])


def instantiating(rng):
    makes = Makes(rng)
    scheme = makes.scheme()
    handed = [makes.any_name() for _ in range(min(scheme[0], 300) if rng.random() < 0.9 else rng.randint(0, 4))] if makes.names else []
    given = dict(standard(rng, makes, ("result", "work")), scheme=words(write_scheme(*scheme)), names=words(handed))
    return faults(rng, given, ["scheme", "names"], 0.3)


def damaged(rng):
    makes = Makes(rng)
    given = standard(rng, makes, ("kept", "skipped"))
    some = words(write_set(makes.set(rng.choice([3, 6, 10]))))
    while rng.random() < 0.6:
        some = worsen(rng, some)
    file = bytearray(some.tobytes())
    while file and rng.random() < 0.4:
        pick = rng.random()
        place = rng.randrange(len(file))
        if pick < 0.5:
            file[place] = rng.randrange(256)
        elif pick < 0.7:
            del file[place:place + rng.choice([1, 4, 16])]
        elif pick < 0.85:
            file[place:place] = bytes(rng.randrange(4) for _ in range(rng.choice([1, 4, 16])))
        else:
            del file[place:]
    given["file"] = bytes(file) if rng.random() < 0.8 else b"".join(soup(rng).tobytes() for _ in range(5))
    return faults(rng, given, [], 0.15)


def compacting(rng):
    makes = Makes(rng)
    given = standard(rng, makes, ())
    count = rng.choice([0, 1, 1, 2, 3]) if rng.random() < 0.98 else rng.choice([64, 65])
    sets = [words(write_set(makes.set(3))) for _ in range(count)]
    sets = [worsen(rng, one) if rng.random() < 0.07 else one for one in sets]
    given["sets"] = words([word for one in sets for word in one])
    given["lengths"] = words([len(one) // 4 for one in sets])
    if rng.random() < 0.1:
        given["lengths"] = worsen(rng, given["lengths"])
    return faults(rng, given, [], 0.2)


def writing(rng):
    makes = Makes(rng)
    given = dict(standard(rng, makes, ()), set=words(write_set(makes.set())))
    given["text"] = FILLED["text"][:rng.choice([354304] * 30 + [354303, 0, 354310])]
    return faults(rng, given, ["set"], 0.3)


SNIPPETS = [b"?", b"!", b"#", b"@", b"[", b"]", b"<", b">", b"{", b"}", b"(", b")", b",", b":", b"~", b"=", b"*", b"^", b"/", b"-", b"->", b'"', b" ", b"\t",
            b"\r", b"\n", b"\\", b"\\41", b"x", b"0", b"00", b"2147483647", b"2147483648", b"99999999999", b"Bool", b"String", b"DateTime", b"DType", b"Scalar",
            b"Fn", b"List", b"HasField", b"--", b"^(1/0)", b"^(0)", b"^(-0/5)", b"^(2/4)", b"[]", b"?x", b"@P", b"\xff", b"\0", b"n" * 48, b"n" * 49,
            b" * ?x", b"^( - 3 / 6 )"]


def sheet(rng):
    makes = Makes(rng)
    lines = [written_line(makes.names, one) for one in makes.set(rng.choice([1, 2, 4]))]
    while rng.random() < 0.3:
        lines.insert(rng.randint(0, len(lines)), rng.choice([b"", b"  ", b"-- note", b" --", b"-", b"\r"]))
    text = bytearray(rng.choice([b"\n", b"\n", b"\n", b" \r\n"]).join(lines))
    if rng.random() < 0.7:
        text += b"\n"
    while rng.random() < 0.5:
        place = rng.randint(0, len(text))
        pick = rng.random()
        if pick < 0.45:
            text[place:place] = rng.choice(SNIPPETS)
        elif pick < 0.65:
            text[place:place + rng.choice([1, 1, 2, 5])] = b""
        elif pick < 0.85:
            text[place:place + 1] = rng.choice(SNIPPETS)
        else:
            text[place:place + 1] = bytes([rng.randrange(256)])
    kept = makes.names
    makes.names = [name for name in kept if rng.random() < 0.5]
    if rng.random() < 0.1:
        fill = rng.choice([[b"%03d" % i for i in range(256)], [b"%048d" % i for i in range(170)]])
        makes.names = (makes.names + fill)[:rng.choice([254, 255, 256])]
        while sum(map(len, makes.names)) > 8192:
            makes.names.pop()
    given = standard(rng, makes, ("result", "work"))
    given["text"] = bytes(text)
    return faults(rng, given, [], 0.08)


def entering(rng):
    makes = Makes(rng)
    if rng.random() < 0.2:
        fill = rng.choice([[b"%03d" % i for i in range(256)], [b"%048d" % i for i in range(170)], [b"%032d" % i for i in range(256)]])
        makes.names = fill[:rng.choice([len(fill), len(fill) - 1, len(fill) - 2])] if rng.random() < 0.7 else (makes.names + fill)[:len(fill)]
        while sum(map(len, makes.names)) > 8192:
            makes.names.pop()
    given = standard(rng, makes, ())
    pick = rng.random()
    name = rng.choice(makes.names) if makes.names and pick < 0.4 else rng.choice(SEEDS) if pick < 0.8 else bytes(
        rng.randrange(256) for _ in range(rng.choice([0, 1, 2, 16, 31, 32, 33, 47, 48, 49, 60])))
    given["name"] = name
    given = faults(rng, given, [], 0.25)
    return given


def numbered(rng):
    given = entering(rng)
    count = given["table"][0] if given["table"] else 0
    given["name"] = rng.choice([0, 1, max(count, 1) - 1, count, 255, 256, 2**32 - 1, rng.randrange(8)])
    return given


def comparing(rng):
    makes = [bytes(rng.choice([0, 97, 98, 255]) for _ in range(rng.randint(0, 4))) for _ in range(2)]
    return {"first": makes[0], "second": makes[1]}


def two_exponents(rng):
    def one():
        pick = rng.random()
        if pick < 0.5:
            from math import gcd
            num, den = rng.choice([rng.randint(-9, 9), rng.randint(-LIMIT, LIMIT)]), rng.choice([rng.randint(1, 9), rng.randint(1, LIMIT)])
            return num // gcd(num, den), den // gcd(num, den)
        edge = [0, 1, -1, 2, LIMIT, -LIMIT, LIMIT - 1, -LIMIT - 1, 65536, 46341, 3]
        return rng.choice(edge), rng.choice([0, 1, 1, 1, 2, 3, LIMIT, LIMIT + 1, LIMIT - 1, 2**32 - 1, 65536])
    (num, den), (num2, den2) = one(), one()
    return {"num": num % 2**32, "den": den, "num2": num2 % 2**32, "den2": den2, "answer": words([9] * rng.choice([3, 3, 3, 3, 0, 1, 2, 4]))}


def two_products(rng):
    makes = Makes(rng)
    if rng.random() < 0.1:
        makes.names = [b"v%d" % i for i in range(130)]
        makes.vars = list(range(130))
    given = standard(rng, makes, ())

    def one(count):
        found = {}
        for _ in range(count):
            tag = rng.choice([VARIABLE, VARIABLE, QUANTIFIED, PARAMETER, BASE])
            if makes.names or tag == QUANTIFIED:
                found[tag, rng.choice([0, 1, 5, 2**32 - 1]) if tag == QUANTIFIED else makes.any_name()] = makes.exponent()
        kinds = {0: 11, 1: 15, 2: 12, 3: 13}
        listed = sorted((key + power for key, power in found.items()), key=factor_order(makes.names))
        return words([word for tag, name, num, den in listed for word in (kinds[tag], name, num % 2**32, den)])
    big = len(makes.names) == 130
    given["first"], given["second"] = (one(rng.choice([30, 60, 66, 80]) if big else rng.randint(0, 5)) for _ in range(2))
    if big:
        given["first"], given["second"] = given["first"][:4 * rng.choice([63, 64, 65])], given["second"][:4 * rng.choice([1, 20, 64])]
    given["result"] = FILLED["result"][:rng.choice([256] * 12 + [0, 1, 3, 4, 255, 257, 300])]
    num, den = makes.exponent() if rng.random() < 0.9 else rng.choice([(0, 1), (0, 2), (2, 2), (1, 0), (-LIMIT - 1, 1), (1, LIMIT + 1)])
    given.update(num=num % 2**32, den=den)
    while rng.random() < 0.3:
        key = rng.choice(["first", "second"])
        given[key] = worsen(rng, given[key])[:300]
    return faults(rng, given, [], 0.12)


MAKERS = {
    "compare": comparing, "check_table": entering, "check_number": numbered, "name_of": numbered, "enter": entering, "exponent_add": two_exponents,
    "exponent_multiply": two_exponents, "exponent_negate": two_exponents, "exponent_divide": two_exponents, "product_multiply": two_products,
    "product_divide": two_products, "product_invert": two_products, "product_power": two_products, "is_set": check_list, "is_type": check_list,
    "is_scheme": check_list, "is_bindings": check_list, "lent": check_list, "contains": with_type, "closed": with_type, "variables": with_type,
    "ceiling": check_list, "add": adding, "replace_in_type": replacing, "replace_in_set": replacing_set, "solve": with_set, "confirm": with_set,
    "solve_all": batch, "eliminate": rows, "judge": judged, "check_line": calculation, "quantify": quantifying, "generalise": generalising,
    "instantiate": instantiating, "rescue": damaged, "compact": compacting, "write_text": writing, "read_text": sheet,
}
