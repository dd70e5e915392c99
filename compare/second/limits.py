"""Inputs at the limits: 2,048 records, 64 nested types, 64 factors, 256 names, 64 sets, 128 steps; and what of 6, 7 and 8 is met first."""

from cases import BOOL, FILLED, Makes, faults, standard, words, worsen
from records import size, write_binding, write_bounds, write_constraint, write_scheme, write_set, write_type
from text import written_line
from values import BASE, LIMIT, PARAMETER, QUANTIFIED, VARIABLE, factor_order


class Wide(Makes):
    """Many names, long products."""

    def __init__(self, rng):
        super().__init__(rng)
        self.names = [b"v%03d" % i for i in range(200)]
        rng.shuffle(self.names)
        self.vars = rng.sample(range(0, 80), rng.choice([2, 4, 30, 70]))
        self.pars = rng.sample(range(80, 120), rng.choice([1, 20]))
        self.bases = rng.sample(range(120, 200), rng.choice([2, 30, 70]))
        self.extreme = rng.choice([0, 0, 0.02, 0.2])

    def exponent(self):
        rng = self.rng
        if rng.random() < self.extreme:
            return rng.choice([(LIMIT, 1), (-LIMIT, 1), (LIMIT - 1, 1), (1, LIMIT), (-1, LIMIT), (65536, 1), (1, 65537)])
        return rng.choice([(1, 1), (1, 1), (-1, 1), (2, 1), (1, 2)])

    def factors(self, most=4, quantified=0):
        rng = self.rng
        count = rng.choice([0, 1, 1, 2, 3, 5, 20, 31, 32, 33, 60, 63, 64])
        pools = [(VARIABLE, one) for one in self.vars] + [(PARAMETER, one) for one in self.pars] + [(BASE, one) for one in self.bases]
        pools += [(QUANTIFIED, index) for index in range(quantified)] * 3
        share = rng.random()
        if share < 0.4:
            pools = [one for one in pools if one[0] == BASE or rng.random() < 0.1]
        keys = set(rng.sample(pools, min(count, len(pools))))
        return tuple(sorted((key + self.exponent() for key in keys), key=factor_order(self.names)))


def lists(one, depth, wrap=None):
    for _ in range(depth):
        one = wrap(one) if wrap else ("list", one)
    return one


WRAPS = [None, lambda one: ("struct", 0, (BOOL, one), ()), lambda one: ("fn", (one,), BOOL), lambda one: ("fn", (), one),
         lambda one: ("struct", 0, (), ((1, one),))]


def struct_of(name, parts):
    return ("struct", name, tuple(parts), ())


def big(rng, makes, records):
    """A type of so many records, that mentions variables."""
    shape = rng.random()
    if records < 2 or shape < 0.05:
        return ("var", makes.var())
    if shape < 0.75:
        parts, left = [], records - 1
        while left > 0:
            one = ("var", makes.var()) if rng.random() < 0.3 else BOOL
            if left > 3 and rng.random() < 0.05:
                one = big(rng, makes, rng.randint(2, left - 1))
            if size(one) > left:
                one = BOOL
            parts.append(one)
            left -= size(one)
        if rng.random() < 0.5:
            return ("fn", tuple(parts[:-1]), parts[-1])
        return struct_of(makes.any_name(), parts)
    return lists(("var", makes.var()) if rng.random() < 0.5 else BOOL, min(records - 1, 63))


def wide_set(rng):
    makes = Wide(rng)
    given = standard(rng, makes, ("result", "work"))
    made, records = [], 0
    for _ in range(rng.randint(1, 5)):
        pick = rng.random()
        if pick < 0.5:
            one = ("scalar", makes.dim())
        elif pick < 0.7:
            one = ("equal", makes.dim(), makes.dim())
        elif pick < 0.85:
            one = ("equal", ("var", makes.var()), rng.choice([BOOL, makes.dim(), ("var", makes.var())]))
        else:
            one = ("isdim", makes.dim())
        made.append(one)
    given["set"] = words(write_set(made))
    return faults(rng, given, ["set"], 0.02)


def few(rng):
    makes = Makes(rng)
    makes.names = makes.names or [b"x", b"y"]
    makes.vars = makes.vars or [0]
    return makes


def growing(rng, makes):
    """Constraints that bind a large type to a variable which stands often in another."""
    a, b = rng.choice([(45, 45), (30, 66), (20, 101), (10, 204), (1023, 2), (2, 1020), (64, 31)])
    a, b = max(1, a + rng.randint(-2, 2)), max(1, b + rng.randint(-2, 2))
    x, y = makes.var(), makes.var()
    first = ("equal", ("var", x), big(rng, makes, a))
    second = rng.choice([("equal", ("var", y), struct_of(0, [("var", x)] * b)), ("isdim", struct_of(0, [("var", x)] * b)),
                         ("equal", struct_of(0, [("var", x)] * b), ("var", y))])
    made = [first, second]
    if rng.random() < 0.5:
        made.append(rng.choice([("scalar", makes.dim()), ("equal", ("var", makes.var()), BOOL), ("isdim", makes.dim()), makes.constraint()]))
    if rng.random() < 0.5:
        rng.shuffle(made)
    return made


def nested(rng, makes):
    """Two types that are nested some 64 deep once one stands in the other."""
    a = rng.randint(0, 63)
    b = min(63, max(0, 64 - a + rng.choice([-2, -1, -1, 0, 1])))
    x, y = makes.var(), makes.var()
    first, second = rng.choice(WRAPS), rng.choice(WRAPS)
    made = [("equal", ("var", x), lists(rng.choice([BOOL, ("var", y)]), a, first)), ("isdim", lists(("var", x), b, second))]
    made += [makes.constraint() for _ in range(rng.choice([0, 0, 1]))]
    rng.shuffle(made)
    return made


def full(rng, makes):
    """Close to 2,048 records, below or above."""
    made = makes.set(3)
    left = 2048 + rng.choice([-3, -2, -1, -1, 0, 0, 0, 1, 2]) - len(write_set(made)) // 4
    while left > 5:
        one = ("isdim", big(rng, makes, rng.choice([left - 1, rng.randint(1, min(left, 400))]))) if rng.random() < 0.7 else makes.constraint()
        records = len(write_constraint(one)) // 4
        if records <= left:
            made.append(one)
            left -= records
    while left >= 2:
        made.append(("isdim", ("var", makes.var()) if left != 3 else ("list", BOOL)))
        left -= 2 if left != 3 else 3
    rng.shuffle(made)
    return made


def large_set(rng):
    makes = few(rng)
    given = standard(rng, makes, ("result", "work"))
    given["set"] = words(write_set(rng.choice([growing, growing, nested, full])(rng, makes)))
    return faults(rng, given, ["set"], 0.04)


def any_set(rng):
    return (wide_set if rng.random() < 0.5 else large_set)(rng)


def rows(rng):
    """For the second engine: up to 24 rows and columns, dense."""
    makes = Wide(rng)
    makes.vars = rng.sample(range(80), rng.choice([3, 12, 23, 24, 25]))
    makes.pars, makes.bases = rng.sample(range(80, 120), rng.choice([1, 12])), rng.sample(range(120, 200), rng.choice([1, 11, 12, 13]))
    given = standard(rng, makes, ("result", "work"))
    made = []
    for _ in range(rng.choice([1, 3, 8, 16, 23, 24, 24, 25])):
        product = makes.factors()
        made.append(("scalar", ("dim", product[:rng.choice([2, 5, 48, 64])])))
    given["set"] = words(write_set(made))
    return faults(rng, given, ["set"], 0.03)


def large_replacing(rng, key="words"):
    wide = rng.random() < 0.5
    makes = Wide(rng) if wide else few(rng)
    given = standard(rng, makes, ("result", "work"))
    if wide:
        bindings = [(makes.var(), rng.choice([makes.dim(), makes.dim(), makes.dim(), ("var", makes.var()), BOOL])) for _ in range(rng.randint(1, 4))]
        parts = [makes.dim() for _ in range(rng.randint(1, 4))]
        one = struct_of(0, parts) if rng.random() < 0.5 else parts[0]
        some = [("scalar", part) if rng.random() < 0.5 else ("equal", part, one) for part in parts]
    else:
        some = rng.choice([growing, nested])(rng, makes)
        bindings = [(side[1], side[2][1]) for side in [(0, one[1][1], (0, one[2])) for one in some if one[0] == "equal" and one[1][0] == "var"]]
        some = [one for one in some if one[0] != "equal" or rng.random() < 0.5] or some
        one = some[0][1] if some[0][0] != "field" else BOOL
    given[key] = words(write_type(one) if key == "words" else write_set(some))
    given["bindings"] = words([word for binding in bindings for word in write_binding(*binding)])
    return faults(rng, given, [key, "bindings"], 0.04)


def large_replacing_set(rng):
    return large_replacing(rng, "set")


def large_judged(rng):
    given = large_replacing(rng, "set")
    entries, types, place = [], [], 0
    bindings = given.pop("bindings")
    del given["result"]
    while 4 * place < len(bindings):
        length = bindings[4 * place] >> 16
        if length == 0:
            break
        if bindings[4 * place + 1] not in entries[::2]:
            entries += [bindings[4 * place + 1], len(types) // 4]
            types += bindings[4 * place + 4:4 * (place + length)]
        place += length
    count = given["table"][0] if given["table"] and given["table"][0] <= 256 else 0
    names = [bytes(given["pool"][(given["table"][i] if i else 0):given["table"][i + 1]]) for i in range(count)] if len(given["table"]) >= 257 else []
    bounds = sorted(range(len(names)), key=lambda name: names[name]) if rng.random() < 0.8 else []
    if rng.random() < 0.05:
        entries = (entries * 3000)[:rng.choice([4095, 4096, 4097, 4098])]
    given.update(entries=words(entries), types=words(types), bounds=words(write_bounds([(name, 0) for name in bounds])))
    return given


def well_typed(rng):
    """Lines that are mostly accepted, or refused late; many steps."""
    bases = [b"L", b"M", b"T"]
    opened = [b"x", b"y", b"P", b"f"]
    count = rng.choice([1, 3, 5, 9, 15, 25, 60, 127, 128, 129])
    names = bases + opened + [b"t%d" % i for i in range(count)]
    makes = Makes(rng)
    makes.names, makes.vars, makes.pars = names, [3, 4], [4] if rng.random() < 0.1 else []
    given = standard(rng, makes, ("result", "work"))
    dims = [("dim", ()), ("dim", ((BASE, 0, 1, 1),)), ("dim", ((BASE, 0, 1, 1), (BASE, 1, -1, 2)))]
    several = [BOOL, ("struct", 5, (), ((6, dims[1]),)), ("struct", 5, (), ((6, BOOL),)), ("list", dims[1])]
    free = [("var", 3), ("dim", ((VARIABLE, 3, 1, 1),)), ("dim", ((VARIABLE, 3, 2, 1),)), ("par", 4), ("var", 4)] if rng.random() < 0.4 else []
    types, places = [], {}
    for one in dims + several + free:
        places[one] = len(types) // 4
        types += write_type(one)
    lines = [places[one] for one in rng.sample(dims + several + free, len(dims + several + free))]
    steps, stack = [], []
    for i in range(count):
        left = count - i
        if len(stack) == 0 or (len(stack) < left and rng.random() < 0.5):
            one = rng.choice(dims if rng.random() < 0.8 else several + dims + free)
            steps += [2, lines.index(places[one]), 0, 0] if one in free or rng.random() < 0.5 else [1, places[one], 0, 0]
            stack.append(one)
        elif len(stack) >= 3 and stack[-3] == BOOL and stack[-2] == stack[-1]:
            steps += [9, 0, 0, 0]
            stack[-3:] = stack[-1:]
        elif len(stack) >= 2 and stack[-1][0] == stack[-2][0] == "dim" and stack[-1] == stack[-2] and rng.random() < 0.6:
            steps += [rng.choice([3, 4, 8]), 0, 0, 0]
            stack[-2:] = [BOOL if steps[-4] == 8 else stack[-1]]
        elif len(stack) >= 2 and rng.random() < 0.9:
            steps += [rng.choice([5, 6, 5, 6, 3]) if rng.random() < 0.97 else 9, 0, 0, 0]
            stack[-2:] = [("dim", None)]
        else:
            num, den = rng.choice([(2, 1), (1, 2), (-1, 1), (0, 1), (LIMIT, 1), (1, 3)])
            steps += [7, 0, num % 2**32, den]
            stack[-1:] = [("dim", None)]
    given.update(steps=words(steps), types=words(types), lines=words(lines), names=words(range(7, 7 + min(count, 249))))
    return faults(rng, given, ["steps", "types", "lines", "names"], 0.06)


def large_line(rng):
    """Lines over types of many records: over 2,048 in the set, or in what the judge puts in."""
    makes = few(rng)
    makes.names = [b"x", b"a", b"P", b"L"] + [b"t%d" % i for i in range(12)]
    makes.vars, makes.pars = [0], [1] if rng.random() < 0.8 else [0]
    given = standard(rng, makes, ("result", "work"))
    types, places, steps = [], [], []
    for _ in range(rng.randint(1, 3)):
        one = big(rng, makes, rng.choice([20, 400, 670, 680, 1000, 1015, 1020, 1023, 2040]))
        if rng.random() < 0.2:
            one = rng.choice([makes.dim(), ("par", 1), ("list", ("par", 1))])
        if len(types) // 4 + size(one) <= 2048:
            places.append(len(types) // 4)
            types += write_type(one)
    count = rng.choice([1, 1, 2, 3])
    steps = [[2, rng.randrange(len(places)), 0, 0] for _ in range(count)]
    if count == 3:
        steps[0] = [2, len(places), 0, 0]
        places.append(len(types) // 4)
        types += write_type(BOOL)
    steps += {1: [], 2: [[rng.choice([3, 5, 8]), 0, 0, 0]], 3: [[9, 0, 0, 0]]}[count]
    given.update(steps=words([word for step in steps for word in step]), types=words(types), lines=words(places), names=words(range(4, 4 + len(steps))))
    return faults(rng, given, ["steps", "types", "lines", "names"], 0.05)


def chosen_line(rng):
    """Choices between open types, for the solver's and the judge's refusals: 5, 6, 7 and 11."""
    makes = Makes(rng, 5)
    held = len(makes.names)
    count = rng.choice([1, 1, 2, 3])
    types, places, steps = list(write_type(BOOL)), [], []
    for i in range(count):
        one = ("struct", 0, tuple(makes.type(1) for _ in range(rng.choice([1, 2, 3]))), ())
        other = makes.like(one)
        if rng.random() < 0.4:  # a quotient that cancels, and then something else for its variable
            x, y = makes.var(), makes.var()
            if x != y:
                quotient = tuple(sorted([(VARIABLE, x, 1, 1), (VARIABLE, y, -1, 1)], key=factor_order(makes.names)))
                one = ("struct", 0, (("dim", quotient), ("list", ("var", y))), ())
                other = ("struct", 0, (("dim", ()), ("list", rng.choice([BOOL, makes.type(1)]))), ())
        steps += [[1, 0, 0, 0]] if i == 0 or rng.random() < 0.5 else []
        for side in (one, other):
            steps.append([2, len(places), 0, 0])
            places.append(len(types) // 4)
            types += write_type(side)
        steps.append([9, 0, 0, 0])
    lent = [b"t%02d" % i for i in range(len(steps))]
    makes.names = makes.names + lent
    given = standard(rng, makes, ("result", "work"))
    given.update(steps=words([word for step in steps for word in step]), types=words(types), lines=words(places), names=words(range(held, held + len(lent))))
    return faults(rng, given, ["steps", "types", "lines", "names"], 0.05)


def any_line(rng):
    return rng.choice([well_typed, well_typed, chosen_line, chosen_line, large_line])(rng)


def large_scheme(rng, key="scheme"):
    wide = rng.random() < 0.4
    makes = Wide(rng) if wide else few(rng)
    given = standard(rng, makes, ("result", "work"))
    count = rng.choice([0, 1, 3, 40])
    concrete = key == "words" or (key == "scheme" and rng.random() < 0.7)
    if wide:
        one = makes.type(2, 0 if concrete else count)
    else:
        one = big(rng, makes, rng.choice([2040, 2046, 2047, 1000])) if rng.random() < 0.7 else lists(("var", makes.var()), 63)
    used = [(makes.any_name(), 0) for _ in range(rng.choice([0, 0, 1, 2, 5, 8, 20]))]
    if key == "words":
        given.update(words=words(write_type(one)), bounds=words(write_bounds(used)), names=words([makes.any_name() for _ in range(count)]))
        if rng.random() < 0.1:
            given["names"] = words([makes.any_name()] * rng.choice([256, 2047, 2048, 2049]))
        return faults(rng, given, ["words", "bounds", "names"], 0.05)
    handed = [makes.any_name() for _ in range(count)]
    if key == "names" and rng.random() < 0.15:
        count = rng.choice([255, 256, 2047, 2048, 2049])
        handed = [makes.any_name()] * (count + rng.choice([0, 0, 0, 1, -1]))
    scheme = (0, 1, one, []) if concrete else (count, 0, one, [] if key == "scheme" else used)
    given.update(scheme=words(write_scheme(*scheme)), bounds=words(write_bounds(used)), names=words(handed))
    return faults(rng, given, ["scheme", "bounds"] if key == "scheme" else ["scheme", "names"], 0.05)


def large_quantify(rng):
    return large_scheme(rng, "words")


def large_instantiate(rng):
    return large_scheme(rng, "names")


def full_adding(rng):
    makes = few(rng)
    given = standard(rng, makes, ("buffer",))
    free = rng.randint(0, 12)
    held = words(write_set([("isdim", BOOL)] * ((2048 - free) // 2)))
    if free % 2:
        held = words(write_set([("isdim", ("list", BOOL))])) + held[:-8]
    given["count"] = len(held) // 4
    given["buffer"] = held + given["buffer"][len(held):]
    given["constraint"] = words(write_constraint(makes.constraint(1) if rng.random() < 0.9 else ("isdim", big(rng, makes, rng.choice([2046, 2047])))))
    return faults(rng, given, ["constraint"], 0.04)


NESTS = [(b"List<", b">"), (b"@P<", b">"), (b"@P{f: ", b"}"), (b"Fn[(", b") -> Bool]"), (b"Fn[() -> ", b"]"), (b" Fn [(?y , ", b")->?y]")]
LEAVES = [b"?x", b"[]", b"Bool", b"@P", b"?", b"[", b"B", b"Q", b"", b"@P{x: Bool}", b"Fn[() -> Bool]", b"[?x^(9/0)]", b"List<", b"-", b"H"]
POWERS = [b"", b"", b"", b"^(-1)", b"^(0)", b"^(2/4)", b"^(2147483647)", b"^(-2147483647)", b"^(1/2147483647)", b"^(2147483648)", b"^(0/0)", b"^(4/2147483648)",
          b"^(00000000000000000001)"]
PLAIN = b"abcdefghijklmnopqrstuvwxyzABLMPQ0123456789"


def deep_line(rng):
    nests = [rng.choice(NESTS) for _ in range(rng.choice([62, 63, 64, 65, 66, 70]))]
    line = b"".join(before for before, _ in nests) + rng.choice(LEAVES) + b"".join(after for _, after in reversed(nests))
    line += rng.choice([b": DType", b" ~ Bool", b"", b": D", b"~"])
    if rng.random() < 0.2:
        line = b"Bool ~ " + line
    return b"HasField(" + line + b', "f", Bool)' if rng.random() < 0.1 else line


def long_product(rng, makes):
    factors = []
    for _ in range(rng.choice([3, 63, 64, 65, 66, 100])):
        name = rng.choice(makes.names + [b"n%d" % rng.randrange(150), b"n%d" % rng.randrange(150), b"k%d" % rng.randrange(99)])
        escaped = b"".join(bytes([byte]) if byte in PLAIN else b"\\%02X" % byte for byte in name)
        power = rng.choice(POWERS if rng.random() < 0.3 else [b"", b"^(2)"])
        factors.append(bytes([rng.choice(b"?!####")]) + escaped + power)
    return rng.choice([b"[", b"[?n1] ~ [", b"Bool ~ @P<["]) + b" * ".join(factors) + rng.choice([b"] = Scalar", b"]: DType", b"]>"])


def long_sheet(rng):
    """Text near 2,048 records, 64 nested types, 64 factors or a full table."""
    makes = Wide(rng) if rng.random() < 0.4 else few(rng)
    pick = rng.random()
    lines = [written_line(makes.names, makes.constraint()) for _ in range(rng.randint(0, 2))]
    if pick < 0.3:
        left = 2048 - rng.randint(0, 8) - rng.choice([0, 0, 0, 30])
        lines += [b"Bool: DType"] * (left // 2)
        lines += [written_line(makes.names, makes.constraint()) for _ in range(rng.randint(1, 3))]
        if rng.random() < 0.5:
            rng.shuffle(lines)
    else:
        lines.append(deep_line(rng) if pick < 0.65 else long_product(rng, makes))
    text = bytearray(b"\n".join(lines))
    if rng.random() < 0.15 and text:
        place = rng.randrange(len(text))
        text[place:place + 1] = rng.choice([b"", b"?", b"\n", b"!q", b" ", b">"])
    held = [name for name in makes.names if rng.random() < 0.8]
    if rng.random() < 0.3:
        held = (held + [b"%03d" % i for i in range(256)])[:rng.choice([200, 254, 255, 256])]
    makes.names = held
    return dict(standard(rng, makes, ("result", "work")), text=bytes(text))


def large_written(rng):
    given = large_set(rng) if rng.random() < 0.5 else wide_set(rng)
    given["text"] = FILLED["text"][:354304]
    return given


def large_file(rng):
    makes = few(rng)
    given = standard(rng, makes, ("kept", "skipped"))
    some = words(write_set(rng.choice([full, nested, growing])(rng, makes)))
    while rng.random() < 0.7:
        some = worsen(rng, some)
    file = bytearray(some.tobytes())
    for _ in range(rng.choice([0, 1, 5, 50])):
        if file:
            file[rng.randrange(len(file))] = rng.randrange(256)
    size_asked = 16 * rng.choice([2047, 2048, 2049]) + rng.choice([0, 0, 1, 15])
    if rng.random() < 0.4:
        file = (file + bytes(some.tobytes()) * 40)[:size_asked]
    given["file"] = bytes(file)
    return given


def large_compact(rng):
    makes = few(rng)
    extra = [b"%d" % i for i in range(300)]
    rng.shuffle(extra)
    makes.names = (makes.names + extra)[:rng.choice([100, 255, 256])]
    rng.shuffle(makes.names)
    makes.vars = rng.sample(range(len(makes.names)), 30)
    given = standard(rng, makes, ())
    count = rng.choice([1, 2, 63, 64, 65]) if rng.random() < 0.2 else 3
    sets = [words(write_set(full(rng, makes) if rng.random() < 0.1 else makes.set(4))) for _ in range(count)]
    given["sets"] = words([word for one in sets for word in one])
    given["lengths"] = words([len(one) // 4 for one in sets])
    return faults(rng, given, ["lengths"] if rng.random() < 0.1 else [], 0.05)


def large_batch(rng):
    makes = few(rng)
    given = standard(rng, makes, ("work",))
    count = rng.choice([2, 3, 5, 63, 64, 65]) if rng.random() < 0.2 else rng.randint(1, 4)
    sets = [words(write_set(rng.choice([full, growing, nested])(rng, makes) if rng.random() < 0.4 and count < 9 else makes.set(3))) for _ in range(count)]
    given["sets"] = words([word for one in sets for word in one])
    given["lengths"] = words([len(one) // 4 for one in sets])
    if rng.random() < 0.1:
        place = rng.randrange(count)
        given["lengths"][place] = (given["lengths"][place] + rng.choice([2**30, 2**31, 2**32 - 1, 1])) % 2**32
    given["result"] = words([0xA5A5A5A5]) * (8192 * count)
    given["answers"] = words([0x99]) * (4 * count)
    return given


MAKERS = {
    "ceiling": any_set, "add": full_adding, "replace_in_type": large_replacing, "replace_in_set": large_replacing_set, "solve": any_set,
    "confirm": any_set, "solve_all": large_batch, "eliminate": rows, "judge": large_judged, "check_line": any_line, "quantify": large_quantify,
    "generalise": large_scheme, "instantiate": large_instantiate, "rescue": large_file, "compact": large_compact, "write_text": large_written,
    "read_text": long_sheet,
}
