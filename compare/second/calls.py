"""Each public call on any input: (what is returned, three words of answer, {argument: what a lent buffer begins with afterwards}).

Arguments are named as in the header; bytes are bytes, words are lists of words. A buffer that isn't named in the last part is as before.
"""

from array import array

from records import Bad, Reader, check_mixed, inner, marks, read, sides, write_binding, write_bounds, write_scheme, write_set, write_type
from solving import SATISFIED, closed, generalise, instantiate, judge, quantify, replace, replaced_set, replaced_type, solve, tested
from text import At, read_text, written_line
from values import (BASE, PARAMETER, POOL, RESULT, TABLE, VARIABLE, WORK, Refused, divide, enter, inverse, is_exponent, multiply, raised, read_table,
                    reduced, signed)

NOTHING = (0, 0, 0)
ABOVE = 2**32


def refused(number, answer=NOTHING, **buffers):
    return number, answer, buffers


def short(lengths):
    if any(len(buffer) < least for buffer, least in lengths):
        raise Refused(10)


def long(*lists):
    if any(len(words) > RESULT for words in lists):
        raise Refused(8)


def with_work(call):
    """The work buffer is all zero afterwards, except for 10."""
    def whole(a):
        try:
            number, answer, buffers = call(a)
        except Refused as refusal:
            number, answer, buffers = refusal.number, (0, 0, getattr(refusal, "told", 0)), {}
        if number != 10:
            buffers = dict(buffers, work=array("I", bytes(4 * len(a["work"]))))
        return number, answer, buffers
    return whole


def plain(call):
    def whole(a):
        try:
            return call(a)
        except Refused as refusal:
            return refused(refusal.number)
    return whole


def answered(words, value=None, more=0, rounds=0):
    return 0, (len(words) // 4 if value is None else value, more, rounds), {"result": words}


# ---- names ----

@plain
def check_table(a):
    read_table(a["pool"], a["table"])
    return 0, None, {}


@plain
def check_number(a):
    if a["name"] >= len(read_table(a["pool"], a["table"])):
        raise Refused(3)
    return 0, None, {}


@plain
def name_of(a):
    names = read_table(a["pool"], a["table"])
    if a["name"] >= len(names):
        raise Refused(3)
    return 0, (sum(map(len, names[:a["name"]])), len(names[a["name"]]), 0), {}


@plain
def enter_call(a):
    names = read_table(a["pool"], a["table"])
    number, new = enter(names, a["name"])
    return 0, (number, new, 0), table_words(names, a) if new else {}


def table_words(names, a):
    """Pool and table that hold these names; what lies behind stays."""
    count = len(names)
    ends, text = [sum(map(len, names[:i + 1])) for i in range(count)], b"".join(names)
    return {"pool": text, "table": [count] + ends}


def compare(a):
    first, second = a["first"], a["second"]
    return 1 if first < second else 2 if first == second else 3, None, {}


# ---- exponents and products ----

def exponent(call, count=2):
    @plain
    def whole(a):
        given = [(signed(a["num"]), a["den"]), (signed(a["num2"]), a["den2"])][:count]
        if not all(is_exponent(*one) for one in given):
            raise Refused(1)
        num, den = call(*given)
        return 0, (num % ABOVE, den, 0), {}
    return whole


exponent_add = exponent(lambda x, y: reduced(x[0] * y[1] + y[0] * x[1], x[1] * y[1]))
exponent_multiply = exponent(lambda x, y: reduced(x[0] * y[0], x[1] * y[1]))
exponent_negate = exponent(lambda x: (-x[0], x[1]), 1)
exponent_divide = exponent(lambda x, y: reduced(x[0] * y[1], x[1] * y[0]))


def factors(names, words):
    """A product of four words a factor."""
    count = len(words) // 4
    reader = Reader(names, [word + 65536 if i % 4 == 0 and word < 65536 else word if i % 4 else 0 for i, word in enumerate(words)])
    reader.quantified = ABOVE
    try:
        reader.whole()
        return reader.dimension(0, count)[0][1]
    except Bad:
        raise Refused(1) from None


def product(call, *keys):
    @plain
    def whole(a):
        names = read_table(a["pool"], a["table"])
        given = [factors(names, a[key]) for key in keys if key != "power"]
        if "power" in keys:
            if not is_exponent(signed(a["num"]), a["den"]):
                raise Refused(1)
            given += [signed(a["num"]), a["den"]]
        found = call(names, *given)
        kinds = {0: 11, 1: 15, 2: 12, 3: 13}
        words = [word for tag, name, num, den in found for word in (kinds[tag], name, num % ABOVE, den)]
        words += [0, 0, 0, 1] * (64 - len(found))
        return 0, (len(found), 0, 0), {"result": words[:len(a["result"])]}
    return whole


product_multiply = product(multiply, "first", "second")
product_divide = product(divide, "first", "second")
product_invert = product(lambda names, one: inverse(one), "first")
product_power = product(lambda names, one, num, den: raised(one, num, den), "first", "power")


# ---- lists ----

def listed(what, key="words"):
    @plain
    def whole(a):
        short([(a["pool"], POOL), (a["table"], TABLE)])
        long(a[key])
        read(read_table(a["pool"], a["table"]), a[key], what)
        return 0, None, {}
    return whole


is_set, is_type, is_scheme, is_bindings = listed("set"), listed("one_type"), listed("scheme"), listed("bindings")


@plain
def lent(a):
    short([(a["pool"], POOL), (a["table"], TABLE), (a["result"], RESULT), (a["work"], WORK)])
    return 0, None, {}


def asked(call):
    @plain
    def whole(a):
        short([(a["pool"], POOL), (a["table"], TABLE)])
        long(a["words"])
        names = read_table(a["pool"], a["table"])
        return call(a, names, read(names, a["words"], "one_type"))
    return whole


@asked
def contains(a, names, one):
    if a["name"] >= len(names):
        raise Refused(1)
    check_mixed([one])
    found = marks(one)
    return 0, (int(a["name"] in found[0] or (a["parameters"] == 1 and a["name"] in found[1])), 0, 0), {}


@asked
def closed_call(a, names, one):
    check_mixed([one])
    return 0, (int(closed(one)), 0, 0), {}


@plain
def variables(a):
    short([(a["pool"], POOL), (a["table"], TABLE), (a["result"], RESULT)])
    long(a["words"])
    names = read_table(a["pool"], a["table"])
    one = read(names, a["words"], "one_type")
    check_mixed([one])
    found = marks(one)
    numbers = sorted(found[0] | (found[1] if a["parameters"] == 1 else set()), key=lambda name: names[name])
    return 0, (len(numbers), 0, 0), {"result": numbers}


@plain
def ceiling(a):
    short([(a["pool"], POOL), (a["table"], TABLE)])
    long(a["set"])
    names = read_table(a["pool"], a["table"])
    found = set().union(*(marks(side)[0] for one in read(names, a["set"], "set") for side in sides(one)))
    return 0, (len(found), len(found) + 6144 * (len(found) + 1), 0), {}


# ---- sets ----

@plain
def add(a):
    short([(a["pool"], POOL), (a["table"], TABLE), (a["buffer"], RESULT)])
    if a["count"] > 2048:
        raise Refused(8)
    long(a["constraint"])
    names, count = read_table(a["pool"], a["table"]), a["count"]
    read(names, a["buffer"][:4 * count], "set")
    given = read(names, a["constraint"], "set")
    if len(given) != 1:
        raise Refused(1)
    verdict = tested(given[0])
    if verdict == SATISFIED:
        return 0, (verdict, count, 0), {}
    records = len(a["constraint"]) // 4
    if count + records > 2048:
        raise Refused(8)
    return 0, (verdict, count + records, 0), {"buffer": list(a["buffer"][:4 * count]) + list(a["constraint"])}


def entry(a, *lists):
    """10 and 8 of a call that is lent all four buffers, and the names."""
    short([(a["pool"], POOL), (a["table"], TABLE), (a["result"], RESULT), (a["work"], WORK)])
    long(*(a[key] for key in lists))
    return read_table(a["pool"], a["table"])


@with_work
def replace_in_type(a):
    names = entry(a, "words", "bindings")
    one, bindings = read(names, a["words"], "one_type"), read(names, a["bindings"], "bindings")
    check_mixed([one] + [bound for _, bound in bindings], [name for name, _ in bindings])
    return answered(write_type(replaced_type(names, one, bindings)))


@with_work
def replace_in_set(a):
    names = entry(a, "set", "bindings")
    constraints, bindings = read(names, a["set"], "set"), read(names, a["bindings"], "bindings")
    check_mixed([side for one in constraints for side in sides(one)] + [bound for _, bound in bindings], [name for name, _ in bindings])
    return answered(write_set(replaced_set(names, constraints, bindings)))


def solved(names, words):
    """(refusal, rounds, records of bindings or of what remains, bounds, words, (constraints, bindings, bounds))."""
    try:
        if len(words) > RESULT:
            raise Refused(8)
        constraints = read(names, words, "set")
        check_mixed([side for one in constraints for side in sides(one)])
        rounds, bindings, bounds, remains = solve(names, constraints)
    except Refused as refusal:
        return refusal.number, refusal.rounds, 0, 0, [], None
    if remains is not None:
        left = write_set(remains)
        return 5, rounds, len(left) // 4, 0, left, None
    bound = [word for binding in bindings for word in write_binding(*binding)]
    return 0, rounds, len(bound) // 4, len(bounds), bound + write_bounds([(name, 0) for name in bounds]), (constraints, bindings, bounds)


def solve_words(a):
    names = entry(a, "set")
    number, rounds, value, more, words, found = solved(names, a["set"])
    return (number, (value, more, rounds), {"result": words}), names, found


@with_work
def solve_call(a):
    return solve_words(a)[0]


@with_work
def confirm(a):
    answer, names, found = solve_words(a)
    if answer[0] != 0:
        return answer
    try:
        said = 0 if judge(names, *found) else 11
    except Refused as refusal:
        said = refusal.number
    return refused(said, (0, 0, answer[1][2])) if said else answer


@with_work
def solve_all(a):
    count = len(a["lengths"])
    short([(a["pool"], POOL), (a["table"], TABLE), (a["result"], RESULT * count), (a["answers"], 4 * count), (a["work"], WORK)])
    if count > 64:
        raise Refused(8)
    if 4 * sum(a["lengths"]) != len(a["sets"]):
        raise Refused(1)
    result, answers, place = [], [], 0
    for length in a["lengths"]:
        words, place = a["sets"][4 * place:4 * (place + length)], place + length
        try:
            if len(words) > RESULT:
                raise Refused(8)
            found = solved(read_table(a["pool"], a["table"]), words)
        except Refused as refusal:
            found = (refusal.number, 0, 0, 0, [])
        answers += found[:4]
        result += found[4]
    return 0, (len(result) // 4, 0, 0), {"result": result, "answers": answers}


@with_work
def eliminate(a):
    names = entry(a, "set")
    constraints = read(names, a["set"], "set")
    check_mixed([side for one in constraints for side in sides(one)])
    found = [factor for one in constraints if one[0] == "scalar" for factor in one[1][1]]
    rows = {factor[:2] for factor in found if factor[0] == VARIABLE}, {factor[:2] for factor in found if factor[0] in (PARAMETER, BASE)}
    if any(one[0] != "scalar" for one in constraints) or len(constraints) > 24 or any(len(one) > 24 for one in rows):
        raise Refused(8)
    number, _, value, _, words, _ = solved(names, a["set"])
    return number, (value, 0, 0), {"result": words}


@with_work
def judge_call(a):
    short([(a["pool"], POOL), (a["table"], TABLE), (a["work"], WORK)])
    entries = a["entries"]
    long(a["set"], a["types"], a["bounds"])
    if len(entries) // 2 > 2048:
        raise Refused(8)
    names = read_table(a["pool"], a["table"])
    constraints = read(names, a["set"], "set")
    bindings = [(entries[i], type_at(names, a["types"], entries[i + 1])) for i in range(0, len(entries) - 1, 2)]
    bounds = [name for name, _ in read(names, a["bounds"], "bounds")]
    given = [name for name, _ in bindings]
    if len(a["types"]) % 4 or len(set(given)) < len(given) or any(name >= len(names) for name in given):
        raise Refused(1)
    if any(names[x] >= names[y] for x, y in zip(bounds, bounds[1:])):
        raise Refused(1)
    check_mixed([side for one in constraints for side in sides(one)] + [one for _, one in bindings], given)
    return 0, (judge(names, constraints, bindings, bounds), 0, 0), {}


def type_at(names, words, place):
    try:
        return Reader(names, words).type(place)[0]
    except Bad:
        raise Refused(1) from None


# ---- calculation lines ----

TAKEN = {1: 0, 2: 0, 3: 2, 4: 2, 5: 2, 6: 2, 7: 1, 8: 2, 9: 3}
BOOL = ("bool",)


def steps_of(a, names):
    """The steps as (number, operands, type or fraction); 1 as the papers list it."""
    words, found, stack = a["steps"], [], []
    if len(words) % 4 or len(a["types"]) % 4:
        raise Refused(1)
    for i in range(len(words) // 4):
        step, first, num, den = words[4 * i:4 * i + 4]
        num = signed(num)
        if step not in TAKEN or (first and step > 2) or ((num or den) and step != 7) or len(stack) < TAKEN[step]:
            raise Refused(1)
        more = None
        if step == 2:
            if first >= len(a["lines"]):
                raise Refused(1)
            first = a["lines"][first]
        if step <= 2:
            more = type_at(names, a["types"], first)
            if step == 1 and not closed(more):
                raise Refused(1)
        if step == 7:
            more = (num, den)
            if not is_exponent(num, den):
                raise Refused(1)
        operands = stack[len(stack) - TAKEN[step]:]
        stack = stack[:len(stack) - TAKEN[step]] + [i]
        found.append((step, operands, more))
    if len(stack) != 1:
        raise Refused(1)
    return found


def used(one):
    """Every name of a type."""
    found = set().union(*map(used, inner(one)))
    if one[0] in ("var", "par", "struct"):
        found.add(one[1])
    if one[0] == "struct":
        found |= {name for name, _ in one[3]}
    if one[0] == "dim":
        found |= {factor[1] for factor in one[1]}
    return found


def line_set(names, steps, given):
    """The constraints that the steps ask for."""
    made = []
    for (step, operands, more), name in zip(steps, given):
        this, sides_of = ("var", name), [("var", given[i]) for i in operands]
        if step in (3, 4, 5, 6, 7, 8):
            made += [("isdim", side) for side in sides_of]
        if step <= 2:
            made.append(("equal", this, more))
        elif step in (3, 4, 8):
            made += [("equal", *sides_of), ("equal", this, BOOL if step == 8 else sides_of[0])]
        elif step in (5, 6):
            left, right = ((VARIABLE, given[i], 1, 1) for i in operands)
            made.append(("equal", this, ("dim", (multiply if step == 5 else divide)(names, (left,), (right,)))))
        elif step == 7:
            made.append(("equal", this, ("dim", raised(((VARIABLE, given[operands[0]], 1, 1),), *more))))
        else:
            made += [("equal", sides_of[0], BOOL), ("equal", *sides_of[1:]), ("equal", this, sides_of[1])]
    return made


@with_work
def check_line(a):
    short([(a["pool"], POOL), (a["table"], TABLE), (a["result"], RESULT), (a["work"], WORK)])
    if len(a["steps"]) > 4 * len(a["names"]):
        raise Refused(10)
    long(a["types"])
    if len(a["steps"]) > 512 or len(a["lines"]) > 2048 or len(a["names"]) > 2048:
        raise Refused(8)
    names, given = read_table(a["pool"], a["table"]), list(a["names"])
    steps = steps_of(a, names)
    in_use = set().union(*(used(more) for step, _, more in steps if step <= 2))
    if len(set(given)) < len(given) or in_use & set(given):
        raise Refused(4)
    if any(name >= len(names) for name in given):
        raise Refused(3)
    words = write_set(line_set(names, steps, given))
    number, _, _, _, _, found = solved(names, words)
    if number:
        return refused(number)
    if not judge(names, *found):
        return refused(11)
    return answered(write_type(replace(names, ("var", given[len(steps) - 1]), dict(found[1]))))


# ---- schemes ----

def numbers(a, names):
    if any(name >= len(names) for name in a["names"]):
        raise Refused(1)
    return a["names"]


def entry_names(a, *lists):
    short([(a["pool"], POOL), (a["table"], TABLE), (a["result"], RESULT), (a["work"], WORK)])
    long(*(a[key] for key in lists))
    if len(a["names"]) > 2048:
        raise Refused(8)
    return read_table(a["pool"], a["table"])


@with_work
def quantify_call(a):
    names = entry_names(a, "words", "bounds")
    one, bounds, handed = read(names, a["words"], "one_type"), read(names, a["bounds"], "bounds"), numbers(a, names)
    check_mixed([one])
    return answered(write_scheme(*quantify(one, bounds, handed)))


@with_work
def generalise_call(a):
    names = entry(a, "scheme", "bounds")
    scheme, bounds = read(names, a["scheme"], "scheme"), read(names, a["bounds"], "bounds")
    check_mixed([scheme[2]])
    return answered(write_scheme(*generalise(names, scheme, bounds)))


@with_work
def instantiate_call(a):
    names = entry_names(a, "scheme")
    scheme, handed = read(names, a["scheme"], "scheme"), numbers(a, names)
    check_mixed([scheme[2]])
    if scheme[1] or scheme[0] != len(handed):
        raise Refused(9)
    one, bounds = instantiate(names, scheme, handed)
    return answered(write_type(one) + write_bounds(bounds))


# ---- files, the table, text ----

@plain
def rescue(a):
    short([(a["pool"], POOL), (a["table"], TABLE), (a["kept"], 32768), (a["skipped"], 2049)])
    file = a["file"]
    whole = len(file) // 16
    if whole > 2048:
        raise Refused(8)
    names = read_table(a["pool"], a["table"])
    reader = Reader(names, [int.from_bytes(file[i:i + 4], "little") for i in range(0, 16 * whole, 4)])
    kept, skipped, place = b"", [], 0
    while place < whole:
        try:
            end = reader.constraint(place)[1]
            kept, place = kept + file[16 * place:16 * end], end
        except Bad:
            skipped.append(place)
            place += 1
    if len(file) % 16:
        skipped.append(whole)
    return 0, (len(kept) // 16, len(skipped), 0), {"kept": kept, "skipped": skipped}


NAMED = (1, 2, 8, 9, 11, 12, 13, 23)


@plain
def compact(a):
    short([(a["pool"], POOL), (a["table"], TABLE)])
    lengths, sets = a["lengths"], a["sets"]
    if len(lengths) > 64 or any(length > 2048 for length in lengths):
        raise Refused(8)
    names = read_table(a["pool"], a["table"])
    if 4 * sum(lengths) != len(sets):
        raise Refused(1)
    place = 0
    for length in lengths:
        read(names, sets[4 * place:4 * (place + length)], "set")
        place += length
    places = [i + 1 for i in range(0, len(sets), 4) if sets[i] & 0xFFFF in NAMED]
    kept = sorted({sets[i] for i in places})
    number = {old: new for new, old in enumerate(kept)}
    changed = list(sets)
    for i in places:
        changed[i] = number[sets[i]]
    table = table_words([names[old] for old in kept], a)
    pool = table["pool"] + bytes(sum(map(len, names)) - len(table["pool"]))
    return 0, (len(kept), 0, 0), {"pool": pool, "table": table["table"] + [0] * (len(names) - len(kept)), "sets": changed}


@plain
def write_text(a):
    short([(a["pool"], POOL), (a["table"], TABLE), (a["text"], 354304)])
    long(a["set"])
    names = read_table(a["pool"], a["table"])
    text = b"".join(written_line(names, one) + b"\n" for one in read(names, a["set"], "set"))
    return 0, (len(text), 0, 0), {"text": text}


@with_work
def read_text_call(a):
    names = entry(a)
    try:
        words, constraints, new, held = read_text(names, a["text"])
    except At as at:
        return refused(at.number, (at.line, at.column, 0))
    buffers = table_words(held, a) if new else {}
    return 0, (len(words) // 4, constraints, new), dict(buffers, result=words)
