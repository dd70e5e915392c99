"""Replacing, adding, solving, the judge and schemes, on trees, from the papers and their readings."""

from records import marks, nesting, sides, size, size_of
from values import PARAMETER, QUANTIFIED, VARIABLE, Refused, divide, multiply, raised, reduced


def single(one):
    """The variable that a dimension is to the power 1, or None."""
    if one[0] == "dim" and len(one[1]) == 1 and one[1][0][0] == VARIABLE and one[1][0][2:] == (1, 1):
        return one[1][0][1]
    return None


def replace_product(names, product, bound):
    found = product
    for tag, name, num, den in product:
        if tag != VARIABLE or name not in bound:
            continue
        one = bound[name]
        if one[0] not in ("dim", "var"):
            raise Refused(6)
        put = one[1] if one[0] == "dim" else ((VARIABLE, one[1], 1, 1),)
        found = divide(names, found, ((VARIABLE, name, num, den),))
        found = multiply(names, found, raised(put, num, den))
    return found


def replace(names, one, bound):
    kind = one[0]
    if kind == "var":
        return bound.get(one[1], one)
    if kind == "dim":
        if single(one) is not None:
            return bound.get(single(one), one)
        return ("dim", replace_product(names, one[1], bound))
    if kind == "fn":
        return ("fn", tuple(replace(names, part, bound) for part in one[1]), replace(names, one[2], bound))
    if kind == "struct":
        arguments = tuple(replace(names, part, bound) for part in one[2])
        return ("struct", one[1], arguments, tuple((field, replace(names, part, bound)) for field, part in one[3]))
    return ("list", replace(names, one[1], bound)) if kind == "list" else one


def replace_constraint(names, constraint, bound):
    if constraint[0] == "scalar":
        return ("scalar", ("dim", replace_product(names, constraint[1][1], bound)))
    head = constraint[:len(constraint) - len(sides(constraint))]
    return head + tuple(replace(names, side, bound) for side in sides(constraint))


def check_size(records, types):
    if records > 2048 or any(nesting(one) > 64 for one in types):
        raise Refused(8)


def replaced_type(names, one, bindings):
    found = replace(names, one, dict(reversed(bindings)))
    check_size(size(found), [found])
    return found


def replaced_set(names, constraints, bindings):
    bound = dict(reversed(bindings))
    found = [replace_constraint(names, constraint, bound) for constraint in constraints]
    check_size(sum(map(size_of, found)), [side for one in found for side in sides(one)])
    return found


def closed(*types):
    return not any(part for one in types for part in marks(one))


SATISFIED, VIOLATED, UNKNOWN = 1, 2, 3


def tested(constraint):
    """What adding says of a constraint."""
    kind = constraint[0]
    if kind == "equal":
        left, right = constraint[1:]
        if closed(left, right):
            return SATISFIED if left == right else VIOLATED
        if left[0] == right[0] == "fn" and len(left[1]) != len(right[1]):
            return VIOLATED
        free = any(side[0] in ("var", "par") or single(side) is not None for side in (left, right))
        return UNKNOWN if free or left[0] == right[0] else VIOLATED
    if kind == "isdim" and closed(constraint[1]):
        return SATISFIED if constraint[1][0] == "dim" else VIOLATED
    if kind == "scalar":
        if not constraint[1][1]:
            return SATISFIED
        return UNKNOWN if marks(constraint[1])[0] else VIOLATED
    return UNKNOWN


def bound_or_none(name, other):
    return None if name in marks(other)[0] else ("bind", name, other)


def equal_step(names, left, right):
    """('bind', variable, type), ('new', constraints) or None where no rule applies."""
    if left == right:
        return ("new", [])
    pairs = ((left, right), (right, left))
    for find in (lambda one: one[1] if one[0] == "var" else None, single):
        for side, other in pairs:
            if find(side) is not None and find(side) not in marks(other)[0]:
                return ("bind", find(side), other)
    if left[0] == right[0] == "fn" and len(left[1]) == len(right[1]):
        return ("new", [("equal", left[2], right[2])] + [("equal", *pair) for pair in zip(left[1], right[1])])
    if left[0] == right[0] == "list":
        return ("new", [("equal", left[1], right[1])])
    if left[0] == right[0] == "struct" and left[1] == right[1] and len(left[2]) == len(right[2]):
        return ("new", [("equal", *pair) for pair in zip(left[2], right[2])])
    for side, other in pairs:
        if side[0] == "var" and other[0] == "dim":
            return ("new", [("equal", ("dim", ((VARIABLE, side[1], 1, 1),)), other)])
    if left[0] == right[0] == "dim":
        return ("new", [("scalar", ("dim", divide(names, left[1], right[1])))])
    return None


def step(names, constraint):
    kind = constraint[0]
    if kind == "equal":
        return equal_step(names, *constraint[1:])
    if kind == "isdim":
        if constraint[1][0] != "dim":
            return None
        return ("new", [("isdim", ("var", factor[1])) for factor in constraint[1][1] if factor[0] in (VARIABLE, PARAMETER)])
    if kind == "scalar":
        factors = constraint[1][1]
        if not factors:
            return ("new", [])
        if factors[0][0] != VARIABLE:
            return None
        _, name, num, den = factors[0]
        rest = tuple(one[:2] + reduced(-one[2] * den, one[3] * num) for one in factors[1:])
        return ("bind", name, ("dim", rest))
    _, name, struct, asked = constraint
    if struct[0] == "struct" and closed(struct) and name in dict(struct[3]):
        return ("new", [("equal", dict(struct[3])[name], asked)])
    return None


def one_round(names, constraints, bindings):
    """What a round leaves, or None where no rule applies."""
    for place, constraint in enumerate(constraints):
        made = step(names, constraint)
        if made is not None:
            break
    else:
        return None
    left = constraints[:place] + constraints[place + 1:]
    if made[0] == "new":
        left = left + made[1]
    else:
        bound = {made[1]: made[2]}
        left = [replace_constraint(names, one, bound) for one in left]
        bindings = [(name, replace(names, one, bound)) for name, one in bindings] + [made[1:]]
    types = [side for one in left for side in sides(one)] + [one for _, one in bindings]
    check_size(sum(map(size_of, left)) + sum(1 + size(one) for _, one in bindings), types)
    return left, bindings


def solve(names, constraints):
    """(rounds, bindings, bounds, None) or (rounds, None, None, what remains); 6, 7 and 8 carry the rounds."""
    rounds, bindings = 0, []
    while True:
        try:
            made = one_round(names, constraints, bindings)
        except Refused as refused:
            raise Refused(refused.number, rounds) from None
        if made is None:
            break
        constraints, bindings = made
        rounds += 1
    free = [one[0] == "isdim" and one[1][0] in ("var", "par") for one in constraints]
    if not all(free):
        return rounds, None, None, [one for one, is_free in zip(constraints, free) if not is_free]
    bounds = sorted({one[1][1] for one in constraints}, key=lambda name: names[name])
    return rounds, bindings, bounds, None


def meaning(one):
    """A type with single variables read as variables, and structs without their fields."""
    kind = one[0]
    if kind == "dim":
        return one if single(one) is None else ("var", single(one))
    if kind == "fn":
        return ("fn", tuple(map(meaning, one[1])), meaning(one[2]))
    if kind == "struct":
        return ("struct", one[1], tuple(map(meaning, one[2])))
    return ("list", meaning(one[1])) if kind == "list" else one


def true_constraint(constraint, bounds):
    kind = constraint[0]
    if kind == "equal":
        return meaning(constraint[1]) == meaning(constraint[2])
    if kind == "isdim":
        one = constraint[1]
        return one[0] in ("dim", "var", "par") and all(name in bounds for names in marks(one) for name in names)
    if kind == "scalar":
        return not constraint[1][1]
    _, name, struct, asked = constraint
    return struct[0] == "struct" and name in dict(struct[3]) and meaning(dict(struct[3])[name]) == meaning(asked)


def judge(names, constraints, bindings, bounds):
    """1 for yes, 0 for no; 7 and 8."""
    bound = dict(bindings)
    for constraint in constraints:
        try:
            put = replace_constraint(names, constraint, bound)
        except Refused as refused:
            if refused.number == 6:
                return 0
            raise
        check_size(size_of(put), sides(put))
        if not true_constraint(put, bounds):
            return 0
    return 1


def quantify_type(one, name, index):
    """A name's variable and parameter replaced by a quantified variable."""
    kind = one[0]
    if kind in ("var", "par"):
        return ("quant", index) if one[1] == name else one
    if kind == "dim":
        return ("quant", index) if single(one) == name else ("dim", quantify_product(one[1], name, index))
    if kind == "fn":
        return ("fn", tuple(quantify_type(part, name, index) for part in one[1]), quantify_type(one[2], name, index))
    if kind == "struct":
        arguments = tuple(quantify_type(part, name, index) for part in one[2])
        return ("struct", one[1], arguments, tuple((field, quantify_type(part, name, index)) for field, part in one[3]))
    return ("list", quantify_type(one[1], name, index)) if kind == "list" else one


def quantify_product(product, name, index):
    """One factor becomes quantified; it goes behind the named variables and the indices below it."""
    moved = [(QUANTIFIED, index) + one[2:] if one[0] in (VARIABLE, PARAMETER) and one[1] == name else one for one in product]
    named = [one for one in moved if one[0] == VARIABLE]
    indexed = sorted(one for one in moved if one[0] == QUANTIFIED)
    return tuple(named + indexed + [one for one in moved if one[0] not in (VARIABLE, QUANTIFIED)])


def quantify(one, bounds, handed):
    """(count, 0, type, bounds) of a type, bounds (name, 0) and handed names."""
    for index, name in enumerate(handed):
        one = quantify_type(one, name, index)
        bounds = [(index, 1) if bound == (name, 0) else bound for bound in bounds]
    check_size(1 + size(one) + len(bounds), [one])
    return len(handed), 0, one, bounds


def generalise(names, scheme, bounds):
    _, concrete, one, _ = scheme
    if not concrete:
        return scheme
    opened = set().union(*marks(one))
    return quantify(one, [bound for bound in bounds if bound[0] in opened], sorted(opened, key=lambda name: names[name]))


def instantiate_type(names, one, handed):
    kind = one[0]
    if kind == "quant":
        return ("var", handed[one[1]])
    if kind == "dim":
        found = ()
        for factor in one[1]:
            factor = (VARIABLE, handed[factor[1]]) + factor[2:] if factor[0] == QUANTIFIED else factor
            found = multiply(names, found, (factor,))
        return ("var", single(("dim", found))) if single(("dim", found)) is not None else ("dim", found)
    if kind == "fn":
        return ("fn", tuple(instantiate_type(names, part, handed) for part in one[1]), instantiate_type(names, one[2], handed))
    if kind == "struct":
        arguments = tuple(instantiate_type(names, part, handed) for part in one[2])
        return ("struct", one[1], arguments, tuple((field, instantiate_type(names, part, handed)) for field, part in one[3]))
    return ("list", instantiate_type(names, one[1], handed)) if kind == "list" else one


def instantiate(names, scheme, handed):
    """The type and its bounds as names."""
    _, _, one, bounds = scheme
    return instantiate_type(names, one, handed), [(handed[name] if indexed else name, 0) for name, indexed in bounds]
