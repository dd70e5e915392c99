"""Names, exponents and products, from the papers alone."""

from math import gcd

LIMIT = 2**31 - 1
POOL, TABLE, RESULT, WORK = 8192, 257, 8192, 16384
VARIABLE, QUANTIFIED, PARAMETER, BASE = 0, 1, 2, 3  # the order of factors


class Refused(Exception):
    """A numbered refusal; rounds is how many were completed."""

    def __init__(self, number, rounds=0):
        super().__init__(number)
        self.number = number
        self.rounds = rounds


def read_table(pool, table):
    """The names of a table in their order; 10 where a buffer is short, 1 where it isn't well formed."""
    if len(pool) < POOL or len(table) < TABLE:
        raise Refused(10)
    names, start = [], 0
    if table[0] > 256:
        raise Refused(1)
    for end in table[1:1 + table[0]]:
        if not 1 <= end - start <= 48 or end > POOL:
            raise Refused(1)
        names.append(bytes(pool[start:end]))
        start = end
    if len(set(names)) < len(names):
        raise Refused(1)
    return names


def enter(names, name):
    """The number of a name, and whether it is new; 2 and 3. A new name goes behind the others of the list."""
    if not 1 <= len(name) <= 48:
        raise Refused(2)
    if name in names:
        return names.index(name), 0
    if len(names) == 256 or POOL - sum(map(len, names)) < len(name):
        raise Refused(3)
    names.append(bytes(name))
    return len(names) - 1, 1


def reduced(num, den):
    """A fraction in lowest terms, or 7."""
    if den == 0:
        raise Refused(7)
    if den < 0:
        num, den = -num, -den
    common = gcd(num, den)
    num, den = num // common, den // common
    if abs(num) > LIMIT or den > LIMIT:
        raise Refused(7)
    return num, den


def is_exponent(num, den):
    return abs(num) <= LIMIT and 1 <= den <= LIMIT and gcd(num, den) == 1


def signed(word):
    return word - 2**32 if word >= 2**31 else word


def factor_order(names):
    def order(factor):
        tag, name = factor[0], factor[1]
        return (tag, name, b"") if tag == QUANTIFIED else (tag, 0, names[name])
    return order


def multiply(names, first, second):
    """Two lists of factors (tag, name, num, den), merged: 7 where a sum leaves the range, then 8 where over 64 are left."""
    powers = {factor[:2]: factor[2:] for factor in first}
    for factor in second:
        key = factor[:2]
        if key in powers:
            (a, b), (c, d) = powers[key], factor[2:]
            powers[key] = reduced(a * d + c * b, b * d)
        else:
            powers[key] = factor[2:]
    left = tuple(sorted((key + power for key, power in powers.items() if power[0] != 0), key=factor_order(names)))
    if len(left) > 64:
        raise Refused(8)
    return left


def raised(product, num, den):
    """Each power multiplied, and zeros dropped."""
    powers = [factor[:2] + reduced(factor[2] * num, factor[3] * den) for factor in product]
    return tuple(factor for factor in powers if factor[2] != 0)


def inverse(product):
    return raised(product, -1, 1)


def divide(names, first, second):
    return multiply(names, first, inverse(second))
