"""Choices, and lines that conflict, held against exact linear algebra; and calculation lines against a run on types.

choices.py LIBRARY.so [--cases N] [--seed N] [--edition PROGRAM]
"""

import argparse
import json
import os
import random
import subprocess
import tempfile
from fractions import Fraction

import calls
from cases import Makes, calculation, standard, words
from library import Library
from limits import Wide, well_typed
from records import Reader, read, write_set
from solving import closed
from text import written_line
from values import VARIABLE, read_table

DIMENSIONS = ("dim", "var")


def row(constraint):
    """A constraint as powers of variables and of all else: one that is true when all powers vanish."""
    found = {}
    pairs = [(1, constraint[1])] if constraint[0] == "scalar" else [(1, constraint[1]), (-1, constraint[2])]
    for sign, side in pairs:
        factors = side[1] if side[0] == "dim" else ((VARIABLE, side[1], 1, 1),)
        for tag, name, num, den in factors:
            found[tag, name] = found.get((tag, name), 0) + sign * Fraction(num, den)
    return {key: value for key, value in found.items() if value}


def rank_and_consistent(rows):
    """How many variables are determined by the others, and whether a choice makes all rows vanish."""
    rows, rank = [dict(one) for one in rows], 0
    while rows:
        one = rows.pop()
        pivot = next((key for key in one if key[0] == VARIABLE), None)
        if pivot is None:
            if one:
                return rank, False
            continue
        rank += 1
        for other in rows:
            share = other.get(pivot, 0) / one[pivot]
            if share:
                for key, value in one.items():
                    other[key] = other.get(key, 0) - share * value
                    if not other[key]:
                        del other[key]
    return rank, True


def put_in(one, bound):
    found = {}
    for key, value in one.items():
        for other, power in (bound[key[1]].items() if key[0] == VARIABLE and key[1] in bound else [(key, 1)]):
            found[other] = found.get(other, 0) + value * power
    return {key: value for key, value in found.items() if value}


def dims_only(rng):
    makes = Wide(rng) if rng.random() < 0.1 else Makes(rng)
    given = standard(rng, makes, ("result", "work"))
    made = [("scalar", makes.dim()) if rng.random() < 0.5 else ("equal", makes.dim(), makes.dim()) for _ in range(rng.randint(1, 6))]
    given["set"] = words(write_set(made))
    return given, makes, made


def check_choices(library, rng):
    given, makes, made = dims_only(rng)
    said, slices = library.run("solve", given)
    if said not in (0, 5):
        return said in (4, 7, 8), f"refusal {said}: {made}"
    rows = [row(one) for one in made]
    rank, consistent = rank_and_consistent(rows)
    if consistent != (said == 0):
        return False, f"refusal {said}, consistent {consistent}: {made}"
    if said == 5:
        return True, ""
    answer = array_of(slices["answer"])
    if len(answer) < 2:
        return True, ""
    bindings = read(makes.names, array_of(slices["result"])[:4 * answer[0]], "bindings")
    bound = {name: row(("scalar", one)) for name, one in bindings}
    open_only = all(key[1] not in bound for one in bound.values() for key in one if key[0] == VARIABLE)
    if len(bound) != rank or len(bindings) != rank or not open_only or any(put_in(one, bound) for one in rows):
        return False, f"not the general solution: {made}, {bindings}"
    return True, ""


def array_of(buffer):
    return words([int.from_bytes(buffer[i:i + 4], "little") for i in range(64, len(buffer) - 64, 4)])


def conflict(made):
    """The places told: lines in front go first."""
    wide = [(i, row(one)) for i, one in enumerate(made)
            if one[0] == "scalar" or (one[0] == "equal" and one[1][0] in DIMENSIONS and one[2][0] in DIMENSIONS)]
    if rank_and_consistent([one for _, one in wide])[1]:
        return []
    for one in list(wide):
        rest = [other for other in wide if other is not one]
        if not rank_and_consistent([other for _, other in rest])[1]:
            wide = rest
    return [i for i, _ in wide]


def check_conflicts(program, rng, sheets):
    """Many sheets in one run of the program."""
    made, bad = {}, 0
    with tempfile.TemporaryDirectory() as room:
        for i in range(sheets):
            makes = Makes(rng)
            some = [makes.constraint(1) if rng.random() < 0.3 else rng.choice([("scalar", makes.dim()), ("equal", makes.dim(), makes.dim())])
                    for _ in range(rng.randint(2, 9))]
            path = os.path.join(room, f"{i}.sheet")
            with open(path, "wb") as file:
                file.write(b"".join(written_line(makes.names, one) + b"\n" for one in some))
            made[path] = some
        run = subprocess.run([program, "--separate", "--why", "--json", *made], capture_output=True, check=False)
        told = json.loads(run.stdout)["sheets"]
    for one in told:
        some = made[one["name"]]
        asked = [i + 1 for i in conflict(some)] if one["finding"] == "remains" else []
        if one["why_refusal"] is None and one["why"] != asked:
            bad += 1
            print(f"  conflict: told {one['why']}, expected {asked}: {some}")
    return len(told), bad


def power_of(one, power):
    return {key: value * power for key, value in one.items() if value * power}


def times(first, second):
    found = dict(first)
    for key, value in second.items():
        found[key] = found.get(key, 0) + value
    return {key: value for key, value in found.items() if value}


def exact(one):
    """A closed type with dimensions as exact powers, structs without fields."""
    if one[0] == "dim":
        return ("dim", row(("scalar", one)))
    if one[0] == "fn":
        return ("fn", [exact(part) for part in one[1]], exact(one[2]))
    if one[0] == "struct":
        return ("struct", one[1], [exact(part) for part in one[2]])
    return ("list", exact(one[1])) if one[0] == "list" else one


def run_line(steps):
    """The type of a line of closed types, or what it meets."""
    stack = []
    for step, _, more in steps:
        taken = [stack.pop() for _ in range(calls.TAKEN[step])][::-1]
        if step <= 2:
            stack.append(exact(more))
            continue
        if step == 9:
            if taken[0] != ("bool",):
                return "no boolean"
            if taken[1] != taken[2]:
                return "unequal"
            stack.append(taken[1])
            continue
        if any(one[0] != "dim" for one in taken):
            return "no dimension"
        if step in (3, 4, 8) and taken[0] != taken[1]:
            return "unequal"
        if step in (3, 4, 8):
            stack.append(("bool",) if step == 8 else taken[0])
        elif step == 7:
            stack.append(("dim", power_of(taken[0][1], Fraction(*more))))
        else:
            stack.append(("dim", times(taken[0][1], power_of(taken[1][1], 1 if step == 5 else -1))))
    return stack[0]


def check_lines(library, rng, seen):
    given = (calculation if rng.random() < 0.4 else well_typed)(rng)
    said, slices = library.run("check_line", given)
    if said in (1, 3, 4, 8, 10):
        return True, ""
    names = read_table(given["pool"], given["table"])
    steps = calls.steps_of(given, names)
    if not all(closed(more) for step, _, more in steps if step <= 2):
        return True, ""
    found = run_line(steps)
    seen[said, found if isinstance(found, str) else "a type"] = seen.get((said, found if isinstance(found, str) else "a type"), 0) + 1
    if said == 0 and exact(Reader(names, array_of(slices["result"])).type(0)[0]) != found:
        return False, f"accepted, run {found}: {list(given['steps'])}"
    if (said in (5, 6, 11) and not isinstance(found, str)) or said == 11:
        return False, f"refused with {said}, run {found}: {list(given['steps'])} {list(given['types'])}"
    return True, ""


def main():
    parser = argparse.ArgumentParser(description=__doc__)
    parser.add_argument("library")
    parser.add_argument("--cases", type=int, default=1000)
    parser.add_argument("--seed", default="1")
    parser.add_argument("--edition", help="the program check_edition, for lines that conflict")
    asked = parser.parse_args()
    library, bad, seen = Library(asked.library), 0, {}
    for name, check in (("choices", check_choices), ("lines", lambda library, rng: check_lines(library, rng, seen))):
        rng, different = random.Random(f"{asked.seed} {name}"), 0
        for _ in range(asked.cases):
            good, what = check(library, rng)
            if not good:
                different += 1
                if different < 4:
                    print(f"  {name}: {what}")
        print(f"{name}: {asked.cases} cases, {different} differ", flush=True)
        bad += different
    print("lines, refusal and run:", seen)
    if asked.edition:
        rng, total, different = random.Random(asked.seed), 0, 0
        while total < asked.cases:
            count, wrong = check_conflicts(asked.edition, rng, 200)
            total, different = total + count, different + wrong
        print(f"conflicts: {total} sheets, {different} differ")
        bad += different
    return int(bad > 0)


if __name__ == "__main__":
    raise SystemExit(main())
