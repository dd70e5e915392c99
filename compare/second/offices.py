"""Two offices, text there and back, and room got back, by calls alone: no answer is predicted here, answers are compared.

offices.py LIBRARY.so [--cases N] [--seed N]
"""

import argparse
import random
from collections import Counter

import cases
import limits
from cases import FILLED, table_of, words
from library import CALLS, Library
from values import Refused, read_table

ASKED = ["contains", "closed", "variables", "ceiling", "add", "replace_in_type", "replace_in_set", "solve", "confirm", "solve_all", "eliminate", "judge",
         "check_line", "quantify", "generalise", "instantiate", "write_text", "rescue"]
RECORDS = ("words", "set", "sets", "bindings", "bounds", "scheme", "types", "constraint")
NAMED = (1, 2, 8, 9, 11, 12, 13, 23, 24)


def is_named(record):
    return record[0] & 0xFFFF in NAMED or (record[0] & 0xFFFF == 25 and record[2] == 0)


def renumbered(some, number):
    some = words(some)
    for i in range(0, len(some) - 3, 4):
        if is_named(some[i:i + 4]):
            some[i + 1] = number.get(some[i + 1], some[i + 1])
    return some


def with_names(some, names):
    """Records with the bytes of names in the place of their numbers."""
    found = []
    for i in range(0, len(some) - 3, 4):
        record = list(some[i:i + 4])
        found.append((record[0], names[record[1]] if is_named(record) and record[1] < len(names) else record[1], record[2], record[3]))
    return found


def moved(given, name, number):
    """The same arguments over the other table."""
    other = dict(given)
    for key, _ in CALLS[name][0]:
        if key in RECORDS:
            other[key] = renumbered(given[key], number)
    if name == "add":
        some = given["buffer"]
        other["buffer"] = renumbered(some[:4 * given["count"]], number) + some[4 * given["count"]:]
    if name == "rescue":
        some = words([int.from_bytes(given["file"][i:i + 4], "little") for i in range(0, len(given["file"]) // 16 * 16, 4)])
        other["file"] = renumbered(some, number).tobytes() + given["file"][len(given["file"]) // 16 * 16:]
    if "names" in other:
        other["names"] = words([number.get(one, one) for one in given["names"]])
    if "name" in other:
        other["name"] = number.get(given["name"], given["name"])
    if "entries" in other:
        other["entries"] = words([one if i % 2 else number.get(one, one) for i, one in enumerate(given["entries"])])
    return other


def content(buffer):
    return words([int.from_bytes(buffer[i:i + 4], "little") for i in range(64, len(buffer) - 64, 4)])


def read_back(name, slices, names):
    """What a call left, with names in the place of numbers."""
    answer = content(slices["answer"])
    if name == "variables":
        return list(answer), [names[one] for one in content(slices["result"])[:answer[0]]] if len(answer) else None
    if name == "rescue":
        kept = content(slices["kept"])
        return list(answer), with_names(kept[:4 * answer[0]], names) if len(answer) else None, bytes(slices["skipped"])
    if name == "add":
        return list(answer), with_names(content(slices["buffer"])[:4 * answer[1]], names) if len(answer) > 1 else None
    left = [with_names(content(slices["result"]), names)] if "result" in slices else []
    return list(answer), left, bytes(slices.get("answers", b"")), bytes(slices.get("text", b""))


def check_offices(library, rng, seen):
    name = rng.choice(ASKED)
    makers = limits.MAKERS if rng.random() < 0.05 and name in limits.MAKERS else cases.MAKERS
    given = makers[name](rng)
    if name != "solve_all":
        given.update({key: FILLED[key][:cases.LEAST[key]] for key in ("result", "work", "kept", "skipped") if key in given})
    given["answer"] = words([0, 0, 0])
    said, slices = library.run(name, given)
    if said in (1, 10):
        return True, ""
    try:
        names = read_table(given["pool"], given["table"])
    except Refused:  # several sets are answered one by one
        return True, ""
    others = [one for one in cases.SEEDS + [b"other%d" % i for i in range(9)] if one not in names]
    mixed = names + rng.sample(others, min(rng.randint(0, 9), 256 - len(names), len(others)))
    if sum(map(len, mixed)) > 8192:
        return True, ""
    rng.shuffle(mixed)
    number = {i: mixed.index(one) for i, one in enumerate(names)}
    if any(one >= len(names) for one in given.get("names", [])) or (name == "contains" and given["name"] >= len(names)):
        return True, ""
    stray = name == "rescue" and any(is_named(content_of) and content_of[1] >= len(names) for content_of in file_records(given["file"]))
    other = moved(given, name, number)
    other["pool"], other["table"] = table_of(mixed)
    if name == "solve_all" and 1 in content(slices["answers"])[::4]:  # a stray number may stand in a set
        return True, ""
    said_other, slices_other = library.run(name, other)
    seen[name] += 1
    if stray:
        return True, ""
    if said != said_other or read_back(name, slices, names) != read_back(name, slices_other, mixed):
        return False, f"{name}: {said} and {said_other}, names {names} and {mixed}"
    return True, ""


def file_records(file):
    some = words([int.from_bytes(file[i:i + 4], "little") for i in range(0, len(file) // 16 * 16, 4)])
    return [some[i:i + 4] for i in range(0, len(some), 4)]


def check_round_trip(library, rng, seen):
    """A set written and read back over the same table: the same records, no new name."""
    given = (limits.large_written if rng.random() < 0.03 else cases.writing)(rng)
    given["text"], given["answer"] = FILLED["text"][:354304], words([0, 0, 0])
    said, slices = library.run("write_text", given)
    if said:
        return True, ""
    count = content(slices["answer"])[0]
    text = bytes(slices["text"][64:64 + count])
    back = dict(given, text=text, result=FILLED["result"][:8192], work=FILLED["work"][:16384])
    said, slices = library.run("read_text", back)
    answer = content(slices["answer"])
    same = said == 0 and answer[2] == 0 and content(slices["result"])[:4 * answer[0]] == given["set"] and 4 * answer[0] == len(given["set"])
    seen["there and back"] += 1
    return same and count <= 173 * max(1, len(given["set"]) // 4), f"there and back: {said} {list(answer)} {list(given['set'][:80])}"


def check_room(library, rng, seen):
    """Compacted sets solve as before, read with names; no name is left that no set has."""
    given = cases.compacting(rng)
    given["answer"] = words([0, 0, 0])
    said, slices = library.run("compact", given)
    if said:
        return True, ""
    seen["room"] += 1
    pool, table = bytes(slices["pool"][64:-64]), content(slices["table"])
    names, kept = read_table(given["pool"], given["table"]), read_table(pool, table)
    sets, place = content(slices["sets"]), 0
    used = {record[1] for record in with_names(sets, kept) if isinstance(record[1], bytes)}
    if used != set(kept) or kept != [one for one in names if one in used] or with_names(sets, kept) != with_names(given["sets"], names):
        return False, f"room: {names} {kept}"
    for length in given["lengths"]:
        before, after = given["sets"][4 * place:4 * (place + length)], sets[4 * place:4 * (place + length)]
        place += length
        lent = {"result": FILLED["result"][:8192], "work": FILLED["work"][:16384], "answer": words([0, 0, 0])}
        one = library.run("solve", dict(lent, pool=given["pool"], table=given["table"], set=before))
        two = library.run("solve", dict(lent, pool=pool, table=table, set=after))
        if one[0] != two[0] or read_back("solve", one[1], names) != read_back("solve", two[1], kept):
            return False, f"room: solved otherwise {list(before)}"
    return True, ""


def main():
    parser = argparse.ArgumentParser(description=__doc__)
    parser.add_argument("library")
    parser.add_argument("--cases", type=int, default=1000)
    parser.add_argument("--seed", default="1")
    asked = parser.parse_args()
    library, bad = Library(asked.library), 0
    for check in (check_offices, check_round_trip, check_room):
        rng, different, seen = random.Random(f"{asked.seed} {check.__name__}"), 0, Counter()
        for _ in range(asked.cases):
            good, what = check(library, rng, seen)
            different += not good
            if not good and different < 4:
                print(" ", what[:1500])
        print(f"{check.__name__}: {asked.cases} cases, {different} differ; compared {dict(seen)}", flush=True)
        bad += different
    return int(bad > 0)


if __name__ == "__main__":
    raise SystemExit(main())
