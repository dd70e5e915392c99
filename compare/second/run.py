"""Compares the model with the compiled library: run.py LIBRARY.so [--cases N] [--seed N] [--only CALL ..]."""

import argparse
import random
import time
from collections import Counter

import cases
import limits
from library import CALLS, Library


def shown(name, given):
    """The arguments that a call has, in short."""
    found = {}
    for key, kind in CALLS[name][0]:
        value = given[key]
        if isinstance(value, bytes):
            value = (len(value), value[:given["table"][min(given["table"][0], 256)]] if key == "pool" and given["table"] else value[:400])
        elif not isinstance(value, int):
            value = (len(value), list(value)[:1 + value[0] if key == "table" and value else 200])
        found[key] = value if key not in ("result", "work", "kept", "skipped", "answers") else value[0]
    return found


def run_call(library, name, makers, asked):
    rng, started = random.Random(f"{asked.seed} {name}"), time.time()
    seen, different = Counter(), 0
    for _ in range(asked.cases):
        given = makers[name](rng)
        said, what = library.differs(name, given)
        seen[said] += 1
        if what is not None:
            different += 1
            if different <= asked.show:
                print(f"  {name}: {what}\n    {shown(name, given)}")
    print(f"{name}: {asked.cases} cases, {different} differ, refusals {dict(sorted(seen.items()))}, {time.time() - started:.0f} s", flush=True)
    return different


def main():
    parser = argparse.ArgumentParser(description=__doc__)
    parser.add_argument("library")
    parser.add_argument("--cases", type=int, default=1000)
    parser.add_argument("--seed", default="1")
    parser.add_argument("--show", type=int, default=3)
    parser.add_argument("--limits", action="store_true", help="inputs at the limits")
    parser.add_argument("--only", nargs="*", choices=sorted(CALLS))
    asked = parser.parse_args()
    library = Library(asked.library)
    makers = limits.MAKERS if asked.limits else cases.MAKERS
    names = [name for name in CALLS if name in makers and name in (asked.only or CALLS)]
    return int(any([run_call(library, name, makers, asked) for name in names]))


if __name__ == "__main__":
    raise SystemExit(main())
