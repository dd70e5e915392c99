#!/usr/bin/env python3
"""The requests that `serve` is run on in the gate: make_requests.py SERVE. Writes crates/serve/stdin, and SERVE's answers to stdout there, once these
are as said here: K2; what is no request, each of the four ways, with the next one served; a name that is entered; a short work buffer; the judge on K2, the
ceiling, two sets at once."""
import os, struct, subprocess, sys
HERE = os.path.dirname(os.path.abspath(__file__))
sys.path.insert(0, HERE)
import requests
from requests import Request, of
NONE = 4294967295


def wrong(*words):
    """a request by its head, with a body of zeros"""
    return struct.pack('<16I', *words) + bytes(words[0])


def main():
    serve, = sys.argv[1:]
    k2 = 'solve (eq (var x) (bool))'
    torn = of(k2).bytes()[:90]
    # a request, and what its answer says: refusal, value, more, rounds, flags
    asked = [(of(k2).bytes(), (0, 2, 0, 1, 3)), (wrong(8, 99, *[0] * 14), (NONE, 2, 0, 0, 0)), (wrong(4, 23, 0, 0, 0, 8192, 0, 16384, 0, 0, 2, 0, 0, 0, 0, 1), (NONE, 4, 0, 0, 0)),
             (wrong(0, 23, 0, 0, 0, 533505, 0, 16384, 0, 0, 0, 0, 0, 0, 0, 1), (NONE, 3, 0, 0, 0)), (wrong(0, 23, 0, 0, 0, 9217, 0, 16384, 0, 0, 0, 0, 1, 0, 0, 1), (NONE, 3, 0, 0, 0)),
             (wrong(5000, 1, 0, 0, 0, 0, 0, 0, 20000, *[0] * 7), (NONE, 3, 0, 0, 0)), (Request(3, ('x', 'y'), [[], [122]]).bytes(), (0, 2, 1, 0, 5)), (of(k2, work=16383).bytes(), (10, 0, 0, 0, 5)),
             (of('judge (set (eq (var x) (bool))) (bind x (bool)) (bounds)').bytes(), (0, 1, 0, 0, 3)), (of('ceiling (eq (var x) (var y))').bytes(), (0, 2, 18434, 0, 5)),
             (of('batch (set (eq (var x) (bool))) (set (isdim (dim (v x 1 1) (v y -1 1))))').bytes(), (0, 4, 0, 0, 3)), (torn, (NONE, 1, 0, 0, 0))]
    data = b''.join(q for q, _ in asked)
    said = subprocess.run([serve], input=data, stdout=subprocess.PIPE, check=True).stdout
    got = [r[:5] for r in requests.replies(said)]
    assert got == [r for _, r in asked], got
    for name, d in (('stdin', data), ('stdout', said)):
        with open(os.path.join(HERE, '../crates/serve', name), 'wb') as f:
            f.write(d)


if __name__ == '__main__':
    main()
