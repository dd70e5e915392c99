#!/usr/bin/env python3
"""Stored cases of a call that has a reading of its own here: own.py MODULE SERVE crates/calls_run/stdin

MODULE (lines.py is one) has ABOUT, by which the comments of its cases call it, and `cases()`: why, the request, its names, what is said (refusal, value,
more, rounds), and the words at the front of the result buffer. TAKES_WORK = False says that the call leaves the work buffer alone. A case is stored only
if SERVE, the program `serve`, answers so and leaves the buffers so. Cases of the same ABOUT are replaced, all others stay; the count in calls_run's stdout
and README follows."""
import importlib
import os
import re
import subprocess
import sys
HERE = os.path.dirname(os.path.abspath(__file__))
sys.path.insert(0, HERE)
import make_cases
import requests


def compared(serve, cases, takes_work=True):
    """the cases with their answers, once these are as said"""
    cases = list(cases)
    said = subprocess.run([serve], input=b''.join(q.bytes() for _, q, *_ in cases), stdout=subprocess.PIPE).stdout
    replies, seen = requests.replies(said), {}
    if len(replies) != len(cases):
        sys.exit('%d answers to %d requests' % (len(replies), len(cases)))
    for (why, q, _, gives, words), r in zip(cases, replies):
        flags = 1 | (2 if takes_work and gives[0] != 10 else 4)
        if r[:4] != gives or r[5] != words or r[4] & flags != flags:
            sys.exit('not as said: %s: %r, but %r; lists %r' % (why, r, (gives, words), q.sent()))
        seen[gives[0]] = seen.get(gives[0], 0) + 1
    sys.stderr.write('%d cases, by their refusals: %s\n' % (len(cases), sorted(seen.items())))
    return [(why, q, names, r) for (why, q, names, *_), r in zip(cases, replies)]


def changed(path, what, to):
    with open(path) as f:
        text = f.read()
    with open(path, 'w') as f:
        f.write(re.sub(what, to, text, count=1))


def main():
    name, serve, place = sys.argv[1:]
    own = importlib.import_module(name)
    begin = '# paper: %s: ' % own.ABOUT
    with open(place) as f:
        others = [c for c in re.findall(r'^#.*\n(?:[^#\n].*\n)+', f.read(), re.M) if not c.startswith(begin)]
    answered = compared(serve, own.cases(), getattr(own, 'TAKES_WORK', True))
    all_cases = others + [make_cases.lines(begin[2:] + why, q, names, r) for why, q, names, r in answered]
    with open(place, 'w') as f:
        f.write(make_cases.in_blocks(all_cases))
    beside, n = os.path.dirname(os.path.abspath(place)), len(all_cases)
    changed(os.path.join(beside, 'stdout'), r'\d+ cases, \d+ as', '%d cases, %d as' % (n, n))
    changed(os.path.join(beside, 'README.md'), r'Runs the [\d,]+ cases', 'Runs the {:,} cases'.format(n))


if __name__ == '__main__':
    main()
