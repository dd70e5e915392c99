#!/usr/bin/env python3
"""The compiled calls against numbat: compare.py NUMBAT [--cases N] [--seed S] [--kinds A,B] [--serve FILE] [--build DIR] [--log FILE]

NUMBAT is a checkout of numbat at e8abf32b97. The harness is built from it in DIR (default target/compare), sends random requests of each kind to
`serve` (default crates/serve/out/serve, which `rt run` in crates/serve makes) and compares every answer with numbat's, or with our own reading of the rules
where numbat has no counterpart. A difference counts as explained when model.py, which has the rules, answers as `serve` did, and
with the fewest of numbat's deviations switched on as numbat did; each deviation is a number of docs/DIFFERENCES.md. Any other fails the run."""
import ast, itertools, os, subprocess, sys, tempfile, time
from collections import Counter
HERE = os.path.dirname(os.path.abspath(__file__))
sys.path.insert(0, HERE)
import edges
import model
import requests
sys.setrecursionlimit(30000)

KINDS = ['small', 'rich', 'structs', 'wide', 'shared', 'limits', 'damaged', 'names']
# the share of each kind in a thousand cases
SHARE = {'lengths': 30, 'small': 400, 'rich': 250, 'structs': 130, 'wide': 120, 'shared': 50, 'limits': 1, 'damaged': 29, 'names': 20}
# calls that are there: bit n is call n
LAST = requests.LAST
CALLS = sum(1 << n for n in range(1, requests.KNOWN + 1) if n != 31)    # those that the harness has; the others have own.py
NUMBER = {'params': 1, 'args': 2, 'dups': 3, 'inst': 5, 'isdim': 7, 'shared': 11, 'big': 12}


def paper(case, deviations):
    """the model's answer, as the harness writes answers"""
    model.DEV.clear()
    model.DEV.update(deviations)
    a = model.answer(case)
    w = a.split()
    if w[0] == 'nondim':
        return ' '.join(w[:2]) if len(w) > 1 and w[1].isdigit() else 'nondim'
    if w[0] == 'panic' and w[-1] in ('count', 'concrete'):
        return 'refused9'
    return a


def explain(case, theirs, mine):
    """the numbers of the fewest differences that explain it, or None"""
    if paper(case, ()) != mine:
        return None
    if theirs == 'runs on':
        return (2,)
    if paper(case, NUMBER) != theirs and paper(case, [d for d in NUMBER if d != 'big']) != theirs:
        return None
    for k in range(1, 5):
        for s in itertools.combinations(NUMBER, k):
            if paper(case, s) == theirs:
                return tuple(sorted(NUMBER[d] for d in s))
    return None


class Tally:
    def __init__(self):
        self.total = self.numbat = self.paper = 0
        self.rules, self.calls, self.refusals, self.why, self.least = Counter(), Counter(), Counter(), Counter(), {}
        self.bad = []

    def line(self, f):
        if f[0] == 'D':
            call, case, theirs, mine = f[1:5]
            why = explain(case, theirs, mine)
            if why is None:
                self.bad.append((len(case), case, theirs, mine))
            else:
                self.why[why] += 1
                if why not in self.least or len(case) < len(self.least[why][0]):
                    self.least[why] = (case, theirs, mine)
        elif f[0] == 'C':
            self.total += int(f[1])
            self.numbat += int(f[2])
            self.paper += int(f[3])
            for into, text in ((self.rules, f[6]), (self.calls, f[7]), (self.refusals, f[8])):
                into.update(ast.literal_eval(text))
        elif f[0] != 'S':
            self.bad.append((0, '\t'.join(f), '', ''))


def run_edges(harness, serve, tally):
    with tempfile.NamedTemporaryFile() as f:
        f.write(b''.join(q.bytes() for _, q in edges.cases(LAST)))
        f.flush()
        take([harness] + ['check', serve, f.name], tally, 'the edge cases')


def run(harness, serve, kind, seed, count, tally):
    take([harness] + ['compare', serve, kind, str(seed), str(count), str(CALLS)], tally, '%s, seed %d' % (kind, seed))


def take(command, tally, what):
    p = subprocess.Popen(command, stdout=subprocess.PIPE, text=True, errors='replace')
    counted = False
    for line in p.stdout:
        f = line.rstrip('\n').split('\t')
        counted |= f[0] == 'C'
        tally.line(f)
        if len(tally.bad) > 50:
            p.kill()
            break
    p.wait()
    if not counted and not tally.bad:
        tally.bad.append((0, 'the harness ended early on ' + what, '', ''))


def options(argv):
    argv = argv
    o = {'--cases': '100000', '--seed': '1', '--kinds': ','.join(KINDS + ['lengths']), '--serve': os.path.join(HERE, '../crates/serve/out/serve'), '--build': os.path.join(HERE, '../target/compare'), '--log': ''}
    args = []
    i = 0
    while i < len(argv):
        if argv[i] in o:
            o[argv[i]] = argv[i + 1]
            i += 1
        else:
            args.append(argv[i])
        i += 1
    if len(args) != 1:
        sys.exit(__doc__)
    return args[0], o


def main():
    numbat, o = options(sys.argv[1:])
    out = subprocess.run(['sh', os.path.join(HERE, 'build.sh'), numbat, o['--build']], stdout=subprocess.PIPE, text=True, check=True).stdout
    harness, kinds = out.split()[-1], o['--kinds'].split(',')
    share = sum(SHARE[k] for k in kinds)
    left, first, seed = int(o['--cases']), int(o['--seed']), int(o['--seed'])
    tallies = {k: Tally() for k in ['edges'] + kinds}
    run_edges(harness, o['--serve'], tallies['edges'])
    seconds = Counter()
    # a seed gives 100,000 cases at most, shared out among the kinds
    while left > 0 and not any(t.bad for t in tallies.values()):
        n = min(left, 100000)
        for k in kinds:
            start = time.time()
            run(harness, o['--serve'], k, seed, max(1, n * SHARE[k] // share), tallies[k])
            seconds[k] += time.time() - start
        left -= n
        seed += 1
        if o['--log']:
            with open(o['--log'], 'w') as f:
                report(f, tallies, first, seed - 1, seconds)
    return report(sys.stdout, tallies, first, seed - 1, seconds)


def report(f, tallies, first, last, seconds):
    say = lambda text: print(text, file=f)
    say('seeds %d to %d\n\n| kind | cases | as numbat | as our reading | explained | not explained |\n|---|---|---|---|---|---|' % (first, last))
    rows = [(k, t.total, t.numbat, t.paper, sum(t.rules.values()) + sum(t.why.values()), len(t.bad)) for k, t in tallies.items()]
    rows.append(('all', *[sum(r[i] for r in rows) for i in range(1, 6)]))
    for r in rows:
        say('| %s | %s |' % (r[0], ' | '.join('{:,}'.format(n) for n in r[1:])))
    why, calls, refusals, least = Counter(), Counter(), Counter(), {}
    for t in tallies.values():
        why += Counter({(k,): n for k, n in t.rules.items()}) + t.why
        calls += t.calls
        refusals += t.refusals
        for k, v in t.least.items():
            if k not in least or len(v[0]) < len(least[k][0]):
                least[k] = v
    say('\n| difference | cases |\n|---|---|')
    for k, n in sorted(why.items()):
        say('| %s | %s |' % (' and '.join(map(str, k)), '{:,}'.format(n)))
    say('\ncalls: %s' % ', '.join('%d: %s' % (k, '{:,}'.format(n)) for k, n in sorted(calls.items())))
    say('refusals: %s' % ', '.join('%d: %s' % (k, '{:,}'.format(n)) for k, n in sorted(refusals.items())))
    for k, (case, theirs, mine) in sorted(least.items()):
        say('least case of %s: %s\n  numbat %s\n  serve  %s' % (' and '.join(map(str, k)), case[:300], theirs[:200], mine[:200]))
    bad = sorted(b for t in tallies.values() for b in t.bad)
    for _, case, theirs, mine in bad[:10]:
        say('NOT EXPLAINED\n  case   %s\n  numbat %s\n  serve  %s' % (case[:1500], theirs[:400], mine[:400]))
    say('%.0f s; not explained: %d' % (sum(seconds.values()), len(bad)))
    f.flush()
    return 1 if bad else 0


if __name__ == '__main__':
    sys.exit(main())
