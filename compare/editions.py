#!/usr/bin/env python3
"""Time and memory of check_edition on made editions: editions.py [PROGRAM]. The least processor time of five runs, and the memory of one more.
The sheets are made in a folder that is removed again. A mixed sheet of n constraints gives each of 100 variables a product of four base dimensions and relates them in pairs; a long one has the heaviest set of
docs/EXTREMES.md, 682 equalities of 250 variables."""
import os, resource, subprocess, sys, tempfile

DIMS = 4


def powers(i):
    return [(i * (k + 3) + k * k) % 7 - 3 for k in range(DIMS)]


def product(factors):
    return '[%s]' % ' * '.join(f for f in factors if f)


def dims(exponents):
    return ['#d%d^(%d)' % (k, e) if e else '' for k, e in enumerate(exponents)]


def mixed(sheet, n):
    """The first constraint gives a variable its dimensions; each other one relates two."""
    first = sheet * 7 % 100
    lines = ['?v%03d ~ %s' % (first, product(dims(powers(first))))]
    for j in range(1, n):
        a, b = (first + j) % 100, (first + j * (1 if j < 100 else 3) - 1) % 100
        rest = [p - q for p, q in zip(powers(a), powers(b))]
        lines.append('?v%03d ~ %s' % (a, product(['?v%03d' % b] + dims(rest))))
    return '\n'.join(lines) + '\n'


def long(sheet):
    return ''.join('?v%03d ~ ?v%03d\n' % (i % 250, (i * 7 + 1) % 250) for i in range(682))


def time_of(program, args):
    """Status, and processor time in ms."""
    child = subprocess.Popen([program] + args, stdout=subprocess.DEVNULL, stderr=subprocess.DEVNULL)
    _, status, used = os.wait4(child.pid, 0)
    child.returncode = os.waitstatus_to_exitcode(status)
    return child.returncode, (used.ru_utime + used.ru_stime) * 1000


def memory_of(program, args, told):
    """Memory in KB, as /usr/bin/time tells it, which is small itself."""
    subprocess.run(['/usr/bin/time', '-o', told, '-f', '%M', program] + args, stdout=subprocess.DEVNULL, stderr=subprocess.DEVNULL)
    with open(told) as f:
        return int(f.read().split()[-1])


def measure(program, name, texts, options=()):
    with tempfile.TemporaryDirectory() as folder:
        files = []
        for k, text in enumerate(texts):
            files.append(os.path.join(folder, '%03d.sheet' % k))
            with open(files[-1], 'w') as f:
                f.write(text)
        args = list(options) + files
        runs = [time_of(program, args) for _ in range(5)]
        memory = memory_of(program, args, os.path.join(folder, 'memory'))
    print('| %s | %d | %s | %d | %.0f ms | %.1f MB |' % (
        name, len(texts), '{:,}'.format(sum(len(t) for t in texts)), runs[0][0], min(r[1] for r in runs), memory / 1024), flush=True)


def main():
    here = os.path.dirname(os.path.abspath(__file__))
    program = sys.argv[1] if len(sys.argv) > 1 else os.path.join(here, '../crates/check_edition/out/check_edition')
    resource.setrlimit(resource.RLIMIT_CORE, (0, 0))
    print('| sheets of | how many | bytes | status | processor time | memory |\n|---|---|---|---|---|---|')
    for n in (20, 80, 200):
        measure(program, '%d constraints' % n, [mixed(k, n) for k in range(40)])
    for count in (10, 20, 40, 80):
        measure(program, '80 constraints', [mixed(k, 80) for k in range(count)])
    for count in (10, 40, 80):
        measure(program, '80 constraints, `--separate`', [mixed(k, 80) for k in range(count)], ['--separate'])
    measure(program, '80 constraints, `--json`', [mixed(k, 80) for k in range(40)], ['--json'])
    measure(program, 'the heaviest set', [long(k) for k in range(40)])
    measure(program, 'nothing but comments, 1 MB', ['--' + 'x' * 1048573 + '\n'] * 40)


if __name__ == '__main__':
    main()
