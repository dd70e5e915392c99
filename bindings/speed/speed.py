#!/usr/bin/env python3
"""speed.py ORACLE [SECONDS]: solving the same sets with the archive and with numbat's own text, in one process, from Rust.
ORACLE is a folder that builds numbat's solver from its unchanged files: Cargo.toml, src/ with the modules sexp, terms and typechecker, standins/, and orig/ with numbat's
files. It is copied to target/speed, with bindings/speed/speed.rs in the place of its main function and the archive linked in; nothing of it comes into this repository.
Each figure is the least processor time of a run, of all runs within SECONDS (default 1) for each set and way. The archive is that of the folder SHUPKELEN_LIB, else the one that `rt lib`
wrote in crates/shupkelen/out, else that of dist/lib."""
import os, re, shutil, subprocess, sys
HERE = os.path.dirname(os.path.abspath(__file__))
ROOT = os.path.dirname(os.path.dirname(HERE))
sys.path.insert(0, ROOT + '/compare')
import requests
from edges import dims, nest


def sets():
    yield 'small: the empty set (K1)', ''
    yield 'small: x = boolean (K2)', '(eq (var x) (bool))'
    yield 'small: x = dimension x^2 (K3)', '(eq (var x) (dim (v x 2 1)))'
    yield 'small: equal-scalar x^2 L^-3 (K5)', '(scalar (v x 2 1) (b L -3 1))'
    yield 'small: a struct of x, of boolean (K12)', '(eq (struct P ((var x)) ()) (struct P ((bool)) ()))'
    yield 'small: list of x = x, unsolved (K4)', '(eq (list (var x)) (var x))'
    yield 'a sheet of 20 lines', ' '.join('(scalar (v t%02d 1 1) (v t%02d -1 1) (b L %d 1) (b T -%d 2))' % (i, i + 1, i % 3 + 1, i % 5 * 2 + 1) for i in range(20))
    yield '2,046 records: 682 equalities of 250 variables', ' '.join('(eq (var v%03d) (var v%03d))' % (i % 250, (i * 7 + 1) % 250) for i in range(682))
    yield '2,046 records: 31 products of 64 factors', ' '.join('(scalar (v x%02d 1 2) %s)' % (i, dims(63, i % 5, '3 7')) for i in range(31))
    yield '1,345 records: functions of 670 parameters', '(eq (fn (%s) (var x)) (fn (%s) (bool)))' % (' '.join(['(var x)'] * 670), ' '.join(['(bool)'] * 670))
    yield '2,045 records: one binding put into 2,039 places', '(eq (var x) (fn (%s) (var y))) (eq (var y) (bool))' % ' '.join(['(var y)'] * 2038)
    yield '1,008 rounds: 16 equalities of 62 nested lists', ' '.join('(eq %s %s)' % (nest(62, '(var x)'), nest(62, '(var y)')) for _ in range(16))


def archive():
    for folder in (os.environ.get('SHUPKELEN_LIB', ''), ROOT + '/crates/shupkelen/out', ROOT + '/dist/lib'):
        if folder and os.path.exists(folder + '/libshupkelen.a'):
            return folder
    sys.exit('no archive: see the head of this file')


def build(oracle, dir):
    if not os.path.exists(oracle + '/orig/typechecker/constraints.rs'):
        sys.exit('%s/orig has no files of numbat: see its README' % oracle)
    shutil.copytree(oracle, dir, ignore=shutil.ignore_patterns('target*', '.git'), dirs_exist_ok=True)
    main = open(dir + '/src/main.rs').read()
    open(dir + '/src/main.rs', 'w').write(main[:main.index('use std::io')] + 'mod speed;\nfn main() {\n    speed::main()\n}\n')
    shutil.copy(HERE + '/speed.rs', dir + '/src/speed.rs')
    flags = '-L native=%s -l static=shupkelen' % archive()
    subprocess.run(['cargo', 'build', '--release', '--quiet'], cwd=dir, check=True, env={**os.environ, 'RUSTFLAGS': flags})
    return dir + '/target/release/oracle'


def given(what, text, names=None):
    """The four lines that speed.rs takes for a set; `names` in place of those that stand in it."""
    q = requests.of('solve ' + text)
    return '%s\n%s\n%s\n%s\n' % (what, text, ' '.join(names or q.names), ' '.join(map(str, q.sent()[0])))


def main():
    if len(sys.argv) < 2:
        sys.exit(__doc__)
    program = build(sys.argv[1], ROOT + '/target/speed')
    lines = ''.join(given(what, text) for what, text in sets())
    print('| set | records | refusal, rounds | numbat | archive, buffers kept | ratio | archive, buffers made anew | ratio |\n|---|---|---|---|---|---|---|---|', flush=True)
    sys.exit(subprocess.run([program] + sys.argv[2:3], input=lines, text=True).returncode)


if __name__ == '__main__':
    main()
