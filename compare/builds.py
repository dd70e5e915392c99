#!/usr/bin/env python3
"""The edge cases through other builds of `serve`: builds.py [SERVE]. As Rattle's own compiler builds it, and unproved, with its indices and sums tested as
it runs (`rt try`), it must write what the proved program SERVE (default crates/serve/out/serve) writes. They have 64 MB of stack: unlike the proved
program, a build that is not optimised copies the large buffers about."""
import os, resource, subprocess, sys, tempfile
HERE = os.path.dirname(os.path.abspath(__file__))
sys.path.insert(0, HERE)
import edges, requests
ROOT = os.path.dirname(HERE)
MOST = 400000    # bytes that a program under test may write, with room


def more_stack():
    resource.setrlimit(resource.RLIMIT_STACK, (64 << 20, resource.getrlimit(resource.RLIMIT_STACK)[1]))


def chunks(serve, cases):
    """requests whose answers together stay short, with these answers"""
    data, want, n = b'', b'', 0
    for _, q in cases:
        r = subprocess.run([serve], input=q.bytes(), stdout=subprocess.PIPE).stdout
        if len(want) + len(r) > MOST or n == 600:
            yield data, want
            data, want, n = b'', b'', 0
        data, want, n = data + q.bytes(), want + r, n + 1
    yield data, want


def put(folder, n, data, want):
    """a part as `rt try --cases` takes it: what comes in, and what must come out"""
    for name, text in (('part%d' % n, data), ('part%d.stdout' % n, want)):
        with open(os.path.join(folder, name), 'wb') as f:
            f.write(text)


def main():
    args = sys.argv[1:]
    serve = args[0] if args else ROOT + '/crates/serve/out/serve'
    cases = edges.cases(requests.LAST)
    failed = n = 0
    with tempfile.TemporaryDirectory() as tmp:
        for data, want in chunks(serve, cases):
            n += 1
            put(tmp, n, data, want)
            way = ['rt', 'run', '--backend', 'rattle', '--']
            r = subprocess.run(way, input=data, stdout=subprocess.PIPE, stderr=subprocess.DEVNULL, cwd=ROOT + '/crates/serve', preexec_fn=more_stack)
            failed += r.stdout != want
            print('part %d, by Rattle\'s compiler: %s' % (n, 'the same' if r.stdout == want else 'OTHERWISE'), flush=True)
        tried = subprocess.run(['rt', 'try', '--cases', tmp], stdout=subprocess.DEVNULL, cwd=ROOT + '/crates/serve', preexec_fn=more_stack).returncode
        failed += tried != 0
        print('tested as it runs: %s' % ('the same' if tried == 0 else 'OTHERWISE, status %d' % tried), flush=True)
    print('%d cases in %d parts; builds that failed on a part: %d' % (len(cases), n, failed))
    return 1 if failed else 0


if __name__ == '__main__':
    sys.exit(main())
