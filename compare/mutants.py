#!/usr/bin/env python3
"""Wrong code must be noticed: mutants.py [--serve FILE] [NAME..]
Each must-fail edit of code that `serve` reaches is put into a copy of crates/ and sent the edge cases, unproved (`rt try`), in parts; a mutant is noticed
where a part is answered otherwise than the real program answers it. Prints a line for each edit."""
import glob, os, re, shutil, subprocess, sys, tempfile
HERE = os.path.dirname(os.path.abspath(__file__))
sys.path.insert(0, HERE)
import builds, edges, requests
ROOT = os.path.dirname(HERE)


def edit(path):
    """the file, the old line's text and the new one"""
    f = dict(re.findall(r'(?m)^(file|old|new): (.*)$', open(path).read()))
    return f['file'], f['old'], f['new']


def reached(crate):
    """the crates that a crate uses, itself too"""
    uses = dict(re.findall(r'(?m)^(\w+): *(.*)$', open(os.path.join(ROOT, 'crates.txt')).read()))
    seen, left = set(), [crate]
    while left:
        c = left.pop()
        if c not in seen and c in uses:
            seen.add(c)
            left += uses[c].split()
    return seen


def tried(crate, file, old, new, parts):
    """the status of `rt try` on `serve` with this line changed: 0 where each part is answered as it should be, 4 to 6 where one isn't"""
    with tempfile.TemporaryDirectory() as tmp:
        for d in glob.glob(os.path.join(ROOT, 'crates/*/src')):
            shutil.copytree(d, os.path.join(tmp, 'crates', d.split('/')[-2], 'src'))
        shutil.copy(os.path.join(ROOT, 'crates.txt'), tmp)
        target = os.path.join(tmp, 'crates', crate, file)
        with open(target) as f:
            text = f.read()
        assert text.count(old) == 1, (crate, file, old)
        with open(target, 'w') as f:
            f.write(text.replace(old, new))
        return subprocess.run(['rt', 'try', '--cases', parts], stdout=subprocess.DEVNULL, stderr=subprocess.DEVNULL, cwd=os.path.join(tmp, 'crates/serve')).returncode


def main():
    args = sys.argv[1:]
    serve = os.path.join(ROOT, 'crates/serve/out/serve')
    if '--serve' in args:
        i = args.index('--serve')
        serve = args[i + 1]
        del args[i:i + 2]
    cases = edges.cases(requests.LAST)
    unnoticed = n = 0
    with tempfile.TemporaryDirectory() as parts:
        for data, want in builds.chunks(serve, cases):
            n += 1
            builds.put(parts, n, data, want)
        for path in sorted(glob.glob(os.path.join(ROOT, 'crates/*/must-fail/*.edit'))):
            crate, name = path.split('/')[-3], os.path.basename(path)[:-5]
            file, old, new = edit(path)
            if not file.startswith('src/') or crate not in reached('serve') or (args and name not in args):
                continue
            status = tried(crate, file, old, new, parts)
            unnoticed += status == 0
            said = {0: 'NOT NOTICED', 4: 'noticed', 5: 'noticed', 6: 'noticed'}.get(status, 'does not compile')
            print('%s/%s: %s' % (crate, name, said), flush=True)
    print('%d cases in %d parts; not noticed: %d' % (len(cases), n, unnoticed))


if __name__ == '__main__':
    main()
