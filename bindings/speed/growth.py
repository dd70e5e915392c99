#!/usr/bin/env python3
"""growth.py ORACLE [SECONDS]: how the time of solving grows, at 1, 2, 4 and 8 times as many records, rounds or names: a table on standard output, and docs/growth.svg.
ORACLE, SECONDS and the archive are as speed.py has them."""
import subprocess, sys
from pathlib import Path
import speed

SVG = Path(speed.ROOT) / 'docs' / 'growth.svg'
WIDTH, HEIGHT, LEFT, TOP, GAP = 200, 170, 62, 40, 34
COLOURS = {'numbat': '#b0561e', 'archive': '#1f5fa8'}


def families():
    """what grows, its counts, and the set of a count, with a table's names where these grow"""
    yield 'equalities of 250 variables', (85, 170, 341, 682), lambda n: (' '.join('(eq (var v%03d) (var v%03d))' % (i % 250, (i * 7 + 1) % 250) for i in range(n)), None)
    yield 'parameters of two functions', (84, 168, 335, 670), lambda n: ('(eq (fn (%s) (var x)) (fn (%s) (bool)))' % (' '.join(['(var x)'] * n), ' '.join(['(bool)'] * n)), None)
    yield 'equalities of 62 nested lists', (2, 4, 8, 16), lambda n: (' '.join('(eq %s %s)' % (speed.nest(62, '(var x)'), speed.nest(62, '(var y)')) for _ in range(n)), None)
    yield 'products of 64 factors', (4, 8, 16, 31), lambda n: (' '.join('(scalar (v x%02d 1 2) %s)' % (i, speed.dims(63, i % 5, '3 7')) for i in range(n)), None)
    yield 'names of 32 bytes, over the empty set', (32, 64, 128, 256), lambda n: ('', ['n' * 29 + '%03d' % i for i in range(n)])


def micro(shown):
    number, unit = shown.split()
    return float(number) * (1000 if unit == 'ms' else 1)


def panel(at, what, rows):
    """a family as a picture: both axes by powers of two, the time of the archive and of numbat"""
    import math
    counts = [r[0] for r in rows]
    times = [t for r in rows for t in r[1:] if t]
    low, high = math.floor(math.log2(min(times))), math.ceil(math.log2(max(times)))
    x = lambda n: at + WIDTH * math.log2(n / counts[0]) / math.log2(counts[-1] / counts[0])
    y = lambda t: TOP + HEIGHT * (1 - (math.log2(t) - low) / max(high - low, 1))
    out = ['<text x="%d" y="%d" class="head">%s</text>' % (at, TOP - 18, what), '<rect x="%d" y="%d" width="%d" height="%d"/>' % (at, TOP, WIDTH, HEIGHT)]
    for p in range(low, high + 1, max(1, (high - low) // 5)):
        t = 2.0 ** p
        out.append('<line x1="%d" x2="%d" y1="%.1f" y2="%.1f"/>' % (at, at + WIDTH, y(t), y(t)))
        out.append('<text x="%d" y="%.1f" class="left">%s</text>' % (at - 5, y(t) + 4, '%.3g µs' % t if t < 1000 else '%.3g ms' % (t / 1000)))
    for n in counts:
        out.append('<text x="%.1f" y="%d" class="middle">%d</text>' % (x(n), TOP + HEIGHT + 16, n))
    for k, who in ((1, 'numbat'), (2, 'archive')):
        points = [(x(r[0]), y(r[k])) for r in rows if r[k]]
        if points:
            out.append('<polyline stroke="%s" points="%s"/>' % (COLOURS[who], ' '.join('%.1f,%.1f' % p for p in points)))
            out += ['<circle cx="%.1f" cy="%.1f" r="3" fill="%s"/>' % (*p, COLOURS[who]) for p in points]
    return out


def draw(found):
    wide = LEFT + len(found) * (WIDTH + LEFT + GAP // 2)
    out = ['<svg xmlns="http://www.w3.org/2000/svg" viewBox="0 0 %d %d" font-family="sans-serif" font-size="11">' % (wide, TOP + HEIGHT + 52),
           '<title>How the time of solving grows, beside numbat</title>',
           '<style>rect{fill:none;stroke:#888}line{stroke:#ddd}polyline{fill:none;stroke-width:2}.head{font-weight:bold}.left{text-anchor:end}.middle{text-anchor:middle}</style>',
           '<rect x="0" y="0" width="100%" height="100%" style="fill:#fff;stroke:none"/>']
    for i, (what, rows) in enumerate(found):
        out += panel(LEFT + i * (WIDTH + LEFT + GAP // 2), what, rows)
    for i, who in enumerate(COLOURS):
        out.append('<text x="%d" y="%d" fill="%s" class="head">%s</text>' % (LEFT + 80 * i, TOP + HEIGHT + 42, COLOURS[who], who))
    SVG.write_text('\n'.join(out + ['</svg>', '']), encoding='utf-8')


def main():
    if len(sys.argv) < 2:
        sys.exit(__doc__)
    program = speed.build(sys.argv[1], speed.ROOT + '/target/speed')
    found = []
    print('| what grows | count | numbat | archive | times the row above |\n|---|---|---|---|---|')
    for what, counts, set_of in families():
        lines = ''.join(speed.given(what, *set_of(n)) for n in counts)
        told = subprocess.run([program] + sys.argv[2:3], input=lines, text=True, capture_output=True, check=True).stdout
        cells = [[c.strip() for c in line.split('|')[1:-1]] for line in told.splitlines()]
        rows = [(n, None if what.startswith('names') else micro(c[3]), micro(c[4])) for n, c in zip(counts, cells)]
        for i, (n, theirs, ours) in enumerate(rows):
            print('| %s | %d | %s | %s | %s |' % (what, n, '' if theirs is None else cells[i][3], cells[i][4], '%.2f' % (ours / rows[i - 1][2]) if i else ''), flush=True)
        found.append((what, rows))
    draw(found)


if __name__ == '__main__':
    main()
