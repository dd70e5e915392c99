#!/usr/bin/env python3
"""The rules, with the request on adding, once more, in Python, answering cases that are written as lines of text: with DEV empty as the rules stand, with
deviations of numbat switched on as numbat does. Used to say which difference of docs/DIFFERENCES.md explains a case, never as the
only judge of one. Of the refusals it has 4 to 9 and 11: what is malformed (1), names (2, 3), buffers (10), lists that are too long at entry (8) and the text (12)
it leaves to the harness; compare/README.md has what else it is no model of.
  params   closed does not count parameters; is-dimension/equal of closed types with parameters decided at once
  args     contains, variables, closed ignore the arguments of structs
  unwrap   6 while replacing in the bindings is a panic
  wide     no refusal 7 (exponents are i128)
  big      no refusal 8
  inst     instantiating leaves a product of one variable to the power 1 a product
  dups     variables of a struct: in the order of the fields, not sorted, repeats kept
  isdim    is-dimension of a product: new constraints sorted by name, variables and parameters together
  shared   one name may be variable and parameter (no refusal 4); bindings also replace parameters
"""
import sys
from fractions import Fraction as F
DEV = set()
MAX = 2147483647

class Refuse(Exception):
    def __init__(self, no, info=None): self.no, self.info = no, info

# ---------- reading
def parse(line):
    toks = line.replace('(', ' ( ').replace(')', ' ) ').split()
    st = [[]]
    for t in toks:
        if t == '(': st.append([])
        elif t == ')':
            x = st.pop(); st[-1].append(x)
        else: st[-1].append(t)
    return st[0]
RANK = {'v': 0, 'q': 1, 'p': 2, 'b': 3}
def key(f): return (RANK[f[0]], f[1])
def rd_factors(fs):
    d = {}
    for c, n, a, b in fs:
        k = (c, int(n) if c == 'q' else n)
        d[k] = d.get(k, 0) + F(int(a), int(b))
    return mk(d)
def mk(d): return tuple((c, n, e) for (c, n), e in sorted(d.items(), key=lambda i: key(i[0])) if e != 0)
def rd(t):
    h = t[0]
    if h == 'var' or h == 'par': return (h, t[1])
    if h == 'q': return ('q', int(t[1]))
    if h == 'dim': return ('dim', rd_factors(t[1:]))
    if h in ('bool', 'str', 'date'): return (h,)
    if h == 'fn': return ('fn', tuple(map(rd, t[1])), rd(t[2]))
    if h == 'list': return ('list', rd(t[1]))
    if h == 'struct': return ('struct', t[1], tuple(map(rd, t[2])), tuple((n, rd(u)) for n, u in t[3]))
    raise ValueError(t)
def rc(c):
    h = c[0]
    if h == 'eq': return ('eq', rd(c[1]), rd(c[2]))
    if h == 'isdim': return ('isdim', rd(c[1]))
    if h == 'scalar': return ('scalar', rd_factors(c[1:]))
    if h == 'hasfield': return ('hasfield', rd(c[1]), c[2], rd(c[3]))
    raise ValueError(c)
# ---------- writing
def wf(fs): return ''.join(' (%s %s %d %d)' % (c, n, e.numerator, e.denominator) for c, n, e in fs)
def w(t):
    h = t[0]
    if h in ('var', 'par', 'q'): return '(%s %s)' % (h, t[1])
    if h == 'dim': return '(dim%s)' % wf(t[1])
    if h == 'fn': return '(fn (%s) %s)' % (' '.join(map(w, t[1])), w(t[2]))
    if h == 'list': return '(list %s)' % w(t[1])
    if h == 'struct': return '(struct %s (%s) (%s))' % (t[1], ' '.join(map(w, t[2])), ' '.join('(%s %s)' % (n, w(u)) for n, u in t[3]))
    return '(%s)' % h
def wc(c):
    if c[0] == 'eq': return '(eq %s %s)' % (w(c[1]), w(c[2]))
    if c[0] == 'isdim': return '(isdim %s)' % w(c[1])
    if c[0] == 'scalar': return '(scalar%s)' % wf(c[1])
    return '(hasfield %s %s %s)' % (w(c[1]), c[2], w(c[3]))
# ---------- exponents, products
def ex(e):
    if 'wide' not in DEV and (abs(e.numerator) > MAX or e.denominator > MAX): raise Refuse(7)
    return e
def mul(a, b):
    d = {(c, n): e for c, n, e in a}
    for c, n, e in b:
        k = (c, n)
        d[k] = ex(d[k] + e) if k in d else e
    r = mk(d)
    if 'big' not in DEV and len(r) > 64: raise Refuse(8)
    return r
def power(a, p): return mk({(c, n): ex(e*p) for c, n, e in a})
def inv(a): return power(a, F(-1))
def div(a, b): return mul(a, inv(b))
def onevar(t):  # a dimension that is one variable to the power 1
    if t[0] == 'dim' and len(t[1]) == 1 and t[1][0][0] in 'vq' and t[1][0][2] == 1: return t[1][0][:2]
    return None
# ---------- contains, closed, variables
def tv(c, n): return ('q', n) if c == 'q' else ('v', n)
def raw(t, incl):
    """all variables (and parameters) named in t, as ('v',name) or ('q',i), in order of appearance"""
    h = t[0]
    if h == 'var': return [('v', t[1])]
    if h == 'q': return [('q', t[1])]
    if h == 'par': return [('v', t[1])] if incl else []
    if h == 'dim': return [tv(c, n) for c, n, e in t[1] if c in 'vq' or (c == 'p' and incl)]
    if h == 'list': return raw(t[1], incl)
    if h == 'fn': return [v for u in t[1] for v in raw(u, incl)] + raw(t[2], incl)
    if h == 'struct':
        r = [] if 'args' in DEV else [v for u in t[2] for v in raw(u, incl)]
        return r + [v for n, u in t[3] for v in raw(u, incl)]
    return []
VK = lambda v: (0 if v[0] == 'v' else 1, v[1])
def variables(t, incl):
    if 'dups' in DEV:
        if t[0] == 'list': return variables(t[1], incl)
        if t[0] == 'struct':
            ts = ([] if 'args' in DEV else list(t[2])) + [u for n, u in t[3]]
            return [v for u in ts for v in variables(u, incl)]
    return sorted(set(raw(t, incl)), key=VK)
def contains(t, v, incl): return v in raw(t, incl)
def closed(t): return not raw(t, 'params' not in DEV)
# ---------- replacing
def look(b, v):
    for x, t in b:
        if x == v: return t
    return None
def rep_prod(fs, b, pars=False):
    new = fs
    for c, n, p in fs:
        if c in 'vq' or (c == 'p' and pars):
            t = look(b, tv(c, n) if c != 'p' else ('v', n))
            if t is None: continue
            if t[0] == 'dim': d = t[1]
            elif t[0] == 'var': d = (('v', t[1], F(1)),)
            elif t[0] == 'q': d = (('q', t[1], F(1)),)
            else: raise Refuse(6, t)
            new = div(new, power(((c, n, F(1)),), p))
            new = mul(new, power(d, p))
    return new
def rep(t, b, pars=None):
    if pars is None: pars = 'shared' in DEV
    h = t[0]
    if h == 'var': r = look(b, ('v', t[1])); return t if r is None else r
    if h == 'q': r = look(b, ('q', t[1])); return t if r is None else r
    if h == 'par':
        r = look(b, ('v', t[1])) if pars else None
        return t if r is None else r
    if h == 'dim':
        o = onevar(t)
        if o: r = look(b, o); return t if r is None else r
        return ('dim', rep_prod(t[1], b, pars))
    if h == 'fn': ps = tuple(rep(u, b, pars) for u in t[1]); return ('fn', ps, rep(t[2], b, pars))
    if h == 'list': return ('list', rep(t[1], b, pars))
    if h == 'struct':
        a = tuple(rep(u, b, pars) for u in t[2])
        return ('struct', t[1], a, tuple((n, rep(u, b, pars)) for n, u in t[3]))
    return t
def repc(c, b):
    if c[0] == 'eq': l = rep(c[1], b); return ('eq', l, rep(c[2], b))
    if c[0] == 'isdim': return ('isdim', rep(c[1], b))
    if c[0] == 'scalar': return ('scalar', rep_prod(c[1], b, 'shared' in DEV))
    s = rep(c[1], b); return ('hasfield', s, c[2], rep(c[3], b))
# ---------- sizes
def recs(t):
    h = t[0]
    if h == 'dim': return 1 + len(t[1])
    if h == 'fn': return 1 + sum(map(recs, t[1])) + recs(t[2])
    if h == 'list': return 1 + recs(t[1])
    if h == 'struct': return 1 + sum(map(recs, t[2])) + sum(1 + recs(u) for n, u in t[3])
    return 1
def nest(t):
    h = t[0]
    sub = list(t[1]) + [t[2]] if h == 'fn' else [t[1]] if h == 'list' else list(t[2]) + [u for n, u in t[3]] if h == 'struct' else []
    return 1 + max(map(nest, sub), default=0)
def ctypes(c): return [c[1], c[2]] if c[0] == 'eq' else [c[1]] if c[0] == 'isdim' else [('dim', c[1])] if c[0] == 'scalar' else [c[1], c[3]]
def crecs(c): return 1 + sum(map(recs, ctypes(c)))
def limited(n, ts):
    """8 at the end of a call: over 2,048 records, or a type nested over 64"""
    if 'big' not in DEV and (n > 2048 or any(nest(t) > 64 for t in ts)): raise Refuse(8)
# ---------- adding and rounds
def add(c):
    if c[0] == 'eq':
        a, b = c[1], c[2]
        if closed(a) and closed(b): return 'satisfied' if a == b else 'violated'
        if a[0] == b[0] == 'fn' and len(a[1]) != len(b[1]): return 'violated'
        if a[0] != b[0] and not {a[0], b[0]} & {'var', 'par', 'q'} and not (onevar(a) or onevar(b)): return 'violated'
        return 'unknown'
    if c[0] == 'isdim':
        if closed(c[1]): return 'satisfied' if c[1][0] == 'dim' else 'violated'
        return 'unknown'
    if c[0] == 'scalar':
        if not c[1]: return 'satisfied'
        if not any(f[0] in 'vq' for f in c[1]): return 'violated'
    return 'unknown'
def rule(c):
    """('none',) ('done',) ('bind', var, type) ('split', constraints)"""
    if c[0] == 'eq':
        a, b = c[1], c[2]
        if a == b: return ('done',)
        for s, o in ((a, b), (b, a)):
            if s[0] in ('var', 'q') and not contains(o, ('v' if s[0] == 'var' else 'q', s[1]), False): return ('bind', ('v' if s[0] == 'var' else 'q', s[1]), o)
        for s, o in ((a, b), (b, a)):
            v = onevar(s)
            if v and not contains(o, v, False): return ('bind', v, o)
        k = (a[0], b[0])
        if k == ('fn', 'fn') and len(a[1]) == len(b[1]): return ('split', [('eq', a[2], b[2])] + [('eq', p, q) for p, q in zip(a[1], b[1])])
        if k == ('list', 'list'): return ('split', [('eq', a[1], b[1])])
        if k == ('struct', 'struct') and a[1] == b[1] and len(a[2]) == len(b[2]):
            n = [('eq', p, q) for p, q in zip(a[2], b[2])]
            return ('split', n) if n else ('done',)
        for s, o in ((a, b), (b, a)):
            if s[0] in ('var', 'q') and o[0] == 'dim': return ('split', [('eq', ('dim', (('v' if s[0] == 'var' else 'q', s[1], F(1)),)), o)])
        if k == ('dim', 'dim'): return ('split', [('scalar', div(a[1], b[1]))])
        return ('none',)
    if c[0] == 'isdim':
        if c[1][0] != 'dim': return ('none',)
        vs = [tv(f[0], f[1]) if f[0] != 'p' else ('v', f[1]) for f in c[1][1] if f[0] != 'b']
        if 'isdim' in DEV: vs = sorted(set(vs), key=VK)
        n = [('isdim', ('var', v[1]) if v[0] == 'v' else v) for v in vs]
        return ('split', n) if n else ('done',)
    if c[0] == 'scalar':
        fs = c[1]
        if not fs: return ('done',)
        if fs[0][0] in 'vq':
            k = fs[0][2]
            return ('bind', fs[0][:2], ('dim', mk({(f, n): ex(ex(-j)/k) for f, n, j in fs[1:]})))
        return ('none',)
    s = c[1]
    if s[0] == 'struct' and closed(s):
        for n, t in s[3]:
            if n == c[2]: return ('split', [('eq', t, c[3])])
    return ('none',)
def nm(v): return str(v[1]) if v[0] == 'v' else '(q %d)' % v[1]
def shared_names(*ts):
    vs, ps = set(), set()
    def go(t):
        h = t[0]
        if h == 'var': vs.add(t[1])
        elif h == 'par': ps.add(t[1])
        elif h == 'dim':
            for c, n, e in t[1]:
                if c == 'v': vs.add(n)
                elif c == 'p': ps.add(n)
        elif h == 'fn': [go(u) for u in t[1]]; go(t[2])
        elif h == 'list': go(t[1])
        elif h == 'struct': [go(u) for u in t[2]]; [go(u) for n, u in t[3]]
    for t in ts: go(t)
    return vs & ps
def entry(*ts):
    if 'shared' not in DEV and shared_names(*ts): raise Refuse(4)
def ceiling(cs):
    """the rules' most rounds; with a deviation solving may go on for ever"""
    v = len({x for c in cs for t in ctypes(c) for x in raw(t, False)})
    return 5000 if DEV else v + 6144 * (v + 1)
def solve(cs, limit=None):
    rounds, bs = 0, []
    if limit is None: limit = ceiling(cs)
    try:
        entry(*[t for c in cs for t in ctypes(c)])
        while True:
            for i, c in enumerate(cs):
                r = rule(c)
                if r[0] != 'none': break
            else: break
            if rounds >= limit: return 'loop %d' % rounds
            cs = cs[:i] + cs[i+1:] + (r[1] if r[0] == 'split' else [])
            if r[0] == 'bind':
                b = [(r[1], r[2])]
                cs = [repc(c, b) for c in cs]
                try: bs = [(x, rep(t, b)) for x, t in bs] + b
                except Refuse as e:
                    if e.no == 6 and 'unwrap' in DEV: return 'panic %d unwrap-nondim' % rounds
                    raise
            limited(sum(map(crecs, cs)) + sum(1 + recs(t) for x, t in bs), [t for c in cs for t in ctypes(c)] + [t for x, t in bs])
            rounds += 1
    except Refuse as e:
        return 'nondim %d %s' % (rounds, w(e.info)) if e.no == 6 else 'refused%d %d' % (e.no, rounds)
    rem = [c for c in cs if not (c[0] == 'isdim' and c[1][0] in ('var', 'par'))]
    if rem: return ' '.join(['unsolved %d' % rounds] + list(map(wc, rem)))
    names = sorted({c[1][1] for c in cs})
    return ' '.join(['accepted %d' % rounds] + ['(bind %s %s)' % (nm(x), w(t)) for x, t in bs] + ['(bound %s)' % n for n in names])
# ---------- the judge
def meant(t):
    """a type as the judge compares it: one variable to the power 1 is the variable, and a struct is its name and arguments"""
    h = t[0]
    if h == 'dim':
        o = onevar(t)
        return ('var', o[1]) if o else t
    if h == 'fn':
        return ('fn', tuple(map(meant, t[1])), meant(t[2]))
    if h == 'list':
        return ('list', meant(t[1]))
    return ('struct', t[1], tuple(map(meant, t[2]))) if h == 'struct' else t
def true(c, bounds):
    if c[0] == 'eq':
        return meant(c[1]) == meant(c[2])
    if c[0] == 'scalar':
        return not c[1]
    if c[0] == 'hasfield':
        return c[1][0] == 'struct' and any(n == c[2] and meant(t) == meant(c[3]) for n, t in c[1][3])
    return c[1][0] in ('dim', 'var', 'par') and all(n in bounds for _, n in raw(c[1], True))
def judged(cs, bs, bounds):
    """0 for yes, 11 for no, 7 or 8; 6 is a no"""
    for c in cs:
        try:
            d = repc(c, bs)
        except Refuse as e:
            return 11 if e.no == 6 else e.no
        if crecs(d) > 2048 or any(nest(t) > 64 for t in ctypes(d)):
            return 8
        if not true(d, bounds):
            return 11
    return 0
def found(said):
    """bindings and bounds of an accepted answer"""
    return [(('v', b[1]), rd(b[2])) for b in said[2:] if b[0] == 'bind'], [b[1] for b in said[2:] if b[0] == 'bound']
def confirm(cs):
    """what solving answers, where the judge says yes to it: 11 for its no, or what it refuses, after the rounds of solving"""
    a = solve(cs)
    said = parse(a)
    no = said[0] == 'accepted' and judged(cs, *found(said))
    return 'refused%d %s' % (no, said[1]) if no else a
# ---------- schemes
def wb(bs): return '(bounds%s)' % ''.join(' ' + nm(b) for b in bs)
def quantify(t, bs, names):
    for i, n in enumerate(names):
        b = [(n, ('q', i))]
        t = rep(t, b, True)
        bs = [('q', i) if x == n else x for x in bs]
    limited(1 + recs(t) + len(bs), [t])
    return '(scheme %d %s %s)' % (len(names), w(t), wb(bs))
def inst(t, vs):
    h = t[0]
    if h == 'q': return ('var', vs[t[1]])
    if h == 'dim':
        d = ()
        for c, n, e in t[1]: d = mul(d, ((('v', vs[n]) if c == 'q' else (c, n)) + (e,),))
        r = ('dim', d)
        if 'inst' not in DEV and onevar(r) : return ('var', d[0][1])
        return r
    if h == 'fn': return ('fn', tuple(inst(u, vs) for u in t[1]), inst(t[2], vs))
    if h == 'list': return ('list', inst(t[1], vs))
    if h == 'struct': return ('struct', t[1], tuple(inst(u, vs) for u in t[2]), tuple((n, inst(u, vs)) for n, u in t[3]))
    return t
def rn(x): return ('v', x) if isinstance(x, str) else ('q', int(x[1]))
def rbs(x): return [rn(y) for y in x[1:]]
def rbind(bs): return [(rn(b[1]), rd(b[2])) for b in bs]

def answer(line):
    a = parse(line)
    c, a = a[0], a[1:]
    try:
        if c == 'solve': return solve([rc(x) for x in a])
        if c == 'confirm': return confirm([rc(x) for x in a])
        if c == 'addsolve': return solve([x for x in map(rc, a) if add(x) != 'satisfied'])
        if c == 'add':    # the last to the others
            cs = list(map(rc, a)); r = add(cs[-1])
            if r != 'satisfied': limited(sum(map(crecs, cs)), [])
            return r
        if c == 'satisfy':
            r = rule(rc(a[0]))
            if r[0] == 'bind': return 'bind %s %s' % (nm(r[1]), w(r[2]))
            if r[0] == 'split': return ' '.join(['split'] + list(map(wc, r[1])))
            return r[0]
        if c == 'replace':
            t, b = rd(a[0]), rbind(a[1:]); entry(t, *[u for x, u in b], *[('var', x[1]) for x, u in b]); r = rep(t, b); limited(recs(r), [r])
            return 'ok ' + w(r)
        if c == 'replaceset':
            s, b = [rc(x) for x in a[0][1:]], rbind(a[1:]); entry(*[t for x in s for t in ctypes(x)], *[u for x, u in b], *[('var', x[1]) for x, u in b])
            s = [repc(x, b) for x in s]; limited(sum(map(crecs, s)), [t for x in s for t in ctypes(x)])
            return ' '.join(['ok'] + list(map(wc, s)))
        if c == 'quantify': t = rd(a[0]); entry(t); return 'ok ' + quantify(t, rbs(a[1]), rbs(a[2]))
        if c == 'generalize':
            if a[0][0] == 'scheme': entry(rd(a[0][2])); return 'ok (scheme %s %s %s)' % (a[0][1], w(rd(a[0][2])), wb(rbs(a[0][3])))
            t = rd(a[0][1] if a[0][0] == 'concrete' else a[0])
            entry(t)
            return 'ok ' + quantify(t, [x for x in rbs(a[1]) if contains(t, x, True)], variables(t, True))
        if c == 'instantiate':
            s = a[0]    # a concrete one is `(concrete T)` or T alone
            t = rd(s[2] if s[0] == 'scheme' else s[1] if s[0] == 'concrete' else s); entry(t)
            if s[0] != 'scheme': return 'panic concrete'
            n, vs = int(s[1]), [x for x in a[1][1:]]
            if n != len(vs): return 'panic count'
            t, bs = inst(t, vs), [('v', vs[x[1]]) if x[0] == 'q' else x for x in rbs(s[3])]; limited(recs(t) + len(bs), [t])
            return 'ok %s %s' % (w(t), wb(bs))
        if c in ('contains', 'closed', 'vars'): entry(rd(a[0]))
        if c == 'contains': return str(contains(rd(a[0]), rn(a[1]), a[2] == '1')).lower()
        if c == 'closed': return str(closed(rd(a[0]))).lower()
        if c == 'vars': return ' '.join(['vars'] + [nm(v) for v in variables(rd(a[0]), a[1] == '1')])
        if c == 'exp':
            n = list(map(int, a[1:])); x = F(n[0], n[1]); y = F(n[2], n[3]) if len(n) > 2 else None
            if a[0] in ('div', 'negdiv') and y == 0: raise Refuse(7)
            r = {'new': lambda: x, 'neg': lambda: ex(-x), 'add': lambda: ex(x+y), 'cadd': lambda: ex(x+y), 'mul': lambda: ex(x*y), 'div': lambda: ex(x/y), 'negdiv': lambda: ex(ex(-x)/y)}[a[0]]()
            return 'ok %d %d' % (r.numerator, r.denominator)
        if c in ('prod', 'base'):
            x = rd(a[1])[1]
            r = {'new': lambda: x, 'mul': lambda: mul(x, rd(a[2])[1]), 'div': lambda: div(x, rd(a[2])[1]), 'pow': lambda: power(x, F(int(a[2]), int(a[3]))), 'inv': lambda: inv(x)}[a[0]]()
            return 'ok (dim%s)' % wf(r)
    except Refuse as e: return 'nondim ' + w(e.info) if e.no == 6 else 'refused%d' % e.no
    raise ValueError(line)
if __name__ == '__main__':
    DEV |= set(sys.argv[1:])
    for l in sys.stdin:
        l = l.strip()
        if l and l[0] != '#': print(answer(l))
