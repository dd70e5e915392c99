//! Lists of records over a table of names, read into numbat's values and written from them: the rules' 'Records', read independently of the
//! code that is compared. A list that isn't well formed is None.
use crate::arithmetic::Exponent;
use crate::span::{ByteIndex, Span};
use crate::type_variable::TypeVariable;
use crate::typechecker::constraints::Constraint;
use crate::typechecker::qualified_type::{Bound, Bounds, QualifiedType};
use crate::typechecker::type_scheme::TypeScheme;
use crate::typed_ast::{DType, DTypeFactor, StructInfo, StructKind, Type};
use std::collections::HashMap;
use std::sync::Arc;

pub const TOP: i128 = 2_147_483_647;

#[derive(Clone, Default)]
pub struct Names { pub list: Vec<String>, pub number: HashMap<String, u32> }
impl Names {
    pub fn of(&mut self, n: &str) -> u32 {
        if let Some(k) = self.number.get(n) { return *k; }
        let k = self.list.len() as u32;
        self.list.push(n.to_string());
        self.number.insert(n.to_string(), k);
        k
    }
    pub fn get(&self, k: u32) -> Option<&str> { self.list.get(k as usize).map(|s| s.as_str()) }
    pub fn pool(&self) -> Vec<u8> { self.list.concat().into_bytes() }
    pub fn table(&self) -> Vec<u32> {
        let (mut t, mut e) = (vec![self.list.len() as u32], 0u32);
        for n in &self.list { e += n.len() as u32; t.push(e) }
        t
    }
}

// ---- word 0 of a record: the only place that knows its form

/// word 0 of a record of this kind whose part has so many records
pub fn head(kind: u32, len: usize) -> u32 { kind.wrapping_add(65_536u32.wrapping_mul(len as u32)) }
/// its kind, and the length that it says
pub fn opened(word: u32) -> (u32, usize) { (word % 65_536, (word / 65_536) as usize) }
/// a record, and what its part has behind it
fn part(o: &mut Vec<u32>, r: [u32; 4], inner: impl FnOnce(&mut Vec<u32>)) {
    let at = o.len();
    o.extend(r);
    inner(o);
    o[at] = head(r[0], (o.len() - at) / 4);
}
fn leaf(o: &mut Vec<u32>, r: [u32; 4]) { part(o, r, |_| {}) }
/// a part whose record was read, and whose end is not reached yet
pub struct Begun { at: usize, len: usize }

// ---- writing

pub fn signed(e: &Exponent) -> [u32; 2] { [*e.numer() as i64 as u32, *e.denom() as i64 as u32] }
fn rank(f: &DTypeFactor) -> (u8, u64, &str) {
    match f {
        DTypeFactor::TVar(TypeVariable::Named(n)) => (0, 0, n),
        DTypeFactor::TVar(TypeVariable::Quantified(i)) => (1, *i as u64, ""),
        DTypeFactor::TPar(n) => (2, 0, n),
        DTypeFactor::BaseDimension(n) => (3, 0, n),
    }
}
pub fn stored_order(d: &DType) -> Vec<(DTypeFactor, Exponent)> {
    let mut fs: Vec<_> = d.factors().to_vec();
    fs.sort_by(|a, b| rank(&a.0).cmp(&rank(&b.0)));
    fs
}
/// the factors of a product that passes by value: these are no records
pub fn factors(d: &DType, nm: &mut Names) -> Vec<u32> {
    let mut o = vec![];
    for (f, e) in &stored_order(d) {
        let (k, n) = match f {
            DTypeFactor::TVar(TypeVariable::Named(n)) => (11, nm.of(n)),
            DTypeFactor::TVar(TypeVariable::Quantified(i)) => (15, *i as u32),
            DTypeFactor::TPar(n) => (12, nm.of(n)),
            DTypeFactor::BaseDimension(n) => (13, nm.of(n)),
        };
        let [num, den] = signed(e);
        o.extend([k, n, num, den]);
    }
    o
}
fn product(d: &DType, nm: &mut Names, o: &mut Vec<u32>) {
    let fs = factors(d, nm);
    part(o, [3, fs.len() as u32 / 4, 0, 0], |o| for f in fs.chunks_exact(4) { leaf(o, [f[0], f[1], f[2], f[3]]) });
}
pub fn write(t: &Type, nm: &mut Names, o: &mut Vec<u32>) {
    match t {
        Type::TVar(TypeVariable::Named(n)) => leaf(o, [1, nm.of(n), 0, 0]),
        Type::TVar(TypeVariable::Quantified(i)) => leaf(o, [14, *i as u32, 0, 0]),
        Type::TPar(n) => leaf(o, [2, nm.of(n), 0, 0]),
        Type::Dimension(d) => product(d, nm, o),
        Type::Boolean => leaf(o, [4, 0, 0, 0]),
        Type::String => leaf(o, [5, 0, 0, 0]),
        Type::DateTime => leaf(o, [6, 0, 0, 0]),
        Type::Fn(p, r) => part(o, [7, p.len() as u32, 0, 0], |o| { for t in p { write(t, nm, o) } write(r, nm, o) }),
        Type::List(e) => part(o, [10, 0, 0, 0], |o| write(e, nm, o)),
        Type::Struct(i) => {
            let StructKind::Instance(args) = &i.kind else { unreachable!() };
            let mut fs: Vec<_> = i.fields.iter().collect();
            fs.sort_by(|a, b| a.0.as_bytes().cmp(b.0.as_bytes()));
            part(o, [8, nm.of(&i.name), args.len() as u32, fs.len() as u32], |o| {
                for t in args { write(t, nm, o) }
                for (n, (_, t)) in fs { let k = nm.of(n); part(o, [9, k, 0, 0], |o| write(t, nm, o)) }
            })
        }
    }
}
pub fn write_con(c: &Constraint, nm: &mut Names, o: &mut Vec<u32>) {
    match c {
        Constraint::Equal(a, b) => part(o, [20, 0, 0, 0], |o| { write(a, nm, o); write(b, nm, o) }),
        Constraint::IsDType(t) => part(o, [21, 0, 0, 0], |o| write(t, nm, o)),
        Constraint::EqualScalar(d) => part(o, [22, 0, 0, 0], |o| product(d, nm, o)),
        Constraint::HasField(s, f, t) => { let k = nm.of(f); part(o, [23, k, 0, 0], |o| { write(s, nm, o); write(t, nm, o) }) }
    }
}
pub fn write_binding(v: &TypeVariable, t: &Type, nm: &mut Names, o: &mut Vec<u32>) {
    let TypeVariable::Named(n) = v else { unreachable!() };
    let k = nm.of(n);
    part(o, [24, k, 0, 0], |o| write(t, nm, o))
}
pub fn write_bound(v: &TypeVariable, nm: &mut Names, o: &mut Vec<u32>) {
    match v { TypeVariable::Named(n) => leaf(o, [25, nm.of(n), 0, 0]), TypeVariable::Quantified(i) => leaf(o, [25, *i as u32, 1, 0]) }
}
pub fn bound_var(b: &Bound) -> &TypeVariable { let Bound::IsDim(t) = b; match t { Type::TVar(v) => v, _ => unreachable!() } }
pub fn write_scheme(s: &TypeScheme, nm: &mut Names, o: &mut Vec<u32>) {
    match s {
        TypeScheme::Concrete(t) => part(o, [26, 0, 1, 0], |o| write(t, nm, o)),
        TypeScheme::Quantified(n, q) => part(o, [26, *n as u32, 0, 0], |o| {
            write(&q.inner, nm, o);
            for b in q.bounds.iter() { write_bound(bound_var(b), nm, o) }
        }),
    }
}
pub fn words(f: impl FnOnce(&mut Vec<u32>)) -> Vec<u32> { let mut o = vec![]; f(&mut o); o }

// ---- reading

/// `count`: indices of quantified variables are below it
pub struct Reader<'a> { pub w: &'a [u32], pub at: usize, pub nm: &'a Names, pub count: u64 }
fn span() -> Span { Span { start: ByteIndex(0), end: ByteIndex(0), code_source_id: 0 } }
impl<'a> Reader<'a> {
    pub fn new(w: &'a [u32], nm: &'a Names, count: u64) -> Option<Self> { if w.len() % 4 == 0 { Some(Reader { w, at: 0, nm, count }) } else { None } }
    pub fn end(&self) -> bool { self.at * 4 == self.w.len() }
    /// the four words that stand here
    fn take(&mut self) -> Option<[u32; 4]> {
        let i = self.at * 4;
        if i >= self.w.len() { return None; }
        self.at += 1;
        Some([self.w[i], self.w[i + 1], self.w[i + 2], self.w[i + 3]])
    }
    /// the record that begins a part here; `shut` holds the length that it says against the part's end
    fn begin(&mut self) -> Option<(Begun, [u32; 4])> {
        let at = self.at;
        let [w, a, b, c] = self.take()?;
        let (kind, len) = opened(w);
        Some((Begun { at, len }, [kind, a, b, c]))
    }
    fn shut(&self, p: Begun) -> Option<()> { if p.len == self.at - p.at { Some(()) } else { None } }
    fn alone(&mut self) -> Option<[u32; 4]> { let (p, r) = self.begin()?; self.shut(p)?; Some(r) }
    fn name(&self, k: u32) -> Option<&'a str> { self.nm.get(k) }
    fn index(&self, k: u32) -> Option<usize> { if (k as u64) < self.count { Some(k as usize) } else { None } }
    pub fn factor(&self, r: [u32; 4]) -> Option<(DTypeFactor, Exponent)> {
        let f = match r[0] {
            11 => DTypeFactor::TVar(TypeVariable::new(self.name(r[1])?)),
            12 => DTypeFactor::TPar(self.name(r[1])?.into()),
            13 => DTypeFactor::BaseDimension(self.name(r[1])?.into()),
            15 => DTypeFactor::TVar(TypeVariable::Quantified(self.index(r[1])?)),
            _ => return None,
        };
        Some((f, stored(r[2], r[3])?))
    }
    pub fn product(&mut self, n: u32) -> Option<DType> {
        if n > 64 { return None; }
        let mut v = vec![];
        for _ in 0..n { let r = self.alone()?; v.push(self.factor(r)?) }
        rising(&v)?;
        Some(DType::from_factors(Arc::new(v)))
    }
    /// a product that passes by value: its factors are no records
    pub fn value(&mut self, n: u32) -> Option<DType> {
        if n > 64 { return None; }
        let mut v = vec![];
        for _ in 0..n { let r = self.take()?; v.push(self.factor(r)?) }
        rising(&v)?;
        Some(DType::from_factors(Arc::new(v)))
    }
    fn types(&mut self, n: u32, depth: usize) -> Option<Vec<Type>> {
        let mut v = vec![];
        for _ in 0..n { v.push(self.ty(depth)?) }
        Some(v)
    }
    /// a type that begins here, `depth` deep
    pub fn ty(&mut self, depth: usize) -> Option<Type> {
        if depth > 64 { return None; }
        let (p, [k, a, b, c]) = self.begin()?;
        let none = |x: u32| if x == 0 { Some(()) } else { None };
        let t = match k {
            1 => { none(b)?; none(c)?; Type::TVar(TypeVariable::new(self.name(a)?)) }
            2 => { none(b)?; none(c)?; Type::TPar(self.name(a)?.into()) }
            3 => { none(b)?; none(c)?; Type::Dimension(self.product(a)?) }
            4 | 5 | 6 => { none(a)?; none(b)?; none(c)?; match k { 4 => Type::Boolean, 5 => Type::String, _ => Type::DateTime } }
            7 => { none(b)?; none(c)?; let p = self.types(a, depth + 1)?; Type::Fn(p, Box::new(self.ty(depth + 1)?)) }
            8 => {
                let name = self.name(a)?;
                let args = self.types(b, depth + 1)?;
                let mut fields = indexmap::IndexMap::new();
                let mut last: Option<&str> = None;
                for _ in 0..c {
                    let (p, [k, n, x, y]) = self.begin()?;
                    if k != 9 { return None; }
                    none(x)?; none(y)?;
                    let n = self.name(n)?;
                    if last.is_some_and(|l| l.as_bytes() >= n.as_bytes()) { return None; }
                    last = Some(n);
                    fields.insert(n.into(), (span(), self.ty(depth + 1)?));
                    self.shut(p)?;
                }
                Type::Struct(Box::new(StructInfo { definition_span: span(), name: name.into(), kind: StructKind::Instance(args), fields }))
            }
            10 => { none(a)?; none(b)?; none(c)?; Type::List(Box::new(self.ty(depth + 1)?)) }
            14 => { none(b)?; none(c)?; Type::TVar(TypeVariable::Quantified(self.index(a)?)) }
            _ => return None,
        };
        self.shut(p)?;
        Some(t)
    }
    pub fn con(&mut self) -> Option<Constraint> {
        let (p, [k, a, b, c]) = self.begin()?;
        if b != 0 || c != 0 || (k != 23 && a != 0) { return None; }
        let con = match k {
            20 => { let l = self.ty(1)?; Constraint::Equal(l, self.ty(1)?) }
            21 => Constraint::IsDType(self.ty(1)?),
            22 => match self.ty(1)? { Type::Dimension(d) => Constraint::EqualScalar(d), _ => return None },
            23 => { let f = self.name(a)?; let s = self.ty(1)?; Constraint::HasField(s, f.into(), self.ty(1)?) }
            _ => return None,
        };
        self.shut(p)?;
        Some(con)
    }
    pub fn binding(&mut self) -> Option<(TypeVariable, Type)> {
        let (p, [k, a, b, c]) = self.begin()?;
        if k != 24 || b != 0 || c != 0 { return None; }
        let r = (TypeVariable::new(self.name(a)?), self.ty(1)?);
        self.shut(p)?;
        Some(r)
    }
    pub fn bound(&mut self, indexed: bool) -> Option<TypeVariable> {
        let [k, a, b, c] = self.alone()?;
        if k != 25 || c != 0 { return None; }
        match b { 0 => Some(TypeVariable::new(self.name(a)?)), 1 if indexed => Some(TypeVariable::Quantified(self.index(a)?)), _ => None }
    }
}
/// an exponent in lowest terms and in range
pub fn exponent(n: u32, d: u32) -> Option<Exponent> {
    let (n, d) = (n as i32 as i128, d as i128);
    if n < -TOP || d < 1 || d > TOP { return None; }
    let e = Exponent::new(n, d);
    if *e.numer() == n && *e.denom() == d { Some(e) } else { None }
}
/// one that may be stored
pub fn stored(n: u32, d: u32) -> Option<Exponent> { if n == 0 { None } else { exponent(n, d) } }
pub fn rising(v: &[(DTypeFactor, Exponent)]) -> Option<()> {
    for p in v.windows(2) {
        let (a, b) = (rank(&p[0].0), rank(&p[1].0));
        if (a.0, a.1, a.2.as_bytes()) >= (b.0, b.1, b.2.as_bytes()) { return None; }
    }
    Some(())
}
fn whole<T>(w: &[u32], nm: &Names, mut f: impl FnMut(&mut Reader) -> Option<T>) -> Option<Vec<T>> {
    let mut r = Reader::new(w, nm, 0)?;
    let mut v = vec![];
    while !r.end() { v.push(f(&mut r)?) }
    Some(v)
}
pub fn set(w: &[u32], nm: &Names) -> Option<Vec<Constraint>> { whole(w, nm, |r| r.con()) }
pub fn bindings(w: &[u32], nm: &Names) -> Option<Vec<(TypeVariable, Type)>> { whole(w, nm, |r| r.binding()) }
pub fn bounds(w: &[u32], nm: &Names) -> Option<Vec<TypeVariable>> { whole(w, nm, |r| r.bound(false)) }
pub fn ty(w: &[u32], nm: &Names) -> Option<Type> {
    let mut r = Reader::new(w, nm, 0)?;
    let t = r.ty(1)?;
    if r.end() { Some(t) } else { None }
}
pub fn scheme(w: &[u32], nm: &Names) -> Option<TypeScheme> {
    let mut r = Reader::new(w, nm, 0)?;
    let (p, [k, a, b, c]) = r.begin()?;
    if k != 26 || c != 0 || b > 1 || (b == 1 && a != 0) { return None; }
    r.count = a as u64;
    let t = r.ty(1)?;
    if b == 1 { r.shut(p)?; return if r.end() { Some(TypeScheme::Concrete(t)) } else { None }; }
    let mut bs = vec![];
    while !r.end() { bs.push(Bound::IsDim(Type::TVar(r.bound(true)?))) }
    r.shut(p)?;
    Some(TypeScheme::Quantified(a as usize, QualifiedType::new(t, bs.into_iter().collect())))
}

// ---- sizes, and names that are both variable and parameter

#[derive(Default, Clone, Copy)]
pub struct Size { pub records: usize, pub nest: usize, pub factors: usize, pub wide: bool }
impl Size { pub fn over(&self) -> bool { self.records > 2048 || self.nest > 64 || self.factors > 64 } }
fn size_dim(d: &DType, z: &mut Size) {
    z.records += 1 + d.factors().len();
    z.factors = z.factors.max(d.factors().len());
    for (_, e) in d.factors() { if e.numer().abs() > TOP || *e.denom() > TOP { z.wide = true } }
}
pub fn size(t: &Type, depth: usize, z: &mut Size) {
    z.nest = z.nest.max(depth);
    match t {
        Type::Dimension(d) => size_dim(d, z),
        Type::Fn(p, r) => { z.records += 1; for t in p { size(t, depth + 1, z) } size(r, depth + 1, z) }
        Type::List(e) => { z.records += 1; size(e, depth + 1, z) }
        Type::Struct(i) => {
            z.records += 1;
            if let StructKind::Instance(a) = &i.kind { for t in a { size(t, depth + 1, z) } }
            for (_, (_, t)) in &i.fields { z.records += 1; size(t, depth + 1, z) }
        }
        _ => z.records += 1,
    }
}
pub fn size_con(c: &Constraint, z: &mut Size) {
    z.records += 1;
    match c {
        Constraint::Equal(a, b) | Constraint::HasField(a, _, b) => { size(a, 1, z); size(b, 1, z) }
        Constraint::IsDType(t) => size(t, 1, z),
        Constraint::EqualScalar(d) => { z.nest = z.nest.max(1); size_dim(d, z) }
    }
}
#[derive(Default)]
pub struct Opens { pub vars: std::collections::HashSet<String>, pub pars: std::collections::HashSet<String> }
impl Opens {
    pub fn mixed(&self) -> bool { self.vars.intersection(&self.pars).next().is_some() }
    pub fn dim(&mut self, d: &DType) {
        for (f, _) in d.factors() {
            match f {
                DTypeFactor::TVar(TypeVariable::Named(n)) => { self.vars.insert(n.to_string()); }
                DTypeFactor::TPar(n) => { self.pars.insert(n.to_string()); }
                _ => {}
            }
        }
    }
    pub fn ty(&mut self, t: &Type) {
        match t {
            Type::TVar(TypeVariable::Named(n)) => { self.vars.insert(n.to_string()); }
            Type::TPar(n) => { self.pars.insert(n.to_string()); }
            Type::Dimension(d) => self.dim(d),
            Type::Fn(p, r) => { for t in p { self.ty(t) } self.ty(r) }
            Type::List(e) => self.ty(e),
            Type::Struct(i) => {
                if let StructKind::Instance(a) = &i.kind { for t in a { self.ty(t) } }
                for (_, (_, t)) in &i.fields { self.ty(t) }
            }
            _ => {}
        }
    }
    pub fn con(&mut self, c: &Constraint) {
        match c {
            Constraint::Equal(a, b) | Constraint::HasField(a, _, b) => { self.ty(a); self.ty(b) }
            Constraint::IsDType(t) => self.ty(t),
            Constraint::EqualScalar(d) => self.dim(d),
        }
    }
}
