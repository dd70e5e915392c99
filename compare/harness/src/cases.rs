//! Random requests. The kinds: small (few names that often meet), rich (many names, some that differ little), structs (arguments and fields that don't
//! agree), wide (powers near the ends of the range), shared (names that are variable and parameter), limits (sizes near the limits),
//! damaged (words, lengths and tables that are wrong in one place or two), names (tables and names alone), lengths (one record of a good request says a
//! false length, where records carry it).
use crate::arithmetic::Exponent;
use crate::random::Random;
use crate::records::{self, Names};
use crate::span::{ByteIndex, Span};
use crate::type_variable::TypeVariable;
use crate::typechecker::constraints::{Constraint, access};
use crate::typechecker::qualified_type::{Bound, QualifiedType};
use crate::typechecker::type_scheme::TypeScheme;
use crate::typed_ast::{DType, DTypeFactor, StructInfo, StructKind, Type};
use crate::wire::Request;
use std::sync::Arc;

pub struct Gen { pub r: Random, v: Vec<String>, p: Vec<String>, b: Vec<String>, f: Vec<String>, structs: bool, wide: bool, rich: bool, kind: String, pub calls: u64 }
fn list(s: &[&str]) -> Vec<String> { s.iter().map(|s| s.to_string()).collect() }
fn span() -> Span { Span { start: ByteIndex(0), end: ByteIndex(0), code_source_id: 0 } }
const PLAIN: [(i128, i128); 17] = [(1, 1), (1, 1), (1, 1), (1, 1), (1, 1), (1, 1), (-1, 1), (-1, 1), (-1, 1), (2, 1), (2, 1), (-2, 1), (1, 2), (-1, 2), (-3, 2), (3, 1), (2, 3)];
const FAR: [(i128, i128); 10] = [(2147483647, 1), (-2147483647, 1), (1, 2147483647), (-1, 2147483647), (46341, 1), (1, 46341), (65536, 65537), (1073741824, 1), (2147483646, 2147483647), (46340, 46341)];

impl Gen {
    pub fn new(kind: &str, seed: u64, calls: u64) -> Self {
        let mut g = Gen { r: Random::new(seed ^ kind.bytes().fold(7u64, |a, b| a.wrapping_mul(31).wrapping_add(b as u64))), v: list(&["x", "y", "z"]), p: list(&["a", "b"]), b: list(&["L", "M"]), f: list(&["f", "g"]),
            structs: false, wide: false, rich: false, kind: kind.to_string(), calls };
        g.setting(kind);
        g
    }
    fn setting(&mut self, kind: &str) {
        match kind {
            "rich" => {
                self.rich = true;
                self.v = list(&["x", "x1", "X", "T0", "y", "xx", "é", "v_with_a_long_name_of_exactly_forty_eight_bytes_"]);
                self.p = list(&["a", "A", "T1", "w", "v_with_a_long_name_of_exactly_forty_eight_bytes-"]);
                self.b = list(&["L", "l", "Length", "x", "a", "Ω"]);
                self.f = list(&["f", "g", "x", "F", "ff"]);
            }
            "structs" => self.structs = true,
            "wide" => self.wide = true,
            "shared" => self.p = list(&["a", "b", "x", "y"]),
            _ => {}
        }
    }
    fn power(&mut self) -> Exponent {
        let (n, d) = if self.wide && self.r.chance(40) { *self.r.pick(&FAR) } else { *self.r.pick(&PLAIN) };
        Exponent::new(n, d)
    }
    fn var(&mut self) -> String { self.r.pick(&self.v).clone() }
    fn par(&mut self) -> String { self.r.pick(&self.p).clone() }
    fn any(&mut self) -> String { if self.r.chance(60) { self.var() } else { self.par() } }
    fn product(&mut self, q: usize) -> DType {
        let k = *self.r.pick(if self.rich { &[0usize, 1, 1, 2, 2, 3, 4, 6] } else { &[0usize, 1, 1, 1, 2, 2, 2, 3] });
        let mut fs = vec![];
        for _ in 0..k {
            let f = match self.r.below(if q > 0 { 12 } else { 9 }) {
                0..=4 => DTypeFactor::TVar(TypeVariable::new(self.var().as_str())),
                5 | 6 => DTypeFactor::TPar(self.par().as_str().into()),
                7 | 8 => DTypeFactor::BaseDimension(self.r.pick(&self.b).as_str().into()),
                _ => DTypeFactor::TVar(TypeVariable::Quantified(self.r.below(q))),
            };
            if !fs.iter().any(|(g, _)| *g == f) { let e = self.power(); fs.push((f, e)) }
        }
        DType::from_factors(Arc::new(fs))
    }
    fn dim(&mut self, q: usize) -> Type {
        if self.r.chance(75) { Type::Dimension(self.product(q)) } else { Type::Dimension(DType::from_factors(Arc::new(vec![(DTypeFactor::TVar(TypeVariable::new(self.var().as_str())), Exponent::new(1, 1))]))) }
    }
    fn instance(&mut self, name: &str, args: Vec<Type>, fields: Vec<(String, Type)>) -> Type {
        let mut fs = fields;
        fs.sort_by(|a, b| a.0.as_bytes().cmp(b.0.as_bytes()));
        fs.dedup_by(|a, b| a.0 == b.0);
        Type::Struct(Box::new(StructInfo { definition_span: span(), name: name.into(), kind: StructKind::Instance(args), fields: fs.into_iter().map(|(n, t)| (n.as_str().into(), (span(), t))).collect() }))
    }
    fn object(&mut self, d: usize, q: usize) -> Type {
        let m = if self.structs { 45 + self.r.below(55) } else { self.r.below(100) };
        let (f, g) = (self.r.pick(&self.f).clone(), self.r.pick(&self.f).clone());
        let (t, u) = (self.ty(d - 1, q), self.ty(d - 1, q));
        match m {
            0..=44 => self.instance("P", vec![t.clone()], vec![(f, t)]),
            45..=59 => self.instance("P", vec![t], vec![]),
            60..=69 => self.instance("Q", vec![t.clone(), u.clone()], vec![(f, t), (g, u)]),
            70..=79 => { let n = *self.r.pick(&["P", "Q"]); self.instance(n, vec![], vec![]) }
            80..=89 => self.instance("Q", vec![], vec![(f, t), (g, u)]),
            _ => self.instance("P", vec![t], vec![(f, u)]),
        }
    }
    pub fn ty(&mut self, d: usize, q: usize) -> Type {
        let m = self.r.below(100);
        if q > 0 && m < 25 { return Type::TVar(TypeVariable::Quantified(self.r.below(q))); }
        if m < 30 { return Type::TVar(TypeVariable::new(self.var().as_str())); }
        if m < 36 { return Type::TPar(self.par().as_str().into()); }
        if self.structs && d > 0 && m > 50 && m < 76 { return self.object(d, q); }
        if m < 62 { return self.dim(q); }
        if m < 76 || d == 0 { return self.r.pick(&[Type::Boolean, Type::Boolean, Type::String, Type::DateTime]).clone(); }
        if m < 84 { return Type::List(Box::new(self.ty(d - 1, q))); }
        if m < if self.structs { 86 } else { 92 } {
            let n = *self.r.pick(&[0, 1, 1, 2]);
            let p = (0..n).map(|_| self.ty(d - 1, q)).collect();
            return Type::Fn(p, Box::new(self.ty(d - 1, q)));
        }
        self.object(d, q)
    }
    pub fn con(&mut self) -> Constraint {
        match self.r.below(100) {
            0..=18 => Constraint::Equal(self.dim(0), self.dim(0)),
            19..=27 => {
                let (a, b) = (self.ty(1, 0), self.ty(1, 0));
                match self.r.below(3) {
                    0 => Constraint::Equal(Type::List(Box::new(a)), Type::List(Box::new(b))),
                    1 => { let (c, d) = (self.ty(1, 0), self.ty(1, 0)); Constraint::Equal(Type::Fn(vec![a], Box::new(c)), Type::Fn(vec![b], Box::new(d))) }
                    _ => Constraint::Equal(self.object(2, 0), self.object(2, 0)),
                }
            }
            28..=54 => Constraint::Equal(self.ty(2, 0), self.ty(2, 0)),
            55..=71 => { let t = if self.r.chance(50) { self.ty(1, 0) } else { self.dim(0) }; Constraint::IsDType(t) }
            72..=89 => Constraint::EqualScalar(self.product(0)),
            _ => { let s = if self.r.chance(70) { self.object(2, 0) } else { self.ty(2, 0) }; let f = self.r.pick(&self.f).clone(); Constraint::HasField(s, f.as_str().into(), self.ty(1, 0)) }
        }
    }
    fn cons(&mut self) -> Vec<Constraint> { let n = *self.r.pick(&[1, 1, 2, 2, 2, 3, 3, 4, 5, 6]); (0..n).map(|_| self.con()).collect() }

    // ---- near the limits
    fn nest(&mut self, n: usize, t: Type) -> Type {
        (0..n).fold(t, |t, i| match i % 3 { 0 | 1 => Type::List(Box::new(t)), _ => Type::Fn(vec![], Box::new(t)) })
    }
    fn long(&mut self, n: usize, off: usize, var: Option<&str>) -> DType {
        let mut fs: Vec<_> = (0..n).map(|i| { let e = self.power(); (DTypeFactor::BaseDimension(format!("D{:03}", i + off).as_str().into()), e) }).collect();
        if let Some(v) = var { fs.push((DTypeFactor::TVar(TypeVariable::new(v)), self.power())) }
        DType::from_factors(Arc::new(fs))
    }
    fn tv(&self, n: &str) -> Type { Type::TVar(TypeVariable::new(n)) }
    fn large(&mut self) -> Vec<Constraint> {
        let mut cs = vec![];
        match self.r.below(6) {
            0 => {
                // each variable twice in the next: doubling
                let n = 7 + self.r.below(6);
                let m = self.r.below(3);
                for i in 0..n {
                    let u = self.tv(&format!("x{:02}", i + 1));
                    let t = match m { 0 => Type::Fn(vec![u.clone()], Box::new(u)), 1 => self.instance("S", vec![u.clone()], vec![("f".into(), u)]), _ => self.instance("S", vec![u.clone(), u], vec![]) };
                    cs.push(Constraint::Equal(self.tv(&format!("x{i:02}")), t));
                }
                if self.r.chance(50) { cs.reverse() }
            }
            1 => {
                let (n, m) = (28 + self.r.below(9), 28 + self.r.below(9));
                let leaf = match self.r.below(3) { 0 => self.tv("z"), 1 => Type::Boolean, _ => Type::Dimension(self.long(0, 0, Some("z"))) };
                let y = self.tv("y");
                cs.push(Constraint::Equal(self.tv("x"), self.nest(n, y)));
                cs.push(Constraint::Equal(self.tv("y"), self.nest(m, leaf)));
                if self.r.chance(50) { cs.reverse() }
            }
            2 => {
                let (n, m) = (28 + self.r.below(9), 28 + self.r.below(9));
                let off = *self.r.pick(&[0, 5, 40, 40, 40]);
                cs.push(Constraint::Equal(self.tv("x"), Type::Dimension(self.long(n, 0, None))));
                let b = self.long(m, off, Some("x"));
                cs.push(if self.r.chance(50) { Constraint::EqualScalar(b) } else { Constraint::Equal(self.tv("z"), Type::Dimension(b)) });
                if self.r.chance(50) { cs.reverse() }
            }
            3 => {
                // a function of many parameters, one of which grows
                let n = 990 + self.r.below(60);
                let y = self.tv("y");
                cs.push(Constraint::Equal(self.tv("x"), Type::Fn(vec![y.clone(); n], Box::new(y))));
                cs.push(Constraint::Equal(self.tv("y"), Type::List(Box::new(Type::Boolean))));
                if self.r.chance(50) { cs.reverse() }
            }
            4 => {
                // many equalities of variables: many rounds
                let n = 100 + self.r.below(500);
                for _ in 0..n { let (a, b) = (self.r.below(250), self.r.below(250)); cs.push(Constraint::Equal(self.tv(&format!("v{a:03}")), self.tv(&format!("v{b:03}")))) }
            }
            _ => {
                // a set of about 2,048 records
                let mut n = 0;
                while n < 2040 { let c = self.con(); let mut z = records::Size::default(); records::size_con(&c, &mut z); n += z.records; cs.push(c) }
            }
        }
        cs
    }

    // ---- requests
    fn request(&mut self, call: u32) -> (Request, Names) {
        let mut nm = Names::default();
        // the numbers of names don't follow their order
        let mut all: Vec<String> = self.v.iter().chain(&self.p).chain(&self.b).cloned().collect();
        all.sort();
        all.dedup();
        self.r.shuffle(&mut all);
        let k = self.r.below(all.len() + 1);
        for n in &all[..k] { nm.of(n); }
        let limits = self.kind == "limits";
        let mut q = Request::new(call);
        let l = &mut [vec![], vec![], vec![], vec![]];
        match call {
            5..=8 => {
                for i in 0..2 { let e = if self.r.chance(8) { Exponent::new(0, 1) } else { self.power() }; l[0].extend(records::signed(&e)); let _ = i; }
                if self.r.chance(3) { let i = self.r.below(4); l[0][i] = self.r.next() as u32 }
            }
            9..=12 => {
                let n = 2;
                let (x, y) = if limits { let (n, m, o) = (self.r.below(65), self.r.below(65), self.r.below(70)); (self.long(n, 0, None), self.long(m, o, None)) } else { (self.product(n), self.product(n)) };
                l[0] = records::factors(&x, &mut nm);
                q.x = l[0].len() as u32 / 4;
                if call == 12 { let e = if self.r.chance(10) { Exponent::new(0, 1) } else { self.power() }; l[1].extend(records::signed(&e)) } else if call != 11 { l[1] = records::factors(&y, &mut nm); q.y = l[1].len() as u32 / 4 }
            }
            30 => {
                let n = *self.r.pick(&[0, 1, 2, 2, 2, 3, 3, 4, 5, 8, 63, 64, 65]);
                for _ in 0..n {
                    let cs = if limits && self.r.chance(20) { self.large() } else if n > 60 { let n = self.r.below(3); (0..n).map(|_| self.con()).collect() } else { self.cons() };
                    let at = l[0].len();
                    for c in &cs { records::write_con(c, &mut nm, &mut l[0]) }
                    // a set that is refused doesn't stop the others
                    if self.r.chance(6) { l[0].extend([99, 0, 0, 0]) }
                    l[1].push((l[0].len() - at) as u32 / 4);
                }
                if n > 0 && self.r.chance(4) { let i = self.r.below(n); l[1][i] = l[1][i].wrapping_add(*self.r.pick(&[1, 2, 1 << 30, u32::MAX])) }
                // what is lent is sometimes more than asked, or too short by one word
                q.x = 4 * n as u32 + *self.r.pick(&[0, 0, 0, 0, 1, 4, 9]);
                if q.x > 0 && self.r.chance(3) { q.x = 4 * n as u32 - (n > 0) as u32 }
                q.result.1 = q.x + 8192 * n as u32 + *self.r.pick(&[0, 0, 0, 0, 1, 500]);
                if self.r.chance(3) { q.result.1 -= 1.min(q.result.1) }
            }
            13 | 23 | 29 | 32 => { let cs = if limits { self.large() } else { self.cons() }; for c in &cs { records::write_con(c, &mut nm, &mut l[0]) } }
            14 | 17 | 18 | 19 => {
                let t = if limits { let t = self.ty(2, 0); let n = 55 + self.r.below(12); self.nest(n, t) } else { self.ty(2, 0) };
                records::write(&t, &mut nm, &mut l[0]);
                if call == 17 { let n = self.any(); q.x = nm.of(&n) }
                q.y = self.r.below(2) as u32;
            }
            15 | 26 | 27 => {
                let n = *self.r.pick(&[0usize, 1, 1, 2, 3]);
                let concrete = self.r.chance(if call == 26 { 85 } else { 5 });
                let mut t = self.ty(2, if concrete { 0 } else { n });
                if limits { let k = 55 + self.r.below(12); t = self.nest(k, t) }
                let s = if concrete { TypeScheme::Concrete(t) } else {
                    let bs: Vec<_> = (0..self.r.below(3)).map(|_| if n > 0 && self.r.chance(70) { TypeVariable::Quantified(self.r.below(n)) } else { TypeVariable::new(self.var().as_str()) }).collect();
                    TypeScheme::Quantified(n, QualifiedType::new(t, bs.into_iter().map(|v| Bound::IsDim(Type::TVar(v))).collect()))
                };
                records::write_scheme(&s, &mut nm, &mut l[0]);
                if call == 26 { for _ in 0..self.r.below(4) { let v = self.any(); records::write_bound(&TypeVariable::new(v.as_str()), &mut nm, &mut l[1]) } }
                if call == 27 { let k = if self.r.chance(93) { if concrete { 0 } else { n } } else { self.r.below(4) }; for _ in 0..k { let v = if self.r.chance(70) { self.var() } else { self.r.pick(&["u", "w"]).to_string() }; l[1].push(nm.of(&v)) } }
            }
            20 => {
                for c in &if limits { self.large() } else { let mut c = self.cons(); c.pop(); c } { records::write_con(c, &mut nm, &mut l[0]) }
                let c = self.con();
                records::write_con(&c, &mut nm, &mut l[1]);
                q.x = l[0].len() as u32 / 4;
            }
            16 | 21 | 22 => {
                if call == 21 {
                    let t = if !limits { self.ty(2, 0) } else {
                        match self.r.below(3) {
                            0 => { let t = self.ty(1, 0); let n = 55 + self.r.below(9); self.nest(n, t) }
                            1 => { let n = 990 + self.r.below(60); let y = self.tv("y"); Type::Fn(vec![y.clone(); n], Box::new(y)) }
                            _ => { let n = self.r.below(64); Type::Dimension(self.long(n, 0, Some("x"))) }
                        }
                    };
                    records::write(&t, &mut nm, &mut l[0]);
                } else if call == 22 { let cs = if limits { self.large() } else { let n = self.r.below(4); (0..n).map(|_| self.con()).collect() }; for c in &cs { records::write_con(c, &mut nm, &mut l[0]) } }
                let k = if call == 16 { 0 } else { 1 };
                for _ in 0..*self.r.pick(&[0, 1, 1, 1, 2, 3]) {
                    let v = self.var();
                    let t = if limits && self.r.chance(50) { let n = self.r.below(66); Type::Dimension(self.long(n, 20, None)) } else { self.ty(1, 0) };
                    records::write_binding(&TypeVariable::new(v.as_str()), &t, &mut nm, &mut l[k]);
                }
            }
            28 => {
                let cs = self.cons();
                for c in &cs { records::write_con(c, &mut nm, &mut l[0]) }
                // numbat's own answer, sometimes with a mistake, or bindings by chance
                let mut set = access::set_of(cs);
                let own = std::panic::catch_unwind(std::panic::AssertUnwindSafe(|| set.solve().ok())).ok().flatten();
                let (mut bs, mut bounds) = match own {
                    Some((s, b)) if self.r.chance(75) => (s.0, b.into_iter().map(|v| crate::text::var(&v)).collect::<Vec<_>>()),
                    _ => ((0..self.r.below(3)).map(|_| (TypeVariable::new(self.var().as_str()), self.ty(1, 0))).collect(), (0..self.r.below(3)).map(|_| self.any()).collect()),
                };
                if !bs.is_empty() && self.r.chance(15) { let i = self.r.below(bs.len()); bs.remove(i); }
                if !bs.is_empty() && self.r.chance(10) { let i = self.r.below(bs.len()); bs[i].1 = self.ty(1, 0) }
                if self.r.chance(15) { let n = self.any(); bounds.push(n) }
                if !self.r.chance(3) { bounds.sort(); bounds.dedup() }
                for n in &bounds { records::write_bound(&TypeVariable::new(n.as_str()), &mut nm, &mut l[3]) }
                self.r.shuffle(&mut bs);
                if !self.r.chance(3) { bs.dedup_by(|a, b| a.0 == b.0) }
                for (v, t) in &bs {
                    // records that no entry points to are not looked at
                    if self.r.chance(20) { l[2].extend([99, 7, 7, 7]) }
                    l[1].extend([nm.of(&crate::text::var(v)), l[2].len() as u32 / 4]);
                    records::write(t, &mut nm, &mut l[2]);
                }
            }
            25 => {
                let t = if limits { let t = self.ty(2, 0); let n = 55 + self.r.below(12); self.nest(n, t) } else { self.ty(2, 0) };
                records::write(&t, &mut nm, &mut l[0]);
                for _ in 0..self.r.below(4) { let v = self.any(); records::write_bound(&TypeVariable::new(v.as_str()), &mut nm, &mut l[1]) }
                for _ in 0..self.r.below(5) { let v = self.any(); l[2].push(nm.of(&v)) }
            }
            _ => {}
        }
        q.lists = std::mem::take(l);
        q.pool = nm.pool();
        q.table = nm.table();
        (q, nm)
    }
    const CALLS: [u32; 40] = [23, 23, 23, 23, 23, 23, 23, 23, 23, 23, 23, 23, 20, 20, 20, 21, 21, 21, 22, 22, 22, 17, 18, 19, 5, 6, 7, 8, 9, 10, 11, 12, 13, 25, 25, 26, 26, 27, 27, 23];
    fn call(&mut self) -> u32 {
        if self.calls >> 28 & 1 == 1 && self.r.chance(10) { return 28; }
        if self.calls >> 29 & 1 == 1 && self.r.chance(2) { return 29; }
        if self.calls >> 30 & 1 == 1 && self.r.chance(2) { return 30; }
        if self.calls >> 32 & 1 == 1 && self.r.chance(10) { return 32; }
        loop {
            let c = *self.r.pick(&Self::CALLS);
            if self.calls >> c & 1 == 1 { return c; }
        }
    }
    pub fn next(&mut self) -> Request {
        match self.kind.as_str() {
            "names" => self.naming(),
            "damaged" => self.damaged(),
            "lengths" => self.false_length(),
            _ => { let c = self.call(); let (q, _) = self.request(c); if q.table.len() > 257 || q.pool.len() > 8192 || q.lists.iter().any(|l| l.len() > 10240) { return self.next(); } q }
        }
    }
    /// which lists of a call are records
    pub fn record_lists(call: u32) -> &'static [usize] {
        match call { 13..=19 | 23 | 27 | 29 | 30 | 32 => &[0], 20 | 21 | 22 | 25 | 26 => &[0, 1], 28 => &[0, 2, 3], _ => &[] }
    }
    fn change_length(&mut self, l: &mut [u32]) {
        let i = self.r.below(l.len() / 4) * 4;
        let by = *self.r.pick(&[1u32, 1, u32::MAX, u32::MAX, 2, 7, 2048, 65535]);
        l[i] = l[i].wrapping_add(by.wrapping_mul(65_536));
    }
    fn false_length(&mut self) -> Request {
        let k = *self.r.pick(&["small", "small", "rich", "structs", "wide"]);
        let mut g = Gen::new(k, self.r.next(), self.calls);
        let c = if self.r.chance(30) { *self.r.pick(&[13, 14, 15, 16]) } else { g.call() };
        let (mut q, _) = g.request(c);
        let full: Vec<usize> = Self::record_lists(c).iter().copied().filter(|i| q.lists[*i].len() > 3).collect();
        if full.is_empty() { return self.false_length(); }
        let i = *self.r.pick(&full);
        let mut l = std::mem::take(&mut q.lists[i]);
        self.change_length(&mut l);
        q.lists[i] = l;
        q
    }
    fn naming(&mut self) -> Request {
        let mut q = Request::new(*self.r.pick(&[1, 2, 3, 3, 3, 3, 4]));
        let letters = |r: &mut Random, n: usize| -> Vec<u8> { (0..n).map(|_| *r.pick(&[b'a', b'b', b'a', 0, 255, b'z'])).collect() };
        let mut names: Vec<Vec<u8>> = vec![];
        let n = *self.r.pick(&[0, 1, 2, 3, 5, 8, 20, 169, 170, 171, 254, 255, 256]);
        for i in 0..n {
            let len = if n > 100 && n < 200 { 48 } else { 1 + *self.r.pick(&[0, 0, 1, 2, 3, 31, 46, 47]) };
            let len = if n > 200 { 1 + len % 32 } else { len };
            let mut s = letters(&mut self.r, len);
            let mut k = i;
            for b in s.iter_mut().rev() { if k > 0 || n < 9 { *b = b'c' + (k % 23) as u8; k /= 23 } }
            if !names.contains(&s) && names.iter().map(|n| n.len()).sum::<usize>() + s.len() <= 8192 { names.push(s) }
        }
        q.pool = names.concat();
        q.table = vec![names.len() as u32];
        let mut e = 0;
        for n in &names { e += n.len() as u32; q.table.push(e) }
        q.x = if self.r.chance(80) { self.r.below(names.len() + 2) as u32 } else { self.r.next() as u32 };
        let pick = |g: &mut Self, names: &Vec<Vec<u8>>| -> Vec<u32> {
            let mut s = if !names.is_empty() && g.r.chance(40) { g.r.pick(names).clone() } else { let n = *g.r.pick(&[0, 1, 1, 2, 3, 20, 32, 47, 48, 49, 60]); letters(&mut g.r, n) };
            if g.r.chance(20) && !s.is_empty() { s.pop(); }
            if g.r.chance(10) { s.push(b'a') }
            s.iter().map(|b| *b as u32).collect()
        };
        q.lists[0] = pick(self, &names);
        q.lists[1] = pick(self, &names);
        if self.r.chance(25) { self.damage_table(&mut q) }
        if self.r.chance(10) { self.shorten(&mut q) }
        q
    }
    fn damage_table(&mut self, q: &mut Request) {
        let i = self.r.below(q.table.len());
        match self.r.below(5) {
            0 => q.table[i] = self.r.next() as u32,
            1 => q.table[i] = q.table[i].wrapping_add(1),
            2 => q.table[i] = q.table[i].wrapping_sub(1),
            3 => q.table[0] = *self.r.pick(&[0, 256, 257, 8192, u32::MAX]),
            _ => if !q.pool.is_empty() { let i = self.r.below(q.pool.len()); q.pool[i] = *self.r.pick(&[b'a', b'x', b'y', b'L']) },
        }
    }
    fn shorten(&mut self, q: &mut Request) {
        match self.r.below(6) {
            0 => { q.whole = false; q.pool.resize(*self.r.pick(&[0, 8188, 8191, 8192, 8193, 9000]), 7); q.table.resize(257, 0) }
            1 => { q.whole = false; q.pool.resize(8192, 0); q.table.resize(*self.r.pick(&[1, 256, 257, 258, 300]), 9) }
            2 => q.result.1 = *self.r.pick(&[0, 1, 8191, 8192, 8193, 9000]),
            3 => q.work.1 = *self.r.pick(&[0, 16383, 16384, 16385, 20000]),
            4 => q.work.0 = 0,
            _ => { q.table.resize(300, 3); q.pool.resize(9000, 5) }
        }
    }
    fn damaged(&mut self) -> Request {
        let k = *self.r.pick(&["small", "small", "rich", "structs", "wide", "limits"]);
        let mut g = Gen::new(k, self.r.next(), self.calls);
        let c = loop { let c = if self.r.chance(30) { *self.r.pick(&[13, 14, 15, 16, 1, 24]) } else { g.call() }; if self.calls >> c & 1 == 1 || c == 1 { break c } };
        let (mut q, nm) = g.request(c);
        if q.table.len() > 257 || q.pool.len() > 8192 { return self.damaged(); }
        for _ in 0..*self.r.pick(&[0, 1, 1, 1, 2]) {
            let full: Vec<usize> = (0..4).filter(|i| !q.lists[*i].is_empty()).collect();
            let m = self.r.below(100);
            if m < 60 && !full.is_empty() {
                let l = &mut q.lists[*self.r.pick(&full)];
                let i = self.r.below(l.len());
                match self.r.below(11) {
                    0 => l[i] = self.r.below(30) as u32,
                    1 => l[i] = l[i].wrapping_add(1),
                    2 => l[i] = l[i].wrapping_sub(1),
                    3 => l[i] = self.r.next() as u32,
                    4 => l[i] = *self.r.pick(&[0, 2147483647, 2147483648, 2147483649, 4294967295, 256, 64, 65]),
                    5 => { l.pop(); }
                    6 => { l.truncate(i / 4 * 4) }
                    7 => { let w: Vec<u32> = l[i / 4 * 4..(i / 4 * 4 + 4).min(l.len())].to_vec(); l.extend(w) }
                    8 => { let j = self.r.below(l.len()); l.swap(i, j) }
                    _ => if l.len() > 3 { let j = (i / 4 * 4).min(l.len() - 4); l[j] = l[j].wrapping_add(*self.r.pick(&[65_536, 0u32.wrapping_sub(65_536), 131_072])) },
                }
            } else if m < 75 { self.shorten(&mut q) } else if m < 88 { self.damage_table(&mut q) } else if m < 93 { q.x = self.r.next() as u32 } else if m < 96 && !full.is_empty() {
                let l = &mut q.lists[*self.r.pick(&full)];
                let n = *self.r.pick(&[8188, 8189, 8192, 8193, 8195, 8196, 10240]);
                let w = l[..4.min(l.len())].to_vec();
                while l.len() + 4 <= n { let k = w.len().min(n - l.len()); l.extend(&w[..k]) }
                l.resize(n, 0);
            } else { q.y = self.r.next() as u32 }
        }
        let _ = nm;
        if q.table.len() > 512 || q.pool.len() > 9216 || q.lists.iter().any(|l| l.len() > 10240) || q.pool.len() + 4 * (q.table.len() + q.lists.iter().map(|l| l.len()).sum::<usize>()) > 98000 { return self.damaged(); }
        q
    }
}
