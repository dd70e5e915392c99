//! What a request should be answered: by our own reading of the rules where numbat has no counterpart (well-formedness, names, buffers), else by numbat.
use crate::arithmetic::Exponent;
use crate::records::{self, Names, Opens, Reader, Size};
use crate::text;
use crate::type_variable::TypeVariable;
use crate::typechecker::constraints::access::{self, Progress, Stop};
use crate::typechecker::constraints::{Constraint, ConstraintSet, ConstraintSolverError, TrivialResolution};
use crate::typechecker::qualified_type::{Bound, QualifiedType};
use crate::typechecker::substitutions::{ApplySubstitution, Substitution};
use crate::typechecker::type_scheme::{TypeScheme, access::instantiate_with};
use crate::typed_ast::{DType, DTypeFactor, StructKind, Type};
use crate::wire::{Reply, Request};
use std::cell::{Cell, RefCell};
use std::panic::{AssertUnwindSafe, catch_unwind};
use std::sync::Arc;

thread_local! { static SAID: RefCell<String> = const { RefCell::new(String::new()) }; }
pub fn quiet_panics() {
    std::panic::set_hook(Box::new(|i| {
        let m = if let Some(s) = i.payload().downcast_ref::<&str>() { s.to_string() } else if let Some(s) = i.payload().downcast_ref::<String>() { s.clone() } else { "?".into() };
        SAID.with(|c| *c.borrow_mut() = format!("{m} at {}", i.location().map(|l| l.to_string()).unwrap_or_default()));
    }));
}
/// the result, or what the panic said
fn guard<T>(f: impl FnOnce() -> T) -> Result<T, String> { catch_unwind(AssertUnwindSafe(f)).map_err(|_| SAID.with(|m| m.borrow().clone())) }

/// Where the answer comes from: our reading of the paper; numbat; or numbat with a rule for the difference of this number
#[derive(Clone, Copy, PartialEq, Debug)]
pub enum From { Paper, Numbat, Rule(u32) }
pub struct Expected {
    pub reply: Reply,
    pub from: From,
    /// the case as text, for the model; empty where the model isn't asked
    pub text: String,
    /// numbat was stopped: it ran on, or grew too large
    pub stopped: Option<&'static str>,
}
fn refuse(n: u32) -> Reply { Reply { refusal: n, ..Default::default() } }
fn say(value: u32, more: u32, words: Vec<u32>) -> Reply { Reply { value, more, words, ..Default::default() } }
fn paper(reply: Reply) -> Expected { Expected { reply, from: From::Paper, text: String::new(), stopped: None } }
fn numbat(reply: Reply, text: String) -> Expected { Expected { reply, from: From::Numbat, text, stopped: None } }
fn rule(n: u32, reply: Reply, text: String) -> Expected { Expected { reply, from: From::Rule(n), text, stopped: None } }
fn wide() -> bool { num_rational::wide_count() > 0 }

/// pool and table: 10, then whether they are well formed; names as text where they can be
pub fn names_of(q: &Request) -> Result<Option<Vec<Vec<u8>>>, u32> {
    if q.pool_lent() < 8192 || q.table_lent() < 257 { return Err(10); }
    let at = |i: usize| q.table.get(i).copied().unwrap_or(0) as usize;
    let byte = |i: usize| q.pool.get(i).copied().unwrap_or(0);
    let n = at(0);
    if n > 256 { return Ok(None); }
    let (mut v, mut from) = (vec![], 0usize);
    for i in 1..=n {
        let e = at(i);
        if e <= from || e > 8192 || e - from > 48 { return Ok(None); }
        let name: Vec<u8> = (from..e).map(byte).collect();
        if v.contains(&name) { return Ok(None); }
        v.push(name);
        from = e;
    }
    Ok(Some(v))
}
/// a name of any bytes as text in the same order: a letter for each byte
pub fn letters(n: &[u8]) -> String { n.iter().map(|b| *b as char).collect() }
pub fn table_of(names: &[Vec<u8>]) -> Names {
    let mut nm = Names::default();
    for n in names { nm.of(&letters(n)); }
    nm
}

/// adding: a list that is longer than its count stands behind the set; is the buffer as before behind what is answered?
pub fn set_alone(q: &Request, r: &Reply) -> bool {
    let room = q.result.1 as usize;
    let mut buffer: Vec<u32> = q.lists[0].iter().copied().take(room).collect();
    buffer.resize(room, q.result.0);
    let n = r.words.len().min(room);
    if r.refusal == 0 { buffer[..n].copy_from_slice(&r.words[..n]) }
    buffer[n..].iter().all(|w| *w == q.result.0)
}
/// the whole answer, with the flags for the buffers
pub fn expect(q: &Request) -> Expected { flagged(q, plain(q)) }
fn flagged(q: &Request, mut e: Expected) -> Expected {
    let uses_work = matches!(q.call, 21 | 22 | 23 | 25 | 26 | 27 | 28 | 30 | 32);
    let ten = e.reply.refusal == 10;
    let zero = uses_work && !ten;
    let empty = q.work.1 == 0;
    // what the program shows past the end of a short result buffer is 0
    let room = q.result.1 as usize;
    for w in e.reply.words.iter_mut().skip(room) { *w = 0 }
    let rest = if q.call == 20 { set_alone(q, &e.reply) as u32 } else { 1 };
    e.reply.flags = rest | if zero || empty || q.work.0 == 0 { 2 } else { 0 } | if !zero || empty || q.work.0 == 0 { 4 } else { 0 };
    e
}
fn plain(q: &Request) -> Expected {
    let [a, b, c, d] = &q.lists;
    match q.call {
        1 => return paper(match names_of(q) { Err(n) => refuse(n), Ok(None) => refuse(1), Ok(Some(_)) => say(0, 0, vec![]) }),
        2 => return paper(match names_of(q) {
            Err(n) => refuse(n),
            Ok(None) => refuse(1),
            Ok(Some(v)) => match v.get(q.x as usize) { Some(n) => say(0, 0, n.iter().map(|b| *b as u32).collect()), None => refuse(3) },
        }),
        3 => return paper(enter(q)),
        4 => {
            let f = |l: &Vec<u32>| l.iter().map(|w| *w as u8).collect::<Vec<_>>();
            return paper(say(1 + (f(a).cmp(&f(b)) as i8 + 1) as u32, 0, vec![]));
        }
        5..=8 => return exponent(q),
        24 => {
            let ok = q.pool_lent() >= 8192 && q.table_lent() >= 257 && q.result.1 >= 8192 && q.work.1 >= 16384;
            return paper(if ok { say(0, 0, vec![]) } else { refuse(10) });
        }
        _ => {}
    }
    // 10
    let uses_result = matches!(q.call, 19 | 20 | 21 | 22 | 23 | 25 | 26 | 27 | 32);
    let uses_work = matches!(q.call, 21 | 22 | 23 | 25 | 26 | 27 | 28 | 32);
    let set_words = if q.call == 20 { a.clone() } else { vec![] };
    let no = |n: u32| { let mut r = refuse(n); r.words = set_words.clone(); if (9..=12).contains(&q.call) { r.words = blank(&[]) } paper(r) };
    let names = match names_of(q) { Err(n) => return no(n), Ok(v) => v };
    if uses_result && q.result.1 < 8192 || uses_work && q.work.1 < 16384 { return no(10); }
    // 8
    let long = match q.call {
        13..=19 | 23 | 29 | 32 => a.len() > 8192,
        20 => q.x > 2048 || b.len() > 8192,
        21 | 22 | 26 => a.len() > 8192 || b.len() > 8192,
        28 => a.len() > 8192 || b.len() / 2 > 2048 || c.len() > 8192 || d.len() > 8192,
        25 => a.len() > 8192 || b.len() > 8192 || c.len() > 2048,
        27 => a.len() > 8192 || b.len() > 2048,
        _ => false,
    };
    if long { return no(8); }
    // 1
    let Some(names) = names else { return no(1) };
    match listed(q, &table_of(&names)) { Some(e) => e, None => no(1) }
}
fn enter(q: &Request) -> Reply {
    let name: Vec<u8> = q.lists[1].iter().map(|w| *w as u8).collect();
    let none = |n: u32| { let mut r = refuse(n); r.words = vec![u32::MAX]; r };
    let names = match names_of(q) { Err(n) => return none(n), Ok(None) => return none(1), Ok(Some(v)) => v };
    if name.is_empty() || name.len() > 48 { return none(2); }
    if let Some(k) = names.iter().position(|n| *n == name) { return say(k as u32, 0, vec![u32::MAX]); }
    let end: usize = names.iter().map(|n| n.len()).sum();
    if names.len() == 256 || 8192 - end < name.len() { return none(3); }
    let mut w = vec![];
    for (i, b) in name.iter().enumerate() { if q.pool.get(end + i).copied().unwrap_or(0) != *b { w.extend([(end + i) as u32, *b as u32]) } }
    w.push(u32::MAX);
    let n = names.len() as u32;
    w.extend([0, n + 1]);
    let e = (end + name.len()) as u32;
    if q.table.get(n as usize + 1).copied().unwrap_or(0) != e { w.extend([n + 1, e]) }
    say(n, 1, w)
}
fn exponent(q: &Request) -> Expected {
    let w = |i: usize| q.lists[0].get(i).copied().unwrap_or(0);
    let (Some(x), y) = (records::exponent(w(0), w(1)), records::exponent(w(2), w(3))) else { return paper(refuse(1)) };
    let y = match (q.call, y) { (7, _) => x, (_, Some(y)) => y, _ => return paper(refuse(1)) };
    let text = match q.call { 7 => format!("exp neg {} {}", x.numer(), x.denom()), k => format!("exp {} {} {} {} {}", ["add", "mul", "", "div"][k as usize - 5], x.numer(), x.denom(), y.numer(), y.denom()) };
    if q.call == 8 && *y.numer() == 0 { return rule(10, refuse(7), text); }
    num_rational::reset();
    let r = match q.call { 5 => guard(|| x + y), 6 => guard(|| x * y), 7 => guard(|| -x), _ => guard(|| x / y) };
    match r {
        Ok(e) if !wide() => { let [n, d] = records::signed(&e); numbat(say(n, d, vec![]), text) }
        _ => rule(10, refuse(7), text),
    }
}
/// the 64 places of a product, the unused ones blank
fn blank(w: &[u32]) -> Vec<u32> { let mut v = w.to_vec(); while v.len() < 256 { v.extend([0, 0, 0, 1]) } v }
fn value(l: &[u32], n: u32, nm: &Names) -> Option<DType> {
    if n > 64 { return None; }
    let mut w = l.to_vec();
    w.resize(256, 0);
    let mut r = Reader::new(&w, nm, 1 << 32)?;
    r.value(n)
}
fn sized(t: &Type) -> bool { let mut z = Size::default(); records::size(t, 1, &mut z); z.over() }

fn listed(q: &Request, nm: &Names) -> Option<Expected> {
    let [a, b, c, d] = &q.lists;
    let mut out = nm.clone();
    Some(match q.call {
        9..=12 => {
            let x = value(a, q.x, nm)?;
            let (y, e) = match q.call {
                9 | 10 => (value(b, q.y, nm)?, None),
                12 => (DType::scalar(), Some(records::exponent(b.first().copied().unwrap_or(0), b.get(1).copied().unwrap_or(0))?)),
                _ => (DType::scalar(), None),
            };
            let t = text::dim("dim", &x);
            let text = match q.call { 9 => format!("prod mul {t} {}", text::dim("dim", &y)), 10 => format!("prod div {t} {}", text::dim("dim", &y)), 11 => format!("prod inv {t}"), _ => { let e = e.unwrap(); format!("prod pow {t} {} {}", e.numer(), e.denom()) } };
            num_rational::reset();
            let r = match q.call { 9 => guard(|| x.multiply(&y)), 10 => guard(|| x.divide(&y)), 11 => guard(|| x.inverse()), _ => guard(|| x.power(e.unwrap())) };
            let no = |n: u32| { let mut r = refuse(n); r.words = blank(&[]); r };
            match r {
                Ok(p) if !wide() && p.factors().len() <= 64 => { let f = records::factors(&p, &mut out); numbat(say(f.len() as u32 / 4, 0, blank(&f)), text) }
                Ok(_) if !wide() => rule(12, no(8), text),
                _ => rule(10, no(7), text),
            }
        }
        13 => { records::set(a, nm)?; paper(say(0, 0, vec![])) }
        14 => { records::ty(a, nm)?; paper(say(0, 0, vec![])) }
        15 => { records::scheme(a, nm)?; paper(say(0, 0, vec![])) }
        16 => { records::bindings(a, nm)?; paper(say(0, 0, vec![])) }
        17 => {
            let t = records::ty(a, nm)?;
            let n = nm.get(q.x)?;
            let text = format!("contains {} {n} {}", text::ty(&t), (q.y == 1) as u8);
            if mixed(|o| o.ty(&t)) { return Some(rule(11, refuse(4), text)); }
            numbat(say(t.contains(&TypeVariable::new(n), q.y == 1) as u32, 0, vec![]), text)
        }
        18 => {
            let t = records::ty(a, nm)?;
            let text = format!("closed {}", text::ty(&t));
            if mixed(|o| o.ty(&t)) { return Some(rule(11, refuse(4), text)); }
            numbat(say(t.is_closed() as u32, 0, vec![]), text)
        }
        19 => {
            let t = records::ty(a, nm)?;
            let text = format!("vars {} {}", text::ty(&t), (q.y == 1) as u8);
            if mixed(|o| o.ty(&t)) { return Some(rule(11, refuse(4), text)); }
            let v: Vec<u32> = t.type_variables(q.y == 1).iter().map(|v| out.of(&text::var(v))).collect();
            numbat(say(v.len() as u32, 0, v), text)
        }
        20 => {
            let n = q.x as usize * 4;
            let mut buffer = a.clone();
            if n > buffer.len() { buffer.resize(n, q.result.0) }
            records::set(&buffer[..n], nm)?;
            let cs = records::set(b, nm)?;
            let [con] = &cs[..] else { return None };
            let text = format!("add {}", text::con(con));
            let r = ConstraintSet::default().add(con.clone());
            let full = n + b.len() > 8192;
            let (v, stored) = match r { TrivialResolution::Satisfied => (1, false), TrivialResolution::Violated => (2, true), TrivialResolution::Unknown => (3, true) };
            if stored && full { let mut r = refuse(8); r.words = a.clone(); return Some(paper(r)); }
            let mut w = buffer[..n].to_vec();
            if stored { w.extend(b) }
            numbat(say(v, w.len() as u32 / 4, w), text)
        }
        21 => {
            let mut t = records::ty(a, nm)?;
            let bs = records::bindings(b, nm)?;
            let text = format!("replace {}{}", text::ty(&t), binds(&bs));
            if mixed(|o| { o.ty(&t); bind_opens(o, &bs) }) { return Some(rule(11, refuse(4), text)); }
            num_rational::reset();
            let r = guard(|| t.apply(&Substitution(bs)));
            match r {
                _ if wide() => rule(10, refuse(7), text),
                Err(_) => rule(10, refuse(7), text),
                Ok(Err(_)) => numbat(refuse(6), text),
                Ok(Ok(())) if sized(&t) => rule(12, refuse(8), text),
                Ok(Ok(())) => { let w = records::words(|o| records::write(&t, &mut out, o)); numbat(say(w.len() as u32 / 4, 0, w), text) }
            }
        }
        22 => {
            let cs = records::set(a, nm)?;
            let bs = records::bindings(b, nm)?;
            let text = format!("replaceset (set{}){}", cs.iter().map(|c| format!(" {}", text::con(c))).collect::<String>(), binds(&bs));
            if mixed(|o| { for c in &cs { o.con(c) } bind_opens(o, &bs) }) { return Some(rule(11, refuse(4), text)); }
            let mut s = access::set_of(cs);
            num_rational::reset();
            let r = guard(|| s.apply(&Substitution(bs)));
            let mut z = Size::default();
            for c in access::constraints_of(&s) { records::size_con(c, &mut z) }
            match r {
                _ if wide() => rule(10, refuse(7), text),
                Err(_) => rule(10, refuse(7), text),
                Ok(Err(_)) => numbat(refuse(6), text),
                Ok(Ok(())) if z.over() => rule(12, refuse(8), text),
                Ok(Ok(())) => { let w = records::words(|o| for c in access::constraints_of(&s) { records::write_con(c, &mut out, o) }); numbat(say(w.len() as u32 / 4, 0, w), text) }
            }
        }
        23 | 32 => {
            let cs = records::set(a, nm)?;
            let call = if q.call == 23 { "solve" } else { "confirm" };
            let text = format!("{call}{}", cs.iter().map(|c| format!(" {}", text::con(c))).collect::<String>());
            if mixed(|o| for c in &cs { o.con(c) }) { return Some(rule(11, refuse(4), text)); }
            let e = solve(access::set_of(cs.clone()), &mut out, text);
            if q.call == 23 { e } else { confirmed(&cs, e, &out) }
        }
        28 => {
            let cs = records::set(a, nm)?;
            let bs = entries(b, c, nm)?;
            let bounds = records::bounds(d, nm)?;
            let bounds: Vec<String> = bounds.iter().map(text::var).collect();
            if bounds.windows(2).any(|p| p[0].as_bytes() >= p[1].as_bytes()) { return None; }
            let text = format!("judge (set{}){} (bounds{})", cs.iter().map(|c| format!(" {}", text::con(c))).collect::<String>(), binds(&bs), bounds.iter().map(|n| format!(" {n}")).collect::<String>());
            let reply = if mixed(|o| { for c in &cs { o.con(c) } bind_opens(o, &bs) }) { refuse(4) } else { judged(&cs, &Substitution(bs), &bounds) };
            Expected { text, ..paper(reply) }
        }
        29 => {
            let cs = records::set(a, nm)?;
            let mut o = Opens::default();
            for c in &cs { o.con(c) }
            let v = o.vars.len() as u32;
            let text = format!("ceiling{}", cs.iter().map(|c| format!(" {}", text::con(c))).collect::<String>());
            Expected { text, ..paper(say(v, v + 6144 * (v + 1), vec![])) }
        }
        25 => {
            let t = records::ty(a, nm)?;
            let bs = records::bounds(b, nm)?;
            let vs: Vec<_> = c.iter().map(|k| nm.get(*k).map(|n| TypeVariable::new(n))).collect::<Option<_>>()?;
            let text = format!("quantify {} {} (names{})", text::ty(&t), text::bounds(&bs), vs.iter().map(|v| format!(" {}", text::var(v))).collect::<String>());
            if mixed(|o| o.ty(&t)) { return Some(rule(11, refuse(4), text)); }
            let q = QualifiedType::new(t, bs.into_iter().map(|v| Bound::IsDim(Type::TVar(v))).collect());
            num_rational::reset();
            scheme_said(guard(|| q.quantify(&vs)), &mut out, text)
        }
        26 => {
            let mut s = records::scheme(a, nm)?;
            let bs = records::bounds(b, nm)?;
            let text = format!("generalize {} {}", text::scheme(&s), text::bounds(&bs));
            if mixed(|o| scheme_opens(o, &s)) { return Some(rule(11, refuse(4), text)); }
            num_rational::reset();
            let r = guard(|| { s.generalize(&bs); s });
            scheme_said(r, &mut out, text)
        }
        27 => {
            let s = records::scheme(a, nm)?;
            let vs: Vec<_> = b.iter().map(|k| nm.get(*k).map(|n| TypeVariable::new(n))).collect::<Option<_>>()?;
            let text = format!("instantiate {} (names{})", text::scheme(&s), vs.iter().map(|v| format!(" {}", text::var(v))).collect::<String>());
            if mixed(|o| scheme_opens(o, &s)) { return Some(rule(11, refuse(4), text)); }
            num_rational::reset();
            match guard(|| instantiate_with(&s, &vs)) {
                _ if wide() => rule(10, refuse(7), text),
                Err(m) if m.contains("assertion failed: n_gen == &new_type_variables.len()") || m.contains("Tried to instantiate concrete type") => rule(13, refuse(9), text),
                Err(_) => rule(10, refuse(7), text),
                Ok(q) => {
                    let mut z = Size::default();
                    records::size(&q.inner, 1, &mut z);
                    z.records += q.bounds.iter().count();
                    if z.over() { return Some(rule(12, refuse(8), text)); }
                    let w = records::words(|o| { records::write(&q.inner, &mut out, o); for b in q.bounds.iter() { records::write_bound(records::bound_var(b), &mut out, o) } });
                    numbat(say(w.len() as u32 / 4, 0, w), text)
                }
            }
        }
        _ => paper(refuse(98)),
    })
}
/// how many words at the front of the result buffer are the buffer of a batch's answers
fn answers_room(q: &Request) -> usize { q.x.min(512).min(q.result.1) as usize }
/// a batch: the requests that solve its sets one by one, or why there are none
pub fn singles(q: &Request) -> Result<Vec<Request>, u32> {
    let (sets, lengths, n) = (&q.lists[0], &q.lists[1], answers_room(q));
    let room = q.result.1 as usize - n;
    if q.pool_lent() < 8192 || q.table_lent() < 257 || room < 8192 * lengths.len() || n < 4 * lengths.len() || q.work.1 < 16384 { return Err(10); }
    if lengths.len() > 64 { return Err(8); }
    if lengths.iter().map(|l| *l as u64).sum::<u64>() * 4 != sets.len() as u64 { return Err(1); }
    let mut at = 0;
    Ok(lengths.iter().map(|l| {
        let end = at + 4 * *l as usize;
        let mut one = Request { call: 23, x: 0, y: 0, result: (q.result.0, 8192), ..q.clone() };
        one.lists = [sets[at..end].to_vec(), vec![], vec![], vec![]];
        at = end;
        one
    }).collect())
}
/// what a batch should be answered, from the answers to its sets alone
pub fn batch(q: &Request, alone: Result<Vec<Reply>, u32>) -> Expected {
    let reply = match alone {
        Err(k) => refuse(k),
        Ok(rs) => {
            let mut answers = vec![q.result.0; answers_room(q)];
            let mut records: Vec<u32> = vec![];
            for (i, r) in rs.iter().enumerate() {
                answers[4 * i..4 * i + 4].copy_from_slice(&[r.refusal, r.rounds, r.value, r.more]);
                records.extend(&r.words);
            }
            let n = records.len() as u32 / 4;
            answers.extend(records);
            say(n, 0, answers)
        }
    };
    flagged(q, paper(reply))
}
fn scheme_said(r: Result<TypeScheme, String>, out: &mut Names, text: String) -> Expected {
    match r {
        _ if wide() => rule(10, refuse(7), text),
        Err(_) => rule(10, refuse(7), text),
        Ok(s) => {
            let mut z = Size { records: 1, ..Default::default() };
            match &s { TypeScheme::Concrete(t) => records::size(t, 1, &mut z), TypeScheme::Quantified(_, q) => { records::size(&q.inner, 1, &mut z); z.records += q.bounds.iter().count() } }
            if z.over() { return rule(12, refuse(8), text); }
            let w = records::words(|o| records::write_scheme(&s, out, o));
            numbat(say(w.len() as u32 / 4, 0, w), text)
        }
    }
}
/// the judge's entries: pairs of a variable and the place of its type
fn entries(pairs: &[u32], types: &[u32], nm: &Names) -> Option<Vec<(TypeVariable, Type)>> {
    let mut v: Vec<(TypeVariable, Type)> = vec![];
    if types.len() % 4 != 0 { return None; }
    for p in pairs.chunks_exact(2) {
        let x = TypeVariable::new(nm.get(p[0])?);
        if v.iter().any(|(y, _)| *y == x) { return None; }
        let mut r = Reader::new(types, nm, 0)?;
        r.at = p[1] as usize;
        if r.at * 4 >= types.len() { return None; }
        v.push((x, r.ty(1)?));
    }
    Some(v)
}
/// Replacing, step by step, so that the first 6, 7 or 8 met is known: numbat's own products, all bindings at once
struct Put<'a>(&'a [(TypeVariable, Type)]);
impl Put<'_> {
    fn bound(&self, v: &TypeVariable) -> Option<&Type> { self.0.iter().find(|(x, _)| x == v).map(|(_, t)| t) }
    fn step(f: impl FnOnce() -> DType) -> Result<DType, u32> { match guard(f) { Ok(d) if !wide() => Ok(d), _ => Err(7) } }
    fn product(&self, d: &DType) -> Result<DType, u32> {
        let mut acc = d.clone();
        for (f, p) in records::stored_order(d) {
            let DTypeFactor::TVar(v) = &f else { continue };
            let Some(t) = self.bound(v) else { continue };
            let one = |v: &TypeVariable| DType::from_factors(Arc::new(vec![(DTypeFactor::TVar(v.clone()), Exponent::from_integer(1))]));
            let b = match t { Type::Dimension(b) => b.clone(), Type::TVar(w) => one(w), _ => return Err(6) };
            acc = Self::step(|| acc.divide(&one(v).power(p)))?;
            let b = Self::step(|| b.power(p))?;
            acc = Self::step(|| acc.multiply(&b))?;
            if acc.factors().len() > 64 { return Err(8); }
        }
        Ok(acc)
    }
    fn all(&self, ts: &[Type]) -> Result<Vec<Type>, u32> { ts.iter().map(|t| self.ty(t)).collect() }
    fn ty(&self, t: &Type) -> Result<Type, u32> {
        Ok(match t {
            Type::TVar(v) => self.bound(v).unwrap_or(t).clone(),
            Type::Dimension(d) => match &d.factors()[..] {
                [(DTypeFactor::TVar(v), e)] if *e == Exponent::from_integer(1) => self.bound(v).unwrap_or(t).clone(),
                _ => Type::Dimension(self.product(d)?),
            },
            Type::Fn(p, r) => { let p = self.all(p)?; Type::Fn(p, Box::new(self.ty(r)?)) }
            Type::List(e) => Type::List(Box::new(self.ty(e)?)),
            Type::Struct(i) => {
                let mut j = (**i).clone();
                if let StructKind::Instance(a) = &i.kind { j.kind = StructKind::Instance(self.all(a)?) }
                let mut names: Vec<_> = j.fields.keys().cloned().collect();
                names.sort_by(|a, b| a.as_bytes().cmp(b.as_bytes()));
                for n in names { j.fields[&n].1 = self.ty(&i.fields[&n].1)? }
                Type::Struct(Box::new(j))
            }
            _ => t.clone(),
        })
    }
    fn con(&self, c: &Constraint) -> Result<Constraint, u32> {
        Ok(match c {
            Constraint::Equal(a, b) => { let a = self.ty(a)?; Constraint::Equal(a, self.ty(b)?) }
            Constraint::IsDType(t) => Constraint::IsDType(self.ty(t)?),
            Constraint::EqualScalar(d) => Constraint::EqualScalar(self.product(d)?),
            Constraint::HasField(s, f, t) => { let s = self.ty(s)?; Constraint::HasField(s, f.clone(), self.ty(t)?) }
        })
    }
}
/// The judge: what is put in agrees with numbat, where numbat puts it in; what is true then is our own reading
fn judged(cs: &[Constraint], bs: &Substitution, bounds: &[String]) -> Reply {
    for c in cs {
        num_rational::reset();
        let d = match Put(&bs.0).con(c) { Err(6) => return say(0, 0, vec![]), Err(k) => return refuse(k), Ok(d) => d };
        let mut s = access::set_of(vec![c.clone()]);
        let r = guard(|| s.apply(bs));
        assert!(matches!(r, Ok(Ok(()))) && access::constraints_of(&s)[0] == d, "put in: {}", text::con(c));
        let mut z = Size::default();
        records::size_con(&d, &mut z);
        if z.over() { return refuse(8); }
        if !holds(&d, bounds) { return say(0, 0, vec![]); }
    }
    say(1, 0, vec![])
}
/// what numbat accepts goes to the judge: 11 for its no, or what it refuses, after as many rounds, and nothing is written
fn confirmed(cs: &[Constraint], e: Expected, nm: &Names) -> Expected {
    let r = &e.reply;
    if r.refusal != 0 || e.stopped.is_some() { return e; }
    let (bindings, bounds) = r.words.split_at(r.value as usize * 4);
    let bs = records::bindings(bindings, nm).expect("numbat's bindings are well formed");
    let bounds: Vec<String> = records::bounds(bounds, nm).expect("and its bounds").iter().map(text::var).collect();
    let j = judged(cs, &Substitution(bs), &bounds);
    let refusal = match (j.refusal, j.value) { (0, 1) => return e, (0, _) => 11, (n, _) => n };
    let reply = Reply { refusal, rounds: r.rounds, ..Default::default() };
    Expected { reply, ..e }
}
/// a single variable to the power 1 as the variable, and no fields
fn read_plainly(t: &Type) -> Type {
    match t {
        Type::Dimension(d) => match &d.factors()[..] {
            [(DTypeFactor::TVar(v), e)] if *e.numer() == 1 && *e.denom() == 1 => Type::TVar(v.clone()),
            _ => t.clone(),
        },
        Type::Fn(p, r) => Type::Fn(p.iter().map(read_plainly).collect(), Box::new(read_plainly(r))),
        Type::List(e) => Type::List(Box::new(read_plainly(e))),
        Type::Struct(i) => {
            let mut j = (**i).clone();
            j.fields = Default::default();
            if let StructKind::Instance(a) = &i.kind { j.kind = StructKind::Instance(a.iter().map(read_plainly).collect()) }
            Type::Struct(Box::new(j))
        }
        _ => t.clone(),
    }
}
fn holds(c: &Constraint, bounds: &[String]) -> bool {
    let means = |a: &Type, b: &Type| read_plainly(a) == read_plainly(b);
    match c {
        Constraint::Equal(a, b) => means(a, b),
        Constraint::IsDType(t) => {
            let mut o = Opens::default();
            o.ty(t);
            matches!(t, Type::Dimension(_) | Type::TVar(_) | Type::TPar(_)) && o.vars.iter().chain(&o.pars).all(|n| bounds.contains(n))
        }
        Constraint::EqualScalar(d) => d.factors().is_empty(),
        Constraint::HasField(s, f, t) => match s { Type::Struct(i) => i.fields.get(f.as_str()).is_some_and(|(_, u)| means(u, t)), _ => false },
    }
}
fn mixed(f: impl FnOnce(&mut Opens)) -> bool { let mut o = Opens::default(); f(&mut o); o.mixed() }
fn bind_opens(o: &mut Opens, bs: &[(TypeVariable, Type)]) { for (v, t) in bs { o.vars.insert(text::var(v)); o.ty(t) } }
fn scheme_opens(o: &mut Opens, s: &TypeScheme) { match s { TypeScheme::Concrete(t) => o.ty(t), TypeScheme::Quantified(_, q) => o.ty(&q.inner) } }
fn binds(bs: &[(TypeVariable, Type)]) -> String { bs.iter().map(|(v, t)| format!(" (bind {} {})", text::var(v), text::ty(t))).collect() }

/// numbat's solve, with its rounds counted; the counted loop and the original must agree
fn solve(set: ConstraintSet, out: &mut Names, text: String) -> Expected {
    let p = Progress::default();
    *p.set.borrow_mut() = set.clone();
    let (far, big, huge) = (Cell::new(0u64), Cell::new(0u64), Cell::new(false));
    num_rational::reset();
    let seen = |round: u64, _: usize, s: &ConstraintSet, b: &Substitution| {
        let mut z = Size::default();
        for c in access::constraints_of(s) { records::size_con(c, &mut z) }
        for (_, t) in &b.0 { z.records += 1; records::size(t, 1, &mut z) }
        if far.get() == 0 && (z.wide || wide()) { far.set(round) }
        if big.get() == 0 && z.over() { big.set(round) }
        let go = far.get() == 0 && big.get() == 0;
        if z.records >= 20_000 || z.nest >= 2_000 { huge.set(true) }
        go
    };
    let r = guard(|| access::counted(&p, 3000, seen));
    if far.get() == 0 && wide() { far.set(p.rounds.get() + 1) }
    let rounds = p.rounds.get();
    let refused = |n: u32, k: u64| Reply { refusal: n, rounds: k as u32, ..Default::default() };
    if far.get() > 0 && (big.get() == 0 || far.get() <= big.get()) { return rule(10, refused(7, far.get() - 1), text); }
    if big.get() > 0 { return rule(12, refused(8, big.get() - 1), text); }
    if matches!(r, Ok(Stop::Limit)) { return Expected { reply: refused(0, rounds), from: From::Numbat, text, stopped: Some("runs on") }; }
    let mut orig = set;
    let o = guard(|| orig.solve());
    let last = p.set.borrow();
    let bound = p.substitution.borrow();
    assert!(access::constraints_of(&orig) == access::constraints_of(&last), "constraints afterwards: {text}");
    match (r, o) {
        (Err(m), Err(n)) => {
            let strip = |s: &str| s.rsplit_once(" at ").map(|x| x.0.to_string()).unwrap_or_default();
            assert!(strip(&m) == strip(&n), "panics: {text}");
            if m.contains("SubstitutedNonDTypeWithinDType") { rule(9, refused(6, rounds), text) } else { rule(10, refused(7, rounds), text) }
        }
        (Ok(Stop::NonDim(e)), Ok(Err(ConstraintSolverError::SubstitutionError(f)))) => { assert!(e == f, "errors: {text}"); numbat(refused(6, rounds), text) }
        (Ok(Stop::Finished), Ok(Err(ConstraintSolverError::CouldNotSolve(said)))) => {
            let rem = access::remaining(&last);
            assert!(rem.iter().map(access::pretty).collect::<Vec<_>>() == said, "remaining: {text}");
            let w = records::words(|o| for c in &rem { records::write_con(c, out, o) });
            numbat(Reply { refusal: 5, value: w.len() as u32 / 4, more: 0, rounds: rounds as u32, flags: 0, words: w }, text)
        }
        (Ok(Stop::Finished), Ok(Ok((s, bs)))) => {
            assert!(s.0 == *bound && access::bounds(&last) == bs && access::remaining(&last).is_empty(), "answer: {text}");
            let mut w = records::words(|o| for (v, t) in &s.0 { records::write_binding(v, t, out, o) });
            let n = w.len() as u32 / 4;
            for v in &bs { records::write_bound(v, out, &mut w) }
            numbat(Reply { refusal: 0, value: n, more: bs.len() as u32, rounds: rounds as u32, flags: 0, words: w }, text)
        }
        _ => panic!("kinds of result: {text}"),
    }
}
