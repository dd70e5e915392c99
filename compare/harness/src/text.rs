//! Types, constraints and answers as text, for the model (../model.py) and for people.
use crate::records::{self, Names, Reader};
use crate::type_variable::TypeVariable;
use crate::typechecker::constraints::Constraint;
use crate::typechecker::type_scheme::TypeScheme;
use crate::typed_ast::{DType, DTypeFactor, StructKind, Type};
use crate::wire::Reply;

pub fn var(v: &TypeVariable) -> String { match v { TypeVariable::Named(n) => n.to_string(), TypeVariable::Quantified(i) => format!("(q {i})") } }
pub fn dim(tag: &str, d: &DType) -> String {
    let mut fs: Vec<_> = d.factors().to_vec();
    fs.sort_by_key(|(f, _)| match f { DTypeFactor::TVar(_) => 0, DTypeFactor::TPar(_) => 1, DTypeFactor::BaseDimension(_) => 2 });
    let mut o = format!("({tag}");
    for (f, e) in &fs {
        let (n, d) = (e.numer(), e.denom());
        o += &match f {
            DTypeFactor::TVar(TypeVariable::Named(x)) => format!(" (v {x} {n} {d})"),
            DTypeFactor::TVar(TypeVariable::Quantified(i)) => format!(" (q {i} {n} {d})"),
            DTypeFactor::TPar(x) => format!(" (p {x} {n} {d})"),
            DTypeFactor::BaseDimension(x) => format!(" (b {x} {n} {d})"),
        };
    }
    o + ")"
}
fn types(ts: &[Type]) -> String { ts.iter().map(ty).collect::<Vec<_>>().join(" ") }
pub fn ty(t: &Type) -> String {
    match t {
        Type::TVar(TypeVariable::Named(x)) => format!("(var {x})"),
        Type::TVar(TypeVariable::Quantified(i)) => format!("(q {i})"),
        Type::TPar(x) => format!("(par {x})"),
        Type::Dimension(d) => dim("dim", d),
        Type::Boolean => "(bool)".into(),
        Type::String => "(str)".into(),
        Type::DateTime => "(date)".into(),
        Type::Fn(p, r) => format!("(fn ({}) {})", types(p), ty(r)),
        Type::List(e) => format!("(list {})", ty(e)),
        Type::Struct(i) => {
            let StructKind::Instance(args) = &i.kind else { unreachable!() };
            let fs = i.fields.iter().map(|(n, (_, t))| format!("({n} {})", ty(t))).collect::<Vec<_>>().join(" ");
            format!("(struct {} ({}) ({}))", i.name, types(args), fs)
        }
    }
}
pub fn con(c: &Constraint) -> String {
    match c {
        Constraint::Equal(a, b) => format!("(eq {} {})", ty(a), ty(b)),
        Constraint::IsDType(t) => format!("(isdim {})", ty(t)),
        Constraint::EqualScalar(d) => dim("scalar", d),
        Constraint::HasField(s, f, t) => format!("(hasfield {} {f} {})", ty(s), ty(t)),
    }
}
pub fn bounds(v: &[TypeVariable]) -> String { format!("(bounds{})", v.iter().map(|v| format!(" {}", var(v))).collect::<String>()) }
pub fn scheme(s: &TypeScheme) -> String {
    match s {
        TypeScheme::Concrete(t) => format!("(concrete {})", ty(t)),
        TypeScheme::Quantified(n, q) => format!("(scheme {n} {} {})", ty(&q.inner), bounds(&q.bounds.iter().map(|b| records::bound_var(b).clone()).collect::<Vec<_>>())),
    }
}
fn all<T>(tag: String, v: &[T], f: impl Fn(&T) -> String) -> String { v.iter().fold(tag, |o, x| o + " " + &f(x)) }

/// what a reply says, as text; None where its words can't be read
pub fn answer(call: u32, r: &Reply, nm: &Names) -> Option<String> {
    let w = &r.words;
    if matches!(call, 23 | 32) {
        if r.refusal == 5 { return Some(all(format!("unsolved {}", r.rounds), &records::set(w, nm)?, con)); }
        if r.refusal == 6 { return Some(format!("nondim {}", r.rounds)); }
        if r.refusal != 0 { return Some(format!("refused{} {}", r.refusal, r.rounds)); }
        let b = (r.value as usize) * 4;
        if b > w.len() { return None; }
        let o = all(format!("accepted {}", r.rounds), &records::bindings(&w[..b], nm)?, |(v, t)| format!("(bind {} {})", var(v), ty(t)));
        return Some(all(o, &records::bounds(&w[b..], nm)?, |v| format!("(bound {})", var(v))));
    }
    if r.refusal == 6 { return Some("nondim".into()); }
    if r.refusal != 0 { return Some(format!("refused{}", r.refusal)); }
    Some(match call {
        5..=8 => format!("ok {} {}", r.value as i32, r.more),
        9..=12 => {
            let n = r.value as usize * 4;
            if n > w.len() { return None; }
            let mut rd = Reader::new(&w[..n], nm, 1 << 32)?;
            format!("ok {}", dim("dim", &rd.value(r.value)?))
        }
        17 | 18 => (if r.value == 1 { "true" } else { "false" }).into(),
        19 => all("vars".into(), w, |k| nm.get(*k).unwrap_or("?").to_string()),
        20 => ["?", "satisfied", "violated", "unknown"][(r.value as usize).min(3)].into(),
        21 => format!("ok {}", ty(&records::ty(w, nm)?)),
        22 => all("ok".into(), &records::set(w, nm)?, con),
        25 | 26 => format!("ok {}", scheme(&records::scheme(w, nm)?)),
        27 => {
            let mut rd = Reader::new(w, nm, 0)?;
            let t = rd.ty(1)?;
            let mut bs = vec![];
            while !rd.end() { bs.push(rd.bound(false)?) }
            format!("ok {} {}", ty(&t), bounds(&bs))
        }
        _ => format!("{r:?}"),
    })
}
