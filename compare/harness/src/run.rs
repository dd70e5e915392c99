//! harness compare SERVE KIND SEED COUNT CALLS: COUNT random cases of a kind. Lines to standard output:
//! D<tab>call<tab>case<tab>numbat's answer<tab>serve's answer: a difference for the model to explain; W: a wrong answer; then a line of counts.
//! harness dump KIND SEED COUNT CALLS: the requests of such cases. harness check SERVE FILE: the requests of a file; for each a line
//! S<tab>who answered<tab>case, or a line D or W as above.
use crate::cases::Gen;
use crate::expect::{Expected, From, batch, expect, names_of, set_alone, singles};
use crate::records::Names;
use crate::text;
use crate::wire::{Reply, Request, Serve};
use std::collections::BTreeMap;
use std::io::Write;

pub fn names(q: &Request) -> Names {
    let mut nm = Names::default();
    if let Ok(Some(v)) = names_of(q) { nm = crate::expect::table_of(&v) }
    nm
}
#[derive(Default)]
pub struct Counts { pub total: u64, pub numbat: u64, pub paper: u64, pub rules: BTreeMap<u32, u64>, pub asked: u64, pub wrong: u64, pub calls: BTreeMap<u32, u64>, pub refusals: BTreeMap<u32, u64> }

/// compares one reply; writes a line where the model must say whether the difference is a known one
pub fn judge(q: &Request, e: &Expected, r: &Reply, k: &mut Counts, out: &mut impl Write) {
    k.total += 1;
    *k.calls.entry(q.call).or_default() += 1;
    *k.refusals.entry(r.refusal).or_default() += 1;
    if e.stopped.is_none() && *r == e.reply {
        match e.from { From::Paper => k.paper += 1, From::Numbat => k.numbat += 1, From::Rule(n) => *k.rules.entry(n).or_default() += 1 }
        return;
    }
    let nm = names(q);
    let mine = text::answer(q.call, r, &nm).unwrap_or_else(|| format!("UNREADABLE {r:?}"));
    // adding: what stands behind the set depends on the verdict, which may differ
    let flags = r.flags == e.reply.flags || e.stopped.is_some() || q.call == 20 && r.refusal == 0 && r.flags == 4 | set_alone(q, r) as u32;
    if e.from == From::Paper || e.text.is_empty() || !flags {
        k.wrong += 1;
        let lists: Vec<_> = q.lists.iter().map(|l| (l.len(), &l[..l.len().min(40)])).collect();
        let table = &q.table[..q.table.len().min(20)];
        writeln!(out, "W\t{}\t{}\texpected {:?}\tserve {:?}\trequest x {} y {} result {:?} work {:?} pool {} table {table:?} lists {lists:?}",
            q.call, e.text, short(&e.reply), short(r), q.x, q.y, q.result, q.work, q.pool_lent()).unwrap();
        return;
    }
    // adding: whichever verdict it is, what stands in the buffer must follow from it
    if q.call == 20 && r.refusal == 0 {
        let mut w = q.lists[0][..(q.x as usize * 4).min(q.lists[0].len())].to_vec();
        if r.value != 1 { w.extend(&q.lists[1]) }
        if w != r.words || r.more as usize * 4 != w.len() {
            k.wrong += 1;
            writeln!(out, "W\t20\t{}\tthe buffer doesn't follow from the verdict {}", e.text, r.value).unwrap();
            return;
        }
    }
    k.asked += 1;
    let theirs = match e.stopped { Some(s) => s.to_string(), None => text::answer(q.call, &e.reply, &nm).unwrap_or_else(|| "?".into()) };
    writeln!(out, "D\t{}\t{}\t{theirs}\t{mine}", q.call, e.text).unwrap();
}
/// what a request should be answered. A batch is held against its sets asked alone, of a second `serve`; these are compared too
fn expected(q: &Request, alone: &mut Serve, k: &mut Counts, out: &mut impl Write) -> Expected {
    if q.call != 30 { return expect(q); }
    let rs = singles(q).map(|qs| {
        let mut bytes = vec![];
        for q in &qs { q.bytes(&mut bytes) }
        let rs = alone.ask(bytes, qs.len());
        for (q, r) in qs.iter().zip(&rs) { judge(q, &expect(q), r, k, out) }
        rs
    });
    batch(q, rs)
}
fn short(r: &Reply) -> Reply { let mut r = r.clone(); r.words.truncate(40); r }
pub fn report(k: &Counts, out: &mut impl Write) {
    writeln!(out, "C\t{}\t{}\t{}\t{}\t{}\t{:?}\t{:?}\t{:?}", k.total, k.numbat, k.paper, k.asked, k.wrong, k.rules, k.calls, k.refusals).unwrap();
}
pub fn main(args: &[String]) -> i32 {
    let mut out = std::io::BufWriter::new(std::io::stdout().lock());
    let a: Vec<&str> = args.iter().map(|s| s.as_str()).collect();
    match a[..] {
        ["compare", serve, kind, seed, count, calls] => {
            let (seed, count, calls): (u64, u64, u64) = (seed.parse().unwrap(), count.parse().unwrap(), calls.parse().unwrap());
            let mut g = Gen::new(kind, seed, calls);
            let (mut s, mut alone) = (Serve::start(serve), Serve::start(serve));
            let mut k = Counts::default();
            while k.total < count {
                let n = (count - k.total).min(400) as usize;
                let qs: Vec<Request> = (0..n).map(|_| g.next()).collect();
                let mut bytes = vec![];
                for q in &qs { q.bytes(&mut bytes) }
                let rs = s.ask(bytes, n);
                if rs.len() != n { writeln!(out, "W\tserve ended: {} answers to {n} requests", rs.len()).unwrap(); out.flush().unwrap(); return 1; }
                for (q, r) in qs.iter().zip(&rs) {
                    let e = expected(q, &mut alone, &mut k, &mut out);
                    judge(q, &e, r, &mut k, &mut out);
                    // a false length is 1, whatever else; the judge doesn't look at every record, and a batch answers set by set
                    if kind == "lengths" && r.refusal != 1 && !matches!(q.call, 28 | 30) { k.wrong += 1; writeln!(out, "W\t{}\t{}\ta false length passes", q.call, e.text).unwrap() }
                }
            }
            if !s.stop() || !alone.stop() { writeln!(out, "W\tserve did not end as it should").unwrap(); return 1; }
            report(&k, &mut out);
            out.flush().unwrap();
            (k.wrong > 0) as i32
        }
        ["dump", kind, seed, count, calls] => {
            let mut g = Gen::new(kind, seed.parse().unwrap(), calls.parse().unwrap());
            let mut bytes = vec![];
            for _ in 0..count.parse::<u64>().unwrap() { g.next().bytes(&mut bytes) }
            out.write_all(&bytes).unwrap();
            out.flush().unwrap();
            0
        }
        ["check", serve, file] => {
            let data = std::fs::read(file).expect("the file of requests");
            let (mut at, mut qs) = (0, vec![]);
            while at < data.len() { let (q, n) = Request::from(&data[at..]); qs.push(q); at += n }
            let (mut s, mut alone) = (Serve::start(serve), Serve::start(serve));
            let rs = s.ask(data, qs.len());
            let mut k = Counts::default();
            for (q, r) in qs.iter().zip(&rs) {
                let e = expected(q, &mut alone, &mut k, &mut std::io::sink());
                let before = k.asked + k.wrong;
                judge(q, &e, r, &mut k, &mut out);
                if k.asked + k.wrong == before {
                    let who = match e.from { From::Paper => "paper".to_string(), From::Numbat => "numbat".to_string(), From::Rule(n) => format!("difference {n}") };
                    writeln!(out, "S\t{who}\t{}", e.text).unwrap();
                }
            }
            if rs.len() != qs.len() { writeln!(out, "W\tserve ended: {} answers to {} requests", rs.len(), qs.len()).unwrap(); k.wrong += 1 }
            s.stop();
            alone.stop();
            report(&k, &mut out);
            out.flush().unwrap();
            (k.wrong > 0) as i32
        }
        _ => { eprintln!("see ../README.md"); 2 }
    }
}
