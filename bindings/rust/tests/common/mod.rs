//! The stored cases of crates/calls_run (its README has the form), and a small source of random numbers.
#![allow(dead_code)]
use shupkelen::raw::{self, Told};
use std::path::PathBuf;

/// What every word of the result buffer, and of the work buffer, is before a call.
pub const RESULT_BEFORE: u32 = 2863311530;
pub const WORK_BEFORE: u32 = 1431655765;

pub fn repository() -> PathBuf {
    PathBuf::from(env!("CARGO_MANIFEST_DIR")).join("../..")
}

#[derive(Clone, Debug)]
pub struct Case {
    pub comment: String,
    pub names: Vec<String>,
    pub call: u32,
    pub x: u32,
    pub y: u32,
    /// Bytes of the pool, words of the table, of the result buffer, of the work buffer.
    pub lent: [usize; 4],
    pub lists: [Vec<u32>; 4],
    pub refusal: u32,
    pub value: u32,
    pub more: u32,
    pub rounds: u32,
    pub words: Vec<u32>,
}

fn numbers(line: &str) -> Vec<i64> {
    line.split(|c: char| !c.is_ascii_digit() && c != '-').filter(|s| !s.is_empty()).map(|s| s.parse().unwrap()).collect()
}

/// A length, and the words; the last four are repeated where fewer stand there.
fn list(ns: &[i64]) -> Vec<u32> {
    let n = ns[0] as usize;
    let mut ws: Vec<u32> = ns[1..].iter().map(|&w| w as u32).collect();
    while ws.len() < n {
        ws.push(ws[ws.len() - 4]);
    }
    assert_eq!(ws.len(), n);
    ws
}

pub fn stored() -> Vec<Case> {
    let path = repository().join("crates/calls_run/stdin");
    let text = std::fs::read_to_string(path).unwrap();
    let lines: Vec<&str> = text.lines().filter(|l| !l.is_empty()).collect();
    assert_eq!(lines.len() % 8, 0);
    lines.chunks(8).map(case).collect()
}

fn case(ls: &[&str]) -> Case {
    let asks = numbers(ls[2]);
    let gives = numbers(ls[7]);
    Case {
        comment: ls[0].to_string(),
        names: ls[1].split(' ').skip(1).map(str::to_string).collect(),
        call: asks[0] as u32,
        x: asks[1] as u32,
        y: asks[2] as u32,
        lent: [asks[3] as usize, asks[4] as usize, asks[5] as usize, asks[6] as usize],
        lists: [list(&numbers(ls[3])), list(&numbers(ls[4])), list(&numbers(ls[5])), list(&numbers(ls[6]))],
        refusal: gives[0] as u32,
        value: gives[1] as u32,
        more: gives[2] as u32,
        rounds: gives[3] as u32,
        words: list(&gives[4..]),
    }
}

/// The buffers that a case lends.
pub struct Lent {
    pub pool: Vec<u8>,
    pub table: Vec<u32>,
    pub result: Vec<u32>,
    pub work: Vec<u32>,
}

/// The names are entered into a whole table, of which a part may be lent.
pub fn lend(c: &Case) -> Lent {
    let (mut pool, mut table) = (vec![0u8; 8200], vec![0u32; 260]);
    for (i, n) in c.names.iter().enumerate() {
        let t = raw::enter(&mut pool, &mut table, n.as_bytes());
        assert_eq!((t.refusal, t.value, t.more), (0, i as u32, 1), "{}", c.comment);
    }
    pool.truncate(c.lent[0]);
    table.truncate(c.lent[1]);
    Lent { pool, table, result: vec![RESULT_BEFORE; c.lent[2]], work: vec![WORK_BEFORE; c.lent[3]] }
}

fn checked(refusal: u32) -> Told {
    Told { refusal, value: 0, more: 0, rounds: 0 }
}

fn bytes(ws: &[u32]) -> Vec<u8> {
    ws.iter().map(|&w| w as u8).collect()
}

/// The bytes of the pool that changed, place and value each; a word of ones; the words of the table that changed, likewise.
fn changes(before: &Lent, after: &Lent) -> Vec<u32> {
    let mut out = Vec::new();
    for i in (0..after.pool.len()).filter(|&i| before.pool[i] != after.pool[i]) {
        out.extend([i as u32, after.pool[i] as u32]);
    }
    out.push(u32::MAX);
    for i in (0..after.table.len()).filter(|&i| before.table[i] != after.table[i]) {
        out.extend([i as u32, after.table[i]]);
    }
    out
}

/// Asks the archive: what was told, and the words of the answer as docs/SERVE.md has them.
pub fn ask(c: &Case, l: &mut Lent) -> (Told, Vec<u32>) {
    let [a, b, cc, d] = &c.lists;
    let exps: Vec<u32> = a.iter().copied().chain([0; 4]).take(4).collect();
    let (n, e, m, f) = (exps[0] as i32, exps[1], exps[2] as i32, exps[3]);
    let Lent { pool, table, result, work } = l;
    let t = match c.call {
        1 => checked(raw::check_table(pool, table)),
        2 => {
            let t = raw::name_of(pool, table, c.x);
            assert_eq!(t.refusal, raw::check_number(pool, table, c.x));
            let name = pool[t.value as usize..][..t.more as usize].iter().map(|&b| b as u32).collect();
            return (checked(t.refusal), name);
        }
        3 => {
            let before = Lent { pool: pool.clone(), table: table.clone(), result: vec![], work: vec![] };
            let t = raw::enter(pool, table, &bytes(b));
            return (t, changes(&before, l));
        }
        4 => Told { refusal: 0, value: raw::compare(&bytes(a), &bytes(b)), more: 0, rounds: 0 },
        5 => raw::exponent_add(n, e, m, f),
        6 => raw::exponent_multiply(n, e, m, f),
        7 => raw::exponent_negate(n, e),
        8 => raw::exponent_divide(n, e, m, f),
        9..=12 => return product(c, l),
        13 => checked(raw::is_set(pool, table, a)),
        14 => checked(raw::is_type(pool, table, a)),
        15 => checked(raw::is_scheme(pool, table, a)),
        16 => checked(raw::is_bindings(pool, table, a)),
        17 => raw::contains(pool, table, a, c.x, c.y == 1),
        18 => raw::closed(pool, table, a),
        19 => raw::variables(pool, table, a, c.y == 1, result),
        20 => {
            let k = a.len().min(result.len());
            result[..k].copy_from_slice(&a[..k]);
            raw::add(pool, table, result, c.x as usize, b)
        }
        21 => raw::replace_in_type(pool, table, a, b, result, work),
        22 => raw::replace_in_set(pool, table, a, b, result, work),
        23 => raw::solve(pool, table, a, result, work),
        24 => checked(raw::lent(pool, table, result, work)),
        25 => raw::quantify(pool, table, a, b, cc, result, work),
        26 => raw::generalise(pool, table, a, b, result, work),
        27 => raw::instantiate(pool, table, a, b, result, work),
        28 => raw::judge(pool, table, a, b, cc, d, work),
        29 => raw::ceiling(pool, table, a),
        30 => return batch(c, l),
        31 => raw::check_line(pool, table, a, b, cc, d, result, work),
        32 => raw::confirm(pool, table, a, result, work),
        other => panic!("no call has the number {other}"),
    };
    let words = words_of(c, t);
    (t, l.result[..words.min(l.result.len())].to_vec())
}

/// How many words at the front of the result buffer are the answer's.
fn words_of(c: &Case, t: Told) -> usize {
    match (c.call, t.refusal) {
        (19, 0) => t.value as usize,
        (20, 0) => t.more as usize * 4,
        (20, _) => c.lists[0].len(),
        (21 | 22 | 25 | 26 | 27 | 31, 0) => t.value as usize * 4,
        (23 | 32, 0) => (t.value + t.more) as usize * 4,
        (23 | 32, 5) => t.value as usize * 4,
        _ => 0,
    }
}

/// A product of x factors is lent as its factors alone; a count that a list does not have makes it malformed.
fn factors(ws: &[u32], count: u32) -> Vec<u32> {
    let mut out: Vec<u32> = ws.to_vec();
    out.resize((count as usize).min(65) * 4, 0);
    out
}

fn product(c: &Case, l: &mut Lent) -> (Told, Vec<u32>) {
    let (p, q) = (factors(&c.lists[0], c.x), factors(&c.lists[1], c.y));
    let b: Vec<u32> = c.lists[1].iter().copied().chain([0; 2]).take(2).collect();
    let mut out: Vec<u32> = [0, 0, 0, 1].repeat(64);
    let t = match c.call {
        9 => raw::product_multiply(&l.pool, &l.table, &p, &q, &mut out),
        10 => raw::product_divide(&l.pool, &l.table, &p, &q, &mut out),
        11 => raw::product_invert(&l.pool, &l.table, &p, &mut out),
        _ => raw::product_power(&l.pool, &l.table, &p, b[0] as i32, b[1], &mut out),
    };
    let n = out.len().min(l.result.len());
    l.result[..n].copy_from_slice(&out[..n]);
    (t, out)
}

/// The first x words of the result buffer are lent as those of the answers, the others as the result buffer.
fn batch(c: &Case, l: &mut Lent) -> (Told, Vec<u32>) {
    let n = (c.x as usize).min(512).min(l.result.len());
    let (answers, result) = l.result.split_at_mut(n);
    let t = raw::solve_all(&l.pool, &l.table, &c.lists[0], &c.lists[1], result, answers, &mut l.work);
    let words = if t.refusal == 0 { n + t.value as usize * 4 } else { 0 };
    (t, l.result[..words].to_vec())
}

/// A source of random numbers (xorshift), the same in every run.
pub struct Random(pub u64);

impl Random {
    pub fn next(&mut self) -> u64 {
        self.0 ^= self.0 << 13;
        self.0 ^= self.0 >> 7;
        self.0 ^= self.0 << 17;
        self.0
    }

    pub fn below(&mut self, n: usize) -> usize {
        (self.next() % n.max(1) as u64) as usize
    }
}
