//! Times solving by numbat's text and by the archive. Standard input has four lines a set: what it is, the set as text, its names, its words.
use crate::sexp::parse_all;
use crate::terms::constraints;
use crate::typechecker::constraints::access;
use std::hint::black_box;
use std::time::{Duration, Instant};

unsafe extern "C" {
    fn clock_gettime(clock: i32, time: *mut i64) -> i32;
    fn shupkelen_enter(pool: *mut u8, pool_len: usize, table: *mut u32, table_len: usize, name: *const u8, name_len: usize, answer: *mut u32, answer_len: usize) -> u32;
    fn shupkelen_solve(
        pool: *const u8, pool_len: usize, table: *const u32, table_len: usize, set: *const u32, set_len: usize, result: *mut u32, result_len: usize,
        work: *mut u32, work_len: usize, answer: *mut u32, answer_len: usize,
    ) -> u32;
}

struct Table {
    pool: Vec<u8>,
    table: Vec<u32>,
}

fn table(names: &str) -> Table {
    let mut t = Table { pool: vec![0; 8192], table: vec![0; 257] };
    let mut answer = [0u32; 3];
    for n in names.split_whitespace() {
        // SAFETY: each pointer is that of a slice or vector with its own length, and none overlap
        let refusal = unsafe { shupkelen_enter(t.pool.as_mut_ptr(), 8192, t.table.as_mut_ptr(), 257, n.as_ptr(), n.len(), answer.as_mut_ptr(), 3) };
        assert_eq!(refusal, 0);
    }
    t
}

fn solve(t: &Table, set: &[u32], result: &mut [u32], work: &mut [u32]) -> (u32, u32) {
    let mut answer = [0u32; 3];
    // SAFETY: as above
    let refusal = unsafe {
        shupkelen_solve(
            t.pool.as_ptr(), t.pool.len(), t.table.as_ptr(), t.table.len(), set.as_ptr(), set.len(), result.as_mut_ptr(), result.len(),
            work.as_mut_ptr(), work.len(), answer.as_mut_ptr(), 3,
        )
    };
    (refusal, answer[2])
}

/// The processor time of this thread, so that what else runs on the machine counts little.
fn cpu() -> f64 {
    let mut now = [0i64; 2];
    // SAFETY: 3 is CLOCK_THREAD_CPUTIME_ID, and two words are lent for a timespec
    assert_eq!(unsafe { clock_gettime(3, now.as_mut_ptr()) }, 0);
    now[0] as f64 * 1e6 + now[1] as f64 / 1e3
}

/// The least time of a run in microseconds, of as many as fit in the given time, five at least. `run` makes so many runs and gives their time; short ones are timed
/// some hundred together.
fn least(within: Duration, mut run: impl FnMut(usize) -> f64) -> f64 {
    let begun = Instant::now();
    let each = (500.0 / run(1)).clamp(1.0, 500.0) as usize;
    let mut best = f64::MAX;
    let mut n = 0;
    while n < 5 || begun.elapsed() < within {
        best = best.min(run(each) / each as f64);
        n += 1;
    }
    best
}

fn shown(us: f64) -> String {
    if us < 1000.0 { format!("{us:.1} µs") } else { format!("{:.2} ms", us / 1000.0) }
}

fn measured(what: &str, text: &str, names: &str, words: &str, within: Duration) {
    let original = access::set_of(constraints(&parse_all(text).unwrap()).unwrap());
    let set: Vec<u32> = words.split(' ').filter(|w| !w.is_empty()).map(|w| w.parse().unwrap()).collect();
    let t = table(names);
    let (mut result, mut work) = (vec![0u32; 8192], vec![0u32; 16384]);
    let (refusal, rounds) = solve(&t, &set, &mut result, &mut work);
    // both must come to the same end
    assert_eq!(original.clone().solve().is_ok(), refusal == 0, "{what}");
    let numbat = least(within, |k| {
        let mut sets = vec![original.clone(); k];
        let mut results = Vec::with_capacity(k);
        let begun = cpu();
        sets.iter_mut().for_each(|s| results.push(s.solve()));
        let took = cpu() - begun;
        black_box(results);
        took
    });
    let kept = least(within, |k| {
        let begun = cpu();
        for _ in 0..k {
            black_box(solve(&t, black_box(&set), &mut result, &mut work));
        }
        cpu() - begun
    });
    let anew = least(within, |k| {
        let begun = cpu();
        for _ in 0..k {
            let (mut result, mut work) = (vec![0u32; 8192], vec![0u32; 16384]);
            black_box(solve(&t, black_box(&set), &mut result, &mut work));
            black_box((&mut result, &mut work));
        }
        cpu() - begun
    });
    println!(
        "| {what} | {} | {refusal}, {rounds} | {} | {} | {:.2} | {} | {:.2} |",
        set.len() / 4, shown(numbat), shown(kept), kept / numbat, shown(anew), anew / numbat
    );
}

pub fn main() {
    let within = Duration::from_secs_f64(std::env::args().nth(1).map_or(1.0, |s| s.parse().unwrap()));
    let run = move || {
        let text = std::io::read_to_string(std::io::stdin()).unwrap();
        let lines: Vec<&str> = text.lines().collect();
        for c in lines.chunks(4) {
            measured(c[0], c[1], c[2], c[3], within);
        }
    };
    // numbat's own recursion on nested types needs a deep stack
    std::thread::Builder::new().stack_size(1 << 28).spawn(run).unwrap().join().unwrap();
}
