//! Sheets checked on two threads, each with buffers and names of its own: `cargo run --example two_threads SHEET ..`.
use shupkelen::{NameTable, Solver};

/// How many of these sheets are confirmed.
fn accepted(paths: &[String]) -> usize {
    let mut solver = Solver::new();
    let confirmed = |path: &&String| {
        let mut names = NameTable::new();
        let text = std::fs::read(path).unwrap_or_default();
        let sheet = solver.read_text(&mut names, &text);
        sheet.is_ok_and(|sheet| solver.confirm(&names, &sheet.records).is_ok())
    };
    paths.iter().filter(confirmed).count()
}

fn main() {
    let paths: Vec<String> = std::env::args().skip(1).collect();
    let (first, second) = paths.split_at(paths.len() / 2);
    let (m, n) = std::thread::scope(|s| {
        let other = s.spawn(|| accepted(second));
        (accepted(first), other.join().expect("a sheet that is checked ends no thread"))
    });
    println!("{} of {} sheets are accepted", m + n, paths.len());
}
