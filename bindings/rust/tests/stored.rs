//! The stored cases of all calls, K1 to K14 first: the archive must answer them, and leave every buffer, as stored.
mod common;
use common::{ask, lend, stored, Case, RESULT_BEFORE, WORK_BEFORE};
use shupkelen::{NameTable, Refusal, Solver};

/// What the work buffer's words are after a call: zero where the call has one, except after a 10.
fn work_after(call: u32, refusal: u32) -> u32 {
    let has_one = matches!(call, 21 | 22 | 23 | 25 | 26 | 27 | 28 | 30 | 31 | 32);
    if has_one && refusal != 10 {
        0
    } else {
        WORK_BEFORE
    }
}

fn holds(c: &Case) {
    let mut l = lend(c);
    let (t, words) = ask(c, &mut l);
    assert_eq!((t.refusal, t.value, t.more, t.rounds), (c.refusal, c.value, c.more, c.rounds), "{}", c.comment);
    assert_eq!(words, c.words, "{}", c.comment);
    let rest = l.result.get(c.words.len()..).unwrap_or(&[]);
    let own = matches!(c.call, 2..=12);
    assert!(own || rest.iter().all(|&w| w == RESULT_BEFORE), "result buffer: {}", c.comment);
    assert!(l.work.iter().all(|&w| w == work_after(c.call, c.refusal)), "work buffer: {}", c.comment);
}

#[test]
fn all_as_stored() {
    let cases = stored();
    assert_eq!(cases.len(), 2411);
    cases.iter().for_each(holds);
}

/// K1 to K14 by the safe functions: each number stands among the stored cases.
#[test]
fn k1_to_k14() {
    let cases = stored();
    let mut solver = Solver::new();
    for k in 1..=14 {
        let tags = [format!(": K{k}: solve"), format!(": K{k} with x^1: solve")];
        let own: Vec<&Case> = cases.iter().filter(|c| tags.iter().any(|t| c.comment.contains(t))).collect();
        assert_eq!(own.len(), if k == 14 { 2 } else { 1 }, "K{k}");
        for c in own {
            let mut names = NameTable::new();
            for n in &c.names {
                assert!(names.enter(n.as_bytes()).unwrap().new);
            }
            let split = c.value as usize * 4;
            match solver.solve(&names, &c.lists[0]) {
                Ok(s) => {
                    assert_eq!((0, s.rounds), (c.refusal, c.rounds), "K{k}");
                    assert_eq!((s.binding_records(), s.bound_records()), c.words.split_at(split), "K{k}");
                }
                Err(s) => {
                    assert_eq!((s.refusal.number(), s.rounds), (c.refusal, c.rounds), "K{k}");
                    assert_eq!(s.remaining, c.words, "K{k}");
                }
            }
        }
    }
}

/// K2's binding is confirmed by the judge, and K10's is not: by the two calls, and by the one.
#[test]
fn the_judge_on_k2_and_k10() {
    let cases = stored();
    let mut solver = Solver::new();
    for (k, yes) in [(2, true), (10, false)] {
        let c = cases.iter().find(|c| c.comment.contains(&format!(": K{k}: solve"))).unwrap();
        let mut names = NameTable::new();
        for n in &c.names {
            names.enter(n.as_bytes()).unwrap();
        }
        let solved = solver.solve(&names, &c.lists[0]).unwrap();
        let (bindings, bounds) = (solved.binding_records(), solved.bound_records());
        assert_eq!(solver.judge(&names, &c.lists[0], &solved.entries(), bindings, bounds), Ok(yes), "K{k}");
        match solver.confirm(&names, &c.lists[0]) {
            Ok(s) => assert_eq!((yes, s), (true, solved), "K{k}"),
            Err(s) => assert_eq!((yes, s.refusal, s.rounds), (false, Refusal::NotConfirmed, c.rounds), "K{k}"),
        }
    }
}
