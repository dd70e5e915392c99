//! Random damage: words of stored cases are changed, lists cut, buffers lent too short. Every call must come back with one of its refusals or an
//! answer, leave the work buffer all zero (as it was, on 10), and leave the result buffer as it was past its answer.
mod common;
use common::{ask, lend, stored, Case, Lent, Random, RESULT_BEFORE, WORK_BEFORE};
use shupkelen::raw;

fn damage(r: &mut Random, c: &mut Case, l: &mut Lent) {
    for _ in 0..1 + r.below(4) {
        let k = r.below(4);
        let list = &mut c.lists[k];
        match r.below(6) {
            0 if !list.is_empty() => {
                let at = r.below(list.len());
                list[at] = r.next() as u32;
            }
            1 if !list.is_empty() => {
                let at = r.below(list.len());
                list[at] ^= 1 << r.below(32);
            }
            2 => list.truncate(r.below(list.len() + 1)),
            3 => {
                let at = r.below(l.table.len().max(1));
                if let Some(w) = l.table.get_mut(at) {
                    *w = r.below(300) as u32;
                }
            }
            4 => {
                let n = r.below(9000);
                list.resize(n, 65537);
            }
            _ => shorten(r, l),
        }
    }
}

fn shorten(r: &mut Random, l: &mut Lent) {
    match r.below(8) {
        0 => l.pool.truncate(r.below(8193)),
        1 => l.table.truncate(r.below(258)),
        2 => l.result.truncate(r.below(8193)),
        3 => l.work.truncate(r.below(16385)),
        _ => {}
    }
}

fn writes_records(call: u32) -> bool {
    matches!(call, 21 | 22 | 23 | 25 | 26 | 27 | 31 | 32)
}

fn try_one(r: &mut Random, stored: &Case) -> u32 {
    let mut c = stored.clone();
    let mut l = lend(&c);
    damage(r, &mut c, &mut l);
    let (t, words) = ask(&c, &mut l);
    assert!(t.refusal <= 12, "{}: refusal {}", c.comment, t.refusal);
    if writes_records(c.call) {
        assert!(l.result[words.len()..].iter().all(|&w| w == RESULT_BEFORE), "{}", c.comment);
        let after = if t.refusal == 10 { WORK_BEFORE } else { 0 };
        assert!(l.work.iter().all(|&w| w == after), "{}", c.comment);
        // what was answered is well formed in its turn
        if t.refusal == 0 && c.call != 27 {
            again(&c, &l, t.value as usize * 4);
        }
    }
    t.refusal
}

fn again(c: &Case, l: &Lent, words: usize) {
    let front = &l.result[..words];
    let refusal = match c.call {
        21 | 31 => raw::is_type(&l.pool, &l.table, front),
        22 => raw::is_set(&l.pool, &l.table, front),
        23 | 32 => raw::is_bindings(&l.pool, &l.table, front),
        _ => raw::is_scheme(&l.pool, &l.table, front),
    };
    assert_eq!(refusal, 0, "{}", c.comment);
}

#[test]
fn damaged_cases_are_answered_or_refused() {
    let cases = stored();
    let mut r = Random(88172645463325252);
    let mut seen = [0u32; 13];
    for _ in 0..20_000 {
        let c = &cases[r.below(cases.len())];
        seen[try_one(&mut r, c) as usize] += 1;
    }
    // damage reaches the answers and the refusals alike
    for n in [0, 1, 4, 5, 8, 10] {
        assert!(seen[n] > 20, "{n}: {seen:?}");
    }
}

/// Rubbish of any length for every slice, and for the calls that the stored cases do not have.
#[test]
fn rubbish_is_refused() {
    let mut r = Random(2463534242);
    for _ in 0..3_000 {
        let mut words = |n: usize| (0..n).map(|_| r.next() as u32).collect::<Vec<u32>>();
        let (set, mut table, mut skipped, mut result, mut work) = (words(64), words(257), words(2049), words(8192), words(16384));
        table[0] %= 4;
        let mut pool = vec![7u8; 8192];
        let mut kept = vec![3u8; 32768];
        let file: Vec<u8> = set.iter().flat_map(|w| w.to_le_bytes()).collect();
        let mut text = vec![5u8; 354304];
        let (k0, s0, t0, r0) = (kept.clone(), skipped.clone(), text.clone(), result.clone());
        if raw::rescue(&pool, &table, &file, &mut kept, &mut skipped).refusal != 0 {
            assert!(kept == k0 && skipped == s0);
        }
        assert!(raw::write_text(&pool, &table, &set, &mut text).refusal == 1 && text == t0);
        assert!(raw::eliminate(&pool, &table, &set, &mut result, &mut work).refusal == 1 && result == r0);
        assert!(work.iter().all(|&w| w == 0));
        damaged_text(&pool, &table, &file, &mut result, &mut work);
        let (p0, b0) = (pool.clone(), table.clone());
        let mut sets = set.clone();
        assert!(raw::compact(&mut pool, &mut table, &mut sets, &[16]).refusal == 1 && (pool, table, sets) == (p0, b0, set));
    }
}

/// Bytes as a sheet, over this table and over an empty one: they are refused, or all a comment, and nothing changes.
fn damaged_text(pool: &[u8], table: &[u32], bytes: &[u8], result: &mut [u32], work: &mut [u32]) {
    let r0 = result.to_vec();
    for (pool, table) in [(pool, table), (&[0u8; 8192], &[0u32; 257])] {
        let (mut p, mut b) = (pool.to_vec(), table.to_vec());
        let t = raw::read_text(&mut p, &mut b, bytes, result, work);
        match (raw::check_table(pool, table), t.refusal) {
            (0, 0) => assert_eq!((t.value, t.more), (0, 0)),
            (0, n) => assert!(matches!(n, 1 | 2 | 3 | 7 | 8 | 12) && t.value >= 1 && t.more >= 1, "{t:?}"),
            (of_table, n) => assert_eq!((n, t.value, t.more), (of_table, 0, 0)),
        }
        assert!(t.rounds == 0 && p == pool && b == table && result == r0 && work.iter().all(|&w| w == 0));
    }
}

extern "C" {
    fn shupkelen_exponent_add(num: i32, den: u32, num2: i32, den2: u32, answer: *mut u32, answer_len: usize) -> u32;
}

/// A short answer slice gets the words that it has, and no other word is touched; slices of no elements are taken.
#[test]
fn short_answers_and_empty_slices() {
    for lent in 0..=3 {
        let mut answer = [7u32; 3];
        // SAFETY: the pointer is that of an array with at least so many words
        let refusal = unsafe { shupkelen_exponent_add(1, 2, 1, 3, answer.as_mut_ptr(), lent) };
        let mut wanted = [7u32; 3];
        wanted[..lent].copy_from_slice(&[5, 6, 0][..lent]);
        assert_eq!((refusal, answer), (0, wanted));
    }
    assert_eq!(raw::compare(&[], &[]), 2);
    assert_eq!(raw::check_table(&[], &[]), 10);
    assert_eq!(raw::solve(&[], &[], &[], &mut [], &mut []).refusal, 10);
}
