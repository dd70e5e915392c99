// Both ways to find the greatest common divisor, as they stand in Rattle, on the same operands in one run.
// rustc -O divisor.rs && ./divisor prints turns of the loop and time, each as a ratio of new to old.
use std::hint::black_box;
use std::time::Instant;

fn by_remainders(a: u64, b: u64, turns: &mut u64) -> u64 {
    let (mut x, mut y) = (a, b);
    while y != 0 {
        let t = x % y;
        x = y;
        y = t;
        *turns += 1;
    }
    x
}

fn without_twos(n: u64) -> u64 {
    n >> n.trailing_zeros()
}

fn smaller(x: u64, y: u64) -> u64 {
    if x < y { x } else { y }
}

fn larger(x: u64, y: u64) -> u64 {
    if x < y { y } else { x }
}

fn by_shifts(a: u64, b: u64, turns: &mut u64) -> u64 {
    if b == 1 {
        return 1;
    }
    if a == 0 {
        return b;
    }
    if b == 0 {
        return a;
    }
    let (i, j) = (a.trailing_zeros(), b.trailing_zeros());
    let (mut x, mut y) = (a >> i, b >> j);
    while x != y {
        let low = smaller(x, y);
        x = without_twos(larger(x, y) - low);
        y = low;
        *turns += 1;
    }
    if i <= j { x << i } else { x << j }
}

struct Random(u64);

impl Random {
    fn next(&mut self, below: u64) -> u64 {
        self.0 ^= self.0 << 13;
        self.0 ^= self.0 >> 7;
        self.0 ^= self.0 << 17;
        self.0 % below
    }
}

fn small(r: &mut Random) -> Vec<(u64, u64)> {
    // numerators and denominators of sums and products of powers as forms have them: -3 to 3 over 1 to 3, not yet reduced
    let mut out = Vec::new();
    for _ in 0..20_000 {
        let (n, d, m, e) = (r.next(4), 1 + r.next(3), r.next(4), 1 + r.next(3));
        out.push((n * e + m * d, d * e));
        out.push((n * m, d * e));
    }
    out
}

fn whole(r: &mut Random) -> Vec<(u64, u64)> {
    // powers that are whole numbers
    (0..40_000).map(|_| (r.next(7), 1)).collect()
}

fn random(r: &mut Random) -> Vec<(u64, u64)> {
    (0..40_000).map(|_| (r.next(1 << 31), 1 + r.next((1 << 31) - 1))).collect()
}

fn products(r: &mut Random) -> Vec<(u64, u64)> {
    // what a product or a sum of two fractions of 31 bits reduces: 62 and 63 bits
    (0..40_000).map(|_| (r.next(1 << 62), 1 + r.next((1 << 62) - 1))).collect()
}

fn worst() -> Vec<(u64, u64)> {
    // neighbours of the Fibonacci numbers: most turns by remainders; 2^k and 1, 2^k - 1 and 1, 2^k + 1 and 2^k - 1: the ends of the range
    let mut out = Vec::new();
    let (mut a, mut b) = (1u64, 1u64);
    while b < 1 << 62 {
        out.push((b, a));
        out.push((b - 1, a));
        out.push((b, a + 1));
        (a, b) = (b, a + b);
    }
    for k in 1..63 {
        let p = 1u64 << k;
        out.extend([(p, 1), (p - 1, 1), (p + 1, p - 1), (p, p - 1), (p - 1, p), (0, p), (p, 0), (p, p)]);
    }
    out.extend([(0, 0), (0, 1), (1, 0), (u64::MAX, u64::MAX), (u64::MAX, 1), (2147483647, 2147483646)]);
    out
}

fn main() {
    let mut r = Random(88172645463325252);
    let lists = [("whole powers", whole(&mut r)), ("small fractions", small(&mut r)), ("random, 31 bits", random(&mut r)), ("random, 62 bits", products(&mut r)), ("worst cases", worst())];
    println!("operands             turns new/old   time new/old");
    for (name, list) in &lists {
        let (mut old, mut new) = (0, 0);
        for &(a, b) in list {
            assert_eq!(by_remainders(a, b, &mut old), by_shifts(a, b, &mut new), "{a} {b}");
        }
        let mut times = [Vec::new(), Vec::new()];
        for _ in 0..51 {
            for (k, f) in [by_remainders as fn(u64, u64, &mut u64) -> u64, by_shifts].iter().enumerate() {
                let start = Instant::now();
                let mut turns = 0;
                for &(a, b) in list {
                    black_box(f(black_box(a), black_box(b), &mut turns));
                }
                black_box(turns);
                times[k].push(start.elapsed().as_nanos());
            }
        }
        times.iter_mut().for_each(|t| t.sort());
        println!("{name:<20} {:>13.2} {:>14.2}", new as f64 / old as f64, times[1][25] as f64 / times[0][25] as f64);
    }
}
