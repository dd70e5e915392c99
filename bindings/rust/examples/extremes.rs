//! Time and stack of calls at their largest inputs, as a caller of the archive has them: those that the program `serve` doesn't have, and those that are lent a list,
//! of the type that takes the deepest stack that was found: `cargo run --release --example extremes`.
//! A time is the least of ten calls. A stack is what a call wrote to below its caller's frame, found by painting the stack first.
use shupkelen::{kind, raw, record};
use std::time::Instant;

const PAINT: usize = 6 << 20;

struct Lent {
    pool: Vec<u8>,
    table: Vec<u32>,
    result: Vec<u32>,
    work: Vec<u32>,
}

impl Lent {
    fn new() -> Lent {
        Lent { pool: vec![0; 8192], table: vec![0; 257], result: vec![0; 8192], work: vec![0; 16384] }
    }

    fn read(&mut self, text: &[u8]) -> raw::Told {
        raw::read_text(&mut self.pool, &mut self.table, text, &mut self.result, &mut self.work)
    }
}

/// How many bytes below this frame the call writes to.
#[inline(never)]
fn painted(call: &mut dyn FnMut()) -> usize {
    let here = 0u8;
    let top = (&here as *const u8 as usize & !15) - 1024;
    // SAFETY: the thread that calls has 8 MB of stack, of which this frame is near the top; nothing lives below it.
    unsafe { (0..PAINT).step_by(8).for_each(|i| ((top - 8 - i) as *mut u64).write_volatile(0xa5a5_a5a5_a5a5_a5a5)) };
    call();
    let untouched = unsafe { (0..PAINT).step_by(8).rev().take_while(|i| ((top - 8 - i) as *const u64).read_volatile() == 0xa5a5_a5a5_a5a5_a5a5).count() * 8 };
    PAINT - untouched
}

fn measure(what: &str, size: String, mut call: impl FnMut() -> u32 + Send + 'static) {
    let what = what.to_string();
    let run = move || {
        let mut refusal = 0;
        let best = (0..10)
            .map(|_| {
                let t = Instant::now();
                refusal = call();
                t.elapsed()
            })
            .min()
            .unwrap();
        let stack = painted(&mut || {
            call();
        });
        println!("| {what} | {size} | {refusal} | {:.2} ms | {} KB |", best.as_secs_f64() * 1e3, stack.div_ceil(1024));
    };
    std::thread::Builder::new().stack_size(8 << 20).spawn(run).unwrap().join().unwrap();
}

fn reading(what: &str, text: String) {
    let size = format!("{} bytes", text.len());
    measure(what, size, move || {
        let mut lent = Lent::new();
        lent.read(text.as_bytes()).refusal
    });
}

fn writing(what: &str, text: &str) {
    let mut lent = Lent::new();
    let told = lent.read(text.as_bytes());
    assert_eq!(told.refusal, 0, "{what}");
    let records = told.value as usize;
    measure(what, format!("{records} records"), move || raw::write_text(&lent.pool, &lent.table, &lent.result[..records * 4], &mut vec![0; 354304]).refusal);
}

/// 31 products of 64 base dimensions whose names are 48 bytes that are escaped, with long powers.
fn long_products() -> String {
    let name = |i: usize| {
        format!(
            "#{}",
            (0..48)
                .map(|k| format!(
                    "\\{:02x}",
                    if k < 46 {
                        1
                    } else if k == 46 {
                        1 + i / 16
                    } else {
                        1 + i % 16
                    }
                ))
                .collect::<String>()
        )
    };
    (0..31)
        .map(|r| format!("[{}] = Scalar\n", (0..64).map(|i| format!("{}^(-2147483647/{})", name(i), 2147483629 - r)).collect::<Vec<_>>().join(" * ")))
        .collect()
}

fn function(parameters: usize) -> String {
    format!("Fn[({}) -> ?x]: DType\n", vec!["?x"; parameters].join(", "))
}

fn nested(depth: usize) -> String {
    format!("{}?x{}: DType\n", "List<".repeat(depth), ">".repeat(depth))
}

/// Wide and nested in one, as text: `@P<?x, ?x, .. @P<@P<..[?x^(2) * ?y]..>>>`, of so many records.
fn deep_text(records: usize) -> String {
    format!("@P<{}{}[?x^(2) * ?y]{}>", "?x, ".repeat(records - 66), "@P<".repeat(62), ">".repeat(62))
}

/// The same as records: x, P and y have the numbers 0, 1 and 2; or, of a scheme, with quantified variables 0 and 1 in the place of x and y.
fn deep(records: u32, quantified: bool) -> Vec<u32> {
    let (variable, factor, other) = if quantified { (kind::QUANTIFIED, kind::QUANTIFIED_FACTOR, 1) } else { (kind::VARIABLE, kind::VARIABLE_FACTOR, 2) };
    let wide = records - 66;
    let mut words = record(kind::STRUCT, records, 1, wide + 1, 0).to_vec();
    (0..wide).for_each(|_| words.extend(record(variable, 1, 0, 0, 0)));
    (0..62).for_each(|i| words.extend(record(kind::STRUCT, 65 - i, 1, 1, 0)));
    words.extend(record(kind::DIMENSION, 3, 2, 0, 0));
    words.extend(record(factor, 1, 0, 2, 1));
    words.extend(record(factor, 1, other, 1, 1));
    words
}

/// Calls that are lent that type: ?z is equal to it, or ?w is put into it in the place of ?x, or it is only looked at.
fn wide_and_nested() {
    let of = |call: &str, records: u32, mut f: Box<dyn FnMut(&mut Lent) -> u32 + Send>| {
        let mut lent = Lent::new();
        ["x", "P", "y", "z", "w"].iter().for_each(|name| assert_eq!(raw::enter(&mut lent.pool, &mut lent.table, name.as_bytes()).refusal, 0));
        measure(&format!("{call}: a wide struct that ends in 62 nested ones"), format!("{records} records"), move || f(&mut lent));
    };
    let variable = |name: u32| record(kind::VARIABLE, 1, name, 0, 0);
    let under = |kind: u32, a: u32, b: u32, parts: &[&[u32]]| [&record(kind, 1 + parts.concat().len() as u32 / 4, a, b, 0), parts.concat().as_slice()].concat();
    let equal = |left: &[u32], right: &[u32]| under(kind::EQUAL, 0, 0, &[left, right]);
    let binding = under(kind::BINDING, 0, 0, &[&variable(4)]);
    let set = [equal(&variable(3), &deep(2043, false)), equal(&variable(0), &variable(4))].concat();
    let (set2, set3, binding2) = (set.clone(), set.clone(), binding.clone());
    of("replace_in_type", 2048, Box::new(move |l| raw::replace_in_type(&l.pool, &l.table, &deep(2048, false), &binding, &mut l.result, &mut l.work).refusal));
    let line = under(kind::IS_DIMENSION, 0, 0, &[&deep(2047, false)]);
    of("replace_in_set", 2048, Box::new(move |l| raw::replace_in_set(&l.pool, &l.table, &line, &binding2, &mut l.result, &mut l.work).refusal));
    of("solve", 2048, Box::new(move |l| raw::solve(&l.pool, &l.table, &set, &mut l.result, &mut l.work).refusal));
    of("confirm", 2048, Box::new(move |l| raw::confirm(&l.pool, &l.table, &set2, &mut l.result, &mut l.work).refusal));
    of("solve_all", 2048, Box::new(move |l| raw::solve_all(&l.pool, &l.table, &set3, &[2048], &mut l.result, &mut [0; 4], &mut l.work).refusal));
    of("quantify", 2047, Box::new(|l| raw::quantify(&l.pool, &l.table, &deep(2047, false), &[], &[0, 2], &mut l.result, &mut l.work).refusal));
    let (concrete, quantified) = (under(kind::SCHEME, 0, 1, &[&deep(2047, false)]), under(kind::SCHEME, 2, 0, &[&deep(2047, true)]));
    of("generalise", 2048, Box::new(move |l| raw::generalise(&l.pool, &l.table, &concrete, &[], &mut l.result, &mut l.work).refusal));
    of("instantiate", 2048, Box::new(move |l| raw::instantiate(&l.pool, &l.table, &quantified, &[0, 2], &mut l.result, &mut l.work).refusal));
    let judged = equal(&variable(3), &deep(2046, false));
    of("judge", 2048, Box::new(move |l| raw::judge(&l.pool, &l.table, &judged, &[0, 0], &variable(4), &[], &mut l.work).refusal));
    of("check_line", 2046, Box::new(|l| raw::check_line(&l.pool, &l.table, &[2, 0, 0, 0], &deep(2046, false), &[0], &[4], &mut l.result, &mut l.work).refusal));
    let looked = under(kind::IS_DIMENSION, 0, 0, &[&deep(2047, false)]);
    let (measured, eliminated, mut compacted) = (looked.clone(), looked.clone(), looked.clone());
    let file: Vec<u8> = looked.iter().flat_map(|w| w.to_le_bytes()).collect();
    of("is_set", 2048, Box::new(move |l| raw::is_set(&l.pool, &l.table, &looked)));
    of("ceiling", 2048, Box::new(move |l| raw::ceiling(&l.pool, &l.table, &measured).refusal));
    of("closed", 2048, Box::new(|l| raw::closed(&l.pool, &l.table, &deep(2048, false)).refusal));
    of("eliminate", 2048, Box::new(move |l| raw::eliminate(&l.pool, &l.table, &eliminated, &mut l.result, &mut l.work).refusal));
    of("rescue", 2048, Box::new(move |l| raw::rescue(&l.pool, &l.table, &file, &mut vec![0; 32768], &mut vec![0; 2049]).refusal));
    of("compact", 2048, Box::new(move |l| raw::compact(&mut l.pool, &mut l.table, &mut compacted, &[2048]).refusal));
}

fn main() {
    println!("| call | size | refusal | time | stack |\n|---|---|---|---|---|");
    // the long names of a product need 64 x 48 bytes of the pool
    reading("read_text: 31 products of 64 factors, names and powers as long as can be", long_products());
    reading("read_text: a function of 2,045 parameters", function(2045));
    reading("read_text: a function of 100,000 parameters", function(100_000));
    reading("read_text: 63 nested lists", nested(63));
    reading("read_text: 63 nested structs, each of a field, around a product", format!("{}[?x^(2) * ?y]{}: DType\n", "@P{f: ".repeat(63), "}".repeat(63)));
    reading("read_text: 100,000 nested lists", nested(100_000));
    reading("read_text: 682 lines", (0..682).map(|i| format!("?v{:03} ~ ?v{:03}\n", i % 250, (i * 7 + 1) % 250)).collect());
    reading("read_text: comments", "-- nothing is said here\n".repeat(400_000));
    reading("read_text: one line of blanks", " ".repeat(1_000_000));
    writing("write_text: 31 products of 64 factors, names and powers as long as can be", &long_products());
    writing("write_text: a function of 2,045 parameters", &function(2045));
    writing("write_text: 63 nested lists", &nested(63));
    writing("write_text: a wide struct that ends in 62 nested ones", &format!("{}: DType\n", deep_text(2047)));
    let rows: String = (0..24)
        .map(|r| {
            format!(
                "[{} * {}] = Scalar\n",
                (0..24).map(|i| format!("?x{i:02}^({})", 1 + (i * 5 + r * r) % 7)).collect::<Vec<_>>().join(" * "),
                (0..24).map(|i| format!("#b{i:02}^({})", 1 + (i + r) % 3)).collect::<Vec<_>>().join(" * ")
            )
        })
        .collect();
    let plain: String = (0..24)
        .map(|r| format!("[?x{r:02}^(2) * {}] = Scalar\n", (0..24).map(|i| format!("#b{i:02}^({})", 1 + (i + r) % 3)).collect::<Vec<_>>().join(" * ")))
        .collect();
    for (what, text) in [("eliminate: 24 full rows", rows), ("eliminate: 24 rows of one variable each", plain)] {
        let mut lent = Lent::new();
        let told = lent.read(text.as_bytes());
        assert_eq!(told.refusal, 0, "{what}");
        let set = lent.result[..told.value as usize * 4].to_vec();
        measure(what, format!("{} records", told.value), move || raw::eliminate(&lent.pool, &lent.table, &set, &mut lent.result, &mut lent.work).refusal);
    }
    let mut lent = Lent::new();
    (0..256).for_each(|i| assert_eq!(raw::enter(&mut lent.pool, &mut lent.table, format!("{i:032}").as_bytes()).refusal, 0));
    assert_eq!(lent.read(function(2045).replace("?x", &format!("?{:032}", 255)).as_bytes()).refusal, 0);
    let sets = lent.result[..8192].repeat(64);
    measure("compact: 64 sets of 2,048 records, one of 256 names is used", "131072 records".to_string(), move || {
        let (mut pool, mut table, mut sets) = (lent.pool.clone(), lent.table.clone(), sets.clone());
        raw::compact(&mut pool, &mut table, &mut sets, &[2048; 64]).refusal
    });
    let mut lent = Lent::new();
    (0..256).for_each(|i| assert_eq!(raw::enter(&mut lent.pool, &mut lent.table, format!("{i:032}").as_bytes()).refusal, 0));
    measure("check_table: 256 names of 32 bytes that differ in the last three", "256 names".to_string(), move || raw::check_table(&lent.pool, &lent.table));
    wide_and_nested();
}
