//! Every exported call over slices, as it stands: nothing is owned, nothing is checked before the call. What a call says goes into its answer, in the order in
//! which its text says it; more is told in `include/shupkelen.h`, where the calls have the same names with `shupkelen_` in front.

/// How many words an answer has.
pub const ANSWER_WORDS: usize = 3;

/// What a call says: the refusal's number or 0, and the three words of its answer.
#[derive(Clone, Copy, Debug, PartialEq, Eq)]
pub struct Told {
    /// The refusal's number, or 0.
    pub refusal: u32,
    /// What the call says first.
    pub value: u32,
    /// What it says next.
    pub more: u32,
    /// The completed rounds, of solving; of [`read_text`] the count of new names.
    pub rounds: u32,
}

// SAFETY of every call here: each pointer is that of a slice, with the slice's own length, so it is aligned, not null, and valid for that many elements
// during the call; what is lent as `&mut` overlaps nothing else, as the borrow checker sees to. The calls keep no pointer and take any content.
macro_rules! lend {
    (@ $f:ident ($($a:expr),*)) => { unsafe { shupkelen_sys::$f($($a),*) } };
    (@ $f:ident ($($a:expr),*) & $s:ident $(, $($rest:tt)*)?) => { lend!(@ $f ($($a,)* $s.as_ptr(), $s.len()) $($($rest)*)?) };
    (@ $f:ident ($($a:expr),*) mut $s:ident $(, $($rest:tt)*)?) => { lend!(@ $f ($($a,)* $s.as_mut_ptr(), $s.len()) $($($rest)*)?) };
    (@ $f:ident ($($a:expr),*) $n:ident $(, $($rest:tt)*)?) => { lend!(@ $f ($($a,)* $n) $($($rest)*)?) };
    ($f:ident, $($rest:tt)*) => { lend!(@ $f () $($rest)*) };
}

// The same, with three words for the answer lent last.
macro_rules! ask {
    ($f:ident, $($rest:tt)*) => {{
        let mut answer = [0u32; ANSWER_WORDS];
        let refusal = lend!($f, $($rest)*, mut answer);
        Told { refusal, value: answer[0], more: answer[1], rounds: answer[2] }
    }};
}

// from crates/shupkelen/src, by tools/header.py
/// The version of the library, as one number: `SHUPKELEN_VERSION` of the header that belongs to it.
pub fn version() -> u32 {
    lend!(shupkelen_version,)
}

/// The order of two names by their bytes, first to last, a prefix before what it begins: returns 1 for less, 2 for same, 3 for more.
pub fn compare(first: &[u8], second: &[u8]) -> u32 {
    lend!(shupkelen_compare, &first, &second)
}

/// Is it a name table: ends in the pool that rise, names of 1 to 48 bytes, no name twice? Refuses with 10 (a short pool or table) and 1; 0 says yes.
pub fn check_table(pool: &[u8], table: &[u32]) -> u32 {
    lend!(shupkelen_check_table, &pool, &table)
}

/// Has a name this number? Refuses with 10, 1 and 3 (none has); 0 says yes.
pub fn check_number(pool: &[u8], table: &[u32], name: u32) -> u32 {
    lend!(shupkelen_check_number, &pool, &table, name)
}

/// Where the name with this number stands in the pool: says its first byte, and how many bytes. Refuses with 10, 1 and 3.
pub fn name_of(pool: &[u8], table: &[u32], name: u32) -> Told {
    ask!(shupkelen_name_of, &pool, &table, name)
}

/// Enters a name: says its number, and 1 where it is new, 0 where it was known. Refuses with 10, 1, 2 (no byte, or over 48) and 3 (no room), and changes
/// neither pool nor table then.
pub fn enter(pool: &mut [u8], table: &mut [u32], name: &[u8]) -> Told {
    ask!(shupkelen_enter, mut pool, mut table, &name)
}

/// The sum of two exponents, fractions in lowest terms: says its numerator in two's complement, and its denominator. Refuses with 1 (one is not well formed)
/// and 7 (out of range: numerators and denominators are at most 2,147,483,647).
pub fn exponent_add(num: i32, den: u32, num2: i32, den2: u32) -> Told {
    ask!(shupkelen_exponent_add, num, den, num2, den2)
}

/// The product of two exponents. Says and refuses as the sum does.
pub fn exponent_multiply(num: i32, den: u32, num2: i32, den2: u32) -> Told {
    ask!(shupkelen_exponent_multiply, num, den, num2, den2)
}

/// The negative of an exponent. Says as the sum does. Refuses with 1.
pub fn exponent_negate(num: i32, den: u32) -> Told {
    ask!(shupkelen_exponent_negate, num, den)
}

/// The quotient of two exponents. Says and refuses as the sum does, with 7 also where the divisor is 0.
pub fn exponent_divide(num: i32, den: u32, num2: i32, den2: u32) -> Told {
    ask!(shupkelen_exponent_divide, num, den, num2, den2)
}

/// The product of two products, their powers added factor by factor. `result` gets all 64 places, (0, 0, 0, 1) in the unused ones, as far as it goes; says how
/// many factors. Refuses with 10, 1, 7 (a power out of range) and 8 (over 64 factors), and writes nothing then.
pub fn product_multiply(pool: &[u8], table: &[u32], first: &[u32], second: &[u32], result: &mut [u32]) -> Told {
    ask!(shupkelen_product_multiply, &pool, &table, &first, &second, mut result)
}

/// The quotient of two products: the first times the inverse of the second. Writes, says and refuses as the multiplication does.
pub fn product_divide(pool: &[u8], table: &[u32], first: &[u32], second: &[u32], result: &mut [u32]) -> Told {
    ask!(shupkelen_product_divide, &pool, &table, &first, &second, mut result)
}

/// The inverse of a product: each power negated. Writes, says and refuses as the multiplication does; 7 and 8 don't come.
pub fn product_invert(pool: &[u8], table: &[u32], first: &[u32], result: &mut [u32]) -> Told {
    ask!(shupkelen_product_invert, &pool, &table, &first, mut result)
}

/// A power of a product: each power multiplied by the fraction; the power 0 gives the scalar. Writes and says as the multiplication does. Refuses with 10, 1
/// (also a fraction that is not in lowest terms or out of range) and 7.
pub fn product_power(pool: &[u8], table: &[u32], first: &[u32], num: i32, den: u32, result: &mut [u32]) -> Told {
    ask!(shupkelen_product_power, &pool, &table, &first, num, den, mut result)
}

/// Is it a set: constraints one after another, each well formed, at most 2,048 records? Refuses with 10, 8 and 1; 0 says yes.
pub fn is_set(pool: &[u8], table: &[u32], words: &[u32]) -> u32 {
    lend!(shupkelen_is_set, &pool, &table, &words)
}

/// Is it one well formed type? Refuses with 10, 8 and 1; 0 says yes.
pub fn is_type(pool: &[u8], table: &[u32], words: &[u32]) -> u32 {
    lend!(shupkelen_is_type, &pool, &table, &words)
}

/// Is it a scheme: a concrete type, or a count of quantified names, a type and bounds? Refuses with 10, 8 and 1; 0 says yes.
pub fn is_scheme(pool: &[u8], table: &[u32], words: &[u32]) -> u32 {
    lend!(shupkelen_is_scheme, &pool, &table, &words)
}

/// Are these bindings, each of a variable to a well formed type? Refuses with 10, 8 and 1; 0 says yes.
pub fn is_bindings(pool: &[u8], table: &[u32], words: &[u32]) -> u32 {
    lend!(shupkelen_is_bindings, &pool, &table, &words)
}

/// Are all four buffers long enough for a call that writes records? 10 where one is not; 0 says yes.
pub fn lent(pool: &[u8], table: &[u32], result: &[u32], work: &[u32]) -> u32 {
    lend!(shupkelen_lent, &pool, &table, &result, &work)
}

/// Does a type contain the variable of this name or, where parameters is 1, the parameter? Says 1 for yes and 0 for no. Refuses with 10, 8, 1 (also a number
/// that no name has) and 4 (one name is both a variable and a parameter).
pub fn contains(pool: &[u8], table: &[u32], words: &[u32], name: u32, parameters: bool) -> Told {
    let parameters = parameters as u32;
    ask!(shupkelen_contains, &pool, &table, &words, name, parameters)
}

/// Has a type no variable and no parameter? Says 1 for yes and 0 for no. Refuses with 10, 8, 1 and 4.
pub fn closed(pool: &[u8], table: &[u32], words: &[u32]) -> Told {
    ask!(shupkelen_closed, &pool, &table, &words)
}

/// The numbers of a type's variables and, where parameters is 1, of its parameters, each once, in the order of their names' bytes, at the front of `result`.
/// Says how many. Refuses with 10, 8, 1 and 4, and writes nothing then.
pub fn variables(pool: &[u8], table: &[u32], words: &[u32], parameters: bool, result: &mut [u32]) -> Told {
    let parameters = parameters as u32;
    ask!(shupkelen_variables, &pool, &table, &words, parameters, mut result)
}

/// What a watchdog may count on: says how many distinct variables a set has, and the most rounds that solving it can take. Refuses with 10, 8 and 1.
pub fn ceiling(pool: &[u8], table: &[u32], set: &[u32]) -> Told {
    ask!(shupkelen_ceiling, &pool, &table, &set)
}

/// Tests a constraint, and stores it behind the first `count` records of the buffer (8,192 words or more), which are a set, unless it is satisfied. Says 1
/// Satisfied, 2 Violated or 3 Unknown, and how many records the set has then. Refuses with 10, 8, 1, then 8 where the constraint has no room, and leaves the
/// buffer as it was.
pub fn add(pool: &[u8], table: &[u32], buffer: &mut [u32], count: usize, constraint: &[u32]) -> Told {
    ask!(shupkelen_add, &pool, &table, mut buffer, count, &constraint)
}

/// A type with bindings put in, everywhere, at the front of `result`; what is put in is not looked at again. Says how many records; the work buffer is left all
/// zero. Refuses with 10, 8, 1, 4, then 6, 7 and 8, and `result` is then as before.
pub fn replace_in_type(pool: &[u8], table: &[u32], words: &[u32], bindings: &[u32], result: &mut [u32], work: &mut [u32]) -> Told {
    ask!(shupkelen_replace_in_type, &pool, &table, &words, &bindings, mut result, mut work)
}

/// A set with bindings put in, everywhere, at the front of `result`; what is put in is not looked at again. Says how many records; the work buffer is left all
/// zero. Refuses with 10, 8, 1, 4, then 6, 7 and 8, and `result` is then as before.
pub fn replace_in_set(pool: &[u8], table: &[u32], set: &[u32], bindings: &[u32], result: &mut [u32], work: &mut [u32]) -> Told {
    ask!(shupkelen_replace_in_set, &pool, &table, &set, &bindings, mut result, mut work)
}

/// Solves a set, round by round: the bindings, then the bounds (variables that may be any dimension), at the front of `result`. Says how many records of
/// bindings, how many bounds, a record each, and how many rounds were completed; the work buffer is left all zero. On 5 `result` begins with the constraints
/// that remain, and their records are said. Refuses with 10, 8, 1, 4, then 5, 6, 7 and 8. What is answered makes every constraint true where no variable that
/// stands in a dimension product of the set is bound to anything but a dimension or a variable, and elsewhere it may not (x y = x z is answered, with x
/// boolean): `shupkelen_confirm` answers only what does.
pub fn solve(pool: &[u8], table: &[u32], set: &[u32], result: &mut [u32], work: &mut [u32]) -> Told {
    ask!(shupkelen_solve, &pool, &table, &set, mut result, mut work)
}

/// Solves a set, and answers only what the judge confirms over the same set: what is answered makes every constraint of the set true, whatever the set. The
/// call to use where somebody relies on an answer. It writes and says what `shupkelen_solve` does, and refuses as it does; then, of what solving accepts, with
/// 7 or 8 where the judge meets them, and with 11 for its no. `result` is then as before; the rounds are those of solving. Two structs of one name and the same
/// arguments are the same type, whatever fields they have.
pub fn confirm(pool: &[u8], table: &[u32], set: &[u32], result: &mut [u32], work: &mut [u32]) -> Told {
    ask!(shupkelen_confirm, &pool, &table, &set, mut result, mut work)
}

/// Solves up to 64 sets that stand back to back, each by itself; `lengths` has their records. Of each set four words go to `answers`: the refusal, completed
/// rounds, records of bindings (on 5: of what remains), bounds; `result` has their records back to back. Says how many these are together. With n sets `result`
/// has 8,192 n words and `answers` 4 n, or more. Refuses with 10, 8 and 1; a refused set doesn't stop those after it. Each answer is worth what that of
/// `shupkelen_solve` is: of an accepted set ask the judge, or `shupkelen_confirm`.
pub fn solve_all(pool: &[u8], table: &[u32], sets: &[u32], lengths: &[u32], result: &mut [u32], answers: &mut [u32], work: &mut [u32]) -> Told {
    ask!(shupkelen_solve_all, &pool, &table, &sets, &lengths, mut result, mut answers, mut work)
}

/// The second engine, for up to 24 equal-scalar constraints over up to 24 variables and up to 24 parameters and base dimensions: Gaussian elimination, row by
/// row. The bindings, or on 5 the constraints that remain, at the front of `result`; says how many records. Refuses with 10, 8, 1, 4, then 8 (another set), 5
/// and 7.
pub fn eliminate(pool: &[u8], table: &[u32], set: &[u32], result: &mut [u32], work: &mut [u32]) -> Told {
    ask!(shupkelen_eliminate, &pool, &table, &set, mut result, mut work)
}

/// Is this a solution of the set, whoever proposed it? Entries are pairs of words: a variable's number, and the place of its type in `types`, in records; an
/// odd last word is not looked at. `bounds` has records of bounds. Says 1 for yes and 0 for no, and returns 0 for a no, too; the work buffer is left all zero.
/// Refuses with 10, 8 (over 2,048 pairs, too), 1 (an entry's number that no name has, too), 4, then 7 and 8.
pub fn judge(pool: &[u8], table: &[u32], set: &[u32], entries: &[u32], types: &[u32], bounds: &[u32], work: &mut [u32]) -> Told {
    ask!(shupkelen_judge, &pool, &table, &set, &entries, &types, &bounds, mut work)
}

/// Checks a whole calculation line, and leaves the type of its last step at the front of `result`: says how many records. `steps` has four words a step, in
/// postfix order; `types` the records of the types that they point to; `lines` the places of the earlier lines' types there; `names` the numbers of names lent
/// for the steps, one each or more. Refuses with 10, 8, 1, 4 (a lent name is given twice, or used in the line), 3, then as solving does, and with 11 where the
/// judge says no.
#[allow(clippy::too_many_arguments)]
pub fn check_line(pool: &[u8], table: &[u32], steps: &[u32], types: &[u32], lines: &[u32], names: &[u32], result: &mut [u32], work: &mut [u32]) -> Told {
    ask!(shupkelen_check_line, &pool, &table, &steps, &types, &lines, &names, mut result, mut work)
}

/// A scheme from a type and bounds: the handed names, numbers in `names`, become indices 0, 1, .. in their order. At the front of `result`; says how many
/// records. Refuses with 10, 8, 1 (a handed number that no name has, too), 4, then 8 of a scheme of over 2,048 records.
pub fn quantify(pool: &[u8], table: &[u32], words: &[u32], bounds: &[u32], names: &[u32], result: &mut [u32], work: &mut [u32]) -> Told {
    ask!(shupkelen_quantify, &pool, &table, &words, &bounds, &names, mut result, mut work)
}

/// The scheme generalised: of a concrete type all names are quantified, with those of the bounds that are among them; another scheme stays. At the front of
/// `result`; says how many records. Refuses with 10, 8, 1, 4, then 8 of a scheme of over 2,048 records.
pub fn generalise(pool: &[u8], table: &[u32], scheme: &[u32], bounds: &[u32], result: &mut [u32], work: &mut [u32]) -> Told {
    ask!(shupkelen_generalise, &pool, &table, &scheme, &bounds, mut result, mut work)
}

/// The type and then the bounds of a scheme, with the handed names in the place of its indices. At the front of `result`; says how many records. Refuses with
/// 10, 8, 1 (a handed number that no name has, too), 4, 9 (as many names as the scheme has must be handed), then 7.
pub fn instantiate(pool: &[u8], table: &[u32], scheme: &[u32], names: &[u32], result: &mut [u32], work: &mut [u32]) -> Told {
    ask!(shupkelen_instantiate, &pool, &table, &scheme, &names, mut result, mut work)
}

/// Rescues what is well formed of a damaged set file: words of four bytes, the lowest first, four words a record. The constraints that are whole go to the
/// front of `kept` (32,768 bytes or more), the place of each other record, and of a torn last one, to the front of `skipped` (2,049 words or more). Says how
/// many records are kept and how many places skipped. Refuses with 10, 8 (over 2,048 records) and 1 (no name table), and changes nothing then.
pub fn rescue(pool: &[u8], table: &[u32], file: &[u8], kept: &mut [u8], skipped: &mut [u32]) -> Told {
    ask!(shupkelen_rescue, &pool, &table, &file, mut kept, mut skipped)
}

/// Drops the names that no set uses, moves the others up in the pool and renumbers the sets, all in place. The sets stand back to back, up to 64 of them;
/// `lengths` has their records. Says how many names are kept; numbers held elsewhere mean nothing afterwards. Refuses with 10, 8 and 1, and changes nothing
/// then.
pub fn compact(pool: &mut [u8], table: &mut [u32], sets: &mut [u32], lengths: &[u32]) -> Told {
    ask!(shupkelen_compact, mut pool, mut table, mut sets, &lengths)
}

/// Writes a set as text, a line a constraint, to the front of `text` (354,304 bytes or more; the rest stays). Says how many bytes. Refuses with 10, 8 and 1,
/// and writes nothing then.
pub fn write_text(pool: &[u8], table: &[u32], set: &[u32], text: &mut [u8]) -> Told {
    ask!(shupkelen_write_text, &pool, &table, &set, mut text)
}

/// Reads text, any bytes, as a set (docs/GRAMMAR.md), to the front of `result`, and enters its new names into pool and table. Says how many records,
/// constraints and new names; the work buffer is left all zero. Refuses with 10, 1, then with 12, 1, 2, 3, 7 or 8 for the first line that is refused, and says
/// its line and column, from 1 (0 and 0 where no line is at fault); pool, table and `result` are then as before.
pub fn read_text(pool: &mut [u8], table: &mut [u32], text: &[u8], result: &mut [u32], work: &mut [u32]) -> Told {
    ask!(shupkelen_read_text, mut pool, mut table, &text, mut result, mut work)
}
// end
