//! The functions that `libshupkelen.a` exports, as they stand there: a slice is a pointer and a count of its elements. tools/header.py writes them, and
//! those of `include/shupkelen.h`, from the library's source. What a call says goes into its answer, in the order in which its text says it: value, more,
//! rounds; the header has the kinds of records, the refusals and the sizes. The crate `shupkelen` wraps the functions in safe ones.
//!
//! # Safety
//!
//! Of every function: each pointer is valid for as many elements as its count says, during the whole call, and aligned; null is allowed for 0 elements (the
//! header says what that rests on); what is lent to be changed overlaps nothing else that is lent to the same call. Nothing is kept after a call. A call needs
//! up to 1 MB of stack.
#![allow(clippy::missing_safety_doc)]

extern "C" {
    // from crates/shupkelen/src, by tools/header.py
    /// The version of the library, as one number: `SHUPKELEN_VERSION` of the header that belongs to it.
    pub fn shupkelen_version() -> u32;
    /// The order of two names by their bytes, first to last, a prefix before what it begins: returns 1 for less, 2 for same, 3 for more.
    pub fn shupkelen_compare(first: *const u8, first_len: usize, second: *const u8, second_len: usize) -> u32;
    /// Is it a name table: ends in the pool that rise, names of 1 to 48 bytes, no name twice? Refuses with 10 (a short pool or table) and 1; 0 says yes.
    pub fn shupkelen_check_table(pool: *const u8, pool_len: usize, table: *const u32, table_len: usize) -> u32;
    /// Has a name this number? Refuses with 10, 1 and 3 (none has); 0 says yes.
    pub fn shupkelen_check_number(pool: *const u8, pool_len: usize, table: *const u32, table_len: usize, name: u32) -> u32;
    /// Where the name with this number stands in the pool: says its first byte, and how many bytes. Refuses with 10, 1 and 3.
    pub fn shupkelen_name_of(pool: *const u8, pool_len: usize, table: *const u32, table_len: usize, name: u32, answer: *mut u32, answer_len: usize) -> u32;
    /// Enters a name: says its number, and 1 where it is new, 0 where it was known. Refuses with 10, 1, 2 (no byte, or over 48) and 3 (no room), and changes
    /// neither pool nor table then.
    pub fn shupkelen_enter(
        pool: *mut u8,
        pool_len: usize,
        table: *mut u32,
        table_len: usize,
        name: *const u8,
        name_len: usize,
        answer: *mut u32,
        answer_len: usize,
    ) -> u32;
    /// The sum of two exponents, fractions in lowest terms: says its numerator in two's complement, and its denominator. Refuses with 1 (one is not well
    /// formed) and 7 (out of range: numerators and denominators are at most 2,147,483,647).
    pub fn shupkelen_exponent_add(num: i32, den: u32, num2: i32, den2: u32, answer: *mut u32, answer_len: usize) -> u32;
    /// The product of two exponents. Says and refuses as the sum does.
    pub fn shupkelen_exponent_multiply(num: i32, den: u32, num2: i32, den2: u32, answer: *mut u32, answer_len: usize) -> u32;
    /// The negative of an exponent. Says as the sum does. Refuses with 1.
    pub fn shupkelen_exponent_negate(num: i32, den: u32, answer: *mut u32, answer_len: usize) -> u32;
    /// The quotient of two exponents. Says and refuses as the sum does, with 7 also where the divisor is 0.
    pub fn shupkelen_exponent_divide(num: i32, den: u32, num2: i32, den2: u32, answer: *mut u32, answer_len: usize) -> u32;
    /// The product of two products, their powers added factor by factor. `result` gets all 64 places, (0, 0, 0, 1) in the unused ones, as far as it goes; says
    /// how many factors. Refuses with 10, 1, 7 (a power out of range) and 8 (over 64 factors), and writes nothing then.
    pub fn shupkelen_product_multiply(
        pool: *const u8,
        pool_len: usize,
        table: *const u32,
        table_len: usize,
        first: *const u32,
        first_len: usize,
        second: *const u32,
        second_len: usize,
        result: *mut u32,
        result_len: usize,
        answer: *mut u32,
        answer_len: usize,
    ) -> u32;
    /// The quotient of two products: the first times the inverse of the second. Writes, says and refuses as the multiplication does.
    pub fn shupkelen_product_divide(
        pool: *const u8,
        pool_len: usize,
        table: *const u32,
        table_len: usize,
        first: *const u32,
        first_len: usize,
        second: *const u32,
        second_len: usize,
        result: *mut u32,
        result_len: usize,
        answer: *mut u32,
        answer_len: usize,
    ) -> u32;
    /// The inverse of a product: each power negated. Writes, says and refuses as the multiplication does; 7 and 8 don't come.
    pub fn shupkelen_product_invert(
        pool: *const u8,
        pool_len: usize,
        table: *const u32,
        table_len: usize,
        first: *const u32,
        first_len: usize,
        result: *mut u32,
        result_len: usize,
        answer: *mut u32,
        answer_len: usize,
    ) -> u32;
    /// A power of a product: each power multiplied by the fraction; the power 0 gives the scalar. Writes and says as the multiplication does. Refuses with 10,
    /// 1 (also a fraction that is not in lowest terms or out of range) and 7.
    pub fn shupkelen_product_power(
        pool: *const u8,
        pool_len: usize,
        table: *const u32,
        table_len: usize,
        first: *const u32,
        first_len: usize,
        num: i32,
        den: u32,
        result: *mut u32,
        result_len: usize,
        answer: *mut u32,
        answer_len: usize,
    ) -> u32;
    /// Is it a set: constraints one after another, each well formed, at most 2,048 records? Refuses with 10, 8 and 1; 0 says yes.
    pub fn shupkelen_is_set(pool: *const u8, pool_len: usize, table: *const u32, table_len: usize, words: *const u32, words_len: usize) -> u32;
    /// Is it one well formed type? Refuses with 10, 8 and 1; 0 says yes.
    pub fn shupkelen_is_type(pool: *const u8, pool_len: usize, table: *const u32, table_len: usize, words: *const u32, words_len: usize) -> u32;
    /// Is it a scheme: a concrete type, or a count of quantified names, a type and bounds? Refuses with 10, 8 and 1; 0 says yes.
    pub fn shupkelen_is_scheme(pool: *const u8, pool_len: usize, table: *const u32, table_len: usize, words: *const u32, words_len: usize) -> u32;
    /// Are these bindings, each of a variable to a well formed type? Refuses with 10, 8 and 1; 0 says yes.
    pub fn shupkelen_is_bindings(pool: *const u8, pool_len: usize, table: *const u32, table_len: usize, words: *const u32, words_len: usize) -> u32;
    /// Are all four buffers long enough for a call that writes records? 10 where one is not; 0 says yes.
    pub fn shupkelen_lent(
        pool: *const u8,
        pool_len: usize,
        table: *const u32,
        table_len: usize,
        result: *const u32,
        result_len: usize,
        work: *const u32,
        work_len: usize,
    ) -> u32;
    /// Does a type contain the variable of this name or, where parameters is 1, the parameter? Says 1 for yes and 0 for no. Refuses with 10, 8, 1 (also a
    /// number that no name has) and 4 (one name is both a variable and a parameter).
    pub fn shupkelen_contains(
        pool: *const u8,
        pool_len: usize,
        table: *const u32,
        table_len: usize,
        words: *const u32,
        words_len: usize,
        name: u32,
        parameters: u32,
        answer: *mut u32,
        answer_len: usize,
    ) -> u32;
    /// Has a type no variable and no parameter? Says 1 for yes and 0 for no. Refuses with 10, 8, 1 and 4.
    pub fn shupkelen_closed(
        pool: *const u8,
        pool_len: usize,
        table: *const u32,
        table_len: usize,
        words: *const u32,
        words_len: usize,
        answer: *mut u32,
        answer_len: usize,
    ) -> u32;
    /// The numbers of a type's variables and, where parameters is 1, of its parameters, each once, in the order of their names' bytes, at the front of
    /// `result`. Says how many. Refuses with 10, 8, 1 and 4, and writes nothing then.
    pub fn shupkelen_variables(
        pool: *const u8,
        pool_len: usize,
        table: *const u32,
        table_len: usize,
        words: *const u32,
        words_len: usize,
        parameters: u32,
        result: *mut u32,
        result_len: usize,
        answer: *mut u32,
        answer_len: usize,
    ) -> u32;
    /// What a watchdog may count on: says how many distinct variables a set has, and the most rounds that solving it can take. Refuses with 10, 8 and 1.
    pub fn shupkelen_ceiling(
        pool: *const u8,
        pool_len: usize,
        table: *const u32,
        table_len: usize,
        set: *const u32,
        set_len: usize,
        answer: *mut u32,
        answer_len: usize,
    ) -> u32;
    /// Tests a constraint, and stores it behind the first `count` records of the buffer (8,192 words or more), which are a set, unless it is satisfied. Says 1
    /// Satisfied, 2 Violated or 3 Unknown, and how many records the set has then. Refuses with 10, 8, 1, then 8 where the constraint has no room, and leaves
    /// the buffer as it was.
    pub fn shupkelen_add(
        pool: *const u8,
        pool_len: usize,
        table: *const u32,
        table_len: usize,
        buffer: *mut u32,
        buffer_len: usize,
        count: usize,
        constraint: *const u32,
        constraint_len: usize,
        answer: *mut u32,
        answer_len: usize,
    ) -> u32;
    /// A type with bindings put in, everywhere, at the front of `result`; what is put in is not looked at again. Says how many records; the work buffer is left
    /// all zero. Refuses with 10, 8, 1, 4, then 6, 7 and 8, and `result` is then as before.
    pub fn shupkelen_replace_in_type(
        pool: *const u8,
        pool_len: usize,
        table: *const u32,
        table_len: usize,
        words: *const u32,
        words_len: usize,
        bindings: *const u32,
        bindings_len: usize,
        result: *mut u32,
        result_len: usize,
        work: *mut u32,
        work_len: usize,
        answer: *mut u32,
        answer_len: usize,
    ) -> u32;
    /// A set with bindings put in, everywhere, at the front of `result`; what is put in is not looked at again. Says how many records; the work buffer is left
    /// all zero. Refuses with 10, 8, 1, 4, then 6, 7 and 8, and `result` is then as before.
    pub fn shupkelen_replace_in_set(
        pool: *const u8,
        pool_len: usize,
        table: *const u32,
        table_len: usize,
        set: *const u32,
        set_len: usize,
        bindings: *const u32,
        bindings_len: usize,
        result: *mut u32,
        result_len: usize,
        work: *mut u32,
        work_len: usize,
        answer: *mut u32,
        answer_len: usize,
    ) -> u32;
    /// Solves a set, round by round: the bindings, then the bounds (variables that may be any dimension), at the front of `result`. Says how many records of
    /// bindings, how many bounds, a record each, and how many rounds were completed; the work buffer is left all zero. On 5 `result` begins with the
    /// constraints that remain, and their records are said. Refuses with 10, 8, 1, 4, then 5, 6, 7 and 8. What is answered makes every constraint true where no
    /// variable that stands in a dimension product of the set is bound to anything but a dimension or a variable, and elsewhere it may not (x y = x z is
    /// answered, with x boolean): `shupkelen_confirm` answers only what does.
    pub fn shupkelen_solve(
        pool: *const u8,
        pool_len: usize,
        table: *const u32,
        table_len: usize,
        set: *const u32,
        set_len: usize,
        result: *mut u32,
        result_len: usize,
        work: *mut u32,
        work_len: usize,
        answer: *mut u32,
        answer_len: usize,
    ) -> u32;
    /// Solves a set, and answers only what the judge confirms over the same set: what is answered makes every constraint of the set true, whatever the set. The
    /// call to use where somebody relies on an answer. It writes and says what `shupkelen_solve` does, and refuses as it does; then, of what solving accepts,
    /// with 7 or 8 where the judge meets them, and with 11 for its no. `result` is then as before; the rounds are those of solving. Two structs of one name and
    /// the same arguments are the same type, whatever fields they have.
    pub fn shupkelen_confirm(
        pool: *const u8,
        pool_len: usize,
        table: *const u32,
        table_len: usize,
        set: *const u32,
        set_len: usize,
        result: *mut u32,
        result_len: usize,
        work: *mut u32,
        work_len: usize,
        answer: *mut u32,
        answer_len: usize,
    ) -> u32;
    /// Solves up to 64 sets that stand back to back, each by itself; `lengths` has their records. Of each set four words go to `answers`: the refusal,
    /// completed rounds, records of bindings (on 5: of what remains), bounds; `result` has their records back to back. Says how many these are together. With n
    /// sets `result` has 8,192 n words and `answers` 4 n, or more. Refuses with 10, 8 and 1; a refused set doesn't stop those after it. Each answer is worth
    /// what that of `shupkelen_solve` is: of an accepted set ask the judge, or `shupkelen_confirm`.
    pub fn shupkelen_solve_all(
        pool: *const u8,
        pool_len: usize,
        table: *const u32,
        table_len: usize,
        sets: *const u32,
        sets_len: usize,
        lengths: *const u32,
        lengths_len: usize,
        result: *mut u32,
        result_len: usize,
        answers: *mut u32,
        answers_len: usize,
        work: *mut u32,
        work_len: usize,
        answer: *mut u32,
        answer_len: usize,
    ) -> u32;
    /// The second engine, for up to 24 equal-scalar constraints over up to 24 variables and up to 24 parameters and base dimensions: Gaussian elimination, row
    /// by row. The bindings, or on 5 the constraints that remain, at the front of `result`; says how many records. Refuses with 10, 8, 1, 4, then 8 (another
    /// set), 5 and 7.
    pub fn shupkelen_eliminate(
        pool: *const u8,
        pool_len: usize,
        table: *const u32,
        table_len: usize,
        set: *const u32,
        set_len: usize,
        result: *mut u32,
        result_len: usize,
        work: *mut u32,
        work_len: usize,
        answer: *mut u32,
        answer_len: usize,
    ) -> u32;
    /// Is this a solution of the set, whoever proposed it? Entries are pairs of words: a variable's number, and the place of its type in `types`, in records;
    /// an odd last word is not looked at. `bounds` has records of bounds. Says 1 for yes and 0 for no, and returns 0 for a no, too; the work buffer is left all
    /// zero. Refuses with 10, 8 (over 2,048 pairs, too), 1 (an entry's number that no name has, too), 4, then 7 and 8.
    pub fn shupkelen_judge(
        pool: *const u8,
        pool_len: usize,
        table: *const u32,
        table_len: usize,
        set: *const u32,
        set_len: usize,
        entries: *const u32,
        entries_len: usize,
        types: *const u32,
        types_len: usize,
        bounds: *const u32,
        bounds_len: usize,
        work: *mut u32,
        work_len: usize,
        answer: *mut u32,
        answer_len: usize,
    ) -> u32;
    /// Checks a whole calculation line, and leaves the type of its last step at the front of `result`: says how many records. `steps` has four words a step, in
    /// postfix order; `types` the records of the types that they point to; `lines` the places of the earlier lines' types there; `names` the numbers of names
    /// lent for the steps, one each or more. Refuses with 10, 8, 1, 4 (a lent name is given twice, or used in the line), 3, then as solving does, and with 11
    /// where the judge says no.
    pub fn shupkelen_check_line(
        pool: *const u8,
        pool_len: usize,
        table: *const u32,
        table_len: usize,
        steps: *const u32,
        steps_len: usize,
        types: *const u32,
        types_len: usize,
        lines: *const u32,
        lines_len: usize,
        names: *const u32,
        names_len: usize,
        result: *mut u32,
        result_len: usize,
        work: *mut u32,
        work_len: usize,
        answer: *mut u32,
        answer_len: usize,
    ) -> u32;
    /// A scheme from a type and bounds: the handed names, numbers in `names`, become indices 0, 1, .. in their order. At the front of `result`; says how many
    /// records. Refuses with 10, 8, 1 (a handed number that no name has, too), 4, then 8 of a scheme of over 2,048 records.
    pub fn shupkelen_quantify(
        pool: *const u8,
        pool_len: usize,
        table: *const u32,
        table_len: usize,
        words: *const u32,
        words_len: usize,
        bounds: *const u32,
        bounds_len: usize,
        names: *const u32,
        names_len: usize,
        result: *mut u32,
        result_len: usize,
        work: *mut u32,
        work_len: usize,
        answer: *mut u32,
        answer_len: usize,
    ) -> u32;
    /// The scheme generalised: of a concrete type all names are quantified, with those of the bounds that are among them; another scheme stays. At the front of
    /// `result`; says how many records. Refuses with 10, 8, 1, 4, then 8 of a scheme of over 2,048 records.
    pub fn shupkelen_generalise(
        pool: *const u8,
        pool_len: usize,
        table: *const u32,
        table_len: usize,
        scheme: *const u32,
        scheme_len: usize,
        bounds: *const u32,
        bounds_len: usize,
        result: *mut u32,
        result_len: usize,
        work: *mut u32,
        work_len: usize,
        answer: *mut u32,
        answer_len: usize,
    ) -> u32;
    /// The type and then the bounds of a scheme, with the handed names in the place of its indices. At the front of `result`; says how many records. Refuses
    /// with 10, 8, 1 (a handed number that no name has, too), 4, 9 (as many names as the scheme has must be handed), then 7.
    pub fn shupkelen_instantiate(
        pool: *const u8,
        pool_len: usize,
        table: *const u32,
        table_len: usize,
        scheme: *const u32,
        scheme_len: usize,
        names: *const u32,
        names_len: usize,
        result: *mut u32,
        result_len: usize,
        work: *mut u32,
        work_len: usize,
        answer: *mut u32,
        answer_len: usize,
    ) -> u32;
    /// Rescues what is well formed of a damaged set file: words of four bytes, the lowest first, four words a record. The constraints that are whole go to the
    /// front of `kept` (32,768 bytes or more), the place of each other record, and of a torn last one, to the front of `skipped` (2,049 words or more). Says
    /// how many records are kept and how many places skipped. Refuses with 10, 8 (over 2,048 records) and 1 (no name table), and changes nothing then.
    pub fn shupkelen_rescue(
        pool: *const u8,
        pool_len: usize,
        table: *const u32,
        table_len: usize,
        file: *const u8,
        file_len: usize,
        kept: *mut u8,
        kept_len: usize,
        skipped: *mut u32,
        skipped_len: usize,
        answer: *mut u32,
        answer_len: usize,
    ) -> u32;
    /// Drops the names that no set uses, moves the others up in the pool and renumbers the sets, all in place. The sets stand back to back, up to 64 of them;
    /// `lengths` has their records. Says how many names are kept; numbers held elsewhere mean nothing afterwards. Refuses with 10, 8 and 1, and changes nothing
    /// then.
    pub fn shupkelen_compact(
        pool: *mut u8,
        pool_len: usize,
        table: *mut u32,
        table_len: usize,
        sets: *mut u32,
        sets_len: usize,
        lengths: *const u32,
        lengths_len: usize,
        answer: *mut u32,
        answer_len: usize,
    ) -> u32;
    /// Writes a set as text, a line a constraint, to the front of `text` (354,304 bytes or more; the rest stays). Says how many bytes. Refuses with 10, 8 and
    /// 1, and writes nothing then.
    pub fn shupkelen_write_text(
        pool: *const u8,
        pool_len: usize,
        table: *const u32,
        table_len: usize,
        set: *const u32,
        set_len: usize,
        text: *mut u8,
        text_len: usize,
        answer: *mut u32,
        answer_len: usize,
    ) -> u32;
    /// Reads text, any bytes, as a set (docs/GRAMMAR.md), to the front of `result`, and enters its new names into pool and table. Says how many records,
    /// constraints and new names; the work buffer is left all zero. Refuses with 10, 1, then with 12, 1, 2, 3, 7 or 8 for the first line that is refused, and
    /// says its line and column, from 1 (0 and 0 where no line is at fault); pool, table and `result` are then as before.
    pub fn shupkelen_read_text(
        pool: *mut u8,
        pool_len: usize,
        table: *mut u32,
        table_len: usize,
        text: *const u8,
        text_len: usize,
        result: *mut u32,
        result_len: usize,
        work: *mut u32,
        work_len: usize,
        answer: *mut u32,
        answer_len: usize,
    ) -> u32;
    // end
}
