/* Shupkelen: numbat's type and dimension constraint solver, proved, as a static library for x86-64 Linux (rt lib in crates/shupkelen).
 *
 * What every call has in common
 *
 *   Lent slices. A slice is a pointer and a count of its elements: bytes of a uint8_t slice, words of a uint32_t slice. Each pointer must be valid for so
 *   many elements for the whole call, and aligned. A slice that is not const must overlap no other slice of the same call. Nothing is kept after the call:
 *   there is no heap and no state, so calls on separate buffers may run on separate threads.
 *
 *   NULL with 0 elements is an empty slice, in every call and at every place. The compiled library sees to it, since each exported function puts another
 *   address in the place of NULL before all else; the proofs don't speak of it. bindings/c/empty.c asks each call with each choice of empty slices, once
 *   with NULL and once with a valid pointer, and compares all that is left. The thin calls below put a valid pointer in the place of NULL themselves, so
 *   they don't rest on it.
 *
 *   What is returned. The number of the refusal (enum shupkelen_refusal), 0 where there is none; only shupkelen_compare and shupkelen_version return their
 *   answer.
 *
 *   answer. SHUPKELEN_ANSWER_WORDS words: value, more, rounds. What a call says, as its text has it below, goes there in that order: value is what it says
 *   first, more what it says next; rounds is 0 except for shupkelen_confirm, shupkelen_solve and shupkelen_read_text, which say a third thing. A word of which
 *   nothing is said is 0. On a refusal all three are written too: 0, except for the rounds that were completed, for 5 of a set, where value counts the
 *   records that remain, and for shupkelen_read_text, which says where. Of a shorter slice only the words that it has are written.
 *
 *   pool, table. A name table: SHUPKELEN_POOL_BYTES bytes or more, SHUPKELEN_TABLE_WORDS words or more. An empty one is all zero. Word 0 of the
 *   table counts its names, word k + 1 is where the name with number k ends in the pool.
 *
 *   Records. Lists of types, constraints, bindings, bounds and schemes are records of four words: word 0 is the kind plus 65,536 times the number of
 *   records of the part that it begins, then a, b, c (crates/rules/specs/Writing.antt). A list has SHUPKELEN_LIST_WORDS words at the most.
 *
 *   result, work. SHUPKELEN_LIST_WORDS words or more, SHUPKELEN_WORK_WORDS words or more. Past the answer, and on a refusal other than 5, the result buffer
 *   is unchanged. The work buffer may hold anything before the call and is all zero after it, except for 10, which changes nothing.
 *
 *   Refusals stand in the order in which they are looked for; at entry that is 10, 8, 1, 4, 9. Stack: up to 1 MB (docs/CALLERS.md).
 *
 * What each function does on every input is proved; this file says it in words. crates/shupkelen/src has the contracts, and docs/CONTRACTS.md says which
 * definition each call equals. Between a comment "from crates/shupkelen/src/.." and the next "end" tools/header.py writes what that source says.
 */
#ifndef SHUPKELEN_H
#define SHUPKELEN_H

#include <stddef.h>
#include <stdint.h>

/* The version of this header: 10,000 for each first number, 100 for each second, 1 for each third. */
#define SHUPKELEN_VERSION 100
#define SHUPKELEN_VERSION_TEXT "0.1.0"

#ifdef __cplusplus
extern "C" {
#endif

/* Why a call gives no answer. */
enum shupkelen_refusal {
    SHUPKELEN_ACCEPTED = 0,
    SHUPKELEN_MALFORMED = 1,      /* a table, list, product or exponent that is not well formed */
    SHUPKELEN_NAME_LENGTH = 2,    /* a name of no byte, or of over 48 */
    SHUPKELEN_NO_ROOM = 3,        /* no room for a name; a number that no name has, where it is asked for or lent (1 in contains, quantify, instantiate, judge) */
    SHUPKELEN_MIXED = 4,          /* one name is both a variable and a parameter; a name lent for a line is given twice or used in it */
    SHUPKELEN_UNSOLVED = 5,       /* no rule applies and constraints remain */
    SHUPKELEN_NOT_DIMENSION = 6,  /* a type that is no dimension would enter a product */
    SHUPKELEN_OUT_OF_RANGE = 7,   /* an exponent out of range */
    SHUPKELEN_TOO_LARGE = 8,      /* over 2,048 records, names or entries, 64 nestings, factors or sets, 128 steps; a set not for the second engine */
    SHUPKELEN_WRONG_COUNT = 9,    /* as many names as the scheme has must be handed, and a concrete type is no scheme to instantiate */
    SHUPKELEN_SHORT_BUFFER = 10,  /* a lent buffer is too short */
    SHUPKELEN_NOT_CONFIRMED = 11, /* the judge does not confirm a line, or what solving a set found */
    SHUPKELEN_NOT_GRAMMAR = 12    /* a line outside the grammar */
};

/* The kinds of records (docs/RECORDS.md), and word 0 of a record: its kind, and how many records the part has that it begins, itself counted. */
enum shupkelen_kind {
    SHUPKELEN_KIND_VARIABLE = 1,           /* a: name */
    SHUPKELEN_KIND_PARAMETER = 2,          /* a: name */
    SHUPKELEN_KIND_DIMENSION = 3,          /* a: how many factors, which follow */
    SHUPKELEN_KIND_BOOLEAN = 4,
    SHUPKELEN_KIND_STRING = 5,
    SHUPKELEN_KIND_DATETIME = 6,
    SHUPKELEN_KIND_FUNCTION = 7,           /* a: how many parameters, which follow; then the type returned */
    SHUPKELEN_KIND_STRUCT = 8,             /* a: name, b: how many arguments, c: how many fields; these follow */
    SHUPKELEN_KIND_FIELD = 9,              /* a: name; its type follows */
    SHUPKELEN_KIND_LIST = 10,              /* the type of its elements follows */
    SHUPKELEN_KIND_VARIABLE_FACTOR = 11,   /* a: name, b: numerator, c: denominator */
    SHUPKELEN_KIND_PARAMETER_FACTOR = 12,  /* as 11 */
    SHUPKELEN_KIND_BASE_FACTOR = 13,       /* as 11 */
    SHUPKELEN_KIND_QUANTIFIED = 14,        /* a: index; in schemes only */
    SHUPKELEN_KIND_QUANTIFIED_FACTOR = 15, /* a: index, b: numerator, c: denominator; in schemes only */
    SHUPKELEN_KIND_EQUAL = 20,             /* two types follow */
    SHUPKELEN_KIND_IS_DIMENSION = 21,      /* a type follows */
    SHUPKELEN_KIND_EQUAL_SCALAR = 22,      /* a dimension follows */
    SHUPKELEN_KIND_HAS_FIELD = 23,         /* a: the field's name; the struct's type and the field's follow */
    SHUPKELEN_KIND_BINDING = 24,           /* a: the variable's name; its type follows */
    SHUPKELEN_KIND_BOUND = 25,             /* a: name; in a scheme, with b 1, an index */
    SHUPKELEN_KIND_SCHEME = 26             /* a: how many quantified variables; b: 1 if concrete; a type and bounds follow */
};
#define SHUPKELEN_RECORD(kind, length) ((uint32_t)(kind) + UINT32_C(65536) * (uint32_t)(length))

/* The steps of a calculation line. */
enum shupkelen_step {
    SHUPKELEN_STEP_CONSTANT = 1,  /* a: the place of its type in types */
    SHUPKELEN_STEP_REFERENCE = 2, /* a: the number of an earlier line */
    SHUPKELEN_STEP_ADD = 3,
    SHUPKELEN_STEP_SUBTRACT = 4,
    SHUPKELEN_STEP_MULTIPLY = 5,
    SHUPKELEN_STEP_DIVIDE = 6,
    SHUPKELEN_STEP_RAISE = 7,     /* b: numerator, c: denominator */
    SHUPKELEN_STEP_COMPARE = 8,
    SHUPKELEN_STEP_CHOOSE = 9     /* condition, then both arms */
};

/* Sizes. */
enum {
    SHUPKELEN_POOL_BYTES = 8192,
    SHUPKELEN_TABLE_WORDS = 257,
    SHUPKELEN_NAMES = 256,
    SHUPKELEN_NAME_BYTES = 48,
    SHUPKELEN_RECORDS = 2048,
    SHUPKELEN_LIST_WORDS = 8192,
    SHUPKELEN_WORK_WORDS = 16384,
    SHUPKELEN_ANSWER_WORDS = 3,
    SHUPKELEN_FACTORS = 64,
    SHUPKELEN_PRODUCT_WORDS = 256,
    SHUPKELEN_SETS = 64,
    SHUPKELEN_KEPT_BYTES = 32768,
    SHUPKELEN_SKIPPED_WORDS = 2049,
    SHUPKELEN_TEXT_BYTES = 354304
};

/* ---- The version ---- */

/* from crates/shupkelen/src/version.rt, by tools/header.py */
/* The version of the library, as one number: SHUPKELEN_VERSION of the header that belongs to it. */
uint32_t shupkelen_version(void);
/* end */

/* ---- Names ---- */

/* from crates/shupkelen/src/on_names.rt, by tools/header.py */
/* The order of two names by their bytes, first to last, a prefix before what it begins: returns 1 for less, 2 for same, 3 for more. */
uint32_t shupkelen_compare(const uint8_t *first, size_t first_len, const uint8_t *second, size_t second_len);

/* Is it a name table: ends in the pool that rise, names of 1 to 48 bytes, no name twice? Refuses with 10 (a short pool or table) and 1; 0 says yes. */
uint32_t shupkelen_check_table(const uint8_t *pool, size_t pool_len, const uint32_t *table, size_t table_len);

/* Has a name this number? Refuses with 10, 1 and 3 (none has); 0 says yes. */
uint32_t shupkelen_check_number(const uint8_t *pool, size_t pool_len, const uint32_t *table, size_t table_len, uint32_t name);

/* Where the name with this number stands in the pool: says its first byte, and how many bytes. Refuses with 10, 1 and 3. */
uint32_t shupkelen_name_of(const uint8_t *pool, size_t pool_len, const uint32_t *table, size_t table_len, uint32_t name, uint32_t *answer, size_t answer_len);

/* Enters a name: says its number, and 1 where it is new, 0 where it was known. Refuses with 10, 1, 2 (no byte, or over 48) and 3 (no room), and changes neither
 * pool nor table then. */
uint32_t shupkelen_enter(uint8_t *pool, size_t pool_len, uint32_t *table, size_t table_len, const uint8_t *name, size_t name_len, uint32_t *answer,
    size_t answer_len);
/* end */

/* ---- Exponents: fractions in lowest terms, numerator and denominator up to 2,147,483,647 ----
 *
 * A numerator that is said is a word in two's complement: cast it to int32_t. */

/* from crates/shupkelen/src/on_values.rt, by tools/header.py */
/* The sum of two exponents, fractions in lowest terms: says its numerator in two's complement, and its denominator. Refuses with 1 (one is not well formed) and
 * 7 (out of range: numerators and denominators are at most 2,147,483,647). */
uint32_t shupkelen_exponent_add(int32_t num, uint32_t den, int32_t num2, uint32_t den2, uint32_t *answer, size_t answer_len);

/* The product of two exponents. Says and refuses as the sum does. */
uint32_t shupkelen_exponent_multiply(int32_t num, uint32_t den, int32_t num2, uint32_t den2, uint32_t *answer, size_t answer_len);

/* The negative of an exponent. Says as the sum does. Refuses with 1. */
uint32_t shupkelen_exponent_negate(int32_t num, uint32_t den, uint32_t *answer, size_t answer_len);

/* The quotient of two exponents. Says and refuses as the sum does, with 7 also where the divisor is 0. */
uint32_t shupkelen_exponent_divide(int32_t num, uint32_t den, int32_t num2, uint32_t den2, uint32_t *answer, size_t answer_len);
/* end */

/* ---- Products: factors of four words: 11 variable, 12 parameter, 13 base dimension or 15 quantified; name or index; numerator; denominator ----
 *
 * first, second: up to 64 factors each; a torn last factor, like a 65th, makes the product malformed. result: SHUPKELEN_PRODUCT_WORDS words; of a shorter
 * buffer only the words that it has are written. */

/* from crates/shupkelen/src/on_products.rt, by tools/header.py */
/* The product of two products, their powers added factor by factor. result gets all 64 places, (0, 0, 0, 1) in the unused ones, as far as it goes; says how
 * many factors. Refuses with 10, 1, 7 (a power out of range) and 8 (over 64 factors), and writes nothing then. */
uint32_t shupkelen_product_multiply(const uint8_t *pool, size_t pool_len, const uint32_t *table, size_t table_len, const uint32_t *first, size_t first_len,
    const uint32_t *second, size_t second_len, uint32_t *result, size_t result_len, uint32_t *answer, size_t answer_len);

/* The quotient of two products: the first times the inverse of the second. Writes, says and refuses as the multiplication does. */
uint32_t shupkelen_product_divide(const uint8_t *pool, size_t pool_len, const uint32_t *table, size_t table_len, const uint32_t *first, size_t first_len,
    const uint32_t *second, size_t second_len, uint32_t *result, size_t result_len, uint32_t *answer, size_t answer_len);

/* The inverse of a product: each power negated. Writes, says and refuses as the multiplication does; 7 and 8 don't come. */
uint32_t shupkelen_product_invert(const uint8_t *pool, size_t pool_len, const uint32_t *table, size_t table_len, const uint32_t *first, size_t first_len,
    uint32_t *result, size_t result_len, uint32_t *answer, size_t answer_len);

/* A power of a product: each power multiplied by the fraction; the power 0 gives the scalar. Writes and says as the multiplication does. Refuses with 10, 1
 * (also a fraction that is not in lowest terms or out of range) and 7. */
uint32_t shupkelen_product_power(const uint8_t *pool, size_t pool_len, const uint32_t *table, size_t table_len, const uint32_t *first, size_t first_len,
    int32_t num, uint32_t den, uint32_t *result, size_t result_len, uint32_t *answer, size_t answer_len);
/* end */

/* ---- Lists of records ---- */

/* from crates/shupkelen/src/on_lists.rt, by tools/header.py */
/* Is it a set: constraints one after another, each well formed, at most 2,048 records? Refuses with 10, 8 and 1; 0 says yes. */
uint32_t shupkelen_is_set(const uint8_t *pool, size_t pool_len, const uint32_t *table, size_t table_len, const uint32_t *words, size_t words_len);

/* Is it one well formed type? Refuses with 10, 8 and 1; 0 says yes. */
uint32_t shupkelen_is_type(const uint8_t *pool, size_t pool_len, const uint32_t *table, size_t table_len, const uint32_t *words, size_t words_len);

/* Is it a scheme: a concrete type, or a count of quantified names, a type and bounds? Refuses with 10, 8 and 1; 0 says yes. */
uint32_t shupkelen_is_scheme(const uint8_t *pool, size_t pool_len, const uint32_t *table, size_t table_len, const uint32_t *words, size_t words_len);

/* Are these bindings, each of a variable to a well formed type? Refuses with 10, 8 and 1; 0 says yes. */
uint32_t shupkelen_is_bindings(const uint8_t *pool, size_t pool_len, const uint32_t *table, size_t table_len, const uint32_t *words, size_t words_len);

/* Are all four buffers long enough for a call that writes records? 10 where one is not; 0 says yes. */
uint32_t shupkelen_lent(const uint8_t *pool, size_t pool_len, const uint32_t *table, size_t table_len, const uint32_t *result, size_t result_len,
    const uint32_t *work, size_t work_len);

/* Does a type contain the variable of this name or, where parameters is 1, the parameter? Says 1 for yes and 0 for no. Refuses with 10, 8, 1 (also a number
 * that no name has) and 4 (one name is both a variable and a parameter). */
uint32_t shupkelen_contains(const uint8_t *pool, size_t pool_len, const uint32_t *table, size_t table_len, const uint32_t *words, size_t words_len,
    uint32_t name, uint32_t parameters, uint32_t *answer, size_t answer_len);

/* Has a type no variable and no parameter? Says 1 for yes and 0 for no. Refuses with 10, 8, 1 and 4. */
uint32_t shupkelen_closed(const uint8_t *pool, size_t pool_len, const uint32_t *table, size_t table_len, const uint32_t *words, size_t words_len,
    uint32_t *answer, size_t answer_len);

/* The numbers of a type's variables and, where parameters is 1, of its parameters, each once, in the order of their names' bytes, at the front of result. Says
 * how many. Refuses with 10, 8, 1 and 4, and writes nothing then. */
uint32_t shupkelen_variables(const uint8_t *pool, size_t pool_len, const uint32_t *table, size_t table_len, const uint32_t *words, size_t words_len,
    uint32_t parameters, uint32_t *result, size_t result_len, uint32_t *answer, size_t answer_len);

/* What a watchdog may count on: says how many distinct variables a set has, and the most rounds that solving it can take. Refuses with 10, 8 and 1. */
uint32_t shupkelen_ceiling(const uint8_t *pool, size_t pool_len, const uint32_t *table, size_t table_len, const uint32_t *set, size_t set_len, uint32_t *answer,
    size_t answer_len);
/* end */

/* ---- Sets, calculation lines and schemes ----
 *
 * shupkelen_add: buffer has SHUPKELEN_LIST_WORDS words or more.
 * shupkelen_solve_all: up to SHUPKELEN_SETS sets; result has n x SHUPKELEN_LIST_WORDS words or more. shupkelen_judge: over 2,048 pairs are 8; look at the
 * value, since 0 is returned for a no, too. shupkelen_check_line: a step is its number (enum shupkelen_step), then a, b and c, 0 where unused; on 5 nothing
 * remains to be told: value is 0, result unchanged. Handed names are words, a number each. */

/* from crates/shupkelen/src/on_sets.rt, by tools/header.py */
/* Tests a constraint, and stores it behind the first count records of the buffer (8,192 words or more), which are a set, unless it is satisfied. Says 1
 * Satisfied, 2 Violated or 3 Unknown, and how many records the set has then. Refuses with 10, 8, 1, then 8 where the constraint has no room, and leaves the
 * buffer as it was. */
uint32_t shupkelen_add(const uint8_t *pool, size_t pool_len, const uint32_t *table, size_t table_len, uint32_t *buffer, size_t buffer_len, size_t count,
    const uint32_t *constraint, size_t constraint_len, uint32_t *answer, size_t answer_len);

/* A type with bindings put in, everywhere, at the front of result; what is put in is not looked at again. Says how many records; the work buffer is left all
 * zero. Refuses with 10, 8, 1, 4, then 6, 7 and 8, and result is then as before. */
uint32_t shupkelen_replace_in_type(const uint8_t *pool, size_t pool_len, const uint32_t *table, size_t table_len, const uint32_t *words, size_t words_len,
    const uint32_t *bindings, size_t bindings_len, uint32_t *result, size_t result_len, uint32_t *work, size_t work_len, uint32_t *answer, size_t answer_len);

/* A set with bindings put in, everywhere, at the front of result; what is put in is not looked at again. Says how many records; the work buffer is left all
 * zero. Refuses with 10, 8, 1, 4, then 6, 7 and 8, and result is then as before. */
uint32_t shupkelen_replace_in_set(const uint8_t *pool, size_t pool_len, const uint32_t *table, size_t table_len, const uint32_t *set, size_t set_len,
    const uint32_t *bindings, size_t bindings_len, uint32_t *result, size_t result_len, uint32_t *work, size_t work_len, uint32_t *answer, size_t answer_len);

/* Solves a set, round by round: the bindings, then the bounds (variables that may be any dimension), at the front of result. Says how many records of bindings,
 * how many bounds, a record each, and how many rounds were completed; the work buffer is left all zero. On 5 result begins with the constraints that remain,
 * and their records are said. Refuses with 10, 8, 1, 4, then 5, 6, 7 and 8. What is answered makes every constraint true where no variable that stands in a
 * dimension product of the set is bound to anything but a dimension or a variable, and elsewhere it may not (x y = x z is answered, with x boolean):
 * shupkelen_confirm answers only what does. */
uint32_t shupkelen_solve(const uint8_t *pool, size_t pool_len, const uint32_t *table, size_t table_len, const uint32_t *set, size_t set_len, uint32_t *result,
    size_t result_len, uint32_t *work, size_t work_len, uint32_t *answer, size_t answer_len);

/* Solves a set, and answers only what the judge confirms over the same set: what is answered makes every constraint of the set true, whatever the set. The call
 * to use where somebody relies on an answer. It writes and says what shupkelen_solve does, and refuses as it does; then, of what solving accepts, with 7 or 8
 * where the judge meets them, and with 11 for its no. result is then as before; the rounds are those of solving. Two structs of one name and the same arguments
 * are the same type, whatever fields they have. */
uint32_t shupkelen_confirm(const uint8_t *pool, size_t pool_len, const uint32_t *table, size_t table_len, const uint32_t *set, size_t set_len, uint32_t *result,
    size_t result_len, uint32_t *work, size_t work_len, uint32_t *answer, size_t answer_len);

/* Solves up to 64 sets that stand back to back, each by itself; lengths has their records. Of each set four words go to answers: the refusal, completed rounds,
 * records of bindings (on 5: of what remains), bounds; result has their records back to back. Says how many these are together. With n sets result has 8,192 n
 * words and answers 4 n, or more. Refuses with 10, 8 and 1; a refused set doesn't stop those after it. Each answer is worth what that of shupkelen_solve is: of
 * an accepted set ask the judge, or shupkelen_confirm. */
uint32_t shupkelen_solve_all(const uint8_t *pool, size_t pool_len, const uint32_t *table, size_t table_len, const uint32_t *sets, size_t sets_len,
    const uint32_t *lengths, size_t lengths_len, uint32_t *result, size_t result_len, uint32_t *answers, size_t answers_len, uint32_t *work, size_t work_len,
    uint32_t *answer, size_t answer_len);

/* The second engine, for up to 24 equal-scalar constraints over up to 24 variables and up to 24 parameters and base dimensions: Gaussian elimination, row by
 * row. The bindings, or on 5 the constraints that remain, at the front of result; says how many records. Refuses with 10, 8, 1, 4, then 8 (another set), 5 and
 * 7. */
uint32_t shupkelen_eliminate(const uint8_t *pool, size_t pool_len, const uint32_t *table, size_t table_len, const uint32_t *set, size_t set_len,
    uint32_t *result, size_t result_len, uint32_t *work, size_t work_len, uint32_t *answer, size_t answer_len);

/* Is this a solution of the set, whoever proposed it? Entries are pairs of words: a variable's number, and the place of its type in types, in records; an odd
 * last word is not looked at. bounds has records of bounds. Says 1 for yes and 0 for no, and returns 0 for a no, too; the work buffer is left all zero. Refuses
 * with 10, 8 (over 2,048 pairs, too), 1 (an entry's number that no name has, too), 4, then 7 and 8. */
uint32_t shupkelen_judge(const uint8_t *pool, size_t pool_len, const uint32_t *table, size_t table_len, const uint32_t *set, size_t set_len,
    const uint32_t *entries, size_t entries_len, const uint32_t *types, size_t types_len, const uint32_t *bounds, size_t bounds_len, uint32_t *work,
    size_t work_len, uint32_t *answer, size_t answer_len);

/* Checks a whole calculation line, and leaves the type of its last step at the front of result: says how many records. steps has four words a step, in postfix
 * order; types the records of the types that they point to; lines the places of the earlier lines' types there; names the numbers of names lent for the steps,
 * one each or more. Refuses with 10, 8, 1, 4 (a lent name is given twice, or used in the line), 3, then as solving does, and with 11 where the judge says
 * no. */
uint32_t shupkelen_check_line(const uint8_t *pool, size_t pool_len, const uint32_t *table, size_t table_len, const uint32_t *steps, size_t steps_len,
    const uint32_t *types, size_t types_len, const uint32_t *lines, size_t lines_len, const uint32_t *names, size_t names_len, uint32_t *result,
    size_t result_len, uint32_t *work, size_t work_len, uint32_t *answer, size_t answer_len);

/* A scheme from a type and bounds: the handed names, numbers in names, become indices 0, 1, .. in their order. At the front of result; says how many records.
 * Refuses with 10, 8, 1 (a handed number that no name has, too), 4, then 8 of a scheme of over 2,048 records. */
uint32_t shupkelen_quantify(const uint8_t *pool, size_t pool_len, const uint32_t *table, size_t table_len, const uint32_t *words, size_t words_len,
    const uint32_t *bounds, size_t bounds_len, const uint32_t *names, size_t names_len, uint32_t *result, size_t result_len, uint32_t *work, size_t work_len,
    uint32_t *answer, size_t answer_len);

/* The scheme generalised: of a concrete type all names are quantified, with those of the bounds that are among them; another scheme stays. At the front of
 * result; says how many records. Refuses with 10, 8, 1, 4, then 8 of a scheme of over 2,048 records. */
uint32_t shupkelen_generalise(const uint8_t *pool, size_t pool_len, const uint32_t *table, size_t table_len, const uint32_t *scheme, size_t scheme_len,
    const uint32_t *bounds, size_t bounds_len, uint32_t *result, size_t result_len, uint32_t *work, size_t work_len, uint32_t *answer, size_t answer_len);

/* The type and then the bounds of a scheme, with the handed names in the place of its indices. At the front of result; says how many records. Refuses with 10,
 * 8, 1 (a handed number that no name has, too), 4, 9 (as many names as the scheme has must be handed), then 7. */
uint32_t shupkelen_instantiate(const uint8_t *pool, size_t pool_len, const uint32_t *table, size_t table_len, const uint32_t *scheme, size_t scheme_len,
    const uint32_t *names, size_t names_len, uint32_t *result, size_t result_len, uint32_t *work, size_t work_len, uint32_t *answer, size_t answer_len);
/* end */

/* ---- Files, the table, text ----
 *
 * kept: SHUPKELEN_KEPT_BYTES bytes or more; skipped: SHUPKELEN_SKIPPED_WORDS words or more; text that is written: SHUPKELEN_TEXT_BYTES bytes or more; up to
 * SHUPKELEN_SETS sets are compacted. The column of a refused line is in bytes; of lines and columns of 2^32 or more the low 32 bits are said. */

/* from crates/shupkelen/src/on_files.rt, by tools/header.py */
/* Rescues what is well formed of a damaged set file: words of four bytes, the lowest first, four words a record. The constraints that are whole go to the front
 * of kept (32,768 bytes or more), the place of each other record, and of a torn last one, to the front of skipped (2,049 words or more). Says how many records
 * are kept and how many places skipped. Refuses with 10, 8 (over 2,048 records) and 1 (no name table), and changes nothing then. */
uint32_t shupkelen_rescue(const uint8_t *pool, size_t pool_len, const uint32_t *table, size_t table_len, const uint8_t *file, size_t file_len, uint8_t *kept,
    size_t kept_len, uint32_t *skipped, size_t skipped_len, uint32_t *answer, size_t answer_len);

/* Drops the names that no set uses, moves the others up in the pool and renumbers the sets, all in place. The sets stand back to back, up to 64 of them;
 * lengths has their records. Says how many names are kept; numbers held elsewhere mean nothing afterwards. Refuses with 10, 8 and 1, and changes nothing
 * then. */
uint32_t shupkelen_compact(uint8_t *pool, size_t pool_len, uint32_t *table, size_t table_len, uint32_t *sets, size_t sets_len, const uint32_t *lengths,
    size_t lengths_len, uint32_t *answer, size_t answer_len);

/* Writes a set as text, a line a constraint, to the front of text (354,304 bytes or more; the rest stays). Says how many bytes. Refuses with 10, 8 and 1, and
 * writes nothing then. */
uint32_t shupkelen_write_text(const uint8_t *pool, size_t pool_len, const uint32_t *table, size_t table_len, const uint32_t *set, size_t set_len, uint8_t *text,
    size_t text_len, uint32_t *answer, size_t answer_len);

/* Reads text, any bytes, as a set (docs/GRAMMAR.md), to the front of result, and enters its new names into pool and table. Says how many records, constraints
 * and new names; the work buffer is left all zero. Refuses with 10, 1, then with 12, 1, 2, 3, 7 or 8 for the first line that is refused, and says its line and
 * column, from 1 (0 and 0 where no line is at fault); pool, table and result are then as before. */
uint32_t shupkelen_read_text(uint8_t *pool, size_t pool_len, uint32_t *table, size_t table_len, const uint8_t *text, size_t text_len, uint32_t *result,
    size_t result_len, uint32_t *work, size_t work_len, uint32_t *answer, size_t answer_len);
/* end */

/* ---- Thin calls: over names and buffers that a caller keeps, so that no count is written by hand ---- */

/* A name table; all zero: no names. */
struct shupkelen_names {
    uint8_t pool[SHUPKELEN_POOL_BYTES];
    uint32_t table[SHUPKELEN_TABLE_WORDS];
};

/* What a call that writes records is lent. */
struct shupkelen_buffers {
    uint32_t result[SHUPKELEN_LIST_WORDS];
    uint32_t work[SHUPKELEN_WORK_WORDS];
};

/* The words of an answer. */
struct shupkelen_answer {
    uint32_t value;
    uint32_t more;
    uint32_t rounds;
};

/* A calculation line, as shupkelen_check_line takes it. */
struct shupkelen_line {
    const uint32_t *steps;
    size_t steps_len;
    const uint32_t *types;
    size_t types_len;
    const uint32_t *lines;
    size_t lines_len;
    const uint32_t *names;
    size_t names_len;
};

/* What is lent for NULL, where a slice has no element. */
static inline const uint8_t *shupkelen_bytes(const uint8_t *bytes) {
    static const uint8_t none[1] = {0};
    return bytes ? bytes : none;
}

static inline const uint32_t *shupkelen_words(const uint32_t *words) {
    static const uint32_t none[1] = {0};
    return words ? words : none;
}

static inline uint32_t shupkelen_answered(uint32_t refusal, const uint32_t *words, struct shupkelen_answer *answer) {
    answer->value = words[0];
    answer->more = words[1];
    answer->rounds = words[2];
    return refusal;
}

/* shupkelen_enter. */
static inline uint32_t shupkelen_enter_name(struct shupkelen_names *names, const uint8_t *name, size_t name_len, struct shupkelen_answer *answer) {
    uint32_t words[SHUPKELEN_ANSWER_WORDS];
    uint32_t refusal = shupkelen_enter(names->pool, SHUPKELEN_POOL_BYTES, names->table, SHUPKELEN_TABLE_WORDS, shupkelen_bytes(name), name_len, words,
        SHUPKELEN_ANSWER_WORDS);
    return shupkelen_answered(refusal, words, answer);
}

/* shupkelen_read_text: the set stands at the front of buffers->result. */
static inline uint32_t shupkelen_read_sheet(struct shupkelen_names *names, const uint8_t *text, size_t text_len, struct shupkelen_buffers *buffers,
    struct shupkelen_answer *answer) {
    uint32_t words[SHUPKELEN_ANSWER_WORDS];
    uint32_t refusal = shupkelen_read_text(names->pool, SHUPKELEN_POOL_BYTES, names->table, SHUPKELEN_TABLE_WORDS, shupkelen_bytes(text), text_len,
        buffers->result, SHUPKELEN_LIST_WORDS, buffers->work, SHUPKELEN_WORK_WORDS, words, SHUPKELEN_ANSWER_WORDS);
    return shupkelen_answered(refusal, words, answer);
}

/* shupkelen_confirm; set doesn't stand in buffers. */
static inline uint32_t shupkelen_confirm_set(const struct shupkelen_names *names, const uint32_t *set, size_t set_len, struct shupkelen_buffers *buffers,
    struct shupkelen_answer *answer) {
    uint32_t words[SHUPKELEN_ANSWER_WORDS];
    uint32_t refusal = shupkelen_confirm(names->pool, SHUPKELEN_POOL_BYTES, names->table, SHUPKELEN_TABLE_WORDS, shupkelen_words(set), set_len,
        buffers->result, SHUPKELEN_LIST_WORDS, buffers->work, SHUPKELEN_WORK_WORDS, words, SHUPKELEN_ANSWER_WORDS);
    return shupkelen_answered(refusal, words, answer);
}

/* shupkelen_check_line. */
static inline uint32_t shupkelen_check_steps(const struct shupkelen_names *names, const struct shupkelen_line *line, struct shupkelen_buffers *buffers,
    struct shupkelen_answer *answer) {
    uint32_t words[SHUPKELEN_ANSWER_WORDS];
    uint32_t refusal = shupkelen_check_line(names->pool, SHUPKELEN_POOL_BYTES, names->table, SHUPKELEN_TABLE_WORDS, shupkelen_words(line->steps),
        line->steps_len, shupkelen_words(line->types), line->types_len, shupkelen_words(line->lines), line->lines_len, shupkelen_words(line->names),
        line->names_len, buffers->result, SHUPKELEN_LIST_WORDS, buffers->work, SHUPKELEN_WORK_WORDS, words, SHUPKELEN_ANSWER_WORDS);
    return shupkelen_answered(refusal, words, answer);
}

/* shupkelen_write_text. */
static inline uint32_t shupkelen_write_set(const struct shupkelen_names *names, const uint32_t *set, size_t set_len, uint8_t *text, size_t text_len,
    struct shupkelen_answer *answer) {
    uint32_t words[SHUPKELEN_ANSWER_WORDS];
    uint32_t refusal = shupkelen_write_text(names->pool, SHUPKELEN_POOL_BYTES, names->table, SHUPKELEN_TABLE_WORDS, shupkelen_words(set), set_len, text,
        text_len, words, SHUPKELEN_ANSWER_WORDS);
    return shupkelen_answered(refusal, words, answer);
}

/* A refusal in words; of another number an empty text. */
static inline const char *shupkelen_refusal_text(uint32_t refusal) {
    switch (refusal) {
    case SHUPKELEN_ACCEPTED: return "accepted";
    case SHUPKELEN_MALFORMED: return "a table, list, product or exponent is not well formed";
    case SHUPKELEN_NAME_LENGTH: return "a name has 1 to 48 bytes";
    case SHUPKELEN_NO_ROOM: return "there is no room for the name, or no name has the number";
    case SHUPKELEN_MIXED: return "one name is both a variable and a parameter, or a name lent for a line is not fresh";
    case SHUPKELEN_UNSOLVED: return "no rule applies and constraints remain";
    case SHUPKELEN_NOT_DIMENSION: return "a type that is no dimension would enter a product";
    case SHUPKELEN_OUT_OF_RANGE: return "an exponent is out of range";
    case SHUPKELEN_TOO_LARGE: return "over a limit of size";
    case SHUPKELEN_WRONG_COUNT: return "another count of names than the scheme has, or a concrete type";
    case SHUPKELEN_SHORT_BUFFER: return "a lent buffer is too short";
    case SHUPKELEN_NOT_CONFIRMED: return "the judge says no";
    case SHUPKELEN_NOT_GRAMMAR: return "a line is outside the grammar";
    default: return "";
    }
}

#ifdef __cplusplus
}
#endif

#endif
