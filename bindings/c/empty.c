/* Asks each call with each choice of empty slices, twice: with NULL, and with a valid pointer. What is returned, and all that was lent, has to be the same. */
#include <stdio.h>
#include <string.h>

#include "shupkelen.h"

#define RECORD(kind, length, a, b, c) SHUPKELEN_RECORD(SHUPKELEN_KIND_##kind, length), a, b, c
#define STEP(step, a) SHUPKELEN_STEP_##step, a, 0, 0
#define WORDS(name, ...) static uint32_t name[] = {__VA_ARGS__}

enum { X, Y, F, P, L };
static uint8_t pool[SHUPKELEN_POOL_BYTES] = "xyfpL";
static uint32_t table[SHUPKELEN_TABLE_WORDS] = {5, 1, 2, 3, 4, 5};
static uint8_t name[] = {'n', 'e', 'w'};
WORDS(first, SHUPKELEN_KIND_VARIABLE_FACTOR, X, 1, 2);
WORDS(second, SHUPKELEN_KIND_BASE_FACTOR, L, 3, 1);
WORDS(type, RECORD(FUNCTION, 4, 1, 0, 0), RECORD(VARIABLE, 1, Y, 0, 0), RECORD(DIMENSION, 2, 1, 0, 0), RECORD(VARIABLE_FACTOR, 1, F, 1, 1));
WORDS(set, RECORD(EQUAL, 4, 0, 0, 0), RECORD(VARIABLE, 1, X, 0, 0), RECORD(DIMENSION, 2, 1, 0, 0), RECORD(BASE_FACTOR, 1, L, 1, 1));
WORDS(scalar, RECORD(EQUAL_SCALAR, 3, 0, 0, 0), RECORD(DIMENSION, 2, 1, 0, 0), RECORD(VARIABLE_FACTOR, 1, X, 1, 1));
WORDS(bindings, RECORD(BINDING, 2, Y, 0, 0), RECORD(BOOLEAN, 1, 0, 0, 0));
WORDS(entries, X, 0);
WORDS(types, RECORD(DIMENSION, 2, 1, 0, 0), RECORD(BASE_FACTOR, 1, L, 1, 1));
WORDS(bounds, RECORD(BOUND, 1, Y, 0, 0));
WORDS(steps, STEP(CONSTANT, 0), STEP(REFERENCE, 0), STEP(ADD, 0));
WORDS(lines, 0);
WORDS(names, Y, F, P);
WORDS(scheme, RECORD(SCHEME, 2, 0, 1, 0), RECORD(VARIABLE, 1, Y, 0, 0));
WORDS(quantified, RECORD(SCHEME, 2, 3, 0, 0), RECORD(QUANTIFIED, 1, 0, 0, 0));
WORDS(sets, RECORD(IS_DIMENSION, 2, 0, 0, 0), RECORD(VARIABLE, 1, X, 0, 0), RECORD(IS_DIMENSION, 2, 0, 0, 0), RECORD(VARIABLE, 1, Y, 0, 0));
WORDS(lengths, 2, 2);
static uint8_t file[] = {21, 0, 2, 0, 0, 0, 0, 0, 0, 0, 0, 0, 0, 0, 0, 0, 1, 0, 1, 0, 0, 0, 0, 0, 0, 0, 0, 0, 0, 0, 0, 0};
static uint8_t text[] = {'?', 'x', ' ', '~', ' ', '[', '#', 'k', 'm', ']'};
static uint32_t buffer[SHUPKELEN_LIST_WORDS], result[2 * SHUPKELEN_LIST_WORDS], work[SHUPKELEN_WORK_WORDS];
static uint32_t answers[8], answer[SHUPKELEN_ANSWER_WORDS], skipped[SHUPKELEN_SKIPPED_WORDS];
static uint8_t kept[SHUPKELEN_KEPT_BYTES], shown[SHUPKELEN_TEXT_BYTES];

#define SLICE(name) {name, sizeof name, sizeof name / sizeof name[0]}
static const struct slice {
    void *at;
    size_t bytes;
    size_t len;
} slices[] = {
    SLICE(pool), SLICE(table), SLICE(name), SLICE(first), SLICE(second), SLICE(type), SLICE(set), SLICE(scalar), SLICE(bindings), SLICE(entries),
    SLICE(types), SLICE(bounds), SLICE(steps), SLICE(lines), SLICE(names), SLICE(scheme), SLICE(quantified), SLICE(sets), SLICE(lengths), SLICE(file),
    SLICE(text), SLICE(buffer), SLICE(result), SLICE(work), SLICE(answers), SLICE(answer), SLICE(skipped), SLICE(kept), SLICE(shown),
};
enum { SLICES = sizeof slices / sizeof slices[0] };

/* The slices that the call took, those that are empty, and what stands in their place */
static uint32_t taken, empty;
static void *none;

static uint32_t taking(void *at) {
    int i = 0;
    while (slices[i].at != at) i++;
    taken |= UINT32_C(1) << i;
    return empty >> i & 1;
}

static void *pointer(void *at) { return taking(at) ? none : at; }
static size_t count(void *at, size_t len) { return taking(at) ? 0 : len; }

#define S(name) pointer(name), count(name, sizeof name / sizeof name[0])
#define TABLE S(pool), S(table)
#define WRITES S(result), S(work), S(answer)
#define EACH_CALL(CALL) \
    CALL(compare, S(name), S(text)) CALL(check_table, TABLE) CALL(check_number, TABLE, L) CALL(name_of, TABLE, L, S(answer)) \
    CALL(enter, TABLE, S(name), S(answer)) CALL(exponent_add, 1, 2, 1, 3, S(answer)) CALL(exponent_multiply, 1, 2, 1, 3, S(answer)) \
    CALL(exponent_negate, 1, 2, S(answer)) CALL(exponent_divide, 1, 2, 1, 3, S(answer)) \
    CALL(product_multiply, TABLE, S(first), S(second), S(result), S(answer)) CALL(product_divide, TABLE, S(first), S(second), S(result), S(answer)) \
    CALL(product_invert, TABLE, S(first), S(result), S(answer)) CALL(product_power, TABLE, S(first), 3, 4, S(result), S(answer)) \
    CALL(is_set, TABLE, S(set)) CALL(is_type, TABLE, S(type)) CALL(is_scheme, TABLE, S(scheme)) CALL(is_bindings, TABLE, S(bindings)) \
    CALL(lent, TABLE, S(result), S(work)) CALL(contains, TABLE, S(type), X, 1, S(answer)) CALL(closed, TABLE, S(type), S(answer)) \
    CALL(variables, TABLE, S(type), 1, S(result), S(answer)) CALL(ceiling, TABLE, S(set), S(answer)) CALL(add, TABLE, S(buffer), 0, S(set), S(answer)) \
    CALL(replace_in_type, TABLE, S(type), S(bindings), WRITES) CALL(replace_in_set, TABLE, S(set), S(bindings), WRITES) \
    CALL(confirm, TABLE, S(set), WRITES) CALL(solve, TABLE, S(set), WRITES) \
    CALL(solve_all, TABLE, S(sets), S(lengths), S(result), S(answers), S(work), S(answer)) CALL(eliminate, TABLE, S(scalar), WRITES) \
    CALL(judge, TABLE, S(set), S(entries), S(types), S(bounds), S(work), S(answer)) \
    CALL(check_line, TABLE, S(steps), S(types), S(lines), S(names), WRITES) CALL(quantify, TABLE, S(type), S(bounds), S(names), WRITES) \
    CALL(generalise, TABLE, S(scheme), S(bounds), WRITES) CALL(instantiate, TABLE, S(quantified), S(names), WRITES) \
    CALL(rescue, TABLE, S(file), S(kept), S(skipped), S(answer)) CALL(compact, TABLE, S(sets), S(lengths), S(answer)) \
    CALL(write_text, TABLE, S(set), S(shown), S(answer)) CALL(read_text, TABLE, S(text), WRITES)
#define DEFINED(call, ...) static uint32_t ask_##call(void) { return shupkelen_##call(__VA_ARGS__); }
#define LISTED(call, ...) {#call, ask_##call},
EACH_CALL(DEFINED)
static const struct call {
    const char *name;
    uint32_t (*ask)(void);
} calls[] = {EACH_CALL(LISTED)};
enum { CALLS = sizeof calls / sizeof calls[0] };

/* What stands in the slices, one after another */
static uint8_t before[600000], after[600000];

static void keep(uint8_t *to, uint32_t which) {
    for (int i = 0; i < SLICES; i++) {
        if (which >> i & 1) memcpy(to, slices[i].at, slices[i].bytes);
        to += slices[i].bytes;
    }
}

static void put_back(void) {
    const uint8_t *from = before;
    for (int i = 0; i < SLICES; i++) {
        if (taken >> i & 1) memcpy(slices[i].at, from, slices[i].bytes);
        from += slices[i].bytes;
    }
}

static int same(void) {
    const uint8_t *other = after;
    for (int i = 0; i < SLICES; i++) {
        if (taken >> i & 1 && memcmp(slices[i].at, other, slices[i].bytes) != 0) return 0;
        other += slices[i].bytes;
    }
    return 1;
}

static uint32_t ask(const struct call *c, void *in_place) {
    none = in_place;
    put_back();
    return c->ask();
}

/* How many choices of empty slices there were; 0 where one of them shows another answer */
static unsigned tried(const struct call *c) {
    static uint64_t something;
    unsigned choices = 0;
    taken = empty = 0;
    uint32_t full = c->ask();
    uint32_t all = taken;
    put_back();
    if (full != SHUPKELEN_ACCEPTED && strcmp(c->name, "compare") != 0) {
        printf("%s: refused with %u where nothing is empty\n", c->name, (unsigned)full);
        return 0;
    }
    do {
        empty = (empty - all) & all;
        uint32_t given = ask(c, &something);
        keep(after, all);
        if (ask(c, NULL) != given || !same()) {
            printf("%s: another answer with NULL for the slices %x\n", c->name, (unsigned)empty);
            return 0;
        }
        choices++;
    } while (empty != 0);
    put_back();
    return choices;
}

int main(void) {
    unsigned choices = 0;
    if (shupkelen_version() != SHUPKELEN_VERSION) {
        printf("the library is version %u, and the header %u\n", (unsigned)shupkelen_version(), (unsigned)SHUPKELEN_VERSION);
        return 1;
    }
    memset(work, 7, sizeof work);
    memset(result, 9, sizeof result);
    keep(before, UINT32_MAX);
    for (int i = 0; i < CALLS; i++) {
        unsigned more = tried(&calls[i]);
        if (more == 0) return 1;
        choices += more;
    }
    printf("version %s; %u calls, %u choices of empty slices: the same with NULL\n", SHUPKELEN_VERSION_TEXT, (unsigned)CALLS, choices);
    return 0;
}
