/* K2 of the rules: the set of the one constraint x = boolean. Prints what the solver gives and the judge confirms. */
#include <stdio.h>
#include <string.h>

#include "shupkelen.h"

static uint8_t pool[SHUPKELEN_POOL_BYTES];
static uint32_t table[SHUPKELEN_TABLE_WORDS];
static uint32_t result[SHUPKELEN_LIST_WORDS];
static uint32_t work[SHUPKELEN_WORK_WORDS];

int main(void) {
    uint32_t answer[SHUPKELEN_ANSWER_WORDS];
    uint32_t refusal = shupkelen_enter(pool, SHUPKELEN_POOL_BYTES, table, SHUPKELEN_TABLE_WORDS, (const uint8_t *)"x", strlen("x"), answer, SHUPKELEN_ANSWER_WORDS);
    if (refusal != SHUPKELEN_ACCEPTED) {
        printf("the name is refused: %u\n", (unsigned)refusal);
        return 1;
    }
    uint32_t x = answer[0];
    /* word 0: the kind plus 65,536 times the records of the part: equal 20, variable 1, boolean 4 */
    const uint32_t set[] = {20 + 65536 * 3, 0, 0, 0, 1 + 65536 * 1, x, 0, 0, 4 + 65536 * 1, 0, 0, 0};
    refusal = shupkelen_confirm(pool, SHUPKELEN_POOL_BYTES, table, SHUPKELEN_TABLE_WORDS, set, sizeof set / sizeof set[0], result, SHUPKELEN_LIST_WORDS, work, SHUPKELEN_WORK_WORDS, answer, SHUPKELEN_ANSWER_WORDS);
    printf("refusal %u, records of bindings %u, bounds %u, rounds %u\n", (unsigned)refusal, (unsigned)answer[0], (unsigned)answer[1], (unsigned)answer[2]);
    for (uint32_t i = 0; i < answer[0]; i++) {
        const uint32_t *r = result + i * 4;
        printf("(%u, %u, %u, %u)\n", (unsigned)(r[0] % 65536), (unsigned)r[1], (unsigned)r[2], (unsigned)r[3]);
    }
    return refusal != SHUPKELEN_ACCEPTED;
}
