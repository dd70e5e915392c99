/* Reads a sheet from standard input, confirms it, and prints what its variables stand for, as lines of a sheet. Ends with 0 where it is accepted. */
#include <stdio.h>

#include "shupkelen.h"

static struct shupkelen_names names;
static struct shupkelen_buffers buffers;
static uint8_t text[1048577];
static uint32_t set[SHUPKELEN_LIST_WORDS];
static uint8_t shown[SHUPKELEN_TEXT_BYTES];

/* A binding is a variable's record and its type's: as an equality of the two, it is a constraint that can be written as text. */
static size_t equality(const uint32_t *binding, uint32_t *to) {
    size_t records = binding[0] / 65536;
    const uint32_t head[] = {SHUPKELEN_RECORD(SHUPKELEN_KIND_EQUAL, records + 1), 0, 0, 0, SHUPKELEN_RECORD(SHUPKELEN_KIND_VARIABLE, 1), binding[1], 0, 0};
    size_t at = 0;
    for (; at < 8; at++) to[at] = head[at];
    for (size_t i = 4; i < records * 4; i++, at++) to[at] = binding[i];
    return records * 4;
}

static int print_bindings(uint32_t records) {
    static uint32_t one[SHUPKELEN_LIST_WORDS + 4];
    struct shupkelen_answer answer;
    for (size_t at = 0; at < records * 4;) {
        size_t words = equality(buffers.result + at, one);
        /* an equality has one record more than its binding; a binding of 2,048 records has none to spare */
        if (shupkelen_write_set(&names, one, words + 4, shown, sizeof shown, &answer) != SHUPKELEN_ACCEPTED) return 1;
        fwrite(shown, 1, answer.value, stdout);
        at += words;
    }
    return 0;
}

int main(void) {
    struct shupkelen_answer answer;
    size_t bytes = fread(text, 1, sizeof text, stdin);
    if (bytes == sizeof text || ferror(stdin)) {
        fprintf(stderr, "the sheet is too long, or can't be read\n");
        return 2;
    }
    uint32_t refusal = shupkelen_read_sheet(&names, text, bytes, &buffers, &answer);
    if (refusal != SHUPKELEN_ACCEPTED) {
        printf("line %u, column %u: %s\n", (unsigned)answer.value, (unsigned)answer.more, shupkelen_refusal_text(refusal));
        return 1;
    }
    size_t words = (size_t)answer.value * 4;
    for (size_t i = 0; i < words; i++) set[i] = buffers.result[i];
    refusal = shupkelen_confirm_set(&names, set, words, &buffers, &answer);
    if (refusal != SHUPKELEN_ACCEPTED) {
        printf("not accepted after %u rounds: %s\n", (unsigned)answer.rounds, shupkelen_refusal_text(refusal));
        return 1;
    }
    return print_bindings(answer.value);
}
