/* Starts a trainer with the usual settings, answers its first question, and prints the panel. */
#include <stdio.h>
#include <string.h>

#include "knellstone.h"

static uint8_t *put(uint8_t *at, uint64_t x, int n) {
    for (int i = n - 1; i >= 0; i--)
        *at++ = (uint8_t)(x >> (8 * i));
    return at;
}

static uint8_t *put_float(uint8_t *at, double x) {
    uint64_t bits;
    memcpy(&bits, &x, 8);
    return put(at, bits, 8);
}

static uint8_t *put_action(uint8_t *at, double multiplier, int32_t increment, double delay) {
    at = put_float(at, multiplier);
    at = put(at, (uint32_t)increment, 4);
    return put_float(at, delay);
}

int main(void) {
    uint8_t settings[KNELLSTONE_SETTINGS], *at = settings;
    at = put(at, 12, 4);
    at = put(at, 2, 4);
    at = put(at, 4, 4);
    at = put(at, 1, 1);
    at = put_action(at, 0.0, 0, 0.25 / 1000);
    at = put_action(at, 1.0, 256, 3.0 / 1000);
    at = put_action(at, 0.01, 1, 0.05 / 1000);
    at = put_action(at, 0.5, 32, 1.0 / 1000);
    at = put_action(at, 1.0, 1, 3.0 / 1000);
    at = put_float(at, 600.0);
    at = put_float(at, 600.0);
    put_float(at, 1000.0);

    uint8_t record[KNELLSTONE_RECORD_MOST], next[KNELLSTONE_RECORD_MOST + 8], counts[8], question[KNELLSTONE_QUESTION];
    char lines[8192];
    uint64_t size = knellstone_start(settings, sizeof settings, record, sizeof record);
    printf("record of %u bytes\n", (unsigned)size);
    printf("short buffer: refused %u\n",
           knellstone_refusal(knellstone_start(settings, sizeof settings, next, KNELLSTONE_RECORD_FRESH - 1)));
    put_float(settings + KNELLSTONE_SETTINGS - 24, 0.5);
    printf("an upper end of half a second: refused %u\n",
           knellstone_refusal(knellstone_start(settings, sizeof settings, next, sizeof next)));
    printf("no split to take back: refused %u\n",
           knellstone_refusal(knellstone_undo_split(record, size, next, sizeof next)));
    put(counts, 5, 8);
    size = knellstone_answer_counts(record, size, counts, sizeof counts, next, sizeof next);
    knellstone_question(next, size, question, sizeof question);
    printf("asks for %s of leaf %u\n", question[0] == 2 ? "a score" : "counts", question[1] * 256u + question[2]);
    printf("counts again: refused %u\n",
           knellstone_refusal(knellstone_answer_counts(next, size, counts, sizeof counts, record, sizeof record)));
    memcpy(next + size, counts, sizeof counts);
    size = knellstone_panel(next, size + sizeof counts, (uint8_t *)lines, sizeof lines);
    fwrite(lines, 1, size, stdout);
    return 0;
}
