/* Starts a trainer with the usual settings, and asks its tree for the leaves within ranges of memory and for the cubes that a lookup tests. */
#include <stdio.h>
#include <string.h>

#include "knellstone.h"

static uint8_t *put(uint8_t *at, uint64_t x, int n) {
    for (int i = n - 1; i >= 0; i--)
        *at++ = (uint8_t)(x >> (8 * i));
    return at;
}

static uint8_t *put_float(uint8_t *at, double x) {
    uint64_t bits;
    memcpy(&bits, &x, 8);
    return put(at, bits, 8);
}

static uint8_t *put_action(uint8_t *at, double multiplier, int32_t increment, double delay) {
    at = put_float(at, multiplier);
    at = put(at, (uint32_t)increment, 4);
    return put_float(at, delay);
}

int main(void) {
    uint8_t settings[KNELLSTONE_SETTINGS], *at = settings;
    at = put(at, 12, 4);
    at = put(at, 2, 4);
    at = put(at, 4, 4);
    at = put(at, 1, 1);
    at = put_action(at, 0.0, 0, 0.25 / 1000);
    at = put_action(at, 1.0, 256, 3.0 / 1000);
    at = put_action(at, 0.01, 1, 0.05 / 1000);
    at = put_action(at, 0.5, 32, 1.0 / 1000);
    at = put_action(at, 1.0, 1, 3.0 / 1000);
    at = put_float(at, 600.0);
    at = put_float(at, 600.0);
    put_float(at, 1000.0);

    uint8_t record[KNELLSTONE_RECORD_MOST], ranges[KNELLSTONE_RANGES] = {0}, leaves[2 * 513];
    uint8_t point[KNELLSTONE_POINT] = {0}, row[KNELLSTONE_TESTED];
    uint64_t size = knellstone_start(settings, sizeof settings, record, sizeof record);
    put_float(ranges + 8, 600.0);
    uint64_t found = knellstone_ranges(record, size, ranges, sizeof ranges, leaves, sizeof leaves);
    printf("leaves within ranges: %u\n", (unsigned)(found / 2));
    put_float(ranges, 601.0);
    printf("a lowest above its highest: refused %u\n",
           knellstone_refusal(knellstone_ranges(record, size, ranges, sizeof ranges, leaves, sizeof leaves)));
    knellstone_lookup_tested(record, size, point, sizeof point, row, sizeof row);
    printf("cubes tested for a point: %u\n", row[KNELLSTONE_FOUND] * 256u + row[KNELLSTONE_FOUND + 1]);
    return 0;
}
