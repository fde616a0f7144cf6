// Times the proved calls and the plain ones in turns, and checks that they agree.
#include <stddef.h>
#include <stdint.h>

#include "timing.h"

uint64_t proved_numbers(const uint16_t *numbers, size_t count);
uint64_t plain_numbers(const uint16_t *numbers, size_t count);
uint64_t proved_vp8(const uint8_t *payload, size_t len);
uint64_t plain_vp8(const uint8_t *payload, size_t len);
uint64_t proved_vp9(const uint8_t *payload, size_t len);
uint64_t plain_vp9(const uint8_t *payload, size_t len);

enum { COUNT = 4096, SIZE = 16, ROUNDS = 500, TURNS = 15 };

static uint16_t numbers[COUNT];
static uint8_t payloads[COUNT][SIZE];

static double numbers_time(uint64_t (*number)(const uint16_t *, size_t), uint64_t *sum) {
    double from = now();
    for (size_t round = 0; round < ROUNDS; round++) *sum += number(numbers, COUNT);
    return (now() - from) / ((double)ROUNDS * COUNT * 2);
}

static void compare_numbers(void) {
    double proved = 0, plain = 0;
    for (int turn = 0; turn < TURNS; turn++) {
        uint64_t a = 0, b = 0;
        least(&proved, numbers_time(proved_numbers, &a));
        least(&plain, numbers_time(plain_numbers, &b));
        if (a != b) differ("input");
    }
    printf("%-28s proved %6.2f ns   plain C %6.2f ns\n", "input", proved, plain);
}

static double key_time(uint64_t (*test)(const uint8_t *, size_t), uint64_t *sum) {
    double from = now();
    for (size_t round = 0; round < ROUNDS; round++)
        for (size_t i = 0; i < COUNT; i++) *sum += test(payloads[i], SIZE);
    return (now() - from) / ((double)ROUNDS * COUNT);
}

static void compare_keys(const char *what, uint64_t (*proved_test)(const uint8_t *, size_t), uint64_t (*plain_test)(const uint8_t *, size_t)) {
    double proved = 0, plain = 0;
    for (size_t i = 0; i < COUNT; i++)
        for (size_t len = 0; len <= SIZE; len++)
            if (proved_test(payloads[i], len) != plain_test(payloads[i], len)) differ(what);
    for (int turn = 0; turn < TURNS; turn++) {
        uint64_t a = 0, b = 0;
        least(&proved, key_time(proved_test, &a));
        least(&plain, key_time(plain_test, &b));
        if (a != b) differ(what);
    }
    printf("%-28s proved %6.2f ns   plain C %6.2f ns\n", what, proved, plain);
}

int main(void) {
    uint32_t x = 1;
    for (size_t i = 0; i < COUNT; i++) {
        x = x * 1664525 + 1013904223;
        // In order, with one in eight late or lost.
        numbers[i] = (uint16_t)(65000 + i - (x >> 29 == 0 ? x >> 24 & 7 : 0));
        for (size_t k = 0; k < SIZE; k++) {
            x = x * 1664525 + 1013904223;
            payloads[i][k] = (uint8_t)(x >> 24);
        }
    }
    compare_numbers();
    compare_keys("vp8_starts_key, any payload", proved_vp8, plain_vp8);
    compare_keys("vp9_starts_key, any payload", proved_vp9, plain_vp9);
    for (size_t i = 0; i < COUNT; i++) payloads[i][0] = 0x90;
    compare_keys("vp8_starts_key, extended", proved_vp8, plain_vp8);
    for (size_t i = 0; i < COUNT; i++) payloads[i][0] = 0xa8;
    compare_keys("vp9_starts_key, with layers", proved_vp9, plain_vp9);
    return 0;
}
