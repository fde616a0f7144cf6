// Times the proved calls and the plain ones in turns, over a ring of packets, and checks that they agree.
#include <stddef.h>
#include <stdint.h>
#include <string.h>

#include "timing.h"

uint64_t proved_parse(const uint8_t *bytes, size_t len);
uint64_t plain_parse(const uint8_t *bytes, size_t len);
void proved_set(uint8_t *packet, size_t len, uint16_t seq, uint32_t ssrc, uint8_t payload_type);
void plain_set(uint8_t *packet, size_t len, uint16_t seq, uint32_t ssrc, uint8_t payload_type);

enum { RING = 64, ROUNDS = 20000, TURNS = 15 };

static uint8_t *ring_of(size_t size, uint8_t first) {
    uint8_t *ring = calloc(RING, size);
    for (size_t i = 0; i < RING; i++) {
        uint8_t *packet = ring + i * size;
        for (size_t k = 0; k < size; k++) packet[k] = (uint8_t)(i * 7 + k);
        packet[0] = first;
        packet[1] = (uint8_t)(i % 2 * 128 + 96);
        size_t at = 12 + 4 * (size_t)(first & 0x0f);
        if (first & 0x10) {
            packet[at] = 0xbe;
            packet[at + 1] = 0xde;
            packet[at + 2] = 0;
            packet[at + 3] = 2;
        }
        packet[size - 1] = 5;
    }
    return ring;
}

static double parse_time(uint64_t (*parse)(const uint8_t *, size_t), const uint8_t *ring, size_t size, uint64_t *sum) {
    double from = now();
    for (size_t round = 0; round < ROUNDS; round++)
        for (size_t i = 0; i < RING; i++) *sum += parse(ring + i * size, size);
    return (now() - from) / ((double)ROUNDS * RING);
}

static double set_time(void (*set)(uint8_t *, size_t, uint16_t, uint32_t, uint8_t), uint8_t *ring, size_t size) {
    double from = now();
    for (size_t round = 0; round < ROUNDS; round++)
        for (size_t i = 0; i < RING; i++)
            set(ring + i * size, size, (uint16_t)(round + i), (uint32_t)(round * 64 + i), (uint8_t)(i & 127));
    return (now() - from) / ((double)ROUNDS * RING);
}

static void compare(const char *what, size_t size, uint8_t first) {
    uint8_t *mine = ring_of(size, first), *theirs = ring_of(size, first);
    double parse[2] = {0, 0}, set[2] = {0, 0};
    for (int turn = 0; turn < TURNS; turn++) {
        uint64_t sums[2] = {0, 0};
        least(&parse[0], parse_time(proved_parse, mine, size, &sums[0]));
        least(&parse[1], parse_time(plain_parse, theirs, size, &sums[1]));
        least(&set[0], set_time(proved_set, mine, size));
        least(&set[1], set_time(plain_set, theirs, size));
        if (sums[0] != sums[1] || sums[0] == 0 || memcmp(mine, theirs, RING * size) != 0) {
            differ(what);
        }
    }
    printf("%-28s %5zu bytes: parse %.2f ns, in C %.2f (%.2f times); set_fields %.2f ns, in C %.2f (%.2f times)\n", what, size,
           parse[0], parse[1], parse[0] / parse[1], set[0], set[1], set[0] / set[1]);
    free(mine);
    free(theirs);
}

int main(void) {
    compare("plain header", 172, 0x80);
    compare("plain header", 1212, 0x80);
    compare("extension", 1212, 0x90);
    compare("CSRCs, extension, padding", 172, 0xb2);
    compare("CSRCs, extension, padding", 1212, 0xb2);
    return 0;
}
