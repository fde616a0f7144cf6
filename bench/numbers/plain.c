#include <stdbool.h>
#include <stddef.h>
#include <stdint.h>

struct manager { uint16_t greatest, offset; bool begun; };

static uint16_t input(struct manager *m, uint16_t number) {
    uint16_t output = m->begun ? number + m->offset : m->greatest + 1;
    m->begun = true;
    m->offset = output - number;
    if ((uint16_t)(output - m->greatest) < 32768) m->greatest = output;
    return output;
}

uint64_t plain_numbers(const uint16_t *numbers, size_t count) {
    struct manager m = {0, 0, false};
    uint64_t sum = 0;
    for (size_t i = 0; i < count; i++) sum += input(&m, numbers[i]);
    m.begun = false;
    for (size_t i = 0; i < count; i++) sum += input(&m, numbers[i]);
    return sum;
}

uint64_t plain_vp8(const uint8_t *p, size_t len) {
    size_t at = 1;
    if (len < 1 || !(p[0] & 0x10) || p[0] & 0x07) return 0;
    if (p[0] & 0x80) {
        if (len < 2) return 0;
        uint8_t flags = p[at++];
        if (flags & 0x80) {
            if (at >= len) return 0;
            at += p[at] & 0x80 ? 2 : 1;
        }
        if (flags & 0x40) at++;
        if (flags & 0x30) at++;
    }
    return at < len && !(p[at] & 0x01);
}

uint64_t plain_vp9(const uint8_t *p, size_t len) {
    size_t at = 1;
    if (len < 1 || p[0] & 0x40 || !(p[0] & 0x08)) return 0;
    if (!(p[0] & 0x20)) return 1;
    if (p[0] & 0x80) {
        if (at >= len) return 0;
        at += p[at] & 0x80 ? 2 : 1;
    }
    return at < len && !(p[at] & 0x0e);
}
