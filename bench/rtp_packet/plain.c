// The plain C that it is compared with: RFC 3550, section 5.1, each test made once.
#include <stddef.h>
#include <stdint.h>

struct view {
    const uint8_t *bytes;
    size_t len;
    const uint8_t *words;
    size_t words_len;
    const uint8_t *payload;
    size_t payload_len;
    uint16_t profile;
    uint8_t has_extension;
};

static uint16_t get16(const uint8_t *p) { return (uint16_t)(p[0] << 8 | p[1]); }

static uint32_t get32(const uint8_t *p) {
    return (uint32_t)p[0] << 24 | (uint32_t)p[1] << 16 | (uint32_t)p[2] << 8 | p[3];
}

static int parse(struct view *view, const uint8_t *bytes, size_t len) {
    if (len < 12) return 1;
    uint8_t first = bytes[0];
    if (first >> 6 != 2) return 2;
    const uint8_t *rest = bytes + 12;
    size_t left = len - 12;
    size_t csrcs = 4 * (size_t)(first & 0x0f);
    if (left < csrcs) return 3;
    rest += csrcs;
    left -= csrcs;
    view->has_extension = 0;
    if (first & 0x10) {
        if (left < 4) return 4;
        size_t words = 4 * (size_t)get16(rest + 2);
        if (left - 4 < words) return 4;
        view->has_extension = 1;
        view->profile = get16(rest);
        view->words = rest + 4;
        view->words_len = words;
        rest += 4 + words;
        left -= 4 + words;
    }
    size_t padding = 0;
    if (first & 0x20) {
        if (left == 0) return 5;
        padding = rest[left - 1];
        if (padding == 0 || left < padding) return 5;
    }
    view->bytes = bytes;
    view->len = len;
    view->payload = rest;
    view->payload_len = left - padding;
    return 0;
}

uint64_t plain_parse(const uint8_t *bytes, size_t len) {
    struct view view;
    if (parse(&view, bytes, len) != 0) return 0;
    uint64_t numbers = (uint64_t)get16(view.bytes + 2) ^ get32(view.bytes + 8) ^ get32(view.bytes + 4);
    uint64_t kind = (uint64_t)(view.bytes[1] & 0x7f) ^ (view.bytes[1] >> 7);
    uint64_t words = view.has_extension ? (uint64_t)view.profile ^ view.words_len : 0;
    return numbers ^ kind ^ words ^ view.payload_len;
}

void plain_set(uint8_t *packet, size_t len, uint16_t seq, uint32_t ssrc, uint8_t payload_type) {
    (void)len;
    packet[1] = (uint8_t)((packet[1] & 0x80) | payload_type);
    packet[2] = (uint8_t)(seq >> 8);
    packet[3] = (uint8_t)seq;
    packet[8] = (uint8_t)(ssrc >> 24);
    packet[9] = (uint8_t)(ssrc >> 16);
    packet[10] = (uint8_t)(ssrc >> 8);
    packet[11] = (uint8_t)ssrc;
}
