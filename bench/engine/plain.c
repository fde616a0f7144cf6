// The plain C that the engine is compared with where packets come and go by the channel: it looks up the Producer, its Router and itself
// in it once for a packet, in tables of one hash that is a multiplication, and nothing for a copy.
// Usage: plain direct|extended CONSUMERS
#include <stdint.h>
#include <stdio.h>
#include <stdlib.h>
#include <string.h>
#include <time.h>

enum { RING = 64, TURNS = 25, PACKETS = 200000, HEAD = 41, PLACES = 64, BUFFER = 65576 };

static const uint8_t EXTENSION[16] = {0xbe, 0xde, 0, 3, 0x30, 0x55, 0x52, 1, 2, 3, 0x71, 4, 5, 0, 0, 0};

struct id {
    uint8_t bytes[16];
};

struct consumer {
    uint8_t head[HEAD - 4];
    uint8_t is_paused, is_begun;
    uint32_t mapped, ssrc;
    uint16_t offset, greatest;
    uint8_t types[128], ids[256];
};

struct producer {
    uint8_t is_paused;
    uint32_t ssrc, mapped;
    int16_t types[128];
    struct consumer *consumers;
    size_t count;
};

// A table by id: open places, one after the other.
struct table {
    struct {
        struct id id;
        void *item;
    } places[PLACES];
};

struct direct {
    struct id router, producer;
};

struct worker {
    struct table directs, routers;
    uint8_t buffer[BUFFER];
};

struct view {
    uint16_t seq;
    uint32_t ssrc;
    uint8_t payload_type;
    size_t from, to;
};

struct meter {
    uint64_t frames, sum;
    int is_whole;
};

static uint16_t get16(const uint8_t *p) { return (uint16_t)(p[0] << 8 | p[1]); }

static uint32_t get32(const uint8_t *p) {
    return (uint32_t)p[0] << 24 | (uint32_t)p[1] << 16 | (uint32_t)p[2] << 8 | p[3];
}

static void put16(uint8_t *p, uint16_t v) { p[0] = (uint8_t)(v >> 8), p[1] = (uint8_t)v; }

static void put32(uint8_t *p, uint32_t v) { put16(p, (uint16_t)(v >> 16)), put16(p + 2, (uint16_t)v); }

static struct id id_of(size_t number) {
    struct id id = {{0, 0, 0, 0, 0, 0, 0x40, 0, 0x80}};
    put16(id.bytes + 14, (uint16_t)number);
    return id;
}

static size_t place_of(const struct id *id) {
    uint64_t halves[2];
    memcpy(halves, id->bytes, sizeof halves);
    return (size_t)((halves[0] ^ halves[1] * 0x9e3779b97f4a7c15u) * 0x9e3779b97f4a7c15u >> 58) % PLACES;
}

static void add(struct table *table, struct id id, void *item) {
    size_t place = place_of(&id);
    while (table->places[place].item) place = (place + 1) % PLACES;
    table->places[place].id = id;
    table->places[place].item = item;
}

static void *get(const struct table *table, const struct id *id) {
    for (size_t place = place_of(id); table->places[place].item; place = (place + 1) % PLACES)
        if (memcmp(&table->places[place].id, id, sizeof *id) == 0) return table->places[place].item;
    return NULL;
}

static int parse(struct view *view, const uint8_t *packet, size_t length) {
    if (length < 12 || packet[0] >> 6 != 2) return 0;
    size_t at = 12 + 4 * (size_t)(packet[0] & 15);
    view->from = view->to = 0;
    if (packet[0] & 0x10) {
        if (length < at + 4) return 0;
        size_t size = 4 * (size_t)get16(packet + at + 2);
        if (get16(packet + at) == 0xbede) view->from = at + 4, view->to = at + 4 + size;
        at += 4 + size;
    }
    if (length < at) return 0;
    if (packet[0] & 0x20) {
        if (length == at || packet[length - 1] == 0 || packet[length - 1] > length - at) return 0;
    }
    view->seq = get16(packet + 2);
    view->ssrc = get32(packet + 8);
    view->payload_type = packet[1] & 127;
    return 1;
}

static uint16_t input(struct consumer *c, uint16_t number) {
    if (!c->is_begun) {
        c->is_begun = 1;
        c->offset = (uint16_t)(number - (uint16_t)(c->greatest + 1));
    }
    uint16_t out = (uint16_t)(number - c->offset);
    if ((uint16_t)(out - c->greatest) < 32768) c->greatest = out;
    return out;
}

static size_t rewrite_elements(const uint8_t *in, size_t length, uint8_t *out, const uint8_t *ids) {
    size_t from = 0, to = 0;
    while (from < length) {
        uint8_t head = in[from], id = head >> 4;
        if (head == 0) { from++; continue; }
        if (id == 0 || id == 15) break;
        size_t size = (head & 15u) + 2;
        if (size > length - from) break;
        if (ids[id] >= 1 && ids[id] <= 14) {
            out[to] = (uint8_t)(ids[id] << 4 | (head & 15));
            memcpy(out + to + 1, in + from + 1, size - 1);
            to += size;
        }
        from += size;
    }
    while (to % 4) out[to++] = 0;
    return to;
}

static size_t write_frame(struct consumer *c, uint8_t mapped_type, const struct view *view, const uint8_t *packet, size_t length, uint8_t *into) {
    uint8_t *room = into + HEAD;
    size_t out = length;
    if (view->from == 0) {
        memcpy(room, packet, length);
    } else {
        memcpy(room, packet, view->from);
        size_t size = rewrite_elements(packet + view->from, view->to - view->from, room + view->from, c->ids);
        put16(room + view->from - 2, (uint16_t)(size / 4));
        memcpy(room + view->from + size, packet + view->to, length - view->to);
        out = view->from + size + length - view->to;
    }
    room[1] = (uint8_t)((room[1] & 0x80) | mapped_type);
    put16(room + 2, input(c, view->seq));
    put32(room + 8, c->ssrc);
    uint32_t payload = (uint32_t)(out + HEAD - 4);
    for (int k = 0; k < 4; k++) into[k] = (uint8_t)(payload >> 8 * k);
    memcpy(into + 4, c->head, HEAD - 4);
    return HEAD + out;
}

__attribute__((noinline)) static void channel(struct meter *meter, const uint8_t *frame, size_t length) {
    meter->frames++;
    meter->sum += frame[length - 1] + length;
    if (meter->is_whole)
        for (size_t k = 0; k < length; k++) meter->sum = meter->sum * 31 + frame[k];
    __asm__ volatile("" ::"r"(frame) : "memory");
}

__attribute__((noinline)) static void on_packet(struct worker *worker, struct id id, const uint8_t *packet, size_t length, struct meter *meter) {
    const struct direct *direct = get(&worker->directs, &id);
    struct view view;
    if (!direct || length > 65535 || !parse(&view, packet, length)) return;
    const struct table *router = get(&worker->routers, &direct->router);
    if (!router) return;
    struct producer *producer = get(router, &direct->producer);
    if (!producer || view.ssrc != producer->ssrc || producer->types[view.payload_type] < 0) return;
    uint8_t mapped_type = (uint8_t)producer->types[view.payload_type];
    for (size_t k = 0; k < producer->count; k++) {
        struct consumer *c = producer->consumers + k;
        if (c->is_paused || producer->is_paused || c->mapped != producer->mapped || !c->types[mapped_type]) continue;
        channel(meter, worker->buffer, write_frame(c, mapped_type, &view, packet, length, worker->buffer));
    }
}

static struct consumer consumer_of(size_t number) {
    struct consumer c = {.mapped = 100000000, .ssrc = (uint32_t)(200000000 + number)};
    struct id id = id_of(4 + number);
    char text[40];
    const uint8_t *b = id.bytes;
    snprintf(text, sizeof text, "R%02x%02x%02x%02x-%02x%02x-%02x%02x-%02x%02x-%02x%02x%02x%02x%02x%02x", b[0], b[1], b[2], b[3], b[4], b[5], b[6],
             b[7], b[8], b[9], b[10], b[11], b[12], b[13], b[14], b[15]);
    memcpy(c.head, text, HEAD - 4);
    c.types[100] = 1;
    c.ids[3] = 10, c.ids[5] = 4, c.ids[7] = 5;
    return c;
}

static struct worker *worker_of(size_t consumers) {
    struct worker *worker = calloc(1, sizeof *worker);
    struct table *router = calloc(1, sizeof *router);
    struct direct *direct = calloc(1, sizeof *direct);
    struct producer *producer = calloc(1, sizeof *producer);
    producer->ssrc = 2222, producer->mapped = 100000000;
    for (int k = 0; k < 128; k++) producer->types[k] = -1;
    producer->types[111] = 100;
    producer->consumers = calloc(consumers, sizeof(struct consumer)), producer->count = consumers;
    for (size_t k = 0; k < consumers; k++) producer->consumers[k] = consumer_of(k);
    direct->router = id_of(1), direct->producer = id_of(3);
    add(router, direct->producer, producer);
    add(&worker->routers, direct->router, router);
    add(&worker->directs, direct->producer, direct);
    return worker;
}

static size_t packet_of(uint8_t *packet, int is_extended, size_t length, uint8_t number) {
    static const uint8_t header[12] = {0x80, 111, 0, 0, 0, 0, 0, 10, 0, 0, 0x08, 0xae};
    size_t at = sizeof header;
    memcpy(packet, header, at);
    if (is_extended) {
        packet[0] = 0x90;
        memcpy(packet + at, EXTENSION, sizeof EXTENSION);
        at += sizeof EXTENSION;
    }
    for (size_t k = 0; k < length; k++) packet[at + k] = (uint8_t)(k % 200) ^ number;
    return at + length;
}

static void send_all(struct worker *worker, uint8_t (*ring)[1500], size_t size, uint16_t *number, struct meter *meter) {
    for (int k = 0; k < RING; k++) {
        put16(ring[k] + 2, ++*number);
        on_packet(worker, id_of(3), ring[k], size, meter);
        __asm__ volatile("" ::: "memory");
    }
}

static uint64_t now(void) {
    struct timespec t;
    clock_gettime(CLOCK_MONOTONIC, &t);
    return (uint64_t)t.tv_sec * 1000000000u + (uint64_t)t.tv_nsec;
}

int main(int argc, char **words) {
    if (argc < 3) return 2;
    static uint8_t ring[RING][1500];
    int is_extended = strcmp(words[1], "extended") == 0;
    size_t consumers = (size_t)atoi(words[2]);
    struct worker *worker = worker_of(consumers);
    uint16_t number = 0;
    for (size_t length = 160; length <= 1200; length += 1040) {
        size_t size = 0;
        for (int k = 0; k < RING; k++) size = packet_of(ring[k], is_extended, length, (uint8_t)k);
        uint64_t best = UINT64_MAX, frames = 0;
        struct meter first = {0, 0, 0};
        send_all(worker, ring, size, &number, &first);
        for (int turn = 0; turn < TURNS; turn++) {
            struct meter meter = {0, 0, 0};
            uint64_t began = now();
            for (size_t round = 0; round < PACKETS / consumers / RING; round++) send_all(worker, ring, size, &number, &meter);
            uint64_t time = now() - began;
            if (time < best) best = time;
            frames = meter.frames;
        }
        struct meter meter = {0, 0, 1};
        send_all(worker, ring, size, &number, &meter);
        printf("%zu %llu %llu %llu\n", length, (unsigned long long)best, (unsigned long long)frames, (unsigned long long)meter.sum);
    }
    return 0;
}
