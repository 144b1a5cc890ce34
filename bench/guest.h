// The driver's half: requests laid into a queue's areas as chains, as many at once as the descriptors allow, each over
// other sectors and other buffers than the rest. Places come in an order that goes once through the working set before it
// comes back, so what a request touches was last touched a whole working set ago.
#ifndef GUEST_H
#define GUEST_H

#include "host.h"

enum { IN = 0, OUT = 1, NEXT = 1, WRITE = 2, HEADER = 16, MOST_AT_ONCE = 85 };

struct shape { const char *name; unsigned buffers; size_t buffer; };  // data buffers, and bytes of each

static inline size_t payload_of(const struct shape *s) { return s->buffers * s->buffer; }

// An order of the numbers below a power of two, each once before one comes again.
struct order { uint64_t at, below; };
static inline uint64_t next_of(struct order *o) { return o->at = (o->at * 0x5851f42d4c957f2dull + 0x14057b7ef767814full) & (o->below - 1); }

struct load {
    const struct shape *shape;
    int type;                  // IN or OUT
    size_t data;               // where it begins in the slice
    size_t stride, pitch;      // bytes from a buffer's place to the next one's; on the disk, from a request's to the next one's
    struct order pages, slots; // of buffers, and of places on the disk
};

static inline struct load load_of(const struct shape *s, int type, size_t set, size_t data)
{
    size_t stride = 1, pitch = 512;
    while (stride < s->buffer) stride *= 2;
    while (pitch < payload_of(s)) pitch *= 2;
    return (struct load){s, type, data, stride, pitch, {1, set / stride}, {1, set / pitch}};
}

// What was laid: for each request its place on the disk, and its buffers' places in the slice.
struct laid { unsigned n; size_t disk[MOST_AT_ONCE], *buffers; };

static inline unsigned at_once(const struct queue *q, const struct shape *s) { return q->size / (s->buffers + 2); }

static inline void put16(uint8_t *p, uint64_t v) { p[0] = (uint8_t)v, p[1] = (uint8_t)(v >> 8); }
static inline void describe(const struct queue *q, unsigned i, uint64_t addr, size_t len, unsigned flags)
{
    uint8_t *d = q->areas + DESC + 16 * i;
    const uint32_t n = (uint32_t)len;
    memcpy(d, &addr, 8), memcpy(d + 8, &n, 4), put16(d + 12, flags), put16(d + 14, i + 1);
}

// Request k: header, data buffers, status, in descriptors that follow each other.
static inline void lay_one(struct queue *q, struct load *l, struct laid *to, unsigned k)
{
    const struct shape *s = l->shape;
    const unsigned first = k * (s->buffers + 2);
    uint8_t *header = q->areas + HEADERS + HEADER * k;
    const uint64_t head[2] = {(uint64_t)l->type, next_of(&l->slots) * (l->pitch / 512)};
    memcpy(header, head, HEADER), q->areas[STATUSES + k] = 0xff;
    to->disk[k] = 512 * head[1];
    describe(q, first, q->areas_guest + HEADERS + HEADER * k, HEADER, NEXT);
    for (unsigned i = 0; i < s->buffers; i++) {
        const size_t at = l->data + next_of(&l->pages) * l->stride;
        to->buffers[k * s->buffers + i] = at;
        describe(q, first + 1 + i, GUEST + at, s->buffer, l->type == IN ? NEXT | WRITE : NEXT);
    }
    describe(q, first + 1 + s->buffers, q->areas_guest + STATUSES + k, 1, WRITE);
}

// As many requests as the descriptors allow, and idx.
static inline void lay(struct queue *q, struct load *l, struct laid *to)
{
    to->n = at_once(q, l->shape);
    if (to->n > MOST_AT_ONCE) fail("more requests at once than there is room for");
    for (unsigned k = 0; k < to->n; k++) {
        lay_one(q, l, to, k);
        put16(q->areas + AVAIL + 4 + 2 * (q->idx++ % q->size), k * (l->shape->buffers + 2));
    }
    put16(q->areas + AVAIL + 2, q->idx);
}

// Every request answered, with status 0 and the right length.
static inline void all_answered(const struct queue *q, const struct load *l, const struct laid *laid)
{
    const uint32_t len = l->type == IN ? (uint32_t)payload_of(l->shape) + 1 : 1;
    uint8_t entry[8], want[8] = {0};
    uint16_t used;
    memcpy(&used, q->areas + USED + 2, 2);
    if (used != q->idx) fail("a request was not answered");
    for (unsigned k = 0; k < laid->n; k++) {
        if (q->areas[STATUSES + k] != 0) fail("a status is not 0");
        const unsigned place = (uint16_t)(q->idx - laid->n + k) % q->size;
        memcpy(entry, q->areas + USED + 4 + 8 * place, 8);
        put16(want, k * (l->shape->buffers + 2)), memcpy(want + 4, &len, 4);
        if (memcmp(entry, want, 8)) fail("a used entry is wrong");
    }
}

// Goes through every byte that the requests move: b, by the seed, stands at its source and ~b where it is to arrive;
// or, if `moved`, b has to stand at both.
static inline void each_byte(const struct memory *m, const struct load *l, const struct laid *laid, uint64_t seed, int moved)
{
    const unsigned buffers = l->shape->buffers;
    const size_t n = l->shape->buffer;
    for (unsigned i = 0; i < laid->n * buffers; i++) {
        uint8_t *guest = m->mem + laid->buffers[i], *disk = m->backing + laid->disk[i / buffers] + i % buffers * n;
        uint8_t *from = l->type == IN ? disk : guest, *to = l->type == IN ? guest : disk;
        for (size_t k = 0; k < n; k++) {
            seed = seed * 6364136223846793005u + 1442695040888963407u;
            const uint8_t b = (uint8_t)(seed >> 56);
            if (!moved) from[k] = b, to[k] = (uint8_t)~b;
            else if (from[k] != b || to[k] != b) fail("data is wrong");
        }
    }
}

#endif
