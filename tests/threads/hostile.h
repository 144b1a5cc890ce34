// What a hostile guest writes into its memory: plausible requests, so that a device gets far, and damage of every kind.
// The memory has three regions with bytes between them that are nobody's; they reach from the slice's first byte to its last.
// Before them 29 others may be registered, so that all that a device looks for lies in the last three of 32.
// The disk lies inside a larger backing slice.
#ifndef HOSTILE_H
#define HOSTILE_H

#include "world.h"

// Other places than bench.h has: areas with room for a queue of 1,024.
#undef DESC
#undef AVAIL
#undef USED
#undef HEADER
#undef DATA
#undef STATUS
#define DESC W_DESC
#define AVAIL W_AVAIL
#define USED W_USED
#define HEADER (GUEST + 0x7000)
#define DATA (GUEST + 0x8000)
#define STATUS (GUEST + 0x9000)

enum { LONGEST = 1024, DISK_SECTORS = 4096, DISK_AT = 100001, BEHIND = 9999, BACKED = DISK_AT + 512 * DISK_SECTORS + BEHIND };
enum { RINGS, LARGE, TOPMOST, REGIONS, ALL_REGIONS = 32 };
struct region { uint64_t guest, len, offset; };
static const struct region regions[REGIONS] = {  // offsets are odd on purpose
    {GUEST, 65536, 17900001}, {0x100000000, 17 << 20, 0}, {TOP - 5000, 5000, 17970001}};
enum { SLICE = 17975001 };
static struct region registered[ALL_REGIONS];
static size_t registered_count;

static inline void register_memory(int all)  // the others are small, and lie over bytes of the large one
{
    registered_count = 0;
    for (uint64_t k = 0; all && k < ALL_REGIONS - REGIONS; k++) registered[registered_count++] = (struct region){0x1000 * (k + 1), 16, 64 * k};
    memcpy(registered + registered_count, regions, sizeof regions), registered_count += REGIONS;
    same("hd_memory", 0, hd_memory(state, words, &registered[0].guest, 3 * registered_count, SLICE));
}

static inline void scrawl(uint64_t guest, unsigned n, uint64_t v)  // one store, inside a region
{
    for (int i = 0; i < REGIONS; i++) {
        if (guest < regions[i].guest || guest - regions[i].guest + n > regions[i].len) continue;
        volatile uint8_t *p = mem + regions[i].offset + (guest - regions[i].guest);
        for (unsigned k = 0; k < n; k++) p[k] = (uint8_t)(v >> 8 * k);
        return;
    }
}

static inline uint64_t somewhere(uint64_t *seed, uint64_t len)  // an address where so many bytes are in memory, if there is one
{
    const struct region *g = regions + (len <= 5000 ? below(seed, REGIONS) : LARGE);
    return g->guest + (len < g->len ? below(seed, g->len - len + 1) : 0);
}

struct request { uint64_t header[2], cut[2][8]; unsigned pieces[2]; };  // readable and writable bytes, and how they are cut

static inline void cut(uint64_t *seed, struct request *q, int writable, uint64_t total)
{
    while (total > 0) {
        uint64_t n = q->pieces[writable] == 7 || below(seed, 2) ? total : 1 + below(seed, total);
        if (n > regions[LARGE].len) n = regions[LARGE].len;
        q->cut[writable][q->pieces[writable]++] = n, total -= n;
        if (q->pieces[writable] == 8) return;
    }
}

static inline struct request compose(uint64_t *seed)
{
    static const uint32_t types[] = {0, 0, 0, 1, 1, 1, 4, 8, 2};
    static const uint64_t sectors[] = {0, 1, 2, 8, 0, 1, 2, 64, 2048};
    const uint32_t type = ONE_OF(seed, types);
    uint64_t n = below(seed, 16) ? ONE_OF(seed, sectors) : 2048 + below(seed, 1024);
    if (n > 64 && below(seed, 8)) n = 1;
    const uint64_t at[] = {0, DISK_SECTORS - n, DISK_SECTORS, below(seed, DISK_SECTORS), DISK_SECTORS - 1, below(seed, 100), draw(seed)};
    struct request q = {.header = {type, ONE_OF(seed, at)}};
    cut(seed, &q, 0, 16 + (type == 1 ? 512 * n : 0));
    cut(seed, &q, 1, 1 + (type == 0 ? 512 * n : type == 8 ? 20 : 0));
    return q;
}

static inline void describe_at(uint64_t i, uint64_t addr, uint64_t len, uint64_t flags, uint64_t next)
{
    scrawl(D(i), 8, addr), scrawl(D(i) + 8, 4, len), scrawl(D(i) + 12, 2, flags), scrawl(D(i) + 14, 2, next);
}

// A request, laid from a random descriptor of n on, and offered to a device that has taken so many.
static inline void plausible(uint64_t *seed, unsigned n, unsigned taken)
{
    const struct request q = compose(seed);
    const unsigned last = q.pieces[0] + q.pieces[1] - 1;
    const uint64_t first = below(seed, n), stride = 1 + 2 * below(seed, n);
    uint64_t done = 0;
    for (unsigned i = 0; i <= last; i++) {
        const int writable = i >= q.pieces[0];
        const uint64_t len = q.cut[writable][writable ? i - q.pieces[0] : i], at = somewhere(seed, len);
        describe_at((first + i * stride) % n, at, len, 2 * writable + (i < last), (first + (i + 1) * stride) % n);
        for (uint64_t k = 0; !writable && k < len && done < 16; k++, done++) scrawl(at + k, 1, q.header[done / 8] >> 8 * (done % 8));
    }
    for (unsigned i = 0; i < 4; i++) scrawl(AVAIL + 4 + 2 * ((taken + i) % n), 2, first);
    scrawl(AVAIL + 2, 2, taken + 1 + below(seed, 4) % n);
}

static inline void damage(uint64_t *seed, unsigned n, unsigned taken)
{
    static const uint64_t edges[] = {0, 1, 2, 15, 16, 17, 255, 256, 512, 1023, 1024, 1025, 65535, 65536, 0x7fffffff, UINT32_MAX, TOP, TOP - 1, TOP - 511, GUEST, GUEST - 1, GUEST + 65535};
    const uint64_t i = below(seed, n), edge = below(seed, 2) ? ONE_OF(seed, edges) : draw(seed);
    switch (below(seed, 8)) {
    case 0: scrawl(D(i), 8, edge); break;
    case 1: scrawl(D(i) + 8, 4, below(seed, 4) ? edge : 0); break;
    case 2: scrawl(D(i) + 12, 2, below(seed, 8) ? below(seed, 4) : edge); break;
    case 3: scrawl(D(i) + 14, 2, below(seed, 8) ? below(seed, n) : edge); break;
    case 4: scrawl(AVAIL + 4 + 2 * i, 2, below(seed, 8) ? below(seed, n) : edge); break;
    case 5: scrawl(AVAIL + 2, 2, below(seed, 8) ? taken + below(seed, n + 1) : edge); break;
    case 6: scrawl(somewhere(seed, 8), 8, edge); break;
    case 7: scrawl(USED + below(seed, 6 + 8 * n), 1, edge); break;
    }
}

#endif
