// The host's half: guest memory, the disk, and a queue for each device over both; and the clock.
#ifndef HOST_H
#define HOST_H

#include <stdio.h>
#include <stdlib.h>
#include <string.h>
#include <sys/mman.h>
#include <time.h>
#include "devices.h"

#define GUEST 0x100000000ull                  // the guest address of the slice's first byte
enum { HUGE_PAGE = 1 << 21, REGIONS = 32 };
// Places of a queue's areas, and from one queue's areas to the next one's: so that they don't fall on the same lines of a cache.
enum { DESC = 0, AVAIL = 0x4040, USED = 0x5080, HEADERS = 0x80c0, STATUSES = 0xa100, AREAS = 0xb000, STRIDE = 0x10100 };

static inline void fail(const char *what)
{
    fprintf(stderr, "bench: %s\n", what);
    exit(1);
}

// Memory in huge pages where the machine has them, so that where the pages happen to lie matters less; every page is there.
static inline uint8_t *room(size_t n)
{
    const size_t whole = (n + HUGE_PAGE - 1) / HUGE_PAGE * HUGE_PAGE;
    uint8_t *p = mmap(NULL, whole + HUGE_PAGE, PROT_READ | PROT_WRITE, MAP_PRIVATE | MAP_ANONYMOUS, -1, 0);
    if (p == MAP_FAILED) fail("no memory");
    p += (HUGE_PAGE - (uintptr_t)p % HUGE_PAGE) % HUGE_PAGE;
    madvise(p, whole, MADV_HUGEPAGE);
    memset(p, 0x5a, whole);
    return p;
}

static inline uint64_t nanoseconds(void)
{
    struct timespec t;
    clock_gettime(CLOCK_MONOTONIC, &t);
    return (uint64_t)t.tv_sec * 1000000000u + (uint64_t)t.tv_nsec;
}

struct memory { uint8_t *mem, *backing; size_t mem_len, backing_len; };

struct queue {
    const struct device *device;
    const struct memory *over;
    uint64_t *state, *chain;
    uint8_t *stage, *areas;  // areas: where the queue's areas lie in guest memory
    size_t state_len, chain_len, stage_len;
    uint64_t areas_guest;
    unsigned size;
    uint16_t idx;  // what the driver has published
};

// One region, or several of which the last one has everything: a device that looks for the right one comes to it last.
static inline size_t map_of(unsigned regions, size_t mem_len, uint64_t *map)
{
    for (unsigned i = 0; i + 1 < regions; i++) {
        map[3 * i] = 4096 * i, map[3 * i + 1] = 4096, map[3 * i + 2] = 0;
    }
    map[3 * regions - 3] = GUEST, map[3 * regions - 2] = mem_len, map[3 * regions - 1] = 0;
    return 3 * regions;
}

static inline void set_up(struct queue *q, unsigned regions)
{
    static const uint8_t id[20];
    uint64_t map[3 * REGIONS];
    const struct device *d = q->device;
    const size_t n = map_of(regions, q->over->mem_len, map);
    const uint64_t at = q->areas_guest;
    memset(q->state, 0, 8 * q->state_len), memset(q->areas, 0, AREAS), q->idx = 0;
    if (d->memory(q->state, q->state_len, map, n, q->over->mem_len)) fail("hd_memory refuses");
    if (d->disk(q->state, q->state_len, 0, q->over->backing_len / 512, 0, id, 20, q->over->backing_len)) fail("hd_disk refuses");
    if (d->enable(q->state, q->state_len, q->size, at + DESC, at + AVAIL, at + USED, q->chain_len, q->stage_len))
        fail("hd_enable refuses");
}

// The slices that a queue holds, in one piece; `place` sets queues apart, in guest memory and in the caches.
static inline void lend(struct queue *q, const struct device *d, const struct memory *over, unsigned size, unsigned place)
{
    q->device = d, q->over = over, q->size = size;
    q->state_len = d->state_words(), q->chain_len = d->chain_words(size), q->stage_len = d->stage_bytes();
    const size_t words = q->state_len + q->chain_len;
    uint64_t *p = (uint64_t *)(room(8 * words + q->stage_len + 1024 * (place + 2)) + 1024 * place);
    q->state = p, q->chain = p + q->state_len;
    q->stage = (uint8_t *)p + (8 * words + 1023) / 1024 * 1024;
    q->areas = over->mem + STRIDE * place, q->areas_guest = GUEST + STRIDE * place;
}

static inline uint64_t step(const struct queue *q)
{
    return q->device->step(q->state, q->state_len, q->over->mem, q->over->mem_len, q->over->backing, q->over->backing_len,
                           q->chain, q->chain_len, q->stage, q->stage_len);
}

static inline int ascending(const void *a, const void *b)
{
    const double x = *(const double *)a, y = *(const double *)b;
    return (x > y) - (x < y);
}

// The median, as a line's next field.
static inline void print_median(double *sample, size_t n)
{
    qsort(sample, n, sizeof *sample, ascending);
    printf("\t%.2f", sample[n / 2]);
}

#endif
