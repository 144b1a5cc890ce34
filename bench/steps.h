// Each kind of step by itself: many queues are brought to the step, then each makes it once, and that is timed. So the code
// is warm and so is its data. A device that does nothing shows what the loop and the clock take.
#ifndef STEPS_H
#define STEPS_H

#include "guest.h"
#if __has_include(<valgrind/callgrind.h>)
#include <valgrind/callgrind.h>
#else
#define CALLGRIND_ZERO_STATS
#define CALLGRIND_DUMP_STATS_AT(name) (void)(name)
#endif

enum { QUEUES = 64, SMALL_QUEUE = 4, COLUMNS = DEVICES + 1, SMALL_DATA = 8 * HUGE_PAGE };  // a small queue has room for one request
static const struct shape one_sector = {"one sector", 1, 512};

// A kind of step: how many steps of a request of this type come before it. IDLE: no request is there.
enum { IDLE = -1 };
static const struct kind { const char *name; int type, before; unsigned regions; } kinds[] = {
    {"S1 poll, nothing to do", OUT, IDLE, 1},
    {"S1 poll", OUT, 0, 1},
    {"S2 head", OUT, 1, 1},
    {"S2 head, 8 regions", OUT, 1, 8},
    {"S2 head, 16 regions", OUT, 1, 16},
    {"S2 head, 32 regions", OUT, 1, REGIONS},
    {"S3 descriptor", OUT, 3, 1},
    {"S3 descriptor, 8 regions", OUT, 3, 8},
    {"S3 descriptor, 16 regions", OUT, 3, 16},
    {"S3 descriptor, 32 regions", OUT, 3, REGIONS},
    {"S4 header", OUT, 5, 1},
    {"S5 payload, 512 B", OUT, 6, 1},
    {"S6 answer, a write", OUT, 7, 1},
    {"S6 answer, a read of 512 B", IN, 6, 1},
    {"S7 publish", OUT, 8, 1},
};

static uint64_t does_nothing(uint64_t *state, size_t state_len, uint8_t *mem, size_t mem_len, uint8_t *backing, size_t backing_len,
                             uint64_t *chain, size_t chain_len, uint8_t *stage, size_t stage_len)
{
    (void)state, (void)state_len, (void)mem, (void)mem_len, (void)backing, (void)backing_len, (void)chain, (void)chain_len, (void)stage;
    return stage_len == 0;
}

// One step of each queue, timed.
static double step_all(const struct queue *queues, const char *name)
{
    uint64_t codes = 0;
    CALLGRIND_ZERO_STATS;
    const uint64_t begin = nanoseconds();
    for (int i = 0; i < QUEUES; i++) codes |= step(queues + i);
    const uint64_t end = nanoseconds();
    CALLGRIND_DUMP_STATS_AT(name);
    if (codes > 2) fail("a step was refused or broke the queue");
    return (double)(end - begin) / QUEUES;
}

// Each queue has one request, makes the steps before this kind, the step that is timed, and the rest.
static double sample_of(struct queue *queues, struct load *l, const struct kind *kind, const char *name)
{
    struct laid laid;
    size_t buffers[SMALL_QUEUE];
    laid.buffers = buffers;
    for (int i = 0; i < QUEUES && kind->before != IDLE; i++) {
        lay(queues + i, l, &laid);
        for (int k = 0; k < kind->before; k++)
            if (step(queues + i) != 1) fail("a request ended too soon");
    }
    const double sample = step_all(queues, name);
    for (int i = 0; i < QUEUES && kind->before != IDLE; i++) {
        while (step(queues + i) != 0) continue;
        all_answered(queues + i, l, &laid);
    }
    return sample;
}

static void step_row(struct queue (*queues)[QUEUES], const struct kind *kind, size_t rounds, double *samples)
{
    const struct device none = {.step = does_nothing};
    struct queue nothing[QUEUES];
    struct load l = load_of(&one_sector, kind->type, 1 << 20, SMALL_DATA);
    char name[80];
    for (int d = 0; d < DEVICES; d++)
        for (int i = 0; i < QUEUES; i++) set_up(&queues[d][i], kind->regions);
    for (int i = 0; i < QUEUES; i++) nothing[i] = queues[0][i], nothing[i].device = &none;
    for (size_t i = 0; i < rounds * COLUMNS; i++) {
        const size_t d = (i + i / COLUMNS) % COLUMNS;
        snprintf(name, sizeof name, "%s\t%zu", kind->name, d);
        samples[d * rounds + i / COLUMNS] = d == DEVICES ? step_all(nothing, name) : sample_of(queues[d], &l, kind, name);
    }
    printf("%s", kind->name);
    for (size_t d = 0; d < COLUMNS; d++) print_median(samples + d * rounds, rounds);
    printf("\n");
}

static void steps(size_t rounds)
{
    static struct queue queues[DEVICES][QUEUES];
    const size_t n = 2 * SMALL_DATA;
    struct memory m = {room(n), room(n), n, n};
    double *samples = calloc(COLUMNS * rounds, sizeof *samples);
    if (!samples) fail("no memory");
    for (unsigned d = 0; d < DEVICES; d++)
        for (unsigned i = 0; i < QUEUES; i++) lend(&queues[d][i], devices + d, &m, SMALL_QUEUE, d * QUEUES + i);
    for (size_t k = 0; k < sizeof kinds / sizeof *kinds; k++) step_row(queues, kinds + k, rounds, samples);
}

#endif
