// What the thread tests share: slices between inaccessible pages (bench.h lends them), numbers from a seed, and steps with
// the barriers that hosts are told to put.
#ifndef WORLD_H
#define WORLD_H

#include <pthread.h>
#include <sched.h>
#include <stdatomic.h>
#include <time.h>
#include "bench.h"

enum { STEP_NUMBERS = 8, REASONS = 9 };

static inline uint64_t draw(uint64_t *seed)  // splitmix64
{
    uint64_t z = *seed += 0x9e3779b97f4a7c15;
    z = (z ^ z >> 30) * 0xbf58476d1ce4e5b9;
    z = (z ^ z >> 27) * 0x94d049bb133111eb;
    return z ^ z >> 31;
}
static inline uint64_t below(uint64_t *seed, uint64_t n) { return draw(seed) % n; }
#define ONE_OF(seed, list) ((list)[below(seed, COUNT(list))])

static inline void lend_world(int at_low_end, size_t mem_len, size_t backing_len, unsigned longest_queue)
{
    low = at_low_end, words = hd_state_words(), chain_words = hd_chain_words(longest_queue);
    size[OF_STATE] = 8 * words, size[OF_MEM] = mem_len, size[OF_BACKING] = backing_len, size[OF_CHAIN] = 8 * chain_words, size[OF_STAGE] = STAGE;
    for (int i = 0; i < SLICES; i++) lent[i] = lend(size[i]);
    out = lend(8 * HD_STATUS_WORDS), id = lend(20);
    memset(state, 0, size[OF_STATE]), memset(id, 0, 20), memcpy(id, "SCRATCH-0007", 12);
}

// One step, with a driver on another processor. The number of the step is the answer of hd_status before it.
// After S1: the entry (S2) must not be read earlier than idx, else it may be an old one.
// Before S7: idx must not be seen earlier than data, status and used entry (S6).
static inline uint64_t step_beside_a_driver(unsigned long *kinds)
{
    same("hd_status", 0, hd_status(state, words, out, HD_STATUS_WORDS));
    const uint64_t number = out[4];
    if (number < STEP_NUMBERS) kinds[number]++;
    if (number == 7) atomic_thread_fence(memory_order_seq_cst);
    const uint64_t answer = hd_step(state, words, mem, size[OF_MEM], backing, size[OF_BACKING], chain, chain_words, stage, STAGE);
    if (number == 1) atomic_thread_fence(memory_order_seq_cst);
    return answer;
}

// On a busy machine the work is cut short after so many seconds, once it has come to something.
static inline int late(time_t since, int seconds) { return time(NULL) - since > seconds; }

static inline int covered(const unsigned long *kinds, const unsigned long *reasons)
{
    for (int i = 1; i < STEP_NUMBERS; i++) if (!kinds[i]) return 0;
    for (int i = 1; i < REASONS; i++) if (!reasons[i]) return 0;
    return 1;
}

// What the runs have come to: every kind of step and every reason, else the checks would speak of little.
static inline void coverage(const char *name, const unsigned long *kinds, const unsigned long *reasons)
{
    printf("%s: steps S1 to S7:", name);
    for (int i = 1; i < STEP_NUMBERS; i++) printf(" %lu", kinds[i]);
    printf("; broken for reasons 1 to 8:");
    for (int i = 1; i < REASONS; i++) printf(" %lu", reasons[i]);
    printf("\n");
    for (int i = 1; i < STEP_NUMBERS; i++) same("every kind of step was done", 1, kinds[i] > 0);
    for (int i = 1; i < REASONS; i++) same("every reason was seen", 1, reasons[i] > 0);
}

static inline uint64_t argument(int argc, char **argv, int i, uint64_t otherwise) { return argc > i ? strtoull(argv[i], NULL, 0) : otherwise; }

static inline int ended(const char *name)
{
    if (failed) printf("%s: %lu of %lu checks FAILED\n", name, failed, checks);
    else printf("%s: %lu checks passed\n", name, checks);
    return failed != 0;
}

#endif
