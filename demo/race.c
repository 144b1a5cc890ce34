// Attacks in real time: a second processor of the guest flips a number to and fro while the device works. Each request must
// come out as with one of the two values; a device that reads a number twice mixes them, now and then. (Seldom, where the two
// loads lie close together: that no step loads a byte twice is for a trace of the loads to show, not for luck.)
#include <stdatomic.h>
#include <stdio.h>
#include <stdlib.h>
#include <threads.h>
#include "demo.h"

enum { SIZE = 8, ROUNDS = 10000, MOST_ROUNDS = 300000 };  // more than ROUNDS only until both values were seen
static atomic_bool over;

static const struct race {
    const char *name, *deed;
    uint64_t at;
    uint32_t good, bad;     // the read is answered with the one, and breaks the queue with the other
    bool wide;              // 32 bits, else 16
    uint64_t reason;
} races[] = {
    {"length, flipping", "len flips between 512 and 2^32 - 1 all the time", D(1) + 8, 512, 0xffffffff, true, HD_REASON_MEMORY},
    {"address, flipping", "addr flips between a good one and the page before memory",
        D(1), (uint32_t)DATA, (uint32_t)LOW - GAP, true, HD_REASON_MEMORY},
    {"flags, flipping", "flags flip between writable with NEXT and readable without",
        D(1) + 12, NEXT | WRITE, 0, false, HD_REASON_NO_STATUS},
};

static int flip(void *which)
{
    const struct race *r = which;
    volatile uint8_t *at = guest_byte(r->at);
    for (bool bad = false; !atomic_load_explicit(&over, memory_order_relaxed); bad = !bad) {
        uint32_t value = bad ? r->bad : r->good;
        if (r->wide) *(volatile uint32_t *)at = value;
        else *(volatile uint16_t *)at = (uint16_t)value;
    }
    return 0;
}

static struct outcome one_round(void)
{
    struct outcome got = {.answer = HD_STEP_WENT_ON};
    uint64_t status[HD_STATUS_WORDS];
    for (int i = 0; got.answer == HD_STEP_WENT_ON && i < 3 * SIZE; i++) got.answer = step();
    look(status);
    note_break(status, &got);
    if (got.answer == HD_STEP_ANSWERED) got.status = peek(STATUS, 1), got.len = peek(USED + 8, 4);
    return got;
}

static const char *rounds(const struct race *r, unsigned seen[2])
{
    static char text[64];
    const struct outcome good = {HD_STEP_ANSWERED, 0, 0, 513, 0}, bad = {HD_STEP_BROKEN, r->reason, 0, 0, 1};
    for (unsigned i = 0; i < ROUNDS || (i < MOST_ROUNDS && !(seen[0] && seen[1])); i++) {
        struct outcome got = one_round();
        if (!same_outcome(got, good) && !same_outcome(got, bad)) {
            snprintf(text, sizeof text, "a mixture: %s", said(got));
            return text;
        }
        seen[same_outcome(got, bad)]++;
        if (hd_reset(world.state, world.words) || enable(SIZE)) return "no reset";
    }
    return seen[0] && seen[1] ? NULL : "only one of the two values was ever seen";
}

static const char *left_behind(const struct race *r)  // what guest memory must hold after a read that was answered
{
    poke(r->at, r->wide ? 4 : 2, r->good);
    expect_bytes(DATA, world.want_image + OURS + 3 * HD_SECTOR_BYTES, HD_SECTOR_BYTES);
    expect(STATUS, 1, 0);
    expect(USED + 2, 2, 1);
    expect(USED + 4, 4, 0);
    expect(USED + 8, 4, 513);
    return differs();
}

static void run_race(const struct race *r)
{
    thrd_t thread;
    unsigned seen[2] = {0};
    char answer[64];
    struct request read = ask(IN, 3, NULL);
    add(&read, HEADER, 16, false), add(&read, DATA, 512, true), add(&read, STATUS, 1, true);
    begin(SIZE, false);
    lay(&read);
    atomic_store(&over, false);
    if (thrd_create(&thread, flip, (void *)r) != thrd_success) perror("demo"), exit(2);
    const char *problem = rounds(r, seen);
    atomic_store(&over, true);
    thrd_join(thread, NULL);
    if (!problem) problem = left_behind(r);
    snprintf(answer, sizeof answer, "%u answered, %u broken (%llu)", seen[0], seen[1], (unsigned long long)r->reason);
    show(r->name, r->deed, answer, problem);
}

void racing_guest(void)
{
    title("A guest with a second processor, over and over");
    for (size_t i = 0; i < COUNT(races); i++) run_race(races + i);
}
