// What an honest monitor does with a queue, and what a driver that leaves the rules does to it.
#define _GNU_SOURCE
#include <unistd.h>
#include "front.h"

void scene_handshake(struct driver *d)
{
    const uint64_t want = F_SIZE_MAX | F_SEG_MAX | F_FLUSH | F_PROTOCOL_FEATURES | F_VERSION_1 | (d->read_only ? F_RO : 0);
    union payload p = {.config = {.offset = 0, .size = 60}};
    uint32_t header[3];
    row = "handshake";
    greet(&d->monitor, d->path);
    const int s = d->monitor.socket;
    same("features", want, ask(s, GET_FEATURES)), same("protocol features", 0x209, ask(s, GET_PROTOCOL_FEATURES)), same("queues", 1, ask(s, GET_QUEUE_NUM));
    send_message(s, GET_CONFIG, VERSION, &p, 12 + 60, NULL, 0);
    same("bytes of the configuration", sizeof header, (uint64_t)read(s, header, sizeof header));
    same("bytes of the configuration", 12 + 60, header[2]), same("its bytes", 12 + 60, (uint64_t)read(s, &p, 12 + 60));
    uint64_t capacity;
    uint32_t most[2];
    memcpy(&capacity, p.config.bytes, 8), memcpy(most, p.config.bytes + 8, 8);
    same("capacity", d->sectors, capacity), same("seg_max", d->queue_top - 2 < 256 ? d->queue_top - 2 : 256, most[1]);
    same("size_max: whole pages", 0, most[0] % 4096), same("size_max: at least one", 1, most[0] > 0);
    same("a request within the limits is one that the device takes", 1, most[0] * most[1] <= 1048576 && (most[0] + 4096) * most[1] > 1048576);
    tell(s, SET_CONFIG, &p, 12 + 60, NULL, 0);  // does nothing, harms nothing
    hang_up(&d->monitor);
}

void scene_restarts(struct driver *d)
{
    static const struct { uint32_t size; unsigned base, requests; } starts[] = {{64, 0, 1200}, {16, 1200, 500}, {128, 65000, 1500}, {32, 964, 500}, {128, 65535, 300}};
    for (unsigned i = 0; i < COUNT(starts); i++) {
        row = "restarts, at a base that isn't 0 and over the wrap of idx";
        driver_start(d, starts[i].size, (uint16_t)starts[i].base, i);
        driver_run(d, starts[i].requests);
        driver_stop(d);
        same("base after the requests", (starts[i].base + starts[i].requests) % 65536, d->seen);
    }
}

void scene_stops(struct driver *d)
{
    row = "stopped with requests at hand";
    driver_start(d, 128, 40000, 0);
    for (unsigned i = 0; i < 60; i++) {
        driver_submit(d, SLOTS), driver_kick(d);
        if (i % 3 == 0) driver_submit(d, SLOTS);
        driver_stop(d), driver_go_on(d);  // what is pending is answered without a kick
        driver_wait(d);
    }
    driver_stop(d);
}

void scene_tables(struct driver *d)
{
    row = "a new memory table while the queue runs";
    driver_start(d, 128, 65500, 1);
    for (unsigned i = 0; i < 60; i++) {
        driver_submit(d, SLOTS), driver_kick(d);
        tell_table(d->monitor.socket, i % 2 ? ROWS : ROWS - 1);
        driver_wait(d);
    }
    driver_stop(d);
}

void scene_hang_ups(struct driver *d)
{
    row = "a monitor that goes away and comes back";
    driver_start(d, 128, 7, 2);
    for (unsigned i = 0; i < 20; i++) {
        driver_submit(d, SLOTS), driver_kick(d);
        for (unsigned k = 0; k < i; k++) send_message(d->monitor.socket, SET_OWNER, VERSION, NULL, 0, NULL, 0);  // still to be heard
        hang_up(&d->monitor), driver_connect(d);  // when it is served, the old connection is at its end
        driver_go_on(d), driver_wait(d);
    }
    driver_stop(d);
}

// ---- turns

enum { ALL = 128, ROUNDS = 8 };

// 128 reads of 1 MiB, all by one chain; only the used ring matters.
static void keep_busy(struct driver *d)
{
    const struct descriptor chain[3] = {{0x10040000, 16, 1, 1}, {0x800080000, 1048576, 3, 2}, {0x10040100, 1, 2, 0}};
    const uint32_t header[4] = {0, 0, 0, 0};
    memory_put(chain[0].at, header, sizeof header), memory_put(d->at.desc, chain, sizeof chain);
    for (unsigned i = 0; i < ALL; i++) *memory_u16(d->at.avail + 4 + 2 * i) = 0;
    *memory_u16(d->at.avail + 2) = d->idx = (uint16_t)(d->idx + ALL);
    driver_kick(d);
}

static uint16_t still_to_do(const struct driver *d) { return (uint16_t)(d->idx - *(volatile uint16_t *)memory_u16(d->at.used + 2)); }

// A disk with much to do doesn't keep the other waiting until it is through. (Not in every round: this test isn't always given
// a processor in time. A daemon that finishes one disk first fails in all of them.)
void scene_turns(struct driver *busy, struct driver *quick)
{
    unsigned before = 0;
    row = "turns";
    driver_start(busy, ALL, 0, 1), driver_start(quick, 64, 9, 0);
    for (unsigned i = 0; i < ROUNDS; i++) {
        keep_busy(busy);
        while (still_to_do(busy) == ALL) usleep(100);  // now the daemon is in the middle of it
        driver_run(quick, 3);
        before += still_to_do(busy) > 0;
        while (still_to_do(busy)) usleep(1000);
        busy->tally.in += ALL, busy->tally.read += ALL * 1048576ul;
    }
    same("the quick disk was served before the busy one was through", 1, before > 0);
    busy->seen = busy->idx, driver_stop(busy), driver_stop(quick);
}

// ---- a queue of 1,024

enum { LONGEST = 1024, PIECES = LONGEST - 2, MIB = 1048576 };
static const uint64_t long_header = 0x10040000, long_status = 0x10040100;

static uint16_t nth(unsigned i) { return (uint16_t)((341 * i + 3) % LONGEST); }  // the descriptor that is number i of its chain
static uint32_t border(unsigned i) { return (uint32_t)((uint64_t)MIB * i / PIECES); }
static uint64_t piece_at(unsigned i) { return 0x800080000 + 1028 * (i * 7919 % PIECES); }

static void describe_long(const struct driver *d, unsigned i, uint64_t at, uint32_t len, unsigned flags)
{
    const struct descriptor one = {at, len, (uint16_t)flags, nth(i + 1)};
    memory_put(d->at.desc + 16 * nth(i), &one, sizeof one);
}

// Header, 1 MiB in 1,022 buffers, status, from sector 3 on; flags are the last descriptor's.
static void lay_long(struct driver *d, uint32_t type, unsigned flags)
{
    const uint32_t header[4] = {type, 0, 3, 0};
    memory_put(long_header, header, sizeof header), memory_put(long_status, &(uint8_t){0xff}, 1);
    describe_long(d, 0, long_header, sizeof header, 1), describe_long(d, LONGEST - 1, long_status, 1, flags);
    for (unsigned i = 0; i < PIECES; i++) describe_long(d, i + 1, piece_at(i), border(i + 1) - border(i), type == 0 ? 3 : 1);
    *memory_u16(d->at.avail + 4 + 2 * (d->idx % LONGEST)) = nth(0);
    atomic_thread_fence(memory_order_seq_cst);  // the entry before idx
    *(volatile uint16_t *)memory_u16(d->at.avail + 2) = (uint16_t)(d->idx + 1);
    driver_kick(d);
}

static void long_answer(struct driver *d, uint32_t len)
{
    uint32_t entry[2];
    uint64_t n;
    uint8_t status;
    while (*(volatile uint16_t *)memory_u16(d->at.used + 2) == d->idx) {
        if (!heard(d->monitor.call, PATIENCE) || read(d->monitor.call, &n, 8) != 8) fail("no answer");
    }
    atomic_thread_fence(memory_order_seq_cst);  // idx before the entry
    memory_get(d->at.used + 4 + 8 * (d->idx % LONGEST), entry, sizeof entry), memory_get(long_status, &status, 1);
    same("head", nth(0), entry[0]), same("length", len, entry[1]), same("status", 0, status);
    d->seen = ++d->idx;
}

static void long_pieces(uint8_t *bytes, bool put)
{
    for (unsigned i = 0; i < PIECES; i++) {
        const uint32_t n = border(i + 1) - border(i);
        if (put) memory_put(piece_at(i), bytes + border(i), n);
        else memory_get(piece_at(i), bytes + border(i), n);
    }
}

// What the daemon must log of a broken queue.
static void must_say(const struct driver *d, const char *said, unsigned head)
{
    printf("must say: %s: queue broken: %s; head %u, taken %u\n", d->path, said, head, d->idx);
}

// A chain of all descriptors: written, read back, and with NEXT on its last one refused.
void scene_long(struct driver *d)
{
    static uint8_t bytes[MIB], nothing[MIB];
    uint64_t n;
    row = "a chain of 1,024";
    d->size = LONGEST, d->at = (struct place){0x10000000, 0x10004000, 0x10005000};
    *memory_u16(d->at.avail + 2) = *memory_u16(d->at.used + 2) = d->idx = d->seen = 65535;
    ring_start(&d->monitor, LONGEST, 65535, &d->at);
    for (size_t i = 0; i < MIB; i++) bytes[i] = (uint8_t)(i * 31 + i / 4096);
    long_pieces(bytes, true), lay_long(d, 1, 2), long_answer(d, 1);
    memcpy(d->disk + 512 * 3, bytes, MIB), d->tally.out++, d->tally.written += MIB;
    long_pieces(nothing, true), lay_long(d, 0, 2), long_answer(d, MIB + 1), long_pieces(nothing, false);
    same("what was written is read", 0, (uint64_t)memcmp(bytes, nothing, MIB) != 0), d->tally.in++, d->tally.read += MIB;
    must_say(d, "reason 3, chain longer than the queue, at descriptor 3, the 1025th of its chain", nth(0)), lay_long(d, 0, 3);
    if (!heard(d->monitor.err, PATIENCE) || read(d->monitor.err, &n, 8) != 8) fail("no error was told");
    driver_stop(d);
}

// ---- drivers that leave the rules

// The first descriptor of a chain is the head's, the second stands where its next says.
static const struct { const char *name; unsigned idx; uint16_t head; struct descriptor chain[2]; const char *said; } leaves[] = {
    {"reason 1: idx too far", 17, 0, {{0}}, "reason 1, available idx too far ahead"},
    {"reason 2: head past the queue", 1, 16, {{0}}, "reason 2, index past the table, in the available ring"},
    {"reason 2: next past the queue", 1, 9, {{0x10020000, 16, 1, 16}}, "reason 2, index past the table, at descriptor 9, the 1st of its chain"},
    {"reason 3: a chain that bites its tail", 1, 9, {{0x10020000, 16, 1, 4}, {0x10020000, 16, 1, 9}},
        "reason 3, chain longer than the queue, at descriptor 9, the 17th of its chain"},
    {"reason 4: indirect", 1, 9, {{0x10020000, 16, 4, 0}}, "reason 4, flag not negotiated, at descriptor 9, the 1st of its chain"},
    {"reason 5: no bytes", 1, 9, {{0x10020000, 16, 1, 4}, {0x10020100, 0, 2, 0}}, "reason 5, buffer of length 0, at descriptor 4, the 2nd of its chain"},
    {"reason 6: nowhere", 1, 9, {{0x20000000, 16, 1, 1}}, "reason 6, buffer not in memory, at descriptor 9, the 1st of its chain"},
    {"reason 6: over a region's end", 1, 15, {{0x8003ffff8, 16, 1, 1}}, "reason 6, buffer not in memory, at descriptor 15, the 1st of its chain"},
    {"reason 6: between two regions", 1, 0, {{0x10020000, 16, 1, 11}, {0x900002000, 1, 2, 0}},
        "reason 6, buffer not in memory, at descriptor 11, the 2nd of its chain"},
    {"reason 7: readable after writable", 1, 9, {{0x10020000, 16, 3, 4}, {0x10020100, 1, 0, 0}},
        "reason 7, readable buffer after a writable one, at descriptor 4, the 2nd of its chain"},
    {"reason 8: no writable buffer", 1, 9, {{0x10020000, 16, 1, 4}, {0x10020100, 1, 0, 0}}, "reason 8, no writable buffer, at descriptor 4, the 2nd of its chain"},
};

static void lay_wrong(const struct driver *d, uint16_t head, const struct descriptor chain[2])
{
    if (head < 16) memory_put(d->at.desc + 16 * head, chain, sizeof *chain);
    if (head < 16 && chain[0].next < 16 && chain[1].at) memory_put(d->at.desc + 16 * chain[0].next, chain + 1, sizeof *chain);
    *memory_u16(d->at.avail + 4 + 2 * (d->idx % 16)) = head;
}

void scene_broken(struct driver *d)
{
    for (unsigned i = 0; i < COUNT(leaves); i++) {
        uint64_t n;
        row = leaves[i].name;
        driver_start(d, 16, (uint16_t)(65530 + i), i);
        driver_run(d, 3);
        lay_wrong(d, leaves[i].head, leaves[i].chain);
        must_say(d, leaves[i].said, leaves[i].idx == 1 && leaves[i].head < 16 ? leaves[i].head : 0);
        *memory_u16(d->at.avail + 2) = (uint16_t)(d->idx + leaves[i].idx);
        driver_kick(d);
        if (!heard(d->monitor.err, PATIENCE) || read(d->monitor.err, &n, 8) != 8) fail("no error was told");
        driver_kick(d);  // a broken queue does nothing more
        driver_stop(d);
    }
    row = "a queue after breaks", driver_start(d, 64, 5, 1), driver_run(d, 20), driver_stop(d);
}
