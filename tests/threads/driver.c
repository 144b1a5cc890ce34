// A driver in a second thread that goes by the book: volatile accesses, barriers, a descriptor is its own again only when it
// was answered. Every request is answered exactly once, in order, with the status, length and data that 03 has for it; used idx
// only ever moves forward, by at most the number outstanding, so it is never seen in halves.
// Long runs have requests of all kinds. Short runs begin right before a carry into the high byte (255 to 256, 65535 to 0), where
// half an idx would be far off, and watch nothing but idx.
//   driver [SEED [RUNS]]
#define _DEFAULT_SOURCE
#include "world.h"

enum { PLACES = 1024, SLOTS = 32, PARTS = 4, LARGEST = 2048, SLOT_BYTES = 8192, LONG_RUN = 400, SHORT_RUN = 12, PATIENCE = 60, SECONDS = 20, FEWEST = 400 };
enum { RING_BYTES = 0x7000, SLICE = RING_BYTES + SLOTS * SLOT_BYTES };
enum { IN = 0, OUT = 1, FLUSH = 4, GET_ID = 8 };

// ---- what the threads tell each other; all else that they share is guest memory

static atomic_ulong begun, finished;  // the number of the run
static atomic_bool stop;
static uint64_t run_start, run_requests, run_seed;
static int run_short;

// ---- the driver's side of guest memory

static volatile uint8_t *byte_at(uint64_t guest) { return mem + (guest - GUEST); }
static volatile uint16_t *u16_at(uint64_t guest) { return (volatile uint16_t *)(mem + (guest - GUEST)); }
static volatile uint32_t *u32_at(uint64_t guest) { return (volatile uint32_t *)(mem + (guest - GUEST)); }
static volatile uint64_t *u64_at(uint64_t guest) { return (volatile uint64_t *)(mem + (guest - GUEST)); }

static uint64_t buffer_of(unsigned slot, unsigned part) { return GUEST + RING_BYTES + slot * SLOT_BYTES + 2560 * part; }

static void write_bytes(uint64_t guest, const uint8_t *from, uint64_t n)
{
    for (uint64_t i = 0; i < n; i++) byte_at(guest)[i] = from[i];
}

struct slot {
    int busy;
    uint8_t status, expected[LARGEST + 1];  // every writable byte after the answer, the status byte last
    uint64_t len, parts, at[2], n[2];       // where they are
};
static struct slot slots[SLOTS];
static uint8_t on_disk[DISK];  // what the accepted writes have made of it
static unsigned order[65536];  // slots in the order of the available ring
static uint16_t offered, seen;

// ---- requests

struct form { uint32_t type; uint64_t sector, n; };

static struct form choose(uint64_t *seed)
{
    static const uint32_t types[] = {IN, IN, IN, OUT, OUT, OUT, FLUSH, GET_ID, 2};
    static const uint64_t sectors[] = {0, 1, 2, 3, 4};
    struct form f = {run_short ? FLUSH : ONE_OF(seed, types), 0, 0};
    if (f.type == IN || f.type == OUT) f.n = 512 * ONE_OF(seed, sectors), f.sector = below(seed, SECTORS + 2);
    return f;
}

static int accepted(struct form f) { return f.type != 2 && f.sector <= SECTORS && f.n / 512 <= SECTORS - f.sector; }

// The bytes of one kind in up to two buffers of a slot, cut anywhere.
static unsigned cut(uint64_t *seed, unsigned slot, unsigned first_part, uint64_t total, uint64_t *at, uint64_t *n)
{
    const uint64_t first = total > 1 && below(seed, 2) ? 1 + below(seed, total - 1) : total;
    at[0] = buffer_of(slot, first_part) + below(seed, 16), n[0] = first;
    if (first == total) return 1;
    // the second lies behind the first in the slot, where a whole one would have had its end
    at[1] = at[0] + first + below(seed, 16), n[1] = total - first;
    return 2;
}

// A slot's descriptors are apart from each other, up to the table's last one.
static unsigned descriptor_of(unsigned slot, unsigned part) { return PLACES / SLOTS / PARTS * (PARTS * slot + part + 1) - 1; }

static void describe_part(unsigned slot, unsigned i, unsigned last, uint64_t at, uint64_t n, unsigned flags)
{
    const uint64_t d = W_DESC + 16 * descriptor_of(slot, i);
    *u64_at(d) = at, *u32_at(d + 8) = (uint32_t)n;
    *u16_at(d + 12) = (uint16_t)(flags | (i < last)), *u16_at(d + 14) = (uint16_t)descriptor_of(slot, i + 1);
}

// What 03 has for it, in the order of the ring: earlier writes count, later ones don't.
static void foresee(struct slot *s, struct form f, const uint8_t *payload, uint64_t w)
{
    const int ok = accepted(f);
    memset(s->expected, 0xcc, sizeof s->expected);  // what the driver puts there before
    if (ok && f.type == IN) memcpy(s->expected, on_disk + 512 * f.sector, f.n);
    if (ok && f.type == OUT) memcpy(on_disk + 512 * f.sector, payload, f.n);
    if (ok && f.type == GET_ID) memcpy(s->expected, id, 20);
    s->status = f.type == 2 ? 2 : ok ? 0 : 1;
    s->len = ok ? w : w == 1 ? 1 : 0;
    s->expected[w - 1] = s->status;
}

static void offer(uint64_t *seed, unsigned slot)
{
    const struct form f = choose(seed);
    struct slot *s = slots + slot;
    uint8_t readable[16 + LARGEST] = {(uint8_t)f.type, 0, 0, 0, 1, 2, 3, 4, (uint8_t)f.sector};
    const uint64_t r = 16 + (f.type == OUT ? f.n : 0), w = 1 + (f.type == IN ? f.n : f.type == GET_ID ? 20 : 0);
    uint64_t at[2], n[2];
    for (uint64_t i = 16; i < r; i += 8) memcpy(readable + i, (uint64_t[]){draw(seed)}, 8);
    const unsigned reads = cut(seed, slot, 0, r, at, n), writes = cut(seed, slot, 1, w, s->at, s->n);
    foresee(s, f, readable + 16, w), s->busy = 1, s->parts = writes;
    for (unsigned i = 0; i < reads; i++) {
        write_bytes(at[i], readable + (i ? n[0] : 0), n[i]);
        describe_part(slot, i, reads + writes - 1, at[i], n[i], 0);
    }
    for (unsigned i = 0; i < writes; i++) {
        for (uint64_t k = 0; k < s->n[i]; k++) byte_at(s->at[i])[k] = 0xcc;
        describe_part(slot, reads + i, reads + writes - 1, s->at[i], s->n[i], 2);
    }
    *u16_at(W_AVAIL + 4 + 2 * (offered % PLACES)) = (uint16_t)descriptor_of(slot, 0);
    order[offered++] = slot;
}

// ---- answers

static unsigned long agreed;

static void agree(const char *what, uint64_t want, uint64_t got)  // in the driver's thread: the first difference ends it all
{
    agreed++;
    if (want == got) return;
    printf("FAILED driver: %s: expected %llu, got %llu (seed of the run %llu)\n", what, (unsigned long long)want,
           (unsigned long long)got, (unsigned long long)run_seed);
    fflush(stdout), _exit(1);
}

static void take_answer(void)
{
    const uint64_t entry = W_USED + 4 + 8 * (seen % PLACES);
    const uint32_t head = *u32_at(entry), len = *u32_at(entry + 4);
    const unsigned slot = order[seen++];
    struct slot *s = slots + slot;
    uint8_t got[LARGEST + 1];
    uint64_t n = 0;
    agree("the head in the used entry", descriptor_of(slot, 0), head), agree("answered while outstanding", 1, (uint64_t)s->busy);
    for (unsigned i = 0; i < s->parts; i++)
        for (uint64_t k = 0; k < s->n[i]; k++) got[n++] = byte_at(s->at[i])[k];
    agree("the length in the used entry", s->len, len), agree("status", s->status, got[n - 1]);
    agree("data as expected", 0, memcmp(s->expected, got, n) != 0);
    s->busy = 0;
}

// Used idx, until it has moved on by so many; how far it has moved.
static uint16_t watch(uint16_t outstanding, uint16_t until)
{
    const time_t since = time(NULL);
    uint16_t moved, before = 0;
    for (unsigned long polls = 1; (moved = (uint16_t)(*u16_at(W_USED + 2) - seen)) < until; polls++, before = moved) {
        if (moved < before) agree("used idx never goes back", before, moved);
        if (polls % 4096 == 0) sched_yield();
        if (polls % 65536 == 0 && time(NULL) - since > PATIENCE) agree("requests answered in time", outstanding, moved);
    }
    agree("used idx moves by at most the number outstanding", moved > outstanding ? outstanding : moved, moved);
    return moved;
}

static void drive(void)
{
    uint64_t seed = run_seed, answered_now = 0, offered_now = 0;
    offered = seen = (uint16_t)run_start;
    while (answered_now < run_requests) {
        const uint64_t busy = offered_now - answered_now, room = SLOTS - busy, lacks = run_requests - offered_now;
        uint64_t more = lacks < room ? lacks : room;
        if (!run_short && busy && more) more = below(&seed, more + 1);
        for (unsigned slot = (unsigned)below(&seed, SLOTS); more > 0; slot = (slot + 1) % SLOTS)
            if (!slots[slot].busy) offer(&seed, slot), offered_now++, more--;
        atomic_thread_fence(memory_order_seq_cst);  // descriptors and entries before idx
        *u16_at(W_AVAIL + 2) = offered;
        const uint16_t outstanding = (uint16_t)(offered_now - answered_now);
        const uint16_t moved = watch(outstanding, run_short ? outstanding : 1);
        atomic_thread_fence(memory_order_seq_cst);  // idx before the entries that it covers
        for (uint16_t i = 0; i < moved; i++, answered_now++) take_answer();
    }
}

static void *driver(void *nothing)
{
    for (unsigned long run = 1; ; run++) {
        while (begun != run && !stop) sched_yield();
        if (stop) return nothing;
        drive();
        finished = run;
    }
}

// ---- the host

static unsigned long kinds[STEP_NUMBERS], requests_done, carries;

static void host_run(unsigned long run, uint64_t *seed)
{
    run_short = run % 8 != 0, run_requests = run_short ? SHORT_RUN : LONG_RUN, run_seed = draw(seed);
    run_start = run_short ? (run % 2 ? 65536 - 1 - below(seed, 8) : 256 * (1 + below(seed, 255)) - 1 - below(seed, 8)) : below(seed, 65536);
    *u16_at(W_AVAIL + 2) = *u16_at(W_USED + 2) = (uint16_t)run_start;
    same("hd_reset", 0, hd_reset(state, words));
    same("hd_enable_at", 0, hd_enable_at(state, words, PLACES, W_DESC, W_AVAIL, W_USED, chain_words, STAGE, run_start));
    uint64_t done = 0;
    for (begun = run; finished != run; ) {
        const uint64_t answer = step_beside_a_driver(kinds);
        done += answer == 2;
        if (answer > 2) same("hd_step", 1, answer);
        if (failed) exit(ended("driver"));
        if (answer == 0) sched_yield();
    }
    for (int i = 0; i < 3; i++) same("nothing more to do", 0, step_beside_a_driver(kinds));
    same("each request answered once", run_requests, done), same("used idx in the end", (run_start + run_requests) % 65536, *u16_at(W_USED + 2));
    requests_done += done, carries += (run_start + run_requests) / 256 - run_start / 256;
}

int main(int argc, char **argv)
{
    uint64_t seed = argument(argc, argv, 1, 1);
    const unsigned long runs = argument(argc, argv, 2, 2500);
    const time_t since = time(NULL);
    unsigned long run = 1;
    pthread_t thread;
    setvbuf(stdout, NULL, _IOLBF, 0), signal(SIGSEGV, fault), signal(SIGBUS, fault), row = "driver";
    printf("driver: seed %llu, %lu runs\n", (unsigned long long)seed, runs);
    lend_world(0, SLICE, BACKING, PLACES);
    for (size_t i = 0; i < BACKING; i++) backing[i] = want_backing[i] = (uint8_t)(i * 11 + 5);
    memcpy(on_disk, backing + START, DISK), memset(mem, 0xcc, SLICE);
    same("hd_memory", 0, hd_memory(state, words, (uint64_t[]){GUEST, SLICE, 0}, 3, SLICE)), same("hd_disk", 0, disk(0));
    if (pthread_create(&thread, NULL, driver, NULL)) exit(2);
    for (; run <= runs && !failed && !(late(since, SECONDS) && run > FEWEST); run++) host_run(run, &seed);
    if (failed) return ended("driver");
    stop = 1;
    pthread_join(thread, NULL);
    memcpy(want_backing + START, on_disk, DISK), same_bytes("the backing slice", want_backing, backing, BACKING), slack();
    checks += agreed;
    printf("driver: %lu runs, %lu requests, %lu carries into the high byte of idx\n", run - 1, requests_done, carries);
    return ended("driver");
}
