// The driver's half: it lays requests by the rules of documents 01 and 03, cut into buffers at random, and compares every
// byte of the answer with what document 03 says. It knows the disk by its own copy.
#include <unistd.h>
#include "front.h"

enum { MOST = 1048576, ARENA = 0xa000, LARGE = MOST + 0x2000, BEHIND = 64 };  // BEHIND: bytes behind a request that must stay
static const uint64_t arena_at[SLOTS] = {0x10100000 - 0x5000, 0x10020000, 0x800020000, 0x800030000, 0x101f0000, 0x800200000};
static size_t arena_size(unsigned slot) { return slot == SLOTS - 1 ? LARGE : ARENA; }

// Rings on every region, one of them as near to its region's end as a queue of 128 can be.
static const struct place places[] = {
    {0x10000000, 0x800001000, 0x900001000}, {0x10010000, 0x10011000, 0x10012000}, {0x10110000, 0x900000800, 0x8003ffbf8}, {0x800000800, 0x10013000, 0x10014004},
};

// ---- 03 §3

static bool fits(const struct driver *d, uint64_t sector, uint32_t n)
{
    return n % 512 == 0 && n <= MOST && sector <= d->sectors && n / 512 <= d->sectors - sector;
}

static unsigned status_of(const struct driver *d, const struct request *q)
{
    if (q->r < 16) return 1;
    switch (q->type) {
    case 0: return !(q->r == 16 && fits(d, q->sector, q->w - 1));
    case 1: return !(q->w == 1 && fits(d, q->sector, q->r - 16) && !d->read_only);
    case 4: return !(q->r == 16 && q->w == 1);
    case 8: return !(q->r == 16 && q->w == 21);
    default: return 2;
    }
}

// ---- a request at random

static uint32_t some_bytes(unsigned slot)
{
    if (slot == SLOTS - 1 && chance(8) == 0) return chance(3) == 0 ? MOST + 512 : MOST;
    return 512 * chance(chance(4) ? 5 : 60) + (chance(16) == 0 ? chance(512) : 0);
}

static void choose(const struct driver *d, struct request *q, unsigned slot)
{
    static const uint32_t types[] = {0, 0, 0, 0, 1, 1, 1, 1, 4, 8, 2, 0x80000000};
    q->type = types[chance(COUNT(types))];
    q->sector = chance(20) ? chance((uint32_t)d->sectors + 1) : d->sectors + chance(3) - (chance(2) ? 0 : UINT64_C(1) << 63);
    q->r = 16, q->w = 1;
    if (q->type == 0) q->w += some_bytes(slot);
    if (q->type == 1) q->r += some_bytes(slot);
    if (q->type == 8) q->w += 20;
    if (chance(25) == 0) q->w += chance(40);
    if (chance(25) == 0) q->r += chance(40);
    if (chance(40) == 0) q->r = 1 + chance(16);
    if (q->r < 16) q->type = UINT32_MAX;  // it has none
}

// Cuts n bytes into buffers from the place *at on, with bytes between them.
static void cut(struct request *q, uint32_t n, bool writable, uint64_t *at)
{
    for (unsigned left = 1 + chance(CHAIN_TOP / 2); n; left--) {
        const uint32_t len = left == 1 || n == 1 ? n : 1 + chance(n);
        q->at[q->count] = *at, q->len[q->count] = len, q->writable[q->count] = writable;
        q->count++, n -= len, *at += len + chance(9);
        if (left == 1) return;
    }
}

// ---- laying it

static uint16_t free_descriptor(struct driver *d)
{
    uint16_t i = (uint16_t)chance(d->size);
    while (d->busy[i]) i = (uint16_t)((i + 1) % d->size);
    d->busy[i] = true;
    return i;
}

static void lay_chain(struct driver *d, struct request *q)
{
    for (size_t i = 0; i < q->count; i++) q->descriptors[i] = free_descriptor(d);
    for (size_t i = 0; i < q->count; i++) {
        const bool last = i + 1 == q->count;
        const struct descriptor one = {q->at[i], q->len[i], (uint16_t)((last ? 0 : 1) | (q->writable[i] ? 2 : 0)), last ? 0xffff : q->descriptors[i + 1]};
        memory_put(d->at.desc + 16 * q->descriptors[i], &one, sizeof one);
    }
    q->head = q->descriptors[0];
}

static void make_available(struct driver *d, const struct request *q)
{
    *memory_u16(d->at.avail + 4 + 2 * (d->idx % d->size)) = q->head;
    atomic_thread_fence(memory_order_seq_cst);  // the entry before idx
    *(volatile uint16_t *)memory_u16(d->at.avail + 2) = ++d->idx;
}

// The bytes of one kind of buffer, in chain order, into or out of the image of guest memory.
static void string(const struct request *q, uint64_t base, bool writable, uint8_t *bytes, bool into)
{
    for (size_t i = 0; i < q->count; i++) {
        if (q->writable[i] != writable) continue;
        uint8_t *in = q->image + (q->at[i] - base);
        if (into) memcpy(in, bytes, q->len[i]);
        else memcpy(bytes, in, q->len[i]);
        bytes += q->len[i];
    }
}

static void lay(struct driver *d, unsigned slot)
{
    struct request *q = &d->slot[slot];
    static uint8_t readable[LARGE];
    uint64_t at = arena_at[slot] + chance(9);
    q->count = 0;
    choose(d, q, slot);
    cut(q, q->r, false, &at), cut(q, q->w, true, &at);
    q->span = at - arena_at[slot] + BEHIND;
    for (size_t i = 0; i < q->span / 8; i++) ((uint32_t *)(void *)q->image)[2 * i] = chance(UINT32_MAX);
    for (uint32_t i = 16; i < q->r; i++) readable[i] = (uint8_t)(i * 7 + slot + d->idx);
    memcpy(readable, &q->type, 4), memcpy(readable + 4, &d->idx, 2), memcpy(readable + 8, &q->sector, 8);
    string(q, arena_at[slot], false, readable, true);
    memory_put(arena_at[slot], q->image, q->span);
    lay_chain(d, q);
    make_available(d, q);
}

void driver_submit(struct driver *d, unsigned n)
{
    while ((uint16_t)(d->idx - d->seen) < n) lay(d, d->laid++ % SLOTS);
}

void driver_kick(struct driver *d)
{
    if (write(d->monitor.kick, &(uint64_t){1}, 8) != 8) fail("kick");
}

// ---- the answer

static void count(struct driver *d, const struct request *q, unsigned status)
{
    struct tally *t = &d->tally;
    uint64_t *of = q->r < 16 ? &t->headless : q->type == 0 ? &t->in : q->type == 1 ? &t->out : q->type == 4 ? &t->flush : q->type == 8 ? &t->get_id : &t->other;
    ++*of;
    t->refused += status == 1, t->unsupported += status == 2;
    if (status == 0 && q->type == 0) t->read += q->w - 1;
    if (status == 0 && q->type == 1) t->written += q->r - 16;
}

static void compare(struct driver *d, unsigned slot, uint32_t len)
{
    static uint8_t bytes[LARGE], now[LARGE];
    struct request *q = &d->slot[slot];
    const unsigned status = status_of(d, q);
    same("length", status == 0 ? q->w : q->w == 1, len);
    string(q, arena_at[slot], true, bytes, false);
    if (status == 0 && q->type == 0) memcpy(bytes, d->disk + 512 * q->sector, q->w - 1);
    if (status == 0 && q->type == 8) memset(bytes, 0, 20), memcpy(bytes, d->id, strlen(d->id));
    bytes[q->w - 1] = (uint8_t)status;
    string(q, arena_at[slot], true, bytes, true);
    memory_get(arena_at[slot], now, q->span);
    same("guest memory after the answer", 0, (uint64_t)memcmp(q->image, now, q->span) != 0);
    if (status == 0 && q->type == 1) {
        string(q, arena_at[slot], false, bytes, false);
        memcpy(d->disk + 512 * q->sector, bytes + 16, q->r - 16);
    }
    count(d, q, status);
    for (size_t i = 0; i < q->count; i++) d->busy[q->descriptors[i]] = false;
}

static void take_answers(struct driver *d)
{
    const uint16_t idx = *(volatile uint16_t *)memory_u16(d->at.used + 2);
    atomic_thread_fence(memory_order_seq_cst);  // idx before the entry
    while (d->seen != idx) {
        uint32_t entry[2];
        if ((uint16_t)(d->idx - d->seen) == 0) fail("an answer that nobody asked for");
        memory_get(d->at.used + 4 + 8 * (d->seen % d->size), entry, sizeof entry);
        same("head", d->slot[d->compared % SLOTS].head, entry[0]);
        compare(d, d->compared++ % SLOTS, entry[1]);
        d->seen++;
    }
}

void driver_wait(struct driver *d)
{
    for (take_answers(d); d->seen != d->idx; take_answers(d)) {
        uint64_t n;
        if (!heard(d->monitor.call, PATIENCE)) fail("no answer");
        if (read(d->monitor.call, &n, 8) != 8) fail("call");
    }
}

unsigned driver_at_once(const struct driver *d) { return d->size / CHAIN_TOP < SLOTS ? d->size / CHAIN_TOP : SLOTS; }

void driver_run(struct driver *d, unsigned requests)
{
    while (requests) {
        const unsigned most = driver_at_once(d), n = 1 + chance(requests < most ? requests : most);
        driver_submit(d, n), driver_kick(d), driver_wait(d);
        requests -= n;
    }
}

// ---- starting and stopping

void driver_connect(struct driver *d)
{
    greet(&d->monitor, d->path);
    tell_table(d->monitor.socket, ROWS);
    for (unsigned i = 0; i < SLOTS; i++)
        if (!d->slot[i].image) d->slot[i].image = calloc(arena_size(i), 1);
}

void driver_start(struct driver *d, uint32_t size, uint16_t base, unsigned place)
{
    d->size = size, d->at = places[place % COUNT(places)];
    memset(d->busy, 0, sizeof d->busy), d->laid = d->compared = 0;
    *memory_u16(d->at.avail + 2) = d->idx = base, *memory_u16(d->at.used + 2) = d->seen = base;
    ring_start(&d->monitor, size, base, &d->at);
}

void driver_go_on(struct driver *d)
{
    take_answers(d);
    ring_start(&d->monitor, d->size, d->seen, &d->at);
}

void driver_stop(struct driver *d)
{
    const uint32_t base = ring_stop(&d->monitor);
    take_answers(d);
    same("ring base", d->seen, base);
}

void driver_print(const struct driver *d)
{
    const struct tally *t = &d->tally;
    printf("%s: in %lu, out %lu, flush %lu, get-id %lu, other %lu, headless %lu; bytes read %lu, written %lu; refused %lu, unsupported %lu\n", d->path, t->in,
           t->out, t->flush, t->get_id, t->other, t->headless, t->read, t->written, t->refused, t->unsupported);
}
