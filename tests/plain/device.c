// A plain C device: the rules of documents 01 and 03, the schedule S1 to S7 and the interface of include/hostiledisk.h,
// as a careful C programmer would write them. It is the baseline of the benchmark, and, with -DWRONG=NAME, one of the wrong
// devices of mistakes.h, each of which a test of the gate has to catch.
//
// The state is a struct in the lent words. The host may have spoilt them, so every call tests what it relies on.
#include <string.h>
#include "hostiledisk.h"
#include "mistakes.h"

_Static_assert(__BYTE_ORDER__ == __ORDER_LITTLE_ENDIAN__, "all fields are lowest byte first (01), and are loaded as they are");

enum { REGIONS = 32, SECTOR = 512, HEADER = 16, IDENTITY = 20, MOST = 1048576, LONGEST_QUEUE = 1024, NOWHERE = 65536 };
enum { NEXT = 1, WRITE = 2 };                                              // flags of a descriptor (01 §2)
enum { IN = 0, OUT = 1, FLUSH = 4, GET_ID = 8 };                           // types of a request (03 §3)
enum { OK = 0, IOERR = 1, UNSUPP = 2 };                                    // its status
enum { NOTHING, MEMORY, DISK, ENABLED };                                   // how far set-up has come
enum { IDLE = 0, WENT_ON = 1, ANSWERED = 2, BROKE = 3, REFUSED = 4 };      // answers of hd_step
enum { S1 = 1, S2, S3, S4, S5, S6, S7, BROKEN };                           // the step that comes next
enum { DONE, FAILED, UNSUPPORTED, READ, IDENTIFY };                        // what S6 does

struct region { uint64_t guest, len, offset; };
struct buffer { uint64_t offset, len; };  // the private chain: where a buffer lies in the slice
struct device {
    uint64_t level;
    uint64_t mem_len, regions;
    uint64_t start, sectors, read_only, backing_len;
    uint8_t id[24];
    uint64_t size, desc, avail, used, chain_len, stage_len;  // areas as offsets in the slice
    uint64_t taken, answered;
    uint64_t step;
    uint64_t head, count, reads, r, w;  // the chain: descriptors fetched, readable ones, readable and writable bytes
    union { uint64_t next, buffer, job, reason; };  // S3: the next descriptor; S4, S5: the buffer at hand; S6; broken
    union { uint64_t skip, broken_at; };  // S4, S5: bytes of that buffer fetched already; broken: at which descriptor, or NOWHERE
    uint64_t sector;      // S5, S6
    uint64_t fetched;     // header and payload
    uint64_t last_chain;  // descriptors of the last chain that was complete
    struct region region[REGIONS];  // at the end, so that no other word's place hangs on how many there may be
};
enum { WORDS = sizeof(struct device) / 8 };
_Static_assert(WORDS == 125, "the tests know the words' places");

// ---- loads and stores of guest memory: each is one access of that size, which the compiler may not repeat or split.
// An area's guest address is aligned, its place in the slice need not be.

typedef uint16_t any16 __attribute__((aligned(1), may_alias));
typedef uint32_t any32 __attribute__((aligned(1), may_alias));
typedef uint64_t any64 __attribute__((aligned(1), may_alias));

static uint8_t load8(const uint8_t *p) { return *(const volatile uint8_t *)p; }
static uint16_t load16(const uint8_t *p) { return *(const volatile any16 *)p; }
static uint32_t load32(const uint8_t *p) { return *(const volatile any32 *)p; }
static uint64_t load64(const uint8_t *p) { return *(const volatile any64 *)p; }
static void store16(uint8_t *p, uint16_t v) { *(volatile any16 *)p = v; }
static void store32(uint8_t *p, uint32_t v) { *(volatile any32 *)p = v; }

static uint16_t load_idx(const uint8_t *p)
{
    if (WRONG == IDX_READ_IN_BYTES) return (uint16_t)(load8(p) | load8(p + 1) << 8);
    return load16(p);
}

static void store_idx(uint8_t *p, uint16_t idx)
{
    if (WRONG != IDX_WRITTEN_IN_BYTES) store16(p, idx);
    else *(volatile uint8_t *)p = (uint8_t)idx, *(volatile uint8_t *)(p + 1) = (uint8_t)(idx >> 8);
}

// ---- 01 §1: guest memory

static int within(uint64_t offset, uint64_t len, uint64_t end) { return len <= end && offset <= end - len; }

static uint64_t region_code(const struct region *g, uint64_t mem_len)
{
    if (g->len == 0) return 21;
    if (!within(g->offset, g->len, mem_len)) return 22;
    return g->guest > UINT64_MAX - g->len ? 23 : 0;
}

static int overlap(uint64_t a, uint64_t a_len, uint64_t b, uint64_t b_len)
{
    return a < b ? b - a < a_len : a - b < b_len;
}

static int contains(const struct region *g, uint64_t a, uint64_t n)
{
    if (WRONG == SUM_WRAPS_IN_MEMORY) return a >= g->guest && a + n <= g->guest + g->len;
    return a >= g->guest && within(a - g->guest, n, g->len);
}

static uint64_t eight_if(int wrong, uint64_t n) { return wrong && n > 8 ? 8 : n; }

// Is the range of n bytes from address a in memory? Then *offset is its place in the slice.
static int locate(const struct device *d, uint64_t a, uint64_t n, uint64_t *offset)
{
    for (uint64_t i = 0; i < eight_if(WRONG == EIGHT_LOOKED_AT, d->regions); i++) {
        const struct region *g = d->region + i;
        uint64_t last;
        if (WRONG == ENDS_TESTED_ONLY && n > 1 && contains(g, a, 1)) n = locate(d, a + n - 1, 1, &last);
        if (!contains(g, a, n)) continue;
        *offset = g->offset + (a - g->guest);
        return n > 0;
    }
    return 0;
}

// ---- 03 §1, §3: the disk and the request

static uint64_t disk_code(uint64_t start, uint64_t sectors, uint64_t backing_len)
{
    if (sectors < 1 || sectors > 1ull << 32) return 29;
    return within(start, SECTOR * sectors, backing_len) ? 0 : 30;
}

static int fits(uint64_t n, uint64_t sector, uint64_t sectors)
{
    if (WRONG != PARTS_OF_SECTORS && n % SECTOR != 0) return 0;
    if (WRONG != LIMIT_NOT_TESTED && n > MOST) return 0;
    if (WRONG == SUM_WRAPS_ON_DISK) return sector + n / SECTOR <= sectors;
    if (WRONG == ONE_SECTOR_TOO_FAR) sectors++;
    return sector <= sectors && n / SECTOR <= sectors - sector;
}

// ---- what set-up and steps make of a state

static uint64_t longest_queue(void) { return WRONG == QUEUES_OF_256 ? 256 : WRONG == QUEUES_OF_2048 ? 2048 : LONGEST_QUEUE; }
static uint64_t most_regions(void) { return WRONG == NINE_REGIONS_REFUSED ? 8 : REGIONS + (WRONG == REGIONS_OF_33); }
static int size_ok(uint64_t q) { return q >= 1 && q <= longest_queue() && (q & (q - 1)) == 0; }

// Words of chain memory for a queue of that size.
static uint64_t chain_for(uint64_t q) { return WRONG == CHAIN_OF_512_WORDS && q > 256 ? 512 : 2 * q - (WRONG == CHAIN_ONE_SHORT); }

static int memory_ok(const struct device *d)
{
    if (d->regions < 1 || d->regions > most_regions()) return 0;
    for (uint64_t i = 0; i < eight_if(WRONG == EIGHT_TESTED, d->regions); i++)
        if (region_code(d->region + i, d->mem_len)) return 0;
    return 1;
}

static int queue_ok(const struct device *d)
{
    const uint64_t q = d->size;
    return size_ok(q) && within(d->desc, 16 * q, d->mem_len) && within(d->avail, 6 + 2 * q, d->mem_len)
        && within(d->used, 6 + 8 * q, d->mem_len) && d->chain_len >= chain_for(q) && d->stage_len >= MOST
        && d->taken < 65536 && d->answered < 65536
        && (WRONG == BREAK_NOT_TESTED || d->last_chain <= q + (WRONG == Q_PLUS_ONE));
}

static int chain_ok(const struct device *d)  // as far as it was fetched
{
    const uint64_t most = d->size + (WRONG == Q_PLUS_ONE);
    return d->head < d->size && d->count <= most && d->reads <= d->count
        && d->r <= UINT32_MAX * d->reads && d->w <= UINT32_MAX * (d->count - d->reads);
}

static int complete_ok(const struct device *d) { return chain_ok(d) && d->reads < d->count && d->w >= 1; }

static int job_ok(const struct device *d)
{
    if (WRONG == DATA_BEFORE_ERROR && d->job == READ) return d->sector <= d->sectors;
    return d->job == READ ? fits(d->w - 1, d->sector, d->sectors) : d->job == IDENTIFY ? d->w == IDENTITY + 1 : d->job < READ;
}

static int broken_ok(const struct device *d)
{
    if (d->reason < 1 || d->reason > 8 || d->head >= d->size || d->count > d->size + 1) return 0;
    return WRONG == BREAK_NOT_TESTED || (d->count == 0 ? d->broken_at == NOWHERE : d->broken_at < d->size + (WRONG == BROKEN_AT_CHAIN_POSITION));
}

static int step_ok(const struct device *d)
{
    switch (d->step) {
    case S1: case S2: return 1;
    case S3: return chain_ok(d) && d->next < d->size;
    case S4: return complete_ok(d) && d->buffer < d->reads && d->fetched < HEADER && d->r >= HEADER;
    case S5: return complete_ok(d) && d->buffer < d->reads && d->fetched >= HEADER && d->fetched < d->r
                 && fits(d->r - HEADER, d->sector, d->sectors);
    case S6: return complete_ok(d) && d->fetched <= d->r && job_ok(d);
    case S7: return complete_ok(d) && d->fetched <= d->r;
    case BROKEN: return broken_ok(d);
    }
    return 0;
}

static uint64_t level(const struct device *d)
{
    if (d->level < MEMORY || d->level > ENABLED || !memory_ok(d)) return NOTHING;
    if (d->level >= DISK && (disk_code(d->start, d->sectors, d->backing_len) || d->read_only > 1)) return NOTHING;
    if (d->level == ENABLED && (!queue_ok(d) || !step_ok(d))) return NOTHING;
    return d->level;
}

static int buffer_ok(const struct device *d, const struct buffer *b) { return within(b->offset, b->len, d->mem_len); }

// Chain memory is lent too: are the buffers that this step uses ones that S3 keeps?
static int buffers_ok(const struct device *d, const struct buffer *chain)
{
    if (d->step < S4 || d->step > S6) return 1;
    const struct buffer *b = chain + d->buffer;
    if (d->step == S4) return d->skip < b->len && buffer_ok(d, b);
    if (d->step == S5) return d->skip < b->len && buffer_ok(d, b) && b->len - d->skip <= d->r - d->fetched;
    for (uint64_t i = d->reads; i < d->count; i++)
        if (!buffer_ok(d, chain + i)) return 0;
    return chain[d->count - 1].len >= 1;
}

// ---- the steps

static uint64_t go_on(struct device *d, uint64_t step)
{
    d->step = step;
    return WENT_ON;
}

static uint64_t broken(struct device *d, uint64_t reason)
{
    d->step = BROKEN, d->reason = reason;
    return BROKE;
}

static uint64_t broken_at(struct device *d, uint64_t reason, uint64_t descriptor)
{
    d->broken_at = descriptor;
    return broken(d, reason);
}

// The request is decided: S6 carries it out.
static uint64_t decided(struct device *d, uint64_t job)
{
    d->job = job;
    return go_on(d, S6);
}

static uint64_t poll(struct device *d, const uint8_t *mem)  // S1
{
    const uint16_t idx = load_idx(mem + d->avail + 2);
    uint16_t pending = (uint16_t)(idx - d->taken);
    if (WRONG == IDX_BY_LESS_THAN ? idx <= d->taken : pending == 0) return IDLE;
    if (WRONG == IDX_FETCHED_TWICE) pending = (uint16_t)(load_idx(mem + d->avail + 2) - d->taken);
    d->head = d->count = d->reads = d->r = d->w = d->fetched = 0;
    d->broken_at = NOWHERE;  // until a descriptor was fetched
    if (WRONG != PENDING_NOT_TESTED && pending > d->size) return broken(d, 1);
    return go_on(d, S2);
}

static uint64_t head(struct device *d, const uint8_t *mem)  // S2
{
    const uint64_t place = WRONG == PLACE_NOT_MODULO ? d->taken : d->taken & (d->size - 1);
    const uint16_t entry = load16(mem + d->avail + 4 + 2 * place);
    if (entry >= d->size) return broken(d, 2);
    d->head = d->next = entry;
    return go_on(d, S3);
}

static uint64_t chain_complete(struct device *d, uint64_t at)
{
    d->last_chain = d->count - (WRONG == LAST_CHAIN_ONE_LESS);
    if (d->w == 0) return broken_at(d, 8, at);
    if (d->r < HEADER) return decided(d, FAILED);
    d->buffer = d->skip = 0;
    return go_on(d, S4);
}

static uint64_t descriptor(struct device *d, const uint8_t *mem, struct buffer *chain)  // S3
{
    const uint8_t *from = mem + d->desc + 16 * d->next;
    const uint64_t addr = load64(from), rest = load64(from + 8);
    const uint64_t next = rest >> 48, number = d->count++, at = WRONG == BROKEN_AT_CHAIN_POSITION ? number : d->next;
    uint64_t len = (uint32_t)rest, flags = (uint16_t)(rest >> 32), offset;
    if (number >= d->size + (WRONG == Q_PLUS_ONE)) return broken_at(d, 3, at);
    if (WRONG == CHAINS_OF_256 && number >= 256) return broken_at(d, 3, at);
    if (flags & ~(uint64_t)(NEXT | WRITE)) return broken_at(d, 4, at);
    if (len == 0) return broken_at(d, 5, at);
    if (!locate(d, addr, len, &offset)) return broken_at(d, 6, at);
    if (!(flags & WRITE) && d->reads < number) return broken_at(d, 7, at);
    if (flags & NEXT && next >= d->size) return broken_at(d, 2, WRONG == BROKEN_AT_HEAD ? d->head : at);
    if (WRONG == LENGTH_FETCHED_TWICE) len = load32(from + 8);
    if (WRONG == FLAGS_FETCHED_TWICE) flags = load16(from + 12);
    chain[WRONG == NUMBER_IN_8_BITS ? (uint8_t)number : number] = (struct buffer){offset, len};
    if (flags & WRITE) d->w += len;
    else d->reads++, d->r += len;
    if (WRONG == LENGTHS_IN_32_BITS) d->w = (uint32_t)d->w, d->r = (uint32_t)d->r;
    if (!(flags & NEXT)) return chain_complete(d, at);
    if (WRONG == CHAIN_COUNTED_EARLY) d->last_chain = d->count;
    d->next = WRONG == NEXT_IN_8_BITS ? (uint8_t)next : next;
    return WENT_ON;
}

static uint64_t verdict(struct device *d, uint32_t type, uint64_t sector)
{
    const uint64_t r = d->r, w = d->w;
    d->sector = sector;
    switch (type) {
    case IN:
        if (WRONG == DATA_BEFORE_ERROR && r == HEADER && sector < d->sectors) return decided(d, READ);
        return decided(d, r == HEADER && fits(w - 1, sector, d->sectors) ? READ : FAILED);
    case OUT:
        if (w != 1 || !fits(r - HEADER, sector, d->sectors)) return decided(d, FAILED);
        if (WRONG != READ_ONLY_IGNORED && d->read_only) return decided(d, FAILED);
        return r == HEADER ? decided(d, DONE) : go_on(d, S5);
    case FLUSH: return decided(d, r == HEADER && w == 1 ? DONE : FAILED);
    case GET_ID: return decided(d, r == HEADER && w == IDENTITY + 1 ? IDENTIFY : FAILED);
    }
    return decided(d, UNSUPPORTED);
}

// What the buffer at hand still has, from *at on in the slice.
static uint64_t left(const struct device *d, const struct buffer *chain, uint64_t *at)
{
    *at = chain[d->buffer].offset + d->skip;
    return chain[d->buffer].len - d->skip;
}

static uint64_t header(struct device *d, const uint8_t *mem, const struct buffer *chain, uint8_t *stage)  // S4
{
    uint64_t at, has = left(d, chain, &at), lacks = HEADER - d->fetched, sector;
    uint32_t type;
    if (WRONG == LENGTH_FETCHED_LATER && d->buffer == 0) has = load32(mem + d->desc + 16 * d->head + 8);
    if (WRONG == HEADER_IN_ONE_BUFFER && has < lacks) return decided(d, FAILED);
    const uint64_t n = has < lacks ? has : lacks;
    memcpy(stage + d->fetched, mem + at, n);
    d->fetched += n, d->skip += n;
    if (n == has) d->buffer++, d->skip = 0;
    if (d->fetched < HEADER) return WENT_ON;
    memcpy(&type, stage, 4), memcpy(&sector, stage + 8, 8);
    return verdict(d, type, sector);
}

// The disk's bytes from the request's sector on.
static uint64_t place_on_disk(const struct device *d) { return (WRONG == START_IGNORED ? 0 : d->start) + SECTOR * d->sector; }

// S5. The payload reaches the disk in its last buffer's step, wholly: staged bytes first, this buffer's straight behind them.
static uint64_t payload(struct device *d, const uint8_t *mem, const struct buffer *chain, uint8_t *stage, uint8_t *backing)
{
    uint64_t at, has = left(d, chain, &at), staged = d->fetched - HEADER;
    uint8_t *to = backing + place_on_disk(d);
    if (WRONG == PAYLOAD_IN_PIECES) stage = to;
    d->fetched += has;
    if (d->fetched < d->r) {
        memcpy(stage + staged, mem + at, has);
        d->buffer++, d->skip = 0;
        return WENT_ON;
    }
    if (WRONG == STATUS_WITHOUT_DISK) return decided(d, DONE);
    if (WRONG == PAYLOAD_FETCHED_TWICE) memcpy(stage + staged, mem + at, has);
    if (WRONG == BYTE_TOO_MANY) has++;
    if (WRONG != PAYLOAD_IN_PIECES) memcpy(to, stage, staged);
    memcpy(to + staged, mem + at, has);
    if (WRONG == TAIL_OVERLAPS && has > 8 && has % 8 > 0) memcpy(to + staged + has - 8, mem + at + has - 8, 8);
    return decided(d, DONE);
}

// n bytes into the writable buffers, in chain order.
static void spread(const struct device *d, const uint8_t *from, uint64_t n, const struct buffer *chain, uint8_t *mem)
{
    for (const struct buffer *b = chain + d->reads; n > 0 && b < chain + d->count; b++) {
        const uint64_t part = b->len < n ? b->len : n;
        memcpy(mem + b->offset, from, part);
        from += part, n -= part;
    }
}

static uint64_t reported(uint8_t status, uint64_t w)  // 03 §4
{
    if (WRONG == FAILED_READ_LENGTH_ONE && status != OK) return 1;
    return status == OK || w == 1 ? w : 0;
}

static uint64_t answer(struct device *d, uint8_t *mem, const struct buffer *chain, const uint8_t *backing)  // S6
{
    const struct buffer *last = chain + d->count - 1;
    uint8_t status = d->job == FAILED ? IOERR : d->job == UNSUPPORTED ? UNSUPP : OK;
    uint64_t n = d->w - 1;
    if (WRONG == DATA_BEFORE_ERROR && d->job == READ && !fits(n, d->sector, d->sectors)) {
        const uint64_t there = SECTOR * (d->sectors - d->sector);
        n = n < there ? n : there, status = IOERR;
    }
    if (d->job == READ) spread(d, backing + place_on_disk(d), n, chain, mem);
    if (d->job == IDENTIFY) spread(d, d->id, IDENTITY, chain, mem);
    uint8_t *status_at = mem + last->offset + (WRONG == STATUS_IN_ITS_OWN_BUFFER ? 0 : last->len - 1);
    *status_at = status;
    if (WRONG == STATUS_READ_BACK) status = load8(status_at);
    if (WRONG == IDX_BEFORE_ENTRY) store_idx(mem + d->used + 2, (uint16_t)(d->answered + 1));
    uint8_t *entry = mem + d->used + 4 + 8 * (d->answered & (d->size - 1));
    store32(entry, (uint32_t)d->head);
    store32(entry + 4, (uint32_t)reported(status, d->w));
    return go_on(d, S7);
}

static uint64_t publish(struct device *d, uint8_t *mem)  // S7
{
    uint8_t *idx = mem + d->used + 2;
    d->taken = (uint16_t)(d->taken + 1), d->answered = (uint16_t)(d->answered + 1);
    store_idx(idx, (uint16_t)(WRONG == COUNTED_IN_GUEST_MEMORY ? load16(idx) + 1u : d->answered));
    d->step = S1;
    return ANSWERED;
}

// ---- the interface

uint64_t hd_state_words(void) { return WORDS; }
uint64_t hd_chain_words(uint64_t queue_size) { return size_ok(queue_size) ? 2 * queue_size : 0; }
uint64_t hd_stage_bytes(void) { return MOST; }

uint64_t hd_memory(uint64_t *state, size_t state_len, const uint64_t *regions, size_t regions_len, uint64_t mem_len)
{
    struct device *d = (struct device *)state;
    const struct region *g = (const struct region *)regions;
    const size_t n = regions_len / 3;
    if (state_len < WORDS) return 40;
    if (regions_len % 3 || n < 1 || n > most_regions()) return 20;
    for (size_t i = 0; i < eight_if(WRONG == EIGHT_JUDGED, n); i++) {
        const uint64_t code = region_code(g + i, mem_len);
        if (code) return code;
        for (size_t k = 0; k < i; k++)
            if (overlap(g[k].guest, g[k].len, g[i].guest, g[i].len)) return 24;
    }
    d->level = MEMORY, d->mem_len = mem_len, d->regions = n;
    memcpy(d->region, g, n * sizeof *g);
    return 0;
}

uint64_t hd_disk(uint64_t *state, size_t state_len, uint64_t start, uint64_t sectors, uint64_t read_only,
                 const uint8_t *id, size_t id_len, uint64_t backing_len)
{
    struct device *d = (struct device *)state;
    if (state_len < WORDS) return 40;
    const uint64_t so_far = level(d), code = disk_code(start, sectors, backing_len);
    if (so_far != MEMORY && so_far != DISK) return 41;
    if (id_len != IDENTITY) return 44;
    if (code) return code;
    d->level = DISK, d->start = start, d->sectors = sectors, d->read_only = read_only != 0, d->backing_len = backing_len;
    memcpy(d->id, id, IDENTITY);
    return 0;
}

uint64_t hd_enable_at(uint64_t *state, size_t state_len, uint64_t size, uint64_t desc, uint64_t avail, uint64_t used,
                      uint64_t chain_len, uint64_t stage_len, uint64_t start)
{
    struct device *d = (struct device *)state;
    const uint64_t n_desc = 16 * size, n_avail = 6 + 2 * size, n_used = 6 + 8 * size;
    uint64_t desc_at, avail_at, used_at;
    if (state_len < WORDS) return 40;
    if (level(d) != DISK) return 41;
    if (!size_ok(size)) return 25;
    if (desc % 16 || avail % 2 || used % 4) return 26;
    if (!locate(d, desc, n_desc, &desc_at) || !locate(d, avail, n_avail, &avail_at) || !locate(d, used, n_used, &used_at)) return 27;
    if (overlap(used, n_used, avail, n_avail) || overlap(used, n_used, desc, n_desc)) return 28;
    if (chain_len < chain_for(size)) return 42;
    if (stage_len < MOST) return 43;
    if (start > UINT16_MAX) return 46;
    d->size = size, d->desc = desc_at, d->avail = avail_at, d->used = used_at;
    d->chain_len = chain_len, d->stage_len = stage_len, d->taken = d->answered = start;
    d->level = ENABLED, d->step = S1;
    if (WRONG != LAST_CHAIN_KEPT) d->last_chain = 0;
    return 0;
}

uint64_t hd_enable(uint64_t *state, size_t state_len, uint64_t size, uint64_t desc, uint64_t avail, uint64_t used,
                   uint64_t chain_len, uint64_t stage_len)
{
    return hd_enable_at(state, state_len, size, desc, avail, used, chain_len, stage_len, 0);
}

uint64_t hd_reset(uint64_t *state, size_t state_len)
{
    struct device *d = (struct device *)state;
    if (state_len < WORDS) return 40;
    if (level(d) == ENABLED) d->level = DISK;
    return 0;
}

uint64_t hd_status(const uint64_t *state, size_t state_len, uint64_t *out, size_t out_len)
{
    const struct device *d = (const struct device *)state;
    if (state_len < WORDS) return 40;
    if (out_len < 8) return 45;
    const size_t n = out_len >= 10 ? 10 : WRONG == NINE_WORDS_WRITE_TEN ? out_len : 8;
    memset(out, 0, n * sizeof *out);
    if (level(d) != ENABLED) return 0;
    out[0] = 1, out[2] = d->taken, out[3] = d->answered;
    if (d->step == BROKEN) out[1] = d->reason;
    else out[4] = d->step;
    if (d->step >= S3) out[5] = d->head, out[6] = d->count;
    if (WRONG == FETCHED_ONE_LESS && d->step == BROKEN && d->count > 0) out[6]--;
    if (d->step >= S4 && d->step <= S7) out[7] = d->fetched;
    if (n > 8) out[8] = d->step == BROKEN ? d->broken_at : NOWHERE;
    if (n > 9) out[9] = d->last_chain;
    return 0;
}

uint64_t hd_step(uint64_t *state, size_t state_len, uint8_t *mem, size_t mem_len, uint8_t *backing, size_t backing_len,
                 uint64_t *chain_memory, size_t chain_len, uint8_t *stage, size_t stage_len)
{
    struct device *d = (struct device *)state;
    struct buffer *chain = (struct buffer *)chain_memory;
    if (state_len < WORDS || (WRONG == STATE_TRUSTED ? d->level : level(d)) != ENABLED) return REFUSED;
    if (d->step == BROKEN) return BROKE;
    const int shorter = mem_len < d->mem_len || backing_len < d->backing_len || chain_len < d->chain_len || stage_len < d->stage_len;
    if (WRONG != SHORT_SLICES_TAKEN && shorter) return REFUSED;
    if (WRONG != CHAIN_TRUSTED && !buffers_ok(d, chain)) return REFUSED;
    switch (d->step) {
    case S1: return poll(d, mem);
    case S2: return head(d, mem);
    case S3: return descriptor(d, mem, chain);
    case S4: return header(d, mem, chain, stage);
    case S5: return payload(d, mem, chain, stage, backing);
    case S6: return answer(d, mem, chain, backing);
    default: return publish(d, mem);
    }
}
