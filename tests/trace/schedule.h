// The schedule S1 to S7, held against the loads and stores of one call of hd_step. Which step is at hand is told by hd_status
// before it (words 2 to 4); which guest bytes it is to fetch follows from the schedule and from what earlier steps fetched.
#ifndef SCHEDULE_H
#define SCHEDULE_H

#include "traced.h"

struct span { uint64_t at, len; };  // bytes of a slice

// ---- the request at hand, followed as the schedule has it

static struct {
    uint64_t taken, answered, next;
    unsigned count, reads, buffer;
    struct span buffers[LONGEST + 2];
    uint64_t r, w, skip, got;
    uint8_t header[16];
    uint64_t descriptor, ends;  // the descriptor that S3 fetched last, and whether it is without NEXT
} at_hand;
static struct { uint64_t broken_at, last_chain; } where;  // what hd_status has to say (words 8 and 9)

// ---- what this step may do, and what it did

static struct {
    unsigned number;
    struct span fetch;       // of guest memory
    struct span disk_write;  // of the backing slice; nothing but in the S5 of the last payload buffer
    struct span disk_read;   // nothing but in the S6 of an IN
} plan;
static struct span stores[MOST_ACCESSES];  // to guest memory, in their order
static struct { uint64_t loads, load_bytes, stores, disk_bytes; } did;
static uint64_t seen_accesses, disk_start = DISK_AT;
static uint32_t loaded_in[SLICE], step_count;  // the last step in which this guest byte was loaded

static uint64_t offset_of(uint64_t guest, uint64_t n)  // in the slice; UINT64_MAX: not in memory
{
    for (const struct region *g = registered; g < registered + registered_count; g++)
        if (guest >= g->guest && n <= g->len && guest - g->guest <= g->len - n) return g->offset + (guest - g->guest);
    return UINT64_MAX;
}

static uint64_t number_at(uint64_t offset, unsigned n)
{
    uint64_t v = 0;
    for (unsigned i = 0; i < n; i++) v |= (uint64_t)mem[offset + i] << 8 * i;
    return v;
}

static struct span left_of_buffer(void)
{
    const struct span b = at_hand.buffers[at_hand.buffer];
    return (struct span){b.at + at_hand.skip, b.len - at_hand.skip};
}

static void plan_descriptor(void)  // S3
{
    const uint64_t from = offset_of(D(at_hand.next), 16), len = number_at(from + 8, 4), flags = number_at(from + 12, 2);
    plan.fetch = (struct span){from, 16};
    at_hand.descriptor = at_hand.next, at_hand.ends = !(flags & 1);
    at_hand.next = number_at(from + 14, 2);
    if (at_hand.count > LONGEST) return;
    at_hand.buffers[at_hand.count++] = (struct span){offset_of(number_at(from, 8), len), len};
    if (flags & 2) at_hand.w += len;
    else at_hand.reads++, at_hand.r += len;
}

static void plan_header(void)  // S4
{
    const struct span left = left_of_buffer();
    const uint64_t lacks = 16 - at_hand.got, n = lacks < left.len ? lacks : left.len;
    plan.fetch = (struct span){left.at, n};
    memcpy(at_hand.header + at_hand.got, mem + left.at, n);
    at_hand.got += n, at_hand.skip += n;
    if (n == left.len) at_hand.buffer++, at_hand.skip = 0;
}

// The n bytes from the header's sector on, as far as the disk has them.
static struct span on_disk(uint64_t n)
{
    uint64_t sector;
    memcpy(&sector, at_hand.header + 8, 8);
    if (sector > DISK_SECTORS) return (struct span){0, 0};
    const uint64_t has = 512 * (DISK_SECTORS - sector);
    return (struct span){disk_start + 512 * sector, n < has ? n : has};
}

static void plan_payload(void)  // S5
{
    plan.fetch = left_of_buffer();
    at_hand.got += plan.fetch.len, at_hand.buffer++, at_hand.skip = 0;
    if (at_hand.got == at_hand.r) plan.disk_write = on_disk(at_hand.r - 16);
}

static void plan_step(const uint64_t *status)
{
    memset(&plan, 0, sizeof plan), memset(&did, 0, sizeof did), step_count++;
    plan.number = (unsigned)status[4], at_hand.taken = status[2], at_hand.answered = status[3];
    switch (plan.number) {
    case 1: plan.fetch = (struct span){offset_of(AVAIL + 2, 2), 2}; break;
    case 2:
        plan.fetch = (struct span){offset_of(AVAIL + 4 + 2 * (at_hand.taken % queue_size), 2), 2};
        at_hand.next = number_at(plan.fetch.at, 2);
        at_hand.count = at_hand.reads = at_hand.buffer = 0, at_hand.r = at_hand.w = at_hand.skip = at_hand.got = 0;
        break;
    case 3: plan_descriptor(); break;
    case 4: plan_header(); break;
    case 5: plan_payload(); break;
    case 6: if (at_hand.got == 16 && at_hand.header[0] == 0) plan.disk_read = on_disk(at_hand.w - 1); break;
    }
}

// ---- every access

static void amiss(const char *what, uint64_t offset, uint64_t n)
{
    checks++;
    if (failed++ < 5) printf("FAILED trace: S%u: %s: %llu bytes at %llu\n", plan.number, what, (unsigned long long)n, (unsigned long long)offset);
}

static int inside(struct span s, uint64_t offset, uint64_t n) { return offset >= s.at && n <= s.len && offset - s.at <= s.len - n; }

static void on_guest(int store, uint64_t offset, uint64_t n)
{
    if (store) {
        stores[did.stores++] = (struct span){offset, n};
        if (plan.number < 6) amiss("S1 to S5 store nothing to guest memory", offset, n);
        return;
    }
    did.loads++, did.load_bytes += n;
    if (plan.number >= 6) amiss("S6 and S7 load nothing from guest memory", offset, n);
    else if (!inside(plan.fetch, offset, n)) amiss("a load outside the range that this step fetches", offset, n);
    for (uint64_t i = offset; i < offset + n; i++) {
        if (loaded_in[i] == step_count) amiss("a guest byte is loaded twice in one step", i, n);
        loaded_in[i] = step_count;
    }
}

static void on_backing(int store, uint64_t offset, uint64_t n)
{
    if (store) did.disk_bytes += n;
    if (!inside(store ? plan.disk_write : plan.disk_read, offset, n)) amiss(store ? "a store to the backing slice" : "a load from the backing slice", offset, n);
}

static void on_access(const struct access *a)
{
    const int place = place_of(a);
    const uint64_t offset = place < SLICES ? a->at - (uintptr_t)lent[place] : a->at;
    checks++;
    switch (place) {
    case OF_MEM: on_guest((int)a->store, offset, a->n); break;
    case OF_BACKING: on_backing((int)a->store, offset, a->n); break;
    case OF_CHAIN: if (a->store && plan.number != 3) amiss("chain memory is written in S3 alone", offset, a->n); break;
    case OF_STAGE: if (a->store && plan.number != 4 && plan.number != 5) amiss("staging memory is written in S4 and S5 alone", offset, a->n); break;
    case NOWHERE: amiss("outside the lent slices, the stack and the constants", offset, a->n); break;
    }
}

// ---- after the step

static void answer_stores(void)  // S6: data, then the status byte, then the used entry
{
    const struct span entry = {offset_of(USED + 4 + 8 * (at_hand.answered % queue_size), 8), 8};
    const struct span last = at_hand.buffers[at_hand.count - 1];
    uint64_t i = did.stores, of_entry = 0;
    for (; i > 0 && of_entry < 8; i--) {
        of_entry += stores[i - 1].len;
        if (!inside(entry, stores[i - 1].at, stores[i - 1].len)) amiss("the last stores are the used entry", stores[i - 1].at, stores[i - 1].len);
    }
    if (i == 0 || stores[i - 1].at != last.at + last.len - 1 || stores[i - 1].len != 1) return amiss("before the used entry, the status byte", last.at, last.len);
    for (uint64_t k = 0; k + 1 < i; k++) {
        unsigned b = at_hand.reads;
        while (b < at_hand.count && !inside(at_hand.buffers[b], stores[k].at, stores[k].len)) b++;
        if (b == at_hand.count) amiss("a store outside the writable buffers", stores[k].at, stores[k].len);
    }
}

static void after_step(uint64_t answer)
{
    if (traced->count > MOST_ACCESSES) return amiss("more accesses than the log holds", 0, traced->count);
    for (uint64_t i = 0; i < traced->count; i++)
        if (by_the_library(traced->access + i)) on_access(traced->access + i), seen_accesses++;
    const struct span idx = {offset_of(USED + 2, 2), 2};
    const unsigned n = plan.number;
    checks++;
    if (answer > 3) amiss("hd_step answers 0 to 3", answer, 0);
    if (n <= 2 && (did.loads != 1 || did.load_bytes != 2)) amiss("one 2-byte load", plan.fetch.at, did.load_bytes);
    if (n == 3 && answer == 1 && did.load_bytes != 16) amiss("16 bytes of a descriptor", plan.fetch.at, did.load_bytes);
    if ((n == 4 || n == 5) && did.load_bytes != plan.fetch.len) amiss("all of the range", plan.fetch.at, did.load_bytes);
    if (did.disk_bytes != plan.disk_write.len) amiss("the payload goes to the disk wholly in this step", plan.disk_write.at, did.disk_bytes);
    if (n == 6) answer_stores();
    if (n == 7 && (did.stores != 1 || stores[0].at != idx.at || stores[0].len != 2)) amiss("one 2-byte store, of used idx", idx.at, did.stores);
}

#endif
