// The honest guest: writes and reads back in several sizes, each cut into buffers in several ways.
#include <stdio.h>
#include <string.h>
#include "demo.h"

enum { TAKEN_OVER_AT = 65000, WRAP = 1000 };  // so that idx passes 65,535
static uint8_t written[HD_REQUEST_BYTES_MAX];
static uint64_t low_free, high_free;

static struct request fresh(uint32_t type, uint64_t sector)
{
    low_free = DATA, high_free = HIGH;
    return ask(type, sector, written);
}

static uint64_t room(uint32_t len, bool high)  // in the high region if asked and there is room, else in the low one
{
    uint64_t *next = high && high_free + len <= HIGH + HIGH_BYTES ? &high_free : &low_free, at = *next;
    *next += len + 3;
    return at;
}

static uint64_t border(uint64_t bytes, unsigned i, unsigned pieces)  // where piece i begins: not quite even
{
    uint64_t even = bytes * i / pieces;
    return i == 0 || i == pieces || bytes < 8 * pieces ? even : even - i % 3;
}

static void add_pieces(struct request *r, uint64_t bytes, unsigned pieces, bool writable)
{
    for (unsigned i = 0; i < pieces && bytes > 0; i++) {
        uint32_t len = (uint32_t)(border(bytes, i + 1, pieces) - border(bytes, i, pieces));
        add(r, room(len, i % 2), len, writable);
    }
}

static struct request write_of(uint64_t sector, uint32_t bytes, unsigned pieces, uint32_t header_cut)
{
    struct request r = fresh(OUT, sector);
    add(&r, HEADER, header_cut, false);
    if (header_cut == 16) add_pieces(&r, bytes, pieces, false);
    else add_pieces(&r, 16 - header_cut + bytes, pieces, false);  // the header's rest and data share buffers
    add(&r, STATUS, 1, true);
    return r;
}

static struct request read_of(uint64_t sector, uint32_t bytes, unsigned pieces)
{
    struct request r = fresh(IN, sector);
    add(&r, HEADER, 7, false), add(&r, HEADER + 0x100, 9, false);
    add_pieces(&r, bytes + 1, pieces, true);  // the status byte is the last of the last piece
    return r;
}

static const char *as_written(const struct request *r)
{
    uint64_t done = 0, n = bytes_of(r, true) - 1;
    for (unsigned k = 2; k < r->n; k++) {
        for (uint32_t i = 0; i < r->buffers[k].len && done < n; i++, done++)
            if (peek(r->buffers[k].at + i, 1) != written[done]) return "the guest reads something else than it wrote";
    }
    return NULL;
}

static const struct { const char *name; uint64_t sector; uint32_t bytes, header_cut; unsigned out, in; } rounds[] = {
    {"one sector", 3, 512, 16, 1, 1},
    {"header cut", 5, 512, 10, 1, 2},
    {"header byte by byte", 9, 1024, 1, 20, 3},
    {"the first sector", 0, 512, 16, 2, 5},
    {"the last sector", SECTORS - 1, 512, 16, 3, 1},
    {"4 KiB", 16, 4096, 16, 1, 8},
    {"64 KiB in pages", 100, 65536, 16, 16, 16},
    {"64 KiB in crumbs", 300, 65536, 3, 200, 253},
    {"1 MiB at once", 1024, HD_REQUEST_BYTES_MAX, 16, 1, 1},
    {"1 MiB in 254 buffers", 2048, HD_REQUEST_BYTES_MAX, 16, 254, 254},
    {"1 MiB in 1,022 buffers", 512, HD_REQUEST_BYTES_MAX, 16, 1022, 1022},
    {"two sectors in crumbs", 700, 1024, 1, 1020, 1020},
};

static void write_and_read_back(size_t i)
{
    const struct outcome wrote = {HD_STEP_ANSWERED, 0, 0, 1, 0}, read = {HD_STEP_ANSWERED, 0, 0, rounds[i].bytes + 1, 0};
    struct outcome got;
    char deed[96], answer[64];
    noise(written, rounds[i].bytes, 100 + i);
    struct request out = write_of(rounds[i].sector, rounds[i].bytes, rounds[i].out, rounds[i].header_cut);
    struct request in = read_of(rounds[i].sector, rounds[i].bytes, rounds[i].in);
    out.head = (unsigned)(97 * i) % HD_QUEUE_SIZE_MAX, in.head = (unsigned)(211 * i) % HD_QUEUE_SIZE_MAX;
    lay(&out);
    const char *problem = serve(&out, wrote, NULL, &got);
    snprintf(answer, sizeof answer, "%s", said(got));
    if (!problem) {
        struct outcome first = got;
        lay(&in);
        problem = serve(&in, read, NULL, &got);
        snprintf(answer, sizeof answer, "status %llu and %llu, len %llu and %llu", (unsigned long long)first.status,
                 (unsigned long long)got.status, (unsigned long long)first.len, (unsigned long long)got.len);
    }
    if (!problem) problem = as_written(&in);
    snprintf(deed, sizeof deed, "%u bytes at sector %llu: written in %u buffers, read in %u", rounds[i].bytes,
             (unsigned long long)rounds[i].sector, out.n, in.n);
    show(rounds[i].name, deed, answer, problem);
}

static void one(const char *name, const char *deed, struct request r, struct outcome want)
{
    struct outcome got;
    lay(&r);
    const char *problem = serve(&r, want, NULL, &got);
    show(name, deed, said(got), problem);
}

static void around_the_counters(void)  // a host that was restarted takes the queue over
{
    const struct outcome want = {HD_STEP_ANSWERED, 0, 0, 1, 0};
    struct outcome got = want;
    struct request flush = write_of(0, 0, 0, 16);
    const char *problem = NULL;
    flush.type = FLUSH;
    take_over(HD_QUEUE_SIZE_MAX, TAKEN_OVER_AT);
    for (unsigned i = 0; i < WRAP && !problem && same_outcome(want, got); i++) {
        flush.head = i % HD_QUEUE_SIZE_MAX;
        lay(&flush);
        problem = run_steps(&flush, want, NULL, &got);
    }
    if (!problem) problem = same_outcome(want, got) ? differs() : "expected answered: status 0, len 1";
    show("idx wraps", "a queue is taken over at 65,000; 1,000 flushes pass 65,535", said(got), problem);
}

void honest_guest(void)
{
    title("An honest guest (a queue of 1,024)");
    begin(HD_QUEUE_SIZE_MAX, false);
    for (size_t i = 0; i < COUNT(rounds); i++) write_and_read_back(i);
    struct request r = fresh(GET_ID, 0);
    add(&r, HEADER, 16, false), add(&r, DATA, 21, true);
    one("the disk's identity", "asks for the 20 bytes of text", r, (struct outcome){HD_STEP_ANSWERED, 0, 0, 21, 0});
    one("nothing, at the end", "writes 0 bytes behind the last sector", write_of(SECTORS, 0, 0, 16), (struct outcome){HD_STEP_ANSWERED, 0, 0, 1, 0});
    around_the_counters();
}
