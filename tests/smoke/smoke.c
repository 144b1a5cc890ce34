// The worked examples of documents 01 and 03 through the C interface, byte for byte, every answer of set-up, and the limits.
// Two rounds: slices at the high end of their pages, so that a byte too far faults, then at the low end.
// Each check is named after its row of the document.
#define _DEFAULT_SOURCE
#include "bench.h"

static const uint64_t zeros[HD_STATUS_WORDS];
static const uint8_t *const sector3 = want_backing + START + 3 * 512;

// ---- 01 §6

static void lay_v1(void)
{
    static const uint8_t descriptors[] = {
        0x00, 0x40, 0x00, 0x80, 0x00, 0x00, 0x00, 0x00, 0x10, 0x00, 0x00, 0x00, 0x01, 0x00, 0x01, 0x00,
        0x00, 0x50, 0x00, 0x80, 0x00, 0x00, 0x00, 0x00, 0x00, 0x02, 0x00, 0x00, 0x03, 0x00, 0x02, 0x00,
        0x00, 0x60, 0x00, 0x80, 0x00, 0x00, 0x00, 0x00, 0x01, 0x00, 0x00, 0x00, 0x02, 0x00, 0x00, 0x00};
    static const uint8_t header[] = {0, 0, 0, 0, 0, 0, 0, 0, 3, 0, 0, 0, 0, 0, 0, 0}, available[] = {0, 0, 1, 0, 0, 0};
    poke_bytes(DESC, descriptors, 48), poke_bytes(HEADER, header, 16), poke_bytes(AVAIL, available, 6), poke(USED, 4, 0);
}

static void v1(int moving)
{
    static const struct at at[] = {
        {1, {1, 0, 0, 0, 2, 0, 0, 0, NONE, 0}}, {1, {1, 0, 0, 0, 3, 0, 0, 0, NONE, 0}}, {1, {1, 0, 0, 0, 3, 0, 1, 0, NONE, 0}},
        {1, {1, 0, 0, 0, 3, 0, 2, 0, NONE, 0}}, {1, {1, 0, 0, 0, 4, 0, 3, 0, NONE, 3}}, {1, {1, 0, 0, 0, 6, 0, 3, 16, NONE, 3}},
        {1, {1, 0, 0, 0, 7, 0, 3, 16, NONE, 3}}, {2, {1, 0, 1, 1, 1, 0, 0, 0, NONE, 3}}, {0, {1, 0, 1, 1, 1, 0, 0, 0, NONE, 3}}};
    static const uint8_t data[] = {0x03, 0x0a, 0x11, 0x18, 0x1f, 0x26, 0x2d, 0x34}, used[] = {0, 0, 1, 0, 0, 0, 0, 0, 1, 2, 0, 0};
    lay_v1();
    STATUS_IS(1, 0, 0, 0, 1, 0, 0, 0, NONE, 0);
    for (size_t i = 0; i < COUNT(at); i++) {
        if (i == 6) expect_bytes(DATA, sector3, 512), expect(STATUS, 1, 0), expect_used(0, 0, 513, 0);  // S6
        if (i == 7) expect_bytes(USED, used, 12);                                                      // S7
        if (moving) move_slices();
        walk(at + i, 1), as_expected();
    }
    same_bytes("data as the document has it", data, in(mem, DATA), 8), same("the data's last byte", 0xfc, *in(mem, DATA + 511));
}

static void group_v1(void)
{
    begin("V1"), v1(0);
    begin("V1, slices and state move between calls"), v1(1);
    set_up("V1, two regions: from HEADER on at slice 0, the rest behind it", 0);
    same("hd_memory", 0, memory((uint64_t[]){HEADER, 0xc000, 0, GUEST, 0x4000, 0xc000}, 6));
    turn = 0xc000;
    same("hd_disk", 0, disk(0)), same("hd_enable", 0, enable()), v1(0);
}

static void group_wrap(void)
{
    static const struct at at[] = {
        {1, {1, 0, 65535, 65535, 2, 0, 0, 0, NONE, 0}}, {1, {1, 0, 65535, 65535, 3, 0, 0, 0, NONE, 0}},
        {1, {1, 0, 65535, 65535, 3, 0, 1, 0, NONE, 0}}, {1, {1, 0, 65535, 65535, 4, 0, 2, 0, NONE, 2}},
        {1, {1, 0, 65535, 65535, 6, 0, 2, 16, NONE, 2}}, {1, {1, 0, 65535, 65535, 7, 0, 2, 16, NONE, 2}},
        {2, {1, 0, 0, 0, 1, 0, 0, 0, NONE, 2}}, {0, {1, 0, 0, 0, 1, 0, 0, 0, NONE, 2}}};
    static const struct { const char *row; unsigned idx; size_t steps; } rows[] = {
        {"wrap", 0, COUNT(at)}, {"wrap, idx 7: eight are pending", 7, COUNT(at) - 1}, {"wrap, idx 8: nine are pending", 8, 0}};
    for (size_t i = 0; i < COUNT(rows); i++) {
        set_up(rows[i].row, 0);
        same("hd_enable_at", 0, hd_enable_at(state, words, Q, DESC, AVAIL, USED, chain_words, STAGE, 65535));
        lay_v1(), describe(1, STATUS, 1, 2, 0), poke(HEADER, 4, 4);
        poke(AVAIL + 2, 2, rows[i].idx), poke(AVAIL + 4, 2, 8), poke(AVAIL + 4 + 2 * 7, 2, 0), poke(USED + 2, 2, 65535);
        walk(at, rows[i].steps);
        if (rows[i].steps) expect(STATUS, 1, 0), expect(0x8000303c, 8, 1ull << 32), expect(USED + 2, 2, 0);
        else steps("3"), STATUS_IS(1, 1, 65535, 65535, 0, 0, 0, 0, NONE, 0);
        as_expected();
    }
}

static void lay_joined(void) { lay_v1(), describe(1, DATA, 513, 2, 2); }  // "data and status in one writable buffer"

static void lay_eight(unsigned flags)  // 16 r and writable 512, 512, 512, 512, 512, 512, 1; flags are the eighth's
{
    lay_v1(), poke(HEADER + 8, 8, 0);
    for (unsigned i = 1; i < 7; i++) describe(i, DATA + 512 * (i - 1), 512, 3, i + 1);
    describe(7, DATA + 3072, 1, flags, 0);
}

struct poke { uint64_t at; unsigned n; uint64_t value; };
static const struct { const char *row; uint64_t reason, fetched, at, last; struct poke pokes[6]; } broken[] = {
    {"idx 9", 1, 0, NONE, 0, {{AVAIL + 2, 2, 9}}},
    {"entry 8", 2, 0, NONE, 0, {{AVAIL + 4, 2, 8}}},
    {"descriptor 0: next 8", 2, 1, 0, 0, {{D(0) + 14, 2, 8}}},
    {"descriptor 0: next 0", 3, 9, 0, 0, {{D(0) + 14, 2, 0}}},
    {"descriptor 1: NEXT and WRITE, next 1", 3, 9, 1, 0, {{D(1) + 12, 2, 3}, {D(1) + 14, 2, 1}}},
    {"descriptor 0: flags 5", 4, 1, 0, 0, {{D(0) + 12, 2, 5}}},
    {"descriptor 0: flags 9", 4, 1, 0, 0, {{D(0) + 12, 2, 9}}},
    {"descriptor 1: len 0", 5, 2, 1, 0, {{D(1) + 8, 4, 0}}},
    {"descriptor 1 at 0x8000fe00", 6, 2, 1, 0, {{D(1), 8, 0x8000fe00}}},
    {"descriptor 1 at 0x7fffffff", 6, 2, 1, 0, {{D(1), 8, 0x7fffffff}}},
    {"descriptor 1 at 2^64 - 1", 6, 2, 1, 0, {{D(1), 8, TOP}}},
    {"descriptor 1 at 0x80000000 with len 2^32 - 1", 6, 2, 1, 0, {{D(1), 8, GUEST}, {D(1) + 8, 4, 0xffffffff}}},
    {"a writable buffer first, the header after it", 7, 2, 1, 0,
        {{D(0), 8, DATA}, {D(0) + 8, 4, 513}, {D(0) + 12, 2, 3}, {D(1), 8, HEADER}, {D(1) + 8, 4, 16}, {D(1) + 12, 2, 0}}},
    {"descriptor 0 without NEXT", 8, 1, 0, 1, {{D(0) + 12, 2, 0}}},
    {"§1: descriptor 1 at 2^32 + 0x80005000", 6, 2, 1, 0, {{D(1), 8, (1ull << 32) + DATA}}},  // not a row of §6
};

static void breaks(uint64_t reason, uint64_t head, uint64_t fetched, uint64_t at, uint64_t last)
{
    for (uint64_t i = 0; i < (reason == 1 ? 0 : 1 + fetched); i++) steps("1");
    for (int again = 0; again < 2; again++) {
        steps("3"), STATUS_IS(1, reason, 0, 0, 0, head, fetched, 0, at, last), as_expected();
        lay_joined();  // the driver mends what it did: too late
    }
    same("hd_step, broken, short slices", 3, hd_step(state, words, mem, 0, backing, 0, chain, 0, stage, 0));
    same("hd_disk, broken", 41, disk(0)), same("hd_enable, broken", 41, enable()), as_expected();
}

static void poke_all(const struct poke *pokes)
{
    for (int k = 0; k < 6 && pokes[k].n; k++) poke(pokes[k].at, pokes[k].n, pokes[k].value);
}

static void group_broken(void)
{
    for (size_t i = 0; i < COUNT(broken); i++) {
        begin(broken[i].row), lay_joined(), poke_all(broken[i].pokes);
        breaks(broken[i].reason, 0, broken[i].fetched, broken[i].at, broken[i].last);
    }
    begin("a chain of exactly 8 descriptors with NEXT on the eighth"), lay_eight(3), breaks(3, 0, 9, 0, 0);
    begin("a head of 3 whose second descriptor has len 0"), lay_joined();
    describe(3, HEADER, 16, 1, 1), poke(D(1) + 8, 4, 0), poke(AVAIL + 4, 2, 3), breaks(5, 3, 2, 1, 0);
}

// ---- where it broke

#include "where.h"

static void group_answered(void)
{
    begin("idx 8, all entries 0"), lay_joined(), poke(AVAIL + 2, 2, 8), expect_bytes(DATA, sector3, 512), expect(DATA + 512, 1, 0);
    for (unsigned i = 0; i < 8; i++) poke(AVAIL + 4 + 2 * i, 2, 0), expect_used(i, 0, 513, i + 1);
    for (unsigned i = 0; i < 8; i++) steps("1111112");
    steps("0"), STATUS_IS(1, 0, 8, 8, 1, 0, 0, 0, NONE, 2), as_expected();

    begin("descriptor 1 at 0x8000fdff"), lay_joined(), poke(D(1), 8, 0x8000fdff);
    expect_bytes(0x8000fdff, sector3, 512), expect(0x8000ffff, 1, 0), expect_used(0, 0, 513, 1), steps("11111120"), as_expected();

    begin("descriptor 1 at 0x80003000, the used ring"), lay_joined(), poke(D(1), 8, USED);
    expect_bytes(USED, sector3, 512), expect(USED + 512, 1, 0), expect_used(0, 0, 513, 1), steps("11111120"), as_expected();

    begin("a chain of exactly 8 descriptors"), lay_eight(2);
    expect_bytes(DATA, want_backing + START, 3072), expect(DATA + 3072, 1, 0), expect_used(0, 0, 3073, 1);
    steps("11111111111120"), as_expected();

    begin("01 §5: the status byte inside the data; the later write wins"), lay_v1(), poke(D(2), 8, DATA + 7);
    expect_bytes(DATA, sector3, 512), expect(DATA + 7, 1, 0), expect_used(0, 0, 513, 1), steps("111111120"), as_expected();

    begin("01 §5: two data buffers that overlap, in chain order"), lay_v1(), describe(1, DATA, 300, 3, 3), describe(3, DATA + 100, 212, 3, 2);
    expect_bytes(DATA, sector3, 300), expect_bytes(DATA + 100, sector3 + 300, 212), expect(STATUS, 1, 0), expect_used(0, 0, 513, 1);
    steps("1111111120"), as_expected();

    static const struct { uint64_t at; unsigned n; } fetched[] = {{AVAIL + 2, 2}, {AVAIL + 4, 2}, {D(0), 16}, {D(1), 16}, {D(2), 16}, {HEADER, 16}};
    begin("01 §4: everything that was fetched changes right after"), lay_v1();
    for (size_t i = 0; i < COUNT(fetched); i++) {
        steps("1");
        for (unsigned k = 0; k < fetched[i].n; k++) poke(fetched[i].at + k, 1, 0xff);
    }
    expect_bytes(DATA, sector3, 512), expect(STATUS, 1, 0), expect_used(0, 0, 513, 1), steps("12"), as_expected();
}

// ---- 03 §6

struct request {
    const char *row;
    uint64_t steps;  // S1, S2, S3 for each descriptor, S4 for each piece of the header, S5 for each of the payload, S6, S7
    uint32_t type; uint64_t sector; uint32_t r[4], w[8];
    uint64_t status, len, read_only;
    const char *first;  // the first data bytes as the document has them
};
static const struct request requests[] = {
    {"IN, sector 3", 8, 0, 3, {16}, {512, 1}, 0, 513, 0, "\x03\x0a\x11\x18\x1f\x26\x2d\x34"},
    {"IN, sector 63", 7, 0, 63, {16}, {513}, 0, 513, 0, "\x3f\x46\x4d\x54"},
    {"IN, sector 64, 513 w", 7, 0, 64, {16}, {513}, 1, 0, 0, NULL},
    {"IN, sector 64, 1 w", 7, 0, 64, {16}, {1}, 0, 1, 0, NULL},
    {"IN, sector 65", 7, 0, 65, {16}, {1}, 1, 1, 0, NULL},
    {"IN, sector 2^64 - 1", 7, 0, TOP, {16}, {1025}, 1, 0, 0, NULL},
    {"OUT, sector 5", 10, 1, 5, {10, 518}, {1}, 0, 1, 0, NULL},
    {"OUT on a read-only disk", 7, 1, 5, {528}, {1}, 1, 1, 1ull << 40, NULL},
    {"GET_ID, 21 w", 7, 8, TOP, {16}, {21}, 0, 21, 0, "\x53\x43\x52\x41\x54\x43\x48\x2d\x30\x30\x30\x37"},
    {"GET_ID, 20 w", 7, 8, 0, {16}, {20}, 1, 0, 0, NULL},
    {"FLUSH, 1 w", 7, 4, TOP, {16}, {1}, 0, 1, 0, NULL},
    {"FLUSH, 2 w", 7, 4, 0, {16}, {2}, 1, 0, 0, NULL},
    {"type 2", 7, 2, 0, {16}, {1}, 2, 1, 0, NULL},
    {"any (IN), 15 r", 6, 0, 0, {15}, {1}, 1, 1, 0, NULL},
    {"any (OUT), 15 r", 6, 1, 0, {15}, {1}, 1, 1, 0, NULL},
    {"any (FLUSH), 15 r", 6, 4, 0, {15}, {1}, 1, 1, 0, NULL},
    {"any (type 2), 15 r", 6, 2, 0, {15}, {1}, 1, 1, 0, NULL},
    {"IN, sector 0, seven writable buffers", 13, 0, 0, {16}, {512, 512, 512, 512, 512, 512, 1}, 0, 3073, 0, NULL},
    // 03 §3, where §6 has no row
    {"§3: IN on a read-only disk", 7, 0, 5, {16}, {513}, 0, 513, 1, NULL},
    {"§3: IN, header and data cut anywhere", 11, 0, 7, {7, 9}, {1, 510, 2}, 0, 513, 0, NULL},
    {"§3: IN, 17 r", 7, 0, 3, {17}, {513}, 1, 0, 0, NULL},
    {"§3: IN, n = 511", 7, 0, 3, {16}, {512}, 1, 0, 0, NULL},
    {"§3: IN, sector 2^32 + 3", 7, 0, (1ull << 32) + 3, {16}, {513}, 1, 0, 0, NULL},
    {"§3: OUT, n = 0 at sector 64", 7, 1, 64, {16}, {1}, 0, 1, 0, NULL},
    {"§3: OUT, n = 512 at sector 64", 7, 1, 64, {528}, {1}, 1, 1, 0, NULL},
    {"§3: OUT, n = 511", 7, 1, 5, {527}, {1}, 1, 1, 0, NULL},
    {"§3: OUT, 2 w", 7, 1, 5, {528}, {2}, 1, 0, 0, NULL},
    {"§3: type 256, 513 w", 7, 256, 3, {16}, {513}, 2, 0, 0, NULL},
};

static void request(const struct request *q)
{
    uint8_t readable[1024];
    uint64_t r = 0, w = 0, last = 0, got = 1, count = 0, done = q->status == 0, in_disk = START + 512 * q->sector;
    unsigned readables = 0, buffers = 0;
    set_up(q->row, q->read_only), same("hd_enable", 0, enable());
    poke(HEADER, 4, q->type), poke(HEADER + 4, 4, 0xdeadbeef), poke(HEADER + 8, 8, q->sector);
    poke(AVAIL + 2, 2, 1), poke(AVAIL + 4, 2, 3), poke(USED + 2, 2, 0);
    for (size_t i = 0; i < sizeof readable; i++) readable[i] = i < 16 ? in(mem, HEADER)[i] : (uint8_t)(i * 5 + 9);
    while (q->r[readables]) readables++, buffers++;
    while (q->w[buffers - readables]) buffers++;
    for (unsigned i = 0; i < buffers; i++) {  // descriptors 3, 0, 5, 2, 7, 4, 1, 6
        int writable = i >= readables;
        uint64_t at = writable ? DATA + 0x401 * (i - readables) : HEADER + 0x300 * i;
        uint32_t len = writable ? q->w[i - readables] : q->r[i];
        describe((5 * i + 3) % 8, at, len, (writable ? 2 : 0) + (i + 1 < buffers), i + 1 < buffers ? (5 * (i + 1) + 3) % 8 : 0xffff);
        if (!writable) poke_bytes(at, readable + r, len), r += len;
        if (writable && done && q->type == 0) expect_bytes(at, want_backing + in_disk + w, len), w += len;
        if (writable && done && q->type == 8) expect_bytes(at, id, 20);
        last = at + len - 1;
    }
    expect(last, 1, q->status), expect_used(0, 3, q->len, 1);
    if (done && q->type == 1) memcpy(want_backing + in_disk, readable + 16, r - 16);
    for (; got == 1 && count < 100; count++) got = step();
    same("the last step's answer", 2, got), same("number of steps", q->steps, count), same("status byte", q->status, *in(mem, last)), as_expected();
    if (q->first) same_bytes("data as the document has it", q->first, in(mem, DATA), strlen(q->first));
    steps("0"), STATUS_IS(1, 0, 1, 1, 1, 0, 0, 0, NONE, buffers);
}

static void group_requests(void)
{
    for (size_t i = 0; i < COUNT(requests); i++) request(requests + i);
}

static void group_out(void)
{
    static const struct at at[] = {
        {1, {1, 0, 0, 0, 2, 0, 0, 0, NONE, 0}}, {1, {1, 0, 0, 0, 3, 3, 0, 0, NONE, 0}}, {1, {1, 0, 0, 0, 3, 3, 1, 0, NONE, 0}},
        {1, {1, 0, 0, 0, 3, 3, 2, 0, NONE, 0}}, {1, {1, 0, 0, 0, 4, 3, 3, 0, NONE, 3}}, {1, {1, 0, 0, 0, 4, 3, 3, 10, NONE, 3}},
        {1, {1, 0, 0, 0, 5, 3, 3, 16, NONE, 3}}, {1, {1, 0, 0, 0, 6, 3, 3, 528, NONE, 3}}, {1, {1, 0, 0, 0, 7, 3, 3, 528, NONE, 3}},
        {2, {1, 0, 1, 1, 1, 0, 0, 0, NONE, 3}}, {0, {1, 0, 1, 1, 1, 0, 0, 0, NONE, 3}}};
    static const uint8_t chain364[3][16] = {
        {0x00, 0x40, 0x00, 0x80, 0x00, 0x00, 0x00, 0x00, 0x0a, 0x00, 0x00, 0x00, 0x01, 0x00, 0x06, 0x00},
        {0x00, 0x41, 0x00, 0x80, 0x00, 0x00, 0x00, 0x00, 0x06, 0x02, 0x00, 0x00, 0x01, 0x00, 0x04, 0x00},
        {0x00, 0x60, 0x00, 0x80, 0x00, 0x00, 0x00, 0x00, 0x01, 0x00, 0x00, 0x00, 0x02, 0x00, 0x00, 0x00}};
    static const uint8_t header10[] = {1, 0, 0, 0, 0, 0, 0, 0, 5, 0};
    uint8_t data[512];
    for (size_t i = 0; i < 512; i++) data[i] = (uint8_t)(i * 3 + 1);

    begin("the split OUT"), lay_v1(), poke(AVAIL + 4, 2, 3);
    poke_bytes(D(3), chain364[0], 16), poke_bytes(D(6), chain364[1], 16), poke_bytes(D(4), chain364[2], 16);
    poke_bytes(HEADER, header10, 10), poke(0x80004100, 6, 0), poke_bytes(0x80004106, data, 512);
    for (size_t i = 0; i < COUNT(at); i++) {
        if (i == 7) memcpy(want_backing + START + 5 * 512, data, 512);        // S5
        if (i == 8) expect(STATUS, 1, 0), expect_used(0, 3, 1, 0);            // S6
        if (i == 9) expect(USED + 2, 2, 1);                                   // S7
        walk(at + i, 1), as_expected();
    }
    lay_v1(), poke(AVAIL + 2, 2, 2), poke(AVAIL + 6, 2, 0), poke(HEADER + 8, 1, 5), poke(USED + 2, 2, 1);  // 03 §5: a read gives those bytes
    expect_bytes(DATA, data, 512), expect_used(1, 0, 513, 2), steps("111111120"), as_expected();

    // 16 r, then the payload in 100, 300 and 112 r, each spoilt after its fetch; the second time with a reset before the last
    for (int reset = 0; reset < 2; reset++) {
        begin(reset ? "a staged OUT, reset before its last buffer" : "a staged OUT takes effect in one step"), lay_v1(), poke(HEADER, 1, 1);
        for (unsigned i = 1; i < 4; i++) describe(i, DATA + 0x200 * i, (uint32_t[]){100, 300, 112}[i - 1], 1, i + 1);
        describe(0, HEADER, 16, 1, 1), describe(4, STATUS, 1, 2, 0);
        poke_bytes(DATA + 0x200, data, 100), poke_bytes(DATA + 0x400, data + 100, 300), poke_bytes(DATA + 0x600, data + 400, 112);
        steps("11111111"), STATUS_IS(1, 0, 0, 0, 5, 0, 5, 16, NONE, 5), as_expected();
        steps("1"), STATUS_IS(1, 0, 0, 0, 5, 0, 5, 116, NONE, 5), as_expected(), poke(DATA + 0x200, 8, 0);
        steps("1"), STATUS_IS(1, 0, 0, 0, 5, 0, 5, 416, NONE, 5), as_expected(), poke(DATA + 0x400, 8, 0);
        if (reset) {
            same("hd_reset", 0, hd_reset(state, words)), status_is(zeros), steps("4"), as_expected();
            same("hd_enable", 0, enable()), v1(0);
            continue;
        }
        memcpy(want_backing + START + 3 * 512, data, 512);
        steps("1"), STATUS_IS(1, 0, 0, 0, 6, 0, 5, 528, NONE, 5), as_expected(), poke(DATA + 0x600, 8, 0);
        expect(STATUS, 1, 0), expect_used(0, 0, 1, 1), steps("120"), as_expected();
    }
}

// ---- set-up

#include "setup.h"

// ---- queues of 1,024, and 32 regions

#include "limits.h"

int main(void)
{
    static const struct { const char *name; void (*run)(void); } groups[] = {
        {"01 §6 V1", group_v1}, {"01 §6 wrap", group_wrap}, {"01 §6 broken", group_broken}, {"where it broke", group_where},
        {"01 §6 answered", group_answered}, {"03 §6 requests", group_requests}, {"03 §6 split OUT", group_out}, {"set-up", group_set_up},
        {"state, reset, slices", group_state}, {"spoilt words", group_spoilt}, {"queues of 1,024, 32 regions", group_limits}};
    signal(SIGSEGV, fault), signal(SIGBUS, fault);
    for (int round = 0; round < 2; round++) {
        lend_all(round), before = malloc(8 * (words + BEHIND));
        for (size_t i = 0; i < COUNT(groups); i++) {
            unsigned long already = checks;
            groups[i].run(), slack();
            printf("%s end: %s: %lu checks\n", round ? "low" : "high", groups[i].name, checks - already);
        }
        free(before);
    }
    if (failed) printf("smoke: %lu of %lu checks FAILED\n", failed, checks);
    else printf("smoke: %lu checks passed\n", checks);
    return failed != 0;
}
