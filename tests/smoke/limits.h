// Queues of up to 1,024 descriptors and up to 32 regions of memory: at these limits, beside them, and what of the state a queue's
// size may not touch. Part of smoke.c.

#define W_HEADER (GUEST + 0x7000)  // of one long request
#define W_STATUS (GUEST + 0x7100)
#define W_DATA (GUEST + 0x7800)
#define W_D(i) (W_DESC + 16 * (i))
enum { LONGEST = 1024, MOST_REGIONS = 32, PAYLOAD = 63 * 512, BEHIND = 40 };
enum { MEM_LEN = 1, REGION_COUNT = 2, QUEUE_SIZE = 10, CHAIN_LENT = 14, STEP_FIRST = 16, STEP_END = 29, MAP = 29 };  // words of the state

// ---- memory

static size_t crumbs(uint64_t *list_of, size_t n)  // n regions of one byte, each at a byte of its own
{
    for (size_t i = 0; i < n; i++) list_of[3 * i] = GUEST + 2 * i, list_of[3 * i + 1] = 1, list_of[3 * i + 2] = 3 * i;
    return 3 * n;
}

static const struct { const char *row; uint64_t want; size_t region; uint64_t guest, len, offset; } last_regions[] = {
    {"the last of 32 regions, up to the slice's end", 0, 31, GUEST - 9, 9, MEM - 9},
    {"21: the last of 32 regions", 21, 31, GUEST - 9, 0, 0},
    {"22: the last of 32 regions", 22, 31, GUEST - 9, 9, MEM - 8},
    {"23: the last of 32 regions", 23, 31, TOP, 1, 0},
    {"24: the last of 32 regions, and the first", 24, 31, GUEST, 1, 0},
    {"24: the last of 32 regions, and the one before", 24, 31, GUEST + 60, 1, 0},
    {"21: the ninth of 32", 21, 8, GUEST - 9, 0, 0},
    {"24: the ninth of 32, and the eighth", 24, 8, GUEST + 14, 1, 0},
};

static void memory_limits(void)
{
    uint64_t regions[3 * (MOST_REGIONS + 1)];
    for (size_t n = 1; n <= MOST_REGIONS + 1; n++) {
        const size_t m = crumbs(regions, n);
        begin(n > MOST_REGIONS ? "20: 33 regions" : "1 to 32 regions"), memset(state, 0xe7, 8 * words), keep();
        answers("hd_memory", n > MOST_REGIONS ? 20 : 0, memory(regions, m));
        if (n > MOST_REGIONS) continue;
        same("the length of memory", MEM, state[MEM_LEN]), same("the number of regions", n, state[REGION_COUNT]);
        same_bytes("the map", regions, state + MAP, 8 * m);
        same_bytes("the words before the map", before + REGION_COUNT + 1, state + REGION_COUNT + 1, 8 * (MAP - REGION_COUNT - 1));
        same_bytes("the words behind the map", before + MAP + m, state + MAP + m, 8 * (words - MAP - m));
    }
    for (size_t i = 0; i < COUNT(last_regions); i++) {
        const size_t m = crumbs(regions, MOST_REGIONS), k = 3 * last_regions[i].region;
        begin(last_regions[i].row), keep();
        regions[k] = last_regions[i].guest, regions[k + 1] = last_regions[i].len, regions[k + 2] = last_regions[i].offset;
        answers("hd_memory", last_regions[i].want, memory(regions, m));
    }
}

// Guest memory in 32 regions of 2 KiB, the slice turned by five of them; the list begins with region `first`.
static void in_32_regions(const char *name, size_t first, size_t n)
{
    uint64_t regions[3 * MOST_REGIONS];
    blank(name), turn = 5 * 2048;
    for (size_t i = 0; i < n; i++) {
        const uint64_t k = (first + 11 * i) % MOST_REGIONS, r[3] = {GUEST + 2048 * k, 2048, (2048 * k + turn) % MEM};
        memcpy(regions + 3 * i, r, sizeof r);
    }
    same("hd_memory", 0, memory(regions, 3 * n)), same("hd_disk", 0, disk(0)), same("hd_enable", 0, enable());
}

static void every_region_hit(void)  // in each place of the list; a range is in memory only if one region has all of it
{
    for (size_t first = 0; first < MOST_REGIONS; first++) in_32_regions("V1 in 32 regions", first, MOST_REGIONS), v1(0);
    in_32_regions("a buffer that ends with its region", 3, MOST_REGIONS), lay_v1(), poke(D(1), 8, DATA + 2048 - 512);
    expect_bytes(DATA + 2048 - 512, sector3, 512), expect(STATUS, 1, 0), expect_used(0, 0, 513, 1), steps("111111120"), as_expected();
    in_32_regions("6: a buffer that ends in the next region", 3, MOST_REGIONS), lay_v1(), poke(D(1), 8, DATA + 2048 - 511);
    steps("1113"), STATUS_IS(1, 6, 0, 0, 0, 0, 2, 0, 1, 0), as_expected();
    in_32_regions("6: the data's region would be the 32nd, and isn't registered", (10 + 11) % MOST_REGIONS, MOST_REGIONS - 1), lay_v1();
    steps("1113"), STATUS_IS(1, 6, 0, 0, 0, 0, 2, 0, 1, 0), as_expected();
}

static void spoilt_regions(void)  // hd_step tests each region that counts, and no other
{
    for (size_t k = 0; k < MOST_REGIONS; k++)
        for (size_t n = MOST_REGIONS - 1; n <= MOST_REGIONS; n++) {
            in_32_regions("a region's length is 0, then 2^64 - 1", 3, n), poke(AVAIL + 2, 2, 0), state[MAP + 3 * k + 1] = 0;
            same("hd_step", k < n ? 4 : 0, step()), state[MAP + 3 * k + 1] = TOP, same("hd_step", k < n ? 4 : 0, step()), as_expected();
        }
    for (uint64_t n = MOST_REGIONS - 1; n <= MOST_REGIONS + 1; n++) {
        in_32_regions("31, 32 and 33 regions in the state", 3, MOST_REGIONS), poke(AVAIL + 2, 2, 0), state[REGION_COUNT] = n;
        same("hd_step", n <= MOST_REGIONS ? 0 : 4, step()), as_expected();
    }
}

// ---- queues

static uint64_t enable_wide(size_t q) { return hd_enable(state, words, q, W_DESC, W_AVAIL, W_USED, chain_words, STAGE); }
static size_t nth(size_t q, size_t i) { return (341 * i + 3) % q; }  // the descriptor that is number i of its chain, from 0 on

static void describe_wide(size_t i, uint64_t addr, size_t len, unsigned flags, size_t next)
{
    poke(W_D(i), 8, addr), poke(W_D(i) + 8, 4, len), poke(W_D(i) + 12, 2, flags), poke(W_D(i) + 14, 2, next);
}

// Piece i of n of the payload: where it begins in the payload, and in memory.
static size_t border(size_t i, size_t n) { return PAYLOAD * i / n; }
static uint64_t place_of(size_t i, size_t n) { return W_DATA + i * 7919 % n * (PAYLOAD / n + 1); }
static uint8_t payload_byte(size_t i) { return (uint8_t)(i * 29 + i / 256 + 3); }

// 16 r, q - 2 pieces of 63 sectors, 1 w; from sector 1 on. The last descriptor's next is the head.
static void lay_long(size_t q, uint64_t type)
{
    const size_t n = q - 2;
    poke(W_HEADER, 8, type), poke(W_HEADER + 8, 8, 1), poke(W_AVAIL + 2, 2, 1), poke(W_AVAIL + 4, 2, nth(q, 0)), poke(W_USED + 2, 2, 0);
    describe_wide(nth(q, 0), W_HEADER, 16, 1, nth(q, 1)), describe_wide(nth(q, q - 1), W_STATUS, 1, 2, nth(q, 0));
    for (size_t i = 0; i < n; i++) {
        describe_wide(nth(q, i + 1), place_of(i, n), border(i + 1, n) - border(i, n), type == 0 ? 3 : 1, nth(q, i + 2));
        for (size_t k = border(i, n); type == 1 && k < border(i + 1, n); k++) poke(place_of(i, n) + k - border(i, n), 1, payload_byte(k));
    }
}

static void begin_wide(const char *name, size_t q)  // a state that is longer than it must be; what lies behind stays
{
    blank(name), memset(state + words - BEHIND, 0xe5, 8 * BEHIND), keep();
    same("hd_memory", 0, memory((uint64_t[]){GUEST, MEM, 0}, 3)), same("hd_disk", 0, disk(0)), same("hd_enable", 0, enable_wide(q));
    same_bytes("the words behind the state", before + words - BEHIND, state + words - BEHIND, 8 * BEHIND);
}

// A step's own words are the same, however long the queue is.
static void wide_step(uint64_t answer)
{
    keep(), same("hd_step", answer, step());
    same_bytes("words of set-up", before, state, 8 * STEP_FIRST);
    same_bytes("the map, and the words behind the state", before + STEP_END, state + STEP_END, 8 * (words - STEP_END));
}

// What hd_status says after step i of a long request, from 0 on.
static void long_status(size_t q, uint64_t type, size_t i)
{
    const size_t n = q - 2, s5 = type == 1 ? n : 0, head = nth(q, 0);
    const uint64_t fetched = i < 2 ? 0 : i < q + 2 ? i - 1 : q, last = i > q ? q : 0;
    const uint64_t bytes = i < q + 2 ? 0 : 16 + (type == 1 ? border(i - q - 2 < n ? i - q - 2 : n, n) : 0);
    const uint64_t next = i == 0 ? 2 : i <= q ? 3 : i == q + 1 ? 4 : i < q + 2 + s5 ? 5 : i == q + 2 + s5 ? 6 : 7;
    if (i == q + 4 + s5) STATUS_IS(1, 0, 1, 1, 1, 0, 0, 0, NONE, q);
    else STATUS_IS(1, 0, 0, 0, next, i ? head : 0, fetched, bytes, NONE, last);
}

static void long_request(const char *name, size_t q, uint64_t type)
{
    const size_t n = q - 2, count = q + 5 + (type == 1 ? n : 0);
    begin_wide(name, q), lay_long(q, type);
    for (size_t i = 0; i < count; i++) {
        for (size_t k = 0; type == 1 && i == count - 3 && k < PAYLOAD; k++) want_backing[START + 512 + k] = payload_byte(k);  // the last S5
        for (size_t k = 0; type == 0 && i == count - 2 && k < n; k++)                                                    // S6
            expect_bytes(place_of(k, n), want_backing + START + 512 + border(k, n), border(k + 1, n) - border(k, n));
        if (i == count - 2) expect(W_STATUS, 1, 0), expect(W_USED + 4, 4, nth(q, 0)), expect(W_USED + 8, 4, type == 0 ? PAYLOAD + 1 : 1);
        if (i == count - 1) expect(W_USED + 2, 2, 1);                                                                    // S7
        wide_step(i == count - 1 ? 2 : 1);
        if (i % 32 == 0 || i + 4 > count || i - q < 4) long_status(q, type, i), as_expected();  // a byte that is wrong stays wrong
    }
    wide_step(0);
}

// The last descriptor goes on to the head: as it was, or with a head that has become a chain's last. Either is number q + 1.
static void too_long(const char *name, size_t q, int ends)
{
    begin_wide(name, q), lay_long(q, 0), poke(W_D(nth(q, q - 1)) + 12, 2, 3);
    for (size_t i = 0; i < q + 2; i++) {
        if (i == 3 && ends) describe_wide(nth(q, 0), W_STATUS, 1, 2, 0);
        wide_step(1);
    }
    for (int again = 0; again < 2; again++) wide_step(3), STATUS_IS(1, 3, 0, 0, 0, nth(q, 0), q + 1, 0, nth(q, 0), 0), as_expected();
}

static const struct { const char *row; uint64_t reason, fetched, at; struct poke pokes[2]; } wide_rows[] = {  // of a queue of 1,024
    {"1,024 are pending", 0, 0, NONE, {{W_AVAIL + 2, 2, 1024}}},
    {"1: 1,025 are pending", 1, 0, NONE, {{W_AVAIL + 2, 2, 1025}}},
    {"entry 1,023", 0, 0, NONE, {{W_AVAIL + 4, 2, 1023}}},
    {"2: entry 1,024", 2, 0, NONE, {{W_AVAIL + 4, 2, 1024}}},
    {"next 1,023", 0, 1, NONE, {{W_D(3) + 14, 2, 1023}}},
    {"2: next 1,024", 2, 1, 3, {{W_D(3) + 14, 2, 1024}}},
};

static void wide_edges(void)
{
    for (size_t i = 0; i < COUNT(wide_rows); i++) {
        const uint64_t reason = wide_rows[i].reason, fetched = wide_rows[i].fetched;
        begin_wide(wide_rows[i].row, LONGEST), lay_long(LONGEST, 0), poke_all(wide_rows[i].pokes);
        for (uint64_t k = 0; k < (reason == 1 ? 0 : 1 + fetched); k++) wide_step(1);
        wide_step(reason ? 3 : 1), as_expected();
        if (reason) STATUS_IS(1, reason, 0, 0, 0, fetched ? 3 : 0, fetched, 0, wide_rows[i].at, 0);
    }
}

static const struct { const char *row; unsigned word; uint64_t value; int is_state; } wide_spoilt[] = {  // of a broken queue of 1,024
    {"broken, 1,025 descriptors fetched", 20, 1025, 1},
    {"broken, 1,026 descriptors fetched", 20, 1026, 0},
    {"broken, at descriptor 1,023", 25, 1023, 1},
    {"broken, at descriptor 1,024", 25, 1024, 0},
    {"broken, a last chain of 1,024", 28, 1024, 1},
    {"broken, a last chain of 1,025", 28, 1025, 0},
    {"a queue of 2,048", QUEUE_SIZE, 2048, 0},
    {"a queue of 1,025", QUEUE_SIZE, 1025, 0},
    {"chain memory of 2,047 words", CHAIN_LENT, 2047, 0},
    {"chain memory of 512 words", CHAIN_LENT, 512, 0},
};

static void queue_limits(void)
{
    static const char *const sizes[] = {"a queue of 256", "a queue of 512", "a queue of 1,024"};
    for (uint64_t q = 0; q <= 5000; q++) row = "sizes", same("hd_chain_words", q && q <= LONGEST && !(q & (q - 1)) ? 2 * q : 0, hd_chain_words(q));
    for (size_t q = 1; q <= LONGEST; q *= 2) {  // what is lent for the chain: all of it, or a word too little
        begin_wide("chain memory of each size", q), same("hd_reset", 0, hd_reset(state, words)), keep();
        answers("hd_enable, a word too little", 42, hd_enable(state, words, q, W_DESC, W_AVAIL, W_USED, 2 * q - 1, STAGE));
        answers("hd_enable", 0, hd_enable(state, words, q, W_DESC, W_AVAIL, W_USED, 2 * q, STAGE)), STATUS_IS(1, 0, 0, 0, 1, 0, 0, 0, NONE, 0);
        same_bytes("the map, and the words behind the state", before + STEP_END, state + STEP_END, 8 * (words - STEP_END));
    }
    for (size_t i = 0; i < COUNT(sizes); i++) {
        const size_t q = (size_t)256 << i;
        long_request(sizes[i], q, 0), long_request(sizes[i], q, 1), too_long(sizes[i], q, 0), too_long(sizes[i], q, 1);
    }
    wide_edges();
    for (size_t i = 0; i < COUNT(wide_spoilt); i++) {
        begin_wide(wide_spoilt[i].row, LONGEST), lay_long(LONGEST, 0), poke(W_D(nth(LONGEST, 1)) + 8, 4, 0);
        wide_step(1), wide_step(1), wide_step(1), wide_step(3);
        state[wide_spoilt[i].word] = wide_spoilt[i].value, wide_step(wide_spoilt[i].is_state ? 3 : 4), as_expected();
    }
}

static void group_limits(void)
{
    void *const usual_state = lent[OF_STATE], *const usual_chain = lent[OF_CHAIN];
    const size_t usual_words = words, usual_chain_words = chain_words;
    memory_limits(), every_region_hit(), spoilt_regions();
    words += BEHIND, chain_words = 2 * LONGEST, size[OF_STATE] = 8 * words, size[OF_CHAIN] = 8 * chain_words;
    lent[OF_STATE] = lend(size[OF_STATE]), lent[OF_CHAIN] = lend(size[OF_CHAIN]);
    queue_limits();
    words = usual_words, chain_words = usual_chain_words, size[OF_STATE] = 8 * words, size[OF_CHAIN] = 8 * chain_words;
    lent[OF_STATE] = usual_state, lent[OF_CHAIN] = usual_chain;
}
