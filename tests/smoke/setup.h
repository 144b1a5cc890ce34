// The answers of set-up, each once and in their order, and what becomes of a state: too short, of zeros, reset, broken.
// Part of smoke.c.

static const struct { const char *row; uint64_t want; size_t words; uint64_t list[99]; } maps[] = {
    {"20: no region", 20, 0, {0}},
    {"20: 33 regions", 20, 99, {0}},
    {"20: four words", 20, 4, {GUEST, MEM, 0, GUEST}},
    {"eight regions", 0, 24, {0, 1, 0, 1, 1, 0, 2, 1, 0, 3, 1, 0, 4, 1, 0, 5, 1, 0, 6, 1, 0, 7, 1, 0}},
    {"nine regions", 0, 27, {0, 1, 0, 1, 1, 0, 2, 1, 0, 3, 1, 0, 4, 1, 0, 5, 1, 0, 6, 1, 0, 7, 1, 0, 8, 1, 0}},
    {"21: length 0", 21, 3, {GUEST, 0, 0}},
    {"22: a byte too far", 22, 3, {GUEST, MEM, 1}},
    {"22: a sum that wraps", 22, 3, {GUEST, MEM, TOP}},
    {"23: up to 2^64", 23, 3, {TOP - MEM + 1, MEM, 0}},
    {"up to 2^64 - 1", 0, 3, {TOP - MEM, MEM, 0}},
    {"24: by a byte", 24, 6, {GUEST, 9, 0, GUEST + 8, 9, 9}},
    {"24: a later one below", 24, 6, {GUEST, 9, 0, GUEST - 8, 9, 9}},
    {"adjoining, on the same slice bytes", 0, 6, {GUEST, 9, 0, GUEST + 9, 9, 0}},
    {"order: 20, 21", 20, 4, {GUEST, 0, 0, 0}},
    {"order: 21, 22", 21, 3, {GUEST, 0, TOP}},
    {"order: 22, 23", 22, 3, {TOP, MEM, 1}},
    {"order: 23, 24", 23, 6, {TOP - 9, 9, 0, TOP - 9, 99, 0}},
    {"order: regions in order", 24, 9, {GUEST, 9, 0, GUEST, 9, 0, GUEST, 0, 0}},
};
static const struct { const char *row; uint64_t want, start, sectors; size_t id_len; uint64_t backing_len; } disks[] = {
    {"44: 19 bytes", 44, START, SECTORS, 19, BACKING},
    {"44: 21 bytes", 44, START, SECTORS, 21, BACKING},
    {"44: none", 44, START, SECTORS, 0, BACKING},
    {"29: no sector", 29, START, 0, 20, BACKING},
    {"29: 2^32 + 1", 29, 0, (1ull << 32) + 1, 20, TOP},
    {"2^32 sectors", 0, 9, 1ull << 32, 20, (1ull << 41) + 9},
    {"30: by a byte", 30, START, SECTORS, 20, START + DISK - 1},
    {"to the last byte", 0, START, SECTORS, 20, START + DISK},
    {"30: a sum that wraps", 30, TOP - 511, 1, 20, BACKING},
    {"order: 44, 29", 44, TOP, 0, 19, 0},
    {"order: 29, 30", 29, TOP, 0, 20, 0},
};
static const struct { const char *row; uint64_t want, size, desc, avail, used, chain_lacks, stage_lacks, start; } queues[] = {
    {"25: size 0", 25, 0, DESC, AVAIL, USED, 0, 0, 0},
    {"25: size 3", 25, 3, DESC, AVAIL, USED, 0, 0, 0},
    {"25: size 1,023", 25, 1023, W_DESC, W_AVAIL, W_USED, 0, 0, 0},
    {"25: size 2,048", 25, 2048, GUEST, 0x8000d000, 0x80008000, 0, 0, 0},
    {"size 1", 0, 1, DESC, AVAIL, USED, 0, 0, 0},
    {"size 256", 0, 256, DESC, AVAIL, USED, 0, 0, 65535},
    {"size 512", 0, 512, W_DESC, W_AVAIL, W_USED, 0, 0, 65535},
    {"size 1,024", 0, 1024, W_DESC, W_AVAIL, W_USED, 0, 0, 65535},
    {"27: 1,024 descriptors", 27, 1024, 0x8000c010, GUEST, GUEST + 0x1000, 0, 0, 0},
    {"1,024 descriptors at the end", 0, 1024, 0x8000c000, GUEST, GUEST + 0x1000, 0, 0, 0},
    {"27: available, of 1,024", 27, 1024, W_DESC, 0x8000f7fc, W_USED, 0, 0, 0},
    {"available, of 1,024, at the end", 0, 1024, W_DESC, 0x8000f7fa, W_USED, 0, 0, 0},
    {"27: used, of 1,024", 27, 1024, W_DESC, W_AVAIL, 0x8000dffc, 0, 0, 0},
    {"used, of 1,024, at the end", 0, 1024, W_DESC, W_AVAIL, 0x8000dff8, 0, 0, 0},
    {"28: used on the end of 1,024 descriptors", 28, 1024, W_DESC, 0x8000f000, W_DESC + 16380, 0, 0, 0},
    {"used behind 1,024 descriptors", 0, 1024, W_DESC, 0x8000f000, W_DESC + 16384, 0, 0, 0},
    {"26: descriptors", 26, Q, DESC + 8, AVAIL, USED, 0, 0, 0},
    {"26: available", 26, Q, DESC, AVAIL + 1, USED, 0, 0, 0},
    {"26: used", 26, Q, DESC, AVAIL, USED + 2, 0, 0, 0},
    {"27: descriptors", 27, Q, 0x8000ff90, AVAIL, USED, 0, 0, 0},
    {"descriptors at the end", 0, Q, 0x8000ff80, AVAIL, USED, 0, 0, 0},
    {"27: available", 27, Q, DESC, 0x8000ffec, USED, 0, 0, 0},
    {"available at the end", 0, Q, DESC, 0x8000ffea, USED, 0, 0, 0},
    {"27: used", 27, Q, DESC, AVAIL, 0x8000ffbc, 0, 0, 0},
    {"used at the end", 0, Q, DESC, AVAIL, 0x8000ffb8, 0, 0, 0},
    {"27: before the region", 27, Q, GUEST - 16, AVAIL, USED, 0, 0, 0},
    {"27: a sum that wraps", 27, Q, TOP - 15, AVAIL, USED, 0, 0, 0},
    {"28: used on available's end", 28, Q, DESC, AVAIL, AVAIL + 20, 0, 0, 0},
    {"used behind available", 0, Q, DESC, AVAIL, AVAIL + 24, 0, 0, 0},
    {"28: available on used's end", 28, Q, DESC, USED + 68, USED, 0, 0, 0},
    {"available behind used", 0, Q, DESC, USED + 70, USED, 0, 0, 0},
    {"28: used on the descriptors' end", 28, Q, DESC, AVAIL, DESC + 124, 0, 0, 0},
    {"used behind the descriptors", 0, Q, DESC, AVAIL, DESC + 128, 0, 0, 0},
    {"28: descriptors on used's end", 28, Q, USED + 64, AVAIL, USED, 0, 0, 0},
    {"available inside the descriptors", 0, Q, DESC, DESC + 2, USED, 0, 0, 0},
    {"42", 42, Q, DESC, AVAIL, USED, 1, 0, 0},
    {"42: of 1,024", 42, 1024, W_DESC, W_AVAIL, W_USED, 1, 0, 0},
    {"42: of 1,024, as much as 256 need", 42, 1024, W_DESC, W_AVAIL, W_USED, 1536, 0, 0},
    {"43", 43, Q, DESC, AVAIL, USED, 0, 1, 0},
    {"46", 46, Q, DESC, AVAIL, USED, 0, 0, 65536},
    {"order: 25, 26", 25, 3, DESC + 8, AVAIL, USED, 0, 0, 0},
    {"order: 26, 27", 26, Q, GUEST - 8, AVAIL, USED, 0, 0, 0},
    {"order: 27, 28", 27, Q, DESC, GUEST - 16, GUEST - 16, 0, 0, 0},
    {"order: 28, 42", 28, Q, DESC, AVAIL, AVAIL, 1, 0, 0},
    {"order: 42, 43", 42, Q, DESC, AVAIL, USED, 1, STAGE, 0},
    {"order: 43, 46", 43, Q, DESC, AVAIL, USED, 0, STAGE, TOP},
};

static uint64_t *before;  // the state before a call: "a refusal changes nothing"
static void keep(void) { memcpy(before, state, 8 * words); }
static void answers(const char *what, uint64_t want, uint64_t got)
{
    same(what, want, got);
    if (want) same_bytes("state after a refusal", before, state, 8 * words);
}

static void group_set_up(void)
{
    row = "sizes", same("hd_stage_bytes", STAGE, hd_stage_bytes());
    for (size_t i = 0; i < COUNT(maps); i++) {
        begin(maps[i].row), keep();
        answers("hd_memory", maps[i].want, memory(maps[i].list, maps[i].words));
        if (maps[i].want) continue;
        status_is(zeros), keep();  // the disk and the queue are forgotten
        answers("hd_step", 4, step()), answers("hd_enable", 41, enable());
    }
    for (size_t i = 0; i < COUNT(disks); i++) {
        set_up(disks[i].row, 0), keep();
        const size_t n = disks[i].id_len;
        answers("hd_disk", disks[i].want,
                hd_disk(state, words, disks[i].start, disks[i].sectors, 0, n == 20 ? id : id_of[n], n, disks[i].backing_len));
    }
    for (size_t i = 0; i < 2 * COUNT(queues); i++) {
        const size_t k = i / 2, n = hd_chain_words(queues[k].size) - queues[k].chain_lacks, m = STAGE - queues[k].stage_lacks;
        const uint64_t a = queues[k].size, d = queues[k].desc, v = queues[k].avail, u = queues[k].used, s = i % 2 ? queues[k].start : 0;
        set_up(queues[k].row, 0), keep();
        if (i % 2) answers("hd_enable_at", queues[k].want, hd_enable_at(state, words, a, d, v, u, n, m, s));
        else if (queues[k].want != 46) answers("hd_enable", queues[k].want, hd_enable(state, words, a, d, v, u, n, m));
        if (queues[k].want == 0) STATUS_IS(1, 0, s, s, 1, 0, 0, 0, NONE, 0);
        as_expected();
    }
    set_up("27: an area that spans two adjoining regions", 0);
    same("hd_memory", 0, memory((uint64_t[]){GUEST, 0x3010, 0, GUEST + 0x3010, 0x3010, 0x3010}, 6)), same("hd_disk", 0, disk(0)), keep();
    answers("hd_enable", 27, enable());
}

static void group_state(void)
{
    blank("40: state too short");
    same("hd_memory, no region", 40, hd_memory(scant, words - 1, list[0], 0, MEM));
    same("hd_disk, 19 bytes", 40, hd_disk(scant, words - 1, TOP, 0, 0, id_of[19], 19, 0));
    same("hd_enable, size 0", 40, hd_enable(scant, words - 1, 0, 1, 1, 1, 0, 0));
    same("hd_enable_at, size 0", 40, hd_enable_at(scant, words - 1, 0, 1, 1, 1, 0, 0, TOP));
    same("hd_reset", 40, hd_reset(scant, words - 1));
    same("hd_status, out too short", 40, hd_status(scant, words - 1, out_of[7], 7));
    same("hd_step", 4, hd_step(scant, words - 1, mem, MEM, backing, BACKING, chain, chain_words, stage, STAGE));
    blank("a state of zeros"), keep();
    answers("hd_step", 4, step()), answers("hd_step, no slices", 4, hd_step(state, words, mem, 0, backing, 0, chain, 0, stage, 0));
    answers("hd_disk", 41, disk(0)), answers("hd_disk, 19 bytes", 41, hd_disk(state, words, TOP, 0, 0, id_of[19], 19, 0));
    answers("hd_enable", 41, enable()), answers("hd_enable, size 0", 41, hd_enable(state, words, 0, 1, 1, 1, 0, 0)), status_is(zeros);
    answers("hd_status, out too short", 45, hd_status(state, words, out_of[7], 7));
    same("hd_reset", 0, hd_reset(state, words)), status_is(zeros), same("hd_step after hd_reset", 4, step()), as_expected();

    blank("41: no disk yet"), same("hd_memory", 0, memory((uint64_t[]){GUEST, MEM, 0}, 3)), keep();
    answers("hd_enable", 41, enable()), status_is(zeros);
    begin("41: enabled already"), keep(), answers("hd_disk", 41, disk(0)), answers("hd_enable", 41, enable()), v1(0);
    set_up("a second hd_disk replaces the first", 1);  // by the last sector of the backing slice
    same("hd_disk", 0, hd_disk(state, words, BACKING - 512, 1, 0, id, 20, BACKING)), same("hd_enable", 0, enable());
    lay_v1(), poke(HEADER + 8, 1, 0);
    expect_bytes(DATA, want_backing + BACKING - 512, 512), expect(STATUS, 1, 0), expect_used(0, 0, 513, 1), steps("111111120"), as_expected();

    for (int n = 0; n <= 8; n++) {  // a reset after n steps of V1, and everything anew
        begin("hd_reset, then enabled anew"), lay_v1();
        for (int i = 0; i < n; i++) steps(i == 7 ? "2" : "1");
        memcpy(want_mem, mem, MEM);
        same("hd_reset", 0, hd_reset(state, words)), status_is(zeros), steps("4");
        same("hd_reset again", 0, hd_reset(state, words)), as_expected();
        same("hd_disk", 0, disk(0)), same("hd_enable", 0, enable()), v1(0);
    }
    begin("hd_reset of a broken queue"), lay_joined(), poke(AVAIL + 2, 2, 9), steps("33");
    same("hd_reset", 0, hd_reset(state, words)), status_is(zeros), same("hd_enable", 0, enable()), v1(0);

    begin("a slice shorter than set-up was told"), lay_v1();
    for (int i = 0; i < 8; i++) {  // before each step of V1
        keep();
        answers("hd_step, mem", 4, hd_step(state, words, mem, MEM - 1, backing, BACKING, chain, chain_words, stage, STAGE));
        answers("hd_step, backing", 4, hd_step(state, words, mem, MEM, backing, BACKING - 1, chain, chain_words, stage, STAGE));
        answers("hd_step, chain", 4, hd_step(state, words, mem, MEM, backing, BACKING, chain, chain_words - 1, stage, STAGE));
        answers("hd_step, stage", 4, hd_step(state, words, mem, MEM, backing, BACKING, chain, chain_words, stage, STAGE - 1));
        as_expected();
        if (i == 6) expect_bytes(DATA, sector3, 512), expect(STATUS, 1, 0), expect_used(0, 0, 513, 0);
        if (i == 7) expect(USED + 2, 2, 1);
        steps(i == 7 ? "2" : "1"), as_expected();
    }
}

// ---- state words that no step makes (their places: crates/words/specs/Layout.antt)

enum { STATE_WORDS = 125, FETCHED = 20, BROKEN_AT = 25, LAST_CHAIN = 28 };

static const struct { const char *row; int is_state; unsigned word; uint64_t value; } spoilt[] = {  // of a queue of 8
    {"broken, at descriptor 7", 1, BROKEN_AT, 7},
    {"broken, at descriptor 8 of 8", 0, BROKEN_AT, 8},
    {"broken, at none, though descriptors were fetched", 0, BROKEN_AT, NONE},
    {"broken, at 2^64 - 1", 0, BROKEN_AT, TOP},
    {"broken, at a descriptor, though none was fetched", 0, FETCHED, 0},
    {"broken, nine descriptors fetched", 1, FETCHED, 9},
    {"broken, a last chain of 8", 1, LAST_CHAIN, 8},
    {"broken, a last chain of 9", 0, LAST_CHAIN, 9},
};

static void is_state(int so, uint64_t answer, const uint64_t *want)
{
    keep(), same("hd_step", so ? answer : 4, step()), status_is(so ? want : zeros);
    if (!so || answer == 3) same_bytes("state", before, state, 8 * words);
    as_expected();
}

static void group_spoilt(void)
{
    row = "sizes", same("hd_state_words", STATE_WORDS, words);
    if (words != STATE_WORDS) return;
    for (size_t i = 0; i < COUNT(spoilt); i++) {
        begin(spoilt[i].row), lay_scattered(), poke(D(5) + 8, 4, 0), steps("11113"), STATUS_IS(1, 5, 0, 0, 0, 6, 3, 0, 5, 0);
        const unsigned word = spoilt[i].word;
        uint64_t want[HD_STATUS_WORDS];
        memcpy(want, out, sizeof want), state[word] = spoilt[i].value;
        want[word == FETCHED ? HD_STATUS_DESCRIPTORS : word == BROKEN_AT ? HD_STATUS_BROKEN_AT : HD_STATUS_LAST_CHAIN] = spoilt[i].value;
        is_state(spoilt[i].is_state, 3, want);
    }
    for (uint64_t at = 0; at <= NONE; at += at == 8 ? NONE - 8 : 1) {  // reason 1: no descriptor was fetched
        begin("broken, idx 9, at some descriptor"), lay_v1(), poke(AVAIL + 2, 2, 9), steps("3"), state[BROKEN_AT] = at;
        is_state(at == NONE, 3, (const uint64_t[HD_STATUS_WORDS]){1, 1, 0, 0, 0, 0, 0, 0, NONE, 0});
    }
    for (uint64_t n = 0; n <= 9; n++) {  // before S1 too, where there is nothing to do
        begin("in order, some last chain"), poke(AVAIL + 2, 2, 0), state[LAST_CHAIN] = n;
        is_state(n <= 8, 0, (const uint64_t[HD_STATUS_WORDS]){1, 0, 0, 0, 1, 0, 0, 0, NONE, n});
    }
    begin("in order, a last chain of 2^64 - 1"), state[LAST_CHAIN] = TOP, is_state(0, 0, zeros);
    same("hd_enable", 41, enable()), same("hd_disk", 41, disk(0)), same("hd_reset", 0, hd_reset(state, words)), status_is(zeros);
}
