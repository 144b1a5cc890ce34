// Where a queue broke, as hd_status has it and in words, and how long the last chain was. Part of smoke.c.
#include "hostiledisk_text.h"

// V1 once more; descriptors 6, 2 and 5 are the chain, so no number in the table is the place in the chain.
static void lay_scattered(void)
{
    lay_v1(), poke(AVAIL + 4, 2, 6);
    describe(6, HEADER, 16, 1, 2), describe(2, DATA, 512, 3, 5), describe(5, STATUS, 1, 2, 0);
}

static const struct { const char *row; uint64_t reason, fetched, at, last; struct poke pokes[6]; const char *text; } scattered[] = {
    {"idx 9", 1, 0, NONE, 0, {{AVAIL + 2, 2, 9}}, "reason 1, available idx too far ahead"},
    {"entry 65,535", 2, 0, NONE, 0, {{AVAIL + 4, 2, 65535}}, "reason 2, index past the table, in the available ring"},
    {"the head's next is 8", 2, 1, 6, 0, {{D(6) + 14, 2, 8}}, "reason 2, index past the table, at descriptor 6, the 1st of its chain"},
    {"the last one has NEXT and next 65,535", 2, 3, 5, 0, {{D(5) + 12, 2, 3}, {D(5) + 14, 2, 65535}},
        "reason 2, index past the table, at descriptor 5, the 3rd of its chain"},
    {"the last goes on to the middle one: 6, then four times 2 and 5", 3, 9, 5, 0, {{D(5) + 12, 2, 3}, {D(5) + 14, 2, 2}},
        "reason 3, chain longer than the queue, at descriptor 5, the 9th of its chain"},
    {"the last goes on to 3, which goes on to itself", 3, 9, 3, 0,
        {{D(5) + 12, 2, 3}, {D(5) + 14, 2, 3}, {D(3), 8, DATA}, {D(3) + 8, 4, 1}, {D(3) + 12, 2, 3}, {D(3) + 14, 2, 3}},
        "reason 3, chain longer than the queue, at descriptor 3, the 9th of its chain"},
    {"the middle one has flag 4", 4, 2, 2, 0, {{D(2) + 12, 2, 7}}, "reason 4, flag not negotiated, at descriptor 2, the 2nd of its chain"},
    {"the last has len 0", 5, 3, 5, 0, {{D(5) + 8, 4, 0}}, "reason 5, buffer of length 0, at descriptor 5, the 3rd of its chain"},
    {"the head's buffer is nowhere", 6, 1, 6, 0, {{D(6), 8, TOP}}, "reason 6, buffer not in memory, at descriptor 6, the 1st of its chain"},
    {"the last is readable", 7, 3, 5, 0, {{D(5) + 12, 2, 0}},
        "reason 7, readable buffer after a writable one, at descriptor 5, the 3rd of its chain"},
    {"all are readable", 8, 3, 5, 3, {{D(2) + 12, 2, 1}, {D(5) + 12, 2, 0}},
        "reason 8, no writable buffer, at descriptor 5, the 3rd of its chain"},
    {"the middle one is readable and the last", 8, 2, 2, 2, {{D(2) + 12, 2, 0}},
        "reason 8, no writable buffer, at descriptor 2, the 2nd of its chain"},
};

static void text_is(const char *want, const uint64_t *status)
{
    char text[HD_BROKEN_TEXT_BYTES];
    memset(text, 'x', sizeof text), hd_broken_text(text, sizeof text, status);
    checks++;
    if (memchr(text, 0, sizeof text) && strcmp(want, text) == 0) return;
    failed++;
    printf("FAILED %s: in words: expected \"%s\", got \"%.*s\"\n", row, want, (int)sizeof text, text);
}

static void broken_text_is(const char *want, const uint64_t *status)
{
    char whole[HD_BROKEN_TEXT_BYTES];
    snprintf(whole, sizeof whole, "queue broken: %s", want), text_is(whole, status);
}

static void text_is_cut(void)  // to as many bytes as there are, the last one 0
{
    static const uint64_t status[HD_STATUS_WORDS] = {1, 6, 0, 0, 0, 0, 3, 0, 17, 0};
    static const char whole[] = "queue broken: reason 6, buffer not in memory, at descriptor 17, the 3rd of its chain";
    for (size_t n = 0; n <= sizeof whole + 1; n++) {
        char text[sizeof whole + 2], want[sizeof text];
        const size_t kept = n <= sizeof whole ? n : sizeof whole;
        memset(text, 'x', sizeof text), memset(want, 'x', sizeof want), memcpy(want, whole, kept);
        if (kept) want[kept - 1] = 0;
        hd_broken_text(text, n, status), same_bytes("in words, cut", want, text, sizeof text);
    }
}

static void ordinals(void)
{
    static const struct { uint64_t n; const char *ending; } rows[] = {
        {1, "st"}, {2, "nd"}, {3, "rd"}, {4, "th"}, {9, "th"}, {10, "th"}, {11, "th"}, {12, "th"}, {13, "th"}, {14, "th"}, {20, "th"},
        {21, "st"}, {22, "nd"}, {23, "rd"}, {24, "th"}, {100, "th"}, {101, "st"}, {102, "nd"}, {103, "rd"}, {111, "th"}, {112, "th"},
        {113, "th"}, {121, "st"}, {211, "th"}, {212, "th"}, {213, "th"}, {222, "nd"}, {253, "rd"}, {256, "th"}, {257, "th"},
        {1001, "st"}, {1012, "th"}, {1023, "rd"}, {1024, "th"}, {1025, "th"}};
    for (size_t i = 0; i < COUNT(rows); i++) {
        const uint64_t status[HD_STATUS_WORDS] = {1, 3, 0, 0, 0, 0, rows[i].n, 0, 255, 0};
        char want[HD_BROKEN_TEXT_BYTES];
        snprintf(want, sizeof want, "reason 3, chain longer than the queue, at descriptor 255, the %u%s of its chain",
                 (unsigned)rows[i].n, rows[i].ending);
        broken_text_is(want, status);
    }
}

static void last_chains(void)  // the number changes in the S3 that completes a chain, and stays until the next one is complete
{
    begin("the last chain: of 3, of 2, then one that is refused"), lay_scattered(), poke(AVAIL + 2, 2, 3);
    poke(AVAIL + 6, 2, 0), describe(0, HEADER, 16, 1, 7), describe(7, DATA, 513, 2, 0);
    poke(AVAIL + 8, 2, 3), describe(3, HEADER, 16, 1, 1), poke(D(1) + 8, 4, 0);
    static const struct at at[] = {
        {1, {1, 0, 0, 0, 2, 0, 0, 0, NONE, 0}}, {1, {1, 0, 0, 0, 3, 6, 0, 0, NONE, 0}}, {1, {1, 0, 0, 0, 3, 6, 1, 0, NONE, 0}},
        {1, {1, 0, 0, 0, 3, 6, 2, 0, NONE, 0}}, {1, {1, 0, 0, 0, 4, 6, 3, 0, NONE, 3}}, {1, {1, 0, 0, 0, 6, 6, 3, 16, NONE, 3}},
        {1, {1, 0, 0, 0, 7, 6, 3, 16, NONE, 3}}, {2, {1, 0, 1, 1, 1, 0, 0, 0, NONE, 3}},
        {1, {1, 0, 1, 1, 2, 0, 0, 0, NONE, 3}}, {1, {1, 0, 1, 1, 3, 0, 0, 0, NONE, 3}}, {1, {1, 0, 1, 1, 3, 0, 1, 0, NONE, 3}},
        {1, {1, 0, 1, 1, 4, 0, 2, 0, NONE, 2}}, {1, {1, 0, 1, 1, 6, 0, 2, 16, NONE, 2}}, {1, {1, 0, 1, 1, 7, 0, 2, 16, NONE, 2}},
        {2, {1, 0, 2, 2, 1, 0, 0, 0, NONE, 2}},
        {1, {1, 0, 2, 2, 2, 0, 0, 0, NONE, 2}}, {1, {1, 0, 2, 2, 3, 3, 0, 0, NONE, 2}}, {1, {1, 0, 2, 2, 3, 3, 1, 0, NONE, 2}},
        {3, {1, 5, 2, 2, 0, 3, 2, 0, 1, 2}}, {3, {1, 5, 2, 2, 0, 3, 2, 0, 1, 2}}};
    walk(at, COUNT(at));
    same("hd_reset", 0, hd_reset(state, words)), status_is(zeros);
    same("hd_enable", 0, enable()), STATUS_IS(1, 0, 0, 0, 1, 0, 0, 0, NONE, 0), same("hd_reset", 0, hd_reset(state, words));
    same("hd_enable_at", 0, hd_enable_at(state, words, Q, DESC, AVAIL, USED, chain_words, STAGE, 7)), STATUS_IS(1, 0, 7, 7, 1, 0, 0, 0, NONE, 0);

    begin("the last chain: a chain of 8, too short a header"), lay_eight(2), poke(D(0) + 8, 4, 15);
    steps("1111111111"), STATUS_IS(1, 0, 0, 0, 6, 0, 8, 0, NONE, 8);
    poke(AVAIL + 2, 2, 11), steps("12"), STATUS_IS(1, 0, 1, 1, 1, 0, 0, 0, NONE, 8);  // what is pending now is over 8
    steps("3"), STATUS_IS(1, 1, 1, 1, 0, 0, 0, 0, NONE, 8);
}

static void group_where(void)
{
    for (size_t i = 0; i < COUNT(scattered); i++) {
        begin(scattered[i].row), lay_scattered(), poke_all(scattered[i].pokes);
        breaks(scattered[i].reason, scattered[i].fetched ? 6 : 0, scattered[i].fetched, scattered[i].at, scattered[i].last);
        broken_text_is(scattered[i].text, out);
    }
    begin("in words"), ordinals(), text_is_cut();
    STATUS_IS(1, 0, 0, 0, 1, 0, 0, 0, NONE, 0), text_is("queue in order", out);
    same("hd_reset", 0, hd_reset(state, words)), status_is(zeros), text_is("queue not enabled", out);
    broken_text_is("reason 9, unknown code", (const uint64_t[HD_STATUS_WORDS]){1, 9, 0, 0, 0, 0, 0, 0, NONE, 0});
    last_chains();
}
