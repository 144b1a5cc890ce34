// Not the guest's doing: state and chain words spoilt by a mistake of the host; and a guest that is nothing but noise.
#include <stdio.h>
#include <string.h>
#include "demo.h"

enum { SIZE = 8, NOISY_STEPS = 20000 };
enum { MOMENTS = 10, FIRST_WRITE = 8 };  // of a write in 11 steps: before its first, .. before its last; the first that writes
static uint8_t data[512];

static struct request a_write(void)  // 16 r, 200 r, 312 r, 1 w: S1, S2, four S3, S4, two S5, S6, S7
{
    struct request r = ask(OUT, 3, data);
    add(&r, HEADER, 16, false), add(&r, DATA, 200, false), add(&r, HIGH, 312, false), add(&r, STATUS, 1, true);
    return r;
}

static void expect_next(unsigned moment)  // what that step of the write leaves
{
    if (moment == 8) memcpy(world.want_image + OURS + HD_SECTOR_BYTES * 3, data, sizeof data);
    if (moment == 9) expect(STATUS, 1, 0), expect(USED + 4, 8, UINT64_C(1) << 32);
    if (moment == 10) expect(USED + 2, 2, 1);
}

static void go_to(unsigned moment)  // that many steps of the write
{
    struct request r = a_write();
    begin(SIZE, false);
    lay(&r);
    for (unsigned i = 0; i < moment; i++) step(), expect_next(i);
}

// Words that set-up and steps don't make count as nothing set up: 4, and nothing is touched.
static void whole_state(const char *name, const char *deed, void (*spoil)(void))
{
    static const uint64_t zeros[HD_STATUS_WORDS];
    struct outcome got = {.answer = HD_STEP_REFUSED};
    const char *problem = NULL;
    for (unsigned moment = 0; moment <= MOMENTS && !problem; moment++) {
        uint64_t status[HD_STATUS_WORDS];
        go_to(moment);
        spoil();
        got.answer = step();
        look(status);
        problem = got.answer != HD_STEP_REFUSED ? "expected step refused (4)" : differs();
        if (!problem && memcmp(status, zeros, sizeof zeros)) problem = "hd_status shows something of words that are no state";
    }
    show(name, deed, said(got), problem);
}

static void all_ones(void) { memset(world.state, 0xff, 8 * world.words); }
static void all_zeros(void) { memset(world.state, 0, 8 * world.words); }
static void all_noise(void) { noise((uint8_t *)world.state, 8 * world.words, 77); }

// One word spoilt: the step is refused and touches nothing, or that word didn't matter and the step is as it would have been.
static const char *one_word(uint64_t *word, unsigned moment, unsigned *refused)
{
    const uint64_t good = *word;
    keep_state();
    *word = TOP;
    uint64_t answer = step();
    *word = good;
    if (answer == HD_STEP_REFUSED) {
        ++*refused;
        return state_kept() ? differs() : "a refused step changed the state";
    }
    if (answer != (moment == MOMENTS ? HD_STEP_ANSWERED : HD_STEP_WENT_ON)) return "a spoilt word changed the answer";
    expect_next(moment);
    const char *problem = differs();
    if (moment < FIRST_WRITE) memcpy(world.state, world.kept, 8 * world.words);  // .. and the step can be done again
    else go_to(moment);
    return problem;
}

static void each_word(const char *name, const char *deed, uint64_t *words, size_t n)
{
    const char *problem = NULL;
    char answer[64];
    unsigned refused = 0, tried = 0;
    for (unsigned moment = 0; moment <= MOMENTS && !problem; moment++) {
        go_to(moment);
        for (size_t k = 0; k < n && !problem; k++, tried++) problem = one_word(words + k, moment, &refused);
    }
    if (!problem && refused == 0) problem = "nothing was refused";
    snprintf(answer, sizeof answer, "%u of %u steps refused (4)", refused, tried);
    show(name, deed, answer, problem);
}

void spoilt_words(void)
{
    title("Words of the host's own that were spoilt, before each step of a write");
    noise(data, sizeof data, 43);
    whole_state("state of ones", "every state word is 2^64 - 1", all_ones);
    whole_state("state of zeros", "every state word is 0", all_zeros);
    whole_state("state of noise", "every state word is random", all_noise);
    each_word("one state word", "each word in turn is 2^64 - 1; refused, or it does not matter", world.state, world.words);
    each_word("one chain word", "each word in turn is 2^64 - 1; refused, or it does not matter", world.chain, hd_chain_words(SIZE));
}

// A descriptor by the rules: 0 to 2 for a header, 3 to 5 for data (readable in a write), 6 and 7 for a status.
static void describe_by_rule(unsigned i, bool write, unsigned pick)
{
    if (i < 3) describe(i, HEADER, 16, NEXT, 3 + pick % 5);
    else if (i < 6) describe(i, DATA + 512 * i, 512, write ? NEXT : NEXT | WRITE, 6 + pick % 2);
    else describe(i, STATUS, 1, WRITE, 0);
}

static void describe_at_random(unsigned i, const uint64_t *dice)
{
    uint64_t at = dice[0] % 4 == 0 ? dice[1] : (dice[0] & 32 ? LOW : HIGH) + dice[1] % (HIGH_BYTES + 600);
    uint64_t len = dice[2] % 4 ? dice[3] % 1100 : dice[3], flags = dice[2] & 64 ? dice[4] % 4 : dice[4];
    describe(i, at, (uint32_t)len, (unsigned)flags, (unsigned)dice[5] % (SIZE + 1));
}

// Rings, descriptors and header, new before each step: most numbers near the rules, so that steps get far, the others random.
static void scribble(uint64_t i)
{
    static const uint32_t types[] = {IN, FLUSH, GET_ID, 2};
    const bool write = i / 16 % 2;
    uint64_t dice[6];
    for (unsigned k = 0; k < SIZE; k++) {
        noise((uint8_t *)dice, sizeof dice, i * SIZE + k);
        if (dice[5] % 16) describe_by_rule(k, write, (unsigned)dice[4]);
        else describe_at_random(k, dice);
        poke(AVAIL + 4 + 2 * k, 2, dice[1] % (dice[2] % 16 ? 3 : SIZE + 1));
    }
    poke(HEADER, 4, write ? OUT : types[dice[0] % COUNT(types)]);
    poke(HEADER + 8, 8, dice[1] % 4 ? dice[2] % (SECTORS + 2) : dice[2]);
}

static const char *noisy_step(uint64_t i, unsigned *answers)
{
    uint64_t status[HD_STATUS_WORDS];
    look(status);
    scribble(i);
    poke(AVAIL + 2, 2, status[HD_STATUS_TAKEN] + (i % 64 ? i % 4 : i));
    uint64_t got = step();
    if (got > HD_STEP_BROKEN) return "an answer that is none of 0 to 3";
    answers[got]++;
    if (got == HD_STEP_BROKEN && (hd_reset(world.state, world.words) || enable(SIZE))) return "no reset after a break";
    return NULL;
}

void noisy_guest(void)
{
    unsigned answers[HD_STEP_BROKEN + 1] = {0};
    char answer[64];
    const char *problem = NULL;
    title("A guest of nothing but noise");
    begin(SIZE, false);
    for (uint64_t i = 0; i < NOISY_STEPS && !problem; i++) problem = noisy_step(i, answers);
    if (!problem) problem = walls();
    const bool wrote = memcmp(world.want_image + OURS, world.image + OURS, OURS_END - OURS) != 0;
    const bool far = answers[HD_STEP_ANSWERED] && answers[HD_STEP_BROKEN] && wrote;
    if (!problem && !far) problem = "the noise didn't get far enough to show anything";
    snprintf(answer, sizeof answer, "%u answered, %u times broken", answers[HD_STEP_ANSWERED], answers[HD_STEP_BROKEN]);
    show("noise", "20,000 steps; rings, descriptors and header random before each", answer, problem);
}
