// Words that anybody may have spoilt: state words and chain words are lent memory, so whatever they hold the step stays inside the
// slices. Part of trace.c.

static void stayed_inside(void)
{
    for (uint64_t i = 0; i < traced->count && i < MOST_ACCESSES; i++)
        if (by_the_library(traced->access + i)) {
            checks++;
            if (place_of(traced->access + i) == NOWHERE) amiss("spoilt words: outside the lent slices, the stack and the constants", traced->access[i].at, traced->access[i].n);
        }
}

// Before each step of each worked request a few state words are overwritten, with edges and with anything.
static void spoilt_state(uint64_t seed, int tries)
{
    static const uint64_t edges[] = {0, 1, 2, 7, 8, 9, 31, 32, 33, 512, 1023, 1024, 1025, 65535, 65536, SLICE, SLICE - 1, BACKED, STAGE, UINT32_MAX, TOP, TOP - 511};
    for (size_t i = 0; i < COUNT(worked) && !failed; i++)
        for (int before = 0; before < 12 * tries && !failed; before++) {
            set_up_queue(8, 65535, 0), lay_worked(i);
            for (int n = 0; n < before / tries; n++) step_unseen();
            for (uint64_t n = 1 + below(&seed, 3); n > 0; n--) state[below(&seed, words)] = below(&seed, 3) ? ONE_OF(&seed, edges) : draw(&seed);
            const uint64_t answer = call_traced();
            if (answer > 4) same("spoilt state words: a known code", 4, answer);
            stayed_inside();
        }
}

static void refuses_spoilt_chain(void)
{
    static uint64_t kept[2 * LONGEST];
    memcpy(kept, chain, size[OF_CHAIN]);
    for (unsigned i = 0; i < queue_size; i++) chain[2 * i] = SLICE;  // right behind guest memory
    same("spoilt chain words", 4, call_traced()), stayed_inside();
    for (uint64_t i = 0; i < traced->count; i++) {
        const int place = by_the_library(traced->access + i) ? place_of(traced->access + i) : NOWHERE;
        if (place == OF_MEM || place == OF_BACKING) amiss("spoilt chain words: nothing is touched", traced->access[i].at, traced->access[i].n);
    }
    memcpy(chain, kept, size[OF_CHAIN]);
}

// A step that uses chain words which no step has made is refused, and touches neither guest memory nor disk.
static void spoilt_chain(size_t request)
{
    uint64_t answer = 1;
    unsigned refused = 0;
    set_up_queue(8, 65535, 0), lay_worked(request);
    while (answer == 1 && !failed) {
        const uint64_t number = status()[4];
        if (number >= 4 && number <= 6) refuses_spoilt_chain(), refused++;
        answer = traced_step();
    }
    same("the request is answered all the same", 2, answer), same("S4, three times S5, S6", 5, refused);
}
