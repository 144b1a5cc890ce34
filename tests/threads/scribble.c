// A guest thread scribbles over all of its memory while the main thread steps. What it writes are mostly plausible requests,
// so that the device gets far, with damage of every kind. Whatever it does, the walls hold: bytes of the slice outside the
// registered regions, bytes of the backing slice outside the disk, and what lies beside the slices never change; every call
// answers a known code. The guest's choices come from the seed; how the two threads meet does not.
//   scribble [SEED [STEPS]]
#define _DEFAULT_SOURCE
#include "world.h"
#include "hostile.h"

enum { STEPS_A_RUN = 2000, SECONDS = 10 };
static uint8_t want_between[SLICE], want_backed[BACKED];

// ---- the guest

static atomic_bool stop, in_turns;
static atomic_uint queue_size, taken_hint;  // a hostile guest knows the size, and guesses well how far the device is
static atomic_uint written;                 // what it has done so far

static void *guest(void *seed)
{
    for (; !stop; written++) {
        below(seed, 3) ? plausible(seed, queue_size, taken_hint) : damage(seed, queue_size, taken_hint);
        if (in_turns && below(seed, 8) == 0) sched_yield();
    }
    return NULL;
}

// ---- the host

static unsigned long kinds[STEP_NUMBERS], reasons[REASONS], at_head, at_next;

static void enable_at(uint64_t start)
{
    const uint64_t q = queue_size;
    taken_hint = (unsigned)start;
    same("hd_enable_at", 0, hd_enable_at(state, words, q, DESC, AVAIL, USED, hd_chain_words(q), STAGE, start));
}

// Where it broke: at a descriptor of the table, if one was fetched.
static void says_where(void)
{
    const uint64_t q = queue_size, reason = out[1], fetched = out[6], at = out[8], last = out[9];
    same("broken at a descriptor, if one was fetched", fetched > 0, at < q);
    if (fetched == 0) same("broken at no descriptor", NONE, at);
    if (reason != 2) same("a descriptor was fetched, but for reason 1", reason > 1, fetched > 0);
    same("reason 3 is number q + 1, and no other is", reason == 3, fetched == q + 1);
    if (reason == 8) same("the chain was complete", fetched, last);
    same("the last chain is no longer than the queue", 1, last <= q);
    at_head += reason == 2 && fetched == 0, at_next += reason == 2 && fetched > 0;
}

static void start_anew(void)  // after a break, where the queue was: what the guest offers there is still plausible
{
    same("hd_status", 0, hd_status(state, words, out, HD_STATUS_WORDS)), says_where();
    if (out[1] < 1 || out[1] > 8) same("a known reason", 1, out[1]);
    else reasons[out[1]]++;
    same("hd_reset", 0, hd_reset(state, words)), enable_at(out[1] == 1 ? (uint16_t)(out[2] + 1) : out[2]);
}

// Every other run goes in turns: when the memory has no more to offer, the guest gets to write before the next step. That way
// many requests get far. In the other runs the two threads meet as they happen to.
static void wait_for_the_guest(void)
{
    const unsigned before = written;
    for (int i = 0; in_turns && i < 1000 && written == before; i++) sched_yield();
}

static void one_run(uint64_t *seed, unsigned long steps)
{
    static const uint64_t starts[] = {0, 250, 65530};
    register_memory(below(seed, 2) == 0);
    same("hd_disk", 0, hd_disk(state, words, DISK_AT, DISK_SECTORS, below(seed, 8) == 0, id, 20, BACKED));
    queue_size = 1u << below(seed, 4) << below(seed, 8);
    in_turns = !in_turns;
    enable_at(ONE_OF(seed, starts));
    for (unsigned long i = 0; i < steps && !failed; i++) {
        const uint64_t answer = step_beside_a_driver(kinds);
        checks++;
        if (answer > 3) same("hd_step, a known code", 1, answer);
        if (answer == 2) taken_hint = (unsigned)out[2] + 1;
        if (answer == 3) start_anew();
        if (answer == 0 || answer == 3) wait_for_the_guest();
    }
}

static void walls(void)
{
    static const int in_order[] = {LARGE, RINGS, TOPMOST};  // of their offsets
    size_t from = 0;
    for (size_t i = 0; i < COUNT(in_order); i++) {
        const struct region *g = regions + in_order[i];
        same_bytes("the slice outside the regions", want_between + from, mem + from, g->offset - from);
        from = g->offset + g->len;
    }
    same_bytes("the backing slice before the disk", want_backed, backing, DISK_AT);
    same_bytes("the backing slice behind the disk", want_backed + BACKED - BEHIND, backing + BACKED - BEHIND, BEHIND);
    slack();
}

static void round_of(uint64_t seed, int at_low_end, unsigned long steps)
{
    pthread_t thread;
    uint64_t guest_seed = seed ^ TOP;
    lend_world(at_low_end, SLICE, BACKED, LONGEST);
    for (size_t i = 0; i < SLICE; i++) want_between[i] = (uint8_t)(i * 13 + 1);
    for (size_t i = 0; i < BACKED; i++) want_backed[i] = (uint8_t)(i * 11 + 5);
    memcpy(mem, want_between, SLICE), memcpy(backing, want_backed, BACKED);
    queue_size = 8;
    stop = 0;
    if (pthread_create(&thread, NULL, guest, &guest_seed)) exit(2);
    const time_t since = time(NULL);
    for (unsigned long i = 0; i < steps && !failed && !(late(since, SECONDS) && covered(kinds, reasons)); i += STEPS_A_RUN)
        one_run(&seed, STEPS_A_RUN), walls();
    stop = 1;
    pthread_join(thread, NULL), walls();
    if (!failed) same("the disk was written", 1, memcmp(backing + DISK_AT, want_backed + DISK_AT, 512 * DISK_SECTORS) != 0);
}

int main(int argc, char **argv)
{
    const uint64_t seed = argument(argc, argv, 1, 1), steps = argument(argc, argv, 2, 1000000);
    setvbuf(stdout, NULL, _IOLBF, 0), signal(SIGSEGV, fault), signal(SIGBUS, fault);
    row = "scribble", printf("scribble: seed %llu, %llu steps\n", (unsigned long long)seed, (unsigned long long)steps);
    for (int round = 0; round < 2 && !failed; round++) round_of(seed + (uint64_t)round, round, steps / 2);
    if (!failed) coverage("scribble", kinds, reasons), same("reason 2 was seen of a head", 1, at_head > 0), same("and of a next", 1, at_next > 0);
    return ended("scribble");
}
