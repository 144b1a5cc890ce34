// The benchmark: the three devices over the same guest memory and the same disk, in turns. Prints a line for each row:
// its name, and for each device the median of nanoseconds for a request (or a step). bench/report makes the table.
//     bench requests ROUNDS LARGEST_SET     (bytes)
//     bench linear ROUNDS
//     bench steps ROUNDS
//     bench memory
#define _DEFAULT_SOURCE
#include "guest.h"
#include "steps.h"

enum { QUEUE = 256, LONG_QUEUE = 1024, DATA_AT = HUGE_PAGE, SAMPLE = 300000 };  // SAMPLE: nanoseconds that one sample takes, about

static const struct shape shapes[] = {
    {"512 B, 3 descriptors", 1, 512},
    {"4 KiB, 3 descriptors", 1, 4096},
    {"64 KiB, 18 descriptors", 16, 4096},
    {"3.5 KiB, 130 descriptors", 128, 28},  // the one whose copies have a tail
    {"63 KiB, 128 descriptors", 126, 512},
    {"504 KiB, 128 descriptors", 126, 4096},
    {"511 KiB, 1,024 descriptors", 1022, 512},
};
static const size_t sets[] = {1 << 20, 64 << 20, 1 << 30};
static const char *const set_names[] = {"1 MiB", "64 MiB", "1 GiB"};

// Lays requests and has the device answer them; only the device's steps are timed.
static uint64_t serve(struct queue *q, struct load *l, struct laid *laid)
{
    lay(q, l, laid);
    unsigned left = laid->n;
    const uint64_t begin = nanoseconds();
    while (left) {
        const uint64_t code = step(q);
        if (code == 2) left--;
        else if (code != 1) fail("a step neither went on nor answered");
    }
    const uint64_t end = nanoseconds();
    all_answered(q, l, laid);
    return end - begin;
}

// The same, untimed, with every byte looked at before and after: nobody is fast by leaving something out.
static void check(struct queue *q, struct load *l, struct laid *laid, uint64_t seed)
{
    const struct load as_before = *l;
    struct queue unpublished = *q;
    lay(&unpublished, l, laid);
    each_byte(q->over, l, laid, seed, 0);
    *l = as_before;
    serve(q, l, laid);
    each_byte(q->over, l, laid, seed, 1);
}

// One row: a sample of each device in turns, beginning with another one each time.
static void row(struct queue *queues, struct load l, size_t rounds, double *samples, struct laid *laid)
{
    uint64_t once = 0;
    for (int i = 0; i < 4; i++) once = serve(queues + i % DEVICES, &l, laid);
    const unsigned fills = (unsigned)(SAMPLE / (once + 1)) + 1;
    for (size_t i = 0; i < rounds * DEVICES; i++) {
        const size_t d = (i + i / DEVICES) % DEVICES;
        uint64_t sum = 0;
        for (unsigned k = 0; k < fills; k++) sum += serve(queues + d, &l, laid);
        samples[d * rounds + i / DEVICES] = (double)sum / fills / laid->n;
    }
    for (int d = 0; d < DEVICES; d++) {
        for (uint64_t k = 0; k < 3; k++) check(queues + d, &l, laid, 3 * (uint64_t)d + k);
        print_median(samples + (size_t)d * rounds, rounds);
    }
    printf("\n"), fflush(stdout);
}

// What all rows of a table share: a queue of each device, and room for what is laid and measured.
struct table { struct memory m; struct queue queues[DEVICES]; struct laid laid; double *samples; };

static void begin(struct table *t, size_t rounds, size_t largest)
{
    *t = (struct table){.m = {room(DATA_AT + largest), room(largest), DATA_AT + largest, largest}};
    t->laid.buffers = calloc(LONG_QUEUE, sizeof *t->laid.buffers), t->samples = calloc(DEVICES * rounds, sizeof *t->samples);
    if (!t->laid.buffers || !t->samples) fail("no memory");
    for (unsigned d = 0; d < DEVICES; d++) lend(t->queues + d, devices + d, &t->m, LONG_QUEUE, d);
}

static void set_up_all(struct table *t, unsigned size, size_t regions)
{
    for (unsigned d = 0; d < DEVICES; d++) t->queues[d].size = size, set_up(t->queues + d, (unsigned)regions);
}

static void requests(size_t rounds, size_t largest)
{
    static struct table t;
    begin(&t, rounds, largest);
    for (size_t i = 0; i < 2 * 2 * sizeof shapes / sizeof *shapes * 3; i++) {
        const size_t set = i % 3, regions = i / 3 % 2 ? REGIONS : 1, type = i / 6 % 2;
        const struct shape *s = shapes + i / 12;
        if (sets[set] > largest || (set > 0 && s->buffer < 64)) continue;  // tiny buffers in RAM are a cache miss each, and no more
        set_up_all(&t, s->buffers + 2 > QUEUE ? LONG_QUEUE : QUEUE, regions);
        printf("%s\t%s\t%s\t%zu", type == OUT ? "write" : "read", s->name, set_names[set], regions);
        row(t.queues, load_of(s, (int)type, sets[set], DATA_AT), rounds, t.samples, &t.laid);
    }
}

// Is the time of a request linear in its descriptors and in the regions? Small buffers, so that most of it isn't copying.
static void linear(size_t rounds)
{
    static const unsigned descriptors[] = {16, 128, 1024}, regions[] = {1, 8, REGIONS};
    static struct table t;
    begin(&t, rounds, sets[0]);
    for (size_t i = 0; i < 2 * 3 * 3; i++) {
        const unsigned n = descriptors[i / 3 % 3], of = regions[i % 3];
        const int type = i / 9 ? OUT : IN;
        const struct shape s = {"", n - 2, 256};
        set_up_all(&t, LONG_QUEUE, of);
        printf("%s\t%u\t%u", type == OUT ? "write" : "read", n, of);
        row(t.queues, load_of(&s, type, sets[0], DATA_AT), rounds, t.samples, &t.laid);
    }
}

static void memory_held(void)
{
    for (int d = 0; d < DEVICES; d++)
        printf("%s\t%llu\t%llu\t%llu\n", devices[d].name, 8 * (unsigned long long)devices[d].state_words(),
               8 * (unsigned long long)devices[d].chain_words(LONG_QUEUE), (unsigned long long)devices[d].stage_bytes());
}

int main(int argc, char **argv)
{
    if (argc == 4 && !strcmp(argv[1], "requests")) requests(strtoul(argv[2], NULL, 10), strtoul(argv[3], NULL, 10));
    else if (argc == 3 && !strcmp(argv[1], "linear")) linear(strtoul(argv[2], NULL, 10));
    else if (argc == 3 && !strcmp(argv[1], "steps")) steps(strtoul(argv[2], NULL, 10));
    else if (argc == 2 && !strcmp(argv[1], "memory")) memory_held();
    else fail("bench requests ROUNDS LARGEST_SET, bench linear ROUNDS, bench steps ROUNDS, or bench memory");
}
