// A trace of the compiled code: in every step of many requests, honest and hostile, with guest memory changed between steps,
//   no guest byte is loaded twice, and none is loaded but those that the schedule has for the step;
//   idx is one 2-byte load in S1 and one 2-byte store in S7; S6 and S7 load nothing from guest memory;
//   S1 to S5 store nothing there, and only the S5 of the last payload buffer stores to the backing slice;
//   nothing outside the lent slices, the stack and the code's own constants is touched.
//   trace LOG [SEED [RUNS]], under the emulator with the plugin
#define _DEFAULT_SOURCE
#include "schedule.h"

static unsigned long kinds[STEP_NUMBERS], reasons[REASONS], disk_writes;
static int all_regions;  // whether set-up registers all 32

static const uint64_t *status(void)
{
    same("hd_status", 0, hd_status(state, words, out, HD_STATUS_WORDS));
    same("broken at", where.broken_at, out[8]), same("last chain", where.last_chain, out[9]);
    return out;
}

static void set_up_queue(unsigned q, uint64_t start, uint64_t read_only)
{
    queue_size = q, size[OF_CHAIN] = 16 * q;  // chain memory for more than q descriptors is not lent
    register_memory(all_regions);
    same("hd_disk", 0, hd_disk(state, words, disk_start, DISK_SECTORS, read_only, id, 20, BACKED));
    same("hd_enable_at", 0, hd_enable_at(state, words, q, DESC, AVAIL, USED, 2 * q, STAGE, start));
    where.broken_at = NONE, where.last_chain = 0;
}

static void follow_where(uint64_t answer)  // S3: a refusal is at the descriptor that it fetched; reason 8 is of a complete chain
{
    if (plan.number != 3) return;
    if (answer == 3) hd_status(state, words, out, HD_STATUS_WORDS), where.broken_at = at_hand.descriptor;
    if (at_hand.ends && (answer == 1 || out[1] == 8)) where.last_chain = at_hand.count;
}

static uint64_t traced_step(void)
{
    plan_step(status());
    const uint64_t answer = call_traced();
    after_step(answer), follow_where(answer);
    if (plan.number < STEP_NUMBERS) kinds[plan.number]++;
    disk_writes += did.disk_bytes > 0;
    return answer;
}

// ---- requests

static void lay_in(uint64_t first, uint64_t last, const struct span *buffers, unsigned readable)  // descriptors first to last
{
    for (uint64_t i = first; i <= last; i++)
        describe_at(i, buffers[i - first].at, buffers[i - first].len, 2 * (i - first >= readable) + (i < last), i + 1);
}

static const struct { uint64_t type, sector; unsigned readable, all; struct span buffers[8]; } worked[] = {
    {1, 7, 4, 5, {{HEADER, 16}, {DATA, 100}, {DATA + 512, 300}, {DATA + 1024, 112}, {STATUS, 1}}},
    {0, 3, 1, 3, {{HEADER, 16}, {DATA, 512}, {STATUS, 1}}},                                   // 01 §6 V1
    {1, 5, 2, 3, {{HEADER, 10}, {HEADER + 10, 518}, {STATUS, 1}}},                            // 03 §6, the split OUT
    {1, 0, 1, 2, {{HEADER, 528}, {STATUS, 1}}},
    {8, 0, 1, 2, {{HEADER, 16}, {DATA, 21}}},
    {8, 0, 1, 4, {{HEADER, 16}, {DATA, 3}, {DATA + 9, 17}, {STATUS, 1}}},
    {4, 0, 1, 2, {{HEADER, 16}, {STATUS, 1}}},
    {2, 0, 1, 2, {{HEADER, 16}, {STATUS, 1}}},
    {0, DISK_SECTORS, 1, 2, {{HEADER, 16}, {DATA, 513}}},                                     // status 1
    {0, TOP, 1, 2, {{HEADER, 16}, {DATA, 1025}}},
    {0, 0, 1, 2, {{HEADER, 15}, {STATUS, 1}}},
    {0, 3, 1, 2, {{HEADER, 16}, {USED, 513}}},                                                // 01 §6: over the used ring
    {0, 0, 1, 8, {{HEADER, 16}, {DATA, 512}, {DATA + 512, 512}, {DATA, 512}, {DATA, 512}, {DATA, 512}, {DATA, 512}, {STATUS, 1}}},
};

enum { SPLIT };  // the first of them: a payload in three buffers

static void offer_one(unsigned taken)
{
    scrawl(AVAIL + 4 + 2 * (taken % queue_size), 2, 0), scrawl(AVAIL + 2, 2, taken + 1);
}

static void lay_worked(size_t i)
{
    lay_in(0, worked[i].all - 1, worked[i].buffers, worked[i].readable);
    scrawl(HEADER, 8, worked[i].type), scrawl(HEADER + 8, 8, worked[i].sector), offer_one(65535);
}

static uint64_t steps_of_a_request(void)  // the last one's answer
{
    uint64_t answer = 1;
    for (int n = 0; n < 3 * LONGEST && answer == 1 && !failed; n++) answer = traced_step();
    return answer;
}

static void worked_requests(void)
{
    for (size_t i = 0; i < COUNT(worked) && !failed; i++) {
        set_up_queue(8, 65535, 0), lay_worked(i);
        same("a worked request is answered", 2, steps_of_a_request());
    }
}

#include "spoilt.h"

// 1,023 readable buffers with 2^32 + 528 bytes together: as a 32-bit sum, an OUT of one sector.
static void over_4_gib(void)
{
    static struct span buffers[LONGEST];
    const uint64_t each = 4198405, at = regions[LARGE].guest;
    for (unsigned i = 0; i < LONGEST - 1; i++) buffers[i] = (struct span){at, i ? each : (1ull << 32) + 528 - (LONGEST - 2) * each};
    buffers[LONGEST - 1] = (struct span){STATUS, 1};
    set_up_queue(LONGEST, 0, 0);
    lay_in(0, LONGEST - 1, buffers, LONGEST - 1), scrawl(at, 8, 1), scrawl(at + 8, 8, 0), offer_one(0);
    same("a request of over 4 GiB is answered", 2, steps_of_a_request()), same("with status 1", 1, mem[offset_of(STATUS, 1)]);
}

// A write of 63 sectors by a chain of 1,024, with all 32 regions registered, and a read back into the same buffers.
static void longest_chain(void)
{
    static struct span buffers[LONGEST];
    static uint8_t written[63 * 512], *from;
    const uint64_t bytes = sizeof written, n = LONGEST - 2;
    uint64_t seed = 13;
    buffers[0] = (struct span){HEADER, 16}, buffers[LONGEST - 1] = (struct span){STATUS, 1};
    for (uint64_t i = 0; i < n; i++) buffers[i + 1] = (struct span){regions[LARGE].guest + 50 * (i * 7919 % n), bytes * (i + 1) / n - bytes * i / n};
    for (uint64_t i = 0; i < bytes; i++) written[i] = (uint8_t)draw(&seed);
    all_regions = 1, set_up_queue(LONGEST, 0, 0);
    for (unsigned type = 2; type-- > 0 && !failed;) {
        from = written;
        for (uint64_t i = 1; i <= n; from += buffers[i++].len)
            if (type) memcpy(mem + offset_of(buffers[i].at, 1), from, buffers[i].len);
            else memset(mem + offset_of(buffers[i].at, 1), 0, buffers[i].len);
        lay_in(0, LONGEST - 1, buffers, type ? LONGEST - 1 : 1), scrawl(HEADER, 8, type), scrawl(HEADER + 8, 8, 9), offer_one(1 - type);
        same("a chain of 1,024 is answered", 2, steps_of_a_request()), same("with status 0", 0, mem[offset_of(STATUS, 1)]);
        same_bytes("the sectors", written, backing + disk_start + 512 * 9, bytes), from = written;
        for (uint64_t i = 1; i <= n; from += buffers[i++].len) same_bytes("a buffer of 1,022", from, mem + offset_of(buffers[i].at, 1), buffers[i].len);
    }
    all_regions = 0;
}

// A sector in two buffers, cut at every byte, written and read back: the copy goes by eights with a tail, and both begin at every
// place of an eight.
static void write_and_read(const struct span *buffers, uint64_t seed)
{
    uint8_t *first = mem + offset_of(buffers[1].at, buffers[1].len), *second = mem + offset_of(buffers[2].at, buffers[2].len);
    const uint8_t *sector = backing + disk_start + 512 * 7;
    for (uint64_t i = 0; i < buffers[1].len; i++) first[i] = (uint8_t)draw(&seed);
    for (uint64_t i = 0; i < buffers[2].len; i++) second[i] = (uint8_t)draw(&seed);
    set_up_queue(8, 0, 0);
    for (unsigned type = 2; type-- > 0 && !failed;) {  // OUT, then IN into the same buffers
        lay_in(0, 3, buffers, type ? 3 : 1), scrawl(HEADER, 8, type), scrawl(HEADER + 8, 8, 7), offer_one(1 - type);
        if (!type) memset(first, 0, buffers[1].len), memset(second, 0, buffers[2].len);
        same("a sector in two buffers is answered", 2, steps_of_a_request());
        same_bytes("the sector's first bytes", sector, first, buffers[1].len);
        same_bytes("the sector's last bytes", sector + buffers[1].len, second, buffers[2].len);
    }
}

static void every_length(void)
{
    for (uint64_t n = 1; n < 512 && !failed; n++) {
        const struct span buffers[] = {{HEADER, 16}, {DATA + n / 2 % 8, n}, {DATA + 1024 + n / 3 % 8, 512 - n}, {STATUS, 1}};
        write_and_read(buffers, n);
    }
}

// Slices with not a byte between them: where source and destination are close, copies may take another path. The header ends
// where staging memory begins, and the disk ends where the data's last buffer begins.
static void side_by_side(void)
{
    const struct span buffers[] = {{TOP - 16, 16}, {DATA, 496}, {regions[LARGE].guest, 16}, {STATUS, 1}};
    uint8_t *all = lend(BACKED + SLICE + STAGE);
    lent[OF_BACKING] = all, lent[OF_MEM] = all + BACKED, lent[OF_STAGE] = all + BACKED + SLICE;
    disk_start = BACKED - 512 * DISK_SECTORS;
    set_up_queue(8, 0, 0);
    lay_in(0, 3, buffers, 1), scrawl(TOP - 16, 8, 0), scrawl(TOP - 8, 8, DISK_SECTORS - 1), offer_one(0);
    same("a request across adjoining slices is answered", 2, steps_of_a_request());
    same_bytes("the data's last bytes", backing + BACKED - 16, mem, 16);
}

// Plausible requests; now and then the guest changes something between two steps.
static void hostile_run(uint64_t seed, unsigned steps)
{
    static const uint64_t starts[] = {0, 250, 65530};
    const unsigned q = 1u << below(&seed, 4) << below(&seed, 8), calm = 2 + (unsigned)below(&seed, 40);
    all_regions = below(&seed, 4) == 0;
    set_up_queue(q, ONE_OF(&seed, starts), below(&seed, 8) == 0);
    for (unsigned i = 0; i < steps && !failed; i++) {
        const uint64_t answer = traced_step();
        if (answer == 0) plausible(&seed, q, (unsigned)at_hand.taken);
        if (below(&seed, calm) == 0) damage(&seed, q, (unsigned)at_hand.taken);
        if (answer != 3) continue;
        const uint64_t reason = status()[1], taken = out[2];
        if (reason < REASONS) reasons[reason]++;
        same("hd_reset", 0, hd_reset(state, words)), set_up_queue(q, taken, 0);
        scrawl(AVAIL + 2, 2, taken);
    }
}

int main(int argc, char **argv)
{
    const uint64_t seed = argument(argc, argv, 2, 1), runs = argument(argc, argv, 3, 200);
    uint64_t numbers = seed;
    if (argc < 2) return 2;
    row = "trace", setvbuf(stdout, NULL, _IOLBF, 0), printf("trace: seed %llu, %llu runs\n", (unsigned long long)seed, (unsigned long long)runs);
    signal(SIGSEGV, fault), signal(SIGBUS, fault);
    open_log(argv[1]), lend_world(0, SLICE, BACKED, LONGEST);
    worked_requests();
    if (!failed) over_4_gib(), longest_chain(), every_length();
    if (!failed) spoilt_chain(SPLIT), spoilt_state(draw(&numbers), 10);
    for (uint64_t i = 0; i < runs && !failed; i++) hostile_run(draw(&numbers), 200);
    all_regions = 0;
    if (!failed) side_by_side(), worked_requests();
    if (!failed) {
        printf("trace: %llu loads and stores, %lu writes to the disk\n", (unsigned long long)seen_accesses, disk_writes);
        coverage("trace", kinds, reasons), same("the disk was written", 1, disk_writes > 0), slack();
    }
    return ended("trace");
}
