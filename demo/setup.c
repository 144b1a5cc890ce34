// Attacks by numbers at set-up: each is refused with the code of 01 §1, §2 and 03 §1, and leaves every word of the state.
#include <stdio.h>
#include "demo.h"

static const struct { const char *name, *deed; uint64_t want; size_t words; uint64_t list[99]; } maps[] = {
    {"no region", "memory without a region", HD_REFUSED_REGION_COUNT, 0, {0}},
    {"33 regions", "over 32", HD_REFUSED_REGION_COUNT, 99, {0}},
    {"half a region", "four words", HD_REFUSED_REGION_COUNT, 4, {LOW, 4096, 0, HIGH}},
    {"empty region", "length 0", HD_REFUSED_REGION_EMPTY, 3, {LOW, 0, 0}},
    {"region leaves the slice", "by one byte", HD_REFUSED_REGION_SLICE, 3, {LOW, 4096, MEMORY - 4095}},
    {"offset + length wraps", "offset 2^64 - 1", HD_REFUSED_REGION_SLICE, 3, {LOW, 4096, TOP}},
    {"address + length wraps", "guest address 2^64 - 1", HD_REFUSED_REGION_ADDRESS, 3, {TOP, 4096, 0}},
    {"regions overlap", "by one byte", HD_REFUSED_REGION_OVERLAP, 6, {LOW, 4096, 0, LOW + 4095, 4096, 4096}},
    {"region inside a region", "the second within the first", HD_REFUSED_REGION_OVERLAP, 6, {LOW, 8192, 0, LOW + 1, 1, 0}},
};
static const struct { const char *name, *deed; uint64_t want, start, sectors; size_t id_len; } disks[] = {
    {"disk of nothing", "0 sectors", HD_REFUSED_DISK_SECTORS, OURS, 0, HD_ID_BYTES},
    {"disk over 2 TiB", "2^32 + 1 sectors", HD_REFUSED_DISK_SECTORS, 0, HD_SECTORS_MAX + 1, HD_ID_BYTES},
    {"disk leaves the image", "by one byte", HD_REFUSED_DISK_RANGE, IMAGE - 511, 1, HD_ID_BYTES},
    {"start + bytes wraps", "start 2^64 - 512", HD_REFUSED_DISK_RANGE, TOP - 511, 2, HD_ID_BYTES},
    {"identity too long", "21 bytes", HD_REFUSED_ID_LENGTH, OURS, SECTORS, HD_ID_BYTES + 1},
};
static const struct { const char *name, *deed; uint64_t want, size, desc, avail, used, start; } queues[] = {
    {"queue of 3", "not a power of two", HD_REFUSED_QUEUE_SIZE, 3, DESC, AVAIL, USED, 0},
    {"queue of 2,048", "over 1,024", HD_REFUSED_QUEUE_SIZE, 2048, DESC, AVAIL, USED, 0},
    {"queue of 2^63", "whose area's length wraps", HD_REFUSED_QUEUE_SIZE, UINT64_C(1) << 63, DESC, AVAIL, USED, 0},
    {"misaligned", "descriptors at a multiple of 8", HD_REFUSED_AREA_ALIGNMENT, 8, DESC + 8, AVAIL, USED, 0},
    {"ring past memory", "the used ring ends behind its region", HD_REFUSED_AREA_MEMORY, 8, DESC, AVAIL, LOW + LOW_BYTES - 68, 0},
    {"ring address wraps", "descriptors at 2^64 - 16", HD_REFUSED_AREA_MEMORY, 8, TOP - 15, AVAIL, USED, 0},
    {"rings overlap", "used idx in the available ring", HD_REFUSED_AREA_OVERLAP, 8, DESC, AVAIL, AVAIL + 20, 0},
    {"ring over descriptors", "used ring in the descriptors", HD_REFUSED_AREA_OVERLAP, 8, DESC, AVAIL, DESC + 124, 0},
    {"chain memory too short", "16 words of it for a queue of 1,024", HD_REFUSED_CHAIN_SHORT, HD_QUEUE_SIZE_MAX, DESC, AVAIL, USED, 0},
    {"counter out of range", "a start of 65,536", HD_REFUSED_START, 8, DESC, AVAIL, USED, 65536},
};

static void judge(const char *name, const char *deed, uint64_t want, uint64_t got)
{
    static char answer[64], expected[64];
    const char *problem = differs();
    snprintf(answer, sizeof answer, got ? "refused with %llu" : "accepted", (unsigned long long)got);
    snprintf(expected, sizeof expected, "expected a refusal with %llu", (unsigned long long)want);
    if (!problem && !state_kept()) problem = "the refusal changed the state";
    if (got != want) problem = expected;
    show(name, deed, answer, problem);
}

void attacks_on_set_up(void)
{
    static const uint8_t long_id[HD_ID_BYTES + 1];
    title("Attacks by the numbers of set-up");
    for (size_t i = 0; i < COUNT(maps); i++) {
        begin(8, false), keep_state();
        judge(maps[i].name, maps[i].deed, maps[i].want, hd_memory(world.state, world.words, maps[i].list, maps[i].words, MEMORY));
    }
    for (size_t i = 0; i < COUNT(disks); i++) {
        set_up(false), keep_state();
        judge(disks[i].name, disks[i].deed, disks[i].want,
              hd_disk(world.state, world.words, disks[i].start, disks[i].sectors, 0, long_id, disks[i].id_len, IMAGE));
    }
    for (size_t i = 0; i < COUNT(queues); i++) {
        set_up(false), keep_state();
        judge(queues[i].name, queues[i].deed, queues[i].want,
              hd_enable_at(world.state, world.words, queues[i].size, queues[i].desc, queues[i].avail, queues[i].used,
                           hd_chain_words(8), HD_STAGE_BYTES, queues[i].start));
    }
}
