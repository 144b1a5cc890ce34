// Attacks on a queue of 8: each is a read of one sector, or a write, spoilt before the device looks or while it works.
// What the device must answer is documents 01 §3 and 03 §3, §4.
#include <string.h>
#include "demo.h"

enum { SIZE = 8 };
static struct request asked;
static uint8_t data[HD_REQUEST_BYTES_MAX + 512];

// ---- what the guest asks

static void read_at(uint64_t sector, uint32_t bytes)  // 16 r, data w, 1 w: V1 of 01 §6
{
    asked = ask(IN, sector, data);
    add(&asked, HEADER, 16, false), add(&asked, DATA, bytes, true), add(&asked, STATUS, 1, true);
}

static void write_at(uint64_t sector, uint32_t bytes)
{
    asked = ask(OUT, sector, data);
    add(&asked, HEADER, 16, false), add(&asked, DATA, bytes, false), add(&asked, STATUS, 1, true);
}

static void read_sector(void) { read_at(3, 512); }
static void write_sector(void) { write_at(3, 512); }
static void read_neighbour(void) { read_at(SECTORS, 512); }
static void write_neighbour(void) { write_at(SECTORS, 512); }
static void write_over_end(void) { write_at(SECTORS - 1, 1024); }
static void read_wrapping(void) { read_at(TOP, 1024); }
static void write_wrapping(void) { write_at(TOP, 1024); }
static void write_times_512(void) { write_at((UINT64_C(1) << 55) + SECTORS, 512); }
static void read_too_much(void) { read_at(0, HD_REQUEST_BYTES_MAX + 512); }
static void write_half_a_sector(void) { write_at(3, 256); }
static void unknown_type(void) { read_at(3, 512), asked.type = 2; }
static void status_in_data(void) { read_at(3, 512), asked.buffers[2].at = DATA + 7; }
static void over_used_ring(void) { read_at(3, 512), asked.buffers[1].at = USED; }
static void over_descriptors(void) { read_at(3, 512), asked.buffers[1].at = DESC; }

static void write_in_pieces(void)  // 16 r, payload in 100, 300 and 112 r, 1 w
{
    asked = ask(OUT, 3, data);
    add(&asked, HEADER, 16, false), add(&asked, DATA, 100, false), add(&asked, HIGH, 300, false), add(&asked, DATA + 512, 112, false);
    add(&asked, STATUS, 1, true);
}

static void write_too_much(void)  // 16 r, payload in 1 MiB and 512 r, 1 w
{
    asked = ask(OUT, 0, data);
    add(&asked, HEADER, 16, false), add(&asked, DATA, HD_REQUEST_BYTES_MAX, false), add(&asked, HIGH, 512, false);
    add(&asked, STATUS, 1, true);
}

static void read_in_eight(void)  // 16 r and seven w, the last for the status: a chain of exactly 8
{
    asked = ask(IN, 0, data);
    add(&asked, HEADER, 16, false);
    for (unsigned k = 0; k < 6; k++) add(&asked, DATA + 512 * k, 512, true);
    add(&asked, STATUS, 1, true);
}

static void short_header(void)
{
    asked = ask(OUT, 3, data);
    add(&asked, HEADER, 15, false), add(&asked, STATUS, 1, true);
}

// ---- what the guest does while the device works

static bool fetched(const uint64_t *status, unsigned descriptors) { return status[HD_STATUS_DESCRIPTORS] >= descriptors; }

static void lengths_become(const uint64_t *status, uint32_t len)
{
    for (unsigned k = 0; k < status[HD_STATUS_DESCRIPTORS]; k++) poke(D(k) + 8, 4, len);
}

static void longer(const uint64_t *status) { lengths_become(status, 0xffffffff); }
static void shorter(const uint64_t *status) { lengths_become(status, 1); }
static void ends_after_nine(const uint64_t *status) { if (fetched(status, 8)) poke(D(1) + 12, 2, WRITE); }
static void elsewhere(const uint64_t *status) { if (fetched(status, 2)) poke(D(1), 8, LOW - 4096); }
static void other_status_byte(const uint64_t *status) { if (fetched(status, 3)) poke(D(2), 8, DATA + 7); }
static void other_head(const uint64_t *status) { if (status[HD_STATUS_NEXT_STEP] >= HD_NEXT_DESCRIPTOR) poke(AVAIL + 4, 2, 5); }
static void writable_for_readable(const uint64_t *status) { if (fetched(status, 2)) poke(D(1) + 12, 2, NEXT); }

static void other_sector(const uint64_t *status)
{
    if (status[HD_STATUS_BYTES] < 16) return;
    poke(HEADER, 4, OUT);
    poke(HEADER + 8, 8, SECTORS);
}

static void payload_changes(const uint64_t *status)  // what was fetched of it, right after
{
    const uint64_t bytes = status[HD_STATUS_BYTES];  // 16 of the header, then 116, 416, 528
    if (bytes <= 16) return;
    replace_memory(bytes);
    if (bytes < 416) poke_bytes(HIGH, data + 100, 300);
    if (bytes < 528) poke_bytes(DATA + 512, data + 400, 112);
}

static void all_changes(const uint64_t *status)  // before each step all is replaced, but for what that step fetches
{
    static uint64_t seed = 1000;
    replace_memory(seed += 2);
    switch (status[HD_STATUS_NEXT_STEP]) {
    case HD_NEXT_POLL: poke(AVAIL + 2, 2, 1); break;
    case HD_NEXT_HEAD: poke(AVAIL + 4, 2, 0); break;
    case HD_NEXT_DESCRIPTOR: describe_one(&asked, (unsigned)status[HD_STATUS_DESCRIPTORS]); break;
    case HD_NEXT_HEADER: lay_readable(&asked); break;
    }
}

static void reset_midway(const uint64_t *status)  // by the device's register, which is the host's affair
{
    if (status[HD_STATUS_BYTES] == 416) hd_reset(world.state, world.words);
}

static void idx_changes(const uint64_t *status)
{
    if (status[HD_STATUS_NEXT_STEP] == HD_NEXT_ANSWER) poke(AVAIL + 2, 2, 0xffff), poke(USED + 2, 2, 0x1234);
}

// ---- the gallery

#define ANSWERED(status, len) {HD_STEP_ANSWERED, 0, status, len, 0}
#define BROKEN(reason, at) {HD_STEP_BROKEN, reason, 0, 0, at}
struct poke { uint64_t at; unsigned n; uint64_t value; };
static const struct attack {
    const char *name, *deed;
    struct outcome want;
    void (*asks)(void);
    struct poke pokes[3];  // spoilt before the device looks
    meddler *meddle;
    bool read_only;
} attacks[] = {
    // 01 §4: only the private copy counts
    {"length after its check", "each len becomes 2^32 - 1 right after it was read",
        ANSWERED(0, 513), .asks = read_sector, .meddle = longer},
    {"shorter after its check", "each len becomes 1 right after it was read", ANSWERED(0, 1), .asks = write_in_pieces, .meddle = shorter},
    {"address after its check", "addr goes below guest memory right after it was read",
        ANSWERED(0, 513), .asks = read_sector, .meddle = elsewhere},
    {"flags after their check", "a writable buffer becomes readable right after it was read",
        ANSWERED(0, 513), .asks = read_sector, .meddle = writable_for_readable},
    {"status byte swapped", "its descriptor points into the data right after it was read",
        ANSWERED(0, 513), .asks = read_sector, .meddle = other_status_byte},
    {"another head", "the available entry changes right after it was read", ANSWERED(0, 513), .asks = read_sector, .meddle = other_head},
    {"another sector", "the header becomes a write to the neighbour after it was read",
        ANSWERED(0, 513), .asks = read_sector, .meddle = other_sector},
    {"idx changes", "available and used idx change before the answer", ANSWERED(0, 513), .asks = read_sector, .meddle = idx_changes},
    {"payload changes", "each piece is replaced once it was read: the disk gets it as read",
        ANSWERED(0, 1), .asks = write_in_pieces, .meddle = payload_changes},
    {"all of memory changes", "before each step every other byte of memory is replaced",
        ANSWERED(0, 513), .asks = read_sector, .meddle = all_changes},
    {"reset in mid-write", "the driver resets the device before the last piece was read",
        {HD_STEP_REFUSED, 0, 0, 0, 0}, .asks = write_in_pieces, .meddle = reset_midway},
    // 01 §3: chains and rings that are wrong
    {"idx ahead of the ring", "idx 9 in a ring of 8", BROKEN(HD_REASON_IDX, HD_NO_DESCRIPTOR), .asks = read_sector, .pokes = {{AVAIL + 2, 2, 9}}},
    {"idx behind", "idx 65,535 where 0 were taken", BROKEN(HD_REASON_IDX, HD_NO_DESCRIPTOR), .asks = read_sector, .pokes = {{AVAIL + 2, 2, 65535}}},
    {"head out of range", "entry 8 in a queue of 8", BROKEN(HD_REASON_INDEX, HD_NO_DESCRIPTOR), .asks = read_sector, .pokes = {{AVAIL + 4, 2, 8}}},
    {"head far out of range", "entry 65,535", BROKEN(HD_REASON_INDEX, HD_NO_DESCRIPTOR), .asks = read_sector, .pokes = {{AVAIL + 4, 2, 65535}}},
    {"next out of range", "descriptor 0 goes on to 8", BROKEN(HD_REASON_INDEX, 0), .asks = read_sector, .pokes = {{D(0) + 14, 2, 8}}},
    {"chain bites its tail", "descriptor 2 goes on to 1",
        BROKEN(HD_REASON_CHAIN_LONG, 2), .asks = read_sector, .pokes = {{D(2) + 12, 2, NEXT | WRITE}, {D(2) + 14, 2, 1}}},
    {"chain of q + 1", "a chain of 8 goes on to 1, which has become the last",
        BROKEN(HD_REASON_CHAIN_LONG, 1), .asks = read_in_eight, .pokes = {{D(7) + 12, 2, NEXT | WRITE}, {D(7) + 14, 2, 1}}, .meddle = ends_after_nine},
    {"chain of one, for ever", "descriptor 0 goes on to itself",
        BROKEN(HD_REASON_CHAIN_LONG, 0), .asks = read_sector, .pokes = {{D(0) + 14, 2, 0}}},
    {"indirect", "flag 4, which was not negotiated",
        BROKEN(HD_REASON_FLAGS, 0), .asks = read_sector, .pokes = {{D(0) + 12, 2, NEXT | INDIRECT}}},
    {"unknown flags", "flags 0xfff9", BROKEN(HD_REASON_FLAGS, 0), .asks = read_sector, .pokes = {{D(0) + 12, 2, 0xfff9}}},
    {"empty buffer", "len 0", BROKEN(HD_REASON_EMPTY, 1), .asks = read_sector, .pokes = {{D(1) + 8, 4, 0}}},
    {"past memory", "a buffer that ends one byte behind its region",
        BROKEN(HD_REASON_MEMORY, 1), .asks = read_sector, .pokes = {{D(1), 8, LOW + LOW_BYTES - 511}}},
    {"before memory", "a buffer that begins one byte before its region",
        BROKEN(HD_REASON_MEMORY, 1), .asks = read_sector, .pokes = {{D(1), 8, HIGH - 1}}},
    {"address + length wraps", "a buffer of 512 bytes at 2^64 - 1",
        BROKEN(HD_REASON_MEMORY, 1), .asks = read_sector, .pokes = {{D(1), 8, TOP}}},
    {"from region to region", "first and last byte are in memory, what lies between is not",
        BROKEN(HD_REASON_MEMORY, 1), .asks = read_sector, .pokes = {{D(1), 8, LOW + LOW_BYTES - 256}, {D(1) + 8, 4, HIGH - LOW - LOW_BYTES + 512}}},
    {"address 4 GiB off", "a good address + 2^32",
        BROKEN(HD_REASON_MEMORY, 1), .asks = read_sector, .pokes = {{D(1), 8, DATA + (UINT64_C(1) << 32)}}},
    {"4 GiB", "a buffer of 2^32 - 1 bytes at a good address",
        BROKEN(HD_REASON_MEMORY, 1), .asks = read_sector, .pokes = {{D(1) + 8, 4, 0xffffffff}}},
    {"readable after writable", "the last buffer is readable",
        BROKEN(HD_REASON_READABLE_LATE, 2), .asks = read_sector, .pokes = {{D(2) + 12, 2, 0}}},
    {"no place for a status", "only a header", BROKEN(HD_REASON_NO_STATUS, 0), .asks = read_sector, .pokes = {{D(0) + 12, 2, 0}}},
    // 01 §5: overlaps are the guest's affair, within its walls
    {"over the used ring", "a data buffer at the used ring: the guest spoils its own ring", ANSWERED(0, 513), .asks = over_used_ring},
    {"over the descriptors", "a data buffer at the descriptors: too late, they were read", ANSWERED(0, 513), .asks = over_descriptors},
    {"status inside the data", "the status byte is byte 7 of the data: the later write wins", ANSWERED(0, 513), .asks = status_in_data},
    // 03 §3: requests that are refused
    {"neighbour's sector, read", "reads the sector behind the last", ANSWERED(1, 0), .asks = read_neighbour},
    {"neighbour's sector, write", "writes the sector behind the last", ANSWERED(1, 1), .asks = write_neighbour},
    {"half over the end", "writes two sectors from the last one: neither is written", ANSWERED(1, 1), .asks = write_over_end},
    {"sector + n wraps, read", "reads two sectors from 2^64 - 1", ANSWERED(1, 0), .asks = read_wrapping},
    {"sector + n wraps, write", "writes two sectors from 2^64 - 1", ANSWERED(1, 1), .asks = write_wrapping},
    {"sector * 512 wraps", "writes at sector 2^55 + the neighbour's first", ANSWERED(1, 1), .asks = write_times_512},
    {"over 1 MiB, write", "writes 1 MiB and a sector, in two pieces", ANSWERED(1, 1), .asks = write_too_much},
    {"over 1 MiB, read", "reads 1 MiB and a sector", ANSWERED(1, 0), .asks = read_too_much},
    {"half a sector", "writes 256 bytes", ANSWERED(1, 1), .asks = write_half_a_sector},
    {"short header", "15 bytes", ANSWERED(1, 1), .asks = short_header},
    {"unknown type", "type 2", ANSWERED(2, 0), .asks = unknown_type},
    {"read-only disk", "writes a sector", ANSWERED(1, 1), .asks = write_sector, .read_only = true},
};

static const char *still_broken(void)  // the driver mends its rings: too late; after a reset the queue works
{
    const struct outcome fine = ANSWERED(0, 513);
    struct outcome got;
    world.published = 0, read_sector(), lay(&asked);
    for (int i = 0; i < 3; i++)
        if (step() != HD_STEP_BROKEN) return "a broken queue went on";
    const char *problem = differs();
    if (problem) return problem;
    if (hd_reset(world.state, world.words) || enable(SIZE)) return "no reset after a break";
    return serve(&asked, fine, NULL, &got);
}

static void attempt(const struct attack *a)
{
    struct outcome got;
    begin(SIZE, a->read_only);
    a->asks();
    lay(&asked);
    for (size_t i = 0; i < COUNT(a->pokes) && a->pokes[i].n; i++) poke(a->pokes[i].at, a->pokes[i].n, a->pokes[i].value);
    const char *problem = serve(&asked, a->want, a->meddle, &got);
    if (!problem && a->want.answer == HD_STEP_BROKEN) problem = still_broken();
    show(a->name, a->deed, said(got), problem);
}

void attacks_on_rings(void)
{
    title("Attacks through the rings (a queue of 8)");
    noise(data, sizeof data, 42);
    for (size_t i = 0; i < COUNT(attacks); i++) attempt(attacks + i);
}
