// A host in C: it registers guest memory, a disk and a queue, then steps the device while a guest on another thread reads a
// sector, and after that breaks its queue with a buffer that isn't in its memory. The guest stands in for a virtual machine.
#include <stdatomic.h>
#include <stdio.h>
#include <stdlib.h>
#include <string.h>
#include <threads.h>
#include <time.h>
#include "hostiledisk.h"
#include "hostiledisk_text.h"

enum { MEMORY = 65536, SECTORS = 64, DISK = SECTORS * HD_SECTOR_BYTES, SIZE = 8 };
enum { STEPS_A_TURN = 64, TURNS = 10000 };  // the host's bounds: how long one device may keep it, and how long this example runs
#define GUEST UINT64_C(0x80000000)          // the guest address of the first byte of memory
enum { DESC = 0x1000, AVAIL = 0x2000, USED = 0x3000, HEADER = 0x4000, DATA = 0x5000, STATUS = 0x6000 };

static _Alignas(4096) uint8_t memory[MEMORY];  // the slice begins at a page, so both idx lie at even addresses
static uint8_t disk[DISK];
static atomic_int given_up;

// ---- the guest

static void put(size_t at, uint64_t value, int bytes)
{
    for (int i = 0; i < bytes; i++) memory[at + i] = (uint8_t)(value >> 8 * i);
}

static void describe(size_t i, uint64_t at, uint32_t len, unsigned flags, unsigned next)
{
    const size_t d = DESC + 16 * i;
    put(d, GUEST + at, 8), put(d + 8, len, 4), put(d + 12, flags, 2), put(d + 14, next, 2);
}

static int guest(void *unused)
{
    (void)unused;
    uint16_t *avail_idx = (uint16_t *)(memory + AVAIL + 2), *used_idx = (uint16_t *)(memory + USED + 2);
    describe(0, HEADER, 16, 1, 1);  // NEXT
    describe(1, DATA, 512, 3, 2);   // NEXT and WRITE
    describe(2, STATUS, 1, 2, 0);   // WRITE
    put(HEADER, 0, 4), put(HEADER + 8, 3, 8);  // IN, sector 3
    memory[STATUS] = 0xff;
    put(AVAIL + 4, 0, 2);                                 // entry 0: head 0
    __atomic_store_n(avail_idx, 1, __ATOMIC_RELEASE);     // the entry is seen before idx
    while (__atomic_load_n(used_idx, __ATOMIC_ACQUIRE) != 1 && !atomic_load(&given_up)) thrd_yield();
    unsigned len = memory[USED + 8] + 256u * memory[USED + 9];
    printf("guest: status %u, len %u, sector 3 reads \"%.40s\"\n", memory[STATUS], len, memory + DATA);
    describe(6, HEADER, 16, 1, 4);
    describe(4, MEMORY - 100, 512, 3, 2);                 // and now it leaves the rules
    put(AVAIL + 6, 6, 2);                                 // entry 1: head 6
    __atomic_store_n(avail_idx, 2, __ATOMIC_RELEASE);
    return 0;
}

// ---- the host

struct device { uint64_t *state, *chain; uint8_t *stage; size_t words, chain_words; };

static void need(const char *call, uint64_t answer)
{
    if (answer == HD_OK) return;
    fprintf(stderr, "host: %s was refused with %llu\n", call, (unsigned long long)answer);
    exit(1);
}

static struct device set_up(void)
{
    static const uint64_t region[HD_REGION_WORDS] = {GUEST, MEMORY, 0};
    static const uint8_t id[HD_ID_BYTES] = "EXAMPLE-0001";
    struct device d = {.words = hd_state_words(), .chain_words = hd_chain_words(SIZE)};
    d.state = calloc(d.words, 8), d.chain = calloc(d.chain_words, 8), d.stage = malloc(HD_STAGE_BYTES);
    if (!d.state || !d.chain || !d.stage) perror("host"), exit(1);
    need("hd_memory", hd_memory(d.state, d.words, region, HD_REGION_WORDS, MEMORY));
    need("hd_disk", hd_disk(d.state, d.words, 0, SECTORS, 0, id, HD_ID_BYTES, DISK));
    need("hd_enable",
         hd_enable(d.state, d.words, SIZE, GUEST + DESC, GUEST + AVAIL, GUEST + USED, d.chain_words, HD_STAGE_BYTES));
    return d;
}

static uint64_t step(struct device *d)
{
    // Before S7: what S6 wrote (data, status, used entry) is seen before used idx, and all fetches are done.
    atomic_thread_fence(memory_order_release);
    uint64_t answer = hd_step(d->state, d->words, memory, MEMORY, disk, DISK, d->chain, d->chain_words, d->stage, HD_STAGE_BYTES);
    // After S1: entry and descriptors are read after the idx that covers them.
    atomic_thread_fence(memory_order_acquire);
    return answer;  // on x86-64 neither fence is an instruction, so every step has both
}

static int turn(struct device *d)  // at most so many steps, then it is another device's turn; 0 when this queue has ended
{
    for (int i = 0; i < STEPS_A_TURN; i++) {
        uint64_t status[HD_STATUS_WORDS], answer = step(d);
        char text[HD_BROKEN_TEXT_BYTES];
        switch (answer) {
        case HD_STEP_IDLE: return 1;
        case HD_STEP_WENT_ON: break;
        case HD_STEP_ANSWERED: break;    // a real host notifies the guest here
        case HD_STEP_BROKEN:
            need("hd_status", hd_status(d->state, d->words, status, HD_STATUS_WORDS));
            hd_broken_text(text, sizeof text, status);
            printf("host: %s\n", text);
            return 0;                    // until hd_reset this queue does nothing more
        default: printf("host: hd_step answered %llu, a mistake of this host\n", (unsigned long long)answer); return 0;
        }
    }
    return 1;
}

int main(void)
{
    thrd_t thread;
    const struct timespec pause = {.tv_nsec = 1000000};
    struct device d = set_up();
    snprintf((char *)disk + 3 * HD_SECTOR_BYTES, HD_SECTOR_BYTES, "hello from sector three");
    if (thrd_create(&thread, guest, NULL) != thrd_success) perror("host"), exit(1);
    // a real host serves its other devices here, and waits for a notification if all are idle
    for (int i = 0; i < TURNS && turn(&d); i++) thrd_sleep(&pause, NULL);
    atomic_store(&given_up, 1);  // by the host: a guest that still waits ends
    thrd_join(thread, NULL);
    uint64_t status[HD_STATUS_WORDS];
    need("hd_status", hd_status(d.state, d.words, status, HD_STATUS_WORDS));
    printf("host: %llu answered\n", (unsigned long long)status[HD_STATUS_ANSWERED]);
    int as_promised = status[HD_STATUS_ANSWERED] == 1 && memory[STATUS] == 0 &&
                      memcmp(memory + DATA, disk + 3 * HD_SECTOR_BYTES, HD_SECTOR_BYTES) == 0 &&
                      status[HD_STATUS_REASON] == HD_REASON_MEMORY && status[HD_STATUS_BROKEN_AT] == 4;
    need("hd_reset", hd_reset(d.state, d.words));
    free(d.state), free(d.chain), free(d.stage);
    return !as_promised;
}
