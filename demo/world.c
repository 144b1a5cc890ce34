// What the host has: the image file with two disks, guest memory, one device, and what memory and image should hold.
#define _DEFAULT_SOURCE  // mmap without a file, ftruncate
#include <fcntl.h>
#include <stdio.h>
#include <stdlib.h>
#include <string.h>
#include <sys/mman.h>
#include <unistd.h>
#include "demo.h"

struct world world;
const uint8_t identity[HD_ID_BYTES] = "SCRATCH-0007";
static uint8_t first_image[IMAGE], first_memory[MEMORY];  // as they are at the beginning of each attack

static void *or_die(void *p, const char *what)
{
    if (p && p != MAP_FAILED) return p;
    perror(what);
    exit(2);
}

static void or_refused(const char *call, uint64_t answer)
{
    if (answer == HD_OK) return;
    printf("FAILED: %s was refused with %llu\n", call, (unsigned long long)answer);
    exit(1);
}

void make_world(const char *image_file)
{
    int fd = open(image_file, O_RDWR | O_CREAT | O_EXCL, 0600);
    if (fd < 0 || ftruncate(fd, IMAGE)) perror(image_file), exit(2);
    world.image = or_die(mmap(NULL, IMAGE, PROT_READ | PROT_WRITE, MAP_SHARED, fd, 0), image_file);
    close(fd);
    world.memory = or_die(mmap(NULL, MEMORY, PROT_READ | PROT_WRITE, MAP_PRIVATE | MAP_ANONYMOUS, -1, 0), "guest memory");
    world.words = hd_state_words();
    world.state = or_die(calloc(world.words, 8), "state");
    world.kept = or_die(calloc(world.words, 8), "state");
    world.chain = or_die(calloc(hd_chain_words(HD_QUEUE_SIZE_MAX), 8), "chain memory");
    world.stage = or_die(malloc(HD_STAGE_BYTES), "staging memory");
    world.want_memory = or_die(malloc(MEMORY), "expected memory");
    world.want_image = or_die(malloc(IMAGE), "expected image");
    noise(first_memory, MEMORY, 11);
    noise(first_image, IMAGE, 7);
    for (size_t i = OURS; i < OURS_END; i++) first_image[i] = (uint8_t)(7 * (i - OURS) + (i - OURS) / 512);  // 03 §6
}

void set_up(bool read_only)
{
    static const uint64_t regions[] = {LOW, LOW_BYTES, GAP, HIGH, HIGH_BYTES, HIGH_AT};
    memcpy(world.want_memory, first_memory, MEMORY);
    memcpy(world.memory, first_memory, MEMORY);
    memcpy(world.want_image, first_image, IMAGE);
    memcpy(world.image, first_image, IMAGE);
    memset(world.state, 0, 8 * world.words);
    world.published = world.answered = 0;
    or_refused("hd_memory", hd_memory(world.state, world.words, regions, COUNT(regions), MEMORY));
    or_refused("hd_disk", hd_disk(world.state, world.words, OURS, SECTORS, read_only, identity, HD_ID_BYTES, IMAGE));
}

uint64_t enable(uint64_t queue)
{
    world.queue = queue;
    return hd_enable(world.state, world.words, queue, DESC, AVAIL, USED, hd_chain_words(queue), HD_STAGE_BYTES);
}

void begin(uint64_t queue, bool read_only)
{
    set_up(read_only);
    or_refused("hd_enable", enable(queue));
}

void take_over(uint64_t queue, uint16_t start)
{
    set_up(false);
    world.queue = queue, world.published = world.answered = start;
    or_refused("hd_enable_at", hd_enable_at(world.state, world.words, queue, DESC, AVAIL, USED, hd_chain_words(queue), HD_STAGE_BYTES, start));
}

uint64_t step(void)
{
    return hd_step(world.state, world.words, world.memory, MEMORY, world.image, IMAGE, world.chain, hd_chain_words(world.queue),
                   world.stage, HD_STAGE_BYTES);
}

void look(uint64_t status[HD_STATUS_WORDS])
{
    or_refused("hd_status", hd_status(world.state, world.words, status, HD_STATUS_WORDS));
}

void keep_state(void) { memcpy(world.kept, world.state, 8 * world.words); }
bool state_kept(void) { return memcmp(world.kept, world.state, 8 * world.words) == 0; }

void noise(uint8_t *at, size_t n, uint64_t seed)  // splitmix64
{
    for (size_t i = 0; i < n; i += 8) {
        uint64_t z = (seed += 0x9e3779b97f4a7c15);
        z = (z ^ z >> 30) * 0xbf58476d1ce4e5b9, z = (z ^ z >> 27) * 0x94d049bb133111eb, z ^= z >> 31;
        memcpy(at + i, &z, n - i < 8 ? n - i : 8);
    }
}

// ---- guest memory and what it should hold

static size_t place(uint64_t address, size_t n)
{
    if (address >= LOW && address + n <= LOW + LOW_BYTES) return address - LOW + GAP;
    if (address >= HIGH && address + n <= HIGH + HIGH_BYTES) return address - HIGH + HIGH_AT;
    fprintf(stderr, "demo: the script itself leaves guest memory at 0x%llx\n", (unsigned long long)address);
    exit(2);
}

void expect_bytes(uint64_t address, const void *from, size_t n) { memcpy(world.want_memory + place(address, n), from, n); }

void poke_bytes(uint64_t address, const void *from, size_t n)
{
    expect_bytes(address, from, n);
    memcpy(world.memory + place(address, n), from, n);
}

void expect(uint64_t address, unsigned n, uint64_t value) { expect_bytes(address, &value, n); }  // lowest byte first, as x86-64 has it
void poke(uint64_t address, unsigned n, uint64_t value) { poke_bytes(address, &value, n); }

uint64_t peek(uint64_t address, unsigned n)
{
    uint64_t value = 0;
    memcpy(&value, world.memory + place(address, n), n);
    return value;
}

volatile uint8_t *guest_byte(uint64_t address) { return world.memory + place(address, 1); }

void replace_memory(uint64_t seed)
{
    noise(world.want_memory + GAP, LOW_BYTES, seed);
    noise(world.want_memory + HIGH_AT, HIGH_BYTES, seed + 1);
    memcpy(world.memory + GAP, world.want_memory + GAP, LOW_BYTES);
    memcpy(world.memory + HIGH_AT, world.want_memory + HIGH_AT, HIGH_BYTES);
}

// ---- comparing

static const char *part(const char *what, const uint8_t *want, const uint8_t *got, size_t from, size_t to)
{
    static char text[128];
    if (memcmp(want + from, got + from, to - from) == 0) return NULL;
    while (want[from] == got[from]) from++;
    snprintf(text, sizeof text, "%s: byte 0x%zx is %02x, should be %02x", what, from, got[from], want[from]);
    return text;
}

const char *walls(void)
{
    static const struct { const char *what; size_t from, to; } gaps[] = {
        {"memory before the guest's", 0, GAP}, {"memory between the guest's", GAP + LOW_BYTES, HIGH_AT},
        {"memory behind the guest's", HIGH_AT + HIGH_BYTES, MEMORY}};
    const char *found = part("the neighbour's disk", world.want_image, world.image, OURS_END, IMAGE);
    if (!found) found = part("the host's page", world.want_image, world.image, 0, OURS);
    for (size_t i = 0; i < COUNT(gaps) && !found; i++) found = part(gaps[i].what, world.want_memory, world.memory, gaps[i].from, gaps[i].to);
    return found;
}

const char *differs(void)
{
    const char *found = walls();
    if (!found) found = part("our disk", world.want_image, world.image, OURS, OURS_END);
    if (!found) found = part("guest memory", world.want_memory, world.memory, 0, MEMORY);
    return found;
}
