// ./run's program: a host with a disk image, an honest guest, and a gallery of attacks on the device.
// A guest's write goes to guest memory and to its expected image (poke); an expected write of the device goes only to the
// image (expect). Every byte of guest memory and of the disk image is compared with what is expected.
#ifndef DEMO_H
#define DEMO_H

#include <stdbool.h>
#include "hostiledisk.h"

#define COUNT(a) (sizeof(a) / sizeof *(a))
#define TOP UINT64_MAX

// ---- world.c: what the host has

// Guest memory: two regions of one slice; the pages before, between and behind them belong to the host.
#define LOW UINT64_C(0x80000000)
#define HIGH UINT64_C(0x100000000)
enum { GAP = 4096, LOW_BYTES = 0x280000, HIGH_BYTES = 0x80000 };
enum { HIGH_AT = GAP + LOW_BYTES + GAP, MEMORY = HIGH_AT + HIGH_BYTES + GAP };
#define DESC (LOW + 0x1000)
#define AVAIL (LOW + 0x5000)
#define USED (LOW + 0x6000)
#define HEADER (LOW + 0x9000)
#define DATA (LOW + 0xa000)
#define STATUS (LOW + 0x9800)
#define D(i) (DESC + 16 * (i))  // a descriptor: addr at 0, len at 8, flags at 12, next at 14

// The image file: a page of the host's own, our disk, the neighbour's disk.
enum { OURS = 4096, SECTORS = 4096, OURS_END = OURS + SECTORS * HD_SECTOR_BYTES, IMAGE = OURS_END + 2048 * HD_SECTOR_BYTES };

extern struct world {
    uint64_t *state, *kept, *chain;               // kept: the state words before a call
    uint64_t words, queue;                        // how many state words there are, and the queue's size
    uint8_t *stage, *memory, *image;
    uint8_t *want_memory, *want_image;            // as they should be
    uint16_t published, answered;                 // the driver's idx, and the device's as it should be
} world;
extern const uint8_t identity[HD_ID_BYTES];

void make_world(const char *image_file);
void begin(uint64_t queue, bool read_only);       // everything as at the beginning, the queue enabled
void set_up(bool read_only);                      // the same, no queue yet
void take_over(uint64_t queue, uint16_t start);   // .. enabled by a host that was restarted: both counters at start
uint64_t enable(uint64_t queue);
uint64_t step(void);
void look(uint64_t status[HD_STATUS_WORDS]);
void keep_state(void);
bool state_kept(void);                            // since keep_state no state word has changed
void noise(uint8_t *at, size_t n, uint64_t seed);
void expect_bytes(uint64_t address, const void *from, size_t n);
void expect(uint64_t address, unsigned n, uint64_t value);
void poke_bytes(uint64_t address, const void *from, size_t n);
void poke(uint64_t address, unsigned n, uint64_t value);
uint64_t peek(uint64_t address, unsigned n);
volatile uint8_t *guest_byte(uint64_t address);   // for a guest on another thread
void replace_memory(uint64_t seed);               // the guest replaces every byte that it has
const char *differs(void);                        // what isn't as expected, or NULL
const char *walls(void);                          // what has changed outside our disk and guest memory, or NULL

// ---- request.c: the guest's half

enum { IN = 0, OUT = 1, FLUSH = 4, GET_ID = 8 };
enum { NEXT = 1, WRITE = 2, INDIRECT = 4 };
struct buffer { uint64_t at; uint32_t len; bool writable; };
struct request {
    uint32_t type;
    uint64_t sector;
    const uint8_t *data;  // to the disk
    unsigned head, n;     // descriptors head, head + 1, .. modulo the queue's size
    struct buffer buffers[HD_QUEUE_SIZE_MAX];
};

struct request ask(uint32_t type, uint64_t sector, const uint8_t *data);
void add(struct request *r, uint64_t at, uint32_t len, bool writable);
uint64_t bytes_of(const struct request *r, bool writable);
uint64_t status_at(const struct request *r);  // the last writable byte
void describe(unsigned i, uint64_t at, uint32_t len, unsigned flags, unsigned next);
void describe_one(const struct request *r, unsigned k);
void lay_readable(const struct request *r);
void lay(const struct request *r);  // descriptors, header and data, available entry and idx

// ---- serve.c: the host's half

struct outcome { uint64_t answer, reason, status, len, at; };  // at: of a broken queue, the descriptor; else 0
typedef void meddler(const uint64_t *status);  // what the guest does before a step, knowing what the device is at

const char *run_steps(const struct request *asked, struct outcome want, meddler *meddle, struct outcome *got);
// .. and compares every byte, and the outcome
const char *serve(const struct request *asked, struct outcome want, meddler *meddle, struct outcome *got);
void note_break(const uint64_t *status, struct outcome *got);  // why and where, if the queue is broken
bool same_outcome(struct outcome a, struct outcome b);
const char *said(struct outcome o);

// ---- show.c: the output

extern unsigned shown, failed;
void title(const char *text);
void show(const char *name, const char *deed, const char *answered, const char *problem);

// ---- the parts of the show

void honest_guest(void);       // honest.c
void attacks_on_rings(void);   // gallery.c
void racing_guest(void);       // race.c
void attacks_on_set_up(void);  // setup.c
void spoilt_words(void);       // spoilt.c
void noisy_guest(void);        // spoilt.c

#endif
