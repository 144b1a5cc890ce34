// The bench of the host-side tests: lent slices between inaccessible pages, the setting of 01 §6 and 03 §6, and checks.
// A guest's write goes to guest memory and to its expected image (poke); an expected write of the device only to the
// image (expect). as_expected compares every byte.
#ifndef BENCH_H
#define BENCH_H

#include <signal.h>
#include <stdio.h>
#include <stdlib.h>
#include <string.h>
#include <sys/mman.h>
#include <unistd.h>
#include "hostiledisk.h"

#define COUNT(a) (sizeof(a) / sizeof *(a))
#define TOP UINT64_MAX
#define GUEST 0x80000000ull
#define DESC 0x80001000ull
#define AVAIL 0x80002000ull
#define USED 0x80003000ull
#define HEADER 0x80004000ull
#define DATA 0x80005000ull
#define STATUS 0x80006000ull
#define D(i) (DESC + 16 * (i))  // a descriptor: addr at 0, len at 8, flags at 12, next at 14
#define W_DESC GUEST  // the areas of a queue of up to 1,024
#define W_AVAIL (GUEST + 0x4000)
#define W_USED (GUEST + 0x4808)
enum { OUT_LEAST = 7, OUT_MOST = 12, NONE = HD_NO_DESCRIPTOR };
enum { MEM = 65536, Q = 8, SECTORS = 64, DISK = 512 * SECTORS, STAGE = 1048576 };
enum { START = 1537, BACKING = START + DISK + 999 };  // the disk inside a larger backing slice

// ---- checks

static const char *row = "start";
static unsigned long checks, failed;

static inline void same(const char *what, uint64_t want, uint64_t got)
{
    checks++;
    if (want == got) return;
    failed++;
    printf("FAILED %s: %s: expected %llu, got %llu\n", row, what, (unsigned long long)want, (unsigned long long)got);
}

static inline void same_bytes(const char *what, const void *want, const void *got, size_t n)
{
    const uint8_t *a = want, *b = got;
    size_t i = 0;
    checks++;
    if (memcmp(a, b, n) == 0) return;
    while (a[i] == b[i]) i++;
    failed++;
    printf("FAILED %s: %s: byte 0x%zx: expected %02x, got %02x\n", row, what, i, a[i], b[i]);
}

static inline void fault(int sig)  // only ever raised inside a call of the library, so stdio is at rest
{
    printf("FAILED %s: signal %d: a byte outside the lent slices was touched\n", row, sig);
    fflush(stdout);
    _exit(1);
}

// ---- lent memory

enum { PAGE = 65536, SLACK = 0xa5 };  // PAGE: a multiple of the page size of every machine that runs this
static int low;                       // slices lie at the low end of their pages, else at the high end
static struct { uint8_t *beside; size_t n; } loans[160];
static size_t loaned;

static inline void *lend(size_t n)
{
    size_t room = (n / PAGE + (n % PAGE != 0 || n == 0)) * PAGE;
    uint8_t *p = mmap(NULL, room + 2 * PAGE, PROT_NONE, MAP_PRIVATE | MAP_ANONYMOUS, -1, 0);
    if (p == MAP_FAILED || mprotect(p + PAGE, room, PROT_READ | PROT_WRITE) || loaned == COUNT(loans)) {
        perror("no memory to lend");
        exit(2);
    }
    p += PAGE;
    memset(p, SLACK, room);
    loans[loaned].beside = low ? p + n : p, loans[loaned++].n = room - n;
    return low ? p : p + room - n;
}

static inline void slack(void)  // what shares a page with a slice has kept its value
{
    static uint8_t want[PAGE];
    memset(want, SLACK, PAGE);
    for (size_t i = 0; i < loaned; i++) same_bytes("beside a slice", want, loans[i].beside, loans[i].n);
}

enum { OF_STATE, OF_MEM, OF_BACKING, OF_CHAIN, OF_STAGE, SLICES };
static void *lent[SLICES], *spare[SLICES];
static size_t size[SLICES], words, chain_words;
#define state ((uint64_t *)lent[OF_STATE])
#define mem ((uint8_t *)lent[OF_MEM])
#define backing ((uint8_t *)lent[OF_BACKING])
#define chain ((uint64_t *)lent[OF_CHAIN])
#define stage ((uint8_t *)lent[OF_STAGE])
static uint64_t *scant, *out;         // scant: a state one word too short; out: all the words of hd_status
static uint64_t *out_of[OUT_MOST + 1];  // out_of[n]: n words for hd_status, from OUT_LEAST on
static uint64_t *list[100];           // list[n]: n words for regions
static uint8_t *id, *id_of[22];       // id: "SCRATCH-0007"; id_of[n]: n bytes, for 0, 19 and 21
static uint8_t want_mem[MEM], want_backing[BACKING];
static size_t turn;  // the place of GUEST in the slice

static inline void lend_all(int at_low_end)
{
    low = at_low_end, loaned = 0;
    words = hd_state_words(), chain_words = hd_chain_words(Q);
    if (!words || !chain_words) {
        printf("FAILED sizes: hd_state_words %zu, hd_chain_words(8) %zu\n", words, chain_words);
        exit(1);
    }
    size[OF_STATE] = 8 * words, size[OF_MEM] = MEM, size[OF_BACKING] = BACKING, size[OF_CHAIN] = 8 * chain_words, size[OF_STAGE] = STAGE;
    for (int i = 0; i < SLICES; i++) lent[i] = lend(size[i]), spare[i] = lend(size[i]);
    for (size_t n = 0; n < COUNT(list); n++) list[n] = lend(8 * n);
    scant = lend(8 * (words - 1)), out = lend(8 * HD_STATUS_WORDS);
    for (size_t n = OUT_LEAST; n <= OUT_MOST; n++) out_of[n] = lend(8 * n);
    id = lend(20), id_of[0] = lend(0), id_of[19] = lend(19), id_of[21] = lend(21);
    memset(id, 0, 20), memcpy(id, "SCRATCH-0007", 12), memset(scant, 0, 8 * (words - 1));
}

static inline void move_slices(void)  // all contents to other places; nothing stays behind
{
    for (int i = 0; i < SLICES; i++) {
        void *old = lent[i];
        memcpy(spare[i], old, size[i]), memset(old, 0xee, size[i]);
        lent[i] = spare[i], spare[i] = old;
    }
}

// ---- guest memory and its expected image

static inline uint8_t *in(uint8_t *m, uint64_t guest) { return m + (guest - GUEST + turn) % MEM; }
static inline void expect_bytes(uint64_t a, const void *from, size_t n) { memcpy(in(want_mem, a), from, n); }
static inline void poke_bytes(uint64_t a, const void *from, size_t n) { expect_bytes(a, from, n), memcpy(in(mem, a), from, n); }
static inline void expect(uint64_t a, unsigned n, uint64_t v)
{
    for (unsigned i = 0; i < n; i++) in(want_mem, a)[i] = (uint8_t)(v >> 8 * i);
}
static inline void poke(uint64_t a, unsigned n, uint64_t v) { expect(a, n, v), memcpy(in(mem, a), in(want_mem, a), n); }

static inline void describe(unsigned i, uint64_t addr, uint32_t len, unsigned flags, unsigned next)
{
    poke(D(i), 8, addr), poke(D(i) + 8, 4, len), poke(D(i) + 12, 2, flags), poke(D(i) + 14, 2, next);
}

static inline void expect_used(unsigned place, uint64_t head, uint64_t len, uint64_t idx)
{
    expect(USED + 4 + 8 * place, 4, head), expect(USED + 8 + 8 * place, 4, len), expect(USED + 2, 2, idx);
}

static inline void as_expected(void)
{
    same_bytes("guest memory", want_mem, mem, MEM);
    same_bytes("backing slice", want_backing, backing, BACKING);
}

// ---- the library's calls with the setting's arguments

static inline uint64_t memory(const uint64_t *regions, size_t n)
{
    memcpy(list[n], regions, 8 * n);
    return hd_memory(state, words, list[n], n, MEM);
}
static inline uint64_t disk(uint64_t read_only) { return hd_disk(state, words, START, SECTORS, read_only, id, 20, BACKING); }
static inline uint64_t enable(void) { return hd_enable(state, words, Q, DESC, AVAIL, USED, chain_words, STAGE); }
static inline uint64_t step(void) { return hd_step(state, words, mem, MEM, backing, BACKING, chain, chain_words, stage, STAGE); }

static inline void blank(const char *name)  // nothing set up; memory, backing slice and disk as at the beginning
{
    static uint8_t first_mem[MEM], first_backing[BACKING];
    row = name, turn = 0;
    if (!first_mem[0]) {
        for (size_t i = 0; i < MEM; i++) first_mem[i] = (uint8_t)(i % 251 + 1);
        for (size_t i = 0; i < BACKING; i++) first_backing[i] = (uint8_t)(i * 11 + 5);
        for (size_t i = 0; i < DISK; i++) first_backing[START + i] = (uint8_t)(7 * i + i / 512);
    }
    memcpy(want_mem, first_mem, MEM), memcpy(want_backing, first_backing, BACKING);
    memcpy(mem, want_mem, MEM), memcpy(backing, want_backing, BACKING);
    memset(state, 0, size[OF_STATE]), memset(chain, 0x5a, size[OF_CHAIN]);
    for (size_t i = 0; i < STAGE; i += 1024) memset(stage + i, 0x5b, 1024);  // at once it takes an emulator ten times as long
}

static inline void set_up(const char *name, uint64_t read_only)  // memory and disk, no queue yet
{
    blank(name);
    same("hd_memory", 0, memory((uint64_t[]){GUEST, MEM, 0}, 3));
    same("hd_disk", 0, disk(read_only));
}

static inline void begin(const char *name) { set_up(name, 0), same("hd_enable", 0, enable()); }

// The same with an out of every length: 45 for 7 words, the first eight for 8 and 9, all ten for more; the others stay.
static inline void status_in_every_length(const uint64_t *want)
{
    uint64_t unwritten[OUT_MOST];
    memset(unwritten, 0xee, sizeof unwritten);
    for (size_t n = OUT_LEAST; n <= OUT_MOST; n++) {
        const size_t written = n < HD_STATUS_WORDS_LEAST ? 0 : n < HD_STATUS_WORDS ? HD_STATUS_WORDS_LEAST : HD_STATUS_WORDS;
        memset(out_of[n], 0xee, 8 * n);
        same("hd_status, an out of another length", written ? 0 : 45, hd_status(state, words, out_of[n], n));
        same_bytes("the words written to it", want, out_of[n], 8 * written);
        same_bytes("the words behind them", unwritten, out_of[n] + written, 8 * (n - written));
    }
}

static inline void status_is(const uint64_t *want)
{
    static const char *const names[] = {"enabled", "broken reason", "taken", "answered", "next step", "head", "descriptors fetched", "bytes fetched",
                                        "broken at", "last chain"};
    memset(out, 0xee, 8 * HD_STATUS_WORDS);
    same("hd_status", 0, hd_status(state, words, out, HD_STATUS_WORDS));
    for (int i = 0; i < HD_STATUS_WORDS; i++) same(names[i], want[i], out[i]);
    status_in_every_length(want);
}
#define STATUS_IS(...) status_is((const uint64_t[HD_STATUS_WORDS]){__VA_ARGS__})

struct at { uint64_t answer, status[HD_STATUS_WORDS]; };
static inline void walk(const struct at *at, size_t n)  // n steps, each with its answer and what hd_status says after it
{
    for (size_t i = 0; i < n; i++) same("hd_step", at[i].answer, step()), status_is(at[i].status);
}

static inline void steps(const char *answers)  // a step for each digit, which is its answer
{
    for (; *answers; answers++) same("hd_step", (uint64_t)(*answers - '0'), step());
}

#endif
