// One call of hd_step, with every load and store that it makes (plugin.c), and what may be touched at all: the five lent slices,
// the stack, and, for loads, the program's own constants.
#ifndef TRACED_H
#define TRACED_H

#include <elf.h>
#include <fcntl.h>
#include <sys/auxv.h>
#include "hostile.h"
#include "log.h"

static struct log *traced;
static unsigned queue_size;

static void open_log(const char *file)
{
    const int fd = open(file, O_RDWR);
    traced = fd < 0 ? MAP_FAILED : mmap(NULL, sizeof *traced, PROT_READ | PROT_WRITE, MAP_SHARED, fd, 0);
    if (traced != MAP_FAILED) return;
    perror(file);
    exit(2);
}

__attribute__((always_inline)) static inline uint64_t step_unseen(void)
{
    return hd_step(state, words, mem, SLICE, backing, BACKED, chain, 2 * queue_size, stage, STAGE);
}

// The call has a section of its own, so that its own accesses can be told from the library's.
extern const char __start_traced_call[], __stop_traced_call[];
static uintptr_t frame;

__attribute__((noinline, section("traced_call"))) static uint64_t call_traced(void)
{
    frame = (uintptr_t)__builtin_frame_address(0);
    traced->count = 0, traced->on = 1;
    const uint64_t answer = step_unseen();
    traced->on = 0;
    return answer;
}

static int by_the_library(const struct access *a) { return a->pc < (uintptr_t)__start_traced_call || a->pc >= (uintptr_t)__stop_traced_call; }

enum { OF_STACK = SLICES, OF_CONSTANTS, NOWHERE };
enum { STACK_BYTES = 65536 };

static int lies_in(const struct access *a, uint64_t from, uint64_t len) { return a->at >= from && a->n <= len && a->at - from <= len - a->n; }

// A part of the program that is never written: code and constants, and the table of addresses by which memcpy is called.
static int in_constants(const struct access *a)
{
    const Elf64_Phdr *part = (const Elf64_Phdr *)getauxval(AT_PHDR);
    for (unsigned long i = 0; i < getauxval(AT_PHNUM); i++) {
        const int constant = part[i].p_type == PT_GNU_RELRO || (part[i].p_type == PT_LOAD && !(part[i].p_flags & PF_W));
        if (constant && lies_in(a, part[i].p_vaddr, part[i].p_memsz)) return 1;
    }
    return 0;
}

static int place_of(const struct access *a)
{
    for (int i = 0; i < SLICES; i++)
        if (lies_in(a, (uintptr_t)lent[i], size[i])) return i;
    if (lies_in(a, frame - STACK_BYTES, STACK_BYTES + 256)) return OF_STACK;  // below the caller's frame, and its arguments
    return !a->store && in_constants(a) ? OF_CONSTANTS : NOWHERE;
}

#endif
