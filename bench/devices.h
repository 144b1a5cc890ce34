// The devices that are compared, each behind the same calls: bench/run gives the functions of each a prefix of its own.
#ifndef DEVICES_H
#define DEVICES_H

#include "hostiledisk.h"

#define DECLARE(p)                                                                              \
    extern __typeof__(hd_state_words) p##hd_state_words;                                        \
    extern __typeof__(hd_chain_words) p##hd_chain_words;                                        \
    extern __typeof__(hd_stage_bytes) p##hd_stage_bytes;                                        \
    extern __typeof__(hd_memory) p##hd_memory;                                                  \
    extern __typeof__(hd_disk) p##hd_disk;                                                      \
    extern __typeof__(hd_enable) p##hd_enable;                                                  \
    extern __typeof__(hd_step) p##hd_step

struct device {
    const char *name;
    __typeof__(hd_state_words) *state_words;
    __typeof__(hd_chain_words) *chain_words;
    __typeof__(hd_stage_bytes) *stage_bytes;
    __typeof__(hd_memory) *memory;
    __typeof__(hd_disk) *disk;
    __typeof__(hd_enable) *enable;
    __typeof__(hd_step) *step;
};

#define CALLS(p) p##hd_state_words, p##hd_chain_words, p##hd_stage_bytes, p##hd_memory, p##hd_disk, p##hd_enable, p##hd_step

DECLARE(library_);  // the static library
DECLARE(plain_);    // tests/plain/device.c: the same rules and the same schedule, in C
DECLARE(direct_);   // bench/direct.c: payload straight from each buffer to the disk

enum { LIBRARY, PLAIN, DIRECT, DEVICES };
static const struct device devices[DEVICES] = {
    {"library", CALLS(library_)},
    {"plain", CALLS(plain_)},
    {"direct", CALLS(direct_)},
};

#endif
