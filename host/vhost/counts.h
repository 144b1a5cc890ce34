// What a disk has done, for the line of counts. Nothing here reads guest memory, and nothing that the device does
// depends on it.
#ifndef VHOST_COUNTS_H
#define VHOST_COUNTS_H

#include <stdbool.h>
#include <stdint.h>

enum { IN = 0, OUT = 1, FLUSH = 4, GET_ID = 8 };  // 03 §3

enum { S1 = 1, S2, S3, S4, S5, S6, S7 };  // the step schedule
enum { ENABLED, REASON, TAKEN, ANSWERED, STEP, HEAD, DESCRIPTORS, BYTES, BROKEN_AT, LAST_CHAIN, STATUS_WORDS };  // of hd_status

struct counts {
    uint64_t in, out, flush, get_id, other, headless;
    uint64_t read, written;         // bytes of requests with status 0
    uint64_t refused, unsupported;  // status 1 and 2
    uint64_t starts, base;          // of the queue; base: where it began last
    uint64_t breaks;
    uint64_t broken[STATUS_WORDS];  // what hd_status said at the last break
    uint64_t dropped;               // monitors
    struct { bool header; uint32_t type; uint64_t verdict, readable, writable; } at_hand;  // the request that isn't answered yet
};

bool counts_fit(void);  // the library keeps its private memory as counts_see expects
void counts_see(struct counts *c, uint64_t before, uint64_t next, const uint64_t *state, const uint8_t *stage);
bool counts_flush(const struct counts *c);  // the request that is about to be answered is an accepted FLUSH
void counts_broken(struct counts *c, const uint64_t *status);
enum { WHERE_BYTES = 256 };
void counts_where(char text[WHERE_BYTES], const uint64_t *status);  // a broken queue's reason, descriptor, head and number taken, in words
void counts_print(const struct counts *c, const char *who);

#endif
