// A small vhost-user front end: what a monitor and its guest's driver do, without a machine. Shared by the files of this test.
#ifndef FRONT_H
#define FRONT_H

#include <stdatomic.h>
#include <stdio.h>
#include <stdlib.h>
#include <string.h>
#include "../../host/vhost/message.h"

#define COUNT(a) (sizeof(a) / sizeof *(a))
enum { PATIENCE = 20000 };  // milliseconds that an answer may take on a busy machine

// ---- checks (front.c)
extern const char *row;  // what is tried just now
extern unsigned long checks;
void same(const char *what, uint64_t want, uint64_t got);  // ends the test at the first difference
void fail(const char *what);
uint32_t chance(uint32_t below);  // 0 up to below - 1, from the seed

// ---- guest memory (memory.c): regions of two files
enum { ROWS = 5, FILES = 2 };
extern const struct table_row rows[ROWS];
extern const int file_of[ROWS];
extern int files[FILES];
void memory_make(void);
void memory_put(uint64_t guest, const void *from, size_t n);
void memory_get(uint64_t guest, void *to, size_t n);
uint16_t *memory_u16(uint64_t guest);
uint64_t memory_user(uint64_t guest);  // the address that the front end tells the back end for it
void memory_outside_same(void);        // the files' bytes outside all regions are as they were

// ---- the monitor's half (monitor.c)
struct monitor { int socket, kick, call, err; };
void send_message(int socket, uint32_t type, uint32_t flags, const void *payload, uint32_t size, const int *fds, size_t n);
uint64_t ask(int socket, uint32_t type);
void tell(int socket, uint32_t type, const union payload *p, uint32_t size, const int *fds, size_t n);  // and hears that it was done
void tell_table(int socket, size_t n);  // the first n of the rows, in another order
int dial(const char *path);
void greet(struct monitor *m, const char *path);  // connects, and agrees on features
void hang_up(struct monitor *m);
void is_dropped(int socket);
struct place { uint64_t desc, avail, used; };  // guest addresses
void ring_start(struct monitor *m, uint32_t size, uint32_t base, const struct place *at);
uint32_t ring_stop(struct monitor *m);
bool heard(int fd, int milliseconds);

// ---- the driver's half (driver.c)
enum { SLOTS = 6, QUEUE_TOP = 128, CHAIN_TOP = 12 };
struct descriptor { uint64_t at; uint32_t len; uint16_t flags, next; };  // 01 §2; flags: 1 next, 2 writable
struct tally { uint64_t in, out, flush, get_id, other, headless, read, written, refused, unsupported; };
struct request {
    uint16_t head, descriptors[CHAIN_TOP];
    size_t count;
    uint32_t type, r, w;
    uint64_t sector, at[CHAIN_TOP];
    uint32_t len[CHAIN_TOP];
    bool writable[CHAIN_TOP];
    uint8_t *image;  // what its part of guest memory must hold
    size_t span;     // bytes of it
};
struct driver {
    const char *path, *id, *image;
    uint64_t offset;  // of the disk in the image
    struct monitor monitor;
    uint8_t *disk;  // what it must hold
    uint64_t sectors;
    bool read_only;
    uint32_t queue_top;  // the daemon's --queue-size
    uint32_t size;
    struct place at;
    uint16_t idx, seen;  // of the available and of the used ring
    unsigned laid, compared;  // requests
    bool busy[QUEUE_TOP];
    struct request slot[SLOTS];
    struct tally tally;
};
void driver_connect(struct driver *d);
void driver_start(struct driver *d, uint32_t size, uint16_t base, unsigned place);
void driver_stop(struct driver *d);       // the base must be what was answered
void driver_run(struct driver *d, unsigned requests);
void driver_submit(struct driver *d, unsigned n);  // without a kick
void driver_kick(struct driver *d);
void driver_wait(struct driver *d);       // until everything is answered
void driver_go_on(struct driver *d);      // the same rings, from what was answered on
unsigned driver_at_once(const struct driver *d);  // requests that always find descriptors
void driver_print(const struct driver *d);

// ---- what is tried (scenes.c, malformed.c)
void scene_handshake(struct driver *d);
void scene_restarts(struct driver *d);
void scene_stops(struct driver *d);
void scene_tables(struct driver *d);
void scene_hang_ups(struct driver *d);
void scene_turns(struct driver *busy, struct driver *quick);
void scene_long(struct driver *d);
void scene_broken(struct driver *d);
void scene_malformed(struct driver *d, struct driver *neighbour);

#endif
