// One disk: its image, the memory that the device is lent, its monitor and its queue.
#ifndef VHOST_DISK_H
#define VHOST_DISK_H

#include "counts.h"
#include "image.h"
#include "message.h"
#include "options.h"
#include "table.h"

struct ring {  // as the monitor describes it; the addresses are the monitor's own
    uint32_t size, base;
    uint64_t desc, avail, used;
    bool addressed;
    bool wanted;                // SET_VRING_ENABLE, or a monitor that doesn't know it
    bool running;               // the device has it enabled
    bool halted;                // broken, or a flush that failed: no step until it is started anew
    bool busy;                  // the last step found something to do
    int kick, call, err;        // event descriptors, -1 if there is none
};

struct disk {
    const struct disk_options *options;
    struct image image;
    uint64_t *state, *chain;    // lent
    uint8_t *stage;
    size_t state_len, chain_len, stage_len;
    int listening, monitor;     // sockets; monitor is -1 while nobody is connected
    struct inbox inbox;
    uint64_t features, protocol;  // accepted by the monitor
    struct table table;
    struct ring ring;
    uint64_t status[STATUS_WORDS];  // hd_status after the last step
    struct counts counts;
};

bool disk_lend(struct disk *d);  // memory for the device; false: there is none

#endif
