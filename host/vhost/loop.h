// The daemon's loop: sockets, kicks and signals, and each disk's turn.
#ifndef VHOST_LOOP_H
#define VHOST_LOOP_H

#include "disk.h"

bool loop_listen(struct disk *d);  // says what is wrong
int loop_signals(void);            // a descriptor that tells them; -1: says what is wrong
void loop_run(struct disk *disks, size_t n, int signals, uint64_t steps);  // until SIGTERM or SIGINT
void loop_leave(struct disk *d);   // drops the monitor, and ends the socket

#endif
