// A disk's queue: started, run for a bounded turn, and stopped between two requests.
#ifndef VHOST_QUEUE_H
#define VHOST_QUEUE_H

#include "disk.h"

bool queue_start(struct disk *d, const char **why);       // starts it if everything is there; false: the monitor broke the rules
bool queue_stop(struct disk *d);                          // the request at hand is finished first; false: its memory was gone
bool queue_turn(struct disk *d, uint64_t steps);          // at most so many steps; false: memory was gone
void queue_notify(struct disk *d);
void queue_forget(struct disk *d);                        // as if no monitor had ever described one

#endif
