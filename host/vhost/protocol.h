// What a monitor may say, and what is done about it.
#ifndef VHOST_PROTOCOL_H
#define VHOST_PROTOCOL_H

#include "disk.h"

bool protocol_message(struct disk *d, const char **why);  // the whole message in the inbox; false: the monitor is to be dropped

#endif
