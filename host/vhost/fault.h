// Guest memory that a monitor takes away while the device uses it (a file cut short) must not end the daemon.
#ifndef VHOST_FAULT_H
#define VHOST_FAULT_H

#include "table.h"

void fault_install(void);
bool fault_guard(const struct table *t, void (*run)(void *), void *with);  // false: a byte of t was gone, and run was left

#endif
