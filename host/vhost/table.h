// Guest memory: the regions that a monitor hands over, mapped into one reserved address range. Between two regions,
// before the first and behind the last lie pages that nobody can touch.
#ifndef VHOST_TABLE_H
#define VHOST_TABLE_H

#include "message.h"

struct table {
    uint8_t *reserved;  // all of the reserved range
    size_t reserved_length;
    uint8_t *bytes;     // the slice that the device is lent: from the first mapped page to the last one's end
    size_t length;
    uint64_t region[3 * REGIONS_MAX];  // for hd_memory
    size_t region_count;
    struct table_row row[REGIONS_MAX];
    size_t row_count;
};

bool table_map(struct table *t, const struct message *m, const char **why);
void table_unmap(struct table *t);
bool table_holds(const struct table *t, const void *address);
bool table_guest(const struct table *t, uint64_t user, uint64_t n, uint64_t *guest);  // a monitor's address as the guest's

#endif
