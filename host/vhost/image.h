// A disk's range of an image file, mapped. Only the pages that hold the range are mapped, and a read-only disk's can't
// be written at all: a second wall behind the device's own.
#ifndef VHOST_IMAGE_H
#define VHOST_IMAGE_H

#include "options.h"

struct image {
    uint8_t *bytes;       // the backing slice
    size_t length;
    uint64_t start;       // of the disk in it
    uint64_t first, sectors;  // of the disk in the file
    uint64_t device, inode;
    int fd;
};

bool image_find(struct image *m, const struct disk_options *o);  // opens it and tests the range; says what is wrong
bool image_overlap(const struct image *a, const struct image *b);
bool image_take(struct image *m, const struct disk_options *o);  // locks the range and maps it; says what is wrong
bool image_sync(const struct image *m);

#endif
