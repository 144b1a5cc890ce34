// What the command line says: one entry for each disk, in its order.
#ifndef VHOST_OPTIONS_H
#define VHOST_OPTIONS_H

#include <stdbool.h>
#include <stddef.h>
#include <stdint.h>

enum { DISKS_MAX = 64, ID_BYTES = 20, QUEUE_LEAST = 4, QUEUE_MOST = 1024 };

struct disk_options {
    const char *socket, *image;
    char id[ID_BYTES + 1];
    uint64_t offset, sectors;  // sectors 0: up to the end of the image
    uint64_t queue_size;
    bool read_only;
    unsigned given;  // a bit for each option that this disk was given
};

struct options {
    struct disk_options disk[DISKS_MAX];
    size_t disks;
    uint64_t steps;  // of one disk in one turn
    const char *image;  // for the disks that follow
};

enum asked { RUN, HELP, WRONG_OPTIONS };
enum asked options_read(struct options *o, int argc, char **argv);  // says what is wrong
void options_help(void);

#endif
