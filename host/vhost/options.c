#include <errno.h>
#include <stdio.h>
#include <stdlib.h>
#include <string.h>
#include <sys/un.h>
#include "log.h"
#include "options.h"

static const char help[] =
    "usage: hostiledisk-vhost --image FILE --socket S [--offset B] [--sectors N] [--read-only] [--id TEXT] [--queue-size Q]\n"
    "                         [--socket S ...]\n"
    "A vhost-user-blk back end. Each --socket begins a disk; the options after it are that disk's.\n"
    "  --image FILE     the image that the disk lies in; stands for the disks after it too\n"
    "  --socket S       where a monitor connects to the disk\n"
    "  --offset B       first byte of the disk in the image (0)\n"
    "  --sectors N      its capacity in sectors of 512 bytes (up to the end of the image)\n"
    "  --read-only      every write is refused\n"
    "  --id TEXT        its serial number, at most 20 bytes (none)\n"
    "  --queue-size Q   the longest queue that a monitor may ask for: a power of two from 4 to 1024 (128)\n"
    "  --steps N        for all disks: steps of one disk before the others have their turn (256)\n"
    "  --help           this text\n"
    "SIGTERM and SIGINT end it after all writes have reached the image. At its end and on SIGUSR1 it prints a line of\n"
    "counts for each disk to standard output. What goes wrong is said on standard error.\n"
    "The image must keep its length, and its file system room for what is written to it.\n";

void options_help(void) { fputs(help, stdout); }

enum { OFFSET, SECTORS, READ_ONLY, ID, QUEUE_SIZE, IMAGE, SOCKET, STEPS, HELP_OPTION, OPTIONS };
static const struct { const char *name; bool value; } known[OPTIONS] = {
    [OFFSET] = {"--offset", true},   [SECTORS] = {"--sectors", true},       [READ_ONLY] = {"--read-only", false},
    [ID] = {"--id", true},           [QUEUE_SIZE] = {"--queue-size", true}, [IMAGE] = {"--image", true},
    [SOCKET] = {"--socket", true},   [STEPS] = {"--steps", true},           [HELP_OPTION] = {"--help", false},
};

static bool number(const char *name, const char *text, uint64_t least, uint64_t most, uint64_t *to)
{
    char *end = NULL;
    errno = 0;
    *to = *text >= '0' && *text <= '9' ? strtoull(text, &end, 0) : 0;
    if (end && !*end && !errno && *to >= least && *to <= most) return true;
    say(NULL, "%s %s: not a number from %llu to %llu", name, text, (unsigned long long)least, (unsigned long long)most);
    return false;
}

static bool begin_disk(struct options *o, const char *socket)
{
    if (o->disks == DISKS_MAX || strlen(socket) >= sizeof ((struct sockaddr_un *)0)->sun_path || !*socket)
        return say(NULL, "--socket %s: %s", socket, o->disks == DISKS_MAX ? "more than 64 disks" : "too long for a socket, or empty"), false;
    for (size_t i = 0; i < o->disks; i++)
        if (!strcmp(o->disk[i].socket, socket)) return say(NULL, "--socket %s: given to two disks", socket), false;
    o->disk[o->disks++] = (struct disk_options){.socket = socket, .image = o->image, .queue_size = 128};
    return true;
}

static bool once(struct disk_options *d, unsigned which)
{
    if (d->given & 1u << which) return say(NULL, "%s is given twice to %s", known[which].name, d->socket), false;
    d->given |= 1u << which;
    return true;
}

static bool set_image(struct options *o, const char *image)
{
    o->image = image;
    if (!o->disks) return true;
    o->disk[o->disks - 1].image = image;
    return once(&o->disk[o->disks - 1], IMAGE);
}

static bool set_id(struct disk_options *d, const char *id)
{
    if (strlen(id) > ID_BYTES) return say(NULL, "--id %s: longer than 20 bytes", id), false;
    strcpy(d->id, id);
    return true;
}

static bool set_queue_size(struct disk_options *d, const char *text)
{
    if (!number("--queue-size", text, QUEUE_LEAST, QUEUE_MOST, &d->queue_size)) return false;
    if (!(d->queue_size & (d->queue_size - 1))) return true;
    return say(NULL, "--queue-size %s: not a power of two", text), false;
}

static bool of_a_disk(struct options *o, unsigned which, const char *value)
{
    if (!o->disks) return say(NULL, "%s stands before the first --socket", known[which].name), false;
    struct disk_options *d = &o->disk[o->disks - 1];
    if (!once(d, which)) return false;
    switch (which) {
    case OFFSET: return number("--offset", value, 0, INT64_MAX, &d->offset);
    case SECTORS: return number("--sectors", value, 1, 1ull << 32, &d->sectors);
    case READ_ONLY: return d->read_only = true;
    case ID: return set_id(d, value);
    default: return set_queue_size(d, value);
    }
}

static bool take(struct options *o, unsigned which, const char *value)
{
    switch (which) {
    case IMAGE: return set_image(o, value);
    case SOCKET: return begin_disk(o, value);
    case STEPS: return number("--steps", value, 1, 1u << 20, &o->steps);
    default: return of_a_disk(o, which, value);
    }
}

enum asked options_read(struct options *o, int argc, char **argv)
{
    *o = (struct options){.steps = 256};
    for (int i = 1; i < argc; i++) {
        unsigned which = 0;
        while (which < OPTIONS && strcmp(known[which].name, argv[i])) which++;
        if (which == HELP_OPTION) return HELP;
        if (which == OPTIONS) return say(NULL, "%s: no such option; --help tells them", argv[i]), WRONG_OPTIONS;
        if (known[which].value && i + 1 == argc) return say(NULL, "%s: its value is missing", argv[i]), WRONG_OPTIONS;
        if (!take(o, which, known[which].value ? argv[++i] : NULL)) return WRONG_OPTIONS;
    }
    if (!o->disks) return say(NULL, "no --socket; --help tells the options"), WRONG_OPTIONS;
    for (size_t i = 0; i < o->disks; i++)
        if (!o->disk[i].image) return say(o->disk[i].socket, "no --image"), WRONG_OPTIONS;
    return RUN;
}
