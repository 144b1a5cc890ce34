#define _GNU_SOURCE
#include <errno.h>
#include <fcntl.h>
#include <string.h>
#include <sys/mman.h>
#include <sys/stat.h>
#include <unistd.h>
#include "image.h"
#include "log.h"

static bool range_ok(struct image *m, const struct disk_options *o, uint64_t bytes)
{
    m->first = o->offset;
    m->sectors = o->sectors ? o->sectors : bytes > o->offset ? (bytes - o->offset) / 512 : 0;
    if (m->sectors >= 1 && m->sectors <= 1ull << 32 && m->first <= bytes && 512 * m->sectors <= bytes - m->first) return true;
    say(o->socket, "%s has %llu bytes; %llu sectors from byte %llu on are not in it", o->image, (unsigned long long)bytes,
        (unsigned long long)(m->sectors ? m->sectors : 1), (unsigned long long)o->offset);
    return false;
}

// Another daemon that has the same bytes is refused; the lock ends with the process.
static bool lock_range(const struct image *m, const struct disk_options *o)
{
    struct flock l = {.l_type = o->read_only ? F_RDLCK : F_WRLCK, .l_whence = SEEK_SET, .l_start = (off_t)m->first, .l_len = (off_t)(512 * m->sectors)};
    if (fcntl(m->fd, F_OFD_SETLK, &l) == 0) return true;
    say(o->socket, "%s: its bytes are in use by another program (%s)", o->image, strerror(errno));
    return false;
}

static bool map_range(struct image *m, const struct disk_options *o)
{
    const uint64_t page = (uint64_t)sysconf(_SC_PAGESIZE), from = m->first / page * page;
    m->start = m->first - from;
    m->length = m->start + 512 * m->sectors;
    m->bytes = mmap(NULL, m->length, PROT_READ | (o->read_only ? 0 : PROT_WRITE), MAP_SHARED, m->fd, (off_t)from);
    if (m->bytes != MAP_FAILED) return true;
    m->bytes = NULL;
    say(o->socket, "%s can't be mapped: %s", o->image, strerror(errno));
    return false;
}

bool image_find(struct image *m, const struct disk_options *o)
{
    struct stat s;
    *m = (struct image){.fd = open(o->image, (o->read_only ? O_RDONLY : O_RDWR) | O_CLOEXEC)};
    if (m->fd < 0 || fstat(m->fd, &s)) return say(o->socket, "%s: %s", o->image, strerror(errno)), false;
    if (!S_ISREG(s.st_mode)) return say(o->socket, "%s isn't a regular file", o->image), false;
    m->device = s.st_dev, m->inode = s.st_ino;
    return range_ok(m, o, (uint64_t)s.st_size);
}

bool image_take(struct image *m, const struct disk_options *o) { return lock_range(m, o) && map_range(m, o); }

bool image_overlap(const struct image *a, const struct image *b)
{
    if (a->device != b->device || a->inode != b->inode) return false;
    return a->first < b->first + 512 * b->sectors && b->first < a->first + 512 * a->sectors;
}

bool image_sync(const struct image *m) { return msync(m->bytes, m->length, MS_SYNC) == 0; }
