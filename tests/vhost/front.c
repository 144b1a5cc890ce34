// The front end's test of host/vhost: front SEED IMAGE, then SOCKET OFFSET SECTORS READ-ONLY ID QUEUE-SIZE
// for each of three disks, the second of 1 MiB, the third read-only.
// Prints, for each disk, the beginning of the line of counts that the daemon must print at its end.
#define _GNU_SOURCE
#include <fcntl.h>
#include <unistd.h>
#include "front.h"

const char *row = "start";
unsigned long checks;
static uint64_t seed;

void fail(const char *what)
{
    printf("FAILED %s: %s\n", row, what);
    exit(1);
}

void same(const char *what, uint64_t want, uint64_t got)
{
    checks++;
    if (want == got) return;
    printf("FAILED %s: %s: expected %llu, got %llu\n", row, what, (unsigned long long)want, (unsigned long long)got);
    exit(1);
}

uint32_t chance(uint32_t below)
{
    seed ^= seed << 13, seed ^= seed >> 7, seed ^= seed << 17;
    return (uint32_t)((seed >> 32) % below);
}

static void read_disk(const struct driver *d, uint8_t *to)
{
    const int fd = open(d->image, O_RDONLY);
    const size_t n = 512 * d->sectors;
    if (fd < 0 || pread(fd, to, n, (off_t)d->offset) != (ssize_t)n) fail("the image");
    close(fd);
}

static void set_up(struct driver *d, const char *image, char **words)
{
    *d = (struct driver){.path = words[0], .image = image, .offset = strtoull(words[1], NULL, 0), .sectors = strtoull(words[2], NULL, 0),
                         .read_only = atoi(words[3]), .id = words[4], .queue_top = (uint32_t)atoi(words[5])};
    d->disk = malloc(512 * d->sectors);
    read_disk(d, d->disk);
}

enum { DISKS = 3, WORDS = 6 };

static void disk_same(const struct driver *d)
{
    uint8_t *now = malloc(512 * d->sectors);
    row = d->path;
    read_disk(d, now);
    same("the disk in the image is what the accepted writes made of it", 0, (uint64_t)memcmp(d->disk, now, 512 * d->sectors) != 0);
    free(now);
}

int main(int argc, char **argv)
{
    static struct driver disk[DISKS];
    if (argc != 3 + WORDS * DISKS) fail("arguments");
    seed = strtoull(argv[1], NULL, 0) * 2 + 1;
    memory_make();
    for (int i = 0; i < DISKS; i++) set_up(&disk[i], argv[2], argv + 3 + WORDS * i), scene_handshake(&disk[i]), driver_connect(&disk[i]);
    for (int i = 0; i < DISKS; i += 2) scene_restarts(&disk[i]);
    scene_stops(&disk[0]), scene_tables(&disk[0]), scene_hang_ups(&disk[0]), scene_turns(&disk[1], &disk[0]), scene_long(&disk[0]), scene_broken(&disk[0]);
    hang_up(&disk[1].monitor), scene_malformed(&disk[1], &disk[0]);
    memory_outside_same();
    for (int i = 0; i < DISKS; i++) disk_same(&disk[i]), driver_print(&disk[i]);
    printf("vhost: %lu checks passed\n", checks);
    return 0;
}
