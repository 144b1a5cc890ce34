// The guest's half: a request, cut into buffers, laid into memory as a chain.
#include <stdlib.h>
#include <string.h>
#include "demo.h"

struct request ask(uint32_t type, uint64_t sector, const uint8_t *data)
{
    return (struct request){.type = type, .sector = sector, .data = data};
}

void add(struct request *r, uint64_t at, uint32_t len, bool writable)
{
    if (r->n == HD_QUEUE_SIZE_MAX) abort();  // a mistake of this program
    r->buffers[r->n++] = (struct buffer){at, len, writable};
}

uint64_t bytes_of(const struct request *r, bool writable)
{
    uint64_t sum = 0;
    for (unsigned k = 0; k < r->n; k++)
        if (r->buffers[k].writable == writable) sum += r->buffers[k].len;
    return sum;
}

uint64_t status_at(const struct request *r) { return r->buffers[r->n - 1].at + r->buffers[r->n - 1].len - 1; }

void describe(unsigned i, uint64_t at, uint32_t len, unsigned flags, unsigned next)
{
    poke(D(i), 8, at);
    poke(D(i) + 8, 4, len);
    poke(D(i) + 12, 2, flags);
    poke(D(i) + 14, 2, next);
}

void describe_one(const struct request *r, unsigned k)
{
    unsigned flags = (r->buffers[k].writable ? WRITE : 0) | (k + 1 < r->n ? NEXT : 0);
    describe((r->head + k) % world.queue, r->buffers[k].at, r->buffers[k].len, flags, (r->head + k + 1) % world.queue);
}

void lay_readable(const struct request *r)  // header and data as one string, over the readable buffers
{
    static uint8_t string[16 + HD_REQUEST_BYTES_MAX + HD_SECTOR_BYTES];
    const uint32_t reserved = 0xdeadbeef;
    size_t n = bytes_of(r, false), done = 0;
    if (n > sizeof string) abort();  // a mistake of this program
    memcpy(string, &r->type, 4), memcpy(string + 4, &reserved, 4), memcpy(string + 8, &r->sector, 8);
    if (n > 16) memcpy(string + 16, r->data, n - 16);
    for (unsigned k = 0; k < r->n && !r->buffers[k].writable; k++) {
        poke_bytes(r->buffers[k].at, string + done, r->buffers[k].len);
        done += r->buffers[k].len;
    }
}

void lay(const struct request *r)
{
    for (unsigned k = 0; k < r->n; k++) describe_one(r, k);
    lay_readable(r);
    poke(AVAIL + 4 + 2 * (world.published % world.queue), 2, r->head);
    poke(AVAIL + 2, 2, ++world.published);
}
