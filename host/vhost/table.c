#define _GNU_SOURCE
#include <stdlib.h>
#include <string.h>
#include <sys/mman.h>
#include <sys/stat.h>
#include <unistd.h>
#include "table.h"

enum { GAP = 65536 };                 // at least: a multiple of the page size of every machine that runs this
#define ROW_MOST (1ull << 46)         // bytes; more than an address range can have, and no sum below wraps
#define ALIGN_MOST (1ull << 30)

// A region with what its file demands: mapped are the file's bytes from `from` up to `to`, at `at` of the slice.
struct piece { struct table_row row; int fd; uint64_t align, from, to, at; bool adjoins; };

static uint64_t up(uint64_t n, uint64_t align) { return (n + align - 1) / align * align; }
static bool overlap(uint64_t a, uint64_t a_len, uint64_t b, uint64_t b_len) { return a < b + b_len && b < a + a_len; }

// Huge pages are mapped only at their own multiples; such a file tells its page size as its block size.
static uint64_t align_of(const struct stat *s)
{
    const uint64_t page = (uint64_t)sysconf(_SC_PAGESIZE), block = (uint64_t)s->st_blksize;
    return block > page && block <= ALIGN_MOST && !(block & (block - 1)) ? block : page;
}

static const char *judge(struct piece *p)
{
    struct stat s;
    const struct table_row *r = &p->row;
    if (r->size == 0) return "a region of no bytes";
    if (r->size > ROW_MOST || r->offset > ROW_MOST) return "a region too large to map";
    if (r->guest + r->size < r->guest || r->user + r->size < r->user) return "a region whose end wraps";
    if (fstat(p->fd, &s) || !S_ISREG(s.st_mode)) return "a region whose file can't be mapped";
    if ((uint64_t)s.st_size < r->offset + r->size) return "a region that its file is too short for";
    p->align = align_of(&s);
    p->from = r->offset / p->align * p->align;
    p->to = up(r->offset + r->size, p->align);
    return NULL;
}

static const char *judge_all(struct piece *p, size_t n)
{
    for (size_t i = 0; i < n; i++) {
        const char *why = judge(&p[i]);
        if (why) return why;
        for (size_t k = 0; k < i; k++)
            if (overlap(p[i].row.guest, p[i].row.size, p[k].row.guest, p[k].row.size) || overlap(p[i].row.user, p[i].row.size, p[k].row.user, p[k].row.size))
                return "two regions that overlap";
    }
    return NULL;
}

static int by_guest(const void *a, const void *b)
{
    const uint64_t x = ((const struct piece *)a)->row.guest, y = ((const struct piece *)b)->row.guest;
    return (x > y) - (x < y);
}

// 01 §1: a buffer that spans two regions is not in memory, so "hosts merge adjoining regions before they register them".
// Two can be made one where whole pages meet: then the second is mapped right behind the first, and otherwise behind a gap.
static uint64_t lay_out(struct piece *p, size_t n)
{
    uint64_t end = 0;
    for (size_t i = 0; i < n; i++) {
        const struct piece *q = &p[i ? i - 1 : 0];
        p[i].adjoins = i && q->row.guest + q->row.size == p[i].row.guest && q->to == q->row.offset + q->row.size
                       && p[i].from == p[i].row.offset && end % p[i].align == 0;
        p[i].at = p[i].adjoins || !i ? end : up(end + GAP, p[i].align);
        end = p[i].at + (p[i].to - p[i].from);
    }
    return end;
}

static void note_region(struct table *t, const struct piece *p)
{
    uint64_t *last = t->region + 3 * t->region_count;
    if (p->adjoins) {
        last[-2] += p->row.size;
        return;
    }
    last[0] = p->row.guest, last[1] = p->row.size, last[2] = p->at + (p->row.offset - p->from);
    t->region_count++;
}

static bool reserve(struct table *t, uint64_t align)
{
    t->reserved_length = t->length + 2 * (GAP + align);
    t->reserved = mmap(NULL, t->reserved_length, PROT_NONE, MAP_PRIVATE | MAP_ANONYMOUS | MAP_NORESERVE, -1, 0);
    if (t->reserved == MAP_FAILED) return t->reserved = NULL, false;
    t->bytes = t->reserved + (up((uintptr_t)t->reserved + GAP, align) - (uintptr_t)t->reserved);
    return true;
}

static bool map_pieces(struct table *t, const struct piece *p, size_t n)
{
    for (size_t i = 0; i < n; i++) {
        void *at = t->bytes + p[i].at;
        if (mmap(at, p[i].to - p[i].from, PROT_READ | PROT_WRITE, MAP_SHARED | MAP_FIXED, p[i].fd, (off_t)p[i].from) != at) return false;
        note_region(t, &p[i]);
        t->row[t->row_count++] = p[i].row;
    }
    return true;
}

bool table_map(struct table *t, const struct message *m, const char **why)
{
    struct piece p[REGIONS_MAX];
    const size_t n = m->payload.table.count;
    uint64_t align = 1;
    *t = (struct table){.bytes = NULL};
    for (size_t i = 0; i < n; i++) p[i] = (struct piece){.row = m->payload.table.row[i], .fd = m->fds[i]};
    if ((*why = judge_all(p, n))) return false;
    qsort(p, n, sizeof *p, by_guest);
    t->length = lay_out(p, n);
    for (size_t i = 0; i < n; i++) align = p[i].align > align ? p[i].align : align;
    if (reserve(t, align) && map_pieces(t, p, n)) return true;
    table_unmap(t);
    return *why = "a region that the system refuses to map", false;
}

void table_unmap(struct table *t)
{
    if (t->reserved) munmap(t->reserved, t->reserved_length);
    *t = (struct table){.bytes = NULL};
}

bool table_holds(const struct table *t, const void *address)
{
    return t->bytes && (uintptr_t)address >= (uintptr_t)t->bytes && (uintptr_t)address - (uintptr_t)t->bytes < t->length;
}

bool table_guest(const struct table *t, uint64_t user, uint64_t n, uint64_t *guest)
{
    for (size_t i = 0; i < t->row_count; i++) {
        const struct table_row *r = &t->row[i];
        if (user < r->user || user - r->user >= r->size || r->size - (user - r->user) < n) continue;
        return *guest = r->guest + (user - r->user), true;
    }
    return false;
}
