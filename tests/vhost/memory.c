// Guest memory in two files. Rows 0 and 1 adjoin in the guest and lie apart in their file, so a buffer over their border is
// in memory only if the back end makes them one; row 3 begins and ends inside a page; row 4 comes and goes.
#define _GNU_SOURCE
#include <sys/mman.h>
#include <unistd.h>
#include "front.h"

const struct table_row rows[ROWS] = {
    {0x10000000, 0x100000, 0x550000000000, 0x3000},   {0x10100000, 0x100000, 0x560000001000, 0x200000},
    {0x800000000, 0x400000, 0x570000002000, 0},       {0x900000800, 0x1800, 0x580000000800, 0x400800},
    {0xa00000000, 0x2000, 0x590000000000, 0x410000},
};
const int file_of[ROWS] = {0, 0, 1, 1, 1};
int files[FILES];
static const size_t lengths[FILES] = {0x400000, 0x420000};
static uint8_t *bytes[FILES], *before[FILES];

void memory_make(void)
{
    for (int i = 0; i < FILES; i++) {
        files[i] = memfd_create("guest", MFD_CLOEXEC);
        if (files[i] < 0 || ftruncate(files[i], (off_t)lengths[i])) fail("memfd_create");
        bytes[i] = mmap(NULL, lengths[i], PROT_READ | PROT_WRITE, MAP_SHARED, files[i], 0), before[i] = malloc(lengths[i]);
        if (bytes[i] == MAP_FAILED || !before[i]) fail("mmap");
        for (size_t k = 0; k < lengths[i]; k++) bytes[i][k] = (uint8_t)(k % 251 + 1);
        memcpy(before[i], bytes[i], lengths[i]);
    }
}

static int row_of(uint64_t guest)
{
    for (int i = 0; i < ROWS; i++)
        if (guest >= rows[i].guest && guest - rows[i].guest < rows[i].size) return i;
    fail("a guest address of the test's own that isn't there");
    return 0;
}

static uint8_t *find(uint64_t guest, size_t *n)  // *n: cut to what lies in one row
{
    const int i = row_of(guest);
    const uint64_t at = guest - rows[i].guest;
    if (*n > rows[i].size - at) *n = rows[i].size - at;
    return bytes[file_of[i]] + rows[i].offset + at;
}

void memory_put(uint64_t guest, const void *from, size_t n)
{
    for (size_t done = 0, part; done < n; done += part) {
        part = n - done;
        uint8_t *to = find(guest + done, &part);
        memcpy(to, (const uint8_t *)from + done, part);
    }
}

void memory_get(uint64_t guest, void *to, size_t n)
{
    for (size_t done = 0, part; done < n; done += part) {
        part = n - done;
        const uint8_t *from = find(guest + done, &part);
        memcpy((uint8_t *)to + done, from, part);
    }
}

uint16_t *memory_u16(uint64_t guest)
{
    size_t n = 2;
    return (uint16_t *)(void *)find(guest, &n);
}

uint64_t memory_user(uint64_t guest) { return rows[row_of(guest)].user + (guest - rows[row_of(guest)].guest); }

static void forget_row(int i)  // a row's bytes may change
{
    memcpy(before[file_of[i]] + rows[i].offset, bytes[file_of[i]] + rows[i].offset, rows[i].size);
}

void memory_outside_same(void)
{
    for (int i = 0; i < ROWS; i++) forget_row(i);
    for (int i = 0; i < FILES; i++) same("guest memory outside all regions", 0, (uint64_t)memcmp(before[i], bytes[i], lengths[i]) != 0);
}
