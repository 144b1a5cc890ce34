// memcpy and memset that load and store each byte once, for a device whose memcpy reads guest memory (tests/plain/device.c): the
// C library's may load bytes in the middle twice. Linked with -Wl,--wrap. The proved library needs no such help.
#include <stddef.h>
#include <stdint.h>

typedef uint64_t any64 __attribute__((aligned(1), may_alias));
void *__wrap_memcpy(void *to, const void *from, size_t n);
void *__wrap_memset(void *to, int byte, size_t n);

void *__wrap_memcpy(void *to, const void *from, size_t n)
{
    uint8_t *d = to;
    const uint8_t *s = from;
    for (; n >= 8; n -= 8, d += 8, s += 8) *(volatile any64 *)d = *(const any64 *)s;
    for (; n > 0; n--) *(volatile uint8_t *)d++ = *s++;
    return to;
}

void *__wrap_memset(void *to, int byte, size_t n)
{
    for (volatile uint8_t *d = to; n > 0; n--) *d++ = (uint8_t)byte;
    return to;
}
