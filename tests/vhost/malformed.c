// Messages that break the protocol, one at a time: the monitor that sends one is dropped, and the neighbour's disk goes on.
#define _GNU_SOURCE
#include <fcntl.h>
#include <sys/mman.h>
#include <sys/socket.h>
#include <unistd.h>
#include "front.h"

static struct driver *victim, *other;
enum { NOT_GREETED, GREETED, RUNNING };

static void begin(int state)
{
    if (state == NOT_GREETED) victim->monitor = (struct monitor){dial(victim->path), -1, -1, -1};
    else driver_connect(victim);
    if (state == RUNNING) driver_start(victim, 16, 100, 1), driver_run(victim, 2);
}

static void end(const char *name)
{
    row = name, is_dropped(victim->monitor.socket), hang_up(&victim->monitor);
    row = "the neighbour goes on", driver_run(other, 2);
}

static void try(const char *name, int state, uint32_t type, uint32_t flags, const void *payload, uint32_t size, const int *fds, size_t n)
{
    row = name, begin(state);
    send_message(victim->monitor.socket, type, flags, payload, size, fds, n);
    end(name);
}

// ---- every message with a wrong length, and with descriptors that it doesn't have

static const struct { uint32_t type, size, fds; } forms[] = {
    {GET_FEATURES, 0, 0},   {SET_FEATURES, 8, 0},   {SET_OWNER, 0, 0},      {RESET_OWNER, 0, 0},           {SET_MEM_TABLE, 40, 1},         {SET_VRING_NUM, 8, 0},
    {SET_VRING_ADDR, 40, 0}, {SET_VRING_BASE, 8, 0}, {GET_VRING_BASE, 8, 0}, {SET_VRING_KICK, 8, 1},        {SET_VRING_CALL, 8, 1},         {SET_VRING_ERR, 8, 1},
    {GET_PROTOCOL_FEATURES, 0, 0}, {SET_PROTOCOL_FEATURES, 8, 0}, {GET_QUEUE_NUM, 0, 0}, {SET_VRING_ENABLE, 8, 0}, {GET_CONFIG, 72, 0}, {SET_CONFIG, 72, 0},
};

static void lengths_and_descriptors(void)
{
    static const int deltas[] = {-8, -1, 1, 8};
    const int fds[9] = {files[0], files[0], files[0], files[0], files[0], files[0], files[0], files[0], files[0]};
    union payload p = {.table = {.count = 1, .row = {rows[0]}}};
    for (size_t i = 0; i < COUNT(forms); i++) {
        if (forms[i].size == 72) p.config.offset = 0, p.config.size = 60;
        if (forms[i].size == 8) p.number = 0;
        for (size_t k = 0; k < COUNT(deltas); k++)
            if (forms[i].size || deltas[k] > 0)
                try("another length", GREETED, forms[i].type, VERSION, &p, forms[i].size + (uint32_t)deltas[k], fds, forms[i].fds);
        try("a descriptor too many", GREETED, forms[i].type, VERSION, &p, forms[i].size, fds, forms[i].fds + 1);
        try("nine descriptors", GREETED, forms[i].type, VERSION, &p, forms[i].size, fds, 9);
        if (forms[i].fds) try("no descriptor", GREETED, forms[i].type, VERSION, &p, forms[i].size, fds, 0);
    }
}

// ---- headers

static void headers(void)
{
    static const uint32_t flags[] = {0, 2, 3, VERSION | IS_REPLY, VERSION | 16, UINT32_MAX};
    static const uint32_t unknown[] = {0, 6, 7, 19, 20, 21, 23, 26, 34, 39, 1000, UINT32_MAX};
    static const uint32_t sizes[] = {sizeof(union payload) + 1, 4096, UINT32_MAX};
    for (size_t i = 0; i < COUNT(flags); i++) try("flags", NOT_GREETED, GET_FEATURES, flags[i], NULL, 0, NULL, 0);
    for (size_t i = 0; i < COUNT(unknown); i++) try("unknown", i % 3, unknown[i], VERSION, NULL, 0, NULL, 0);
    for (size_t i = 0; i < COUNT(sizes); i++) try("too long", i % 3, SET_MEM_TABLE, VERSION, NULL, sizes[i], NULL, 0);
    for (uint32_t cut = 1; cut < 20; cut += 6) {  // the connection ends inside a message
        const uint32_t message[5] = {SET_FEATURES, VERSION, 8, 0, 0};
        begin(GREETED);
        row = "cut short";
        same("sent", cut, (uint64_t)send(victim->monitor.socket, message, cut, 0));
        driver_run(other, 2);  // nobody waits for the rest
        shutdown(victim->monitor.socket, SHUT_WR);
        end("cut short");
    }
}

// ---- numbers: words of the payload

#define VRING_WORD(index, num) ((uint64_t)(num) << 32 | (index))
#define USER 0x550000000000u
static const struct { const char *name; int state; uint32_t type, size; uint64_t words[5]; } numbers[] = {
    {"features not offered", GREETED, SET_FEATURES, 8, {1ull << 28}},
    {"protocol features not offered", GREETED, SET_PROTOCOL_FEATURES, 8, {1ull << 15}},
    {"queue size 0", GREETED, SET_VRING_NUM, 8, {VRING_WORD(0, 0)}},
    {"queue size 3", GREETED, SET_VRING_NUM, 8, {VRING_WORD(0, 3)}},
    {"queue size 256", GREETED, SET_VRING_NUM, 8, {VRING_WORD(0, 256)}},
    {"queue size 2^31", GREETED, SET_VRING_NUM, 8, {VRING_WORD(0, 1u << 31)}},
    {"size of queue 1", GREETED, SET_VRING_NUM, 8, {VRING_WORD(1, 16)}},
    {"size while it runs", RUNNING, SET_VRING_NUM, 8, {VRING_WORD(0, 16)}},
    {"base 65,536", GREETED, SET_VRING_BASE, 8, {VRING_WORD(0, 65536)}},
    {"base of queue 2^32 - 1", GREETED, SET_VRING_BASE, 8, {VRING_WORD(UINT32_MAX, 0)}},
    {"base while it runs", RUNNING, SET_VRING_BASE, 8, {VRING_WORD(0, 1)}},
    {"get base of queue 1", RUNNING, GET_VRING_BASE, 8, {VRING_WORD(1, 0)}},
    {"neither enabled nor disabled", GREETED, SET_VRING_ENABLE, 8, {VRING_WORD(0, 2)}},
    {"enable queue 1", RUNNING, SET_VRING_ENABLE, 8, {VRING_WORD(1, 1)}},
    {"a log", GREETED, SET_VRING_ADDR, 40, {VRING_WORD(0, 1), USER, USER + 0x3000, USER + 0x2000, 0}},
    {"rings of queue 1", GREETED, SET_VRING_ADDR, 40, {VRING_WORD(1, 0), USER, USER + 0x3000, USER + 0x2000, 0}},
    {"rings while it runs", RUNNING, SET_VRING_ADDR, 40, {VRING_WORD(0, 0), USER, USER + 0x3000, USER + 0x2000, 0}},
    {"a kick without a descriptor", GREETED, SET_VRING_KICK, 8, {NO_FD}},
    {"a call of queue 1", GREETED, SET_VRING_CALL, 8, {NO_FD | 1}},
    {"a call of queue 2^63", GREETED, SET_VRING_CALL, 8, {NO_FD | 1ull << 63}},
    {"configuration: 257 bytes", GREETED, GET_CONFIG, 12 + 256, {VRING_WORD(0, 257), 0}},
    {"configuration: another length", GREETED, GET_CONFIG, 12 + 8, {VRING_WORD(0, 9), 0}},
    {"configuration: past its end", GREETED, GET_CONFIG, 12 + 8, {VRING_WORD(249, 8), 0}},
    {"configuration: a sum that wraps", GREETED, GET_CONFIG, 12 + 8, {VRING_WORD(UINT32_MAX - 7, 8), 0}},
};

static void all_numbers(void)
{
    for (size_t i = 0; i < COUNT(numbers); i++) {
        union payload p = {.number = 0};
        memcpy(&p, numbers[i].words, sizeof numbers[i].words);
        try(numbers[i].name, numbers[i].state, numbers[i].type, VERSION | NEED_REPLY, &p, numbers[i].size, NULL, 0);
    }
}

// ---- memory tables

enum { MEMORY, PIPE, READ_ONLY_FILE, SHORT_FILE };
static const struct { const char *name; uint32_t count, rows; struct table_row row[2]; int fd; } tables[] = {
    {"no region", 0, 0, {{0}}, MEMORY},
    {"a count that isn't the length's", 2, 1, {{0, 4096, 0, 0}}, MEMORY},
    {"2^32 - 1 regions", UINT32_MAX, 1, {{0, 4096, 0, 0}}, MEMORY},
    {"no bytes", 1, 1, {{0, 0, 0, 0}}, MEMORY},
    {"past the file", 1, 1, {{0, 0x400001, 0, 0}}, MEMORY},
    {"past the file by its offset", 1, 1, {{0, 4096, 0, 0x3ff001}}, MEMORY},
    {"an offset that wraps", 1, 1, {{0, 4096, 0, UINT64_MAX - 4095}}, MEMORY},
    {"a size that wraps", 1, 1, {{4096, UINT64_MAX, 0, 0}}, MEMORY},
    {"guest addresses that wrap", 1, 1, {{UINT64_MAX - 4095, 4096, 0, 0}}, MEMORY},
    {"the monitor's addresses wrap", 1, 1, {{0, 4096, UINT64_MAX - 4095, 0}}, MEMORY},
    {"guest addresses overlap", 2, 2, {{0, 4096, 0, 0}, {4095, 4096, 8192, 0}}, MEMORY},
    {"the monitor's addresses overlap", 2, 2, {{0, 4096, 0, 0}, {8192, 4096, 4095, 0}}, MEMORY},
    {"a pipe", 1, 1, {{0, 4096, 0, 0}}, PIPE},
    {"a file that can't be written", 1, 1, {{0, 4096, 0, 0}}, READ_ONLY_FILE},
    {"a file of no bytes", 1, 1, {{0, 4096, 0, 0}}, SHORT_FILE},
};

static int file_for(int kind)
{
    int p[2];
    if (kind == MEMORY) return dup(files[0]);
    if (kind == PIPE) return pipe(p) ? -1 : (close(p[1]), p[0]);
    if (kind == READ_ONLY_FILE) return open(victim->image, O_RDONLY);
    return memfd_create("short", MFD_CLOEXEC);
}

static void all_tables(void)
{
    for (size_t i = 0; i < COUNT(tables); i++)
        for (int state = NOT_GREETED; state <= RUNNING; state++) {
            union payload p = {.table = {.count = tables[i].count, .row = {tables[i].row[0], tables[i].row[1]}}};
            const int fd = file_for(tables[i].fd), fds[2] = {fd, fd};
            try(tables[i].name, state, SET_MEM_TABLE, VERSION, &p, 8 + 32 * tables[i].rows, fds, tables[i].rows);
            close(fd);
        }
}

// ---- rings that the device refuses, and drivers without VERSION_1

static const struct { const char *name; uint64_t desc, avail, used; } rings[] = {
    {"descriptors misaligned", USER + 8, USER + 0x2000, USER + 0x3000},
    {"available misaligned", USER, USER + 0x2001, USER + 0x3000},
    {"used misaligned", USER, USER + 0x2000, USER + 0x3002},
    {"descriptors nowhere", 16, USER + 0x2000, USER + 0x3000},
    {"a guest address", 0x10000000, USER + 0x2000, USER + 0x3000},
    {"descriptors over the end", USER + 0xfff10, USER + 0x2000, USER + 0x3000},
    {"used at the top", USER, USER + 0x2000, UINT64_MAX - 3},
    {"used over available", USER, USER + 0x2000, USER + 0x2000},
};

static void start_wrongly(const char *name, uint64_t features, uint64_t desc, uint64_t avail, uint64_t used)
{
    union payload p = {.addr = {.desc = desc, .avail = avail, .used = used}};
    row = name, begin(GREETED);
    const int s = victim->monitor.socket;
    tell(s, SET_FEATURES, &(union payload){.number = features}, 8, NULL, 0);
    tell(s, SET_VRING_NUM, &(union payload){.vring = {0, 16}}, 8, NULL, 0);
    tell(s, SET_VRING_ADDR, &p, sizeof p.addr, NULL, 0);
    tell(s, SET_VRING_ENABLE, &(union payload){.vring = {0, 1}}, 8, NULL, 0);
    send_message(s, SET_VRING_KICK, VERSION, &(uint64_t){0}, 8, &victim->monitor.kick, 1);
    end(name);
}

static void all_rings(void)
{
    for (size_t i = 0; i < COUNT(rings); i++) start_wrongly(rings[i].name, F_VERSION_1, rings[i].desc, rings[i].avail, rings[i].used);
    start_wrongly("without VERSION_1", F_FLUSH, USER, USER + 0x2000, USER + 0x3000);
}

// ---- monitors that break more than a message

static void more_than_messages(void)
{
    const char *name = "a kick that isn't an event descriptor";
    const int file = memfd_create("kick", MFD_CLOEXEC), second = (begin(RUNNING), dial(victim->path));
    row = "a second monitor", is_dropped(second), close(second), driver_run(victim, 2);
    row = name, ring_stop(&victim->monitor);
    send_message(victim->monitor.socket, SET_VRING_KICK, VERSION, &(uint64_t){0}, 8, &file, 1);  // the last thing that the queue lacks
    end(name), close(file);

    name = "replies that nobody reads", row = name, begin(RUNNING);
    const uint32_t message[3] = {GET_FEATURES, VERSION, 0};
    while (send(victim->monitor.socket, message, sizeof message, MSG_NOSIGNAL) == sizeof message) continue;  // until it is dropped
    hang_up(&victim->monitor), row = "the neighbour goes on", driver_run(other, 2);
}

// ---- the file behind guest memory is cut to nothing while the queue runs on it

#define GONE_AT 0xb00000000u
enum { GONE_BYTES = 0x10000 };

static void lay_on(uint64_t header, uint64_t data, uint32_t type)
{
    const struct descriptor chain[3] = {
        {header, 16, 1, 1}, {data, 512, (uint16_t)(type == 0 ? 3 : 1), 2}, {rows[0].guest + 0x20100, 1, 2, 0}};
    const uint32_t bytes[4] = {type, 0, 0, 0};
    if (header < GONE_AT) memory_put(header, bytes, sizeof bytes);
    memory_put(victim->at.desc, chain, sizeof chain);
    *memory_u16(victim->at.avail + 4 + 2 * (victim->idx % 16)) = 0;
    *memory_u16(victim->at.avail + 2) = (uint16_t)(victim->idx + 1);
}

static void taken_away(const char *name, uint64_t header, uint64_t data, uint32_t type)
{
    const int file = memfd_create("vanishing", MFD_CLOEXEC), fds[2] = {files[0], file};
    const union payload p = {.table = {.count = 2, .row = {rows[0], {GONE_AT, GONE_BYTES, 0x5a0000000000, 0}}}};
    row = name, begin(RUNNING);
    if (ftruncate(file, GONE_BYTES)) fail("ftruncate");
    tell(victim->monitor.socket, SET_MEM_TABLE, &p, 8 + 2 * 32, fds, 2);
    driver_kick(victim), lay_on(header, data, type);
    if (ftruncate(file, 0)) fail("ftruncate");
    driver_kick(victim);
    end(name), close(file);
}

static void memory_taken_away(void)
{
    const uint64_t here = rows[0].guest + 0x20000;
    taken_away("the header's memory is gone", GONE_AT, here, 1);
    taken_away("the payload's memory is gone", here, GONE_AT, 1);
    taken_away("the memory for the data is gone", here, GONE_AT, 0);
}

void scene_malformed(struct driver *d, struct driver *neighbour)
{
    victim = d, other = neighbour;
    row = "before the malformed messages", driver_start(other, 64, 65000, 0), driver_run(other, 10);
    headers(), lengths_and_descriptors(), all_numbers(), all_tables(), all_rings(), more_than_messages(), memory_taken_away();
    row = "after the malformed messages", driver_stop(other);
    begin(RUNNING), driver_run(victim, 20), driver_stop(victim);
}
