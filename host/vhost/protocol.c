#define _GNU_SOURCE
#include <fcntl.h>
#include <string.h>
#include <unistd.h>
#include "protocol.h"
#include "queue.h"

#define REQUEST_MOST 1048576u  // data bytes that the device accepts in one request (03 §3)
#define PAGE_OF_DRIVERS 4096u
#define PROTOCOL_OFFERED (PROTOCOL_MQ | PROTOCOL_REPLY_ACK | PROTOCOL_CONFIG)

static bool wrong(const char **why, const char *text) { return *why = text, false; }

static uint64_t offered(const struct disk *d)
{
    return F_SIZE_MAX | F_SEG_MAX | F_FLUSH | F_PROTOCOL_FEATURES | F_VERSION_1 | (d->options->read_only ? F_RO : 0);
}

// ---- replies

static bool reply(struct disk *d, const void *payload, uint32_t size, const char **why)
{
    return message_reply(d->monitor, &d->inbox.message, payload, size) || wrong(why, "it doesn't read its replies");
}

static bool reply_number(struct disk *d, uint64_t n, const char **why) { return reply(d, &n, sizeof n, why); }

static bool get_features(struct disk *d, const struct message *m, const char **why) { return (void)m, reply_number(d, offered(d), why); }
static bool get_protocol(struct disk *d, const struct message *m, const char **why) { return (void)m, reply_number(d, PROTOCOL_OFFERED, why); }
static bool get_queue_num(struct disk *d, const struct message *m, const char **why) { return (void)m, reply_number(d, 1, why); }

static void put(uint8_t *to, uint64_t n, unsigned bytes)
{
    for (unsigned i = 0; i < bytes; i++) to[i] = (uint8_t)(n >> 8 * i);
}

// struct virtio_blk_config: capacity at 0, size_max at 8, seg_max at 12; the rest belongs to features that aren't offered.
// A driver that stays within them sends at most size_max * seg_max <= 1 MiB, in a chain that fits the queue with its
// header and status. size_max is a multiple of the page: Linux takes no smaller one. So seg_max is never more than the
// pages of 1 MiB, however long the queue is: with 510 segments size_max would be 0.
static bool get_config(struct disk *d, const struct message *m, const char **why)
{
    uint8_t config[CONFIG_MAX] = {0};
    union payload p = m->payload;
    const uint32_t fit = (uint32_t)d->options->queue_size - 2, pages = REQUEST_MOST / PAGE_OF_DRIVERS, seg_max = fit < pages ? fit : pages;
    const uint32_t size_max = REQUEST_MOST / seg_max / PAGE_OF_DRIVERS * PAGE_OF_DRIVERS;
    put(config, d->image.sectors, 8), put(config + 8, size_max, 4), put(config + 12, seg_max, 4);
    memcpy(p.config.bytes, config + p.config.offset, p.config.size);
    return reply(d, &p, CONFIG_HEADER + p.config.size, why);
}

// A guest can make its monitor send this. No field of the configuration can be written, so nothing happens.
static bool set_config(struct disk *d, const struct message *m, const char **why) { return (void)d, (void)m, (void)why, true; }

// ---- features and owner

static bool set_features(struct disk *d, const struct message *m, const char **why)
{
    if (m->payload.number & ~offered(d)) return wrong(why, "features that aren't offered");
    d->features = m->payload.number;
    if (!(d->features & F_PROTOCOL_FEATURES)) d->ring.wanted = true;  // such a monitor doesn't know SET_VRING_ENABLE
    return true;
}

static bool set_protocol(struct disk *d, const struct message *m, const char **why)
{
    if (m->payload.number & ~(uint64_t)PROTOCOL_OFFERED) return wrong(why, "protocol features that aren't offered");
    d->protocol = m->payload.number;
    return true;
}

static bool set_owner(struct disk *d, const struct message *m, const char **why) { return (void)d, (void)m, (void)why, true; }

static bool stop(struct disk *d, const char **why) { return queue_stop(d) || wrong(why, "guest memory was taken away"); }

static bool reset_owner(struct disk *d, const struct message *m, const char **why)
{
    (void)m;
    d->ring.wanted = false;
    return stop(d, why);
}

// ---- memory and queue

// The queue goes on where it was, on the new memory.
static bool set_mem_table(struct disk *d, const struct message *m, const char **why)
{
    struct table t;
    if (!table_map(&t, m, why)) return false;
    const bool stopped = stop(d, why);
    table_unmap(&d->table);
    d->table = t;
    return stopped && queue_start(d, why);
}

static bool at_rest(const struct disk *d, const char **why) { return !d->ring.running || wrong(why, "a queue described anew while it runs"); }

static bool set_vring_num(struct disk *d, const struct message *m, const char **why)
{
    const uint32_t n = m->payload.vring.num;
    if (n == 0 || (n & (n - 1)) || n > d->options->queue_size) return wrong(why, "a queue size that isn't a power of two up to --queue-size");
    if (!at_rest(d, why)) return false;
    d->ring.size = n;
    return queue_start(d, why);
}

static bool set_vring_addr(struct disk *d, const struct message *m, const char **why)
{
    if (m->payload.addr.flags) return wrong(why, "a ring with a log, which isn't offered");
    if (!at_rest(d, why)) return false;
    d->ring.desc = m->payload.addr.desc, d->ring.avail = m->payload.addr.avail, d->ring.used = m->payload.addr.used;
    d->ring.addressed = true;
    return queue_start(d, why);
}

static bool set_vring_base(struct disk *d, const struct message *m, const char **why)
{
    if (m->payload.vring.num > 65535) return wrong(why, "a ring base over 65,535");
    if (!at_rest(d, why)) return false;
    d->ring.base = m->payload.vring.num;
    return true;
}

static void replace(int *fd, int by)
{
    if (*fd >= 0) close(*fd);
    *fd = by;
}

static bool get_vring_base(struct disk *d, const struct message *m, const char **why)
{
    const bool stopped = stop(d, why);
    union payload p = {.vring = {.index = m->payload.vring.index, .num = d->ring.base}};
    replace(&d->ring.kick, -1);
    return stopped && reply(d, &p, sizeof p.vring, why);
}

static bool set_vring_enable(struct disk *d, const struct message *m, const char **why)
{
    if (m->payload.vring.num > 1) return wrong(why, "a queue neither enabled nor disabled");
    d->ring.wanted = m->payload.vring.num;
    return d->ring.wanted ? queue_start(d, why) : stop(d, why);
}

// ---- event descriptors

// The message's descriptor, or -1. It may not block: nobody waits for a monitor that doesn't read or write it.
static bool take_event(struct disk *d, int *fd, const char **why)
{
    struct message *m = &d->inbox.message;
    *fd = -1;
    if (!m->fd_count) return true;
    const int flags = fcntl(m->fds[0], F_GETFL);
    if (flags < 0 || fcntl(m->fds[0], F_SETFL, flags | O_NONBLOCK)) return wrong(why, "an event descriptor that can't be set up");
    *fd = m->fds[0], m->fds[0] = -1;
    return true;
}

static bool set_vring_kick(struct disk *d, const struct message *m, const char **why)
{
    int fd;
    (void)m;
    if (!take_event(d, &fd, why)) return false;
    if (fd < 0) return wrong(why, "a queue without a kick, which would have to be polled");
    replace(&d->ring.kick, fd);
    return queue_start(d, why);
}

static bool set_vring_call(struct disk *d, const struct message *m, const char **why)
{
    int fd;
    (void)m;
    if (!take_event(d, &fd, why)) return false;
    replace(&d->ring.call, fd);
    if (d->ring.running) queue_notify(d);  // an answer may have been told to the old one, unheard
    return true;
}

static bool set_vring_err(struct disk *d, const struct message *m, const char **why)
{
    int fd;
    (void)m;
    if (!take_event(d, &fd, why)) return false;
    replace(&d->ring.err, fd);
    return true;
}

// ---- every message, with the length and the descriptors that it must have

enum form { EMPTY, NUMBER, VRING, ADDR, EVENT, TABLE, CONFIG };

static const struct kind { bool (*act)(struct disk *, const struct message *, const char **); enum form form; bool replies; } kinds[] = {
    [GET_FEATURES] = {get_features, EMPTY, true},         [SET_FEATURES] = {set_features, NUMBER, false},
    [SET_OWNER] = {set_owner, EMPTY, false},              [RESET_OWNER] = {reset_owner, EMPTY, false},
    [SET_MEM_TABLE] = {set_mem_table, TABLE, false},      [SET_VRING_NUM] = {set_vring_num, VRING, false},
    [SET_VRING_ADDR] = {set_vring_addr, ADDR, false},     [SET_VRING_BASE] = {set_vring_base, VRING, false},
    [GET_VRING_BASE] = {get_vring_base, VRING, true},     [SET_VRING_KICK] = {set_vring_kick, EVENT, false},
    [SET_VRING_CALL] = {set_vring_call, EVENT, false},    [SET_VRING_ERR] = {set_vring_err, EVENT, false},
    [GET_PROTOCOL_FEATURES] = {get_protocol, EMPTY, true}, [SET_PROTOCOL_FEATURES] = {set_protocol, NUMBER, false},
    [GET_QUEUE_NUM] = {get_queue_num, EMPTY, true},       [SET_VRING_ENABLE] = {set_vring_enable, VRING, false},
    [GET_CONFIG] = {get_config, CONFIG, true},            [SET_CONFIG] = {set_config, CONFIG, false},
};

static bool table_ok(const struct message *m, const char **why)
{
    const uint32_t n = m->payload.table.count;
    if (m->header.size < 8) return wrong(why, "a length that its message doesn't have");
    if (n < 1 || n > REGIONS_MAX) return wrong(why, "a memory table with no region or more than 8");
    if (m->header.size != 8 + n * sizeof(struct table_row)) return wrong(why, "a length that its message doesn't have");
    return m->fd_count == n || wrong(why, "a memory table with another number of descriptors than regions");
}

static bool config_ok(const struct message *m, const char **why)
{
    const uint32_t at = m->payload.config.offset, n = m->payload.config.size;
    if (m->header.size < CONFIG_HEADER || n > CONFIG_MAX || m->header.size != CONFIG_HEADER + n) return wrong(why, "a length that its message doesn't have");
    return at <= CONFIG_MAX - n || wrong(why, "bytes past the configuration");
}

static bool event_ok(const struct message *m, const char **why)
{
    const uint64_t n = m->payload.number;
    if ((n & ~(uint64_t)NO_FD) != 0) return wrong(why, "a queue that isn't there");
    return m->fd_count == (n & NO_FD ? 0 : 1) || wrong(why, "another number of descriptors than it says");
}

static bool form_ok(const struct message *m, enum form form, const char **why)
{
    static const uint32_t sizes[] = {[EMPTY] = 0, [NUMBER] = 8, [VRING] = 8, [ADDR] = 40, [EVENT] = 8};
    if (form == TABLE) return table_ok(m, why);
    if (form != EVENT && m->fd_count) return wrong(why, "descriptors that its message doesn't have");
    if (form == CONFIG) return config_ok(m, why);
    if (m->header.size != sizes[form]) return wrong(why, "a length that its message doesn't have");
    if (form == EVENT) return event_ok(m, why);
    return (form != VRING && form != ADDR) || m->payload.vring.index == 0 || wrong(why, "a queue that isn't there");
}

bool protocol_message(struct disk *d, const char **why)
{
    const struct message *m = &d->inbox.message;
    const uint32_t type = m->header.type;
    if (type >= sizeof kinds / sizeof *kinds || !kinds[type].act) return wrong(why, "a message that isn't known");
    if (!form_ok(m, kinds[type].form, why) || !kinds[type].act(d, m, why)) return false;
    if (kinds[type].replies || !(m->header.flags & NEED_REPLY) || !(d->protocol & PROTOCOL_REPLY_ACK)) return true;
    return reply_number(d, 0, why);
}
