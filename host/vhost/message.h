// Messages of the vhost-user protocol, as they stand on the socket (x86-64: lowest byte first, as there).
#ifndef VHOST_MESSAGE_H
#define VHOST_MESSAGE_H

#include <stdbool.h>
#include <stddef.h>
#include <stdint.h>

enum {
    GET_FEATURES = 1, SET_FEATURES, SET_OWNER, RESET_OWNER, SET_MEM_TABLE, SET_VRING_NUM = 8, SET_VRING_ADDR, SET_VRING_BASE,
    GET_VRING_BASE, SET_VRING_KICK, SET_VRING_CALL, SET_VRING_ERR, GET_PROTOCOL_FEATURES, SET_PROTOCOL_FEATURES, GET_QUEUE_NUM,
    SET_VRING_ENABLE, GET_CONFIG = 24, SET_CONFIG
};
enum { VERSION = 1, IS_REPLY = 4, NEED_REPLY = 8 };        // header flags
enum { NO_FD = 0x100 };                                    // in SET_VRING_KICK, _CALL and _ERR
enum { PROTOCOL_MQ = 1, PROTOCOL_REPLY_ACK = 8, PROTOCOL_CONFIG = 512 };
enum { REGIONS_MAX = 8, CONFIG_MAX = 256, CONFIG_HEADER = 12 };  // 8 is the protocol's own limit; the device takes 32

// features: of the block device (03), of the ring, of the protocol
#define F_SIZE_MAX (1ull << 1)
#define F_SEG_MAX (1ull << 2)
#define F_RO (1ull << 5)
#define F_FLUSH (1ull << 9)
#define F_PROTOCOL_FEATURES (1ull << 30)
#define F_VERSION_1 (1ull << 32)

struct table_row { uint64_t guest, size, user, offset; };  // user: the monitor's own address; offset: in the file

union payload {
    uint64_t number;
    struct { uint32_t index, num; } vring;
    struct { uint32_t index, flags; uint64_t desc, used, avail, log; } addr;
    struct { uint32_t count, padding; struct table_row row[REGIONS_MAX]; } table;
    struct { uint32_t offset, size, flags; uint8_t bytes[CONFIG_MAX]; } config;
};

struct message {
    struct { uint32_t type, flags, size; } header;
    union payload payload;
    int fds[REGIONS_MAX];
    size_t fd_count;
};

// A message comes in pieces, and nobody waits for the rest of one: other disks have their turns.
struct inbox { struct message message; size_t got; };
enum arrival { PART, WHOLE, GONE, WRONG };
enum arrival message_take(int socket, struct inbox *in, const char **why);
void message_forget(struct inbox *in);  // closes what was not used of it
bool message_reply(int socket, const struct message *to, const void *payload, uint32_t size);  // false: the monitor doesn't read

#endif
