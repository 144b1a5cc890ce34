// The monitor's half: messages with descriptors, and what comes back.
#define _GNU_SOURCE
#include <errno.h>
#include <poll.h>
#include <sys/eventfd.h>
#include <sys/socket.h>
#include <sys/un.h>
#include <unistd.h>
#include "front.h"

int dial(const char *path)
{
    struct sockaddr_un to = {.sun_family = AF_UNIX};
    const int fd = socket(AF_UNIX, SOCK_STREAM | SOCK_CLOEXEC, 0);
    strncpy(to.sun_path, path, sizeof to.sun_path - 1);
    if (fd < 0 || connect(fd, (struct sockaddr *)&to, sizeof to)) fail("connect");
    return fd;
}

void send_message(int socket, uint32_t type, uint32_t flags, const void *payload, uint32_t size, const int *fds, size_t n)
{
    union { char bytes[CMSG_SPACE(16 * sizeof(int))]; struct cmsghdr align; } control = {.bytes = {0}};
    uint32_t header[3] = {type, flags, size};
    struct iovec v[2] = {{.iov_base = header, .iov_len = sizeof header}, {.iov_base = (void *)payload, .iov_len = payload ? size : 0}};
    struct msghdr h = {.msg_iov = v, .msg_iovlen = 2};
    if (n) {
        h.msg_control = &control, h.msg_controllen = CMSG_SPACE(n * sizeof(int));
        struct cmsghdr *c = CMSG_FIRSTHDR(&h);
        c->cmsg_level = SOL_SOCKET, c->cmsg_type = SCM_RIGHTS, c->cmsg_len = CMSG_LEN(n * sizeof(int));
        memcpy(CMSG_DATA(c), fds, n * sizeof(int));
    }
    if (sendmsg(socket, &h, MSG_NOSIGNAL) != (ssize_t)(sizeof header + v[1].iov_len)) fail("sendmsg");
}

bool heard(int fd, int milliseconds)
{
    struct pollfd p = {.fd = fd, .events = POLLIN};
    return poll(&p, 1, milliseconds) == 1;
}

static void receive(int socket, void *to, size_t n)
{
    for (size_t got = 0; got < n;) {
        if (!heard(socket, PATIENCE)) fail("no reply");
        const ssize_t r = recv(socket, (uint8_t *)to + got, n - got, 0);
        if (r <= 0) fail("the connection ended instead of a reply");
        got += (size_t)r;
    }
}

static void reply_of(int socket, uint32_t type, void *payload, uint32_t size)
{
    uint32_t header[3];
    receive(socket, header, sizeof header);
    same("reply: type", type, header[0]), same("reply: flags", VERSION | IS_REPLY, header[1]), same("reply: length", size, header[2]);
    receive(socket, payload, size);
}

uint64_t ask(int socket, uint32_t type)
{
    uint64_t n = 0;
    send_message(socket, type, VERSION, NULL, 0, NULL, 0);
    reply_of(socket, type, &n, sizeof n);
    return n;
}

void tell(int socket, uint32_t type, const union payload *p, uint32_t size, const int *fds, size_t n)
{
    uint64_t done = 1;
    send_message(socket, type, VERSION | NEED_REPLY, p, size, fds, n);
    reply_of(socket, type, &done, sizeof done);
    same("acknowledged", 0, done);
}

static void tell_vring(int socket, uint32_t type, uint32_t num) { tell(socket, type, &(union payload){.vring = {0, num}}, 8, NULL, 0); }

void tell_table(int socket, size_t n)
{
    static const int order[ROWS] = {2, 0, 3, 1, 4};
    union payload p = {.table = {.count = (uint32_t)n}};
    int fds[ROWS];
    for (size_t i = 0; i < n; i++) p.table.row[i] = rows[order[i]], fds[i] = files[file_of[order[i]]];
    tell(socket, SET_MEM_TABLE, &p, (uint32_t)(8 + n * sizeof *rows), fds, n);
}

void greet(struct monitor *m, const char *path)
{
    m->socket = dial(path);
    m->kick = eventfd(0, EFD_CLOEXEC), m->call = eventfd(0, EFD_CLOEXEC), m->err = eventfd(0, EFD_CLOEXEC);
    const uint64_t features = ask(m->socket, GET_FEATURES);
    send_message(m->socket, SET_PROTOCOL_FEATURES, VERSION, &(uint64_t){ask(m->socket, GET_PROTOCOL_FEATURES)}, 8, NULL, 0);
    tell(m->socket, SET_OWNER, NULL, 0, NULL, 0);
    tell(m->socket, SET_FEATURES, &(union payload){.number = features}, 8, NULL, 0);
}

void hang_up(struct monitor *m)
{
    const int fds[] = {m->socket, m->kick, m->call, m->err};
    for (size_t i = 0; i < COUNT(fds); i++) close(fds[i]);
}

void is_dropped(int socket)
{
    char bytes[4096];
    checks++;
    for (ssize_t n = 1; n > 0;) {
        if (!heard(socket, PATIENCE)) fail("the monitor isn't dropped");
        n = recv(socket, bytes, sizeof bytes, 0);
        if (n < 0 && errno != ECONNRESET) fail("recv");
    }
}

void ring_start(struct monitor *m, uint32_t size, uint32_t base, const struct place *at)
{
    union payload p = {.addr = {.desc = memory_user(at->desc), .avail = memory_user(at->avail), .used = memory_user(at->used)}};
    const int fds[] = {m->kick, m->call, m->err};
    tell_vring(m->socket, SET_VRING_NUM, size), tell_vring(m->socket, SET_VRING_BASE, base);
    tell(m->socket, SET_VRING_ADDR, &p, sizeof p.addr, NULL, 0);
    for (uint32_t i = 0; i < 3; i++) tell(m->socket, SET_VRING_KICK + i, &(union payload){.number = 0}, 8, fds + i, 1);
    tell_vring(m->socket, SET_VRING_ENABLE, 1);
}

uint32_t ring_stop(struct monitor *m)
{
    union payload p = {.vring = {0, 0}};
    send_message(m->socket, GET_VRING_BASE, VERSION, &p, 8, NULL, 0);
    reply_of(m->socket, GET_VRING_BASE, &p, 8);
    same("queue of the ring base", 0, p.vring.index);
    return p.vring.num;
}
