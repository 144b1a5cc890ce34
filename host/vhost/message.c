#define _GNU_SOURCE
#include <errno.h>
#include <string.h>
#include <sys/socket.h>
#include <unistd.h>
#include "message.h"

enum { HEADER = sizeof ((struct message *)0)->header };

static bool keep_fds(struct message *m, struct msghdr *from)
{
    bool room = !(from->msg_flags & MSG_CTRUNC);
    for (struct cmsghdr *c = CMSG_FIRSTHDR(from); c; c = CMSG_NXTHDR(from, c)) {
        if (c->cmsg_level != SOL_SOCKET || c->cmsg_type != SCM_RIGHTS) continue;
        for (size_t i = 0; i < (c->cmsg_len - CMSG_LEN(0)) / sizeof(int); i++) {
            int fd;
            memcpy(&fd, CMSG_DATA(c) + i * sizeof fd, sizeof fd);
            if (m->fd_count < REGIONS_MAX) m->fds[m->fd_count++] = fd;
            else close(fd), room = false;
        }
    }
    return room;
}

// Reads up to n bytes of this message and never one of the next, so that the descriptors which come along are this one's.
static enum arrival read_some(int socket, struct inbox *in, void *to, size_t n, const char **why)
{
    union { char bytes[CMSG_SPACE(sizeof(int) * 2 * REGIONS_MAX)]; struct cmsghdr align; } control;
    struct iovec v = {.iov_base = to, .iov_len = n};
    struct msghdr h = {.msg_iov = &v, .msg_iovlen = 1, .msg_control = &control, .msg_controllen = sizeof control};
    ssize_t got = recvmsg(socket, &h, MSG_DONTWAIT | MSG_CMSG_CLOEXEC);
    if (got < 0 && (errno == EAGAIN || errno == EINTR)) return PART;
    if (got <= 0) {
        *why = in->got ? "the connection ended inside a message" : "the connection ended";
        return in->got ? WRONG : GONE;
    }
    in->got += (size_t)got;
    if (!keep_fds(&in->message, &h)) return *why = "more than 8 file descriptors", WRONG;
    return (size_t)got < n ? PART : WHOLE;
}

static bool header_ok(const struct message *m, const char **why)
{
    const uint32_t flags = m->header.flags;
    if ((flags & 3) != VERSION || flags & ~(uint32_t)(VERSION | NEED_REPLY)) return *why = "header flags that version 1 doesn't have", false;
    if (m->header.size > sizeof m->payload) return *why = "a message longer than any that is known", false;
    return true;
}

enum arrival message_take(int socket, struct inbox *in, const char **why)
{
    struct message *m = &in->message;
    if (in->got < HEADER) {
        enum arrival a = read_some(socket, in, (uint8_t *)&m->header + in->got, HEADER - in->got, why);
        if (a != WHOLE) return a;
        if (!header_ok(m, why)) return WRONG;
    }
    const size_t got = in->got - HEADER;
    if (got == m->header.size) return WHOLE;
    return read_some(socket, in, (uint8_t *)&m->payload + got, m->header.size - got, why);
}

void message_forget(struct inbox *in)
{
    for (size_t i = 0; i < in->message.fd_count; i++)
        if (in->message.fds[i] >= 0) close(in->message.fds[i]);
    *in = (struct inbox){.got = 0};
}

bool message_reply(int socket, const struct message *to, const void *payload, uint32_t size)
{
    uint32_t header[3] = {to->header.type, VERSION | IS_REPLY, size};
    struct iovec v[2] = {{.iov_base = header, .iov_len = sizeof header}, {.iov_base = (void *)payload, .iov_len = size}};
    struct msghdr h = {.msg_iov = v, .msg_iovlen = 2};
    return sendmsg(socket, &h, MSG_DONTWAIT | MSG_NOSIGNAL) == (ssize_t)(sizeof header + size);
}
