#define _GNU_SOURCE
#include <errno.h>
#include <poll.h>
#include <signal.h>
#include <stdio.h>
#include <string.h>
#include <sys/signalfd.h>
#include <sys/socket.h>
#include <sys/stat.h>
#include <sys/un.h>
#include <unistd.h>
#include "log.h"
#include "loop.h"
#include "protocol.h"
#include "queue.h"

// ---- sockets

static int unix_socket(struct sockaddr_un *to, const char *path)
{
    *to = (struct sockaddr_un){.sun_family = AF_UNIX};
    strcpy(to->sun_path, path);  // options.c has tested its length
    return socket(AF_UNIX, SOCK_STREAM | SOCK_NONBLOCK | SOCK_CLOEXEC, 0);
}

static void remove_stale(const char *path)  // a socket that nobody listens on any more
{
    struct sockaddr_un to;
    struct stat s;
    const int fd = unix_socket(&to, path);
    if (fd < 0) return;
    if (!lstat(path, &s) && S_ISSOCK(s.st_mode) && connect(fd, (struct sockaddr *)&to, sizeof to) && errno == ECONNREFUSED) unlink(path);
    close(fd);
}

bool loop_listen(struct disk *d)
{
    struct sockaddr_un at;
    const char *path = d->options->socket;
    remove_stale(path);
    const int fd = unix_socket(&at, path);
    if (fd >= 0 && !bind(fd, (struct sockaddr *)&at, sizeof at)) {
        d->listening = fd;
        if (!listen(fd, 16)) return true;
    }
    say(path, "can't listen there: %s", strerror(errno));
    if (fd >= 0 && d->listening != fd) close(fd);
    return false;
}

// ---- monitors

static void forget_monitor(struct disk *d)
{
    queue_stop(d);
    queue_forget(d);
    table_unmap(&d->table);
    message_forget(&d->inbox);
    if (d->monitor >= 0) close(d->monitor);
    d->monitor = -1;
    d->features = d->protocol = 0;
}

static void drop(struct disk *d, const char *why)
{
    const struct message *m = &d->inbox.message;
    char at[64] = "";
    d->counts.dropped++;
    if (d->inbox.got) snprintf(at, sizeof at, " (message type %u of %u bytes)", (unsigned)m->header.type, (unsigned)m->header.size);
    say(d->options->socket, "monitor dropped: %s%s", why, at);
    forget_monitor(d);
}

static void drop_faulted(struct disk *d)  // no step more: its memory is gone
{
    d->ring.halted = true;
    drop(d, "guest memory was taken away while it was in use");
}

static void welcome(struct disk *d)
{
    const int fd = accept4(d->listening, NULL, NULL, SOCK_NONBLOCK | SOCK_CLOEXEC);
    if (fd < 0) return;
    if (d->monitor >= 0) {
        say(d->options->socket, "a second monitor is refused");
        close(fd);
        return;
    }
    d->monitor = fd;
}

static void hear(struct disk *d)  // at most one message in a turn
{
    const char *why = "";
    switch (message_take(d->monitor, &d->inbox, &why)) {
    case PART: return;
    case GONE: forget_monitor(d); return;
    case WRONG: drop(d, why); return;
    case WHOLE: break;
    }
    if (protocol_message(d, &why)) message_forget(&d->inbox);
    else drop(d, why);
}

static void kicked(struct disk *d)
{
    uint64_t n;
    const ssize_t got = read(d->ring.kick, &n, sizeof n);
    if (got == sizeof n) d->ring.busy = true;
    else if (got >= 0 || errno != EAGAIN) drop(d, "a kick that isn't an event descriptor");
}

void loop_leave(struct disk *d)
{
    forget_monitor(d);
    if (d->listening < 0) return;
    close(d->listening);
    unlink(d->options->socket);
    d->listening = -1;
}

// ---- signals

int loop_signals(void)
{
    sigset_t s;
    sigemptyset(&s);
    sigaddset(&s, SIGTERM), sigaddset(&s, SIGINT), sigaddset(&s, SIGUSR1);
    const int fd = sigprocmask(SIG_BLOCK, &s, NULL) ? -1 : signalfd(-1, &s, SFD_NONBLOCK | SFD_CLOEXEC);
    if (fd < 0) say(NULL, "no signals: %s", strerror(errno));
    return fd;
}

static bool go_on_after(int signals, const struct disk *disks, size_t n)
{
    struct signalfd_siginfo s;
    if (read(signals, &s, sizeof s) != sizeof s) return true;
    if (s.ssi_signo != SIGUSR1) return false;
    for (size_t i = 0; i < n; i++) counts_print(&disks[i].counts, disks[i].options->socket);
    return true;
}

// ---- turns

enum { OF_LISTENING, OF_MONITOR, OF_KICK, OF_ONE };

static bool has_work(const struct disk *d) { return d->ring.running && d->ring.busy && !d->ring.halted; }

static bool wait_for_all(struct pollfd *p, const struct disk *disks, size_t n)
{
    bool work = false;
    for (size_t i = 0; i < n; i++) {
        const struct disk *d = &disks[i];
        const int fds[OF_ONE] = {d->listening, d->monitor, d->ring.running ? d->ring.kick : -1};
        for (int k = 0; k < OF_ONE; k++) p[1 + OF_ONE * i + k] = (struct pollfd){.fd = fds[k], .events = POLLIN};
        work |= has_work(d);
    }
    return poll(p, 1 + OF_ONE * n, work ? 0 : -1) >= 0;
}

static void one_turn(struct disk *d, const struct pollfd *p, uint64_t steps)
{
    if (p[OF_KICK].revents) kicked(d);  // before a message can replace it
    if (p[OF_MONITOR].revents && d->monitor == p[OF_MONITOR].fd) hear(d);
    const bool leaving = d->monitor >= 0 && p[OF_MONITOR].revents & POLLHUP;  // what it said before is heard first
    if (p[OF_LISTENING].revents && !leaving) welcome(d);
    if (has_work(d) && !queue_turn(d, steps)) drop_faulted(d);
}

void loop_run(struct disk *disks, size_t n, int signals, uint64_t steps)
{
    struct pollfd p[1 + OF_ONE * DISKS_MAX] = {{.fd = signals, .events = POLLIN}};
    for (;;) {
        if (!wait_for_all(p, disks, n)) continue;  // interrupted
        if (p[0].revents && !go_on_after(signals, disks, n)) return;
        for (size_t i = 0; i < n; i++) one_turn(&disks[i], p + 1 + OF_ONE * i, steps);
    }
}
