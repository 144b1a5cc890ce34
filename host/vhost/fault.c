#define _GNU_SOURCE
#include <setjmp.h>
#include <signal.h>
#include <unistd.h>
#include "fault.h"

static sigjmp_buf back;
static const struct table *volatile guarded;

static void gone(int sig, siginfo_t *info, void *context)
{
    static const char text[] = "hostiledisk-vhost: SIGBUS outside guest memory: the image was cut short, or its file system failed or is full\n";
    (void)sig, (void)context;
    if (guarded && table_holds(guarded, info->si_addr)) siglongjmp(back, 1);
    if (write(STDERR_FILENO, text, sizeof text - 1) < 0) _exit(4);
    _exit(3);
}

void fault_install(void)
{
    struct sigaction a = {.sa_sigaction = gone, .sa_flags = SA_SIGINFO | SA_NODEFER};
    sigemptyset(&a.sa_mask);
    sigaction(SIGBUS, &a, NULL);
}

// What was left halfway is the state of this disk's queue; the caller drops all of it. A write to the disk may have been
// left halfway too: that is the one request whose memory the monitor took away.
bool fault_guard(const struct table *t, void (*run)(void *), void *with)
{
    guarded = t;
    if (sigsetjmp(back, 0) == 0) {
        run(with);
        guarded = NULL;
        return true;
    }
    guarded = NULL;
    return false;
}
