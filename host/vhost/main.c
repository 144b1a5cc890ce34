// hostiledisk-vhost: a vhost-user-blk back end over the proved device. One thread, no allocation after the start except
// for mapped guest memory; everything that a monitor or a guest can ask for is bounded.
#include <signal.h>
#include <stdio.h>
#include "fault.h"
#include "log.h"
#include "loop.h"
#include "options.h"

static struct disk disks[DISKS_MAX];

static bool find_images(const struct options *o)
{
    for (size_t i = 0; i < o->disks; i++) {
        if (!image_find(&disks[i].image, &o->disk[i])) return false;
        for (size_t k = 0; k < i; k++)
            if (image_overlap(&disks[i].image, &disks[k].image))
                return say(o->disk[i].socket, "its bytes of %s overlap those of %s", o->disk[i].image, o->disk[k].socket), false;
    }
    return true;
}

static void blank(const struct options *o)
{
    for (size_t i = 0; i < o->disks; i++)
        disks[i] = (struct disk){.options = &o->disk[i], .listening = -1, .monitor = -1, .image = {.fd = -1}, .ring = {.kick = -1, .call = -1, .err = -1}};
}

static bool start(const struct options *o)
{
    if (!counts_fit()) return say(NULL, "the library's state isn't the one that the counts are made from"), false;
    if (!find_images(o)) return false;
    for (size_t i = 0; i < o->disks; i++)
        if (!image_take(&disks[i].image, &o->disk[i])) return false;
    for (size_t i = 0; i < o->disks; i++)
        if (!disk_lend(&disks[i])) return say(NULL, "no memory"), false;
    for (size_t i = 0; i < o->disks; i++)
        if (!loop_listen(&disks[i])) return false;
    return true;
}

static bool end(const struct options *o)
{
    bool durable = true;
    for (size_t i = 0; i < o->disks; i++) {
        const bool read_only = o->disk[i].read_only;
        loop_leave(&disks[i]);
        if (!disks[i].image.bytes || read_only || image_sync(&disks[i].image)) continue;
        say(o->disk[i].socket, "the image can't be written");
        durable = false;
    }
    return durable;
}

int main(int argc, char **argv)
{
    static struct options o;
    const enum asked asked = options_read(&o, argc, argv);
    if (asked == HELP) return options_help(), 0;
    if (asked == WRONG_OPTIONS) return 2;
    blank(&o);
    signal(SIGPIPE, SIG_IGN);
    fault_install();
    const int signals = loop_signals();
    if (signals < 0 || !start(&o)) return end(&o), 1;
    say(NULL, "ready, %zu disk%s", o.disks, o.disks == 1 ? "" : "s");
    loop_run(disks, o.disks, signals, o.steps);
    const bool durable = end(&o);
    for (size_t i = 0; i < o.disks; i++) counts_print(&disks[i].counts, o.disk[i].socket);
    return durable ? 0 : 1;
}
