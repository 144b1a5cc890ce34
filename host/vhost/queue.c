#define _GNU_SOURCE
#include <stdatomic.h>
#include <stdlib.h>
#include <unistd.h>
#include "fault.h"
#include "hostiledisk.h"
#include "log.h"
#include "queue.h"

enum { NOTHING, WENT_ON, WAS_ANSWERED, WAS_BROKEN };  // what hd_step answers; 4 is a refusal
enum { BREAKS_SAID = 16 };  // a guest can break its queue as often as it likes, and must not fill the log
_Static_assert((int)QUEUE_MOST == HD_QUEUE_SIZE_MAX, "--queue-size goes as far as the device does");

bool disk_lend(struct disk *d)
{
    d->state_len = hd_state_words(), d->chain_len = hd_chain_words(d->options->queue_size), d->stage_len = hd_stage_bytes();
    d->state = calloc(d->state_len, sizeof *d->state);
    d->chain = calloc(d->chain_len, sizeof *d->chain);
    d->stage = calloc(d->stage_len, 1);
    return d->state && d->chain && d->stage;
}

static void signal_event(int fd)
{
    const uint64_t one = 1;
    if (fd >= 0 && write(fd, &one, sizeof one) != sizeof one) return;  // a full counter wakes its reader already
}

void queue_notify(struct disk *d) { signal_event(d->ring.call); }

static void look(struct disk *d) { hd_status(d->state, d->state_len, d->status, STATUS_WORDS); }

// ---- starting

static const char *refusal(uint64_t code)
{
    switch (code) {
    case 24: return "regions overlap (24)";
    case 25: return "a queue size that isn't a power of two up to 1,024 (25)";
    case 26: return "a ring that isn't aligned (26)";
    case 27: return "a ring that isn't in memory (27)";
    case 28: return "rings that overlap (28)";
    case 46: return "a ring base over 65,535 (46)";
    default: return "a set-up that the device refuses";
    }
}

static uint64_t set_up(struct disk *d, uint64_t desc, uint64_t avail, uint64_t used)
{
    const struct table *t = &d->table;
    const struct image *m = &d->image;
    uint64_t code = hd_memory(d->state, d->state_len, t->region, 3 * t->region_count, t->length);
    if (!code)
        code = hd_disk(d->state, d->state_len, m->start, m->sectors, d->options->read_only, (const uint8_t *)d->options->id, ID_BYTES, m->length);
    if (!code)
        code = hd_enable_at(d->state, d->state_len, d->ring.size, desc, avail, used, d->chain_len, d->stage_len, d->ring.base);
    return code;
}

bool queue_start(struct disk *d, const char **why)
{
    struct ring *r = &d->ring;
    uint64_t desc, avail, used;
    if (r->running || !r->wanted || r->kick < 0 || !r->size || !r->addressed || !d->table.bytes) return true;
    if (!(d->features & F_VERSION_1)) return *why = "a driver that doesn't accept VERSION_1", false;
    if (!table_guest(&d->table, r->desc, 16ull * r->size, &desc) || !table_guest(&d->table, r->avail, 6 + 2ull * r->size, &avail)
        || !table_guest(&d->table, r->used, 6 + 8ull * r->size, &used))
        return *why = refusal(27), false;
    const uint64_t code = set_up(d, desc, avail, used);
    if (code) return *why = refusal(code), false;
    look(d);
    r->running = r->busy = true;  // busy: requests may have come before the kick was connected
    r->halted = false;
    d->counts.starts++, d->counts.base = r->base;
    return true;
}

// ---- running

static void say_broken(struct disk *d)
{
    char where[WHERE_BYTES];
    counts_broken(&d->counts, d->status);
    signal_event(d->ring.err);
    if (d->counts.breaks > BREAKS_SAID) return;
    counts_where(where, d->status);
    say(d->options->socket, "%s%s", where, d->counts.breaks == BREAKS_SAID ? "; later ones are only counted" : "");
}

static void halt(struct disk *d, const char *why)
{
    d->ring.halted = true;
    say(d->options->socket, "queue halted: %s", why);
    signal_event(d->ring.err);
}

// A FLUSH is answered when all earlier writes are in the image file, not only in memory that is shared with it.
static bool durable(struct disk *d)
{
    if (!counts_flush(&d->counts) || image_sync(&d->image)) return true;
    return halt(d, "the image can't be written"), false;
}

// One step, with the barriers that its order needs. A step is a call, and the compiler may not move memory accesses over
// it; the processor may.
static uint64_t step(struct disk *d)
{
    const uint64_t before = d->status[STEP];
    // Before S7 publishes used idx: without this a driver on another processor could see the new idx and still the old
    // used entry, status or data; and it could reuse a buffer whose payload this side had yet to load.
    if (before == S7) atomic_thread_fence(memory_order_seq_cst);
    const uint64_t answer = hd_step(d->state, d->state_len, d->table.bytes, d->table.length, d->image.bytes, d->image.length, d->chain,
                                    d->chain_len, d->stage, d->stage_len);
    // After S1 has loaded available idx: without this S2 and S3 could have loaded the entry and the descriptors before idx,
    // from a time when the driver had not yet written them.
    if (before == S1) atomic_thread_fence(memory_order_seq_cst);
    look(d);
    counts_see(&d->counts, before, d->status[STEP], d->state, d->stage);
    return answer;
}

// One step and what follows from its answer. false: the queue has nothing more to do for now.
static bool go_on(struct disk *d, bool *answered)
{
    if (d->status[STEP] == S6 && !durable(d)) return false;
    switch (step(d)) {
    case NOTHING: return false;
    case WENT_ON: return true;
    case WAS_ANSWERED: return *answered = true;
    case WAS_BROKEN: return d->ring.halted = true, say_broken(d), false;
    default: return halt(d, "the device refuses its state"), false;
    }
}

struct turn { struct disk *disk; uint64_t steps; bool whole_request, answered, more; };

static void run_turn(void *with)
{
    struct turn *t = with;
    t->more = true;
    while (t->more && t->steps && !(t->whole_request && t->disk->status[STEP] <= S1)) t->more = go_on(t->disk, &t->answered), t->steps--;
}

// The driver is told once in a turn, after used idx of its last answer: a turn is short. No answer waits for the next one.
static bool guarded_turn(struct disk *d, struct turn *t)
{
    const bool whole = fault_guard(&d->table, run_turn, t);
    if (t->answered) queue_notify(d);
    return whole;
}

bool queue_turn(struct disk *d, uint64_t steps)
{
    struct turn t = {.disk = d, .steps = steps};
    if (!d->ring.running || d->ring.halted || !d->ring.busy) return true;
    const bool whole = guarded_turn(d, &t);
    d->ring.busy = t.more;  // "nothing to do" holds until the next kick: the driver kicks after it has written idx
    return whole;
}

// ---- stopping

// Between two requests taken is answered, so that the ring base tells everything: whoever goes on there loses no request
// and repeats none. The steps that a request still needs are bounded: a descriptor or a buffer each, and four more.
bool queue_stop(struct disk *d)
{
    struct turn t = {.disk = d, .steps = 2 * QUEUE_MOST + 4, .whole_request = true};
    bool whole = true;
    if (!d->ring.running) return true;
    if (!d->ring.halted) whole = guarded_turn(d, &t);
    look(d);
    d->ring.base = (uint32_t)d->status[TAKEN];
    hd_reset(d->state, d->state_len);
    d->ring.running = d->ring.busy = false;
    return whole;
}

void queue_forget(struct disk *d)
{
    struct ring *r = &d->ring;
    const int fds[] = {r->kick, r->call, r->err};
    for (size_t i = 0; i < sizeof fds / sizeof *fds; i++)
        if (fds[i] >= 0) close(fds[i]);
    *r = (struct ring){.kick = -1, .call = -1, .err = -1};
}
