// The host's half: steps the device through one request, and knows what each step may write (the schedule of S1 to S7).
#include <stdio.h>
#include <string.h>
#include "demo.h"

static void spread(const struct request *r, const uint8_t *from, uint64_t n)  // over the writable buffers, in chain order
{
    for (unsigned k = 0; k < r->n && n > 0; k++) {
        if (!r->buffers[k].writable) continue;
        uint64_t part = r->buffers[k].len < n ? r->buffers[k].len : n;
        expect_bytes(r->buffers[k].at, from, part);
        from += part, n -= part;
    }
}

static void expect_answer(const struct request *r, struct outcome want)  // S6: data, then status, then the used entry
{
    const uint64_t entry = USED + 4 + 8 * (world.answered % world.queue);
    if (want.status == 0 && r->type == IN) spread(r, world.want_image + OURS + HD_SECTOR_BYTES * r->sector, bytes_of(r, true) - 1);
    if (want.status == 0 && r->type == GET_ID) spread(r, identity, HD_ID_BYTES);
    expect(status_at(r), 1, want.status);
    expect(entry, 4, r->head);
    expect(entry + 4, 4, want.len);
}

static unsigned payload_buffers(const struct request *r)
{
    unsigned count = 0;
    uint64_t end = 0;
    for (unsigned k = 0; k < r->n && !r->buffers[k].writable; k++) end += r->buffers[k].len, count += end > 16;
    return count;
}

static void expect_step(const struct request *r, struct outcome want, uint64_t next, unsigned *payloads)
{
    if (want.answer != HD_STEP_ANSWERED) return;  // then nothing at all is written
    if (next == HD_NEXT_PAYLOAD && ++*payloads == payload_buffers(r))
        memcpy(world.want_image + OURS + HD_SECTOR_BYTES * r->sector, r->data, bytes_of(r, false) - 16);
    if (next == HD_NEXT_ANSWER) expect_answer(r, want);
    if (next == HD_NEXT_PUBLISH) expect(USED + 2, 2, ++world.answered);
}

static void note_answer(const struct request *r, struct outcome *got)  // right after S6, before the guest can change it
{
    got->status = peek(status_at(r), 1);
    got->len = peek(USED + 8 + 8 * (world.answered % world.queue), 4);
}

void note_break(const uint64_t *status, struct outcome *got)
{
    got->reason = status[HD_STATUS_REASON];
    if (got->reason) got->at = status[HD_STATUS_BROKEN_AT];
}

// Steps until the request is answered or comes to nothing; the host bounds the steps. Where the guest meddles every byte is
// compared after each step. Answers what isn't as expected, or NULL.
const char *run_steps(const struct request *asked, struct outcome want, meddler *meddle, struct outcome *got)
{
    uint64_t status[HD_STATUS_WORDS], answer = HD_STEP_WENT_ON;
    const char *problem = NULL;
    unsigned payloads = 0;
    *got = (struct outcome){0};
    for (uint64_t i = 0; answer == HD_STEP_WENT_ON && i < 3 * world.queue + 8 && !problem; i++) {
        look(status);
        if (meddle) meddle(status);
        expect_step(asked, want, status[HD_STATUS_NEXT_STEP], &payloads);
        got->answer = answer = step();
        if (status[HD_STATUS_NEXT_STEP] == HD_NEXT_ANSWER) note_answer(asked, got);
        if (meddle) problem = differs();
    }
    look(status);
    note_break(status, got);
    return problem;
}

const char *serve(const struct request *asked, struct outcome want, meddler *meddle, struct outcome *got)
{
    const char *problem = run_steps(asked, want, meddle, got);
    static char text[64];
    if (!problem) problem = walls();  // the worst first
    if (!problem && !same_outcome(want, *got)) {
        snprintf(text, sizeof text, "expected %s", said(want));
        return text;
    }
    return problem ? problem : differs();
}

bool same_outcome(struct outcome a, struct outcome b)
{
    return a.answer == b.answer && a.reason == b.reason && a.status == b.status && a.len == b.len && a.at == b.at;
}

const char *said(struct outcome o)
{
    static char text[2][64];
    static int turn;
    char *t = text[turn = !turn];
    unsigned long long reason = o.reason, status = o.status, len = o.len, at = o.at;
    switch (o.answer) {
    case HD_STEP_IDLE: return "nothing to do";
    case HD_STEP_WENT_ON: return "went on, and on";
    case HD_STEP_ANSWERED: snprintf(t, 64, "answered: status %llu, len %llu", status, len); return t;
    case HD_STEP_BROKEN:
        if (at < HD_NO_DESCRIPTOR) snprintf(t, 64, "broken, reason %llu, at descriptor %llu", reason, at);
        else snprintf(t, 64, "broken, reason %llu", reason);
        return t;
    case HD_STEP_REFUSED: return "step refused (4)";
    default: snprintf(t, 64, "unknown answer %llu", (unsigned long long)o.answer); return t;
    }
}
