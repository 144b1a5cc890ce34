#include <inttypes.h>
#include <stdio.h>
#include <string.h>
#include "counts.h"
#include "hostiledisk_text.h"

// The interface doesn't tell a request's type or status. Both stand in private memory that the host lends, where no
// guest can reach them: the header is gathered in the first 16 bytes of staging memory (docs/DECISIONS.md, D7), and
// before S6 the state holds the numbers of readable and writable bytes and the verdict (D8, crates/words/specs/Layout.antt).
enum { STATE_WORDS = 125, READABLE = 22, WRITABLE = 23, VERDICT = 24, HEADER_BYTES = 16 };
enum { DONE, FAILED, UNSUPPORTED, READ };
_Static_assert((int)STATUS_WORDS == HD_STATUS_WORDS && (int)BROKEN_AT == HD_STATUS_BROKEN_AT, "counts.h names the words of hd_status");

bool counts_fit(void) { return hd_state_words() == STATE_WORDS; }

static uint64_t *of_type(struct counts *c)
{
    if (!c->at_hand.header) return &c->headless;
    switch (c->at_hand.type) {
    case IN: return &c->in;
    case OUT: return &c->out;
    case FLUSH: return &c->flush;
    case GET_ID: return &c->get_id;
    default: return &c->other;
    }
}

static void answered(struct counts *c)
{
    const uint64_t verdict = c->at_hand.verdict;
    ++*of_type(c);
    c->refused += verdict == FAILED;
    c->unsupported += verdict == UNSUPPORTED;
    if (verdict == READ) c->read += c->at_hand.writable - 1;
    if (verdict == DONE && c->at_hand.type == OUT) c->written += c->at_hand.readable - HEADER_BYTES;
}

// After a step: `before` is the step that was taken, `next` the one that comes next.
void counts_see(struct counts *c, uint64_t before, uint64_t next, const uint64_t *state, const uint8_t *stage)
{
    if (before == S3) c->at_hand.header = false;
    if (before == S4 && next != S4) c->at_hand.header = true, memcpy(&c->at_hand.type, stage, sizeof c->at_hand.type);  // before S5 takes these bytes
    if (next == S6) c->at_hand.verdict = state[VERDICT], c->at_hand.readable = state[READABLE], c->at_hand.writable = state[WRITABLE];
    if (before == S7 && next == S1) answered(c);
}

bool counts_flush(const struct counts *c) { return c->at_hand.header && c->at_hand.type == FLUSH && c->at_hand.verdict == DONE; }

void counts_broken(struct counts *c, const uint64_t *status)
{
    c->breaks++;
    memcpy(c->broken, status, sizeof c->broken);
}

void counts_where(char text[WHERE_BYTES], const uint64_t *status)
{
    char broken[HD_BROKEN_TEXT_BYTES];
    hd_broken_text(broken, sizeof broken, status);
    snprintf(text, WHERE_BYTES, "%s; head %" PRIu64 ", taken %" PRIu64, broken, status[HEAD], status[TAKEN]);
}

void counts_print(const struct counts *c, const char *who)
{
    printf("%s: in %" PRIu64 ", out %" PRIu64 ", flush %" PRIu64 ", get-id %" PRIu64 ", other %" PRIu64 ", headless %" PRIu64, who, c->in, c->out,
           c->flush, c->get_id, c->other, c->headless);
    printf("; bytes read %" PRIu64 ", written %" PRIu64 "; refused %" PRIu64 ", unsupported %" PRIu64, c->read, c->written, c->refused, c->unsupported);
    printf("; started %" PRIu64 ", last at %" PRIu64 "; monitors dropped %" PRIu64 "; broken %" PRIu64, c->starts, c->base, c->dropped, c->breaks);
    if (c->breaks) {
        char where[WHERE_BYTES];
        counts_where(where, c->broken);
        printf(", last: %s", where);
    }
    putchar('\n');
    fflush(stdout);
}
