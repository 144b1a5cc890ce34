// What hd_status tells of a broken queue, in words: for a log, or for support.
//
//   uint64_t status[HD_STATUS_WORDS];
//   char text[HD_BROKEN_TEXT_BYTES];
//   hd_status(state, state_len, status, HD_STATUS_WORDS);
//   hd_broken_text(text, sizeof text, status);
//
// gives "queue broken: reason 6, buffer not in memory, at descriptor 17, the 3rd of its chain".
#ifndef HOSTILEDISK_TEXT_H
#define HOSTILEDISK_TEXT_H

#include <stdio.h>
#include "hostiledisk.h"

enum { HD_BROKEN_TEXT_BYTES = 160 };  // room for every text, whatever the words are

// Why a queue is broken (enum hd_reason), in a few words.
static inline const char *hd_reason_text(uint64_t reason)
{
    switch (reason) {
    case HD_REASON_NONE: return "in order";
    case HD_REASON_IDX: return "available idx too far ahead";
    case HD_REASON_INDEX: return "index past the table";
    case HD_REASON_CHAIN_LONG: return "chain longer than the queue";
    case HD_REASON_FLAGS: return "flag not negotiated";
    case HD_REASON_EMPTY: return "buffer of length 0";
    case HD_REASON_MEMORY: return "buffer not in memory";
    case HD_REASON_READABLE_LATE: return "readable buffer after a writable one";
    case HD_REASON_NO_STATUS: return "no writable buffer";
    default: return "unknown code";
    }
}

// The ending of an ordinal: 1st, 2nd, 3rd, 4th, 11th, 12th, 13th, 21st, 111th.
static inline const char *hd_ordinal_ending(uint64_t n)
{
    if (n / 10 % 10 == 1) return "th";
    return n % 10 == 1 ? "st" : n % 10 == 2 ? "nd" : n % 10 == 3 ? "rd" : "th";
}

// Writes the text of these status words, cut to size bytes with its 0 at the end; nothing if size is 0.
static inline void hd_broken_text(char *text, size_t size, const uint64_t status[HD_STATUS_WORDS])
{
    const unsigned long long reason = status[HD_STATUS_REASON], at = status[HD_STATUS_BROKEN_AT];
    const unsigned long long number = status[HD_STATUS_DESCRIPTORS];
    const char *words = hd_reason_text(reason);
    if (!status[HD_STATUS_ENABLED]) snprintf(text, size, "queue not enabled");
    else if (!reason) snprintf(text, size, "queue in order");
    else if (at < HD_NO_DESCRIPTOR)
        snprintf(text, size, "queue broken: reason %llu, %s, at descriptor %llu, the %llu%s of its chain", reason, words, at,
                 number, hd_ordinal_ending(number));
    else if (reason == HD_REASON_INDEX)  // then it is the head
        snprintf(text, size, "queue broken: reason %llu, %s, in the available ring", reason, words);
    else snprintf(text, size, "queue broken: reason %llu, %s", reason, words);
}

#endif
