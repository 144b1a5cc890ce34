// The C interface of libhostiledisk.a, version 1: a virtio block device (split queue, VIRTIO 1.2) for hostile guests.
//
// The host lends all memory and calls the device step by step; the library has no memory of its own, never waits and
// never loops on the guest's say-so. A slice is a pointer and a length in elements.
//
// No call has a condition that the caller must know: whatever the numbers, lengths and contents are, it returns, stays
// inside the slices and answers a code. What C can't check stays with the caller: each pointer is valid (and not NULL)
// for its length, aligned for its type, and no two slices of one call overlap. Slices and state may move between calls
// if their contents do.
//
// The order of calls: hd_memory, hd_disk, hd_enable (or hd_enable_at), then hd_step as often as the host likes.
// hd_reset ends the queue, and hd_enable starts it anew. A state of zeros has nothing set up. A refusal changes nothing.
// Spoilt state words (none that set-up and steps make) count as a state with nothing set up; words that happen to be a
// state that set-up could make act as that state. Either way the call stays inside the slices.
//
// Threads. The library has no global data. One device is used by one thread at a time; different devices by different
// threads at once, on one backing slice too if their disks don't overlap. The guest may change its memory at any time.
//
// Barriers. A driver on another processor must see reads and writes in order, and only the host can put a barrier
// between two steps:
//   after S1 (idx was read), a read barrier: else the entry or a descriptor is read from before the driver wrote it;
//   before S7 (idx is published), a write barrier (release): else the driver sees the new idx before the used entry,
//     the data or the status, or reuses a buffer whose bytes are still being fetched.
// atomic_thread_fence(memory_order_release) before every hd_step and atomic_thread_fence(memory_order_acquire) after it
// do both, and on x86-64 neither is an instruction. (HD_STATUS_NEXT_STEP tells which step is next, for hosts that want
// to be exact.) Ring flags and event fields are neither read nor written: notify the guest after every answer, or
// after several.
//
// Alignment. Each idx is one 16-bit load or store, and a driver never sees half of it if it lies at an even host
// address. Enabling tests alignment in guest addresses, so let the slice begin at a page, and let each region's offset
// and guest address be equal modulo 16.
#ifndef HOSTILEDISK_H
#define HOSTILEDISK_H

#include <stddef.h>
#include <stdint.h>

#ifdef __cplusplus
extern "C" {
#endif

// ---- Sizes and limits

enum {
    HD_SECTOR_BYTES = 512,        // a sector
    HD_ID_BYTES = 20,             // a disk's identity: text filled up with zeros
    HD_REGION_WORDS = 3,          // a region: guest address, length, offset in the slice
    HD_REGIONS_MAX = 32,          // regions of guest memory, at least 1
    HD_QUEUE_SIZE_MAX = 1024,     // queue size: a power of two from 1 up to this
    HD_STAGE_BYTES = 1048576,     // what hd_stage_bytes answers
    HD_REQUEST_BYTES_MAX = 1048576,  // data bytes of the largest read or write; a larger one gets status 1 (I/O error)
    HD_COUNTER_END = 65536,       // counters and indices count modulo this
    HD_NO_DESCRIPTOR = 65536      // in HD_STATUS_BROKEN_AT: no descriptor has this number
};
#define HD_SECTORS_MAX UINT64_C(4294967296)  // the largest disk: 2^32 sectors

// ---- Answers of the set-up calls (hd_memory, hd_disk, hd_enable, hd_enable_at, hd_reset) and of hd_status

enum hd_answer {
    HD_OK = 0,                        // done

    // hd_memory
    HD_REFUSED_REGION_COUNT = 20,     // not 1 to 32 regions, or a number of words that is no multiple of 3
    HD_REFUSED_REGION_EMPTY = 21,     // a region of length 0
    HD_REFUSED_REGION_SLICE = 22,     // a region leaves the slice: offset + length is over mem_len
    HD_REFUSED_REGION_ADDRESS = 23,   // a region's guest address + length is over 2^64 - 1
    HD_REFUSED_REGION_OVERLAP = 24,   // a region's guest addresses overlap an earlier one's (slice bytes may be shared)

    // hd_enable, hd_enable_at
    HD_REFUSED_QUEUE_SIZE = 25,       // not a power of two from 1 to 1,024
    HD_REFUSED_AREA_ALIGNMENT = 26,   // descriptors not at a multiple of 16, available ring of 2, or used ring of 4
    HD_REFUSED_AREA_MEMORY = 27,      // an area isn't wholly inside one region
    HD_REFUSED_AREA_OVERLAP = 28,     // the used ring overlaps the available ring or the descriptors

    // hd_disk
    HD_REFUSED_DISK_SECTORS = 29,     // capacity not 1 to 2^32 sectors
    HD_REFUSED_DISK_RANGE = 30,       // the disk leaves the backing slice: start + 512 sectors is over backing_len

    // the order of calls, and the memory that is lent
    HD_REFUSED_STATE_SHORT = 40,      // fewer state words than hd_state_words()
    HD_REFUSED_ORDER = 41,            // what must come before is missing, or a queue is enabled already
    HD_REFUSED_CHAIN_SHORT = 42,      // fewer chain words than hd_chain_words(size)
    HD_REFUSED_STAGE_SHORT = 43,      // fewer staging bytes than hd_stage_bytes()
    HD_REFUSED_ID_LENGTH = 44,        // an identity that isn't 20 bytes
    HD_REFUSED_OUT_SHORT = 45,        // fewer than HD_STATUS_WORDS_LEAST words for hd_status
    HD_REFUSED_START = 46             // hd_enable_at: start is 65,536 or more
};

// ---- Answers of hd_step

enum hd_step_answer {
    HD_STEP_IDLE = 0,      // nothing to do: the driver has made nothing available. Wait for its notification
    HD_STEP_WENT_ON = 1,   // a part of a request was done; call again
    HD_STEP_ANSWERED = 2,  // a request was answered just now, and used idx is published. Notify the guest, call again
    HD_STEP_BROKEN = 3,    // the driver has left the rules, now or before; hd_status says why and where. Every further step
                           // answers this and touches nothing, until hd_reset (or hd_memory)
    HD_STEP_REFUSED = 4    // the host's mistake, nothing touched: not enabled, spoilt state or chain memory, or a slice
                           // shorter than set-up was told
};

// ---- Why a queue is broken. For the request that broke it nothing was written to guest memory or disk.

enum hd_reason {
    HD_REASON_NONE = 0,             // in order
    HD_REASON_IDX = 1,              // available idx is ahead by more entries than the ring has
    HD_REASON_INDEX = 2,            // a head, or a descriptor's next, is the queue size or more
    HD_REASON_CHAIN_LONG = 3,       // a chain of more descriptors than the queue has (one that bites its tail, too)
    HD_REASON_FLAGS = 4,            // a descriptor flag other than NEXT and WRITE (INDIRECT, too)
    HD_REASON_EMPTY = 5,            // a buffer of length 0
    HD_REASON_MEMORY = 6,           // a buffer isn't wholly inside one region of guest memory
    HD_REASON_READABLE_LATE = 7,    // a readable buffer after a writable one
    HD_REASON_NO_STATUS = 8         // no writable buffer: no place for a status
};

// ---- The words of hd_status

enum hd_status_word {
    HD_STATUS_ENABLED = 0,      // 1 if a queue is enabled (a broken one is), else 0, and then all other words are 0 too
    HD_STATUS_REASON = 1,       // enum hd_reason; 0 if in order
    HD_STATUS_TAKEN = 2,        // counter of requests taken from the available ring, modulo 2^16
    HD_STATUS_ANSWERED = 3,     // counter of requests answered, modulo 2^16: what used idx holds. A host that hands the
                                // queue over, or restarts, gives this to hd_enable_at
    HD_STATUS_NEXT_STEP = 4,    // enum hd_next_step: the step that the next hd_step does
    HD_STATUS_HEAD = 5,         // head of the request at hand
    HD_STATUS_DESCRIPTORS = 6,  // descriptors fetched for it, a refused one included
    HD_STATUS_BYTES = 7,        // header and payload bytes fetched for it
    HD_STATUS_BROKEN_AT = 8,    // number, in its table, of the descriptor at which the chain was refused; HD_NO_DESCRIPTOR
                                // if the queue is in order, or broke elsewhere
    HD_STATUS_LAST_CHAIN = 9,   // descriptors of the last chain that was complete; 0 before the first
    HD_STATUS_WORDS = 10,       // how many words there are
    HD_STATUS_WORDS_LEAST = 8   // the fewest that hd_status writes: those before HD_STATUS_BROKEN_AT
};
// Head, descriptors and bytes are 0 where there is no request at hand (S1, S2). After a break they speak of the request
// that broke the queue; head is 0 if no valid head had been fetched.
// Where it broke: for reason 2 the descriptor whose next is bad, for reason 3 the one that would have been number q + 1
// of its chain, for reason 8 the chain's last one. Reason 1, and reason 2 for a head, are at no descriptor.
// A chain is complete with the S3 that takes a descriptor without NEXT, also if that breaks the queue for reason 8; a
// chain that is refused for another reason leaves the number as it was. Enabling makes it 0.

enum hd_next_step {
    HD_NEXT_NONE = 0,        // not enabled, or broken
    HD_NEXT_POLL = 1,        // S1: reads available idx
    HD_NEXT_HEAD = 2,        // S2: reads one available entry
    HD_NEXT_DESCRIPTOR = 3,  // S3: reads one descriptor, and tests it
    HD_NEXT_HEADER = 4,      // S4: reads header bytes of one buffer; with the last of them the request is decided
    HD_NEXT_PAYLOAD = 5,     // S5: reads the payload bytes of one buffer; with the last the disk is written, all at once
    HD_NEXT_ANSWER = 6,      // S6: writes data, then status, then the used entry; reads no guest memory
    HD_NEXT_PUBLISH = 7      // S7: writes used idx; reads no guest memory
};

// ---- How much memory to lend for one device

uint64_t hd_state_words(void);                 // words of state the host lends for a device, whatever its queue's size
uint64_t hd_chain_words(uint64_t queue_size);  // words of chain memory for that size; 0 for a size that enabling refuses
uint64_t hd_stage_bytes(void);                 // bytes of staging memory: 1,048,576

// ---- Set-up

// Registers guest memory: 1 to 32 regions of a slice of mem_len bytes, which hd_step gets. Works on any state, an enabled
// one too, and forgets all that was set up before; a request at hand is dropped without an answer. A range of guest
// bytes is in memory if one region contains all of it: merge adjoining regions before registering them.
// Answers, tested in this order: 40 · 20 · then region by region 21, 22, 23, 24 · 0.
uint64_t hd_memory(uint64_t *state, size_t state_len,
                   const uint64_t *regions, size_t regions_len,   // three words each: guest address, length, offset in the slice
                   uint64_t mem_len);

// Registers the disk: the bytes from start up to start + 512 sectors of a backing slice of backing_len bytes, which
// hd_step gets. No other byte of the backing slice is ever changed or shown to the guest. read_only: 0, or any other
// number for a disk that refuses writes with status 1. A second hd_disk before enabling replaces the first.
// Answers, tested in this order: 40 · 41 no memory registered, or a queue is enabled (a broken one is) · 44 · 29 · 30 · 0.
uint64_t hd_disk  (uint64_t *state, size_t state_len,
                   uint64_t start, uint64_t sectors, uint64_t read_only,
                   const uint8_t *id, size_t id_len,              // 20 bytes; another length is refused
                   uint64_t backing_len);

// Enables the queue, both counters 0. Touches no guest memory: the driver has laid the rings. chain_len and stage_len
// are the lengths of the chain and staging memory that hd_step gets.
// Answers, tested in this order: 40 · 41 memory or disk missing, or enabled already · 25 · 26 · 27 · 28 · 42 · 43 · 0.
uint64_t hd_enable(uint64_t *state, size_t state_len,
                   uint64_t size, uint64_t desc, uint64_t avail, uint64_t used,   // guest addresses
                   uint64_t chain_len, uint64_t stage_len);

// The same for a host that takes over a queue in use (a restarted back end): both counters begin at start.
// Answers: as hd_enable, and after 43: 46.
uint64_t hd_enable_at(uint64_t *state, size_t state_len,
                   uint64_t size, uint64_t desc, uint64_t avail, uint64_t used,
                   uint64_t chain_len, uint64_t stage_len, uint64_t start);      // both counters begin at start

// Makes the queue "not enabled", broken or not; a request at hand is dropped without an answer, and if it was a write it
// has either wholly reached the disk or not at all. Memory and disk stay registered: hd_enable is next, or another hd_disk.
// Answers: 40 · 0, also where nothing was enabled.
uint64_t hd_reset (uint64_t *state, size_t state_len);

// ---- The device at work

// One step, S1 to S7 (enum hd_next_step). It fetches at most one contiguous range of guest memory, no byte of it twice;
// S1 to S5 write no guest memory, S6 and S7 only the chain's writable buffers, the used entry and used idx. The disk is
// written by the S5 that fetches the last of a payload, and by nothing else. The slices must be at least as long as
// set-up was told; chain and staging memory belong to this device alone while it is enabled.
// Answers (enum hd_step_answer), tested in this order: 4 not enabled, or words that set-up and steps don't make (fewer
// than hd_state_words() words, too) · 3 broken already · 4 a slice is too short, or chain memory is spoilt · then the
// step is done: 0 · 1 · 2 · 3 broken in this step.
uint64_t hd_step  (uint64_t *state, size_t state_len,
                   uint8_t *mem, size_t mem_len,
                   uint8_t *backing, size_t backing_len,
                   uint64_t *chain, size_t chain_len,
                   uint8_t *stage, size_t stage_len);

// What the queue is at: writes HD_STATUS_WORDS words (enum hd_status_word) to out, and none after them; to an out of 8
// or 9 words the first HD_STATUS_WORDS_LEAST, and no other. include/hostiledisk_text.h says a break in words.
// Answers, tested in this order: 40 · 45 fewer than HD_STATUS_WORDS_LEAST words · 0. A refusal writes nothing.
uint64_t hd_status(const uint64_t *state, size_t state_len, uint64_t *out, size_t out_len);

#ifdef __cplusplus
}
#endif

#endif
