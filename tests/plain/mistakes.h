// The wrong devices: -DWRONG=NAME makes tests/plain/device.c one of them. Each line: the name, the test that catches it first
// (tests/plain/run reads it here; most are caught by others too), and what is wrong, with the sentence that it offends.
#ifndef MISTAKES_H
#define MISTAKES_H

enum {
    NO_MISTAKE,

    // 01 §4: "a single step never fetches the same guest byte twice", "a length that was tested is never read again"
    LENGTH_FETCHED_TWICE,      // trace: S3 tests a length, and keeps the one that it reads after the tests
    LENGTH_FETCHED_LATER,      // trace: S4 reads the length of the header's buffer from the descriptor table again
    FLAGS_FETCHED_TWICE,       // trace: S3 reads the flags again to decide whether to go on (01 §7)
    IDX_FETCHED_TWICE,         // trace: S1 looks whether idx has moved, and reads it again to count
    PAYLOAD_FETCHED_TWICE,     // trace: S5 copies the last buffer to staging memory, then from the guest to the disk
    TAIL_OVERLAPS,             // trace: S5 copies the last eight bytes as one number, some of which it has copied before
    STATUS_READ_BACK,          // trace: S6 takes the status for the length (03 §4) from the byte that it has just written
    COUNTED_IN_GUEST_MEMORY,   // smoke: S7 adds 1 to used idx as the guest has it, not to its own counter (01 §3)

    // schedule §1: idx is one 16-bit load and one 16-bit store; a guest sees the entry before idx
    IDX_READ_IN_BYTES,         // trace: S1 may see half of an idx
    IDX_WRITTEN_IN_BYTES,      // trace: a driver may see half of an idx
    IDX_BEFORE_ENTRY,          // smoke: S6 writes idx, then the entry: a driver reads an old one (01 §7)

    // 01 §3: what breaks a queue
    IDX_BY_LESS_THAN,          // smoke: fails at the wrap (01 §7)
    PENDING_NOT_TESTED,        // smoke: more requests than the queue has places (reason 1; QEMU, CVE-2016-5403)
    PLACE_NOT_MODULO,          // smoke: the available entry is taken at place taken, past the ring's end
    Q_PLUS_ONE,                // smoke: a chain of q + 1 descriptors, one more than chain memory holds (reason 3)
    SUM_WRAPS_IN_MEMORY,       // smoke: addr + len <= end with a sum that wraps (01 §1, §7)
    ENDS_TESTED_ONLY,          // reference: first and last byte are in memory, but in two regions (01 §1)
    LENGTHS_IN_32_BITS,        // reference: r and w are summed in 32 bits: 4 GiB and 528 bytes pass for 528

    // 01 §1, §2: queues of 1 to 1,024, and 1 to 32 regions
    QUEUES_OF_256,             // smoke: a queue of 512 is refused
    QUEUES_OF_2048,            // smoke: a queue of 2,048 is taken (25)
    CHAINS_OF_256,             // smoke: a chain of more than 256 descriptors is refused on any queue
    NUMBER_IN_8_BITS,          // smoke: the place of a buffer in chain memory is kept in a byte: the 257th replaces the first
    NEXT_IN_8_BITS,            // smoke: a descriptor's next is kept in a byte
    CHAIN_ONE_SHORT,           // smoke: 2 q - 1 words of chain memory are taken (42)
    CHAIN_OF_512_WORDS,        // smoke: 512 words of chain memory are enough for every queue (42)
    NINE_REGIONS_REFUSED,      // smoke: more than 8 regions are refused
    REGIONS_OF_33,             // smoke: 33 regions are taken (20), one more than the state holds
    EIGHT_JUDGED,              // smoke: set-up tests the first eight regions only (21 to 24)
    EIGHT_LOOKED_AT,           // smoke: an address is looked for in the first eight regions only
    EIGHT_TESTED,              // smoke: hd_step tests the first eight regions of a spoilt state only

    // 03 §2, §3, §4: requests
    SUM_WRAPS_ON_DISK,         // smoke: sector + n / 512 <= c with a sum that wraps (03 §8)
    ONE_SECTOR_TOO_FAR,        // smoke: the sector behind the last is the neighbour's
    PARTS_OF_SECTORS,          // reference: n need not be a multiple of 512 (QEMU's virtio-blk, CVE-2011-1750)
    LIMIT_NOT_TESTED,          // scribble: n over 1,048,576: staging memory overflows
    READ_ONLY_IGNORED,         // reference: OUT on a read-only disk
    HEADER_IN_ONE_BUFFER,      // smoke: a header in two buffers is an error (03 §8)
    STATUS_IN_ITS_OWN_BUFFER,  // smoke: status goes to the last buffer's first byte, not to its last (03 §2)
    DATA_BEFORE_ERROR,         // reference: a read copies what there is, and finds the error afterwards (03 §8)
    STATUS_WITHOUT_DISK,       // driver: status 0 without touching the disk (03 §8)
    FAILED_READ_LENGTH_ONE,    // driver: the status byte of a failed read is reported as length 1 (03 §4, §8)

    // 03 §1, §3 and schedule §1: the walls around a disk, and a write wholly within one step
    PAYLOAD_IN_PIECES,         // trace: each S5 writes its buffer to the disk at once
    START_IGNORED,             // scribble: sector 0 is the backing slice's first byte, which is another disk's
    BYTE_TOO_MANY,             // scribble: a write takes one byte more than the request has

    // hd_status: where a queue broke, and how long the last chain was
    BROKEN_AT_CHAIN_POSITION,  // smoke: the descriptor's place in its chain, not its number in the table
    BROKEN_AT_HEAD,            // smoke: for a bad next (reason 2) the head, not the descriptor that has it
    FETCHED_ONE_LESS,          // smoke: the refused descriptor isn't counted among those fetched
    LAST_CHAIN_ONE_LESS,       // smoke: a chain's last descriptor isn't counted
    CHAIN_COUNTED_EARLY,       // smoke: descriptors count before their chain is complete
    LAST_CHAIN_KEPT,           // smoke: enabling anew keeps the number from before
    NINE_WORDS_WRITE_TEN,      // smoke: to an out of nine words it writes the ninth
    BREAK_NOT_TESTED,          // smoke: spoilt words of these two are shown as they are

    // interface §2: "whatever the numbers, lengths and contents of the state are, the call stays inside the slices"
    SHORT_SLICES_TAKEN,        // smoke: hd_step takes slices that are shorter than set-up was told
    STATE_TRUSTED,             // trace: hd_step takes spoilt state words as they are
    CHAIN_TRUSTED,             // trace: hd_step takes spoilt chain words as they are
};

#ifndef WRONG
#define WRONG NO_MISTAKE
#endif

#endif
