// What the plugin tells the traced program: both map the same file.
#ifndef LOG_H
#define LOG_H

#include <stdint.h>

enum { MOST_ACCESSES = 1 << 19 };
struct access { uint64_t pc, at; uint32_t n, store; };  // by the instruction at pc, n bytes from address `at` on
struct log {
    volatile uint64_t on;     // the program sets it around a call
    volatile uint64_t count;  // all accesses since; the first MOST_ACCESSES of them are kept
    struct access access[MOST_ACCESSES];
};

#endif
