// A plugin of the QEMU user-mode emulator: every load and store of the emulated program, with address and size, goes to the
// log while the program wants it. The program decides what of it is right (schedule.h).
//   qemu-x86_64 -plugin plugin.so,log=FILE program
#define _DEFAULT_SOURCE
#include <fcntl.h>
#include <stdio.h>
#include <string.h>
#include <sys/mman.h>
#include <unistd.h>
#include "log.h"

// From QEMU's qemu-plugin.h, which the packages don't have. VERSION is the plugin interface's: what is used here is the same in all.
typedef uint64_t qemu_plugin_id_t;
struct qemu_plugin_tb;
struct qemu_plugin_insn;
size_t qemu_plugin_tb_n_insns(const struct qemu_plugin_tb *);
struct qemu_plugin_insn *qemu_plugin_tb_get_insn(const struct qemu_plugin_tb *, size_t);
uint64_t qemu_plugin_insn_vaddr(const struct qemu_plugin_insn *);
unsigned qemu_plugin_mem_size_shift(uint32_t);
_Bool qemu_plugin_mem_is_store(uint32_t);
void qemu_plugin_register_vcpu_tb_trans_cb(qemu_plugin_id_t, void (*)(qemu_plugin_id_t, struct qemu_plugin_tb *));
void qemu_plugin_register_vcpu_mem_cb(struct qemu_plugin_insn *, void (*)(unsigned, uint32_t, uint64_t, void *), int flags, int accesses, void *);
enum { NO_REGISTERS = 0, LOADS_AND_STORES = 3 };

__attribute__((visibility("default"))) int qemu_plugin_version = VERSION;

static struct log *shared;

static void on_access(unsigned cpu, uint32_t info, uint64_t at, void *pc)
{
    (void)cpu;
    if (!shared->on) return;
    const uint64_t i = shared->count++;
    if (i < MOST_ACCESSES) shared->access[i] = (struct access){(uintptr_t)pc, at, 1u << qemu_plugin_mem_size_shift(info), qemu_plugin_mem_is_store(info)};
}

static void on_translation(qemu_plugin_id_t id, struct qemu_plugin_tb *block)
{
    (void)id;
    for (size_t i = 0; i < qemu_plugin_tb_n_insns(block); i++) {
        struct qemu_plugin_insn *insn = qemu_plugin_tb_get_insn(block, i);
        qemu_plugin_register_vcpu_mem_cb(insn, on_access, NO_REGISTERS, LOADS_AND_STORES, (void *)(uintptr_t)qemu_plugin_insn_vaddr(insn));
    }
}

__attribute__((visibility("default"))) int qemu_plugin_install(qemu_plugin_id_t id, const void *info, int argc, char **argv)
{
    (void)info;
    const int fd = argc == 1 && strncmp(argv[0], "log=", 4) == 0 ? open(argv[0] + 4, O_RDWR | O_CREAT, 0600) : -1;
    if (fd < 0 || ftruncate(fd, sizeof *shared) || (shared = mmap(NULL, sizeof *shared, PROT_READ | PROT_WRITE, MAP_SHARED, fd, 0)) == MAP_FAILED) {
        perror("trace: no log");
        return 1;
    }
    qemu_plugin_register_vcpu_tb_trans_cb(id, on_translation);
    return 0;
}
