// A plugin for qemu-x86_64 that prints, at exit, how many instructions the program executed. VERSION is the plugin interface's.
// The declarations are the few that are used of QEMU's qemu-plugin.h, which distributions do not ship.
#include <inttypes.h>
#include <stddef.h>
#include <stdint.h>
#include <stdio.h>
#include <stdlib.h>

typedef uint64_t qemu_plugin_id_t;
struct qemu_plugin_tb;
struct qemu_plugin_insn;
enum qemu_plugin_cb_flags { QEMU_PLUGIN_CB_NO_REGS };

void qemu_plugin_register_vcpu_tb_trans_cb(qemu_plugin_id_t id, void (*made)(qemu_plugin_id_t, struct qemu_plugin_tb *));
void qemu_plugin_register_vcpu_tb_exec_cb(struct qemu_plugin_tb *block, void (*entered)(unsigned, void *),
                                          enum qemu_plugin_cb_flags flags, void *data);
void qemu_plugin_register_atexit_cb(qemu_plugin_id_t id, void (*left)(qemu_plugin_id_t, void *), void *data);
size_t qemu_plugin_tb_n_insns(const struct qemu_plugin_tb *block);
uint64_t qemu_plugin_tb_vaddr(const struct qemu_plugin_tb *block);
struct qemu_plugin_insn *qemu_plugin_tb_get_insn(const struct qemu_plugin_tb *block, size_t index);
uint64_t qemu_plugin_insn_vaddr(const struct qemu_plugin_insn *instruction);

int qemu_plugin_version = VERSION;

// Bytes of a page, and of the longest instruction.
enum { PAGE = 4096, LONGEST = 15 };

// A block ends before an instruction that crosses the end of a page, and the next one starts with it; QEMU counts it in both. So the
// address of a last instruction that may cross is kept, and where the next block starts there, it was no part of the first.
struct block {
    size_t instructions;
    uint64_t start, last;
};

static uint64_t executed, last;

static void entered(unsigned cpu, void *data) {
    const struct block *block = data;
    (void)cpu;
    executed += block->instructions;
    if (block->start == last) executed--;
    last = block->last;
}

static void made(qemu_plugin_id_t id, struct qemu_plugin_tb *tb) {
    struct block *block = calloc(1, sizeof *block);
    (void)id;
    if (block == NULL) abort();
    block->instructions = qemu_plugin_tb_n_insns(tb);
    block->start = qemu_plugin_tb_vaddr(tb);
    uint64_t at = qemu_plugin_insn_vaddr(qemu_plugin_tb_get_insn(tb, block->instructions - 1));
    if (block->instructions > 1 && at % PAGE + LONGEST > PAGE) block->last = at;
    qemu_plugin_register_vcpu_tb_exec_cb(tb, entered, QEMU_PLUGIN_CB_NO_REGS, block);
}

static void left(qemu_plugin_id_t id, void *data) {
    (void)id;
    (void)data;
    fprintf(stderr, "instructions %" PRIu64 "\n", executed);
}

int qemu_plugin_install(qemu_plugin_id_t id, const void *info, int count, char **words) {
    (void)info;
    (void)count;
    (void)words;
    qemu_plugin_register_vcpu_tb_trans_cb(id, made);
    qemu_plugin_register_atexit_cb(id, left, NULL);
    return 0;
}
