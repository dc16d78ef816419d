/*
 * A plugin for qemu-user that counts the guest's instructions: a count does not depend on the machine. For bench/run where there is no callgrind, and for
 * bench/where. It says on standard error `instructions N`; with the word blocks=on also, for each block of instructions without a branch in it, `block ADDRESS
 * N`, all its instructions in all its rounds. The interface is qemu's own (qemu-plugin.h), declared here because packages leave that file out; -DVERSION says
 * which version of it.
 *
 * An instruction that reaches over the end of a page ends its block for qemu, which leaves it to a block of its own but tells it as one of both. So where a
 * block begins with the last instruction of the one before, that one is not counted twice.
 */
#include <inttypes.h>
#include <stddef.h>
#include <stdint.h>
#include <stdio.h>
#include <stdlib.h>

struct qemu_plugin_tb;
struct qemu_plugin_insn;
typedef uint64_t plugin_id;

void qemu_plugin_register_vcpu_tb_trans_cb(plugin_id, void (*)(plugin_id, struct qemu_plugin_tb *));
void qemu_plugin_register_vcpu_tb_exec_cb(struct qemu_plugin_tb *, void (*)(unsigned, void *), int, void *);
void qemu_plugin_register_atexit_cb(plugin_id, void (*)(plugin_id, void *), void *);
size_t qemu_plugin_tb_n_insns(const struct qemu_plugin_tb *);
struct qemu_plugin_insn *qemu_plugin_tb_get_insn(const struct qemu_plugin_tb *, size_t);
uint64_t qemu_plugin_insn_vaddr(const struct qemu_plugin_insn *);

int qemu_plugin_version = VERSION;

struct block {
    uint64_t first, last, length; /* the addresses of two of its instructions, and how many it has */
    uint64_t count;               /* of instructions, in all its rounds */
    struct block *before;
};

static struct block *newest, *previous;
static int with_blocks;

static void on_block(unsigned cpu, void *of) {
    struct block *block = of;
    (void)cpu;
    if (previous && previous->length > 1 && previous->last == block->first) previous->count--;
    block->count += block->length;
    previous = block;
}

static void on_translation(plugin_id id, struct qemu_plugin_tb *from) {
    struct block *block = calloc(1, sizeof *block);
    (void)id;
    if (!block) abort();
    block->length = qemu_plugin_tb_n_insns(from);
    block->first = qemu_plugin_insn_vaddr(qemu_plugin_tb_get_insn(from, 0));
    block->last = qemu_plugin_insn_vaddr(qemu_plugin_tb_get_insn(from, block->length - 1));
    block->before = newest;
    newest = block;
    qemu_plugin_register_vcpu_tb_exec_cb(from, on_block, 0, block);
}

static void on_end(plugin_id id, void *nothing) {
    const struct block *block;
    uint64_t count = 0;
    (void)id, (void)nothing;
    for (block = newest; block; block = block->before) {
        count += block->count;
        if (with_blocks) fprintf(stderr, "block %" PRIx64 " %" PRIu64 "\n", block->first, block->count);
    }
    fprintf(stderr, "instructions %" PRIu64 "\n", count);
}

int qemu_plugin_install(plugin_id id, const void *about, int words, char **word) {
    (void)about, (void)word;
    with_blocks = words > 0;
    qemu_plugin_register_vcpu_tb_trans_cb(id, on_translation);
    qemu_plugin_register_atexit_cb(id, on_end, NULL);
    return 0;
}
