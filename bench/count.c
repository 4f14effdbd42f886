/* A plugin of qemu-user that counts the instructions a program executes, and prints the total on
   standard error when it ends. */
#include "../tests/host/trace/plugin.h"

#include <inttypes.h>
#include <stdio.h>
#include <stdlib.h>

int qemu_plugin_version = 1;

/* A translated block: how many instructions, and where the first and the last one stand. */
struct straight {
    uint64_t instructions, first, last;
};

static uint64_t total;
static __thread uint64_t last_executed;

/* qemu names an instruction twice in two cases: one that crosses a page ends the block before it,
   where it is cut off, and then is a block of its own; and a repeated one (rep stos) is entered anew
   for every repetition. In both, a block begins with the instruction which ended the one before it.
   A processor and callgrind count it once, and so does this. Where code happens to cross a page
   would otherwise change the count. */
static void executed(unsigned int cpu, void *given)
{
    const struct straight *block = given;
    uint64_t again = block->first == last_executed;
    (void)cpu;
    last_executed = block->last;
    __atomic_fetch_add(&total, block->instructions - again, __ATOMIC_RELAXED);
}

/* The record lives as long as the program does: qemu may execute the block at any later time. */
static void translated(plugin_id id, struct qemu_plugin_tb *tb)
{
    struct straight *block = malloc(sizeof *block);
    size_t n = qemu_plugin_tb_n_insns(tb);
    (void)id;
    if (block == NULL)
        abort();
    block->instructions = n;
    block->first = qemu_plugin_insn_vaddr(qemu_plugin_tb_get_insn(tb, 0));
    block->last = qemu_plugin_insn_vaddr(qemu_plugin_tb_get_insn(tb, n - 1));
    qemu_plugin_register_vcpu_tb_exec_cb(tb, executed, QEMU_PLUGIN_CB_NO_REGS, block);
}

static void ended(plugin_id id, void *given)
{
    (void)id;
    (void)given;
    fprintf(stderr, "instructions %" PRIu64 "\n", total);
}

int qemu_plugin_install(plugin_id id, const void *info, int argc, char **argv)
{
    (void)info;
    (void)argc;
    (void)argv;
    qemu_plugin_register_vcpu_tb_trans_cb(id, translated);
    qemu_plugin_register_atexit_cb(id, ended, NULL);
    return 0;
}
