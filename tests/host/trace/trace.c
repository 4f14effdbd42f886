/* A plugin of qemu-user that follows a program between two marks, which are addresses of instructions:
   `-plugin trace.so,begin=ADDRESS,end=ADDRESS`. Each time that the end is reached it prints on standard
   error what it saw since the beginning: `trace HASH INSTRUCTIONS ACCESSES`, where the hash is over the
   addresses of all executed instructions and all addresses that these read and wrote, in order. */
#include "plugin.h"

#include <inttypes.h>
#include <stdio.h>
#include <stdlib.h>
#include <string.h>

int qemu_plugin_version = 1;

static uint64_t begin, end;

/* What was seen since the beginning; `on` between the marks. */
static int on;
static uint64_t hash, instructions, accesses;

/* FNV-1a's multiplication on whole words, then the high half brought down, so that no word is lost. */
static void take(uint64_t word)
{
    hash = (hash ^ word) * UINT64_C(0x100000001b3);
    hash ^= hash >> 32;
}

/* The address of an instruction is handed over in the place of a pointer. */
static void executed(unsigned int cpu, void *given)
{
    uint64_t address = (uintptr_t)given;
    (void)cpu;
    if (address == begin) {
        on = 1;
        hash = UINT64_C(0xcbf29ce484222325);
        instructions = accesses = 0;
    }
    if (!on)
        return;
    if (address == end) {
        on = 0;
        fprintf(stderr, "trace %016" PRIx64 " %" PRIu64 " %" PRIu64 "\n", hash, instructions, accesses);
        return;
    }
    take(address);
    instructions++;
}

/* `access` says how: its size, and whether it reads or writes. */
static void used(unsigned int cpu, uint32_t access, uint64_t address, void *given)
{
    (void)cpu;
    (void)given;
    if (!on)
        return;
    take(address);
    take(access);
    accesses++;
}

static void translated(plugin_id id, struct qemu_plugin_tb *tb)
{
    (void)id;
    for (size_t i = 0; i < qemu_plugin_tb_n_insns(tb); i++) {
        struct qemu_plugin_insn *instruction = qemu_plugin_tb_get_insn(tb, i);
        void *address = (void *)(uintptr_t)qemu_plugin_insn_vaddr(instruction);
        qemu_plugin_register_vcpu_insn_exec_cb(instruction, executed, QEMU_PLUGIN_CB_NO_REGS, address);
        qemu_plugin_register_vcpu_mem_cb(instruction, used, QEMU_PLUGIN_CB_NO_REGS, QEMU_PLUGIN_MEM_RW, NULL);
    }
}

/* The address in an argument `NAME=ADDRESS` of this name, else what was there. */
static uint64_t mark(const char *argument, const char *name, uint64_t before)
{
    size_t length = strlen(name);
    return strncmp(argument, name, length) == 0 ? strtoull(argument + length, NULL, 16) : before;
}

int qemu_plugin_install(plugin_id id, const void *info, int argc, char **argv)
{
    (void)info;
    for (int i = 0; i < argc; i++) {
        begin = mark(argv[i], "begin=", begin);
        end = mark(argv[i], "end=", end);
    }
    qemu_plugin_register_vcpu_tb_trans_cb(id, translated);
    return begin == 0 || end == 0;
}
