/* What the project's plugins of qemu-user use of version 1 of the interface. Debian ships no header for
   plugins, so it is declared here. */
#ifndef PLUGIN_H
#define PLUGIN_H

#include <stddef.h>
#include <stdint.h>

typedef uint64_t plugin_id;
struct qemu_plugin_tb;
struct qemu_plugin_insn;

/* The flag that says that a callback reads and writes no registers, and the one for loads and stores. */
enum { QEMU_PLUGIN_CB_NO_REGS = 0, QEMU_PLUGIN_MEM_RW = 3 };

/* A block was translated; it and its instructions can be given callbacks. */
void qemu_plugin_register_vcpu_tb_trans_cb(plugin_id id,
                                           void (*translated)(plugin_id, struct qemu_plugin_tb *));
size_t qemu_plugin_tb_n_insns(const struct qemu_plugin_tb *tb);
struct qemu_plugin_insn *qemu_plugin_tb_get_insn(const struct qemu_plugin_tb *tb, size_t index);
uint64_t qemu_plugin_insn_vaddr(const struct qemu_plugin_insn *instruction);

/* A block or an instruction is about to be executed; an instruction has used an address. */
void qemu_plugin_register_vcpu_tb_exec_cb(struct qemu_plugin_tb *tb,
                                          void (*executed)(unsigned int, void *), int flags,
                                          void *given);
void qemu_plugin_register_vcpu_insn_exec_cb(struct qemu_plugin_insn *instruction,
                                            void (*executed)(unsigned int, void *), int flags,
                                            void *given);
void qemu_plugin_register_vcpu_mem_cb(struct qemu_plugin_insn *instruction,
                                      void (*used)(unsigned int, uint32_t, uint64_t, void *), int flags,
                                      int accesses, void *given);

void qemu_plugin_register_atexit_cb(plugin_id id, void (*ended)(plugin_id, void *), void *given);
int qemu_plugin_install(plugin_id id, const void *info, int argc, char **argv);

extern int qemu_plugin_version;

#endif
