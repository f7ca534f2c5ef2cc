/* Counts the instructions that an x86-64 program runs under qemu-user: a plugin for qemu-x86_64. A clock says nothing under emulation;
 * this figure does not depend on what else the machine does, and runs of one program differ by a few dozen at most.
 *
 *   cc -shared -fPIC -O2 -DPLUGIN_VERSION=1 -o libinsn.so insn.c
 *   qemu-x86_64 -plugin ./libinsn.so PROGRAM ARGS      (prints "insns N" to standard error when PROGRAM ends)
 *
 * Each instruction counts itself: qemu tells of a block that stops before an instruction across two pages as if it had run that too, which made
 * a loop there look longer. PLUGIN_VERSION is 1 up to qemu 8 and 2 after it, where counting inside the translated code is called otherwise and a
 * call back is used.
 */
#include <stddef.h>
#include <stdint.h>
#include <stdio.h>

typedef uint64_t plugin_id;
struct qemu_plugin_tb;
struct qemu_plugin_insn;

extern void qemu_plugin_register_vcpu_tb_trans_cb(plugin_id, void (*)(plugin_id, struct qemu_plugin_tb *));
extern void qemu_plugin_register_atexit_cb(plugin_id, void (*)(plugin_id, void *), void *);
extern size_t qemu_plugin_tb_n_insns(const struct qemu_plugin_tb *);
extern struct qemu_plugin_insn *qemu_plugin_tb_get_insn(const struct qemu_plugin_tb *, size_t);
extern void qemu_plugin_register_vcpu_insn_exec_inline(struct qemu_plugin_insn *, int, void *, uint64_t);
extern void qemu_plugin_register_vcpu_insn_exec_cb(struct qemu_plugin_insn *, void (*)(unsigned, void *), int, void *);

__attribute__((visibility("default"))) int qemu_plugin_version = PLUGIN_VERSION;

static uint64_t count;

#if PLUGIN_VERSION > 1
static void ran(unsigned cpu, void *nothing)
{
    (void)cpu;
    (void)nothing;
    count++;
}
#endif

static void translated(plugin_id id, struct qemu_plugin_tb *block)
{
    (void)id;
    for (size_t k = 0; k < qemu_plugin_tb_n_insns(block); k++) {
        struct qemu_plugin_insn *instruction = qemu_plugin_tb_get_insn(block, k);
#if PLUGIN_VERSION > 1
        qemu_plugin_register_vcpu_insn_exec_cb(instruction, ran, 0, NULL);
#else
        qemu_plugin_register_vcpu_insn_exec_inline(instruction, 0, &count, 1);
#endif
    }
}

static void ended(plugin_id id, void *nothing)
{
    (void)id;
    (void)nothing;
    fprintf(stderr, "insns %llu\n", (unsigned long long)count);
}

__attribute__((visibility("default"))) int qemu_plugin_install(plugin_id id, const void *info, int argc, char **argv)
{
    (void)info;
    (void)argc;
    (void)argv;
    qemu_plugin_register_vcpu_tb_trans_cb(id, translated);
    qemu_plugin_register_atexit_cb(id, ended, NULL);
    return 0;
}
