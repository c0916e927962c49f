/* A plugin of qemu's x86-64 emulator that counts the instructions it runs and tells the program that it runs, where that asks by call
 * 104,104 (bench/src/clock.rs). Debian packages the emulator without the plugins' header: what is used of it, version 1, is declared here.
 */
#include <stddef.h>
#include <stdint.h>

enum { VERSION = 1, ADD_U64 = 0, READ_COUNT = 104104 };

typedef uint64_t plugin;
struct qemu_plugin_tb;
typedef void on_block(plugin, struct qemu_plugin_tb *);
typedef void on_call(plugin, unsigned, int64_t, uint64_t, uint64_t, uint64_t, uint64_t, uint64_t, uint64_t, uint64_t, uint64_t);

extern void qemu_plugin_register_vcpu_tb_trans_cb(plugin, on_block *);
extern void qemu_plugin_register_vcpu_syscall_cb(plugin, on_call *);
extern size_t qemu_plugin_tb_n_insns(const struct qemu_plugin_tb *);
extern void qemu_plugin_register_vcpu_tb_exec_inline(struct qemu_plugin_tb *, int, void *, uint64_t);

int qemu_plugin_version = VERSION;

static uint64_t count;

/* A block is translated once; each time it runs, its instructions are added. */
static void translated(plugin id, struct qemu_plugin_tb *block) {
    (void)id;
    qemu_plugin_register_vcpu_tb_exec_inline(block, ADD_U64, &count, qemu_plugin_tb_n_insns(block));
}

/* A position-independent program, as cargo makes it, has its memory at the emulator's own addresses (base 0). */
static void called(plugin id, unsigned cpu, int64_t number, uint64_t where, uint64_t b, uint64_t c, uint64_t d, uint64_t e, uint64_t f,
                   uint64_t g, uint64_t h) {
    (void)id, (void)cpu, (void)b, (void)c, (void)d, (void)e, (void)f, (void)g, (void)h;
    if (number == READ_COUNT)
        *(uint64_t *)(uintptr_t)where = count;
}

int qemu_plugin_install(plugin id, const void *info, int words, char **word) {
    (void)info, (void)words, (void)word;
    qemu_plugin_register_vcpu_tb_trans_cb(id, translated);
    qemu_plugin_register_vcpu_syscall_cb(id, called);
    return 0;
}
