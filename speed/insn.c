/* A plugin of qemu's user emulator that counts the instructions executed. Where the program asks for the priority of 0x5eed, it writes the count
   so far to the file that INSN names. The few prototypes that it needs are given here, so no header is. */
#include <stddef.h>
#include <stdint.h>
#include <stdio.h>
#include <stdlib.h>

enum { GETPRIORITY = 140, MARK = 0x5eed, ADD_U64 = 0 };
typedef uint64_t plugin_id;
struct qemu_plugin_tb;
typedef void (*on_block)(plugin_id, struct qemu_plugin_tb *);
typedef void (*on_call)(plugin_id, unsigned, int64_t, uint64_t, uint64_t, uint64_t, uint64_t, uint64_t, uint64_t, uint64_t, uint64_t);
extern void qemu_plugin_register_vcpu_tb_trans_cb(plugin_id, on_block);
extern void qemu_plugin_register_vcpu_syscall_cb(plugin_id, on_call);
extern size_t qemu_plugin_tb_n_insns(const struct qemu_plugin_tb *);
extern void qemu_plugin_register_vcpu_tb_exec_inline(struct qemu_plugin_tb *, int, void *, uint64_t);

#define SEEN __attribute__((visibility("default")))
SEEN int qemu_plugin_version = 1;
static uint64_t total;

static void block(plugin_id id, struct qemu_plugin_tb *tb) {
    (void)id;
    qemu_plugin_register_vcpu_tb_exec_inline(tb, ADD_U64, &total, qemu_plugin_tb_n_insns(tb));
}

static void call(plugin_id id, unsigned cpu, int64_t number, uint64_t which, uint64_t b, uint64_t c, uint64_t d, uint64_t e, uint64_t f, uint64_t g,
                 uint64_t h) {
    (void)id, (void)cpu, (void)b, (void)c, (void)d, (void)e, (void)f, (void)g, (void)h;
    if (number != GETPRIORITY || which != MARK) return;
    const char *path = getenv("INSN");
    FILE *out = path ? fopen(path, "w") : NULL;
    if (!out) abort();
    fprintf(out, "%llu", (unsigned long long)total);
    if (fclose(out)) abort();
}

SEEN int qemu_plugin_install(plugin_id id, const void *info, int argc, char **argv) {
    (void)info, (void)argc, (void)argv;
    qemu_plugin_register_vcpu_tb_trans_cb(id, block);
    qemu_plugin_register_vcpu_syscall_cb(id, call);
    return 0;
}
