/* A plugin for qemu's user emulator that counts the instructions its guest executes, and prints the count when the guest ends. The count is
   the same on every machine. It is taken instruction by instruction: by blocks of code it would be quicker, but a block that is cut short
   because its last instruction reaches into the next page still claims that instruction in qemu 7, and the count would hang on where the
   code lies. What it takes from qemu is declared here by hand, version 1 of the interface, so that no header has to be installed. */
#include <inttypes.h>
#include <stddef.h>
#include <stdio.h>

typedef uint64_t qemu_plugin_id_t;
struct qemu_plugin_tb;
struct qemu_plugin_insn;
enum qemu_plugin_op { QEMU_PLUGIN_INLINE_ADD_U64 };
typedef void (*on_translation)(qemu_plugin_id_t, struct qemu_plugin_tb *);
typedef void (*on_exit)(qemu_plugin_id_t, void *);
void qemu_plugin_register_vcpu_tb_trans_cb(qemu_plugin_id_t, on_translation);
void qemu_plugin_register_vcpu_insn_exec_inline(struct qemu_plugin_insn *, enum qemu_plugin_op, void *, uint64_t);
struct qemu_plugin_insn *qemu_plugin_tb_get_insn(const struct qemu_plugin_tb *, size_t);
size_t qemu_plugin_tb_n_insns(const struct qemu_plugin_tb *);
void qemu_plugin_register_atexit_cb(qemu_plugin_id_t, on_exit, void *);
void qemu_plugin_outs(const char *);

#define SEEN_BY_QEMU __attribute__((visibility("default")))

SEEN_BY_QEMU int qemu_plugin_version = 1;

static uint64_t count;

static void translated(qemu_plugin_id_t plugin, struct qemu_plugin_tb *block)
{
    (void)plugin;
    for (size_t i = 0; i < qemu_plugin_tb_n_insns(block); i++)
        qemu_plugin_register_vcpu_insn_exec_inline(qemu_plugin_tb_get_insn(block, i), QEMU_PLUGIN_INLINE_ADD_U64, &count, 1);
}

static void ended(qemu_plugin_id_t plugin, void *nothing)
{
    char text[32];
    (void)plugin;
    (void)nothing;
    snprintf(text, sizeof text, "%" PRIu64 "\n", count);
    qemu_plugin_outs(text);
}

SEEN_BY_QEMU int qemu_plugin_install(qemu_plugin_id_t plugin, const void *machine, int words, char **word)
{
    (void)machine;
    (void)words;
    (void)word;
    qemu_plugin_register_vcpu_tb_trans_cb(plugin, translated);
    qemu_plugin_register_atexit_cb(plugin, ended, NULL);
    return 0;
}
