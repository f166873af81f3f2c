/* A plugin for QEMU: counts the instructions that the program carries out, and writes the count (8 bytes) to a file that the
 * program names by a system call that Linux doesn't have; with an argument (`total`) the count to standard error when the
 * program ends. A string instruction (rep ..) counts once for each step.
 * The declarations are those of QEMU's qemu-plugin.h, version 1 of its interface. */
#include <stddef.h>
#include <stdint.h>
#include <stdio.h>
#include <unistd.h>

typedef uint64_t plugin_id;
struct qemu_plugin_tb;
typedef void block_translated(plugin_id id, struct qemu_plugin_tb *block);
typedef void system_call(plugin_id id, unsigned cpu, int64_t number, uint64_t a1, uint64_t a2, uint64_t a3, uint64_t a4,
                         uint64_t a5, uint64_t a6, uint64_t a7, uint64_t a8);

size_t qemu_plugin_tb_n_insns(const struct qemu_plugin_tb *block);
void qemu_plugin_register_vcpu_tb_trans_cb(plugin_id id, block_translated *call);
void qemu_plugin_register_vcpu_tb_exec_inline(struct qemu_plugin_tb *block, int operation, void *counter, uint64_t number);
void qemu_plugin_register_vcpu_syscall_cb(plugin_id id, system_call *call);
typedef void at_exit(plugin_id id, void *data);
void qemu_plugin_register_atexit_cb(plugin_id id, at_exit *call, void *data);

enum { ADD_U64 = 0, COUNT = 0x7a61 };

int qemu_plugin_version = 1;

static uint64_t executed;

static void count_block(plugin_id id, struct qemu_plugin_tb *block) {
    (void)id;
    qemu_plugin_register_vcpu_tb_exec_inline(block, ADD_U64, &executed, qemu_plugin_tb_n_insns(block));
}

static void answer(plugin_id id, unsigned cpu, int64_t number, uint64_t file, uint64_t a2, uint64_t a3, uint64_t a4,
                   uint64_t a5, uint64_t a6, uint64_t a7, uint64_t a8) {
    (void)id, (void)cpu, (void)a2, (void)a3, (void)a4, (void)a5, (void)a6, (void)a7, (void)a8;
    if (number == COUNT && write((int)file, &executed, sizeof executed) != sizeof executed) {
        _exit(9);
    }
}

static void total(plugin_id id, void *data) {
    (void)id, (void)data;
    fprintf(stderr, "%llu instructions\n", (unsigned long long)executed);
}

int qemu_plugin_install(plugin_id id, const void *about, int count, char **arguments) {
    (void)about, (void)arguments;
    if (count > 0) {
        qemu_plugin_register_atexit_cb(id, total, NULL);
    }
    qemu_plugin_register_vcpu_tb_trans_cb(id, count_block);
    qemu_plugin_register_vcpu_syscall_cb(id, answer);
    return 0;
}
