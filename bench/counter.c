/* A plugin of the emulator qemu that counts the instructions of a program and says at its end how many there were. The interface is
   declared here as far as it is used, so that no header of qemu's is needed. API is its number, which qemu compares with its own. */
#include <inttypes.h>
#include <stddef.h>
#include <stdint.h>
#include <stdio.h>

typedef uint64_t plugin_id;
struct qemu_plugin_tb;
size_t qemu_plugin_tb_n_insns(const struct qemu_plugin_tb *block);
void qemu_plugin_register_vcpu_tb_trans_cb(plugin_id id, void (*made)(plugin_id, struct qemu_plugin_tb *));
void qemu_plugin_register_vcpu_tb_exec_cb(struct qemu_plugin_tb *block, void (*run)(unsigned, void *), int registers, void *data);
void qemu_plugin_register_atexit_cb(plugin_id id, void (*ended)(plugin_id, void *), void *data);
void qemu_plugin_outs(const char *text);

#define SEEN __attribute__((visibility("default")))
SEEN int qemu_plugin_version = API;

static uint64_t count;
static void run(unsigned cpu, void *instructions) {
    (void)cpu;
    count += (uintptr_t)instructions;
}
/* A block of instructions, once qemu has translated it: it runs from its first instruction to its last. */
static void made(plugin_id id, struct qemu_plugin_tb *block) {
    (void)id;
    qemu_plugin_register_vcpu_tb_exec_cb(block, run, 0, (void *)(uintptr_t)qemu_plugin_tb_n_insns(block));
}
static void ended(plugin_id id, void *data) {
    char text[32];
    (void)id, (void)data;
    snprintf(text, sizeof text, "%" PRIu64 "\n", count);
    qemu_plugin_outs(text);
}

SEEN int qemu_plugin_install(plugin_id id, const void *info, int argc, char **argv) {
    (void)info, (void)argc, (void)argv;
    qemu_plugin_register_vcpu_tb_trans_cb(id, made);
    qemu_plugin_register_atexit_cb(id, ended, 0);
    return 0;
}
