// Counts instructions on Arm: a plugin of qemu's, which runs the oracle there. Debian's qemu-user brings no header for one.
#include <inttypes.h>
#include <stdio.h>
#include <string.h>

struct qemu_plugin_tb;
struct qemu_plugin_insn;
void qemu_plugin_register_vcpu_tb_trans_cb(uint64_t id, void (*translated)(uint64_t, struct qemu_plugin_tb *));
size_t qemu_plugin_tb_n_insns(const struct qemu_plugin_tb *block);
struct qemu_plugin_insn *qemu_plugin_tb_get_insn(const struct qemu_plugin_tb *block, size_t at);
const void *qemu_plugin_insn_data(const struct qemu_plugin_insn *instruction);
size_t qemu_plugin_insn_size(const struct qemu_plugin_insn *instruction);
void qemu_plugin_register_vcpu_insn_exec_cb(struct qemu_plugin_insn *instruction, void (*run)(unsigned, void *), int flags, void *data);
void qemu_plugin_register_vcpu_insn_exec_inline(struct qemu_plugin_insn *instruction, int add, void *to, uint64_t by);

int qemu_plugin_version = 1;

static FILE *counts;
static uint64_t count;
static unsigned requests;

// The oracle's requests come in fours: start, zero, dump, stop. Their arguments cannot be read from here.
static void requested(unsigned cpu, void *data) {
    (void)cpu, (void)data;
    if (requests % 4 == 1)
        count = 0;
    if (requests % 4 == 2) {
        fprintf(counts, "%" PRIu64 "\n", count);
        fflush(counts);
    }
    requests++;
}

static void translated(uint64_t id, struct qemu_plugin_tb *block) {
    (void)id;
    static const unsigned char request[4] = {0x4A, 0x01, 0x0A, 0xAA}; // orr x10, x10, x10
    for (size_t i = 0; i < qemu_plugin_tb_n_insns(block); i++) {
        struct qemu_plugin_insn *instruction = qemu_plugin_tb_get_insn(block, i);
        qemu_plugin_register_vcpu_insn_exec_inline(instruction, 0, &count, 1);
        if (qemu_plugin_insn_size(instruction) == 4 && memcmp(qemu_plugin_insn_data(instruction), request, 4) == 0)
            qemu_plugin_register_vcpu_insn_exec_cb(instruction, requested, 0, NULL);
    }
}

// Takes the file that the counts go to, as `counts=FILE`.
int qemu_plugin_install(uint64_t id, const void *info, int given, char **words) {
    (void)info;
    if (given != 1 || strncmp(words[0], "counts=", 7) != 0 || (counts = fopen(words[0] + 7, "w")) == NULL)
        return 1;
    qemu_plugin_register_vcpu_tb_trans_cb(id, translated);
    return 0;
}
