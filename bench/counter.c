// counter: a plugin of qemu's that counts the instructions which a program executes, in a file that the program can read meanwhile:
// qemu-aarch64 -plugin counter.so,into=PATH PROGRAM. The file's first eight bytes are the number.
// SPDX-License-Identifier: MIT
#define _POSIX_C_SOURCE 200809L
#include <fcntl.h>
#include <stdint.h>
#include <stdio.h>
#include <string.h>
#include <sys/mman.h>
#include <unistd.h>

// ---- of qemu's plugin interface, version 1, what is used here: Debian has no header of it

typedef uint64_t qemu_plugin_id_t;
struct qemu_plugin_tb;
struct qemu_info_t;
enum qemu_plugin_op { QEMU_PLUGIN_INLINE_ADD_U64 };
void qemu_plugin_register_vcpu_tb_trans_cb(qemu_plugin_id_t id, void (*done)(qemu_plugin_id_t id, struct qemu_plugin_tb *block));
size_t qemu_plugin_tb_n_insns(const struct qemu_plugin_tb *block);
void qemu_plugin_register_vcpu_tb_exec_inline(struct qemu_plugin_tb *block, enum qemu_plugin_op op, void *number, uint64_t added);

extern int qemu_plugin_version;
int qemu_plugin_install(qemu_plugin_id_t id, const struct qemu_info_t *info, int count, char **words);

// ---- the count

int qemu_plugin_version = 1;
static uint64_t *executed;

// A block has one way in and is executed to its end: each time it begins, all its instructions count.
static void block_translated(qemu_plugin_id_t id, struct qemu_plugin_tb *block) {
    (void)id;
    qemu_plugin_register_vcpu_tb_exec_inline(block, QEMU_PLUGIN_INLINE_ADD_U64, executed, qemu_plugin_tb_n_insns(block));
}

int qemu_plugin_install(qemu_plugin_id_t id, const struct qemu_info_t *info, int count, char **words) {
    (void)info;
    if (count != 1 || strncmp(words[0], "into=", 5) != 0) {
        fprintf(stderr, "counter: into=PATH is meant\n");
        return 1;
    }
    int file = open(words[0] + 5, O_RDWR | O_CREAT | O_TRUNC, 0666);
    if (file >= 0 && ftruncate(file, sizeof *executed) == 0) executed = mmap(NULL, sizeof *executed, PROT_READ | PROT_WRITE, MAP_SHARED, file, 0);
    if (!executed || executed == MAP_FAILED) {
        perror(words[0] + 5);
        return 1;
    }
    close(file);
    qemu_plugin_register_vcpu_tb_trans_cb(id, block_translated);
    return 0;
}
