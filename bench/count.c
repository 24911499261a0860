/* A plugin of QEMU's emulator for user programs: counts the instructions that are executed between two addresses, block by block, and prints the
 * blocks at the end. bench/count builds and uses it. The declarations are those of QEMU's plugin interface, version 1. */
#include <inttypes.h>
#include <stddef.h>
#include <stdio.h>
#include <stdlib.h>
#include <string.h>

typedef uint64_t qemu_plugin_id_t;
struct qemu_plugin_tb;
enum qemu_plugin_op { QEMU_PLUGIN_INLINE_ADD_U64 };
void qemu_plugin_register_vcpu_tb_trans_cb(qemu_plugin_id_t, void (*)(qemu_plugin_id_t, struct qemu_plugin_tb *));
void qemu_plugin_register_vcpu_tb_exec_inline(struct qemu_plugin_tb *, enum qemu_plugin_op, void *, uint64_t);
void qemu_plugin_register_atexit_cb(qemu_plugin_id_t, void (*)(qemu_plugin_id_t, void *), void *);
size_t qemu_plugin_tb_n_insns(const struct qemu_plugin_tb *);
uint64_t qemu_plugin_tb_vaddr(const struct qemu_plugin_tb *);

int qemu_plugin_version = 1;
int qemu_plugin_install(qemu_plugin_id_t, const void *, int, char **);

enum { MOST = 65536 };
static struct { uint64_t address, executed; } blocks[MOST];
static size_t known;
static uint64_t first, end;

static void translated(qemu_plugin_id_t id, struct qemu_plugin_tb *block)
{
    uint64_t address = qemu_plugin_tb_vaddr(block);
    (void)id;
    if (address < first || end <= address)
        return;
    if (known == MOST)
        abort();
    blocks[known].address = address;
    qemu_plugin_register_vcpu_tb_exec_inline(block, QEMU_PLUGIN_INLINE_ADD_U64, &blocks[known].executed, qemu_plugin_tb_n_insns(block));
    known++;
}

static void ended(qemu_plugin_id_t id, void *nothing)
{
    (void)id, (void)nothing;
    for (size_t i = 0; i < known; i++)
        if (blocks[i].executed != 0)
            fprintf(stderr, "block %" PRIx64 " %" PRIu64 "\n", blocks[i].address, blocks[i].executed);
}

int qemu_plugin_install(qemu_plugin_id_t id, const void *info, int count, char **words)
{
    (void)info;
    for (int i = 0; i < count; i++) {
        if (strncmp(words[i], "first=", 6) == 0)
            first = strtoull(words[i] + 6, NULL, 16);
        if (strncmp(words[i], "end=", 4) == 0)
            end = strtoull(words[i] + 4, NULL, 16);
    }
    qemu_plugin_register_vcpu_tb_trans_cb(id, translated);
    qemu_plugin_register_atexit_cb(id, ended, NULL);
    return 0;
}
