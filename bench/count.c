// A plugin of qemu-user that counts guest instructions between two marks. A mark is a system call that Linux does not have: START begins a
// count at 0, STOP writes the count to the file OUT as decimal digits. Debian's qemu ships no header for plugins, so the few functions that
// are used here are declared here.
#include <stdint.h>
#include <stdio.h>
#include <string.h>
#include "mark.h"

typedef uint64_t plugin_id;
struct qemu_plugin_tb;

typedef void (*translated)(plugin_id, struct qemu_plugin_tb *);
typedef void (*executed)(unsigned processor, void *data);
typedef void (*called)(plugin_id, unsigned processor, int64_t number, uint64_t, uint64_t, uint64_t, uint64_t, uint64_t, uint64_t,
                       uint64_t, uint64_t);
enum { NO_REGISTERS = 0 };

void qemu_plugin_register_vcpu_tb_trans_cb(plugin_id, translated);
void qemu_plugin_register_vcpu_tb_exec_cb(struct qemu_plugin_tb *, executed, int registers, void *data);
void qemu_plugin_register_vcpu_syscall_cb(plugin_id, called);
size_t qemu_plugin_tb_n_insns(const struct qemu_plugin_tb *);

// The version of the plugin interface that is used.
int qemu_plugin_version = 1;

static const char *out;
static uint64_t counted;

static void add(unsigned processor, void *instructions)
{
    (void)processor;
    counted += (uintptr_t)instructions;
}

static void count_block(plugin_id id, struct qemu_plugin_tb *block)
{
    (void)id;
    qemu_plugin_register_vcpu_tb_exec_cb(block, add, NO_REGISTERS, (void *)(uintptr_t)qemu_plugin_tb_n_insns(block));
}

static void mark(plugin_id id, unsigned processor, int64_t number, uint64_t a1, uint64_t a2, uint64_t a3, uint64_t a4, uint64_t a5,
                 uint64_t a6, uint64_t a7, uint64_t a8)
{
    (void)id, (void)processor, (void)a1, (void)a2, (void)a3, (void)a4, (void)a5, (void)a6, (void)a7, (void)a8;
    if (number == START)
        counted = 0;
    if (number == STOP) {
        FILE *file = fopen(out, "w");
        if (file) {
            fprintf(file, "%llu\n", (unsigned long long)counted);
            fclose(file);
        }
    }
}

int qemu_plugin_install(plugin_id id, const void *info, int arguments, char **argument)
{
    (void)info;
    if (arguments != 1 || strncmp(argument[0], "out=", 4) != 0)
        return 1;
    out = strdup(argument[0] + 4);
    qemu_plugin_register_vcpu_tb_trans_cb(id, count_block);
    qemu_plugin_register_vcpu_syscall_cb(id, mark);
    return 0;
}
