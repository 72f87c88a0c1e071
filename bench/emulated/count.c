/* A plugin for QEMU in user mode: how many instructions are executed within each function whose name begins with `figure_`, what it calls among them.
 * Such a function ends where `main` or a function whose name begins with `measure_` goes on. The prototypes are those of QEMU's qemu-plugin.h, version 1,
 * which the packages do not carry. */
#include <stddef.h>
#include <stdint.h>
#include <stdio.h>
#include <string.h>

struct qemu_plugin_tb;
struct qemu_plugin_insn;
typedef uint64_t plugin_id;
extern size_t qemu_plugin_tb_n_insns(const struct qemu_plugin_tb *);
extern struct qemu_plugin_insn *qemu_plugin_tb_get_insn(const struct qemu_plugin_tb *, size_t);
extern const char *qemu_plugin_insn_symbol(const struct qemu_plugin_insn *);
extern void qemu_plugin_register_vcpu_tb_trans_cb(plugin_id, void (*)(plugin_id, struct qemu_plugin_tb *));
extern void qemu_plugin_register_vcpu_insn_exec_cb(struct qemu_plugin_insn *, void (*)(unsigned, void *), int, void *);
extern void qemu_plugin_register_vcpu_insn_exec_inline(struct qemu_plugin_insn *, int, void *, uint64_t);
extern void qemu_plugin_register_atexit_cb(plugin_id, void (*)(plugin_id, void *), void *);
extern void qemu_plugin_outs(const char *);

__attribute__((visibility("default"))) int qemu_plugin_version = 1;

enum { MOST = 64, ADD = 0, NO_REGISTERS = 0 };

static struct {
    char name[64];
    uint64_t executed;
} figures[MOST];
static size_t many;
static uint64_t executed, began;
static long current = -1;

static size_t number_of(const char *name)
{
    size_t i = 0;
    while (i < many && strcmp(figures[i].name, name) != 0)
        i++;
    if (i == many && many + 1 < MOST)
        snprintf(figures[many++].name, sizeof figures[0].name, "%s", name);
    return i;
}

static void enter(unsigned cpu, void *number)
{
    (void)cpu;
    if (current < 0)
        current = (long)(size_t)number, began = executed;
}

static void leave(unsigned cpu, void *nothing)
{
    (void)cpu, (void)nothing;
    if (current >= 0)
        figures[current].executed += executed - began, current = -1;
}

static void translated(plugin_id id, struct qemu_plugin_tb *block)
{
    (void)id;
    for (size_t i = 0; i < qemu_plugin_tb_n_insns(block); i++) {
        struct qemu_plugin_insn *one = qemu_plugin_tb_get_insn(block, i);
        const char *symbol = qemu_plugin_insn_symbol(one);
        if (symbol && strncmp(symbol, "figure_", 7) == 0)
            qemu_plugin_register_vcpu_insn_exec_cb(one, enter, NO_REGISTERS, (void *)number_of(symbol + 7));
        else if (symbol && (strcmp(symbol, "main") == 0 || strncmp(symbol, "measure_", 8) == 0))
            qemu_plugin_register_vcpu_insn_exec_cb(one, leave, NO_REGISTERS, NULL);
        qemu_plugin_register_vcpu_insn_exec_inline(one, ADD, &executed, 1);
    }
}

static void tell(plugin_id id, void *nothing)
{
    char line[128];
    (void)id, (void)nothing;
    for (size_t i = 0; i < many; i++) {
        snprintf(line, sizeof line, "%.63s %llu\n", figures[i].name, (unsigned long long)figures[i].executed);
        qemu_plugin_outs(line);
    }
}

__attribute__((visibility("default"))) int qemu_plugin_install(plugin_id id, const void *info, int argc, char **argv)
{
    (void)info, (void)argc, (void)argv;
    qemu_plugin_register_vcpu_tb_trans_cb(id, translated);
    qemu_plugin_register_atexit_cb(id, tell, NULL);
    return 0;
}
