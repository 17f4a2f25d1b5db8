// A plugin for QEMU's user emulation: how many instructions the emulated program executed, on standard error at its end, and how many of
// them in functions whose name has one of the words that are given as in=WORD. The part of the plugin interface that it uses is declared
// here, since Debian's packages have no header for it.
#include <inttypes.h>
#include <stdint.h>
#include <stdio.h>
#include <string.h>

#ifndef INTERFACE
#define INTERFACE 1
#endif

#define PAGE 4096

typedef uint64_t qemu_plugin_id_t;
struct qemu_plugin_tb;
struct qemu_plugin_insn;

void qemu_plugin_register_vcpu_tb_trans_cb(qemu_plugin_id_t id, void (*cb)(qemu_plugin_id_t, struct qemu_plugin_tb *));
void qemu_plugin_register_vcpu_tb_exec_cb(struct qemu_plugin_tb *tb, void (*cb)(unsigned, void *), int flags, void *data);
void qemu_plugin_register_vcpu_insn_exec_cb(struct qemu_plugin_insn *insn, void (*cb)(unsigned, void *), int flags, void *data);
void qemu_plugin_register_atexit_cb(qemu_plugin_id_t id, void (*cb)(qemu_plugin_id_t, void *), void *data);
size_t qemu_plugin_tb_n_insns(const struct qemu_plugin_tb *tb);
struct qemu_plugin_insn *qemu_plugin_tb_get_insn(const struct qemu_plugin_tb *tb, size_t index);
const char *qemu_plugin_insn_symbol(const struct qemu_plugin_insn *insn);
uint64_t qemu_plugin_insn_vaddr(const struct qemu_plugin_insn *insn);
size_t qemu_plugin_insn_size(const struct qemu_plugin_insn *insn);

__attribute__((visibility("default"))) int qemu_plugin_version = INTERFACE;

static uint64_t executed;
static uint64_t inside;
static const char *words[8];
static int word_count;

static void on_run(unsigned cpu, void *instructions)
{
    (void)cpu;
    executed += (uintptr_t)instructions;
}

static void on_run_inside(unsigned cpu, void *instructions)
{
    on_run(cpu, instructions);
    inside += (uintptr_t)instructions;
}

// Whether these instructions are of a function that was asked for. They are of one function, that of the first.
static int asked_for(const struct qemu_plugin_tb *tb)
{
    const char *name = qemu_plugin_insn_symbol(qemu_plugin_tb_get_insn(tb, 0));
    for (int i = 0; name && i < word_count; i++)
        if (strstr(name, words[i])) return 1;
    return 0;
}

// Whether the last of these instructions reaches the end of its page. Where it goes on beyond it, QEMU leaves it to the next block and
// tells of it in both, so it would be counted twice.
static int at_page_end(struct qemu_plugin_insn *last)
{
    return qemu_plugin_insn_vaddr(last) % PAGE + qemu_plugin_insn_size(last) >= PAGE;
}

static void on_translate(qemu_plugin_id_t id, struct qemu_plugin_tb *tb)
{
    (void)id;
    void (*counting)(unsigned, void *) = asked_for(tb) ? on_run_inside : on_run;
    size_t count = qemu_plugin_tb_n_insns(tb);
    struct qemu_plugin_insn *last = qemu_plugin_tb_get_insn(tb, count - 1);
    if (count > 1 && at_page_end(last)) {
        // by itself: an instruction that is left out of this block is then not counted in it
        qemu_plugin_register_vcpu_insn_exec_cb(last, counting, 0, (void *)(uintptr_t)1);
        count--;
    }
    qemu_plugin_register_vcpu_tb_exec_cb(tb, counting, 0, (void *)(uintptr_t)count);
}

static void on_end(qemu_plugin_id_t id, void *data)
{
    (void)id;
    (void)data;
    fprintf(stderr, "instructions %" PRIu64 "\n", executed);
    fprintf(stderr, "inside %" PRIu64 "\n", inside);
}

__attribute__((visibility("default"))) int qemu_plugin_install(qemu_plugin_id_t id, const void *info, int argc, char **argv)
{
    (void)info;
    for (int i = 0; i < argc && word_count < 8; i++)
        if (strncmp(argv[i], "in=", 3) == 0) words[word_count++] = strdup(argv[i] + 3);
    qemu_plugin_register_vcpu_tb_trans_cb(id, on_translate);
    qemu_plugin_register_atexit_cb(id, on_end, NULL);
    return 0;
}
