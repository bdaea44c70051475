/* A plugin for the emulator, where a machine cannot run x86-64 programs itself: counts the instructions from an entry's first one
   to its return, with what it calls, and prints them when the program ends.
     qemu-x86_64 -plugin count.so,entry=ADDRESS PROGRAM ..
   The emulator's own header is in no package; this is the part of its interface, version 1, that is needed. */
#include <inttypes.h>
#include <stdio.h>
#include <stdlib.h>
#include <string.h>

typedef uint64_t plugin_id;
struct translated;
struct instruction;
typedef void on_translated(plugin_id, struct translated *);
typedef void on_executed(unsigned processor, void *block);
typedef void on_exit_of(plugin_id, void *);

enum { NO_REGISTERS = 0, ADD = 0 };

void qemu_plugin_register_vcpu_tb_trans_cb(plugin_id, on_translated *);
void qemu_plugin_register_vcpu_tb_exec_cb(struct translated *, on_executed *, int flags, void *block);
void qemu_plugin_register_vcpu_insn_exec_inline(struct instruction *, int operation, void *number, uint64_t operand);
void qemu_plugin_register_atexit_cb(plugin_id, on_exit_of *, void *);
size_t qemu_plugin_tb_n_insns(const struct translated *);
struct instruction *qemu_plugin_tb_get_insn(const struct translated *, size_t);
uint64_t qemu_plugin_insn_vaddr(const struct instruction *);

int qemu_plugin_version = 1;

/* A call instruction has at most seven bytes: the return is that close behind it. */
enum { LONGEST_CALL = 7 };

/* Instructions that run one behind the other. A call and a return each end a block, so an entry and the place behind its call begin one. */
struct block {
    uint64_t first;
    uint64_t last;
};

/* `executed` counts all instructions; `from` is what it was at the entry. */
static uint64_t executed, from, entry, before, call, counted;
static int inside;

static void begins(unsigned processor, void *given)
{
    (void)processor;
    const struct block *block = given;
    if (!inside && block->first == entry) {
        inside = 1;
        call = before;
        from = executed;
    } else if (inside && call < block->first && block->first <= call + LONGEST_CALL) {
        inside = 0;
        counted += executed - from;
    }
    before = block->last;
}

/* The emulator may run a block until the program ends, so none is given back. */
static void translated(plugin_id id, struct translated *code)
{
    (void)id;
    struct block *block = malloc(sizeof *block);
    if (block == NULL)
        abort();
    size_t instructions = qemu_plugin_tb_n_insns(code);
    block->first = qemu_plugin_insn_vaddr(qemu_plugin_tb_get_insn(code, 0));
    block->last = qemu_plugin_insn_vaddr(qemu_plugin_tb_get_insn(code, instructions - 1));
    qemu_plugin_register_vcpu_tb_exec_cb(code, begins, NO_REGISTERS, block);
    for (size_t i = 0; i < instructions; i++)
        qemu_plugin_register_vcpu_insn_exec_inline(qemu_plugin_tb_get_insn(code, i), ADD, &executed, 1);
}

static void ended(plugin_id id, void *unused)
{
    (void)id;
    (void)unused;
    fprintf(stderr, "Collected : %" PRIu64 "\n", counted);
}

int qemu_plugin_install(plugin_id id, const void *information, int words, char **word)
{
    (void)information;
    if (words != 1 || strncmp(word[0], "entry=", 6) != 0) {
        fputs("usage: -plugin count.so,entry=ADDRESS\n", stderr);
        return 1;
    }
    entry = strtoull(word[0] + 6, NULL, 16);
    qemu_plugin_register_vcpu_tb_trans_cb(id, translated);
    qemu_plugin_register_atexit_cb(id, ended, NULL);
    return 0;
}
