/* A QEMU plugin that counts the instructions of an x86-64 program, apart for each part that the program marks (marks.h).
 *
 * Arguments: out=FILE, and blocks=1 for a profile. It writes
 *     call PART INSTRUCTIONS             for each time that a part begins, in order (BETWEEN is left out)
 *     block ADDRESS PART INSTRUCTIONS    with blocks=1: instructions of the straight piece of code that begins there
 *
 * Debian packs QEMU without the header qemu-plugin.h; what is used of it is declared here (interface version 1: Debian 12's QEMU 7.2). */
#include <inttypes.h>
#include <stdbool.h>
#include <stdio.h>
#include <stdlib.h>
#include <string.h>

#include "marks.h"

typedef uint64_t plugin_id;
struct qemu_plugin_tb;
enum { NO_REGISTERS = 0 };

size_t qemu_plugin_tb_n_insns(const struct qemu_plugin_tb *);
uint64_t qemu_plugin_tb_vaddr(const struct qemu_plugin_tb *);
void qemu_plugin_register_vcpu_tb_trans_cb(plugin_id, void (*)(plugin_id, struct qemu_plugin_tb *));
void qemu_plugin_register_vcpu_tb_exec_cb(struct qemu_plugin_tb *, void (*)(unsigned, void *), int, void *);
void qemu_plugin_register_vcpu_syscall_cb(plugin_id, void (*)(plugin_id, unsigned, int64_t, uint64_t, uint64_t, uint64_t, uint64_t, uint64_t, uint64_t, uint64_t,
    uint64_t));
void qemu_plugin_register_atexit_cb(plugin_id, void (*)(plugin_id, void *), void *);

#define SEEN_BY_QEMU __attribute__((visibility("default")))
SEEN_BY_QEMU int qemu_plugin_version = 1;

/* A piece of code that QEMU translates at once: it is entered at its first instruction and run to its end. */
typedef struct block {
    uint64_t address, instructions, in_part[PARTS];
    struct block *before;
} block;

static FILE *to;
static uint64_t since_mark;
static enum part now = BETWEEN;
static block *blocks;
static bool keep_blocks;

static void block_runs(unsigned cpu, void *data)
{
    (void)cpu;
    block *b = data;
    since_mark += b->instructions;
    b->in_part[now] += b->instructions;
}

/* QEMU may translate the same code twice; each translation is a block of its own, and the reader adds them up. */
static void block_translated(plugin_id id, struct qemu_plugin_tb *code)
{
    (void)id;
    block *b = calloc(1, sizeof *b);
    b->address = qemu_plugin_tb_vaddr(code);
    b->instructions = qemu_plugin_tb_n_insns(code);
    b->before = blocks;
    blocks = b;
    qemu_plugin_register_vcpu_tb_exec_cb(code, block_runs, NO_REGISTERS, b);
}

static void end_part(void)
{
    if (now != BETWEEN)
        fprintf(to, "call %d %" PRIu64 "\n", now, since_mark);
    since_mark = 0;
}

static void system_call(plugin_id id, unsigned cpu, int64_t call, uint64_t begins, uint64_t a2, uint64_t a3, uint64_t a4, uint64_t a5, uint64_t a6, uint64_t a7,
    uint64_t a8)
{
    (void)id, (void)cpu, (void)a2, (void)a3, (void)a4, (void)a5, (void)a6, (void)a7, (void)a8;
    if (call != MARK_CALL || begins >= PARTS)
        return;
    end_part();
    now = (enum part)begins;
}

static void program_ends(plugin_id id, void *data)
{
    (void)id, (void)data;
    end_part();
    for (block *b = keep_blocks ? blocks : NULL; b; b = b->before)
        for (int p = 0; p < PARTS; p++)
            if (b->in_part[p])
                fprintf(to, "block %" PRIx64 " %d %" PRIu64 "\n", b->address, p, b->in_part[p]);
    fclose(to);
}

SEEN_BY_QEMU int qemu_plugin_install(plugin_id id, const void *info, int count, char **arguments)
{
    (void)info;
    for (int i = 0; i < count; i++) {
        if (!strncmp(arguments[i], "out=", 4))
            to = fopen(arguments[i] + 4, "w");
        keep_blocks |= !strcmp(arguments[i], "blocks=1");
    }
    if (!to)
        return 1;
    qemu_plugin_register_vcpu_tb_trans_cb(id, block_translated);
    qemu_plugin_register_vcpu_syscall_cb(id, system_call);
    qemu_plugin_register_atexit_cb(id, program_ends, NULL);
    return 0;
}
