/*
 * count.c - tells how many instructions a program took under qemu-user
 *
 * A plugin for qemu, where valgrind cannot run the program's code.
 */
#include "plugin.h"

#include <inttypes.h>
#include <stdio.h>

static uint64_t instructions;

static void translated(plugin id, struct qemu_plugin_tb *block)
{
    (void)id;
    for (size_t i = 0; i < qemu_plugin_tb_n_insns(block); i++)
        qemu_plugin_register_vcpu_insn_exec_inline(qemu_plugin_tb_get_insn(block, i), ADD_U64,
                                                   &instructions, 1);
}

static void ended(plugin id, void *with)
{
    (void)id;
    (void)with;
    fprintf(stderr, "instructions %" PRIu64 "\n", instructions);
}

int qemu_plugin_install(plugin id, const void *about, int count, char **words)
{
    (void)about;
    (void)count;
    (void)words;
    qemu_plugin_register_vcpu_tb_trans_cb(id, translated);
    qemu_plugin_register_atexit_cb(id, ended, NULL);
    return 0;
}
