/*
 * reached.c - keeps how often each instruction of a program was run
 *
 * A plugin for qemu-user:
 *
 *   -plugin reached.so,first=ADDRESS,end=ADDRESS,times=FILE
 *
 * The file is an array of 64-bit numbers, one for each address from first up to
 * end, and has its size already. The plugin counts in the file itself, so that
 * nothing is lost when the program is killed.
 */
#define _DEFAULT_SOURCE
#include "plugin.h"

#include <fcntl.h>
#include <stdio.h>
#include <stdlib.h>
#include <string.h>
#include <sys/mman.h>

static uint64_t first, end, *times;

static void translated(plugin id, struct qemu_plugin_tb *block)
{
    (void)id;
    for (size_t i = 0; i < qemu_plugin_tb_n_insns(block); i++) {
        struct qemu_plugin_insn *instruction = qemu_plugin_tb_get_insn(block, i);
        uint64_t address = qemu_plugin_insn_vaddr(instruction);
        if (address >= first && address < end)
            qemu_plugin_register_vcpu_insn_exec_inline(instruction, ADD_U64,
                                                       &times[address - first], 1);
    }
}

/* What stands behind this name among the words. */
static const char *word(const char *name, int count, char **words)
{
    size_t length = strlen(name);
    for (int i = 0; i < count; i++)
        if (strncmp(words[i], name, length) == 0 && words[i][length] == '=')
            return words[i] + length + 1;
    return "";
}

int qemu_plugin_install(plugin id, const void *about, int count, char **words)
{
    (void)about;
    first = strtoull(word("first", count, words), NULL, 0);
    end = strtoull(word("end", count, words), NULL, 0);
    int file = open(word("times", count, words), O_RDWR);
    times = mmap(NULL, (end - first) * sizeof *times, PROT_READ | PROT_WRITE, MAP_SHARED, file, 0);
    if (file < 0 || times == MAP_FAILED) {
        fprintf(stderr, "reached: no file to count in\n");
        return 1;
    }
    qemu_plugin_register_vcpu_tb_trans_cb(id, translated);
    return 0;
}
