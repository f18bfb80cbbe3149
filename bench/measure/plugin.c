/* A plugin of qemu-x86_64 that counts what is executed between two marks. It writes, to the file that its argument
   `counts=` names, with tabs between the parts of a line:

       region NUMBER INSTRUCTIONS LOADED STORED      for each region, in the order of their ends, from 0; bytes
       at NUMBER ADDRESS TIMES FUNCTION              for each instruction of the region, as often as it was translated

   The marks themselves are not counted. An instruction with a rep prefix counts once for each repetition. */
#include "marks.h"
#include "qemu.h"

#include <inttypes.h>
#include <stdio.h>
#include <stdlib.h>
#include <string.h>

QEMU_EXPORTED int qemu_plugin_version = QEMU_PLUGIN_VERSION;
QEMU_EXPORTED int qemu_plugin_install(qemu_plugin_id_t id, const void *info, int argument_count, char **arguments);

#define MOST_TRANSLATED (1 << 18)

/* An instruction of a translated block. */
struct translated {
    uint64_t times; /* in this region */
    uint64_t address;
    const char *function;
};

static struct translated instructions[MOST_TRANSLATED];
static size_t translated_count;
static uint64_t loaded;
static uint64_t stored;
static unsigned region_count;
static FILE *report;

static void fail(const char *message)
{
    fprintf(stderr, "plugin: %s\n", message);
    exit(2);
}

static void region_begins(unsigned processor, void *data)
{
    (void)processor, (void)data;
    for (size_t i = 0; i < translated_count; i++)
        instructions[i].times = 0;
    loaded = 0;
    stored = 0;
}

static void region_ends(unsigned processor, void *data)
{
    uint64_t total = 0;

    (void)processor, (void)data;
    for (size_t i = 0; i < translated_count; i++) {
        const struct translated *it = &instructions[i];
        if (it->times == 0)
            continue;
        total += it->times;
        fprintf(report, "at\t%u\t%" PRIx64 "\t%" PRIu64 "\t%s\n", region_count, it->address, it->times, it->function);
    }
    fprintf(report, "region\t%u\t%" PRIu64 "\t%" PRIu64 "\t%" PRIu64 "\n", region_count, total, loaded, stored);
    region_count++;
}

static void memory_used(unsigned processor, qemu_plugin_meminfo_t access, uint64_t address, void *data)
{
    uint64_t bytes = UINT64_C(1) << qemu_plugin_mem_size_shift(access);

    (void)processor, (void)address, (void)data;
    if (qemu_plugin_mem_is_store(access))
        stored += bytes;
    else
        loaded += bytes;
}

static bool is_mark(const struct qemu_plugin_insn *instruction, uint8_t kind)
{
    const uint8_t mark[MARK_LENGTH] = {MARK_BYTES(kind)};

    return qemu_plugin_insn_size(instruction) == MARK_LENGTH &&
           memcmp(qemu_plugin_insn_data(instruction), mark, MARK_LENGTH) == 0;
}

static void count_instruction(struct qemu_plugin_insn *instruction)
{
    const char *function = qemu_plugin_insn_symbol(instruction);
    struct translated *it;

    if (translated_count == MOST_TRANSLATED)
        fail("the program has more instructions than the plugin has room for");
    it = &instructions[translated_count++];
    it->address = qemu_plugin_insn_vaddr(instruction);
    it->function = function != NULL && *function != '\0' ? function : "?";
    qemu_plugin_register_vcpu_insn_exec_inline(instruction, QEMU_PLUGIN_INLINE_ADD_U64, &it->times, 1);
    qemu_plugin_register_vcpu_mem_cb(instruction, memory_used, QEMU_PLUGIN_CB_NO_REGS, QEMU_PLUGIN_MEM_RW, NULL);
}

static void block_translated(qemu_plugin_id_t id, struct qemu_plugin_tb *block)
{
    size_t count = qemu_plugin_tb_n_insns(block);

    (void)id;
    for (size_t i = 0; i < count; i++) {
        struct qemu_plugin_insn *instruction = qemu_plugin_tb_get_insn(block, i);
        if (is_mark(instruction, MARK_BEGINS))
            qemu_plugin_register_vcpu_insn_exec_cb(instruction, region_begins, QEMU_PLUGIN_CB_NO_REGS, NULL);
        else if (is_mark(instruction, MARK_ENDS))
            qemu_plugin_register_vcpu_insn_exec_cb(instruction, region_ends, QEMU_PLUGIN_CB_NO_REGS, NULL);
        else
            count_instruction(instruction);
    }
}

static void program_ended(qemu_plugin_id_t id, void *data)
{
    (void)id, (void)data;
    if (fclose(report) != 0)
        fail("the counts could not be written");
}

int qemu_plugin_install(qemu_plugin_id_t id, const void *info, int argument_count, char **arguments)
{
    (void)info;
    if (argument_count != 1 || strncmp(arguments[0], "counts=", 7) != 0)
        fail("say counts=PATH, where the counts go");
    report = fopen(arguments[0] + 7, "w");
    if (report == NULL)
        fail("the file for the counts could not be opened");
    qemu_plugin_register_vcpu_tb_trans_cb(id, block_translated);
    qemu_plugin_register_atexit_cb(id, program_ended, NULL);
    return 0;
}
