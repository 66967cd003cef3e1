#define _GNU_SOURCE
#include "coverage.h"

#include <signal.h>
#include <stdint.h>
#include <stdio.h>
#include <stdlib.h>
#include <sys/mman.h>
#include <ucontext.h>

enum { MOST_BLOCKS = 16384, TRAP = 0xCC, PAGE = 4096 };

/* Counters that libFuzzer reads as coverage of its own. */
__attribute__((section("__libfuzzer_extra_counters"))) static uint8_t counters[MOST_BLOCKS];

static uint8_t *blocks[MOST_BLOCKS];
static uint8_t firsts[MOST_BLOCKS];
static size_t count, reached;

/* The number of the block that begins at a place, or the count if none does (the places rise). */
static size_t block_at(const uint8_t *place)
{
    size_t low = 0, high = count;

    while (low < high) {
        size_t middle = (low + high) / 2;
        if (blocks[middle] < place)
            low = middle + 1;
        else
            high = middle;
    }
    return low < count && blocks[low] == place ? low : count;
}

/* At a block's first execution: counts it, puts its first byte back and goes on with it. */
static void on_trap(int signal, siginfo_t *info, void *context)
{
    greg_t *registers = ((ucontext_t *)context)->uc_mcontext.gregs;
    uint8_t *place = (uint8_t *)registers[REG_RIP] - 1;
    size_t number = block_at(place);

    (void)signal, (void)info;
    if (number == count)
        abort();
    *place = firsts[number];
    registers[REG_RIP] = (greg_t)place;
    counters[number] = 1;
    reached++;
}

/* Reads the blocks' addresses, one in hexadecimal on each line, rising. */
static void read_blocks(const char *program)
{
    char name[4096];
    unsigned long address;
    FILE *file;

    snprintf(name, sizeof name, "%s.blocks", program);
    file = fopen(name, "r");
    if (!file)
        return;
    while (count < MOST_BLOCKS && fscanf(file, "%lx", &address) == 1)
        blocks[count++] = (uint8_t *)address;
    fclose(file);
}

/* Makes the pages from the first block to the last writable. */
static void open_pages(void)
{
    uintptr_t first = (uintptr_t)blocks[0] & ~(uintptr_t)(PAGE - 1), last = (uintptr_t)blocks[count - 1] + 1;

    if (mprotect((void *)first, last - first, PROT_READ | PROT_WRITE | PROT_EXEC) != 0)
        abort();
}

/* Puts a trap at each block of the engine listed beside the program; without a list, none. */
void coverage_start(const char *program)
{
    struct sigaction action = {.sa_sigaction = on_trap, .sa_flags = SA_SIGINFO};
    size_t i;

    read_blocks(program);
    if (count == 0 || sigaction(SIGTRAP, &action, NULL) != 0)
        return;
    open_pages();
    for (i = 0; i < count; i++) {
        firsts[i] = *blocks[i];
        *blocks[i] = TRAP;
    }
}

/* Prints the blocks reached, and to a file named by FUZZ_UNREACHED those that weren't. */
void coverage_print(void)
{
    const char *name = getenv("FUZZ_UNREACHED");
    FILE *file = name ? fopen(name, "w") : NULL;
    size_t i;

    fprintf(stderr, "engine: %zu of %zu blocks of machine code reached\n", reached, count);
    for (i = 0; file && i < count; i++)
        if (*blocks[i] == TRAP)
            fprintf(file, "%lx\n", (unsigned long)blocks[i]);
    if (file)
        fclose(file);
}
