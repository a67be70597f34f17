/* Instructions of the library that have been reached.
 *
 * Each instruction begins as a breakpoint, which is taken away the first time it is met. The fuzzer sees that as coverage.
 */
#include <signal.h>
#include <stdint.h>
#include <stdio.h>
#include <stdlib.h>
#include <sys/mman.h>
#include <ucontext.h>

enum { MOST_INSTRUCTIONS = 16384 };
__attribute__((section("__libfuzzer_extra_counters"))) static uint8_t reached_now[MOST_INSTRUCTIONS];
static struct { uint8_t *at; uint8_t byte, reached; } instructions[MOST_INSTRUCTIONS];
static size_t instruction_count, reached_count;

static void met(int signal, siginfo_t *info, void *context) {
    (void)signal, (void)info;
    greg_t *ip = &((ucontext_t *)context)->uc_mcontext.gregs[REG_RIP];
    uint8_t *at = (uint8_t *)*ip - 1;
    size_t low = 0, high = instruction_count;
    while (low < high) {
        size_t middle = (low + high) / 2;
        if (instructions[middle].at < at) low = middle + 1;
        else high = middle;
    }
    if (low == instruction_count || instructions[low].at != at) abort();
    *at = instructions[low].byte;
    instructions[low].reached = 1;
    reached_now[low] = 1;
    reached_count++;
    *ip -= 1;
}

/* The file has one address a line, rising. */
static void set_breakpoints(const char *path) {
    FILE *file = fopen(path, "r");
    unsigned long at;
    if (!file) abort();
    while (fscanf(file, "%lx", &at) == 1) {
        if (instruction_count == MOST_INSTRUCTIONS) abort();
        instructions[instruction_count].at = (uint8_t *)at;
        instructions[instruction_count++].byte = *(uint8_t *)at;
    }
    fclose(file);
    struct sigaction action = {.sa_sigaction = met, .sa_flags = SA_SIGINFO};
    sigaction(SIGTRAP, &action, NULL);
    for (size_t i = 0; i < instruction_count; i++) {
        uint8_t *page = (uint8_t *)((uintptr_t)instructions[i].at & -(uintptr_t)PAGE);
        if (mprotect(page, PAGE, PROT_READ | PROT_WRITE | PROT_EXEC)) abort();
        *instructions[i].at = 0xCC;
    }
}
