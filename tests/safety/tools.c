#define _DEFAULT_SOURCE
#include "tools.h"

#include <inttypes.h>
#include <stdio.h>
#include <stdlib.h>
#include <string.h>
#include <sys/mman.h>
#include <unistd.h>

uint64_t random_word(uint64_t *state)
{
    uint64_t word;

    *state += UINT64_C(0x9e3779b97f4a7c15);
    word = *state;
    word = (word ^ (word >> 30)) * UINT64_C(0xbf58476d1ce4e5b9);
    word = (word ^ (word >> 27)) * UINT64_C(0x94d049bb133111eb);
    return word ^ (word >> 31);
}

uint32_t below(uint64_t *state, uint32_t bound)
{
    return (uint32_t)(((random_word(state) >> 32) * bound) >> 32);
}

int once_in(uint64_t *state, uint32_t times)
{
    return below(state, times) == 0;
}

static void protect(uint8_t *first, size_t bytes, int rights)
{
    if (mprotect(first, bytes, rights) != 0) {
        perror("safety: mprotect");
        exit(1);
    }
}

static size_t page_size(void)
{
    return (size_t)sysconf(_SC_PAGESIZE);
}

guarded guard(size_t least)
{
    const size_t page = page_size();
    guarded memory;
    void *all;

    memory.size = (least + page - 1) / page * page;
    all = mmap(NULL, memory.size + 2 * page, PROT_NONE, MAP_PRIVATE | MAP_ANONYMOUS, -1, 0);
    if (all == MAP_FAILED) {
        perror("safety: mmap");
        exit(1);
    }
    memory.first = (uint8_t *)all + page;
    writable(memory);
    return memory;
}

void unguard(guarded memory)
{
    munmap(memory.first - page_size(), memory.size + 2 * page_size());
}

uint8_t *placed(guarded memory, size_t bytes, enum side side)
{
    return side == PAGE_BEFORE ? memory.first : memory.first + memory.size - bytes;
}

uint8_t *copied(guarded memory, const void *from, size_t bytes, enum side side)
{
    uint8_t *to = placed(memory, bytes, side);

    copy(to, from, bytes);
    return to;
}

void read_only(guarded memory)
{
    protect(memory.first, memory.size, PROT_READ);
}

void writable(guarded memory)
{
    protect(memory.first, memory.size, PROT_READ | PROT_WRITE);
}

void copy(void *to, const void *from, size_t bytes)
{
    if (bytes > 0)
        memcpy(to, from, bytes);
}

int equal(const void *one, const void *other, size_t bytes)
{
    return bytes == 0 || memcmp(one, other, bytes) == 0;
}

/* Accepted and refused calls since the last report, and all reports together. */
static uint64_t answers[17];
static uint64_t reported;

uint64_t calls_made(void)
{
    uint64_t sum = 0;
    uint32_t i;

    for (i = 0; i <= 16; i++)
        sum += answers[i];
    return sum;
}

uint64_t answers_of(uint32_t refusal)
{
    return answers[refusal];
}

void expect(const char *call, const char *what, int holds)
{
    if (!holds) {
        printf("safety: call %" PRIu64 ", %s: %s\n", reported + calls_made() + 1, call, what);
        exit(1);
    }
}

uint32_t noted(const char *call, uint32_t refusal)
{
    expect(call, "a refusal that is none", refusal <= 16);
    answers[refusal]++;
    return refusal;
}

void report(const char *part)
{
    const uint64_t calls = calls_made(), accepted = answers[0];
    uint32_t i;

    printf("safety: %s: %" PRIu64 " calls, %" PRIu64 " accepted, %" PRIu64 " refused:", part, calls,
           accepted, calls - accepted);
    for (i = 1; i <= 16; i++)
        printf(" %" PRIu64, answers[i]);
    printf("\n");
    fflush(stdout);
    reported += calls;
    memset(answers, 0, sizeof answers);
}
