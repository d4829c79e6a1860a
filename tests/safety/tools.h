/* Random numbers, memory between inaccessible pages, and the count of the answers. */
#ifndef TOOLS_H
#define TOOLS_H

#include <stddef.h>
#include <stdint.h>

/* Random numbers that are the same in every run (splitmix64). */
uint64_t random_word(uint64_t *state);
uint32_t below(uint64_t *state, uint32_t bound);
int once_in(uint64_t *state, uint32_t times);

/* Accessible memory with an inaccessible page before it and one after it. */
typedef struct {
    uint8_t *first;
    size_t size;
} guarded;

/* Which of the two pages a slice touches. */
enum side { PAGE_BEFORE, PAGE_AFTER };

guarded guard(size_t least);
void unguard(guarded memory);

/* Where a slice of so many bytes stands. */
uint8_t *placed(guarded memory, size_t bytes, enum side side);

/* A copy of the bytes there. */
uint8_t *copied(guarded memory, const void *from, size_t bytes, enum side side);

/* Forbids and allows writing, so that a write to what is const is seen. */
void read_only(guarded memory);
void writable(guarded memory);

/* As memcpy and memcmp, but with 0 bytes the pointers may be null. */
void copy(void *to, const void *from, size_t bytes);
int equal(const void *one, const void *other, size_t bytes);

/* Ends the program if something does not hold of the call that was made last. */
void expect(const char *call, const char *what, int holds);

/* Counts an answer, which must be 0 for accepted or a refusal of 1 to 16, and gives it. */
uint32_t noted(const char *call, uint32_t refusal);

/* The answers since the last report: of every kind, and of one. */
uint64_t calls_made(void);
uint64_t answers_of(uint32_t refusal);

/* Says how many there were, and counts from 0 again. */
void report(const char *part);

#endif
