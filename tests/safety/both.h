/*
 * The calls of tdma.h on the library and on the second implementation. The answers must be equal, and
 * ARFCN, MAI and position belong together; a refused call must leave what it was lent as it was, and
 * so must line, who and page. Each function gives the refusal, 0 for accepted, and counts it.
 */
#ifndef BOTH_H
#define BOTH_H

#include "second.h"
#include "tools.h"

/* The longest burst or payload that is passed. */
#define LONGEST 200

uint32_t both_split(uint32_t frame);
uint32_t both_join(uint32_t t1, uint32_t t2, uint32_t t3);
uint32_t both_position(uint32_t length, uint64_t mask, uint32_t hsn, uint32_t maio, uint32_t frame);
uint32_t both_hop(const uint16_t *ca, size_t ca_length, uint64_t mask, uint32_t hsn, uint32_t maio,
                  uint32_t frame);
uint32_t both_map(uint32_t combination, uint32_t tn, uint32_t frame, uint32_t direction);

/* A cell of the library, which stands between inaccessible pages, and one of the second's. */
typedef struct {
    tdma_cell *library;
    second_cell *second;
    guarded memory;
} both_cells;

both_cells both_new(void);
void both_free(both_cells *cells);

/* Puts the library's cell on this side of its memory. It has to be started then. */
void both_place(both_cells *cells, enum side side);

uint32_t both_start(both_cells *cells, const uint16_t *ca, size_t ca_length, uint32_t c0,
                    uint32_t bcc, uint32_t ag, uint32_t p);
uint32_t both_open(both_cells *cells, uint32_t line, uint32_t tn, uint64_t mask, uint32_t hsn,
                   uint32_t maio, uint32_t combination, uint32_t tsc);
uint32_t both_close(both_cells *cells, uint32_t line);
uint32_t both_seize(both_cells *cells, uint32_t line, uint32_t subchannel, uint32_t owner);
uint32_t both_release(both_cells *cells, uint32_t line, uint32_t subchannel, uint32_t owner);
uint32_t both_line(const both_cells *cells, uint32_t line, uint32_t frame, uint32_t direction);
uint32_t both_who(const both_cells *cells, uint32_t tn, uint32_t arfcn, uint32_t frame,
                  uint32_t direction);
uint32_t both_page(const both_cells *cells, const uint8_t *digits, size_t digits_length,
                   uint32_t frame);

/*
 * Starts with CA 10, 20, 30, 40 and C0 10, opens lines 0 and 1 of combination 1 and line 63 of
 * combination 4, and gives subchannel 0 of line 1 to owner 5.
 */
void both_three_lines(both_cells *cells);

/* What a call on bursts reads and writes if it is accepted, in bytes. */
size_t burst_reads(enum burst_call call);
size_t burst_writes(enum burst_call call);

uint32_t both_burst(enum burst_call call, uint32_t tsc, const uint8_t *read, size_t length,
                    uint8_t *lent, size_t room);

#endif
