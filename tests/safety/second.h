/* The second implementation for C: tests/src/c_api.rs has these functions. */
#ifndef SECOND_H
#define SECOND_H

#include "tdma.h"

tdma_split_answer second_split(uint32_t frame);
tdma_join_answer second_join(uint32_t t1, uint32_t t2, uint32_t t3);
tdma_position_answer second_position(uint32_t length, uint64_t mask, uint32_t hsn, uint32_t maio,
                                     uint32_t frame);
tdma_hop_answer second_hop(const uint16_t *ca, size_t ca_length, uint64_t mask, uint32_t hsn,
                           uint32_t maio, uint32_t frame);
tdma_map_answer second_map(uint32_t combination, uint32_t tn, uint32_t frame, uint32_t direction);

/* Its cell, which it allocates. */
typedef struct second_cell second_cell;

second_cell *second_new(void);
void second_free(second_cell *cell);

tdma_changed second_start(second_cell *cell, const uint16_t *ca, size_t ca_length, uint32_t c0,
                          uint32_t bcc, uint32_t ag, uint32_t p);
tdma_changed second_open(second_cell *cell, uint32_t line, uint32_t tn, uint64_t mask, uint32_t hsn,
                         uint32_t maio, uint32_t combination, uint32_t tsc);
tdma_changed second_close(second_cell *cell, uint32_t line);
tdma_changed second_seize(second_cell *cell, uint32_t line, uint32_t subchannel, uint32_t owner);
tdma_changed second_release(second_cell *cell, uint32_t line, uint32_t subchannel, uint32_t owner);
tdma_line_answer second_line(const second_cell *cell, uint32_t line, uint32_t frame,
                             uint32_t direction);
tdma_who_answer second_who(const second_cell *cell, uint32_t tn, uint32_t arfcn, uint32_t frame,
                           uint32_t direction);
tdma_page_answer second_page(const second_cell *cell, const uint8_t *digits, size_t digits_length,
                             uint32_t frame);

/* 1 where an answer's ARFCN, MAI and position belong together, by the cell allocation and mask. */
uint32_t second_position_belongs(uint32_t length, uint64_t mask, tdma_position_answer answer);
uint32_t second_hop_belongs(const uint16_t *ca, size_t ca_length, uint64_t mask,
                            tdma_hop_answer answer);
uint32_t second_line_belongs(const second_cell *cell, uint32_t line,
                             const tdma_line_answer *answer);
uint32_t second_who_belongs(const second_cell *cell, const tdma_who_answer *answer);

/* The calls on bursts. Each reads one buffer and is lent another; the last two read nothing. */
enum burst_call {
    BUILD_NORMAL,
    TAKE_NORMAL,
    BUILD_SYNCHRONIZATION,
    TAKE_SYNCHRONIZATION,
    BUILD_ACCESS,
    TAKE_ACCESS,
    BUILD_FREQUENCY_CORRECTION,
    BUILD_DUMMY,
    BURST_CALLS
};

/* The training sequence code is left aside where the burst has none. */
tdma_burst_answer second_burst(uint32_t call, uint32_t tsc, const uint8_t *read, size_t length,
                               uint8_t *lent, size_t room);

/* What start is given. */
typedef struct {
    size_t ca_length;
    uint32_t c0, bcc, ag, p;
    uint16_t ca[1024];
} drawn_plan;

/* The calls on a started cell. */
enum cell_call { OPEN, CLOSE, SEIZE, RELEASE, LINE, WHO, PAGE };

/* A call on a cell; what it is not given is 0. */
typedef struct {
    uint64_t mask;
    size_t digits_length;
    uint32_t call; /* enum cell_call */
    uint32_t line, tn, hsn, maio, combination, tsc, subchannel, owner, arfcn, frame, direction;
    uint8_t digits[16];
} drawn_call;

/* Draws a start, with odd values if `odd` is not 0. */
void second_draw_plan(uint64_t *state, uint32_t odd, drawn_plan *drawn);

/* Draws a call that this cell mostly accepts; one in `times` is odd or looks at no line. */
void second_draw_call(uint64_t *state, const second_cell *cell, uint32_t times, drawn_call *drawn);

#endif
