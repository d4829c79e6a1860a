/*
 * tdma.h: the air timetable of one GSM cell (3GPP TS 05.02), for C.
 *
 * The library answers questions of the frame clock (which T1, T2 and T3 is frame FN), of frequency
 * hopping (which channel number does a line use in a frame) and of the frame map (which logical
 * channel stands in a frame); it keeps the lines of a cell apart (which may be opened, who holds
 * which subchannel, what does a line send in a frame, which line is on a channel number, and when
 * and where is a mobile station paged); and it builds bursts and takes them apart. "Document 01"
 * below is this project's scope, whose refusal numbers these are.
 *
 * No input has to be checked first. Every function returns for every value of every number and every
 * content of what a pointer points to: the answer's `refusal` is TDMA_ACCEPTED, or the lowest number
 * of document 01 that applies, and then every other number of the answer is 0. (But TDMA_CLASH comes
 * with a line number and TDMA_FIXED_BIT with a bit number.) A refused call writes to no buffer and
 * leaves the cell exactly as it was. (But tdma_start fills the cell when it is refused, too.)
 *
 * What is asked of C is this, and nothing more:
 *   - A pointer can be read, or written where it is not const: for the length that is passed with it,
 *     or for a whole cell. Where the length is 0, nothing is read or written through the pointer, and
 *     it may be null.
 *   - It is aligned for its type.
 *   - While a call runs, what it writes overlaps nothing else that is passed, no other thread uses
 *     what it writes, and none writes what it reads.
 *
 * The functions keep no state, allocate nothing and can be called from any thread. Cells and buffers
 * belong to the caller and are lent for the call alone: no pointer is kept.
 * Build the library with `bash make` and link target/lib/libtdma.a (x86-64-v2: it uses popcnt).
 */
#ifndef TDMA_H
#define TDMA_H

#include <stddef.h>
#include <stdint.h>

#ifdef __cplusplus
extern "C" {
#endif

/* Frames are numbered 0 to TDMA_HYPERFRAME - 1, and then from 0 again. */
#define TDMA_HYPERFRAME 2715648u

/* Why a call was refused. The functions below give 1 to 16. */
enum tdma_refusal {
    TDMA_ACCEPTED = 0,
    TDMA_CELL_ALLOCATION = 1,   /* CA isn't 1 to 64 ARFCNs of 0 to 1023, each once and in the order
                                   1, 2, .., 1023, 0 */
    TDMA_CELL_PARAMETER = 2,    /* C0 not in CA, or BCC, BS_AG_BLKS_RES or BS_PA_MFRMS out of range */
    TDMA_OUT_OF_RANGE = 3,      /* line number, TN, HSN, combination, TSC, owner, FN, direction or
                                   ARFCN out of range, or an IMSI that isn't 3 to 15 digits */
    TDMA_MOBILE_ALLOCATION = 4, /* mask zero, or a one at or above CA's length */
    TDMA_MAIO = 5,              /* MAIO not below N */
    TDMA_LINE_OPEN = 6,         /* open of an open line */
    TDMA_LINE_CLOSED = 7,       /* close, seize, release or line on a closed line */
    TDMA_COMMON_CHANNEL = 8,    /* common channel misplaced */
    TDMA_CLASH = 9,             /* open: another line stands in the way */
    TDMA_NO_SUBCHANNEL = 10,    /* the subchannel doesn't exist in this combination */
    TDMA_SUBCHANNEL_HELD = 11,  /* seize of a held subchannel */
    TDMA_NOT_HOLDER = 12,       /* release of a subchannel that this owner doesn't hold */
    TDMA_LINE_HELD = 13,        /* close with some subchannel held */
    TDMA_MALFORMED = 14,        /* T1 > 2047, T2 > 25 or T3 > 50; or a burst or payload of wrong
                                   length, or one that is read with a byte above 1 */
    TDMA_FIXED_BIT = 15,        /* a fixed bit of a burst differs */
    TDMA_NO_COMMON_LINE = 16    /* paging with no common line open */
};

/* The logical channels, as tdma_map and tdma_line number them. */
enum tdma_channel {
    TDMA_IDLE = 0,
    TDMA_TCH = 1,
    TDMA_SACCH = 2,
    TDMA_SDCCH = 3,
    TDMA_FCCH = 4,
    TDMA_SCH = 5,
    TDMA_BCCH = 6,
    TDMA_CCCH = 7,
    TDMA_RACH = 8
};

enum tdma_direction {
    TDMA_DOWNLINK = 0,
    TDMA_UPLINK = 1
};

/*
 * The frame clock.
 */

typedef struct {
    uint32_t refusal;
    uint32_t t1;             /* 0 to 2047 */
    uint32_t t2;             /* 0 to 25 */
    uint32_t t3;             /* 0 to 50 */
    uint32_t t3_prime_given; /* 1 where T3 is 1, 11, 21, 31 or 41, else 0 */
    uint32_t t3_prime;       /* 0 to 4 where it is given, else 0 */
} tdma_split_answer;

/*
 * T1, T2, T3 and T3' of a frame.
 *   frame: 0 to TDMA_HYPERFRAME - 1, else TDMA_OUT_OF_RANGE.
 */
tdma_split_answer tdma_split(uint32_t frame);

typedef struct {
    uint32_t refusal;
    uint32_t frame; /* 0 to TDMA_HYPERFRAME - 1 */
} tdma_join_answer;

/*
 * The frame that has these counters, the inverse of tdma_split.
 *   t1: 0 to 2047, t2: 0 to 25, t3: 0 to 50, else TDMA_MALFORMED.
 */
tdma_join_answer tdma_join(uint32_t t1, uint32_t t2, uint32_t t3);

/*
 * Frequency hopping.
 *
 * A cell allocation CA is 1 to 64 ARFCNs of 0 to 1023, each once and in the order in which handsets
 * list them (3GPP TS 04.08): 1, 2, .., 1023, 0. ARFCN 0 comes last, if the cell has it.
 *
 * A mobile allocation is a 64-bit mask over CA: bit p (bit 0 is worth 1) stands for CA's entry p,
 * counted from 0. N is the number of its ones.
 */

typedef struct {
    uint32_t refusal;
    uint32_t position; /* 0 to length - 1; its bit in the mask is one */
    uint32_t mai;      /* the mobile allocation index, 0 to N - 1: so many ones stand below that bit */
} tdma_position_answer;

/*
 * The position in a cell allocation of `length` entries that a line uses in a frame, and its mobile
 * allocation index (MAI), for a caller whose cell allocation is known to be right. Its cost does not
 * depend on the length.
 *   length: of the cell allocation, 1 to 64.
 *   mask:   the mobile allocation, not zero, no one at or above the length.
 *   hsn:    0 (cyclic) to 63.
 *   maio:   0 to N - 1.
 *   frame:  0 to TDMA_HYPERFRAME - 1.
 * Refusals, in this order: TDMA_CELL_ALLOCATION (length), TDMA_OUT_OF_RANGE (hsn, frame),
 * TDMA_MOBILE_ALLOCATION, TDMA_MAIO.
 */
tdma_position_answer tdma_position(uint32_t length, uint64_t mask, uint32_t hsn, uint32_t maio,
                                   uint32_t frame);

typedef struct {
    uint32_t refusal;
    uint32_t arfcn;    /* 0 to 1023, an entry of the cell allocation */
    uint32_t mai;      /* as in tdma_position_answer */
    uint32_t position; /* of that entry, from 0; its bit in the mask is one. Where each transceiver
                          stays on one position, it is the transceiver's number */
} tdma_hop_answer;

/*
 * The channel number (ARFCN) that a line uses in a frame, its MAI and its position. The whole cell
 * allocation is checked in each call, so the cost grows with its length.
 *   ca, ca_length: the cell allocation, 1 to 64 ARFCNs of 0 to 1023, each once and in the order 1, 2,
 *                  .., 1023, 0. The length is in entries; with 0 the call is refused.
 *   mask, hsn, maio, frame: as for tdma_position.
 * Refusals, in this order: TDMA_CELL_ALLOCATION, TDMA_OUT_OF_RANGE (hsn, frame),
 * TDMA_MOBILE_ALLOCATION, TDMA_MAIO.
 */
tdma_hop_answer tdma_hop(const uint16_t *ca, size_t ca_length, uint64_t mask, uint32_t hsn,
                         uint32_t maio, uint32_t frame);

/*
 * The frame map.
 */

typedef struct {
    uint8_t refusal;
    uint8_t channel;      /* enum tdma_channel */
    uint8_t subchannel;   /* 0 for FCCH, SCH, BCCH, CCCH and RACH */
    uint8_t blocks;       /* how many blocks the burst belongs to: 0 idle, 2 for TCH, else 1 */
    uint8_t block;        /* the number of the first block, from 0 */
    uint8_t place;        /* the burst's place in it, from 0 */
    uint8_t second_block; /* TCH: the block before, whose second half the burst carries too */
    uint8_t second_place;
} tdma_map_answer;        /* what `blocks` leaves unused is 0; the answer fits one register */

/*
 * The logical channel that stands in a frame.
 *   combination: 1 TCH/F, 2 TCH/H, 4 FCCH + SCH + BCCH + CCCH, 5 the same combined with SDCCH/4,
 *                6 BCCH + CCCH, 7 SDCCH/8.
 *   tn:          the timeslot, 0 to 7, for every combination.
 *   frame:       0 to TDMA_HYPERFRAME - 1.
 *   direction:   enum tdma_direction.
 * Refusal: TDMA_OUT_OF_RANGE for any of the four.
 */
tdma_map_answer tdma_map(uint32_t combination, uint32_t tn, uint32_t frame, uint32_t direction);

/*
 * The cell.
 *
 * A cell has a cell allocation CA, its beacon C0, BCC, BS_AG_BLKS_RES, BS_PA_MFRMS, and 64 lines. A
 * line is closed, or is open with six values (TN, mask, HSN, MAIO, combination, TSC) and an owner
 * for each of its subchannels, 0 for free. Whatever the calls, no two held subchannels or common
 * parts of open lines ever meet in a frame, timeslot, direction and ARFCN.
 *
 * A cell is storage of the caller's: tdma_start fills it, whatever it held before, and the other calls
 * then change it in place or look at it. A call that is refused leaves it exactly as it was. It may be
 * copied, and moved in memory, like any struct. (On storage that was filled otherwise every call
 * returns too, but its answer means nothing.)
 *
 *     tdma_cell cell;
 *     tdma_changed answer = tdma_start(&cell, ca, 4, 10, 0, 1, 5);
 *     if (answer.refusal == TDMA_ACCEPTED)
 *         answer = tdma_open(&cell, 0, 0, 1, 0, 0, 4, 0);
 *     if (answer.refusal == TDMA_CLASH)
 *         report(answer.line);
 */

/* Storage for a cell: 4,116 bytes, aligned to 4, which only the library looks into. */
typedef struct tdma_cell {
    uint32_t opaque[1029];
} tdma_cell;

typedef struct {
    uint32_t refusal;
    uint32_t line; /* with TDMA_CLASH the smallest line that stands in the way, else 0 */
} tdma_changed;

/*
 * Fills the cell: all lines are closed. Refused, it becomes the cell with ARFCN 0 as cell allocation
 * and C0, BCC and BS_AG_BLKS_RES 0, BS_PA_MFRMS 2, all lines closed.
 *   cell: written, all of it; nothing in it is read.
 *   ca, ca_length: the cell allocation, as for tdma_hop.
 *   c0:  an ARFCN of the cell allocation.
 *   bcc: 0 to 7.
 *   ag:  BS_AG_BLKS_RES, 0 to 7.
 *   p:   BS_PA_MFRMS, 2 to 9.
 * Refusals, in this order: TDMA_CELL_ALLOCATION, TDMA_CELL_PARAMETER (c0, bcc, ag, p).
 */
tdma_changed tdma_start(tdma_cell *cell, const uint16_t *ca, size_t ca_length, uint32_t c0,
                        uint32_t bcc, uint32_t ag, uint32_t p);

/*
 * Opens a line: it gets the six values, and all its subchannels are free.
 *   line:        0 to 63, a closed line.
 *   tn:          the timeslot, 0 to 7.
 *   mask:        the mobile allocation, not zero, no one at or above CA's length.
 *   hsn:         0 (cyclic) to 63.
 *   maio:        0 to N - 1.
 *   combination: 1, 2, 4, 5, 6 or 7, as for tdma_map.
 *   tsc:         the training sequence code, 0 to 7.
 * Combinations 4, 5 and 6 have a common part, and then TDMA_COMMON_CHANNEL asks for this: the mask
 * has C0 alone, and tsc is BCC. 4 and 5 stand in timeslot 0 while no 4, 5 or 6 is open; 5 needs a
 * BS_AG_BLKS_RES of at most 2. 6 stands in timeslot 2 if a 4 is open, in 4 or 6 if a 6 is open two
 * timeslots lower.
 * Two lines clash if their timeslots are equal and their masks share a one, unless masks and HSN are
 * equal and the MAIO differ.
 * Refusals, in this order: TDMA_OUT_OF_RANGE (line, tn, hsn, combination, tsc),
 * TDMA_MOBILE_ALLOCATION, TDMA_MAIO, TDMA_LINE_OPEN, TDMA_COMMON_CHANNEL, TDMA_CLASH.
 */
tdma_changed tdma_open(tdma_cell *cell, uint32_t line, uint32_t tn, uint64_t mask, uint32_t hsn,
                       uint32_t maio, uint32_t combination, uint32_t tsc);

/*
 * Closes a line.
 *   line: 0 to 63, an open line, no subchannel of it held. A 4 or 6 stays open while a 6 is open two
 *         timeslots higher.
 * Refusals, in this order: TDMA_OUT_OF_RANGE (line), TDMA_LINE_CLOSED, TDMA_COMMON_CHANNEL,
 * TDMA_LINE_HELD.
 */
tdma_changed tdma_close(tdma_cell *cell, uint32_t line);

/*
 * Gives a free subchannel to an owner.
 *   line:       0 to 63, an open line.
 *   subchannel: 0 for combination 1, 0 and 1 for 2, 0 to 3 for 5, 0 to 7 for 7; none for 4 and 6.
 *   owner:      1 to 65,535.
 * Refusals, in this order: TDMA_OUT_OF_RANGE (line, owner), TDMA_LINE_CLOSED, TDMA_NO_SUBCHANNEL,
 * TDMA_SUBCHANNEL_HELD.
 */
tdma_changed tdma_seize(tdma_cell *cell, uint32_t line, uint32_t subchannel, uint32_t owner);

/*
 * Frees a subchannel that the owner holds.
 *   line, subchannel, owner: as for tdma_seize; the subchannel is held by this owner.
 * Refusals, in this order: TDMA_OUT_OF_RANGE (line, owner), TDMA_LINE_CLOSED, TDMA_NO_SUBCHANNEL,
 * TDMA_NOT_HOLDER.
 */
tdma_changed tdma_release(tdma_cell *cell, uint32_t line, uint32_t subchannel, uint32_t owner);

typedef struct {
    uint32_t refusal;
    uint32_t arfcn;   /* 0 to 1023, an entry of the cell allocation, also where the line is idle */
    uint32_t owner;   /* of the subchannel; 0 where it is free or nobody's: idle, FCCH, SCH, BCCH,
                         CCCH and RACH */
    uint32_t channel; /* enum tdma_channel; this and the six below as in tdma_map_answer */
    uint32_t subchannel;
    uint32_t blocks;
    uint32_t block;
    uint32_t place;
    uint32_t second_block;
    uint32_t second_place;
    uint32_t mai;     /* this and position as in tdma_hop_answer, also where the line is idle */
    uint32_t position;
} tdma_line_answer;

/*
 * What a line sends (or, uplink, receives) in a frame. The cell stays as it is.
 *   line:      0 to 63, an open line.
 *   frame:     0 to TDMA_HYPERFRAME - 1.
 *   direction: enum tdma_direction.
 * Refusals, in this order: TDMA_OUT_OF_RANGE (line, frame, direction), TDMA_LINE_CLOSED.
 */
tdma_line_answer tdma_line(const tdma_cell *cell, uint32_t line, uint32_t frame, uint32_t direction);

typedef struct {
    uint32_t refusal;
    uint32_t found;          /* 1 where a line was found, 0 for nobody */
    uint32_t line;           /* its number, 0 to 63; 0 for nobody */
    tdma_line_answer answer; /* what tdma_line answers for it; every number 0 for nobody */
} tdma_who_answer;

/*
 * Which open line of a timeslot is on an ARFCN in a frame, and what it sends (or, uplink, receives)
 * there: there is one at most. Nobody is no refusal, and is answered exactly if there is none, also
 * for an ARFCN that is not of the cell allocation. A line that is idle in the frame is found like
 * any other. The cell stays as it is.
 *   tn:        the timeslot, 0 to 7.
 *   arfcn:     0 to 1023.
 *   frame:     0 to TDMA_HYPERFRAME - 1.
 *   direction: enum tdma_direction.
 * Refusal: TDMA_OUT_OF_RANGE for any of the four.
 */
tdma_who_answer tdma_who(const tdma_cell *cell, uint32_t tn, uint32_t arfcn, uint32_t frame,
                         uint32_t direction);

typedef struct {
    uint32_t refusal;
    uint32_t tn;    /* 0, 2, 4 or 6: the timeslot of the common line */
    uint32_t block; /* the CCCH block, BS_AG_BLKS_RES to 8, or to 2 with a combination 5 */
    uint32_t frame; /* 0 to TDMA_HYPERFRAME - 1: the first of the block's four */
} tdma_page_answer;

/*
 * When and where a mobile station is paged next: the timeslot and CCCH block of its paging group,
 * and the first frame at or after `frame` where that block begins. It is past the turn to 0, and
 * then below `frame`, if the hyperframe ends before. The cell stays as it is.
 *   digits, digits_length: the IMSI, 3 to 15 digits, the first one first, one to a byte: 0 to 9, not
 *                          characters. The last three decide.
 *   frame:                 0 to TDMA_HYPERFRAME - 1.
 * Refusals, in this order: TDMA_OUT_OF_RANGE (digits, frame), TDMA_NO_COMMON_LINE (no line of
 * combination 4, 5 or 6 is open). Of storage that no call has filled, TDMA_CELL_PARAMETER
 * (BS_AG_BLKS_RES, BS_PA_MFRMS) before these, and TDMA_COMMON_CHANNEL (its common lines) between.
 *
 *     static const uint8_t imsi[] = {2, 6, 2, 0, 1, 1, 2, 3};
 *     tdma_page_answer page = tdma_page(&cell, imsi, 8, 0);
 *     if (page.refusal == TDMA_ACCEPTED)
 *         send_at(page.frame, page.tn);
 */
tdma_page_answer tdma_page(const tdma_cell *cell, const uint8_t *digits, size_t digits_length,
                           uint32_t frame);

/*
 * Bursts.
 *
 * A burst is an array of bits, one to a byte, 0 or 1: byte n is bit number n of clause 5.2. Its fixed
 * bits are the tails, the training or synch. sequence and the extended tail; the payload is what the
 * clause calls the encrypted bits e0, e1 and so on, one to a byte, too. Building puts a payload
 * between the fixed bits of its kind of burst; taking apart checks the fixed bits and gives the
 * payload. Each undoes the other. The frequency correction and the dummy burst have no payload, and
 * are built only.
 *
 * For every function:
 *   payload, payload_length: the payload, of its kind's exact length. Read by a build, written by a
 *                            take.
 *   burst, burst_length:     the burst, of its kind's exact length. Written by a build, read by a
 *                            take.
 * The two must not overlap. With any other length the call is refused. An accepted call writes every
 * byte of its buffer, and a refused one writes none. What is read stays as it is.
 *
 *     uint8_t burst[TDMA_BURST], payload[TDMA_NORMAL_PAYLOAD];
 *     tdma_burst_answer answer;
 *
 *     receive(burst);
 *     answer = tdma_take_normal(5, burst, TDMA_BURST, payload, TDMA_NORMAL_PAYLOAD);
 *     if (answer.refusal == TDMA_ACCEPTED)
 *         decode(payload);
 *     else if (answer.refusal == TDMA_FIXED_BIT)
 *         report(answer.bit);
 */

/* The lengths, in bits and so in bytes: of a burst, of an access burst, and of the payloads. */
#define TDMA_BURST 148
#define TDMA_ACCESS_BURST 88
#define TDMA_NORMAL_PAYLOAD 116
#define TDMA_SYNCHRONIZATION_PAYLOAD 78
#define TDMA_ACCESS_PAYLOAD 36

typedef struct {
    uint32_t refusal;
    uint32_t bit; /* with TDMA_FIXED_BIT the lowest bit number at which a fixed bit differs, else 0 */
} tdma_burst_answer;

/*
 * A normal burst from its payload.
 *   tsc:     the training sequence code, 0 to 7.
 *   payload: TDMA_NORMAL_PAYLOAD bytes, each 0 or 1; e0 to e57 stand before the training sequence,
 *            e58 to e115 after it.
 *   burst:   TDMA_BURST bytes, written.
 * Refusals, in this order: TDMA_OUT_OF_RANGE (tsc), TDMA_MALFORMED (a length, a byte of the payload).
 */
tdma_burst_answer tdma_build_normal(uint32_t tsc, const uint8_t *payload, size_t payload_length,
                                    uint8_t *burst, size_t burst_length);

/*
 * The payload of a normal burst.
 *   tsc:     the training sequence code that the burst should have, 0 to 7.
 *   burst:   TDMA_BURST bytes, each 0 or 1.
 *   payload: TDMA_NORMAL_PAYLOAD bytes, written.
 * Refusals, in this order: TDMA_OUT_OF_RANGE (tsc), TDMA_MALFORMED (a length, a byte of the burst),
 * TDMA_FIXED_BIT (bit numbers 0 to 2, 61 to 86 and 145 to 147).
 */
tdma_burst_answer tdma_take_normal(uint32_t tsc, const uint8_t *burst, size_t burst_length,
                                   uint8_t *payload, size_t payload_length);

/*
 * A synchronization burst from its payload.
 *   payload: TDMA_SYNCHRONIZATION_PAYLOAD bytes, each 0 or 1; e0 to e38 stand before the training
 *            sequence, e39 to e77 after it.
 *   burst:   TDMA_BURST bytes, written.
 * Refusal: TDMA_MALFORMED (a length, a byte of the payload).
 */
tdma_burst_answer tdma_build_synchronization(const uint8_t *payload, size_t payload_length,
                                             uint8_t *burst, size_t burst_length);

/*
 * The payload of a synchronization burst.
 *   burst:   TDMA_BURST bytes, each 0 or 1.
 *   payload: TDMA_SYNCHRONIZATION_PAYLOAD bytes, written.
 * Refusals, in this order: TDMA_MALFORMED (a length, a byte of the burst), TDMA_FIXED_BIT (bit
 * numbers 0 to 2, 42 to 105 and 145 to 147).
 */
tdma_burst_answer tdma_take_synchronization(const uint8_t *burst, size_t burst_length,
                                            uint8_t *payload, size_t payload_length);

/*
 * An access burst from its payload.
 *   payload: TDMA_ACCESS_PAYLOAD bytes, each 0 or 1; they stand after the synch. sequence.
 *   burst:   TDMA_ACCESS_BURST bytes, written.
 * Refusal: TDMA_MALFORMED (a length, a byte of the payload).
 */
tdma_burst_answer tdma_build_access(const uint8_t *payload, size_t payload_length, uint8_t *burst,
                                    size_t burst_length);

/*
 * The payload of an access burst.
 *   burst:   TDMA_ACCESS_BURST bytes, each 0 or 1.
 *   payload: TDMA_ACCESS_PAYLOAD bytes, written.
 * Refusals, in this order: TDMA_MALFORMED (a length, a byte of the burst), TDMA_FIXED_BIT (bit
 * numbers 0 to 48 and 85 to 87).
 */
tdma_burst_answer tdma_take_access(const uint8_t *burst, size_t burst_length, uint8_t *payload,
                                   size_t payload_length);

/*
 * The frequency correction burst, which is all 0.
 *   burst: TDMA_BURST bytes, written.
 * Refusal: TDMA_MALFORMED (the length).
 */
tdma_burst_answer tdma_build_frequency_correction(uint8_t *burst, size_t burst_length);

/*
 * The dummy burst.
 *   burst: TDMA_BURST bytes, written.
 * Refusal: TDMA_MALFORMED (the length).
 */
tdma_burst_answer tdma_build_dummy(uint8_t *burst, size_t burst_length);

#ifdef __cplusplus
}
#endif

#endif
