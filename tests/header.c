/*
 * The header from C and from C++: each function is called, accepted and refused, and the sizes are
 * checked.
 */
#include "tdma.h"

#include <stdio.h>
#include <string.h>

#ifndef LIBRARY_CELL_WORDS
#error "LIBRARY_CELL_WORDS is missing: the number of words that crates/storage/src/lib.rt has"
#endif

/* The sizes that the library was built with; a wrong one does not compile. */
struct cell_after_a_byte {
    char byte;
    struct tdma_cell cell;
};
struct word_after_a_byte {
    char byte;
    uint32_t word;
};
typedef char cell_size[sizeof(tdma_cell) == LIBRARY_CELL_WORDS * sizeof(uint32_t) ? 1 : -1];
typedef char cell_alignment[offsetof(struct cell_after_a_byte, cell) ==
                            offsetof(struct word_after_a_byte, word) ? 1 : -1];
typedef char split_answer_size[sizeof(tdma_split_answer) == 24 ? 1 : -1];
typedef char join_answer_size[sizeof(tdma_join_answer) == 8 ? 1 : -1];
typedef char position_answer_size[sizeof(tdma_position_answer) == 12 ? 1 : -1];
typedef char position_answer_places[offsetof(tdma_position_answer, position) == 4 &&
                                    offsetof(tdma_position_answer, mai) == 8 ? 1 : -1];
typedef char hop_answer_size[sizeof(tdma_hop_answer) == 16 ? 1 : -1];
typedef char hop_answer_places[offsetof(tdma_hop_answer, arfcn) == 4 &&
                               offsetof(tdma_hop_answer, mai) == 8 &&
                               offsetof(tdma_hop_answer, position) == 12 ? 1 : -1];
typedef char map_answer_size[sizeof(tdma_map_answer) == 8 ? 1 : -1];
typedef char changed_size[sizeof(tdma_changed) == 8 ? 1 : -1];
typedef char line_answer_size[sizeof(tdma_line_answer) == 48 ? 1 : -1];
typedef char line_answer_places[offsetof(tdma_line_answer, arfcn) == 4 &&
                                offsetof(tdma_line_answer, owner) == 8 &&
                                offsetof(tdma_line_answer, second_place) == 36 &&
                                offsetof(tdma_line_answer, mai) == 40 &&
                                offsetof(tdma_line_answer, position) == 44 ? 1 : -1];
typedef char who_answer_size[sizeof(tdma_who_answer) == 12 + 48 ? 1 : -1];
typedef char who_answer_places[offsetof(tdma_who_answer, answer) == 12 ? 1 : -1];
typedef char page_answer_size[sizeof(tdma_page_answer) == 16 ? 1 : -1];
typedef char burst_answer_size[sizeof(tdma_burst_answer) == 8 ? 1 : -1];

static int wrong = 0;

static void expect(const char *what, int holds)
{
    if (!holds) {
        printf("header.c: wrong answer: %s\n", what);
        wrong = 1;
    }
}

/* Whether every number of the answer behind its refusal is 0. */
static int is_bare(const void *answer, size_t size, uint32_t refusal)
{
    uint32_t numbers[sizeof(tdma_who_answer) / sizeof(uint32_t)] = {0};

    numbers[0] = refusal;
    return memcmp(answer, numbers, size) == 0;
}

static void clock_calls(void)
{
    tdma_split_answer last = tdma_split(TDMA_HYPERFRAME - 1);
    tdma_split_answer sch = tdma_split(41);
    tdma_split_answer past = tdma_split(TDMA_HYPERFRAME);
    tdma_join_answer joined = tdma_join(0, 25, 0);
    tdma_join_answer odd = tdma_join(UINT32_MAX, 0, 0);

    expect("split", last.refusal == TDMA_ACCEPTED && last.t1 == 2047 && last.t2 == 25 &&
                        last.t3 == 50 && last.t3_prime_given == 0 && last.t3_prime == 0);
    expect("split, T3'", sch.t3 == 41 && sch.t3_prime_given == 1 && sch.t3_prime == 4);
    expect("split, refused", past.refusal == TDMA_OUT_OF_RANGE && past.t1 == 0);
    expect("join", joined.refusal == TDMA_ACCEPTED && joined.frame == 51);
    expect("join, refused", odd.refusal == TDMA_MALFORMED && odd.frame == 0);
}

/* With a hole in the mask ARFCN, MAI and position are three numbers. */
static void hop_calls(void)
{
    static const uint16_t ca[4] = {10, 20, 30, 40};
    tdma_hop_answer hop = tdma_hop(ca, 4, 15, 1, 0, 3);
    tdma_hop_answer hole = tdma_hop(ca, 4, 10, 0, 1, 0);
    tdma_hop_answer last = tdma_hop(ca, 4, 8, 63, 0, TDMA_HYPERFRAME - 1);
    tdma_hop_answer none = tdma_hop(NULL, 0, 15, 64, 4, TDMA_HYPERFRAME);
    tdma_hop_answer past = tdma_hop(ca, 4, 10, 0, 1, TDMA_HYPERFRAME);

    expect("hop", hop.refusal == TDMA_ACCEPTED && hop.arfcn == 30 && hop.mai == 2 &&
                      hop.position == 2);
    expect("hop over a hole", hole.refusal == TDMA_ACCEPTED && hole.arfcn == 40 && hole.mai == 1 &&
                                  hole.position == 3);
    expect("hop, one ARFCN", last.refusal == TDMA_ACCEPTED && last.arfcn == 40 && last.mai == 0 &&
                                 last.position == 3);
    expect("hop, refused", is_bare(&none, sizeof none, TDMA_CELL_ALLOCATION));
    expect("hop, frame", is_bare(&past, sizeof past, TDMA_OUT_OF_RANGE));
}

/* ARFCN 0 is last in CA, so that the highest one of a mask stands for it. */
static void arfcn_0_calls(void)
{
    static const uint16_t ca[4] = {5, 10, 0, 15};
    tdma_hop_answer hop = tdma_hop(ca, 3, 6, 0, 0, 1);
    tdma_hop_answer first = tdma_hop(ca + 2, 2, 1, 0, 0, 1);
    tdma_hop_answer amid = tdma_hop(ca, 4, 6, 0, 0, 1);
    tdma_cell cell;
    tdma_changed start = tdma_start(&cell, ca, 3, 0, 7, 2, 9);
    tdma_changed lowest = tdma_open(&cell, 0, 0, 1, 0, 0, 4, 7);
    tdma_changed common = tdma_open(&cell, 0, 0, 4, 0, 0, 4, 7);
    tdma_who_answer who = tdma_who(&cell, 0, 0, 12, TDMA_DOWNLINK);

    expect("hop to ARFCN 0", hop.refusal == TDMA_ACCEPTED && hop.arfcn == 0 && hop.mai == 1 &&
                                 hop.position == 2);
    expect("hop, ARFCN 0 first", is_bare(&first, sizeof first, TDMA_CELL_ALLOCATION));
    expect("hop, ARFCN 0 amid", is_bare(&amid, sizeof amid, TDMA_CELL_ALLOCATION));
    expect("start, C0 0", start.refusal == TDMA_ACCEPTED);
    expect("open a 4, not C0", lowest.refusal == TDMA_COMMON_CHANNEL);
    expect("open a 4, C0 0", common.refusal == TDMA_ACCEPTED);
    expect("who, ARFCN 0", who.refusal == TDMA_ACCEPTED && who.found == 1 && who.line == 0 &&
                               who.answer.arfcn == 0 && who.answer.mai == 0 &&
                               who.answer.position == 2);
}

static void position_calls(void)
{
    tdma_position_answer position = tdma_position(4, 15, 1, 0, 3);
    tdma_position_answer hole = tdma_position(64, UINT64_C(1) << 63 | 10, 0, 1, 1);
    tdma_position_answer above = tdma_position(4, UINT64_C(1) << 63, 1, 1, 3);
    tdma_position_answer maio = tdma_position(64, UINT64_MAX, 63, 64, 0);
    tdma_position_answer empty = tdma_position(0, 0, 64, 0, 0);
    tdma_position_answer too_long = tdma_position(65, 1, 0, 0, 0);

    expect("position", position.refusal == TDMA_ACCEPTED && position.position == 2 &&
                           position.mai == 2);
    expect("position over a hole", hole.refusal == TDMA_ACCEPTED && hole.position == 63 &&
                                       hole.mai == 2);
    expect("position, mask refused", is_bare(&above, sizeof above, TDMA_MOBILE_ALLOCATION));
    expect("position, length refused", is_bare(&empty, sizeof empty, TDMA_CELL_ALLOCATION) &&
                                           is_bare(&too_long, sizeof too_long, TDMA_CELL_ALLOCATION));
    expect("position, MAIO refused", is_bare(&maio, sizeof maio, TDMA_MAIO));
}

static void map_calls(void)
{
    tdma_map_answer sacch = tdma_map(5, 0, 64, TDMA_UPLINK);
    tdma_map_answer tch = tdma_map(1, 7, 13 + 9, TDMA_DOWNLINK);
    tdma_map_answer idle = tdma_map(4, 0, 50, TDMA_DOWNLINK);
    tdma_map_answer third = tdma_map(3, 0, 0, TDMA_DOWNLINK);

    expect("map, SACCH", sacch.refusal == TDMA_ACCEPTED && sacch.channel == TDMA_SACCH &&
                             sacch.subchannel == 1 && sacch.blocks == 1 && sacch.block == 0 &&
                             sacch.place == 3 && sacch.second_block == 0 && sacch.second_place == 0);
    expect("map, TCH", tch.channel == TDMA_TCH && tch.subchannel == 0 && tch.blocks == 2 &&
                           tch.block == 5 && tch.place == 1 && tch.second_block == 4 &&
                           tch.second_place == 5);
    expect("map, idle", idle.refusal == TDMA_ACCEPTED && idle.channel == TDMA_IDLE &&
                            idle.blocks == 0);
    expect("map, refused", third.refusal == TDMA_OUT_OF_RANGE && third.channel == 0);
}

/*
 * CA is 10, 20, 30, 40, C0 is 10, BCC is 0; a 4 is open on line 0, and a 2 in timeslot 1 on line 5,
 * which hops over 20, 30 and 40.
 */
static tdma_cell two_lines(void)
{
    static const uint16_t ca[4] = {10, 20, 30, 40};
    tdma_cell cell;

    expect("start", tdma_start(&cell, ca, 4, 10, 0, 1, 5).refusal == TDMA_ACCEPTED);
    expect("open a 4", tdma_open(&cell, 0, 0, 1, 0, 0, 4, 0).refusal == TDMA_ACCEPTED);
    expect("open a 2", tdma_open(&cell, 5, 1, 14, 1, 2, 2, 3).refusal == TDMA_ACCEPTED);
    return cell;
}

/* The same, and subchannel 1 of line 5 is held by 77. */
static tdma_cell one_held(void)
{
    tdma_cell cell = two_lines();

    expect("seize", tdma_seize(&cell, 5, 1, 77).refusal == TDMA_ACCEPTED);
    return cell;
}

static int is_same(const tdma_cell *one, const tdma_cell *other)
{
    return memcmp(one, other, sizeof *one) == 0;
}

static void start_calls(void)
{
    static const uint16_t descending[2] = {20, 10};
    tdma_cell cell;
    tdma_changed c0 = tdma_start(&cell, descending + 1, 1, 20, 0, 1, 5);
    tdma_changed none = tdma_start(&cell, NULL, 0, 0, 0, 1, 5);
    tdma_changed ca = tdma_start(&cell, descending, 2, 20, 0, 1, 5);
    tdma_changed opened = tdma_open(&cell, 63, 7, 1, 0, 0, 1, 0);
    tdma_line_answer line = tdma_line(&cell, 63, 0, TDMA_DOWNLINK);

    expect("start, C0 refused", c0.refusal == TDMA_CELL_PARAMETER && c0.line == 0);
    expect("start, no CA", none.refusal == TDMA_CELL_ALLOCATION && none.line == 0);
    expect("start, CA refused", ca.refusal == TDMA_CELL_ALLOCATION && ca.line == 0);
    expect("a refused start's cell", opened.refusal == TDMA_ACCEPTED &&
                                         line.refusal == TDMA_ACCEPTED && line.arfcn == 0 &&
                                         line.channel == TDMA_TCH);
}

/* A cell, and what stands on both sides of it. */
struct surrounded {
    uint32_t before[64];
    tdma_cell cell;
    uint32_t after[64];
};

/* Starts on storage filled with this byte; the surroundings stay, and the cell is compared. */
static void start_on(int byte, uint32_t c0, uint32_t refusal, const tdma_cell *cell)
{
    static const uint16_t ca[2] = {10, 20};
    struct surrounded filled, storage;

    memset(&filled, byte, sizeof filled);
    memset(&storage, byte, sizeof storage);
    expect("start on storage", tdma_start(&storage.cell, ca, 2, c0, 7, 2, 9).refusal == refusal);
    expect("start, before the cell",
           memcmp(storage.before, filled.before, sizeof filled.before) == 0);
    expect("start, after the cell", memcmp(storage.after, filled.after, sizeof filled.after) == 0);
    expect("start, all of the cell", is_same(&storage.cell, cell));
}

/* 0 and 255 differ in every bit, so that a byte which is not written is seen. */
static void start_fills_the_cell(void)
{
    static const uint16_t ca[2] = {10, 20};
    tdma_cell cell;

    tdma_start(&cell, ca, 2, 20, 7, 2, 9);
    start_on(0, 20, TDMA_ACCEPTED, &cell);
    start_on(255, 20, TDMA_ACCEPTED, &cell);
    tdma_start(&cell, ca, 2, 21, 7, 2, 9);
    start_on(0, 21, TDMA_CELL_PARAMETER, &cell);
    start_on(255, 21, TDMA_CELL_PARAMETER, &cell);
}

static void refused_open_calls(void)
{
    const tdma_cell before = two_lines();
    tdma_cell cell = before;
    tdma_changed clash = tdma_open(&cell, 6, 1, 4, 0, 0, 7, 0);
    tdma_changed common = tdma_open(&cell, 6, 0, 1, 0, 0, 4, 0);
    tdma_changed mask = tdma_open(&cell, 5, 1, UINT64_MAX, 0, 64, 4, 0);
    tdma_changed maio = tdma_open(&cell, 5, 1, 14, 1, 3, 2, 3);
    tdma_changed again = tdma_open(&cell, 5, 1, 14, 1, 1, 2, 3);

    expect("open, clash", clash.refusal == TDMA_CLASH && clash.line == 5);
    expect("open, common channel", common.refusal == TDMA_COMMON_CHANNEL && common.line == 0);
    expect("open, mask", mask.refusal == TDMA_MOBILE_ALLOCATION);
    expect("open, MAIO", maio.refusal == TDMA_MAIO);
    expect("open of an open line", again.refusal == TDMA_LINE_OPEN);
    expect("open, refused, cell", is_same(&cell, &before));
}

static void open_and_close_calls(void)
{
    tdma_cell cell = two_lines();

    expect("open a 6", tdma_open(&cell, 6, 2, 1, 0, 0, 6, 0).refusal == TDMA_ACCEPTED);
    expect("close a needed 4", tdma_close(&cell, 0).refusal == TDMA_COMMON_CHANNEL);
    expect("close the 6", tdma_close(&cell, 6).refusal == TDMA_ACCEPTED);
    expect("close the 4", tdma_close(&cell, 0).refusal == TDMA_ACCEPTED);
    expect("close a closed line", tdma_close(&cell, 0).refusal == TDMA_LINE_CLOSED);
    expect("close, line number", tdma_close(&cell, 64).refusal == TDMA_OUT_OF_RANGE);
}

static void seize_and_release_calls(void)
{
    tdma_cell cell = two_lines();

    expect("seize on a 4", tdma_seize(&cell, 0, 0, 77).refusal == TDMA_NO_SUBCHANNEL);
    expect("seize, owner", tdma_seize(&cell, 5, 1, 65536).refusal == TDMA_OUT_OF_RANGE);
    expect("seize", tdma_seize(&cell, 5, 1, 77).refusal == TDMA_ACCEPTED);
    expect("seize, held", tdma_seize(&cell, 5, 1, 78).refusal == TDMA_SUBCHANNEL_HELD);
    expect("close, held", tdma_close(&cell, 5).refusal == TDMA_LINE_HELD);
    expect("release, other", tdma_release(&cell, 5, 1, 78).refusal == TDMA_NOT_HOLDER);
    expect("release", tdma_release(&cell, 5, 1, 77).refusal == TDMA_ACCEPTED);
    expect("close, free", tdma_close(&cell, 5).refusal == TDMA_ACCEPTED);
}

static void line_calls(void)
{
    const tdma_cell cell = one_held();
    tdma_line_answer ccch = tdma_line(&cell, 0, 26, TDMA_DOWNLINK);
    tdma_line_answer tch = tdma_line(&cell, 5, 3, TDMA_UPLINK);
    tdma_line_answer spare = tdma_line(&cell, 5, 4, TDMA_UPLINK);
    tdma_line_answer closed = tdma_line(&cell, 1, 26, TDMA_DOWNLINK);
    tdma_line_answer past = tdma_line(&cell, 0, TDMA_HYPERFRAME, TDMA_DOWNLINK);

    expect("line, CCCH", ccch.refusal == TDMA_ACCEPTED && ccch.arfcn == 10 && ccch.owner == 0 &&
                             ccch.channel == TDMA_CCCH && ccch.blocks == 1 && ccch.block == 4 &&
                             ccch.place == 0 && ccch.mai == 0 && ccch.position == 0);
    expect("line, TCH", tch.refusal == TDMA_ACCEPTED && tch.arfcn == 40 && tch.owner == 77 &&
                            tch.channel == TDMA_TCH && tch.subchannel == 1 && tch.blocks == 2 &&
                            tch.block == 0 && tch.place == 1 && tch.second_block == 5 &&
                            tch.second_place == 3);
    expect("line, TCH, MAI and position", tch.mai == 2 && tch.position == 3);
    expect("line, free", spare.channel == TDMA_TCH && spare.subchannel == 0 && spare.owner == 0);
    expect("line, closed", is_bare(&closed, sizeof closed, TDMA_LINE_CLOSED));
    expect("line, frame", is_bare(&past, sizeof past, TDMA_OUT_OF_RANGE));
}

/* A line that hops over 20 and 40; in frame 25 it is idle, on the second of them. */
static void idle_line_calls(void)
{
    tdma_cell cell = two_lines();
    tdma_changed opened = tdma_open(&cell, 6, 2, 10, 0, 0, 1, 0);
    tdma_line_answer idle = tdma_line(&cell, 6, 25, TDMA_UPLINK);
    tdma_who_answer who = tdma_who(&cell, 2, 40, 25, TDMA_UPLINK);

    expect("open a 1", opened.refusal == TDMA_ACCEPTED);
    expect("line, idle", idle.refusal == TDMA_ACCEPTED && idle.channel == TDMA_IDLE &&
                             idle.owner == 0 && idle.blocks == 0);
    expect("line, idle, hop", idle.arfcn == 40 && idle.mai == 1 && idle.position == 3);
    expect("who, idle", who.refusal == TDMA_ACCEPTED && who.found == 1 && who.line == 6 &&
                            memcmp(&who.answer, &idle, sizeof idle) == 0);
}

static void who_calls(void)
{
    const tdma_cell cell = one_held();
    tdma_line_answer shown = tdma_line(&cell, 5, 3, TDMA_UPLINK);
    tdma_who_answer tch = tdma_who(&cell, 1, 40, 3, TDMA_UPLINK);
    tdma_who_answer ccch = tdma_who(&cell, 0, 10, 26, TDMA_DOWNLINK);
    tdma_who_answer nobody = tdma_who(&cell, 1, 30, 3, TDMA_UPLINK);
    tdma_who_answer past = tdma_who(&cell, 8, 40, 3, TDMA_UPLINK);
    tdma_who_answer arfcn = tdma_who(&cell, 1, 1024, 3, TDMA_UPLINK);

    expect("who", tch.refusal == TDMA_ACCEPTED && tch.found == 1 && tch.line == 5 &&
                      tch.answer.owner == 77 && memcmp(&tch.answer, &shown, sizeof shown) == 0);
    expect("who, MAI and position", tch.answer.arfcn == 40 && tch.answer.mai == 2 &&
                                        tch.answer.position == 3);
    expect("who, CCCH", ccch.found == 1 && ccch.line == 0 && ccch.answer.channel == TDMA_CCCH &&
                            ccch.answer.arfcn == 10 && ccch.answer.block == 4);
    expect("who, nobody", is_bare(&nobody, sizeof nobody, TDMA_ACCEPTED));
    expect("who, timeslot", is_bare(&past, sizeof past, TDMA_OUT_OF_RANGE));
    expect("who, ARFCN", is_bare(&arfcn, sizeof arfcn, TDMA_OUT_OF_RANGE));
}

/* The drill sheet's row on paging, and its refusals. */
static void page_calls(void)
{
    static const uint8_t imsi[15] = {2, 6, 2, 0, 1, 0, 0, 0, 0, 0, 0, 0, 1, 2, 3};
    static const uint8_t text[3] = {'1', '2', '3'};
    tdma_cell cell = two_lines();
    tdma_page_answer page = tdma_page(&cell, imsi, 15, 0);
    tdma_page_answer turned = tdma_page(&cell, imsi + 12, 3, TDMA_HYPERFRAME - 1);
    tdma_page_answer none, both;

    expect("page", page.refusal == TDMA_ACCEPTED && page.tn == 0 && page.block == 4 &&
                       page.frame == 26);
    expect("page, turned", turned.refusal == TDMA_ACCEPTED && turned.frame == 26);
    expect("page, two digits", tdma_page(&cell, imsi, 2, 0).refusal == TDMA_OUT_OF_RANGE);
    expect("page, characters", tdma_page(&cell, text, 3, 0).refusal == TDMA_OUT_OF_RANGE);
    expect("page, frame", tdma_page(&cell, imsi, 15, TDMA_HYPERFRAME).refusal == TDMA_OUT_OF_RANGE);
    expect("close the 4", tdma_close(&cell, 0).refusal == TDMA_ACCEPTED);
    none = tdma_page(&cell, imsi, 15, 0);
    both = tdma_page(&cell, NULL, 0, 0);
    expect("page, no common line", none.refusal == TDMA_NO_COMMON_LINE && none.frame == 0);
    expect("page, both", both.refusal == TDMA_OUT_OF_RANGE && both.frame == 0);
}

/* Whether the bits from `bits` on, one to a byte, are those of the text. */
static int has_bits(const uint8_t *bits, const char *text)
{
    size_t i;

    for (i = 0; text[i] != 0; i++)
        if (bits[i] != text[i] - '0')
            return 0;
    return 1;
}

/* Whether a call was refused with this number and bit. */
static int is_answer(tdma_burst_answer answer, uint32_t refusal, uint32_t bit)
{
    return answer.refusal == refusal && answer.bit == bit;
}

/* Training sequence code 5; e57 alone is 1, which stands in bit number 60. */
static void normal_burst_calls(void)
{
    uint8_t payload[TDMA_NORMAL_PAYLOAD] = {0}, taken[TDMA_NORMAL_PAYLOAD], burst[TDMA_BURST];
    const size_t p = sizeof payload, b = sizeof burst;

    payload[57] = 1;
    memset(burst, 9, b);
    memset(taken, 9, p);
    expect("build normal, code",
           is_answer(tdma_build_normal(8, payload, p, burst, b), TDMA_OUT_OF_RANGE, 0));
    expect("build normal, length",
           is_answer(tdma_build_normal(5, payload, p, burst, b - 1), TDMA_MALFORMED, 0));
    expect("build normal, refused", burst[0] == 9 && burst[147] == 9);
    expect("build normal", is_answer(tdma_build_normal(5, payload, p, burst, b), TDMA_ACCEPTED, 0));
    expect("normal burst", has_bits(burst, "0000") && has_bits(burst + 144, "0000") &&
                               has_bits(burst + 60, "1" "01001110101100000100111010" "0"));
    expect("take normal", is_answer(tdma_take_normal(5, burst, b, taken, p), TDMA_ACCEPTED, 0));
    expect("take normal, payload", memcmp(taken, payload, p) == 0);
    burst[147] = burst[86] = 1;
    expect("take normal, fixed bit",
           is_answer(tdma_take_normal(5, burst, b, taken, p), TDMA_FIXED_BIT, 86));
    burst[60] = 2;
    expect("take normal, byte",
           is_answer(tdma_take_normal(5, burst, b, taken, p), TDMA_MALFORMED, 0));
    expect("take normal, code",
           is_answer(tdma_take_normal(UINT32_MAX, burst, b, taken, p), TDMA_OUT_OF_RANGE, 0));
    expect("take normal, refused", memcmp(taken, payload, p) == 0);
}

/* e38 and e39 are 1, which stand on both sides of the training sequence. */
static void synchronization_burst_calls(void)
{
    uint8_t payload[TDMA_SYNCHRONIZATION_PAYLOAD] = {0}, taken[TDMA_SYNCHRONIZATION_PAYLOAD];
    uint8_t burst[TDMA_BURST];
    const size_t p = sizeof payload, b = sizeof burst;

    payload[38] = payload[39] = 1;
    expect("build synchronization",
           is_answer(tdma_build_synchronization(payload, p, burst, b), TDMA_ACCEPTED, 0));
    expect("synchronization burst", has_bits(burst, "0000") && has_bits(burst + 144, "0000") &&
                                        has_bits(burst + 40, "01" "10111001") &&
                                        has_bits(burst + 98, "00011011" "10"));
    expect("build synchronization, no payload",
           is_answer(tdma_build_synchronization(NULL, 0, burst, b), TDMA_MALFORMED, 0));
    expect("take synchronization",
           is_answer(tdma_take_synchronization(burst, b, taken, p), TDMA_ACCEPTED, 0));
    expect("take synchronization, payload", memcmp(taken, payload, p) == 0);
    burst[145] = 1;
    expect("take synchronization, fixed bit",
           is_answer(tdma_take_synchronization(burst, b, taken, p), TDMA_FIXED_BIT, 145));
}

static void access_burst_calls(void)
{
    uint8_t payload[TDMA_ACCESS_PAYLOAD], taken[TDMA_ACCESS_PAYLOAD], burst[TDMA_ACCESS_BURST];
    const size_t p = sizeof payload, b = sizeof burst;

    memset(payload, 1, p);
    expect("build access", is_answer(tdma_build_access(payload, p, burst, b), TDMA_ACCEPTED, 0));
    expect("access burst",
           has_bits(burst, "00111010" "01001011011111111001100110101010001111000" "1") &&
               has_bits(burst + 84, "1000"));
    expect("take access", is_answer(tdma_take_access(burst, b, taken, p), TDMA_ACCEPTED, 0));
    expect("take access, payload", memcmp(taken, payload, p) == 0);
    burst[0] = 1;
    expect("take access, fixed bit",
           is_answer(tdma_take_access(burst, b, taken, p), TDMA_FIXED_BIT, 0));
    expect("take access, length",
           is_answer(tdma_take_access(burst, b, taken, p - 1), TDMA_MALFORMED, 0));
    payload[35] = 255;
    expect("build access, byte",
           is_answer(tdma_build_access(payload, p, burst, b), TDMA_MALFORMED, 0));
}

static void bursts_without_payload(void)
{
    uint8_t burst[TDMA_BURST], zeros[TDMA_BURST] = {0};
    const size_t b = sizeof burst;

    memset(burst, 9, b);
    expect("build frequency correction",
           is_answer(tdma_build_frequency_correction(burst, b), TDMA_ACCEPTED, 0));
    expect("frequency correction burst", memcmp(burst, zeros, b) == 0);
    expect("build frequency correction, length",
           is_answer(tdma_build_frequency_correction(NULL, 0), TDMA_MALFORMED, 0));
    expect("build dummy", is_answer(tdma_build_dummy(burst, b), TDMA_ACCEPTED, 0));
    expect("dummy burst", has_bits(burst, "000" "1111101101110110") &&
                              has_bits(burst + 131, "00101111" "101010" "000"));
    expect("build dummy, length", is_answer(tdma_build_dummy(burst, b - 1), TDMA_MALFORMED, 0));
}

int main(void)
{
    clock_calls();
    hop_calls();
    arfcn_0_calls();
    position_calls();
    map_calls();
    start_calls();
    start_fills_the_cell();
    refused_open_calls();
    open_and_close_calls();
    seize_and_release_calls();
    line_calls();
    idle_line_calls();
    who_calls();
    page_calls();
    normal_burst_calls();
    synchronization_burst_calls();
    access_burst_calls();
    bursts_without_payload();
    return wrong;
}
