#include "both.h"
#include "mixed.h"

#include <string.h>

#define CALLS 1000000
/* The fewest that must be accepted. */
#define ACCEPTED 500000

/* The state of the random numbers, the cells, and memory for a slice to read and one to write. */
typedef struct {
    uint64_t state;
    both_cells cells;
    guarded read;
    guarded lent;
} mixture;

static enum side any_side(mixture *m)
{
    return once_in(&m->state, 2) ? PAGE_BEFORE : PAGE_AFTER;
}

/* The value, or once in eight one at the end of its range, past it or far past it. */
static uint32_t mostly(mixture *m, uint32_t value, uint32_t last)
{
    const uint32_t odd[8] = {0,          last,         last + 1,         last + 2,
                             256 + last, 65536 + last, UINT32_C(1) << 31, UINT32_MAX};

    return once_in(&m->state, 8) ? odd[below(&m->state, 8)] : value;
}

static uint32_t any_frame(mixture *m)
{
    const uint32_t last = TDMA_HYPERFRAME - 1;

    return mostly(m, last - below(&m->state, once_in(&m->state, 4) ? 200 : last + 1), last);
}

static void clock_call(mixture *m)
{
    if (once_in(&m->state, 2))
        both_split(any_frame(m));
    else
        both_join(mostly(m, below(&m->state, 2048), 2047), mostly(m, below(&m->state, 26), 25),
                  mostly(m, below(&m->state, 51), 50));
}

static void map_call(mixture *m)
{
    static const uint32_t combinations[6] = {1, 2, 4, 5, 6, 7};

    both_map(mostly(m, combinations[below(&m->state, 6)], 7), mostly(m, below(&m->state, 8), 7),
             any_frame(m), mostly(m, below(&m->state, 2), 1));
}

static uint32_t ones(uint64_t mask)
{
    uint32_t count = 0;

    for (; mask != 0; mask >>= 1)
        count += (uint32_t)(mask & 1);
    return count;
}

/* A mask of this many bits at most, which is mostly not zero. */
static uint64_t any_mask(mixture *m, uint32_t length)
{
    const uint64_t all = length == 64 ? UINT64_MAX : (UINT64_C(1) << length) - 1;
    const uint64_t lowest = once_in(&m->state, 8) ? 0 : 1;

    if (once_in(&m->state, 16))
        return random_word(&m->state);
    return (random_word(&m->state) & random_word(&m->state) & all) | lowest;
}

/* Spoils an entry of a cell allocation: as the one before it, ARFCN 0 that isn't last, or 1024. */
static void spoil_entry(mixture *m, uint16_t *ca, uint32_t length)
{
    const uint32_t i = below(&m->state, length), kind = below(&m->state, 4);

    if (kind == 0 && i > 0)
        ca[i] = ca[i - 1];
    else if (kind == 1 && i + 1 < length)
        ca[i] = 0;
    else
        ca[i] = 1024;
}

/* A cell allocation, ascending, one in four with ARFCN 0 last; once in eight an entry is odd. */
static void any_allocation(mixture *m, uint16_t *ca, uint32_t length)
{
    uint32_t i, arfcn = 0;

    for (i = 0; i < length; i++) {
        arfcn += 1 + below(&m->state, 15);
        ca[i] = (uint16_t)arfcn;
    }
    if (once_in(&m->state, 4))
        ca[length - 1] = 0;
    if (once_in(&m->state, 8))
        spoil_entry(m, ca, length);
}

static void hopping_call(mixture *m)
{
    const uint32_t length = 1 + below(&m->state, 64);
    const uint32_t passed = mostly(m, length, 64) % (LONGEST + 1);
    const uint64_t mask = any_mask(m, length);
    const uint32_t maio = mostly(m, below(&m->state, ones(mask)), ones(mask));
    const uint32_t hsn = mostly(m, below(&m->state, 64), 63), frame = any_frame(m);
    uint16_t ca[LONGEST] = {0};
    const uint16_t *entries;

    if (once_in(&m->state, 2)) {
        both_position(mostly(m, length, 64), mask, hsn, maio, frame);
        return;
    }
    any_allocation(m, ca, length);
    entries = (const void *)copied(m->read, ca, passed * sizeof *ca, any_side(m));
    both_hop(entries, passed, mask, hsn, maio, frame);
}

/* What the call accepts: random bits, or a burst with a random payload and this code. */
static void right_bits(mixture *m, enum burst_call call, uint32_t tsc, uint8_t *bits)
{
    const int takes = call == TAKE_NORMAL || call == TAKE_SYNCHRONIZATION || call == TAKE_ACCESS;
    uint8_t payload[LONGEST];
    size_t i;

    for (i = 0; i < LONGEST; i++)
        payload[i] = (uint8_t)below(&m->state, 2);
    memcpy(bits, payload, LONGEST);
    if (takes) /* the call before it builds what it takes apart */
        second_burst((uint32_t)call - 1, tsc, payload, burst_writes(call), bits, burst_reads(call));
}

static void burst_call(mixture *m)
{
    const enum burst_call call = (enum burst_call)below(&m->state, BURST_CALLS);
    const uint32_t tsc = below(&m->state, 8);
    size_t length = mostly(m, (uint32_t)burst_reads(call), 148) % (LONGEST + 1);
    const size_t room = mostly(m, (uint32_t)burst_writes(call), 148) % (LONGEST + 1);
    uint8_t bits[LONGEST];
    const uint8_t *read;

    right_bits(m, call, tsc, bits);
    if (once_in(&m->state, 4))
        bits[below(&m->state, LONGEST)] ^= 1;
    if (once_in(&m->state, 8))
        bits[below(&m->state, LONGEST)] = (uint8_t)below(&m->state, 256);
    if (call == BUILD_FREQUENCY_CORRECTION || call == BUILD_DUMMY)
        length = 0;
    read = copied(m->read, bits, length, any_side(m));
    both_burst(call, mostly(m, tsc, 7), read, length, placed(m->lent, room, any_side(m)), room);
}

static void asking_call(mixture *m, const drawn_call *call)
{
    const uint8_t *digits;

    switch (call->call) {
    case LINE:
        both_line(&m->cells, call->line, call->frame, call->direction);
        break;
    case WHO:
        both_who(&m->cells, call->tn, call->arfcn, call->frame, call->direction);
        break;
    default:
        digits = copied(m->read, call->digits, call->digits_length, any_side(m));
        both_page(&m->cells, digits, call->digits_length, call->frame);
    }
}

static void cell_call(mixture *m)
{
    drawn_call call;

    second_draw_call(&m->state, m->cells.second, 3, &call);
    switch (call.call) {
    case OPEN:
        both_open(&m->cells, call.line, call.tn, call.mask, call.hsn, call.maio, call.combination,
                  call.tsc);
        break;
    case CLOSE:
        both_close(&m->cells, call.line);
        break;
    case SEIZE:
        both_seize(&m->cells, call.line, call.subchannel, call.owner);
        break;
    case RELEASE:
        both_release(&m->cells, call.line, call.subchannel, call.owner);
        break;
    default:
        asking_call(m, &call);
    }
}

/* Starts until one is accepted, or now and then goes on with a refused one. */
static void start_call(mixture *m)
{
    drawn_plan plan;
    const uint16_t *ca;
    uint32_t refusal;

    do {
        second_draw_plan(&m->state, below(&m->state, 2), &plan);
        ca = (const void *)copied(m->read, plan.ca, plan.ca_length * sizeof *ca, any_side(m));
        both_place(&m->cells, any_side(m));
        refusal = both_start(&m->cells, ca, plan.ca_length, plan.c0, plan.bcc, plan.ag, plan.p);
    } while (refusal != TDMA_ACCEPTED && !once_in(&m->state, 8));
}

static void any_call(mixture *m)
{
    switch (below(&m->state, 10)) {
    case 0:
        clock_call(m);
        break;
    case 1:
        map_call(m);
        break;
    case 2:
        hopping_call(m);
        break;
    case 3:
        burst_call(m);
        break;
    default:
        cell_call(m);
    }
}

/* A start and a list of calls, few or many. */
static void list(mixture *m)
{
    const uint32_t most[4] = {4, 20, 100, 1000};
    uint32_t left;

    start_call(m);
    left = 1 + below(&m->state, most[below(&m->state, 4)]);
    for (; left > 0 && calls_made() < CALLS; left--)
        any_call(m);
}

void mixed_calls(void)
{
    mixture m;
    uint32_t i;

    m.state = 2;
    m.cells = both_new();
    m.read = guard(1024 * sizeof(uint16_t));
    m.lent = guard(LONGEST);
    while (calls_made() < CALLS)
        list(&m);
    for (i = 1; i <= 16; i++)
        expect("random calls", "a refusal did not occur", answers_of(i) > 0);
    expect("random calls", "too few were accepted", answers_of(0) >= ACCEPTED);
    both_free(&m.cells);
    unguard(m.read);
    unguard(m.lent);
    report("random calls");
}
