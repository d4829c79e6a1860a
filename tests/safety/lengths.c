#include "both.h"
#include "odd.h"

#include <string.h>

/* A slice to read and one to write, between inaccessible pages. */
typedef struct {
    guarded read;
    guarded lent;
} slices;

/*
 * Hops to the last entry of a CA of one length, and starts with it; both are accepted where it is 1 to
 * 64 and `last` fits.
 */
static void cell_allocation(both_cells *cells, slices at, size_t length, uint16_t last,
                            enum side side)
{
    const int of_size = length >= 1 && length <= 64, fits = of_size && last <= 1023;
    const uint64_t mask = of_size ? UINT64_C(1) << (length - 1) : 1;
    uint16_t entries[LONGEST];
    const uint16_t *ca;
    uint16_t i;

    for (i = 0; i < LONGEST; i++)
        entries[i] = (uint16_t)(5 * (i + 1));
    if (length > 0)
        entries[length - 1] = last;
    ca = (const void *)copied(at.read, entries, length * sizeof *ca, side);
    read_only(at.read);
    expect("hop", "accepted or refused", (both_hop(ca, length, mask, 0, 0, 0) == 0) == fits);
    expect("start", "accepted or refused",
           (both_start(cells, ca, length, entries[0], 7, 7, 9) == 0) == fits);
    writable(at.read);
}

/* Pages with an IMSI of one length; it is accepted with 3 to 15 digits if `last` is one. */
static void imsi(both_cells *cells, slices at, size_t length, uint8_t last, enum side side)
{
    const int fits = length >= 3 && length <= 15 && last <= 9;
    uint8_t digits[LONGEST];
    const uint8_t *passed;

    memset(digits, 9, sizeof digits);
    if (length > 0)
        digits[length - 1] = last;
    passed = copied(at.read, digits, length, side);
    read_only(at.read);
    expect("page", "accepted or refused", (both_page(cells, passed, length, 0) == 0) == fits);
    writable(at.read);
}

static void cell_slices(slices at)
{
    both_cells cells = both_new();
    size_t length;
    int side;

    for (side = PAGE_BEFORE; side <= PAGE_AFTER; side++)
        for (length = 0; length <= LONGEST; length++) {
            both_place(&cells, (enum side)side);
            cell_allocation(&cells, at, length, 0, (enum side)side);
            cell_allocation(&cells, at, length, 1023, (enum side)side);
            cell_allocation(&cells, at, length, 1024, (enum side)side);
            both_three_lines(&cells);
            imsi(&cells, at, length, 0, (enum side)side);
            imsi(&cells, at, length, 10, (enum side)side);
        }
    both_free(&cells);
}

/* The bits of a burst that the call takes apart, or of a payload, and zeros behind them. */
static void right_bits(enum burst_call call, uint8_t *bits)
{
    static const uint8_t zeros[LONGEST] = {0};
    const int takes = call == TAKE_NORMAL || call == TAKE_SYNCHRONIZATION || call == TAKE_ACCESS;

    memset(bits, 0, LONGEST);
    if (takes) /* the call before it builds what it takes apart */
        second_burst((uint32_t)call - 1, 7, zeros, burst_writes(call), bits, burst_reads(call));
}

/* The call with `length` bytes to read, and with every length of what it is lent. */
static void burst(enum burst_call call, slices at, size_t length, enum side side)
{
    uint8_t bits[LONGEST];
    const uint8_t *read;
    size_t room;
    int fits;

    right_bits(call, bits);
    read = copied(at.read, bits, length, side);
    read_only(at.read);
    for (room = 0; room <= LONGEST; room++) {
        uint8_t *lent = placed(at.lent, room, side);

        memset(at.lent.first, 9, at.lent.size);
        fits = length == burst_reads(call) && room == burst_writes(call);
        expect("burst", "accepted or refused",
               (both_burst(call, 7, read, length, lent, room) == 0) == fits);
    }
    writable(at.read);
}

static void burst_slices(slices at)
{
    size_t length, longest;
    int call, side;

    for (call = 0; call < BURST_CALLS; call++) {
        longest = burst_reads((enum burst_call)call) > 0 ? LONGEST : 0;
        for (side = PAGE_BEFORE; side <= PAGE_AFTER; side++)
            for (length = 0; length <= longest; length++)
                burst((enum burst_call)call, at, length, (enum side)side);
    }
}

void every_length(void)
{
    slices at;

    at.read = guard(2 * LONGEST);
    at.lent = guard(2 * LONGEST);
    cell_slices(at);
    burst_slices(at);
    unguard(at.read);
    unguard(at.lent);
    report("every length");
}

static void null_cell_slices(void)
{
    both_cells cells = both_new();

    expect("hop", "null", both_hop(NULL, 0, 1, 0, 0, 0) == TDMA_CELL_ALLOCATION);
    expect("start", "null", both_start(&cells, NULL, 0, 0, 0, 0, 2) == TDMA_CELL_ALLOCATION);
    both_three_lines(&cells);
    expect("page", "null", both_page(&cells, NULL, 0, 0) == TDMA_OUT_OF_RANGE);
    both_free(&cells);
}

static void null_burst_slices(void)
{
    uint8_t bits[LONGEST] = {0}, lent[LONGEST] = {0};
    int call;

    for (call = 0; call < BURST_CALLS; call++) {
        const enum burst_call made = (enum burst_call)call;
        const size_t reads = burst_reads(made), writes = burst_writes(made);

        expect("burst", "null to write",
               both_burst(made, 0, bits, reads, NULL, 0) == TDMA_MALFORMED);
        expect("burst", "null to read",
               (both_burst(made, 0, NULL, 0, lent, writes) == TDMA_MALFORMED) == (reads > 0));
        expect("burst", "null", both_burst(made, 0, NULL, 0, NULL, 0) == TDMA_MALFORMED);
    }
}

void null_pointers(void)
{
    null_cell_slices();
    null_burst_slices();
    report("null pointers");
}
