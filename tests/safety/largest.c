#include "both.h"
#include "odd.h"

/* The value, or the largest one where this bit is one. */
static uint32_t at(uint32_t bits, uint32_t bit, uint32_t value)
{
    return bits >> bit & 1 ? UINT32_MAX : value;
}

static uint64_t mask_at(uint32_t bits, uint32_t bit, uint64_t mask)
{
    return bits >> bit & 1 ? UINT64_MAX : mask;
}

/* With no value at its largest a call is accepted. */
static void answered(const char *call, uint32_t bits, uint32_t refusal)
{
    expect(call, "refused", bits != 0 || refusal == TDMA_ACCEPTED);
}

static void clock_calls(void)
{
    uint32_t bits;

    for (bits = 0; bits < 2; bits++)
        answered("split", bits, both_split(at(bits, 0, 41)));
    for (bits = 0; bits < 8; bits++)
        answered("join", bits, both_join(at(bits, 0, 2047), at(bits, 1, 25), at(bits, 2, 50)));
}

static void hopping_and_map_calls(void)
{
    static const uint16_t ca[4] = {10, 20, 30, 40};
    uint32_t bits;

    for (bits = 0; bits < 32; bits++)
        answered("position", bits,
                 both_position(at(bits, 0, 4), mask_at(bits, 1, 10), at(bits, 2, 1), at(bits, 3, 1),
                               at(bits, 4, 3)));
    for (bits = 0; bits < 16; bits++)
        answered("hop", bits,
                 both_hop(ca, 4, mask_at(bits, 0, 10), at(bits, 1, 1), at(bits, 2, 1),
                          at(bits, 3, 3)));
    for (bits = 0; bits < 16; bits++)
        answered("map", bits,
                 both_map(at(bits, 0, 7), at(bits, 1, 7), at(bits, 2, 12), at(bits, 3, 1)));
}

static void start_calls(both_cells *cells)
{
    static const uint16_t ca[4] = {10, 20, 30, UINT16_MAX};
    uint32_t bits;

    for (bits = 0; bits < 32; bits++)
        answered("start", bits,
                 both_start(cells, ca, 3 + (bits >> 4), at(bits, 0, 20), at(bits, 1, 7),
                            at(bits, 2, 7), at(bits, 3, 9)));
}

static void open_and_close_calls(both_cells *cells)
{
    uint32_t bits;

    for (bits = 0; bits < 128; bits++) {
        both_three_lines(cells);
        answered("open", bits,
                 both_open(cells, at(bits, 0, 2), at(bits, 1, 1), mask_at(bits, 2, 6),
                           at(bits, 3, 1), at(bits, 4, 1), at(bits, 5, 1), at(bits, 6, 7)));
    }
    for (bits = 0; bits < 2; bits++) {
        both_three_lines(cells);
        answered("close", bits, both_close(cells, at(bits, 0, 0)));
    }
}

static void subchannel_calls(both_cells *cells)
{
    uint32_t bits;

    for (bits = 0; bits < 8; bits++) {
        both_three_lines(cells);
        answered("seize", bits, both_seize(cells, at(bits, 0, 0), at(bits, 1, 0), at(bits, 2, 1)));
        answered("release", bits,
                 both_release(cells, at(bits, 0, 1), at(bits, 1, 0), at(bits, 2, 5)));
    }
}

static void asking_calls(both_cells *cells)
{
    static const uint8_t digits[5] = {0, 0, 1, 2, 3};
    uint32_t bits;

    both_three_lines(cells);
    for (bits = 0; bits < 8; bits++)
        answered("line", bits, both_line(cells, at(bits, 0, 0), at(bits, 1, 13), at(bits, 2, 1)));
    for (bits = 0; bits < 16; bits++)
        answered("who", bits,
                 both_who(cells, at(bits, 0, 2), at(bits, 1, 20), at(bits, 2, 13), at(bits, 3, 1)));
    for (bits = 0; bits < 2; bits++)
        answered("page", bits, both_page(cells, digits, 5, at(bits, 0, 13)));
}

static void normal_burst_calls(void)
{
    uint8_t payload[TDMA_NORMAL_PAYLOAD] = {0}, burst[TDMA_BURST] = {0};
    uint32_t bits;

    for (bits = 0; bits < 2; bits++) {
        answered("build normal", bits,
                 both_burst(BUILD_NORMAL, at(bits, 0, 7), payload, sizeof payload, burst,
                            sizeof burst));
        answered("take normal", bits,
                 both_burst(TAKE_NORMAL, at(bits, 0, 7), burst, sizeof burst, payload,
                            sizeof payload));
    }
}

void largest_values(void)
{
    both_cells cells = both_new();

    clock_calls();
    hopping_and_map_calls();
    start_calls(&cells);
    open_and_close_calls(&cells);
    subchannel_calls(&cells);
    asking_calls(&cells);
    normal_burst_calls();
    both_free(&cells);
    report("largest values");
}
