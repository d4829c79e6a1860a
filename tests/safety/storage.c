#include "both.h"
#include "odd.h"

#include <string.h>

/* How many cells are filled, and how many times each call is made on every one. */
#define FILLED 10000
#define ROUNDS 4

#define WORDS (sizeof(tdma_cell) / sizeof(uint32_t))

/* A number in its range, at the end of it, one past that, or the largest. */
static uint32_t number(uint64_t *state, uint32_t last)
{
    switch (below(state, 8)) {
    case 0:
        return UINT32_MAX;
    case 1:
        return last + below(state, 2);
    default:
        return below(state, last + 1);
    }
}

static uint64_t any_mask(uint64_t *state)
{
    switch (below(state, 4)) {
    case 0:
        return UINT64_MAX;
    case 1:
        return random_word(state);
    case 2:
        return UINT64_C(1) << below(state, 64);
    default:
        return random_word(state) & 15;
    }
}

/* Changes some words of a cell that has three lines open. */
static void changed_words(tdma_cell *cell, uint64_t *state, const tdma_cell *three_lines)
{
    uint32_t i, word;

    *cell = *three_lines;
    for (i = below(state, 4) + 1; i > 0; i--) {
        word = (uint32_t)random_word(state);
        if (once_in(state, 2))
            word = once_in(state, 2) ? UINT32_MAX : word % 8;
        cell->opaque[below(state, WORDS)] = word;
    }
}

static void fill(tdma_cell *cell, uint64_t *state, const tdma_cell *three_lines, uint32_t kind)
{
    size_t i;

    switch (kind) {
    case 0:
        memset(cell, 255, sizeof *cell);
        break;
    case 1:
        memset(cell, 0, sizeof *cell);
        break;
    case 2:
        for (i = 0; i < WORDS; i++)
            cell->opaque[i] = (uint32_t)random_word(state);
        break;
    case 3:
        for (i = 0; i < WORDS; i++)
            cell->opaque[i] = below(state, 8);
        break;
    default:
        changed_words(cell, state, three_lines);
    }
}

/* Refused, it has no other number; else MAI counts ones of some mask below the position. */
static void has_a_place(const char *call, const tdma_line_answer *answer)
{
    tdma_line_answer refused = {0};

    refused.refusal = answer->refusal;
    expect(call, "refused, but with other numbers",
           answer->refusal == TDMA_ACCEPTED || equal(answer, &refused, sizeof refused));
    expect(call, "a position of no mask",
           answer->mai <= answer->position && answer->position <= 63);
}

/* Line, who and page. The cell cannot be written while they are made. */
static void ask(const tdma_cell *cell, uint64_t *state)
{
    const uint8_t digits[16] = {9, 0, 1, (uint8_t)below(state, 12)};
    const size_t length = below(state, 17);
    const uint32_t frame = number(state, TDMA_HYPERFRAME - 1), direction = number(state, 1);
    const tdma_line_answer line = tdma_line(cell, number(state, 63), frame, direction);
    const tdma_who_answer who =
        tdma_who(cell, number(state, 7), number(state, 1023), frame, direction);

    has_a_place("line", &line);
    has_a_place("who", &who.answer);
    noted("line", line.refusal);
    noted("who", who.refusal);
    noted("page", tdma_page(cell, length > 0 ? digits : NULL, length, frame).refusal);
}

/* Counts a change. A refused one has left the cell as it was; `before` follows an accepted one. */
static void made(const char *call, tdma_changed answer, const tdma_cell *cell, tdma_cell *before)
{
    expect(call, "refused, but the cell is another",
           answer.refusal == TDMA_ACCEPTED || equal(cell, before, sizeof *cell));
    noted(call, answer.refusal);
    *before = *cell;
}

/* Open, close, seize and release. */
static void change(tdma_cell *cell, uint64_t *state)
{
    const uint32_t line = number(state, 63), subchannel = number(state, 7);
    const uint32_t owner = number(state, 65535), tn = number(state, 7), hsn = number(state, 63);
    const uint32_t maio = number(state, 3), combination = number(state, 7), tsc = number(state, 7);
    const uint64_t mask = any_mask(state);
    tdma_cell before = *cell;

    made("open", tdma_open(cell, line, tn, mask, hsn, maio, combination, tsc), cell, &before);
    made("seize", tdma_seize(cell, line, subchannel, owner), cell, &before);
    made("release", tdma_release(cell, line, subchannel, owner), cell, &before);
    made("close", tdma_close(cell, number(state, 63)), cell, &before);
}

/* Makes every call on the cell. At the end start makes of it what it makes of other storage. */
static void every_call(both_cells *cells, uint64_t *state, const tdma_cell *started)
{
    static const uint16_t ca[4] = {10, 20, 30, 40};
    uint32_t i;

    for (i = 0; i < ROUNDS; i++) {
        read_only(cells->memory);
        ask(cells->library, state);
        writable(cells->memory);
        change(cells->library, state);
    }
    both_start(cells, ca, 4, 10, 0, 1, 5);
    expect("start", "another cell than on other storage",
           equal(cells->library, started, sizeof *started));
}

void any_storage(void)
{
    static const uint16_t ca[4] = {10, 20, 30, 40};
    both_cells cells = both_new();
    uint64_t state = 1;
    tdma_cell started, three_lines;
    uint32_t i;

    both_start(&cells, ca, 4, 10, 0, 1, 5);
    started = *cells.library;
    both_three_lines(&cells);
    three_lines = *cells.library;
    for (i = 0; i < FILLED; i++) {
        both_place(&cells, i % 2 == 0 ? PAGE_BEFORE : PAGE_AFTER);
        fill(cells.library, &state, &three_lines, i / 2 % 5);
        every_call(&cells, &state, &started);
    }
    both_free(&cells);
    report("any storage");
}
