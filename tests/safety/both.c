#include "both.h"

#include <string.h>

static void together(const char *call, uint32_t belongs)
{
    expect(call, "ARFCN, MAI and position don't belong together", belongs == 1);
}

/* Compares two answers of a call, and counts the refusal. */
static uint32_t compared(const char *call, uint32_t refusal, const void *answer,
                         const void *second, size_t size)
{
    expect(call, "another answer than the second implementation's",
           memcmp(answer, second, size) == 0);
    return noted(call, refusal);
}

uint32_t both_split(uint32_t frame)
{
    const tdma_split_answer answer = tdma_split(frame);
    const tdma_split_answer second = second_split(frame);

    return compared("split", answer.refusal, &answer, &second, sizeof answer);
}

uint32_t both_join(uint32_t t1, uint32_t t2, uint32_t t3)
{
    const tdma_join_answer answer = tdma_join(t1, t2, t3);
    const tdma_join_answer second = second_join(t1, t2, t3);

    return compared("join", answer.refusal, &answer, &second, sizeof answer);
}

uint32_t both_position(uint32_t length, uint64_t mask, uint32_t hsn, uint32_t maio, uint32_t frame)
{
    const tdma_position_answer answer = tdma_position(length, mask, hsn, maio, frame);
    const tdma_position_answer second = second_position(length, mask, hsn, maio, frame);

    together("position", second_position_belongs(length, mask, answer));
    return compared("position", answer.refusal, &answer, &second, sizeof answer);
}

uint32_t both_hop(const uint16_t *ca, size_t ca_length, uint64_t mask, uint32_t hsn, uint32_t maio,
                  uint32_t frame)
{
    const tdma_hop_answer answer = tdma_hop(ca, ca_length, mask, hsn, maio, frame);
    const tdma_hop_answer second = second_hop(ca, ca_length, mask, hsn, maio, frame);

    together("hop", second_hop_belongs(ca, ca_length, mask, answer));
    return compared("hop", answer.refusal, &answer, &second, sizeof answer);
}

uint32_t both_map(uint32_t combination, uint32_t tn, uint32_t frame, uint32_t direction)
{
    const tdma_map_answer answer = tdma_map(combination, tn, frame, direction);
    const tdma_map_answer second = second_map(combination, tn, frame, direction);

    return compared("map", answer.refusal, &answer, &second, sizeof answer);
}

both_cells both_new(void)
{
    both_cells cells;

    cells.second = second_new();
    cells.memory = guard(sizeof(tdma_cell));
    both_place(&cells, PAGE_AFTER);
    return cells;
}

void both_free(both_cells *cells)
{
    second_free(cells->second);
    unguard(cells->memory);
}

void both_place(both_cells *cells, enum side side)
{
    cells->library = (void *)placed(cells->memory, sizeof(tdma_cell), side);
}

uint32_t both_start(both_cells *cells, const uint16_t *ca, size_t ca_length, uint32_t c0,
                    uint32_t bcc, uint32_t ag, uint32_t p)
{
    const tdma_changed answer = tdma_start(cells->library, ca, ca_length, c0, bcc, ag, p);
    const tdma_changed second = second_start(cells->second, ca, ca_length, c0, bcc, ag, p);

    return compared("start", answer.refusal, &answer, &second, sizeof answer);
}

/* Compares the answers of a change; a refused one has left the cell as it was before. */
static uint32_t changed(const char *call, const both_cells *cells, const tdma_cell *before,
                        tdma_changed answer, tdma_changed second)
{
    expect(call, "refused, but the cell is another",
           answer.refusal == TDMA_ACCEPTED || equal(cells->library, before, sizeof *before));
    return compared(call, answer.refusal, &answer, &second, sizeof answer);
}

uint32_t both_open(both_cells *cells, uint32_t line, uint32_t tn, uint64_t mask, uint32_t hsn,
                   uint32_t maio, uint32_t combination, uint32_t tsc)
{
    const tdma_cell before = *cells->library;
    const tdma_changed answer =
        tdma_open(cells->library, line, tn, mask, hsn, maio, combination, tsc);
    const tdma_changed second =
        second_open(cells->second, line, tn, mask, hsn, maio, combination, tsc);

    return changed("open", cells, &before, answer, second);
}

uint32_t both_close(both_cells *cells, uint32_t line)
{
    const tdma_cell before = *cells->library;
    const tdma_changed answer = tdma_close(cells->library, line);
    const tdma_changed second = second_close(cells->second, line);

    return changed("close", cells, &before, answer, second);
}

uint32_t both_seize(both_cells *cells, uint32_t line, uint32_t subchannel, uint32_t owner)
{
    const tdma_cell before = *cells->library;
    const tdma_changed answer = tdma_seize(cells->library, line, subchannel, owner);
    const tdma_changed second = second_seize(cells->second, line, subchannel, owner);

    return changed("seize", cells, &before, answer, second);
}

uint32_t both_release(both_cells *cells, uint32_t line, uint32_t subchannel, uint32_t owner)
{
    const tdma_cell before = *cells->library;
    const tdma_changed answer = tdma_release(cells->library, line, subchannel, owner);
    const tdma_changed second = second_release(cells->second, line, subchannel, owner);

    return changed("release", cells, &before, answer, second);
}

static void looked_only(const char *call, const both_cells *cells, const tdma_cell *before)
{
    expect(call, "the cell is another", equal(cells->library, before, sizeof *before));
}

uint32_t both_line(const both_cells *cells, uint32_t line, uint32_t frame, uint32_t direction)
{
    const tdma_cell before = *cells->library;
    const tdma_line_answer answer = tdma_line(cells->library, line, frame, direction);
    const tdma_line_answer second = second_line(cells->second, line, frame, direction);

    looked_only("line", cells, &before);
    together("line", second_line_belongs(cells->second, line, &answer));
    return compared("line", answer.refusal, &answer, &second, sizeof answer);
}

uint32_t both_who(const both_cells *cells, uint32_t tn, uint32_t arfcn, uint32_t frame,
                  uint32_t direction)
{
    const tdma_cell before = *cells->library;
    const tdma_who_answer answer = tdma_who(cells->library, tn, arfcn, frame, direction);
    const tdma_who_answer second = second_who(cells->second, tn, arfcn, frame, direction);

    looked_only("who", cells, &before);
    together("who", second_who_belongs(cells->second, &answer));
    return compared("who", answer.refusal, &answer, &second, sizeof answer);
}

uint32_t both_page(const both_cells *cells, const uint8_t *digits, size_t digits_length,
                   uint32_t frame)
{
    const tdma_cell before = *cells->library;
    const tdma_page_answer answer = tdma_page(cells->library, digits, digits_length, frame);
    const tdma_page_answer second = second_page(cells->second, digits, digits_length, frame);

    looked_only("page", cells, &before);
    return compared("page", answer.refusal, &answer, &second, sizeof answer);
}

void both_three_lines(both_cells *cells)
{
    static const uint16_t ca[4] = {10, 20, 30, 40};
    uint32_t refused = both_start(cells, ca, 4, 10, 0, 1, 5);

    refused |= both_open(cells, 0, 2, 6, 1, 1, 1, 7);
    refused |= both_open(cells, 1, 3, 6, 1, 1, 1, 7);
    refused |= both_open(cells, 63, 0, 1, 0, 0, 4, 0);
    refused |= both_seize(cells, 1, 0, 5);
    expect("three lines", "refused", refused == TDMA_ACCEPTED);
}

size_t burst_reads(enum burst_call call)
{
    static const size_t reads[BURST_CALLS] = {
        TDMA_NORMAL_PAYLOAD, TDMA_BURST,        TDMA_SYNCHRONIZATION_PAYLOAD, TDMA_BURST,
        TDMA_ACCESS_PAYLOAD, TDMA_ACCESS_BURST, 0,                            0};

    return reads[call];
}

size_t burst_writes(enum burst_call call)
{
    static const size_t writes[BURST_CALLS] = {
        TDMA_BURST,        TDMA_NORMAL_PAYLOAD, TDMA_BURST, TDMA_SYNCHRONIZATION_PAYLOAD,
        TDMA_ACCESS_BURST, TDMA_ACCESS_PAYLOAD, TDMA_BURST, TDMA_BURST};

    return writes[call];
}

static tdma_burst_answer library_burst(enum burst_call call, uint32_t tsc, const uint8_t *read,
                                       size_t length, uint8_t *lent, size_t room)
{
    switch (call) {
    case BUILD_NORMAL:
        return tdma_build_normal(tsc, read, length, lent, room);
    case TAKE_NORMAL:
        return tdma_take_normal(tsc, read, length, lent, room);
    case BUILD_SYNCHRONIZATION:
        return tdma_build_synchronization(read, length, lent, room);
    case TAKE_SYNCHRONIZATION:
        return tdma_take_synchronization(read, length, lent, room);
    case BUILD_ACCESS:
        return tdma_build_access(read, length, lent, room);
    case TAKE_ACCESS:
        return tdma_take_access(read, length, lent, room);
    case BUILD_FREQUENCY_CORRECTION:
        return tdma_build_frequency_correction(lent, room);
    case BUILD_DUMMY:
    case BURST_CALLS:
        break;
    }
    return tdma_build_dummy(lent, room);
}

static const char *burst_name(enum burst_call call)
{
    static const char *const names[BURST_CALLS] = {
        "build normal", "take normal", "build synchronization",      "take synchronization",
        "build access", "take access", "build frequency correction", "build dummy"};

    return names[call];
}

/* What the second implementation leaves in a copy of the lent bytes is expected, refused or not. */
uint32_t both_burst(enum burst_call call, uint32_t tsc, const uint8_t *read, size_t length,
                    uint8_t *lent, size_t room)
{
    uint8_t before[LONGEST], expected[LONGEST];
    tdma_burst_answer answer, second;

    copy(before, read, length);
    copy(expected, lent, room);
    second = second_burst(call, tsc, read, length, expected, room);
    answer = library_burst(call, tsc, read, length, lent, room);
    expect(burst_name(call), "other bytes are written", equal(lent, expected, room));
    expect(burst_name(call), "what was read is another", equal(read, before, length));
    return compared(burst_name(call), answer.refusal, &answer, &second, sizeof answer);
}
