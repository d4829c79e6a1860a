/*
 * One cell from its start to a burst on the air and back: the calls that a base station's firmware
 * makes, each refusal looked at. docs/example.expected is what it prints.
 *
 *     bash install PREFIX
 *     export PKG_CONFIG_PATH=PREFIX/lib/pkgconfig
 *     gcc -std=c99 docs/example.c $(pkg-config --cflags --libs tdma) -o example
 *     ./example
 */
#include <tdma.h>

#include <inttypes.h>
#include <stdio.h>
#include <stdlib.h>
#include <string.h>

/* The lines, by the numbers that we give them. */
enum { COMMON, FIRST, SECOND, THIRD };

/* The base station colour code; every line here has it as its training sequence code, too. */
#define BCC 3

/* The mobile allocation of the hopping lines: entries 1, 2 and 3 of the cell allocation. */
#define HOPPING UINT64_C(14)

/* Stops with the refusal's number, unless the call was accepted. */
static void must(const char *call, uint32_t refusal)
{
    if (refusal != TDMA_ACCEPTED) {
        fprintf(stderr, "%s: refused with number %" PRIu32 "\n", call, refusal);
        exit(1);
    }
}

/* Four ARFCNs; a common line in timeslot 0, and two calls in timeslot 1 that hop over three. */
static void plan(tdma_cell *cell)
{
    static const uint16_t ca[] = {10, 20, 30, 40};

    must("start", tdma_start(cell, ca, 4, 10, BCC, 1, 5).refusal);
    must("open the common line", tdma_open(cell, COMMON, 0, 1, 0, 0, 4, BCC).refusal);
    must("open the first line", tdma_open(cell, FIRST, 1, HOPPING, 1, 0, 1, BCC).refusal);
    must("open the second line", tdma_open(cell, SECOND, 1, HOPPING, 1, 1, 1, BCC).refusal);
    must("seize the first line", tdma_seize(cell, FIRST, 0, 4711).refusal);
    must("seize the second line", tdma_seize(cell, SECOND, 0, 4712).refusal);
    printf("Timeslot 0: line 0, combination 4, on C0, which is ARFCN 10.\n"
           "Timeslot 1: lines 1 and 2, full rate, hop over ARFCNs 20, 30 and 40; HSN 1, "
           "MAIO 0 and 1.\n"
           "Transceivers 0 to 3 each stay on one ARFCN: 10, 20, 30 and 40.\n");
}

/* A line without hopping on ARFCN 30 would meet the hopping ones: it is refused, the cell stays. */
static void clash(tdma_cell *cell)
{
    tdma_changed answer = tdma_open(cell, THIRD, 1, 4, 0, 0, 1, BCC);

    if (answer.refusal == TDMA_CLASH)
        printf("Line 3 on ARFCN 30 of timeslot 1: refused with number %d, line %" PRIu32
               " stands in the way.\n",
               TDMA_CLASH, answer.line);
    else
        must("open the third line", answer.refusal);
}

/*
 * What a line sends or receives in a frame, and by which transceiver: the one that stays on the
 * answer's position of the cell allocation.
 */
static void print_line(const tdma_cell *cell, uint32_t line, uint32_t frame, uint32_t direction)
{
    static const char *const channels[] = {"idle", "TCH",  "SACCH", "SDCCH", "FCCH",
                                           "SCH",  "BCCH", "CCCH",  "RACH"};
    tdma_line_answer answer = tdma_line(cell, line, frame, direction);

    must("line", answer.refusal);
    printf("%9" PRIu32 "  %4" PRIu32 "  %5" PRIu32 "  %11" PRIu32 "  %5" PRIu32 "  %s", frame, line,
           answer.arfcn, answer.position, answer.owner, channels[answer.channel]);
    if (answer.blocks >= 1)
        printf(", place %" PRIu32 " of block %" PRIu32, answer.place, answer.block);
    if (answer.blocks == 2)
        printf(" and place %" PRIu32 " of block %" PRIu32, answer.second_place,
               answer.second_block);
    printf("\n");
}

static void timetable(const tdma_cell *cell)
{
    static const uint32_t frames[] = {4, 12, 25, 26, TDMA_HYPERFRAME - 1};
    uint32_t line;
    size_t i;

    printf("\nDownlink:\n    frame  line  ARFCN  transceiver  owner  channel\n");
    for (i = 0; i < sizeof frames / sizeof frames[0]; i++)
        for (line = COMMON; line <= SECOND; line++)
            print_line(cell, line, frames[i], TDMA_DOWNLINK);
    printf("Uplink:\n");
    for (line = COMMON; line <= SECOND; line++)
        print_line(cell, line, 26, TDMA_UPLINK);
}

static void paging(const tdma_cell *cell)
{
    static const uint8_t imsi[] = {2, 6, 2, 0, 1, 0, 0, 0, 0, 0, 0, 0, 1, 2, 3};
    tdma_page_answer page = tdma_page(cell, imsi, sizeof imsi, 27);

    must("page", page.refusal);
    printf("\nThe phone whose IMSI ends in 123, asked in frame 27: it is paged next in timeslot "
           "%" PRIu32 ",\nin CCCH block %" PRIu32 ", which begins in frame %" PRIu32 ":\n",
           page.tn, page.block, page.frame);
    print_line(cell, COMMON, page.frame, TDMA_DOWNLINK);
}

static void print_bits(const char *what, const uint8_t *burst, size_t first, size_t last)
{
    size_t i;

    printf("  bits %3u to %3u, %-18s ", (unsigned)first, (unsigned)last, what);
    for (i = first; i <= last; i++)
        printf("%d", burst[i]);
    printf("\n");
}

/* Builds a burst from its payload, and takes it apart as the receiving side does. */
static void bursts(void)
{
    uint8_t payload[TDMA_NORMAL_PAYLOAD], taken[TDMA_NORMAL_PAYLOAD], burst[TDMA_BURST];
    size_t i;

    for (i = 0; i < sizeof payload; i++)
        payload[i] = i % 3 == 0;
    must("build", tdma_build_normal(BCC, payload, sizeof payload, burst, sizeof burst).refusal);
    printf("\nA normal burst, training sequence code %d; every third payload bit is 1:\n", BCC);
    print_bits("tail:", burst, 0, 2);
    print_bits("e0 to e57:", burst, 3, 60);
    print_bits("training sequence:", burst, 61, 86);
    print_bits("e58 to e115:", burst, 87, 144);
    print_bits("tail:", burst, 145, 147);
    must("take", tdma_take_normal(BCC, burst, sizeof burst, taken, sizeof taken).refusal);
    printf("Taken apart again, its payload is %s.\n",
           memcmp(taken, payload, sizeof payload) == 0 ? "the same" : "another");
}

/* The calls end: a line is closed when nobody holds it any more. */
static void hang_up(tdma_cell *cell)
{
    must("release the first line", tdma_release(cell, FIRST, 0, 4711).refusal);
    must("release the second line", tdma_release(cell, SECOND, 0, 4712).refusal);
    must("close the first line", tdma_close(cell, FIRST).refusal);
    must("close the second line", tdma_close(cell, SECOND).refusal);
    printf("\nLines 1 and 2 are released and closed.\n");
}

int main(void)
{
    tdma_cell cell;

    plan(&cell);
    clash(&cell);
    timetable(&cell);
    paging(&cell);
    bursts();
    hang_up(&cell);
    return 0;
}
