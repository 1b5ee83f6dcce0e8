/* How much a box saves: two boards on two of its three legs want an event each, a panel on the third reports, and the meters of the legs count. Prints the
 * meters and the share of the reports that was held back; then a count that is as high as it goes, and counts that are no 40. */
#include <inttypes.h>
#include <stdio.h>

#include "hrislanoth.h"

#define HOUSE UINT64_C(0x010000000000FFFF)
#define AUTOMATIC UINT64_C(0x0100000000000001)
#define PANEL UINT64_C(0x0A0000000001)
#define BOARD_7 UINT64_C(0x0A0000000007)
#define BOARD_9 UINT64_C(0x0A0000000009)
#define POINTS UINT64_C(0x0A00000000070001)
#define SIGNAL UINT64_C(0x0A00000000090001)
#define NOBODY UINT64_C(0x0A00000000010001)
#define COUNTS 40

enum { ACCEPTED, REFUSED, REPORTS_IN, SENT, HELD_BACK };

/* The box and its meters are ours, and each message changes them where they stand. */
static hrislanoth_gateway box;
static uint32_t counts[COUNTS];
static uint8_t marked;

/* Lends the box's lists and so many of the counts for one call; the rest comes back with the answer. */
static uint8_t in_place(uint8_t port, const uint8_t *bytes, size_t length, size_t counts_length)
{
    hrislanoth_metered metered =
        hrislanoth_receive_metered(box.head, box.nodes, 256, box.starts, 256, box.ports, 256, box.sizes, 256, box.order, 256, box.sets, 9, counts,
                                   counts_length, marked, port, bytes, length);
    box.head.marks = metered.answer.marks;
    box.head.count = metered.answer.count;
    marked = metered.marked;
    return metered.answer.refusal;
}

static uint8_t with_event(uint8_t port, uint16_t mti, uint64_t source, uint64_t event)
{
    uint8_t bytes[16];
    hrislanoth_message message = {.mti = mti, .source = source, .has_event = 1, .event = event};
    hrislanoth_writing written = hrislanoth_write(message, (const uint8_t *)"", 0, bytes, sizeof bytes);
    return in_place(port, bytes, written.bytes, COUNTS);
}

static void print_meters(void)
{
    for (int p = 0; p < box.head.ports; p++) {
        const uint32_t *meter = counts + 5 * p;
        printf("port %d: %" PRIu32 " accepted, %" PRIu32 " refused, %" PRIu32 " reports in, %" PRIu32 " sent, %" PRIu32 " held back%s\n", p, meter[ACCEPTED],
               meter[REFUSED], meter[REPORTS_IN], meter[SENT], meter[HELD_BACK], marked >> p & 1 ? ", marked" : "");
    }
}

static void print_share(void)
{
    uint64_t sent = 0, held = 0;
    for (int p = 0; p < box.head.ports; p++) {
        sent += counts[5 * p + SENT];
        held += counts[5 * p + HELD_BACK];
    }
    hrislanoth_share share = hrislanoth_share_of(sent, held);
    if (share.some)
        printf("held back: %" PRIu64 " of %" PRIu64 ", %" PRIu64 ".%" PRIu64 " per cent\n", held, sent + held, share.tenths / 10, share.tenths % 10);
    else
        printf("no report was sent or held back\n");
}

int main(void)
{
    hrislanoth_answer started = hrislanoth_start(3, HOUSE);
    if (started.refusal != 0)
        return 1;
    box = started.gateway;
    print_share();
    with_event(1, 0x04C4, BOARD_7, POINTS);
    with_event(2, 0x04C4, BOARD_9, SIGNAL);
    for (int i = 0; i < 6; i++)
        with_event(0, 0x05B4, PANEL, POINTS);
    for (int i = 0; i < 2; i++)
        with_event(0, 0x05B4, PANEL, SIGNAL);
    with_event(1, 0x05B4, BOARD_7, POINTS);
    with_event(2, 0x05B4, BOARD_9, NOBODY);
    with_event(0, 0x05B4, PANEL, AUTOMATIC);
    printf("half a message: refusal %d\n", in_place(0, (const uint8_t *)"\x05", 1, COUNTS));
    printf("a port that is not there: refusal %d\n", with_event(3, 0x05B4, PANEL, POINTS));
    print_meters();
    print_share();
    counts[5 * 1 + SENT] = UINT32_MAX;
    with_event(0, 0x05B4, PANEL, POINTS);
    printf("39 counts: refusal %d\n", in_place(0, (const uint8_t *)"\x05", 1, COUNTS - 1));
    print_meters();
    return 0;
}
