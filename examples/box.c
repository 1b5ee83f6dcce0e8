/* Two boards on one leg of a box: board 9 restarts, and what board 7 wants still comes to it. Then board 7 is carried to another leg, and announces a
 * range with its event, which takes the event's place in the table. Prints a line a message, and why the panel's report goes to a leg or does not. */
#include <inttypes.h>
#include <stdio.h>

#include "hrislanoth.h"

#define HOUSE UINT64_C(0x010000000000FFFF)
#define BOARD_7 UINT64_C(0x0A0000000007)
#define BOARD_9 UINT64_C(0x0A0000000009)
#define PANEL UINT64_C(0x0A0000000001)
#define POINTS UINT64_C(0x0A00000000070001)
#define RANGE UINT64_C(0x0A000000000700FF)

/* The box keeps nothing by itself: its state is ours, and each message changes it where it stands. */
static hrislanoth_gateway box;

/* Lends the box's lists for one call; the rest of the box comes back with the answer. */
static hrislanoth_lent_answer in_place(uint8_t port, const uint8_t *bytes, size_t length)
{
    hrislanoth_lent_answer answer =
        hrislanoth_receive_lent(box.head, box.nodes, 256, box.starts, 256, box.ports, 256, box.sizes, 256, box.order, 256, box.sets, 9, port, bytes, length);
    box.head.marks = answer.marks;
    box.head.count = answer.count;
    return answer;
}

static void at_port(const char *what, uint8_t port, hrislanoth_message message, const uint8_t *content, size_t length)
{
    uint8_t bytes[256];
    hrislanoth_writing written = hrislanoth_write(message, content, length, bytes, sizeof bytes);
    if (written.refusal != 0) {
        printf("%s: not written, refusal %d\n", what, written.refusal);
        return;
    }
    hrislanoth_lent_answer answer = in_place(port, bytes, written.bytes);
    printf("%s: refusal %d, sent to", what, answer.refusal);
    for (int p = 0; p < box.head.ports; p++)
        if (answer.sent >> p & 1)
            printf(" %d", p);
    printf("; %zu lines\n", box.head.count);
}

static void with_event(const char *what, uint8_t port, uint16_t mti, uint64_t source, uint64_t event)
{
    hrislanoth_message message = {.mti = mti, .source = source, .has_event = 1, .event = event};
    at_port(what, port, message, (const uint8_t *)"", 0);
}

static void restart(const char *what, uint8_t port, uint64_t source)
{
    uint8_t content[6];
    for (int i = 0; i < 6; i++)
        content[i] = (uint8_t)(source >> (40 - 8 * i));
    hrislanoth_message message = {.mti = 0x0100, .source = source};
    at_port(what, port, message, content, sizeof content);
}

/* Why the panel's report of the points, which comes in at port 0, goes to the asked port or does not; the box stays as it is. */
static void ask_why(uint8_t asked)
{
    uint8_t bytes[16];
    hrislanoth_message report = {.mti = 0x05B4, .source = PANEL, .has_event = 1, .event = POINTS};
    hrislanoth_writing written = hrislanoth_write(report, (const uint8_t *)"", 0, bytes, sizeof bytes);
    hrislanoth_reason why = hrislanoth_why(box.head, box.nodes, 256, box.starts, 256, box.ports, 256, box.sizes, 256, box.order, 256, box.sets, 9, 0, asked,
                                           bytes, written.bytes);
    printf("why at port %d: refusal %d, reason %d", asked, why.refusal, why.reason);
    if (why.reason == 4)
        printf(", line %zu of board %012" PRIX64, why.place, why.node);
    printf("\n");
}

/* How the range and the event in it lie to each other. */
static void compare(void)
{
    hrislanoth_block points = {.start = POINTS, .k = 0};
    hrislanoth_number answer = hrislanoth_compare(hrislanoth_block_of(RANGE), points);
    printf("the range beside the event: refusal %d, %" PRIu64 "\n", answer.refusal, answer.number);
}

int main(void)
{
    hrislanoth_answer started = hrislanoth_start(4, HOUSE);
    if (started.refusal != 0)
        return 1;
    box = started.gateway;
    with_event("board 7 announces", 2, 0x04C4, BOARD_7, POINTS);
    with_event("the panel reports", 0, 0x05B4, PANEL, POINTS);
    restart("board 9 restarts", 2, BOARD_9);
    with_event("the panel reports", 0, 0x05B4, PANEL, POINTS);
    ask_why(2);
    restart("board 7 restarts", 2, BOARD_7);
    with_event("the panel reports", 0, 0x05B4, PANEL, POINTS);
    ask_why(2);
    with_event("board 7 announces", 2, 0x04C4, BOARD_7, POINTS);
    restart("board 7 comes up at port 3", 3, BOARD_7);
    with_event("board 7 announces there", 3, 0x04C4, BOARD_7, POINTS);
    with_event("the panel reports", 0, 0x05B4, PANEL, POINTS);
    ask_why(2);
    ask_why(3);
    ask_why(4);
    compare();
    with_event("board 7 announces the range", 3, 0x04A4, BOARD_7, RANGE);
    with_event("board 7 announces again", 3, 0x04C4, BOARD_7, POINTS);
    with_event("the panel reports", 0, 0x05B4, PANEL, POINTS);
    ask_why(3);
    with_event("a node of zero", 0, 0x05B4, 0, POINTS);
    return 0;
}
