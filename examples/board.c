/* A board of two producers and a consumer: it comes up, announces its button, reports it, is asked what it has, and is restarted. Prints a line a call. */
#include <stdio.h>

#include "hrislanoth.h"

#define HOUSE UINT64_C(0x010000000000FFFF)
#define BOARD UINT64_C(0x0A0000000007)
#define PANEL UINT64_C(0x0A0000000001)
#define PRESSED UINT64_C(0x0A00000000070001)
#define LAMP_ON UINT64_C(0x0A00000000070002)
#define EMERGENCY_OFF UINT64_C(0x010000000000FFFF)

enum { PRODUCER, CONSUMER };
enum { VALID, INVALID, UNKNOWN };
enum { BUTTON, LAMP, STOP, SLOTS };

/* The board keeps nothing by itself: its record and its slots are ours, and the button's event is the only one that is announced by hand. */
static hrislanoth_node board = {.id = BOARD};
static hrislanoth_slot slots[SLOTS] = {
    [BUTTON] = {.role = PRODUCER, .event = PRESSED, .status = UNKNOWN},
    [LAMP] = {.role = CONSUMER, .event = LAMP_ON, .status = INVALID},
    [STOP] = {.role = PRODUCER, .event = EMERGENCY_OFF, .status = INVALID},
};
static uint8_t out[1024];

/* The messages of an answer are all of one length here, and each is printed in hexadecimal digits. */
static void told(const char *what, hrislanoth_node_answer answer)
{
    board = answer.node;
    if (answer.refusal != 0) {
        printf("%s: refusal %d\n", what, answer.refusal);
        return;
    }
    printf("%s:", what);
    for (size_t i = 0; i < answer.bytes; i++)
        printf("%s%02X", i % (answer.bytes / answer.messages) == 0 ? " " : "", out[i]);
    for (int i = 0; i < SLOTS; i++)
        if (answer.matches >> i & 1)
            printf(" slot %d", i);
    printf("; marks %d%d%d\n", slots[BUTTON].mark, slots[LAMP].mark, slots[STOP].mark);
}

static void heard(const char *what, hrislanoth_message message)
{
    uint8_t bytes[16];
    hrislanoth_writing written = hrislanoth_write(message, (const uint8_t *)"", 0, bytes, sizeof bytes);
    told(what, hrislanoth_hear(board, bytes, written.bytes, slots, SLOTS, out, sizeof out));
}

int main(void)
{
    board.automatic = hrislanoth_block_of(HOUSE);
    told("pressed too early", hrislanoth_produce(board, BUTTON, slots, SLOTS, out, sizeof out));
    told("comes up", hrislanoth_initialise(board, slots, SLOTS, out, sizeof out));
    told("pressed, not announced", hrislanoth_produce(board, BUTTON, slots, SLOTS, out, sizeof out));
    told("announced", hrislanoth_announce(board, BUTTON, slots, SLOTS, out, sizeof out));
    told("pressed", hrislanoth_produce(board, BUTTON, slots, SLOTS, out, sizeof out));
    told("is down now", hrislanoth_set_status(board, BUTTON, VALID, slots, SLOTS));
    told("emergency off", hrislanoth_produce(board, STOP, slots, SLOTS, out, sizeof out));
    told("a lamp for a button", hrislanoth_produce(board, LAMP, slots, SLOTS, out, sizeof out));
    heard("asked for its events", (hrislanoth_message){.mti = 0x0970, .source = PANEL});
    heard("lamp on", (hrislanoth_message){.mti = 0x05B4, .source = PANEL, .has_event = 1, .event = LAMP_ON});
    told("restarted", hrislanoth_initialise(board, slots, SLOTS, out, sizeof out));
    told("pressed, not announced again", hrislanoth_produce(board, BUTTON, slots, SLOTS, out, sizeof out));
    return 0;
}
