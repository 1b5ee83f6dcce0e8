/* A CAN leg: a signal's report with 20 bytes of payload is split into frames, which come in again with another board's frames in between and are joined. Prints a line a frame. */
#include <inttypes.h>
#include <stdio.h>

#include "hrislanoth.h"

#define SIGNAL UINT64_C(0x0A0000000007)
#define PANEL UINT64_C(0x0A0000000001)
#define STRANGER UINT64_C(0x0A0000000009)
#define ASPECT UINT64_C(0x0A00000000070001)
#define PRESSED UINT64_C(0x0A00000000010001)
#define FRAME 13

/* The list of aliases is ours, and so is what the senders have begun: the leg keeps nothing by itself. */
enum { PAIRS = 2 };
static const uint64_t aliases[PAIRS] = {0x7AB, 0x002};
static const uint64_t nodes[PAIRS] = {PANEL, SIGNAL};
static hrislanoth_joining joining;

static void printed(const uint8_t *bytes, size_t length)
{
    for (size_t i = 0; i < length; i++)
        printf("%02X", bytes[i]);
}

/* Splits a report, prints its frames and answers how many there are. */
static size_t split(const char *what, uint64_t source, uint64_t event, const uint8_t *payload, size_t length, uint8_t *out, size_t room)
{
    hrislanoth_message report = {.mti = length == 0 ? 0x05B4 : 0x0F14, .source = source, .has_event = 1, .event = event};
    hrislanoth_writing written = hrislanoth_split(aliases, PAIRS, nodes, PAIRS, report, payload, length, out, room);
    printf("%s: refusal %d, %zu bytes", what, written.refusal, written.bytes);
    for (size_t at = 0; at < written.bytes; at += FRAME) {
        printf(at == 0 ? ": " : " ");
        printed(out + at, FRAME);
    }
    printf("\n");
    return written.bytes / FRAME;
}

/* The frame comes in, its bytes as they were written out: header, length, data. */
static void comes_in(const char *what, const uint8_t *bytes)
{
    hrislanoth_frame frame = {.length = bytes[4]};
    for (int i = 0; i < 4; i++)
        frame.header = frame.header << 8 | bytes[i];
    for (int i = 0; i < 8; i++)
        frame.bytes[i] = bytes[5 + i];
    hrislanoth_joined joined = hrislanoth_join(aliases, PAIRS, nodes, PAIRS, joining, frame);
    joining = joined.state;
    printf("%s: refusal %d", what, joined.refusal);
    if (joined.mti != 0) {
        printf(", %04X of %012" PRIX64 " with event %016" PRIX64 " and %zu bytes", joined.mti, joined.message.sender, joined.message.event, joined.message.length);
        printf(joined.message.length == 0 ? "" : ": ");
        printed(joined.message.payload, joined.message.length);
    }
    printf("; %zu unfinished\n", joining.count);
}

int main(void)
{
    uint8_t payload[20], ours[5 * FRAME], theirs[5 * FRAME];
    for (int i = 0; i < 20; i++)
        payload[i] = (uint8_t)(0x10 + i);
    split("the signal's aspect, into too little", SIGNAL, ASPECT, payload, 20, ours, 4 * FRAME - 1);
    size_t count = split("the signal's aspect", SIGNAL, ASPECT, payload, 20, ours, sizeof ours);
    split("the panel's button", PANEL, PRESSED, payload, 3, theirs, sizeof theirs);
    for (size_t i = 0; i < count; i++) {
        if (i == 1)
            comes_in("the panel's first", theirs);
        if (i == 2)
            comes_in("the panel's last", theirs + FRAME);
        comes_in("the signal's next", ours + i * FRAME);
    }
    comes_in("the signal's last once more", ours + 3 * FRAME);
    split("the panel's plain report", PANEL, PRESSED, payload, 0, theirs, sizeof theirs);
    comes_in("the panel's only", theirs);
    split("a stranger's report", STRANGER, PRESSED, payload, 0, theirs, sizeof theirs);
    return 0;
}
