/* The proved box and boards, for C and for what links with C.
 *
 * Every function answers every input that C can write down: a refusal has a number (document 01, "Refusal numbers", and 15 to 20 and 29 of document 02), 0 is none. A refusal changes
 * no output byte; a box or a board comes back as it was, a lent box's marks and count as they were, and every other number beside it is 0. Nothing is kept
 * between calls and nothing is allocated.
 *
 * Memory is the caller's. A pointer and a length stand for that many bytes, or that many numbers or slots of a list, which the caller owns and keeps for the
 * call, and which no other thread writes meanwhile, or reads where the call writes. No pointer is kept. A pointer is never NULL, not even beside the length 0.
 * What a call writes (out, text, a box's lists, a board's slots, or its statuses and marks) overlaps nothing else that it is given: the lists neither
 * each other nor the bytes. Those three are all that a caller has to keep; nothing tests them.
 *
 * Link with crates/c_face/out/libc_face.a, which `rt lib` writes in crates/c_face, on x86-64.
 */
#ifndef HRISLANOTH_H
#define HRISLANOTH_H

#include <stddef.h>
#include <stdint.h>

#ifdef __cplusplus
extern "C" {
#endif

/* ---- ranges (001 section 4) */

/* 2^k events from start on. */
typedef struct {
    uint64_t start;
    uint8_t k;
} hrislanoth_block;

/* The range number, or refusal 14. */
typedef struct {
    uint8_t refusal;
    uint64_t number;
} hrislanoth_number;

/* The block of any number; 0 and all ones are every event. */
hrislanoth_block hrislanoth_block_of(uint64_t number);

/* The number that a block is written as; 14 where it has none, or is no block. */
hrislanoth_number hrislanoth_number_of(hrislanoth_block block);

/* How two blocks lie to each other, as a number: 1 equal, 2 the first inside the second, 3 the second inside the first, 4 apart; 14, and 0 beside it, where either is no block. */
hrislanoth_number hrislanoth_compare(hrislanoth_block first, hrislanoth_block second);

/* ---- messages (003 section 3.1) */

/* has_destination and has_event are 0 for no, any other number for yes. */
typedef struct {
    uint16_t mti;
    uint64_t source;
    uint8_t has_destination;
    uint64_t destination;
    uint8_t has_event;
    uint64_t event;
} hrislanoth_message;

/* The message; its content stands in the caller's bytes from content_at on. Or refusal 1 to 5. */
typedef struct {
    uint8_t refusal;
    hrislanoth_message message;
    size_t content_at;
} hrislanoth_reading;

/* How many bytes were written, or the refusal: 2 to 6 of a message, 2 to 7, 16 or 29 of a split. */
typedef struct {
    uint8_t refusal;
    size_t bytes;
} hrislanoth_writing;

hrislanoth_reading hrislanoth_read(const uint8_t *bytes, size_t length);

/* The rest of out stays as it was. */
hrislanoth_writing hrislanoth_write(hrislanoth_message message, const uint8_t *content, size_t content_length, uint8_t *out, size_t room);

/* ---- the CAN side (document 02, W3)
 *
 * aliases and nodes are the list of aliases: node i stands behind alias i. Over 128, lists of unequal length, an alias above FFF, a bad Node ID, an alias or a Node ID
 * twice: 7.
 */

/* A header has 29 bits; a number with any of the upper three set is none (29). Of the bytes the first length are used, and the others do not matter. */
typedef struct {
    uint32_t header;
    uint8_t length;
    uint8_t bytes[8];
} hrislanoth_frame;

/* A message's sender, event, and the first length bytes of its payload; the bytes past them are not part of it. */
typedef struct {
    uint64_t sender;
    uint64_t event;
    size_t length;
    uint8_t payload[256];
} hrislanoth_gathered;

/* What up to two senders have begun: of first and second the first count. All zero is the state in which nobody has begun anything. What stands in a place past the count,
 * or past a length, is no part of the state: no answer depends on it, and an accepted frame, or 18, may leave anything there. */
typedef struct {
    size_t count;
    hrislanoth_gathered first;
    hrislanoth_gathered second;
} hrislanoth_joining;

/* The refusal, or 0; the event report that is handed out, with MTI 05B4 or 0F14, and MTI 0 where there is none; and the next joining state. Where there is no payload all 256
 * bytes of it are 0, and where nothing is handed out sender and event are too. */
typedef struct {
    uint8_t refusal;
    uint16_t mti;
    hrislanoth_gathered message;
    hrislanoth_joining state;
} hrislanoth_joined;

/* Joins a frame: 7 (also a count over 2, a sender twice or a length over 256), 29, 16, 19, 17, 20, 18. Only 18 changes the joining state: it drops what that sender had begun. */
hrislanoth_joined hrislanoth_join(const uint64_t *aliases, size_t alias_count, const uint64_t *nodes, size_t node_count, hrislanoth_joining state, hrislanoth_frame frame);

/* Writes an event report's frames to the start of out, each as header 4, length 1 and data 8 bytes, and answers how many bytes that took: 7, 2 to 5, 29, 16, 6. The rest of out stays as it was. */
hrislanoth_writing hrislanoth_split(const uint64_t *aliases, size_t alias_count, const uint64_t *nodes, size_t node_count, hrislanoth_message message, const uint8_t *content, size_t content_length, uint8_t *out, size_t room);

/* ---- the box */

/* A box but for its lines. Bit p of marks is the open mark of port p; count is the number of lines. */
typedef struct {
    uint8_t ports;
    uint8_t marks;
    hrislanoth_block automatic;
    size_t count;
} hrislanoth_head;

/* Line i is of node nodes[i] at port ports[i], for 2^sizes[i] events from starts[i] on. order and sets are the index of these lines by block size (document 02, W6):
 * order has the places of all lines, sorted by port, then size, then start, then place; bit k of sets[p] is set where port p has a line of size k, k from 0 to 63, and
 * bit p of sets[8] where it has one of size 64, every event. An index that is not that of its lines is out of bounds (7), as a bad line is. Places of these lists past the count
 * are no part of the state; of sets all nine are, always. */
typedef struct {
    hrislanoth_head head;
    uint64_t nodes[256];
    uint64_t starts[256];
    uint8_t ports[256];
    uint8_t sizes[256];
    uint8_t order[256];
    uint64_t sets[9];
} hrislanoth_gateway;

/* The refusal or 0, the ports that it is sent to, bit p for port p, and the box afterwards. */
typedef struct {
    uint8_t refusal;
    uint8_t sent;
    hrislanoth_gateway gateway;
} hrislanoth_answer;

/* The same where a box's lists are lent: its lines and their index afterwards stand in those. Of its head, only the open marks and the line count can change. */
typedef struct {
    uint8_t refusal;
    uint8_t sent;
    uint8_t marks;
    size_t count;
} hrislanoth_lent_answer;

/* A box with no lines, no open marks and the index of no lines. 8 where ports is not 2 to 8: the box then has 0 ports, and every call refuses it with 7. */
hrislanoth_answer hrislanoth_start(uint8_t ports, uint64_t automatic);

/* A message at a port. 7 where the box is out of bounds or its index is another than that of its lines, 8 where it has no such port, 1 to 5 where the message cannot be read. An Initialization Complete
 * takes the lines of its node at every port, and no other node's (document 02, W2); open marks stay. After an accepted message the index is that of the lines then. */
hrislanoth_answer hrislanoth_receive(hrislanoth_gateway gateway, uint8_t port, const uint8_t *bytes, size_t length);

/* The same in place, on the lists of a box: 7 before all else where sets is not exactly 9 long or another list not exactly 256, otherwise what hrislanoth_receive answers.
 * The lines and the index change in the caller's lists; the head's marks and count afterwards are the answer's. A refusal changes nothing in any list, past the count
 * neither, and its marks and count are the head's. */
hrislanoth_lent_answer hrislanoth_receive_lent(hrislanoth_head head, uint64_t *nodes, size_t nodes_length, uint64_t *starts, size_t starts_length,
                                               uint8_t *ports, size_t ports_length, uint8_t *sizes, size_t sizes_length,
                                               uint8_t *order, size_t order_length, uint64_t *sets, size_t sets_length, uint8_t port,
                                               const uint8_t *bytes, size_t length);

/* Why a report is sent to a port or held back from it (document 02, W1). reason is the first that applies: 1 the port is the arrival port, 2 the event is
 * automatic, 3 the port is open, 4 a line for the port holds the event, 5 nothing holds it. The report is sent exactly where it is 2, 3 or 4. Of 4, place is the
 * place of that line, the first in table order, counted from 0, node the board that announced it and block what it announced; else these are 0, as is reason
 * beside a refusal. */
typedef struct {
    uint8_t refusal;
    uint8_t reason;
    size_t place;
    uint64_t node;
    hrislanoth_block block;
} hrislanoth_reason;

/* Why the report that arrives at a port goes to the asked port or does not. Nothing changes. 7 where sets is not exactly 9 long, another list not exactly 256, or the box is
 * out of bounds or its index another than that of its lines, 8 where it has no such arrival port or no such asked port, 1 to 5 where the message cannot be read, 15 where it is no event report. */
hrislanoth_reason hrislanoth_why(hrislanoth_head head, const uint64_t *nodes, size_t nodes_length, const uint64_t *starts, size_t starts_length,
                                 const uint8_t *ports, size_t ports_length, const uint8_t *sizes, size_t sizes_length,
                                 const uint8_t *order, size_t order_length, const uint64_t *sets, size_t sets_length, uint8_t port, uint8_t asked,
                                 const uint8_t *bytes, size_t length);

/* ---- the board (document 01, "Node") */

/* state is 0 for not Initialized, 1 for Initialized; automatic is the block of automatically routed events. */
typedef struct {
    uint64_t id;
    uint8_t state;
    hrislanoth_block automatic;
} hrislanoth_node;

/* role is 0 for a producer, 1 for a consumer; status 0 valid, 1 invalid, 2 unknown; mark 0 Unadvertised, 1 Advertised. */
typedef struct {
    uint8_t role;
    uint64_t event;
    uint8_t status;
    uint8_t mark;
} hrislanoth_slot;

/* The refusal or 0, the messages written and their bytes, the slots that a report matches, bit i for slot i, and the record afterwards. */
typedef struct {
    uint8_t refusal;
    size_t messages;
    size_t bytes;
    uint64_t matches;
    hrislanoth_node node;
} hrislanoth_node_answer;

/* A new board is one that the caller lays out: state 0, every mark 0. Each call changes the slots where they stand; the record afterwards is the answer's.
 * What is written stands in out from its first byte on, and the rest of out stays as it was.
 * The refusals: 7 out of bounds, or more than 64 slots; 3 its own Node ID is none; 9 not Initialized; 10 no such slot, or no such status; 11 the slot is no
 * producer; 12 the slot is not Advertised; 6 out is too short. 13, more than 1,024 bytes of replies, cannot arise: those are enough for 64 slots. */

/* Refusals 7, 3, 6. Initialization Complete; slots in the automatic block become Advertised, all others Unadvertised, and the node is Initialized. */
hrislanoth_node_answer hrislanoth_initialise(hrislanoth_node node, hrislanoth_slot *slots, size_t count, uint8_t *out, size_t room);

/* Refusals 7, 3, 9, 10, 6. The slot's Identified message; every slot of its role and event becomes Advertised. */
hrislanoth_node_answer hrislanoth_announce(hrislanoth_node node, size_t slot, hrislanoth_slot *slots, size_t count, uint8_t *out, size_t room);

/* Refusals 7, 3, 9, 10, 11, 12, 6. An event report; no slot changes. */
hrislanoth_node_answer hrislanoth_produce(hrislanoth_node node, size_t slot, hrislanoth_slot *slots, size_t count, uint8_t *out, size_t room);

/* Refusals 7, 3, 10. Sets the slot's status, also where the node is not Initialized; nothing is written. */
hrislanoth_node_answer hrislanoth_set_status(hrislanoth_node node, size_t slot, uint8_t status, hrislanoth_slot *slots, size_t count);

/* Refusals 7, 3, then 1 to 5 where the message cannot be read, 6. The replies to an inquiry, each of which advertises as hrislanoth_announce does, or the
 * matches of a report. A node that is not Initialized takes every message and does nothing. */
hrislanoth_node_answer hrislanoth_hear(hrislanoth_node node, const uint8_t *bytes, size_t length,
                                       hrislanoth_slot *slots, size_t count, uint8_t *out, size_t room);

/* The same on four lists of numbers, one entry of each for a slot; 7 also where they are of unequal length. Only statuses and marks change. */
hrislanoth_node_answer hrislanoth_initialise_lists(hrislanoth_node node,
                                                   const uint8_t *roles, size_t roles_length, const uint64_t *events, size_t events_length,
                                                   uint8_t *statuses, size_t statuses_length, uint8_t *marks, size_t marks_length, uint8_t *out, size_t room);
hrislanoth_node_answer hrislanoth_announce_lists(hrislanoth_node node, size_t slot,
                                                 const uint8_t *roles, size_t roles_length, const uint64_t *events, size_t events_length,
                                                 uint8_t *statuses, size_t statuses_length, uint8_t *marks, size_t marks_length, uint8_t *out, size_t room);
hrislanoth_node_answer hrislanoth_produce_lists(hrislanoth_node node, size_t slot,
                                                const uint8_t *roles, size_t roles_length, const uint64_t *events, size_t events_length,
                                                uint8_t *statuses, size_t statuses_length, uint8_t *marks, size_t marks_length, uint8_t *out, size_t room);
hrislanoth_node_answer hrislanoth_set_status_lists(hrislanoth_node node, size_t slot, uint8_t status,
                                                   const uint8_t *roles, size_t roles_length, const uint64_t *events, size_t events_length,
                                                   uint8_t *statuses, size_t statuses_length, uint8_t *marks, size_t marks_length);
hrislanoth_node_answer hrislanoth_hear_lists(hrislanoth_node node, const uint8_t *bytes, size_t length,
                                             const uint8_t *roles, size_t roles_length, const uint64_t *events, size_t events_length,
                                             uint8_t *statuses, size_t statuses_length, uint8_t *marks, size_t marks_length, uint8_t *out, size_t room);

/* ---- files */

/* The text of a trial file, as much as fits into text; answers how many bytes that took. No file's text is longer than 18,000 bytes, which is proved. */
size_t hrislanoth_trial_text(const uint8_t *file, size_t length, uint8_t *text, size_t room);

/* The text of a board file from byte skip on, as much as fits into text; answers how many bytes that took. No file's text is longer than 2,139,000 bytes,
 * which is proved: where fewer bytes than room are answered, the text is at its end. */
size_t hrislanoth_board_text(const uint8_t *file, size_t length, size_t skip, uint8_t *text, size_t room);

/* The text of a frame file from byte skip on (docs/FRAME-FILES.md), as much as fits into text; answers how many bytes that took. No file's text is longer than 867,000 bytes,
 * which is proved: where fewer bytes than room are answered, the text is at its end. */
size_t hrislanoth_frame_text(const uint8_t *file, size_t length, size_t skip, uint8_t *text, size_t room);

#ifdef __cplusplus
}
#endif

#endif
