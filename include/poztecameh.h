/* Poztecameh: what C and Rust call. The library is for x86-64 alone; tools/build makes
 * libpoztecameh.a and libpoztecameh.so, and examples/ has a program for each part of this header.
 * poztecameh_names.h has a name for each refusal and for each place in an image.
 *
 * Every call returns 0 or a refusal number; pz_first and pz_next return a route's length, 0 to 15,
 * instead of 0. A refusal changes no byte of a lent image or buffer. The numbers that come back
 * beside it through a pointer are set by every call, and are 0 beside a refusal, but for the place
 * of a refused chart's field.
 *
 * A lent image that is too short to be used is refused; one that is longer is used at its start.
 * Numbers of more than one byte in an image have the high byte first.
 *
 * Pointers. None is null, also where its length is 0, and no two of the areas handed to one call
 * overlap. The library sees each as a reference of its language, which is never null and shares no
 * byte with another that is written through; its compiled code may build on both, and no call can
 * test them. For no bytes hand over the address of any byte, with the length 0.
 *
 * Threads. The library keeps nothing between calls: it has no variable of its own, no heap and no
 * file. Any call may be made on any thread at any time, as long as nobody else writes what it
 * reads, or touches what it writes.
 *
 * Stack. Measured, not proved: pz_sheet needs 23,440 bytes, the calls on a ledger up to 11,688,
 * pz_next up to 7,296, pz_chart_renew and pz_chart_restore 6,568, pz_routes 6,448, pz_first 6,272,
 * pz_pass 5,284, all others less than 4,700.
 * tests/stack.c makes each call on a painted stack, over the largest inputs and the deepest
 * searches, and fails where one needs 24,000. Give a thread 65,536 (PZ_STACK_SIZE): twice that,
 * with room for the caller's own.
 *
 * Refusals of an envelope, the lowest that applies:
 *    1  the frame ends before its fixed fields, or before the size that its own two counts ask for
 *    2  bytes stand after that size
 *    3  the check character is wrong
 *    4  the destination count is 0 or above 63
 *    5  the contents are longer than 1,023 bytes
 *    6  a value is out of its range
 *    7  the priority is 0 or above 9
 *    8  two destinations are equal
 *    9  the version is not the one of the message type
 *   10  the lent image or buffer is too short
 *
 * Refusals of a chart, by its first bad field, and in it the lowest that applies:
 *   21  the field is cut short
 *   22  the tag is not 1, 2, 3 or 4
 *   23  the tag does not allow the length
 *   24  a value is out of its range; a direction beside a link of tag 2 is
 *   25  a node stands after a link, a link of tag 2 beside one of tag 4, or anything after the question
 *   26  a 17th node or a 49th link
 *   27  the node is written twice
 *   28  an end or the question names a node that is not written
 *   29  the link joins a node to itself
 *   30  an earlier link uses one of the ends
 *   31  the chart ends without a question
 *   32  (to the plain form) a link does not go both ways; after all numbers of the chart
 *   33  (to be mended) the input has more than 65,535 bytes; before anything else
 *
 * Refusals of a route, after those of the chart, in this order:
 *   42  there is no room: a route needs 15 bytes, a slot 16
 *   41  what was given is no route
 *   43  there is no route, or none later
 *
 * Refusal of a table that is written from a chart, and of a message that is passed from node to
 * node, after those of the chart:
 *   44  the chart has no such node
 *
 * Refusals of a table and of a ledger, in the order of each call:
 *   50  a table's count, node or port, or its own address, is out of range, or its image can't be read
 *   51  a destination or an arrival port is out of range
 *   52  no entry of the table qualifies
 *   60  the ledger breaks its rules, or its image can't be read
 *   61  the ticks are 0
 *   62  an open leg has the same source and sequence number
 *   63  there are fewer free places than destinations
 *   64  there is no such open leg
 *   65  there is no settled leg at that place
 *
 * Refusal of a message that is passed from node to node, after 50 and 44 and before 51:
 *   95  a table's own address is not that of the node at its place
 */
#ifndef POZTECAMEH_H
#define POZTECAMEH_H

#include <stddef.h>
#include <stdint.h>

#ifdef __cplusplus
extern "C" {
#endif

/* The image of an envelope: source 4 (brigade 1, node 2, port 1), count 1, length 2, priority 1, version 1, ack 1,
 * seq 2, type 1, offset of the contents in the frame 2, then 63 destinations of 4, the unused ones zero. */
#define PZ_ENVELOPE_SIZE 267

/* The largest frame: 63 destinations and 1,023 bytes of contents. */
#define PZ_FRAME_SIZE 1222

/* Reads a frame of n bytes and writes its image: 1 to 9 of the frame, then 10 if the image has fewer than 267 bytes.
 * The contents are the frame's own bytes, `length` of them from `offset` on. *place is where a refused frame is at
 * fault, the offset of the first byte of the first field: of 1 the frame's length, of 2 the first byte too many, of 3
 * the check character, of 4 the byte of the destination count, of 7 and 9 that of priority and version, of 8 the first
 * destination that equals an earlier one; else 0. */
uint8_t pz_read(const uint8_t *frame, size_t n, uint8_t *image, size_t m, uint16_t *place);

/* Writes the frame of an image and k bytes of contents into n bytes at frame; *written is its size. The image's
 * length, offset and places past the count are not looked at. 10 if the image has fewer than 267 bytes, then 4 to 9
 * (an ack byte above 1 is 6), then 10 if the frame does not fit. */
uint8_t pz_write(const uint8_t *image, size_t m, const uint8_t *contents, size_t k, uint8_t *frame, size_t n,
                 uint16_t *written);

/* The image of a routing table: brigade 1, node 2, count 1, then 32 entries of 6: kind 1 (0 one node, 1 a brigade,
 * 2 everything), brigade 1, node 2, port 1, on 1. In an entry that counts a kind above 2 or an on above 1 is 50. */
#define PZ_TABLE_SIZE 196

/* Where a message for a destination goes that came in by the arrival port (0: it began here): *local 1, for this node
 * at port *out, or *local 0, out by port *out; or 50, 51, 52. */
uint8_t pz_choose(const uint8_t *table, size_t m, uint8_t brigade, uint16_t node, uint8_t port, uint8_t arrival,
                  uint8_t *local, uint8_t *out);

/* The image of a ledger: count 1, then 128 legs of 15, oldest first: source 4, destination 4, seq 2, ticks 2, standing 1
 * (0 open, 1 acknowledged, 2 refused, 3 undeliverable, 4 timed out, 5 waiting, which is open too), reason set 1, code 1.
 * In a leg that counts a standing above 5, or a set or code other than 0 beside a standing other than 2, is 60. Bytes of
 * places past the count are neither looked at nor changed, but for those that a call names. */
#define PZ_LEDGER_SIZE 1921

/* Takes a frame that came in by the arrival port: legs for its destinations, open for so many ticks, are added at the
 * end, all or none, if it asks for an acknowledgement; *added is how many. 1 to 9, 50, 51, 60, 61, 62, 63. *place is
 * pz_read's for 1 to 9, else 0. */
uint8_t pz_accept(uint8_t *ledger, size_t m, const uint8_t *frame, size_t n, uint8_t arrival, const uint8_t *table,
                  size_t t, uint16_t ticks, uint8_t *added, uint16_t *place);

/* Settles the open leg that an answer names: who answers, to whom, and the sequence number. nak 0 is an ACK, any other
 * number a NAK with its reason set and code. A NAK of set 2, "alerter", with code 13, "wait_ack", says that the call is
 * being made: it marks the leg as waiting and leaves its ticks; a second one changes nothing. 60, 64. */
uint8_t pz_answer(uint8_t *ledger, size_t m, uint8_t by_brigade, uint16_t by_node, uint8_t by_port, uint8_t to_brigade,
                  uint16_t to_node, uint8_t to_port, uint16_t seq, uint8_t nak, uint8_t set, uint8_t code);

/* Takes one from the ticks of each open leg; *ended is how many timed out in this tick. 60. */
uint8_t pz_tick(uint8_t *ledger, size_t m, uint8_t *ended);

/* Removes the settled leg at a place; those after it move down one, and the place that is freed is zeroed. 60, 65. */
uint8_t pz_clear(uint8_t *ledger, size_t m, size_t place);

/* The longest chart: 16 nodes with labels of 24, 48 links of tag 4 and the question. */
#define PZ_CHART_SIZE 1113

/* The image of a chart: node count 1, link count 1, form 1, from 3 (brigade 1, node 2), to 3, then 16 nodes of 28
 * (brigade 1, node 2, label length 1, label 24) and 48 links of 10 (two ends of 4: brigade 1, node 2, port 1; then on 1,
 * direction 1: 0 both ways, 1 first end to second, 2 second to first), the unused ones zero, as are the bytes past a
 * label. The form is the tag of the links: 2 plain, each both ways, or 4 directed; 2 after reading a chart without links,
 * and then not looked at when written. */
#define PZ_CHART_IMAGE_SIZE 937

/* Reads a chart of n bytes and writes its image: 21 to 31 of the chart, *place being where the refused field begins (31:
 * the chart's size), then 10 if the image has fewer than 937 bytes. */
uint8_t pz_chart_read(const uint8_t *chart, size_t n, uint8_t *image, size_t m, uint16_t *place);

/* Writes the chart of an image into n bytes at chart; *written is its size. Places past the counts and bytes past a
 * label's length are not looked at. 10 if the image has fewer than 937 bytes, then 26 for a count above 16 or 48, then
 * the number that reading would give (a label length above 24 is 23; an on above 1, a direction above 2 or not 0 in the
 * plain form, and a form other than 2 or 4 with the first link are 24), then 10 if the chart does not fit. */
uint8_t pz_chart_write(const uint8_t *image, size_t m, uint8_t *chart, size_t n, uint16_t *written);

/* Writes the routing table of one of the chart's nodes into m bytes at table, as the chart's links lead: an entry for
 * each other node that a route reaches, in order of node places, on, out by the port at which the first link of a route
 * with the fewest links leaves (of those the first in route order). The places after them, up to 32, are everything,
 * port 0, off. What the chart's question asks makes no difference. 21 to 31 of the chart, *place being where the refused
 * field begins (31: the chart's size), then 44 if the chart has no such node, then 10 if the image has fewer than 196
 * bytes; *place is 0 beside any other number. */
uint8_t pz_table(const uint8_t *chart, size_t n, uint8_t brigade, uint16_t node, uint8_t *table, size_t m,
                 uint16_t *place);

/* The tables of a class: 16 images of a table, one for each node place of a chart. Those past the chart's nodes are not
 * looked at. */
#define PZ_TABLES_SIZE 3136

/* The most node places on the way of a message: 16, and one that it has met before. */
#define PZ_WAY_SIZE 17

/* Passes a message from node to node until it ends. It begins at a node of the chart, with arrival port 0. Each node
 * chooses by its own table, as pz_choose does; a message that leaves by a port goes over the link that has its end
 * there, if it is on and goes that way, and comes in by the port of the far end. The places of the nodes that it comes
 * to, the first one included, are written into w bytes at way; *places is how many. *ending is 1 delivered, 2 without a
 * route, 3 at a port that no usable link leaves, 4 at a node that it has met before, which then is the last of the way.
 * Bytes past the way stay. It ends within as many steps as the chart has nodes. 21 to 31 of the chart, *place being
 * where the refused field begins (31: the chart's size); then 50 if a table that counts is out of range, or the tables
 * have fewer than 3,136 bytes; 44 if the chart has no such node to begin at; 95 if a table's own address is not that of
 * the node at its place; 51 if the destination is out of range; 10 if the way has fewer than 17 bytes. *place is 0
 * beside any other number. */
uint8_t pz_pass(const uint8_t *chart, size_t n, const uint8_t *tables, size_t t, uint8_t brigade, uint16_t node,
                uint8_t to_brigade, uint16_t to_node, uint8_t to_port, uint8_t *way, size_t w, uint8_t *places,
                uint8_t *ending, uint16_t *place);

/* The image of a message: node place 1, arrival port 1, nodes met 2 (the node at place p is the digit worth 2 to the
 * p), ending 1: 0 under way, else as pz_pass gives it. */
#define PZ_MESSAGE_SIZE 5

/* Writes the image of a message that begins at a node: it came in by port 0, has met that node alone and is under way.
 * The numbers of pz_pass; 10 if the image has fewer than 5 bytes. */
uint8_t pz_begin(const uint8_t *chart, size_t n, const uint8_t *tables, size_t t, uint8_t brigade, uint16_t node,
                 uint8_t to_brigade, uint16_t to_node, uint8_t to_port, uint8_t *message, size_t m, uint16_t *place);

/* Takes the message in an image a step on: the node where it is chooses, and it goes over at most one link. Step by
 * step it comes to what pz_pass gives. What has ended stays as it is, also with an ending above 4. The numbers of
 * pz_pass, but that 44 is for a place that is no node's and 51 also for an arrival port above 63; what an image of
 * fewer than 5 bytes lacks is read as 0, and where nothing else refuses it, it is 10. */
uint8_t pz_step(const uint8_t *chart, size_t n, const uint8_t *tables, size_t t, uint8_t to_brigade, uint16_t to_node,
                uint8_t to_port, uint8_t *message, size_t m, uint16_t *place);

/* Writes a chart of n bytes in the directed form into m bytes at out, every plain link as both ways; *written is its
 * size. One that is in that form is copied. 21 to 31 of the chart, *place being where the refused field begins (31: the
 * chart's size), then 10 if it does not fit; *place is 0 beside any other number. */
uint8_t pz_chart_renew(const uint8_t *chart, size_t n, uint8_t *out, size_t m, uint16_t *written, uint16_t *place);

/* Writes a chart in the plain form, likewise: what was renewed comes back to the same bytes. 21 to 31 of the chart, then
 * 32 if a link does not go both ways, then 10. */
uint8_t pz_chart_restore(const uint8_t *chart, size_t n, uint8_t *out, size_t m, uint16_t *written, uint16_t *place);

/* The longest list of what mending drops: 21,840 entries of 3, each the place of a field in 2, then its number 1. */
#define PZ_LIST_SIZE 65520

/* Mends a damaged chart of n bytes: goes through its fields from the front, and writes those that pz_chart_read would
 * take, each after those kept before it, into m bytes at chart; *kept is how many bytes, 1,113 at most. For each other
 * field an entry is written into l bytes at list: the place where the field begins in the input, and the number, 21 to
 * 30, that pz_chart_read would give it after those kept; *listed is how many bytes, 3 for an entry. A field with 21 ends
 * the walk, and what remains of the input is one entry with it. What is kept is a chart that pz_chart_read takes, and a
 * chart that it takes is kept whole, with an empty list. Bytes past the chart and past the list stay. 33 if the input has
 * more than 65,535 bytes, then 31 if no question is kept, then 10 if the chart or the list does not fit; *kept and
 * *listed are 0 beside any of them. */
uint8_t pz_mend(const uint8_t *input, size_t n, uint8_t *chart, size_t m, uint16_t *kept, uint8_t *list, size_t l,
                uint32_t *listed);

/* The most links that a route has. A route is one link place for each link that it passes, from the question's first
 * station to its second; no station is met twice, a link that is off is not passed, and any other only in its
 * direction. */
#define PZ_ROUTE_SIZE 15

/* Writes the least route of a chart's question into m bytes at route and returns its length; of two routes the one with
 * the smaller link place comes first, where they differ. Bytes past it stay, and the length handed in is not looked at.
 * 21 to 31 of the chart, 42, 43. */
uint8_t pz_first(const uint8_t *chart, size_t n, uint8_t *route, size_t m, size_t length);

/* Writes the least route after the one of this length that stands at route, and returns its length. Bytes past it
 * stay. 21 to 31 of the chart, 42, 41, 43. */
uint8_t pz_next(const uint8_t *chart, size_t n, uint8_t *route, size_t m, size_t length);

/* A route in a list of them, its slot: length 1, then 15 links, those past the length zero. */
#define PZ_SLOT_SIZE 16

/* One call lists no more routes than these. */
#define PZ_MOST_SLOTS 4095

/* Lists the routes of a chart's question in order, all in one walk, each in a slot of 16 bytes, as many as m bytes at
 * slots have room for and 4,095 at most; *count is how many, *more is 1 if others follow, else 0. Bytes past the last
 * slot stay. Others are had from pz_next, after the route in the last slot. 21 to 31 of the chart, *place being where
 * the refused field begins (31: the chart's size), then 42 if there is no room for a slot, then 43; *place is 0 beside
 * any other number. */
uint8_t pz_routes(const uint8_t *chart, size_t n, uint8_t *slots, size_t m, uint16_t *count, uint8_t *more,
                  uint16_t *place);

/* No printed sheet is longer. */
#define PZ_SHEET_SIZE 47369

/* Writes the printed sheet of n bytes into m bytes at text; *written is its size. For a chart: the counts, the nodes,
 * the links, the question and its routes in order, and `end`, or `more` after 1,000 routes if another follows; for any
 * other input one line, `refused N at P`, or `too long` above 4,096 bytes. Every line ends with one line feed, and no
 * byte of 0 is added. 10 if the text does not fit. */
uint8_t pz_sheet(const uint8_t *chart, size_t n, uint8_t *text, size_t m, uint32_t *written);

#ifdef __cplusplus
}
#endif

#endif
