/* Poztecameh: names for what poztecameh.h says in numbers: refusals and their words, standings,
 * kinds of an entry, endings of a message, and where each value stands in an image. C11 and C++17;
 * nothing of it is linked. tests/names.c holds it to the library.
 *
 * An offset is written so: image + PZ_LEG_AT(place) + PZ_LEG_SEQ. Numbers of two bytes are read
 * with pz_word and stored with pz_put_word. */
#ifndef POZTECAMEH_NAMES_H
#define POZTECAMEH_NAMES_H

#include <stdbool.h>

#include "poztecameh.h"

/* The version of the two headers and of the library beside them. The first number changes with a
 * call, a refusal or an image that is there, the second where something is added. */
#define PZ_VERSION_MAJOR 4
#define PZ_VERSION_MINOR 4
#define PZ_VERSION "4.4"

/* A thread's stack that is enough for any call: more than twice what any needs (poztecameh.h,
 * "Stack"). */
#define PZ_STACK_SIZE 65536

/* ---- Refusals: PZ_BAD_.. for what was handed in, PZ_NO_.. for what is not there */

#define PZ_DONE 0

/* Of an envelope, but for the last, which is of every lent image or buffer that is written into. */
#define PZ_BAD_FRAME_SHORT 1
#define PZ_BAD_FRAME_LONG 2
#define PZ_BAD_FRAME_CHECK 3
#define PZ_BAD_FRAME_COUNT 4
#define PZ_BAD_FRAME_CONTENTS 5
#define PZ_BAD_FRAME_RANGE 6
#define PZ_BAD_FRAME_PRIORITY 7
#define PZ_BAD_FRAME_REPEATED 8
#define PZ_BAD_FRAME_VERSION 9
#define PZ_NO_ROOM 10

/* Of a chart; charts/ has one for each, with the same name (32: one-way, to be restored), but for
 * the last, which is of what is to be mended. */
#define PZ_BAD_CHART_CUT 21
#define PZ_BAD_CHART_TAG 22
#define PZ_BAD_CHART_LENGTH 23
#define PZ_BAD_CHART_RANGE 24
#define PZ_BAD_CHART_AFTER 25
#define PZ_BAD_CHART_CROWD 26
#define PZ_BAD_CHART_TWICE 27
#define PZ_BAD_CHART_STRANGER 28
#define PZ_BAD_CHART_LOOP 29
#define PZ_BAD_CHART_TAKEN 30
#define PZ_BAD_CHART_UNASKED 31
#define PZ_BAD_CHART_ONE_WAY 32
#define PZ_BAD_CHART_LONG 33

/* Of a route. */
#define PZ_BAD_ROUTE 41
#define PZ_NO_ROUTE_ROOM 42
#define PZ_NO_ROUTE 43

/* Of a table that is written from a chart, and of a message that is passed from node to node. */
#define PZ_NO_NODE 44

/* Of a table and of a ledger. */
#define PZ_BAD_TABLE 50
#define PZ_BAD_DESTINATION 51
#define PZ_NO_ENTRY 52
#define PZ_BAD_LEDGER 60
#define PZ_NO_TICKS 61
#define PZ_BAD_SEQ 62
#define PZ_NO_PLACES 63
#define PZ_NO_OPEN_LEG 64
#define PZ_NO_SETTLED_LEG 65

/* Of a message that is passed from node to node. */
#define PZ_BAD_OWN_ADDRESS 95

/* A refusal in words. */
static inline const char *pz_refusal_text(unsigned number)
{
    switch (number) {
    case PZ_DONE: return "not refused";
    case PZ_BAD_FRAME_SHORT:
        return "the frame ends before its fixed fields, or before the size that its counts ask for";
    case PZ_BAD_FRAME_LONG: return "bytes stand after the size that the frame's counts ask for";
    case PZ_BAD_FRAME_CHECK: return "the check character is wrong";
    case PZ_BAD_FRAME_COUNT: return "the destination count is 0 or above 63";
    case PZ_BAD_FRAME_CONTENTS: return "the contents are longer than 1,023 bytes";
    case PZ_BAD_FRAME_RANGE: return "a value of the envelope is out of its range";
    case PZ_BAD_FRAME_PRIORITY: return "the priority is 0 or above 9";
    case PZ_BAD_FRAME_REPEATED: return "two destinations are equal";
    case PZ_BAD_FRAME_VERSION: return "the version is not the one of the message type";
    case PZ_NO_ROOM: return "the lent image or buffer is too short";
    case PZ_BAD_CHART_CUT: return "the field is cut short";
    case PZ_BAD_CHART_TAG: return "the tag is not 1, 2, 3 or 4";
    case PZ_BAD_CHART_LENGTH: return "the tag does not allow the length";
    case PZ_BAD_CHART_RANGE: return "a value of the field is out of its range";
    case PZ_BAD_CHART_AFTER:
        return "a node stands after a link, links of tag 2 and of tag 4 are mixed, or something "
               "stands after the question";
    case PZ_BAD_CHART_CROWD: return "a 17th node or a 49th link";
    case PZ_BAD_CHART_TWICE: return "the node is written twice";
    case PZ_BAD_CHART_STRANGER: return "an end or the question names a node that is not written";
    case PZ_BAD_CHART_LOOP: return "the link joins a node to itself";
    case PZ_BAD_CHART_TAKEN: return "an earlier link uses one of the ends";
    case PZ_BAD_CHART_UNASKED: return "the chart ends without a question";
    case PZ_BAD_CHART_ONE_WAY: return "a link does not go both ways, as every plain one does";
    case PZ_BAD_CHART_LONG: return "the input to be mended has more than 65,535 bytes";
    case PZ_BAD_ROUTE: return "what was given is no route";
    case PZ_NO_ROUTE_ROOM: return "there is no room: a route needs 15 bytes, a slot 16";
    case PZ_NO_ROUTE: return "there is no route, or none later";
    case PZ_NO_NODE: return "the chart has no such node";
    case PZ_BAD_TABLE: return "the table has a value out of its range, or its image can't be read";
    case PZ_BAD_DESTINATION: return "the destination or the arrival port is out of its range";
    case PZ_NO_ENTRY: return "no entry of the table qualifies";
    case PZ_BAD_LEDGER: return "the ledger breaks its rules, or its image can't be read";
    case PZ_NO_TICKS: return "the ticks are 0";
    case PZ_BAD_SEQ: return "an open leg has the same source and sequence number";
    case PZ_NO_PLACES: return "there are fewer free places than destinations";
    case PZ_NO_OPEN_LEG: return "there is no such open leg";
    case PZ_NO_SETTLED_LEG: return "there is no settled leg at that place";
    case PZ_BAD_OWN_ADDRESS: return "a table's own address is not that of the node at its place";
    default: return "no refusal has this number";
    }
}

/* Whether pz_first or pz_next answered a route, and not a refusal. */
static inline bool pz_is_route(uint8_t answer) { return answer <= PZ_ROUTE_SIZE; }

/* ---- Numbers of two bytes */

static inline uint16_t pz_word(const uint8_t *at) { return (uint16_t)(at[0] << 8 | at[1]); }

static inline void pz_put_word(uint8_t *at, uint16_t word)
{
    at[0] = (uint8_t)(word >> 8);
    at[1] = (uint8_t)word;
}

/* ---- Addresses and stations in an image. A station is an address without its port. */

#define PZ_HIGHEST_BRIGADE 255
#define PZ_HIGHEST_NODE 1023
#define PZ_HIGHEST_PORT 63

#define PZ_ADDRESS_BRIGADE 0
#define PZ_ADDRESS_NODE 1
#define PZ_ADDRESS_PORT 3
#define PZ_ADDRESS_SIZE 4
#define PZ_STATION_SIZE 3

static inline void pz_put_station(uint8_t *at, uint8_t brigade, uint16_t node)
{
    at[PZ_ADDRESS_BRIGADE] = brigade;
    pz_put_word(at + PZ_ADDRESS_NODE, node);
}

static inline void pz_put_address(uint8_t *at, uint8_t brigade, uint16_t node, uint8_t port)
{
    pz_put_station(at, brigade, node);
    at[PZ_ADDRESS_PORT] = port;
}

/* ---- The image of an envelope */

#define PZ_MOST_DESTINATIONS 63
#define PZ_MOST_CONTENTS 1023
#define PZ_HIGHEST_SEQ 32767

#define PZ_ENVELOPE_SOURCE 0
#define PZ_ENVELOPE_COUNT 4
#define PZ_ENVELOPE_LENGTH 5
#define PZ_ENVELOPE_PRIORITY 7
#define PZ_ENVELOPE_VERSION 8
#define PZ_ENVELOPE_ACK 9
#define PZ_ENVELOPE_SEQ 10
#define PZ_ENVELOPE_TYPE 12
#define PZ_ENVELOPE_OFFSET 13
#define PZ_ENVELOPE_DESTINATIONS 15

/* The destination at a place, an address. */
#define PZ_DESTINATION_AT(place) (PZ_ENVELOPE_DESTINATIONS + PZ_ADDRESS_SIZE * (size_t)(place))

/* ---- The image of a table */

#define PZ_MOST_ENTRIES 32

#define PZ_TABLE_BRIGADE 0
#define PZ_TABLE_NODE 1
#define PZ_TABLE_COUNT 3
#define PZ_TABLE_ENTRIES 4

#define PZ_ENTRY_KIND 0
#define PZ_ENTRY_BRIGADE 1
#define PZ_ENTRY_NODE 2
#define PZ_ENTRY_PORT 4
#define PZ_ENTRY_ON 5
#define PZ_ENTRY_SIZE 6

#define PZ_ENTRY_AT(place) (PZ_TABLE_ENTRIES + PZ_ENTRY_SIZE * (size_t)(place))

/* Kinds of an entry: what its destination is. */
#define PZ_KIND_NODE 0
#define PZ_KIND_BRIGADE 1
#define PZ_KIND_EVERYTHING 2

/* The table of the node at a place, in the tables of a class. */
#define PZ_TABLE_AT(place) (PZ_TABLE_SIZE * (size_t)(place))

/* ---- The image of a ledger */

#define PZ_MOST_LEGS 128

#define PZ_LEDGER_COUNT 0
#define PZ_LEDGER_LEGS 1

#define PZ_LEG_SOURCE 0
#define PZ_LEG_DESTINATION 4
#define PZ_LEG_SEQ 8
#define PZ_LEG_TICKS 10
#define PZ_LEG_STANDING 12
#define PZ_LEG_SET 13
#define PZ_LEG_CODE 14
#define PZ_LEG_SIZE 15

#define PZ_LEG_AT(place) (PZ_LEDGER_LEGS + PZ_LEG_SIZE * (size_t)(place))

/* Standings of a leg. */
#define PZ_OPEN 0
#define PZ_ACKNOWLEDGED 1
#define PZ_REFUSED 2
#define PZ_UNDELIVERABLE 3
#define PZ_TIMED_OUT 4
#define PZ_WAITING 5

/* The reason of a NAK that says wait: the set "alerter", and in it the code "wait_ack". */
#define PZ_SET_ALERTER 2
#define PZ_CODE_WAIT_ACK 13

/* Whether a leg with this standing is open: it has ticks left, and an answer may settle it. */
static inline bool pz_is_open(unsigned standing)
{
    return standing == PZ_OPEN || standing == PZ_WAITING;
}

static inline const char *pz_standing_text(unsigned standing)
{
    switch (standing) {
    case PZ_OPEN: return "open";
    case PZ_ACKNOWLEDGED: return "acknowledged";
    case PZ_REFUSED: return "refused";
    case PZ_UNDELIVERABLE: return "undeliverable";
    case PZ_TIMED_OUT: return "timed out";
    case PZ_WAITING: return "waiting";
    default: return "no standing has this number";
    }
}

/* ---- The image of a chart */

#define PZ_MOST_NODES 16
#define PZ_MOST_LINKS 48
#define PZ_MOST_LABEL 24

#define PZ_CHART_NODE_COUNT 0
#define PZ_CHART_LINK_COUNT 1
#define PZ_CHART_FORM 2
#define PZ_CHART_FROM 3
#define PZ_CHART_TO 6
#define PZ_CHART_NODES 9
#define PZ_CHART_LINKS 457

#define PZ_NODE_STATION 0
#define PZ_NODE_LABEL_LENGTH 3
#define PZ_NODE_LABEL 4
#define PZ_NODE_SIZE 28

#define PZ_NODE_AT(place) (PZ_CHART_NODES + PZ_NODE_SIZE * (size_t)(place))

#define PZ_LINK_END 0
#define PZ_LINK_OTHER_END 4
#define PZ_LINK_ON 8
#define PZ_LINK_DIRECTION 9
#define PZ_LINK_SIZE 10

#define PZ_LINK_AT(place) (PZ_CHART_LINKS + PZ_LINK_SIZE * (size_t)(place))

/* Forms of a chart's links: the tag that each of them has. In the plain form every link goes both
 * ways. */
#define PZ_FORM_PLAIN 2
#define PZ_FORM_DIRECTED 4

/* Directions of a link: both ways, from its first end to its second alone, or back. */
#define PZ_BOTH_WAYS 0
#define PZ_OUT_ONLY 1
#define PZ_BACK_ONLY 2

/* The word of a direction at the end of a sheet's link line. */
static inline const char *pz_direction_text(unsigned direction)
{
    switch (direction) {
    case PZ_BOTH_WAYS: return "both";
    case PZ_OUT_ONLY: return "out";
    case PZ_BACK_ONLY: return "back";
    default: return "no direction has this number";
    }
}

/* ---- The image of a message that is passed from node to node */

#define PZ_MESSAGE_PLACE 0
#define PZ_MESSAGE_ARRIVAL 1
#define PZ_MESSAGE_MET 2
#define PZ_MESSAGE_ENDING 4

/* Whether a message has met the node at a place. */
static inline bool pz_has_met(const uint8_t *message, unsigned place)
{
    return place < PZ_MOST_NODES && (pz_word(message + PZ_MESSAGE_MET) >> place & 1) == 1;
}

/* Endings of a message; any other number stands for one that has ended too. */
#define PZ_UNDER_WAY 0
#define PZ_DELIVERED 1
#define PZ_WITHOUT_ROUTE 2
#define PZ_WITHOUT_LINK 3
#define PZ_MET_BEFORE 4

static inline const char *pz_ending_text(unsigned ending)
{
    switch (ending) {
    case PZ_UNDER_WAY: return "under way";
    case PZ_DELIVERED: return "delivered";
    case PZ_WITHOUT_ROUTE: return "without a route";
    case PZ_WITHOUT_LINK: return "at a port that no usable link leaves";
    case PZ_MET_BEFORE: return "at a node that it has met before";
    default: return "no ending has this number";
    }
}

/* ---- The slots that routes are listed in */

#define PZ_SLOT_LENGTH 0
#define PZ_SLOT_LINKS 1

#define PZ_SLOT_AT(place) (PZ_SLOT_SIZE * (size_t)(place))

/* ---- The fields of a chart's bytes (docs/CHART.md) */

#define PZ_FIELD_TAG 0
#define PZ_FIELD_LENGTH 1
#define PZ_FIELD_BODY 3

#define PZ_TAG_NODE 1
#define PZ_TAG_LINK 2
#define PZ_TAG_QUESTION 3
#define PZ_TAG_DIRECTED_LINK 4

/* The longest input that has a sheet: any longer one is `too long`. */
#define PZ_LONGEST_INPUT 4096

/* ---- What mending drops */

/* The longest input that can be mended. */
#define PZ_LONGEST_DAMAGED 65535

#define PZ_DROPPED_PLACE 0
#define PZ_DROPPED_NUMBER 2
#define PZ_DROPPED_SIZE 3

#define PZ_DROPPED_AT(entry) (PZ_DROPPED_SIZE * (size_t)(entry))

#endif
