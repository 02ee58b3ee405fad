/* Measures the stack that each call needs: it runs on a thread whose stack is painted, and what is
 * no longer paint afterwards was used. A thread that calls nothing is taken off. Exit status 1
 * where a call needs more than the header says.
 *
 * The inputs are the largest of their kind. A search is deepest where it goes through all nodes of
 * the chart, and there finds a route or none. */
#define _POSIX_C_SOURCE 200809L
#include <pthread.h>
#include <stdio.h>
#include <stdlib.h>
#include <string.h>

#include "poztecameh_names.h"

enum { ROOM = 1 << 20, PAGE = 4096, PAINT = 0xa5 };

/* Where it fails, as poztecameh.h says, and how often that is to go into a thread's stack. */
enum { STATED = 24000, MARGIN = 2 };

static uint8_t frame[PZ_FRAME_SIZE], envelope[PZ_ENVELOPE_SIZE], contents[PZ_MOST_CONTENTS];
static uint8_t table[PZ_TABLE_SIZE], tables[PZ_TABLES_SIZE], way[PZ_WAY_SIZE],
    message[PZ_MESSAGE_SIZE], ledger[PZ_LEDGER_SIZE];
static uint8_t chart[PZ_CHART_SIZE], moved[PZ_CHART_SIZE], chart_image[PZ_CHART_IMAGE_SIZE],
    route[PZ_ROUTE_SIZE], slots[PZ_SLOT_AT(PZ_MOST_SLOTS)], text[PZ_SHEET_SIZE];
static uint16_t chart_size, moved_size, word, count;
static uint8_t damaged[PZ_LONGEST_DAMAGED], list[PZ_LIST_SIZE];
static uint32_t sheet_size, listed;
static uint8_t byte, other, answer;

static void want(uint8_t expected)
{
    if (answer != expected) {
        fprintf(stderr, "stack: answered %u, not %u\n", answer, expected);
        exit(1);
    }
}

/* ---- The largest envelope, table and ledger */

static void fill_envelope(void)
{
    pz_put_address(envelope + PZ_ENVELOPE_SOURCE, 9, 1, 2);
    envelope[PZ_ENVELOPE_COUNT] = PZ_MOST_DESTINATIONS;
    envelope[PZ_ENVELOPE_PRIORITY] = envelope[PZ_ENVELOPE_VERSION] = envelope[PZ_ENVELOPE_ACK] = 1;
    for (uint8_t place = 0; place < PZ_MOST_DESTINATIONS; place++)
        pz_put_address(envelope + PZ_DESTINATION_AT(place), 9, 2, place);
}

/* The last entry alone is for everything, so every choice goes through all of them. */
static void fill_table(void)
{
    pz_put_station(table, 9, 1);
    table[PZ_TABLE_COUNT] = PZ_MOST_ENTRIES;
    for (uint8_t place = 0; place < PZ_MOST_ENTRIES; place++) {
        table[PZ_ENTRY_AT(place) + PZ_ENTRY_PORT] = table[PZ_ENTRY_AT(place) + PZ_ENTRY_ON] = 1;
        pz_put_word(table + PZ_ENTRY_AT(place) + PZ_ENTRY_NODE, PZ_HIGHEST_NODE);
    }
    table[PZ_ENTRY_AT(PZ_MOST_ENTRIES - 1) + PZ_ENTRY_KIND] = PZ_KIND_EVERYTHING;
}

/* Open legs with one tick left. */
static void fill_ledger(uint8_t count)
{
    ledger[PZ_LEDGER_COUNT] = count;
    for (uint8_t place = 0; place < count; place++) {
        uint8_t *leg = ledger + PZ_LEG_AT(place);
        pz_put_address(leg + PZ_LEG_SOURCE, 9, 3, 1);
        pz_put_address(leg + PZ_LEG_DESTINATION, 9, 4, 1);
        pz_put_word(leg + PZ_LEG_SEQ, place);
        pz_put_word(leg + PZ_LEG_TICKS, 1);
    }
}

/* ---- The charts whose searches are deepest: a row of nodes, and its last two joined by all the
 * links that are left. The question is from the first node to the last place. */

static void add_link(uint8_t from, uint8_t to)
{
    static uint8_t ports[PZ_MOST_NODES];
    uint8_t place = chart_image[PZ_CHART_LINK_COUNT]++;
    uint8_t *link = chart_image + PZ_LINK_AT(place);
    if (place == 0)
        memset(ports, 0, sizeof ports);
    pz_put_address(link + PZ_LINK_END, 9, from, ++ports[from]);
    pz_put_address(link + PZ_LINK_OTHER_END, 9, to, ++ports[to]);
    link[PZ_LINK_ON] = 1;
}

static void begin_chart(void)
{
    memset(chart_image, 0, sizeof chart_image);
    chart_image[PZ_CHART_NODE_COUNT] = PZ_MOST_NODES;
    chart_image[PZ_CHART_FORM] = PZ_FORM_PLAIN;
    for (uint8_t place = 0; place < PZ_MOST_NODES; place++) {
        uint8_t *node = chart_image + PZ_NODE_AT(place);
        pz_put_station(node + PZ_NODE_STATION, 9, place);
        node[PZ_NODE_LABEL_LENGTH] = PZ_MOST_LABEL;
        memset(node + PZ_NODE_LABEL, 'x', PZ_MOST_LABEL);
    }
    pz_put_station(chart_image + PZ_CHART_FROM, 9, 0);
    pz_put_station(chart_image + PZ_CHART_TO, 9, PZ_MOST_NODES - 1);
}

static void write_chart(void)
{
    answer = pz_chart_write(chart_image, sizeof chart_image, chart, sizeof chart, &chart_size);
    want(PZ_DONE);
}

/* A row of so many nodes. */
static void draw_row(uint8_t nodes)
{
    begin_chart();
    for (uint8_t place = 0; place < nodes - 1; place++)
        add_link(place, (uint8_t)(place + 1));
    while (chart_image[PZ_CHART_LINK_COUNT] < PZ_MOST_LINKS)
        add_link((uint8_t)(nodes - 2), (uint8_t)(nodes - 1));
    write_chart();
}

/* The last node has no link. */
static void draw_no_route(void) { draw_row(PZ_MOST_NODES - 1); }

/* Routes along the whole row, the longest that there are. */
static void draw_long_routes(void) { draw_row(PZ_MOST_NODES); }

/* One route that leaves the row before its end, and none after it. */
static void draw_one_route(void)
{
    begin_chart();
    for (uint8_t place = 0; place < PZ_MOST_NODES - 3; place++)
        add_link(place, (uint8_t)(place + 1));
    add_link(PZ_MOST_NODES - 3, PZ_MOST_NODES - 1);
    while (chart_image[PZ_CHART_LINK_COUNT] < PZ_MOST_LINKS)
        add_link(PZ_MOST_NODES - 3, PZ_MOST_NODES - 2);
    write_chart();
}

/* One link to the last node, and then the row, whose routes come after it. */
static void draw_short_and_long(void)
{
    begin_chart();
    add_link(0, PZ_MOST_NODES - 1);
    for (uint8_t place = 0; place < PZ_MOST_NODES - 1; place++)
        add_link(place, (uint8_t)(place + 1));
    write_chart();
}

/* A table for each node of the chart, and in a row the message goes through all of them. */
static void draw_class(void)
{
    draw_long_routes();
    for (uint8_t place = 0; place < PZ_MOST_NODES; place++) {
        answer = pz_table(chart, chart_size, 9, place, tables + PZ_TABLE_AT(place), PZ_TABLE_SIZE,
                          &word);
        want(PZ_DONE);
    }
}

/* ---- The calls, each made ready by a function of its own */

static void nothing(void) {}

static void before_write(void) { fill_envelope(); }
static void call_write(void)
{
    answer =
        pz_write(envelope, sizeof envelope, contents, sizeof contents, frame, sizeof frame, &word);
}

static void call_read(void)
{
    answer = pz_read(frame, sizeof frame, envelope, sizeof envelope, &word);
}

static void before_choose(void) { fill_table(); }
static void call_choose(void)
{
    answer = pz_choose(table, sizeof table, 9, 2, 1, 0, &byte, &other);
}

static void before_accept(void) { fill_ledger(PZ_MOST_LEGS - PZ_MOST_DESTINATIONS); }
static void call_accept(void)
{
    answer =
        pz_accept(ledger, sizeof ledger, frame, sizeof frame, 0, table, sizeof table, 1, &byte, &word);
}

static void before_answer(void) { fill_ledger(PZ_MOST_LEGS); }
static void call_answer(void)
{
    answer = pz_answer(ledger, sizeof ledger, 9, 4, 1, 9, 3, 1, PZ_MOST_LEGS - 1, 1, 1, 1);
}

static void call_tick(void) { answer = pz_tick(ledger, sizeof ledger, &byte); }
static void call_clear(void) { answer = pz_clear(ledger, sizeof ledger, 0); }

static void call_chart_write(void)
{
    answer = pz_chart_write(chart_image, sizeof chart_image, chart, sizeof chart, &chart_size);
}

static void call_chart_read(void)
{
    answer = pz_chart_read(chart, chart_size, chart_image, sizeof chart_image, &word);
}

/* The table of the first node. */
static void call_table(void)
{
    answer = pz_table(chart, chart_size, 9, 0, table, sizeof table, &word);
}

/* Along the row, to its last node. */
static void call_pass(void)
{
    answer = pz_pass(chart, chart_size, tables, sizeof tables, 9, 0, 9, PZ_MOST_NODES - 1, 1, way,
                     sizeof way, &byte, &other, &word);
}

static void call_begin(void)
{
    answer = pz_begin(chart, chart_size, tables, sizeof tables, 9, 0, 9, PZ_MOST_NODES - 1, 1,
                      message, sizeof message, &word);
}

static void call_step(void)
{
    answer = pz_step(chart, chart_size, tables, sizeof tables, 9, PZ_MOST_NODES - 1, 1, message,
                     sizeof message, &word);
}

static void call_renew(void)
{
    answer = pz_chart_renew(chart, chart_size, moved, sizeof moved, &moved_size, &word);
}

static void call_restore(void)
{
    answer = pz_chart_restore(moved, moved_size, chart, sizeof chart, &chart_size, &word);
}

/* The chart as it is, and the longest list: before the chart nothing but fields of no bytes. */
static void call_mend(void)
{
    answer = pz_mend(chart, chart_size, moved, sizeof moved, &moved_size, list, sizeof list, &listed);
}

static void before_mend_long(void)
{
    size_t strays = PZ_LONGEST_DAMAGED - chart_size;
    memcpy(damaged + strays - strays % PZ_FIELD_BODY, chart, chart_size);
}
static void call_mend_long(void)
{
    answer =
        pz_mend(damaged, sizeof damaged, moved, sizeof moved, &moved_size, list, sizeof list, &listed);
}

static void call_first(void) { answer = pz_first(chart, chart_size, route, sizeof route, 0); }

/* pz_next, after the first route. */
static void first_of_one(void)
{
    draw_one_route();
    call_first();
    want(PZ_MOST_NODES - 2);
}
static void first_of_long(void)
{
    draw_long_routes();
    call_first();
    want(PZ_MOST_NODES - 1);
}
static void first_of_short(void)
{
    draw_short_and_long();
    call_first();
    want(1);
}
static void call_next(void)
{
    answer = pz_next(chart, chart_size, route, sizeof route, answer);
}

static void call_routes(void)
{
    answer = pz_routes(chart, chart_size, slots, sizeof slots, &count, &byte, &word);
}

static void call_sheet(void)
{
    answer = pz_sheet(chart, chart_size, text, sizeof text, &sheet_size);
}

static const struct {
    const char *name;
    void (*before)(void), (*call)(void);
    uint8_t expected;
} calls[] = {
    {"pz_write", before_write, call_write, PZ_DONE},
    {"pz_read", nothing, call_read, PZ_DONE},
    {"pz_choose", before_choose, call_choose, PZ_DONE},
    {"pz_accept", before_accept, call_accept, PZ_DONE},
    {"pz_answer", before_answer, call_answer, PZ_DONE},
    {"pz_tick", nothing, call_tick, PZ_DONE},
    {"pz_clear", nothing, call_clear, PZ_DONE},
    {"pz_chart_write", draw_no_route, call_chart_write, PZ_DONE},
    {"pz_chart_read", nothing, call_chart_read, PZ_DONE},
    {"pz_table", nothing, call_table, PZ_DONE},
    {"pz_pass", draw_class, call_pass, PZ_DONE},
    {"pz_begin", nothing, call_begin, PZ_DONE},
    {"pz_step", nothing, call_step, PZ_DONE},
    {"pz_chart_renew", draw_no_route, call_renew, PZ_DONE},
    {"pz_chart_restore", nothing, call_restore, PZ_DONE},
    {"pz_mend", nothing, call_mend, PZ_DONE},
    {"pz_mend, a long list", before_mend_long, call_mend_long, PZ_DONE},
    {"pz_first, no route", draw_no_route, call_first, PZ_NO_ROUTE},
    {"pz_first, a long one", draw_long_routes, call_first, PZ_ROUTE_SIZE},
    {"pz_next, none after one", first_of_one, call_next, PZ_NO_ROUTE},
    {"pz_next, a long one after another", first_of_long, call_next, PZ_ROUTE_SIZE},
    {"pz_next, a long one after a short one", first_of_short, call_next, PZ_ROUTE_SIZE},
    {"pz_routes, no route", draw_no_route, call_routes, PZ_NO_ROUTE},
    {"pz_routes, long ones", draw_long_routes, call_routes, PZ_DONE},
    {"pz_sheet, no route", draw_no_route, call_sheet, PZ_DONE},
    {"pz_sheet, long routes", draw_long_routes, call_sheet, PZ_DONE},
};

/* ---- The painted stack */

static void (*on_thread)(void);

static void *run(void *unused)
{
    on_thread();
    return unused;
}

/* Bytes of a thread's stack that a run changes. */
static size_t used_by(void (*call)(void))
{
    static uint8_t area[ROOM + PAGE];
    uint8_t *stack = area + PAGE - (uintptr_t)area % PAGE;
    pthread_attr_t attributes;
    pthread_t thread;
    memset(stack, PAINT, ROOM);
    on_thread = call;
    if (pthread_attr_init(&attributes) != 0 ||
        pthread_attr_setstack(&attributes, stack, ROOM) != 0 ||
        pthread_create(&thread, &attributes, run, NULL) != 0 || pthread_join(thread, NULL) != 0) {
        fprintf(stderr, "stack: no thread\n");
        exit(1);
    }
    size_t untouched = 0;
    while (untouched < ROOM && stack[untouched] == PAINT)
        untouched++;
    return ROOM - untouched;
}

int main(void)
{
    size_t most = 0, idle = used_by(nothing);
    for (size_t i = 0; i < sizeof calls / sizeof calls[0]; i++) {
        calls[i].before();
        size_t used = used_by(calls[i].call);
        want(calls[i].expected);
        used = used > idle ? used - idle : 0;
        printf("| %s | %zu |\n", calls[i].name, used);
        most = used > most ? used : most;
    }
    printf("stack: %zu bytes at most, of %d\n", most, PZ_STACK_SIZE);
    return most >= STATED || STATED * MARGIN > PZ_STACK_SIZE;
}
