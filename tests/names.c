/* Holds include/poztecameh_names.h to the library: values that are stored by their names are found
 * by the library where it reads, and values that the library wrote are found by their names; every
 * limit is the library's, and every refusal comes with the number of its name. Started in the
 * project's folder, for charts/. Exit status 1 where one does not. */
#include <stdio.h>
#include <string.h>

#include "poztecameh_names.h"

static unsigned checks, failures;

static void check(bool holds, const char *what, int line)
{
    checks++;
    if (!holds) {
        failures++;
        printf("tests/names.c:%d: %s\n", line, what);
    }
}

#define CHECK(holds) check(holds, #holds, __LINE__)

/* The last place of a row ends where the next part begins, or the image. */
_Static_assert(PZ_DESTINATION_AT(PZ_MOST_DESTINATIONS) == PZ_ENVELOPE_SIZE, "an envelope's size");
_Static_assert(PZ_ENTRY_AT(PZ_MOST_ENTRIES) == PZ_TABLE_SIZE, "a table's size");
_Static_assert(PZ_TABLE_AT(PZ_MOST_NODES) == PZ_TABLES_SIZE, "the tables' size");
_Static_assert(PZ_WAY_SIZE == PZ_MOST_NODES + 1, "the longest way");
_Static_assert(PZ_MESSAGE_ENDING + 1 == PZ_MESSAGE_SIZE, "a message's size");
_Static_assert(PZ_LEG_AT(PZ_MOST_LEGS) == PZ_LEDGER_SIZE, "a ledger's size");
_Static_assert(PZ_NODE_AT(PZ_MOST_NODES) == PZ_CHART_LINKS, "the nodes' size");
_Static_assert(PZ_LINK_AT(PZ_MOST_LINKS) == PZ_CHART_IMAGE_SIZE, "a chart image's size");
_Static_assert(PZ_NODE_LABEL + PZ_MOST_LABEL == PZ_NODE_SIZE, "a node's size");
_Static_assert(PZ_SLOT_LINKS + PZ_ROUTE_SIZE == PZ_SLOT_SIZE, "a slot's size");
_Static_assert(PZ_FORM_PLAIN == PZ_TAG_LINK, "the plain form's tag");
_Static_assert(PZ_FORM_DIRECTED == PZ_TAG_DIRECTED_LINK, "the directed form's tag");
_Static_assert(PZ_STATION_SIZE == PZ_ADDRESS_PORT, "a station's size");
_Static_assert(PZ_HIGHEST_BRIGADE == UINT8_MAX, "every byte is a brigade");

/* ---- Envelopes, beside a frame that is laid out here by GD-92/1003A's own widths */

struct address {
    uint8_t brigade;
    uint16_t node;
    uint8_t port;
};

struct envelope {
    struct address source, destinations[PZ_MOST_DESTINATIONS];
    uint8_t count, priority, version, ack, type;
    uint16_t length, seq;
};

static uint8_t contents[PZ_MOST_CONTENTS + 1];

static uint8_t *lay_word(uint8_t *at, unsigned word)
{
    *at++ = (uint8_t)(word / 256);
    *at++ = (uint8_t)(word % 256);
    return at;
}

static uint8_t *lay_address(uint8_t *at, const struct address *a)
{
    *at++ = a->brigade;
    return lay_word(at, a->node * 64u + a->port);
}

/* Lays out a frame and gives its size; *offset is where the contents begin. */
static size_t lay_frame(uint8_t *frame, const struct envelope *e, size_t *offset)
{
    uint8_t *at = lay_address(frame, &e->source);
    at = lay_word(at, e->length * 64u + e->count);
    for (unsigned place = 0; place < e->count; place++)
        at = lay_address(at, e->destinations + place);
    *at++ = (uint8_t)(e->priority * 16u + e->version);
    at = lay_word(at, e->seq * 2u + e->ack);
    *at++ = e->type;
    *offset = (size_t)(at - frame);
    memcpy(at, contents, e->length);
    at += e->length;
    uint8_t sum = 0;
    for (const uint8_t *each = frame; each < at; each++)
        sum ^= *each;
    *at++ = sum;
    return (size_t)(at - frame);
}

static void put_envelope(uint8_t *image, const struct envelope *e)
{
    memset(image, 0, PZ_ENVELOPE_SIZE);
    pz_put_address(image + PZ_ENVELOPE_SOURCE, e->source.brigade, e->source.node, e->source.port);
    image[PZ_ENVELOPE_COUNT] = e->count;
    pz_put_word(image + PZ_ENVELOPE_LENGTH, e->length);
    image[PZ_ENVELOPE_PRIORITY] = e->priority;
    image[PZ_ENVELOPE_VERSION] = e->version;
    image[PZ_ENVELOPE_ACK] = e->ack;
    pz_put_word(image + PZ_ENVELOPE_SEQ, e->seq);
    image[PZ_ENVELOPE_TYPE] = e->type;
    for (unsigned place = 0; place < e->count && place < PZ_MOST_DESTINATIONS; place++) {
        const struct address *a = e->destinations + place;
        pz_put_address(image + PZ_DESTINATION_AT(place), a->brigade, a->node, a->port);
    }
}

static uint8_t write_envelope(const struct envelope *e, size_t length)
{
    uint8_t image[PZ_ENVELOPE_SIZE], frame[PZ_FRAME_SIZE];
    uint16_t written;
    put_envelope(image, e);
    return pz_write(image, sizeof image, contents, length, frame, sizeof frame, &written);
}

/* No two of the numbers are equal but for the version and the flag, which the two envelopes tell
 * apart. */
static const struct envelope plain = {
    {9, 0x201, 2}, {{10, 0x114, 5}, {11, 0x3ff, 63}, {12, 7, 1}}, 3, 4, 1, 0, 6, 17, 0x12c};
static const struct envelope paging = {
    {200, 1, 33}, {{255, 1023, 0}, {0, 0x102, 9}}, 2, 8, 2, 1, 3, 1023, 0x7ffe};

static void test_envelope(const struct envelope *e)
{
    uint8_t image[PZ_ENVELOPE_SIZE], frame[PZ_FRAME_SIZE], laid[PZ_FRAME_SIZE],
        read[PZ_ENVELOPE_SIZE];
    uint16_t written, place;
    size_t offset, size = lay_frame(laid, e, &offset);
    put_envelope(image, e);
    CHECK(pz_write(image, sizeof image, contents, e->length, frame, sizeof frame, &written) ==
          PZ_DONE);
    CHECK(written == size && memcmp(frame, laid, size) == 0);
    CHECK(pz_read(laid, size, read, sizeof read, &place) == PZ_DONE && place == 0);
    CHECK(pz_word(read + PZ_ENVELOPE_OFFSET) == offset);
    pz_put_word(image + PZ_ENVELOPE_OFFSET, (uint16_t)offset);
    CHECK(memcmp(read, image, sizeof image) == 0);
    CHECK(read[PZ_DESTINATION_AT(1) + PZ_ADDRESS_BRIGADE] == e->destinations[1].brigade);
    CHECK(pz_word(read + PZ_DESTINATION_AT(1) + PZ_ADDRESS_NODE) == e->destinations[1].node);
    CHECK(read[PZ_DESTINATION_AT(1) + PZ_ADDRESS_PORT] == e->destinations[1].port);
}

static void test_envelope_limits(void)
{
    struct envelope e = plain;
    e.seq = PZ_HIGHEST_SEQ;
    CHECK(write_envelope(&e, 0) == PZ_DONE);
    e.seq++;
    CHECK(write_envelope(&e, 0) == PZ_BAD_FRAME_RANGE);
    e = plain;
    e.source = (struct address){PZ_HIGHEST_BRIGADE, PZ_HIGHEST_NODE, PZ_HIGHEST_PORT};
    CHECK(write_envelope(&e, PZ_MOST_CONTENTS) == PZ_DONE);
    CHECK(write_envelope(&e, PZ_MOST_CONTENTS + 1) == PZ_BAD_FRAME_CONTENTS);
    e.source.node++;
    CHECK(write_envelope(&e, 0) == PZ_BAD_FRAME_RANGE);
    e = plain;
    e.source.port = PZ_HIGHEST_PORT + 1;
    CHECK(write_envelope(&e, 0) == PZ_BAD_FRAME_RANGE);
    e = plain;
    for (e.count = 0; e.count < PZ_MOST_DESTINATIONS; e.count++)
        e.destinations[e.count] = (struct address){1, e.count, 1};
    CHECK(write_envelope(&e, 0) == PZ_DONE);
    e.count++;
    CHECK(write_envelope(&e, 0) == PZ_BAD_FRAME_COUNT);
}

static void test_envelope_refusals(void)
{
    uint8_t frame[PZ_FRAME_SIZE + 1], image[PZ_ENVELOPE_SIZE];
    uint16_t place;
    size_t offset, size = lay_frame(frame, &plain, &offset);
    frame[size] = 0;
    CHECK(pz_read(frame, size - 1, image, sizeof image, &place) == PZ_BAD_FRAME_SHORT &&
          place == size - 1);
    CHECK(pz_read(frame, size + 1, image, sizeof image, &place) == PZ_BAD_FRAME_LONG &&
          place == size);
    CHECK(pz_read(frame, size, image, sizeof image - 1, &place) == PZ_NO_ROOM && place == 0);
    frame[size - 1] ^= 1;
    CHECK(pz_read(frame, size, image, sizeof image, &place) == PZ_BAD_FRAME_CHECK &&
          place == size - 1);
    struct envelope e = plain;
    e.count = 0;
    CHECK(write_envelope(&e, 0) == PZ_BAD_FRAME_COUNT);
    e = plain;
    e.priority = 0;
    CHECK(write_envelope(&e, 0) == PZ_BAD_FRAME_PRIORITY);
    e = plain;
    e.destinations[2] = e.destinations[0];
    CHECK(write_envelope(&e, 0) == PZ_BAD_FRAME_REPEATED);
    e = plain;
    e.version = paging.version;
    CHECK(write_envelope(&e, 0) == PZ_BAD_FRAME_VERSION);
}

/* ---- Tables */

/* A table of node 9/513 whose last entry alone matters. */
static void put_table(uint8_t *table, uint8_t count, uint8_t kind, uint8_t on)
{
    memset(table, 0, PZ_TABLE_SIZE);
    table[PZ_TABLE_BRIGADE] = 9;
    pz_put_word(table + PZ_TABLE_NODE, 0x201);
    table[PZ_TABLE_COUNT] = count;
    for (unsigned place = 0; place < count && place < PZ_MOST_ENTRIES; place++)
        table[PZ_ENTRY_AT(place) + PZ_ENTRY_PORT] = 1;
    uint8_t *entry = table + PZ_ENTRY_AT(PZ_MOST_ENTRIES - 1);
    entry[PZ_ENTRY_KIND] = kind;
    entry[PZ_ENTRY_BRIGADE] = 10;
    pz_put_word(entry + PZ_ENTRY_NODE, 0x114);
    entry[PZ_ENTRY_PORT] = 33;
    entry[PZ_ENTRY_ON] = on;
}

/* The out port for a destination that began here, or a refusal as it stands; no port is so high. */
static uint8_t out_port(const uint8_t *table, uint8_t brigade, uint16_t node, uint8_t port)
{
    uint8_t local, out;
    uint8_t refusal = pz_choose(table, PZ_TABLE_SIZE, brigade, node, port, 0, &local, &out);
    return refusal == PZ_DONE ? (uint8_t)(out + (local != 0 ? PZ_HIGHEST_PORT + 1 : 0)) : refusal;
}

static void test_table(void)
{
    uint8_t table[PZ_TABLE_SIZE];
    put_table(table, PZ_MOST_ENTRIES, PZ_KIND_NODE, 1);
    CHECK(out_port(table, 9, 0x201, 6) == PZ_HIGHEST_PORT + 1 + 6);
    CHECK(out_port(table, 10, 0x114, 1) == 33);
    CHECK(out_port(table, 10, 0x113, 1) == PZ_NO_ENTRY);
    CHECK(out_port(table, 11, 0x114, 1) == PZ_NO_ENTRY);
    CHECK(out_port(table, 10, 0x114, PZ_HIGHEST_PORT + 1) == PZ_BAD_DESTINATION);
    put_table(table, PZ_MOST_ENTRIES, PZ_KIND_NODE, 0);
    CHECK(out_port(table, 10, 0x114, 1) == PZ_NO_ENTRY);
    put_table(table, PZ_MOST_ENTRIES, PZ_KIND_BRIGADE, 1);
    CHECK(out_port(table, 10, 0x113, 1) == 33);
    CHECK(out_port(table, 11, 0x113, 1) == PZ_NO_ENTRY);
    put_table(table, PZ_MOST_ENTRIES, PZ_KIND_EVERYTHING, 1);
    CHECK(out_port(table, 11, 0x113, 1) == 33);
    put_table(table, PZ_MOST_ENTRIES + 1, PZ_KIND_EVERYTHING, 1);
    CHECK(out_port(table, 11, 0x113, 1) == PZ_BAD_TABLE);
}

/* ---- Ledgers */

static void put_leg(uint8_t *leg, uint16_t seq, uint16_t ticks)
{
    memset(leg, 0, PZ_LEG_SIZE);
    pz_put_address(leg + PZ_LEG_SOURCE, 9, 0x201, 2);
    pz_put_address(leg + PZ_LEG_DESTINATION, 10, 0x114, 5);
    pz_put_word(leg + PZ_LEG_SEQ, seq);
    pz_put_word(leg + PZ_LEG_TICKS, ticks);
    leg[PZ_LEG_STANDING] = PZ_OPEN;
}

/* As many legs as there is room for, each with two ticks. */
static void put_ledger(uint8_t *ledger, uint8_t count)
{
    memset(ledger, 0, PZ_LEDGER_SIZE);
    ledger[PZ_LEDGER_COUNT] = count;
    for (uint16_t place = 0; place < count && place < PZ_MOST_LEGS; place++)
        put_leg(ledger + PZ_LEG_AT(place), place, 2);
}

static uint8_t answer(uint8_t *ledger, uint16_t seq, uint8_t nak)
{
    return pz_answer(ledger, PZ_LEDGER_SIZE, 10, 0x114, 5, 9, 0x201, 2, seq, nak, nak ? 77 : 0,
                     nak ? 88 : 0);
}

static uint8_t standing(const uint8_t *ledger, unsigned place)
{
    return ledger[PZ_LEG_AT(place) + PZ_LEG_STANDING];
}

static void test_settling(void)
{
    uint8_t ledger[PZ_LEDGER_SIZE], ended;
    put_ledger(ledger, PZ_MOST_LEGS + 1);
    CHECK(pz_tick(ledger, sizeof ledger, &ended) == PZ_BAD_LEDGER);
    put_ledger(ledger, PZ_MOST_LEGS);
    CHECK(pz_clear(ledger, sizeof ledger, 0) == PZ_NO_SETTLED_LEG);
    CHECK(pz_tick(ledger, sizeof ledger, &ended) == PZ_DONE && ended == 0);
    CHECK(pz_word(ledger + PZ_LEG_AT(PZ_MOST_LEGS - 1) + PZ_LEG_TICKS) == 1);
    CHECK(answer(ledger, 3, 0) == PZ_DONE && standing(ledger, 3) == PZ_ACKNOWLEDGED);
    CHECK(answer(ledger, 3, 0) == PZ_NO_OPEN_LEG);
    CHECK(answer(ledger, PZ_MOST_LEGS - 1, 1) == PZ_DONE &&
          standing(ledger, PZ_MOST_LEGS - 1) == PZ_REFUSED);
    CHECK(ledger[PZ_LEG_AT(PZ_MOST_LEGS - 1) + PZ_LEG_SET] == 77);
    CHECK(ledger[PZ_LEG_AT(PZ_MOST_LEGS - 1) + PZ_LEG_CODE] == 88);
    CHECK(pz_tick(ledger, sizeof ledger, &ended) == PZ_DONE && ended == PZ_MOST_LEGS - 2);
    CHECK(standing(ledger, 0) == PZ_TIMED_OUT && standing(ledger, 3) == PZ_ACKNOWLEDGED);
    CHECK(pz_clear(ledger, sizeof ledger, 3) == PZ_DONE &&
          ledger[PZ_LEDGER_COUNT] == PZ_MOST_LEGS - 1);
}

/* What is open by its name is open to the library: with ticks it may stand in a ledger, and no leg
 * of it is cleared. */
static void test_waiting(void)
{
    uint8_t ledger[PZ_LEDGER_SIZE], before[PZ_LEDGER_SIZE], ended;
    put_ledger(ledger, 2);
    put_ledger(before, 2);
    CHECK(pz_answer(ledger, sizeof ledger, 10, 0x114, 5, 9, 0x201, 2, 1, 1, PZ_SET_ALERTER,
                    PZ_CODE_WAIT_ACK) == PZ_DONE);
    before[PZ_LEG_AT(1) + PZ_LEG_STANDING] = PZ_WAITING;
    CHECK(memcmp(ledger, before, sizeof ledger) == 0);
    for (unsigned number = 0; number <= UINT8_MAX; number++) {
        put_ledger(ledger, 1);
        ledger[PZ_LEG_AT(0) + PZ_LEG_STANDING] = (uint8_t)number;
        CHECK((pz_tick(ledger, sizeof ledger, &ended) == PZ_DONE) == pz_is_open(number));
    }
}

/* Accepts the plain envelope with the flag set, which has three destinations of which the first has
 * an entry. */
static uint8_t accept(uint8_t *ledger, uint16_t ticks)
{
    uint8_t table[PZ_TABLE_SIZE], frame[PZ_FRAME_SIZE], added;
    uint16_t place;
    struct envelope e = plain;
    size_t offset, size;
    e.ack = 1;
    size = lay_frame(frame, &e, &offset);
    put_table(table, PZ_MOST_ENTRIES, PZ_KIND_NODE, 1);
    return pz_accept(ledger, PZ_LEDGER_SIZE, frame, size, 0, table, sizeof table, ticks, &added,
                     &place);
}

static void test_accepting(void)
{
    uint8_t ledger[PZ_LEDGER_SIZE] = {0}, expected[PZ_LEG_SIZE];
    CHECK(accept(ledger, 0) == PZ_NO_TICKS);
    CHECK(accept(ledger, 0x304) == PZ_DONE && ledger[PZ_LEDGER_COUNT] == plain.count);
    put_leg(expected, plain.seq, 0x304);
    CHECK(memcmp(ledger + PZ_LEG_AT(0), expected, sizeof expected) == 0);
    CHECK(standing(ledger, 2) == PZ_UNDELIVERABLE);
    CHECK(accept(ledger, 1) == PZ_BAD_SEQ);
    put_ledger(ledger, PZ_MOST_LEGS - 2);
    CHECK(accept(ledger, 1) == PZ_NO_PLACES);
}

/* ---- Charts: S of document 01, from its bytes and from its values */

static const struct {
    uint8_t brigade;
    uint16_t node;
    const char *label;
} nodes[] = {{9, 1, "Control"}, {9, 20, "Hill"}, {9, 21, "Hill"}, {9, 30, "Quay"}};

static const struct {
    struct address end, other_end;
    uint8_t on;
} links[] = {
    {{9, 1, 2}, {9, 20, 1}, 1},  {{9, 1, 3}, {9, 21, 1}, 1},  {{9, 20, 2}, {9, 30, 1}, 1},
    {{9, 21, 2}, {9, 30, 2}, 1}, {{9, 20, 3}, {9, 21, 3}, 1}, {{9, 1, 4}, {9, 30, 3}, 0},
};

enum { NODES = sizeof nodes / sizeof nodes[0], LINKS = sizeof links / sizeof links[0] };

static void put_s(uint8_t *image)
{
    memset(image, 0, PZ_CHART_IMAGE_SIZE);
    image[PZ_CHART_NODE_COUNT] = NODES;
    image[PZ_CHART_LINK_COUNT] = LINKS;
    image[PZ_CHART_FORM] = PZ_FORM_PLAIN;
    pz_put_station(image + PZ_CHART_FROM, 9, 1);
    pz_put_station(image + PZ_CHART_TO, 9, 30);
    for (unsigned place = 0; place < NODES; place++) {
        uint8_t *node = image + PZ_NODE_AT(place);
        pz_put_station(node + PZ_NODE_STATION, nodes[place].brigade, nodes[place].node);
        node[PZ_NODE_LABEL_LENGTH] = (uint8_t)strlen(nodes[place].label);
        memcpy(node + PZ_NODE_LABEL, nodes[place].label, strlen(nodes[place].label));
    }
    for (unsigned place = 0; place < LINKS; place++) {
        const struct address *a = &links[place].end, *b = &links[place].other_end;
        uint8_t *link = image + PZ_LINK_AT(place);
        pz_put_address(link + PZ_LINK_END, a->brigade, a->node, a->port);
        pz_put_address(link + PZ_LINK_OTHER_END, b->brigade, b->node, b->port);
        link[PZ_LINK_ON] = links[place].on;
        link[PZ_LINK_DIRECTION] = PZ_BOTH_WAYS;
    }
}

/* Reads a sample chart, one byte more than the longest input at most. */
static size_t read_sample(const char *name, uint8_t *chart)
{
    char path[64];
    snprintf(path, sizeof path, "charts/%s.chart", name);
    FILE *file = fopen(path, "rb");
    if (file == NULL) {
        check(false, path, __LINE__);
        return 0;
    }
    size_t n = fread(chart, 1, PZ_LONGEST_INPUT + 1, file);
    fclose(file);
    return n;
}

static void test_chart(void)
{
    uint8_t chart[PZ_LONGEST_INPUT + 1], written[PZ_CHART_SIZE], image[PZ_CHART_IMAGE_SIZE],
        read[PZ_CHART_IMAGE_SIZE];
    uint16_t place, size;
    size_t n = read_sample("s", chart);
    put_s(image);
    CHECK(pz_chart_write(image, sizeof image, written, sizeof written, &size) == PZ_DONE);
    CHECK(size == n && memcmp(written, chart, n) == 0);
    CHECK(pz_chart_read(chart, n, read, sizeof read, &place) == PZ_DONE);
    CHECK(memcmp(read, image, sizeof image) == 0);
    image[PZ_CHART_NODE_COUNT] = PZ_MOST_NODES + 1;
    CHECK(pz_chart_write(image, sizeof image, written, sizeof written, &size) ==
          PZ_BAD_CHART_CROWD);
    put_s(image);
    image[PZ_CHART_LINK_COUNT] = PZ_MOST_LINKS + 1;
    CHECK(pz_chart_write(image, sizeof image, written, sizeof written, &size) ==
          PZ_BAD_CHART_CROWD);
    put_s(image);
    memset(image + PZ_NODE_AT(1) + PZ_NODE_LABEL, 'x', PZ_MOST_LABEL);
    image[PZ_NODE_AT(1) + PZ_NODE_LABEL_LENGTH] = PZ_MOST_LABEL;
    CHECK(pz_chart_write(image, sizeof image, written, sizeof written, &size) == PZ_DONE);
    image[PZ_NODE_AT(1) + PZ_NODE_LABEL_LENGTH] = PZ_MOST_LABEL + 1;
    CHECK(pz_chart_write(image, sizeof image, written, sizeof written, &size) ==
          PZ_BAD_CHART_LENGTH);
}

/* S with one link out and one back, and S in the other form and back again. */
static void test_directions(void)
{
    uint8_t chart[PZ_LONGEST_INPUT + 1], plain_chart[PZ_LONGEST_INPUT + 1],
        written[PZ_CHART_SIZE], image[PZ_CHART_IMAGE_SIZE];
    uint16_t place, size;
    put_s(image);
    image[PZ_CHART_FORM] = PZ_FORM_DIRECTED;
    image[PZ_LINK_AT(0) + PZ_LINK_DIRECTION] = PZ_OUT_ONLY;
    image[PZ_LINK_AT(4) + PZ_LINK_DIRECTION] = PZ_BACK_ONLY;
    size_t n = read_sample("one-way", chart);
    CHECK(pz_chart_write(image, sizeof image, written, sizeof written, &size) == PZ_DONE);
    CHECK(size == n && memcmp(written, chart, n) == 0);
    CHECK(pz_chart_restore(chart, n, written, sizeof written, &size, &place) ==
          PZ_BAD_CHART_ONE_WAY);
    CHECK(size == 0 && place == 0);
    image[PZ_CHART_FORM] = PZ_FORM_PLAIN;
    CHECK(pz_chart_write(image, sizeof image, written, sizeof written, &size) ==
          PZ_BAD_CHART_RANGE);
    size_t m = read_sample("s", plain_chart);
    n = read_sample("renewed", chart);
    CHECK(pz_chart_renew(plain_chart, m, written, sizeof written, &size, &place) == PZ_DONE);
    CHECK(size == n && place == 0 && memcmp(written, chart, n) == 0);
    CHECK(pz_chart_restore(chart, n, written, sizeof written, &size, &place) == PZ_DONE);
    CHECK(size == m && place == 0 && memcmp(written, plain_chart, m) == 0);
    CHECK(pz_chart_renew(plain_chart, m, written, n - 1, &size, &place) == PZ_NO_ROOM);
}

/* The fields of a chart's bytes, one after the other. */
static void test_fields(const char *name, unsigned link)
{
    uint8_t chart[PZ_LONGEST_INPUT + 1];
    size_t n = read_sample(name, chart), at = 0;
    unsigned tags[PZ_TAG_DIRECTED_LINK + 1] = {0};
    while (at + PZ_FIELD_BODY <= n && chart[at + PZ_FIELD_TAG] <= PZ_TAG_DIRECTED_LINK) {
        tags[chart[at + PZ_FIELD_TAG]]++;
        at += (size_t)PZ_FIELD_BODY + pz_word(chart + at + PZ_FIELD_LENGTH);
    }
    CHECK(at == n);
    CHECK(tags[PZ_TAG_NODE] == NODES && tags[link] == LINKS && tags[PZ_TAG_QUESTION] == 1);
}

/* A sample chart for each refusal. */
static void test_chart_refusals(void)
{
    static const struct {
        const char *name;
        uint8_t refusal;
    } samples[] = {
        {"cut", PZ_BAD_CHART_CUT},         {"tag", PZ_BAD_CHART_TAG},
        {"length", PZ_BAD_CHART_LENGTH},   {"range", PZ_BAD_CHART_RANGE},
        {"after", PZ_BAD_CHART_AFTER},     {"crowd", PZ_BAD_CHART_CROWD},
        {"twice", PZ_BAD_CHART_TWICE},     {"loop", PZ_BAD_CHART_LOOP},
        {"taken", PZ_BAD_CHART_TAKEN},     {"stranger", PZ_BAD_CHART_STRANGER},
        {"unasked", PZ_BAD_CHART_UNASKED}, {"direction", PZ_BAD_CHART_RANGE},
        {"mixed", PZ_BAD_CHART_AFTER},
    };
    uint8_t chart[PZ_LONGEST_INPUT + 1], image[PZ_CHART_IMAGE_SIZE];
    uint16_t place;
    for (size_t i = 0; i < sizeof samples / sizeof samples[0]; i++) {
        size_t n = read_sample(samples[i].name, chart);
        check(pz_chart_read(chart, n, image, sizeof image, &place) == samples[i].refusal,
              samples[i].name, __LINE__);
    }
}

static void test_routes(void)
{
    uint8_t chart[PZ_LONGEST_INPUT + 1], route[PZ_ROUTE_SIZE] = {0};
    size_t n = read_sample("s", chart);
    uint8_t first = pz_first(chart, n, route, sizeof route, 0);
    CHECK(pz_is_route(first));
    CHECK(pz_next(chart, n, route, sizeof route, (size_t)first + 1) == PZ_BAD_ROUTE);
    CHECK(pz_first(chart, n, route, sizeof route - 1, 0) == PZ_NO_ROUTE_ROOM);
    n = read_sample("apart", chart);
    CHECK(pz_first(chart, n, route, sizeof route, 0) == PZ_NO_ROUTE);
    CHECK(!pz_is_route(PZ_NO_ROUTE) && pz_is_route(PZ_ROUTE_SIZE));
}

/* The routes of S in slots, each as pz_first and pz_next give it; and from the last slot on. */
static void test_slots(void)
{
    uint8_t chart[PZ_LONGEST_INPUT + 1], slots[PZ_SLOT_AT(3)], route[PZ_ROUTE_SIZE], more;
    uint16_t count, place;
    size_t n = read_sample("s", chart);
    CHECK(pz_routes(chart, n, slots, sizeof slots, &count, &more, &place) == PZ_DONE);
    CHECK(count == 3 && more == 1 && place == 0);
    uint8_t length = pz_first(chart, n, route, sizeof route, 0);
    for (unsigned i = 0; i < count; i++) {
        const uint8_t *slot = slots + PZ_SLOT_AT(i);
        CHECK(slot[PZ_SLOT_LENGTH] == length);
        CHECK(memcmp(slot + PZ_SLOT_LINKS, route, length) == 0);
        length = pz_next(chart, n, route, sizeof route, length);
    }
    uint8_t *last = slots + PZ_SLOT_AT(2);
    CHECK(pz_next(chart, n, last + PZ_SLOT_LINKS, PZ_ROUTE_SIZE, last[PZ_SLOT_LENGTH]) == length);
    CHECK(memcmp(last + PZ_SLOT_LINKS, route, length) == 0);
    CHECK(pz_routes(chart, n, slots, PZ_SLOT_SIZE - 1, &count, &more, &place) ==
          PZ_NO_ROUTE_ROOM);
    CHECK(count == 0 && more == 0 && place == 0);
    n = read_sample("apart", chart);
    CHECK(pz_routes(chart, n, slots, sizeof slots, &count, &more, &place) == PZ_NO_ROUTE);
    n = read_sample("loop", chart);
    CHECK(pz_routes(chart, n, slots, sizeof slots, &count, &more, &place) == PZ_BAD_CHART_LOOP);
    CHECK(count == 0 && more == 0 && place == 91);
}

/* The table of 9/1 in S, found by the names of its places and asked through pz_choose; the places
 * after its entries; and what refuses it. */
static void test_written_table(void)
{
    static const struct {
        uint16_t node;
        uint8_t port;
    } expected[] = {{20, 2}, {21, 3}, {30, 2}};
    enum { ENTRIES = sizeof expected / sizeof expected[0] };
    uint8_t chart[PZ_LONGEST_INPUT + 1], table[PZ_TABLE_SIZE];
    uint16_t place;
    size_t n = read_sample("s", chart);
    CHECK(pz_table(chart, n, 9, 1, table, sizeof table, &place) == PZ_DONE && place == 0);
    CHECK(table[PZ_TABLE_BRIGADE] == 9 && pz_word(table + PZ_TABLE_NODE) == 1);
    CHECK(table[PZ_TABLE_COUNT] == ENTRIES);
    for (unsigned i = 0; i < ENTRIES; i++) {
        const uint8_t *entry = table + PZ_ENTRY_AT(i);
        CHECK(entry[PZ_ENTRY_KIND] == PZ_KIND_NODE && entry[PZ_ENTRY_ON] == 1);
        CHECK(entry[PZ_ENTRY_BRIGADE] == 9);
        CHECK(pz_word(entry + PZ_ENTRY_NODE) == expected[i].node);
        CHECK(entry[PZ_ENTRY_PORT] == expected[i].port);
        CHECK(out_port(table, 9, expected[i].node, 1) == expected[i].port);
    }
    for (unsigned i = ENTRIES; i < PZ_MOST_ENTRIES; i++) {
        const uint8_t *entry = table + PZ_ENTRY_AT(i);
        CHECK(entry[PZ_ENTRY_KIND] == PZ_KIND_EVERYTHING && entry[PZ_ENTRY_ON] == 0);
        CHECK(entry[PZ_ENTRY_PORT] == 0);
    }
    CHECK(out_port(table, 9, 1, 6) == PZ_HIGHEST_PORT + 1 + 6);
    CHECK(pz_table(chart, n, 9, 2, table, sizeof table, &place) == PZ_NO_NODE && place == 0);
    CHECK(pz_table(chart, n, 9, 1, table, sizeof table - 1, &place) == PZ_NO_ROOM && place == 0);
    n = read_sample("loop", chart);
    CHECK(pz_table(chart, n, 9, 1, table, sizeof table, &place) == PZ_BAD_CHART_LOOP &&
          place == 91);
}

/* S with its second node spoiled: what is dropped, found by the names of its places; and what
 * refuses it. */
static void test_mending(void)
{
    static const struct {
        uint16_t place;
        uint8_t number;
    } dropped[] = {{13, PZ_BAD_CHART_RANGE},
                   {43, PZ_BAD_CHART_STRANGER},
                   {67, PZ_BAD_CHART_STRANGER},
                   {91, PZ_BAD_CHART_STRANGER}};
    enum { DROPPED = sizeof dropped / sizeof dropped[0] };
    static uint8_t damaged[PZ_LONGEST_DAMAGED + 1], list[PZ_LIST_SIZE];
    uint8_t chart[PZ_CHART_SIZE], image[PZ_CHART_IMAGE_SIZE];
    uint16_t kept, place;
    uint32_t listed;
    size_t n = read_sample("s", damaged);
    CHECK(pz_mend(damaged, n, chart, sizeof chart, &kept, list, sizeof list, &listed) == PZ_DONE);
    CHECK(kept == n && listed == 0 && memcmp(chart, damaged, n) == 0);
    damaged[17] = UINT8_MAX;
    CHECK(pz_mend(damaged, n, chart, sizeof chart, &kept, list, sizeof list, &listed) == PZ_DONE);
    CHECK(listed == PZ_DROPPED_AT(DROPPED));
    for (unsigned i = 0; i < DROPPED; i++) {
        const uint8_t *entry = list + PZ_DROPPED_AT(i);
        CHECK(pz_word(entry + PZ_DROPPED_PLACE) == dropped[i].place);
        CHECK(entry[PZ_DROPPED_NUMBER] == dropped[i].number);
    }
    CHECK(kept == n - 46);
    CHECK(pz_chart_read(chart, kept, image, sizeof image, &place) == PZ_DONE);
    CHECK(image[PZ_CHART_NODE_COUNT] == NODES - 1 && image[PZ_CHART_LINK_COUNT] == LINKS - 3);
    CHECK(pz_mend(damaged, n, chart, kept - 1U, &kept, list, sizeof list, &listed) == PZ_NO_ROOM);
    CHECK(kept == 0 && listed == 0);
    CHECK(pz_mend(damaged, n, chart, sizeof chart, &kept, list, PZ_DROPPED_AT(DROPPED) - 1,
                  &listed) == PZ_NO_ROOM);
    CHECK(pz_mend(damaged, n - 1, chart, sizeof chart, &kept, list, sizeof list, &listed) ==
          PZ_BAD_CHART_UNASKED);
    CHECK(pz_mend(damaged, PZ_LONGEST_DAMAGED, chart, sizeof chart, &kept, list, sizeof list,
                  &listed) == PZ_DONE);
    CHECK(pz_mend(damaged, PZ_LONGEST_DAMAGED + 1, chart, sizeof chart, &kept, list, sizeof list,
                  &listed) == PZ_BAD_CHART_LONG);
    CHECK(kept == 0 && listed == 0);
}

/* The longest list: one node, fields of no bytes with an unknown tag, and the question. */
static void test_longest_list(void)
{
    static const uint8_t node[] = {PZ_TAG_NODE, 0, 3, 9, 0, 1},
                         question[] = {PZ_TAG_QUESTION, 0, 6, 9, 0, 1, 9, 0, 1};
    static uint8_t damaged[PZ_LONGEST_DAMAGED], list[PZ_LIST_SIZE];
    uint8_t chart[PZ_CHART_SIZE];
    uint16_t kept;
    uint32_t listed;
    memcpy(damaged, node, sizeof node);
    memcpy(damaged + sizeof damaged - sizeof question, question, sizeof question);
    CHECK(pz_mend(damaged, sizeof damaged, chart, sizeof chart, &kept, list, sizeof list,
                  &listed) == PZ_DONE);
    CHECK(kept == sizeof node + sizeof question && listed == PZ_LIST_SIZE);
    CHECK(pz_mend(damaged, sizeof damaged, chart, sizeof chart, &kept, list, sizeof list - 1,
                  &listed) == PZ_NO_ROOM);
}

/* ---- Messages passed from node to node of S */

/* A table for each node; those past them are out of range. */
static void put_tables(uint8_t *tables)
{
    uint8_t chart[PZ_LONGEST_INPUT + 1];
    uint16_t place;
    size_t n = read_sample("s", chart);
    memset(tables, UINT8_MAX, PZ_TABLES_SIZE);
    for (unsigned i = 0; i < NODES; i++)
        CHECK(pz_table(chart, n, nodes[i].brigade, nodes[i].node, tables + PZ_TABLE_AT(i),
                       PZ_TABLE_SIZE, &place) == PZ_DONE);
}

/* Everything goes out by a port, or nothing does. */
static void send_everything(uint8_t *table, uint8_t port)
{
    table[PZ_TABLE_COUNT] = port == 0 ? 0 : 1;
    table[PZ_ENTRY_AT(0) + PZ_ENTRY_KIND] = PZ_KIND_EVERYTHING;
    table[PZ_ENTRY_AT(0) + PZ_ENTRY_PORT] = port;
    table[PZ_ENTRY_AT(0) + PZ_ENTRY_ON] = 1;
}

/* A message from 9/1 to 9/30, at once and step by step; the nodes that it comes to are known. */
static void test_way(const uint8_t *tables, const uint8_t *places, uint8_t count, uint8_t ending)
{
    uint8_t chart[PZ_LONGEST_INPUT + 1], way[PZ_WAY_SIZE], message[PZ_MESSAGE_SIZE], came, ended;
    uint16_t place;
    size_t n = read_sample("s", chart);
    CHECK(pz_pass(chart, n, tables, PZ_TABLES_SIZE, 9, 1, 9, 30, 5, way, sizeof way, &came, &ended,
                  &place) == PZ_DONE);
    CHECK(came == count && ended == ending && place == 0 && memcmp(way, places, count) == 0);
    CHECK(pz_begin(chart, n, tables, PZ_TABLES_SIZE, 9, 1, 9, 30, 5, message, sizeof message,
                   &place) == PZ_DONE);
    CHECK(message[PZ_MESSAGE_ARRIVAL] == 0);
    for (unsigned i = 0; i < count; i++) {
        CHECK(message[PZ_MESSAGE_PLACE] == places[i] && pz_has_met(message, places[i]));
        if (message[PZ_MESSAGE_ENDING] == PZ_UNDER_WAY)
            CHECK(pz_step(chart, n, tables, PZ_TABLES_SIZE, 9, 30, 5, message, sizeof message,
                          &place) == PZ_DONE);
    }
    CHECK(message[PZ_MESSAGE_ENDING] == ending && place == 0);
}

static void test_endings(void)
{
    static const uint8_t by_hill[] = {0, 1, 3}, round[] = {0, 1, 2, 0};
    uint8_t tables[PZ_TABLES_SIZE];
    put_tables(tables);
    test_way(tables, by_hill, 3, PZ_DELIVERED);
    send_everything(tables + PZ_TABLE_AT(1), 0);
    test_way(tables, by_hill, 2, PZ_WITHOUT_ROUTE);
    send_everything(tables + PZ_TABLE_AT(1), PZ_HIGHEST_PORT);
    test_way(tables, by_hill, 2, PZ_WITHOUT_LINK);
    send_everything(tables + PZ_TABLE_AT(1), 3);
    send_everything(tables + PZ_TABLE_AT(2), 1);
    test_way(tables, round, 4, PZ_MET_BEFORE);
}

/* A message by the names of its places: over link 4, 9/20/3 9/21/3, with 9/1 and 9/20 met. */
static void test_message(void)
{
    uint8_t chart[PZ_LONGEST_INPUT + 1], tables[PZ_TABLES_SIZE], message[PZ_MESSAGE_SIZE];
    uint16_t place;
    size_t n = read_sample("s", chart);
    put_tables(tables);
    message[PZ_MESSAGE_PLACE] = 1;
    message[PZ_MESSAGE_ARRIVAL] = 1;
    pz_put_word(message + PZ_MESSAGE_MET, 0x103);
    message[PZ_MESSAGE_ENDING] = PZ_UNDER_WAY;
    CHECK(pz_step(chart, n, tables, sizeof tables, 9, 21, 5, message, sizeof message, &place) ==
          PZ_DONE);
    CHECK(message[PZ_MESSAGE_PLACE] == 2 && message[PZ_MESSAGE_ARRIVAL] == 3);
    CHECK(pz_word(message + PZ_MESSAGE_MET) == 0x107);
    for (unsigned i = 0; i < 2 * PZ_MOST_NODES + 8; i++)
        CHECK(pz_has_met(message, i) == (i < 3 || i == 8));
    CHECK(message[PZ_MESSAGE_ENDING] == PZ_UNDER_WAY && place == 0);
    message[PZ_MESSAGE_PLACE] = NODES;
    CHECK(pz_step(chart, n, tables, sizeof tables, 9, 21, 5, message, sizeof message, &place) ==
          PZ_NO_NODE);
    message[PZ_MESSAGE_PLACE] = 0;
    message[PZ_MESSAGE_ARRIVAL] = PZ_HIGHEST_PORT + 1;
    CHECK(pz_step(chart, n, tables, sizeof tables, 9, 21, 5, message, sizeof message, &place) ==
          PZ_BAD_DESTINATION);
    message[PZ_MESSAGE_ARRIVAL] = 0;
    CHECK(pz_step(chart, n, tables, sizeof tables, 9, 21, 5, message, sizeof message - 1, &place) ==
          PZ_NO_ROOM);
    CHECK(pz_begin(chart, n, tables, sizeof tables, 9, 1, 9, 21, 5, message, sizeof message - 1,
                   &place) == PZ_NO_ROOM);
}

/* What refuses a message that is to be passed: beside it no number but the chart's place. */
static uint8_t refused_pass(const char *name, const uint8_t *tables, size_t t, uint16_t node,
                            size_t w, uint16_t at)
{
    uint8_t chart[PZ_LONGEST_INPUT + 1], way[PZ_WAY_SIZE], places, ending;
    uint16_t place;
    size_t n = read_sample(name, chart);
    uint8_t refusal =
        pz_pass(chart, n, tables, t, 9, node, 9, 30, 5, way, w, &places, &ending, &place);
    CHECK(places == 0 && ending == 0 && place == at);
    return refusal;
}

static void test_class_refusals(void)
{
    uint8_t tables[PZ_TABLES_SIZE];
    put_tables(tables);
    CHECK(refused_pass("loop", tables, sizeof tables, 1, PZ_WAY_SIZE, 91) == PZ_BAD_CHART_LOOP);
    CHECK(refused_pass("s", tables, sizeof tables - 1, 1, PZ_WAY_SIZE, 0) == PZ_BAD_TABLE);
    CHECK(refused_pass("s", tables, sizeof tables, 2, PZ_WAY_SIZE, 0) == PZ_NO_NODE);
    CHECK(refused_pass("s", tables, sizeof tables, 1, PZ_WAY_SIZE - 1, 0) == PZ_NO_ROOM);
    pz_put_word(tables + PZ_TABLE_AT(NODES - 1) + PZ_TABLE_NODE, 31);
    CHECK(refused_pass("s", tables, sizeof tables, 1, PZ_WAY_SIZE, 0) == PZ_BAD_OWN_ADDRESS);
}

/* ---- Many routes, and sheets */

/* A row of 13 nodes with two links from each to the next: 4,096 routes. */
static size_t lay_row(uint8_t *chart)
{
    uint8_t image[PZ_CHART_IMAGE_SIZE] = {0};
    uint16_t written;
    image[PZ_CHART_NODE_COUNT] = 13;
    image[PZ_CHART_LINK_COUNT] = 24;
    image[PZ_CHART_FORM] = PZ_FORM_PLAIN;
    pz_put_station(image + PZ_CHART_FROM, 9, 0);
    pz_put_station(image + PZ_CHART_TO, 9, 12);
    for (uint8_t node = 0; node < 13; node++)
        pz_put_station(image + PZ_NODE_AT(node), 9, node);
    for (uint8_t place = 0; place < 24; place++) {
        uint8_t *link = image + PZ_LINK_AT(place), node = place / 2;
        pz_put_address(link + PZ_LINK_END, 9, node, 1 + place % 2);
        pz_put_address(link + PZ_LINK_OTHER_END, 9, node + 1, 3 + place % 2);
        link[PZ_LINK_ON] = 1;
    }
    CHECK(pz_chart_write(image, sizeof image, chart, PZ_CHART_SIZE, &written) == PZ_DONE);
    return written;
}

static void test_most_slots(void)
{
    static uint8_t slots[PZ_SLOT_AT(PZ_MOST_SLOTS + 1)];
    uint8_t chart[PZ_CHART_SIZE], more;
    uint16_t count, place;
    size_t n = lay_row(chart);
    CHECK(pz_routes(chart, n, slots, sizeof slots, &count, &more, &place) == PZ_DONE);
    CHECK(count == PZ_MOST_SLOTS && more == 1);
}

static void test_sheets(void)
{
    static const char too_long[] = "too long\n";
    uint8_t chart[PZ_LONGEST_INPUT + 1], text[PZ_SHEET_SIZE];
    uint32_t written;
    CHECK(read_sample("overfull", chart) == PZ_LONGEST_INPUT + 1);
    CHECK(pz_sheet(chart, PZ_LONGEST_INPUT + 1, text, sizeof text, &written) == PZ_DONE);
    CHECK(written == strlen(too_long) && memcmp(text, too_long, written) == 0);
    CHECK(pz_sheet(chart, PZ_LONGEST_INPUT, text, sizeof text, &written) == PZ_DONE);
    CHECK(memcmp(text, too_long, strlen(too_long)) != 0);
    CHECK(pz_sheet(chart, 0, text, 1, &written) == PZ_NO_ROOM);
}

/* ---- Words */

/* Each refusal has words of its own, and no other number has any. */
static void test_words(void)
{
    static const uint8_t ranges[][2] = {{PZ_DONE, PZ_NO_ROOM},
                                        {PZ_BAD_CHART_CUT, PZ_BAD_CHART_LONG},
                                        {PZ_BAD_ROUTE, PZ_NO_NODE},
                                        {PZ_BAD_TABLE, PZ_NO_ENTRY},
                                        {PZ_BAD_LEDGER, PZ_NO_SETTLED_LEG},
                                        {PZ_BAD_OWN_ADDRESS, PZ_BAD_OWN_ADDRESS}};
    const char *none = pz_refusal_text(UINT8_MAX);
    for (unsigned number = 0; number <= UINT8_MAX; number++) {
        bool refusal = false;
        for (size_t i = 0; i < sizeof ranges / sizeof ranges[0]; i++)
            refusal = refusal || (ranges[i][0] <= number && number <= ranges[i][1]);
        CHECK((strcmp(pz_refusal_text(number), none) != 0) == refusal);
        for (unsigned other = 0; refusal && other < number; other++)
            CHECK(strcmp(pz_refusal_text(number), pz_refusal_text(other)) != 0);
    }
    none = pz_standing_text(UINT8_MAX);
    for (unsigned number = 0; number <= UINT8_MAX; number++) {
        CHECK((strcmp(pz_standing_text(number), none) != 0) == (number <= PZ_WAITING));
        for (unsigned other = 0; other < number && number <= PZ_WAITING; other++)
            CHECK(strcmp(pz_standing_text(number), pz_standing_text(other)) != 0);
    }
    none = pz_ending_text(UINT8_MAX);
    for (unsigned number = 0; number <= UINT8_MAX; number++) {
        CHECK((strcmp(pz_ending_text(number), none) != 0) == (number <= PZ_MET_BEFORE));
        for (unsigned other = 0; other < number && number <= PZ_MET_BEFORE; other++)
            CHECK(strcmp(pz_ending_text(number), pz_ending_text(other)) != 0);
    }
    none = pz_direction_text(UINT8_MAX);
    for (unsigned number = 0; number <= UINT8_MAX; number++)
        CHECK((strcmp(pz_direction_text(number), none) != 0) == (number <= PZ_BACK_ONLY));
}

/* The words of directions are those at the end of a sheet's link lines. */
static void test_direction_words(void)
{
    uint8_t chart[PZ_LONGEST_INPUT + 1], text[PZ_SHEET_SIZE];
    char line[64];
    uint32_t written;
    size_t n = read_sample("one-way", chart);
    CHECK(pz_sheet(chart, n, text, sizeof text - 1, &written) == PZ_DONE);
    text[written] = '\0';
    snprintf(line, sizeof line, "\n0 9/1/2 9/20/1 on %s\n", pz_direction_text(PZ_OUT_ONLY));
    CHECK(strstr((const char *)text, line) != NULL);
    snprintf(line, sizeof line, "\n1 9/1/3 9/21/1 on %s\n", pz_direction_text(PZ_BOTH_WAYS));
    CHECK(strstr((const char *)text, line) != NULL);
    snprintf(line, sizeof line, "\n4 9/20/3 9/21/3 on %s\n", pz_direction_text(PZ_BACK_ONLY));
    CHECK(strstr((const char *)text, line) != NULL);
}

static void test_version(void)
{
    char version[16];
    snprintf(version, sizeof version, "%d.%d", PZ_VERSION_MAJOR, PZ_VERSION_MINOR);
    CHECK(strcmp(version, PZ_VERSION) == 0);
}

int main(void)
{
    test_envelope(&plain);
    test_envelope(&paging);
    test_envelope_limits();
    test_envelope_refusals();
    test_table();
    test_settling();
    test_waiting();
    test_accepting();
    test_chart();
    test_directions();
    test_fields("s", PZ_TAG_LINK);
    test_fields("renewed", PZ_TAG_DIRECTED_LINK);
    test_chart_refusals();
    test_routes();
    test_slots();
    test_most_slots();
    test_written_table();
    test_mending();
    test_longest_list();
    test_endings();
    test_message();
    test_class_refusals();
    test_sheets();
    test_words();
    test_direction_words();
    test_version();
    printf("names: %u checks, %u failed\n", checks, failures);
    return failures > 0;
}
