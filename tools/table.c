/* Prints the routing table of a node of the chart on standard input: table BRIGADE NODE. A line for
 * each entry: the node that it is for, the port by which it leaves, and the station that the link at
 * that port leads to. Of a refused chart nothing is printed. refused.h has the exit status, and what
 * standard error gets. */
#include <stdbool.h>
#include <stdlib.h>

#include "refused.h"

static uint8_t image[PZ_CHART_IMAGE_SIZE], table[PZ_TABLE_SIZE];

static bool same_station(const uint8_t *one, const uint8_t *other)
{
    return memcmp(one, other, PZ_STATION_SIZE) == 0;
}

static bool print_station(const uint8_t *at)
{
    return printf("%u/%u", at[PZ_ADDRESS_BRIGADE], pz_word(at + PZ_ADDRESS_NODE)) > 0;
}

/* A blank and the label of the node at a station, if it has one. */
static bool print_label(const uint8_t *station)
{
    const uint8_t *node = image + PZ_NODE_AT(0);
    while (!same_station(node + PZ_NODE_STATION, station))
        node += PZ_NODE_SIZE;
    int length = node[PZ_NODE_LABEL_LENGTH];
    return length == 0 || printf(" %.*s", length, (const char *)node + PZ_NODE_LABEL) > 0;
}

/* Where one comes to who leaves a node by a port: no two links of a chart have an end in common. */
static const uint8_t *far_station(const uint8_t *node, uint8_t port)
{
    const uint8_t *link = image + PZ_LINK_AT(0);
    for (;; link += PZ_LINK_SIZE) {
        const uint8_t *end = link + PZ_LINK_END, *other = link + PZ_LINK_OTHER_END;
        if (same_station(end, node) && end[PZ_ADDRESS_PORT] == port)
            return other;
        if (same_station(other, node) && other[PZ_ADDRESS_PORT] == port)
            return end;
    }
}

/* Prints an entry; false where it can't be written. */
static bool print_entry(const uint8_t *entry)
{
    const uint8_t *station = entry + PZ_ENTRY_BRIGADE;
    uint8_t port = entry[PZ_ENTRY_PORT];
    return print_station(station) && print_label(station) &&
           printf(": out by port %u to ", port) > 0 &&
           print_station(far_station(table + PZ_TABLE_BRIGADE, port)) && putchar('\n') != EOF;
}

static bool print_table(void)
{
    for (unsigned place = 0; place < table[PZ_TABLE_COUNT]; place++)
        if (!print_entry(table + PZ_ENTRY_AT(place)))
            return false;
    return true;
}

int main(int count, char **words)
{
    uint16_t place;
    tool = "table";
    if (count != 3)
        return FAILED;
    uint8_t brigade = (uint8_t)atoi(words[1]);
    uint16_t node = (uint16_t)atoi(words[2]);
    size_t n = fread(input, 1, sizeof input, stdin);
    if (ferror(stdin))
        return fail("standard input");
    if (n > PZ_LONGEST_INPUT)
        return too_long();
    uint8_t refusal = pz_table(input, n, brigade, node, table, sizeof table, &place);
    if (refusal != PZ_DONE)
        return explain(refusal, place, n);
    pz_chart_read(input, n, image, sizeof image, &place);
    if (!print_table() || fclose(stdout) != 0)
        return fail("standard output");
    if (table[PZ_TABLE_COUNT] == 0)
        fprintf(stderr, "tools/table: no route leads from %u/%u to another node\n", brigade, node);
    return DONE;
}
