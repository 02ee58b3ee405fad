/* Reads one chart from standard input and prints the routing table of each of its nodes: for every
 * other node that a route reaches the port by which a message leaves, and the station that the link
 * at that port leads to. Or where the chart is refused; standard error then has the number in words.
 * Exit status: 0 printed, 1 refused, 2 not read or not written. */
#include <stdio.h>
#include <string.h>

#include "poztecameh_names.h"

enum { PRINTED = 0, REFUSED = 1, FAILED = 2 };

static bool same_station(const uint8_t *one, const uint8_t *other)
{
    return memcmp(one, other, PZ_STATION_SIZE) == 0;
}

static void print_station(const uint8_t *at)
{
    printf("%u/%u", at[PZ_ADDRESS_BRIGADE], pz_word(at + PZ_ADDRESS_NODE));
}

/* A node's station, and its label if it has one. */
static void print_node(const uint8_t *node)
{
    int length = node[PZ_NODE_LABEL_LENGTH];
    print_station(node + PZ_NODE_STATION);
    if (length > 0)
        printf(" %.*s", length, (const char *)node + PZ_NODE_LABEL);
}

/* Where one comes to who leaves a station by a port. */
static void print_far_station(const uint8_t *image, const uint8_t *station, uint8_t port)
{
    for (unsigned place = 0; place < image[PZ_CHART_LINK_COUNT]; place++) {
        const uint8_t *end = image + PZ_LINK_AT(place) + PZ_LINK_END;
        const uint8_t *other = image + PZ_LINK_AT(place) + PZ_LINK_OTHER_END;
        if (same_station(end, station) && end[PZ_ADDRESS_PORT] == port)
            print_station(other);
        if (same_station(other, station) && other[PZ_ADDRESS_PORT] == port)
            print_station(end);
    }
}

/* The entries stand in the order of the nodes, so that each is looked for after the one before. */
static void print_table(const uint8_t *image, const uint8_t *table)
{
    const uint8_t *node = image + PZ_NODE_AT(0);
    for (unsigned place = 0; place < table[PZ_TABLE_COUNT]; place++) {
        const uint8_t *entry = table + PZ_ENTRY_AT(place);
        while (!same_station(node + PZ_NODE_STATION, entry + PZ_ENTRY_BRIGADE))
            node += PZ_NODE_SIZE;
        printf("  ");
        print_node(node);
        printf(": out by port %u to ", entry[PZ_ENTRY_PORT]);
        print_far_station(image, table + PZ_TABLE_BRIGADE, entry[PZ_ENTRY_PORT]);
        printf("\n");
    }
}

static void print_tables(const uint8_t *chart, size_t n, const uint8_t *image)
{
    uint8_t table[PZ_TABLE_SIZE];
    uint16_t place;
    for (unsigned i = 0; i < image[PZ_CHART_NODE_COUNT]; i++) {
        const uint8_t *node = image + PZ_NODE_AT(i), *station = node + PZ_NODE_STATION;
        print_node(node);
        printf("\n");
        if (pz_table(chart, n, station[PZ_ADDRESS_BRIGADE], pz_word(station + PZ_ADDRESS_NODE),
                     table, sizeof table, &place) == PZ_DONE)
            print_table(image, table);
    }
}

int main(void)
{
    uint8_t chart[PZ_LONGEST_INPUT], image[PZ_CHART_IMAGE_SIZE];
    uint16_t place;
    size_t n = fread(chart, 1, sizeof chart, stdin);
    if (ferror(stdin)) {
        perror("tables: standard input");
        return FAILED;
    }
    uint8_t refusal = pz_chart_read(chart, n, image, sizeof image, &place);
    if (refusal == PZ_DONE) {
        print_tables(chart, n, image);
    } else {
        printf("refused %u at %u\n", refusal, place);
        fprintf(stderr, "tables: refused %u at %u: %s\n", refusal, place, pz_refusal_text(refusal));
    }
    if (ferror(stdout) != 0 || fclose(stdout) != 0) {
        perror("tables: standard output");
        return FAILED;
    }
    return refusal == PZ_DONE ? PRINTED : REFUSED;
}
