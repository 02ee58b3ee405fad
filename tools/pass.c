/* Prints the way of a message over the chart on standard input, by the tables that are written from
 * it: pass BRIGADE NODE BRIGADE NODE PORT, where it begins and what it is for. A line for each node
 * that it comes to. Of a refused chart nothing is printed. refused.h has the exit status, and what
 * standard error gets. */
#include <stdbool.h>
#include <stdlib.h>

#include "refused.h"

static uint8_t image[PZ_CHART_IMAGE_SIZE], tables[PZ_TABLES_SIZE], way[PZ_WAY_SIZE];

/* The table of each node. A chart that can't be read has none, and is refused later. */
static void write_tables(size_t n)
{
    uint16_t place;
    if (pz_chart_read(input, n, image, sizeof image, &place) != PZ_DONE)
        return;
    for (unsigned i = 0; i < image[PZ_CHART_NODE_COUNT]; i++) {
        const uint8_t *station = image + PZ_NODE_AT(i) + PZ_NODE_STATION;
        pz_table(input, n, station[PZ_ADDRESS_BRIGADE], pz_word(station + PZ_ADDRESS_NODE),
                 tables + PZ_TABLE_AT(i), PZ_TABLE_SIZE, &place);
    }
}

/* Prints a node's station, and its label if it has one; false where it can't be written. */
static bool print_node(const uint8_t *node)
{
    const uint8_t *station = node + PZ_NODE_STATION;
    int length = node[PZ_NODE_LABEL_LENGTH];
    return printf("%u/%u", station[PZ_ADDRESS_BRIGADE], pz_word(station + PZ_ADDRESS_NODE)) > 0 &&
           (length == 0 || printf(" %.*s", length, (const char *)node + PZ_NODE_LABEL) > 0) &&
           putchar('\n') != EOF;
}

static bool print_way(uint8_t places)
{
    for (unsigned i = 0; i < places; i++)
        if (!print_node(image + PZ_NODE_AT(way[i])))
            return false;
    return true;
}

int main(int count, char **words)
{
    uint8_t places, ending;
    uint16_t place;
    int numbers[5];
    tool = "pass";
    if (count != 6)
        return FAILED;
    for (int i = 0; i < 5; i++)
        numbers[i] = atoi(words[i + 1]);
    size_t n = fread(input, 1, sizeof input, stdin);
    if (ferror(stdin))
        return fail("standard input");
    if (n > PZ_LONGEST_INPUT)
        return too_long();
    write_tables(n);
    uint8_t refusal = pz_pass(input, n, tables, sizeof tables, (uint8_t)numbers[0],
                              (uint16_t)numbers[1], (uint8_t)numbers[2], (uint16_t)numbers[3],
                              (uint8_t)numbers[4], way, sizeof way, &places, &ending, &place);
    if (refusal != PZ_DONE)
        return explain(refusal, place, n);
    if (!print_way(places) || fclose(stdout) != 0)
        return fail("standard output");
    if (ending != PZ_DELIVERED)
        fprintf(stderr, "tools/pass: the message ends %s\n", pz_ending_text(ending));
    return DONE;
}
