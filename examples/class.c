/* Reads one chart from standard input, writes the routing table of each of its nodes, and passes a
 * message by them from the question's first node to its second: a line for each node that it comes
 * to, with the port that it came in by, and how it ended; or where the chart is refused. Standard
 * error then has the number in words. Exit status: 0 printed, 1 refused, 2 not read or not written.
 */
#include <stdio.h>

#include "poztecameh_names.h"

enum { PRINTED = 0, REFUSED = 1, FAILED = 2 };

enum { PORT = 1 }; /* that the message is for */

/* A chart, its values, and a table for each of its nodes. */
struct lesson {
    uint8_t chart[PZ_LONGEST_INPUT], image[PZ_CHART_IMAGE_SIZE], tables[PZ_TABLES_SIZE];
    size_t n;
};

static uint16_t node_of(const uint8_t *station) { return pz_word(station + PZ_ADDRESS_NODE); }

/* The tables of the nodes, in their order; those after them are not looked at. */
static void write_tables(struct lesson *l)
{
    uint16_t place;
    for (unsigned i = 0; i < l->image[PZ_CHART_NODE_COUNT]; i++) {
        const uint8_t *station = l->image + PZ_NODE_AT(i) + PZ_NODE_STATION;
        pz_table(l->chart, l->n, station[PZ_ADDRESS_BRIGADE], node_of(station),
                 l->tables + PZ_TABLE_AT(i), PZ_TABLE_SIZE, &place);
    }
}

static uint8_t begin(const struct lesson *l, uint8_t *message)
{
    const uint8_t *from = l->image + PZ_CHART_FROM, *to = l->image + PZ_CHART_TO;
    uint16_t place;
    return pz_begin(l->chart, l->n, l->tables, sizeof l->tables, from[PZ_ADDRESS_BRIGADE],
                    node_of(from), to[PZ_ADDRESS_BRIGADE], node_of(to), PORT, message,
                    PZ_MESSAGE_SIZE, &place);
}

static uint8_t step(const struct lesson *l, uint8_t *message)
{
    const uint8_t *to = l->image + PZ_CHART_TO;
    uint16_t place;
    return pz_step(l->chart, l->n, l->tables, sizeof l->tables, to[PZ_ADDRESS_BRIGADE], node_of(to),
                   PORT, message, PZ_MESSAGE_SIZE, &place);
}

/* The node where a message is, and the port that it came in by, unless it began there. */
static void print_hop(const struct lesson *l, const uint8_t *message)
{
    const uint8_t *node = l->image + PZ_NODE_AT(message[PZ_MESSAGE_PLACE]);
    int length = node[PZ_NODE_LABEL_LENGTH];
    printf("%u/%u", node[PZ_NODE_STATION + PZ_ADDRESS_BRIGADE], node_of(node + PZ_NODE_STATION));
    if (length > 0)
        printf(" %.*s", length, (const char *)node + PZ_NODE_LABEL);
    if (message[PZ_MESSAGE_ARRIVAL] != 0)
        printf(": in by port %u", message[PZ_MESSAGE_ARRIVAL]);
    printf("\n");
}

/* With other tables a message may come to a node that it has met, and ends there. */
static void print_way(const struct lesson *l)
{
    uint8_t message[PZ_MESSAGE_SIZE] = {0}, *ending = message + PZ_MESSAGE_ENDING;
    uint8_t refusal = begin(l, message);
    while (refusal == PZ_DONE && *ending == PZ_UNDER_WAY) {
        print_hop(l, message);
        refusal = step(l, message);
    }
    if (*ending == PZ_MET_BEFORE)
        print_hop(l, message);
    printf("%s\n", refusal == PZ_DONE ? pz_ending_text(*ending) : pz_refusal_text(refusal));
}

int main(void)
{
    static struct lesson l;
    uint16_t place;
    l.n = fread(l.chart, 1, sizeof l.chart, stdin);
    if (ferror(stdin)) {
        perror("class: standard input");
        return FAILED;
    }
    uint8_t refusal = pz_chart_read(l.chart, l.n, l.image, sizeof l.image, &place);
    if (refusal == PZ_DONE) {
        write_tables(&l);
        print_way(&l);
    } else {
        printf("refused %u at %u\n", refusal, place);
        fprintf(stderr, "class: refused %u at %u: %s\n", refusal, place, pz_refusal_text(refusal));
    }
    if (ferror(stdout) != 0 || fclose(stdout) != 0) {
        perror("class: standard output");
        return FAILED;
    }
    return refusal == PZ_DONE ? PRINTED : REFUSED;
}
