/* Makes the routing table of node 9/1 and asks it where messages go: one node's entry, which is
 * off, then one for a brigade, then one for everything else. Exit status: 0 printed, 2 not written.
 */
#include <stdio.h>

#include "poztecameh_names.h"

enum { PRINTED = 0, FAILED = 2 };

struct entry {
    uint8_t kind, brigade;
    uint16_t node;
    uint8_t port, on;
};

/* A message for an address that came in by a port; port 0 is where messages begin here. */
struct message {
    uint8_t brigade;
    uint16_t node;
    uint8_t port, arrival;
};

static const struct entry entries[] = {
    {PZ_KIND_NODE, 9, 20, 2, 0},
    {PZ_KIND_BRIGADE, 9, 0, 3, 1},
    {PZ_KIND_EVERYTHING, 0, 0, 4, 1},
};

static const struct message messages[] = {
    {9, 20, 5, 0}, {9, 20, 5, 3}, {12, 7, 1, 4}, {9, 1, 6, 0}, {9, 1, 64, 0},
};

static void put_entry(uint8_t *at, const struct entry *entry)
{
    at[PZ_ENTRY_KIND] = entry->kind;
    at[PZ_ENTRY_BRIGADE] = entry->brigade;
    pz_put_word(at + PZ_ENTRY_NODE, entry->node);
    at[PZ_ENTRY_PORT] = entry->port;
    at[PZ_ENTRY_ON] = entry->on;
}

static void put_table(uint8_t *table)
{
    uint8_t count = sizeof entries / sizeof entries[0];
    table[PZ_TABLE_BRIGADE] = 9;
    pz_put_word(table + PZ_TABLE_NODE, 1);
    table[PZ_TABLE_COUNT] = count;
    for (uint8_t place = 0; place < count; place++)
        put_entry(table + PZ_ENTRY_AT(place), entries + place);
}

static void print_choice(const uint8_t *table, const struct message *m)
{
    uint8_t local, out;
    uint8_t refusal =
        pz_choose(table, PZ_TABLE_SIZE, m->brigade, m->node, m->port, m->arrival, &local, &out);
    printf("%u/%u/%u from port %u: ", m->brigade, m->node, m->port, m->arrival);
    if (refusal != PZ_DONE)
        printf("refused %u: %s\n", refusal, pz_refusal_text(refusal));
    else if (local)
        printf("for this node, at port %u\n", out);
    else
        printf("out by port %u\n", out);
}

int main(void)
{
    uint8_t table[PZ_TABLE_SIZE];
    put_table(table);
    for (size_t i = 0; i < sizeof messages / sizeof messages[0]; i++)
        print_choice(table, messages + i);
    return ferror(stdout) == 0 && fclose(stdout) == 0 ? PRINTED : FAILED;
}
