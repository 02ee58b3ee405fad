/* An afternoon at node 9/1: twelve calls on an empty ledger, the number and the count that each
 * gave back, and a tutor's account: a line for each leg that was accepted, struck out when cleared.
 * The ledger lists the lines that are not struck out. Exit status: 0 printed, 2 not written. */
#include <stdio.h>
#include <string.h>

#include "poztecameh_names.h"

enum { PRINTED = 0, FAILED = 2 };

/* A message of 9/1/5: its number, the ticks of its legs, the port that it comes in by, and whom it
 * is for. The table sends brigade 9 out by port 3, and nothing else. */
enum { SEQ = 7, TICKS = 2, ARRIVAL = 4 };
static const uint8_t to[][PZ_ADDRESS_SIZE] = {{9, 0, 20, 1}, {9, 0, 21, 1}, {12, 0, 7, 1}};
static const char *const names[] = {"9/20/1", "9/21/1", "12/7/1"};
static const uint8_t table[PZ_TABLE_SIZE] = {9, 0, 1, 1, PZ_KIND_BRIGADE, 9, 0, 0, 3, 1};

/* The calls; one that can reach a leg has the number of the standing that it leads to. */
enum { ACCEPT, ACK = PZ_ACKNOWLEDGED, TICK = PZ_TIMED_OUT, WAIT = PZ_WAITING, CLEAR };
static const struct call {
    const char *words;
    uint8_t kind, with; /* the frame's check character, who answers, or the place to clear */
} calls[] = {{"accept", ACCEPT, 239},     {"accept", ACCEPT, 239},   {"accept", ACCEPT, 238},
             {"wait by 9/20/1", WAIT, 0}, {"tick", TICK, 0},         {"ACK by 12/7/1", ACK, 2},
             {"clear at 0", CLEAR, 0},    {"clear at 2", CLEAR, 2},  {"ACK by 9/20/1", ACK, 0},
             {"tick", TICK, 0},           {"ACK by 9/21/1", ACK, 1}, {"clear at 0", CLEAR, 0}};

static uint8_t ledger[PZ_LEDGER_SIZE];
static struct line {
    uint8_t to, standing, ticks, struck;
    char events[99];
} lines[PZ_MOST_LEGS], *end = lines;

static uint8_t make(struct call c, uint8_t *count)
{
    uint8_t frame[] = {9, 0, 69, 0, 3, 9, 5, 1, 9, 5, 65, 12, 1, 193, 33, 0, 15, 2, c.with};
    uint16_t place;
    switch (c.kind) {
    case TICK: return pz_tick(ledger, sizeof ledger, count);
    case CLEAR: return pz_clear(ledger, sizeof ledger, c.with);
    case ACCEPT:
        return pz_accept(ledger, sizeof ledger, frame, sizeof frame, ARRIVAL, table, sizeof table,
                         TICKS, count, &place);
    default:
        return pz_answer(ledger, sizeof ledger, to[c.with][PZ_ADDRESS_BRIGADE],
                         pz_word(to[c.with] + PZ_ADDRESS_NODE), to[c.with][PZ_ADDRESS_PORT], 9, 1,
                         5, SEQ, c.kind == WAIT, PZ_SET_ALERTER, PZ_CODE_WAIT_ACK);
    }
}

/* What reaches a leg is written on its line, and counts while the leg is open. */
static void reach(struct line *l, struct call c)
{
    strcat(strcat(l->events, ", "), c.words);
    if (pz_is_open(l->standing) && (c.kind != TICK || --l->ticks == 0))
        l->standing = c.kind;
}

/* A leg to brigade 9 is accepted open, one to another undeliverable. */
static void write_down(struct call c, uint8_t refusal, uint8_t count)
{
    for (struct line *l = lines; l < end; l++) {
        if (!l->struck && c.kind == CLEAR)
            l->struck = refusal == PZ_DONE && c.with-- == 0;
        else if (!l->struck && c.kind != ACCEPT && (c.kind == TICK || l->to == c.with))
            reach(l, c);
    }
    for (uint8_t i = 0; c.kind == ACCEPT && i < count; i++) {
        uint8_t standing = to[i][PZ_ADDRESS_BRIGADE] == 9 ? PZ_OPEN : PZ_UNDELIVERABLE;
        struct line l = {i, standing, TICKS, 0, "accepted"};
        *end++ = l;
    }
}

int main(void)
{
    const uint8_t *leg = ledger + PZ_LEG_AT(0);
    for (size_t i = 0; i < sizeof calls / sizeof *calls; i++) {
        uint8_t count = 0, refusal = make(calls[i], &count);
        printf("%s: %u and %u, %s\n", calls[i].words, refusal, count, pz_refusal_text(refusal));
        write_down(calls[i], refusal, count);
    }
    printf("the account:\n");
    for (const struct line *l = lines; l < end; l++) {
        bool same = leg[PZ_LEG_STANDING] == l->standing &&
                    memcmp(leg + PZ_LEG_DESTINATION, to[l->to], PZ_ADDRESS_SIZE) == 0;
        printf("  to %s: %s: %s, %s\n", names[l->to], l->events, pz_standing_text(l->standing),
               l->struck ? "struck out" : same ? "as listed" : "not as listed");
        leg += l->struck ? 0 : PZ_LEG_SIZE;
    }
    printf("the ledger lists:\n");
    leg = ledger + PZ_LEG_AT(0);
    for (unsigned i = 0; i < ledger[PZ_LEDGER_COUNT]; i++, leg += PZ_LEG_SIZE) {
        const uint8_t *at = leg + PZ_LEG_DESTINATION;
        printf("  to %u/%u/%u: %s\n", at[PZ_ADDRESS_BRIGADE], pz_word(at + PZ_ADDRESS_NODE),
               at[PZ_ADDRESS_PORT], pz_standing_text(leg[PZ_LEG_STANDING]));
    }
    return ferror(stdout) == 0 && fclose(stdout) == 0 ? PRINTED : FAILED;
}
