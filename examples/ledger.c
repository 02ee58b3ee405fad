/* Follows one message of node 9/1 to three destinations: it writes the frame, takes it into the
 * ledger, and prints the legs after each call. Exit status: 0 printed, 2 not written. */
#include <stdio.h>
#include <string.h>

#include "poztecameh_names.h"

enum { PRINTED = 0, FAILED = 2 };

/* The message's sequence number, and the ticks that its legs stay open. */
enum { SEQ = 300, TICKS = 2 };

static uint8_t ledger[PZ_LEDGER_SIZE], table[PZ_TABLE_SIZE], frame[PZ_FRAME_SIZE];

static void print_address(const uint8_t *at)
{
    printf("%u/%u/%u", at[PZ_ADDRESS_BRIGADE], pz_word(at + PZ_ADDRESS_NODE), at[PZ_ADDRESS_PORT]);
}

static void print_leg(const uint8_t *leg)
{
    uint8_t standing = leg[PZ_LEG_STANDING];
    printf("  ");
    print_address(leg + PZ_LEG_SOURCE);
    printf(" to ");
    print_address(leg + PZ_LEG_DESTINATION);
    printf(", message %u: %s", pz_word(leg + PZ_LEG_SEQ), pz_standing_text(standing));
    if (pz_is_open(standing))
        printf(", ticks %u", pz_word(leg + PZ_LEG_TICKS));
    if (standing == PZ_REFUSED)
        printf(", reason set %u code %u", leg[PZ_LEG_SET], leg[PZ_LEG_CODE]);
    printf("\n");
}

/* Prints what was done, or why it is refused, and the ledger after it. */
static void show(const char *done, uint8_t refusal)
{
    printf("%s: %s\n", done, refusal == PZ_DONE ? "done" : pz_refusal_text(refusal));
    for (unsigned place = 0; place < ledger[PZ_LEDGER_COUNT]; place++)
        print_leg(ledger + PZ_LEG_AT(place));
}

/* The own node, and one entry that is on: brigade 9 goes out by port 3. */
static void put_table(void)
{
    uint8_t *entry = table + PZ_ENTRY_AT(0);
    pz_put_station(table + PZ_TABLE_BRIGADE, 9, 1);
    table[PZ_TABLE_COUNT] = 1;
    entry[PZ_ENTRY_KIND] = PZ_KIND_BRIGADE;
    entry[PZ_ENTRY_BRIGADE] = 9;
    entry[PZ_ENTRY_PORT] = 3;
    entry[PZ_ENTRY_ON] = 1;
}

/* A message that asks for an acknowledgement, to two nodes of brigade 9 and to one of brigade 12.
 */
static uint8_t put_frame(uint16_t *size)
{
    static const char contents[] = "Fire, Quay Street";
    uint8_t image[PZ_ENVELOPE_SIZE] = {0};
    pz_put_address(image + PZ_ENVELOPE_SOURCE, 9, 1, 2);
    image[PZ_ENVELOPE_COUNT] = 3;
    image[PZ_ENVELOPE_PRIORITY] = 2;
    image[PZ_ENVELOPE_VERSION] = 1;
    image[PZ_ENVELOPE_ACK] = 1;
    pz_put_word(image + PZ_ENVELOPE_SEQ, SEQ);
    image[PZ_ENVELOPE_TYPE] = 2;
    pz_put_address(image + PZ_DESTINATION_AT(0), 9, 20, 5);
    pz_put_address(image + PZ_DESTINATION_AT(1), 9, 21, 5);
    pz_put_address(image + PZ_DESTINATION_AT(2), 12, 7, 1);
    return pz_write(image, sizeof image, (const uint8_t *)contents, strlen(contents), frame,
                    sizeof frame, size);
}

int main(void)
{
    uint16_t size, place;
    uint8_t count, refusal;
    put_table();
    refusal = put_frame(&size);
    show("write", refusal);
    refusal = pz_accept(ledger, sizeof ledger, frame, size, 0, table, sizeof table, TICKS, &count,
                        &place);
    show("accept", refusal);
    show("NAK by 9/20/5", pz_answer(ledger, sizeof ledger, 9, 20, 5, 9, 1, 2, SEQ, 1, 1, 7));
    show("ACK by 9/20/5", pz_answer(ledger, sizeof ledger, 9, 20, 5, 9, 1, 2, SEQ, 0, 0, 0));
    show("wait by 9/21/5", pz_answer(ledger, sizeof ledger, 9, 21, 5, 9, 1, 2, SEQ, 1,
                                     PZ_SET_ALERTER, PZ_CODE_WAIT_ACK));
    show("tick", pz_tick(ledger, sizeof ledger, &count));
    show("tick", pz_tick(ledger, sizeof ledger, &count));
    printf("timed out in this tick: %u\n", count);
    show("clear at 0", pz_clear(ledger, sizeof ledger, 0));
    return ferror(stdout) == 0 && fclose(stdout) == 0 ? PRINTED : FAILED;
}
