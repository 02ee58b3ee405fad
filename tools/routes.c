/* Prints every route of the question of the chart on standard input, one to a line: the places of
 * its links, or - for the empty one. The first of them come from one call, the others one by one. Of
 * a refused chart nothing is printed. refused.h has the exit status, and what standard error gets. */
#include <stdbool.h>

#include "refused.h"

static uint8_t slots[PZ_SLOT_AT(PZ_MOST_SLOTS)];

/* Prints the route in a slot; false where it can't be written. */
static bool print_route(const uint8_t *slot)
{
    if (slot[PZ_SLOT_LENGTH] == 0)
        return puts("-") != EOF;
    for (size_t i = 0; i < slot[PZ_SLOT_LENGTH]; i++)
        if (printf(i == 0 ? "%u" : " %u", slot[PZ_SLOT_LINKS + i]) < 0)
            return false;
    return putchar('\n') != EOF;
}

/* Prints the routes after the one in a slot, each in its place. */
static bool print_later(uint8_t *slot, size_t n)
{
    for (;;) {
        uint8_t length = pz_next(input, n, slot + PZ_SLOT_LINKS, PZ_ROUTE_SIZE,
                                 slot[PZ_SLOT_LENGTH]);
        if (!pz_is_route(length))
            return true;
        slot[PZ_SLOT_LENGTH] = length;
        if (!print_route(slot))
            return false;
    }
}

static bool print_routes(uint16_t count, bool more, size_t n)
{
    for (size_t place = 0; place < count; place++)
        if (!print_route(slots + PZ_SLOT_AT(place)))
            return false;
    return !more || print_later(slots + PZ_SLOT_AT(count - 1), n);
}

int main(void)
{
    uint16_t count, place;
    uint8_t more;
    tool = "routes";
    size_t n = fread(input, 1, sizeof input, stdin);
    if (ferror(stdin))
        return fail("standard input");
    if (n > PZ_LONGEST_INPUT)
        return too_long();
    uint8_t refusal = pz_routes(input, n, slots, sizeof slots, &count, &more, &place);
    if (refusal != PZ_DONE && refusal != PZ_NO_ROUTE)
        return explain(refusal, place, n);
    if (!print_routes(count, more == 1, n) || fclose(stdout) != 0)
        return fail("standard output");
    if (refusal == PZ_NO_ROUTE)
        fprintf(stderr, "tools/routes: there is no route\n");
    return DONE;
}
