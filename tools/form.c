/* Writes the chart on standard input in the other form of links: form renew, with a direction for
 * each link, or form restore, without. Of a refused chart nothing is written. refused.h has the exit
 * status, and what standard error gets. */
#include "refused.h"

static uint8_t moved[PZ_CHART_SIZE];

int main(int count, char **words)
{
    uint16_t written, place;
    tool = count == 2 && strcmp(words[1], "restore") == 0 ? "restore" : "renew";
    size_t n = fread(input, 1, sizeof input, stdin);
    if (ferror(stdin))
        return fail("standard input");
    if (n > PZ_LONGEST_INPUT)
        return too_long();
    uint8_t refusal =
        strcmp(tool, "restore") == 0
            ? pz_chart_restore(input, n, moved, sizeof moved, &written, &place)
            : pz_chart_renew(input, n, moved, sizeof moved, &written, &place);
    if (refusal != PZ_DONE)
        return explain(refusal, place, n);
    if (fwrite(moved, 1, written, stdout) != written || fclose(stdout) != 0)
        return fail("standard output");
    return DONE;
}
