/* Writes what is left of the damaged chart on standard input, and says on standard error what is
 * dropped: a line for each field. Of a refused input nothing is written. refused.h has the exit
 * status. */
#include "refused.h"

/* One byte more than the longest input tells that an input is too long. */
static uint8_t damaged[PZ_LONGEST_DAMAGED + 1], chart[PZ_CHART_SIZE], list[PZ_LIST_SIZE];

static void say_dropped(const uint8_t *entry)
{
    uint8_t number = entry[PZ_DROPPED_NUMBER];
    fprintf(stderr, "tools/mend: dropped %u at %u: %s\n", number,
            pz_word(entry + PZ_DROPPED_PLACE), pz_refusal_text(number));
}

int main(void)
{
    uint16_t kept;
    uint32_t listed;
    tool = "mend";
    size_t n = fread(damaged, 1, sizeof damaged, stdin);
    if (ferror(stdin))
        return fail("standard input");
    uint8_t refusal = pz_mend(damaged, n, chart, sizeof chart, &kept, list, sizeof list, &listed);
    if (refusal != PZ_DONE) {
        fprintf(stderr, "tools/mend: refused %u: %s\n", refusal, pz_refusal_text(refusal));
        return REFUSED;
    }
    if (fwrite(chart, 1, kept, stdout) != kept || fclose(stdout) != 0)
        return fail("standard output");
    for (size_t at = 0; at < listed; at += PZ_DROPPED_SIZE)
        say_dropped(list + at);
    return DONE;
}
