/* Reads one damaged chart from standard input and mends it: prints a line for each field that is
 * dropped, with its number, its place and the number in words; then how many bytes are kept, and
 * how many nodes and links these are read as. Or that nothing can be kept; standard error then has
 * the number in words. Exit status: 0 printed, 1 refused, 2 not read or not written. */
#include <stdio.h>

#include "poztecameh_names.h"

enum { PRINTED = 0, REFUSED = 1, FAILED = 2 };

/* What came back: a chart of `kept` bytes, and `listed` bytes of entries. */
struct mended {
    uint8_t chart[PZ_CHART_SIZE], list[PZ_LIST_SIZE];
    uint16_t kept;
    uint32_t listed;
};

/* One entry for each field that is dropped, in their order. */
static void print_dropped(const struct mended *m)
{
    for (size_t i = 0; i < m->listed / PZ_DROPPED_SIZE; i++) {
        const uint8_t *entry = m->list + PZ_DROPPED_AT(i);
        uint8_t number = entry[PZ_DROPPED_NUMBER];
        printf("dropped %u at %u: %s\n", number, pz_word(entry + PZ_DROPPED_PLACE),
               pz_refusal_text(number));
    }
}

/* What is kept is a chart: pz_chart_read takes it. */
static void print_kept(const struct mended *m, size_t n)
{
    uint8_t image[PZ_CHART_IMAGE_SIZE];
    uint16_t place;
    uint8_t refusal = pz_chart_read(m->chart, m->kept, image, sizeof image, &place);
    printf("kept %u of %zu bytes\n", m->kept, n);
    if (refusal == PZ_DONE)
        printf("read: nodes %u links %u\n", image[PZ_CHART_NODE_COUNT], image[PZ_CHART_LINK_COUNT]);
    else
        printf("read: refused %u at %u\n", refusal, place);
}

int main(void)
{
    /* One byte more than the longest input tells that an input is too long. */
    static uint8_t damaged[PZ_LONGEST_DAMAGED + 1];
    static struct mended m;
    size_t n = fread(damaged, 1, sizeof damaged, stdin);
    if (ferror(stdin)) {
        perror("mend: standard input");
        return FAILED;
    }
    uint8_t refusal =
        pz_mend(damaged, n, m.chart, sizeof m.chart, &m.kept, m.list, sizeof m.list, &m.listed);
    if (refusal == PZ_DONE) {
        print_dropped(&m);
        print_kept(&m, n);
    } else {
        printf("refused %u\n", refusal);
        fprintf(stderr, "mend: refused %u: %s\n", refusal, pz_refusal_text(refusal));
    }
    if (ferror(stdout) != 0 || fclose(stdout) != 0) {
        perror("mend: standard output");
        return FAILED;
    }
    return refusal == PZ_DONE ? PRINTED : REFUSED;
}
