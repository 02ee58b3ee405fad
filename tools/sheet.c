/* Prints the sheet of the chart on standard input; that of a refused one has one line. refused.h has
 * the exit status, and what standard error gets. */
#include "refused.h"

static uint8_t text[PZ_SHEET_SIZE];

/* Says why an input has no sheet but one line. */
static int judge(size_t n)
{
    uint8_t image[PZ_CHART_IMAGE_SIZE];
    uint16_t place;
    if (n > PZ_LONGEST_INPUT)
        return too_long();
    uint8_t refusal = pz_chart_read(input, n, image, sizeof image, &place);
    return refusal == PZ_DONE ? DONE : explain(refusal, place, n);
}

int main(void)
{
    uint32_t written;
    tool = "sheet";
    size_t n = fread(input, 1, sizeof input, stdin);
    if (ferror(stdin))
        return fail("standard input");
    uint8_t refusal = pz_sheet(input, n, text, sizeof text, &written);
    if (refusal != PZ_DONE) {
        fprintf(stderr, "tools/sheet: refused %u: %s\n", refusal, pz_refusal_text(refusal));
        return FAILED;
    }
    if (fwrite(text, 1, written, stdout) != written || fclose(stdout) != 0)
        return fail("standard output");
    return judge(n);
}
