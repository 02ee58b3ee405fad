/* Reads one frame from standard input and prints its fields, or the number that it is refused with
 * and the place; standard error then has the number in words. Exit status: 0 printed, 1 refused, 2 not read or not
 * written. */
#include <stdio.h>

#include "poztecameh_names.h"

enum { PRINTED = 0, REFUSED = 1, FAILED = 2 };

static void print_address(const char *name, const uint8_t *at)
{
    printf("%s %u/%u/%u\n", name, at[PZ_ADDRESS_BRIGADE], pz_word(at + PZ_ADDRESS_NODE),
           at[PZ_ADDRESS_PORT]);
}

static void print_envelope(const uint8_t *image)
{
    print_address("source", image + PZ_ENVELOPE_SOURCE);
    for (unsigned place = 0; place < image[PZ_ENVELOPE_COUNT]; place++)
        print_address("destination", image + PZ_DESTINATION_AT(place));
    printf("priority %u\n", image[PZ_ENVELOPE_PRIORITY]);
    printf("version %u\n", image[PZ_ENVELOPE_VERSION]);
    printf("acknowledgement %s\n", image[PZ_ENVELOPE_ACK] ? "asked for" : "not asked for");
    printf("sequence %u\n", pz_word(image + PZ_ENVELOPE_SEQ));
    printf("type %u\n", image[PZ_ENVELOPE_TYPE]);
    printf("contents %u bytes from byte %u\n", pz_word(image + PZ_ENVELOPE_LENGTH),
           pz_word(image + PZ_ENVELOPE_OFFSET));
}

int main(void)
{
    /* One byte more than the longest frame tells that bytes stand after it. */
    uint8_t frame[PZ_FRAME_SIZE + 1], image[PZ_ENVELOPE_SIZE];
    size_t n = fread(frame, 1, sizeof frame, stdin);
    if (ferror(stdin)) {
        perror("frame: standard input");
        return FAILED;
    }
    uint16_t place;
    uint8_t refusal = pz_read(frame, n, image, sizeof image, &place);
    if (refusal == PZ_DONE) {
        print_envelope(image);
    } else {
        printf("refused %u at %u\n", refusal, place);
        fprintf(stderr, "frame: refused %u at %u: %s\n", refusal, place, pz_refusal_text(refusal));
    }
    if (ferror(stdout) != 0 || fclose(stdout) != 0) {
        perror("frame: standard output");
        return FAILED;
    }
    return refusal == PZ_DONE ? PRINTED : REFUSED;
}
