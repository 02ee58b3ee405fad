/* What the tools on a chart have in common: how they end, their input, and what standard error gets
 * where it is refused: the number in words, and the bytes of the refused field with the first one
 * marked. */
#ifndef REFUSED_H
#define REFUSED_H

#include <errno.h>
#include <stdio.h>
#include <string.h>

#include "poztecameh_names.h"

/* Exit status: 0 the tool did what it was called for, 1 the chart is refused, 2 the input can't be
 * read or the output can't be written. */
enum { DONE = 0, REFUSED = 1, FAILED = 2 };

/* A field is shown as far as a node's goes whose label is the longest. */
enum { MOST_SHOWN = PZ_FIELD_BODY + PZ_STATION_SIZE + PZ_MOST_LABEL };

/* One byte more than the longest input tells that an input is too long. */
static uint8_t input[PZ_LONGEST_INPUT + 1];

/* The tool's name. */
static const char *tool;

static inline int fail(const char *what)
{
    fprintf(stderr, "tools/%s: %s: %s\n", tool, what, strerror(errno));
    return FAILED;
}

static inline int too_long(void)
{
    fprintf(stderr, "tools/%s: the input has more than %d bytes\n", tool, PZ_LONGEST_INPUT);
    return REFUSED;
}

/* How many bytes a field has from its place on, as far as the input goes. */
static inline size_t field_size(size_t place, size_t n)
{
    size_t left = n - place;
    if (left < PZ_FIELD_BODY)
        return left;
    size_t size = PZ_FIELD_BODY + (size_t)pz_word(input + place + PZ_FIELD_LENGTH);
    return size < left ? size : left;
}

static inline void show_field(size_t place, size_t n)
{
    size_t size = field_size(place, n);
    size_t shown = size < MOST_SHOWN ? size : MOST_SHOWN;
    fprintf(stderr, "  byte %zu:", place);
    for (size_t i = 0; i < shown; i++)
        fprintf(stderr, i == 0 ? " [%02x]" : " %02x", input[place + i]);
    if (shown < size)
        fprintf(stderr, " and %zu more", size - shown);
    else if (place + size == n)
        fprintf(stderr, "%s the input ends here", size == 0 ? "" : ",");
    fprintf(stderr, "\n");
}

/* Says why an input of n bytes is refused. A chart that can't be restored, or has no such node, has
 * no field to show. */
static inline int explain(uint8_t refusal, size_t place, size_t n)
{
    fprintf(stderr, "tools/%s: refused %u at %zu: %s\n", tool, refusal, place,
            pz_refusal_text(refusal));
    if (refusal != PZ_BAD_CHART_ONE_WAY && refusal != PZ_NO_NODE)
        show_field(place, n);
    return REFUSED;
}

#endif
