/* Reads one chart from standard input and prints the stations along each of its routes, or where it
 * is refused; standard error then has the number in words. Exit status: 0 printed, 1 refused, 2 not
 * read or not written. */
#include <stdio.h>
#include <string.h>

#include "poztecameh_names.h"

enum { PRINTED = 0, REFUSED = 1, FAILED = 2 };

static void print_station(const uint8_t *at)
{
    printf("%u/%u", at[PZ_ADDRESS_BRIGADE], pz_word(at + PZ_ADDRESS_NODE));
}

/* A link leads from the station that is reached to the one at its other end. */
static const uint8_t *far_end(const uint8_t *link, const uint8_t *station)
{
    bool first = memcmp(station, link + PZ_LINK_END, PZ_STATION_SIZE) == 0;
    return link + (first ? PZ_LINK_OTHER_END : PZ_LINK_END);
}

static void print_route(const uint8_t *image, const uint8_t *route, unsigned length)
{
    const uint8_t *station = image + PZ_CHART_FROM;
    print_station(station);
    for (unsigned step = 0; step < length; step++) {
        station = far_end(image + PZ_LINK_AT(route[step]), station);
        printf(" - ");
        print_station(station);
    }
    printf("\n");
}

/* The first route, then the next after each until there is none. */
static void print_routes(const uint8_t *chart, size_t n, const uint8_t *image)
{
    uint8_t route[PZ_ROUTE_SIZE];
    unsigned routes = 0;
    uint8_t answer = pz_first(chart, n, route, sizeof route, 0);
    while (pz_is_route(answer)) {
        print_route(image, route, answer);
        routes++;
        answer = pz_next(chart, n, route, sizeof route, answer);
    }
    printf("routes %u\n", routes);
}

int main(void)
{
    uint8_t chart[PZ_LONGEST_INPUT], image[PZ_CHART_IMAGE_SIZE];
    uint16_t place;
    size_t n = fread(chart, 1, sizeof chart, stdin);
    if (ferror(stdin)) {
        perror("screen: standard input");
        return FAILED;
    }
    uint8_t refusal = pz_chart_read(chart, n, image, sizeof image, &place);
    if (refusal == PZ_DONE) {
        print_routes(chart, n, image);
    } else {
        printf("refused %u at %u\n", refusal, place);
        fprintf(stderr, "screen: refused %u at %u: %s\n", refusal, place, pz_refusal_text(refusal));
    }
    if (ferror(stdout) != 0 || fclose(stdout) != 0) {
        perror("screen: standard output");
        return FAILED;
    }
    return refusal == PZ_DONE ? PRINTED : REFUSED;
}
