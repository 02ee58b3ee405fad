/* One call of the door on a chart, made over and over: charts CALL FILE TIMES.
   CALL is none, read, write, renew, table (of the node that the question begins at), pass (a message from that node to the question's other, by the tables
   written from the chart), sheet, first, or short (first with a buffer of 14 bytes: all that comes before the search). The chart is read and written once
   before that, and so are its tables. Sums over its image, over the bytes written, and over the table or the way are printed, as the ordinary program prints
   them. */
#include <stdio.h>
#include <stdlib.h>
#include <string.h>

#include "poztecameh.h"

static uint8_t chart[4096], image[PZ_CHART_IMAGE_SIZE], bytes[4096], table[PZ_TABLE_SIZE], tables[PZ_TABLES_SIZE], way[PZ_WAY_SIZE], route[PZ_ROUTE_SIZE],
    text[PZ_SHEET_SIZE];

static uint64_t sum_of(const uint8_t *bytes, size_t n)
{
    uint64_t sum = 0;
    for (size_t i = 0; i < n; i++)
        sum = sum * 31 + bytes[i];
    return sum;
}

static uint16_t word_at(size_t at)
{
    return (uint16_t)(image[at] * 256 + image[at + 1]);
}

/* The tables of all nodes, which stand in the image from byte 9 on, 28 bytes each. */
static int write_tables(size_t n)
{
    uint16_t place;
    for (size_t i = 0, at = 9; i < image[0]; i++, at += 28)
        if (pz_table(chart, n, image[at], word_at(at + 1), tables + i * PZ_TABLE_SIZE, PZ_TABLE_SIZE, &place) != 0)
            return 0;
    return 1;
}

int main(int count, char **words)
{
    FILE *file = count == 4 ? fopen(words[2], "rb") : NULL;
    if (file == NULL)
        return 2;
    size_t n = fread(chart, 1, sizeof chart, file);
    const char *call = words[1];
    uint16_t place, written;
    uint32_t size;
    uint8_t places = 0, ending = 0;
    if (pz_chart_read(chart, n, image, sizeof image, &place) != 0 ||
        pz_chart_write(image, sizeof image, bytes, sizeof bytes, &written) != 0 || !write_tables(n))
        return 1;
    uint16_t own = word_at(4), to = word_at(7);
    unsigned last = 0;
    for (int times = atoi(words[3]); times > 0; times--) {
        if (strcmp(call, "read") == 0)
            last = pz_chart_read(chart, n, image, sizeof image, &place);
        else if (strcmp(call, "write") == 0)
            last = pz_chart_write(image, sizeof image, bytes, sizeof bytes, &written);
        else if (strcmp(call, "renew") == 0)
            last = pz_chart_renew(chart, n, bytes, sizeof bytes, &written, &place);
        else if (strcmp(call, "table") == 0)
            last = pz_table(chart, n, image[3], own, table, sizeof table, &place);
        else if (strcmp(call, "pass") == 0)
            last = pz_pass(chart, n, tables, sizeof tables, image[3], own, image[6], to, 1, way, sizeof way, &places,
                           &ending, &place);
        else if (strcmp(call, "sheet") == 0)
            last = pz_sheet(chart, n, text, sizeof text, &size);
        else if (strcmp(call, "first") == 0)
            last = pz_first(chart, n, route, sizeof route, 0) > PZ_ROUTE_SIZE;
        else if (strcmp(call, "short") == 0)
            last = pz_first(chart, n, route, sizeof route - 1, 0) != 42;
    }
    if (strcmp(call, "pass") == 0) {
        table[0] = places;
        table[1] = ending;
        memcpy(table + 2, way, places);
    }
    printf("%llu %llu %llu\n", (unsigned long long)sum_of(image, sizeof image), (unsigned long long)sum_of(bytes, sizeof bytes),
        (unsigned long long)sum_of(table, sizeof table));
    return last != 0;
}
