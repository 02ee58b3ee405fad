/* Writes the bytes of a chart that is typed as text on standard input, in the lines of the printed
 * sheet (docs/CHART.md, "As text"): in the plain form where every link goes both ways, else in the
 * directed one. A bad line is shown with its number and what is wrong, and
 * nothing is written. Exit status: 0 written, 1 the text is no chart, 2 it can't be read or the
 * bytes can't be written. */
#include <errno.h>
#include <stdarg.h>
#include <stdbool.h>
#include <stdio.h>
#include <stdlib.h>
#include <string.h>

#include "poztecameh_names.h"

enum { WRITTEN = 0, REFUSED = 1, FAILED = 2 };

/* The longest line that is no remark: twice the longest of any sheet. */
enum { MOST_LINE = 100 };

/* Printed as they are: those that a label may have. */
enum { FIRST_PRINTED = ' ', LAST_PRINTED = '~' };

static struct {
    unsigned number;
    char text[MOST_LINE + 1]; /* a byte of 0 stands after it */
    size_t length;
    bool cut;
    const char *at; /* what is read next */
} line;

/* What the first line of a sheet says, where it is there. */
static struct {
    unsigned line, nodes, links;
} said;

static uint8_t image[PZ_CHART_IMAGE_SIZE];
static bool asked;

/* Shows the line, with the byte that is read next marked, says what is wrong, and ends the program.
 */
_Noreturn static void bad(const char *format, ...)
{
    va_list values;
    va_start(values, format);
    fprintf(stderr, "tools/chart: line %u: ", line.number);
    vfprintf(stderr, format, values);
    fprintf(stderr, "\n  ");
    va_end(values);
    for (size_t i = 0; i < line.length; i++) {
        bool printed = FIRST_PRINTED <= line.text[i] && line.text[i] <= LAST_PRINTED;
        fputc(printed ? line.text[i] : '?', stderr);
    }
    fprintf(stderr, "%s\n  %*s^\n", line.cut ? ".." : "", (int)(line.at - line.text), "");
    exit(REFUSED);
}

_Noreturn static void refused(uint8_t refusal)
{
    line.at = line.text;
    bad("%s (refusal %u)", pz_refusal_text(refusal), refusal);
}

/* Reads the next line; of a longer one than MOST_LINE only its start is kept. */
static bool next_line(void)
{
    int byte = getchar();
    if (byte == EOF)
        return false;
    line.number++;
    line.length = 0;
    line.cut = false;
    line.at = line.text;
    for (; byte != EOF && byte != '\n'; byte = getchar()) {
        line.cut = line.length == MOST_LINE;
        if (!line.cut)
            line.text[line.length++] = (char)byte;
    }
    if (!line.cut && line.length > 0 && line.text[line.length - 1] == '\r')
        line.length--;
    line.text[line.length] = '\0';
    return true;
}

static bool at_end(void) { return line.at == line.text + line.length; }

static bool at_digit(void) { return '0' <= *line.at && *line.at <= '9'; }

static void skip_blanks(void)
{
    while (*line.at == ' ' || *line.at == '\t')
        line.at++;
}

/* Passes over a word and the blanks after it, if it stands here. */
static bool take(const char *word)
{
    size_t n = strlen(word);
    if (strncmp(line.at, word, n) != 0)
        return false;
    const char *after = line.at + n;
    if (*after != ' ' && *after != '\t' && after != line.text + line.length)
        return false;
    line.at = after;
    skip_blanks();
    return true;
}

static void want_end(void)
{
    skip_blanks();
    if (!at_end())
        bad("nothing more is wanted here");
}

static unsigned take_number(const char *name, unsigned lowest, unsigned highest)
{
    const char *start = line.at;
    unsigned value = 0;
    if (!at_digit())
        bad("a number is wanted here: %s, %u to %u", name, lowest, highest);
    for (; at_digit() && value <= highest; line.at++)
        value = value * 10 + (unsigned)(*line.at - '0');
    if (value < lowest || value > highest) {
        line.at = start;
        bad("%s is %u to %u", name, lowest, highest);
    }
    return value;
}

static void take_slash(const char *before)
{
    if (*line.at != '/')
        bad("a slash is wanted here, before %s", before);
    line.at++;
}

static void take_station(uint8_t *at)
{
    uint8_t brigade = (uint8_t)take_number("a brigade", 0, PZ_HIGHEST_BRIGADE);
    take_slash("the node");
    pz_put_station(at, brigade, (uint16_t)take_number("a node", 0, PZ_HIGHEST_NODE));
}

static void take_port(uint8_t *at)
{
    take_slash("the port");
    at[PZ_ADDRESS_PORT] = (uint8_t)take_number("a port", 1, PZ_HIGHEST_PORT);
    skip_blanks();
}

/* The writer's number of what there is so far, with a question that is right wherever a node is. */
static void test_so_far(void)
{
    uint8_t so_far[PZ_CHART_IMAGE_SIZE], bytes[PZ_CHART_SIZE];
    uint16_t written;
    memcpy(so_far, image, sizeof so_far);
    memcpy(so_far + PZ_CHART_FROM, image + PZ_NODE_AT(0) + PZ_NODE_STATION, PZ_STATION_SIZE);
    memcpy(so_far + PZ_CHART_TO, image + PZ_NODE_AT(0) + PZ_NODE_STATION, PZ_STATION_SIZE);
    uint8_t refusal = pz_chart_write(so_far, sizeof so_far, bytes, sizeof bytes, &written);
    if (refusal != PZ_DONE)
        refused(refusal);
}

static void test_place(unsigned place, unsigned count, const char *name)
{
    if (place == count)
        return;
    line.at = line.text;
    bad("this is %s %u, and places count from 0 without a gap", name, count);
}

/* The rest of the line after one blank. */
static void take_label(uint8_t *node)
{
    if (at_end())
        return;
    if (*line.at != ' ')
        bad("a blank and the label, or the end of the line, are wanted here");
    line.at++;
    const char *start = line.at;
    for (; !at_end(); line.at++)
        if (*line.at < FIRST_PRINTED || LAST_PRINTED < *line.at)
            bad("a label has only the bytes %d to %d", FIRST_PRINTED, LAST_PRINTED);
    size_t length = (size_t)(line.at - start);
    if (length > PZ_MOST_LABEL) {
        line.at = start + PZ_MOST_LABEL;
        bad("a label has %d bytes at most", PZ_MOST_LABEL);
    }
    node[PZ_NODE_LABEL_LENGTH] = (uint8_t)length;
    memcpy(node + PZ_NODE_LABEL, start, length);
}

static void take_node(unsigned place, const uint8_t *station)
{
    uint8_t count = image[PZ_CHART_NODE_COUNT];
    if (image[PZ_CHART_LINK_COUNT] > 0)
        refused(PZ_BAD_CHART_AFTER);
    if (count == PZ_MOST_NODES)
        refused(PZ_BAD_CHART_CROWD);
    uint8_t *node = image + PZ_NODE_AT(count);
    take_label(node);
    test_place(place, count, "node");
    memcpy(node + PZ_NODE_STATION, station, PZ_STATION_SIZE);
    image[PZ_CHART_NODE_COUNT]++;
}

/* A word for the direction may stand here; without one it is both ways. */
static uint8_t take_direction(void)
{
    for (uint8_t direction = PZ_BOTH_WAYS; direction <= PZ_BACK_ONLY; direction++)
        if (take(pz_direction_text(direction))) {
            if (direction != PZ_BOTH_WAYS)
                image[PZ_CHART_FORM] = PZ_FORM_DIRECTED;
            return direction;
        }
    return PZ_BOTH_WAYS;
}

static void take_link(unsigned place, const uint8_t *station)
{
    uint8_t count = image[PZ_CHART_LINK_COUNT];
    if (count == PZ_MOST_LINKS)
        refused(PZ_BAD_CHART_CROWD);
    uint8_t *link = image + PZ_LINK_AT(count);
    memcpy(link + PZ_LINK_END, station, PZ_STATION_SIZE);
    take_port(link + PZ_LINK_END);
    take_station(link + PZ_LINK_OTHER_END);
    take_port(link + PZ_LINK_OTHER_END);
    link[PZ_LINK_ON] = take("on");
    if (link[PZ_LINK_ON] == 0 && !take("off"))
        bad("on or off is wanted here");
    link[PZ_LINK_DIRECTION] = take_direction();
    want_end();
    test_place(place, count, "link");
    image[PZ_CHART_LINK_COUNT]++;
}

/* A node or a link: after the brigade and the node a link has a port. */
static void take_entry(void)
{
    uint8_t station[PZ_STATION_SIZE];
    unsigned place = take_number("a place", 0, PZ_MOST_LINKS);
    skip_blanks();
    take_station(station);
    if (*line.at == '/')
        take_link(place, station);
    else
        take_node(place, station);
    test_so_far();
}

static void take_question(void)
{
    uint8_t bytes[PZ_CHART_SIZE];
    uint16_t written;
    take_station(image + PZ_CHART_FROM);
    skip_blanks();
    if (!take("to"))
        bad("to is wanted here");
    take_station(image + PZ_CHART_TO);
    want_end();
    uint8_t refusal = pz_chart_write(image, sizeof image, bytes, sizeof bytes, &written);
    if (refusal != PZ_DONE)
        refused(refusal);
    asked = true;
}

static void take_counts(void)
{
    if (said.line != 0 || image[PZ_CHART_NODE_COUNT] + image[PZ_CHART_LINK_COUNT] > 0) {
        line.at = line.text;
        bad("the counts stand before everything else, and once");
    }
    said.line = line.number;
    said.nodes = take_number("how many nodes", 0, PZ_MOST_NODES);
    skip_blanks();
    if (!take("links"))
        bad("links is wanted here");
    said.links = take_number("how many links", 0, PZ_MOST_LINKS);
    want_end();
}

/* After the question come its routes, which the chart's bytes do not have. */
static void pass_route(void)
{
    if (take("end") || take("more") || take("-")) {
        want_end();
        return;
    }
    while (at_digit()) {
        take_number("a link's place", 0, PZ_MOST_LINKS - 1);
        skip_blanks();
    }
    if (!at_end()) {
        line.at = line.text;
        bad("after the question come routes, end or more");
    }
}

_Noreturn static void no_chart(void)
{
    line.at = line.text;
    bad("the sheet of a refused chart has nothing to write");
}

static void take_line(void)
{
    skip_blanks();
    if (*line.at == '#' || at_end())
        return;
    if (line.cut) {
        line.at = line.text + line.length;
        bad("a line has %d bytes at most", MOST_LINE);
    }
    if (asked)
        pass_route();
    else if (take("nodes"))
        take_counts();
    else if (take("from"))
        take_question();
    else if (at_digit())
        take_entry();
    else if (take("refused") || take("too"))
        no_chart();
    else
        bad("a line is like 0 9/1 Control or 0 9/1/2 9/20/1 on both or from 9/1 to 9/30");
}

static void test_whole(void)
{
    if (!asked) {
        fprintf(
            stderr,
            "tools/chart: the text ends after line %u without a question: from 9/1 to 9/30, say\n",
            line.number);
        exit(REFUSED);
    }
    unsigned nodes = image[PZ_CHART_NODE_COUNT], links = image[PZ_CHART_LINK_COUNT];
    if (said.line != 0 && (said.nodes != nodes || said.links != links)) {
        fprintf(
            stderr,
            "tools/chart: line %u: it says nodes %u links %u, and there are nodes %u links %u\n",
            said.line, said.nodes, said.links, nodes, links);
        exit(REFUSED);
    }
}

static int fail(const char *what)
{
    fprintf(stderr, "tools/chart: %s: %s\n", what, strerror(errno));
    return FAILED;
}

int main(void)
{
    uint8_t bytes[PZ_CHART_SIZE];
    uint16_t written;
    image[PZ_CHART_FORM] = PZ_FORM_PLAIN;
    while (next_line())
        take_line();
    if (ferror(stdin))
        return fail("standard input");
    test_whole();
    uint8_t refusal = pz_chart_write(image, sizeof image, bytes, sizeof bytes, &written);
    if (refusal != PZ_DONE)
        refused(refusal);
    if (fwrite(bytes, 1, written, stdout) != written || fclose(stdout) != 0)
        return fail("standard output");
    return WRITTEN;
}
