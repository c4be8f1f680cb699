/* The start of an estimator: it asks obs which islands can be estimated, and prints for each its buses. A bus that stands alone has
 * nothing to estimate.
 *
 * Usage: islands NODES SWITCHES BRANCHES METERS, four tables in CSV. The status is that of obs, and 70 where this program fails.
 * From the top of the repository it is built by
 *
 *     cc -std=c99 -Iinclude -o islands examples/c/islands.c crates/obs_c/out/libobs.a
 */
#include <stdio.h>
#include <stdlib.h>
#include <string.h>

#include "obs.h"

enum { TABLES = 4, WORDS = TABLES + 2, OWN_FAILURE = 70 };

static const char WORDS_OF_CALL[] = "report\0tables\0nodes\0switches\0branches\0meters";

typedef struct {
    uint8_t *bytes;
    size_t length;
    size_t room;
} Block;

static void fail(const char *what, const char *which)
{
    fprintf(stderr, "islands: %s%s\n", what, which);
    exit(OWN_FAILURE);
}

static void make_room(Block *block, size_t room)
{
    uint8_t *bytes = realloc(block->bytes, room);
    if (bytes == NULL) fail("there is no memory", "");
    block->bytes = bytes;
    block->room = room;
}

/* Puts a file behind what the block has, and gives its length. */
static size_t add_file(Block *block, const char *name)
{
    const size_t before = block->length;
    FILE *file = fopen(name, "rb");
    if (file == NULL) fail("this file can't be read: ", name);
    for (;;) {
        size_t count;
        if (block->room - block->length < 65536) make_room(block, 2 * block->room);
        count = fread(block->bytes + block->length, 1, 65536, file);
        if (count == 0) break;
        block->length += count;
    }
    if (ferror(file)) fail("this file can't be read: ", name);
    fclose(file);
    return block->length - before;
}

/* Calls until the text has room. */
static int report(const Block *contents, const size_t lengths[WORDS], Block *text)
{
    for (;;) {
        const int status = obs_run((const uint8_t *)WORDS_OF_CALL, sizeof WORDS_OF_CALL, contents->bytes, contents->length,
                                   lengths, WORDS, contents->bytes, 0, text->bytes, text->room, &text->length);
        if (status != OBS_TEXT_TOO_LONG) return status;
        make_room(text, 4 * text->room);
    }
}

/* The words of a line `island FIRST BUS`, ended by zero bytes; the next line is given. */
static char *island_words(char *line, char **first, char **bus)
{
    char *end = strchr(line, '\n');
    *end = '\0';
    *first = NULL;
    if (strncmp(line, "island\t", 7) == 0) {
        *first = line + 7;
        *bus = strchr(*first, '\t');
        *(*bus)++ = '\0';
    }
    return end + 1;
}

typedef struct {
    const char *first, *bus;
    size_t at;
} Bus;

/* Buses of one island stand together, and keep their order. */
static int compare(const void *left, const void *right)
{
    const Bus *a = left, *b = right;
    const int order = strcmp(a->first, b->first);
    return order != 0 ? order : (a->at > b->at) - (a->at < b->at);
}

static void print_islands(char *text)
{
    size_t count = 0, room = 1, k;
    Bus *buses;
    char *line, *first, *bus;
    for (line = text; *line != '\0'; line++) room += *line == '\n';
    buses = malloc(room * sizeof *buses);
    if (buses == NULL) fail("there is no memory", "");
    for (line = text; *line != '\0';) {
        line = island_words(line, &first, &bus);
        if (first == NULL) continue;
        buses[count].first = first;
        buses[count].bus = bus;
        buses[count].at = count;
        count++;
    }
    qsort(buses, count, sizeof *buses, compare);
    for (k = 0; k < count; k++) {
        const int begins = k == 0 || strcmp(buses[k].first, buses[k - 1].first) != 0;
        const int ends = k + 1 == count || strcmp(buses[k].first, buses[k + 1].first) != 0;
        if (begins) printf(ends ? "alone\t" : "estimate\t");
        printf("%s%c", buses[k].bus, ends ? '\n' : '\t');
    }
    free(buses);
}

int main(int count, char **words)
{
    Block contents = {NULL, 0, 0}, text = {NULL, 0, 0};
    size_t lengths[WORDS] = {0, 0};
    int status, k;
    if (count != TABLES + 1) fail("usage: islands NODES SWITCHES BRANCHES METERS", "");
    make_room(&contents, 131072);
    make_room(&text, 65536);
    for (k = 0; k < TABLES; k++) lengths[k + 2] = add_file(&contents, words[k + 1]);
    status = report(&contents, lengths, &text);
    make_room(&text, text.length + 1);
    text.bytes[text.length] = '\0';
    if (status == OBS_DONE || status == OBS_SHORT) {
        print_islands((char *)text.bytes);
    } else {
        fwrite(text.bytes, 1, text.length, stderr);
    }
    free(contents.bytes);
    free(text.bytes);
    return status;
}
