/* A session in another program: it answers lines as they come, as `obs session tables` does, and says of each line that is refused which
 * one it is. A line is answered before the next one is read, so a front end may write one and wait.
 *
 * Usage: lines NODES SWITCHES BRANCHES METERS <LINES, four tables in CSV. The status is that of obs, and 70 where this program fails.
 * From the top of the repository it is built by
 *
 *     cc -std=c99 -Iinclude -o lines examples/c/lines.c crates/obs_c/out/libobs.a
 */
#include <stdio.h>
#include <stdlib.h>
#include <string.h>

#include "obs.h"

enum { TABLES = 4, WORDS = TABLES + 2, OWN_FAILURE = 70 };

static const char WORDS_OF_CALL[] = "session\0tables\0nodes\0switches\0branches\0meters";

typedef struct {
    uint8_t *bytes;
    size_t length;
    size_t room;
} Block;

static void fail(const char *what, const char *which)
{
    fprintf(stderr, "lines: %s%s\n", what, which);
    exit(OWN_FAILURE);
}

static void make_room(Block *block, size_t room)
{
    uint8_t *bytes = realloc(block->bytes, room);
    if (bytes == NULL) fail("there is no memory", "");
    block->bytes = bytes;
    block->room = room;
}

static void add_byte(Block *block, int byte)
{
    if (block->length == block->room) make_room(block, 2 * block->room);
    block->bytes[block->length++] = (uint8_t)byte;
}

/* Puts a file behind what the block has, and gives its length. */
static size_t add_file(Block *block, const char *name)
{
    const size_t before = block->length;
    FILE *file = fopen(name, "rb");
    int byte;
    if (file == NULL) fail("this file can't be read: ", name);
    while ((byte = getc(file)) != EOF) add_byte(block, byte);
    if (ferror(file)) fail("this file can't be read: ", name);
    fclose(file);
    return block->length - before;
}

/* Reads a line without its end. 0 where there is none any more. */
static int read_line(Block *line)
{
    int byte = getchar();
    if (byte == EOF) return 0;
    for (line->length = 0; byte != EOF && byte != '\n'; byte = getchar()) add_byte(line, byte);
    if (line->length > 0 && line->bytes[line->length - 1] == '\r') line->length--;
    return 1;
}

/* Says a line until its answer has room: a line that is said again changes nothing more. */
static int say(struct obs_session *session, const Block *line, Block *text)
{
    for (;;) {
        const int status = obs_session_line(session, line->bytes, line->length, text->bytes, text->room, &text->length);
        if (status != OBS_TEXT_TOO_LONG) return status;
        make_room(text, 4 * text->room);
    }
}

static int answer_lines(struct obs_session *session, Block *text)
{
    Block line = {NULL, 0, 0};
    unsigned long number = 1;
    int status;
    make_room(&line, 512);
    line.length = 0;
    status = say(session, &line, text); /* an empty line has no answer, and tells the verdict */
    for (; read_line(&line); number++) {
        status = say(session, &line, text);
        if (status != OBS_DONE && status != OBS_SHORT) break;
        if (text->length > 8 && memcmp(text->bytes, "refused\t", 8) == 0) fprintf(stderr, "lines: line %lu is refused\n", number);
        fwrite(text->bytes, 1, text->length, stdout);
        fflush(stdout);
    }
    free(line.bytes);
    return status;
}

int main(int count, char **words)
{
    struct obs_session session = {0};
    Block contents = {NULL, 0, 0}, text = {NULL, 0, 0};
    size_t lengths[WORDS] = {0, 0};
    int status, k;
    if (count != TABLES + 1) fail("usage: lines NODES SWITCHES BRANCHES METERS", "");
    make_room(&contents, 131072);
    make_room(&text, 1024);
    for (k = 0; k < TABLES; k++) lengths[k + 2] = add_file(&contents, words[k + 1]);
    status = obs_session_begin(&session, (const uint8_t *)WORDS_OF_CALL, sizeof WORDS_OF_CALL, contents.bytes, contents.length,
                               lengths, WORDS, text.bytes, text.room, &text.length);
    free(contents.bytes);
    if (status == OBS_DONE) {
        status = answer_lines(&session, &text);
    } else {
        fwrite(text.bytes, 1, text.length, stderr);
    }
    obs_session_end(&session);
    free(text.bytes);
    return status;
}
