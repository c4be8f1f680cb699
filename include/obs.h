/* obs in C: topological observability of power networks, over blocks of bytes. obs_run answers once; a session stays between calls.
 *
 * The library is libobs.a or libobs.so; tools/library builds and installs both. crates/obs_c/README.md says what is proved of the calls and
 * what the caller must uphold. FORMATS.md, in docs and where it is installed in share/doc/obs, has the words, the files and the printed
 * lines. This header wants C99. */
#ifndef OBS_H
#define OBS_H

#include <stdbool.h>
#include <stddef.h>
#include <stdint.h>

/* The version of this header, as text and by its three numbers. */
#define OBS_VERSION "0.8.5"
#define OBS_VERSION_MAJOR 0
#define OBS_VERSION_MINOR 8
#define OBS_VERSION_PATCH 5
#define OBS_VERSION_NUMBER (OBS_VERSION_MAJOR * 1000000u + OBS_VERSION_MINOR * 1000u + OBS_VERSION_PATCH)

#ifdef __cplusplus
extern "C" {
#endif

/* The version of the library that is called, as OBS_VERSION_NUMBER has that of this header. */
uint32_t obs_version(void);

/* What the calls answer: the exit statuses of the program, of which 5 speaks of the block for the text, and two more. 4 never comes,
 * since no file is opened. */
enum obs_status {
    OBS_DONE = 0,             /* all was answered, and the answer is the good one */
    OBS_SHORT = 1,            /* all was answered, and something falls short */
    OBS_USAGE = 2,            /* the words have none of the program's forms: the usage line is written */
    OBS_INPUT_FAULT = 3,      /* a file is too long or has a fault, whose line is written */
    OBS_TEXT_TOO_LONG = 5,    /* the text is longer than its block, which has a front of it: call again with a longer one */
    OBS_NO_MEMORY = 6,        /* there was no memory, and nothing is written */
    OBS_SESSION_TOO_LONG = 7, /* the input of a session has more bytes than a file may have: what was answered before is written */
    OBS_MALFORMED = 8,        /* the blocks are no words and contents (as with a zero byte too many), and nothing is written */
    OBS_OUT_OF_TURN = 9       /* a session is begun where one stays already, or has a line where none stays: nothing is done or written */
};

/* Runs obs once, and answers one of the numbers above.
 *
 * words, words_length       the words behind the program's own name, each ended by a zero byte: "report\0cdf\0C\0M" is four
 *                           words in 15 bytes with the zero byte that C adds. Each is UTF-8. A word that names a file is any name:
 *                           no file is opened.
 * contents, contents_length the contents of all files, one behind another, in the order of their words.
 * lengths, lengths_count    for each word how many bytes of contents are its file's; 0 for a word that names none. The count is
 *                           that of the words, and the lengths sum up to contents_length.
 * input, input_length       what a session reads.
 * text, text_length         room for what is printed. It isn't ended by a zero byte. What stands behind the written bytes is left as it
 *                           was. While it runs the call asks malloc for as many bytes and one more.
 * written                   how many bytes of text were written, also where the answer is no good one.
 *
 * A table has at most 20,000 rows, a file and the input at most 16,777,216 bytes. obs_run_within is the same where large is 0, and else
 * within 1,000,000 rows and 1,073,741,824 bytes; the case of a trial has the same limits in both.
 *
 * No pointer is kept after the call. The call has no state: any number of threads may call at once, each with a text and a
 * written of its own.
 *
 * The caller upholds: no pointer is null, even where the length beside it is 0; each leads to as many elements as that length
 * says, and lengths and written are aligned; text and *written overlap none of the others; nobody changes a block during the
 * call; malloc, realloc and free are those of one allocator, which aligns as C asks; no call comes from a signal handler, or from
 * the forked child of a process with threads. */
uint8_t obs_run(const uint8_t *words, size_t words_length,
                const uint8_t *contents, size_t contents_length,
                const size_t *lengths, size_t lengths_count,
                const uint8_t *input, size_t input_length,
                uint8_t *text, size_t text_length,
                size_t *written);
uint8_t obs_run_within(uint8_t large,
                       const uint8_t *words, size_t words_length,
                       const uint8_t *contents, size_t contents_length,
                       const size_t *lengths, size_t lengths_count,
                       const uint8_t *input, size_t input_length,
                       uint8_t *text, size_t text_length,
                       size_t *written);

/* A session that stays between calls, or none. Before the first call it is all zeros, as by `struct obs_session session = {0};`.
 * After that the calls below alone write it. It isn't copied: of two copies one would name memory that the other gave back. */
struct obs_session {
    void *at;
    bool full;
};

/* Begins a session: the case is read once. words, contents, lengths, text and written are as for obs_run, with the words of a session
 * ("session\0cdf\0C\0M", or with "with\0K" behind them).
 *
 * OBS_DONE          the session stays, and nothing is written.
 * OBS_USAGE, OBS_INPUT_FAULT, OBS_TEXT_TOO_LONG, OBS_MALFORMED
 *                   none stays, and all is as with obs_run. Words of another command are answered by OBS_USAGE.
 * OBS_NO_MEMORY     none stays, and nothing is written.
 * OBS_OUT_OF_TURN   one stays already. It is left as it is, and nothing is written.
 *
 * obs_session_begin_within is the same where large is 0, and else within the limits of obs_run_within. */
uint8_t obs_session_begin(struct obs_session *session,
                          const uint8_t *words, size_t words_length,
                          const uint8_t *contents, size_t contents_length,
                          const size_t *lengths, size_t lengths_count,
                          uint8_t *text, size_t text_length,
                          size_t *written);
uint8_t obs_session_begin_within(uint8_t large,
                                 struct obs_session *session,
                                 const uint8_t *words, size_t words_length,
                                 const uint8_t *contents, size_t contents_length,
                                 const size_t *lengths, size_t lengths_count,
                                 uint8_t *text, size_t text_length,
                                 size_t *written);

/* Does what one line says, and writes its answer: the answers to lines, one behind another, are what obs_run would write for them all. The
 * line has no line end: no line feed, and no carriage return behind it, which obs_run would drop and this call reads. An empty line, and one
 * that begins with `#`, has no answer. However many lines came before, the next one is done and answered: OBS_SESSION_TOO_LONG never comes.
 * obs_run answers only the lines within as many bytes of its input as a file may have; behind these the two differ.
 *
 * OBS_DONE, OBS_SHORT   the verdict on the case behind the line, also where the line was refused. The whole answer is written.
 * OBS_TEXT_TOO_LONG     the line is done, and text has a front of its answer. Say the line again with a longer block: that changes nothing
 *                       more, and has the same answer.
 * OBS_NO_MEMORY         nothing is done and nothing written. The session stays as it was. A line takes as much memory as text is long.
 * OBS_OUT_OF_TURN       no session stays. Nothing is done and nothing written. */
uint8_t obs_session_line(struct obs_session *session,
                         const uint8_t *line, size_t line_length,
                         uint8_t *text, size_t text_length,
                         size_t *written);

/* Ends a session, and gives its memory back: *session is as one that hasn't begun. Where none stays nothing happens. */
void obs_session_end(struct obs_session *session);

/* The caller upholds for these what is said of obs_run, and: *session is all zeros, or as these calls left it; it overlaps no other
 * block; nobody else reads or writes what it leads to; calls with one session come one after another, from whichever thread. */

#ifdef __cplusplus
}
#endif

#endif
