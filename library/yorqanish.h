/* SPDX-FileCopyrightText: the Yorqanish authors
 * SPDX-License-Identifier: MIT
 *
 * The calculator as a C library: one call runs one command and leaves its text in the caller's buffer.
 *
 * It is the program `calc` without its process: the same words, the same texts, the same statuses, proved in the same way. It keeps nothing
 * between calls, starts no thread, opens no file and writes to no stream; several threads may call it at once, but no signal handler may,
 * since it takes memory from malloc. It needs a processor of x86-64-v2 (SSE4.2, POPCNT): those since about 2009.
 *
 * The library is libyorqanish.so.0, and its symbols have the version YORQANISH_0. As long as these are the same, so are the arguments of
 * calc_run, the codes below and the requirements; a later release may add commands, raise limits and add calls. If one of them changes, so
 * does the number in both names. */
#ifndef YORQANISH_H
#define YORQANISH_H

#include <stddef.h>
#include <stdint.h>

/* The version of this header, as a text and as a number that grows with it. */
#define YORQANISH_VERSION "0.1.0"
#define YORQANISH_VERSION_NUMBER 100 /* 10,000 for a major, 100 for a minor, 1 for a patch version */

#ifdef __cplusplus
extern "C" {
#endif

/* The version of the library that is loaded, as YORQANISH_VERSION writes it. */
const char *yorqanish_version(void);

/* The statuses of a command. */
enum calc_status {
    CALC_DONE = 0,         /* the text is the answer */
    CALC_SOME_REFUSED = 1, /* `batch`: a line was refused; the text has the answers to all lines */
    CALC_SYNTAX = 2,       /* the words are not a command; the text is `! Syntax W:B` */
    CALC_RANGE = 3,        /* a limit is exceeded, or a list is not of its kind: `! Range W:B` or `! Shape W:B` */
    CALC_PAST = 4,         /* a number in the command exceeds 2^127 - 1, or the answer is too large: `! Literal W:B` or `! Large` */
    CALC_NO_TEXT = 5,      /* out of memory for the text, which is a prefix of the whole one: one byte or more */
    CALC_NO_MEMORY = 7     /* out of memory before that: no text; for `batch`, the text of its first lines */
};

/* Runs the command that the words of the line name.
 *
 *   line    the words, separated by spaces and tabs, as in a line of a batch, without a line feed
 *   input   the lines of `batch`; other commands do not read it
 *   out     the buffer for the text, of `room` bytes
 *   needed  is set to the length of the text
 *
 * If *needed <= room, the text is at the beginning of out, and the bytes after it are unchanged. Otherwise all of out is unchanged, and
 * the same call with more room gives the text. The text does not end with a zero byte.
 *
 * What is proved: with the codes 0 to 4 the text is the whole text that is defined for the words, for `batch` over the input; with 5
 * it is a prefix, not empty, of one that is defined over the first lines of the input; with 7 it is empty, or, for `batch`, the text of
 * its first lines. In each case *needed is its length, and out is as said above. If the status is CALC_DONE and the text fits, then the
 * text, read back, is a canonical list of terms, and this list is what the command names, by the defining polynomials; no other text reads
 * back as it; for `batch`, each block is such a text.
 * (Commands on tableaux: the text is the defined one.) Words with an error, and words that are not a command, are refused by the line of
 * their first error; other words only if the answer is too large or memory runs out. No code other than these seven is returned.
 *
 * Requirements: no pointer may be NULL, even if its length is 0; buffers must be valid, must not overlap, and must be shorter than
 * 2^63 bytes. Memory comes from malloc and is freed before the call returns. The calling thread needs 256 kB of stack. */
uint8_t calc_run(const uint8_t *line, size_t line_length,
                 const uint8_t *input, size_t input_length,
                 uint8_t *out, size_t room, size_t *needed);

#ifdef __cplusplus
}
#endif

#endif
