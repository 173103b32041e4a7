/*
 * The proved trace reader and writer, trace monitor, whole-trace engine, macro reader,
 * house layout of a macro and verdict on a macro.
 *
 * Every function takes lent slices, each as a pointer and a length, which must not
 * overlap, and puts its answer as numbers into the slice `answer`. Where that slice
 * is too short for them, nothing is done: every slice stays as it was, and nothing
 * tells you so. An answer that held zeros then reads as accepted, coherent, pass: use
 * the lengths FADZGIME_.._ANSWER below. In a longer one the numbers behind stay.
 *
 * Of a slice of length 0 no element is read or written; its pointer may be NULL.
 *
 * A refusal is a number (0: none) and a place (0 unless said): docs/SPEC.md, 11. A
 * refused call writes no output, and the numbers behind the place are 0 unless said.
 * Each call lists its own, in the order in which they are asked:
 *    1 less than two bytes    2 an odd number of bytes    3 no header
 *    4 a letter that is not well formed; place: its number from 1, but 0 in
 *      fadzgime_monitor_step
 *    5 more than 1,024 letters    6 `out` is too short
 *    7 a text of more than 4,096 bytes    8 no token    9 not the grammar
 *   10 a wrong declaration: too many names, or one name twice, in whatever case
 *   11 a wrong use of a name    12 braces more than 16 deep
 *   16 the word `tests` behind more than six registers, asked with 8 to 12;
 *      place of 8 to 12 and of 16: the byte of the text, from 0
 *   13 more than 256 points    14 more pairs than `table` has room for
 *   15 a print that is longer than `out`, or than 4,096 bytes
 * The bits of a word and of a packed model: docs/SPEC.md, 2 and 7.4. Registers and
 * functions of a macro are numbered from 0 in the order of their declarations; tests are
 * numbered behind the functions, as functions. A macro with a line of tests has two
 * registers more behind the declared ones, `result` and then `truth`, whether it asks a
 * test or not: headers, traces, models and counts have them, so keep names for two
 * registers more than are declared. Answers hold no names, so that the case of letters
 * never shows in them; only the print of fadzgime_layout has names, as they are declared.
 *
 * Stack: at most 35 KB a call (fadzgime_verdict; read and layout 25 KB, model 17 KB, the
 * others at most 7 KB), whatever the input; tested on a thread of 128 KB. Nothing is
 * allocated or kept between calls, so calls on several threads do not disturb each other.
 */
#ifndef FADZGIME_H
#define FADZGIME_H

#include <stddef.h>
#include <stdint.h>

#ifdef __cplusplus
extern "C" {
#endif

/* How many numbers an answer has. */
#define FADZGIME_MONITOR_ANSWER 4
#define FADZGIME_WRITE_ANSWER 3
#define FADZGIME_READ_TRACE_ANSWER 6
#define FADZGIME_UNEQUAL_ANSWER 2
#define FADZGIME_CLASSES_ANSWER 2
#define FADZGIME_STREAM_ANSWER 1
#define FADZGIME_MODEL_ANSWER 4
#define FADZGIME_READ_ANSWER 5
#define FADZGIME_LAYOUT_ANSWER 3
#define FADZGIME_VERDICT_ANSWER 5

/*
 * Bytes of `out` in which every answer of fadzgime_model and of fadzgime_verdict fits:
 * with so many there is no refusal 6.
 *
 * A model has two bytes for the count of values, two for the count of rows, two a
 * register and five a row. There are at most 8 registers and, for 1,024 letters, 1,024
 * rows: 4 + 2 * 8 + 5 * 1024. Under eight registers x := f(x), 1,024 times, needs all.
 *
 * A verdict shows at most 1,024 letters: 2 + 2 * 1024 bytes, and then their model. No
 * macro needs quite so many, since a run that fails ends with a test, which has no row.
 */
#define FADZGIME_MODEL_OUTPUT 5140
#define FADZGIME_VERDICT_OUTPUT 7190

/*
 * Bytes of `out` that suffice for every print that fadzgime_layout writes. A longer print
 * is refused, however many are lent.
 */
#define FADZGIME_LAYOUT_OUTPUT 4096

/*
 * Judges a packed trace of any length.
 * answer[0] refusal (1, 2, 3, 4), [1] place, [2] first incoherent letter from 1
 * (0: coherent), [3] first infeasible letter before that one (0: none).
 */
void fadzgime_monitor(const uint8_t *trace, size_t trace_length,
                      uint64_t *answer, size_t answer_length);

/*
 * Writes the packed trace of a header and unpacked letters.
 *
 * `two_arguments` is a mask: bit f is set if function f takes two arguments. An
 * unpacked letter has five bytes: kind (0 copy, 1 application, 2 equal test,
 * 3 unequal test), function, target, first, second. A copy uses target and first, a
 * test first and second; an application uses all, but second only if its function
 * takes two arguments. What a letter does not use is 0. Bytes that are not a multiple
 * of five end in an incomplete letter, which is refused by 4 at its number.
 * answer[0] refusal (3, 4, 6), [1] place, [2] bytes of the trace written to `out`,
 * 2 + 2 * letters of them; the bytes behind stay.
 */
void fadzgime_write(uint8_t registers, uint8_t functions, uint8_t two_arguments,
                    const uint8_t *letters, size_t letters_length,
                    uint8_t *out, size_t out_length,
                    uint64_t *answer, size_t answer_length);

/*
 * Reads a packed trace of any length into its unpacked letters, as fadzgime_write
 * takes them: one writes what the other reads.
 * answer[0] refusal (1, 2, 3, 4, 6), [1] place, [2] registers, [3] functions,
 * [4] mask of the functions of two arguments, [5] letters: 5 * answer[5] bytes of
 * `out`; the bytes behind stay. For a trace of n bytes 5 * (n / 2) bytes are enough.
 */
void fadzgime_read_trace(const uint8_t *trace, size_t trace_length,
                         uint8_t *out, size_t out_length,
                         uint64_t *answer, size_t answer_length);

/*
 * The monitor, a letter a call, and the same run over a trace whose bytes come in
 * parts. What is kept between calls stands in a state, lent as bytes. Its first byte
 * says what it is; the rest is the library's, and another version of it may have other
 * sizes and places. A start needs no contents before it. Copy a state to go on from it
 * twice.
 */
#define FADZGIME_MONITOR_STATE 319
#define FADZGIME_STREAM_STATE 347
/*
 * answer[0] if the state is too short, or, but for a start, its first byte is not that of
 * its kind: the state stays, and the other numbers are 0; this is asked before a header or
 * a letter is. Other damage is not noticed: the bytes are taken as some state, nothing else
 * is touched, and the answer means nothing.
 */
#define FADZGIME_NO_STATE 255

/*
 * Starts a monitor with a header's word, the first byte of a trace the more
 * significant.
 * answer[0] refusal (3), [1] place (0), [2] 1 if the monitor runs, [3] 1 if it is
 * infeasible. A refusal leaves the state as it was, and [2] and [3] are 0.
 */
void fadzgime_monitor_start(uint16_t header,
                            uint8_t *state, size_t state_length,
                            uint64_t *answer, size_t answer_length);

/*
 * Takes a letter's word.
 * answer[0] refusal (4), [1] place (0), [2] 1 if the monitor runs: all letters taken
 * are coherent; [3] 1 if their longest coherent beginning is infeasible. A refusal
 * leaves the state as it was, and [2] and [3] are as before it; a monitor that has
 * stopped takes letters and does no more.
 *
 *     uint8_t state[FADZGIME_MONITOR_STATE];
 *     uint64_t answer[FADZGIME_MONITOR_ANSWER];
 *     fadzgime_monitor_start(header, state, sizeof state, answer, FADZGIME_MONITOR_ANSWER);
 *     while (answer[0] == 0 && answer[2] == 1 && next_letter(&word)) {
 *         fadzgime_monitor_step(word, state, sizeof state, answer, FADZGIME_MONITOR_ANSWER);
 *     }
 *
 * This loop ends at the first incoherent letter and does not look at later ones; without
 * `answer[2] == 1` every letter is checked, as fadzgime_monitor does.
 */
void fadzgime_monitor_step(uint16_t letter,
                           uint8_t *state, size_t state_length,
                           uint64_t *answer, size_t answer_length);

/*
 * Which classes of registers a monitor knows to be unequal, as one word of 64 bits. Of
 * the letters taken it is about the longest coherent beginning: a refused letter leaves
 * the word as it was, and so do an incoherent one and the letters behind that.
 *
 * Registers whose values are equal after these letters are one class: equal by copies,
 * by equal tests, or because equal arguments give equal results. A class is named by its
 * lowest register, so a register is a name if no lower one is in its class. Two classes
 * are known unequal if an unequal test was between values that are equal to theirs now
 * (docs/SPEC.md, 5.1 and 5.2); a pair goes when no register holds one of its sides any
 * more. Nothing is inferred: where f(x) and f(y) are known unequal, x and y need not be.
 *
 * answer[0] 0 or FADZGIME_NO_STATE (also for the state of a stream), [1] the word, 0 with
 * FADZGIME_NO_STATE. Bit 8a + b, of value 2^(8a + b), is set exactly if registers a and b
 * are both names and their classes are known unequal. So bit 8b + a is set with it, bits
 * 8a + a are 0, and registers that are no names, or not below the header's count, have
 * no bits. Byte a of the word, word >> 8 * a & 255, is the mask of the classes unequal to
 * that of a. Once the beginning is infeasible the word is 0.
 *
 * 0 alone does not say why: answer[3] of the last start or step says infeasible, and [2]
 * whether the word is about all letters taken. Nor does the word say which registers are
 * in a class, and no call does; while the monitor runs and is feasible, a copy of its
 * state becomes infeasible by the letter a != b exactly if a and b are in one class.
 * Asking changes nothing. The program `display` prints the word after every letter.
 *
 *     uint64_t unequal[FADZGIME_UNEQUAL_ANSWER];
 *     fadzgime_monitor_step(word, state, sizeof state, answer, FADZGIME_MONITOR_ANSWER);
 *     fadzgime_monitor_unequal(state, sizeof state, unequal, FADZGIME_UNEQUAL_ANSWER);
 *     for (int a = 0; unequal[0] == 0 && a < 8; a++) {
 *         for (int b = a + 1; b < 8; b++) {
 *             if (unequal[1] >> (8 * a + b) & 1) {
 *                 printf("the classes of %d and %d are unequal\n", a, b);
 *             }
 *         }
 *     }
 *
 * With three registers (header 0x3000) and the letters 0 != 1 (0xc008), 2 := 0 (0x0400),
 * 0 := 1 (0x0040) the words are 0 after the start, then 0x102, 0x102 and 0x10004: the
 * class of the value that register 0 had first is named by register 2 in the end, and
 * register 0 names the class of register 1.
 */
void fadzgime_monitor_unequal(const uint8_t *state, size_t state_length,
                              uint64_t *answer, size_t answer_length);

/*
 * How many classes of registers there are, 1 to 8, after the longest coherent beginning
 * of the letters taken: classes as for fadzgime_monitor_unequal, of the registers below
 * the header's count. After a start there are as many as registers. A copy or an
 * application changes the number by one at most, an equal test can lower it by several,
 * since equal arguments make results equal; an unequal test, a refused letter, an
 * incoherent one and the letters behind that leave it.
 *
 * The number is kept in the state and not counted anew. answer[0] 0 or FADZGIME_NO_STATE
 * (also for the state of a stream), [1] the number, 0 with FADZGIME_NO_STATE. A refused
 * start leaves the state as it was, with the number that it had. Of a state that no calls
 * of this library have made the answer is the stored number, 0 to 255, and means nothing.
 * Asking changes nothing. The program `display` prints the number after every letter.
 *
 *     uint64_t classes[FADZGIME_CLASSES_ANSWER];
 *     fadzgime_monitor_step(word, state, sizeof state, answer, FADZGIME_MONITOR_ANSWER);
 *     fadzgime_monitor_classes(state, sizeof state, classes, FADZGIME_CLASSES_ANSWER);
 *     if (classes[0] == 0) {
 *         printf("%d classes\n", (int)classes[1]);
 *     }
 *
 * With three registers (header 0x3000) and the letters 0 != 1 (0xc008), 2 := 0 (0x0400),
 * 0 := 1 (0x0040) the numbers are 3 after the start, then 3, 2 and 2.
 */
void fadzgime_monitor_classes(const uint8_t *state, size_t state_length,
                              uint64_t *answer, size_t answer_length);

/*
 * The run of fadzgime_monitor over bytes that come in parts of any lengths:
 *
 *     uint8_t state[FADZGIME_STREAM_STATE];
 *     uint64_t answer[FADZGIME_MONITOR_ANSWER];
 *     fadzgime_stream_start(state, sizeof state, answer, FADZGIME_STREAM_ANSWER);
 *     while ((n = fread(part, 1, sizeof part, file)) > 0) {
 *         fadzgime_stream_push(part, n, state, sizeof state, answer, FADZGIME_STREAM_ANSWER);
 *     }
 *     if (ferror(file)) {
 *         return failed; // bytes are missing: nothing is judged
 *     }
 *     fadzgime_stream_finish(state, sizeof state, answer, FADZGIME_MONITOR_ANSWER);
 *
 * start and push: answer[0] is 0 or FADZGIME_NO_STATE. finish: answer as that of
 * fadzgime_monitor for all the bytes together, or FADZGIME_NO_STATE; it changes
 * nothing, so more bytes may follow.
 */
void fadzgime_stream_start(uint8_t *state, size_t state_length,
                           uint64_t *answer, size_t answer_length);
void fadzgime_stream_push(const uint8_t *bytes, size_t bytes_length,
                          uint8_t *state, size_t state_length,
                          uint64_t *answer, size_t answer_length);
void fadzgime_stream_finish(const uint8_t *state, size_t state_length,
                            uint64_t *answer, size_t answer_length);

/*
 * Shows a data model of a packed trace of at most 1,024 letters, coherent or not.
 * answer[0] refusal (1, 2, 3, 5, 4, 6), [1] place, [2] first infeasible letter
 * (0: feasible), [3] bytes of the packed model written to `out`: 4 + 2 * registers +
 * 5 * rows of them; the bytes behind stay. 6: `out` is too short for that, which one of
 * FADZGIME_MODEL_OUTPUT bytes never is.
 */
void fadzgime_model(const uint8_t *trace, size_t trace_length,
                    uint8_t *out, size_t out_length,
                    uint64_t *answer, size_t answer_length);

/*
 * Reads a macro: docs/SPEC.md, 8. Names and words are equal whatever the case of their
 * letters.
 * answer[0] refusal (7 to 13, 16), [1] place, [2] registers, [3] functions,
 * [4] points. With a line of tests `result` and `truth` count as registers and tests as
 * functions; a statement that asks a test is two points.
 */
void fadzgime_read(const uint8_t *text, size_t text_length,
                   uint64_t *answer, size_t answer_length);

/*
 * Prints a macro in the house layout: docs/SPEC.md, 8.6. Names stand as they are
 * declared and words in lower case. One blank stands between two words or names (`1` and
 * `2` are words here), none elsewhere, and an LF after each `;`, `{` and `}`. Comments
 * are dropped, and so is an else without statements.
 * answer[0] refusal (7 to 13 and 16, as fadzgime_read gives them, then 15), [1] place,
 * [2] bytes of the print written to `out`, with no zero byte at their end; the bytes
 * behind stay. 15, at place 0: the print is longer than `out`, or than
 * FADZGIME_LAYOUT_OUTPUT bytes even if `out` is longer; a print that just fits is
 * written. On a refusal every byte of `out` stays, and [2] is 0.
 *
 *     uint8_t print[FADZGIME_LAYOUT_OUTPUT];
 *     uint64_t answer[FADZGIME_LAYOUT_ANSWER];
 *     fadzgime_layout(text, text_length, print, sizeof print, answer, FADZGIME_LAYOUT_ANSWER);
 *     if (answer[0] == 0) {
 *         fwrite(print, 1, (size_t)answer[2], file);
 *     }
 *
 * The print is the text of the same macro, but for the elses that were dropped, and its
 * print is the same bytes. It has at least 8 bytes, so that 0 in [2] is never a print. It
 * may be longer than the text, at most twice as long; `out` may not overlap `text`, also
 * where the print is shorter. The zero byte behind a C string is no part of a text: with
 * it the text is refused by 8.
 */
void fadzgime_layout(const uint8_t *text, size_t text_length,
                     uint8_t *out, size_t out_length,
                     uint64_t *answer, size_t answer_length);

/* The verdicts, and the bytes of a table. */
#define FADZGIME_PASS 0
#define FADZGIME_FAIL 1
#define FADZGIME_INCOHERENT 2
#define FADZGIME_PAIR_BYTES 192
#define FADZGIME_MOST_PAIRS 1024

/*
 * The verdict on a macro: can an assertion fail, in some data model, in some
 * execution?
 * answer[0] refusal (7 to 13, 16, 14, 6), [1] place, [2] verdict (FADZGIME_PASS, _FAIL or
 * _INCOHERENT), [3] pairs, [4] letters of the execution that shows it (0 on pass).
 *
 * `table` is room for the search, FADZGIME_PAIR_BYTES a pair, at most
 * FADZGIME_MOST_PAIRS of them; more bytes are not needed, fewer may give 14. What it
 * holds before does not matter. After a search, whatever it finds, every byte of it is
 * zero; a refusal 7 to 13 or 16 leaves it untouched.
 *
 * `out` gets the execution as a packed trace of 2 + 2 * answer[4] bytes, and on fail
 * its packed model after it, of 4 + 2 * registers + 5 * rows bytes; the bytes behind
 * stay. Pass and a refusal leave it untouched. 6: `out` is too short for the answer,
 * which one of FADZGIME_VERDICT_OUTPUT bytes never is. The execution has at most as
 * many letters as answer[3] says pairs, so with a table of N pairs 22 + 7 * N bytes are
 * enough. An execution of more than N letters comes behind more than N pairs: that is
 * 14, not 6. The trace has the header that fadzgime_read counts, and two letters for each
 * test with a name that was asked.
 */
void fadzgime_verdict(const uint8_t *text, size_t text_length,
                      uint8_t *table, size_t table_length,
                      uint8_t *out, size_t out_length,
                      uint64_t *answer, size_t answer_length);

#ifdef __cplusplus
}
#endif

#endif
