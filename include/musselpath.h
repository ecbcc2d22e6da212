/*
 * Musselpath for C: the report of a table text, and its full run.
 *
 * Link libmusselpath.a (`tools/build musselpath_c` proves it and writes it to target/staticlib/). It links into x86-64 programs.
 *
 * What holds of both functions:
 *
 * - Any bytes may be handed in as a text. A bad one is refused by a fixed number and its place; nothing has to be tested
 *   beforehand.
 * - A pointer has to point to as many elements as the length beside it says, and must not be null, also where that length is 0.
 *   The lent buffer `out` must not overlap the text. But for the stack, below, this is all that a caller has to see to.
 * - The text is only read. Of `out` the answer alone is written: what lies beyond it is unchanged, and where nothing is answered
 *   all of it is unchanged. No other memory is touched.
 * - Every call returns. It takes no heap, calls nothing of an operating system, keeps nothing from one call to the next, and may
 *   be made from several threads at once. Of a C library it needs memcpy and memset alone. All that it works with lies on the
 *   stack: the caller has to see to 21 KB for a report and 15 KB for a full run (boundary/stack.c measures it).
 * - The same input always gives the same answer.
 *
 * How long a call takes depends on the table. A report takes one round or more for each row, and within the limits of a table
 * there are some with over three million rounds in all; a full run takes every tick that it is asked for.
 */
#ifndef MUSSELPATH_H
#define MUSSELPATH_H

#include <stdint.h>

#ifdef __cplusplus
extern "C" {
#endif

/* The most rows of a table: a buffer of so many elements has room for every full run. */
#define MUSSELPATH_ROWS 16

/* The most bytes of a table text. A longer text is refused by 2, however long it is. */
#define MUSSELPATH_TEXT 1360

/* A buffer of so many bytes has room for every report and every refused line. */
#define MUSSELPATH_REPORT 845

/* The two refusals of these functions that are not a text's: a buffer that is too short, and too many ticks. */
#define MUSSELPATH_NO_ROOM 22
#define MUSSELPATH_MANY_TICKS 23

/* Stands for the completion instant of a row whose first job is not complete. */
#define MUSSELPATH_NOT_COMPLETE UINT64_MAX

/*
 * Writes the report of a table text to the front of `out` and answers how many bytes it has.
 *
 * The report has one line a row: name, verdict (fits, misses or open), figure, whole, split and rounds, parted by one tab and
 * ended by one line feed; a missing figure is a hyphen. Its last line is "table", a tab and the verdict of the table. For a
 * refused text there is one line instead: "refused", number, line and field. A row may be named table or refused: tell the
 * lines apart by their fields, of which a row has 6, the last line 2 and the refused line 4. There is no zero byte at the end.
 *
 * Where `out` is too short for the whole of it, the answer is 0 and `out` is unchanged: that is refusal 22, the only one of this
 * function, since the refused line of a text is its answer. No report has 0 bytes, and none has more than MUSSELPATH_REPORT.
 */
uint64_t musselpath_report(const uint8_t *text, uint64_t text_len, uint8_t *out, uint64_t out_len);

/* What musselpath_full_run answers: the number of the refusal, its line and its field, each from 1, or 0 where it has none. */
#define MUSSELPATH_NUMBER(answer) ((unsigned)((uint64_t)(answer) & 0xffff))
#define MUSSELPATH_LINE(answer) ((unsigned)(((uint64_t)(answer) >> 16) & 0xffff))
#define MUSSELPATH_FIELD(answer) ((unsigned)((answer) >> 32))

/*
 * Carries out the full run of a table text: all rows released at 0 and every T, full times, for so many ticks.
 *
 * Answers 0, and then `out` holds, for each row in the order of the text, the completion instant of its first job, or
 * MUSSELPATH_NOT_COMPLETE. `out_len` counts elements, not bytes. Elements beyond the last row are unchanged.
 *
 * Otherwise answers the refusal, number + 65536 * line + 4294967296 * field, and `out` is unchanged. The first that applies is
 * given:
 *
 *    1 to 11  the text is bad, at that line and field
 *    23       more than 1,000,000 ticks; no line, no field
 *    22       `out` has fewer elements than the table has rows; no line, no field
 */
uint64_t musselpath_full_run(const uint8_t *text, uint64_t text_len, uint64_t ticks, uint64_t *out, uint64_t out_len);

#ifdef __cplusplus
}
#endif

#endif
