/*
 * Answers a stream through the C functions, in the form in which the programs answer it, so that both can be held to one stored
 * output. With the word `runs` it answers a run stream.
 *
 * A stream is, for each item, its length as two bytes (the higher first) and then so many bytes. An item is a table text; in a
 * run stream the number of ticks stands before it, as four bytes (the higher first).
 *
 * Each buffer that it lends is filled with a pattern first. It ends with 1 and a message where a byte was changed that the header
 * says is left alone, or where a buffer that is too short is not told from one that isn't.
 */
#include "musselpath.h"

#include <stdio.h>
#include <stdlib.h>
#include <string.h>

#define ITEM 65535
#define BEYOND 64 /* so much of each buffer is never lent, on either side */

static uint8_t item[ITEM];
static uint8_t as_read[ITEM]; /* the item again, which nobody is handed */
static unsigned long number;  /* of the item, from 1 */

static void fail(const char *why)
{
    fprintf(stderr, "answers: item %lu: %s\n", number, why);
    exit(1);
}

static void expect(int holds, const char *why)
{
    if (!holds) {
        fail(why);
    }
}

/* Differs from place to place, so that bytes that were moved show as well. */
static uint8_t pattern(size_t place)
{
    return (uint8_t)(place * 37 + 11);
}

static void fill(void *buffer, size_t size)
{
    uint8_t *bytes = buffer;
    for (size_t i = 0; i < size; i++) {
        bytes[i] = pattern(i);
    }
}

static int unchanged(const void *buffer, size_t from, size_t to)
{
    const uint8_t *bytes = buffer;
    for (size_t i = from; i < to; i++) {
        if (bytes[i] != pattern(i)) {
            return 0;
        }
    }
    return 1;
}

/* The next item's length, or -1 where the stream is over. */
static long next_item(void)
{
    uint8_t head[2];
    size_t got = fread(head, 1, sizeof head, stdin);
    if (got == 0) {
        return -1;
    }
    number++;
    expect(got == sizeof head, "the stream ends inside a length");
    size_t len = (size_t)head[0] * 256 + head[1];
    expect(fread(item, 1, len, stdin) == len, "the stream ends inside an item");
    memcpy(as_read, item, len);
    return (long)len;
}

static void put(const uint8_t *bytes, size_t len)
{
    expect(fwrite(bytes, 1, len, stdout) == len, "standard output could not be written");
}

/* ---- reports */

static uint8_t lent[BEYOND + MUSSELPATH_REPORT + BEYOND];

/* Asks for the report with a buffer of so many bytes; what is beyond the answer has to be as it was. */
static size_t ask_report(const uint8_t *text, size_t text_len, size_t out_len)
{
    fill(lent, sizeof lent);
    uint64_t len = musselpath_report(text, text_len, lent + BEYOND, out_len);
    expect(len <= out_len, "a report is longer than its buffer");
    expect(unchanged(lent, 0, BEYOND), "a byte before the buffer was changed");
    expect(unchanged(lent, BEYOND + len, sizeof lent), "a byte beyond the report was changed");
    return (size_t)len;
}

/* The length of the report, which then stands in `lent` behind BEYOND bytes. Buffers that are too short are tried first. */
static size_t report_of(const uint8_t *text, size_t text_len)
{
    uint8_t first[MUSSELPATH_REPORT];
    size_t len = ask_report(text, text_len, MUSSELPATH_REPORT);
    expect(len > 0, "a report has no room in MUSSELPATH_REPORT bytes");
    memcpy(first, lent + BEYOND, len);
    expect(ask_report(text, text_len, 0) == 0, "a buffer of no bytes was taken");
    expect(ask_report(text, text_len, len - 1) == 0, "a buffer that is one byte too short was taken");
    expect(ask_report(text, text_len, len) == len, "a buffer of the very length was refused");
    expect(memcmp(first, lent + BEYOND, len) == 0, "two reports of one text differ");
    return len;
}

static void answer_report(size_t len)
{
    size_t report = report_of(item, len);
    put(lent + BEYOND, report);
}

/* ---- full runs */

#define ELEMENTS (MUSSELPATH_ROWS + 4)

static uint64_t instants[1 + ELEMENTS + 1];

static uint64_t ask_run(const uint8_t *text, size_t text_len, uint64_t ticks, size_t out_len)
{
    fill(instants, sizeof instants);
    return musselpath_full_run(text, text_len, ticks, instants + 1, out_len);
}

/* Whether of `instants` nothing but the elements of so many rows was changed. */
static int rows_alone_changed(size_t rows)
{
    return unchanged(instants, 0, sizeof instants[0])
        && unchanged(instants, (1 + rows) * sizeof instants[0], sizeof instants);
}

static size_t count_lines(const uint8_t *text, size_t len)
{
    size_t lines = 0;
    for (size_t i = 0; i < len; i++) {
        lines += text[i] == '\n';
    }
    return lines;
}

/* The names are those of the text: the bytes of each line before its first tab. */
static void put_run(const uint8_t *text, size_t len)
{
    size_t row = 0;
    int in_name = 1;
    for (size_t i = 0; i < len; i++) {
        if (text[i] == '\t') {
            in_name = 0;
        } else if (text[i] != '\n') {
            if (in_name) {
                put(text + i, 1);
            }
        } else {
            uint64_t instant = instants[1 + row++];
            if (instant == MUSSELPATH_NOT_COMPLETE) {
                printf("\t-\n");
            } else {
                printf("\t%llu\n", (unsigned long long)instant);
            }
            in_name = 1;
        }
    }
}

/* The line of the refusal: the number alone for 23, else with its place, which has to be the one that the report tells. */
static void put_refused(const uint8_t *text, size_t len, uint64_t answer)
{
    char line[64];
    if (MUSSELPATH_NUMBER(answer) == MUSSELPATH_MANY_TICKS) {
        expect(answer == MUSSELPATH_MANY_TICKS, "23 has a place");
        printf("refused\t%d\n", MUSSELPATH_MANY_TICKS);
        return;
    }
    size_t line_len = (size_t)sprintf(line, "refused\t%u\t%u\t%u\n", MUSSELPATH_NUMBER(answer), MUSSELPATH_LINE(answer), MUSSELPATH_FIELD(answer));
    size_t report = report_of(text, len);
    expect(report == line_len && memcmp(lent + BEYOND, line, line_len) == 0, "the run and the report refuse a text differently");
    put((const uint8_t *)line, line_len);
}

/*
 * A buffer with an element for each row is enough, and one less is refused by 22; what comes before 22 still does so with a short
 * buffer, and 23 holds for every greater number of ticks.
 */
static void try_short_and_long(const uint8_t *text, size_t len, uint64_t ticks, uint64_t answer, size_t rows)
{
    uint64_t expected = answer == 0 ? MUSSELPATH_NO_ROOM : answer;
    if (answer == 0) {
        expect(ask_run(text, len, ticks, rows) == 0, "a run buffer with an element for each row was refused");
        expect(rows_alone_changed(rows), "an element beyond the last row was changed");
        expect(ask_run(text, len, ticks, rows - 1) == expected, "a run buffer of one element less than rows is not refused by 22");
        expect(rows_alone_changed(0), "a run buffer that is too short was changed");
    }
    expect(ask_run(text, len, ticks, 0) == expected, "a run buffer of 0 is not refused by 22, or not after all others");
    expect(rows_alone_changed(0), "a run buffer of 0 was changed");
    expected = answer == 0 ? MUSSELPATH_MANY_TICKS : answer;
    expect(ask_run(text, len, UINT64_MAX, 0) == expected, "too many ticks are not refused by 23, or not after the text");
    expect(rows_alone_changed(0), "a run of too many ticks changed its buffer");
}

static void answer_run(size_t item_len)
{
    expect(item_len >= 4, "an item has no number of ticks");
    uint64_t ticks = 0;
    for (size_t i = 0; i < 4; i++) {
        ticks = ticks * 256 + item[i];
    }
    const uint8_t *text = item + 4;
    size_t len = item_len - 4;
    size_t rows = count_lines(text, len);
    size_t out_len = number % 2 ? MUSSELPATH_ROWS : ELEMENTS; /* room for every run, and more than are used */
    uint64_t answer = ask_run(text, len, ticks, out_len);
    if (answer == 0) {
        expect(rows_alone_changed(rows), "an element beyond the last row was changed");
        put_run(text, len);
    } else {
        expect(rows_alone_changed(0), "a refused run changed its buffer");
        put_refused(text, len, answer);
    }
    try_short_and_long(text, len, ticks, answer, rows);
}

int main(int argc, char **argv)
{
    int runs = argc == 2 && strcmp(argv[1], "runs") == 0;
    if (argc > 1 && !runs) {
        fprintf(stderr, "usage: answers [runs] <stream\n");
        return 2;
    }
    for (long len = next_item(); len >= 0; len = next_item()) {
        if (runs) {
            answer_run((size_t)len);
        } else {
            answer_report((size_t)len);
        }
        expect(memcmp(item, as_read, (size_t)len) == 0, "a text was changed");
    }
    expect(fflush(stdout) == 0 && !ferror(stdin), "the stream could not be read or answered");
    return 0;
}
