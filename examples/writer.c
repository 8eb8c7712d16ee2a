/* Document 01's session built from a list of items and run: nobody counts a length. Then two lists that are refused. */
#include "whetbracken.h"
#include <inttypes.h>
#include <stdio.h>

enum { SHAPE = 1, WORD, REQUEST, EVENT, DRAIN };
enum { LOAD, SWAP, ADD, MASK };
enum { ISSUE, FORWARD, MODULE, RETURN, COLLECT };

/* A row for each item: its kind, its fields of one byte, its fields of eight bytes. */
#define ROWS 11
static const uint16_t heads[ROWS][WHETBRACKEN_ROW_HEADS] = {
    {SHAPE}, {WORD}, {REQUEST}, {REQUEST}, {EVENT}, {EVENT}, {EVENT}, {EVENT}, {EVENT}, {EVENT}, {EVENT},
};
static const uint8_t bytes[ROWS][WHETBRACKEN_ROW_BYTES] = {
    {1, 2, 2},      /* k, Q, W */
    {5},            /* address */
    {0, ADD, 5},    /* engine, operation, address */
    {1, ADD, 5},
    {ISSUE, 0, 0},  /* what, level, position */
    {ISSUE, 0, 1},
    {MODULE, 1, 1},
    {RETURN, 1, 1},
    {RETURN, 1, 1},
    {COLLECT, 0, 0},
    {COLLECT, 0, 1},
};
static const uint64_t words[ROWS][WHETBRACKEN_ROW_WORDS] = {{0}, {100}, {5, 0}, {7, 0}};

static uint8_t trace[WHETBRACKEN_MOST_BYTES];
static uint8_t text[WHETBRACKEN_REPORT_ROOM];

/* The first so many rows, into an output of so many bytes. */
static struct whetbracken_written write_rows(size_t rows, size_t room)
{
    return whetbracken_write(heads[0], rows * WHETBRACKEN_ROW_HEADS, bytes[0], rows * WHETBRACKEN_ROW_BYTES,
                             words[0], rows * WHETBRACKEN_ROW_WORDS, trace, room);
}

static void show(const char *what, struct whetbracken_written written)
{
    if (written.refusal == WHETBRACKEN_ACCEPTED)
        printf("%s: %" PRIu64 " bytes\n", what, written.length);
    else
        printf("%s: refused %" PRIu64 " %" PRIu64 ", row %" PRIu64 "\n", what, written.refusal, written.offset, written.row);
}

int main(void)
{
    struct whetbracken_written written = write_rows(ROWS, sizeof trace);
    show("the session", written);
    fwrite(text, 1, whetbracken_report(trace, (size_t)written.length, text, sizeof text), stdout);
    show("no item", write_rows(0, sizeof trace));
    show("an output of 100 bytes", write_rows(ROWS, 100));
    return 0;
}
