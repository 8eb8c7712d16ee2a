/* The model of a combining omega network, for C.
 *
 * A trace is a string of records: a shape; words; requests; then events and drains, mixed. A record is the length of its body (2
 * bytes), its kind (2 bytes) and its body; numbers are unsigned, least significant byte first.
 *   1 shape    k, Q, W: the network has 2^k engines, queues have room Q, wait buffers room W
 *   2 word     address, value (8 bytes)
 *   3 request  engine, operation (0 load, 1 swap, 2 add, 3 mask), address, first and second operand (8 bytes each)
 *   4 event    what (0 issue, 1 forward, 2 module, 3 return, 4 collect), level, position
 *   5 drain    the most rounds (2 bytes)
 *
 * Each function below is proved to do what its comment says, for every trace or list and all lent memory. It keeps nothing between
 * calls, so any number of calls may run at once.
 *
 * What a caller owes, and no proof can see: each pointer is aligned, not null (also where its length is 0), and leads to as many
 * elements as the length beside it says; no two of the lent parts overlap, nor does one overlap the trace or the list; and a call has
 * 64 KB of stack. */
#ifndef WHETBRACKEN_H
#define WHETBRACKEN_H

#include <stddef.h>
#include <stdint.h>

#ifdef __cplusplus
extern "C" {
#endif

/* A longer trace is refused; a trace has at most so many requests; a memory has so many words. */
#define WHETBRACKEN_MOST_BYTES 65536
#define WHETBRACKEN_MOST_REQUESTS 256
#define WHETBRACKEN_WORDS 256

/* So many bytes hold every report. */
#define WHETBRACKEN_REPORT_ROOM 49344

/* A row of a list of items has so many numbers of two bytes, of one byte and of eight bytes. */
#define WHETBRACKEN_ROW_HEADS 2
#define WHETBRACKEN_ROW_BYTES 10
#define WHETBRACKEN_ROW_WORDS 8

/* So many bytes hold the lines of every trace's items. */
#define WHETBRACKEN_ITEMS_ROOM 262144

/* What a trace, or a list of items, is refused for. */
enum whetbracken_refusal {
    WHETBRACKEN_ACCEPTED = 0,
    WHETBRACKEN_CUT = 1,      /* the trace ends inside a record */
    WHETBRACKEN_KIND = 2,     /* a kind that there is none of */
    WHETBRACKEN_LENGTH = 3,   /* a length that is not its kind's */
    WHETBRACKEN_ORDER = 4,    /* no shape first, a second one, or a section out of its order */
    WHETBRACKEN_RANGE = 5,    /* k, Q or W out of range */
    WHETBRACKEN_TWICE = 6,    /* a word given twice */
    WHETBRACKEN_OPERAND = 7,  /* no such engine or operation, or an operand that must be zero is not */
    WHETBRACKEN_STEP = 8,     /* an event that names no step */
    WHETBRACKEN_MANY = 9,     /* a 257th request */
    WHETBRACKEN_LONG = 10,    /* more than 65,536 bytes */
    WHETBRACKEN_NO_ROOM = 11, /* too little memory lent */
    WHETBRACKEN_SHORT = 12,   /* the lent output is too short for the records */
};

/* An answer: 0 and the counts of the run; or the refusal's number and the offset of the faulty record's first byte (0 for 10, 11
 * and an empty trace), and counts of 0. */
struct whetbracken_numbers {
    uint64_t refusal;
    uint64_t offset;
    uint64_t ordered;  /* the order list's length */
    uint64_t accesses; /* module steps that took a message */
    uint64_t merges;
    uint64_t rounds;   /* drain rounds run */
};

/* Checks a trace whole, then runs it. Of an accepted trace with R requests the first R replies are the values (0 where unanswered),
 * the first R marks are 1 where answered and else 0, the first `ordered` order places are the order list's tags, and the first 256
 * words are the memory; all that is lent beyond those stays, and so does all that is lent where the trace is refused. Where all R
 * marks are 1, each word that gets loads and adds only is its starting word plus all adds to it, modulo 2^64. */
struct whetbracken_numbers whetbracken_model(
    const uint8_t *trace, size_t trace_len,
    uint64_t *replies, size_t replies_len,
    uint8_t *marks, size_t marks_len,
    uint64_t *order, size_t order_len,
    uint64_t *words, size_t words_len);

/* Writes the report of a trace, as the trace runner prints it, at the start of out and returns its length; the rest of out stays.
 * Where out_len is below WHETBRACKEN_REPORT_ROOM the result is 0 and all of out stays. No report is empty. */
size_t whetbracken_report(const uint8_t *trace, size_t trace_len, uint8_t *out, size_t out_len);

/* What came of writing a list: 0 and how many bytes were written; or the refusal's number, the offset where the faulty item's record
 * would have begun, its row, from 0, and a length of 0. For 10, 12 and an empty list offset and row are 0. */
struct whetbracken_written {
    uint64_t refusal;
    uint64_t offset;
    uint64_t row;
    uint64_t length;
};

/* Writes the records of a list of items, in its order, at the start of out. A row of the list is two numbers in heads, ten in bytes and
 * eight in words, so that each field is exactly as wide as its record has it; row i begins at heads[2 * i], bytes[10 * i] and
 * words[8 * i]. heads[2 * i] is the record's kind; each field of the record is the next number of its width:
 *   1 shape    bytes: k, Q, W
 *   2 word     bytes: address; words: value
 *   3 request  bytes: engine, operation, address; words: first and second operand
 *   4 event    bytes: what, level, position
 *   5 drain    heads: behind the kind, the most rounds
 * What a kind does not use is not looked at. There are as many rows as all three arrays hold whole.
 * The list is checked whole before the first byte is written, by the rules and with the numbers of a trace: 10 first, where the records
 * together have more than 65,536 bytes; then the first faulty item decides; an empty list is 4; 12 last, where out_len is below the
 * records' length. 1, 3 and 11 are never told, and 2 only of a row of a kind that there is none of, which has four bytes of the 65,536.
 * Reading what was written gives the same items. The rest of out stays, and on a refusal all of it. */
struct whetbracken_written whetbracken_write(
    const uint16_t *heads, size_t heads_len,
    const uint8_t *bytes, size_t bytes_len,
    const uint64_t *words, size_t words_len,
    uint8_t *out, size_t out_len);

/* Writes the items of a trace as lines, as the program `items` prints them, or a refused trace's one line, at the start of out and
 * returns their length; the rest of out stays. Where out_len is below WHETBRACKEN_ITEMS_ROOM the result is 0 and all of out stays. */
size_t whetbracken_items(const uint8_t *trace, size_t trace_len, uint8_t *out, size_t out_len);

#ifdef __cplusplus
}
#endif

#endif
