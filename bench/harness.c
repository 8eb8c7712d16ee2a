/* The proved library in the peer's dress: a trace from standard input and its report to standard output, or
 *   harness --bench N FILE
 * N runs of whetbracken_model on FILE in each of 5 batches, and the nanoseconds a run of the fastest, as runner.c prints them. */
#define _POSIX_C_SOURCE 199309L
#include "../include/whetbracken.h"
#include <stdio.h>
#include <stdlib.h>
#include <string.h>
#include <time.h>

/* One byte more than the longest trace, so that a longer one is told from it. */
static uint8_t trace[WHETBRACKEN_MOST_BYTES + 1];
static uint8_t text[WHETBRACKEN_REPORT_ROOM];
static uint64_t replies[WHETBRACKEN_MOST_REQUESTS], order[WHETBRACKEN_MOST_REQUESTS], words[WHETBRACKEN_WORDS];
static uint8_t marks[WHETBRACKEN_MOST_REQUESTS];

static double now(void)
{
    struct timespec t;
    clock_gettime(CLOCK_MONOTONIC, &t);
    return (double)t.tv_sec * 1e9 + (double)t.tv_nsec;
}

static uint64_t run(size_t len)
{
    return whetbracken_model(trace, len, replies, WHETBRACKEN_MOST_REQUESTS, marks, WHETBRACKEN_MOST_REQUESTS,
        order, WHETBRACKEN_MOST_REQUESTS, words, WHETBRACKEN_WORDS).rounds;
}

static int bench(long n, const char *name)
{
    FILE *file = fopen(name, "rb");
    if (!file) {
        perror(name);
        return 1;
    }
    size_t len = fread(trace, 1, sizeof trace, file);
    fclose(file);
    double best = 0;
    for (int batch = 0; batch < 5; batch++) {
        double start = now();
        for (long i = 0; i < n; i++) run(len);
        double each = (now() - start) / (double)n;
        if (batch == 0 || each < best) best = each;
    }
    printf("%.1f\n", best);
    return 0;
}

int main(int argc, char **argv)
{
    if (argc == 4 && strcmp(argv[1], "--bench") == 0) {
        long n = strtol(argv[2], NULL, 10);
        return bench(n < 1 ? 1 : n, argv[3]);
    }
    size_t len = fread(trace, 1, sizeof trace, stdin);
    if (ferror(stdin)) {
        perror("standard input");
        return 1;
    }
    size_t written = whetbracken_report(trace, len, text, sizeof text);
    return written == 0 || fwrite(text, 1, written, stdout) != written || fflush(stdout) != 0;
}
