/* compare TRACES [SEED]: random traces, most of them well formed and many damaged, through whetbracken_model and through the C peer, in
 * one process. The answers and all lent memory are compared, what lies beyond the results too, and of every 64th the reports. Prints
 * the seed of the first trace that differs, and exits with 1. */
#define main peer_main
#include "runner.c"
#undef main
#include "../include/whetbracken.h"

static uint64_t state;

static uint64_t random64(void)
{
    state ^= state << 13;
    state ^= state >> 7;
    state ^= state << 17;
    return state * 0x2545F4914F6CDD1Du;
}

static unsigned below(unsigned n) { return (unsigned)((random64() >> 33) % n); }

static size_t put(size_t at, unsigned kind, const uint8_t *body, unsigned n)
{
    if (at + 4 + n > sizeof trace) return at;
    trace[at] = (uint8_t)n;
    trace[at + 1] = 0;
    trace[at + 2] = (uint8_t)kind;
    trace[at + 3] = 0;
    memcpy(trace + at + 4, body, n);
    return at + 4 + n;
}

static void put64(uint8_t *b, uint64_t x) { for (int i = 0; i < 8; i++) b[i] = (uint8_t)(x >> 8 * i); }

static size_t make(void)
{
    uint8_t b[19];
    unsigned k = 1 + below(4), words = below(4), requests = below(8) == 0 ? below(257) : below(24), events = below(60);
    unsigned addresses = 1 + below(6), stride = 1 + below(16);
    b[0] = (uint8_t)k;
    b[1] = (uint8_t)(1 + below(4));
    b[2] = (uint8_t)below(9);
    size_t at = put(0, 1, b, 3);
    unsigned first = below(256);
    for (unsigned i = 0; i < words; i++) {
        b[0] = (uint8_t)(first + i * stride);
        put64(b + 1, random64());
        at = put(at, 2, b, 9);
    }
    for (unsigned i = 0; i < requests; i++) {
        unsigned op = below(4);
        b[0] = (uint8_t)below(1u << k);
        b[1] = (uint8_t)op;
        b[2] = (uint8_t)(first + below(addresses) * stride);
        put64(b + 3, op == 0 ? 0 : below(3) ? random64() : below(3));
        put64(b + 11, op == 3 ? random64() : 0);
        at = put(at, 3, b, 19);
    }
    for (unsigned i = 0; i < events; i++) {
        if (below(12) == 0) {
            unsigned rounds = below(4) ? below(6) : below(3000);
            b[0] = (uint8_t)rounds;
            b[1] = (uint8_t)(rounds >> 8);
            at = put(at, 5, b, 2);
            continue;
        }
        unsigned what = below(5);
        if (what == 1 && k == 1) what = 0;
        b[0] = (uint8_t)what;
        b[1] = (uint8_t)(what == 0 || what == 4 ? 0 : what == 2 ? k : what == 1 ? 1 + below(k - 1) : 1 + below(k));
        b[2] = (uint8_t)below(1u << k);
        at = put(at, 4, b, 3);
    }
    /* damage: a byte changed, or the end cut */
    if (below(4) == 0) for (unsigned n = 1 + below(3); n; n--) trace[below((unsigned)at)] = (uint8_t)(below(2) ? random64() : below(8));
    if (below(16) == 0) at = below((unsigned)at + 1);
    return at;
}

enum { ROOM = 300 };
static uint64_t replies[ROOM], order[ROOM], words_lent[ROOM], replies_due[ROOM], order_due[ROOM], words_due[ROOM];
static uint8_t marks[ROOM], marks_due[ROOM], report_room[WHETBRACKEN_REPORT_ROOM];

static void fill(void)
{
    uint64_t x = random64();
    for (int i = 0; i < ROOM; i++) {
        replies[i] = replies_due[i] = x + (uint64_t)i;
        order[i] = order_due[i] = x ^ (uint64_t)i;
        words_lent[i] = words_due[i] = ~x - (uint64_t)i;
        marks[i] = marks_due[i] = (uint8_t)(x >> 8) ^ (uint8_t)i;
    }
}

static bool same(size_t len, bool with_report)
{
    Plan plan;
    Refusal refusal;
    size_t room[4];
    for (int i = 0; i < 4; i++) room[i] = below(16) ? 256 + below(ROOM - 255) : below(ROOM + 1);
    fill();
    struct whetbracken_numbers told =
        whetbracken_model(trace, len, replies, room[0], marks, room[1], order, room[2], words_lent, room[3]);
    uint64_t number = 0, offset = 0, due[4] = {0, 0, 0, 0};
    bool good = check(trace, len, &plan, &refusal);
    if (!good) {
        number = refusal.number;
        offset = refusal.offset;
    } else if (room[0] < plan.request_count || room[1] < plan.request_count || room[2] < plan.request_count || room[3] < 256) {
        number = 11;
    } else {
        run(&machine, &plan);
        for (size_t t = 0; t < plan.request_count; t++) {
            replies_due[t] = machine.reqs[t].answered ? machine.reqs[t].value : 0;
            marks_due[t] = machine.reqs[t].answered ? 1 : 0;
        }
        for (size_t i = 0; i < machine.ordered; i++) order_due[i] = machine.order[i];
        for (size_t a = 0; a < 256; a++) words_due[a] = machine.words[a];
        due[0] = machine.ordered;
        due[1] = machine.accesses;
        due[2] = machine.merges;
        due[3] = machine.rounds;
    }
    if (told.refusal != number || told.offset != offset) return false;
    if (told.ordered != due[0] || told.accesses != due[1] || told.merges != due[2] || told.rounds != due[3]) return false;
    if (memcmp(replies, replies_due, sizeof replies) || memcmp(marks, marks_due, sizeof marks)) return false;
    if (memcmp(order, order_due, sizeof order) || memcmp(words_lent, words_due, sizeof words_lent)) return false;
    if (!with_report) return true;
    if (good) {
        run(&machine, &plan);
        report(&out, &plan, &machine);
    } else {
        report_refusal(&out, &refusal);
    }
    size_t written = whetbracken_report(trace, len, report_room, sizeof report_room);
    return written == out.len && memcmp(report_room, out.bytes, written) == 0;
}

int main(int argc, char **argv)
{
    long n = argc > 1 ? strtol(argv[1], NULL, 10) : 1000;
    uint64_t seed = argc > 2 ? strtoull(argv[2], NULL, 10) : 1;
    long accepted = 0;
    for (long i = 0; i < n; i++) {
        state = (seed + (uint64_t)i) * 0x9E3779B97F4A7C15u | 1;
        for (int j = 0; j < 4; j++) random64();
        size_t len = make();
        if (!same(len, i % 64 == 0)) {
            printf("compare: the trace of seed %llu differs\n", (unsigned long long)(seed + (uint64_t)i));
            return 1;
        }
        Plan plan;
        Refusal refusal;
        accepted += check(trace, len, &plan, &refusal);
    }
    printf("compare: %ld random traces, %ld of them accepted, none differs\n", n, accepted);
    return 0;
}
