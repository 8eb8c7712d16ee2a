/* Trace runner for the omega network of document 01 (base only), written for speed.
 *
 * The trace is checked whole, then run, then reported. Nothing is allocated while running.
 *
 * Layout. A node is level `s`, position `p`, and has index (4 - s) * 16 + p, so that the row 4 - s
 * does not depend on k: engines are row 4, the row of level 1 is 3, and the modules are row 4 - k.
 * Every queue holds tags only; a tag is one byte, so a queue of 4 is one uint32_t and a wait buffer
 * of 8 is two uint64_t, and "find the same address" and "find the first tag" are one zero-byte
 * search. What a message or a reply carries besides its tag lives in the tag's Req: a tag is in one
 * place at a time, and one that has become the second of a wait record has no operation of its own
 * any more, so its slot keeps the operation the record saves.
 *
 * An operation is (kind, m, c): f(x) = (x & m) + c for add, (x & m) ^ c for the others, with
 * load = (~0, 0), swap v = (0, v), add a = (~0, a), mask (a, b) = (a, b). Then f followed by g is
 * always (m_f & m_g, g(c_f)) where the two kinds merge at all.
 *
 * `busy` says where there is something to move, a bit for each node. Bits of busy[ASKING] ascend as
 * modules, then forwards from level k-1 down to 1; bits of busy[REPLYING] as returns from level 1
 * to k. A drain round walks the set bits. What a pass of a round adds to a queue is always at a row
 * that pass has left, so a copy of the bits taken when the pass starts is exact. An event tests its
 * bit before its kind is looked at, so that one which does nothing costs no jump.
 */

#define _POSIX_C_SOURCE 199309L
#include <stdbool.h>
#include <stddef.h>
#include <stdint.h>
#include <stdio.h>
#include <stdlib.h>
#include <string.h>
#include <time.h>

#if defined(__GNUC__)
#define ALWAYS static inline __attribute__((always_inline))
#define NEVER static __attribute__((noinline))
#define COLD static __attribute__((noinline, cold))
/* The compiler must take memory at p as read and changed here. */
#define BLACK_BOX(p) __asm__ volatile("" : : "r"(p) : "memory")
#else
#define ALWAYS static inline
#define NEVER static
#define COLD static
static const void *volatile black_box;
#define BLACK_BOX(p) (black_box = (p))
#endif

enum { MAX_TRACE = 65536, MAX_REQUESTS = 256 };

/* Record headers as the 32-bit number their four bytes spell: length, then kind. */
#define WORD (2u << 16 | 9)
#define REQUEST (3u << 16 | 19)
#define EVENT (4u << 16 | 3)
#define DRAIN (5u << 16 | 2)

enum { ADD = 2, MASK = 3, NO_MERGE = 15 };

/* Places in Machine.busy; BUSY_OF gives that of an event's what, a nibble each. */
enum { ISSUING, ASKING, REPLYING, COLLECTING };
#define BUSY_OF 0x32110u

/* Kind of "f, then g" at nibble kind(f) * 4 + kind(g); 15 where they do not merge. */
#define ROW(f, a, b, c, d) \
    (((uint64_t)(a) | (uint64_t)(b) << 4 | (uint64_t)(c) << 8 | (uint64_t)(d) << 12) << 16 * (f))
#define MERGED \
    (ROW(0, 0, 1, 2, 3) | ROW(1, 1, 1, 1, 1) | ROW(2, 2, 1, 2, NO_MERGE) | ROW(3, 3, 1, NO_MERGE, 3))

/* gcc leaves a loop of eight rounds as it is. */
#define EIGHT(X) X(0) X(1) X(2) X(3) X(4) X(5) X(6) X(7)

/* ------------------------------------------------------------------------------------- bytes */

#if defined(__BYTE_ORDER__) && __BYTE_ORDER__ == __ORDER_LITTLE_ENDIAN__
ALWAYS uint32_t le32(const uint8_t *b) { uint32_t x; memcpy(&x, b, 4); return x; }
ALWAYS uint64_t le64(const uint8_t *b) { uint64_t x; memcpy(&x, b, 8); return x; }
#else
ALWAYS uint32_t le32(const uint8_t *b)
{
    return b[0] | (uint32_t)b[1] << 8 | (uint32_t)b[2] << 16 | (uint32_t)b[3] << 24;
}
ALWAYS uint64_t le64(const uint8_t *b) { return le32(b) | (uint64_t)le32(b + 4) << 32; }
#endif

/* Number of trailing zeros; x is not 0. */
ALWAYS unsigned ctz64(uint64_t x)
{
#if defined(__GNUC__)
    return (unsigned)__builtin_ctzll(x);
#else
    unsigned n = 0;
    for (; !(x & 1); x >>= 1) n++;
    return n;
#endif
}

/* Place of the lowest zero byte, 4 if there is none. */
ALWAYS unsigned zero_byte32(uint32_t x)
{
    return ctz64(((x - 0x01010101u) & ~x & 0x80808080u) | (uint64_t)1 << 32) >> 3;
}

/* Place of the lowest zero byte, 8 or more if there is none. */
ALWAYS unsigned zero_byte64(uint64_t x)
{
    x = (x - 0x0101010101010101u) & ~x & 0x8080808080808080u;
    return x == 0 ? 8 : ctz64(x) >> 3;
}

/* ------------------------------------------------------------------------------------- check */

typedef struct {
    unsigned number;
    size_t offset;
} Refusal;

/* A trace found good, cut into its sections. */
typedef struct {
    uint8_t k, room, wait;
    const uint8_t *words;
    size_t word_count;
    const uint8_t *requests;
    size_t request_count;
    const uint8_t *steps;
    const uint8_t *end;
} Plan;

/* The kind of the record at `at`, or what is wrong with its frame, negated. */
COLD int frame(const uint8_t *at, size_t left)
{
    if (left < 4) return -1;
    unsigned length = at[0] | (unsigned)at[1] << 8;
    unsigned kind = at[2] | (unsigned)at[3] << 8;
    unsigned due;
    switch (kind) {
    case 1: case 4: due = 3; break;
    case 2: due = 9; break;
    case 3: due = 19; break;
    case 5: due = 2; break;
    default: return -2;
    }
    if (length != due) return -3;
    if (left - 4 < due) return -1;
    return (int)kind;
}

/* Bit level * 8 + what is set where the pair names a step. */
static uint64_t steps_of(unsigned k)
{
    uint64_t set = 1 | 1 << 4;
    for (unsigned level = 1; level <= k; level++) {
        set |= (uint64_t)1 << (level * 8 + 3);
        if (level < k) set |= (uint64_t)1 << (level * 8 + 1);
    }
    return set | (uint64_t)1 << (k * 8 + 2);
}

ALWAYS bool names(uint64_t w, uint64_t fixed, uint64_t named)
{
    return ((w & fixed) == EVENT) & (named >> ((w >> 32 | w >> 37) & 63) & 1);
}

ALWAYS bool refuse(Refusal *refusal, unsigned number, size_t offset)
{
    refusal->number = number;
    refusal->offset = offset;
    return false;
}

static inline bool check(const uint8_t *trace, size_t len, Plan *plan, Refusal *refusal)
{
    if (len > MAX_TRACE) return refuse(refusal, 10, 0);
    if (len == 0) return refuse(refusal, 4, 0);
    int kind = frame(trace, len);
    if (kind < 0) return refuse(refusal, (unsigned)-kind, 0);
    if (kind != 1) return refuse(refusal, 4, 0);
    unsigned k = trace[4], room = trace[5], wait = trace[6];
    if (k - 1 > 3 || room - 1 > 3 || wait > 8) return refuse(refusal, 5, 0);
    const uint8_t *r = trace + 7;
    const uint8_t *const end = trace + len;
#define LEFT ((size_t)(end - r))
#define HERE ((size_t)(r - trace))

    /* Each loop takes the records of its section and leaves at the first that is not one of them,
     * whatever the reason; the reason is found after the last loop. */
    const uint8_t *const words = r;
    uint64_t given[4] = {0};
    size_t word_count = 0;
    while (LEFT >= 13 && le32(r) == WORD) {
        uint64_t *cell = &given[r[4] >> 6];
        uint64_t bit = (uint64_t)1 << (r[4] & 63);
        if (*cell & bit) return refuse(refusal, 6, HERE);
        *cell |= bit;
        word_count++;
        r += 13;
    }

    const uint8_t *const requests = r;
    size_t count = 0;
    while (LEFT >= 23 && le32(r) == REQUEST) {
        if (count == MAX_REQUESTS) return refuse(refusal, 9, HERE);
        unsigned engine = r[4], operation = r[5];
        uint64_t first = le64(r + 7), second = le64(r + 15);
        /* Both operands of load and the second of swap and add must be zero. */
        uint64_t spare = (operation == MASK ? 0 : second) | (operation == 0 ? first : 0);
        if ((engine >> k | operation >> 2 | spare) != 0) return refuse(refusal, 7, HERE);
        count++;
        r += 23;
    }

    const uint8_t *const steps = r;
    const uint64_t named = steps_of(k);
    /* One comparison settles header, what < 8, level < 8 and position < N. */
    const uint64_t fixed = 0x0000f8f8ffffffffu | ((uint64_t)0xff << k & 0xff) << 48;
    for (;;) {
        /* Eight events or eight drains at a stride, one jump for all; else up to eight records one
         * by one. */
        while (LEFT >= 57) {
            if (r[2] == 5) {
                uint32_t off = 0;
#define ONE(i) off |= le32(r + 6 * (i)) ^ DRAIN;
                EIGHT(ONE)
#undef ONE
                if (off != 0) break;
                r += 48;
            } else {
                uint64_t off = 0, good = 1;
#define ONE(i) \
    { \
        uint64_t w = le64(r + 7 * (i)); \
        off |= (w & fixed) ^ EVENT; \
        good &= named >> ((w >> 32 | w >> 37) & 63); \
    }
                EIGHT(ONE)
#undef ONE
                if (off != 0 || good == 0) break;
                r += 56;
            }
        }
        int left = 8;
        while (LEFT >= 8) {
            if (left == 0) break;
            left--;
            uint64_t w = le64(r);
            if (names(w, fixed, named)) r += 7;
            else if ((uint32_t)w == DRAIN) r += 6;
            else break;
        }
        if (left == 0) continue;
        if (r == end) {
            *plan = (Plan){
                .k = (uint8_t)k, .room = (uint8_t)room, .wait = (uint8_t)wait,
                .words = words, .word_count = word_count,
                .requests = requests, .request_count = count,
                .steps = steps, .end = end,
            };
            return true;
        }
        kind = frame(r, LEFT);
        if (kind < 0) return refuse(refusal, (unsigned)-kind, HERE);
        if (kind == 4) {
            uint64_t w = le32(r) | (uint64_t)r[4] << 32 | (uint64_t)r[5] << 40 | (uint64_t)r[6] << 48;
            if (!names(w, fixed, named)) return refuse(refusal, 8, HERE);
            r += 7;
        } else if (kind == 5) {
            r += 6;
        } else {
            return refuse(refusal, 4, HERE);
        }
    }
#undef LEFT
#undef HERE
}

/* --------------------------------------------------------------------------------------- run */

/* What belongs to one tag. */
typedef struct {
    uint64_t m, c;
    /* The reply, once the module or a wait record has made it. */
    uint64_t value;
    uint8_t kind, address;
    /* Position at row r is path >> r, cut to k bits. */
    uint8_t path;
    /* The engine's next request. */
    uint8_t after;
    /* The requests a message stands for, in order: a chain from its tag to `last`. */
    uint8_t next, last;
    uint8_t answered;
} Req;

/* Queues of one position. Bytes of replies, firsts and seconds beyond the length are zero. */
typedef struct {
    /* Wait records, oldest in the low byte. */
    uint64_t firsts, seconds;
    /* Request queue, youngest in the low byte: tags and their addresses. */
    uint32_t tags, addresses;
    /* Reply queue, oldest in the low byte. */
    uint32_t replies;
    uint8_t asking, waiting, replying;
} Node;

typedef struct {
    /* 80 are in use; 128 so that a masked index is never outside. */
    Node nodes[128];
    Req reqs[MAX_REQUESTS];
    uint64_t words[256];
    uint8_t order[MAX_REQUESTS];
    /* Next unissued request of each engine that has its bit in busy, and its final one. */
    uint8_t head[16], tail[16];
    /* Bit e: engine e has unissued requests. Bit i: request queue i is not empty. Bit i ^ 48: reply
     * queue i of levels 1 to k is not empty. Bit e ^ 48: that of engine e is not. */
    uint64_t busy[4];
    uint8_t room, wait, mask, module_row;
    uint32_t unanswered;
    size_t ordered;
    uint32_t accesses, merges, rounds;
} Machine;

ALWAYS uint64_t apply(unsigned kind, uint64_t m, uint64_t c, uint64_t x)
{
    uint64_t y = x & m;
    return kind == ADD ? y + c : y ^ c;
}

static void load(Machine *s, const Plan *plan)
{
    unsigned k = plan->k;
    s->mask = (uint8_t)((1 << k) - 1);
    s->room = plan->room;
    s->wait = plan->wait;
    s->module_row = (uint8_t)(4 - k);
    memset(&s->nodes[16 * (4 - k)], 0, (80 - 16 * (4 - k)) * sizeof(Node));
    memset(s->busy, 0, sizeof s->busy);
    s->unanswered = (uint32_t)plan->request_count;
    s->ordered = 0;
    s->accesses = 0;
    s->merges = 0;
    s->rounds = 0;

    memset(s->words, 0, sizeof s->words);
    const uint8_t *r = plan->words;
    for (size_t i = 0; i < plan->word_count; i++, r += 13) s->words[r[4]] = le64(r + 5);
    r = plan->requests;
    for (size_t tag = 0; tag < plan->request_count; tag++, r += 23) {
        unsigned engine = r[4] & 15, kind = r[5], address = r[6];
        uint64_t first = le64(r + 7), second = le64(r + 15);
        uint64_t m = kind == 1 ? 0 : ~(uint64_t)0;
        s->reqs[tag] = (Req){
            .m = kind == MASK ? first : m,
            .c = kind == MASK ? second : first,
            .value = 0,
            .kind = (uint8_t)kind,
            .address = (uint8_t)address,
            .path = (uint8_t)((engine << k | (address & s->mask)) << (4 - k)),
            .last = (uint8_t)tag,
        };
    }
    /* Engine lists. */
    r = plan->requests;
    for (size_t tag = 0; tag < plan->request_count; tag++, r += 23) {
        unsigned engine = r[4] & 15;
        if (!(s->busy[ISSUING] >> engine & 1)) {
            s->busy[ISSUING] |= (uint64_t)1 << engine;
            s->head[engine] = (uint8_t)tag;
        } else {
            s->reqs[s->tail[engine]].after = (uint8_t)tag;
        }
        s->tail[engine] = (uint8_t)tag;
    }
}

/* Index of tag's node at `row`. */
ALWAYS unsigned place(const Machine *s, unsigned tag, unsigned row)
{
    return row * 16 + ((unsigned)s->reqs[tag].path >> row & s->mask);
}

/* A message arrives at the request queue of `row` on its path; false if that cannot be. */
ALWAYS bool arrive(Machine *s, uint8_t tag, unsigned row)
{
    unsigned at = place(s, tag, row) & 63;
    Node *node = &s->nodes[at];
    Req *second = &s->reqs[tag];
    unsigned address = second->address;
    /* One jump after the other costs less than all conditions worked out for a single jump. */
    unsigned match_at;
    if (node->waiting < s->wait
        && (match_at = zero_byte32(node->addresses ^ address * 0x01010101u)) < node->asking) {
        uint8_t older = (uint8_t)(node->tags >> (8 * match_at & 31));
        Req *first = &s->reqs[older];
        unsigned kind = (unsigned)(MERGED >> ((first->kind & 3) * 16 + (second->kind & 3) * 4)) & 15;
        if (kind != NO_MERGE) {
            unsigned shift = 8 * (node->waiting & 7u);
            node->firsts |= (uint64_t)older << shift;
            node->seconds |= (uint64_t)tag << shift;
            node->waiting++;
            uint8_t f_kind = first->kind, f_last = first->last;
            uint64_t f_m = first->m, f_c = first->c;
            uint8_t g_kind = second->kind, g_last = second->last;
            uint64_t g_m = second->m, g_c = second->c;
            second->kind = f_kind;
            second->m = f_m;
            second->c = f_c;
            first->kind = (uint8_t)kind;
            first->m = f_m & g_m;
            first->c = apply(g_kind, g_m, g_c, f_c);
            first->last = g_last;
            s->reqs[f_last].next = tag;
            s->merges++;
            return true;
        }
    }
    if (node->asking < s->room) {
        node->tags = node->tags << 8 | tag;
        node->addresses = node->addresses << 8 | address;
        node->asking++;
        s->busy[ASKING] |= (uint64_t)1 << at;
        return true;
    }
    return false;
}

/* Oldest message of a request queue that is not empty. */
ALWAYS uint8_t oldest(const Machine *s, unsigned at)
{
    const Node *node = &s->nodes[at & 63];
    return (uint8_t)(node->tags >> (8 * (node->asking - 1u) & 31));
}

ALWAYS void drop_oldest(Machine *s, unsigned at)
{
    Node *node = &s->nodes[at & 63];
    node->asking--;
    uint64_t empty = node->asking == 0;
    s->busy[ASKING] &= ~(empty << (at & 63));
}

ALWAYS bool put_reply(Machine *s, unsigned at, uint8_t tag)
{
    Node *node = &s->nodes[at & 127];
    if (node->replying >= s->room) return false;
    node->replies |= (uint32_t)tag << (8 * node->replying & 31);
    node->replying++;
    s->busy[REPLYING + (at >> 6 & 1)] |= (uint64_t)1 << ((at ^ 48) & 63);
    return true;
}

ALWAYS void drop_reply(Machine *s, unsigned at)
{
    Node *node = &s->nodes[at & 127];
    node->replies >>= 8;
    node->replying--;
    uint64_t empty = node->replying == 0;
    s->busy[REPLYING + (at >> 6 & 1)] &= ~(empty << ((at ^ 48) & 63));
}

/* The steps. Each is called only where there is something to move. */

ALWAYS void issue(Machine *s, unsigned engine)
{
    engine &= 15;
    uint8_t tag = s->head[engine];
    if (arrive(s, tag, 3)) {
        s->head[engine] = s->reqs[tag].after;
        uint64_t done = tag == s->tail[engine];
        s->busy[ISSUING] &= ~(done << engine);
    }
}

ALWAYS void forward(Machine *s, unsigned at)
{
    uint8_t tag = oldest(s, at);
    if (arrive(s, tag, (at >> 4 & 3) - 1)) drop_oldest(s, at);
}

ALWAYS void module(Machine *s, unsigned at)
{
    uint8_t tag = oldest(s, at);
    if (!put_reply(s, at, tag)) return;
    drop_oldest(s, at);
    Req *req = &s->reqs[tag];
    uint64_t *word = &s->words[req->address];
    uint64_t old = *word;
    req->value = old;
    *word = apply(req->kind, req->m, req->c, old);
    s->accesses++;
    uint8_t last = req->last, each = tag;
    for (;;) {
        s->order[s->ordered & 255] = each;
        s->ordered++;
        if (each == last) break;
        each = s->reqs[each].next;
    }
}

ALWAYS void give_back(Machine *s, unsigned at)
{
    Node *node = &s->nodes[at & 63];
    uint8_t tag = (uint8_t)node->replies;
    unsigned row = (at >> 4 & 3) + 1;
    unsigned record = zero_byte64(node->firsts ^ tag * 0x0101010101010101u);
    if (record < node->waiting) {
        uint8_t second = (uint8_t)(node->seconds >> 8 * record);
        if (!put_reply(s, place(s, second, row), second)) return;
        Req *req = &s->reqs[second];
        req->value = apply(req->kind, req->m, req->c, s->reqs[tag].value);
        uint64_t below = ((uint64_t)1 << 8 * record) - 1;
        node->firsts = (node->firsts & below) | (node->firsts >> 8 & ~below);
        node->seconds = (node->seconds & below) | (node->seconds >> 8 & ~below);
        node->waiting--;
    } else if (put_reply(s, place(s, tag, row), tag)) {
        drop_reply(s, at);
    }
}

ALWAYS void collect(Machine *s, unsigned at)
{
    uint8_t tag = (uint8_t)s->nodes[at & 127].replies;
    drop_reply(s, at);
    s->reqs[tag].answered = 1;
    s->unanswered--;
}

NEVER void drain(Machine *s, unsigned allowed)
{
    const uint64_t modules = (uint64_t)0xffff << 16 * s->module_row;
    for (; allowed != 0; allowed--) {
        if (s->unanswered == 0) return;
        s->rounds++;
        uint64_t set;
        for (set = s->busy[COLLECTING] >> 48; set != 0; set &= set - 1) collect(s, 64 + ctz64(set));
        for (set = s->busy[REPLYING]; set != 0; set &= set - 1) give_back(s, ctz64(set) ^ 48);
        for (set = s->busy[ASKING] & modules; set != 0; set &= set - 1) module(s, ctz64(set));
        for (set = s->busy[ASKING] & ~modules; set != 0; set &= set - 1) forward(s, ctz64(set));
        for (set = s->busy[ISSUING]; set != 0; set &= set - 1) issue(s, ctz64(set));
    }
}

static inline void run(Machine *s, const Plan *plan)
{
    load(s, plan);
    const uint8_t *r = plan->steps;
    /* The checked steps end at a record's end. Once every request is answered the network is empty
     * and nothing can change any more. */
    while (s->unanswered != 0 && r != plan->end) {
        if (r[2] == 5) {
            drain(s, r[4] | (unsigned)r[5] << 8);
            r += 6;
            continue;
        }
        unsigned what = r[4], level = r[5], position = r[6];
        r += 7;
        unsigned at = ((4 - level) * 16 + position) & 127;
        unsigned bit = (what >= 3 ? at ^ 48 : at) & 63;
        if (!(s->busy[BUSY_OF >> (4 * what & 31) & 3] >> bit & 1)) continue;
        switch (what) {
        case 0: issue(s, at); break;
        case 1: forward(s, at); break;
        case 2: module(s, at); break;
        case 3: give_back(s, at); break;
        default: collect(s, at); break;
        }
    }
}

/* ------------------------------------------------------------------------------------ report */

/* Longest report: 256 replies of 31 bytes, 256 order lines of 10, 256 words of 30, three counts. */
enum { OUT = 256 * (31 + 10 + 30) + 64 };

typedef struct {
    uint8_t bytes[OUT];
    size_t len;
} Out;

ALWAYS void text(Out *o, const char *t, size_t n)
{
    memcpy(o->bytes + o->len, t, n);
    o->len += n;
}
#define TEXT(o, t) text(o, t, sizeof(t) - 1)

ALWAYS void number(Out *o, uint64_t n)
{
    char digits[20];
    unsigned at = 20;
    while (n >= 100) {
        unsigned pair = (unsigned)(n % 100);
        n /= 100;
        at -= 2;
        digits[at] = (char)('0' + pair / 10);
        digits[at + 1] = (char)('0' + pair % 10);
    }
    if (n >= 10) {
        at -= 2;
        digits[at] = (char)('0' + n / 10);
        digits[at + 1] = (char)('0' + n % 10);
    } else {
        at -= 1;
        digits[at] = (char)('0' + n);
    }
    text(o, digits + at, 20 - at);
}

#define LINE(o, name, n) (TEXT(o, name), number(o, n), TEXT(o, "\n"))

static void report_refusal(Out *o, const Refusal *refusal)
{
    o->len = 0;
    TEXT(o, "refused ");
    number(o, refusal->number);
    LINE(o, " ", refusal->offset);
}

static void report(Out *o, const Plan *plan, const Machine *s)
{
    o->len = 0;
    for (size_t tag = 0; tag < plan->request_count; tag++) {
        TEXT(o, "reply ");
        number(o, tag);
        if (s->reqs[tag].answered) LINE(o, " ", s->reqs[tag].value);
        else TEXT(o, " -\n");
    }
    for (size_t i = 0; i < s->ordered; i++) LINE(o, "order ", s->order[i]);
    bool named[256] = {false};
    const uint8_t *r = plan->words;
    for (size_t i = 0; i < plan->word_count; i++, r += 13) named[r[4]] = true;
    r = plan->requests;
    for (size_t i = 0; i < plan->request_count; i++, r += 23) named[r[6]] = true;
    for (size_t address = 0; address < 256; address++) {
        if (!named[address]) continue;
        TEXT(o, "word ");
        number(o, address);
        LINE(o, " ", s->words[address]);
    }
    LINE(o, "access ", s->accesses);
    LINE(o, "merge ", s->merges);
    LINE(o, "rounds ", s->rounds);
}

/* -------------------------------------------------------------------------------------- main */

/* One byte more than allowed is enough to know. */
static uint8_t trace[MAX_TRACE + 1];
static Machine machine;
static Out out;

static bool read_trace(FILE *file, size_t *len)
{
    *len = fread(trace, 1, sizeof trace, file);
    return !ferror(file);
}

static double now(void)
{
    struct timespec t;
    clock_gettime(CLOCK_MONOTONIC, &t);
    return (double)t.tv_sec * 1e9 + (double)t.tv_nsec;
}

enum { BENCH_CHECK, BENCH_RUN, BENCH_REPORT };

NEVER void once(const uint8_t *bytes, size_t len, int mode)
{
    Plan plan;
    Refusal refusal;
    BLACK_BOX(bytes);
    if (!check(bytes, len, &plan, &refusal)) {
        BLACK_BOX(&refusal);
        return;
    }
    BLACK_BOX(&plan);
    if (mode == BENCH_CHECK) return;
    run(&machine, &plan);
    BLACK_BOX(&machine);
    if (mode == BENCH_REPORT) {
        report(&out, &plan, &machine);
        BLACK_BOX(&out);
    }
}

/* --bench times check and run, --bench-check the check alone, --bench-report check, run and the
 * making of the report text. */
static int bench(int mode, long n, const char *name)
{
    FILE *file = fopen(name, "rb");
    size_t len;
    if (!file || !read_trace(file, &len)) {
        perror(name);
        return 1;
    }
    fclose(file);
    double best = 0;
    for (int batch = 0; batch < 5; batch++) {
        double start = now();
        for (long i = 0; i < n; i++) once(trace, len, mode);
        double each = (now() - start) / (double)n;
        if (batch == 0 || each < best) best = each;
    }
    printf("%.1f\n", best);
    return 0;
}

int main(int argc, char **argv)
{
    if (argc == 4 && strncmp(argv[1], "--bench", 7) == 0) {
        int mode = strcmp(argv[1], "--bench-check") == 0 ? BENCH_CHECK
                 : strcmp(argv[1], "--bench-report") == 0 ? BENCH_REPORT : BENCH_RUN;
        long n = strtol(argv[2], NULL, 10);
        return bench(mode, n < 1 ? 1 : n, argv[3]);
    }
    size_t len;
    if (!read_trace(stdin, &len)) return 1;
    Plan plan;
    Refusal refusal;
    if (check(trace, len, &plan, &refusal)) {
        run(&machine, &plan);
        report(&out, &plan, &machine);
    } else {
        report_refusal(&out, &refusal);
    }
    return fwrite(out.bytes, 1, out.len, stdout) != out.len || fflush(stdout) != 0;
}
