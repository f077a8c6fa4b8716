/* Sets the proved library (include/c64x.h) beside the plain C model of model.c, in one process: first that both do the
   same, then what each costs. Short runs of the two alternate, each on a record and memories of its own. What is shown
   is the least time of each side, which other work on the machine disturbs least, and the ratio library / C of these.
   It prints a table; the exit status is 1 only where results differ. */
#define _POSIX_C_SOURCE 200809L
#include <stdio.h>
#include <stdlib.h>
#include <string.h>
#include <time.h>

#include "c64x.h"
#include "model.h"

#define EXTERNAL 0x80000000u
#define COMMANDS 32768 /* of the trace of a class */
#define RUNS 101       /* of a class, on each side */
#define CALLS 1001     /* of a direct call, on each side */

/* A record as both sides name it. */
union both {
    struct record model;
    c64x_record library;
};

_Static_assert(sizeof(c64x_record) == sizeof(struct record), "both sides have one layout");

/* What one side works on. */
struct side {
    union both r;
    struct lent m;
    uint8_t *answers;
    size_t answers_len;
};

struct trace {
    uint8_t *bytes;
    size_t len;
    size_t count;
};

static struct side lib, c;
static int differences;

static uint64_t seed = 88172645463325252u;

static uint32_t below(uint32_t bound)
{
    seed ^= seed << 13;
    seed ^= seed >> 7;
    seed ^= seed << 17;
    return (uint32_t)((seed >> 32) * bound >> 32);
}

static double now(void)
{
    struct timespec t;
    clock_gettime(CLOCK_MONOTONIC, &t);
    return (double)t.tv_sec * 1e9 + (double)t.tv_nsec;
}

/* The least time of one side, without what the clock itself takes. */
struct times {
    double ns;
};

#define NO_TIME { 1e18 }

static double clock_ns;

static void took(struct times *t, double since)
{
    double ns = now() - since - clock_ns;
    if (ns < t->ns) t->ns = ns;
}

static void time_the_clock(void)
{
    struct times least = NO_TIME;
    for (int i = 0; i < 100000; i++) took(&least, now());
    clock_ns = least.ns;
}

static uint8_t *room(size_t n)
{
    void *p = NULL;
    if (posix_memalign(&p, 4096, n ? n : 1) != 0) {
        fprintf(stderr, "bench: no memory\n");
        exit(2);
    }
    memset(p, 0, n);
    return p;
}

/* ---- traces */

static void put_number(struct trace *t, uint64_t v)
{
    while (v >= 128) {
        t->bytes[t->len++] = (uint8_t)(v | 128);
        v >>= 7;
    }
    t->bytes[t->len++] = (uint8_t)v;
}

static void put(struct trace *t, uint8_t code, uint32_t first, uint32_t second, uint64_t value)
{
    static const uint8_t numbers[13] = { 2, 3, 0, 0, 2, 2, 2, 2, 2, 0, 1, 2, 1 };
    t->bytes[t->len++] = code;
    t->count++;
    if (numbers[code] > 0) put_number(t, first);
    if (numbers[code] > 1) put_number(t, second);
    if (numbers[code] > 2) put_number(t, value);
}

static void clear(struct trace *t)
{
    t->len = 0;
    t->count = 0;
}

/* ---- both sides */

#define LENT(m) (m).l1d, (m).l1d_len, (m).l2, (m).l2_len, (m).ext, (m).ext_len, (m).l1p, (m).l1p_len

static c64x_answer library_call(union both *both, const struct lent *m, const struct command *q)
{
    c64x_record *r = &both->library;
    switch (q->code) {
    case 0: return c64x_read(r, q->first, q->second, LENT(*m));
    case 1: return c64x_write(r, q->first, q->second, q->value, LENT(*m));
    case 2: return c64x_l2_writeback_all(r, LENT(*m));
    case 3: return c64x_l2_writeback_invalidate_all(r, LENT(*m));
    case 4: return c64x_l2_writeback_block(r, q->first, q->second, LENT(*m));
    case 5: return c64x_l2_writeback_invalidate_block(r, q->first, q->second, LENT(*m));
    case 6: return c64x_l2_invalidate_block(r, q->first, q->second, LENT(*m));
    case 7: return c64x_l1d_writeback_invalidate_block(r, q->first, q->second, LENT(*m));
    case 8: return c64x_l1d_invalidate_block(r, q->first, q->second, LENT(*m));
    case 9: return c64x_l1d_invalidate_all(r, LENT(*m));
    case 10: return c64x_change_mode(r, q->first, LENT(*m));
    case 11: return c64x_change_mar(r, q->first, q->second, LENT(*m));
    default: return c64x_freeze(r, q->first, LENT(*m));
    }
}

static c64x_answer library_unaligned(union both *both, const struct lent *m, const struct unaligned *u)
{
    c64x_record *r = &both->library;
    return u->write ? c64x_write_unaligned(r, u->size, u->address, u->value, LENT(*m))
                    : c64x_read_unaligned(r, u->size, u->address, LENT(*m));
}

/* A transfer, of as many bytes of a buffer. */
struct transfer {
    int in;
    uint32_t address;
    size_t length;
};

static c64x_answer library_transfer(const struct transfer *f, uint8_t *buffer)
{
    c64x_record *r = &lib.r.library;
    return f->in ? c64x_transfer_in(r, f->address, buffer, f->length, LENT(lib.m))
                 : c64x_transfer_out(r, f->address, buffer, f->length, LENT(lib.m));
}

/* All that it answers is the number. */
static struct answer model_transfer(const struct transfer *f, uint8_t *buffer)
{
    struct record *r = &c.r.model;
    uint8_t number = f->in ? model_transfer_in(r, &c.m, f->address, buffer, f->length)
                           : model_transfer_out(r, &c.m, f->address, buffer, f->length);
    return (struct answer){ number, 0, 0 };
}

static uint8_t library_view(uint32_t address, uint8_t *seen, size_t seen_len)
{
    return c64x_view(&lib.r.library, address, lib.m.l2, lib.m.l2_len, lib.m.ext, lib.m.ext_len, seen, seen_len);
}

static uint8_t library_view_number(uint32_t address)
{
    return c64x_view_number(&lib.r.library, address, lib.m.l2, lib.m.l2_len, lib.m.ext, lib.m.ext_len);
}

static int same_answer(c64x_answer x, struct answer y)
{
    return x.number == y.number && x.server == y.server && x.value == y.value;
}

/* What the answer reports beside them (paper 02, U2). */
static int same_report(c64x_answer x, const struct report *t)
{
    return x.l1d_left.kind == t->l1d_left.kind && x.l1d_left.address == t->l1d_left.address
        && x.l2_left.kind == t->l2_left.kind && x.l2_left.address == t->l2_left.address
        && x.external_read == t->external_read && x.external_written == t->external_written;
}

static int same_line(const struct line *x, const struct line *y)
{
    return x->valid == y->valid && x->dirty == y->dirty && x->address == y->address;
}

static int same_record(const struct record *x, const struct record *y)
{
    if (x->l2len != y->l2len || x->extlen != y->extlen) return 0;
    if (x->mode != y->mode || x->mar128 != y->mar128 || x->mar129 != y->mar129 || x->frozen != y->frozen) return 0;
    if (x->dirty_l1d != y->dirty_l1d || x->dirty_l2 != y->dirty_l2) return 0;
    for (int s = 0; s < 128; s++) {
        for (int w = 0; w < 2; w++)
            if (!same_line(&x->l1d[s].lines[w], &y->l1d[s].lines[w])) return 0;
        if (memcmp(x->l1d[s].order, y->l1d[s].order, 2) != 0) return 0;
    }
    for (int t = 0; t < 512; t++) {
        for (int w = 0; w < 4; w++)
            if (!same_line(&x->l2[t].lines[w], &y->l2[t].lines[w])) return 0;
        if (memcmp(x->l2[t].order, y->l2[t].order, 4) != 0) return 0;
    }
    for (int s = 0; s < 512; s++)
        if (!same_line(&x->l1p[s].lines[0], &y->l1p[s].lines[0])) return 0;
    return 1;
}

static void differ(const char *where, const char *what)
{
    printf("DIFFERENT: %s: %s\n", where, what);
    differences++;
}

/* What a direct call gave back on each side. */
static void compare_call(const char *where, c64x_answer x, struct answer y, const struct report *t)
{
    if (!same_answer(x, y)) differ(where, "number, server or value");
    if (!same_report(x, t)) differ(where, "lines put out, or bytes of external memory");
}

static void compare(const char *where)
{
    if (!same_record(&lib.r.model, &c.r.model)) differ(where, "record");
    if (memcmp(lib.m.l1d, c.m.l1d, lib.m.l1d_len) != 0) differ(where, "L1D bytes");
    if (memcmp(lib.m.l2, c.m.l2, lib.m.l2_len) != 0) differ(where, "L2 bytes");
    if (memcmp(lib.m.ext, c.m.ext, lib.m.ext_len) != 0) differ(where, "external bytes");
    if (memcmp(lib.m.l1p, c.m.l1p, lib.m.l1p_len) != 0) differ(where, "L1P bytes");
    if (lib.answers_len && memcmp(lib.answers, c.answers, lib.answers_len) != 0) differ(where, "answers");
}

static void lend(struct side *s, size_t l, size_t e)
{
    free(s->m.l1d);
    free(s->m.l2);
    free(s->m.ext);
    free(s->m.l1p);
    s->m = (struct lent){ room(16384), 16384, room(l), l, room(e), e, room(16384), 16384 };
}

static void fresh(const char *where, size_t l, size_t e)
{
    lend(&lib, l, e);
    lend(&c, l, e);
    for (size_t i = 0; i < e && i < 1u << 20; i++) lib.m.ext[i] = c.m.ext[i] = (uint8_t)below(256);
    static const struct report none;
    c64x_answer x = c64x_fresh(&lib.r.library, LENT(lib.m));
    struct answer y = { model_fresh(&c.r.model, &c.m), 0, 0 };
    compare_call(where, x, y, &none);
}

static void give_answers(size_t n)
{
    if (n <= lib.answers_len) {
        lib.answers_len = c.answers_len = n;
        return;
    }
    free(lib.answers);
    free(c.answers);
    lib.answers = room(n);
    c.answers = room(n);
    lib.answers_len = c.answers_len = n;
}

static struct run_result run_c(const struct trace *t, struct times *c_ns)
{
    double at = now();
    struct run_result y = model_run(&c.r.model, &c.m, t->bytes, t->len, c.answers, c.answers_len);
    took(c_ns, at);
    return y;
}

/* Each side runs the trace, and its time is kept. */
static void run(const char *where, const struct trace *t, struct times *library_ns, struct times *c_ns,
                int c_first)
{
    struct run_result y;
    if (c_first) y = run_c(t, c_ns);
    double at = now();
    c64x_ran x = c64x_run(&lib.r.library, t->bytes, t->len, LENT(lib.m), lib.answers, lib.answers_len);
    took(library_ns, at);
    if (!c_first) y = run_c(t, c_ns);
    if (x.consumed != y.consumed || x.count != y.count || x.stop != y.stop)
        differ(where, "consumed, count or stop of a run");
}

static void play(const char *where, const struct trace *t)
{
    struct times a = NO_TIME, b = NO_TIME;
    give_answers(10 * t->count);
    run(where, t, &a, &b, 0);
    compare(where);
}

/* ---- do both do the same? */

static uint32_t some_address(void)
{
    uint32_t hot = below(4) ? below(40) * 4096 + below(256) : below(300000);
    switch (below(8)) {
    case 0: return hot + 0x81000000u;
    case 1: case 2: return hot;
    case 3: return below(0xFFFFFFFFu);
    default: return EXTERNAL + hot;
    }
}

static uint64_t some_value(uint32_t size)
{
    uint64_t upper = size == 8 ? (uint64_t)below(0xFFFFFFFFu) << 32 : 0;
    return upper | below(1u << (size < 4 ? 8 * size : 31));
}

static void some_command(struct trace *t)
{
    static const uint32_t modes[8] = { 0, 1, 2, 3, 7, 1, 2, 4 };
    uint32_t size = 1u << below(4), a = some_address(), kind = below(64);
    if (below(200) == 0) size = below(10);
    if (below(50)) a -= a % (size ? size : 1);
    if (kind < 32) put(t, 0, size, a, 0);
    else if (kind < 56) put(t, 1, size, a, below(50) ? some_value(size) : UINT64_MAX >> below(64));
    else if (kind < 61)
        put(t, (uint8_t)(4 + below(5)), below(20) ? a & ~3u : a, below(40) ? below(200) : below(70000), 0);
    else if (kind < 62)
        put(t, (uint8_t)(below(8) ? 11 : 10), below(20) ? 128 + below(2) : below(200), below(20) ? 1 : below(3), 0);
    else if (below(12) == 0) put(t, 10, modes[below(8)], 0, 0);
    else if (below(8) == 0) put(t, 12, below(8) ? below(2) : below(300), 0, 0);
    else if (below(6) == 0) put(t, (uint8_t)(below(3) == 0 ? 9 : 2 + below(2)), 0, 0, 0);
    else put(t, 11, 128 + below(2), 1, 0);
}

/* A non-aligned access at any address: most of them pass the checks, half of these across two lines. */
static struct unaligned some_unaligned(void)
{
    uint32_t size = below(30) ? 4u << below(2) : below(17), a = some_address();
    if (below(2)) a = (a | 63) - below(8);
    return (struct unaligned){ (int)below(2), size, a, below(30) ? some_value(size == 8 ? 8 : 4) : UINT64_MAX };
}

/* The buffers of both sides, which no length that is accepted passes. */
static uint8_t buffer[1 << 18], buffer_by_c[1 << 18];
static const struct report no_report;

/* A transfer at any address: most of them pass the checks. */
static struct transfer some_transfer(void)
{
    static const size_t lengths[8] = { 0, 2, 262136, 262140, 262144, 262148, (size_t)1 << 32, SIZE_MAX };
    size_t length = below(20) ? 4 * (size_t)(1 + below(below(8) ? 64 : 8192)) : lengths[below(8)];
    return (struct transfer){ (int)below(2), some_address() & ~(below(20) ? 3u : 0), length };
}

/* A word is read and written on both sides, so that L1D holds its line dirty. */
static void same_dirty_word(uint32_t address)
{
    struct command q[2] = { { 0, 4, address, 0 }, { 1, 4, address, below(UINT32_MAX) } };
    for (int i = 0; i < 2; i++) {
        struct report t;
        c64x_answer x = library_call(&lib.r, &lib.m, &q[i]);
        struct answer y = model_call(&c.r.model, &c.m, &q[i], &t);
        compare_call("word before a transfer", x, y, &t);
    }
}

/* One transfer on both sides, of buffers that hold the same; the number. */
static uint8_t same_transfer(const struct transfer *f)
{
    for (size_t i = 0; i < f->length && i < 1024; i++) buffer[i] = buffer_by_c[i] = (uint8_t)below(256);
    c64x_answer x = library_transfer(f, buffer);
    struct answer y = model_transfer(f, buffer_by_c);
    compare_call("transfer", x, y, &no_report);
    if (memcmp(buffer, buffer_by_c, sizeof buffer) != 0) differ("transfer", "buffer");
    return y.number;
}

/* One frame on both sides, of pixels that stand in both buffers; the number. */
static uint8_t same_frame(const char *where, uint8_t turn, size_t length)
{
    c64x_framed x = c64x_frame(&lib.r.library, turn, buffer, length, LENT(lib.m));
    struct framed y = model_frame(&c.r.model, &c.m, turn, buffer_by_c, length);
    if (x.number != y.number || x.turn != y.turn) differ(where, "number or turn");
    if (memcmp(x.sums, y.sums, sizeof x.sums) != 0) differ(where, "sums");
    return y.number;
}

/* A frame at any turn; most of them have as many pixels as one has. */
static uint8_t some_frame(void)
{
    static const size_t lengths[6] = { 0, 3071, 3073, 6144, ((size_t)1 << 32) + 3072, SIZE_MAX };
    for (size_t i = 0; i < C64X_FRAME_BYTES; i++) buffer[i] = buffer_by_c[i] = (uint8_t)below(256);
    if (below(2)) same_dirty_word(EXTERNAL + 4 * below(1536));
    return same_frame("frame", (uint8_t)below(below(2) ? 2 : 256), below(8) ? C64X_FRAME_BYTES : lengths[below(6)]);
}

/* One fetch on both sides. */
static struct fetched same_fetch(const char *where, uint32_t address)
{
    c64x_fetched x = c64x_fetch(&lib.r.library, address, LENT(lib.m));
    struct fetched y = model_fetch(&c.r.model, &c.m, address);
    compare_call(where, x.answer, y.answer, &y.report);
    if (x.l1p_left.kind != y.l1p_left.kind || x.l1p_left.address != y.l1p_left.address) differ(where, "L1P's way");
    if (memcmp(x.bytes, y.bytes, sizeof x.bytes) != 0) differ(where, "bytes");
    return y;
}

/* L1P's own invalidations: of a block, or of all where the count is ALL. */
#define ALL UINT32_MAX

static c64x_answer library_l1p(uint32_t base, uint32_t count)
{
    c64x_record *r = &lib.r.library;
    return count == ALL ? c64x_l1p_invalidate_all(r, LENT(lib.m))
                        : c64x_l1p_invalidate_block(r, base, count, LENT(lib.m));
}

static struct answer model_l1p(uint32_t base, uint32_t count)
{
    struct record *r = &c.r.model;
    return (struct answer){ count == ALL ? model_l1p_all(r, &c.m) : model_l1p_block(r, &c.m, base, count), 0, 0 };
}

/* A fetch from any address, or now and then an invalidation of L1P; the server of a fetch. */
static uint8_t some_fetch(void)
{
    uint32_t a = some_address();
    if (below(12) == 0) {
        uint32_t count = below(10) ? below(below(8) ? 200 : 70000) : ALL;
        uint32_t base = a & ~(below(20) ? 3u : 0);
        c64x_answer x = library_l1p(base, count);
        compare_call("L1P invalidation", x, model_l1p(base, count), &no_report);
        return 0;
    }
    return same_fetch("fetch", a & ~(below(20) ? 31u : 0)).answer.server;
}

/* Writes the counts of dirty lines into a record. */
static void count_dirty(struct record *r)
{
    r->dirty_l1d = r->dirty_l2 = 0;
    for (int s = 0; s < 128; s++)
        for (int w = 0; w < 2; w++) r->dirty_l1d += r->l1d[s].lines[w].dirty != 0;
    for (int t = 0; t < 512; t++)
        for (int w = 0; w < 4; w++) r->dirty_l2 += r->l2[t].lines[w].dirty != 0;
}

/* One thing about a record is changed: it may still be well formed, the more so where the counts follow. */
static void damage(struct record *r)
{
    static const uint32_t steps[4] = { 64, 128, 8192, 32768 };
    struct l1d_set *s = &r->l1d[below(128)];
    struct l2_set *u = &r->l2[below(2) ? below(64) : below(512)];
    struct line *x = below(2) ? &s->lines[below(2)] : below(2) ? &u->lines[below(4)] : &r->l1p[below(512)].lines[0];
    switch (below(12)) {
    case 0: ((uint8_t *)r)[below(sizeof *r)] = (uint8_t)(below(2) ? below(4) : below(256)); break;
    case 1: ((uint8_t *)r)[below(20)] = (uint8_t)(below(2) ? below(8) : below(256)); break;
    case 2: r->mar128 ^= 1; break;
    case 9: r->frozen = (uint8_t)below(4); break;
    case 10: *(below(2) ? &r->dirty_l1d : &r->dirty_l2) += below(2) ? 1 : UINT32_MAX; return;
    case 3: s->order[below(2)] = (uint8_t)below(3); break;
    case 4: u->order[below(4)] = (uint8_t)below(5); break;
    case 5: u->lines[below(4)] = u->lines[below(4)]; break;
    case 6: s->lines[below(2)] = s->lines[below(2)]; break;
    case 7: x->address += steps[below(4)]; break;
    case 8: *(below(2) ? &x->valid : &x->dirty) ^= 1; break;
    default: *x = (struct line){ 0, 0, 0 }; break;
    }
    if (below(4)) count_dirty(r);
}

/* The checks of records that are damaged in one place: a read of three bytes is refused with 1, 2 or 3, and no byte of
   the record changes. */
static void same_checks(size_t *refused, size_t *passed)
{
    struct command q = { 0, 3, EXTERNAL, 0 };
    for (int i = 0; i < 200; i++) {
        static union both bad, passed_on;
        bad = c.r;
        damage(&bad.model);
        memcpy(&passed_on, &bad, sizeof bad);
        c64x_answer x = library_call(&passed_on, &lib.m, &q);
        struct report t;
        struct answer y = model_call(&bad.model, &c.m, &q, &t);
        compare_call("damaged record", x, y, &t);
        if (memcmp(&passed_on, &bad, sizeof bad) != 0) differ("damaged record", "record");
        ++*(y.number == 3 ? passed : refused);
    }
}

static void same_calls(struct trace *t)
{
    size_t refused = 0, passed = 0, put_out[2][4] = { { 0 } }, unaligned = 0, two = 0, moved = 0, sent = 0;
    size_t framed = 0, unframed = 0, fetched[6] = { 0 };
    static const size_t ext[6] = { 128, 4096, 65536, 262144, 16777216 + 65536, 131072 };
    for (int round = 0; round < 160; round++) {
        fresh("random", 32768 * (1 + below(8)), ext[below(round % 16 ? 4 : 6)]);
        for (int part = 0; part < 4; part++) {
            clear(t);
            put(t, 11, 128 + below(2), 1, 0);
            put(t, 11, 128, 1, 0);
            if (part % 2 == 0) put(t, 10, below(4), 0, 0);
            for (int i = 0; i < 400; i++) some_command(t);
            give_answers(10 * t->count);
            if (below(4) == 0) t->bytes[below((uint32_t)t->len)] = (uint8_t)below(256);
            if (below(6) == 0) t->len -= below(12);
            if (below(6) == 0) give_answers(below((uint32_t)lib.answers_len));
            struct times a = NO_TIME, b = NO_TIME;
            run("random trace", t, &a, &b, 0);
            compare("random trace");
        }
        /* direct calls */
        lib.answers_len = c.answers_len = 0;
        for (int i = 0; i < 200; i++) {
            struct trace one = { t->bytes, 0, 0 };
            some_command(&one);
            struct command q = { one.bytes[0], 0, 0, 0 };
            q.first = below(20) ? 1u << below(4) : below(200);
            q.second = some_address();
            if (q.code < 2 && q.first && below(16)) q.second -= q.second % q.first;
            if (q.code >= 4 && q.code <= 8) q.first = some_address() & ~3u, q.second = below(300);
            if (q.code == 10) q.first = below(9);
            if (q.code == 11) q.first = 127 + below(4), q.second = below(3);
            if (q.code == 12) q.first = below(3);
            if (q.code == 1) q.value = below(256);
            c64x_answer x = library_call(&lib.r, &lib.m, &q);
            struct report t;
            struct answer y = model_call(&c.r.model, &c.m, &q, &t);
            compare_call("direct call", x, y, &t);
            put_out[0][t.l1d_left.kind]++;
            put_out[1][t.l2_left.kind]++;
            struct unaligned u = some_unaligned();
            x = library_unaligned(&lib.r, &lib.m, &u);
            y = model_unaligned(&c.r.model, &c.m, &u, &t);
            compare_call("non-aligned access", x, y, &t);
            unaligned += y.number == 0;
            two += t.external_read > 128;
            struct transfer f = some_transfer();
            if (below(2)) same_dirty_word(f.address & ~3u);
            uint32_t dirty = c.r.model.dirty_l1d;
            moved += same_transfer(&f) == 0;
            sent += c.r.model.dirty_l1d < dirty;
            if (below(20) == 0) *(some_frame() == 0 ? &framed : &unframed) += 1;
            for (int k = 0; k < 3; k++) fetched[some_fetch()]++;
            uint32_t seen_at = some_address() & ~(below(8) ? 63u : 0);
            size_t length = 63 + below(3);
            uint8_t seen[65] = { 0 }, seen_by_c[65] = { 0 };
            if (library_view_number(seen_at) != model_view_number(&c.r.model, &c.m, seen_at))
                differ("view", "number");
            if (library_view(seen_at, seen, length) != model_view(&c.r.model, &c.m, seen_at, seen_by_c, length))
                differ("view", "number with the bytes");
            if (memcmp(seen, seen_by_c, sizeof seen) != 0) differ("view", "bytes");
            if (differences) return;
        }
        compare("direct calls");
        same_checks(&refused, &passed);
        if (differences) return;
    }
    printf("random traces and calls, and %zu damaged records (%zu still well formed): the same on both sides\n",
           refused + passed, passed);
    printf("of the calls L1D put a clean line out in %zu, a dirty one in %zu, L2 in %zu and %zu: also the same\n",
           put_out[0][2], put_out[0][3], put_out[1][2], put_out[1][3]);
    printf("%zu non-aligned accesses, %zu of which had L2 fetch two lines: also the same\n", unaligned, two);
    printf("%zu transfers, %zu of which sent lines of L1D home: also the same\n", moved, sent);
    printf("%zu frames, and %zu that were refused: also the same\n", framed, unframed);
    printf("fetches, %zu by SRAM, %zu by L2, %zu by external memory and %zu by L1P: also the same\n", fetched[2],
           fetched[3], fetched[4], fetched[5]);
}

/* ---- the classes of a trace run */

static void head(const char *title)
{
    printf("\n%-84s %11s %11s %7s\n", title, "library ns", "C ns", "ratio");
}

static void row(const char *name, const struct times *library_ns, const struct times *c_ns, size_t by)
{
    printf("%-84s %11.1f %11.1f %7.2f\n", name, library_ns->ns / (double)by, c_ns->ns / (double)by,
           library_ns->ns / c_ns->ns);
    fflush(stdout);
}

/* After set-up, the trace is run once so that it meets its own leavings; then it is measured, and the servers of its
   answers are told. */
static void class(const char *name, const struct trace *t)
{
    struct times library_ns = NO_TIME, c_ns = NO_TIME;
    play(name, t);
    for (int i = 0; i < RUNS; i++) run(name, t, &library_ns, &c_ns, i % 2);
    compare(name);
    size_t by[5] = { 0 };
    for (size_t i = 0; i < t->count; i++) by[lib.answers[10 * i + 1] % 5]++;
    char text[100];
    int n = snprintf(text, sizeof text, "%s [", name);
    for (int k = 0; k < 5; k++)
        if (by[k])
            n += snprintf(text + n, sizeof text - (size_t)n, "%s%d: %d%%", text[n - 1] == '[' ? "" : ", ", k,
                          (int)(100 * by[k] / t->count));
    snprintf(text + n, sizeof text - (size_t)n, "]");
    row(text, &library_ns, &c_ns, t->count);
}

/* L = 65,536 and E = 1 MiB, with MAR 128 set and a mode. */
static void start(struct trace *t, uint32_t mar, uint32_t mode)
{
    fresh("class", 65536, 1 << 20);
    clear(t);
    put(t, 11, 128, mar, 0);
    put(t, 10, mode, 0, 0);
}

/* Every n-th byte of a memory from an address on is read (or written), in order, over and over. */
static void round_and_round(struct trace *t, uint8_t code, uint32_t from, uint32_t length, uint32_t step)
{
    clear(t);
    uint32_t a = 0;
    while (t->count < COMMANDS) {
        put(t, code, 4, from + a, t->count);
        a = (a + step) % length;
    }
}

/* Each line is read, then written: it leaves dirty. */
static void read_then_write(struct trace *t, uint32_t from, uint32_t length, uint32_t step)
{
    clear(t);
    uint32_t a = 0;
    while (t->count < COMMANDS) {
        put(t, 0, 4, from + a, 0);
        put(t, 1, 4, from + a + 8, t->count);
        a = (a + step) % length;
    }
}

/* Lines of the first 8 Kbytes of SRAM and of external memory, at random: both ways of each L1D set. */
static void at_random(struct trace *t, uint8_t code, uint32_t size)
{
    clear(t);
    while (t->count < COMMANDS)
        put(t, code, size, (below(2) ? EXTERNAL : 0) + below(8192 / size) * size, size == 1 ? 7 : t->count);
}

static void mixed(struct trace *t)
{
    clear(t);
    while (t->count < COMMANDS) {
        uint32_t size = 1u << below(4), kind = below(100);
        uint32_t a = below(10) < 8 ? below(12000) : below(200000);
        if (kind < 30) a %= 32768;
        else a += EXTERNAL;
        a -= a % size;
        if (below(400) == 0) put(t, (uint8_t)(4 + below(5)), a & ~3u, below(64), 0);
        else if (below(10) < 7) put(t, 0, size, a, 0);
        else put(t, 1, size, a, below(256));
    }
}

/* Sixteen lines are read and written, then a block command goes over them, from block to block. */
static void swept(struct trace *t, uint8_t code)
{
    clear(t);
    for (uint32_t b = 0; t->count < COMMANDS; b = (b + 1024) % 65536) {
        for (uint32_t a = b; a < b + 1024; a += 64) {
            put(t, 0, 4, EXTERNAL + a, 0);
            put(t, 1, 4, EXTERNAL + a + 8, t->count);
        }
        put(t, code, EXTERNAL + b, 256, 0);
    }
}

/* One command of the whole cache, or a mode or MAR change, over and over: they take longer. */
static void repeated(const char *name, struct trace *t, uint8_t code, uint32_t first, uint32_t second)
{
    clear(t);
    for (int i = 0; i < 512; i++) put(t, code, first, second, 0);
    class(name, t);
}

/* Sixteen lines are read and written, then a mode change sends them home. */
static void mode_after_writes(struct trace *t, uint32_t mode, uint32_t other)
{
    clear(t);
    for (int i = 0; i < 128; i++) {
        for (uint32_t a = 0; a < 1024; a += 64) {
            put(t, 0, 4, EXTERNAL + a, 0);
            put(t, 1, 4, EXTERNAL + a + 8, t->count);
        }
        put(t, 10, i % 2 ? other : mode, 0, 0);
    }
}

/* Every line of L1D, all of one memory, is read and written: from here on it holds 256 dirty lines. */
static void fill_l1d(struct trace *t, uint32_t from)
{
    for (uint32_t a = 0; a < 16384; a += 64) {
        put(t, 0, 4, from + a, 0);
        put(t, 1, 4, from + a + 8, t->count);
    }
}

/* L1D is filled with dirty lines, then a global command sends them home, over and over. */
static void filled_then(struct trace *t, uint32_t from, uint8_t code)
{
    clear(t);
    while (t->count < COMMANDS) {
        fill_l1d(t, from);
        put(t, code, 0, 0, 0);
    }
}

static void classes(struct trace *t)
{
    head("trace run, by the command [servers]");
    clear(t);
    start(t, 1, 1);
    for (uint32_t a = 0; a < 8192; a += 64) put(t, 0, 4, a, 0), put(t, 0, 4, EXTERNAL + a, 0);
    play("set-up", t);
    at_random(t, 0, 4);
    class("L1D read hits, 4 bytes", t);
    at_random(t, 0, 1);
    class("L1D read hits, 1 byte", t);
    at_random(t, 0, 8);
    class("L1D read hits, 8 bytes", t);
    at_random(t, 1, 4);
    class("L1D write hits, 4 bytes", t);
    at_random(t, 1, 8);
    class("L1D write hits, 8 bytes", t);

    start(t, 1, 1);
    play("set-up", t);
    round_and_round(t, 0, EXTERNAL, 32768, 64);
    class("L1D misses that hit L2", t);
    read_then_write(t, EXTERNAL, 32768, 64);
    class("the same, each then written (dirty lines leave)", t);
    round_and_round(t, 0, EXTERNAL, 1 << 20, 128);
    class("L2 misses, clean", t);
    read_then_write(t, EXTERNAL, 1 << 20, 128);
    class("L2 misses, each then written (dirty lines leave)", t);
    round_and_round(t, 0, 0, 32768, 64);
    class("SRAM misses", t);
    read_then_write(t, 0, 32768, 64);
    class("the same, each then written (dirty lines leave)", t);

    start(t, 1, 0);
    play("set-up", t);
    round_and_round(t, 0, EXTERNAL, 65536, 64);
    class("mode 0, external memory", t);
    read_then_write(t, EXTERNAL, 65536, 64);
    class("the same, each then written (dirty lines leave)", t);

    start(t, 0, 1);
    play("set-up", t);
    round_and_round(t, 0, EXTERNAL, 65536, 36);
    class("uncached external memory, reads", t);
    round_and_round(t, 1, EXTERNAL, 65536, 36);
    class("uncached external memory, writes", t);

    start(t, 1, 1);
    play("set-up", t);
    round_and_round(t, 1, 0, 32768, 36);
    class("writes missing, to SRAM", t);
    round_and_round(t, 1, EXTERNAL, 32768, 36);
    class("writes missing, L2 hits", t);
    round_and_round(t, 1, EXTERNAL, 1 << 20, 128);
    class("writes missing, L2 misses", t);

    start(t, 1, 1);
    play("set-up", t);
    mixed(t);
    class("a mix, with some block commands", t);

    clear(t);
    for (int i = 0; i < COMMANDS; i++) put(t, 0, 3, EXTERNAL, 0);
    class("refused by size", t);
    static const char *const blocks[5] = {
        "4 L2 block writeback, 16 words",
        "5 L2 block writeback-invalidate, 16 words",
        "6 L2 block invalidate, 16 words",
        "7 L1D block writeback-invalidate, 16 words",
        "8 L1D block invalidate, 16 words",
    };
    for (uint8_t code = 4; code <= 8; code++) {
        clear(t);
        for (uint32_t i = 0; i < COMMANDS; i++) put(t, code, EXTERNAL + 64 * (i % 512), 16, 0);
        class(blocks[code - 4], t);
    }
    for (uint8_t code = 4; code <= 8; code++) {
        char name[60];
        snprintf(name, sizeof name, "16 lines read and written, then code %d over them", code);
        swept(t, code);
        class(name, t);
    }
    repeated("2 L2 writeback all", t, 2, 0, 0);
    repeated("3 L2 writeback-invalidate all", t, 3, 0, 0);
    repeated("9 L1D invalidate all", t, 9, 0, 0);
    repeated("10 mode change to the same mode", t, 10, 1, 0);
    mode_after_writes(t, 1, 1);
    class("16 lines read and written, then mode 1 again", t);
    mode_after_writes(t, 0, 1);
    class("16 lines read and written, then mode 0, then mode 1", t);
    repeated("11 MAR bit set", t, 11, 128, 1);
    repeated("11 MAR bit cleared (looked for in all lines)", t, 11, 129, 0);
    clear(t);
    put(t, 9, 0, 0, 0);
    class("a run of one command, L1D invalidate all", t);
    for (uint32_t mode = 0; mode < 2; mode++)
        for (int external = 0; external < 2; external++)
            for (uint8_t code = 2; code <= 3; code++) {
                char name[60];
                start(t, 1, mode);
                play("set-up", t);
                filled_then(t, external ? EXTERNAL : 0, code);
                snprintf(name, sizeof name, "256 dirty %s lines, then code %d, mode %u",
                         external ? "external" : "SRAM", code, mode);
                class(name, t);
            }
}

/* L1D frozen, with the first 8 Kbytes of SRAM and of external memory in it, or with nothing. */
static void start_frozen(struct trace *t, uint32_t mode, int held)
{
    start(t, 1, mode);
    for (uint32_t a = 0; held && a < 8192; a += 64) put(t, 0, 4, a, 0), put(t, 0, 4, EXTERNAL + a, 0);
    put(t, 12, 1, 0, 0);
    play("set-up", t);
}

/* What a frozen L1D serves, and what goes past it. */
static void frozen_classes(struct trace *t)
{
    head("trace run with a frozen L1D, by the command [servers]");
    start_frozen(t, 1, 1);
    at_random(t, 0, 4);
    class("frozen read hits, 4 bytes", t);
    at_random(t, 0, 1);
    class("frozen read hits, 1 byte", t);
    at_random(t, 1, 4);
    class("frozen write hits, 4 bytes", t);
    start_frozen(t, 1, 0);
    round_and_round(t, 0, 0, 32768, 64);
    class("frozen misses, SRAM", t);
    round_and_round(t, 0, EXTERNAL, 32768, 64);
    class("frozen misses that hit L2", t);
    round_and_round(t, 0, EXTERNAL, 1 << 20, 128);
    class("frozen misses that miss L2", t);
    start_frozen(t, 0, 0);
    round_and_round(t, 0, EXTERNAL, 65536, 64);
    class("frozen misses, mode 0, external memory", t);
    clear(t);
    for (uint32_t i = 0; i < COMMANDS; i++) put(t, 12, i % 2, 0, 0);
    class("12 frozen and thawed in turn", t);
}

/* ---- direct calls */

/* Every line of both caches in use and dirty, from the start of external memory on. */
static void fill(struct trace *t, size_t l, size_t e, uint32_t mode)
{
    static const uint32_t lines[8] = { 0, 256, 512, 1024, 0, 0, 0, 2048 };
    fresh("full record", l, e);
    clear(t);
    put(t, 11, 128, 1, 0);
    put(t, 10, mode, 0, 0);
    for (uint32_t i = 0; i < lines[mode]; i++) put(t, 1, 4, EXTERNAL + 128 * i, i);
    for (uint32_t i = 0; i < 256; i++) {
        put(t, 0, 4, EXTERNAL + 64 * i, 0);
        put(t, 1, 4, EXTERNAL + 64 * i, i);
    }
    play("full record", t);
}

/* What the call that was measured last reported the first time. */
static struct report told;

/* A call from the state as it stands, again and again: the record is put back each time, outside the time taken. */
static void direct(const char *name, uint8_t code, uint32_t first, uint32_t second, uint64_t value)
{
    static union both kept;
    struct times library_ns = NO_TIME, c_ns = NO_TIME;
    struct command q = { code, first, second, value };
    kept = c.r;
    for (int i = 0; i < CALLS; i++) {
        lib.r = kept;
        double at = now();
        c64x_answer x = library_call(&lib.r, &lib.m, &q);
        took(&library_ns, at);
        c.r = kept;
        at = now();
        struct report t;
        struct answer y = model_call(&c.r.model, &c.m, &q, &t);
        took(&c_ns, at);
        compare_call(name, x, y, &t);
        if (i == 0) told = t;
        if (i == 0 || i == CALLS - 1) compare(name);
    }
    lib.r = kept;
    c.r = kept;
    row(name, &library_ns, &c_ns, 1);
}

/* A non-aligned access of 8 bytes, in the same way; so many bytes of external memory have to be read and written. */
static void unaligned(const char *name, int write, uint32_t address, uint32_t read, uint32_t written)
{
    static union both kept;
    struct times library_ns = NO_TIME, c_ns = NO_TIME;
    struct unaligned u = { write, 8, address, 0x0807060504030201u };
    kept = c.r;
    for (int i = 0; i < CALLS; i++) {
        lib.r = kept;
        double at = now();
        c64x_answer x = library_unaligned(&lib.r, &lib.m, &u);
        took(&library_ns, at);
        c.r = kept;
        at = now();
        struct report t;
        struct answer y = model_unaligned(&c.r.model, &c.m, &u, &t);
        took(&c_ns, at);
        compare_call(name, x, y, &t);
        if (t.external_read != read || t.external_written != written) differ(name, "not the bytes that it has to move");
        if (i == 0 || i == CALLS - 1) compare(name);
    }
    lib.r = kept;
    c.r = kept;
    row(name, &library_ns, &c_ns, 1);
}

/* A transfer in the same way: the record is put back, so that the lines which left are there again, and their bytes are
   where they were. */
static void transfer(const char *name, int in, uint32_t address, size_t length, uint8_t expected)
{
    static union both kept;
    struct times library_ns = NO_TIME, c_ns = NO_TIME;
    struct transfer f = { in, address, length };
    memset(buffer, 0xA5, sizeof buffer);
    memset(buffer_by_c, 0xA5, sizeof buffer_by_c);
    kept = c.r;
    for (int i = 0; i < CALLS; i++) {
        lib.r = kept;
        double at = now();
        c64x_answer x = library_transfer(&f, buffer);
        took(&library_ns, at);
        c.r = kept;
        at = now();
        struct answer y = model_transfer(&f, buffer_by_c);
        took(&c_ns, at);
        compare_call(name, x, y, &no_report);
        if (y.number != expected) differ(name, "not the number that is expected");
        if (i == 0 || i == CALLS - 1) compare(name);
    }
    if (memcmp(buffer, buffer_by_c, sizeof buffer) != 0) differ(name, "buffer");
    lib.r = kept;
    c.r = kept;
    row(name, &library_ns, &c_ns, 1);
}

/* Frames, to both places in turn. Where the record is put back each time they all go to the first, and meet the same
   lines; else each meets what the one before has left. */
static void frame(const char *name, size_t length, int put_back, uint8_t expected)
{
    static union both kept;
    struct times library_ns = NO_TIME, c_ns = NO_TIME;
    uint8_t turn = 0;
    for (size_t i = 0; i < C64X_FRAME_BYTES; i++) buffer[i] = buffer_by_c[i] = (uint8_t)(i * 7 + i / 64);
    kept = c.r;
    for (int i = 0; i < CALLS; i++) {
        if (put_back) lib.r = c.r = kept;
        double at = now();
        c64x_framed x = c64x_frame(&lib.r.library, turn, buffer, length, LENT(lib.m));
        took(&library_ns, at);
        at = now();
        struct framed y = model_frame(&c.r.model, &c.m, turn, buffer_by_c, length);
        took(&c_ns, at);
        if (x.number != y.number || x.turn != y.turn || memcmp(x.sums, y.sums, sizeof x.sums) != 0)
            differ(name, "number, turn or sums");
        if (y.number != expected) differ(name, "not the number that is expected");
        if (i == 0 || i == CALLS - 1) compare(name);
        if (!put_back) turn = y.turn;
    }
    lib.r = c.r = kept;
    row(name, &library_ns, &c_ns, 1);
}

/* Fetches of `count` lines, so many bytes apart, one after the other and round again: each meets what the one before
   has left. Each has to be served by `server`. */
static void fetch(const char *name, uint32_t address, uint32_t count, uint32_t apart, uint8_t server)
{
    static union both kept;
    struct times library_ns = NO_TIME, c_ns = NO_TIME;
    kept = c.r;
    for (uint32_t i = 0; i < CALLS + count; i++) {
        uint32_t a = address + i % count * apart;
        double at = now();
        c64x_fetched x = c64x_fetch(&lib.r.library, a, LENT(lib.m));
        double until = now();
        double from = now();
        struct fetched y = model_fetch(&c.r.model, &c.m, a);
        double end = now();
        /* the first round brings the lines to where they are to be */
        if (i >= count) {
            if (until - at - clock_ns < library_ns.ns) library_ns.ns = until - at - clock_ns;
            if (end - from - clock_ns < c_ns.ns) c_ns.ns = end - from - clock_ns;
            if (y.answer.server != server) differ(name, "not the server that is expected");
        }
        compare_call(name, x.answer, y.answer, &y.report);
        if (x.l1p_left.kind != y.l1p_left.kind || memcmp(x.bytes, y.bytes, sizeof x.bytes) != 0)
            differ(name, "L1P's way or bytes");
    }
    compare(name);
    lib.r = c.r = kept;
    row(name, &library_ns, &c_ns, 1);
}

/* An invalidation of L1P; the record is put back each time. */
static void l1p_invalidation(const char *name, uint32_t base, uint32_t count)
{
    static union both kept;
    struct times library_ns = NO_TIME, c_ns = NO_TIME;
    kept = c.r;
    for (int i = 0; i < CALLS; i++) {
        lib.r = kept;
        double at = now();
        c64x_answer x = library_l1p(base, count);
        took(&library_ns, at);
        c.r = kept;
        at = now();
        struct answer y = model_l1p(base, count);
        took(&c_ns, at);
        compare_call(name, x, y, &no_report);
        if (i == 0 || i == CALLS - 1) compare(name);
    }
    lib.r = c.r = kept;
    row(name, &library_ns, &c_ns, 1);
}

/* The technician's call. */
static void view(const char *name, uint32_t address, uint8_t expected)
{
    struct times library_ns = NO_TIME, c_ns = NO_TIME;
    static union both kept;
    uint8_t seen[64] = { 0 }, seen_by_c[64] = { 0 };
    kept = c.r;
    for (int i = 0; i < CALLS; i++) {
        lib.r = kept;
        double at = now();
        uint8_t x = library_view(address, seen, sizeof seen);
        took(&library_ns, at);
        c.r = kept;
        at = now();
        uint8_t y = model_view(&c.r.model, &c.m, address, seen_by_c, sizeof seen_by_c);
        took(&c_ns, at);
        if (x != expected || y != expected || memcmp(seen, seen_by_c, sizeof seen) != 0) differ(name, "view");
    }
    row(name, &library_ns, &c_ns, 1);
}

/* Non-aligned accesses to the first lines of external memory, which L1D holds, and to lines that no cache holds: for
   each that comes into L2 so many bytes leave. */
static void each_unaligned(uint32_t leaves)
{
    unaligned("non-aligned read, L1D hit", 0, EXTERNAL + 65, 0, 0);
    unaligned("non-aligned read, L1D hits in two lines", 0, EXTERNAL + 123, 0, 0);
    unaligned("non-aligned read, miss", 0, EXTERNAL + 0x50001, 128, leaves);
    unaligned("non-aligned read, misses in two lines", 0, EXTERNAL + 0x5007B, 256, 2 * leaves);
    unaligned("non-aligned write, L1D hit", 1, EXTERNAL + 65, 0, 0);
    unaligned("non-aligned write, L1D hits in two lines", 1, EXTERNAL + 123, 0, 0);
    unaligned("non-aligned write, miss", 1, EXTERNAL + 0x50001, 128, leaves);
    unaligned("non-aligned write, misses in two lines", 1, EXTERNAL + 0x5007B, 256, 2 * leaves);
}

/* In and out, of 64 KiB and of a line. */
static void each_transfer(const char *memory, uint32_t address)
{
    static const size_t lengths[2] = { 65536, 128 };
    char text[100];
    for (int i = 0; i < 2; i++)
        for (int in = 1; in >= 0; in--) {
            snprintf(text, sizeof text, "transfer %s, %zu bytes, %s", in ? "in" : "out", lengths[i], memory);
            transfer(text, in, address, lengths[i], 0);
        }
}

/* Transfers of external memory, for which no cache is looked at, and of SRAM: with a few lines of each in L1D, with all
   lines of L1D dirty and from the first bytes of SRAM, and with all lines of both caches dirty. */
static void transfers(struct trace *t)
{
    head("transfer, few lines (L = 262,144, mode 1)");
    fresh("few lines", 262144, 1 << 20);
    clear(t);
    put(t, 11, 128, 1, 0);
    put(t, 10, 1, 0, 0);
    for (uint32_t i = 0; i < 4; i++) put(t, 0, 4, 64 * i, 0), put(t, 0, 4, EXTERNAL + 64 * i, 0);
    play("few lines", t);
    lib.answers_len = c.answers_len = 0;
    each_transfer("external memory", EXTERNAL);
    each_transfer("SRAM", 0);
    transfer("transfer in refused with 13 (the check and little more)", 1, 0, 262144, 13);
    transfer("transfer out refused with 14 (the check and little more)", 0, 0x7FFFFF80, 128, 14);

    head("transfer, all 256 lines of L1D dirty, of SRAM (L = 262,144, mode 1)");
    clear(t);
    fill_l1d(t, 0);
    play("full L1D", t);
    lib.answers_len = c.answers_len = 0;
    each_transfer("SRAM, 256 dirty lines, or 2", 0);
    each_transfer("SRAM beside them", 65536);

    head("transfer, all lines dirty (L = 262,144, mode 7)");
    fill(t, 262144, 1 << 20, 7);
    lib.answers_len = c.answers_len = 0;
    each_transfer("external memory", EXTERNAL);
}

/* All of L1P is filled from an address on. */
static void fill_l1p(uint32_t address)
{
    for (uint32_t a = 0; a < C64X_L1P_BYTES; a += C64X_L1P_LINE_BYTES) same_fetch("full L1P", address + a);
}

/* Fetches by each server, and L1P's invalidations. L1P has one way: lines at a distance of 16,384 bytes, or its
   multiple, put each other out. L2 has four: of five at 65,536 bytes each misses there too, in every mode. */
static void fetches(struct trace *t)
{
    head("a program fetch (L = 65,536, mode 1)");
    start(t, 1, 1);
    play("fetches", t);
    lib.answers_len = c.answers_len = 0;
    fetch("fetch, L1P hit", EXTERNAL, 1, 0, 5);
    fetch("fetch, L1P hits all over", EXTERNAL, 512, 32, 5);
    fetch("fetch, L1P miss, SRAM", 0, 2, 16384, 2);
    fetch("fetch, L1P miss, L2 hit", EXTERNAL, 2, 16384, 3);
    fetch("fetch, L1P miss, L2 miss", EXTERNAL, 5, 65536, 4);
    same_dirty_word(EXTERNAL + 8);
    fetch("fetch, L1P miss, L2 miss, dirty lines in L2", EXTERNAL, 5, 65536, 4);
    l1p_invalidation("L1P block invalidate, 8 words", EXTERNAL, 8);
    l1p_invalidation("L1P block invalidate, 4,096 words", EXTERNAL, 4096);
    l1p_invalidation("L1P invalidate all", 0, ALL);
    fill_l1p(EXTERNAL);
    l1p_invalidation("L1P block invalidate, 4,096 words, all lines held", EXTERNAL, 4096);
    l1p_invalidation("L1P block invalidate, 65,535 words, all lines held", EXTERNAL, 65535);
    l1p_invalidation("L1P invalidate all, all lines held", 0, ALL);
    direct("L2 block writeback-invalidate, 4,096 words, all lines of L1P held", 5, EXTERNAL, 4096, 0);
    direct("mode change to the same mode, all lines of L1P held", 10, 1, 0, 0);
    start(t, 1, 0);
    play("fetches", t);
    lib.answers_len = c.answers_len = 0;
    fetch("fetch, L1P miss, mode 0, external memory", EXTERNAL, 2, 16384, 4);
    start(t, 0, 1);
    play("fetches", t);
    lib.answers_len = c.answers_len = 0;
    fetch("fetch, MAR bit 0", EXTERNAL, 2, 16384, 4);
    fetch("fetch refused with 15 (the check and little more)", EXTERNAL + 4, 1, 0, 0);
    head("a program fetch, all lines dirty (L = 262,144, mode 7)");
    fill(t, 262144, 1 << 20, 7);
    lib.answers_len = c.answers_len = 0;
    fetch("fetch, L1P hit", EXTERNAL, 1, 0, 5);
    fetch("fetch, L1P miss, L2 hit", EXTERNAL, 2, 16384, 3);
    fetch("fetch, L1P miss, L2 miss", EXTERNAL, 5, 65536, 4);
}

/* Frames in modes 0 and 1 with either MAR bit, each after the other; then over 48 lines that the CPU has written; and
   with L1D frozen, and refused. */
static void frames(struct trace *t)
{
    char text[100];
    head("a frame of the camera, 3,072 pixels (L = 65,536)");
    for (uint32_t mode = 0; mode < 2; mode++)
        for (uint32_t bit = 2; bit-- > 0;) {
            start(t, bit, mode);
            play("frames", t);
            lib.answers_len = c.answers_len = 0;
            snprintf(text, sizeof text, "frame after frame, mode %u, MAR bit %u", mode, bit);
            frame(text, C64X_FRAME_BYTES, 0, 0);
        }
    for (uint32_t mode = 0; mode < 2; mode++) {
        start(t, 1, mode);
        for (uint32_t a = 0; a < C64X_FRAME_BYTES; a += 64)
            put(t, 0, 4, EXTERNAL + a, 0), put(t, 1, 4, EXTERNAL + a, a);
        play("frames", t);
        lib.answers_len = c.answers_len = 0;
        snprintf(text, sizeof text, "frame over 48 dirty lines of L1D, mode %u", mode);
        frame(text, C64X_FRAME_BYTES, 1, 0);
    }
    start(t, 1, 1);
    put(t, 12, 1, 0, 0);
    play("frames", t);
    lib.answers_len = c.answers_len = 0;
    frame("frame after frame, mode 1, MAR bit 1, L1D frozen", C64X_FRAME_BYTES, 0, 0);
    frame("frame refused with 20 (the check and little more)", C64X_FRAME_BYTES - 1, 0, 20);
}

static void each_call(uint32_t count)
{
    lib.answers_len = c.answers_len = 0;
    direct("read, L1D hit", 0, 4, EXTERNAL + 64, 0);
    direct("read, miss", 0, 4, EXTERNAL + 0x50000, 0);
    direct("read refused with 3 (the check and little more)", 0, 3, EXTERNAL, 0);
    direct("write, L1D hit", 1, 4, EXTERNAL + 64, 5);
    direct("write, miss", 1, 4, EXTERNAL + 0x50000, 5);
    direct("2 L2 writeback all", 2, 0, 0, 0);
    direct("3 L2 writeback-invalidate all", 3, 0, 0, 0);
    direct("4 L2 block writeback", 4, EXTERNAL, count, 0);
    direct("5 L2 block writeback-invalidate", 5, EXTERNAL, count, 0);
    direct("6 L2 block invalidate", 6, EXTERNAL, count, 0);
    direct("7 L1D block writeback-invalidate", 7, EXTERNAL, count, 0);
    direct("8 L1D block invalidate", 8, EXTERNAL, count, 0);
    direct("9 L1D invalidate all", 9, 0, 0, 0);
    direct("10 mode change to the same mode", 10, c.r.model.mode, 0, 0);
    direct("11 MAR bit set", 11, 129, 1, 0);
    direct("11 MAR bit cleared (looked for in all lines)", 11, 129, 0, 0);
    direct("12 L1D frozen", 12, 1, 0, 0);
    view("view", EXTERNAL + 64, 0);
}

/* A read and a view that are refused by the first number after the check of the whole record. */
static void check_alone(const char *record)
{
    char text[100];
    lib.answers_len = c.answers_len = 0;
    snprintf(text, sizeof text, "%s: read refused with 3", record);
    direct(text, 0, 3, EXTERNAL, 0);
    snprintf(text, sizeof text, "%s: view refused with 4", record);
    view(text, 4, 4);
}

/* A global writeback with all 256 lines of L1D dirty. */
static void full_l1d(struct trace *t)
{
    for (uint32_t mode = 0; mode < 2; mode++)
        for (int external = 0; external < 2; external++) {
            start(t, 1, mode);
            fill_l1d(t, external ? EXTERNAL : 0);
            play("full L1D", t);
            lib.answers_len = c.answers_len = 0;
            for (uint8_t code = 2; code <= 3; code++) {
                char name[60];
                snprintf(name, sizeof name, "%d L2 writeback%s all, %s lines, mode %u", code,
                         code == 3 ? "-invalidate" : "", external ? "external" : "SRAM", mode);
                direct(name, code, 0, 0, 0);
            }
        }
}

/* A set of L1D and, but in mode 0, one of L2 are full. The line at 80000000h is the next to leave either. `l1d` says
   whether it is dirty in L1D, `l2` whether it is so in L2. */
static void full_sets(struct trace *t, uint32_t mode, int l1d, int l2)
{
    start(t, 1, mode);
    for (uint32_t a = 0; mode && a < 4 * 8192; a += 8192) put(t, l2 ? 1 : 0, 4, EXTERNAL + a, 7);
    for (uint32_t a = 0; a < 2 * 8192; a += 8192) {
        put(t, 0, 4, EXTERNAL + a, 0);
        if (l1d) put(t, 1, 4, EXTERNAL + a + 8, 9);
    }
    /* the two lines that L1D does not hold are used once more */
    for (uint32_t a = 2 * 8192; mode && a < 4 * 8192; a += 8192) put(t, 1, 4, EXTERNAL + a, 7);
    play("full sets", t);
    lib.answers_len = c.answers_len = 0;
}

/* An access to another line of these sets, which has to put out what its name says. */
static void put_out(const char *name, uint8_t code, uint8_t l1d, uint8_t l2)
{
    direct(name, code, 4, EXTERNAL + 0x50000, 0);
    if (told.l1d_left.kind != l1d || told.l2_left.kind != l2) differ(name, "not what was to be put out");
}

static void putting_out(struct trace *t)
{
    enum { NONE, EMPTY, CLEAN, DIRTY };
    head("direct access that puts lines out, few lines (L = 65,536)");
    full_sets(t, 0, 0, 0);
    put_out("read, mode 0, a clean line leaves L1D", 0, CLEAN, NONE);
    full_sets(t, 0, 1, 0);
    put_out("read, mode 0, a dirty line leaves L1D", 0, DIRTY, NONE);
    full_sets(t, 1, 0, 0);
    put_out("read, mode 1, a clean line leaves L1D and L2", 0, CLEAN, CLEAN);
    put_out("write, mode 1, a clean line leaves L2", 1, NONE, CLEAN);
    full_sets(t, 1, 1, 0);
    put_out("read, mode 1, a dirty line leaves L1D, and L2, where it was clean", 0, DIRTY, DIRTY);
    put_out("write, mode 1, a line leaves L2 with a half that is dirty in L1D", 1, NONE, DIRTY);
    full_sets(t, 1, 1, 1);
    put_out("read, mode 1, a dirty line leaves L1D and L2", 0, DIRTY, DIRTY);
    start(t, 1, 1);
    play("empty sets", t);
    lib.answers_len = c.answers_len = 0;
    put_out("read, mode 1, into ways that are empty", 0, EMPTY, EMPTY);
}

static void directs(struct trace *t)
{
    head("direct call, few lines (L = 65,536, mode 1)");
    start(t, 1, 1);
    for (uint32_t i = 0; i < 4; i++) put(t, 0, 4, EXTERNAL + 64 * i, 0);
    play("few lines", t);
    each_call(16);
    each_unaligned(0);

    head("direct call, all lines dirty (L = 262,144, mode 7)");
    fill(t, 262144, 1 << 20, 7);
    each_call(65535);
    each_unaligned(128);

    head("direct call, all lines of L1D dirty (L = 65,536)");
    full_l1d(t);

    putting_out(t);
    transfers(t);
    frames(t);
    fetches(t);

    head("the check of the whole record, and little more");
    static const uint32_t modes[5] = { 0, 1, 2, 3, 7 };
    fresh("fresh record", 262144, 1 << 20);
    check_alone("fresh record");
    for (int i = 0; i < 5; i++) {
        char text[100];
        fill(t, 262144, 1 << 20, modes[i]);
        snprintf(text, sizeof text, "full, mode %u", modes[i]);
        check_alone(text);
    }
}

/* ---- writing a trace */

/* A command as it is given to be written. */
struct given {
    uint32_t code;
    uint64_t first;
    uint64_t second;
    uint64_t value;
};

static struct given givens[COMMANDS];

/* Random commands, most of them right, at points in and around a short output: both sides do the same. */
static void same_puts(void)
{
    static const uint32_t codes[4] = { 13, 255, 256, UINT32_MAX };
    size_t by[3] = { 0 };
    for (int i = 0; i < 400000; i++) {
        uint8_t out[48], out_by_c[48];
        for (size_t k = 0; k < sizeof out; k++) out[k] = out_by_c[k] = (uint8_t)below(256);
        uint64_t n[3];
        for (int k = 0; k < 3; k++) n[k] = ((uint64_t)below(UINT32_MAX) << 32 | below(UINT32_MAX)) >> below(64);
        uint32_t code = below(8) ? below(13) : codes[below(4)];
        for (int k = 0; k < 2; k++)
            if (below(4)) n[k] &= UINT32_MAX;
        size_t len = below(sizeof out + 1), at = below(8) ? below((uint32_t)len + 2) : SIZE_MAX - below(30);
        c64x_put x = c64x_put_command(out, len, at, code, n[0], n[1], n[2]);
        struct put_result y = model_put(out_by_c, len, at, code, n[0], n[1], n[2]);
        if (x.number != y.number || x.at != y.at) differ("random command", "number or point");
        if (memcmp(out, out_by_c, sizeof out) != 0) differ("random command", "output");
        by[y.number == 0 ? 0 : y.number == 11 ? 1 : 2]++;
        if (differences) return;
    }
    printf("%zu random commands written, %zu refused with 11, %zu with 16: the same on both sides\n", by[0], by[1],
           by[2]);
}

/* All of the commands, one after another into one output, by each side in turn. */
static void writing_row(const char *name, size_t len)
{
    struct times library_ns = NO_TIME, c_ns = NO_TIME;
    uint8_t *out = room(COMMANDS * 24), *out_by_c = room(COMMANDS * 24);
    for (int i = 0; i < RUNS; i++) {
        c64x_put x = { 0, 0 };
        struct put_result y = { 0, 0 };
        double at = now();
        for (const struct given *g = givens; g < givens + COMMANDS; g++)
            x = c64x_put_command(out, len, x.at, g->code, g->first, g->second, g->value);
        took(&library_ns, at);
        at = now();
        for (const struct given *g = givens; g < givens + COMMANDS; g++)
            y = model_put(out_by_c, len, y.at, g->code, g->first, g->second, g->value);
        took(&c_ns, at);
        if (x.at != y.at || x.number != y.number) differ(name, "point or number");
    }
    if (memcmp(out, out_by_c, COMMANDS * 24) != 0) differ(name, "output");
    free(out);
    free(out_by_c);
    row(name, &library_ns, &c_ns, COMMANDS);
}

static void writing(void)
{
    size_t len = COMMANDS * 24;
    head("writing a trace, by the command");
    for (int i = 0; i < COMMANDS; i++) givens[i] = (struct given){ 2, 0, 0, 0 };
    writing_row("c64x_put_command, no number (1 byte)", len);
    for (int i = 0; i < COMMANDS; i++) givens[i] = (struct given){ 10, (uint64_t)(i % 4), 0, 0 };
    writing_row("c64x_put_command, mode (2 bytes)", len);
    for (int i = 0; i < COMMANDS; i++) givens[i] = (struct given){ 0, 4, EXTERNAL + 4 * below(16384), 0 };
    writing_row("c64x_put_command, read (7 bytes)", len);
    for (int i = 0; i < COMMANDS; i++)
        givens[i] = (struct given){ 1, 8, EXTERNAL + 8 * below(8192), (uint64_t)(below(1u << 30) + (1u << 30)) << 32 };
    writing_row("c64x_put_command, write of 8 bytes (16 or 17 bytes)", len);
    for (int i = 0; i < COMMANDS; i++) {
        uint32_t kind = below(16), size = 1u << below(4), a = EXTERNAL + 8 * below(8192);
        givens[i] = (struct given){ kind < 8, size, a, some_value(size) };
        if (kind >= 13) givens[i] = (struct given){ 2 + below(11), a, below(200), 0 };
    }
    writing_row("c64x_put_command, a mix of all", len);
    writing_row("c64x_put_command, refused with 16", 0);
    for (int i = 0; i < COMMANDS; i++) givens[i].code += 13;
    writing_row("c64x_put_command, refused with 11", len);
}

/* ---- a load to repeat */

/* Random loads into outputs that are too short, just long enough and longer: both sides do the same. */
static void same_loads(void)
{
    static const uint32_t lengths[6] = { 0, 127, 128, 65536, 33554432, 33554433 };
    static uint8_t out[4096], out_by_c[4096];
    size_t by[3] = { 0 };
    for (int i = 0; i < 40000; i++) {
        for (size_t k = 0; k < sizeof out; k++) out[k] = out_by_c[k] = (uint8_t)(i + (int)k);
        uint32_t seed = below(UINT32_MAX), extlen = below(2) ? lengths[below(6)] : 128 * (1 + below(262144));
        uint64_t accesses = below(16) ? below(400) : UINT64_MAX;
        size_t len = below(sizeof out + 1);
        if (below(2)) {
            struct load_result whole = model_load(seed, extlen, accesses, out_by_c, sizeof out);
            memcpy(out, out_by_c, sizeof out);
            if (whole.number == 0) len = below(2) || whole.length == 0 ? whole.length : whole.length - 1;
        }
        c64x_load x = c64x_load_trace(seed, extlen, accesses, out, len);
        struct load_result y = model_load(seed, extlen, accesses, out_by_c, len);
        if (x.number != y.number || x.length != y.length) differ("random load", "number or length");
        if (memcmp(out, out_by_c, sizeof out) != 0) differ("random load", "output");
        by[y.number == 0 ? 0 : y.number == 1 ? 1 : 2]++;
        if (differences) return;
    }
    printf("%zu random loads made, %zu refused with 1, %zu with 16: the same on both sides\n", by[0], by[1], by[2]);
}

/* One load of many accesses, by each side in turn; shown by the access. */
static void load_row(const char *name, uint64_t accesses, size_t len, size_t by)
{
    struct times library_ns = NO_TIME, c_ns = NO_TIME;
    uint8_t *out = room(COMMANDS * 24), *out_by_c = room(COMMANDS * 24);
    for (int i = 0; i < RUNS; i++) {
        double at = now();
        c64x_load x = c64x_load_trace(1, 65536, accesses, out, len);
        took(&library_ns, at);
        at = now();
        struct load_result y = model_load(1, 65536, accesses, out_by_c, len);
        took(&c_ns, at);
        if (x.length != y.length || x.number != y.number) differ(name, "length or number");
    }
    if (memcmp(out, out_by_c, COMMANDS * 24) != 0) differ(name, "output");
    free(out);
    free(out_by_c);
    row(name, &library_ns, &c_ns, by);
}

static void loads(void)
{
    head("a load to repeat, by the access");
    load_row("c64x_load_trace", COMMANDS, COMMANDS * 24, COMMANDS);
    load_row("c64x_load_trace, refused with 16 (an output for as many)", UINT64_MAX, COMMANDS * 9, COMMANDS);
}

/* ---- cost against L and E */

static void fresh_start(const char *name)
{
    struct times library_ns = NO_TIME, c_ns = NO_TIME;
    for (int i = 0; i < CALLS / 3; i++) {
        double at = now();
        c64x_answer x = c64x_fresh(&lib.r.library, LENT(lib.m));
        took(&library_ns, at);
        if (x.number != 0) differ(name, "number");
        at = now();
        model_fresh(&c.r.model, &c.m);
        took(&c_ns, at);
    }
    compare(name);
    row(name, &library_ns, &c_ns, 1);
}

static void growth(struct trace *t)
{
    static const size_t ls[4] = { 32768, 65536, 131072, 262144 };
    static const size_t es[2] = { 1 << 20, 1 << 25 };
    char text[100];
    head("cost against L and E");
    for (int i = 0; i < 6; i++) {
        size_t l = i < 4 ? ls[i] : 65536, e = i < 4 ? 65536 : es[i - 4];
        fill(t, l, e, 1);
        lib.answers_len = c.answers_len = 0;
        snprintf(text, sizeof text, "L = %zu, E = %zu: read, L1D hit", l, e);
        direct(text, 0, 4, EXTERNAL + 64, 0);
        snprintf(text, sizeof text, "L = %zu, E = %zu: L2 writeback all", l, e);
        direct(text, 2, 0, 0, 0);
        snprintf(text, sizeof text, "L = %zu, E = %zu: mode 1 to mode 1", l, e);
        direct(text, 10, 1, 0, 0);
        snprintf(text, sizeof text, "L = %zu, E = %zu: mode 1 to mode 0", l, e);
        direct(text, 10, 0, 0, 0);
        snprintf(text, sizeof text, "L = %zu, E = %zu: fresh start", l, e);
        fresh_start(text);
    }
}

/* ---- short runs */

static void same_short_runs(void)
{
    for (uint32_t i = 0; i < 100000; i++) {
        uint32_t number = i < 6000 ? i : below(UINT32_MAX);
        c64x_short_run x = c64x_short_run_of(number);
        struct short_run y = model_short_run_of(number);
        if (x.number != y.number || x.length != y.length || memcmp(x.digits, y.digits, sizeof x.digits) != 0)
            differ("short run", "number, length or digits");
        uint8_t digits[6];
        for (int place = 0; place < 6; place++) digits[place] = (uint8_t)below(below(4) ? 8 : 10);
        size_t length = below(7);
        int accepted = i < 6000 && y.number == 0;
        c64x_run_number n = c64x_short_run_number(accepted ? y.digits : digits, accepted ? y.length : length);
        struct run_number m = model_short_run_number(accepted ? y.digits : digits, accepted ? y.length : length);
        if (n.number != m.number || n.run != m.run || (accepted && m.run != number))
            differ("number of a short run", "number or run");
        if (differences) return;
    }
    printf("short runs: the same on both sides\n");
}

/* All runs are gone through at a time, since the clock takes longer than a call. What comes back is added up, so that
   no call is left out. */
static void short_runs(void)
{
    static struct short_run runs[C64X_SHORT_RUNS];
    struct times library_ns = NO_TIME, c_ns = NO_TIME, library_back_ns = NO_TIME, c_back_ns = NO_TIME;
    for (uint32_t k = 0; k < C64X_SHORT_RUNS; k++) runs[k] = model_short_run_of(k);
    for (int i = 0; i < CALLS; i++) {
        uint64_t by_library = 0, by_c = 0, back_by_library = 0, back_by_c = 0;
        double at = now();
        for (uint32_t k = 0; k < C64X_SHORT_RUNS; k++) by_library += c64x_short_run_of(k).digits[0];
        took(&library_ns, at);
        at = now();
        for (uint32_t k = 0; k < C64X_SHORT_RUNS; k++) by_c += model_short_run_of(k).digits[0];
        took(&c_ns, at);
        at = now();
        for (uint32_t k = 0; k < C64X_SHORT_RUNS; k++)
            back_by_library += c64x_short_run_number(runs[k].digits, runs[k].length).run;
        took(&library_back_ns, at);
        at = now();
        for (uint32_t k = 0; k < C64X_SHORT_RUNS; k++)
            back_by_c += model_short_run_number(runs[k].digits, runs[k].length).run;
        took(&c_back_ns, at);
        if (by_library != by_c || back_by_library != back_by_c) differ("short runs", "sums");
    }
    head("short runs, all 4,681 of them, by the call");
    row("the run of a number", &library_ns, &c_ns, C64X_SHORT_RUNS);
    row("the number of a run", &library_back_ns, &c_back_ns, C64X_SHORT_RUNS);
}

int main(void)
{
    struct trace t = { room(COMMANDS * 24), 0, 0 };
    same_calls(&t);
    same_short_runs();
    if (differences) return 1;
    same_puts();
    same_loads();
    if (differences) return 1;
    time_the_clock();
    classes(&t);
    frozen_classes(&t);
    directs(&t);
    writing();
    loads();
    growth(&t);
    short_runs();
    if (differences) printf("\n%d results differ\n", differences);
    return differences != 0;
}
