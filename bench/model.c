#include "model.h"

#include <string.h>

enum { L1D_LINE = 64, L1D_SETS = 128, L1D_WAYS = 2, L1D_BYTES = 16384, L2_LINE = 128, L2_SETS = 512, L2_WAYS = 4 };
enum { L1P_LINE = 32, L1P_SETS = 512, L1P_BYTES = 16384 };

#define EXTERNAL 0x80000000u
#define MAR129 0x81000000u

/* Made part of its callers, so that a run, which reports nothing, has code of its own for it. */
#define PART static inline __attribute__((always_inline))

/* What a call works on: the record, the memories, and what follows from L and the mode. */
struct machine {
    struct record *r;
    uint8_t *l1d;
    uint8_t *l2;
    uint8_t *ext;
    uint8_t *l1p;
    uint32_t sram; /* S */
    uint32_t sets; /* of the L2 cache; 0 in mode 0 */
};

static inline uint32_t cache_size(uint32_t mode)
{
    switch (mode) {
    case 1: return 32768;
    case 2: return 65536;
    case 3: return 131072;
    case 7: return 262144;
    default: return 0;
    }
}

static inline int is_mode(uint32_t mode)
{
    return mode <= 3 || mode == 7;
}

static inline int legal_l2(size_t l)
{
    return l % 32768 == 0 && l >= 32768 && l <= 262144;
}

static inline int legal_ext(size_t e)
{
    return e % 128 == 0 && e >= 128 && e <= 33554432;
}

static inline void set_up(struct machine *k)
{
    uint32_t c = cache_size(k->r->mode);
    k->sram = k->r->l2len - c;
    k->sets = c / 512;
}

static inline struct machine machine_of(struct record *r, const struct lent *m)
{
    struct machine k = { r, m->l1d, m->l2, m->ext, m->l1p, 0, 0 };
    set_up(&k);
    return k;
}

/* ---- lines, sets, orders */

static inline int holds(const struct line *x, uint32_t address)
{
    return x->valid && x->address == address;
}

static inline void empty(struct line *x)
{
    *x = (struct line){ 0, 0, 0 };
}

static inline void fill(struct line *x, uint32_t address)
{
    *x = (struct line){ 1, 0, address };
}

/* The line becomes dirty, if it is not yet, and is counted in its cache's count (02, U5). What is written back, dropped
   or put out is counted down where it is seen to be dirty. */
static inline void make_dirty(struct line *x, uint32_t *count)
{
    *count += !x->dirty;
    x->dirty = 1;
}

/* What is told of a way that is chosen (02, U2). The report is NULL in a run, whose answers have none. */
static inline struct left left_of(const struct line *x)
{
    return (struct left){ x->address, x->valid ? 2 + x->dirty : 1 };
}

static inline void bytes_read(struct report *t, uint32_t bytes)
{
    if (t) t->external_read += bytes;
}

static inline void bytes_written(struct report *t, uint32_t bytes)
{
    if (t) t->external_written += bytes;
}

static inline int l1d_find(const struct l1d_set *s, uint32_t address)
{
    if (holds(&s->lines[0], address)) return 0;
    if (holds(&s->lines[1], address)) return 1;
    return -1;
}

static inline int l2_find(const struct l2_set *s, uint32_t address)
{
    for (int w = 0; w < L2_WAYS; w++)
        if (holds(&s->lines[w], address)) return w;
    return -1;
}

static inline int l1d_victim(const struct l1d_set *s)
{
    if (!s->lines[0].valid) return 0;
    if (!s->lines[1].valid) return 1;
    return s->order[1];
}

static inline int l2_victim(const struct l2_set *s)
{
    for (int w = 0; w < L2_WAYS; w++)
        if (!s->lines[w].valid) return w;
    return s->order[3];
}

static inline void l1d_use(struct l1d_set *s, int w)
{
    s->order[0] = (uint8_t)w;
    s->order[1] = (uint8_t)(w ^ 1);
}

static inline void l2_use(struct l2_set *s, int w)
{
    uint8_t last = s->order[0];
    for (int i = 0; last != w; i++) {
        uint8_t next = s->order[i + 1];
        s->order[i + 1] = last;
        last = next;
    }
    s->order[0] = (uint8_t)w;
}

static inline struct l1d_set *l1d_set_of(const struct machine *k, uint32_t address)
{
    return &k->r->l1d[address / L1D_LINE % L1D_SETS];
}

static inline struct l2_set *l2_set_of(const struct machine *k, uint32_t address)
{
    return &k->r->l2[address / L2_LINE & (k->sets - 1)];
}

/* The one line of L1P's set (02, U4), and its bytes. */
static inline struct line *l1p_line_of(const struct machine *k, uint32_t address)
{
    return &k->r->l1p[address / L1P_LINE % L1P_SETS].lines[0];
}

static inline uint8_t *l1p_data(const struct machine *k, uint32_t address)
{
    return k->l1p + address % L1P_BYTES / L1P_LINE * L1P_LINE;
}

static inline uint8_t *l1d_data(const struct machine *k, const struct l1d_set *s, int w)
{
    return k->l1d + ((size_t)w * L1D_SETS + (size_t)(s - k->r->l1d)) * L1D_LINE;
}

static inline uint8_t *l2_data(const struct machine *k, const struct l2_set *s, int w)
{
    return k->l2 + k->sram + ((size_t)w * k->sets + (size_t)(s - k->r->l2)) * L2_LINE;
}

/* ---- check 2: the well-formedness of a record */

/* A line as one word without its padding: valid, dirty and, in the upper half, the address. An invalid way is 0. */
static inline uint64_t word_of(const struct line *x)
{
    uint64_t v;
    memcpy(&v, x, 8);
    return v & 0xFFFFFFFF0000FFFFu;
}

/* Valid, and clean or dirty. */
static inline int bits_ok(uint64_t word)
{
    return (word & 0xFEFF) == 1;
}

static inline int mar_of(const struct record *r, uint32_t address)
{
    return address < MAR129 ? r->mar128 : r->mar129;
}

/* The line lies wholly in external memory whose MAR bit is 1; an address below wraps and is too large. */
static inline int external_ok(const struct record *r, uint32_t address, uint32_t length)
{
    return (address - EXTERNAL <= r->extlen - length) & mar_of(r, address);
}

static inline int l1d_line_ok(const struct record *r, const struct line *x, uint32_t s, uint32_t sram, uint32_t sets)
{
    uint64_t word = word_of(x);
    if (word == 0) return 1;
    uint32_t a = (uint32_t)(word >> 32);
    if (!bits_ok(word) || (a & (L1D_SETS * L1D_LINE - 1)) != s * L1D_LINE) return 0;
    if (a < EXTERNAL) return a + L1D_LINE <= sram;
    if (!external_ok(r, a, L1D_LINE)) return 0;
    return sets == 0 || l2_find(&r->l2[a / L2_LINE & (sets - 1)], a & ~(uint32_t)(L2_LINE - 1)) >= 0;
}

static inline int l2_line_ok(const struct record *r, uint64_t word, uint32_t t, uint32_t sets)
{
    uint32_t a = (uint32_t)(word >> 32);
    return word == 0 || (bits_ok(word) & ((a & (sets * L2_LINE - 1)) == t * L2_LINE) & external_ok(r, a, L2_LINE));
}

/* An L1P line is clean, and lies where L1D lines may, in L2 or not (02, U4). */
static inline int l1p_line_ok(const struct record *r, const struct line *x, uint32_t s, uint32_t sram)
{
    uint64_t word = word_of(x);
    uint32_t a = (uint32_t)(word >> 32);
    if (word == 0) return 1;
    if ((word & 0xFFFF) != 1 || (a & (L1P_BYTES - 1)) != s * L1P_LINE) return 0;
    return a < EXTERNAL ? a + L1P_LINE <= sram : external_ok(r, a, L1P_LINE);
}

static inline int order4_ok(const uint8_t *o)
{
    return (o[0] | o[1] | o[2] | o[3]) < 4 && (1 << o[0] | 1 << o[1] | 1 << o[2] | 1 << o[3]) == 15;
}

int model_well_formed(const struct record *r)
{
    static const uint8_t fresh4[4] = { 3, 2, 1, 0 };
    if (!legal_l2(r->l2len) || !legal_ext(r->extlen) || !is_mode(r->mode) || cache_size(r->mode) > r->l2len) return 0;
    if ((r->mar128 | r->mar129 | r->frozen) > 1) return 0;
    uint32_t sram = r->l2len - cache_size(r->mode);
    uint32_t sets = cache_size(r->mode) / 512;
    uint32_t dirty_l1d = 0, dirty_l2 = 0;
    for (uint32_t s = 0; s < L1D_SETS; s++) {
        const struct l1d_set *v = &r->l1d[s];
        dirty_l1d += v->lines[0].dirty + v->lines[1].dirty;
        if (!l1d_line_ok(r, &v->lines[0], s, sram, sets) || !l1d_line_ok(r, &v->lines[1], s, sram, sets)) return 0;
        if (v->lines[0].address == v->lines[1].address && v->lines[0].valid && v->lines[1].valid) return 0;
        if (v->order[0] > 1 || v->order[1] != (v->order[0] ^ 1)) return 0;
    }
    for (uint32_t t = 0; t < sets; t++) {
        const struct l2_set *v = &r->l2[t];
        uint64_t a = word_of(&v->lines[0]), b = word_of(&v->lines[1]);
        uint64_t c = word_of(&v->lines[2]), d = word_of(&v->lines[3]);
        if (!(l2_line_ok(r, a, t, sets) & l2_line_ok(r, b, t, sets) & l2_line_ok(r, c, t, sets)
              & l2_line_ok(r, d, t, sets))) return 0;
        dirty_l2 += (uint32_t)(a + b + c + d) >> 8 & 7; /* the four marks added up */
        /* a valid line has an address other than 0, so two are the same only where both are valid */
        a >>= 32, b >>= 32, c >>= 32, d >>= 32;
        if ((a != 0) & ((a == b) | (a == c) | (a == d))) return 0;
        if (((b != 0) & ((b == c) | (b == d))) | ((c != 0) & (c == d))) return 0;
        if (!order4_ok(v->order)) return 0;
    }
    for (uint32_t t = sets; t < L2_SETS; t++) {
        const struct l2_set *v = &r->l2[t];
        uint64_t a = word_of(&v->lines[0]), b = word_of(&v->lines[1]);
        if ((a | b | word_of(&v->lines[2]) | word_of(&v->lines[3])) != 0) return 0;
        if (memcmp(v->order, fresh4, 4) != 0) return 0;
    }
    for (uint32_t s = 0; s < L1P_SETS; s++)
        if (!l1p_line_ok(r, &r->l1p[s].lines[0], s, sram)) return 0;
    return dirty_l1d == r->dirty_l1d && dirty_l2 == r->dirty_l2;
}

/* ---- checks */

/* Of L2 and external memory, which are all that a view is lent. */
static uint8_t view_lent_due(const struct record *r, const struct lent *m)
{
    if (!legal_l2(m->l2_len) || m->l2_len != r->l2len) return 1;
    if (!legal_ext(m->ext_len) || m->ext_len != r->extlen) return 1;
    return model_well_formed(r) ? 0 : 2;
}

static uint8_t lent_due(const struct record *r, const struct lent *m)
{
    return m->l1d_len != L1D_BYTES || m->l1p_len != L1P_BYTES ? 1 : view_lent_due(r, m);
}

static inline int place_ok(uint32_t sram, uint32_t extlen, uint32_t size, uint32_t address)
{
    if (address < EXTERNAL) return address + size <= sram;
    return address - EXTERNAL + size <= extlen;
}

static inline uint8_t access_due(const struct machine *k, uint32_t size, uint32_t address, uint64_t value)
{
    if (size > 8 || !(0x116u >> size & 1)) return 3;
    if (address & (size - 1)) return 4;
    if (!place_ok(k->sram, k->r->extlen, size, address)) return 5;
    if (size < 8 && value >> (8 * size)) return 6;
    return 0;
}

static int holds_range(const struct record *r, uint32_t mar)
{
    for (int s = 0; s < L1D_SETS; s++)
        for (int w = 0; w < L1D_WAYS; w++)
            if (r->l1d[s].lines[w].valid && r->l1d[s].lines[w].address >> 24 == mar) return 1;
    uint32_t sets = cache_size(r->mode) / 512;
    for (uint32_t t = 0; t < sets; t++)
        for (int w = 0; w < L2_WAYS; w++)
            if (r->l2[t].lines[w].valid && r->l2[t].lines[w].address >> 24 == mar) return 1;
    for (int s = 0; s < L1P_SETS; s++)
        if (r->l1p[s].lines[0].valid && r->l1p[s].lines[0].address >> 24 == mar) return 1;
    return 0;
}

static inline uint8_t block_due(uint32_t base, uint32_t count)
{
    if (base % 4 != 0) return 4;
    return count > 65535 ? 7 : 0;
}

static inline uint8_t command_due(const struct machine *k, const struct command *c)
{
    switch (c->code) {
    case 4: case 5: case 6: case 7: case 8:
        return block_due(c->first, c->second);
    case 10:
        return is_mode(c->first) && cache_size(c->first) <= k->r->l2len ? 0 : 8;
    case 11:
        if ((c->first != 128 && c->first != 129) || c->second > 1) return 9;
        return c->second == 0 && holds_range(k->r, c->first) ? 10 : 0;
    case 12:
        return c->first > 1 ? 17 : 0;
    default:
        return 0;
    }
}

/* ---- values */

static inline uint64_t load(const uint8_t *p, uint32_t size)
{
    uint16_t h;
    uint32_t w;
    uint64_t d;
    switch (size) {
    case 1: return *p;
    case 2: memcpy(&h, p, 2); return h;
    case 4: memcpy(&w, p, 4); return w;
    default: memcpy(&d, p, 8); return d;
    }
}

static inline void store(uint8_t *p, uint32_t size, uint64_t value)
{
    uint16_t h = (uint16_t)value;
    uint32_t w = (uint32_t)value;
    switch (size) {
    case 1: *p = (uint8_t)value; break;
    case 2: memcpy(p, &h, 2); break;
    case 4: memcpy(p, &w, 4); break;
    default: memcpy(p, &value, 8); break;
    }
}

/* ---- lines on their way */

/* A line of L1D goes to its home; it lies inside a valid L2 line where L2 is the home. How many bytes external memory
   got. */
static inline uint32_t send_home(struct machine *k, const struct l1d_set *s, int w)
{
    uint32_t a = s->lines[w].address;
    const uint8_t *from = l1d_data(k, s, w);
    if (a < EXTERNAL) {
        memcpy(k->l2 + a, from, L1D_LINE);
    } else if (k->sets == 0) {
        memcpy(k->ext + (a - EXTERNAL), from, L1D_LINE);
        return L1D_LINE;
    } else {
        struct l2_set *u = l2_set_of(k, a);
        int v = l2_find(u, a & ~(uint32_t)(L2_LINE - 1));
        memcpy(l2_data(k, u, v) + a % L2_LINE, from, L1D_LINE);
        make_dirty(&u->lines[v], &k->r->dirty_l2);
    }
    return 0;
}

/* The half at address a leaves L1D; a dirty one is taken into the L2 line x, whose bytes stand at data (NULL: it is
   dropped). */
static inline void take_half(struct machine *k, uint32_t a, struct line *x, uint8_t *data)
{
    struct l1d_set *s = l1d_set_of(k, a);
    int w = l1d_find(s, a);
    if (w < 0) return;
    if (s->lines[w].dirty) {
        k->r->dirty_l1d--;
        if (data) {
            memcpy(data + a % L2_LINE, l1d_data(k, s, w), L1D_LINE);
            make_dirty(x, &k->r->dirty_l2);
        }
    }
    empty(&s->lines[w]);
}

static inline void write_out(struct machine *k, const struct line *x, const uint8_t *data)
{
    memcpy(k->ext + (x->address - EXTERNAL), data, L2_LINE);
}

/* So many bytes of an address at its home; L2 gets the line where it is the home. */
static inline uint8_t *reach_home(struct machine *k, uint32_t a, int write, uint32_t bytes, uint8_t *server,
                                  struct report *t)
{
    if (a < EXTERNAL) {
        *server = 2;
        return k->l2 + a;
    }
    if (k->sets == 0) {
        *server = 4;
        if (write) bytes_written(t, bytes);
        else bytes_read(t, bytes);
        return k->ext + (a - EXTERNAL);
    }
    uint32_t b = a & ~(uint32_t)(L2_LINE - 1);
    struct l2_set *u = l2_set_of(k, a);
    int v = l2_find(u, b);
    uint8_t *data;
    if (v >= 0) {
        *server = 3;
        data = l2_data(k, u, v);
    } else {
        *server = 4;
        v = l2_victim(u);
        data = l2_data(k, u, v);
        struct line *x = &u->lines[v];
        if (x->valid) {
            take_half(k, x->address, x, data);
            take_half(k, x->address + L1D_LINE, x, data);
        }
        if (t) t->l2_left = left_of(x);
        if (x->dirty) {
            write_out(k, x, data);
            bytes_written(t, L2_LINE);
            k->r->dirty_l2--;
        }
        memcpy(data, k->ext + (b - EXTERNAL), L2_LINE);
        bytes_read(t, L2_LINE);
        fill(x, b);
    }
    l2_use(u, v);
    if (write) make_dirty(&u->lines[v], &k->r->dirty_l2);
    return data + a % L2_LINE;
}

/* ---- reads and writes */

static inline int cached(const struct record *r, uint32_t address)
{
    return address < EXTERNAL || mar_of(r, address);
}

PART void read(struct machine *k, uint32_t size, uint32_t a, struct answer *q, struct report *t)
{
    if (!cached(k->r, a)) {
        q->server = 4;
        bytes_read(t, size);
        q->value = load(k->ext + (a - EXTERNAL), size);
        return;
    }
    struct l1d_set *s = l1d_set_of(k, a);
    uint32_t b = a & ~(uint32_t)(L1D_LINE - 1);
    int w = l1d_find(s, b);
    if (w >= 0) {
        q->server = 1;
        if (!k->r->frozen) l1d_use(s, w);
    } else if (k->r->frozen) {
        /* just its bytes, from the home: L1D stays as it is (02, U11) */
        q->value = load(reach_home(k, a, 0, size, &q->server, t), size);
        return;
    } else {
        w = l1d_victim(s);
        if (t) t->l1d_left = left_of(&s->lines[w]);
        if (s->lines[w].dirty) {
            bytes_written(t, send_home(k, s, w));
            k->r->dirty_l1d--;
        }
        empty(&s->lines[w]);
        memcpy(l1d_data(k, s, w), reach_home(k, b, 0, L1D_LINE, &q->server, t), L1D_LINE);
        fill(&s->lines[w], b);
        l1d_use(s, w);
    }
    q->value = load(l1d_data(k, s, w) + a % L1D_LINE, size);
}

PART void write(struct machine *k, uint32_t size, uint32_t a, uint64_t value, struct answer *q, struct report *t)
{
    if (!cached(k->r, a)) {
        q->server = 4;
        bytes_written(t, size);
        store(k->ext + (a - EXTERNAL), size, value);
        return;
    }
    struct l1d_set *s = l1d_set_of(k, a);
    int w = l1d_find(s, a & ~(uint32_t)(L1D_LINE - 1));
    if (w < 0) {
        store(reach_home(k, a, 1, size, &q->server, t), size, value);
        return;
    }
    q->server = 1;
    store(l1d_data(k, s, w) + a % L1D_LINE, size, value);
    make_dirty(&s->lines[w], &k->r->dirty_l1d);
    if (!k->r->frozen) l1d_use(s, w);
}

/* A non-aligned access (02, U6): as many accesses of one byte, once all have passed the checks. The server is the
   highest of theirs, the counts are added up, and no line that left is told. */
static inline uint8_t unaligned_due(const struct machine *k, uint32_t size, uint32_t address, uint64_t value)
{
    if (size != 4 && size != 8) return 3;
    if (!place_ok(k->sram, k->r->extlen, size, address)) return 5;
    return size < 8 && value >> 32 ? 6 : 0;
}

static inline void unaligned(struct machine *k, const struct unaligned *u, struct answer *q, struct report *t)
{
    uint64_t value = 0;
    uint8_t highest = 0;
    for (uint32_t i = 0; i < u->size; i++) {
        q->value = 0;
        if (u->write) write(k, 1, u->address + i, u->value >> (8 * i) & 255, q, t);
        else read(k, 1, u->address + i, q, t);
        value |= q->value << (8 * i);
        if (q->server > highest) highest = q->server;
    }
    q->value = value;
    q->server = highest;
    t->l1d_left = t->l2_left = (struct left){ 0, 0 };
}

/* ---- program fetches (02, U4) */

/* The line of L1P at an address leaves, if it is there. */
static inline void l1p_drop(const struct machine *k, uint32_t address)
{
    struct line *x = l1p_line_of(k, address);
    if (holds(x, address)) empty(x);
}

static inline uint8_t fetch_due(const struct machine *k, uint32_t address)
{
    if (address % L1P_LINE != 0) return 15;
    return place_ok(k->sram, k->r->extlen, L1P_LINE, address) ? 0 : 5;
}

/* What L1P does not hold comes from the home, whatever L1D has of it; with MAR bit 0 past L1P. */
static inline void fetch(struct machine *k, uint32_t a, struct fetched *f)
{
    struct line *x = l1p_line_of(k, a);
    uint8_t *data = l1p_data(k, a);
    if (!cached(k->r, a)) {
        f->answer.server = 4;
        f->report.external_read = L1P_LINE;
        data = k->ext + (a - EXTERNAL);
    } else if (holds(x, a)) {
        f->answer.server = 5;
    } else {
        f->l1p_left = left_of(x);
        memcpy(data, reach_home(k, a, 0, L1P_LINE, &f->answer.server, &f->report), L1P_LINE);
        fill(x, a);
    }
    memcpy(f->bytes, data, L1P_LINE);
}

/* ---- cache commands */

static inline uint64_t block_end(uint32_t base, uint32_t count)
{
    uint64_t end = (uint64_t)base + 4 * (uint64_t)count;
    return end < 0x100000000u ? end : 0x100000000u;
}

/* The L1D lines of a block leave; 7: dirty ones go home first, 8: they are dropped. */
static void l1d_block(struct machine *k, int code, uint32_t base, uint32_t count)
{
    if (count == 0) return;
    uint64_t end = block_end(base, count);
    for (uint64_t a = base & ~(uint32_t)(L1D_LINE - 1); a < end; a += L1D_LINE) {
        struct l1d_set *s = l1d_set_of(k, (uint32_t)a);
        int w = l1d_find(s, (uint32_t)a);
        if (w < 0) continue;
        if (s->lines[w].dirty) {
            if (code == 7) send_home(k, s, w);
            k->r->dirty_l1d--;
        }
        empty(&s->lines[w]);
    }
}

static void l1d_all(struct machine *k)
{
    for (int s = 0; s < L1D_SETS; s++) memset(k->r->l1d[s].lines, 0, sizeof k->r->l1d[s].lines);
    k->r->dirty_l1d = 0;
}

/* Every dirty line goes home; no way is emptied. */
static void l1d_home(struct machine *k)
{
    for (int s = 0; s < L1D_SETS; s++)
        for (int w = 0; w < L1D_WAYS; w++)
            if (k->r->l1d[s].lines[w].dirty) send_home(k, &k->r->l1d[s], w);
}

/* 2, 4: writeback; 3, 5: writeback-invalidate; 6: invalidate. With a line that leaves go its four in L1P. */
static inline void l2_leave(struct machine *k, int code, struct line *x, const uint8_t *data)
{
    if (x->dirty) {
        if (code != 6) write_out(k, x, data);
        x->dirty = 0;
        k->r->dirty_l2--;
    }
    if (code == 2 || code == 4) return;
    for (uint32_t i = 0; i < L2_LINE; i += L1P_LINE) l1p_drop(k, x->address + i);
    empty(x);
}

/* All of L1D goes home first, in every mode and for SRAM too (02, U10), so that no L2 line has halves there. */
static void l2_all(struct machine *k, int code)
{
    l1d_home(k);
    l1d_all(k);
    for (uint32_t t = 0; t < k->sets; t++)
        for (int w = 0; w < L2_WAYS; w++)
            if (k->r->l2[t].lines[w].valid) l2_leave(k, code, &k->r->l2[t].lines[w], l2_data(k, &k->r->l2[t], w));
}

/* The L1D lines of the block leave first, in every mode and for SRAM too (02, U10); an L2 line takes its other half
   with it. */
static void l2_block(struct machine *k, int code, uint32_t base, uint32_t count)
{
    l1d_block(k, code == 6 ? 8 : 7, base, count);
    if (k->sets == 0 || count == 0) return;
    uint64_t end = block_end(base, count);
    for (uint64_t a = base & ~(uint32_t)(L2_LINE - 1); a < end; a += L2_LINE) {
        struct l2_set *u = l2_set_of(k, (uint32_t)a);
        int w = l2_find(u, (uint32_t)a);
        if (w < 0) continue;
        struct line *x = &u->lines[w];
        uint8_t *data = l2_data(k, u, w);
        take_half(k, x->address, x, code == 6 ? NULL : data);
        take_half(k, x->address + L1D_LINE, x, code == 6 ? NULL : data);
        l2_leave(k, code, x, data);
    }
}

static void l1p_block(struct machine *k, uint32_t base, uint32_t count)
{
    if (count == 0) return;
    uint64_t end = block_end(base, count);
    for (uint64_t a = base & ~(uint32_t)(L1P_LINE - 1); a < end; a += L1P_LINE) l1p_drop(k, (uint32_t)a);
}

/* ---- transfers (02, U1) */

static inline uint8_t transfer_due(const struct machine *k, uint32_t address, size_t length)
{
    if (address % 4 != 0) return 4;
    if (length == 0 || length % 4 != 0 || length > 262140) return 13;
    return place_ok(k->sram, k->r->extlen, (uint32_t)length, address) ? 0 : 14;
}

/* Where the bytes of a transfer stand. Of SRAM the L1D lines go home first and leave, as for a block of so many words;
   for external memory no cache is looked at. */
static inline uint8_t *transferred(struct machine *k, uint32_t address, size_t length)
{
    if (address >= EXTERNAL) return k->ext + (address - EXTERNAL);
    l1d_block(k, 7, address, (uint32_t)(length / 4));
    return k->l2 + address;
}

/* ---- modes */

static void fresh_sets(struct record *r)
{
    static const struct l1d_set l1d = { .order = { 1, 0 } };
    static const struct l2_set l2 = { .order = { 3, 2, 1, 0 } };
    for (int s = 0; s < L1D_SETS; s++) r->l1d[s] = l1d;
    for (int t = 0; t < L2_SETS; t++) r->l2[t] = l2;
    memset(r->l1p, 0, sizeof r->l1p);
    r->dirty_l1d = r->dirty_l2 = 0;
}

static void change_mode(struct machine *k, uint8_t mode)
{
    struct record *r = k->r;
    l1d_home(k);
    for (uint32_t t = 0; t < k->sets; t++)
        for (int w = 0; w < L2_WAYS; w++)
            if (r->l2[t].lines[w].dirty) write_out(k, &r->l2[t].lines[w], l2_data(k, &r->l2[t], w));
    uint32_t from = k->sram;
    r->mode = mode;
    set_up(k);
    if (k->sram < from) from = k->sram;
    memset(k->l2 + from, 0, r->l2len - from);
    fresh_sets(r);
}

/* ---- calls */

static void command(struct machine *k, const struct command *c, struct answer *q)
{
    q->number = command_due(k, c);
    if (q->number) return;
    switch (c->code) {
    case 2: case 3: l2_all(k, c->code); break;
    case 4: case 5: case 6: l2_block(k, c->code, c->first, c->second); break;
    case 7: case 8: l1d_block(k, c->code, c->first, c->second); break;
    case 9: l1d_all(k); break;
    case 10: change_mode(k, (uint8_t)c->first); break;
    case 11: *(c->first == 128 ? &k->r->mar128 : &k->r->mar129) = (uint8_t)c->second; break;
    case 12: k->r->frozen = (uint8_t)c->first; break;
    }
}

PART void carry_out(struct machine *k, const struct command *c, struct answer *q, struct report *t)
{
    q->number = 0;
    q->server = 0;
    q->value = 0;
    if (c->code == 0) {
        q->number = access_due(k, c->first, c->second, 0);
        if (!q->number) read(k, c->first, c->second, q, t);
    } else if (c->code == 1) {
        q->number = access_due(k, c->first, c->second, c->value);
        if (!q->number) write(k, c->first, c->second, c->value, q, t);
    } else {
        command(k, c, q);
    }
}

uint8_t model_fresh(struct record *r, const struct lent *m)
{
    int legal = m->l1d_len == L1D_BYTES && legal_l2(m->l2_len) && legal_ext(m->ext_len) && m->l1p_len == L1P_BYTES;
    r->l2len = legal ? (uint32_t)m->l2_len : 32768;
    r->extlen = legal ? (uint32_t)m->ext_len : 128;
    r->mode = r->mar128 = r->mar129 = r->frozen = 0;
    fresh_sets(r);
    if (!legal) return 1;
    memset(m->l1d, 0, m->l1d_len);
    memset(m->l2, 0, m->l2_len);
    memset(m->l1p, 0, m->l1p_len);
    return 0;
}

struct answer model_call(struct record *r, const struct lent *m, const struct command *c, struct report *t)
{
    struct answer q = { lent_due(r, m), 0, 0 };
    *t = (struct report){ 0 };
    if (q.number) return q;
    struct machine k = machine_of(r, m);
    carry_out(&k, c, &q, t);
    return q;
}

struct answer model_unaligned(struct record *r, const struct lent *m, const struct unaligned *u, struct report *t)
{
    struct answer q = { lent_due(r, m), 0, 0 };
    *t = (struct report){ 0 };
    if (q.number) return q;
    struct machine k = machine_of(r, m);
    q.number = unaligned_due(&k, u->size, u->address, u->write ? u->value : 0);
    if (!q.number) unaligned(&k, u, &q, t);
    return q;
}

uint8_t model_transfer_in(struct record *r, const struct lent *m, uint32_t address, const uint8_t *buffer,
                          size_t length)
{
    uint8_t number = lent_due(r, m);
    if (number) return number;
    struct machine k = machine_of(r, m);
    number = transfer_due(&k, address, length);
    if (!number) memcpy(transferred(&k, address, length), buffer, length);
    return number;
}

uint8_t model_transfer_out(struct record *r, const struct lent *m, uint32_t address, uint8_t *buffer, size_t length)
{
    uint8_t number = lent_due(r, m);
    if (number) return number;
    struct machine k = machine_of(r, m);
    number = transfer_due(&k, address, length);
    if (!number) memcpy(buffer, transferred(&k, address, length), length);
    return number;
}

/* A frame (02, U14): both block writeback-invalidates over its place, the transfer in, then each pixel is read. */
struct framed model_frame(struct record *r, const struct lent *m, uint8_t turn, const uint8_t *pixels, size_t length)
{
    struct framed f = { lent_due(r, m), turn & 1, { 0 } };
    if (f.number) return f;
    f.number = r->extlen < 6144 ? 19 : length != 3072 ? 20 : 0;
    if (f.number) return f;
    struct machine k = machine_of(r, m);
    uint32_t place = EXTERNAL + (f.turn ? 0xC00 : 0);
    l2_block(&k, 5, place, 768);
    l1d_block(&k, 7, place, 768);
    memcpy(transferred(&k, place, length), pixels, length);
    for (uint32_t i = 0; i < 3072; i++) {
        struct answer q;
        read(&k, 1, place + i, &q, NULL);
        f.sums[i % 64] += (uint32_t)q.value;
    }
    f.turn ^= 1;
    return f;
}

struct fetched model_fetch(struct record *r, const struct lent *m, uint32_t address)
{
    struct fetched f = { { lent_due(r, m), 0, 0 }, { { 0, 0 }, { 0, 0 }, 0, 0 }, { 0, 0 }, { 0 } };
    if (f.answer.number) return f;
    struct machine k = machine_of(r, m);
    f.answer.number = fetch_due(&k, address);
    if (!f.answer.number) fetch(&k, address, &f);
    return f;
}

uint8_t model_l1p_block(struct record *r, const struct lent *m, uint32_t base, uint32_t count)
{
    uint8_t number = lent_due(r, m);
    if (!number) number = block_due(base, count);
    if (number) return number;
    struct machine k = machine_of(r, m);
    l1p_block(&k, base, count);
    return 0;
}

uint8_t model_l1p_all(struct record *r, const struct lent *m)
{
    uint8_t number = lent_due(r, m);
    if (!number) memset(r->l1p, 0, sizeof r->l1p);
    return number;
}

/* ---- the trace */

/* A number of at most `bits` bits; the place after it, or NULL. */
static inline const uint8_t *number(const uint8_t *p, const uint8_t *end, unsigned bits, uint64_t *value)
{
    if (p == end) return NULL;
    uint64_t v = *p++;
    if (v >= 128) {
        v -= 128;
        for (unsigned shift = 7;; shift += 7) {
            if (p == end || shift >= bits) return NULL;
            uint64_t g = *p++;
            if (shift + 7 > bits && g >> (bits - shift)) return NULL;
            v |= (g & 127) << shift;
            if (g < 128) {
                if (g == 0) return NULL;
                break;
            }
        }
    }
    *value = v;
    return p;
}

/* The command at p; the place after it, or NULL where the trace is damaged. */
static inline const uint8_t *decode(const uint8_t *p, const uint8_t *end, struct command *c)
{
    static const uint8_t numbers[13] = { 2, 3, 0, 0, 2, 2, 2, 2, 2, 0, 1, 2, 1 };
    uint64_t v;
    c->code = *p++;
    c->first = 0;
    c->second = 0;
    c->value = 0;
    if (c->code > 12) return NULL;
    unsigned n = numbers[c->code];
    if (n == 0) return p;
    p = number(p, end, 32, &v);
    if (!p) return NULL;
    c->first = (uint32_t)v;
    if (n == 1) return p;
    p = number(p, end, 32, &v);
    if (!p) return NULL;
    c->second = (uint32_t)v;
    if (n == 2) return p;
    return number(p, end, 64, &c->value);
}

struct run_result model_run(struct record *r, const struct lent *m, const uint8_t *trace, size_t trace_len,
                            uint8_t *answers, size_t answers_len)
{
    struct run_result x = { 0, 0, lent_due(r, m) };
    if (x.stop) return x;
    struct machine k = machine_of(r, m);
    const uint8_t *p = trace;
    const uint8_t *end = trace + trace_len;
    size_t room = answers_len / 10;
    while (p != end) {
        struct command c;
        const uint8_t *next = decode(p, end, &c);
        if (!next) {
            x.stop = 11;
            break;
        }
        if (x.count == room) {
            x.stop = 12;
            break;
        }
        struct answer q;
        carry_out(&k, &c, &q, NULL);
        answers[0] = q.number;
        answers[1] = q.server;
        memcpy(answers + 2, &q.value, 8);
        answers += 10;
        x.count++;
        p = next;
    }
    x.consumed = (size_t)(p - trace);
    return x;
}

/* ---- writing a trace */

static inline uint8_t *put_number(uint8_t *p, uint64_t v)
{
    for (; v >= 128; v >>= 7) *p++ = (uint8_t)(v | 128);
    *p++ = (uint8_t)v;
    return p;
}

static inline uint8_t *put_numbers(uint8_t *p, unsigned n, uint64_t first, uint64_t second, uint64_t value)
{
    if (n > 0) p = put_number(p, first);
    if (n > 1) p = put_number(p, second);
    if (n > 2) p = put_number(p, value);
    return p;
}

/* With room for the longest command it is made in place; near the end elsewhere first, since it may not fit. */
struct put_result model_put(uint8_t *out, size_t out_len, size_t at, uint32_t code, uint64_t first, uint64_t second,
                            uint64_t value)
{
    static const uint8_t numbers[13] = { 2, 3, 0, 0, 2, 2, 2, 2, 2, 0, 1, 2, 1 };
    struct put_result x = { at, 11 };
    if (code > 12) return x;
    unsigned n = numbers[code];
    if ((n > 0 && first > UINT32_MAX) || (n > 1 && second > UINT32_MAX)) return x;
    x.number = 16;
    if (at >= out_len) return x;
    if (out_len - at >= 21) {
        out[at] = (uint8_t)code;
        x.at = (size_t)(put_numbers(out + at + 1, n, first, second, value) - out);
    } else {
        uint8_t made[21];
        made[0] = (uint8_t)code;
        size_t length = (size_t)(put_numbers(made + 1, n, first, second, value) - made);
        if (length > out_len - at) return x;
        memcpy(out + at, made, length);
        x.at = at + length;
    }
    x.number = 0;
    return x;
}

/* ---- a load to repeat */

struct words {
    uint32_t ring[55];
    unsigned at;
};

static void seed_words(struct words *w, uint32_t seed)
{
    for (int i = 0; i < 55; i++, seed += 0x9E3779B9u) w->ring[i] = seed;
    w->at = 0;
}

static inline uint32_t next_word(struct words *w)
{
    unsigned at = w->at, near = at < 24 ? at + 31 : at - 24;
    w->at = at == 54 ? 0 : at + 1;
    return w->ring[at] += w->ring[near];
}

/* A read has 7 bytes and a write 12: whether all fit is known before the first is written. */
struct load_result model_load(uint32_t seed, uint32_t extlen, uint64_t accesses, uint8_t *out, size_t out_len)
{
    struct load_result x = { 0, 1 };
    struct words w;
    size_t left = out_len;
    if (!legal_ext(extlen)) return x;
    x.number = 16;
    seed_words(&w, seed);
    for (uint64_t n = 0; n < accesses; n++) {
        size_t bytes = next_word(&w) >> 31 ? 12 : 7;
        if (left < bytes) return x;
        left -= bytes;
    }
    uint8_t *p = out;
    uint32_t words = extlen / 4;
    seed_words(&w, seed);
    for (uint64_t n = 0; n < accesses; n++) {
        uint32_t word = next_word(&w);
        *p++ = (uint8_t)(word >> 31);
        *p++ = 4;
        p = put_number(p, EXTERNAL + word % words * 4);
        if (word >> 31) p = put_number(p, word);
    }
    x.length = (size_t)(p - out);
    x.number = 0;
    return x;
}

/* ---- looking behind L1D */

uint8_t model_view_number(const struct record *r, const struct lent *m, uint32_t address)
{
    uint8_t number = view_lent_due(r, m);
    if (number) return number;
    if (address % 64 != 0) return 4;
    return place_ok(r->l2len - cache_size(r->mode), r->extlen, 64, address) ? 0 : 5;
}

uint8_t model_view(const struct record *r, const struct lent *m, uint32_t address, uint8_t *seen, size_t seen_len)
{
    uint8_t number = seen_len < 64 ? 1 : model_view_number(r, m, address);
    if (number == 0) memcpy(seen, address < EXTERNAL ? m->l2 + address : m->ext + (address - EXTERNAL), 64);
    return number;
}

/* ---- short runs */

/* How many runs are shorter than this length. */
static const uint32_t shorter[5] = { 0, 1, 9, 73, 585 };

struct short_run model_short_run_of(uint32_t number)
{
    struct short_run x = { 0, 4, { 0 } };
    if (number > 4680) {
        x.number = 18;
        x.length = 0;
        return x;
    }
    while (number < shorter[x.length]) x.length--;
    number -= shorter[x.length];
    for (unsigned i = x.length; i-- > 0; number /= 8) x.digits[i] = number % 8;
    return x;
}

struct run_number model_short_run_number(const uint8_t *digits, size_t length)
{
    struct run_number refused = { 18, 0 }, x = { 0, 0 };
    if (length > 4) return refused;
    for (size_t i = 0; i < length; i++) {
        if (digits[i] > 7) return refused;
        x.run = 8 * x.run + digits[i];
    }
    x.run += shorter[length];
    return x;
}
