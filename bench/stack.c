/* How much stack each call of include/c64x.h takes. A call is made on a stack of its own that is filled with a known
   byte before; the lowest byte that has changed afterwards shows how deep it went. Each call is made in several states
   of a chip, many more are made at random, and the most is shown. The exit status is 1 where a call takes more than
   the header says. */
#define _XOPEN_SOURCE 700
#include <stdio.h>
#include <stdlib.h>
#include <string.h>
#include <ucontext.h>

#include "c64x.h"

#define EXTERNAL C64X_EXTERNAL_BASE
#define STACK_BYTES (1u << 20)
#define EXT_BYTES (1u << 20)

/* The calls, in the order of the codes of a trace; then the others. */
enum {
    FRESH = 13, READ_UNALIGNED, WRITE_UNALIGNED, TRANSFER_IN, TRANSFER_OUT, FRAME, FETCH, L1P_BLOCK, L1P_ALL, RUN, VIEW,
    VIEW_NUMBER, SHORT_RUN_OF, SHORT_RUN_NUMBER, PUT, LOAD, KINDS
};

static const char *const names[KINDS] = {
    "c64x_read",
    "c64x_write",
    "c64x_l2_writeback_all",
    "c64x_l2_writeback_invalidate_all",
    "c64x_l2_writeback_block",
    "c64x_l2_writeback_invalidate_block",
    "c64x_l2_invalidate_block",
    "c64x_l1d_writeback_invalidate_block",
    "c64x_l1d_invalidate_block",
    "c64x_l1d_invalidate_all",
    "c64x_change_mode",
    "c64x_change_mar",
    "c64x_freeze",
    "c64x_fresh",
    "c64x_read_unaligned",
    "c64x_write_unaligned",
    "c64x_transfer_in",
    "c64x_transfer_out",
    "c64x_frame",
    "c64x_fetch",
    "c64x_l1p_invalidate_block",
    "c64x_l1p_invalidate_all",
    "c64x_run",
    "c64x_view",
    "c64x_view_number",
    "c64x_short_run_of",
    "c64x_short_run_number",
    "c64x_put_command",
    "c64x_load_trace",
};

/* One call with its numbers. */
struct call {
    int kind;
    uint32_t first;
    uint32_t second;
    uint64_t value;
};

static c64x_record record, kept;
static uint8_t l1d[C64X_L1D_BYTES], l2[262144], ext[EXT_BYTES], l1p[C64X_L1P_BYTES], seen[C64X_VIEW_BYTES];
static uint8_t trace[65536], answers[10 * 65536], buffer[C64X_TRANSFER_BYTES];
static const uint8_t digits[8] = { 1, 2, 3, 4, 5, 6, 7, 8 };
static size_t l2_len, trace_len;
static uint8_t *stack;
static ucontext_t caller, callee;
static struct call now;
static const uint8_t *entered;
static volatile int returned;
static size_t most[KINDS];

static uint64_t seed = 88172645463325252u;

static uint32_t below(uint32_t bound)
{
    seed ^= seed << 13;
    seed ^= seed >> 7;
    seed ^= seed << 17;
    return (uint32_t)((seed >> 32) * bound >> 32);
}

#define LENT l1d, sizeof l1d, l2, l2_len, ext, sizeof ext, l1p, sizeof l1p

/* By itself, so that the 260 bytes that come back have their place in the frame of this call and of no other. */
static void __attribute__((noinline)) frame(uint32_t turn, uint32_t length)
{
    c64x_frame(&record, (uint8_t)turn, buffer, length, LENT);
}

/* Likewise the 80 bytes of a fetch. */
static void __attribute__((noinline)) fetch(uint32_t address)
{
    c64x_fetch(&record, address, LENT);
}

static void call(void)
{
    c64x_record *r = &record;
    uint32_t first = now.first, second = now.second;
    switch (now.kind) {
    case 0: c64x_read(r, first, second, LENT); break;
    case 1: c64x_write(r, first, second, now.value, LENT); break;
    case 2: c64x_l2_writeback_all(r, LENT); break;
    case 3: c64x_l2_writeback_invalidate_all(r, LENT); break;
    case 4: c64x_l2_writeback_block(r, first, second, LENT); break;
    case 5: c64x_l2_writeback_invalidate_block(r, first, second, LENT); break;
    case 6: c64x_l2_invalidate_block(r, first, second, LENT); break;
    case 7: c64x_l1d_writeback_invalidate_block(r, first, second, LENT); break;
    case 8: c64x_l1d_invalidate_block(r, first, second, LENT); break;
    case 9: c64x_l1d_invalidate_all(r, LENT); break;
    case 10: c64x_change_mode(r, first, LENT); break;
    case 11: c64x_change_mar(r, first, second, LENT); break;
    case 12: c64x_freeze(r, first, LENT); break;
    case FRESH: c64x_fresh(r, LENT); break;
    case READ_UNALIGNED: c64x_read_unaligned(r, first, second, LENT); break;
    case WRITE_UNALIGNED: c64x_write_unaligned(r, first, second, now.value, LENT); break;
    case TRANSFER_IN: c64x_transfer_in(r, first, buffer, second, LENT); break;
    case TRANSFER_OUT: c64x_transfer_out(r, first, buffer, second, LENT); break;
    case FRAME: frame(first, second); break;
    case FETCH: fetch(first); break;
    case L1P_BLOCK: c64x_l1p_invalidate_block(r, first, second, LENT); break;
    case L1P_ALL: c64x_l1p_invalidate_all(r, LENT); break;
    case RUN: c64x_run(r, trace, trace_len, LENT, answers, sizeof answers); break;
    case VIEW: c64x_view(r, first, l2, l2_len, ext, sizeof ext, seen, sizeof seen); break;
    case VIEW_NUMBER: c64x_view_number(r, first, l2, l2_len, ext, sizeof ext); break;
    case SHORT_RUN_OF: c64x_short_run_of(first); break;
    case SHORT_RUN_NUMBER: c64x_short_run_number(digits, first); break;
    /* the code is that of a write, whose command is the longest */
    case PUT: c64x_put_command(trace, sizeof trace, 0, 1, first, second, now.value); break;
    /* the seed and the number of accesses */
    default: c64x_load_trace(first, sizeof ext, second, trace, sizeof trace); break;
    }
}

/* What a caller needs counts from the frame that makes the call: arguments that go by the stack are in it. Something is
   done after the call, so that the compiler makes it a call and no jump, which would leave this frame first. */
static void on_the_other_stack(void)
{
    entered = __builtin_frame_address(0);
    call();
    returned = 1;
}

static size_t taken(uint8_t paint)
{
    memset(stack, paint, STACK_BYTES);
    getcontext(&callee);
    callee.uc_stack.ss_sp = stack;
    callee.uc_stack.ss_size = STACK_BYTES;
    callee.uc_link = &caller;
    makecontext(&callee, on_the_other_stack, 0);
    swapcontext(&caller, &callee);
    const uint8_t *lowest = stack;
    while (lowest < entered && *lowest == paint) lowest++;
    return (size_t)(entered - lowest);
}

/* A byte that is written may be the one that stood there, so that there are two of them. The second call is made from
   the same record. */
static void measure(int kind, uint32_t first, uint32_t second, uint64_t value)
{
    now = (struct call){ kind, first, second, value };
    memcpy(&kept, &record, sizeof kept);
    size_t once = taken(0xA5);
    memcpy(&record, &kept, sizeof kept);
    size_t again = taken(0x5A);
    size_t n = once > again ? once : again;
    if (n > most[kind]) most[kind] = n;
}

static void put_number(uint64_t v)
{
    while (v >= 128) {
        trace[trace_len++] = (uint8_t)(v | 128);
        v >>= 7;
    }
    trace[trace_len++] = (uint8_t)v;
}

static void put(const struct call *q)
{
    static const uint8_t numbers[13] = { 2, 3, 0, 0, 2, 2, 2, 2, 2, 0, 1, 2, 1 };
    trace[trace_len++] = (uint8_t)q->kind;
    if (numbers[q->kind] > 0) put_number(q->first);
    if (numbers[q->kind] > 1) put_number(q->second);
    if (numbers[q->kind] > 2) put_number(q->value);
}

/* A command of any kind; most of them pass the checks. */
static struct call some_command(void)
{
    static const uint32_t modes[6] = { 0, 1, 2, 3, 7, 4 };
    uint32_t size = below(40) ? 1u << below(4) : below(10);
    uint32_t a = (below(3) ? EXTERNAL : 0) + (below(4) ? below(40) * 4096 + below(256) : below(300000));
    if (size && below(40)) a -= a % size;
    switch (below(25)) {
    case 0: return (struct call){ 2, 0, 0, 0 };
    case 1: return (struct call){ 3, 0, 0, 0 };
    case 2: return (struct call){ 9, 0, 0, 0 };
    case 3: return (struct call){ 10, modes[below(6)], 0, 0 };
    case 4: return (struct call){ 11, 127 + below(4), below(3), 0 };
    case 5: case 6: case 7: return (struct call){ 4 + (int)below(5), a & ~3u, below(70000), 0 };
    case 14: return (struct call){ 12, below(3), 0, 0 };
    case 8: case 9: case 10: case 11: case 12: case 13: return (struct call){ 1, size, a, below(256) };
    default: return (struct call){ 0, size, a, 0 };
    }
}

/* Every call in the state as it stands; the record is put back after each. */
static void every_call(void)
{
    static c64x_record state;
    memcpy(&state, &record, sizeof state);
    static const struct call calls[] = {
        { 0, 4, EXTERNAL + 64, 0 }, { 0, 4, EXTERNAL + 0x50000, 0 }, { 0, 4, 64, 0 }, { 0, 3, 0, 0 },
        { 1, 8, EXTERNAL + 64, 5 }, { 1, 8, EXTERNAL + 0x50000, 5 }, { 1, 8, 64, 5 }, { 1, 1, 0, 256 },
        { 2, 0, 0, 0 }, { 3, 0, 0, 0 },
        { 4, EXTERNAL, 65535, 0 }, { 5, EXTERNAL, 65535, 0 }, { 6, EXTERNAL, 65535, 0 },
        { 4, 0, 65535, 0 }, { 5, 0, 65535, 0 }, { 6, 0, 65535, 0 },
        { 7, EXTERNAL, 65535, 0 }, { 7, 0, 65535, 0 }, { 8, EXTERNAL, 65535, 0 }, { 9, 0, 0, 0 },
        { 10, 0, 0, 0 }, { 10, 1, 0, 0 }, { 10, 2, 0, 0 }, { 10, 3, 0, 0 }, { 10, 7, 0, 0 }, { 10, 4, 0, 0 },
        { 11, 128, 1, 0 }, { 11, 128, 0, 0 }, { 11, 129, 0, 0 }, { 11, 7, 0, 0 },
        { 12, 1, 0, 0 }, { 12, 0, 0, 0 }, { 12, 2, 0, 0 },
        { READ_UNALIGNED, 8, EXTERNAL + 61, 0 }, { READ_UNALIGNED, 8, EXTERNAL + 0x5007B, 0 },
        { READ_UNALIGNED, 8, 61, 0 }, { READ_UNALIGNED, 2, 0, 0 }, { READ_UNALIGNED, 4, UINT32_MAX, 0 },
        { WRITE_UNALIGNED, 8, EXTERNAL + 61, 5 }, { WRITE_UNALIGNED, 8, EXTERNAL + 0x5007B, 5 },
        { WRITE_UNALIGNED, 8, 61, 5 }, { WRITE_UNALIGNED, 4, EXTERNAL, UINT64_MAX },
        { TRANSFER_IN, EXTERNAL, 65536, 0 }, { TRANSFER_IN, 60, 8, 0 }, { TRANSFER_IN, 0, 32768, 0 },
        { TRANSFER_IN, 0, C64X_TRANSFER_BYTES, 0 }, { TRANSFER_IN, 0, 0, 0 }, { TRANSFER_IN, EXTERNAL - 4, 8, 0 },
        { TRANSFER_OUT, EXTERNAL, 65536, 0 }, { TRANSFER_OUT, 60, 8, 0 }, { TRANSFER_OUT, 0, 32768, 0 },
        { TRANSFER_OUT, 0, C64X_TRANSFER_BYTES, 0 }, { TRANSFER_OUT, 2, 4, 0 }, { TRANSFER_OUT, EXTERNAL, 262144, 0 },
        { FRAME, 0, C64X_FRAME_BYTES, 0 }, { FRAME, 1, C64X_FRAME_BYTES, 0 }, { FRAME, 0, 0, 0 },
        { FETCH, EXTERNAL + 64, 0, 0 }, { FETCH, EXTERNAL + 0x50000, 0, 0 }, { FETCH, 64, 0, 0 }, { FETCH, 8, 0, 0 },
        { FETCH, EXTERNAL - 32, 0, 0 }, { L1P_BLOCK, EXTERNAL, 65535, 0 }, { L1P_BLOCK, 2, 1, 0 }, { L1P_ALL, 0, 0, 0 },
        { FRESH, 0, 0, 0 }, { VIEW, EXTERNAL + 64, 0, 0 }, { VIEW, 64, 0, 0 }, { VIEW, 4, 0, 0 },
        { VIEW_NUMBER, EXTERNAL + 64, 0, 0 }, { VIEW_NUMBER, 4, 0, 0 },
        { PUT, 4, EXTERNAL, 5 }, { PUT, UINT32_MAX, UINT32_MAX, UINT64_MAX },
        { LOAD, 7, 1000, 0 }, { LOAD, 7, UINT32_MAX, 0 },
    };
    for (size_t i = 0; i < sizeof calls / sizeof calls[0]; i++) {
        measure(calls[i].kind, calls[i].first, calls[i].second, calls[i].value);
        memcpy(&record, &state, sizeof state);
        if (calls[i].kind > 12) continue;
        trace_len = 0;
        put(&calls[i]);
        measure(RUN, 0, 0, 0);
        memcpy(&record, &state, sizeof state);
    }
}

static void fresh(size_t l)
{
    l2_len = l;
    if (c64x_fresh(&record, LENT).number != 0) abort();
}

/* Every line of L1D and L2 in use and dirty, and L1P full; the lines of L1D and L1P lie from an address on. */
static void fill(uint32_t mode, uint32_t from)
{
    static const uint32_t lines[8] = { 0, 256, 512, 1024, 0, 0, 0, 2048 };
    fresh(262144);
    c64x_change_mar(&record, 128, 1, LENT);
    c64x_change_mode(&record, mode, LENT);
    for (uint32_t i = 0; i < lines[mode]; i++) c64x_write(&record, 4, EXTERNAL + 128 * i, i, LENT);
    for (uint32_t i = 0; i < 256; i++) {
        c64x_read(&record, 4, from + 64 * i, LENT);
        c64x_write(&record, 4, from + 64 * i, i, LENT);
    }
    for (uint32_t i = 0; i < C64X_L1P_SETS; i++) c64x_fetch(&record, from + 32 * i, LENT);
}

int main(void)
{
    static const uint32_t modes[5] = { 0, 1, 2, 3, 7 };
    stack = malloc(STACK_BYTES);
    if (stack == NULL) {
        fprintf(stderr, "stack: no memory\n");
        return 2;
    }
    fresh(65536);
    every_call();
    for (uint32_t i = 0; i < C64X_SHORT_RUNS + 3; i += 73) measure(SHORT_RUN_OF, i, 0, 0);
    measure(SHORT_RUN_OF, C64X_SHORT_RUNS - 1, 0, 0);
    for (uint32_t i = 0; i <= sizeof digits; i++) measure(SHORT_RUN_NUMBER, i, 0, 0);
    for (int i = 0; i < 5; i++) {
        fill(modes[i], 0); /* SRAM; in mode 7 there is none */
        every_call();
        fill(modes[i], EXTERNAL);
        every_call();
        c64x_freeze(&record, 1, LENT);
        every_call();
        record.dirty_l2++; /* refused with 2, all lines being right */
        every_call();
        record.dirty_l2--;
        record.l2[5].lines[1].valid = 2; /* refused with 2 */
        every_call();
    }
    for (int round = 0; round < 60; round++) {
        fresh(32768 * (1 + below(8)));
        c64x_change_mar(&record, 128, 1, LENT);
        c64x_change_mode(&record, modes[below(5)], LENT);
        for (int i = 0; i < 20; i++) {
            struct call q = some_command();
            measure(q.kind, q.first, q.second, q.value);
            q = some_command();
            measure(below(2) ? READ_UNALIGNED : WRITE_UNALIGNED, below(20) ? 4u << below(2) : below(10),
                    q.kind < 2 ? q.second + below(64) : EXTERNAL + below(EXT_BYTES), below(256));
            uint32_t to = q.kind < 2 ? q.second : EXTERNAL + below(EXT_BYTES);
            measure(below(2) ? TRANSFER_IN : TRANSFER_OUT, to & ~3u, 4 * below(300), 0);
            measure(VIEW, q.second & ~63u, 0, 0);
            measure(FETCH, to & ~31u, 0, 0);
            measure(L1P_BLOCK, to & ~3u, below(300), 0);
        }
        for (uint32_t turn = 0; turn < 2; turn++) measure(FRAME, turn, C64X_FRAME_BYTES, 0);
        trace_len = 0;
        while (trace_len < 2000) {
            struct call q = some_command();
            put(&q);
        }
        measure(RUN, 0, 0, 0);
    }
    size_t all = 0;
    for (int kind = 0; kind < KINDS; kind++) {
        printf("%-36s %6zu bytes\n", names[kind], most[kind]);
        if (most[kind] > all) all = most[kind];
    }
    printf("%-36s %6zu bytes; c64x.h says %d at most\n", "the most", all, C64X_STACK_BYTES);
    return all > C64X_STACK_BYTES;
}
