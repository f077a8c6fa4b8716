/* A plain C model of paper 01, "The C64x data memory in two levels", as the requests of paper 02 have left it, to
   measure the proved library against. Like the library it is lent the record in place and copies it nowhere. The
   record's layout is that of include/c64x.h, so that both sides can be held against each other field by field.
   Little-endian hosts only. */
#ifndef MODEL_H
#define MODEL_H

#include <stddef.h>
#include <stdint.h>

struct line {
    uint8_t valid;
    uint8_t dirty;
    uint32_t address;
};

struct l1d_set {
    struct line lines[2];
    uint8_t order[2];
};

struct l2_set {
    struct line lines[4];
    uint8_t order[4];
};

struct l1p_set {
    struct line lines[1];
};

struct record {
    uint32_t l2len;
    uint32_t extlen;
    uint8_t mode;
    uint8_t mar128;
    uint8_t mar129;
    uint8_t frozen;
    uint32_t dirty_l1d;
    uint32_t dirty_l2;
    struct l1d_set l1d[128];
    struct l2_set l2[512];
    struct l1p_set l1p[512];
};

_Static_assert(sizeof(struct record) == 25108, "the record has C's layout of 25,108 bytes");

/* The lent memories. */
struct lent {
    uint8_t *l1d;
    size_t l1d_len;
    uint8_t *l2;
    size_t l2_len;
    uint8_t *ext;
    size_t ext_len;
    uint8_t *l1p;
    size_t l1p_len;
};

/* A command by its code of the trace; numbers that a code does not take are 0. */
struct command {
    uint8_t code;
    uint32_t first;
    uint32_t second;
    uint64_t value;
};

struct answer {
    uint8_t number;
    uint8_t server;
    uint64_t value;
};

/* What left the way that a cache chose: 0 none was chosen, 1 it was empty, 2 a clean line, 3 a dirty one. */
struct left {
    uint32_t address;
    uint8_t kind;
};

/* What an access reports beside its answer (paper 02, U2); a run's answers have none of it. */
struct report {
    struct left l1d_left;
    struct left l2_left;
    uint32_t external_read;
    uint32_t external_written;
};

struct run_result {
    size_t consumed;
    size_t count;
    uint8_t stop;
};

int model_well_formed(const struct record *r);

uint8_t model_fresh(struct record *r, const struct lent *m);

/* Any command as a direct call, with all its checks; what it reports goes to `t`. */
struct answer model_call(struct record *r, const struct lent *m, const struct command *c, struct report *t);

/* A non-aligned access (paper 02, U6), which no trace has; the value counts for a write alone. */
struct unaligned {
    int write;
    uint32_t size;
    uint32_t address;
    uint64_t value;
};

struct answer model_unaligned(struct record *r, const struct lent *m, const struct unaligned *u, struct report *t);

/* A transfer (paper 02, U1), which no trace has: the buffer's bytes into memory, or memory's into the buffer. All that
   it answers is the number. */
uint8_t model_transfer_in(struct record *r, const struct lent *m, uint32_t address, const uint8_t *buffer,
                          size_t length);
uint8_t model_transfer_out(struct record *r, const struct lent *m, uint32_t address, uint8_t *buffer, size_t length);

/* A frame of the camera (paper 02, U14), which no trace has either: its number, the next one's turn, and each column
   added up. */
struct framed {
    uint8_t number;
    uint8_t turn;
    uint32_t sums[64];
};

struct framed model_frame(struct record *r, const struct lent *m, uint8_t turn, const uint8_t *pixels, size_t length);

/* A program fetch (paper 02, U4), which no trace has: its answer and report as a read's, what left the way of L1P, and
   the line; all 0 where it is refused. */
struct fetched {
    struct answer answer;
    struct report report;
    struct left l1p_left;
    uint8_t bytes[32];
};

struct fetched model_fetch(struct record *r, const struct lent *m, uint32_t address);

/* L1P's own invalidations; all that they answer is the number. */
uint8_t model_l1p_block(struct record *r, const struct lent *m, uint32_t base, uint32_t count);
uint8_t model_l1p_all(struct record *r, const struct lent *m);

struct run_result model_run(struct record *r, const struct lent *m, const uint8_t *trace, size_t trace_len,
                            uint8_t *answers, size_t answers_len);

struct put_result {
    size_t at;
    uint8_t number;
};

/* One command of a trace into the output, behind `at`. */
struct put_result model_put(uint8_t *out, size_t out_len, size_t at, uint32_t code, uint64_t first, uint64_t second,
                            uint64_t value);

/* A load to repeat (paper 02, U9): its trace at the start of the output; how many bytes it has, and the number. */
struct load_result {
    size_t length;
    uint8_t number;
};

struct load_result model_load(uint32_t seed, uint32_t extlen, uint64_t accesses, uint8_t *out, size_t out_len);

/* The 64 bytes behind L1D into `seen`; the number. And the number alone. */
uint8_t model_view(const struct record *r, const struct lent *m, uint32_t address, uint8_t *seen, size_t seen_len);
uint8_t model_view_number(const struct record *r, const struct lent *m, uint32_t address);

/* Short runs (paper 02, U12): the run of a number, the number of a run. */
struct short_run {
    uint8_t number;
    uint8_t length;
    uint8_t digits[4];
};

struct run_number {
    uint8_t number;
    uint32_t run;
};

struct short_run model_short_run_of(uint32_t number);
struct run_number model_short_run_number(const uint8_t *digits, size_t length);

#endif
