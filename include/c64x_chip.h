/*
 * c64x_chip.h: the calls of c64x.h with one argument for the whole chip, and names and texts for the numbers.
 *
 * A c64x_chip holds the record and says where the four memories stand. The memories stay yours: the chip only points
 * to them. A chip of 64 Kbytes of L2 and as much external memory:
 *
 *   static uint8_t l1d[C64X_L1D_BYTES], l2[65536], ext[65536], l1p[C64X_L1P_BYTES];
 *   static c64x_chip chip;
 *   c64x_answer answer = c64x_chip_start(&chip, l1d, sizeof l1d, l2, sizeof l2, ext, sizeof ext, l1p, sizeof l1p);
 *   if (answer.number == C64X_ACCEPTED)
 *       answer = c64x_chip_read(&chip, 4, C64X_EXTERNAL_BASE);
 *   puts(c64x_number_text(answer.number));
 *
 * Everything here is inline: there is nothing more to link than for c64x.h, which says what each call does.
 */
#ifndef C64X_CHIP_H
#define C64X_CHIP_H

#include "c64x.h"

/* The numbers that calls and runs give back. */
enum {
    C64X_ACCEPTED = 0,
    C64X_REFUSED_LENGTH = 1,
    C64X_REFUSED_RECORD = 2,
    C64X_REFUSED_SIZE = 3,
    C64X_REFUSED_ALIGNMENT = 4,
    C64X_REFUSED_PLACE = 5,
    C64X_REFUSED_VALUE = 6,
    C64X_REFUSED_COUNT = 7,
    C64X_REFUSED_MODE = 8,
    C64X_REFUSED_MAR = 9,
    C64X_REFUSED_LINE_HELD = 10,
    C64X_STOPPED_TRACE = 11,
    C64X_STOPPED_ANSWERS = 12,
    C64X_REFUSED_TRANSFER_LENGTH = 13,
    C64X_REFUSED_TRANSFER_PLACE = 14,
    C64X_REFUSED_FETCH_ALIGNMENT = 15,
    C64X_REFUSED_ROOM = 16,
    C64X_REFUSED_FREEZE = 17,
    C64X_REFUSED_SHORT_RUN = 18,
    C64X_REFUSED_FRAME_ROOM = 19,
    C64X_REFUSED_FRAME_LENGTH = 20
};

/* Who served an access. */
enum {
    C64X_SERVER_NONE = 0,
    C64X_SERVER_L1D = 1,
    C64X_SERVER_SRAM = 2,
    C64X_SERVER_L2_CACHE = 3,
    C64X_SERVER_EXTERNAL = 4,
    C64X_SERVER_L1P = 5
};

/* What an access put out of a cache: the kinds of c64x_left. */
enum {
    C64X_LEFT_NONE = 0,
    C64X_LEFT_EMPTY = 1,
    C64X_LEFT_CLEAN = 2,
    C64X_LEFT_DIRTY = 3
};

/* What a number says. A number that no call gives back has a text too. */
static inline const char *c64x_number_text(unsigned number)
{
    switch (number) {
    case C64X_ACCEPTED: return "done";
    case C64X_REFUSED_LENGTH: return "refused: a lent length is illegal or unlike the record's";
    case C64X_REFUSED_RECORD: return "refused: the record is not well formed";
    case C64X_REFUSED_SIZE: return "refused: the size is not 1, 2, 4 or 8 (non-aligned: 4 or 8)";
    case C64X_REFUSED_ALIGNMENT: return "refused: the address is not aligned";
    case C64X_REFUSED_PLACE: return "refused: neither SRAM nor external memory";
    case C64X_REFUSED_VALUE: return "refused: the value needs more bytes than the size";
    case C64X_REFUSED_COUNT: return "refused: the count is above 65535";
    case C64X_REFUSED_MODE: return "refused: no such mode, or its cache is larger than L2";
    case C64X_REFUSED_MAR: return "refused: no such MAR or bit";
    case C64X_REFUSED_LINE_HELD: return "refused: a cache holds a line of that range";
    case C64X_STOPPED_TRACE: return "stopped: the trace is damaged";
    case C64X_STOPPED_ANSWERS: return "stopped: fewer than 10 answer bytes are left";
    case C64X_REFUSED_TRANSFER_LENGTH: return "refused: the transfer's length is 0, no multiple of 4 or above 262140";
    case C64X_REFUSED_TRANSFER_PLACE: return "refused: the transfer is not wholly in SRAM or in external memory";
    case C64X_REFUSED_FETCH_ALIGNMENT: return "refused: the address of a fetch is not a multiple of 32";
    case C64X_REFUSED_ROOM: return "refused: too few bytes of the output are left";
    case C64X_REFUSED_FREEZE: return "refused: neither 1, which freezes L1D, nor 0, which thaws it";
    case C64X_REFUSED_SHORT_RUN: return "refused: no short run has this number or these digits";
    case C64X_REFUSED_FRAME_ROOM: return "refused: external memory has fewer than 6144 bytes";
    case C64X_REFUSED_FRAME_LENGTH: return "refused: the frame does not have 3072 bytes";
    default: return "unknown number";
    }
}

/* What a server is called. */
static inline const char *c64x_server_text(unsigned server)
{
    switch (server) {
    case C64X_SERVER_NONE: return "none";
    case C64X_SERVER_L1D: return "L1D";
    case C64X_SERVER_SRAM: return "SRAM";
    case C64X_SERVER_L2_CACHE: return "L2 cache";
    case C64X_SERVER_EXTERNAL: return "external memory";
    case C64X_SERVER_L1P: return "L1P";
    default: return "unknown server";
    }
}

/* What a kind of c64x_left is called. */
static inline const char *c64x_left_text(unsigned kind)
{
    switch (kind) {
    case C64X_LEFT_NONE: return "none";
    case C64X_LEFT_EMPTY: return "empty";
    case C64X_LEFT_CLEAN: return "clean";
    case C64X_LEFT_DIRTY: return "dirty";
    default: return "unknown kind";
    }
}

/* A chip: the record, and where the memories stand. */
typedef struct {
    c64x_record record;
    uint8_t *l1d;
    size_t l1d_len;
    uint8_t *l2;
    size_t l2_len;
    uint8_t *ext;
    size_t ext_len;
    uint8_t *l1p;
    size_t l1p_len;
} c64x_chip;

#define C64X_CHIP_LENT(chip) \
    (chip)->l1d, (chip)->l1d_len, (chip)->l2, (chip)->l2_len, (chip)->ext, (chip)->ext_len, (chip)->l1p, (chip)->l1p_len

/* The chip after reset, over the memories that it has already. */
static inline c64x_answer c64x_chip_fresh(c64x_chip *chip)
{
    return c64x_fresh(&chip->record, C64X_CHIP_LENT(chip));
}

/* A new chip over these memories, after reset. */
static inline c64x_answer c64x_chip_start(c64x_chip *chip, uint8_t *l1d, size_t l1d_len, uint8_t *l2, size_t l2_len,
                                          uint8_t *ext, size_t ext_len, uint8_t *l1p, size_t l1p_len)
{
    chip->l1d = l1d;
    chip->l1d_len = l1d_len;
    chip->l2 = l2;
    chip->l2_len = l2_len;
    chip->ext = ext;
    chip->ext_len = ext_len;
    chip->l1p = l1p;
    chip->l1p_len = l1p_len;
    return c64x_chip_fresh(chip);
}

static inline c64x_answer c64x_chip_read(c64x_chip *chip, uint32_t size, uint32_t address)
{
    return c64x_read(&chip->record, size, address, C64X_CHIP_LENT(chip));
}

static inline c64x_answer c64x_chip_write(c64x_chip *chip, uint32_t size, uint32_t address, uint64_t value)
{
    return c64x_write(&chip->record, size, address, value, C64X_CHIP_LENT(chip));
}

static inline c64x_answer c64x_chip_read_unaligned(c64x_chip *chip, uint32_t size, uint32_t address)
{
    return c64x_read_unaligned(&chip->record, size, address, C64X_CHIP_LENT(chip));
}

static inline c64x_answer c64x_chip_write_unaligned(c64x_chip *chip, uint32_t size, uint32_t address, uint64_t value)
{
    return c64x_write_unaligned(&chip->record, size, address, value, C64X_CHIP_LENT(chip));
}

static inline c64x_fetched c64x_chip_fetch(c64x_chip *chip, uint32_t address)
{
    return c64x_fetch(&chip->record, address, C64X_CHIP_LENT(chip));
}

static inline c64x_answer c64x_chip_l1p_invalidate_block(c64x_chip *chip, uint32_t base, uint32_t count)
{
    return c64x_l1p_invalidate_block(&chip->record, base, count, C64X_CHIP_LENT(chip));
}

static inline c64x_answer c64x_chip_l1p_invalidate_all(c64x_chip *chip)
{
    return c64x_l1p_invalidate_all(&chip->record, C64X_CHIP_LENT(chip));
}

static inline c64x_answer c64x_chip_l2_writeback_all(c64x_chip *chip)
{
    return c64x_l2_writeback_all(&chip->record, C64X_CHIP_LENT(chip));
}

static inline c64x_answer c64x_chip_l2_writeback_invalidate_all(c64x_chip *chip)
{
    return c64x_l2_writeback_invalidate_all(&chip->record, C64X_CHIP_LENT(chip));
}

static inline c64x_answer c64x_chip_l2_writeback_block(c64x_chip *chip, uint32_t base, uint32_t count)
{
    return c64x_l2_writeback_block(&chip->record, base, count, C64X_CHIP_LENT(chip));
}

static inline c64x_answer c64x_chip_l2_writeback_invalidate_block(c64x_chip *chip, uint32_t base, uint32_t count)
{
    return c64x_l2_writeback_invalidate_block(&chip->record, base, count, C64X_CHIP_LENT(chip));
}

static inline c64x_answer c64x_chip_l2_invalidate_block(c64x_chip *chip, uint32_t base, uint32_t count)
{
    return c64x_l2_invalidate_block(&chip->record, base, count, C64X_CHIP_LENT(chip));
}

static inline c64x_answer c64x_chip_l1d_writeback_invalidate_block(c64x_chip *chip, uint32_t base, uint32_t count)
{
    return c64x_l1d_writeback_invalidate_block(&chip->record, base, count, C64X_CHIP_LENT(chip));
}

static inline c64x_answer c64x_chip_l1d_invalidate_block(c64x_chip *chip, uint32_t base, uint32_t count)
{
    return c64x_l1d_invalidate_block(&chip->record, base, count, C64X_CHIP_LENT(chip));
}

static inline c64x_answer c64x_chip_l1d_invalidate_all(c64x_chip *chip)
{
    return c64x_l1d_invalidate_all(&chip->record, C64X_CHIP_LENT(chip));
}

static inline c64x_answer c64x_chip_change_mode(c64x_chip *chip, uint32_t mode)
{
    return c64x_change_mode(&chip->record, mode, C64X_CHIP_LENT(chip));
}

static inline c64x_answer c64x_chip_change_mar(c64x_chip *chip, uint32_t mar, uint32_t bit)
{
    return c64x_change_mar(&chip->record, mar, bit, C64X_CHIP_LENT(chip));
}

static inline c64x_answer c64x_chip_freeze(c64x_chip *chip, uint32_t frozen)
{
    return c64x_freeze(&chip->record, frozen, C64X_CHIP_LENT(chip));
}

static inline c64x_answer c64x_chip_transfer_in(c64x_chip *chip, uint32_t address, const uint8_t *buffer, size_t length)
{
    return c64x_transfer_in(&chip->record, address, buffer, length, C64X_CHIP_LENT(chip));
}

static inline c64x_answer c64x_chip_transfer_out(c64x_chip *chip, uint32_t address, uint8_t *buffer, size_t length)
{
    return c64x_transfer_out(&chip->record, address, buffer, length, C64X_CHIP_LENT(chip));
}

static inline c64x_framed c64x_chip_frame(c64x_chip *chip, uint8_t turn, const uint8_t *pixels, size_t length)
{
    return c64x_frame(&chip->record, turn, pixels, length, C64X_CHIP_LENT(chip));
}

static inline c64x_ran c64x_chip_run(c64x_chip *chip, const uint8_t *trace, size_t trace_len, uint8_t *answers,
                                     size_t answers_len)
{
    return c64x_run(&chip->record, trace, trace_len, C64X_CHIP_LENT(chip), answers, answers_len);
}

/* How many lines L1P holds. */
static inline uint32_t c64x_chip_l1p_lines(const c64x_chip *chip)
{
    uint32_t held = 0;
    int set;
    for (set = 0; set < C64X_L1P_SETS; set++)
        held += chip->record.l1p[set].lines[0].valid != 0;
    return held;
}

/* The trace of a load for a chip with this one's external memory, to be run on it. */
static inline c64x_load c64x_chip_load_trace(const c64x_chip *chip, uint32_t seed, uint64_t accesses, uint8_t *out,
                                             size_t out_len)
{
    return c64x_load_trace(seed, chip->record.extlen, accesses, out, out_len);
}

/* The codes of a trace. */
enum {
    C64X_CODE_READ = 0,
    C64X_CODE_WRITE = 1,
    C64X_CODE_L2_WRITEBACK_ALL = 2,
    C64X_CODE_L2_WRITEBACK_INVALIDATE_ALL = 3,
    C64X_CODE_L2_WRITEBACK_BLOCK = 4,
    C64X_CODE_L2_WRITEBACK_INVALIDATE_BLOCK = 5,
    C64X_CODE_L2_INVALIDATE_BLOCK = 6,
    C64X_CODE_L1D_WRITEBACK_INVALIDATE_BLOCK = 7,
    C64X_CODE_L1D_INVALIDATE_BLOCK = 8,
    C64X_CODE_L1D_INVALIDATE_ALL = 9,
    C64X_CODE_MODE = 10,
    C64X_CODE_MAR = 11,
    C64X_CODE_FREEZE = 12
};

/* A trace that is being written: where it goes, how many bytes there are, and how many are written already. */
typedef struct {
    uint8_t *out;
    size_t out_len;
    size_t at;
} c64x_trace_writer;

static inline void c64x_trace_start(c64x_trace_writer *writer, uint8_t *out, size_t out_len)
{
    writer->out = out;
    writer->out_len = out_len;
    writer->at = 0;
}

/* Puts one more command behind those that are written. Returns 0, or 11 or 16, and then nothing has changed. */
static inline uint8_t c64x_trace_put(c64x_trace_writer *writer, uint32_t code, uint64_t first, uint64_t second,
                                     uint64_t value)
{
    c64x_put put = c64x_put_command(writer->out, writer->out_len, writer->at, code, first, second, value);
    writer->at = put.at;
    return put.number;
}

/*
 * Answer number `index` of a run, counted from 0, out of the answer bytes. They do not tell what an access put out and
 * moved: both kinds are C64X_LEFT_NONE and both counts 0 here, whatever it did.
 */
static inline c64x_answer c64x_answer_at(const uint8_t *answers, size_t index)
{
    const uint8_t *bytes = answers + index * C64X_ANSWER_BYTES;
    c64x_answer answer;
    int i;
    answer.number = bytes[0];
    answer.server = bytes[1];
    answer.l1d_left.address = answer.l2_left.address = 0;
    answer.l1d_left.kind = answer.l2_left.kind = C64X_LEFT_NONE;
    answer.external_read = answer.external_written = 0;
    answer.value = 0;
    for (i = C64X_ANSWER_BYTES - 1; i >= 2; i--)
        answer.value = answer.value << 8 | bytes[i];
    return answer;
}

static inline uint8_t c64x_chip_view(const c64x_chip *chip, uint32_t address, uint8_t *seen, size_t seen_len)
{
    return c64x_view(&chip->record, address, chip->l2, chip->l2_len, chip->ext, chip->ext_len, seen, seen_len);
}

static inline uint8_t c64x_chip_view_number(const c64x_chip *chip, uint32_t address)
{
    return c64x_view_number(&chip->record, address, chip->l2, chip->l2_len, chip->ext, chip->ext_len);
}

#undef C64X_CHIP_LENT

#endif
