/*
 * Every call of include/c64x_chip.h, on cases whose outcome the papers give: the worked example, C5, C6, C8, C9 and
 * C10, what each cache command does to a dirty line and L2's to lines that L1D alone holds, each number of the refusal
 * table with nothing changed, and short runs at the ends of each length; a frozen L1D; which lines accesses put out,
 * and the bytes of external memory that they move; non-aligned accesses; transfers of SRAM and of external memory, and
 * of a place that the CPU shares; frames of the camera; program fetches, and what takes lines out of L1P; the trace of
 * the worked example, C3 and C4 are written through c64x_put_command; a load by hand; after these the counts of dirty
 * lines. It is compiled as C and as C++. Prints how many checks passed; exit status 1 where one failed.
 */
#include <stdio.h>
#include <string.h>

#include "c64x_chip.h"

#define EXT C64X_EXTERNAL_BASE

static uint8_t l1d[C64X_L1D_BYTES], l2[65536], ext[65536], l1p[C64X_L1P_BYTES];
static uint8_t l1d_before[C64X_L1D_BYTES], l2_before[65536], ext_before[65536], l1p_before[C64X_L1P_BYTES];
static c64x_chip chip, chip_before;
static int passed, failed;

#define CHECK(fact) check((fact) != 0, #fact, __LINE__)

static void check(int holds, const char *fact, int line)
{
    if (holds) {
        passed++;
    } else {
        printf("chip: line %d: %s does not hold\n", line, fact);
        failed++;
    }
}

static int is(c64x_answer answer, unsigned number, unsigned server, uint64_t value)
{
    return answer.number == number && answer.server == server && answer.value == value;
}

static int left_is(c64x_left left, unsigned kind, uint32_t address)
{
    return left.kind == kind && left.address == address;
}

/* No way was chosen in either cache, and so many bytes of external memory were read and written. */
static int moved(c64x_answer answer, unsigned read, unsigned written)
{
    return left_is(answer.l1d_left, C64X_LEFT_NONE, 0) && left_is(answer.l2_left, C64X_LEFT_NONE, 0) &&
           answer.external_read == read && answer.external_written == written;
}

static int done(c64x_answer answer)
{
    return is(answer, C64X_ACCEPTED, C64X_SERVER_NONE, 0) && moved(answer, 0, 0);
}

/* The record says that so many lines are dirty in L1D and in L2, and so many are. */
static int dirty_are(unsigned in_l1d, unsigned in_l2)
{
    unsigned l1d_marks = 0, l2_marks = 0;
    for (int set = 0; set < C64X_L1D_SETS; set++)
        for (int way = 0; way < C64X_L1D_WAYS; way++)
            l1d_marks += chip.record.l1d[set].lines[way].dirty;
    for (int set = 0; set < C64X_L2_SETS; set++)
        for (int way = 0; way < C64X_L2_WAYS; way++)
            l2_marks += chip.record.l2[set].lines[way].dirty;
    return chip.record.dirty_l1d == in_l1d && chip.record.dirty_l2 == in_l2 && l1d_marks == in_l1d && l2_marks == in_l2;
}

/* A chip after reset whose external memory is zero. */
static void start(size_t l2_len)
{
    memset(l1d, 1, sizeof l1d);
    memset(l2, 2, sizeof l2);
    memset(ext, 0, sizeof ext);
    memset(l1p, 3, sizeof l1p);
    CHECK(done(c64x_chip_start(&chip, l1d, sizeof l1d, l2, l2_len, ext, sizeof ext, l1p, sizeof l1p)));
    CHECK(dirty_are(0, 0));
}

static void keep(void)
{
    memcpy(&chip_before, &chip, sizeof chip);
    memcpy(l1d_before, l1d, sizeof l1d);
    memcpy(l2_before, l2, sizeof l2);
    memcpy(ext_before, ext, sizeof ext);
    memcpy(l1p_before, l1p, sizeof l1p);
}

/* No byte has changed since `keep`, padding included. */
static int kept(void)
{
    return memcmp(&chip_before, &chip, sizeof chip) == 0 && memcmp(l1d_before, l1d, sizeof l1d) == 0 &&
           memcmp(l2_before, l2, sizeof l2) == 0 && memcmp(ext_before, ext, sizeof ext) == 0 &&
           memcmp(l1p_before, l1p, sizeof l1p) == 0;
}

static int refused(c64x_answer answer, unsigned number)
{
    return is(answer, number, C64X_SERVER_NONE, 0) && moved(answer, 0, 0) && kept();
}

/* The line of L1D, or of L2, with this address; NULL if there is none. */
static const c64x_line *l1d_line(uint32_t address)
{
    for (int set = 0; set < C64X_L1D_SETS; set++)
        for (int way = 0; way < C64X_L1D_WAYS; way++)
            if (chip.record.l1d[set].lines[way].valid && chip.record.l1d[set].lines[way].address == address)
                return &chip.record.l1d[set].lines[way];
    return NULL;
}

static const c64x_line *l2_line(uint32_t address)
{
    for (int set = 0; set < C64X_L2_SETS; set++)
        for (int way = 0; way < C64X_L2_WAYS; way++)
            if (chip.record.l2[set].lines[way].valid && chip.record.l2[set].lines[way].address == address)
                return &chip.record.l2[set].lines[way];
    return NULL;
}

static int clean(const c64x_line *line)
{
    return line != NULL && !line->dirty;
}

static int dirty(const c64x_line *line)
{
    return line != NULL && line->dirty;
}

static void worked_example(void)
{
    static const uint8_t trace[] = {0x0B, 0x80, 0x01, 0x01, 0x01, 0x04, 0x80, 0x80, 0x80, 0x80, 0x08, 0x05, 0x00, 0x04,
                                    0x80, 0x80, 0x80, 0x80, 0x08, 0x00, 0x04, 0x80, 0x80, 0x80, 0x80, 0x08, 0x0A, 0x04};
    uint8_t answers[64];
    start(sizeof l2);
    CHECK(done(c64x_chip_change_mar(&chip, 128, 1)));
    CHECK(is(c64x_chip_write(&chip, 4, EXT, 5), 0, C64X_SERVER_EXTERNAL, 0));
    CHECK(is(c64x_chip_read(&chip, 4, EXT), 0, C64X_SERVER_EXTERNAL, 5));
    CHECK(is(c64x_chip_read(&chip, 4, EXT), 0, C64X_SERVER_L1D, 5));
    CHECK(is(c64x_chip_change_mode(&chip, 4), C64X_REFUSED_MODE, 0, 0));
    start(sizeof l2);
    memset(answers, 0xEE, sizeof answers);
    c64x_ran ran = c64x_chip_run(&chip, trace, sizeof trace, answers, sizeof answers);
    CHECK(ran.consumed == 28 && ran.count == 5 && ran.stop == C64X_ACCEPTED);
    CHECK(is(c64x_answer_at(answers, 0), 0, 0, 0));
    CHECK(is(c64x_answer_at(answers, 1), 0, 4, 0));
    CHECK(is(c64x_answer_at(answers, 2), 0, 4, 5));
    CHECK(is(c64x_answer_at(answers, 3), 0, 1, 5));
    CHECK(is(c64x_answer_at(answers, 4), 8, 0, 0));
    for (size_t i = 50; i < sizeof answers; i++)
        CHECK(answers[i] == 0xEE);
}

static void cases(void)
{
    start(sizeof l2);
    CHECK(c64x_chip_read(&chip, 4, 0x8000FFFC).number == C64X_ACCEPTED);                /* C5 */
    CHECK(c64x_chip_read(&chip, 8, 0x8000FFFC).number == C64X_REFUSED_ALIGNMENT);
    CHECK(c64x_chip_read(&chip, 1, 0x80010000).number == C64X_REFUSED_PLACE);
    CHECK(c64x_chip_write(&chip, 1, 0, 255).number == C64X_ACCEPTED);                   /* C6 */
    CHECK(c64x_chip_write(&chip, 1, 0, 256).number == C64X_REFUSED_VALUE);
    CHECK(done(c64x_chip_l2_writeback_block(&chip, EXT, 65535)));
    start(32768);                                                                       /* C8 */
    CHECK(done(c64x_chip_change_mode(&chip, 1)));
    CHECK(c64x_chip_read(&chip, 1, 0).number == C64X_REFUSED_PLACE);
    start(sizeof l2);                                                                   /* C9 */
    CHECK(done(c64x_chip_change_mar(&chip, 128, 1)));
    CHECK(c64x_chip_read(&chip, 1, 0x80000000).server == C64X_SERVER_EXTERNAL);
    CHECK(c64x_chip_read(&chip, 1, 0x80002000).server == C64X_SERVER_EXTERNAL);
    CHECK(c64x_chip_read(&chip, 1, 0x80000000).server == C64X_SERVER_L1D);
    CHECK(c64x_chip_read(&chip, 1, 0x80004000).server == C64X_SERVER_EXTERNAL);
    CHECK(l1d_line(0x80000000) && !l1d_line(0x80002000) && l1d_line(0x80004000));
    CHECK(c64x_chip_write(&chip, 1, 0x80000000, 9).server == C64X_SERVER_L1D);          /* C10, as 02 turns it */
    CHECK(dirty(l1d_line(0x80000000)) && ext[0] == 0);
    CHECK(done(c64x_chip_l2_writeback_invalidate_all(&chip)));
    CHECK(!l1d_line(0x80000000) && ext[0] == 9);
}

/* A word of SRAM and one of external memory are 6 in L1D, each behind it 5; so is the word 64 bytes on. */
static void dirty_lines(unsigned mode)
{
    static const uint32_t words[] = {64, 128, EXT + 64, EXT + 128};
    start(sizeof l2);
    CHECK(done(c64x_chip_change_mar(&chip, 128, 1)));
    CHECK(done(c64x_chip_change_mode(&chip, mode)));
    for (size_t i = 0; i < sizeof words / sizeof words[0]; i++) {
        CHECK(c64x_chip_write(&chip, 4, words[i], 5).number == C64X_ACCEPTED);
        CHECK(c64x_chip_read(&chip, 4, words[i]).value == 5);
        CHECK(c64x_chip_write(&chip, 4, words[i], 6).server == C64X_SERVER_L1D);
    }
    CHECK(l2[64] == 5 && l2[128] == 5 && ext[64] == (mode ? 0 : 5));
    CHECK(dirty_are(4, mode ? 2 : 0));
}

/* L2 commands reach all of L1D, in every mode and for SRAM too. */
static void l2_commands(void)
{
    for (unsigned mode = 0; mode < 2; mode++) {
        dirty_lines(mode);
        CHECK(done(c64x_chip_l2_writeback_all(&chip)));
        CHECK(!l1d_line(64) && !l1d_line(128) && !l1d_line(EXT + 64) && !l1d_line(EXT + 128));
        CHECK(l2[64] == 6 && l2[128] == 6 && ext[64] == 6 && ext[128] == 6);
        CHECK(mode ? clean(l2_line(EXT)) : !l2_line(EXT));
        CHECK(dirty_are(0, 0));
        dirty_lines(mode);
        CHECK(done(c64x_chip_l2_writeback_invalidate_all(&chip)));
        CHECK(!l1d_line(64) && !l1d_line(128) && !l1d_line(EXT + 64) && !l1d_line(EXT + 128) && !l2_line(EXT));
        CHECK(l2[64] == 6 && l2[128] == 6 && ext[64] == 6 && ext[128] == 6);
        /* a line of the block alone; in mode 1 an L2 line brings its other half, which is not here */
        dirty_lines(mode);
        CHECK(done(c64x_chip_l2_writeback_block(&chip, 64, 16)));
        CHECK(!l1d_line(64) && dirty(l1d_line(128)) && l2[64] == 6 && l2[128] == 5);
        CHECK(done(c64x_chip_l2_writeback_invalidate_block(&chip, 128, 1)));
        CHECK(!l1d_line(128) && l2[128] == 6 && dirty(l1d_line(EXT + 64)));
        CHECK(dirty_are(2, mode ? 2 : 0));
        CHECK(done(c64x_chip_l2_writeback_invalidate_block(&chip, EXT + 64, 1)));
        CHECK(!l1d_line(EXT + 64) && dirty(l1d_line(EXT + 128)) && ext[64] == 6);
        CHECK(dirty_are(1, mode ? 1 : 0));
        dirty_lines(mode);
        CHECK(done(c64x_chip_l2_invalidate_block(&chip, 64, 17)));
        CHECK(!l1d_line(64) && !l1d_line(128) && l2[64] == 5 && l2[128] == 5);
        CHECK(done(c64x_chip_l2_invalidate_block(&chip, EXT + 64, 1)));
        CHECK(!l1d_line(EXT + 64) && dirty(l1d_line(EXT + 128)) && ext[64] == (mode ? 0 : 5));
        CHECK(dirty_are(1, mode ? 1 : 0));
    }
}

/* In mode 1 the word at 80000000h is 5 in external memory, 6 in the L2 line and 7 in L1D. */
static void three_levels(void)
{
    start(sizeof l2);
    CHECK(c64x_chip_write(&chip, 4, EXT, 5).server == C64X_SERVER_EXTERNAL);
    CHECK(done(c64x_chip_change_mar(&chip, 128, 1)));
    CHECK(done(c64x_chip_change_mode(&chip, 1)));
    CHECK(is(c64x_chip_write(&chip, 4, EXT, 6), 0, C64X_SERVER_EXTERNAL, 0));
    CHECK(is(c64x_chip_read(&chip, 4, EXT), 0, C64X_SERVER_L2_CACHE, 6));
    CHECK(is(c64x_chip_write(&chip, 4, EXT, 7), 0, C64X_SERVER_L1D, 0));
    CHECK(dirty(l1d_line(EXT)) && dirty(l2_line(EXT)) && ext[0] == 5);
    CHECK(dirty_are(1, 1));
    CHECK(c64x_chip_write(&chip, 4, EXT, 7).server == C64X_SERVER_L1D && dirty_are(1, 1));
}

static void commands(void)
{
    uint8_t seen[C64X_VIEW_BYTES + 1];
    three_levels();
    seen[C64X_VIEW_BYTES] = 0xEE;
    CHECK(c64x_chip_view(&chip, EXT, seen, sizeof seen) == C64X_ACCEPTED);
    CHECK(seen[0] == 5 && seen[1] == 0 && seen[C64X_VIEW_BYTES] == 0xEE);
    CHECK(c64x_chip_view_number(&chip, EXT) == C64X_ACCEPTED);
    CHECK(done(c64x_chip_l2_writeback_all(&chip)));
    CHECK(!l1d_line(EXT) && clean(l2_line(EXT)) && ext[0] == 7 && dirty_are(0, 0));
    three_levels();
    CHECK(done(c64x_chip_l2_writeback_invalidate_all(&chip)));
    CHECK(!l1d_line(EXT) && !l2_line(EXT) && ext[0] == 7 && dirty_are(0, 0));
    three_levels();
    CHECK(done(c64x_chip_l2_writeback_block(&chip, EXT, 1)));
    CHECK(!l1d_line(EXT) && clean(l2_line(EXT)) && ext[0] == 7 && dirty_are(0, 0));
    three_levels();
    CHECK(done(c64x_chip_l2_writeback_invalidate_block(&chip, EXT, 1)));
    CHECK(!l1d_line(EXT) && !l2_line(EXT) && ext[0] == 7 && dirty_are(0, 0));
    three_levels();
    CHECK(done(c64x_chip_l2_invalidate_block(&chip, EXT, 1)));
    CHECK(!l1d_line(EXT) && !l2_line(EXT) && ext[0] == 5 && dirty_are(0, 0));
    three_levels();
    CHECK(done(c64x_chip_l1d_writeback_invalidate_block(&chip, EXT, 1)));
    CHECK(!l1d_line(EXT) && dirty(l2_line(EXT)) && ext[0] == 5 && dirty_are(0, 1));
    CHECK(is(c64x_chip_read(&chip, 4, EXT), 0, C64X_SERVER_L2_CACHE, 7));
    three_levels();
    CHECK(done(c64x_chip_l1d_invalidate_block(&chip, EXT, 1)));
    CHECK(!l1d_line(EXT) && dirty(l2_line(EXT)) && ext[0] == 5 && dirty_are(0, 1));
    CHECK(is(c64x_chip_read(&chip, 4, EXT), 0, C64X_SERVER_L2_CACHE, 6));
    three_levels();
    CHECK(done(c64x_chip_l1d_invalidate_all(&chip)));
    CHECK(!l1d_line(EXT) && dirty(l2_line(EXT)) && ext[0] == 5 && dirty_are(0, 1));
    three_levels();
    CHECK(done(c64x_chip_change_mode(&chip, 0)));
    CHECK(!l1d_line(EXT) && !l2_line(EXT) && ext[0] == 7 && chip.record.mode == 0 && dirty_are(0, 0));
    CHECK(done(c64x_chip_change_mar(&chip, 128, 0)));
    CHECK(chip.record.mar128 == 0);
    three_levels();
    CHECK(done(c64x_chip_fresh(&chip)));
    CHECK(!l1d_line(EXT) && !l2_line(EXT) && ext[0] == 5 && chip.record.mode == 0 && chip.record.mar128 == 0);
    CHECK(dirty_are(0, 0));
}

/* The order of use of an L1D set is this one. */
static int order_is(unsigned set, unsigned first, unsigned second)
{
    return chip.record.l1d[set].order.first == first && chip.record.l1d[set].order.second == second;
}

/* A frozen L1D: hits change no order, a write hit makes its line dirty, a miss fills nothing, a mode change keeps the
   freeze, a fresh start thaws; then code 12 in a trace. */
static void frozen(void)
{
    static const uint8_t trace[] = {12, 1, 0, 1, 0, 12, 2, 12, 0, 0, 1, 0};
    uint8_t answers[sizeof trace * C64X_ANSWER_BYTES];
    for (unsigned mode = 0; mode < 2; mode++) {
        start(sizeof l2);
        for (size_t i = 0; i < sizeof ext; i++)
            ext[i] = (uint8_t)(i / 64);
        CHECK(chip.record.frozen == 0);
        CHECK(done(c64x_chip_change_mar(&chip, 128, 1)));
        CHECK(done(c64x_chip_change_mode(&chip, mode)));
        CHECK(c64x_chip_read(&chip, 1, EXT).server == C64X_SERVER_EXTERNAL);
        CHECK(c64x_chip_read(&chip, 1, EXT + 0x2000).server == C64X_SERVER_EXTERNAL);
        CHECK(order_is(0, 1, 0));
        CHECK(done(c64x_chip_freeze(&chip, 1)));
        CHECK(chip.record.frozen == 1);
        CHECK(is(c64x_chip_read(&chip, 1, EXT), 0, C64X_SERVER_L1D, 0) && order_is(0, 1, 0));
        CHECK(is(c64x_chip_write(&chip, 1, EXT, 7), 0, C64X_SERVER_L1D, 0) && order_is(0, 1, 0));
        CHECK(dirty(l1d_line(EXT)) && ext[0] == 0 && dirty_are(1, 0));
        /* from external memory; the second time from where it stands now, and not from L1D */
        CHECK(is(c64x_chip_read(&chip, 1, EXT + 0x4041), 0, C64X_SERVER_EXTERNAL, 1));
        CHECK(is(c64x_chip_read(&chip, 1, EXT + 0x4041), 0, mode ? C64X_SERVER_L2_CACHE : C64X_SERVER_EXTERNAL, 1));
        CHECK(is(c64x_chip_read(&chip, 1, EXT + 0x4000), 0, mode ? C64X_SERVER_L2_CACHE : C64X_SERVER_EXTERNAL, 0));
        CHECK(!l1d_line(EXT + 0x4040) && !l1d_line(EXT + 0x4000) && l1d_line(EXT) && l1d_line(EXT + 0x2000));
        CHECK(mode ? clean(l2_line(EXT + 0x4000)) : !l2_line(EXT + 0x4000));
        CHECK(is(c64x_chip_read(&chip, 1, 64), 0, C64X_SERVER_SRAM, 0) && !l1d_line(64));
        CHECK(is(c64x_chip_write(&chip, 1, 64, 9), 0, C64X_SERVER_SRAM, 0) && l2[64] == 9);
        /* in mode 1 the line of 80000000h leaves L2 for the fifth of its set, and takes its dirty half with it */
        CHECK(c64x_chip_read(&chip, 1, EXT + 0x6000).server == C64X_SERVER_EXTERNAL);
        CHECK(c64x_chip_read(&chip, 1, EXT + 0x8000).server == C64X_SERVER_EXTERNAL);
        CHECK(mode ? !l1d_line(EXT) && !l2_line(EXT) && ext[0] == 7 : dirty(l1d_line(EXT)) && ext[0] == 0);
        CHECK(mode ? dirty_are(0, 0) : dirty_are(1, 0));
        CHECK(clean(l1d_line(EXT + 0x2000)) && order_is(0, 1, 0));
        CHECK(done(c64x_chip_change_mode(&chip, 1 - mode)));
        CHECK(chip.record.frozen == 1 && ext[0] == 7 && !l1d_line(EXT + 0x2000));
        CHECK(c64x_chip_read(&chip, 1, EXT).value == 7 && !l1d_line(EXT));
        CHECK(done(c64x_chip_freeze(&chip, 0)));
        CHECK(chip.record.frozen == 0);
        CHECK(c64x_chip_read(&chip, 1, EXT).value == 7 && clean(l1d_line(EXT)));
        CHECK(done(c64x_chip_freeze(&chip, 1)));
        CHECK(done(c64x_chip_fresh(&chip)));
        CHECK(chip.record.frozen == 0);
    }
    start(sizeof l2);
    c64x_ran ran = c64x_chip_run(&chip, trace, sizeof trace, answers, sizeof answers);
    CHECK(ran.consumed == sizeof trace && ran.count == 5 && ran.stop == C64X_ACCEPTED);
    CHECK(done(c64x_answer_at(answers, 0)));
    CHECK(is(c64x_answer_at(answers, 1), 0, C64X_SERVER_SRAM, 0));
    CHECK(is(c64x_answer_at(answers, 2), C64X_REFUSED_FREEZE, 0, 0));
    CHECK(done(c64x_answer_at(answers, 3)));
    CHECK(is(c64x_answer_at(answers, 4), 0, C64X_SERVER_SRAM, 0));
    CHECK(clean(l1d_line(0)) && chip.record.frozen == 0);
}

/* What an accepted read or write reports: what left L1D and L2, by kind and address, and the bytes of external memory
   that were read and written. */
static int reports(c64x_answer answer, unsigned l1d_kind, uint32_t l1d_address, unsigned l2_kind, uint32_t l2_address,
                   unsigned read, unsigned written)
{
    return answer.number == C64X_ACCEPTED && left_is(answer.l1d_left, l1d_kind, l1d_address) &&
           left_is(answer.l2_left, l2_kind, l2_address) && answer.external_read == read &&
           answer.external_written == written;
}

/* A chip with MAR 128 on, in a mode. */
static void cached(unsigned mode)
{
    start(sizeof l2);
    CHECK(done(c64x_chip_change_mar(&chip, 128, 1)));
    CHECK(done(c64x_chip_change_mode(&chip, mode)));
}

static c64x_answer read_word(uint32_t address)
{
    return c64x_chip_read(&chip, 4, address);
}

static c64x_answer write_word(uint32_t address)
{
    return c64x_chip_write(&chip, 4, address, 7);
}

/* A line comes from external memory, and is made dirty in L1D. */
static void dirty_line(uint32_t address)
{
    CHECK(read_word(address).server == C64X_SERVER_EXTERNAL);
    CHECK(moved(write_word(address), 0, 0) && dirty(l1d_line(address)));
}

/* Lines 8,192 bytes apart lie in one set of L1D, and in mode 1 in one of L2. */
enum { APART = 8192 };

/* Three lines of one L1D set in mode 0: empty ways, a clean line, a dirty one; hits; then lines of SRAM. */
static void put_out_of_l1d(void)
{
    cached(0);
    CHECK(reports(read_word(EXT), C64X_LEFT_EMPTY, 0, C64X_LEFT_NONE, 0, 64, 0));
    CHECK(reports(read_word(EXT + APART + 4), C64X_LEFT_EMPTY, 0, C64X_LEFT_NONE, 0, 64, 0));
    CHECK(reports(read_word(EXT + 2 * APART + 60), C64X_LEFT_CLEAN, EXT, C64X_LEFT_NONE, 0, 64, 0));
    CHECK(moved(read_word(EXT + APART), 0, 0) && moved(write_word(EXT + APART + 60), 0, 0));
    CHECK(reports(read_word(EXT), C64X_LEFT_CLEAN, EXT + 2 * APART, C64X_LEFT_NONE, 0, 64, 0));
    CHECK(ext[APART + 60] == 0);
    CHECK(reports(read_word(EXT + 2 * APART), C64X_LEFT_DIRTY, EXT + APART, C64X_LEFT_NONE, 0, 64, 64));
    CHECK(ext[APART + 60] == 7);
    /* a write that L1D does not hold goes to external memory itself, and L1D is left alone */
    CHECK(moved(write_word(EXT + 3 * APART), 0, 4) && moved(c64x_chip_write(&chip, 1, EXT + 3 * APART, 1), 0, 1));
    for (unsigned mode = 0; mode < 2; mode++) {
        cached(mode);
        CHECK(reports(read_word(64), C64X_LEFT_EMPTY, 0, C64X_LEFT_NONE, 0, 0, 0));
        CHECK(moved(write_word(64), 0, 0) && moved(write_word(64 + APART), 0, 0));
        CHECK(reports(read_word(64 + APART), C64X_LEFT_EMPTY, 0, C64X_LEFT_NONE, 0, 0, 0));
        CHECK(reports(read_word(64 + 2 * APART), C64X_LEFT_DIRTY, 64, C64X_LEFT_NONE, 0, 0, 0) && l2[64] == 7);
        CHECK(reports(read_word(EXT + 64), C64X_LEFT_CLEAN, 64 + APART, mode ? C64X_LEFT_EMPTY : C64X_LEFT_NONE, 0,
                      mode ? 128 : 64, 0));
    }
}

/* Lines of one L2 set in mode 1: empty ways; a line that is dirty by a half alone; by itself; one that is clean; a line
   that leaves L1D and L2 at once. */
static void put_out_of_l2(void)
{
    for (uint32_t half = 0; half <= 64; half += 64) {
        cached(1);
        CHECK(reports(read_word(EXT + half), C64X_LEFT_EMPTY, 0, C64X_LEFT_EMPTY, 0, 128, 0));
        CHECK(moved(write_word(EXT + half), 0, 0));
        CHECK(dirty(l1d_line(EXT + half)) && clean(l2_line(EXT)));
        CHECK(reports(write_word(EXT + APART), C64X_LEFT_NONE, 0, C64X_LEFT_EMPTY, 0, 128, 0));
        CHECK(moved(write_word(EXT + APART + 64), 0, 0));
        CHECK(reports(read_word(EXT + 2 * APART), C64X_LEFT_EMPTY, 0, C64X_LEFT_EMPTY, 0, 128, 0));
        CHECK(reports(write_word(EXT + 3 * APART), C64X_LEFT_NONE, 0, C64X_LEFT_EMPTY, 0, 128, 0));
        CHECK(dirty(l1d_line(EXT + half)) && clean(l2_line(EXT)) && ext[half] == 0);
        CHECK(reports(write_word(EXT + 4 * APART), C64X_LEFT_NONE, 0, C64X_LEFT_DIRTY, EXT, 128, 128));
        CHECK(!l1d_line(EXT + half) && ext[half] == 7);
        /* dirty by itself, then one that only was read */
        CHECK(reports(write_word(EXT + 5 * APART), C64X_LEFT_NONE, 0, C64X_LEFT_DIRTY, EXT + APART, 128, 128));
        CHECK(reports(write_word(EXT), C64X_LEFT_NONE, 0, C64X_LEFT_CLEAN, EXT + 2 * APART, 128, 0));
        CHECK(!l1d_line(EXT + 2 * APART));
    }
    /* the dirty line that leaves L1D goes into L2, which is not external memory */
    cached(1);
    for (uint32_t i = 0; i < 2; i++)
        dirty_line(EXT + i * APART);
    CHECK(reports(read_word(EXT + 2 * APART), C64X_LEFT_DIRTY, EXT, C64X_LEFT_EMPTY, 0, 128, 0));
    CHECK(reports(read_word(EXT), C64X_LEFT_DIRTY, EXT + APART, C64X_LEFT_NONE, 0, 0, 0));
    CHECK(reports(read_word(EXT + 3 * APART), C64X_LEFT_CLEAN, EXT + 2 * APART, C64X_LEFT_EMPTY, 0, 128, 0));
    /* five lines for four ways: the line that leaves L2 takes a clean half with it, which is told nowhere */
    CHECK(reports(read_word(EXT + 4 * APART), C64X_LEFT_CLEAN, EXT, C64X_LEFT_DIRTY, EXT + APART, 128, 128));
    CHECK(done(c64x_chip_l2_writeback_all(&chip)));
    /* what a read puts out of L1D makes the L2 line dirty that it puts out: 128 bytes, once */
    cached(1);
    dirty_line(EXT);
    for (uint32_t i = 1; i < 4; i++)
        CHECK(reports(write_word(EXT + i * APART), C64X_LEFT_NONE, 0, C64X_LEFT_EMPTY, 0, 128, 0));
    CHECK(reports(read_word(0), C64X_LEFT_EMPTY, 0, C64X_LEFT_NONE, 0, 0, 0));
    CHECK(reports(read_word(EXT + 4 * APART), C64X_LEFT_DIRTY, EXT, C64X_LEFT_DIRTY, EXT, 128, 128) && ext[0] == 7);
}

/* A frozen L1D chooses no way; with MAR bit 0 neither cache does. A run's answers tell none of it. */
static void put_out_of_neither(void)
{
    static const uint8_t trace[] = {0, 4, 0x80, 0x80, 0x80, 0x80, 0x08, 1, 1, 0x80, 0x80, 0x81, 0x80, 0x08, 5};
    uint8_t answers[2 * C64X_ANSWER_BYTES];
    for (unsigned mode = 0; mode < 2; mode++) {
        start(sizeof l2);
        CHECK(done(c64x_chip_change_mode(&chip, mode)));
        for (uint32_t size = 1; size <= 8; size *= 2) {
            CHECK(moved(c64x_chip_read(&chip, size, EXT + 8), size, 0));
            CHECK(moved(c64x_chip_write(&chip, size, EXT + 8, 1), 0, size));
        }
        cached(mode);
        for (uint32_t i = 0; i < 2; i++)
            dirty_line(EXT + i * APART);
        CHECK(done(c64x_chip_freeze(&chip, 1)));
        CHECK(moved(read_word(EXT), 0, 0) && moved(write_word(EXT), 0, 0) && moved(read_word(64), 0, 0));
        if (mode == 0) {
            for (uint32_t size = 1; size <= 8; size *= 2)
                CHECK(moved(c64x_chip_read(&chip, size, EXT + 2 * APART), size, 0));
        } else {
            for (uint32_t i = 2; i < 4; i++)
                CHECK(reports(read_word(EXT + i * APART), C64X_LEFT_NONE, 0, C64X_LEFT_EMPTY, 0, 128, 0));
            CHECK(moved(read_word(EXT + 2 * APART), 0, 0));
            CHECK(reports(read_word(EXT + 4 * APART), C64X_LEFT_NONE, 0, C64X_LEFT_DIRTY, EXT, 128, 128));
        }
    }
    cached(1);
    c64x_ran ran = c64x_chip_run(&chip, trace, sizeof trace, answers, sizeof answers);
    CHECK(ran.consumed == sizeof trace && ran.count == 2 && ran.stop == C64X_ACCEPTED);
    CHECK(is(c64x_answer_at(answers, 0), 0, C64X_SERVER_EXTERNAL, 0) && moved(c64x_answer_at(answers, 0), 0, 0));
    CHECK(is(c64x_answer_at(answers, 1), 0, C64X_SERVER_EXTERNAL, 0) && moved(c64x_answer_at(answers, 1), 0, 0));
}

/* A non-aligned access was accepted: the server, the value, and the bytes of external memory; no line is told. */
static int unaligned(c64x_answer answer, unsigned server, uint64_t value, unsigned read, unsigned written)
{
    return is(answer, C64X_ACCEPTED, server, value) && moved(answer, read, written);
}

static c64x_answer read8(uint32_t address)
{
    return c64x_chip_read_unaligned(&chip, 8, address);
}

static c64x_answer write8(uint32_t address, uint64_t value)
{
    return c64x_chip_write_unaligned(&chip, 8, address, value);
}

/* Where 8 bytes from 61 on lie: three in a line and five in the next. */
static int eight_from_61(const uint8_t *memory)
{
    static const uint8_t eight[] = {0x11, 0x22, 0x33, 0x44, 0x55, 0x66, 0x77, 0x88};
    return memory[60] == 0 && memcmp(memory + 61, eight, sizeof eight) == 0 && memory[69] == 0;
}

/* Any address, the lowest byte first; SRAM, external memory past the caches, and across two lines of L1D. */
static void unaligned_anywhere(void)
{
    const uint64_t value = UINT64_C(0x8877665544332211);
    CHECK(C64X_VERSION_MAJOR >= 5);
    start(sizeof l2);
    CHECK(unaligned(write8(61, value), C64X_SERVER_SRAM, 0, 0, 0) && eight_from_61(l2));
    CHECK(unaligned(c64x_chip_read_unaligned(&chip, 4, 62), C64X_SERVER_SRAM, 0x55443322, 0, 0));
    CHECK(clean(l1d_line(0)) && clean(l1d_line(64)));
    CHECK(unaligned(read8(61), C64X_SERVER_L1D, value, 0, 0));
    CHECK(unaligned(c64x_chip_write_unaligned(&chip, 4, 62, UINT32_MAX), C64X_SERVER_L1D, 0, 0, 0));
    CHECK(dirty(l1d_line(0)) && dirty(l1d_line(64)) && dirty_are(2, 0) && eight_from_61(l2));
    CHECK(c64x_chip_read(&chip, 8, 56).value == UINT64_C(0xFFFF110000000000));
    CHECK(c64x_chip_read(&chip, 8, 64).value == UINT64_C(0x000000887766FFFF));
    /* past the caches just the bytes are moved */
    CHECK(unaligned(write8(EXT + 61, value), C64X_SERVER_EXTERNAL, 0, 0, 8) && eight_from_61(ext));
    CHECK(unaligned(read8(EXT + 61), C64X_SERVER_EXTERNAL, value, 8, 0));
    CHECK(unaligned(c64x_chip_read_unaligned(&chip, 4, EXT + 65), C64X_SERVER_EXTERNAL, 0x88776655, 4, 0));
    /* a multiple of the size is an address like any other */
    CHECK(unaligned(read8(EXT + 64), C64X_SERVER_EXTERNAL, UINT64_C(0x8877665544), 8, 0));
    for (unsigned mode = 0; mode < 2; mode++) {
        cached(mode);
        for (size_t i = 0; i < sizeof ext; i++)
            ext[i] = (uint8_t)(i * 7);
        for (uint32_t i = 0; i < 140; i++) {
            uint64_t expected = 0;
            for (uint32_t byte = 8; byte-- > 0;)
                expected = expected << 8 | ext[i + byte];
            CHECK(read8(EXT + i).value == expected);
            CHECK(c64x_chip_read_unaligned(&chip, 4, EXT + i).value == (expected & UINT32_MAX));
        }
        CHECK(dirty_are(0, 0));
    }
}

/* The server is the highest of the bytes', and their counts are added up: in mode 1 two lines of L2, 256 bytes each way
   where two dirty ones leave; in mode 0 two of L1D. */
static void unaligned_across(void)
{
    cached(1);
    CHECK(unaligned(read8(EXT + 60), C64X_SERVER_EXTERNAL, 0, 128, 0));                  /* two halves of one line */
    CHECK(clean(l1d_line(EXT)) && clean(l1d_line(EXT + 64)) && clean(l2_line(EXT)));
    CHECK(unaligned(read8(EXT + 124), C64X_SERVER_EXTERNAL, 0, 128, 0));                 /* L1D, then fetched */
    CHECK(unaligned(read8(EXT + 124), C64X_SERVER_L1D, 0, 0, 0));
    CHECK(done(c64x_chip_l1d_invalidate_block(&chip, EXT + 64, 1)));
    CHECK(unaligned(write8(EXT + 125, 7), C64X_SERVER_L2_CACHE, 0, 0, 0));               /* L2, then L1D */
    CHECK(!l1d_line(EXT + 64) && dirty(l2_line(EXT)) && dirty(l1d_line(EXT + 128)) && dirty_are(1, 1));
    CHECK(unaligned(read8(EXT + 125), C64X_SERVER_L2_CACHE, 7, 0, 0));
    cached(1);
    for (uint32_t i = 0; i < 4; i++)
        CHECK(unaligned(write8(EXT + i * APART + 124, 7), C64X_SERVER_EXTERNAL, 0, 256, 0));
    CHECK(dirty_are(0, 8) && ext[124] == 0);
    CHECK(unaligned(read8(EXT + 4 * APART + 124), C64X_SERVER_EXTERNAL, 0, 256, 256));
    CHECK(!l2_line(EXT) && !l2_line(EXT + 128) && ext[124] == 7 && dirty_are(0, 6));
    CHECK(unaligned(write8(EXT + 5 * APART + 124, 7), C64X_SERVER_EXTERNAL, 0, 256, 256));
    CHECK(unaligned(read8(EXT + 4 * APART + 124), C64X_SERVER_L1D, 0, 0, 0));
    cached(0);
    for (uint32_t i = 0; i < 2; i++) {
        CHECK(unaligned(read8(EXT + i * APART + 60), C64X_SERVER_EXTERNAL, 0, 128, 0));
        CHECK(unaligned(write8(EXT + i * APART + 60, 7), C64X_SERVER_L1D, 0, 0, 0));
    }
    CHECK(unaligned(read8(EXT + 2 * APART + 60), C64X_SERVER_EXTERNAL, 0, 128, 128) && ext[60] == 7);
    CHECK(!l1d_line(EXT) && !l1d_line(EXT + 64) && dirty(l1d_line(EXT + APART)));
    CHECK(order_is(0, 0, 1) && order_is(1, 0, 1));
    CHECK(unaligned(write8(EXT + 3 * APART + 60, 7), C64X_SERVER_EXTERNAL, 0, 0, 8));
    /* frozen: no order changes, and of what L1D does not hold just the bytes come */
    CHECK(done(c64x_chip_freeze(&chip, 1)));
    CHECK(unaligned(read8(EXT + APART + 60), C64X_SERVER_L1D, 7, 0, 0) && order_is(0, 0, 1) && order_is(1, 0, 1));
    CHECK(unaligned(read8(EXT + 3 * APART + 60), C64X_SERVER_EXTERNAL, 7, 8, 0) && !l1d_line(EXT + 3 * APART));
}

/* From the lowest address up: the way of the lower half is chosen before the line that leaves L2 has freed those of its
   own halves, the way of the upper one after it. */
static void unaligned_upwards(void)
{
    cached(1);
    for (uint32_t i = 0; i < 2; i++)
        CHECK(unaligned(read8(EXT + i * APART + 60), C64X_SERVER_EXTERNAL, 0, 128, 0));
    for (uint32_t i = 2; i < 4; i++)
        CHECK(c64x_chip_write(&chip, 1, EXT + i * APART, 7).server == C64X_SERVER_EXTERNAL);
    CHECK(unaligned(read8(EXT + 60), C64X_SERVER_L1D, 0, 0, 0));
    CHECK(unaligned(read8(EXT + 4 * APART + 60), C64X_SERVER_EXTERNAL, 0, 128, 0));
    CHECK(!l2_line(EXT) && !l1d_line(EXT) && !l1d_line(EXT + 64));
    CHECK(chip.record.l1d[0].lines[1].address == EXT + 4 * APART && !chip.record.l1d[0].lines[0].valid);
    CHECK(chip.record.l1d[1].lines[0].address == EXT + 4 * APART + 64 && l1d_line(EXT + APART + 64));
    CHECK(order_is(0, 1, 0) && order_is(1, 0, 1));
}

/* 1, 2, then 3, 5 and 6, never 4: all bytes are checked before one is moved. */
static void unaligned_refusals(void)
{
    static const uint32_t sizes[] = {0, 1, 2, 3, 5, 7, 9, 16, 260, 264, UINT32_MAX};
    static const uint32_t ends[] = {32768, EXT, EXT + 65536};
    three_levels();
    CHECK(unaligned(read8(32760), C64X_SERVER_SRAM, 0, 0, 0));
    CHECK(unaligned(write8(EXT + 65528, UINT64_MAX), C64X_SERVER_EXTERNAL, 0, 128, 0));
    keep();
    for (size_t i = 0; i < sizeof sizes / sizeof sizes[0]; i++) {
        CHECK(refused(c64x_chip_read_unaligned(&chip, sizes[i], EXT), C64X_REFUSED_SIZE));
        CHECK(refused(c64x_chip_write_unaligned(&chip, sizes[i], EXT + 65535, UINT64_MAX), C64X_REFUSED_SIZE));
    }
    for (uint32_t size = 4; size <= 8; size += 4) {
        for (size_t i = 0; i < sizeof ends / sizeof ends[0]; i++)
            for (uint32_t back = 1; back < size; back++) {
                CHECK(refused(c64x_chip_read_unaligned(&chip, size, ends[i] - back), C64X_REFUSED_PLACE));
                CHECK(refused(c64x_chip_write_unaligned(&chip, size, ends[i] - back, 1), C64X_REFUSED_PLACE));
            }
        for (uint32_t back = 1; back <= size; back++) {
            CHECK(refused(c64x_chip_read_unaligned(&chip, size, 0 - back), C64X_REFUSED_PLACE));
            CHECK(refused(c64x_chip_write_unaligned(&chip, size, 0 - back, 1), C64X_REFUSED_PLACE));
        }
    }
    CHECK(refused(c64x_chip_write_unaligned(&chip, 4, EXT + 65533, UINT64_MAX), C64X_REFUSED_PLACE));
    CHECK(refused(c64x_chip_write_unaligned(&chip, 4, EXT + 1, UINT64_C(0x100000000)), C64X_REFUSED_VALUE));
    chip.record.l1d[5].order.first = 1;
    chip.record.l1d[5].order.second = 1;
    keep();
    CHECK(refused(c64x_chip_read_unaligned(&chip, 1, EXT), C64X_REFUSED_RECORD));
    CHECK(refused(c64x_chip_write_unaligned(&chip, 4, UINT32_MAX, UINT64_MAX), C64X_REFUSED_RECORD));
    chip.ext_len = 128;
    keep();
    CHECK(refused(c64x_chip_read_unaligned(&chip, 4, EXT), C64X_REFUSED_LENGTH));
    CHECK(refused(c64x_chip_write_unaligned(&chip, 1, EXT, 0), C64X_REFUSED_LENGTH));
}

/* So many bytes of one value. */
static int all_are(const uint8_t *bytes, size_t length, uint8_t value)
{
    for (size_t i = 0; i < length; i++)
        if (bytes[i] != value)
            return 0;
    return 1;
}

static uint8_t buffer[C64X_TRANSFER_BYTES + 8];

/* A buffer of one value, of which so many bytes are lent from its fifth on. */
static c64x_answer transfer_in(uint32_t address, size_t length, uint8_t value)
{
    memset(buffer, value, sizeof buffer);
    return c64x_chip_transfer_in(&chip, address, buffer + 4, length);
}

static c64x_answer transfer_out(uint32_t address, size_t length)
{
    memset(buffer, 0xEE, sizeof buffer);
    return c64x_chip_transfer_out(&chip, address, buffer + 4, length);
}

/* No byte of the buffer but those that were lent has changed. */
static int around_kept(size_t length)
{
    return all_are(buffer, 4, 0xEE) && all_are(buffer + 4 + length, sizeof buffer - 4 - length, 0xEE);
}

/* SRAM: touched lines of L1D go home if dirty and leave it, in both directions; those beside stay, and the order of use
   of each set. A frozen L1D makes no difference. */
static void transfers_of_sram(void)
{
    CHECK(C64X_VERSION_MAJOR >= 5 && C64X_TRANSFER_BYTES == 262140);
    for (unsigned mode = 0; mode < 2; mode++)
        for (unsigned freeze = 0; freeze < 2; freeze++)
            for (int in = 0; in < 2; in++) {
                cached(mode);
                /* dirty lines at 0, 64 and 128, a clean one at 192, and one of external memory in the set of 64 */
                for (uint32_t a = 0; a < 192; a += 64) {
                    CHECK(c64x_chip_read(&chip, 1, a).server == C64X_SERVER_SRAM);
                    CHECK(c64x_chip_write(&chip, 1, a, 5).server == C64X_SERVER_L1D);
                    CHECK(c64x_chip_write(&chip, 1, a + 63, 6).server == C64X_SERVER_L1D);
                }
                CHECK(c64x_chip_read(&chip, 1, 192).server == C64X_SERVER_SRAM);
                CHECK(c64x_chip_read(&chip, 1, EXT + 64).server == C64X_SERVER_EXTERNAL);
                CHECK(order_is(0, 0, 1) && order_is(1, 1, 0) && dirty_are(3, 0) && l2[64] == 0);
                CHECK(done(c64x_chip_freeze(&chip, freeze)));
                /* from the last word of the line at 64 on, to the first of that at 192 */
                CHECK(done(in ? transfer_in(124, 72, 7) : transfer_out(124, 72)));
                CHECK(!l1d_line(64) && !l1d_line(128) && !l1d_line(192));
                CHECK(dirty(l1d_line(0)) && clean(l1d_line(EXT + 64)) && dirty_are(1, 0) && l2[0] == 0);
                CHECK(order_is(0, 0, 1) && order_is(1, 1, 0) && chip.record.frozen == freeze);
                /* the rest of a touched line is what the CPU wrote */
                CHECK(l2[64] == 5 && all_are(l2 + 65, 59, 0));
                if (in) {
                    CHECK(all_are(l2 + 124, 72, 7) && l2[196] == 0 && all_are(buffer, sizeof buffer, 7));
                    CHECK(is(c64x_chip_read(&chip, 1, 128), 0, C64X_SERVER_SRAM, 7));
                } else {
                    CHECK(l2[127] == 6 && l2[128] == 5 && l2[191] == 6 && around_kept(72));
                    CHECK(all_are(buffer + 4, 3, 0) && buffer[7] == 6 && buffer[8] == 5 && all_are(buffer + 9, 62, 0));
                    CHECK(buffer[71] == 6 && all_are(buffer + 72, 4, 0));
                    CHECK(is(c64x_chip_read(&chip, 1, 128), 0, C64X_SERVER_SRAM, 5));
                }
            }
    /* a transfer that ends where a line begins leaves that line alone */
    cached(0);
    CHECK(c64x_chip_read(&chip, 1, 64).server == C64X_SERVER_SRAM);
    CHECK(done(transfer_in(0, 64, 7)) && done(transfer_in(128, 4, 7)) && clean(l1d_line(64)));
    CHECK(done(transfer_in(60, 8, 9)) && !l1d_line(64));
    CHECK(l2[59] == 7 && all_are(l2 + 60, 8, 9) && l2[68] == 0 && all_are(l2 + 128, 4, 7));
}

/* External memory: no cache is looked at, and no field of the record changes. */
static void transfers_of_external_memory(void)
{
    for (unsigned mode = 0; mode < 2; mode++) {
        cached(mode);
        dirty_line(EXT);
        CHECK(write_word(EXT + 128).server == C64X_SERVER_EXTERNAL);
        keep();
        CHECK(done(transfer_in(EXT, 256, 9)));
        CHECK(all_are(ext, 256, 9) && ext[256] == 0);
        memcpy(ext_before, ext, sizeof ext);
        CHECK(kept());
        CHECK(done(transfer_out(EXT, 256)) && all_are(buffer + 4, 256, 9) && around_kept(256) && kept());
        /* the CPU goes on seeing what L1D, or L2, holds */
        CHECK(is(read_word(EXT), 0, C64X_SERVER_L1D, 7));
        CHECK(is(read_word(EXT + 128), 0, mode ? C64X_SERVER_L2_CACHE : C64X_SERVER_EXTERNAL, mode ? 7 : 0x09090909));
        /* and a dirty line goes over what came in */
        CHECK(done(c64x_chip_l2_writeback_invalidate_all(&chip)));
        CHECK(ext[0] == 7 && ext[1] == 0 && ext[128] == (mode ? 7 : 9));
    }
    /* past the caches both see the same */
    start(sizeof l2);
    CHECK(done(transfer_in(EXT + 65532, 4, 9)) && read_word(EXT + 65532).value == 0x09090909);
    CHECK(write_word(EXT + 65528).server == C64X_SERVER_EXTERNAL);
    CHECK(done(transfer_out(EXT + 65528, 8)) && buffer[4] == 7 && buffer[5] == 0 && buffer[8] == 9);
}

/* A place that the CPU and the EDMA share: both block writeback-invalidates over it, in either order, then a transfer:
   the CPU's words go out, and the camera's bytes are what it reads. */
static void shared_place(void)
{
    for (unsigned mode = 0; mode < 3; mode++)
        for (unsigned bit = 0; bit < 2; bit++)
            for (int l2_first = 0; l2_first < 2; l2_first++) {
                start(sizeof l2);
                CHECK(done(c64x_chip_change_mar(&chip, 128, bit)));
                CHECK(done(c64x_chip_change_mode(&chip, mode)));
                for (uint32_t a = EXT; a < EXT + 512; a += 32)
                    CHECK(read_word(a).value == 0 && write_word(a).number == C64X_ACCEPTED);
                for (int i = 0; i < 2; i++)
                    CHECK(done(i == l2_first ? c64x_chip_l1d_writeback_invalidate_block(&chip, EXT, 128)
                                             : c64x_chip_l2_writeback_invalidate_block(&chip, EXT, 128)));
                CHECK(done(transfer_out(EXT + 128, 128)) && buffer[4] == 7 && buffer[5] == 0 && buffer[36] == 7);
                CHECK(done(transfer_in(EXT, 512, 9)));
                for (uint32_t a = EXT; a < EXT + 512; a += 4)
                    CHECK(read_word(a).value == 0x09090909);
            }
}

/* 1, 2, 4, then 13, then 14, with no byte changed, the buffer's neither. A length that is refused may be any number,
   and nothing has to stand at the pointer then. */
static void transfer_refusals(void)
{
    static const size_t lengths[] = {0, 1, 2, 3, 5, 6, 7, 262141, 262142, 262143, 262144, 262148, 1 << 20,
                                     (size_t)1 << 32, ((size_t)1 << 32) + 4, (size_t)1 << 63, SIZE_MAX - 3, SIZE_MAX};
    static const uint32_t ends[] = {32768, EXT + 65536};
    uint8_t one = 0xEE;
    three_levels();
    CHECK(c64x_chip_read(&chip, 4, 64).number == C64X_ACCEPTED && c64x_chip_write(&chip, 4, 64, 5).server == 1);
    keep();
    for (size_t i = 0; i < sizeof lengths / sizeof lengths[0]; i++) {
        CHECK(refused(c64x_chip_transfer_in(&chip, 64, &one, lengths[i]), C64X_REFUSED_TRANSFER_LENGTH));
        CHECK(refused(c64x_chip_transfer_out(&chip, EXT, &one, lengths[i]), C64X_REFUSED_TRANSFER_LENGTH));
        CHECK(refused(c64x_chip_transfer_out(&chip, EXT + 65536, &one, lengths[i]), C64X_REFUSED_TRANSFER_LENGTH));
        for (uint32_t aside = 1; aside < 4; aside++) {
            CHECK(refused(c64x_chip_transfer_in(&chip, EXT + aside, &one, lengths[i]), C64X_REFUSED_ALIGNMENT));
            CHECK(refused(c64x_chip_transfer_out(&chip, 64 + aside, &one, lengths[i]), C64X_REFUSED_ALIGNMENT));
        }
        CHECK(one == 0xEE);
    }
    for (size_t i = 0; i < 2; i++) {
        CHECK(refused(transfer_in(ends[i], 4, 7), C64X_REFUSED_TRANSFER_PLACE));
        CHECK(refused(transfer_in(ends[i] - 4, 8, 7), C64X_REFUSED_TRANSFER_PLACE));
        CHECK(refused(transfer_out(ends[i] - 4, 8), C64X_REFUSED_TRANSFER_PLACE) && around_kept(0));
        CHECK(refused(transfer_out(ends[i] - 32764, 32768), C64X_REFUSED_TRANSFER_PLACE) && around_kept(0));
        CHECK(refused(transfer_out(ends[i] - 2, 4), C64X_REFUSED_ALIGNMENT) && around_kept(0));
    }
    CHECK(refused(transfer_out(EXT - 4, 4), C64X_REFUSED_TRANSFER_PLACE) && around_kept(0));
    CHECK(refused(transfer_out(EXT - 4, 8), C64X_REFUSED_TRANSFER_PLACE) && around_kept(0));
    CHECK(refused(transfer_out(0xFFFFFFFC, 8), C64X_REFUSED_TRANSFER_PLACE) && around_kept(0));
    CHECK(refused(transfer_out(EXT, 262140), C64X_REFUSED_TRANSFER_PLACE) && around_kept(0));
    /* up to the ends */
    CHECK(done(transfer_out(ends[0] - 32768, 32768)) && done(transfer_out(ends[1] - 65536, 65536)));
    CHECK(buffer[4] == 5 && around_kept(65536));
    chip.record.l1d[5].order.first = 1;
    chip.record.l1d[5].order.second = 1;
    keep();
    CHECK(refused(c64x_chip_transfer_in(&chip, EXT + 1, &one, SIZE_MAX), C64X_REFUSED_RECORD));
    CHECK(refused(transfer_out(EXT, 4), C64X_REFUSED_RECORD) && around_kept(0));
    chip.ext_len = 128;
    keep();
    CHECK(refused(c64x_chip_transfer_in(&chip, EXT + 1, &one, SIZE_MAX), C64X_REFUSED_LENGTH));
    CHECK(refused(transfer_out(EXT, 4), C64X_REFUSED_LENGTH) && around_kept(0));
}

/* Runs, views and calls of each number from 1 on: nothing changes. */
/* A frame: pixel number i of those that are lent from the fifth byte of the buffer on. */
static c64x_framed frame(unsigned turn, size_t length, unsigned seed)
{
    for (size_t i = 0; i < sizeof buffer; i++)
        buffer[i] = (uint8_t)(i * 7 + i / 256 * seed + seed);
    return c64x_chip_frame(&chip, (uint8_t)turn, buffer + 4, length);
}

/* The sums of the columns, by hand. */
static int sums_are_the_pixels(const c64x_framed *framed)
{
    for (size_t column = 0; column < C64X_FRAME_COLUMNS; column++) {
        uint32_t sum = 0;
        for (size_t row = 0; row < C64X_FRAME_ROWS; row++)
            sum += buffer[4 + row * C64X_FRAME_COLUMNS + column];
        if (framed->sums[column] != sum)
            return 0;
    }
    return 1;
}

static int frame_refused(c64x_framed framed, unsigned number, unsigned turn)
{
    for (size_t column = 0; column < C64X_FRAME_COLUMNS; column++)
        if (framed.sums[column] != 0)
            return 0;
    return framed.number == number && framed.turn == turn && kept();
}

/* Frames in a row, in each mode, with either MAR bit, with L1D frozen or not, over what the CPU has written at both
   places: the sums are the camera's, and the places come in turn. */
static void frames(void)
{
    CHECK(C64X_VERSION_MAJOR >= 5);
    CHECK(C64X_FRAME_ROWS == 48 && C64X_FRAME_COLUMNS == 64 && C64X_FRAME_BYTES == 3072);
    for (unsigned mode = 0; mode < 3; mode++)
        for (unsigned bit = 0; bit < 2; bit++)
            for (unsigned freeze = 0; freeze < 2; freeze++) {
                uint8_t turn = 0;
                start(sizeof l2);
                CHECK(done(c64x_chip_change_mar(&chip, 128, bit)));
                CHECK(done(c64x_chip_change_mode(&chip, mode)));
                for (unsigned i = 0; i < 4; i++) {
                    const uint32_t place = turn ? 0xC00 : 0;
                    /* dirty in L1D, and in L2 alone; one byte before the place and one behind it too */
                    for (uint32_t a = place ? place - 64 : 0; a < place + 3200; a += 64) {
                        CHECK(read_word(EXT + a).number == C64X_ACCEPTED);
                        CHECK(write_word(EXT + a + a % 128 / 2).number == C64X_ACCEPTED);
                    }
                    CHECK(done(c64x_chip_freeze(&chip, freeze)));
                    c64x_framed framed = frame(turn, C64X_FRAME_BYTES, 3 + i);
                    CHECK(framed.number == C64X_ACCEPTED && framed.turn == 1 - turn && sums_are_the_pixels(&framed));
                    CHECK(memcmp(ext + place, buffer + 4, C64X_FRAME_BYTES) == 0);
                    CHECK(l1d_line(EXT + place) == NULL || clean(l1d_line(EXT + place)));
                    CHECK((l1d_line(EXT + place) != NULL) == (bit == 1 && freeze == 0));
                    CHECK((l2_line(EXT + place) != NULL) == (bit == 1 && mode > 0));
                    CHECK(c64x_chip_read(&chip, 1, EXT + place + 65).value == buffer[4 + 65]);
                    /* what stands behind the place is the CPU's */
                    CHECK(read_word(EXT + place + 3072).value == 7);
                    CHECK(done(c64x_chip_freeze(&chip, 0)));
                    turn = framed.turn;
                }
                CHECK(turn == 0);
            }
    /* 48 times 255 in each column, and every pixel in its own */
    start(sizeof l2);
    memset(buffer, 255, sizeof buffer);
    c64x_framed white = c64x_chip_frame(&chip, 0, buffer, C64X_FRAME_BYTES);
    CHECK(white.number == C64X_ACCEPTED && white.sums[0] == 12240 && white.sums[63] == 12240);
    memset(buffer, 0, sizeof buffer);
    buffer[47 * 64 + 5] = 200;
    c64x_framed dot = c64x_chip_frame(&chip, 1, buffer, C64X_FRAME_BYTES);
    CHECK(dot.number == C64X_ACCEPTED && dot.turn == 0 && dot.sums[4] == 0 && dot.sums[5] == 200 && dot.sums[6] == 0);
    CHECK(all_are(ext, 3072, 255) && ext[0xC00 + 47 * 64 + 5] == 200 && all_are(ext + 6144, 128, 0));
}

/* 1, 2, 19, then 20, the turn as it was, by its last bit, with no byte changed. A length that is refused may be any
   number, and nothing has to stand at the pointer then. */
static void frame_refusals(void)
{
    static const size_t lengths[] = {0, 1, 64, 3068, 3071, 3073, 3076, 6144, 3072 + 65536, 1 << 20,
                                     ((size_t)1 << 32) + 3072, (size_t)1 << 63, SIZE_MAX};
    uint8_t one = 0xEE;
    cached(1);
    dirty_line(EXT);
    dirty_line(EXT + 0xC00);
    keep();
    for (size_t i = 0; i < sizeof lengths / sizeof lengths[0]; i++)
        for (unsigned turn = 0; turn < 256; turn += 51)
            CHECK(frame_refused(c64x_chip_frame(&chip, (uint8_t)turn, &one, lengths[i]), C64X_REFUSED_FRAME_LENGTH,
                                turn % 2));
    CHECK(frame_refused(frame(7, 3071, 1), C64X_REFUSED_FRAME_LENGTH, 1));
    for (unsigned turn = 0; turn < 256; turn += 17) {
        c64x_framed framed = frame(turn, C64X_FRAME_BYTES, turn);
        CHECK(framed.number == C64X_ACCEPTED && framed.turn == 1 - turn % 2 && sums_are_the_pixels(&framed));
        CHECK(memcmp(ext + (turn % 2 ? 0xC00 : 0), buffer + 4, C64X_FRAME_BYTES) == 0);
    }
    chip.record.l1d[5].order.first = 1;
    chip.record.l1d[5].order.second = 1;
    keep();
    CHECK(frame_refused(frame(1, C64X_FRAME_BYTES, 1), C64X_REFUSED_RECORD, 1));
    CHECK(frame_refused(c64x_chip_frame(&chip, 6, &one, SIZE_MAX), C64X_REFUSED_RECORD, 0));
    chip.ext_len = 6144;
    keep();
    CHECK(frame_refused(frame(1, C64X_FRAME_BYTES, 1), C64X_REFUSED_LENGTH, 1));
    CHECK(frame_refused(c64x_chip_frame(&chip, 6, &one, SIZE_MAX), C64X_REFUSED_LENGTH, 0));
    /* 6,144 bytes are enough, 128 less are not, whatever the length */
    memset(ext, 0, sizeof ext);
    CHECK(done(c64x_chip_start(&chip, l1d, sizeof l1d, l2, sizeof l2, ext, 6144, l1p, sizeof l1p)));
    c64x_framed first = frame(0, C64X_FRAME_BYTES, 9), second = frame(first.turn, C64X_FRAME_BYTES, 9);
    CHECK(first.number == C64X_ACCEPTED && first.turn == 1 && second.number == C64X_ACCEPTED && second.turn == 0);
    CHECK(done(c64x_chip_start(&chip, l1d, sizeof l1d, l2, sizeof l2, ext, 6016, l1p, sizeof l1p)));
    keep();
    CHECK(frame_refused(frame(0, C64X_FRAME_BYTES, 1), C64X_REFUSED_FRAME_ROOM, 0));
    CHECK(frame_refused(c64x_chip_frame(&chip, 255, &one, 1), C64X_REFUSED_FRAME_ROOM, 1));
}

/* ---- program fetches */

static int l1p_holds(uint32_t address)
{
    const c64x_line *line = &chip.record.l1p[address / C64X_L1P_LINE_BYTES % C64X_L1P_SETS].lines[0];
    return line->valid && !line->dirty && line->address == address;
}

/* Accepted, by this server, with this kind and line of L1P's way; L1D and the value have no part in it. */
static int fetched_by(c64x_fetched fetched, unsigned server, unsigned kind, uint32_t address)
{
    return is(fetched.answer, C64X_ACCEPTED, server, 0) && left_is(fetched.answer.l1d_left, C64X_LEFT_NONE, 0) &&
           left_is(fetched.l1p_left, kind, address);
}

/* So many bytes of external memory were read and written, and this left L2. */
static int fetch_moved(c64x_fetched fetched, unsigned read, unsigned written, unsigned kind, uint32_t address)
{
    return left_is(fetched.answer.l2_left, kind, address) && fetched.answer.external_read == read &&
           fetched.answer.external_written == written;
}

static int fetch_refused(c64x_fetched fetched, unsigned number)
{
    static const uint8_t zero[C64X_L1P_LINE_BYTES] = {0};
    return refused(fetched.answer, number) && left_is(fetched.l1p_left, C64X_LEFT_NONE, 0) &&
           memcmp(fetched.bytes, zero, sizeof zero) == 0;
}

/* The line's bytes are those at a place of external memory. */
static int bytes_are(c64x_fetched fetched, uint32_t address)
{
    return memcmp(fetched.bytes, ext + (address - EXT), C64X_L1P_LINE_BYTES) == 0;
}

static void counted_memory(void)
{
    for (size_t i = 0; i < sizeof ext; i++)
        ext[i] = (uint8_t)(i ^ i >> 8);
}

/* Each server in turn, and L1P's one way. */
static void fetches(void)
{
    CHECK(C64X_VERSION_MAJOR == 5 && sizeof chip.record == 4 * 6277 && offsetof(c64x_record, l1p) == 4 * 5253);
    start(sizeof l2);
    CHECK(l1p[0] == 0 && memcmp(l1p, l1p + 1, sizeof l1p - 1) == 0 && c64x_chip_l1p_lines(&chip) == 0);
    counted_memory();
    /* past L1P */
    keep();
    c64x_fetched fetched = c64x_chip_fetch(&chip, EXT + 64);
    CHECK(fetched_by(fetched, C64X_SERVER_EXTERNAL, C64X_LEFT_NONE, 0) && bytes_are(fetched, EXT + 64) && kept());
    CHECK(fetch_moved(fetched, 32, 0, C64X_LEFT_NONE, 0));
    /* mode 0 */
    CHECK(done(c64x_chip_change_mar(&chip, 128, 1)));
    fetched = c64x_chip_fetch(&chip, EXT + 64);
    CHECK(fetched_by(fetched, C64X_SERVER_EXTERNAL, C64X_LEFT_EMPTY, 0) && bytes_are(fetched, EXT + 64));
    CHECK(fetch_moved(fetched, 32, 0, C64X_LEFT_NONE, 0) && memcmp(l1p + 64, ext + 64, 32) == 0);
    keep();
    fetched = c64x_chip_fetch(&chip, EXT + 64);
    CHECK(fetched_by(fetched, C64X_SERVER_L1P, C64X_LEFT_NONE, 0) && bytes_are(fetched, EXT + 64) && kept());
    CHECK(fetch_moved(fetched, 0, 0, C64X_LEFT_NONE, 0));
    /* SRAM, which puts the line out */
    CHECK(is(c64x_chip_write(&chip, 4, 16384 + 64, 0x04030201), C64X_ACCEPTED, C64X_SERVER_SRAM, 0));
    fetched = c64x_chip_fetch(&chip, 16384 + 64);
    CHECK(fetched_by(fetched, C64X_SERVER_SRAM, C64X_LEFT_CLEAN, EXT + 64) && fetched.bytes[3] == 4);
    CHECK(!l1p_holds(EXT + 64) && l1p_holds(16384 + 64) && c64x_chip_l1p_lines(&chip) == 1);
    /* L2, which fetches 128 bytes; a dirty line leaves it with what L1D holds of it */
    CHECK(done(c64x_chip_change_mode(&chip, 1)) && c64x_chip_l1p_lines(&chip) == 0);
    fetched = c64x_chip_fetch(&chip, EXT + 32);
    CHECK(fetched_by(fetched, C64X_SERVER_EXTERNAL, C64X_LEFT_EMPTY, 0));
    CHECK(fetch_moved(fetched, 128, 0, C64X_LEFT_EMPTY, 0) && clean(l2_line(EXT)) && l1d_line(EXT) == NULL);
    fetched = c64x_chip_fetch(&chip, EXT + 96);
    CHECK(fetched_by(fetched, C64X_SERVER_L2_CACHE, C64X_LEFT_EMPTY, 0) && bytes_are(fetched, EXT + 96));
    CHECK(c64x_chip_read(&chip, 4, EXT).server == C64X_SERVER_L2_CACHE);
    CHECK(c64x_chip_write(&chip, 4, EXT, 9).server == C64X_SERVER_L1D && dirty_are(1, 0));
    for (unsigned i = 1; i < 4; i++)
        CHECK(c64x_chip_fetch(&chip, EXT + 8192 * i).answer.number == C64X_ACCEPTED);
    fetched = c64x_chip_fetch(&chip, EXT + 4 * 8192);
    CHECK(fetch_moved(fetched, 128, 128, C64X_LEFT_DIRTY, EXT) && l1d_line(EXT) == NULL && dirty_are(0, 0));
    CHECK(l1p_holds(EXT + 32) && l1p_holds(EXT + 96));
}

/* What a fetch does not see, and what takes lines out of L1P. */
static void l1p_lines_leave(void)
{
    uint8_t frame_bytes[128];
    memset(frame_bytes, 0x77, sizeof frame_bytes);
    for (unsigned mode = 0; mode < 2; mode++) {
        for (unsigned command = 0; command < 9; command++) {
            int gone = 0;
            cached(mode);
            counted_memory();
            for (uint32_t a = 0; a < 160; a += 32)
                CHECK(c64x_chip_fetch(&chip, EXT + a).answer.number == C64X_ACCEPTED);
            CHECK(c64x_chip_fetch(&chip, 4096).answer.number == C64X_ACCEPTED);
            switch (command) {
            case 0: CHECK(c64x_chip_write(&chip, 4, EXT, 9).number == C64X_ACCEPTED); break;
            case 1: CHECK(done(c64x_chip_transfer_in(&chip, EXT, frame_bytes, sizeof frame_bytes))); break;
            case 2: CHECK(done(c64x_chip_l2_writeback_all(&chip))); break;
            case 3: CHECK(done(c64x_chip_l2_writeback_block(&chip, EXT, 32))); break;
            case 4: CHECK(done(c64x_chip_l1d_invalidate_all(&chip))); break;
            case 5: CHECK(done(c64x_chip_l2_writeback_invalidate_block(&chip, EXT + 124, 1))), gone = mode; break;
            case 6: CHECK(done(c64x_chip_l2_invalidate_block(&chip, EXT, 1))), gone = mode; break;
            case 7: CHECK(done(c64x_chip_l2_writeback_invalidate_all(&chip))), gone = mode; break;
            default: CHECK(done(c64x_chip_l1p_invalidate_block(&chip, EXT, 32))), gone = 1; break;
            }
            for (uint32_t a = 0; a < 128; a += 32)
                CHECK(l1p_holds(EXT + a) == !gone);
            CHECK(l1p_holds(EXT + 128) == !(command == 7 && mode));
            CHECK(l1p_holds(4096));
            CHECK(done(c64x_chip_l1p_invalidate_all(&chip)) && c64x_chip_l1p_lines(&chip) == 0);
        }
    }
    /* held dirty in L1D alone, then home and dropped: only then it is seen */
    cached(1);
    dirty_line(EXT);
    CHECK(c64x_chip_read(&chip, 1, EXT).value != 0 && c64x_chip_fetch(&chip, EXT).bytes[0] == 0);
    CHECK(done(c64x_chip_l2_writeback_invalidate_block(&chip, EXT, 16)));
    CHECK(c64x_chip_fetch(&chip, EXT).bytes[0] == ext[0] && ext[0] != 0);
    /* one line, or two, by a block of a few words */
    CHECK(c64x_chip_fetch(&chip, EXT + 32).answer.number == C64X_ACCEPTED);
    CHECK(done(c64x_chip_l1p_invalidate_block(&chip, EXT + 28, 1)) && !l1p_holds(EXT) && l1p_holds(EXT + 32));
    CHECK(done(c64x_chip_l1p_invalidate_block(&chip, EXT + 28, 0)) && l1p_holds(EXT + 32));
    CHECK(done(c64x_chip_l1p_invalidate_block(&chip, EXT + 28, 2)) && !l1p_holds(EXT + 32));
}

static void fetch_refusals(void)
{
    cached(0);
    keep();
    CHECK(fetch_refused(c64x_chip_fetch(&chip, EXT + 16), C64X_REFUSED_FETCH_ALIGNMENT));
    CHECK(fetch_refused(c64x_chip_fetch(&chip, EXT - 1), C64X_REFUSED_FETCH_ALIGNMENT));
    CHECK(fetch_refused(c64x_chip_fetch(&chip, EXT - 32), C64X_REFUSED_PLACE));
    CHECK(fetch_refused(c64x_chip_fetch(&chip, EXT + 65536), C64X_REFUSED_PLACE));
    CHECK(fetch_refused(c64x_chip_fetch(&chip, 65536), C64X_REFUSED_PLACE));
    CHECK(refused(c64x_chip_l1p_invalidate_block(&chip, EXT + 2, 65536), C64X_REFUSED_ALIGNMENT));
    CHECK(refused(c64x_chip_l1p_invalidate_block(&chip, EXT, 65536), C64X_REFUSED_COUNT));
    /* a MAR bit stays while L1P holds a line */
    CHECK(c64x_chip_fetch(&chip, EXT).answer.number == C64X_ACCEPTED);
    keep();
    CHECK(refused(c64x_chip_change_mar(&chip, 128, 0), C64X_REFUSED_LINE_HELD));
    /* a dirty line of L1P, and one in another set */
    chip.record.l1p[0].lines[0].dirty = 1;
    keep();
    CHECK(fetch_refused(c64x_chip_fetch(&chip, EXT + 1), C64X_REFUSED_RECORD));
    CHECK(refused(c64x_chip_read(&chip, 1, 0), C64X_REFUSED_RECORD));
    CHECK(c64x_chip_view_number(&chip, 0) == C64X_REFUSED_RECORD && kept());
    chip.record.l1p[0].lines[0].dirty = 0;
    chip.record.l1p[0].lines[0].address = EXT + 32;
    keep();
    CHECK(refused(c64x_chip_l1p_invalidate_all(&chip), C64X_REFUSED_RECORD));
    /* its buffer has 16,384 bytes for every call but the view */
    chip.l1p_len = sizeof l1p - 1;
    keep();
    CHECK(fetch_refused(c64x_chip_fetch(&chip, EXT + 1), C64X_REFUSED_LENGTH));
    CHECK(refused(c64x_chip_read(&chip, 1, 0), C64X_REFUSED_LENGTH));
    CHECK(refused(c64x_chip_l1p_invalidate_all(&chip), C64X_REFUSED_LENGTH));
    chip.record.l1p[0].lines[0].address = EXT;
    CHECK(c64x_chip_view_number(&chip, 0) == C64X_ACCEPTED);
    chip.l1p_len = sizeof l1p;
}

static void refusals(void)
{
    static const uint8_t damaged[] = {13};
    static const uint8_t one[] = {2};
    uint8_t answers[C64X_ANSWER_BYTES] = {0}, seen[C64X_VIEW_BYTES] = {0};
    c64x_ran ran;

    three_levels();
    chip.l2_len = 32768;
    keep();
    CHECK(refused(c64x_chip_read(&chip, 4, EXT), C64X_REFUSED_LENGTH));
    ran = c64x_chip_run(&chip, one, sizeof one, answers, sizeof answers);
    CHECK(ran.consumed == 0 && ran.count == 0 && ran.stop == C64X_REFUSED_LENGTH && kept());
    CHECK(c64x_chip_view(&chip, EXT, seen, sizeof seen) == C64X_REFUSED_LENGTH && kept());

    three_levels();
    chip.record.l1d[5].lines[1].dirty = 2;
    keep();
    CHECK(refused(c64x_chip_l2_writeback_all(&chip), C64X_REFUSED_RECORD));
    ran = c64x_chip_run(&chip, one, sizeof one, answers, sizeof answers);
    CHECK(ran.consumed == 0 && ran.count == 0 && ran.stop == C64X_REFUSED_RECORD && kept());
    CHECK(c64x_chip_view_number(&chip, EXT) == C64X_REFUSED_RECORD && kept());

    three_levels();
    for (unsigned frozen = 2; frozen < 256; frozen++) {
        chip.record.frozen = (uint8_t)frozen;
        keep();
        CHECK(refused(c64x_chip_freeze(&chip, 0), C64X_REFUSED_RECORD));
        CHECK(refused(c64x_chip_read(&chip, 4, EXT), C64X_REFUSED_RECORD));
    }

    /* one line is dirty in each cache: every other pair of counts is wrong */
    static const uint32_t counts[] = {0, 1, 2, 3, 257, 65537, UINT32_MAX};
    for (size_t i = 0; i < sizeof counts / sizeof counts[0]; i++)
        for (size_t j = 0; j < sizeof counts / sizeof counts[0]; j++) {
            three_levels();
            chip.record.dirty_l1d = counts[i];
            chip.record.dirty_l2 = counts[j];
            keep();
            if (counts[i] == 1 && counts[j] == 1)
                continue;
            CHECK(refused(c64x_chip_read(&chip, 4, EXT), C64X_REFUSED_RECORD));
            CHECK(refused(c64x_chip_l2_writeback_invalidate_all(&chip), C64X_REFUSED_RECORD));
            ran = c64x_chip_run(&chip, one, sizeof one, answers, sizeof answers);
            CHECK(ran.consumed == 0 && ran.count == 0 && ran.stop == C64X_REFUSED_RECORD && kept());
            CHECK(c64x_chip_view_number(&chip, EXT) == C64X_REFUSED_RECORD && kept());
        }

    three_levels();
    keep();
    CHECK(refused(c64x_chip_read(&chip, 3, EXT), C64X_REFUSED_SIZE));
    CHECK(refused(c64x_chip_write(&chip, 4, EXT + 2, 0), C64X_REFUSED_ALIGNMENT));
    CHECK(refused(c64x_chip_l1d_invalidate_block(&chip, EXT + 2, 1), C64X_REFUSED_ALIGNMENT));
    CHECK(c64x_chip_view_number(&chip, EXT + 32) == C64X_REFUSED_ALIGNMENT);
    CHECK(refused(c64x_chip_write(&chip, 1, 32768, 0), C64X_REFUSED_PLACE));
    CHECK(c64x_chip_view_number(&chip, 32768) == C64X_REFUSED_PLACE);
    CHECK(refused(c64x_chip_write(&chip, 2, EXT, 65536), C64X_REFUSED_VALUE));
    CHECK(refused(c64x_chip_l2_writeback_block(&chip, EXT, 65536), C64X_REFUSED_COUNT));
    CHECK(refused(c64x_chip_l2_writeback_invalidate_block(&chip, EXT, 65536), C64X_REFUSED_COUNT));
    CHECK(refused(c64x_chip_l2_invalidate_block(&chip, EXT, 65536), C64X_REFUSED_COUNT));
    CHECK(refused(c64x_chip_l1d_writeback_invalidate_block(&chip, EXT, 65536), C64X_REFUSED_COUNT));
    CHECK(refused(c64x_chip_l1d_invalidate_block(&chip, EXT, 65536), C64X_REFUSED_COUNT));
    CHECK(refused(c64x_chip_change_mode(&chip, 3), C64X_REFUSED_MODE));
    CHECK(refused(c64x_chip_change_mar(&chip, 130, 1), C64X_REFUSED_MAR));
    CHECK(refused(c64x_chip_change_mar(&chip, 128, 0), C64X_REFUSED_LINE_HELD));
    CHECK(refused(c64x_chip_freeze(&chip, 2), C64X_REFUSED_FREEZE));
    CHECK(refused(c64x_chip_freeze(&chip, 256), C64X_REFUSED_FREEZE));
    CHECK(refused(c64x_chip_freeze(&chip, UINT32_MAX), C64X_REFUSED_FREEZE));
    ran = c64x_chip_run(&chip, damaged, sizeof damaged, answers, sizeof answers);
    CHECK(ran.consumed == 0 && ran.count == 0 && ran.stop == C64X_STOPPED_TRACE && kept());
    ran = c64x_chip_run(&chip, one, sizeof one, answers, sizeof answers - 1);
    CHECK(ran.consumed == 0 && ran.count == 0 && ran.stop == C64X_STOPPED_ANSWERS && kept());
    CHECK(c64x_chip_view(&chip, EXT, seen, sizeof seen - 1) == C64X_REFUSED_LENGTH && kept());
    CHECK(answers[0] == 0 && seen[0] == 0);

    /* Of a fresh start that is refused the record is known too. */
    chip.l1d_len = 16383;
    keep();
    c64x_answer answer = c64x_chip_fresh(&chip);
    CHECK(is(answer, C64X_REFUSED_LENGTH, 0, 0) && moved(answer, 0, 0));
    CHECK(chip.record.l2len == 32768 && chip.record.extlen == 128 && chip.record.mode == 0);
    CHECK(!l1d_line(EXT) && !l2_line(EXT));
    memcpy(&chip.record, &chip_before.record, sizeof chip.record);
    CHECK(kept());
}

/* The run of this number has these digits, and they have this number. */
static int is_run(uint32_t number, const char *digits)
{
    uint8_t passed_on[C64X_SHORT_RUN_DIGITS] = {0};
    size_t length = strlen(digits);
    for (size_t i = 0; i < length; i++)
        passed_on[i] = (uint8_t)(digits[i] - '0');
    c64x_short_run run = c64x_short_run_of(number);
    c64x_run_number back = c64x_short_run_number(passed_on, length);
    return run.number == C64X_ACCEPTED && run.length == length &&
           memcmp(run.digits, passed_on, sizeof passed_on) == 0 && back.number == C64X_ACCEPTED && back.run == number;
}

/* 18, and nothing but 0 with it. */
static int no_number(c64x_run_number of)
{
    return of.number == C64X_REFUSED_SHORT_RUN && of.run == 0;
}

static int no_run(c64x_short_run run)
{
    static const uint8_t none[C64X_SHORT_RUN_DIGITS] = {0};
    return run.number == C64X_REFUSED_SHORT_RUN && run.length == 0 && memcmp(run.digits, none, sizeof none) == 0;
}

/* Shorter first, then by digits, the first weighing most: the first and the last run of each length, and some more. */
static void short_runs(void)
{
    static const uint8_t five[] = {0, 0, 0, 0, 0}, eight[] = {7, 8}, high[] = {0, 0, 0, 255};
    CHECK(is_run(0, ""));
    CHECK(is_run(1, "0") && is_run(8, "7"));
    CHECK(is_run(9, "00") && is_run(10, "01") && is_run(17, "10") && is_run(72, "77"));
    CHECK(is_run(73, "000") && is_run(137, "100") && is_run(584, "777"));
    CHECK(is_run(585, "0000") && is_run(586, "0001") && is_run(1097, "1000") && is_run(4680, "7777"));
    CHECK(no_run(c64x_short_run_of(C64X_SHORT_RUNS)) && no_run(c64x_short_run_of(UINT32_MAX)));
    CHECK(no_number(c64x_short_run_number(five, sizeof five)));
    CHECK(no_number(c64x_short_run_number(eight, sizeof eight)));
    CHECK(no_number(c64x_short_run_number(high, sizeof high)));
    CHECK(c64x_short_run_number(eight, 1).run == 8 && c64x_short_run_number(high, 3).run == 73);
}

/* What was put stands in the output, and is the whole of it. */
static int holds(const c64x_trace_writer *writer, const uint8_t *bytes, size_t length)
{
    return writer->at == length && memcmp(writer->out, bytes, length) == 0;
}

/* The worked example is written as the paper prints it, C3 and C4 as numbers of commands; then 11 and 16, with nothing
   changed. */
static void writing(void)
{
    static const uint8_t example[] = {0x0B, 0x80, 0x01, 0x01, 0x01, 0x04, 0x80, 0x80, 0x80, 0x80, 0x08, 0x05, 0x00,
                                      0x04, 0x80, 0x80, 0x80, 0x80, 0x08, 0x00, 0x04, 0x80, 0x80, 0x80, 0x80, 0x08,
                                      0x0A, 0x04};
    static const uint8_t numbers[] = {0x0A, 0xAC, 0x02, 0x0A, 0x7F, 0x04,
                                      0x80, 0x80, 0x80, 0x80, 0x08, 0x00, 0x0C, 0x01};
    static const uint8_t longest[] = {0x01, 0xFF, 0xFF, 0xFF, 0xFF, 0x0F, 0xFF, 0xFF, 0xFF, 0xFF, 0x0F,
                                      0xFF, 0xFF, 0xFF, 0xFF, 0xFF, 0xFF, 0xFF, 0xFF, 0xFF, 0x01};
    uint8_t out[28], before[28];
    c64x_trace_writer writer;

    c64x_trace_start(&writer, out, sizeof out);
    CHECK(c64x_trace_put(&writer, C64X_CODE_MAR, 128, 1, 0) == C64X_ACCEPTED);
    CHECK(c64x_trace_put(&writer, C64X_CODE_WRITE, 4, EXT, 5) == C64X_ACCEPTED);
    CHECK(c64x_trace_put(&writer, C64X_CODE_READ, 4, EXT, 0) == C64X_ACCEPTED);
    CHECK(c64x_trace_put(&writer, C64X_CODE_READ, 4, EXT, UINT64_MAX) == C64X_ACCEPTED);
    CHECK(c64x_trace_put(&writer, C64X_CODE_MODE, 4, UINT64_MAX, UINT64_MAX) == C64X_ACCEPTED);
    CHECK(holds(&writer, example, sizeof example));

    c64x_trace_start(&writer, out, sizeof out);
    CHECK(c64x_trace_put(&writer, C64X_CODE_MODE, 300, 0, 0) == C64X_ACCEPTED);
    CHECK(c64x_trace_put(&writer, C64X_CODE_MODE, 127, 0, 0) == C64X_ACCEPTED);
    CHECK(c64x_trace_put(&writer, C64X_CODE_L2_WRITEBACK_BLOCK, 0x80000000, 0, 0) == C64X_ACCEPTED);
    CHECK(c64x_trace_put(&writer, C64X_CODE_FREEZE, 1, UINT64_MAX, UINT64_MAX) == C64X_ACCEPTED);
    CHECK(holds(&writer, numbers, sizeof numbers));
    c64x_trace_start(&writer, out, sizeof out);
    CHECK(c64x_trace_put(&writer, C64X_CODE_WRITE, UINT32_MAX, UINT32_MAX, UINT64_MAX) == C64X_ACCEPTED);
    CHECK(holds(&writer, longest, sizeof longest) && sizeof longest == C64X_COMMAND_BYTES);

    memset(out, 0xEE, sizeof out);
    memset(before, 0xEE, sizeof before);
    c64x_trace_start(&writer, out, 6);
    CHECK(c64x_trace_put(&writer, 13, 0, 0, 0) == C64X_STOPPED_TRACE);
    CHECK(c64x_trace_put(&writer, 256, 0, 0, 0) == C64X_STOPPED_TRACE);
    CHECK(c64x_trace_put(&writer, C64X_CODE_FREEZE, UINT64_C(0x100000000), 0, 0) == C64X_STOPPED_TRACE);
    CHECK(c64x_trace_put(&writer, C64X_CODE_READ, 4, UINT64_C(0x100000000), 0) == C64X_STOPPED_TRACE);
    CHECK(c64x_trace_put(&writer, C64X_CODE_READ, 4, EXT, 0) == C64X_REFUSED_ROOM);
    CHECK(writer.at == 0 && memcmp(out, before, sizeof out) == 0);
    /* 11 comes before 16; a place behind the end leaves no byte */
    writer.at = SIZE_MAX;
    CHECK(c64x_trace_put(&writer, C64X_CODE_L2_WRITEBACK_ALL, 0, 0, 0) == C64X_REFUSED_ROOM);
    CHECK(c64x_trace_put(&writer, 13, 0, 0, 0) == C64X_STOPPED_TRACE);
    CHECK(writer.at == SIZE_MAX && memcmp(out, before, sizeof out) == 0);
    /* the last byte of the output is a byte of it */
    writer.at = 5;
    CHECK(c64x_trace_put(&writer, C64X_CODE_L1D_INVALIDATE_ALL, 0, 0, 0) == C64X_ACCEPTED);
    CHECK(writer.at == 6 && out[4] == 0xEE && out[5] == 0x09 && out[6] == 0xEE);
}

/* The first accesses of seed 0 with 128 bytes, by hand: reads at 1Ch and 64h, a write at 2Ch. Then 1 and 16, with
   nothing changed, and a load that the chip carries out. */
static void loads(void)
{
    static const uint8_t three[] = {0x00, 0x04, 0x9C, 0x80, 0x80, 0x80, 0x08, 0x00, 0x04, 0xE4, 0x80, 0x80, 0x80,
                                    0x08, 0x01, 0x04, 0xAC, 0x80, 0x80, 0x80, 0x08, 0xCB, 0xC8, 0xD6, 0x8C, 0x0A};
    static uint8_t out[100 * C64X_LOAD_ACCESS_BYTES], before[sizeof out], replies[100 * C64X_ANSWER_BYTES];
    memset(out, 0xEE, sizeof out);
    memset(before, 0xEE, sizeof before);
    CHECK(c64x_load_trace(0, 127, 3, out, sizeof out).number == C64X_REFUSED_LENGTH);
    CHECK(c64x_load_trace(0, 127, 3, out, 0).number == C64X_REFUSED_LENGTH);
    CHECK(c64x_load_trace(0, 128, 3, out, sizeof three - 1).number == C64X_REFUSED_ROOM);
    CHECK(c64x_load_trace(0, 128, UINT64_MAX, out, sizeof out).number == C64X_REFUSED_ROOM);
    CHECK(c64x_load_trace(0, 128, 0, out, 0).number == C64X_ACCEPTED);
    CHECK(memcmp(out, before, sizeof out) == 0);
    c64x_load load = c64x_load_trace(0, 128, 3, out, sizeof three);
    CHECK(load.number == C64X_ACCEPTED && load.length == sizeof three);
    CHECK(memcmp(out, three, sizeof three) == 0 && out[sizeof three] == 0xEE);

    start(sizeof l2);
    load = c64x_chip_load_trace(&chip, 7, 100, out, sizeof out);
    CHECK(load.number == C64X_ACCEPTED);
    c64x_ran ran = c64x_chip_run(&chip, out, load.length, replies, sizeof replies);
    CHECK(ran.consumed == load.length && ran.count == 100 && ran.stop == 0);
    for (size_t i = 0; i < 100; i++)
        CHECK(c64x_answer_at(replies, i).number == C64X_ACCEPTED);
}

/* Every number, server and kind has a text of its own; those that do not exist share one. */
static void texts(void)
{
    for (unsigned a = 0; a <= 15; a++)
        for (unsigned b = 0; b < a; b++)
            CHECK(strcmp(c64x_number_text(a), c64x_number_text(b)) != 0);
    for (unsigned a = 0; a < C64X_REFUSED_FREEZE; a++)
        CHECK(strcmp(c64x_number_text(C64X_REFUSED_FREEZE), c64x_number_text(a)) != 0);
    for (unsigned a = 0; a < C64X_REFUSED_SHORT_RUN; a++)
        CHECK(strcmp(c64x_number_text(C64X_REFUSED_SHORT_RUN), c64x_number_text(a)) != 0);
    for (unsigned number = C64X_REFUSED_FRAME_ROOM; number <= C64X_REFUSED_FRAME_LENGTH; number++)
        for (unsigned a = 0; a < number; a++)
            CHECK(strcmp(c64x_number_text(number), c64x_number_text(a)) != 0);
    for (unsigned a = 0; a <= 6; a++)
        for (unsigned b = 0; b < a; b++)
            CHECK(strcmp(c64x_server_text(a), c64x_server_text(b)) != 0);
    for (unsigned a = 0; a <= 4; a++)
        for (unsigned b = 0; b < a; b++)
            CHECK(strcmp(c64x_left_text(a), c64x_left_text(b)) != 0);
    for (unsigned a = 0; a <= 15; a++)
        CHECK(strcmp(c64x_number_text(a), c64x_number_text(C64X_REFUSED_ROOM)) != 0);
    CHECK(strcmp(c64x_number_text(21), c64x_number_text(255)) == 0);
    CHECK(strcmp(c64x_server_text(5), "L1P") == 0 && C64X_SERVER_L1P == 5);
    CHECK(strcmp(c64x_server_text(6), c64x_server_text(255)) == 0);
    CHECK(strcmp(c64x_left_text(4), c64x_left_text(255)) == 0);
}

int main(void)
{
    worked_example();
    cases();
    commands();
    l2_commands();
    frozen();
    put_out_of_l1d();
    put_out_of_l2();
    put_out_of_neither();
    unaligned_anywhere();
    unaligned_across();
    unaligned_upwards();
    unaligned_refusals();
    transfers_of_sram();
    transfers_of_external_memory();
    shared_place();
    transfer_refusals();
    frames();
    frame_refusals();
    fetches();
    l1p_lines_leave();
    fetch_refusals();
    refusals();
    short_runs();
    writing();
    loads();
    texts();
    printf("chip: %d checks passed, %d failed\n", passed, failed);
    return failed != 0;
}
