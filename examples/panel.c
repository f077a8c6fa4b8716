/*
 * What the repair panel shows: a trace is run from a fresh start, and each answer is told in words, that of an access
 * with the lines that it put out and the bytes of external memory that it moved; at the end stands what all of them
 * did. Then come whether L1D is frozen, what L1D and L2 hold and how many of their lines are dirty; what stands in
 * external memory itself; what the camera's EDMA would take out of both memories; and what the program fetches that are
 * made last get from there: who serves them, what leaves L1P and L2 for them, whether the CPU's data is another, and
 * how many lines L1P holds then.
 *
 *   panel [TRACE]           TRACE is a file; without it a small trace of its own is run
 *   panel --load SEED N     with both MAR bits on, the load of this seed and N accesses
 *
 * L2 and external memory have 65,536 bytes each, all zero. Exit status: 0 the trace was run,
 * also where commands of it were refused; 1 it was stopped; 2 bad usage.
 */
#include <errno.h>
#include <stdio.h>
#include <stdlib.h>
#include <string.h>

#include "c64x_chip.h"

#define L2_BYTES 65536
#define EXTERNAL_BYTES 65536
#define TRACE_BYTES 65536

static uint8_t l1d[C64X_L1D_BYTES];
static uint8_t l2[L2_BYTES];
static uint8_t ext[EXTERNAL_BYTES];
static uint8_t l1p[C64X_L1P_BYTES];
static c64x_chip chip;
static uint8_t trace[TRACE_BYTES + 1];
/* A command has a byte at least, so these are enough. */
static uint8_t answers[TRACE_BYTES * C64X_ANSWER_BYTES];

/* A second chip goes through the trace call by call: a read or write that is a call of its own tells what it put out,
   which the answers of a run do not. */
static uint8_t own_l1d[C64X_L1D_BYTES];
static uint8_t own_l2[L2_BYTES];
static uint8_t own_ext[EXTERNAL_BYTES];
static uint8_t own_l1p[C64X_L1P_BYTES];
static c64x_chip own_chip;

/* What all accesses put out of each cache, clean and dirty, and moved. */
struct totals {
    unsigned long l1d[C64X_LEFT_DIRTY + 1];
    unsigned long l2[C64X_LEFT_DIRTY + 1];
    unsigned long read;
    unsigned long written;
};

/* MAR 128 on; the word at 80000000h is written, and read twice. */
static const uint8_t own_trace[] = {
    11, 0x80, 0x01, 1,
    1, 4, 0x80, 0x80, 0x80, 0x80, 0x08, 5,
    0, 4, 0x80, 0x80, 0x80, 0x80, 0x08,
    0, 4, 0x80, 0x80, 0x80, 0x80, 0x08,
};

static const char *const commands[] = {
    "read",
    "write",
    "L2 writeback all",
    "L2 writeback-invalidate all",
    "L2 block writeback",
    "L2 block writeback-invalidate",
    "L2 block invalidate",
    "L1D block writeback-invalidate",
    "L1D block invalidate",
    "L1D invalidate all",
    "mode",
    "MAR",
    "freeze",
};

/* How many bytes the whole command at `at` has: a code and numbers that end with a byte below 128. */
static size_t command_length(size_t at)
{
    static const uint8_t numbers[] = {2, 3, 0, 0, 2, 2, 2, 2, 2, 0, 1, 2, 1};
    size_t end = at + 1;
    for (uint8_t left = numbers[trace[at]]; left > 0; end++)
        if (trace[end] < 128)
            left--;
    return end - at;
}

/* The number of a command that begins at `at`, which goes behind it. */
static uint64_t number_at(size_t *at)
{
    uint64_t number = 0;
    int shift = 0;
    do {
        number |= (uint64_t)(trace[*at] & 0x7F) << shift;
        shift += 7;
    } while (trace[(*at)++] & 0x80);
    return number;
}

/* The command at `at` on the second chip: a read or write as a call of its own, any other as a run of one command. */
static c64x_answer call_at(size_t at)
{
    uint8_t one[C64X_ANSWER_BYTES];
    size_t number = at + 1;
    if (trace[at] == C64X_CODE_READ || trace[at] == C64X_CODE_WRITE) {
        uint32_t size = (uint32_t)number_at(&number);
        uint32_t address = (uint32_t)number_at(&number);
        return trace[at] == C64X_CODE_READ ? c64x_chip_read(&own_chip, size, address)
                                           : c64x_chip_write(&own_chip, size, address, number_at(&number));
    }
    c64x_chip_run(&own_chip, trace + at, command_length(at), one, sizeof one);
    return c64x_answer_at(one, 0);
}

static void show_left(const char *cache, c64x_left left)
{
    if (left.kind == C64X_LEFT_CLEAN || left.kind == C64X_LEFT_DIRTY)
        printf("; %s line %08lX left %s", cache, (unsigned long)left.address, c64x_left_text(left.kind));
}

/* What an access put out and moved; nothing where it did neither. */
static void show_report(c64x_answer answer, struct totals *totals)
{
    totals->l1d[answer.l1d_left.kind]++;
    totals->l2[answer.l2_left.kind]++;
    totals->read += answer.external_read;
    totals->written += answer.external_written;
    show_left("L1D", answer.l1d_left);
    show_left("L2", answer.l2_left);
    if (answer.external_read != 0)
        printf("; %lu external bytes read", (unsigned long)answer.external_read);
    if (answer.external_written != 0)
        printf("; %lu external bytes written", (unsigned long)answer.external_written);
}

static void show_answers(size_t count, struct totals *totals)
{
    size_t at = 0;
    for (size_t i = 0; i < count; i++) {
        c64x_answer answer = c64x_answer_at(answers, i);
        printf("%3zu  %-30s  %s", i + 1, commands[trace[at]], c64x_number_text(answer.number));
        if (answer.server != C64X_SERVER_NONE)
            printf(", by %s", c64x_server_text(answer.server));
        if (trace[at] == 0 && answer.number == C64X_ACCEPTED)
            printf(", value %llu", (unsigned long long)answer.value);
        show_report(call_at(at), totals);
        printf("\n");
        at += command_length(at);
    }
}

static void show_totals(const struct totals *totals)
{
    printf("put out of L1D: %lu clean, %lu dirty; of L2: %lu clean, %lu dirty; external bytes read %lu, written %lu\n",
           totals->l1d[C64X_LEFT_CLEAN], totals->l1d[C64X_LEFT_DIRTY], totals->l2[C64X_LEFT_CLEAN],
           totals->l2[C64X_LEFT_DIRTY], totals->read, totals->written);
}

static void show_lines(const char *cache, const c64x_line *lines, size_t count, size_t *held)
{
    for (size_t i = 0; i < count; i++) {
        if (!lines[i].valid)
            continue;
        ++*held;
        printf("     %s line %08lX %s\n", cache, (unsigned long)lines[i].address,
               lines[i].dirty ? "dirty" : "clean");
    }
}

static void show_caches(const c64x_record *record)
{
    size_t held = 0;
    printf("L2 mode %d, MAR 128 %s, MAR 129 %s, L1D %s\n", record->mode, record->mar128 ? "on" : "off",
           record->mar129 ? "on" : "off", record->frozen ? "frozen" : "not frozen");
    for (size_t set = 0; set < C64X_L1D_SETS; set++)
        show_lines("L1D", record->l1d[set].lines, 2, &held);
    printf("L1D: %zu lines held, %lu dirty\n", held, (unsigned long)record->dirty_l1d);
    held = 0;
    for (size_t set = 0; set < C64X_L2_SETS; set++)
        show_lines("L2", record->l2[set].lines, 4, &held);
    printf("L2: %zu lines held, %lu dirty\n", held, (unsigned long)record->dirty_l2);
}

/* The word that external memory itself holds at its first address. */
static void show_behind(void)
{
    uint8_t seen[C64X_VIEW_BYTES];
    uint8_t number = c64x_chip_view(&chip, C64X_EXTERNAL_BASE, seen, sizeof seen);
    if (number != C64X_ACCEPTED) {
        printf("behind L1D at 80000000: %s\n", c64x_number_text(number));
        return;
    }
    printf("behind L1D at 80000000: %02X %02X %02X %02X\n", seen[0], seen[1], seen[2], seen[3]);
}

/* The word that a transfer out takes at an address, as the camera's EDMA does. For external memory no cache is looked
   at; of SRAM the line that L1D holds goes home first, and leaves L1D. */
static void show_transfer(uint32_t address)
{
    uint8_t word[4];
    c64x_answer answer = c64x_chip_transfer_out(&chip, address, word, sizeof word);
    printf("a transfer out at %08lX: ", (unsigned long)address);
    if (answer.number != C64X_ACCEPTED)
        printf("%s\n", c64x_number_text(answer.number));
    else
        printf("%02X %02X %02X %02X; dirty in L1D then: %lu\n", word[0], word[1], word[2], word[3],
               (unsigned long)chip.record.dirty_l1d);
}

/* A program fetch: who served it, what left L1P and L2 for it, its first word, and the lines that L1P holds then. */
static void show_fetch(uint32_t address)
{
    c64x_fetched fetched = c64x_chip_fetch(&chip, address);
    printf("a fetch at %08lX: ", (unsigned long)address);
    if (fetched.answer.number != C64X_ACCEPTED) {
        printf("%s\n", c64x_number_text(fetched.answer.number));
        return;
    }
    printf("by %s", c64x_server_text(fetched.answer.server));
    show_left("L1P", fetched.l1p_left);
    show_left("L2", fetched.answer.l2_left);
    printf("; %02X %02X %02X %02X; lines in L1P then: %lu\n", fetched.bytes[0], fetched.bytes[1], fetched.bytes[2],
           fetched.bytes[3], (unsigned long)c64x_chip_l1p_lines(&chip));
}

/* What a technician looks for where a unit runs an old program: the CPU reads one word there, and a fetch gets another,
   since it looks neither at L1D nor behind a line that L1P holds. The read comes last: it may bring a line into L1D. */
static void show_stale(uint32_t address)
{
    c64x_fetched fetched = c64x_chip_fetch(&chip, address);
    c64x_answer read = c64x_chip_read(&chip, 4, address);
    uint32_t word = 0;
    if (fetched.answer.number != C64X_ACCEPTED || read.number != C64X_ACCEPTED)
        return;
    for (int i = 3; i >= 0; i--)
        word = word << 8 | fetched.bytes[i];
    printf("the program at %08lX %s what the CPU reads there\n", (unsigned long)address,
           word == read.value ? "is" : "is not");
}

/* Reads a file into the trace; its length, or exit. */
static size_t read_trace(const char *name)
{
    FILE *file = fopen(name, "rb");
    if (file == NULL) {
        fprintf(stderr, "panel: cannot open '%s'\n", name);
        exit(2);
    }
    size_t length = fread(trace, 1, sizeof trace, file);
    int failed = ferror(file);
    fclose(file);
    if (failed) {
        fprintf(stderr, "panel: cannot read '%s'\n", name);
        exit(2);
    }
    if (length > TRACE_BYTES) {
        fprintf(stderr, "panel: '%s' has more than %d bytes\n", name, TRACE_BYTES);
        exit(2);
    }
    return length;
}

/* A whole number up to `most`, or exit. */
static uint64_t number_of(const char *word, uint64_t most)
{
    char *end;
    errno = 0;
    unsigned long long number = strtoull(word, &end, 10);
    if (word[0] < '0' || word[0] > '9' || *end != '\0' || errno != 0 || number > most) {
        fprintf(stderr, "panel: '%s' is no number that is meant here\n", word);
        exit(2);
    }
    return number;
}

/* Makes a load behind two MAR commands in the trace; the length of all, or exit. */
static size_t make_load(const char *seed, const char *accesses)
{
    c64x_trace_writer writer;
    c64x_trace_start(&writer, trace, TRACE_BYTES);
    c64x_trace_put(&writer, C64X_CODE_MAR, 128, 1, 0);
    c64x_trace_put(&writer, C64X_CODE_MAR, 129, 1, 0);
    c64x_load load = c64x_load_trace((uint32_t)number_of(seed, UINT32_MAX), EXTERNAL_BYTES,
                                     number_of(accesses, UINT64_MAX), trace + writer.at, TRACE_BYTES - writer.at);
    if (load.number != C64X_ACCEPTED) {
        fprintf(stderr, "panel: %s\n", c64x_number_text(load.number));
        exit(2);
    }
    return writer.at + load.length;
}

static void start(c64x_chip *fresh, uint8_t *its_l1d, uint8_t *its_l2, uint8_t *its_ext, uint8_t *its_l1p)
{
    c64x_answer started = c64x_chip_start(fresh, its_l1d, C64X_L1D_BYTES, its_l2, L2_BYTES, its_ext, EXTERNAL_BYTES,
                                          its_l1p, C64X_L1P_BYTES);
    if (started.number != C64X_ACCEPTED) {
        fprintf(stderr, "panel: %s\n", c64x_number_text(started.number));
        exit(1);
    }
}

int main(int argc, char **argv)
{
    int load = argc == 4 && strcmp(argv[1], "--load") == 0;
    if (!load && (argc > 2 || (argc == 2 && argv[1][0] == '-'))) {
        fprintf(stderr, "usage: panel [TRACE], or panel --load SEED N\n");
        return 2;
    }
    size_t length;
    if (load) {
        length = make_load(argv[2], argv[3]);
    } else if (argc == 2) {
        length = read_trace(argv[1]);
    } else {
        length = sizeof own_trace;
        memcpy(trace, own_trace, length);
    }
    struct totals totals;
    memset(&totals, 0, sizeof totals);
    start(&chip, l1d, l2, ext, l1p);
    start(&own_chip, own_l1d, own_l2, own_ext, own_l1p);
    c64x_ran run = c64x_chip_run(&chip, trace, length, answers, sizeof answers);
    show_answers(run.count, &totals);
    printf("%s after %zu of %zu bytes\n", run.stop == 0 ? "end" : c64x_number_text(run.stop), run.consumed, length);
    show_totals(&totals);
    show_caches(&chip.record);
    show_behind();
    show_transfer(C64X_EXTERNAL_BASE);
    show_transfer(0);
    /* the first two are lines of one set of L1P */
    show_fetch(C64X_EXTERNAL_BASE);
    show_fetch(0);
    show_fetch(C64X_EXTERNAL_BASE + 0x1000);
    show_stale(C64X_EXTERNAL_BASE);
    show_stale(C64X_EXTERNAL_BASE + 0x1000);
    return run.stop == 0 ? 0 : 1;
}
