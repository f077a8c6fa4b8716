/*
 * Cuts a trace down for a bug report: of all its commands those stay without which a given answer would be another one.
 *
 *   cut-trace [--answer N] TRACE [OUTPUT]
 *
 * TRACE is a file. Answers are counted from 1; without N it is the last one. The cut trace goes to the file OUTPUT, or
 * to standard output, and its last answer is the given one. Commands are left out one after another, from the first to
 * the last; where number, server or value of the answer change by that, the command stays. That is done again until no
 * single command can go. A line on standard error tells what is left.
 *
 * Each run is from a fresh start, L2 and external memory having 65,536 bytes each, all zero. Exit status: 0 the cut
 * trace is written; 2 bad usage, a file that cannot be read or written, a trace that is damaged or has no such answer.
 */
#include <stdio.h>
#include <stdlib.h>
#include <string.h>

#include "c64x_chip.h"

#define L2_BYTES 65536
#define EXTERNAL_BYTES 65536
#define TRACE_BYTES 65536

struct command {
    uint8_t code;
    uint64_t numbers[3];
};

static uint8_t l1d[C64X_L1D_BYTES];
static uint8_t l1p[C64X_L1P_BYTES];
static uint8_t l2[L2_BYTES];
static uint8_t ext[EXTERNAL_BYTES];
static c64x_chip chip;
/* The trace as it was read, and as it is written without some commands: it only becomes shorter. */
static uint8_t trace[TRACE_BYTES + 1], shorter[TRACE_BYTES];
/* A command has a byte at least, so these are enough. */
static uint8_t answers[TRACE_BYTES * C64X_ANSWER_BYTES];
static struct command commands[TRACE_BYTES];
static size_t count;

static void fail(const char *what, const char *name)
{
    fprintf(stderr, "cut-trace: %s '%s'\n", what, name);
    exit(2);
}

/* Reads a file into the trace; its length, or exit. */
static size_t read_trace(const char *name)
{
    FILE *file = fopen(name, "rb");
    if (file == NULL)
        fail("cannot open", name);
    size_t length = fread(trace, 1, sizeof trace, file);
    int failed = ferror(file);
    fclose(file);
    if (failed)
        fail("cannot read", name);
    if (length > TRACE_BYTES)
        fail("more than 65536 bytes in", name);
    return length;
}

static c64x_ran run(const uint8_t *bytes, size_t length)
{
    memset(ext, 0, sizeof ext);
    c64x_answer started = c64x_chip_start(&chip, l1d, sizeof l1d, l2, sizeof l2, ext, sizeof ext, l1p, sizeof l1p);
    if (started.number != C64X_ACCEPTED) {
        fprintf(stderr, "cut-trace: %s\n", c64x_number_text(started.number));
        exit(2);
    }
    return c64x_chip_run(&chip, bytes, length, answers, sizeof answers);
}

/* The commands of a trace that a run has taken to its end. */
static void list_commands(size_t length)
{
    static const uint8_t numbers[] = {2, 3, 0, 0, 2, 2, 2, 2, 2, 0, 1, 2, 1};
    size_t at = 0;
    for (count = 0; at < length; count++) {
        struct command *command = &commands[count];
        command->code = trace[at++];
        for (int i = 0; i < numbers[command->code]; i++) {
            int shift = 0;
            command->numbers[i] = 0;
            do {
                command->numbers[i] |= (uint64_t)(trace[at] & 0x7F) << shift;
                shift += 7;
            } while (trace[at++] & 0x80);
        }
    }
}

/* Writes the commands, without one of them where `without` is below their count; the length. */
static size_t write_without(size_t without)
{
    c64x_trace_writer writer;
    c64x_trace_start(&writer, shorter, sizeof shorter);
    for (size_t i = 0; i < count; i++) {
        const struct command *command = &commands[i];
        if (i == without)
            continue;
        uint8_t number = c64x_trace_put(&writer, command->code, command->numbers[0], command->numbers[1],
                                        command->numbers[2]);
        if (number != C64X_ACCEPTED) {
            fprintf(stderr, "cut-trace: command %zu: %s\n", i + 1, c64x_number_text(number));
            exit(2);
        }
    }
    return writer.at;
}

/* Leaves out each command before the last whose answer does not need it; how many went. */
static size_t cut(c64x_answer wanted)
{
    size_t gone = 0;
    for (size_t i = 0; i + 1 < count;) {
        c64x_ran ran = run(shorter, write_without(i));
        c64x_answer answer = c64x_answer_at(answers, ran.count - 1);
        if (answer.number == wanted.number && answer.server == wanted.server && answer.value == wanted.value) {
            memmove(&commands[i], &commands[i + 1], (count - i - 1) * sizeof commands[0]);
            count--;
            gone++;
        } else {
            i++;
        }
    }
    return gone;
}

static void write_out(const char *name, size_t length)
{
    FILE *file = name == NULL ? stdout : fopen(name, "wb");
    if (name == NULL)
        name = "standard output";
    if (file == NULL)
        fail("cannot write to", name);
    size_t written = fwrite(shorter, 1, length, file);
    /* What cannot be written is often seen only here. */
    int failed = fflush(file) != 0 || written != length;
    if (file != stdout && fclose(file) != 0)
        failed = 1;
    if (failed)
        fail("cannot write to", name);
}

/* A whole number from 1 on in decimal, of at most nine digits; 0 if it is none. */
static size_t whole_number(const char *word)
{
    size_t number = 0;
    if (strlen(word) > 9)
        return 0;
    for (; *word != '\0'; word++) {
        if (*word < '0' || *word > '9')
            return 0;
        number = 10 * number + (size_t)(*word - '0');
    }
    return number;
}

static int usage(void)
{
    fprintf(stderr, "usage: cut-trace [--answer N] TRACE [OUTPUT]\n");
    return 2;
}

int main(int argc, char **argv)
{
    size_t wanted = 0;
    int word = 1;
    if (argc > 2 && strcmp(argv[1], "--answer") == 0) {
        wanted = whole_number(argv[2]);
        if (wanted == 0)
            fail("--answer needs a whole number above 0, not", argv[2]);
        word = 3;
    }
    if (argc - word < 1 || argc - word > 2 || argv[word][0] == '-')
        return usage();
    const char *name = argv[word];
    size_t length = read_trace(name);
    c64x_ran ran = run(trace, length);
    if (ran.stop != C64X_ACCEPTED) {
        fprintf(stderr, "cut-trace: '%s' is damaged at byte %zu, in command %zu\n", name, ran.consumed, ran.count + 1);
        return 2;
    }
    if (ran.count == 0)
        fail("no command in", name);
    if (wanted > ran.count) {
        fprintf(stderr, "cut-trace: there is no answer %zu: '%s' has %zu commands\n", wanted, name, ran.count);
        return 2;
    }
    if (wanted == 0)
        wanted = ran.count;
    c64x_answer answer = c64x_answer_at(answers, wanted - 1);
    list_commands(length);
    /* What comes behind an answer does not change it. */
    count = wanted;
    while (cut(answer) > 0)
        ;
    write_out(word + 1 < argc ? argv[word + 1] : NULL, write_without(count));
    fprintf(stderr, "cut-trace: %zu of %zu commands are left; answer %zu is number %d, server %d, value %llu\n", count,
            ran.count, wanted, answer.number, answer.server, (unsigned long long)answer.value);
    return 0;
}
