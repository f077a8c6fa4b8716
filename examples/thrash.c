/*
 * Thrashing, access by access. Lines of one set put each other out where they are more than the set has ways: two in
 * L1D, four in L2. Each access is told with who served it, what it put out of L1D and of L2, and how many bytes of
 * external memory it moved; then come the totals.
 *
 *   thrash                    lists that fit and lists that thrash, in modes 0, 1 and 7
 *   thrash MODE LINES WHAT    one list: MODE is 0, 1, 2, 3 or 7; so many LINES, 1 to 8, are gone through twice; WHAT is
 *                             read, write, or both, where each line is read and then written
 *
 * In mode 0 the lines are those of one set of L1D, in the others those of one set of L2, which are also lines of one
 * set of L1D. Each list is from a fresh start with MAR 128 on; L2 has 262,144 bytes, external memory 524,288, all zero.
 * Exit status: 0; 1 a call was refused; 2 bad usage.
 */
#include <stdio.h>
#include <stdlib.h>
#include <string.h>

#include "c64x_chip.h"

#define L2_BYTES 262144
#define EXTERNAL_BYTES 524288

enum what { READ = 1, WRITE = 2, BOTH = 3 };

struct list {
    unsigned mode;
    unsigned lines;
    enum what what;
};

/* What all accesses of a list came to. */
struct totals {
    unsigned accesses;
    unsigned by[C64X_SERVER_EXTERNAL + 1];
    unsigned l1d[C64X_LEFT_DIRTY + 1];
    unsigned l2[C64X_LEFT_DIRTY + 1];
    unsigned long read;
    unsigned long written;
};

static uint8_t l1d[C64X_L1D_BYTES];
static uint8_t l1p[C64X_L1P_BYTES];
static uint8_t l2[L2_BYTES];
static uint8_t ext[EXTERNAL_BYTES];
static c64x_chip chip;

static void accepted(c64x_answer answer)
{
    if (answer.number == C64X_ACCEPTED)
        return;
    fprintf(stderr, "thrash: %s\n", c64x_number_text(answer.number));
    exit(1);
}

/* How far apart the lines of one set are: the sets of L2 in this mode times the length of a line, or those of L1D. */
static uint32_t distance(unsigned mode)
{
    switch (mode) {
    case 2: return 128 * C64X_L2_LINE_BYTES;
    case 3: return 256 * C64X_L2_LINE_BYTES;
    case 7: return 512 * C64X_L2_LINE_BYTES;
    default: return C64X_L1D_SETS * C64X_L1D_LINE_BYTES; /* mode 1 has 64 sets: as many bytes */
    }
}

static void show_left(const char *cache, c64x_left left)
{
    if (left.kind == C64X_LEFT_CLEAN || left.kind == C64X_LEFT_DIRTY)
        printf("  %s %s %08lX", cache, c64x_left_text(left.kind), (unsigned long)left.address);
    else
        printf("  %s %-14s", cache, c64x_left_text(left.kind));
}

/* One access: what it did, and its part of the totals. */
static void access_line(struct totals *totals, int is_write, uint32_t address)
{
    c64x_answer answer = is_write ? c64x_chip_write(&chip, 4, address, 1) : c64x_chip_read(&chip, 4, address);
    accepted(answer);
    totals->accesses++;
    totals->by[answer.server]++;
    totals->l1d[answer.l1d_left.kind]++;
    totals->l2[answer.l2_left.kind]++;
    totals->read += answer.external_read;
    totals->written += answer.external_written;
    printf("%3u  %-5s %08lX  by %-15s", totals->accesses, is_write ? "write" : "read", (unsigned long)address,
           c64x_server_text(answer.server));
    show_left("L1D", answer.l1d_left);
    show_left("L2", answer.l2_left);
    printf("  read %3lu, written %3lu\n", (unsigned long)answer.external_read, (unsigned long)answer.external_written);
}

static void show_list(struct list list)
{
    static const char *const names[] = {"", "read", "written", "read, then written"};
    struct totals totals;
    memset(&totals, 0, sizeof totals);
    memset(ext, 0, sizeof ext);
    accepted(c64x_chip_start(&chip, l1d, sizeof l1d, l2, sizeof l2, ext, sizeof ext, l1p, sizeof l1p));
    accepted(c64x_chip_change_mar(&chip, 128, 1));
    accepted(c64x_chip_change_mode(&chip, list.mode));
    printf("mode %u: %u lines, %lu bytes apart, each %s, twice\n", list.mode, list.lines,
           (unsigned long)distance(list.mode), names[list.what]);
    for (int round = 0; round < 2; round++)
        for (unsigned line = 0; line < list.lines; line++) {
            uint32_t address = C64X_EXTERNAL_BASE + line * distance(list.mode);
            if (list.what & READ)
                access_line(&totals, 0, address);
            if (list.what & WRITE)
                access_line(&totals, 1, address);
        }
    printf("served by L1D %u, by the L2 cache %u, by external memory %u\n", totals.by[C64X_SERVER_L1D],
           totals.by[C64X_SERVER_L2_CACHE], totals.by[C64X_SERVER_EXTERNAL]);
    printf("put out of L1D %u clean, %u dirty; of L2 %u clean, %u dirty\n", totals.l1d[C64X_LEFT_CLEAN],
           totals.l1d[C64X_LEFT_DIRTY], totals.l2[C64X_LEFT_CLEAN], totals.l2[C64X_LEFT_DIRTY]);
    printf("bytes of external memory read %lu, written %lu\n", totals.read, totals.written);
}

static int usage(void)
{
    fprintf(stderr, "usage: thrash, or thrash MODE LINES read|write|both; MODE 0, 1, 2, 3 or 7, LINES 1 to 8\n");
    return 2;
}

/* One digit that is among these, or -1. */
static int digit_of(const char *word, const char *digits)
{
    return word[0] != '\0' && word[1] == '\0' && strchr(digits, word[0]) != NULL ? word[0] - '0' : -1;
}

static enum what what_of(const char *word)
{
    if (strcmp(word, "read") == 0)
        return READ;
    if (strcmp(word, "write") == 0)
        return WRITE;
    return strcmp(word, "both") == 0 ? BOTH : (enum what)0;
}

int main(int argc, char **argv)
{
    /* Two lines of a set of L1D fit, three do not; of a set of L2 four do, and five do not. */
    static const struct list lists[] = {
        {0, 2, READ}, {0, 3, READ}, {0, 3, BOTH}, {1, 4, READ}, {1, 5, READ}, {1, 5, BOTH}, {1, 5, WRITE}, {7, 5, BOTH},
    };
    if (argc == 4) {
        int mode = digit_of(argv[1], "01237"), lines = digit_of(argv[2], "12345678");
        enum what what = what_of(argv[3]);
        if (mode < 0 || lines < 0 || what == 0)
            return usage();
        show_list((struct list){(unsigned)mode, (unsigned)lines, what});
        return 0;
    }
    if (argc != 1)
        return usage();
    for (size_t i = 0; i < sizeof lists / sizeof lists[0]; i++) {
        if (i > 0)
            printf("\n");
        show_list(lists[i]);
    }
    return 0;
}
