/*
 * Camera frames, added up as the splicer does: each frame of a file goes through the chip, and the sums of its 64
 * columns are shown, as numbers and as a chart. Where the fibres run from row to row, that is their profile.
 *
 *   frames [--mode M] [--mar B] [--svg OUTPUT] FILE
 *
 * FILE holds frames one behind the other, each 48 rows of 64 pixels, a byte each: 3,072 bytes. M is the mode of L2: 0,
 * 1, 2, 3 or 7 (without the word: 1); B the bit of MAR 128: 1, the caches may hold the frames, or 0 (without the word:
 * 1). Neither changes a sum; what the caches hold after the last frame is another thing, and is told at the end. With
 * --svg the profiles of all frames are drawn into the file OUTPUT, in one picture.
 *
 * The chip is fresh; L2 has 262,144 bytes, external memory 65,536. Of a file that is cut off the whole frames are shown
 * before that is said. Exit status: 0; 1 the file is empty or cut off, or a frame was refused; 2 bad usage, or a file
 * that cannot be read or written.
 */
#include <errno.h>
#include <stdio.h>
#include <stdlib.h>
#include <string.h>

#include "c64x_chip.h"

#define L2_BYTES 262144
#define EXTERNAL_BYTES 65536
#define SECOND_PLACE 0xC00
/* The chart, and the picture: how high they are, and in the picture how wide a column is and what is left around. */
#define CHART_LINES 12
#define PICTURE_HEIGHT 240
#define PICTURE_COLUMN 10
#define PICTURE_EDGE 50

/* The sums of one frame. */
struct profile {
    uint32_t sums[C64X_FRAME_COLUMNS];
};

static uint8_t l1d[C64X_L1D_BYTES];
static uint8_t l1p[C64X_L1P_BYTES];
static uint8_t l2[L2_BYTES];
static uint8_t ext[EXTERNAL_BYTES];
static c64x_chip chip;
static struct profile *profiles;
static size_t profile_count;

static void fail(const char *what, const char *name, const char *why)
{
    fprintf(stderr, "frames: %s '%s': %s\n", what, name, why);
    exit(2);
}

static void accepted(c64x_answer answer)
{
    if (answer.number == C64X_ACCEPTED)
        return;
    fprintf(stderr, "frames: %s\n", c64x_number_text(answer.number));
    exit(1);
}

static uint32_t largest(const struct profile *profile)
{
    uint32_t most = 0;
    for (size_t column = 0; column < C64X_FRAME_COLUMNS; column++)
        if (profile->sums[column] > most)
            most = profile->sums[column];
    return most;
}

/* The sums, sixteen to a line, each line with its first column in front; then a chart as high as the largest sum. */
static void show(const struct profile *profile)
{
    uint32_t most = largest(profile);
    for (size_t column = 0; column < C64X_FRAME_COLUMNS; column++) {
        if (column % 16 == 0)
            printf("%5lu:", (unsigned long)column);
        printf(" %5lu%s", (unsigned long)profile->sums[column], column % 16 == 15 ? "\n" : "");
    }
    for (uint32_t line = CHART_LINES; line > 0; line--) {
        if (line == CHART_LINES)
            printf("%5lu |", (unsigned long)most);
        else
            printf("      |");
        for (size_t column = 0; column < C64X_FRAME_COLUMNS; column++)
            putchar(profile->sums[column] * CHART_LINES > (line - 1) * most ? '#' : ' ');
        printf("|\n");
    }
    printf("    0 +");
    for (size_t column = 0; column < C64X_FRAME_COLUMNS; column++)
        putchar(column % 8 == 0 ? '+' : '-');
    printf("+\n");
}

/* Keeps a profile for the picture. */
static void keep(const struct profile *profile)
{
    if ((profile_count & (profile_count - 1)) == 0) {
        size_t room = profile_count ? 2 * profile_count : 1;
        struct profile *more = (struct profile *)realloc(profiles, room * sizeof *more);
        if (more == NULL) {
            fprintf(stderr, "frames: no memory\n");
            exit(2);
        }
        profiles = more;
    }
    profiles[profile_count++] = *profile;
}

/* All profiles as lines, each in a colour of its own as far as there are some, to one scale. */
static void draw(const char *name)
{
    static const char *const colours[] = {"#1f77b4", "#d62728", "#2ca02c", "#ff7f0e", "#9467bd", "#17becf"};
    const unsigned width = C64X_FRAME_COLUMNS * PICTURE_COLUMN, bottom = PICTURE_EDGE + PICTURE_HEIGHT;
    uint32_t most = 1;
    FILE *file = fopen(name, "w");
    if (file == NULL)
        fail("cannot write", name, strerror(errno));
    for (size_t i = 0; i < profile_count; i++)
        if (largest(&profiles[i]) > most)
            most = largest(&profiles[i]);
    fprintf(file, "<svg xmlns=\"http://www.w3.org/2000/svg\" viewBox=\"0 0 %u %u\" font-family=\"sans-serif\" "
                  "font-size=\"14\">\n", width + 2 * PICTURE_EDGE, bottom + PICTURE_EDGE);
    fprintf(file, "<title>Column sums of %lu frames</title>\n", (unsigned long)profile_count);
    fprintf(file, "<rect width=\"100%%\" height=\"100%%\" fill=\"white\"/>\n");
    fprintf(file, "<path d=\"M%u %uV%uH%u\" fill=\"none\" stroke=\"black\"/>\n", PICTURE_EDGE, PICTURE_EDGE, bottom,
            PICTURE_EDGE + width);
    fprintf(file, "<text x=\"%u\" y=\"%u\" text-anchor=\"end\">%lu</text>\n", PICTURE_EDGE - 5, PICTURE_EDGE + 5,
            (unsigned long)most);
    fprintf(file, "<text x=\"%u\" y=\"%u\" text-anchor=\"end\">0</text>\n", PICTURE_EDGE - 5, bottom);
    for (unsigned column = 0; column < C64X_FRAME_COLUMNS; column += 8)
        fprintf(file, "<text x=\"%u\" y=\"%u\" text-anchor=\"middle\">%u</text>\n",
                PICTURE_EDGE + column * PICTURE_COLUMN + PICTURE_COLUMN / 2, bottom + 20, column);
    for (size_t i = 0; i < profile_count; i++) {
        fprintf(file, "<polyline fill=\"none\" stroke=\"%s\" stroke-width=\"2\" points=\"",
                colours[i % (sizeof colours / sizeof colours[0])]);
        for (unsigned column = 0; column < C64X_FRAME_COLUMNS; column++)
            fprintf(file, "%s%u,%lu", column ? " " : "", PICTURE_EDGE + column * PICTURE_COLUMN + PICTURE_COLUMN / 2,
                    (unsigned long)(bottom - profiles[i].sums[column] * PICTURE_HEIGHT / most));
        fprintf(file, "\"><title>frame %lu</title></polyline>\n", (unsigned long)i + 1);
    }
    fprintf(file, "</svg>\n");
    /* what did not fit is known at the end at the latest */
    int failed = ferror(file);
    errno = 0;
    if (fclose(file) != 0 || failed)
        fail("cannot write", name, errno ? strerror(errno) : "it is not all written");
}

/* One frame through the chip; the turn of the next one. */
static uint8_t one_frame(uint8_t turn, const uint8_t *pixels, unsigned long number, int is_drawn)
{
    c64x_framed framed = c64x_chip_frame(&chip, turn, pixels, C64X_FRAME_BYTES);
    if (framed.number != C64X_ACCEPTED) {
        fprintf(stderr, "frames: frame %lu: %s\n", number, c64x_number_text(framed.number));
        exit(1);
    }
    struct profile profile;
    memcpy(profile.sums, framed.sums, sizeof profile.sums);
    printf("frame %lu, at %08lX\n", number, (unsigned long)(C64X_EXTERNAL_BASE + (turn ? SECOND_PLACE : 0)));
    show(&profile);
    if (is_drawn)
        keep(&profile);
    return framed.turn;
}

/* How many lines the caches hold. */
static void show_caches(void)
{
    unsigned in_l1d = 0, in_l2 = 0;
    for (size_t set = 0; set < C64X_L1D_SETS; set++)
        for (size_t way = 0; way < C64X_L1D_WAYS; way++)
            in_l1d += chip.record.l1d[set].lines[way].valid;
    for (size_t set = 0; set < C64X_L2_SETS; set++)
        for (size_t way = 0; way < C64X_L2_WAYS; way++)
            in_l2 += chip.record.l2[set].lines[way].valid;
    printf("held then: %u lines of L1D, %u of L2\n", in_l1d, in_l2);
}

static int usage(void)
{
    fprintf(stderr, "usage: frames [--mode M] [--mar B] [--svg OUTPUT] FILE; M is 0, 1, 2, 3 or 7, B is 0 or 1\n");
    return 2;
}

/* One digit that is among these, or -1. */
static int digit_of(const char *word, const char *digits)
{
    return word[0] != '\0' && word[1] == '\0' && strchr(digits, word[0]) != NULL ? word[0] - '0' : -1;
}

int main(int argc, char **argv)
{
    int mode = 1, bit = 1, at = 1;
    const char *svg = NULL;
    for (; at + 1 < argc && argv[at][0] == '-' && argv[at][1] == '-'; at += 2) {
        if (strcmp(argv[at], "--mode") == 0)
            mode = digit_of(argv[at + 1], "01237");
        else if (strcmp(argv[at], "--mar") == 0)
            bit = digit_of(argv[at + 1], "01");
        else if (strcmp(argv[at], "--svg") == 0)
            svg = argv[at + 1];
        else
            return usage();
    }
    if (at + 1 != argc || argv[at][0] == '-' || mode < 0 || bit < 0)
        return usage();
    const char *name = argv[at];
    FILE *file = fopen(name, "rb");
    if (file == NULL)
        fail("cannot open", name, strerror(errno));
    accepted(c64x_chip_start(&chip, l1d, sizeof l1d, l2, sizeof l2, ext, sizeof ext, l1p, sizeof l1p));
    accepted(c64x_chip_change_mar(&chip, 128, (uint32_t)bit));
    accepted(c64x_chip_change_mode(&chip, (uint32_t)mode));

    uint8_t pixels[C64X_FRAME_BYTES], turn = 0;
    unsigned long frames = 0;
    size_t length;
    errno = 0;
    while ((length = fread(pixels, 1, sizeof pixels, file)) == sizeof pixels)
        turn = one_frame(turn, pixels, ++frames, svg != NULL);
    int failed = ferror(file), why = errno;
    fclose(file);
    if (frames > 0)
        show_caches();
    if (fflush(stdout) != 0 || ferror(stdout))
        fail("cannot write", "standard output", strerror(errno));
    if (svg != NULL && frames > 0)
        draw(svg);
    free(profiles);
    if (failed)
        fail("cannot read", name, strerror(why));
    if (frames == 0 && length == 0) {
        fprintf(stderr, "frames: '%s' is empty; a frame has %d bytes\n", name, C64X_FRAME_BYTES);
        return 1;
    }
    if (length > 0) {
        fprintf(stderr, "frames: '%s' is cut off: behind %lu whole frames %lu bytes are left; a frame has %d\n", name,
                frames, (unsigned long)length, C64X_FRAME_BYTES);
        return 1;
    }
    return 0;
}
