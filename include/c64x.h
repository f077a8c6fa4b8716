/*
 * c64x.h: the memory of TI's C64x processor, for programs in C and C++. An h behind a number: hexadecimal.
 *
 * A load or a store of the C64x meets up to three levels of memory:
 *
 *   L1D       a cache of 16 Kbytes, in 128 sets of 2 lines. A line is 64 bytes.
 *   L1P       beside it, for the program: a cache of 16 Kbytes, in 512 sets of 1 line. A line is 32 bytes, and fetches
 *             alone use it: loads and stores never look there.
 *   L2        32 to 256 Kbytes. The mode says how much of it is a cache of external memory, in sets of 4 lines of
 *             128 bytes. The rest is plain memory, called SRAM, at address 0.
 *   external  up to 32 Mbytes at address 80000000h. For each 16 Mbytes of it one bit, named MAR, says whether the
 *             caches may hold lines of it. With bit 0 every access goes past the caches.
 *
 * A line that the CPU has written in a cache is dirty: the memory behind it still has the old bytes, until the line
 * is written back. The calls below do what the processor does, and say which level served each access.
 *
 * ONE CHIP is one record and four memories. All five are yours, and they are the whole state: a copy of all five is
 * a copy of the chip.
 *
 *   record    a c64x_record: the mode, the MAR bits, whether L1D is frozen, how many lines are dirty, and which lines
 *             the caches hold. c64x_fresh writes it. You may read it at any time; there is no need ever to write to it.
 *   l1d       the bytes of L1D: exactly 16,384
 *   l2        the bytes of L2: a multiple of 32,768, from 32,768 to 262,144
 *   ext       the bytes of external memory: a multiple of 128, from 128 to 33,554,432
 *   l1p       the bytes of L1P: exactly 16,384
 *
 * Each memory is lent to a call as a pointer and a length in bytes. Lend the same memories to every call on a chip,
 * L1P's also to one that fetches nothing; only the view, which looks behind the caches, is lent neither L1D nor L1P.
 * The header c64x_chip.h keeps all five together, so that a call has one argument for them.
 *
 * WHAT A CALL ASKS OF YOU: no pointer is null (not even where the length is 0), what is lent to one call does not
 * overlap, and the record stands at an address that is a multiple of 4, as every c64x_record variable does.
 *
 * EVERYTHING ELSE IS CHECKED. Any record, any length and any number may be passed. What is wrong is refused by a
 * number:
 *
 *    0  accepted
 *    1  a length is not one of those above, or not the one that the record was made for
 *    2  the record is not well formed: a mark other than 0 or 1, a line in a set that is not its own or held twice, a
 *       line of memory that may not be cached, an order that names a line twice, a wrong count of dirty lines, a dirty
 *       line of L1P, and the like
 *    3  the size is not 1, 2, 4 or 8; of a non-aligned access: it is not 4 or 8
 *    4  the address is not a multiple of the size, but a non-aligned access may have any; a block's base, or a
 *       transfer's address, is not one of 4; a viewed address is not one of 64
 *    5  not all of the access, of the fetched or of the viewed line, lies in SRAM or in external memory
 *    6  the value needs more bytes than the size
 *    7  a block's count is above 65,535
 *    8  the mode is not 0, 1, 2, 3 or 7, or its cache is larger than L2
 *    9  the MAR is not 128 or 129, or the bit is above 1
 *   10  a MAR bit is to become 0 while a cache, L1P too, holds a line of that range
 *   11  the trace is damaged; of a command to be written: a code that traces lack, or a number that is too wide
 *   12  fewer than 10 answer bytes are left
 *   13  the length of a transfer is 0, not a multiple of 4, or above 262,140
 *   14  not all of the transfer lies in SRAM or in external memory
 *   15  the address of a fetch is not a multiple of 32
 *   16  fewer bytes of the output are left than the command, or the whole load, has
 *   17  L1D is to be frozen or thawed by a number above 1
 *   18  no short run: its number is above 4,680, it has more than four digits, or a digit is above 7
 *   19  external memory has fewer than 6,144 bytes: there is no room for two frames
 *   20  the frame does not have 3,072 bytes
 *
 * Where several are due, the lowest counts (only in a trace 11, then 12, come before 3 to 10 and 17; and of a fetch 15
 * comes before 5). A refused call changes nothing: no byte of the record, of a memory or of a buffer. (The one
 * exception is c64x_fresh; see there. A run that is stopped by 11 or 12 keeps what it did before.)
 *
 * PADDING. The record has bytes between its fields that mean nothing. No call looks at them. An accepted call may
 * change them, so compare two records field by field and not with memcmp.
 *
 * THREADS. The library keeps no state, neither between calls nor during one. Calls on different chips may run at the
 * same time on different threads. Calls on one chip may not: give each chip to one thread, or guard it by a lock.
 *
 * STACK. A call needs at most C64X_STACK_BYTES of stack. That leaves room to grow: no call was measured to take more
 * than 2,472 bytes. `sh bench/stack` measures each of them, and fails where one takes more than is said here.
 *
 * LINKING. The functions stand in crates/boundary/out/libboundary.a (64-bit x86), which `rt lib --cpu=x86-64`, run in
 * crates/boundary, writes. (Without that word rt builds for x86-64-v2, which older processors lack.)
 * They call nothing but memcpy and memset of the C library: no allocation, no files, no signals.
 */
#ifndef C64X_H
#define C64X_H

#include <stddef.h>
#include <stdint.h>

#ifdef __cplusplus
extern "C" {
#define C64X_ASSERT static_assert
#else
#define C64X_ASSERT _Static_assert
#endif

/*
 * The version of this interface. MAJOR goes up when a program that was written for the version before would have to
 * be changed or compiled again: another layout of a struct, other arguments, another meaning of a number. MINOR goes
 * up when calls are added, or when one does more than it did, and programs stay as they are. Version 1 passed the
 * record by value; since 2.4 the L2 commands reach all of L1D; since 2.5 L1D can be frozen, and a byte of the record
 * that was padding says whether it is; since 3.0 two counts of dirty lines stand in front of the record's sets; since
 * 4.0 an answer also tells which lines an access put out and how many bytes of external memory it moved; since 4.1
 * there are non-aligned accesses; since 4.2 there are transfers; since 4.3 there are frames; since 5.0 there are
 * program fetches: every call but the view is lent L1P's bytes too, behind external memory, the sets of L1P stand
 * behind all that the record had, and there is a server 5.
 */
#define C64X_VERSION_MAJOR 5
#define C64X_VERSION_MINOR 0

/* The stack that a call needs at most, in bytes. */
#define C64X_STACK_BYTES 4096

#define C64X_L1D_BYTES 16384
#define C64X_L1D_SETS 128
#define C64X_L1D_WAYS 2
#define C64X_L1D_LINE_BYTES 64
#define C64X_L2_SETS 512
#define C64X_L2_WAYS 4
#define C64X_L2_LINE_BYTES 128
#define C64X_L1P_BYTES 16384
#define C64X_L1P_SETS 512
#define C64X_L1P_WAYS 1
#define C64X_L1P_LINE_BYTES 32
#define C64X_EXTERNAL_BASE UINT32_C(0x80000000)
/* One answer of a run. */
#define C64X_ANSWER_BYTES 10
/* What c64x_view shows. */
#define C64X_VIEW_BYTES 64
/* How many short runs there are, and the digits of the longest. */
#define C64X_SHORT_RUNS 4681
#define C64X_SHORT_RUN_DIGITS 4
/* The longest command of a trace: a code, two numbers of 32 bits and one of 64. */
#define C64X_COMMAND_BYTES 21
/* The longest access of a load: a write. */
#define C64X_LOAD_ACCESS_BYTES 12
/* The longest transfer. */
#define C64X_TRANSFER_BYTES 262140
/* A frame of the camera: one byte for each pixel. */
#define C64X_FRAME_ROWS 48
#define C64X_FRAME_COLUMNS 64
#define C64X_FRAME_BYTES 3072

/*
 * One line of a cache. `valid`: it holds something; `dirty`: what it holds is not yet in the memory behind; `address`
 * is that of its first byte. Where `valid` is 0 the other two are 0. A mark other than 0 or 1 is refused with 2.
 */
typedef struct {
    uint8_t valid;
    uint8_t dirty;
    uint32_t address;
} c64x_line;

/* The lines of a set, numbered from 0, in the order of their use: the one used last comes first. */
typedef struct {
    uint8_t first;
    uint8_t second;
} c64x_order2;

typedef struct {
    uint8_t first;
    uint8_t second;
    uint8_t third;
    uint8_t fourth;
} c64x_order4;

typedef struct {
    c64x_line lines[C64X_L1D_WAYS];
    c64x_order2 order;
} c64x_l1d_set;

typedef struct {
    c64x_line lines[C64X_L2_WAYS];
    c64x_order4 order;
} c64x_l2_set;

/* One line, so there is no order of use. It is never dirty: nothing writes to L1P. */
typedef struct {
    c64x_line lines[C64X_L1P_WAYS];
} c64x_l1p_set;

/*
 * The lengths of L2 and of external memory, the L2 mode, the MAR bits (0 or 1), whether L1D is frozen (1) or not (0),
 * how many lines of L1D and of L2 are dirty, and the sets of the three caches. How many sets of L2 are in use goes by
 * the mode: none in mode 0, 64 in mode 1, 128 in 2, 256 in 3, 512 in 7. A number other than 0 or 1 for a MAR bit or for
 * `frozen`, or a count that is not that of the lines marked dirty, is refused with 2.
 */
typedef struct {
    uint32_t l2len;
    uint32_t extlen;
    uint8_t mode;
    uint8_t mar128;
    uint8_t mar129;
    uint8_t frozen;
    uint32_t dirty_l1d;
    uint32_t dirty_l2;
    c64x_l1d_set l1d[C64X_L1D_SETS];
    c64x_l2_set l2[C64X_L2_SETS];
    c64x_l1p_set l1p[C64X_L1P_SETS];
} c64x_record;

/*
 * Which line was put out. An access that brings a line into a cache chooses a way of its set for it: the lowest that is
 * empty, else the one used longest ago. What stood there leaves. `kind` says what that was:
 *
 *   0  no way was chosen: nothing came into this cache
 *   1  the way was empty: something came, and nothing left
 *   2  a clean line left: the memory behind has its bytes already
 *   3  a dirty line left: its bytes went to the memory behind
 *
 * `address` is that of the first byte of the line that left; 0 for kinds 0 and 1. Lines that put each other out again
 * and again, one of them coming for each that leaves, are lines of one set that are more than it has ways: in L1D three
 * or more at a distance of 8,192 bytes or a multiple; in L2 five or more, the distance being 8,192 bytes in mode 1,
 * 16,384 in 2, 32,768 in 3 and 65,536 in 7. examples/thrash.c shows both.
 */
typedef struct {
    uint32_t address;
    uint8_t kind;
} c64x_left;

/*
 * What a call returns.
 *   value             what an accepted read has read; 0 for every other call
 *   number            0, or why the call was refused: the table above
 *   server            who served an accepted read, write or fetch: 1 L1D, 2 SRAM, 3 the L2 cache, 4 external memory
 *                     (also where the L2 cache had to fetch the line first), 5 L1P; 0 for every other call
 *   l1d_left          what the access put out of L1D, dirty or clean as it was when its way was chosen. Only a read of
 *                     what L1D does not hold brings a line into it, and not while L1D is frozen: a hit, and every
 *                     write, has kind 0
 *   l2_left           what the access put out of the L2 cache, where that had to fetch a line, for a read or a write. A
 *                     line that leaves L2 first takes in what is dirty of it in L1D, and is told dirty if it is so
 *                     then: in the record before the access it may have been clean
 *   external_read     how many bytes the access took out of external memory
 *   external_written  how many bytes it put there
 *
 * Neither count is ever above 128 (256 for a non-aligned access). A line that L2 fetches is 128 bytes read, a dirty one
 * that leaves it 128 written. In mode 0 nothing stands between L1D and external memory: a line that comes from there
 * into L1D is 64 read, a dirty one that goes back 64 written. An access to external memory itself counts its own 1, 2,
 * 4 or 8 bytes: with MAR bit 0, and in mode 0 a write of what L1D does not hold, or a read of it while L1D is frozen.
 * What moves between L1D, SRAM and the L2 cache does not count.
 *
 * L1D lines that go because their L2 line is put out are told by neither `left`: no way was chosen for them. A refused
 * call, and every call that is no read, write or fetch, has kind 0 in both and counts of 0, whatever it wrote back or
 * moved. A fetch has kind 0 in `l1d_left`, which it never looks at, and its L1P way beside the answer. A non-aligned
 * access has its counts, and kind 0 in both `left`. The answers of a run carry none of this: to see what an
 * access puts out, make it as a call of its own.
 */
typedef struct {
    uint64_t value;
    uint8_t number;
    uint8_t server;
    c64x_left l1d_left;
    c64x_left l2_left;
    uint32_t external_read;
    uint32_t external_written;
} c64x_answer;

/*
 * What a run returns: how many bytes of the trace it has carried out, how many answers it has written, and why it
 * stopped: 0 at the end of the trace, else 1, 2, 11 or 12.
 */
typedef struct {
    size_t consumed;
    size_t count;
    uint8_t stop;
} c64x_ran;

/*
 * A short run, as c64x_short_run_of gives it: `number` is 0 or 18, `length` says how many digits the run has (0 to 4),
 * and the digits stand in the order in which they are carried out. Digits behind the length are 0.
 */
typedef struct {
    uint8_t number;
    uint8_t length;
    uint8_t digits[C64X_SHORT_RUN_DIGITS];
} c64x_short_run;

/* The place of a short run in the list of all: `number` is 0 or 18, `run` is 0 to 4,680. */
typedef struct {
    uint8_t number;
    uint32_t run;
} c64x_run_number;

/*
 * What c64x_put_command returns: the place behind the command in the output (where it was refused, the place that was
 * given), and 0, 11 or 16.
 */
typedef struct {
    size_t at;
    uint8_t number;
} c64x_put;

/* What c64x_load_trace returns: how many bytes the trace has (0 where it was refused), and 0, 1 or 16. */
typedef struct {
    size_t length;
    uint8_t number;
} c64x_load;

/*
 * What c64x_frame returns.
 *   number  0, or why the frame was refused: 1, 2, 19 or 20
 *   turn    the next frame's turn, 0 or 1: the other one where this frame was accepted, the same where it was refused
 *   sums    of each column its 48 pixels added up, the leftmost column first; all 0 where the frame was refused
 */
typedef struct {
    uint8_t number;
    uint8_t turn;
    uint32_t sums[C64X_FRAME_COLUMNS];
} c64x_framed;

/*
 * What c64x_fetch returns.
 *   answer    number, server, `l2_left` and the counts, as of a read; its value is 0: the bytes stand below
 *   l1p_left  what the fetch put out of L1P: kind 0 for a hit and with MAR bit 0, else 1 or 2, since no line is dirty
 *   bytes     the line, the byte at the address first; all 0 where the fetch was refused
 */
typedef struct {
    c64x_answer answer;
    c64x_left l1p_left;
    uint8_t bytes[C64X_L1P_LINE_BYTES];
} c64x_fetched;

C64X_ASSERT(sizeof(size_t) == 8, "the library is for 64 bits");
C64X_ASSERT(sizeof(c64x_line) == 8, "c64x_line");
C64X_ASSERT(offsetof(c64x_line, valid) == 0, "c64x_line");
C64X_ASSERT(offsetof(c64x_line, dirty) == 1, "c64x_line");
C64X_ASSERT(offsetof(c64x_line, address) == 4, "c64x_line");
C64X_ASSERT(sizeof(c64x_order2) == 2, "c64x_order2");
C64X_ASSERT(offsetof(c64x_order2, second) == 1, "c64x_order2");
C64X_ASSERT(sizeof(c64x_order4) == 4, "c64x_order4");
C64X_ASSERT(offsetof(c64x_order4, second) == 1, "c64x_order4");
C64X_ASSERT(offsetof(c64x_order4, third) == 2, "c64x_order4");
C64X_ASSERT(offsetof(c64x_order4, fourth) == 3, "c64x_order4");
C64X_ASSERT(sizeof(c64x_l1d_set) == 20, "c64x_l1d_set");
C64X_ASSERT(offsetof(c64x_l1d_set, order) == 16, "c64x_l1d_set");
C64X_ASSERT(sizeof(c64x_l2_set) == 36, "c64x_l2_set");
C64X_ASSERT(offsetof(c64x_l2_set, order) == 32, "c64x_l2_set");
C64X_ASSERT(sizeof(c64x_l1p_set) == 8, "c64x_l1p_set");
C64X_ASSERT(offsetof(c64x_l1p_set, lines) == 0, "c64x_l1p_set");
C64X_ASSERT(sizeof(c64x_record) == 25108, "c64x_record");
C64X_ASSERT(offsetof(c64x_record, l2len) == 0, "c64x_record");
C64X_ASSERT(offsetof(c64x_record, extlen) == 4, "c64x_record");
C64X_ASSERT(offsetof(c64x_record, mode) == 8, "c64x_record");
C64X_ASSERT(offsetof(c64x_record, mar128) == 9, "c64x_record");
C64X_ASSERT(offsetof(c64x_record, mar129) == 10, "c64x_record");
C64X_ASSERT(offsetof(c64x_record, frozen) == 11, "c64x_record");
C64X_ASSERT(offsetof(c64x_record, dirty_l1d) == 12, "c64x_record");
C64X_ASSERT(offsetof(c64x_record, dirty_l2) == 16, "c64x_record");
C64X_ASSERT(offsetof(c64x_record, l1d) == 20, "c64x_record");
C64X_ASSERT(offsetof(c64x_record, l2) == 2580, "c64x_record");
C64X_ASSERT(offsetof(c64x_record, l1p) == 21012, "c64x_record");
C64X_ASSERT(sizeof(c64x_left) == 8, "c64x_left");
C64X_ASSERT(offsetof(c64x_left, address) == 0, "c64x_left");
C64X_ASSERT(offsetof(c64x_left, kind) == 4, "c64x_left");
C64X_ASSERT(sizeof(c64x_answer) == 40, "c64x_answer");
C64X_ASSERT(offsetof(c64x_answer, value) == 0, "c64x_answer");
C64X_ASSERT(offsetof(c64x_answer, number) == 8, "c64x_answer");
C64X_ASSERT(offsetof(c64x_answer, server) == 9, "c64x_answer");
C64X_ASSERT(offsetof(c64x_answer, l1d_left) == 12, "c64x_answer");
C64X_ASSERT(offsetof(c64x_answer, l2_left) == 20, "c64x_answer");
C64X_ASSERT(offsetof(c64x_answer, external_read) == 28, "c64x_answer");
C64X_ASSERT(offsetof(c64x_answer, external_written) == 32, "c64x_answer");
C64X_ASSERT(sizeof(c64x_ran) == 24, "c64x_ran");
C64X_ASSERT(offsetof(c64x_ran, consumed) == 0, "c64x_ran");
C64X_ASSERT(offsetof(c64x_ran, count) == 8, "c64x_ran");
C64X_ASSERT(offsetof(c64x_ran, stop) == 16, "c64x_ran");
C64X_ASSERT(sizeof(c64x_short_run) == 6, "c64x_short_run");
C64X_ASSERT(offsetof(c64x_short_run, number) == 0, "c64x_short_run");
C64X_ASSERT(offsetof(c64x_short_run, length) == 1, "c64x_short_run");
C64X_ASSERT(offsetof(c64x_short_run, digits) == 2, "c64x_short_run");
C64X_ASSERT(sizeof(c64x_run_number) == 8, "c64x_run_number");
C64X_ASSERT(offsetof(c64x_run_number, number) == 0, "c64x_run_number");
C64X_ASSERT(offsetof(c64x_run_number, run) == 4, "c64x_run_number");
C64X_ASSERT(sizeof(c64x_put) == 16, "c64x_put");
C64X_ASSERT(offsetof(c64x_put, at) == 0, "c64x_put");
C64X_ASSERT(offsetof(c64x_put, number) == 8, "c64x_put");
C64X_ASSERT(sizeof(c64x_load) == 16, "c64x_load");
C64X_ASSERT(offsetof(c64x_load, length) == 0, "c64x_load");
C64X_ASSERT(offsetof(c64x_load, number) == 8, "c64x_load");
C64X_ASSERT(sizeof(c64x_framed) == 260, "c64x_framed");
C64X_ASSERT(offsetof(c64x_framed, number) == 0, "c64x_framed");
C64X_ASSERT(offsetof(c64x_framed, turn) == 1, "c64x_framed");
C64X_ASSERT(offsetof(c64x_framed, sums) == 4, "c64x_framed");
C64X_ASSERT(sizeof(c64x_fetched) == 80, "c64x_fetched");
C64X_ASSERT(offsetof(c64x_fetched, answer) == 0, "c64x_fetched");
C64X_ASSERT(offsetof(c64x_fetched, l1p_left) == 40, "c64x_fetched");
C64X_ASSERT(offsetof(c64x_fetched, bytes) == 48, "c64x_fetched");
C64X_ASSERT(C64X_L1P_BYTES == C64X_L1P_SETS * C64X_L1P_LINE_BYTES, "L1P has a line for each set");
C64X_ASSERT(C64X_FRAME_BYTES == C64X_FRAME_ROWS * C64X_FRAME_COLUMNS, "a frame has a byte for each pixel");

/* The four memories, as every call but the view is lent them. */
#define C64X_LENT \
    uint8_t *l1d, size_t l1d_len, uint8_t *l2, size_t l2_len, uint8_t *ext, size_t ext_len, uint8_t *l1p, size_t l1p_len

/*
 * The chip after reset: mode 0, both MAR bits 0, L1D not frozen, nothing in the caches. What stood in the record before
 * does not matter. The bytes of L1D, L2 and L1P become 0, external memory is kept. Refused: 1 only. The record then
 * becomes that of a fresh chip with 32,768 bytes of L2 and 128 of external memory; no memory changes.
 */
c64x_answer c64x_fresh(c64x_record *record, C64X_LENT);

/*
 * A load or a store by the CPU, of 1, 2, 4 or 8 bytes, the lowest byte first in memory. SRAM begins at address 0 and
 * external memory at 80000000h. The answer tells which lines it put out, and what it moved from and to external memory:
 * a program that thrashes a set shows there. Refused: 1 to 5, a write also 6.
 */
c64x_answer c64x_read(c64x_record *record, uint32_t size, uint32_t address, C64X_LENT);
c64x_answer c64x_write(c64x_record *record, uint32_t size, uint32_t address, uint64_t value, C64X_LENT);

/*
 * The processor's non-aligned accesses (LDNW, LDNDW, STNW, STNDW): a load or a store of 4 or 8 bytes at any address,
 * one that is a multiple of the size too, the lowest byte first in memory. It is done as 4 or 8 accesses of one byte
 * each, from the lowest address up, and does to the caches what these would do: across the end of a line it uses two
 * lines of L1D, and with them may fetch two of L2. All its bytes are checked before the first is touched: one that lies
 * outside is enough for 5, also one above FFFFFFFFh, and nothing has moved then.
 *
 * The answer is one for all bytes. `server` is the highest of theirs: 4 where any of them came from external memory,
 * though the others were in L1D. `external_read` and `external_written` are the sums over the bytes, at most 256 each:
 * two lines of L2 fetched, and two dirty ones that left for them. `l1d_left` and `l2_left` tell nothing, with kind 0
 * and address 0, since up to two lines leave each cache: to see which, make the accesses of one byte by c64x_read and
 * c64x_write. A trace has no such access. Refused: 1, 2, 3 (also sizes 1 and 2), 5, a write also 6.
 */
c64x_answer c64x_read_unaligned(c64x_record *record, uint32_t size, uint32_t address, C64X_LENT);
c64x_answer c64x_write_unaligned(c64x_record *record, uint32_t size, uint32_t address, uint64_t value, C64X_LENT);

/*
 * A program fetch: the 32 bytes of one line of L1P, from an address that is a multiple of 32. L1P holds lines of SRAM,
 * and of external memory where the MAR bit is 1; with bit 0 the bytes come from external memory itself and nothing is
 * kept. What L1P does not hold comes as for a read: from SRAM, from the L2 cache, which fetches its 128 bytes where it
 * has to and puts a line out for them, or in mode 0 from external memory, of which 32 bytes are read then. The line
 * comes into the one way of its set, address / 32 % 512, and what stood there leaves; `l1p_left` tells it.
 *
 * A FETCH DOES NOT SEE WHAT WAS JUST WRITTEN. It never looks in L1D, so what is dirty there is not in its bytes. And a
 * line that L1P holds stays as it was fetched: writes, transfers, and L2 lines that are put out leave it alone. It goes
 * by
 *
 *   c64x_l1p_invalidate_block and c64x_l1p_invalidate_all,
 *   c64x_l2_writeback_invalidate_all, c64x_l2_writeback_invalidate_block, c64x_l2_invalidate_block and c64x_frame, each
 *   where it lies inside a line that the L2 cache holds and that the command acts on; in mode 0 there is none,
 *   every accepted mode change, and a fetch of another line of its set.
 *
 * So a program that is loaded or changed is fetched as it is now after c64x_l2_writeback_invalidate_block and
 * c64x_l1p_invalidate_block over it. L1P is never frozen. A trace has no fetches. Refused: 1, 2, 15, 5, in this order.
 */
c64x_fetched c64x_fetch(c64x_record *record, uint32_t address, C64X_LENT);

/*
 * Lines leave L1P: those of a block (as below: a line belongs to it if one of its 32 bytes does), or all. Nothing can
 * be lost by that, no line of L1P being dirty, and no byte of any memory changes. A trace has neither. Refused: 1 and
 * 2, the block also 4 and 7.
 */
c64x_answer c64x_l1p_invalidate_block(c64x_record *record, uint32_t base, uint32_t count, C64X_LENT);
c64x_answer c64x_l1p_invalidate_all(c64x_record *record, C64X_LENT);

/*
 * The cache commands, on all lines or on those of a block. A block is the address of its first byte (`base`) and a
 * `count` of 4-byte words; a line belongs to it if a byte of it does. It may lie anywhere.
 *
 *   writeback             dirty lines go to the memory behind; they stay in the cache, clean
 *   writeback-invalidate  the same, then the lines leave the cache
 *   invalidate            the lines leave the cache; what was written to them is lost
 *
 * An L2 command reaches L1D first, in every mode and for SRAM too. One on all lines sends every dirty line of L1D to
 * the memory behind it (SRAM, the L2 cache, or in mode 0 external memory), and L1D is empty then. One on a block does
 * so with the L1D lines of the block, 64 bytes each; invalidate drops them. Then come the L2 lines, of which mode 0 has
 * none. With an L2 line of the block goes the L1D line inside it that does not belong to the block: a dirty one goes
 * into the L2 line (invalidate drops it), and it leaves L1D. So after c64x_l2_writeback_all and
 * c64x_l2_writeback_invalidate_all no line is dirty in either cache, in any mode, and SRAM and external memory have all
 * that was written to them, but for what an invalidate has lost. The order of use stays as it is in every set. With
 * each L2 line that leaves by a command go the lines of L1P inside it, up to four; a writeback, after which the L2 line
 * stays, and the L1D commands leave L1P alone. Refused: 1 and 2, and blocks 4 and 7.
 */
c64x_answer c64x_l2_writeback_all(c64x_record *record, C64X_LENT);
c64x_answer c64x_l2_writeback_invalidate_all(c64x_record *record, C64X_LENT);
c64x_answer c64x_l2_writeback_block(c64x_record *record, uint32_t base, uint32_t count, C64X_LENT);
c64x_answer c64x_l2_writeback_invalidate_block(c64x_record *record, uint32_t base, uint32_t count, C64X_LENT);
c64x_answer c64x_l2_invalidate_block(c64x_record *record, uint32_t base, uint32_t count, C64X_LENT);
c64x_answer c64x_l1d_writeback_invalidate_block(c64x_record *record, uint32_t base, uint32_t count, C64X_LENT);
c64x_answer c64x_l1d_invalidate_block(c64x_record *record, uint32_t base, uint32_t count, C64X_LENT);
c64x_answer c64x_l1d_invalidate_all(c64x_record *record, C64X_LENT);

/*
 * Another L2 mode, or the same again. The L2 cache has no bytes in mode 0, 32,768 in mode 1, 65,536 in 2, 131,072 in
 * 3 and 262,144 in 7; SRAM is what is left of L2. All dirty lines are written back and all lines leave, those of L1P
 * too, whose bytes stay as they are. SRAM that
 * both the old and the new mode have is kept; every later byte of L2 becomes 0. A frozen L1D stays frozen. Refused: 1,
 * 2, 8.
 */
c64x_answer c64x_change_mode(c64x_record *record, uint32_t mode, C64X_LENT);

/*
 * May the caches hold lines of external memory? MAR 128 says it of the 16 Mbytes from 80000000h on, MAR 129 of those
 * from 81000000h on: bit 1 yes, bit 0 no. Refused: 1, 2, 9, and 10 where a cache still holds a line of the range.
 */
c64x_answer c64x_change_mar(c64x_record *record, uint32_t mar, uint32_t bit, C64X_LENT);

/*
 * Freezes L1D (1), as an interrupt routine may do to keep what it holds, or thaws it (0). A frozen L1D serves what it
 * holds as before, and a write to such a line makes it dirty, but the order of use stays as it is. A read of something
 * else takes just its bytes from SRAM, from the L2 cache or, in mode 0, from external memory: nothing comes into L1D,
 * and no line leaves it for that. L2 is not frozen: it fetches lines, uses them and puts others out, and a line that
 * leaves it still takes its two halves out of L1D. Writes to what L1D does not hold, the cache commands and mode
 * changes do what they always do. Refused: 1, 2, 17.
 */
c64x_answer c64x_freeze(c64x_record *record, uint32_t frozen, C64X_LENT);

/*
 * A transfer by the EDMA, which moves the camera's frames: in, from a buffer to memory, or out, from memory to a
 * buffer. It moves all `length` bytes of the buffer, to or from the memory at the address. It is no access of the CPU:
 * its answer has the number, and 0 in every other field. What the caches have to do with it goes by the memory:
 *
 *   SRAM      each L1D line that has a byte of the transfer goes to SRAM first if it is dirty, and leaves L1D, whether
 *             the transfer goes in or out. So a transfer out brings what the CPU has written, and what came in is what
 *             the CPU sees from then on. The order of use stays as it is in every set.
 *   external  no cache is looked at, in any mode and with either MAR bit. A transfer out brings what stands in external
 *             memory itself, not what is dirty in a cache. After a transfer in the CPU goes on seeing each line that a
 *             cache holds, and a dirty one goes over the new bytes when it is written back. To share a place with the
 *             EDMA, let it begin and end at multiples of 128, and between the last access or fetch of it and the
 *             transfer make both c64x_l2_writeback_invalidate_block and c64x_l1d_writeback_invalidate_block over it.
 *
 * The buffer overlaps nothing else that is lent. Its length is a multiple of 4, from 4 to C64X_TRANSFER_BYTES; every
 * other length gets 13, however large it is, and then the buffer is not looked at. A refused transfer out leaves its
 * buffer as it was. A trace has no transfers. Refused: 1, 2, 4, 13, 14.
 */
c64x_answer c64x_transfer_in(c64x_record *record, uint32_t address, const uint8_t *buffer, size_t length, C64X_LENT);
c64x_answer c64x_transfer_out(c64x_record *record, uint32_t address, uint8_t *buffer, size_t length, C64X_LENT);

/*
 * One frame of the camera, added up as the splicer does. A frame is 48 rows of 64 pixels, a byte each, row by row.
 * Frames go to two places in turn: turn 0 to 80000000h, turn 1 to 80000C00h. The call makes the place ready, moves the
 * frame there and adds it up, by these calls:
 *
 *   c64x_l2_writeback_invalidate_block, then c64x_l1d_writeback_invalidate_block, over the 768 words of the place
 *   c64x_transfer_in, of all 3,072 bytes
 *   c64x_read of one byte for each pixel, from the first to the last
 *
 * So it leaves the chip as these do, with the frame in external memory and, where its MAR bit is 1, in the caches. In
 * any mode, with either MAR bit, with L1D frozen or not, and whatever the caches held, the sums are those of `pixels`.
 *
 * Begin with turn 0 and hand on the `turn` that comes back. A turn other than 0 and 1 is taken by its last bit, also
 * where the frame is refused: 7 comes back as 1. A refused frame is refused by itself: the next one has its turn, and
 * nothing else is changed.
 *
 *   uint8_t turn = 0;
 *   c64x_framed framed = c64x_frame(&record, turn, pixels, sizeof pixels, l1d, .., l1p, l1p_len);
 *   turn = framed.turn;
 *
 * The pixels overlap nothing else that is lent. `length` is their number, C64X_FRAME_BYTES; every other one gets 20,
 * however large it is, and then the pixels are not looked at. A trace has no frames. Refused: 1, 2, 19, 20.
 */
c64x_framed c64x_frame(c64x_record *record, uint8_t turn, const uint8_t *pixels, size_t length, C64X_LENT);

/*
 * Many calls at once: a trace is a list of commands in bytes. A command is one byte, its code, and its numbers:
 *
 *    0  read (size, address)                            7  L1D block writeback-invalidate (base, count)
 *    1  write (size, address, value)                    8  L1D block invalidate (base, count)
 *    2  L2 writeback all                                9  L1D invalidate all
 *    3  L2 writeback-invalidate all                    10  mode (mode)
 *    4  L2 block writeback (base, count)               11  MAR (mar, bit)
 *    5  L2 block writeback-invalidate (base, count)    12  freeze (frozen)
 *    6  L2 block invalidate (base, count)
 *
 * A number is written in groups of seven bits, the lowest first, in one byte each; every byte but the last has its
 * top bit set. 5 is 05, 300 is AC 02, 80000000h is 80 80 80 80 08. Longer forms of the same number are damage.
 *
 * Each command gives one answer of 10 bytes: its number, its server, and its value in 8 bytes, the lowest first. A
 * command that is refused by 3 to 10 or 17 is answered so, and the run goes on. 11 and 12 stop it in front of their
 * command; what ran before stands, and answer bytes behind the last answer stay as they were. 1 and 2 stop it at once.
 */
c64x_ran c64x_run(c64x_record *record, const uint8_t *trace, size_t trace_len, C64X_LENT, uint8_t *answers,
                  size_t answers_len);

/*
 * Writing a trace: puts one command into the output, from its byte `at` on, in the form that c64x_run reads. The
 * numbers come in the order of the table above: `first`, `second`, then the value of a write, whose size is `first` and
 * whose address is `second`. A number that the code does not take is not looked at. To write a trace, begin with `at` 0
 * and hand on the `at` that comes back; at the end it is the length of the trace.
 *
 *   uint8_t trace[64];
 *   c64x_put put = c64x_put_command(trace, sizeof trace, 0, 11, 128, 1, 0);                      MAR 128 on
 *   put = c64x_put_command(trace, sizeof trace, put.at, 1, 4, C64X_EXTERNAL_BASE, 5);            write 4 bytes
 *
 * Refused: 11 for a code that is not in the table, or for a number of the command that is too wide: above FFFFFFFFh;
 * only the value of a write may have 64 bits. Then 16, where the command has more bytes than are left, also for an `at`
 * behind the end. A refused command changes no byte, and `at` comes back as it was. No more is asked of the numbers: a
 * read of 3 bytes is a command, which c64x_run answers with 3. Bytes before `at` and behind the command never change.
 */
c64x_put c64x_put_command(uint8_t *out, size_t out_len, size_t at, uint32_t code, uint64_t first, uint64_t second,
                          uint64_t value);

/*
 * A load to repeat, so that every bench can exercise a chip alike: puts the trace of so many accesses to the start of
 * the output, in the form that c64x_run reads. The trace goes by the three numbers alone, and is for a chip that has
 * `extlen` bytes of external memory. Words of 32 bits are made of the seed: the first is the seed, the next 54 are each
 * the one before plus 9E3779B9h, and from then on each is the sum of the words 24 and 55 places back, all modulo 2 to
 * the 32. From the 56th on each gives an aligned access of 4 bytes to external memory: a write of the word itself where
 * its bit 31 is set, else a read, at the offset 4 * (word % (extlen / 4)). Such a chip refuses none of them.
 *
 * A read has 7 bytes and a write 12, so C64X_LOAD_ACCESS_BYTES for each access are always enough. Refused: 1 for an
 * `extlen` that external memory cannot have, then 16 where the output is too short for the whole trace. A refused call
 * changes no byte, and bytes behind the trace never change. No accesses are a trace of 0 bytes. However many accesses
 * are asked for, the call takes no longer than filling the output does.
 */
c64x_load c64x_load_trace(uint32_t seed, uint32_t extlen, uint64_t accesses, uint8_t *out, size_t out_len);

/*
 * Looking behind the caches: the 64 bytes that SRAM or external memory itself has at a multiple of 64, whatever the
 * caches hold of them. They go into the first 64 bytes of `seen`; its later bytes stay as they are. Returns the number:
 * 0, or 1 (also for a `seen` of fewer than 64 bytes), 2, 4 or 5, and then nothing is written. The record and the
 * memories are only read.
 */
uint8_t c64x_view(const c64x_record *record, uint32_t address, const uint8_t *l2, size_t l2_len, const uint8_t *ext,
                  size_t ext_len, uint8_t *seen, size_t seen_len);

/* The number of that view by itself. */
uint8_t c64x_view_number(const c64x_record *record, uint32_t address, const uint8_t *l2, size_t l2_len,
                         const uint8_t *ext, size_t ext_len);

/*
 * All short runs, for a bench that wants to try every one of them. A short run is up to four commands out of eight,
 * each written as a digit, to be carried out after MAR 128 was set to 1:
 *
 *    0  read one byte at 80000000h            4  L2 writeback all
 *    1  read one byte at 80002000h            5  L2 writeback-invalidate all
 *    2  write 1 to the byte at 80000000h      6  mode 0
 *    3  write 2 to the byte at 80002000h      7  mode 1
 *
 * There are 4,681 of them, in one list: shorter ones first, those of one length by their digits, of which the first
 * weighs most. Number 0 is the empty run, 1 to 8 are 0 to 7, 9 is 0 0, 72 is 7 7, and 4,680 is 7 7 7 7. Every run has
 * exactly one number. Neither call carries a run out, and neither is lent a chip.
 *
 * c64x_short_run_of gives the run of a number, c64x_short_run_number the number of a run, which is lent as `length`
 * digits, one in each byte. Refused: 18 only, for a number above 4,680, a run of more than four digits, or a digit
 * above 7. With it comes the empty run (length and digits 0), or `run` 0.
 */
c64x_short_run c64x_short_run_of(uint32_t number);
c64x_run_number c64x_short_run_number(const uint8_t *digits, size_t length);

#undef C64X_LENT
#undef C64X_ASSERT

#ifdef __cplusplus
}
#endif

#endif
