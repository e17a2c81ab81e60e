/* Silkendoz: the nearest stored traces, exactly.
 *
 * The functions of the static library libsilkendoz.a. They are proved: for every input that the rules below allow, a call stays inside the
 * memory it is lent, never overflows and ends, and it answers and leaves exactly what documents 01 and 02 say. None of them keeps anything
 * between calls, allocates, or calls anything but memcpy and memset. The pages GUIDE.md and LAYOUT.md, which come with the library (its
 * folder docs/, installed share/doc/silkendoz/), have a complete program, times and the tables' fields.
 *
 * A TRACE is n samples, whole numbers from SILKENDOZ_MIN_SAMPLE to SILKENDOZ_MAX_SAMPLE, which is what a converter of 20 bits gives. A call
 * takes them as plain int32_t; one that lies outside is refused (15). A library keeps up to c traces, numbered from 0 as they are added.
 *
 * TABLES. A library lives in six tables that the caller lends to every call:
 *
 *   table     element    places needed for n samples, capacity c
 *   control   uint16_t   SILKENDOZ_CONTROL
 *   samples   int32_t    SILKENDOZ_SAMPLES(n, c)      c * n, words
 *   nodes     int64_t    SILKENDOZ_NODES(c)           (2c - 1) * 87
 *   links     uint16_t   SILKENDOZ_LINKS(c)           c
 *   work      uint64_t   SILKENDOZ_WORK(c)            2c - 1
 *   labels    uint64_t   SILKENDOZ_LABELS(c)          c
 *
 * `SILKENDOZ_LIBRARY(faults, n, c);` declares them all, and a `struct silkendoz_tables` called faults over them. A call with `_in` behind
 * its name takes such a struct: silkendoz_nearest_in(&faults, ..) is silkendoz_nearest with those tables; so for every call.
 *
 * A slice is passed as a pointer and then its length, which counts elements (not bytes). A table may be longer than its need: places behind
 * the need are neither read nor written. A shorter one is refused (2). The tables hold no pointers, and numbers in the machine's own byte
 * order.
 *
 * WORDS. In the table `samples` a stored sample is a word: its 20 bits are the upper ones of 32. SILKENDOZ_SAMPLE(word) is the sample that
 * a word stands for, and SILKENDOZ_WORD(sample) the word of a sample. The lower twelve bits are written as zero and ignored, so that every
 * word stands for a sample. Traces and queries, as arguments, are plain samples: who takes a stored trace for one takes SILKENDOZ_SAMPLE of
 * each of its words. Without it most are refused (15), but one of very small samples is taken for 4,096 times itself.
 *
 * LABELS. A trace has a label: a fault code of 16 bits and a machine's serial of 32 bits, any numbers, given as it is added by
 * silkendoz_add_labelled, and zero from every other call that adds. A sheet keeps labels, a recording does not. silkendoz_label tells both
 * numbers, at the bench. The jog remote has one call, silkendoz_remote_match: a match whose answer adds the code and nothing else. It shows
 * nothing of serials: over two libraries that are alike but for them, lengths too, it gives the same answers and refusals and leaves the
 * same trail and work. That is all that is said: nothing of the time that a call takes; and `labels` is one table, so that whoever makes
 * the remote's call lends the serials too. Other calls, a sheet among them, are not the remote's.
 *
 * TWO LIBRARIES. silkendoz_match_both matches a query over two at once, one that every machine carries and one that the bench builds: the
 * factory's and the bench's. A call that searches, checks, writes a sheet, exports or tells a label writes none of the tables but, in a
 * search, `work`. So the other five may lie in memory that cannot be written: SILKENDOZ_FACTORY declares a library over constant tables.
 *
 * WHAT A CALLER OWES, which C cannot test:
 *
 *   - each pointer is not null and is aligned for its element. If the length is 0 it is not followed;
 *   - it leads to as many elements as the length says, all of them readable, and writable where the pointer is not const;
 *   - the part that `won` of silkendoz_match_both leads to is such a slice before the call, too, if only an empty one;
 *   - no slice that a call may write overlaps another slice of the same call;
 *   - until the call is back, nobody else writes a lent slice, nor reads one that the call may write;
 *   - the stack has room. On x86-64 adding, reading a sheet and importing a recording take less than 96 KiB, checking tables less than
 *     64 KiB, a batch less than 48 KiB, a match over two libraries and a report of bands less than 24 KiB, every other call less than
 *     16 KiB (measured, not proved).
 *
 * There is nothing else: any contents, any lengths and any numbers are answered.
 *
 * SEVERAL AT ONCE. A slice that a call takes as const may be lent to other calls at the same time. Over the same tables any number of
 * threads or cores may search at once (silkendoz_nearest, silkendoz_remote_match, silkendoz_k_nearest, silkendoz_match_batch,
 * silkendoz_count_bands, silkendoz_match_both, silkendoz_match_within, silkendoz_match_clipped), each with work, trail, list, answers, part
 * and out of its own: a copy of `struct silkendoz_tables` with another `work` is all it takes. At the same time others may check, write a
 * sheet, export or ask for a label (silkendoz_check_tables, silkendoz_write_sheet, silkendoz_export_recording, silkendoz_label), with
 * sheet, buffer and out of their own and any `work` that no search is writing. Opening, adding, reading a sheet and importing a recording
 * write the tables: let nobody else touch them until the call is back.
 *
 * COMMON SLIPS, none of which a call can notice:
 *
 *   bytes for elements    sizeof gives bytes: `sizeof nodes / sizeof *nodes`, or better the macros below. A length that is too great lets
 *                         the call write behind the table
 *   null with length 0    a null pointer is wrong even then: take the address of any object of that type
 *   overlapping slices    one buffer for work and sheet, or a query that lies in the trail's memory; a trace to be added that lies in
 *                         `samples` itself has to be copied first, by SILKENDOZ_SAMPLE
 *   interrupts            a handler that matches, or only looks at the tables, while the main program adds; or that uses the same work,
 *                         trail or out as a match that it interrupted. Give it its own, and keep it out while the tables are written
 *   DMA                   a query or sheet that the converter or the card is still filling: wait for its end, and where there is a data
 *                         cache, invalidate it before the call and clean it before the card takes a sheet that was written
 *   stack                 a task with less than what is said above: the call then writes over its neighbour
 *
 * ANSWERS. A call gives back 0, or the number of a refusal. It writes the values that belong to the answer into the slice `out`, from its
 * first place on, and leaves the places behind them:
 *
 *   silkendoz_open              0   none
 *   silkendoz_add               0   the new trace's number
 *   silkendoz_add_labelled      0   the new trace's number
 *   silkendoz_label             0   code, serial
 *   silkendoz_nearest           0   trace number, distance, leaves read, traces read
 *   silkendoz_remote_match      0   trace number, distance, leaves read, traces read, code
 *   silkendoz_k_nearest         0   leaves read, traces read, how many traces are listed
 *   silkendoz_write_sheet       0   the number of blocks
 *   silkendoz_read_sheet        0   none
 *   silkendoz_import_recording  0   the number of traces added
 *   silkendoz_export_recording  0   the number of bytes
 *   silkendoz_check_tables      0   none
 *   silkendoz_match_batch       0   leaves read
 *   silkendoz_count_bands       0   none
 *   silkendoz_match_both        0   library (0 the factory's, 1 the bench's), trace number, distance, leaves read, traces read, and how
 *                                   many of the leaves are the factory's
 *   silkendoz_match_within      0   trace number, distance, leaves read, traces read, 1 if it is settled, else 0, and the bound of the
 *                                   first unread leaf, 0 if it is settled
 *   silkendoz_match_clipped     0   how many traces are listed
 *   any call              refused   the place
 *
 * If `out` has fewer places, the first values are written and the others are left out. SILKENDOZ_OUT places are enough for every call.
 *
 * REFUSALS. A refused call leaves every table, the trail, the list, the answers, the sheet, the buffer and all of `out` behind its first
 * place as they were. The place is 0, but for a torn block, where it is the first block at fault. The numbers are tested in this order: 1;
 * a control record too short (2); its measures (3); other tables (2); the rest of 3; 11, 12, 14, 17 or 18, directly behind 3; then 4, 15,
 * 16 or 19, 5 to 8; 13. Of two libraries 2 and 3 are tested of the factory's first. Reading a sheet: 8; 9 over all blocks; 10; 15; 2.
 */
#ifndef SILKENDOZ_H
#define SILKENDOZ_H

#include <stddef.h>
#include <stdint.h>

#ifdef __cplusplus
extern "C" {
#endif

/* The version of these calls, as numbers and as text. */
#define SILKENDOZ_VERSION_MAJOR 0
#define SILKENDOZ_VERSION_MINOR 2
#define SILKENDOZ_VERSION_PATCH 0
#define SILKENDOZ_VERSION "0.2.0"

/* The version of the tables' layout (LAYOUT.md). Another number is another layout, or another tree: a firmware that keeps tables in
 * battery-backed memory keeps this number beside them, and reads its sheet if it finds another one there after an update. Sheets stay
 * readable. */
#define SILKENDOZ_LAYOUT 4

/* Gives 4. An archive has a function of this name for its own layout alone. So that a program does not link with an archive of another
 * layout than its header's, each file that includes this header keeps the function's address (with GCC and Clang). */
uint64_t silkendoz_layout_4(void);
#if defined(__GNUC__)
#if defined(__ELF__) && defined(__has_attribute)
#if __has_attribute(retain)
__attribute__((retain))
#endif
#endif
__attribute__((used)) static uint64_t (*const silkendoz_layout_of_the_archive)(void) = silkendoz_layout_4;
#endif

/* Measures: n from 1 to 256, capacity 1 to 4,096, leaf size 1 to 64. */
#define SILKENDOZ_MAX_N 256
#define SILKENDOZ_MAX_CAPACITY 4096
#define SILKENDOZ_MAX_LEAF_SIZE 64

/* The least and the greatest sample. */
#define SILKENDOZ_MIN_SAMPLE (-524288)
#define SILKENDOZ_MAX_SAMPLE 524287

/* As many traces as one search lists at most. */
#define SILKENDOZ_MAX_K 16

/* As many queries as are matched together at most. */
#define SILKENDOZ_MAX_BATCH 16

/* As few and as many edges as a report of bands takes. There is a band between each two that are neighbours. */
#define SILKENDOZ_MIN_EDGES 2
#define SILKENDOZ_MAX_EDGES 16
#define SILKENDOZ_MAX_BANDS 15

/* A number as a size, without a cast that C++ would warn of. */
#ifdef __cplusplus
#define SILKENDOZ_SIZE(x) static_cast<size_t>(x)
#else
#define SILKENDOZ_SIZE(x) ((size_t)(x))
#endif

/* A number as a sample or a word. */
#ifdef __cplusplus
#define SILKENDOZ_INT32(x) static_cast<int32_t>(x)
#else
#define SILKENDOZ_INT32(x) ((int32_t)(x))
#endif

/* The sample that a word of the table `samples` stands for: the word over 4,096, rounded down. (A shift to the right, said so that it is
 * the same with every compiler for words below 0.) And the word of a sample, which has to be within the limits. Both may stand in
 * initialisers; an argument may be taken more than once. */
#define SILKENDOZ_SAMPLE(word) \
    (SILKENDOZ_INT32(word) < 0 ? -1 - (-1 - SILKENDOZ_INT32(word)) / 4096 : SILKENDOZ_INT32(word) / 4096)
#define SILKENDOZ_WORD(sample) (SILKENDOZ_INT32(sample) * 4096)

/* Places that the tables need; none for a capacity of 0. An argument may be taken more than once. */
#define SILKENDOZ_CONTROL 5
#define SILKENDOZ_SAMPLES(n, c) (SILKENDOZ_SIZE(n) * SILKENDOZ_SIZE(c))
#define SILKENDOZ_NODES(c) (SILKENDOZ_WORK(c) * 87)
#define SILKENDOZ_LINKS(c) SILKENDOZ_SIZE(c)
#define SILKENDOZ_WORK(c) (SILKENDOZ_SIZE(c) == 0 ? SILKENDOZ_SIZE(0) : 2 * SILKENDOZ_SIZE(c) - 1)
#define SILKENDOZ_LABELS(c) SILKENDOZ_SIZE(c)

/* Every table: its element, its name, and the places that it needs. `lent` says how the library's own tables are lent, `work_lent` how
 * search work is; `with` is handed on. Whatever goes through all tables below is made of this list. */
#define SILKENDOZ_EACH_TABLE(TABLE, lent, work_lent, with, n, c) \
    TABLE(lent, with, uint16_t, control, SILKENDOZ_CONTROL) \
    TABLE(lent, with, int32_t, samples, SILKENDOZ_SAMPLES(n, c)) \
    TABLE(lent, with, int64_t, nodes, SILKENDOZ_NODES(c)) \
    TABLE(lent, with, uint16_t, links, SILKENDOZ_LINKS(c)) \
    TABLE(work_lent, with, uint64_t, work, SILKENDOZ_WORK(c)) \
    TABLE(lent, with, uint64_t, labels, SILKENDOZ_LABELS(c))

/* Lent to be read alone, or to be written. */
#define SILKENDOZ_READ(type) const type *
#define SILKENDOZ_WRITE(type) type *

/* The tables as arguments of a call, twelve of them: control, control_len, samples, samples_len, nodes, nodes_len, links, links_len, work,
 * work_len, labels, labels_len, with a comma behind each. Which of the pointers are const: */
#define SILKENDOZ_ARGUMENT(lent, with, type, name, places) lent(type) name, size_t name##_len,
#define SILKENDOZ_TABLES(lent, work_lent) SILKENDOZ_EACH_TABLE(SILKENDOZ_ARGUMENT, lent, work_lent, 0, 0, 0)
#define SILKENDOZ_TABLES_TO_FILL SILKENDOZ_TABLES(SILKENDOZ_WRITE, SILKENDOZ_WRITE) /* none */
#define SILKENDOZ_TABLES_TO_ADD_TO SILKENDOZ_TABLES(SILKENDOZ_WRITE, SILKENDOZ_READ) /* work alone */
#define SILKENDOZ_TABLES_TO_SEARCH SILKENDOZ_TABLES(SILKENDOZ_READ, SILKENDOZ_WRITE) /* all but work */
#define SILKENDOZ_TABLES_TO_READ SILKENDOZ_TABLES(SILKENDOZ_READ, SILKENDOZ_READ) /* all */

/* The tables of a second library, all const but work: bench_control, bench_control_len, and so on. */
#define SILKENDOZ_BENCH_ARGUMENT(lent, with, type, name, places) lent(type) bench_##name, size_t bench_##name##_len,
#define SILKENDOZ_BENCH_TABLES_TO_SEARCH SILKENDOZ_EACH_TABLE(SILKENDOZ_BENCH_ARGUMENT, SILKENDOZ_READ, SILKENDOZ_WRITE, 0, 0, 0)

/* Places of a trail that are enough for every search: there are at most as many leaves as traces. As many are enough for the list of
 * silkendoz_match_clipped. */
#define SILKENDOZ_TRAIL(c) SILKENDOZ_SIZE(c)

/* Places of `out` that are enough for every call. */
#define SILKENDOZ_OUT 6

/* The numbers that a call gives back. */
enum silkendoz_refusal {
    SILKENDOZ_DONE = 0,
    SILKENDOZ_MEASURE = 1,        /* opening: n, capacity or leaf size outside its range */
    SILKENDOZ_SHORT_TABLE = 2,    /* a lent table below the need */
    SILKENDOZ_SPOILED = 3,        /* tables not well formed */
    SILKENDOZ_WRONG_TRACE = 4,    /* length not n */
    SILKENDOZ_FULL = 5,           /* count equals capacity; an import: not all traces fit */
    SILKENDOZ_EMPTY = 6,          /* a search with no trace stored; over two libraries: in neither of them */
    SILKENDOZ_SHORT_TRAIL = 7,    /* trail shorter than its library's leaves, or list shorter than k records, one a band, or all traces */
    SILKENDOZ_SHEET_LENGTH = 8,   /* writing, export: below the need; reading: 0, not a multiple of 512, above 8,373 blocks */
    SILKENDOZ_TORN_BLOCK = 9,     /* check, block number or kind wrong; the place is the first block at fault */
    SILKENDOZ_BAD_SHEET = 10,     /* letters, measures, count above capacity, number of blocks, a nonzero byte that must be 0, or blocks of
                                     labels or of wide samples that need not be */
    SILKENDOZ_BAD_K = 11,         /* the k nearest, k not in 1 to 16 */
    SILKENDOZ_BAD_RECORDING = 12, /* import: another form or length, no whole traces; export: rate or trace number out of range, or a trace
                                     with a sample beyond 16 bits. It has a second use: a label of no stored trace */
    SILKENDOZ_LOOSE_RECORD = 13,  /* check: well-formed tables hold a figure that is not exactly the recomputed one */
    SILKENDOZ_BAD_BATCH = 14,     /* a batch: 0 or more than 16 queries, or an answer list of another length than the batch */
    SILKENDOZ_SAMPLE_RANGE = 15,  /* an added trace, a query or a sheet has a sample outside -524,288 to 524,287 */
    SILKENDOZ_BAD_EDGES = 16,     /* a report of bands: fewer than 2 edges or more than 16, or one that is not above the last */
    SILKENDOZ_UNLIKE_LIBRARIES = 17, /* a match over two libraries: their n differ */
    SILKENDOZ_NO_LEAVES = 18,     /* a match with a limit: of 0 leaves */
    SILKENDOZ_CROSSED_RANGE = 19  /* a clipped sweep: a low figure above its high one */
};

/* Opens an empty library with these measures: the needed parts of the tables are set to zero, then the control record is written. What the
 * tables held before does not matter. Refuses 1, 2. */
uint64_t silkendoz_open(
    SILKENDOZ_TABLES_TO_FILL
    uint64_t n, uint64_t capacity, uint64_t leaf_size,
    uint64_t *out, size_t out_len);

/* Adds a trace of n samples; its label is zero, whatever stood in its place. Of `work` only the length is looked at. Refuses 2, 3, 4, 15,
 * 5. */
uint64_t silkendoz_add(
    SILKENDOZ_TABLES_TO_ADD_TO
    const int32_t *trace, size_t trace_len,
    uint64_t *out, size_t out_len);

/* Adds a trace of n samples with a label: a fault code and a machine's serial, neither of which is tested. All else is as by silkendoz_add.
 * Refuses 2, 3, 4, 15, 5. */
uint64_t silkendoz_add_labelled(
    SILKENDOZ_TABLES_TO_ADD_TO
    const int32_t *trace, size_t trace_len,
    uint16_t code, uint32_t serial,
    uint64_t *out, size_t out_len);

/* Tells the label of the stored trace with this number: out[0] is its code, out[1] its serial. Nothing is written but `out`. Of `work` only
 * the length is looked at. A number that is not below the count is refused as by an export (12). Refuses 2, 3, 12. */
uint64_t silkendoz_label(
    SILKENDOZ_TABLES_TO_READ
    uint64_t number,
    uint64_t *out, size_t out_len);

/* Finds the stored trace that is nearest to a query of n samples: the least sum of squared differences, the lowest number among equals. The
 * trail begins with the numbers of the leaves read, in order; its places behind them stay. The needed part of `work` is left zero, whatever
 * it held. Of well-formed tables with loose records, which silkendoz_check_tables refuses, it is the nearest of the traces in the leaves
 * read. Refuses 2, 3, 4, 15, 6, 7. */
uint64_t silkendoz_nearest(
    SILKENDOZ_TABLES_TO_SEARCH
    uint16_t *trail, size_t trail_len,
    const int32_t *query, size_t query_len,
    uint64_t *out, size_t out_len);

/* The jog remote's call: silkendoz_nearest, and out[4] is the nearest trace's fault code. Over tables of any contents and lengths that are
 * alike but for serials it gives back the same, writes the same into `out` and the trail, and leaves the same in `work`. Refuses 2, 3, 4,
 * 15, 6, 7. */
uint64_t silkendoz_remote_match(
    SILKENDOZ_TABLES_TO_SEARCH
    uint16_t *trail, size_t trail_len,
    const int32_t *query, size_t query_len,
    uint64_t *out, size_t out_len);

/* Lists the k stored traces, k from 1 to 16, that are nearest to a query of n samples: by distance, then by number. The list takes two
 * places for each, the trace's number and its distance. list_len counts places, and 2 * k are needed however few traces are stored;
 * silkendoz_k_nearest_in takes an array of records instead. A library of fewer than k traces lists all it has, and out[2] says how many
 * these are. Places behind them stay. Trail and `work` are left as by a search that reads until no bound is within the k-th distance. Of
 * tables that calls made, or that silkendoz_check_tables accepted, these are the k nearest, and the first is silkendoz_nearest's answer.
 * Refuses 2, 3, 11, 4, 15, 6, 7. */
uint64_t silkendoz_k_nearest(
    SILKENDOZ_TABLES_TO_SEARCH
    uint16_t *trail, size_t trail_len,
    uint64_t *list, size_t list_len,
    const int32_t *query, size_t query_len,
    uint64_t k,
    uint64_t *out, size_t out_len);

/* Bytes of a sheet that are enough for traces of n samples, k of them. Blocks have 512 bytes: block 0, 126 samples in each block behind it
 * and 84 labels in each behind these. That is the greatest need. A library of which every label is zero is written without the blocks of
 * labels, which are (k + 83) / 84. One whose samples all fit 16 bits (-32,768 to 32,767) has 253 of them in a block. For every library of
 * capacity c, SILKENDOZ_SHEET(n, c) is enough; where no trace has a wider sample, so is SILKENDOZ_NARROW_SHEET(n, c). */
#define SILKENDOZ_SHEET_BLOCKS(n, k, a_block) (1 + (SILKENDOZ_SAMPLES(n, k) + (a_block) - 1) / (a_block) + (SILKENDOZ_LABELS(k) + 83) / 84)
#define SILKENDOZ_SHEET(n, k) (512 * SILKENDOZ_SHEET_BLOCKS(n, k, 126))
#define SILKENDOZ_NARROW_SHEET(n, k) (512 * SILKENDOZ_SHEET_BLOCKS(n, k, 253))

/* Writes the library as a sheet, into the first blocks of `sheet`; bytes behind them stay. out[0] is the number of blocks, those of labels
 * among them; there are such if any label of a stored trace is not zero, be it its serial alone. The sheet is a wide one, with samples of
 * four bytes, if any stored sample does not fit 16 bits; else it is narrow, with samples of two, as it always was. Of `work` only the
 * length is looked at. Refuses 2, 3, 8. */
uint64_t silkendoz_write_sheet(
    SILKENDOZ_TABLES_TO_READ
    uint8_t *sheet, size_t sheet_len,
    uint64_t *out, size_t out_len);

/* Opens the library that a sheet of any bytes holds, narrow or wide, and adds its traces in order, each with its label. A sheet without
 * blocks of labels gives zero ones. What the tables held before does not matter. Every refusal is decided before a table is written. A
 * block of samples behind one of labels is torn (9), and so is one whose kind does not go with block 0's. Another number of blocks of
 * samples than the count needs, or of labels than all or none, is a bad sheet (10). So are blocks of labels that together hold only zero
 * ones. So is a wide sheet whose samples all fit 16 bits, or that has no trace: each library has one sheet. Then comes a sample outside
 * the limits (15). silkendoz_sheet_measures says what tables a sheet needs. Refuses 8, 9, 10, 15, 2. */
uint64_t silkendoz_read_sheet(
    SILKENDOZ_TABLES_TO_FILL
    const uint8_t *sheet, size_t sheet_len,
    uint64_t *out, size_t out_len);

/* Bytes of the recording of one trace of n samples: a header of 44 bytes, and two for each sample. */
#define SILKENDOZ_RECORDING_BYTES(n) (44 + 2 * SILKENDOZ_SIZE(n))

/* Adds the traces of a recording, a file of any bytes: its samples are cut into traces of n, and all of these are added in order, or none.
 * out[0] is how many. The tables are then as silkendoz_add, trace by trace, would have left them, with labels of zero. A recording is a WAV
 * file with the usual header of 44 bytes: the letters RIFF, 36 plus the data size, WAVE; "fmt ", 16, format 1, 1 channel, a rate below
 * 2^31, twice the rate, block align 2, 16 bits; "data", the data size; then exactly so many bytes, low byte first. Any other file is
 * refused (12), and so is one whose samples are no multiple of n. Of `work` only the length is looked at. Refuses 2, 3, 12, 5. */
uint64_t silkendoz_import_recording(
    SILKENDOZ_TABLES_TO_ADD_TO
    const uint8_t *bytes, size_t bytes_len,
    uint64_t *out, size_t out_len);

/* Writes the stored trace with this number as a recording at a rate from 0 to 2^31 - 1, into the first bytes of `buffer`; bytes behind them
 * stay. out[0] is how many bytes these are, SILKENDOZ_RECORDING_BYTES(n). The rate goes into the header and nowhere else. A trace with a
 * sample that does not fit 16 bits cannot be written so (12). Of `work` only the length is looked at. Refuses 2, 3, 12, 8. */
uint64_t silkendoz_export_recording(
    SILKENDOZ_TABLES_TO_READ
    uint8_t *buffer, size_t buffer_len,
    uint64_t number, uint64_t rate,
    uint64_t *out, size_t out_len);

/* Whether tables that nobody vouches for may be trusted: recomputes every node's least and greatest sums and scatters from the samples of
 * the traces below it, by the leaves' lists, and compares them. If it gives 0, whatever made the tables, it still gives 0 after any calls
 * that follow, and their answers can be relied on. silkendoz_nearest, silkendoz_remote_match, silkendoz_k_nearest and silkendoz_match_batch
 * answer the nearest stored traces and read the fewest leaves. silkendoz_match_both does so if the check gives 0 for the tables of both
 * libraries. The true number of each band lies between the two of silkendoz_count_bands. A settled answer of silkendoz_match_within is the
 * nearest stored trace; of any other the nearest one's distance lies between bound and distance. (silkendoz_match_clipped goes by the
 * samples alone, and needs no check.) It gives 0 for every library that calls made, an empty one too. A range that is wider than it need be
 * is loose (13) as well as one that is too narrow. What it does not see: a sample that changed, where the figures that a node records
 * stayed as they were, or changed with it; thresholds of tests, by which adding goes; labels; places that hold nothing of the library. It
 * reads every stored sample, up to 16 times. Nothing is written but `out`. Of `work` only the length is looked at. Refuses 2, 3, 13. */
uint64_t silkendoz_check_tables(
    SILKENDOZ_TABLES_TO_READ
    uint64_t *out, size_t out_len);

/* The answer to one query of a batch: the nearest trace's number and its distance. */
struct silkendoz_answer {
    uint64_t trace;
    uint64_t distance;
};

/* Matches 1 to 16 queries together. `queries` is their samples, one query behind another, many * n in all; `answers` has a record for each
 * query and no more: answers_len, which counts records, has to be `many`. answers[i] is what silkendoz_nearest answers of query i alone. No
 * leaf is read twice: the leaves read are those that at least one of the queries alone would read. The trail begins with their numbers,
 * rising, and out[0] is how many they are; its places behind them stay. The needed part of `work` is left zero. (On well-formed tables that
 * silkendoz_check_tables would refuse, each answer is the nearest of the traces in the leaves read.) Refuses 2, 3, 14, 4, 15, 6, 7. */
uint64_t silkendoz_match_batch(
    SILKENDOZ_TABLES_TO_SEARCH
    uint16_t *trail, size_t trail_len,
    const int32_t *queries, size_t queries_len,
    size_t many,
    struct silkendoz_answer *answers, size_t answers_len,
    uint64_t *out, size_t out_len);

/* Reports how many stored traces lie how far from a query of n samples, band by band, and works out no distance: it looks at the ranges
 * that the tree records, not at traces. `edges` are 2 to 16 distances, each above the last; a band reaches from one edge up to but not
 * including the next. For each band the list takes two places: how many traces surely lie in it, and how many may. list_len counts places,
 * and 2 * (edges_len - 1) are needed; silkendoz_count_bands_in takes an array of records instead. Places behind them stay. Of tables that
 * calls made, or that silkendoz_check_tables accepted, the true number of each band lies between the two. (On other well-formed tables they
 * are what the recorded ranges say.) Traces below the first edge or not below the last are in no band. A library without a trace reports
 * zeros: it is not refused (6). The needed part of `work` is left zero. Refuses 2, 3, 4, 15, 16, 7. */
uint64_t silkendoz_count_bands(
    SILKENDOZ_TABLES_TO_SEARCH
    uint64_t *list, size_t list_len,
    const int32_t *query, size_t query_len,
    const uint64_t *edges, size_t edges_len,
    uint64_t *out, size_t out_len);

/* So many words of a table `samples`, from one of them on. SILKENDOZ_SAMPLE(won.at[i]) is the sample of word i. */
struct silkendoz_part {
    const int32_t *at;
    size_t len;
};

/* Finds the trace that is nearest to a query of n samples, of all that two libraries store: the least sum of squared differences, the
 * factory's among equals, then the lowest number. The first tables and the first trail are the factory's, the others the bench's. Both have
 * to have the same n (17); capacity and leaf size may differ. One of the two may be empty.
 *
 * `won` becomes the nearest trace, its n words as they lie in the lent table: nothing is copied, and it may be looked at as long as that
 * table stays. Of a refusal it becomes an empty part (len 0). Before the call it has to be a part of some memory, an empty one will do:
 * silkendoz_match_both_in sees to that.
 *
 * In each library the leaves read are those whose bound is at most the nearest trace's distance, wherever that lies. Each trail begins with
 * its own, by bound, then number; its places behind them stay. out[3] and out[4] are leaves and traces over both, out[5] says how many of
 * the leaves are the factory's. The needed part of each `work` is left zero, an empty library's too. (On well-formed tables that
 * silkendoz_check_tables would refuse, it is the nearest of the traces in the leaves read.) Refuses 2, 3 of the factory's, 2, 3 of the
 * bench's, 17, 4, 15, 6, 7. */
uint64_t silkendoz_match_both(
    SILKENDOZ_TABLES_TO_SEARCH
    uint16_t *trail, size_t trail_len,
    SILKENDOZ_BENCH_TABLES_TO_SEARCH
    uint16_t *bench_trail, size_t bench_trail_len,
    const int32_t *query, size_t query_len,
    uint64_t *out, size_t out_len,
    struct silkendoz_part *won);

/* A match that reads `most` leaves at most, 1 or more: for a controller that can afford few reads. It reads the first `most` leaves of
 * those that silkendoz_nearest would read, or all of them if they are no more.
 *
 * If these were all, the answer is settled: it is silkendoz_nearest's, trail and counts too. out[4] is 1, and out[5] is 0. Else it is the
 * best so far, the nearest of the traces read, the lowest number among equals. Then out[4] is 0, and out[5] is the bound of the first leaf
 * that was left. The nearest stored trace's distance is at least that bound and at most out[1]. If the two are equal the distance is known,
 * and yet it is not settled: a leaf that was left may hold a trace at that distance with a lower number. A larger limit never gives a
 * greater distance.
 *
 * The trail has to have a place for each leaf of the library, however small the limit (7). It begins with the leaves read, in order; its
 * places behind them stay. The needed part of `work` is left zero. (On well-formed tables that silkendoz_check_tables would refuse, it is
 * settled if silkendoz_nearest would read no more, and the nearest of the traces in the leaves read; the bound then says nothing of the
 * others.) Refuses 2, 3, 18, 4, 15, 6, 7. */
uint64_t silkendoz_match_within(
    SILKENDOZ_TABLES_TO_SEARCH
    uint16_t *trail, size_t trail_len,
    const int32_t *query, size_t query_len,
    uint64_t most,
    uint64_t *out, size_t out_len);

/* Which stored traces could be the match of a sweep with clipped samples. Of each sample two figures are given, lows[i] and highs[i], and
 * it lies between them, both included. A sample that is known has two equal ones. One that the log clipped has the log's limit for one
 * figure, and for the other as much as the signal may have been.
 *
 * Each stored trace has a least and a greatest possible distance, summed sample by sample. To the least a sample inside its range adds
 * nothing, any other the square of what lies to the nearer figure. To the greatest it adds the square of what lies to the farther one. Some
 * sweep inside the ranges has the one distance, some the other, and none is nearer or farther.
 *
 * Listed is every trace whose least is no more than the smallest greatest among all stored. So any trace that could be the match for some
 * sweep inside the ranges is listed, equally near ones too, and at least one is. A trace that is listed need not be the match for any. With
 * equal figures everywhere, all traces at the match's distance are listed, of which silkendoz_nearest tells the lowest number.
 *
 * The list begins with their numbers, rising, and out[0] is how many they are; its places behind them stay. It has to have a place for each
 * stored trace, however few are listed (7). The needed part of `work` is left zero. All this holds on any well-formed tables: nothing is
 * asked of what the tree records, which is not used. Every stored trace is read, as far as it takes. Refuses 2, 3, 4 (lows or highs), 15
 * (lows or highs), 19, 6, 7. */
uint64_t silkendoz_match_clipped(
    SILKENDOZ_TABLES_TO_SEARCH
    uint16_t *list, size_t list_len,
    const int32_t *lows, size_t lows_len,
    const int32_t *highs, size_t highs_len,
    uint64_t *out, size_t out_len);

/* ---- the same calls, with the tables in a struct ---- */

/* A library's tables, each with its length in elements: control and control_len, samples and samples_len, and so on, in the order of the
 * table above. All of them have to be set, whichever the call. */
#define SILKENDOZ_FIELD(lent, with, type, name, places) lent(type) name; size_t name##_len;
struct silkendoz_tables {
    SILKENDOZ_EACH_TABLE(SILKENDOZ_FIELD, SILKENDOZ_WRITE, SILKENDOZ_WRITE, 0, 0, 0)
};

/* `SILKENDOZ_LIBRARY(faults, 64, 100);` outside a function: tables for 100 traces of 64 samples, in the memory of the file that it stands
 * in, and `faults`, the struct over them. Call silkendoz_open_in or silkendoz_read_sheet_in first. */
#define SILKENDOZ_STATIC_TABLE(lent, with, type, name, places) static type with##_##name[places];
#define SILKENDOZ_SET_FIELD(lent, with, type, name, places) with##_##name, places,
#define SILKENDOZ_LIBRARY(name, n, c) \
    SILKENDOZ_EACH_TABLE(SILKENDOZ_STATIC_TABLE, 0, 0, name, n, c) \
    static const struct silkendoz_tables name = {SILKENDOZ_EACH_TABLE(SILKENDOZ_SET_FIELD, 0, 0, name, n, c)}

/* `SILKENDOZ_FACTORY(factory, 64, 100);` outside a function, where constant tables factory_control, factory_samples, factory_nodes,
 * factory_links and factory_labels stand (`silkendoz tables` writes them): search work, and `factory`, a struct over all six. Nothing but
 * work may be written. So lend it to searches, checks, writings, exports and questions for a label, and to no call that opens, adds or
 * reads. */
#ifdef __cplusplus
#define SILKENDOZ_UNCONST(type, table) const_cast<type *>(table)
#else
#define SILKENDOZ_UNCONST(type, table) (type *)(table)
#endif
#define SILKENDOZ_SET_CONSTANT(lent, with, type, name, places) SILKENDOZ_UNCONST(type, with##_##name), places,
#define SILKENDOZ_FACTORY(name, n, c) \
    static uint64_t name##_work[SILKENDOZ_WORK(c)]; \
    static const struct silkendoz_tables name = {SILKENDOZ_EACH_TABLE(SILKENDOZ_SET_CONSTANT, 0, 0, name, n, c)}

/* The tables of a struct as arguments. */
#define SILKENDOZ_PASS(lent, tables, type, name, places) (tables)->name, (tables)->name##_len,
#define SILKENDOZ_PASSED(tables) SILKENDOZ_EACH_TABLE(SILKENDOZ_PASS, 0, 0, tables, 0, 0)

static inline uint64_t silkendoz_open_in(
    const struct silkendoz_tables *t,
    uint64_t n, uint64_t capacity, uint64_t leaf_size,
    uint64_t *out, size_t out_len)
{
    return silkendoz_open(SILKENDOZ_PASSED(t) n, capacity, leaf_size, out, out_len);
}

static inline uint64_t silkendoz_add_in(
    const struct silkendoz_tables *t,
    const int32_t *trace, size_t trace_len,
    uint64_t *out, size_t out_len)
{
    return silkendoz_add(SILKENDOZ_PASSED(t) trace, trace_len, out, out_len);
}

static inline uint64_t silkendoz_add_labelled_in(
    const struct silkendoz_tables *t,
    const int32_t *trace, size_t trace_len,
    uint16_t code, uint32_t serial,
    uint64_t *out, size_t out_len)
{
    return silkendoz_add_labelled(SILKENDOZ_PASSED(t) trace, trace_len, code, serial, out, out_len);
}

static inline uint64_t silkendoz_label_in(
    const struct silkendoz_tables *t,
    uint64_t number,
    uint64_t *out, size_t out_len)
{
    return silkendoz_label(SILKENDOZ_PASSED(t) number, out, out_len);
}

static inline uint64_t silkendoz_nearest_in(
    const struct silkendoz_tables *t,
    uint16_t *trail, size_t trail_len,
    const int32_t *query, size_t query_len,
    uint64_t *out, size_t out_len)
{
    return silkendoz_nearest(SILKENDOZ_PASSED(t) trail, trail_len, query, query_len, out, out_len);
}

static inline uint64_t silkendoz_remote_match_in(
    const struct silkendoz_tables *t,
    uint16_t *trail, size_t trail_len,
    const int32_t *query, size_t query_len,
    uint64_t *out, size_t out_len)
{
    return silkendoz_remote_match(SILKENDOZ_PASSED(t) trail, trail_len, query, query_len, out, out_len);
}

/* A record of the list: a trace's number and its distance to the query. */
struct silkendoz_neighbour {
    uint64_t trace;
    uint64_t distance;
};

/* It is two places and nothing more, so that an array of them is a list. */
typedef char silkendoz_neighbour_is_two_places[sizeof(struct silkendoz_neighbour) == 2 * sizeof(uint64_t) ? 1 : -1];

/* `list` is an array of so many records, k at least. The cast is sound: a struct begins where its first member does, there is no gap, and
 * each place is read and written as the uint64_t that it is. */
static inline uint64_t silkendoz_k_nearest_in(
    const struct silkendoz_tables *t,
    uint16_t *trail, size_t trail_len,
    struct silkendoz_neighbour *list, size_t records,
    const int32_t *query, size_t query_len,
    uint64_t k,
    uint64_t *out, size_t out_len)
{
#ifdef __cplusplus
    uint64_t *places = reinterpret_cast<uint64_t *>(list);
#else
    uint64_t *places = (uint64_t *)list;
#endif
    return silkendoz_k_nearest(SILKENDOZ_PASSED(t) trail, trail_len, places, 2 * records, query, query_len, k, out, out_len);
}

static inline uint64_t silkendoz_write_sheet_in(
    const struct silkendoz_tables *t,
    uint8_t *sheet, size_t sheet_len,
    uint64_t *out, size_t out_len)
{
    return silkendoz_write_sheet(SILKENDOZ_PASSED(t) sheet, sheet_len, out, out_len);
}

static inline uint64_t silkendoz_read_sheet_in(
    const struct silkendoz_tables *t,
    const uint8_t *sheet, size_t sheet_len,
    uint64_t *out, size_t out_len)
{
    return silkendoz_read_sheet(SILKENDOZ_PASSED(t) sheet, sheet_len, out, out_len);
}

static inline uint64_t silkendoz_import_recording_in(
    const struct silkendoz_tables *t,
    const uint8_t *bytes, size_t bytes_len,
    uint64_t *out, size_t out_len)
{
    return silkendoz_import_recording(SILKENDOZ_PASSED(t) bytes, bytes_len, out, out_len);
}

static inline uint64_t silkendoz_export_recording_in(
    const struct silkendoz_tables *t,
    uint8_t *buffer, size_t buffer_len,
    uint64_t number, uint64_t rate,
    uint64_t *out, size_t out_len)
{
    return silkendoz_export_recording(SILKENDOZ_PASSED(t) buffer, buffer_len, number, rate, out, out_len);
}

static inline uint64_t silkendoz_check_tables_in(
    const struct silkendoz_tables *t,
    uint64_t *out, size_t out_len)
{
    return silkendoz_check_tables(SILKENDOZ_PASSED(t) out, out_len);
}

static inline uint64_t silkendoz_match_batch_in(
    const struct silkendoz_tables *t,
    uint16_t *trail, size_t trail_len,
    const int32_t *queries, size_t queries_len,
    size_t many,
    struct silkendoz_answer *answers, size_t answers_len,
    uint64_t *out, size_t out_len)
{
    return silkendoz_match_batch(SILKENDOZ_PASSED(t) trail, trail_len, queries, queries_len, many, answers, answers_len, out, out_len);
}

/* A record of the report: how many traces surely lie in a band, and how many may. */
struct silkendoz_band {
    uint64_t sure;
    uint64_t possible;
};

/* It is two places and nothing more, so that an array of them is a list. */
typedef char silkendoz_band_is_two_places[sizeof(struct silkendoz_band) == 2 * sizeof(uint64_t) ? 1 : -1];

/* `bands` is an array of so many records, edges_len - 1 at least. The cast is sound: a struct begins where its first member does, there is
 * no gap, and each place is read and written as the uint64_t that it is. */
static inline uint64_t silkendoz_count_bands_in(
    const struct silkendoz_tables *t,
    struct silkendoz_band *bands, size_t records,
    const int32_t *query, size_t query_len,
    const uint64_t *edges, size_t edges_len,
    uint64_t *out, size_t out_len)
{
#ifdef __cplusplus
    uint64_t *places = reinterpret_cast<uint64_t *>(bands);
#else
    uint64_t *places = (uint64_t *)bands;
#endif
    return silkendoz_count_bands(SILKENDOZ_PASSED(t) places, 2 * records, query, query_len, edges, edges_len, out, out_len);
}

/* What a match over two libraries answers. */
struct silkendoz_pair_match {
    uint64_t library; /* 0 the factory's, 1 the bench's */
    uint64_t trace;
    uint64_t distance;
    uint64_t leaves; /* read, over both */
    uint64_t traces; /* read, over both */
    uint64_t factory_leaves; /* of the leaves, at the beginning of the factory's trail */
    uint64_t bench_leaves; /* .. of the bench's */
};

/* `match` is written if the call gives 0, and else left as it was. `won` need not hold anything before. */
static inline uint64_t silkendoz_match_both_in(
    const struct silkendoz_tables *factory,
    uint16_t *factory_trail, size_t factory_trail_len,
    const struct silkendoz_tables *bench,
    uint16_t *bench_trail, size_t bench_trail_len,
    const int32_t *query, size_t query_len,
    struct silkendoz_pair_match *match,
    struct silkendoz_part *won)
{
    uint64_t out[SILKENDOZ_OUT] = {0, 0, 0, 0, 0, 0}, number;
    /* an empty part of some memory */
    won->at = factory->samples;
    won->len = 0;
    number = silkendoz_match_both(
        SILKENDOZ_PASSED(factory) factory_trail, factory_trail_len, SILKENDOZ_PASSED(bench) bench_trail, bench_trail_len, query, query_len,
        out, SILKENDOZ_OUT, won);
    if (number != SILKENDOZ_DONE)
        return number;
    match->library = out[0];
    match->trace = out[1];
    match->distance = out[2];
    match->leaves = out[3];
    match->traces = out[4];
    match->factory_leaves = out[5];
    match->bench_leaves = out[3] - out[5];
    return SILKENDOZ_DONE;
}

/* What a match with a limit answers. */
struct silkendoz_limited_match {
    uint64_t trace;
    uint64_t distance;
    uint64_t leaves; /* read, at the beginning of the trail */
    uint64_t traces; /* in them */
    uint64_t settled; /* 1: it is the match; 0: the best so far */
    uint64_t bound; /* of the first unread leaf: no stored trace is nearer. 0 if it is settled */
};

/* `match` is written if the call gives 0, and else left as it was. */
static inline uint64_t silkendoz_match_within_in(
    const struct silkendoz_tables *t,
    uint16_t *trail, size_t trail_len,
    const int32_t *query, size_t query_len,
    uint64_t most,
    struct silkendoz_limited_match *match)
{
    uint64_t out[SILKENDOZ_OUT] = {0, 0, 0, 0, 0, 0}, number;
    number = silkendoz_match_within(SILKENDOZ_PASSED(t) trail, trail_len, query, query_len, most, out, SILKENDOZ_OUT);
    if (number != SILKENDOZ_DONE)
        return number;
    match->trace = out[0];
    match->distance = out[1];
    match->leaves = out[2];
    match->traces = out[3];
    match->settled = out[4];
    match->bound = out[5];
    return SILKENDOZ_DONE;
}

static inline uint64_t silkendoz_match_clipped_in(
    const struct silkendoz_tables *t,
    uint16_t *list, size_t list_len,
    const int32_t *lows, size_t lows_len,
    const int32_t *highs, size_t highs_len,
    uint64_t *out, size_t out_len)
{
    return silkendoz_match_clipped(SILKENDOZ_PASSED(t) list, list_len, lows, lows_len, highs, highs_len, out, out_len);
}

/* The word for a number that a call gives back: the documents', "done" for 0, "unknown" for a number that no call gives. */
static inline const char *silkendoz_word(uint64_t number)
{
    switch (number) {
    case SILKENDOZ_DONE: return "done";
    case SILKENDOZ_MEASURE: return "measure";
    case SILKENDOZ_SHORT_TABLE: return "short table";
    case SILKENDOZ_SPOILED: return "spoiled";
    case SILKENDOZ_WRONG_TRACE: return "wrong trace";
    case SILKENDOZ_FULL: return "full";
    case SILKENDOZ_EMPTY: return "empty";
    case SILKENDOZ_SHORT_TRAIL: return "short trail";
    case SILKENDOZ_SHEET_LENGTH: return "sheet length";
    case SILKENDOZ_TORN_BLOCK: return "torn block";
    case SILKENDOZ_BAD_SHEET: return "bad sheet";
    case SILKENDOZ_BAD_K: return "bad k";
    case SILKENDOZ_BAD_RECORDING: return "bad recording";
    case SILKENDOZ_LOOSE_RECORD: return "loose record";
    case SILKENDOZ_BAD_BATCH: return "bad batch";
    case SILKENDOZ_SAMPLE_RANGE: return "sample range";
    case SILKENDOZ_BAD_EDGES: return "bad edges";
    case SILKENDOZ_UNLIKE_LIBRARIES: return "unlike libraries";
    case SILKENDOZ_NO_LEAVES: return "no leaves";
    case SILKENDOZ_CROSSED_RANGE: return "crossed range";
    default: return "unknown";
    }
}

/* The n and capacity of a sheet of any bytes, for which tables have to be lent to read it. The whole sheet is judged first, as reading
 * it does: 0 says that it is sound, and that reading refuses it no more but for short tables (2). Refuses 8, 9, 10, 15, and then leaves *n
 * and *capacity as they were; which block is torn, reading says. */
#define SILKENDOZ_NO_PLACES(lent, with, type, name, places) type name = 0;
#define SILKENDOZ_PASS_NONE(lent, with, type, name, places) &name, 0,
static inline uint64_t silkendoz_sheet_measures(const uint8_t *sheet, size_t sheet_len, size_t *n, size_t *capacity)
{
    /* tables of no length: a sheet is judged before them, and a sound one is refused for them */
    uint64_t out = 0, number;
    SILKENDOZ_EACH_TABLE(SILKENDOZ_NO_PLACES, 0, 0, 0, 0, 0)
    number = silkendoz_read_sheet(SILKENDOZ_EACH_TABLE(SILKENDOZ_PASS_NONE, 0, 0, 0, 0, 0) sheet, sheet_len, &out, 1);
    if (number != SILKENDOZ_SHORT_TABLE)
        return number;
    *n = SILKENDOZ_SIZE(sheet[8]) + 256 * SILKENDOZ_SIZE(sheet[9]);
    *capacity = SILKENDOZ_SIZE(sheet[10]) + 256 * SILKENDOZ_SIZE(sheet[11]);
    return SILKENDOZ_DONE;
}

#ifdef __cplusplus
}
#endif

#endif
