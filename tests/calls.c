/* The calls from C, over the struct of tables: document 01's examples, lists of the k nearest, recordings, the check, batches, labels,
 * bands, two libraries, limits on leaves, clipped sweeps, samples of 20 bits, refusals in their order, and memory that has to stay. Prints
 * one line, and fails at the first difference. */

#include "silkendoz.h"

#include <stdio.h>
#include <stdlib.h>
#include <string.h>

enum { N = 4, C = 8, SPARE = 3, TRAIL = 8 };

/* One library's tables, a few places longer than they need to be. */
struct tables {
    uint16_t control[SILKENDOZ_CONTROL + SPARE];
    int32_t samples[N * C + SPARE];
    int64_t nodes[(2 * C - 1) * 87 + SPARE];
    uint16_t links[C + SPARE];
    uint64_t work[2 * C - 1 + SPARE];
    uint64_t labels[C + SPARE];
};

static int tests;

static void expect(int holds, const char *what, int line)
{
    tests++;
    if (!holds) {
        fprintf(stderr, "line %d: %s\n", line, what);
        exit(1);
    }
}
#define EXPECT(condition) expect((condition), #condition, __LINE__)

#define PLACES(array) (sizeof(array) / sizeof *(array))

/* The tables as they are lent, spare places and all. */
static struct silkendoz_tables lent(struct tables *t)
{
    struct silkendoz_tables l = {
        t->control, PLACES(t->control), t->samples, PLACES(t->samples), t->nodes, PLACES(t->nodes),
        t->links, PLACES(t->links), t->work, PLACES(t->work), t->labels, PLACES(t->labels)};
    return l;
}

static uint64_t open_in(struct tables *t, uint64_t n, uint64_t c, uint64_t leaf_size, uint64_t *out)
{
    struct silkendoz_tables l = lent(t);
    return silkendoz_open_in(&l, n, c, leaf_size, out, SILKENDOZ_OUT);
}

static uint64_t add_to(struct tables *t, const int32_t *trace, size_t size, uint64_t *out, size_t out_len)
{
    struct silkendoz_tables l = lent(t);
    return silkendoz_add_in(&l, trace, size, out, out_len);
}

static uint64_t nearest_in(
    struct tables *t, const int32_t *query, size_t size, uint16_t *trail, size_t trail_len, uint64_t *out, size_t out_len)
{
    struct silkendoz_tables l = lent(t);
    return silkendoz_nearest_in(&l, trail, trail_len, query, size, out, out_len);
}

static uint64_t add_labelled_to(
    struct tables *t, const int32_t *trace, size_t size, uint16_t code, uint32_t serial, uint64_t *out, size_t out_len)
{
    struct silkendoz_tables l = lent(t);
    return silkendoz_add_labelled_in(&l, trace, size, code, serial, out, out_len);
}

static uint64_t label_in(struct tables *t, uint64_t number, uint64_t *out, size_t out_len)
{
    struct silkendoz_tables l = lent(t);
    return silkendoz_label_in(&l, number, out, out_len);
}

static uint64_t remote_match_in(
    struct tables *t, const int32_t *query, size_t size, uint16_t *trail, size_t trail_len, uint64_t *out, size_t out_len)
{
    struct silkendoz_tables l = lent(t);
    return silkendoz_remote_match_in(&l, trail, trail_len, query, size, out, out_len);
}

static uint64_t k_nearest_in(struct tables *t, const int32_t *query, size_t size, uint16_t *trail, size_t trail_len,
    struct silkendoz_neighbour *list, size_t list_len, uint64_t k, uint64_t *out, size_t out_len)
{
    struct silkendoz_tables l = lent(t);
    return silkendoz_k_nearest_in(&l, trail, trail_len, list, list_len, query, size, k, out, out_len);
}

static uint64_t write_from(struct tables *t, uint8_t *sheet, size_t size, uint64_t *out)
{
    struct silkendoz_tables l = lent(t);
    return silkendoz_write_sheet_in(&l, sheet, size, out, SILKENDOZ_OUT);
}

static uint64_t read_into(struct tables *t, const uint8_t *sheet, size_t size, uint64_t *out)
{
    struct silkendoz_tables l = lent(t);
    return silkendoz_read_sheet_in(&l, sheet, size, out, SILKENDOZ_OUT);
}

static uint64_t import_into(struct tables *t, const uint8_t *bytes, size_t size, uint64_t *out, size_t out_len)
{
    struct silkendoz_tables l = lent(t);
    return silkendoz_import_recording_in(&l, bytes, size, out, out_len);
}

static uint64_t export_from(
    struct tables *t, uint8_t *buffer, size_t size, uint64_t number, uint64_t rate, uint64_t *out, size_t out_len)
{
    struct silkendoz_tables l = lent(t);
    return silkendoz_export_recording_in(&l, buffer, size, number, rate, out, out_len);
}

static uint64_t check_in(struct tables *t, uint64_t *out, size_t out_len)
{
    struct silkendoz_tables l = lent(t);
    return silkendoz_check_tables_in(&l, out, out_len);
}

static uint64_t batch_in(struct tables *t, const int32_t *queries, size_t size, size_t many, uint16_t *trail, size_t trail_len,
    struct silkendoz_answer *answers, size_t answers_len, uint64_t *out, size_t out_len)
{
    struct silkendoz_tables l = lent(t);
    return silkendoz_match_batch_in(&l, trail, trail_len, queries, size, many, answers, answers_len, out, out_len);
}

static uint64_t bands_in(struct tables *t, const int32_t *query, size_t size, const uint64_t *edges, size_t edges_len,
    struct silkendoz_band *bands, size_t records, uint64_t *out, size_t out_len)
{
    struct silkendoz_tables l = lent(t);
    return silkendoz_count_bands_in(&l, bands, records, query, size, edges, edges_len, out, out_len);
}

static uint64_t both_in(struct tables *factory, uint16_t *trail, size_t trail_len, struct tables *bench, uint16_t *bench_trail,
    size_t bench_trail_len, const int32_t *query, size_t size, struct silkendoz_pair_match *match, struct silkendoz_part *won)
{
    struct silkendoz_tables f = lent(factory), b = lent(bench);
    return silkendoz_match_both_in(&f, trail, trail_len, &b, bench_trail, bench_trail_len, query, size, match, won);
}

static uint64_t within_in(struct tables *t, const int32_t *query, size_t size, uint16_t *trail, size_t trail_len, uint64_t most,
    struct silkendoz_limited_match *match)
{
    struct silkendoz_tables l = lent(t);
    return silkendoz_match_within_in(&l, trail, trail_len, query, size, most, match);
}

static uint64_t clipped_in(struct tables *t, const int32_t *lows, size_t lows_len, const int32_t *highs, size_t highs_len,
    uint16_t *list, size_t list_len, uint64_t *out, size_t out_len)
{
    struct silkendoz_tables l = lent(t);
    return silkendoz_match_clipped_in(&l, list, list_len, lows, lows_len, highs, highs_len, out, out_len);
}

/* n 256, capacity 4,096, leaf size 64 open; 257, 4,097, 65 and 0 do not: measures come before lengths. */
static void opening(void)
{
    static struct tables t, before;
    uint64_t out[SILKENDOZ_OUT] = {9, 9, 9, 9, 9};
    memset(&t, 0x5a, sizeof t);
    before = t;

    EXPECT(open_in(&t, 257, C, 2, out) == SILKENDOZ_MEASURE && out[0] == 0 && out[1] == 9);
    EXPECT(open_in(&t, N, 4097, 2, out) == SILKENDOZ_MEASURE);
    EXPECT(open_in(&t, N, C, 65, out) == SILKENDOZ_MEASURE);
    EXPECT(open_in(&t, 0, C, 2, out) == SILKENDOZ_MEASURE);
    EXPECT(open_in(&t, N, 0, 2, out) == SILKENDOZ_MEASURE);
    EXPECT(open_in(&t, N, C, 0, out) == SILKENDOZ_MEASURE);
    EXPECT(open_in(&t, 65536 + N, C, 2, out) == SILKENDOZ_MEASURE);
    EXPECT(open_in(&t, 256, 4096, 64, out) == SILKENDOZ_SHORT_TABLE);
    EXPECT(memcmp(&t, &before, sizeof t) == 0);

    out[0] = 9;
    EXPECT(open_in(&t, N, C, 2, out) == SILKENDOZ_DONE && out[0] == 9);
    EXPECT(t.control[0] == N && t.control[1] == C && t.control[2] == 2 && t.control[3] == 0 && t.control[4] == 0);
    EXPECT(t.control[5] == 0x5a5a && t.samples[N * C - 1] == 0 && t.samples[N * C] == 0x5a5a5a5a);
    EXPECT(t.nodes[SILKENDOZ_NODES(C) - 1] == 0 && t.nodes[SILKENDOZ_NODES(C)] == before.nodes[0]);
    EXPECT(t.links[C - 1] == 0 && t.links[C] == 0x5a5a);
    EXPECT(t.work[SILKENDOZ_WORK(C) - 1] == 0 && t.work[SILKENDOZ_WORK(C)] == before.work[0]);
    EXPECT(t.labels[0] == 0 && t.labels[C - 1] == 0 && t.labels[C] == before.labels[0]);
}

/* The largest library opens in tables that are just long enough. */
static void largest(void)
{
    uint16_t control[SILKENDOZ_CONTROL];
    uint64_t out[SILKENDOZ_OUT];
    struct silkendoz_tables t = {
        control, SILKENDOZ_CONTROL, NULL, SILKENDOZ_SAMPLES(256, 4096), NULL, SILKENDOZ_NODES(4096),
        NULL, SILKENDOZ_LINKS(4096), NULL, SILKENDOZ_WORK(4096), NULL, SILKENDOZ_LABELS(4096)};
    t.samples = malloc(t.samples_len * sizeof *t.samples);
    t.nodes = malloc(t.nodes_len * sizeof *t.nodes);
    t.links = malloc(t.links_len * sizeof *t.links);
    t.work = malloc(t.work_len * sizeof *t.work);
    t.labels = malloc(t.labels_len * sizeof *t.labels);
    EXPECT(t.samples && t.nodes && t.links && t.work && t.labels);
    EXPECT(silkendoz_open_in(&t, 256, 4096, 64, out, SILKENDOZ_OUT) == SILKENDOZ_DONE);
    free(t.samples);
    free(t.nodes);
    free(t.links);
    free(t.work);
    free(t.labels);
}

enum { CALLS = 18, TABLES = 6 };

/* What each call over the struct answers, an export before an import; over two libraries these tables are each of them once. */
static void answers(
    const struct silkendoz_tables *t, const struct silkendoz_tables *other, const int32_t *trace, uint8_t *sheet, uint64_t numbers[CALLS])
{
    uint16_t trail[TRAIL], other_trail[TRAIL];
    struct silkendoz_pair_match match;
    struct silkendoz_limited_match limited;
    struct silkendoz_part won;
    struct silkendoz_neighbour list[2];
    struct silkendoz_answer answer;
    struct silkendoz_band band;
    const uint64_t edges[2] = {0, 1};
    uint8_t recording[SILKENDOZ_RECORDING_BYTES(N)];
    uint64_t out[SILKENDOZ_OUT];
    numbers[0] = silkendoz_open_in(t, N, C, 2, out, SILKENDOZ_OUT);
    numbers[1] = silkendoz_add_in(t, trace, N, out, SILKENDOZ_OUT);
    numbers[2] = silkendoz_nearest_in(t, trail, TRAIL, trace, N, out, SILKENDOZ_OUT);
    numbers[3] = silkendoz_k_nearest_in(t, trail, TRAIL, list, 2, trace, N, 2, out, SILKENDOZ_OUT);
    numbers[4] = silkendoz_write_sheet_in(t, sheet, SILKENDOZ_SHEET(N, 1), out, SILKENDOZ_OUT);
    /* no trace has a label: block 0 and one of samples */
    numbers[5] = silkendoz_read_sheet_in(t, sheet, 2 * 512, out, SILKENDOZ_OUT);
    numbers[6] = silkendoz_export_recording_in(t, recording, sizeof recording, 0, 8000, out, SILKENDOZ_OUT);
    numbers[7] = silkendoz_import_recording_in(t, recording, sizeof recording, out, SILKENDOZ_OUT);
    numbers[8] = silkendoz_check_tables_in(t, out, SILKENDOZ_OUT);
    numbers[9] = silkendoz_match_batch_in(t, trail, TRAIL, trace, N, 1, &answer, 1, out, SILKENDOZ_OUT);
    numbers[10] = silkendoz_add_labelled_in(t, trace, N, 1, 2, out, SILKENDOZ_OUT);
    numbers[11] = silkendoz_label_in(t, 0, out, SILKENDOZ_OUT);
    numbers[12] = silkendoz_remote_match_in(t, trail, TRAIL, trace, N, out, SILKENDOZ_OUT);
    numbers[13] = silkendoz_count_bands_in(t, &band, 1, trace, N, edges, 2, out, SILKENDOZ_OUT);
    numbers[14] = silkendoz_match_both_in(t, trail, TRAIL, other, other_trail, TRAIL, trace, N, &match, &won);
    numbers[15] = silkendoz_match_both_in(other, other_trail, TRAIL, t, trail, TRAIL, trace, N, &match, &won);
    numbers[16] = silkendoz_match_within_in(t, trail, TRAIL, trace, N, 1, &limited);
    numbers[17] = silkendoz_match_clipped_in(t, trail, TRAIL, trace, N, trace, N, out, SILKENDOZ_OUT);
}

/* Each call over the struct passes on each length: just enough is done, one place less is a short table, whichever table it is. */
static void lengths(void)
{
    static struct tables t, u;
    static uint8_t sheet[SILKENDOZ_SHEET(N, 1)];
    const int32_t trace[N] = {1, -2, 3, -4};
    struct silkendoz_tables just = lent(&t), other = lent(&u), less;
    uint64_t numbers[CALLS];
    int table, call;

    EXPECT(open_in(&u, N, C, 2, numbers) == SILKENDOZ_DONE);
    just.control_len = SILKENDOZ_CONTROL;
    just.samples_len = SILKENDOZ_SAMPLES(N, C);
    just.nodes_len = SILKENDOZ_NODES(C);
    just.links_len = SILKENDOZ_LINKS(C);
    just.work_len = SILKENDOZ_WORK(C);
    just.labels_len = SILKENDOZ_LABELS(C);
    answers(&just, &other, trace, sheet, numbers);
    for (call = 0; call < CALLS; call++)
        EXPECT(numbers[call] == SILKENDOZ_DONE);

    for (table = 0; table < TABLES; table++) {
        less = just;
        less.control_len -= table == 0;
        less.samples_len -= table == 1;
        less.nodes_len -= table == 2;
        less.links_len -= table == 3;
        less.work_len -= table == 4;
        less.labels_len -= table == 5;
        answers(&less, &other, trace, sheet, numbers);
        for (call = 0; call < CALLS; call++)
            EXPECT(numbers[call] == SILKENDOZ_SHORT_TABLE);
    }
}

/* The words of the documents' tables, in their order. */
static void words(void)
{
    static const char *const table[] = {"done", "measure", "short table", "spoiled", "wrong trace", "full", "empty", "short trail",
        "sheet length", "torn block", "bad sheet", "bad k", "bad recording", "loose record", "bad batch", "sample range",
        "bad edges", "unlike libraries", "no leaves", "crossed range"};
    uint64_t number;
    for (number = 0; number < PLACES(table); number++)
        EXPECT(strcmp(silkendoz_word(number), table[number]) == 0);
    EXPECT(strcmp(silkendoz_word(SILKENDOZ_CROSSED_RANGE + 1), "unknown") == 0);
    EXPECT(strcmp(silkendoz_word(UINT64_MAX), "unknown") == 0);
}

/* Places for no traces at all are none. */
static void needs(void)
{
    EXPECT(SILKENDOZ_NODES(0) == 0 && SILKENDOZ_WORK(0) == 0 && SILKENDOZ_SAMPLES(4, 0) == 0 && SILKENDOZ_LINKS(0) == 0);
    EXPECT(SILKENDOZ_LABELS(0) == 0 && SILKENDOZ_LABELS(4096) == 4096);
    EXPECT(SILKENDOZ_SHEET(1, 0) == 512 && SILKENDOZ_SHEET(1, 84) == 3 * 512 && SILKENDOZ_SHEET(1, 85) == 4 * 512);
    EXPECT(SILKENDOZ_SHEET(256, 4096) == 8373 * 512 && SILKENDOZ_NARROW_SHEET(256, 4096) == 4195 * 512);
    EXPECT(SILKENDOZ_SHEET(126, 1) == 3 * 512 && SILKENDOZ_SHEET(127, 1) == 4 * 512 && SILKENDOZ_NARROW_SHEET(253, 1) == 3 * 512);
    EXPECT(SILKENDOZ_NODES(1) == 87 && SILKENDOZ_WORK(1) == 1);
    EXPECT(SILKENDOZ_NODES(4096) == 8191u * 87 && SILKENDOZ_WORK(4096) == 8191);
    EXPECT(SILKENDOZ_NODES(2 + 1) == 5 * 87 && SILKENDOZ_WORK(2 + 1) == 5);
    EXPECT(SILKENDOZ_NODES(1) * 2 == 174 && SILKENDOZ_WORK(1) + 1 == 2);
}

/* Sizes for a sheet that nobody knows: judged as a whole, and refused as reading refuses it. */
static void measures_of_sheets(void)
{
    static struct tables t;
    const int32_t trace[N] = {1, -2, 3, -4};
    uint8_t sheet[2 * 512];
    uint64_t out[SILKENDOZ_OUT];
    size_t n = 77, c = 78, at;

    EXPECT(open_in(&t, N, C, 2, out) == SILKENDOZ_DONE);
    EXPECT(add_to(&t, trace, N, out, SILKENDOZ_OUT) == SILKENDOZ_DONE);
    EXPECT(write_from(&t, sheet, sizeof sheet, out) == SILKENDOZ_DONE && out[0] == 2);

    EXPECT(silkendoz_sheet_measures(sheet, 0, &n, &c) == SILKENDOZ_SHEET_LENGTH);
    EXPECT(silkendoz_sheet_measures(sheet, 1023, &n, &c) == SILKENDOZ_SHEET_LENGTH);
    EXPECT(silkendoz_sheet_measures(sheet, 512, &n, &c) == SILKENDOZ_BAD_SHEET);
    for (at = 0; at < sizeof sheet; at++) {
        sheet[at] ^= 0x20;
        EXPECT(silkendoz_sheet_measures(sheet, sizeof sheet, &n, &c) == SILKENDOZ_TORN_BLOCK);
        sheet[at] ^= 0x20;
    }
    EXPECT(n == 77 && c == 78);
    EXPECT(silkendoz_sheet_measures(sheet, sizeof sheet, &n, &c) == SILKENDOZ_DONE && n == N && c == C);
}

/* The version as text is the version as numbers. */
static void version(void)
{
    char text[64];
    snprintf(text, sizeof text, "%d.%d.%d", SILKENDOZ_VERSION_MAJOR, SILKENDOZ_VERSION_MINOR, SILKENDOZ_VERSION_PATCH);
    EXPECT(strcmp(text, SILKENDOZ_VERSION) == 0);
    EXPECT(SILKENDOZ_LAYOUT == 4);
}

static void matches(struct tables *t, int32_t level, uint64_t trace, uint64_t distance, uint64_t leaves, uint64_t traces, uint16_t first)
{
    int32_t query[N] = {level, level, level, level};
    uint16_t trail[TRAIL];
    uint64_t out[SILKENDOZ_OUT] = {0, 0, 0, 0, 77};
    size_t i;
    memset(trail, 0xee, sizeof trail);
    memset(t->work, 0xff, sizeof t->work);
    EXPECT(nearest_in(t, query, N, trail, TRAIL, out, SILKENDOZ_OUT) == SILKENDOZ_DONE);
    EXPECT(out[0] == trace && out[1] == distance && out[2] == leaves && out[3] == traces && out[4] == 77);
    EXPECT(trail[0] == first);
    for (i = leaves; i < TRAIL; i++)
        EXPECT(trail[i] == 0xeeee);
    for (i = 0; i < SILKENDOZ_WORK(C); i++)
        EXPECT(t->work[i] == 0);
    EXPECT(t->work[SILKENDOZ_WORK(C)] == UINT64_MAX);
}

/* n = 4, leaf size 2, capacity 8; add A (0,0,0,0), B (4,4,4,4), C (0,8,0,8). */
static void adding_and_matching(void)
{
    static struct tables t, before;
    const int32_t a[N] = {0, 0, 0, 0}, b[N] = {4, 4, 4, 4}, c[N] = {0, 8, 0, 8};
    uint16_t trail[TRAIL] = {0};
    uint64_t out[SILKENDOZ_OUT] = {9, 9, 9, 9, 9}, none = 5;
    int i;

    EXPECT(open_in(&t, N, C, 2, out) == SILKENDOZ_DONE);
    EXPECT(nearest_in(&t, a, N, trail, TRAIL, out, SILKENDOZ_OUT) == SILKENDOZ_EMPTY);
    EXPECT(add_to(&t, a, N, out, SILKENDOZ_OUT) == SILKENDOZ_DONE && out[0] == 0 && out[1] == 9);
    EXPECT(add_to(&t, b, N, out, SILKENDOZ_OUT) == SILKENDOZ_DONE && out[0] == 1);
    EXPECT(add_to(&t, c, N, out, 1) == SILKENDOZ_DONE && out[0] == 2);
    EXPECT(t.control[3] == 3 && t.control[4] == 3 && t.nodes[6] == 16);

    matches(&t, 1, 0, 4, 1, 1, 1);
    matches(&t, 2, 0, 16, 2, 3, 1);
    matches(&t, 4, 1, 0, 1, 2, 2);

    /* a slice for the answer that is too short takes what fits */
    out[0] = out[1] = out[2] = 9;
    EXPECT(nearest_in(&t, b, N, trail, TRAIL, out, 2) == SILKENDOZ_DONE && out[0] == 1 && out[1] == 0 && out[2] == 9);
    EXPECT(nearest_in(&t, b, N, trail, TRAIL, &none, 0) == SILKENDOZ_DONE && none == 5);

    /* refusals leave everything */
    before = t;
    EXPECT(add_to(&t, a, N - 1, out, SILKENDOZ_OUT) == SILKENDOZ_WRONG_TRACE && out[0] == 0);
    EXPECT(nearest_in(&t, a, N - 1, trail, TRAIL, out, SILKENDOZ_OUT) == SILKENDOZ_WRONG_TRACE);
    EXPECT(nearest_in(&t, a, N, trail, 1, out, SILKENDOZ_OUT) == SILKENDOZ_SHORT_TRAIL);
    EXPECT(memcmp(&t, &before, sizeof t) == 0);
    t.nodes[87] = 3;
    before = t;
    EXPECT(add_to(&t, a, N, out, SILKENDOZ_OUT) == SILKENDOZ_SPOILED);
    EXPECT(nearest_in(&t, a, N, trail, TRAIL, out, SILKENDOZ_OUT) == SILKENDOZ_SPOILED);
    EXPECT(memcmp(&t, &before, sizeof t) == 0);
    t.nodes[87] = 0;

    for (i = 3; i < C; i++)
        EXPECT(add_to(&t, c, N, out, SILKENDOZ_OUT) == SILKENDOZ_DONE && out[0] == (uint64_t)i);
    EXPECT(add_to(&t, c, N, out, SILKENDOZ_OUT) == SILKENDOZ_FULL && out[0] == 0);
}

/* A list has places for the greatest k and one record more. */
enum { RECORDS = SILKENDOZ_MAX_K + 1 };

/* Lists the k nearest to a level query: these traces and distances, in this order, with these counts; all else that was lent stays. */
static void lists(struct tables *t, int32_t level, uint64_t k, const struct silkendoz_neighbour *expected, uint64_t many,
    uint64_t leaves, uint64_t traces)
{
    int32_t query[N] = {level, level, level, level};
    uint16_t trail[TRAIL];
    struct silkendoz_neighbour list[RECORDS];
    uint64_t out[SILKENDOZ_OUT] = {0, 0, 0, 77};
    size_t i;
    memset(trail, 0xee, sizeof trail);
    memset(list, 0xdd, sizeof list);
    memset(t->work, 0xff, sizeof t->work);
    EXPECT(k_nearest_in(t, query, N, trail, TRAIL, list, k, k, out, SILKENDOZ_OUT) == SILKENDOZ_DONE);
    EXPECT(out[0] == leaves && out[1] == traces && out[2] == many && out[3] == 77);
    for (i = 0; i < many; i++)
        EXPECT(list[i].trace == expected[i].trace && list[i].distance == expected[i].distance);
    for (i = many; i < RECORDS; i++)
        EXPECT(list[i].trace == 0xddddddddddddddddu && list[i].distance == 0xddddddddddddddddu);
    for (i = 0; i < TRAIL; i++)
        EXPECT((trail[i] == 0xeeee) == (i >= leaves));
    for (i = 0; i < SILKENDOZ_WORK(C); i++)
        EXPECT(t->work[i] == 0);
    EXPECT(t->work[SILKENDOZ_WORK(C)] == UINT64_MAX);
}

/* A, B and C as above: A in leaf 1, B and C in leaf 2. Then A once more, as trace 3. */
static void listing(void)
{
    static struct tables t, before;
    const int32_t a[N] = {0, 0, 0, 0}, b[N] = {4, 4, 4, 4}, c[N] = {0, 8, 0, 8};
    const struct silkendoz_neighbour at_1[] = {{0, 4}, {1, 36}, {2, 100}}, at_2[] = {{0, 16}, {1, 16}, {2, 80}},
                                     twice[] = {{0, 16}, {1, 16}, {3, 16}, {2, 80}};
    struct silkendoz_neighbour list[RECORDS];
    uint16_t trail[TRAIL] = {0};
    uint64_t out[SILKENDOZ_OUT] = {9, 9, 9, 9, 9}, none = 5;
    size_t i;

    EXPECT(open_in(&t, N, C, 2, out) == SILKENDOZ_DONE);
    EXPECT(k_nearest_in(&t, a, N, trail, TRAIL, list, RECORDS, 1, out, SILKENDOZ_OUT) == SILKENDOZ_EMPTY);
    EXPECT(out[0] == 0 && out[1] == 9);
    EXPECT(k_nearest_in(&t, a, N, trail, TRAIL, list, 0, 1, out, SILKENDOZ_OUT) == SILKENDOZ_EMPTY);
    EXPECT(add_to(&t, a, N, out, SILKENDOZ_OUT) == SILKENDOZ_DONE);
    EXPECT(add_to(&t, b, N, out, SILKENDOZ_OUT) == SILKENDOZ_DONE);
    EXPECT(add_to(&t, c, N, out, SILKENDOZ_OUT) == SILKENDOZ_DONE);

    /* the one nearest reads what a match reads; for two, both leaves; a smaller library lists all it has */
    lists(&t, 1, 1, at_1, 1, 1, 1);
    lists(&t, 1, 2, at_1, 2, 2, 3);
    lists(&t, 1, 16, at_1, 3, 2, 3);
    /* at equal distances the lower number comes first */
    lists(&t, 2, 1, at_2, 1, 2, 3);
    lists(&t, 2, 2, at_2, 2, 2, 3);

    /* a shorter slice for the answer takes what fits; the list is whole nevertheless. A and C are equally far,
     * and A comes first, though its leaf is read last */
    memset(list, 0, sizeof list);
    out[0] = out[1] = out[2] = 9;
    EXPECT(k_nearest_in(&t, b, N, trail, TRAIL, list, RECORDS, 2, out, 2) == SILKENDOZ_DONE);
    EXPECT(out[0] == 2 && out[1] == 3 && out[2] == 9);
    EXPECT(k_nearest_in(&t, b, N, trail, TRAIL, list, RECORDS, 2, &none, 0) == SILKENDOZ_DONE && none == 5);
    EXPECT(list[0].trace == 1 && list[0].distance == 0 && list[1].trace == 0 && list[1].distance == 64);

    /* refusals, 11 directly behind 3, leave everything */
    memset(list, 0xdd, sizeof list);
    memset(trail, 0xee, sizeof trail);
    before = t;
    EXPECT(k_nearest_in(&t, a, N - 1, trail, 1, list, 0, 0, out, SILKENDOZ_OUT) == SILKENDOZ_BAD_K);
    EXPECT(out[0] == 0 && out[1] == 3);
    EXPECT(k_nearest_in(&t, a, N, trail, TRAIL, list, RECORDS, 0, out, SILKENDOZ_OUT) == SILKENDOZ_BAD_K);
    EXPECT(k_nearest_in(&t, a, N, trail, TRAIL, list, RECORDS, 17, out, SILKENDOZ_OUT) == SILKENDOZ_BAD_K);
    EXPECT(k_nearest_in(&t, a, N, trail, TRAIL, list, RECORDS, UINT64_MAX, out, SILKENDOZ_OUT) == SILKENDOZ_BAD_K);
    EXPECT(k_nearest_in(&t, a, N - 1, trail, 1, list, 0, 16, out, SILKENDOZ_OUT) == SILKENDOZ_WRONG_TRACE);
    EXPECT(k_nearest_in(&t, a, N, trail, 1, list, 1, 1, out, SILKENDOZ_OUT) == SILKENDOZ_SHORT_TRAIL);
    EXPECT(k_nearest_in(&t, a, N, trail, TRAIL, list, 15, 16, out, SILKENDOZ_OUT) == SILKENDOZ_SHORT_TRAIL);
    EXPECT(silkendoz_k_nearest(t.control, PLACES(t.control), t.samples, PLACES(t.samples), t.nodes, PLACES(t.nodes),
        t.links, PLACES(t.links), t.work, PLACES(t.work), t.labels, PLACES(t.labels), trail, TRAIL, (uint64_t *)list, 2 * 16 - 1,
        a, N, 16, out, SILKENDOZ_OUT) == SILKENDOZ_SHORT_TRAIL);
    t.nodes[87] = 3;
    EXPECT(k_nearest_in(&t, a, N - 1, trail, 1, list, 0, 0, out, SILKENDOZ_OUT) == SILKENDOZ_SPOILED);
    t.nodes[87] = 0;
    EXPECT(memcmp(&t, &before, sizeof t) == 0);
    for (i = 0; i < RECORDS; i++)
        EXPECT(list[i].trace == 0xddddddddddddddddu && list[i].distance == 0xddddddddddddddddu);
    for (i = 0; i < TRAIL; i++)
        EXPECT(trail[i] == 0xeeee);

    EXPECT(add_to(&t, a, N, out, SILKENDOZ_OUT) == SILKENDOZ_DONE);
    lists(&t, 2, 3, twice, 3, 2, 4);
    lists(&t, 2, 4, twice, 4, 2, 4);
}

/* n = 1, capacity 8, leaf size 2, trace (-1): checks 2,130 and 2,812. Written, read back, torn. */
static void sheets(void)
{
    static struct tables t, u, before;
    const int32_t trace[1] = {-1};
    uint8_t sheet[2 * 512 + 1];
    uint64_t out[SILKENDOZ_OUT];

    memset(sheet, 0xaa, sizeof sheet);
    EXPECT(open_in(&t, 1, C, 2, out) == SILKENDOZ_DONE);
    EXPECT(add_to(&t, trace, 1, out, SILKENDOZ_OUT) == SILKENDOZ_DONE);
    EXPECT(write_from(&t, sheet, 1023, out) == SILKENDOZ_SHEET_LENGTH && sheet[0] == 0xaa);
    EXPECT(write_from(&t, sheet, sizeof sheet, out) == SILKENDOZ_DONE && out[0] == 2 && sheet[1024] == 0xaa);
    EXPECT(memcmp(sheet + 4, "TRCL", 4) == 0);
    EXPECT(sheet[510] + 256 * sheet[511] == 2130 && sheet[1022] + 256 * sheet[1023] == 2812);

    memset(&u, 0x55, sizeof u);
    EXPECT(read_into(&u, sheet, 1024, out) == SILKENDOZ_DONE);
    EXPECT(memcmp(u.control, t.control, SILKENDOZ_CONTROL * sizeof *t.control) == 0);
    EXPECT(memcmp(u.samples, t.samples, SILKENDOZ_SAMPLES(1, C) * sizeof *t.samples) == 0);
    EXPECT(memcmp(u.nodes, t.nodes, SILKENDOZ_NODES(C) * sizeof *t.nodes) == 0);
    EXPECT(memcmp(u.links, t.links, SILKENDOZ_LINKS(C) * sizeof *t.links) == 0);
    EXPECT(memcmp(u.labels, t.labels, SILKENDOZ_LABELS(C) * sizeof *t.labels) == 0);

    before = u;
    EXPECT(read_into(&u, sheet, 0, out) == SILKENDOZ_SHEET_LENGTH && out[0] == 0);
    EXPECT(read_into(&u, sheet, 1025, out) == SILKENDOZ_SHEET_LENGTH);
    sheet[600] = 1;
    EXPECT(read_into(&u, sheet, 1024, out) == SILKENDOZ_TORN_BLOCK && out[0] == 1);
    sheet[5] ^= 1;
    EXPECT(read_into(&u, sheet, 1024, out) == SILKENDOZ_TORN_BLOCK && out[0] == 0);
    EXPECT(memcmp(&u, &before, sizeof u) == 0);
}

/* A recording of two traces of 4 samples, (1,-2,3,-4) and (0,8,0,8), at 8,000 a second, as another program would write it. */
enum { HEADER = 44, TWO = HEADER + 2 * 2 * N };
static const uint8_t two[TWO] = {
    'R', 'I', 'F', 'F', 36 + 16, 0, 0, 0, 'W', 'A', 'V', 'E', 'f', 'm', 't', ' ', 16, 0, 0, 0, 1, 0, 1, 0,
    0x40, 0x1f, 0, 0, 0x80, 0x3e, 0, 0, 2, 0, 16, 0, 'd', 'a', 't', 'a', 16, 0, 0, 0,
    1, 0, 0xfe, 0xff, 3, 0, 0xfc, 0xff, 0, 0, 8, 0, 0, 0, 8, 0};

/* An import is the addings of its traces, place by place, all or none; search work and places behind the need stay. */
static void imports(void)
{
    static struct tables t, u, before;
    const int32_t first[N] = {1, -2, 3, -4}, second[N] = {0, 8, 0, 8};
    uint8_t bad[TWO + 1], none[HEADER];
    uint64_t out[SILKENDOZ_OUT] = {9, 9, 9, 9, 9};
    size_t i;

    memset(&t, 0x5a, sizeof t);
    EXPECT(import_into(&t, two, TWO, out, SILKENDOZ_OUT) == SILKENDOZ_SPOILED);
    EXPECT(open_in(&t, N, 5, 1, out) == SILKENDOZ_DONE);
    memset(t.work, 0xff, sizeof t.work);
    u = t;
    out[0] = 9;
    EXPECT(import_into(&t, two, TWO, out, SILKENDOZ_OUT) == SILKENDOZ_DONE && out[0] == 2 && out[1] == 9);
    EXPECT(add_to(&u, first, N, out, SILKENDOZ_OUT) == SILKENDOZ_DONE && add_to(&u, second, N, out, SILKENDOZ_OUT) == SILKENDOZ_DONE);
    EXPECT(memcmp(&t, &u, sizeof t) == 0);

    /* another byte anywhere in the header is 12, and so is another length; nothing is left changed */
    before = t;
    memcpy(bad, two, TWO);
    bad[TWO] = 0;
    for (i = 0; i < HEADER; i++) {
        bad[i] ^= 1;
        EXPECT(import_into(&t, bad, TWO, out, SILKENDOZ_OUT) == SILKENDOZ_BAD_RECORDING && out[0] == 0 && out[1] == 9);
        bad[i] ^= 1;
    }
    for (i = 0; i < TWO; i++)
        EXPECT(import_into(&t, bad, i, out, SILKENDOZ_OUT) == SILKENDOZ_BAD_RECORDING);
    EXPECT(import_into(&t, bad, TWO + 1, out, SILKENDOZ_OUT) == SILKENDOZ_BAD_RECORDING);
    /* one trace and a half */
    bad[4] -= N;
    bad[40] -= N;
    EXPECT(import_into(&t, bad, TWO - N, out, SILKENDOZ_OUT) == SILKENDOZ_BAD_RECORDING);
    /* a rate of 2^31 whose double is 0 in 32 bits */
    memcpy(bad, two, TWO);
    memset(bad + 24, 0, 8);
    EXPECT(import_into(&t, bad, TWO, out, SILKENDOZ_OUT) == SILKENDOZ_DONE && t.control[3] == 4);
    t = before;
    bad[27] = 0x80;
    EXPECT(import_into(&t, bad, TWO, out, SILKENDOZ_OUT) == SILKENDOZ_BAD_RECORDING);
    EXPECT(memcmp(&t, &before, sizeof t) == 0);

    /* five fit: the third file does not, and adds none; no sample at all always fits; 12 comes before 5 */
    EXPECT(import_into(&t, two, TWO, out, 0) == SILKENDOZ_DONE && t.control[3] == 4);
    before = t;
    EXPECT(import_into(&t, two, TWO, out, SILKENDOZ_OUT) == SILKENDOZ_FULL && out[0] == 0);
    EXPECT(import_into(&t, two, TWO - 1, out, SILKENDOZ_OUT) == SILKENDOZ_BAD_RECORDING);
    EXPECT(memcmp(&t, &before, sizeof t) == 0);
    memcpy(none, two, HEADER);
    none[4] = 36;
    none[40] = 0;
    EXPECT(add_to(&t, first, N, out, SILKENDOZ_OUT) == SILKENDOZ_DONE && out[0] == 4);
    EXPECT(import_into(&t, none, HEADER, out, SILKENDOZ_OUT) == SILKENDOZ_DONE && out[0] == 0 && t.control[3] == 5);
}

/* An export is the file that was imported, with one of its traces; bytes behind it stay. */
static void exports(void)
{
    static struct tables t, before;
    enum { NEED = SILKENDOZ_RECORDING_BYTES(N) };
    uint8_t buffer[NEED + SPARE];
    uint64_t out[SILKENDOZ_OUT] = {9, 9, 9, 9, 9};
    size_t i;

    EXPECT(open_in(&t, N, C, 2, out) == SILKENDOZ_DONE);
    memset(buffer, 0xaa, sizeof buffer);
    /* an empty library has no trace 0: 12, not 6 */
    EXPECT(export_from(&t, buffer, sizeof buffer, 0, 8000, out, SILKENDOZ_OUT) == SILKENDOZ_BAD_RECORDING && out[0] == 0);
    EXPECT(import_into(&t, two, TWO, out, SILKENDOZ_OUT) == SILKENDOZ_DONE);
    memset(t.work, 0xff, sizeof t.work);
    before = t;

    /* 12 comes before 8 */
    EXPECT(export_from(&t, buffer, 0, 2, 8000, out, SILKENDOZ_OUT) == SILKENDOZ_BAD_RECORDING);
    EXPECT(export_from(&t, buffer, 0, 0, 2147483648u, out, SILKENDOZ_OUT) == SILKENDOZ_BAD_RECORDING);
    EXPECT(export_from(&t, buffer, sizeof buffer, UINT64_MAX, 8000, out, SILKENDOZ_OUT) == SILKENDOZ_BAD_RECORDING);
    EXPECT(export_from(&t, buffer, sizeof buffer, 0, UINT64_MAX, out, SILKENDOZ_OUT) == SILKENDOZ_BAD_RECORDING);
    EXPECT(export_from(&t, buffer, NEED - 1, 0, 8000, out, SILKENDOZ_OUT) == SILKENDOZ_SHEET_LENGTH && out[0] == 0 && out[1] == 9);
    EXPECT(export_from(&t, buffer, 0, 1, 0, out, SILKENDOZ_OUT) == SILKENDOZ_SHEET_LENGTH);
    for (i = 0; i < sizeof buffer; i++)
        EXPECT(buffer[i] == 0xaa);

    EXPECT(export_from(&t, buffer, sizeof buffer, 1, 8000, out, SILKENDOZ_OUT) == SILKENDOZ_DONE);
    EXPECT(out[0] == NEED && out[1] == 9);
    EXPECT(buffer[4] == 36 + 2 * N && buffer[40] == 2 * N);
    for (i = 0; i < HEADER; i++)
        EXPECT(i == 4 || i == 40 || buffer[i] == two[i]);
    EXPECT(memcmp(buffer + HEADER, two + HEADER + 2 * N, 2 * N) == 0);
    for (i = NEED; i < sizeof buffer; i++)
        EXPECT(buffer[i] == 0xaa);
    EXPECT(memcmp(&t, &before, sizeof t) == 0);

    /* the greatest rate, and back into the library as a third trace */
    EXPECT(export_from(&t, buffer, NEED, 0, 2147483647u, out, 0) == SILKENDOZ_DONE);
    EXPECT(memcmp(buffer + 24, "\xff\xff\xff\x7f\xfe\xff\xff\xff", 8) == 0);
    EXPECT(import_into(&t, buffer, NEED, out, SILKENDOZ_OUT) == SILKENDOZ_DONE && out[0] == 1);
    EXPECT(memcmp(t.samples + 2 * N, t.samples, N * sizeof *t.samples) == 0);
}

/* A library of A, B, C is accepted, an empty one too; every figure of it that is altered is a loose record, and a test's threshold is none.
 * Nothing is written but `out`. */
static void checks(void)
{
    static struct tables t, u, before;
    const int32_t traces[3][N] = {{0, 0, 0, 0}, {4, 4, 4, 4}, {0, 8, 0, 8}};
    const int32_t query[N] = {1, 1, 1, 1};
    uint16_t trail[TRAIL];
    uint8_t sheet[2 * 512];
    uint64_t out[SILKENDOZ_OUT] = {9, 9, 9, 9, 9};
    int node, figure, i;

    memset(&t, 0x5a, sizeof t);
    EXPECT(check_in(&t, out, SILKENDOZ_OUT) == SILKENDOZ_SPOILED && out[0] == 0 && out[1] == 9);
    EXPECT(open_in(&t, N, C, 2, out) == SILKENDOZ_DONE);
    out[0] = 9;
    EXPECT(check_in(&t, out, SILKENDOZ_OUT) == SILKENDOZ_DONE && out[0] == 9);
    for (i = 0; i < 3; i++)
        EXPECT(add_to(&t, traces[i], N, out, 0) == SILKENDOZ_DONE);
    memset(t.work, 0xff, sizeof t.work);
    before = t;
    EXPECT(check_in(&t, out, SILKENDOZ_OUT) == SILKENDOZ_DONE && out[0] == 9);
    EXPECT(check_in(&t, out, 0) == SILKENDOZ_DONE);
    EXPECT(memcmp(&t, &before, sizeof t) == 0);

    /* three nodes of one segment: least and greatest sum, least and greatest scatter, each one wider */
    for (node = 0; node < 3; node++)
        for (figure = 0; figure < 4; figure++) {
            int64_t *place = &t.nodes[node * 87 + 8 + figure];
            int64_t by = figure % 2 == 0 ? -1 : 1;
            if (*place + by >= 0 || figure < 2) {
                *place += by;
                before = t;
                EXPECT(check_in(&t, out, SILKENDOZ_OUT) == SILKENDOZ_LOOSE_RECORD && out[0] == 0 && out[1] == 9);
                EXPECT(memcmp(&t, &before, sizeof t) == 0);
                *place -= by;
            }
        }

    /* node 0 tests sums of 4 samples against 16. Another threshold bears on no match */
    EXPECT(t.nodes[6] == 16);
    t.nodes[6] = -1;
    EXPECT(check_in(&t, out, SILKENDOZ_OUT) == SILKENDOZ_DONE);
    EXPECT(nearest_in(&t, query, N, trail, TRAIL, out, SILKENDOZ_OUT) == SILKENDOZ_DONE && out[0] == 0 && out[1] == 4 && out[2] == 1);
    t.nodes[6] = 16;

    /* a sample that changed makes figures loose: written and read back, the traces as they now are make a library that is accepted. Short
     * tables come before what they hold */
    t.samples[2 * N] = SILKENDOZ_WORD(1);
    EXPECT(check_in(&t, out, SILKENDOZ_OUT) == SILKENDOZ_LOOSE_RECORD);
    memset(&u, 0x55, sizeof u);
    EXPECT(write_from(&t, sheet, sizeof sheet, out) == SILKENDOZ_DONE && read_into(&u, sheet, sizeof sheet, out) == SILKENDOZ_DONE);
    EXPECT(check_in(&u, out, SILKENDOZ_OUT) == SILKENDOZ_DONE && memcmp(u.control, t.control, 4 * sizeof *t.control) == 0);
    EXPECT(memcmp(u.samples, t.samples, SILKENDOZ_SAMPLES(N, C) * sizeof *t.samples) == 0);
    {
        struct silkendoz_tables less = lent(&t);
        less.work_len = SILKENDOZ_WORK(C) - 1;
        EXPECT(silkendoz_check_tables_in(&less, out, SILKENDOZ_OUT) == SILKENDOZ_SHORT_TABLE);
    }
    t.nodes[0] = 3;
    EXPECT(check_in(&t, out, SILKENDOZ_OUT) == SILKENDOZ_SPOILED);
}

/* 16 queries at once, in every order of document 01's A, B, C: each answer is the match's, and the leaves are those of all matches, by rising
 * number. What is refused leaves everything as it was. */
static void batches(void)
{
    static struct tables t, before;
    const int32_t traces[3][N] = {{0, 0, 0, 0}, {4, 4, 4, 4}, {0, 8, 0, 8}};
    /* nearest: 1 at 0 in leaf 2; 0 at 4 in leaf 1; 0 at 16, for which both leaves are read */
    const int32_t asked[3][N] = {{4, 4, 4, 4}, {1, 1, 1, 1}, {2, 2, 2, 2}};
    const struct silkendoz_answer alone[3] = {{1, 0}, {0, 4}, {0, 16}};
    int32_t run[17 * N] = {0};
    uint16_t trail[TRAIL], marks[TRAIL];
    struct silkendoz_answer answers[18], kept[18];
    uint64_t out[SILKENDOZ_OUT] = {9, 9, 9, 9, 9};
    size_t many, i;

    memset(&t, 0x5a, sizeof t);
    EXPECT(batch_in(&t, run, 0, 0, trail, TRAIL, answers, 0, out, SILKENDOZ_OUT) == SILKENDOZ_SPOILED);
    EXPECT(open_in(&t, N, C, 2, out) == SILKENDOZ_DONE);
    EXPECT(batch_in(&t, asked[0], N, 1, trail, TRAIL, answers, 1, out, SILKENDOZ_OUT) == SILKENDOZ_EMPTY);
    for (i = 0; i < 3; i++)
        EXPECT(add_to(&t, traces[i], N, out, 0) == SILKENDOZ_DONE);
    memset(kept, 0x77, sizeof kept);
    memset(marks, 0x77, sizeof marks);

    for (many = 1; many <= 16; many++) {
        for (i = 0; i < many; i++)
            memcpy(run + N * i, asked[i % 3], sizeof asked[0]);
        memcpy(answers, kept, sizeof kept);
        memcpy(trail, marks, sizeof marks);
        memset(t.work, 0xff, sizeof t.work);
        before = t;
        memset(out, 9, sizeof out);
        EXPECT(batch_in(&t, run, N * many, many, trail, TRAIL, answers, many, out, SILKENDOZ_OUT) == SILKENDOZ_DONE);
        for (i = 0; i < many; i++)
            EXPECT(answers[i].trace == alone[i % 3].trace && answers[i].distance == alone[i % 3].distance);
        EXPECT(memcmp(answers + many, kept + many, (18 - many) * sizeof *kept) == 0);
        EXPECT(out[0] == (many == 1 ? 1 : 2) && out[1] != 0);
        EXPECT(trail[0] == (many == 1 ? 2 : 1) && (many == 1 || trail[1] == 2));
        EXPECT(memcmp(trail + out[0], marks + out[0], (TRAIL - out[0]) * sizeof *marks) == 0);
        memset(before.work, 0, SILKENDOZ_WORK(C) * sizeof *before.work);
        EXPECT(memcmp(&t, &before, sizeof t) == 0);
    }

    /* a number, a list and a run that do not go together, in this order; then a short trail */
    memset(t.work, 0xff, sizeof t.work);
    before = t;
    memcpy(answers, kept, sizeof kept);
    memcpy(trail, marks, sizeof marks);
    memset(run, 0, sizeof run);
    EXPECT(batch_in(&t, run, N, 0, trail, 0, answers, 0, out, SILKENDOZ_OUT) == SILKENDOZ_BAD_BATCH && out[0] == 0);
    EXPECT(batch_in(&t, run, 17 * N, 17, trail, TRAIL, answers, 17, out, SILKENDOZ_OUT) == SILKENDOZ_BAD_BATCH);
    EXPECT(batch_in(&t, run, N, SIZE_MAX, trail, TRAIL, answers, 1, out, SILKENDOZ_OUT) == SILKENDOZ_BAD_BATCH);
    EXPECT(batch_in(&t, run, 1, 2, trail, 0, answers, 1, out, SILKENDOZ_OUT) == SILKENDOZ_BAD_BATCH);
    EXPECT(batch_in(&t, run, 2 * N, 2, trail, TRAIL, answers, 3, out, SILKENDOZ_OUT) == SILKENDOZ_BAD_BATCH);
    EXPECT(batch_in(&t, run, N, 2, trail, 0, answers, 2, out, SILKENDOZ_OUT) == SILKENDOZ_WRONG_TRACE);
    EXPECT(batch_in(&t, run, 3 * N, 2, trail, TRAIL, answers, 2, out, SILKENDOZ_OUT) == SILKENDOZ_WRONG_TRACE);
    EXPECT(batch_in(&t, run, 2 * N, 2, trail, 1, answers, 2, out, SILKENDOZ_OUT) == SILKENDOZ_SHORT_TRAIL);
    EXPECT(memcmp(&t, &before, sizeof t) == 0);
    EXPECT(memcmp(answers, kept, sizeof kept) == 0);
    EXPECT(memcmp(trail, marks, sizeof marks) == 0);
}

/* Bands of document 01's A, B, C from (1,1,1,1): A is at 4, and the leaf of B and C says 36 to 100. An edge belongs to the band behind it.
 * With any samples in the tables the report is the same. What is refused leaves everything as it was. */
static void bands(void)
{
    static struct tables t, before;
    const int32_t traces[3][N] = {{0, 0, 0, 0}, {4, 4, 4, 4}, {0, 8, 0, 8}}, query[N] = {1, 1, 1, 1}, beyond[N] = {0, 0, 0, 524288};
    const uint64_t edges[SILKENDOZ_MAX_EDGES + 1] = {0, 4, 5, 36, 100, 101, 102, 103, 104, 105, 106, 107, 108, 109, 110, UINT64_MAX - 1,
        UINT64_MAX};
    const uint64_t sure[5] = {0, 1, 0, 0, 0}, possible[5] = {0, 1, 0, 2, 2};
    const uint64_t equal[3] = {0, 7, 7}, falling[3] = {0, 7, 6};
    struct silkendoz_band list[SILKENDOZ_MAX_EDGES], kept[SILKENDOZ_MAX_EDGES];
    uint64_t out[SILKENDOZ_OUT] = {9, 9, 9, 9, 9};
    size_t i;

    memset(&t, 0x5a, sizeof t);
    memset(kept, 0x77, sizeof kept);
    memcpy(list, kept, sizeof kept);
    EXPECT(bands_in(&t, query, N, edges, 0, list, 0, out, SILKENDOZ_OUT) == SILKENDOZ_SPOILED && out[0] == 0 && out[1] == 9);
    EXPECT(open_in(&t, N, C, 2, out) == SILKENDOZ_DONE);
    /* an empty library reports zeros, and writes no value of an answer */
    out[0] = 9;
    EXPECT(bands_in(&t, query, N, edges, 3, list, 2, out, SILKENDOZ_OUT) == SILKENDOZ_DONE && out[0] == 9);
    EXPECT(list[0].sure == 0 && list[0].possible == 0 && list[1].sure == 0 && list[1].possible == 0);
    EXPECT(memcmp(list + 2, kept + 2, sizeof kept - 2 * sizeof *kept) == 0);
    for (i = 0; i < 3; i++)
        EXPECT(add_to(&t, traces[i], N, out, 0) == SILKENDOZ_DONE);

    memcpy(list, kept, sizeof kept);
    memset(t.work, 0xff, sizeof t.work);
    before = t;
    EXPECT(bands_in(&t, query, N, edges, 6, list, SILKENDOZ_MAX_EDGES, out, SILKENDOZ_OUT) == SILKENDOZ_DONE && out[0] == 9);
    for (i = 0; i < 5; i++)
        EXPECT(list[i].sure == sure[i] && list[i].possible == possible[i]);
    EXPECT(memcmp(list + 5, kept + 5, sizeof kept - 5 * sizeof *kept) == 0);
    memset(before.work, 0, SILKENDOZ_WORK(C) * sizeof *before.work);
    EXPECT(memcmp(&t, &before, sizeof t) == 0);
    memset(t.samples, 0x33, sizeof t.samples);
    memcpy(list, kept, sizeof kept);
    EXPECT(bands_in(&t, query, N, edges, 6, list, 5, out, SILKENDOZ_OUT) == SILKENDOZ_DONE);
    for (i = 0; i < 5; i++)
        EXPECT(list[i].sure == sure[i] && list[i].possible == possible[i]);
    EXPECT(bands_in(&t, query, N, edges, SILKENDOZ_MAX_EDGES, list, SILKENDOZ_MAX_BANDS, out, SILKENDOZ_OUT) == SILKENDOZ_DONE);
    EXPECT(list[4].possible == 2 && list[5].possible == 0 && list[14].possible == 0);

    /* 4, 15, 16, 7, in this order */
    memcpy(list, kept, sizeof kept);
    memset(t.work, 0xff, sizeof t.work);
    before = t;
    EXPECT(bands_in(&t, beyond, N - 1, edges, 1, list, 0, out, SILKENDOZ_OUT) == SILKENDOZ_WRONG_TRACE && out[0] == 0);
    EXPECT(bands_in(&t, beyond, N, edges, 1, list, 0, out, SILKENDOZ_OUT) == SILKENDOZ_SAMPLE_RANGE);
    EXPECT(bands_in(&t, query, N, edges, 0, list, 0, out, SILKENDOZ_OUT) == SILKENDOZ_BAD_EDGES);
    EXPECT(bands_in(&t, query, N, edges, 1, list, 0, out, SILKENDOZ_OUT) == SILKENDOZ_BAD_EDGES);
    EXPECT(bands_in(&t, query, N, edges, 17, list, 16, out, SILKENDOZ_OUT) == SILKENDOZ_BAD_EDGES);
    EXPECT(bands_in(&t, query, N, equal, 3, list, 0, out, SILKENDOZ_OUT) == SILKENDOZ_BAD_EDGES);
    EXPECT(bands_in(&t, query, N, falling, 3, list, 2, out, SILKENDOZ_OUT) == SILKENDOZ_BAD_EDGES);
    EXPECT(bands_in(&t, query, N, edges, 3, list, 1, out, SILKENDOZ_OUT) == SILKENDOZ_SHORT_TRAIL && out[0] == 0 && out[1] == 9);
    EXPECT(bands_in(&t, query, N, edges, 16, list, 14, out, SILKENDOZ_OUT) == SILKENDOZ_SHORT_TRAIL);
    EXPECT(memcmp(&t, &before, sizeof t) == 0 && memcmp(list, kept, sizeof kept) == 0);
    /* an odd number of places holds one record less */
    {
        struct silkendoz_tables l = lent(&t);
        uint64_t places[4] = {7, 7, 7, 7};
        EXPECT(silkendoz_count_bands(SILKENDOZ_PASSED(&l) places, 3, query, N, edges, 3, out, SILKENDOZ_OUT) == SILKENDOZ_SHORT_TRAIL);
        EXPECT(silkendoz_count_bands(SILKENDOZ_PASSED(&l) places, 3, query, N, edges + 1, 2, out, SILKENDOZ_OUT) == SILKENDOZ_DONE);
        EXPECT(places[0] == 1 && places[1] == 1 && places[2] == 7 && places[3] == 7);
    }
}

/* A library of traces of one level each, in the order given. */
static void fill(struct tables *t, uint64_t c, uint64_t leaf_size, const int32_t *levels, size_t many)
{
    uint64_t out[SILKENDOZ_OUT];
    size_t i;
    memset(t, 0x5a, sizeof *t);
    EXPECT(open_in(t, N, c, leaf_size, out) == SILKENDOZ_DONE);
    for (i = 0; i < many; i++) {
        const int32_t trace[N] = {levels[i], levels[i], levels[i], levels[i]};
        EXPECT(add_to(t, trace, N, out, SILKENDOZ_OUT) == SILKENDOZ_DONE);
    }
}

/* What a match over both answers of a query of one level, and what it leaves: trails behind their leaves, all of the tables but work, and
 * of each work the needed part zero. */
static struct silkendoz_pair_match both(struct tables *factory, struct tables *bench, int32_t level, uint16_t *trail, uint16_t *bench_trail)
{
    static struct tables kept, bench_kept;
    const int32_t query[N] = {level, level, level, level};
    struct silkendoz_pair_match match = {9, 9, 9, 9, 9, 9, 9};
    struct silkendoz_part won = {NULL, 77};
    struct tables *from;
    size_t i;
    memset(trail, 0xee, TRAIL * sizeof *trail);
    memset(bench_trail, 0xee, TRAIL * sizeof *bench_trail);
    memset(factory->work, 0xff, sizeof factory->work);
    memset(bench->work, 0xff, sizeof bench->work);
    kept = *factory;
    bench_kept = *bench;
    EXPECT(both_in(factory, trail, TRAIL, bench, bench_trail, TRAIL, query, N, &match, &won) == SILKENDOZ_DONE);
    EXPECT(match.library < 2 && match.leaves == match.factory_leaves + match.bench_leaves);
    /* the nearest trace, where it lies in the table that was lent */
    from = match.library == 0 ? factory : bench;
    EXPECT(won.at == from->samples + match.trace * N && won.len == N);
    for (i = match.factory_leaves; i < TRAIL; i++)
        EXPECT(trail[i] == 0xeeee);
    for (i = match.bench_leaves; i < TRAIL; i++)
        EXPECT(bench_trail[i] == 0xeeee);
    memset(kept.work, 0, SILKENDOZ_WORK(factory->control[1]) * sizeof *kept.work);
    memset(bench_kept.work, 0, SILKENDOZ_WORK(bench->control[1]) * sizeof *bench_kept.work);
    EXPECT(memcmp(factory, &kept, sizeof kept) == 0 && memcmp(bench, &bench_kept, sizeof bench_kept) == 0);
    return match;
}

/* Two libraries: the nearest of all, the factory's among equals; of each the leaves within the joint distance; the winning trace as it lies
 * in its table. 2 and 3 of the factory's, then of the bench's, 17, 4, 15, 6, 7; a refusal leaves everything, and an empty part. */
static void pairs(void)
{
    static struct tables f, b, kept, bench_kept;
    const int32_t zero_and_four[2] = {0, 4}, two[1] = {2}, far[3] = {90, 80, 4}, beyond[N] = {0, 0, 0, 524288};
    const int32_t query[N] = {0, 0, 0, 0};
    struct silkendoz_pair_match match = {9, 9, 9, 9, 9, 9, 9};
    struct silkendoz_part won = {NULL, 77};
    uint16_t trail[TRAIL], bench_trail[TRAIL];
    uint64_t out[SILKENDOZ_OUT];

    /* the bench's alone is read: no leaf of the factory's is within the joint distance */
    fill(&f, C, 1, zero_and_four, 2);
    fill(&b, C, 1, two, 1);
    match = both(&f, &b, 2, trail, bench_trail);
    EXPECT(match.library == 1 && match.trace == 0 && match.distance == 0 && match.leaves == 1 && match.traces == 1);
    EXPECT(match.factory_leaves == 0 && bench_trail[0] == 0);
    /* equal distances: the factory's, the lower number of its two; all leaves are within it */
    match = both(&f, &b, 3, trail, bench_trail);
    EXPECT(match.library == 0 && match.trace == 1 && match.distance == 4 && match.factory_leaves == 1 && match.bench_leaves == 1);
    EXPECT(trail[0] == 2 && bench_trail[0] == 0 && match.traces == 2);
    match = both(&b, &f, 3, trail, bench_trail);
    EXPECT(match.library == 0 && match.trace == 0 && match.distance == 4);
    /* .. even where its number is the higher one */
    fill(&f, 4, 2, far, 3);
    fill(&b, C, 1, zero_and_four, 2);
    match = both(&f, &b, 4, trail, bench_trail);
    EXPECT(match.library == 0 && match.trace == 2 && match.distance == 0 && match.bench_leaves == 1 && bench_trail[0] == 2);

    /* one of them empty, and its trail of no length */
    fill(&b, 3, 2, NULL, 0);
    match = both(&f, &b, 81, trail, bench_trail);
    EXPECT(match.library == 0 && match.trace == 1 && match.distance == 4 && match.bench_leaves == 0);
    match = both(&b, &f, 81, trail, bench_trail);
    EXPECT(match.library == 1 && match.trace == 1 && match.factory_leaves == 0);
    EXPECT(both_in(&f, trail, TRAIL, &b, bench_trail, 0, query, N, &match, &won) == SILKENDOZ_DONE && match.trace == 2);

    /* an `out` that is shorter takes the first values */
    {
        struct silkendoz_tables l = lent(&f), m = lent(&b);
        uint64_t some[4] = {9, 9, 9, 9};
        EXPECT(silkendoz_match_both(
                   SILKENDOZ_PASSED(&l) trail, TRAIL, SILKENDOZ_PASSED(&m) bench_trail, TRAIL, query, N, some, 3, &won) == SILKENDOZ_DONE);
        EXPECT(some[0] == 0 && some[1] == 2 && some[2] == 64 && some[3] == 9 && won.at == f.samples + 2 * N && won.len == N);
        EXPECT(SILKENDOZ_SAMPLE(won.at[0]) == 4);
    }

    /* refusals, each with the next ones beside it */
    fill(&f, C, 1, NULL, 0);
    fill(&b, C, 1, NULL, 0);
    EXPECT(open_in(&b, N - 1, C, 1, out) == SILKENDOZ_DONE);
    match.library = 7;
    f.control[2] = 0;
    b.control[2] = 0;
    {
        struct silkendoz_tables l = lent(&f), m = lent(&b);
        m.links_len = 0;
        EXPECT(silkendoz_match_both_in(&l, trail, 0, &m, bench_trail, 0, beyond, 1, &match, &won) == SILKENDOZ_SPOILED);
        l.control_len = 4;
        EXPECT(silkendoz_match_both_in(&l, trail, 0, &m, bench_trail, 0, beyond, 1, &match, &won) == SILKENDOZ_SHORT_TABLE);
        f.control[2] = 1;
        l.control_len = 5;
        m.control_len = 4;
        EXPECT(silkendoz_match_both_in(&l, trail, 0, &m, bench_trail, 0, beyond, 1, &match, &won) == SILKENDOZ_SHORT_TABLE);
        m.control_len = 5;
        EXPECT(silkendoz_match_both_in(&l, trail, 0, &m, bench_trail, 0, beyond, 1, &match, &won) == SILKENDOZ_SPOILED);
    }
    b.control[2] = 1;
    kept = f;
    bench_kept = b;
    EXPECT(both_in(&f, trail, 0, &b, bench_trail, 0, beyond, 1, &match, &won) == SILKENDOZ_UNLIKE_LIBRARIES);
    EXPECT(won.at == f.samples && won.len == 0 && match.library == 7);
    b.control[0] = N;
    bench_kept = b;
    EXPECT(both_in(&f, trail, 0, &b, bench_trail, 0, beyond, N - 1, &match, &won) == SILKENDOZ_WRONG_TRACE && won.len == 0);
    EXPECT(both_in(&f, trail, 0, &b, bench_trail, 0, beyond, N, &match, &won) == SILKENDOZ_SAMPLE_RANGE && won.len == 0);
    EXPECT(both_in(&f, trail, 0, &b, bench_trail, 0, query, N, &match, &won) == SILKENDOZ_EMPTY && won.len == 0);
    EXPECT(memcmp(&f, &kept, sizeof f) == 0 && memcmp(&b, &bench_kept, sizeof b) == 0);
    fill(&f, C, 1, zero_and_four, 2);
    fill(&b, C, 1, far, 3);
    memset(trail, 0xee, sizeof trail);
    memset(bench_trail, 0xee, sizeof bench_trail);
    kept = f;
    bench_kept = b;
    /* each trail by its own library's leaves, however few are read */
    EXPECT(both_in(&f, trail, 1, &b, bench_trail, 3, query, N, &match, &won) == SILKENDOZ_SHORT_TRAIL && won.len == 0);
    EXPECT(both_in(&f, trail, 2, &b, bench_trail, 2, query, N, &match, &won) == SILKENDOZ_SHORT_TRAIL && won.len == 0);
    EXPECT(memcmp(&f, &kept, sizeof f) == 0 && memcmp(&b, &bench_kept, sizeof b) == 0 && match.library == 7);
    EXPECT(trail[0] == 0xeeee && bench_trail[0] == 0xeeee);
    EXPECT(both_in(&f, trail, 2, &b, bench_trail, 3, query, N, &match, &won) == SILKENDOZ_DONE && match.library == 0);
    {
        struct silkendoz_tables l = lent(&f), m = lent(&b);
        uint64_t place[2] = {9, 9};
        EXPECT(silkendoz_match_both(SILKENDOZ_PASSED(&l) trail, 0, SILKENDOZ_PASSED(&m) bench_trail, 0, query, N, place, 2, &won)
            == SILKENDOZ_SHORT_TRAIL);
        EXPECT(place[0] == 0 && place[1] == 9 && won.at == f.samples && won.len == 0);
    }
}

/* What a match with a limit answers, and what it leaves: the trail behind its leaves, all of the tables but work, and of work the needed
 * part zero. */
static struct silkendoz_limited_match within(struct tables *t, const int32_t *query, uint64_t most, uint16_t *trail)
{
    static struct tables kept;
    struct silkendoz_limited_match match = {9, 9, 9, 9, 9, 9};
    size_t i;
    memset(trail, 0xee, TRAIL * sizeof *trail);
    memset(t->work, 0xff, sizeof t->work);
    kept = *t;
    EXPECT(within_in(t, query, t->control[0], trail, TRAIL, most, &match) == SILKENDOZ_DONE);
    EXPECT(match.leaves >= 1 && match.leaves <= most && match.settled <= 1 && (match.settled == 0 || match.bound == 0));
    for (i = match.leaves; i < TRAIL; i++)
        EXPECT(trail[i] == 0xeeee);
    memset(kept.work, 0, SILKENDOZ_WORK(t->control[1]) * sizeof *kept.work);
    EXPECT(memcmp(t, &kept, sizeof kept) == 0);
    return match;
}

static int is(struct silkendoz_limited_match match, uint64_t trace, uint64_t distance, uint64_t leaves, uint64_t traces)
{
    return match.trace == trace && match.distance == distance && match.leaves == leaves && match.traces == traces;
}

/* With every limit from 1 on: the first leaves of the match's own trail, settled from its length on and no sooner. Until then the nearest
 * of all lies between bound and distance, no leaf that is left has a lesser bound, and no larger limit gives a greater distance. */
static uint64_t by_every_limit(struct tables *t, const int32_t *query)
{
    struct silkendoz_limited_match match, before = {0, UINT64_MAX, 0, 0, 0, 0};
    uint16_t trail[TRAIL], full[TRAIL];
    uint64_t out[SILKENDOZ_OUT], most;
    EXPECT(nearest_in(t, query, t->control[0], full, TRAIL, out, SILKENDOZ_OUT) == SILKENDOZ_DONE);
    for (most = 1; most <= TRAIL + 1; most++) {
        match = within(t, query, most, trail);
        EXPECT(match.leaves == (most < out[2] ? most : out[2]) && match.settled == (most >= out[2]));
        EXPECT(memcmp(trail, full, match.leaves * sizeof *trail) == 0);
        EXPECT(match.distance <= before.distance && match.traces >= before.traces);
        if (match.settled)
            EXPECT(is(match, out[0], out[1], out[2], out[3]));
        else
            EXPECT(match.bound >= before.bound && match.bound <= out[1] && out[1] <= match.distance);
        before = match;
    }
    return out[2];
}

/* A limit on leaves: the first leaves of the full trail or all of it, settled or with the first unread leaf's bound. 2, 3, 18, 4, 15, 6, 7;
 * a refusal leaves everything. */
static void limits(void)
{
    static struct tables t, kept;
    const int32_t a[N] = {0, 0, 0, 0}, b[N] = {4, 4, 4, 4}, c[N] = {0, 8, 0, 8}, wave[N] = {0, 4, 0, 4}, beyond[N] = {0, 0, 0, 524288};
    const int32_t one[N] = {1, 1, 1, 1}, two[N] = {2, 2, 2, 2}, between[3][2] = {{4, 0}, {0, 0}, {5, 4}}, beside[2] = {1, 5};
    const struct silkendoz_limited_match untouched = {9, 9, 9, 9, 9, 9};
    struct silkendoz_limited_match match = untouched;
    uint16_t trail[TRAIL];
    uint64_t out[SILKENDOZ_OUT];
    size_t i;

    /* document 01's A, B and C: leaf 1 is {A}, leaf 2 is {B, C} */
    memset(&t, 0x5a, sizeof t);
    EXPECT(open_in(&t, N, C, 2, out) == SILKENDOZ_DONE);
    EXPECT(add_to(&t, a, N, out, SILKENDOZ_OUT) == SILKENDOZ_DONE && add_to(&t, b, N, out, SILKENDOZ_OUT) == SILKENDOZ_DONE);
    EXPECT(add_to(&t, c, N, out, SILKENDOZ_OUT) == SILKENDOZ_DONE);
    /* bounds 4 and 36: one leaf is the whole trail */
    match = within(&t, one, 1, trail);
    EXPECT(match.settled == 1 && is(match, 0, 4, 1, 1) && trail[0] == 1);
    /* both bounds 16, and A at 16: the next bound equals the distance, and that leaf is in the trail */
    match = within(&t, two, 1, trail);
    EXPECT(match.settled == 0 && match.bound == 16 && is(match, 0, 16, 1, 1) && trail[0] == 1);
    match = within(&t, two, 2, trail);
    EXPECT(match.settled == 1 && is(match, 0, 16, 2, 3) && trail[0] == 1 && trail[1] == 2);
    match = within(&t, two, UINT64_MAX, trail);
    EXPECT(match.settled == 1 && is(match, 0, 16, 2, 3));
    /* .. and here it holds the lower number at that distance */
    match = within(&t, wave, 1, trail);
    EXPECT(match.settled == 0 && match.bound == 32 && is(match, 1, 32, 1, 2) && trail[0] == 2);
    match = within(&t, wave, 2, trail);
    EXPECT(match.settled == 1 && is(match, 0, 32, 2, 3) && trail[0] == 2 && trail[1] == 1);
    by_every_limit(&t, one);
    by_every_limit(&t, two);
    by_every_limit(&t, wave);

    /* an `out` that is shorter takes the first values; places behind the six stay */
    {
        struct silkendoz_tables l = lent(&t);
        uint64_t some[7], places;
        const uint64_t open[6] = {0, 16, 1, 1, 0, 16}, settled[6] = {0, 4, 1, 1, 1, 0};
        for (places = 0; places <= 7; places++) {
            for (i = 0; i < 7; i++)
                some[i] = 99;
            EXPECT(silkendoz_match_within(SILKENDOZ_PASSED(&l) trail, TRAIL, two, N, 1, some, places) == SILKENDOZ_DONE);
            for (i = 0; i < 7; i++)
                EXPECT(some[i] == (i < places && i < 6 ? open[i] : 99));
            for (i = 0; i < 7; i++)
                some[i] = 99;
            EXPECT(silkendoz_match_within(SILKENDOZ_PASSED(&l) trail, TRAIL, one, N, 1, some, places) == SILKENDOZ_DONE);
            for (i = 0; i < 7; i++)
                EXPECT(some[i] == (i < places && i < 6 ? settled[i] : 99));
        }
    }

    /* a trail is as long as the library has leaves, however few are read */
    match = untouched;
    memset(trail, 0xee, sizeof trail);
    kept = t;
    EXPECT(within_in(&t, one, N, trail, 1, 1, &match) == SILKENDOZ_SHORT_TRAIL && memcmp(&match, &untouched, sizeof match) == 0);
    EXPECT(memcmp(&t, &kept, sizeof t) == 0 && trail[0] == 0xeeee);
    EXPECT(within_in(&t, one, N, trail, 2, 1, &match) == SILKENDOZ_DONE && match.settled == 1);

    /* the nearest is neither at the bound nor at the distance given */
    memset(&t, 0x5a, sizeof t);
    EXPECT(open_in(&t, 2, C, 2, out) == SILKENDOZ_DONE);
    for (i = 0; i < 3; i++)
        EXPECT(add_to(&t, between[i], 2, out, SILKENDOZ_OUT) == SILKENDOZ_DONE);
    match = within(&t, beside, 1, trail);
    EXPECT(match.settled == 0 && match.bound == 9 && is(match, 1, 26, 1, 2));
    match = within(&t, beside, 2, trail);
    EXPECT(match.settled == 1 && is(match, 2, 17, 2, 3));

    /* traces all around the queries: from the middle each is as near as any, so that every leaf is in the trail */
    EXPECT(open_in(&t, N, C, 1, out) == SILKENDOZ_DONE);
    for (i = 0; i < C; i++) {
        int32_t trace[N] = {0, 0, 0, 0};
        trace[i / 2] = i % 2 == 0 ? 8 : -8;
        EXPECT(add_to(&t, trace, N, out, SILKENDOZ_OUT) == SILKENDOZ_DONE);
    }
    EXPECT(by_every_limit(&t, a) == C);
    for (i = 0; i < 625; i++) {
        const int32_t query[N] = {(int32_t)(i % 5) - 2, (int32_t)(i / 5 % 5) - 2, (int32_t)(i / 25 % 5) - 2, (int32_t)(i / 125) - 2};
        by_every_limit(&t, query);
    }

    /* refusals, each with the next ones beside it */
    EXPECT(open_in(&t, N, C, 1, out) == SILKENDOZ_DONE);
    match = untouched;
    kept = t;
    {
        struct silkendoz_tables l = lent(&t);
        t.control[2] = 0;
        l.links_len = 0;
        l.control_len = 4;
        EXPECT(silkendoz_match_within_in(&l, trail, 0, beyond, 1, 0, &match) == SILKENDOZ_SHORT_TABLE);
        l.control_len = 5;
        EXPECT(silkendoz_match_within_in(&l, trail, 0, beyond, 1, 0, &match) == SILKENDOZ_SPOILED);
        t.control[2] = 1;
        t.control[4] = 1;
        EXPECT(silkendoz_match_within_in(&l, trail, 0, beyond, 1, 0, &match) == SILKENDOZ_SHORT_TABLE);
        l.links_len = C;
        EXPECT(silkendoz_match_within_in(&l, trail, 0, beyond, 1, 0, &match) == SILKENDOZ_SPOILED);
        t.control[4] = 0;
    }
    EXPECT(within_in(&t, beyond, 1, trail, 0, 0, &match) == SILKENDOZ_NO_LEAVES);
    EXPECT(within_in(&t, beyond, N - 1, trail, 0, 1, &match) == SILKENDOZ_WRONG_TRACE);
    EXPECT(within_in(&t, beyond, N, trail, 0, 1, &match) == SILKENDOZ_SAMPLE_RANGE);
    EXPECT(within_in(&t, one, N, trail, 0, 1, &match) == SILKENDOZ_EMPTY);
    /* of an empty library, of a query and of a trail that would do: a limit of none is still refused */
    EXPECT(within_in(&t, one, N, trail, TRAIL, 0, &match) == SILKENDOZ_NO_LEAVES);
    EXPECT(memcmp(&t, &kept, sizeof t) == 0);
    EXPECT(add_to(&t, a, N, out, SILKENDOZ_OUT) == SILKENDOZ_DONE);
    kept = t;
    EXPECT(within_in(&t, one, N, trail, TRAIL, 0, &match) == SILKENDOZ_NO_LEAVES);
    EXPECT(within_in(&t, one, N, trail, 0, 1, &match) == SILKENDOZ_SHORT_TRAIL);
    {
        struct silkendoz_tables l = lent(&t);
        uint64_t place[2] = {9, 9};
        EXPECT(silkendoz_match_within(SILKENDOZ_PASSED(&l) trail, TRAIL, one, N, 0, place, 2) == SILKENDOZ_NO_LEAVES);
        EXPECT(place[0] == 0 && place[1] == 9);
    }
    EXPECT(memcmp(&t, &kept, sizeof t) == 0 && memcmp(&match, &untouched, sizeof match) == 0);
}

/* How many traces are listed for a clipped sweep, by number and none twice; and what the call leaves: the list behind them, all of the
 * tables but work, and of work the needed part zero. */
static uint64_t possible(struct tables *t, const int32_t *lows, const int32_t *highs, uint16_t *list)
{
    static struct tables kept;
    uint64_t out[2] = {9, 9}, i;
    memset(list, 0xee, TRAIL * sizeof *list);
    memset(t->work, 0xff, sizeof t->work);
    kept = *t;
    EXPECT(clipped_in(t, lows, t->control[0], highs, t->control[0], list, TRAIL, out, 2) == SILKENDOZ_DONE && out[1] == 9);
    EXPECT(out[0] >= 1 && out[0] <= t->control[3] && list[out[0] - 1] < t->control[3]);
    for (i = 1; i < out[0]; i++)
        EXPECT(list[i - 1] < list[i]);
    for (i = out[0]; i < TRAIL; i++)
        EXPECT(list[i] == 0xeeee);
    memset(kept.work, 0, SILKENDOZ_WORK(t->control[1]) * sizeof *kept.work);
    EXPECT(memcmp(t, &kept, sizeof kept) == 0);
    return out[0];
}

static uint64_t squared(int32_t x, int32_t y)
{
    int64_t apart = (int64_t)x - y;
    return (uint64_t)(apart * apart);
}

/* The least and the greatest distance that a stored trace may have, sample by sample. */
static uint64_t bounded(const struct tables *t, size_t trace, const int32_t *lows, const int32_t *highs, int greatest)
{
    uint64_t total = 0;
    size_t i, n = t->control[0];
    for (i = 0; i < n; i++) {
        int32_t x = SILKENDOZ_SAMPLE(t->samples[trace * n + i]);
        uint64_t low = squared(x, lows[i]), high = squared(x, highs[i]);
        if (greatest)
            total += low > high ? low : high;
        else if (x < lows[i] || x > highs[i])
            total += low < high ? low : high;
    }
    return total;
}

static int contains(const uint16_t *list, uint64_t count, uint64_t trace)
{
    uint64_t i;
    for (i = 0; i < count && list[i] != trace; i++)
        continue;
    return i < count;
}

/* Of these figures: exactly the traces whose least is no more than the smallest greatest are listed, and for every sweep of whole numbers
 * inside the match is among them. */
static uint64_t by_every_sweep(struct tables *t, const int32_t *lows, const int32_t *highs)
{
    uint16_t list[TRAIL], trail[TRAIL];
    uint64_t count = possible(t, lows, highs, list), smallest = UINT64_MAX, out[SILKENDOZ_OUT], trace;
    int32_t sweep[N];
    size_t i, n = t->control[0];
    for (trace = 0; trace < t->control[3]; trace++) {
        uint64_t greatest = bounded(t, trace, lows, highs, 1);
        smallest = greatest < smallest ? greatest : smallest;
    }
    for (trace = 0; trace < t->control[3]; trace++)
        EXPECT(contains(list, count, trace) == (bounded(t, trace, lows, highs, 0) <= smallest));
    memcpy(sweep, lows, n * sizeof *sweep);
    do {
        EXPECT(nearest_in(t, sweep, n, trail, TRAIL, out, SILKENDOZ_OUT) == SILKENDOZ_DONE && contains(list, count, out[0]));
        for (i = 0; i < n && sweep[i] == highs[i]; i++)
            sweep[i] = lows[i];
        if (i < n)
            sweep[i]++;
    } while (i < n);
    return count;
}

/* Clipped sweeps: which traces could be the match, by number, whatever the tree records. 2, 3, 4, 15, 19, 6, 7; a refusal leaves
 * everything. */
static void clipped_sweeps(void)
{
    static struct tables t, kept;
    const int32_t a[N] = {0, 0, 0, 0}, b[N] = {4, 4, 4, 4}, c[N] = {0, 8, 0, 8}, one[N] = {1, 1, 1, 1}, two[N] = {2, 2, 2, 2};
    const int32_t beyond[N] = {0, 0, 0, SILKENDOZ_MAX_SAMPLE + 1}, under[N] = {SILKENDOZ_MIN_SAMPLE - 1, 0, 0, 0};
    const int32_t crossed[N] = {1, 1, 1, 2}, bottom[N] = {SILKENDOZ_MIN_SAMPLE, SILKENDOZ_MIN_SAMPLE, SILKENDOZ_MIN_SAMPLE,
        SILKENDOZ_MIN_SAMPLE}, top[N] = {SILKENDOZ_MAX_SAMPLE, SILKENDOZ_MAX_SAMPLE, SILKENDOZ_MAX_SAMPLE, SILKENDOZ_MAX_SAMPLE};
    const int32_t around[C][N] = {{4, 0, 0, 0}, {-3, 0, 0, 0}, {0, 6, 0, 0}, {0, -3, 0, 0}, {0, 0, 6, 0}, {0, 0, -6, 0}, {0, 0, 0, 3},
        {0, 0, 0, -6}};
    uint16_t list[TRAIL];
    uint64_t out[SILKENDOZ_OUT], counts[C + 1] = {0}, sweeps;
    size_t i;

    /* document 01's A, B and C; with equal figures all at the match's distance, of which a match tells the lowest number */
    memset(&t, 0x5a, sizeof t);
    EXPECT(open_in(&t, N, C, 2, out) == SILKENDOZ_DONE);
    EXPECT(add_to(&t, a, N, out, SILKENDOZ_OUT) == SILKENDOZ_DONE && add_to(&t, b, N, out, SILKENDOZ_OUT) == SILKENDOZ_DONE);
    EXPECT(add_to(&t, c, N, out, SILKENDOZ_OUT) == SILKENDOZ_DONE);
    EXPECT(possible(&t, one, one, list) == 1 && list[0] == 0);
    EXPECT(possible(&t, two, two, list) == 2 && list[0] == 0 && list[1] == 1);
    /* A at 4 to 16, B at 16 to 36, C at 74 to 106 */
    EXPECT(possible(&t, one, two, list) == 2 && list[0] == 0 && list[1] == 1);
    /* A and B at 0 to 64, C at 32 to 160 */
    EXPECT(possible(&t, a, b, list) == 3 && list[0] == 0 && list[1] == 1 && list[2] == 2);
    /* nothing is known */
    EXPECT(possible(&t, bottom, top, list) == 3);
    /* as far from all of them as a sample may be */
    EXPECT(possible(&t, bottom, bottom, list) == 1 && list[0] == 0);
    EXPECT(possible(&t, top, top, list) == 1 && list[0] == 1);
    EXPECT(by_every_sweep(&t, a, b) == 3 && by_every_sweep(&t, one, two) == 2);

    /* the list has a place for each trace, however few are listed; an `out` of none takes no value */
    memset(list, 0xee, sizeof list);
    kept = t;
    out[0] = 9;
    EXPECT(clipped_in(&t, one, N, one, N, list, 2, out, 1) == SILKENDOZ_SHORT_TRAIL && out[0] == 0);
    EXPECT(memcmp(&t, &kept, sizeof t) == 0 && list[0] == 0xeeee);
    out[0] = 9;
    EXPECT(clipped_in(&t, one, N, one, N, list, 3, out, 0) == SILKENDOZ_DONE && out[0] == 9 && list[0] == 0 && list[1] == 0xeeee);

    /* another figure in a record, and other samples than those of the tree: the samples alone count */
    t.nodes[8] += 1;
    EXPECT(check_in(&t, out, SILKENDOZ_OUT) == SILKENDOZ_LOOSE_RECORD);
    EXPECT(possible(&t, one, one, list) == 1 && list[0] == 0);
    for (i = 0; i < N; i++)
        t.samples[2 * N + i] = SILKENDOZ_WORD(1);
    EXPECT(possible(&t, one, one, list) == 1 && list[0] == 2);

    /* of 0 the greatest is 25, the smallest of all: 10 is listed, whose least it is, and 11 at 36 is not */
    memset(&t, 0x5a, sizeof t);
    EXPECT(open_in(&t, 1, C, 2, out) == SILKENDOZ_DONE);
    {
        const int32_t traces[5] = {11, 10, 0, 10, -1}, low = 2, high = 5, higher = 6;
        for (i = 0; i < 5; i++)
            EXPECT(add_to(&t, &traces[i], 1, out, SILKENDOZ_OUT) == SILKENDOZ_DONE);
        EXPECT(possible(&t, &low, &high, list) == 4 && list[0] == 1 && list[1] == 2 && list[2] == 3 && list[3] == 4);
        EXPECT(by_every_sweep(&t, &low, &high) == 4);
        /* now it is 36, and the least of 11 is 25 */
        EXPECT(by_every_sweep(&t, &low, &higher) == 5);
        EXPECT(by_every_sweep(&t, &low, &low) == 1);
    }

    /* traces all around: each sample is known, or is one of two numbers or of three */
    EXPECT(open_in(&t, N, C, 1, out) == SILKENDOZ_DONE);
    for (i = 0; i < C; i++)
        EXPECT(add_to(&t, around[i], N, out, SILKENDOZ_OUT) == SILKENDOZ_DONE);
    for (sweeps = 0; sweeps < 81 * 81; sweeps++) {
        int32_t lows[N], highs[N];
        uint64_t rest = sweeps;
        for (i = 0; i < N; i++, rest /= 9) {
            lows[i] = (int32_t)(rest % 3) - 1;
            highs[i] = lows[i] + (int32_t)(rest / 3 % 3);
        }
        counts[by_every_sweep(&t, lows, highs)]++;
    }
    /* one trace, all of them, and every number between was listed */
    for (i = 1; i <= C; i++)
        EXPECT(counts[i] > 0);

    /* refusals, each with the next ones beside it */
    EXPECT(open_in(&t, N, C, 1, out) == SILKENDOZ_DONE);
    memset(list, 0xee, sizeof list);
    kept = t;
    {
        struct silkendoz_tables l = lent(&t);
        t.control[2] = 0;
        l.links_len = 0;
        l.control_len = 4;
        EXPECT(silkendoz_match_clipped_in(&l, list, 0, beyond, 1, a, N, out, SILKENDOZ_OUT) == SILKENDOZ_SHORT_TABLE);
        l.control_len = 5;
        EXPECT(silkendoz_match_clipped_in(&l, list, 0, beyond, 1, a, N, out, SILKENDOZ_OUT) == SILKENDOZ_SPOILED);
        t.control[2] = 1;
        t.control[4] = 1;
        EXPECT(silkendoz_match_clipped_in(&l, list, 0, beyond, 1, a, N, out, SILKENDOZ_OUT) == SILKENDOZ_SHORT_TABLE);
        l.links_len = C;
        EXPECT(silkendoz_match_clipped_in(&l, list, 0, beyond, 1, a, N, out, SILKENDOZ_OUT) == SILKENDOZ_SPOILED);
        t.control[4] = 0;
    }
    EXPECT(clipped_in(&t, beyond, N - 1, a, N, list, 0, out, SILKENDOZ_OUT) == SILKENDOZ_WRONG_TRACE);
    EXPECT(clipped_in(&t, beyond, N, a, N - 1, list, 0, out, SILKENDOZ_OUT) == SILKENDOZ_WRONG_TRACE);
    EXPECT(clipped_in(&t, beyond, N, a, 0, list, 0, out, SILKENDOZ_OUT) == SILKENDOZ_WRONG_TRACE);
    EXPECT(clipped_in(&t, beyond, N, a, N, list, 0, out, SILKENDOZ_OUT) == SILKENDOZ_SAMPLE_RANGE);
    EXPECT(clipped_in(&t, crossed, N, under, N, list, 0, out, SILKENDOZ_OUT) == SILKENDOZ_SAMPLE_RANGE);
    EXPECT(clipped_in(&t, under, N, one, N, list, 0, out, SILKENDOZ_OUT) == SILKENDOZ_SAMPLE_RANGE);
    EXPECT(clipped_in(&t, crossed, N, beyond, N, list, 0, out, SILKENDOZ_OUT) == SILKENDOZ_SAMPLE_RANGE);
    EXPECT(clipped_in(&t, crossed, N, one, N, list, 0, out, SILKENDOZ_OUT) == SILKENDOZ_CROSSED_RANGE);
    EXPECT(clipped_in(&t, one, N, crossed, N, list, 0, out, SILKENDOZ_OUT) == SILKENDOZ_EMPTY);
    EXPECT(memcmp(&t, &kept, sizeof t) == 0);
    EXPECT(add_to(&t, a, N, out, SILKENDOZ_OUT) == SILKENDOZ_DONE);
    kept = t;
    EXPECT(clipped_in(&t, one, N, crossed, N, list, 0, out, SILKENDOZ_OUT) == SILKENDOZ_SHORT_TRAIL);
    {
        uint64_t place[2] = {9, 9};
        EXPECT(clipped_in(&t, crossed, N, one, N, list, TRAIL, place, 2) == SILKENDOZ_CROSSED_RANGE);
        EXPECT(place[0] == 0 && place[1] == 9);
    }
    EXPECT(memcmp(&t, &kept, sizeof t) == 0 && list[0] == 0xeeee);
}

/* Labels are given, told and kept by a sheet; the remote is told the code alone, whatever the serials. A refusal leaves everything. */
static void labels(void)
{
    static struct tables t, u, before;
    const int32_t a[N] = {0, 0, 0, 0}, b[N] = {4, 4, 4, 4};
    uint16_t trail[TRAIL], other_trail[TRAIL];
    uint8_t sheet[SILKENDOZ_SHEET(N, 3)];
    uint64_t out[SILKENDOZ_OUT] = {9, 9, 9, 9, 9}, told[SILKENDOZ_OUT] = {0};
    size_t i;

    memset(&t, 0x5a, sizeof t);
    EXPECT(label_in(&t, 0, out, SILKENDOZ_OUT) == SILKENDOZ_SPOILED && out[0] == 0 && out[1] == 9);
    EXPECT(open_in(&t, N, 3, 1, out) == SILKENDOZ_DONE);
    /* an empty library has no trace 0: 12, not 6 */
    EXPECT(label_in(&t, 0, out, SILKENDOZ_OUT) == SILKENDOZ_BAD_RECORDING && out[0] == 0);
    EXPECT(remote_match_in(&t, a, N, trail, TRAIL, out, SILKENDOZ_OUT) == SILKENDOZ_EMPTY);
    EXPECT(add_labelled_to(&t, a, N, 65535, UINT32_MAX, out, SILKENDOZ_OUT) == SILKENDOZ_DONE && out[0] == 0 && out[1] == 9);
    /* what stands in the place of a trace that is added plainly is written over */
    t.labels[1] = UINT64_MAX;
    EXPECT(add_to(&t, b, N, out, SILKENDOZ_OUT) == SILKENDOZ_DONE && out[0] == 1 && t.labels[1] == 0);
    EXPECT(t.labels[0] == 0xffffffffffff && t.labels[2] == 0 && t.labels[3] == 0x5a5a5a5a5a5a5a5a);
    before = t;
    EXPECT(label_in(&t, 0, out, SILKENDOZ_OUT) == SILKENDOZ_DONE && out[0] == 65535 && out[1] == UINT32_MAX && out[2] == 9);
    EXPECT(label_in(&t, 1, out, 1) == SILKENDOZ_DONE && out[0] == 0 && out[1] == UINT32_MAX);
    EXPECT(label_in(&t, 2, out, SILKENDOZ_OUT) == SILKENDOZ_BAD_RECORDING && out[0] == 0 && out[1] == UINT32_MAX);
    EXPECT(label_in(&t, UINT64_MAX, out, SILKENDOZ_OUT) == SILKENDOZ_BAD_RECORDING);
    EXPECT(add_labelled_to(&t, a, N - 1, 1, 2, out, SILKENDOZ_OUT) == SILKENDOZ_WRONG_TRACE);
    EXPECT(memcmp(&t, &before, sizeof t) == 0);

    /* the serial alone makes a block of labels; a sheet for it is longer */
    EXPECT(add_labelled_to(&t, b, N, 0, 4119, out, 0) == SILKENDOZ_DONE && t.labels[2] == 65536ull * 4119);
    EXPECT(add_labelled_to(&t, b, N, 1, 2, out, SILKENDOZ_OUT) == SILKENDOZ_FULL && t.labels[2] == 65536ull * 4119);
    /* the bits above a serial are nobody's */
    t.labels[0] = 0xabcd000000000000;
    EXPECT(label_in(&t, 0, out, SILKENDOZ_OUT) == SILKENDOZ_DONE && out[0] == 0 && out[1] == 0);
    EXPECT(write_from(&t, sheet, sizeof sheet - 1, out) == SILKENDOZ_SHEET_LENGTH);
    EXPECT(write_from(&t, sheet, sizeof sheet, out) == SILKENDOZ_DONE && out[0] == 3);
    EXPECT(memcmp(sheet + 1024, "\2\0\5\0\0\0\0\0\0\0\0\0\0\0\0\0\0\0\x17\x10\0\0\0\0", 24) == 0);
    memset(&u, 0x55, sizeof u);
    EXPECT(read_into(&u, sheet, 2 * 512, out) == SILKENDOZ_DONE && u.labels[0] == 0 && u.labels[2] == 0);
    EXPECT(read_into(&u, sheet, sizeof sheet, out) == SILKENDOZ_DONE && u.labels[0] == 0 && u.labels[2] == 65536ull * 4119);
    EXPECT(u.labels[1] == 0 && u.labels[3] == 0x5555555555555555);

    /* alike but for serials */
    t.labels[0] = 17 + 65536ull * 4118;
    memcpy(&u, &t, sizeof t);
    for (i = 0; i < 3; i++)
        u.labels[i] = u.labels[i] % 65536 + 65536 * (i + 1);
    memset(trail, 0xee, sizeof trail);
    memset(other_trail, 0xee, sizeof other_trail);
    memset(t.work, 0xff, sizeof t.work);
    memset(u.work, 0xff, sizeof u.work);
    EXPECT(remote_match_in(&t, a, N, trail, TRAIL, told, SILKENDOZ_OUT) == SILKENDOZ_DONE);
    EXPECT(told[0] == 0 && told[1] == 0 && told[2] == 1 && told[3] == 1 && told[4] == 17);
    EXPECT(remote_match_in(&u, a, N, other_trail, TRAIL, out, SILKENDOZ_OUT) == SILKENDOZ_DONE);
    EXPECT(memcmp(out, told, sizeof out) == 0 && memcmp(trail, other_trail, sizeof trail) == 0);
    EXPECT(memcmp(t.work, u.work, sizeof t.work) == 0 && t.work[0] == 0);
    out[4] = 9;
    EXPECT(remote_match_in(&t, a, N, trail, TRAIL, out, 4) == SILKENDOZ_DONE && out[3] == 1 && out[4] == 9);
    EXPECT(remote_match_in(&t, a, N, trail, 0, out, SILKENDOZ_OUT) == SILKENDOZ_SHORT_TRAIL && out[0] == 0 && out[4] == 9);
    EXPECT(nearest_in(&t, a, N, trail, TRAIL, out, SILKENDOZ_OUT) == SILKENDOZ_DONE && out[4] == 9);
}

/* Every sample as a word and back, also where the word has lower bits. */
static void words_of_samples(void)
{
    static const int32_t ends[] = {SILKENDOZ_WORD(SILKENDOZ_MIN_SAMPLE), SILKENDOZ_WORD(-1), SILKENDOZ_WORD(0), SILKENDOZ_WORD(1),
        SILKENDOZ_WORD(SILKENDOZ_MAX_SAMPLE)};
    const int32_t lower[] = {0, 1, 2047, 4095};
    int32_t sample;
    size_t i;
    EXPECT(ends[0] == INT32_MIN && ends[1] == -4096 && ends[2] == 0 && ends[3] == 4096 && ends[4] == INT32_MAX - 4095);
    EXPECT(SILKENDOZ_SAMPLE(INT32_MIN) == SILKENDOZ_MIN_SAMPLE && SILKENDOZ_SAMPLE(INT32_MAX) == SILKENDOZ_MAX_SAMPLE);
    EXPECT(SILKENDOZ_SAMPLE(-1) == -1 && SILKENDOZ_SAMPLE(-4096) == -1 && SILKENDOZ_SAMPLE(-4097) == -2);
    EXPECT(SILKENDOZ_SAMPLE(0) == 0 && SILKENDOZ_SAMPLE(4095) == 0 && SILKENDOZ_SAMPLE(4096) == 1);
    EXPECT(SILKENDOZ_SAMPLE(4096 + 4096) * 2 == 4 && SILKENDOZ_WORD(1 + 1) == 8192);
    for (sample = SILKENDOZ_MIN_SAMPLE; sample <= SILKENDOZ_MAX_SAMPLE; sample++)
        for (i = 0; i < PLACES(lower); i++)
            if (SILKENDOZ_SAMPLE(SILKENDOZ_WORD(sample) + lower[i]) != sample)
                EXPECT(0);
}

/* A trace of 20 bits: stored as words, found at the greatest distance, written as a wide sheet and read back, not exported. Lower bits of a
 * word are ignored. One sample beyond is refused as 15, in its place in the order, by every call that takes samples. */
static void wide_samples(void)
{
    static struct tables t, u, before;
    const int32_t low[N] = {-524288, -524288, -524288, -524288}, high[N] = {524287, 524287, 524287, 524287};
    const int32_t beyond[][N] = {{524288, 0, 0, 0}, {0, 0, 0, -524289}, {0, INT32_MAX, 0, 0}, {0, 0, INT32_MIN, 0}};
    struct silkendoz_neighbour list[1];
    struct silkendoz_answer answers[1];
    uint8_t sheet[SILKENDOZ_SHEET(N, 2)], recording[SILKENDOZ_RECORDING_BYTES(N)];
    uint16_t trail[TRAIL];
    uint64_t out[SILKENDOZ_OUT] = {9, 9, 9, 9, 9};
    size_t i;

    memset(&t, 0x5a, sizeof t);
    EXPECT(add_to(&t, beyond[0], N, out, SILKENDOZ_OUT) == SILKENDOZ_SPOILED);
    EXPECT(open_in(&t, N, 2, 1, out) == SILKENDOZ_DONE);
    /* before 6 and 7, behind 4, 11 and 14 */
    EXPECT(nearest_in(&t, beyond[0], N, trail, 0, out, SILKENDOZ_OUT) == SILKENDOZ_SAMPLE_RANGE && out[0] == 0 && out[1] == 9);
    EXPECT(nearest_in(&t, beyond[0], N - 1, trail, 0, out, SILKENDOZ_OUT) == SILKENDOZ_WRONG_TRACE);
    EXPECT(remote_match_in(&t, beyond[1], N, trail, 0, out, SILKENDOZ_OUT) == SILKENDOZ_SAMPLE_RANGE);
    EXPECT(k_nearest_in(&t, beyond[2], N, trail, 0, list, 0, 1, out, SILKENDOZ_OUT) == SILKENDOZ_SAMPLE_RANGE);
    EXPECT(k_nearest_in(&t, beyond[2], N, trail, 0, list, 0, 0, out, SILKENDOZ_OUT) == SILKENDOZ_BAD_K);
    EXPECT(batch_in(&t, beyond[3], N, 1, trail, 0, answers, 1, out, SILKENDOZ_OUT) == SILKENDOZ_SAMPLE_RANGE);
    EXPECT(batch_in(&t, beyond[3], N, 1, trail, 0, answers, 0, out, SILKENDOZ_OUT) == SILKENDOZ_BAD_BATCH);
    EXPECT(batch_in(&t, beyond[3], N - 1, 1, trail, 0, answers, 1, out, SILKENDOZ_OUT) == SILKENDOZ_WRONG_TRACE);

    EXPECT(add_to(&t, low, N, out, SILKENDOZ_OUT) == SILKENDOZ_DONE && add_labelled_to(&t, high, N, 1, 2, out, 0) == SILKENDOZ_DONE);
    for (i = 0; i < N; i++)
        EXPECT(t.samples[i] == INT32_MIN && t.samples[N + i] == INT32_MAX - 4095);
    EXPECT(t.samples[2 * N] == 0x5a5a5a5a);
    before = t;
    for (i = 0; i < PLACES(beyond); i++) {
        /* the library is full, and 15 comes before that */
        EXPECT(add_to(&t, beyond[i], N, out, SILKENDOZ_OUT) == SILKENDOZ_SAMPLE_RANGE && out[0] == 0);
        EXPECT(add_labelled_to(&t, beyond[i], N, 1, 2, out, SILKENDOZ_OUT) == SILKENDOZ_SAMPLE_RANGE);
        EXPECT(nearest_in(&t, beyond[i], N, trail, TRAIL, out, SILKENDOZ_OUT) == SILKENDOZ_SAMPLE_RANGE);
    }
    EXPECT(add_to(&t, beyond[0], N + 1, out, SILKENDOZ_OUT) == SILKENDOZ_WRONG_TRACE);
    EXPECT(add_to(&t, low, N, out, SILKENDOZ_OUT) == SILKENDOZ_FULL);
    EXPECT(memcmp(&t, &before, sizeof t) == 0);
    EXPECT(nearest_in(&t, low, N, trail, TRAIL, out, SILKENDOZ_OUT) == SILKENDOZ_DONE && out[0] == 0 && out[1] == 0);
    EXPECT(k_nearest_in(&t, low, N, trail, TRAIL, list, 1, 1, out, SILKENDOZ_OUT) == SILKENDOZ_DONE && list[0].trace == 0);

    /* a wide sheet: kinds 3, 4 and 5; samples of four bytes */
    EXPECT(write_from(&t, sheet, sizeof sheet - 1, out) == SILKENDOZ_SHEET_LENGTH);
    EXPECT(write_from(&t, sheet, sizeof sheet, out) == SILKENDOZ_DONE && out[0] == 3);
    EXPECT(sheet[2] == 3 && sheet[512 + 2] == 4 && sheet[1024 + 2] == 5);
    EXPECT(memcmp(sheet + 512 + 4, "\0\0\xf8\xff", 4) == 0 && memcmp(sheet + 512 + 4 + 4 * N, "\xff\xff\x07\0", 4) == 0);
    memset(&u, 0x55, sizeof u);
    EXPECT(read_into(&u, sheet, sizeof sheet, out) == SILKENDOZ_DONE);
    EXPECT(memcmp(u.samples, t.samples, SILKENDOZ_SAMPLES(N, 2) * sizeof *t.samples) == 0 && u.labels[1] == 1 + 65536 * 2);

    /* recordings have 16 bits: 12, before 8. The other trace of the library is exported */
    EXPECT(export_from(&t, recording, 0, 0, 8000, out, SILKENDOZ_OUT) == SILKENDOZ_BAD_RECORDING && out[0] == 0);
    EXPECT(open_in(&u, N, 2, 1, out) == SILKENDOZ_DONE);
    {
        const int32_t narrow[N] = {-32768, 32767, 0, -1}, wider[N] = {0, 0, 0, 32768};
        EXPECT(add_to(&u, narrow, N, out, 0) == SILKENDOZ_DONE);
        EXPECT(write_from(&u, sheet, sizeof sheet, out) == SILKENDOZ_DONE && out[0] == 2 && sheet[2] == 1 && sheet[512 + 2] == 2);
        EXPECT(add_to(&u, wider, N, out, 0) == SILKENDOZ_DONE);
        EXPECT(write_from(&u, sheet, sizeof sheet, out) == SILKENDOZ_DONE && out[0] == 2 && sheet[2] == 3 && sheet[512 + 2] == 4);
        EXPECT(export_from(&u, recording, sizeof recording, 0, 8000, out, SILKENDOZ_OUT) == SILKENDOZ_DONE);
        EXPECT(memcmp(recording + HEADER, "\0\x80\xff\x7f\0\0\xff\xff", 8) == 0);
        EXPECT(export_from(&u, recording, sizeof recording, 1, 8000, out, SILKENDOZ_OUT) == SILKENDOZ_BAD_RECORDING);
    }

    /* somebody writes the lower bits of every word: the same samples, and no call says otherwise */
    for (i = 0; i < 2 * N; i++)
        t.samples[i] |= 0xabc;
    before = t;
    EXPECT(check_in(&t, out, SILKENDOZ_OUT) == SILKENDOZ_DONE);
    EXPECT(nearest_in(&t, high, N, trail, TRAIL, out, SILKENDOZ_OUT) == SILKENDOZ_DONE && out[0] == 1 && out[1] == 0);
    memset(before.work, 0, SILKENDOZ_WORK(2) * sizeof *before.work);
    EXPECT(memcmp(&t, &before, sizeof t) == 0);
}

int main(void)
{
    opening();
    largest();
    lengths();
    words();
    needs();
    measures_of_sheets();
    version();
    adding_and_matching();
    listing();
    sheets();
    imports();
    exports();
    checks();
    batches();
    bands();
    pairs();
    limits();
    clipped_sweeps();
    labels();
    words_of_samples();
    wide_samples();
    printf("C: %d tests passed\n", tests);
    return 0;
}
