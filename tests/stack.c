/* How much stack each call takes: it is run on a stack that was filled with a pattern, and what no longer has it was used. Prints a line a
 * call, and fails if one takes more than the guide says. Measured, not proved: this compiler, this machine, these libraries. */

#define _POSIX_C_SOURCE 200809L
#define _DEFAULT_SOURCE

#include "silkendoz.h"

#include <pthread.h>
#include <stdio.h>
#include <stdlib.h>
#include <string.h>

enum { N = 256, C = 1024, K = SILKENDOZ_MAX_K, STACK = 1 << 20, PATTERN = 0xa5, TRACES = 1000 };

SILKENDOZ_LIBRARY(tables, N, C);
SILKENDOZ_LIBRARY(other, N, C);

static uint16_t trail[SILKENDOZ_TRAIL(C)], other_trail[SILKENDOZ_TRAIL(C)];
static struct silkendoz_pair_match match;
static struct silkendoz_limited_match limited;
static struct silkendoz_part won;
static struct silkendoz_neighbour list[K];
static int32_t queries[SILKENDOZ_MAX_BATCH * N];
static uint16_t possible[SILKENDOZ_TRAIL(C)];
static int32_t lows[N], highs[N];
static struct silkendoz_answer answers[SILKENDOZ_MAX_BATCH];
static struct silkendoz_band bands[SILKENDOZ_MAX_BANDS];
static uint64_t edges[SILKENDOZ_MAX_EDGES];
static uint8_t sheet[SILKENDOZ_SHEET(N, C)];
static uint8_t recording[SILKENDOZ_RECORDING_BYTES(N)];
static uint64_t out[SILKENDOZ_OUT];
static int32_t trace[N];
static size_t sheet_size;
static uint64_t number, most;

/* The traces that are added: random ones of 16 bits and of 20, ones that are all the same, ones that differ and that no test parts. */
enum kind { RANDOM, WIDE, SAME, UNPARTED, KINDS };
static enum kind kind;
static uint32_t state = 1;

/* A number of so many bits. */
static int32_t next(int bits)
{
    state = state * 1664525u + 1013904223u;
    return (int32_t)(state >> (32 - bits)) - (1 << (bits - 1));
}

static void make(int at)
{
    int i;
    /* the first trace, which is exported, fits 16 bits */
    for (i = 0; i < N; i++)
        trace[i] = kind == RANDOM || (kind == WIDE && at == 0) ? next(16) : kind == WIDE ? next(20) : 100 * i;
    if (kind == UNPARTED) {
        /* another order of the first samples: sums and scatters of whole and halves stay */
        int a = at % (N / 4), b = at / (N / 4) % (N / 4);
        int32_t kept = trace[a];
        trace[a] = trace[b];
        trace[b] = kept;
    }
}

static void opening(void) { number = silkendoz_open_in(&tables, N, C, 1, out, SILKENDOZ_OUT); }
static void adding(void) { number = silkendoz_add_in(&tables, trace, N, out, SILKENDOZ_OUT); }
static void labelling(void) { number = silkendoz_add_labelled_in(&tables, trace, N, 17, 4119, out, SILKENDOZ_OUT); }
static void telling(void) { number = silkendoz_label_in(&tables, 0, out, SILKENDOZ_OUT); }
static void matching(void) { number = silkendoz_nearest_in(&tables, trail, SILKENDOZ_TRAIL(C), trace, N, out, SILKENDOZ_OUT); }
static void remote(void) { number = silkendoz_remote_match_in(&tables, trail, SILKENDOZ_TRAIL(C), trace, N, out, SILKENDOZ_OUT); }
static void listing(void)
{
    number = silkendoz_k_nearest_in(&tables, trail, SILKENDOZ_TRAIL(C), list, K, trace, N, K, out, SILKENDOZ_OUT);
}
static void writing(void) { number = silkendoz_write_sheet_in(&tables, sheet, sizeof sheet, out, SILKENDOZ_OUT); }
static void reading(void) { number = silkendoz_read_sheet_in(&tables, sheet, sheet_size, out, SILKENDOZ_OUT); }
static void exporting(void)
{
    number = silkendoz_export_recording_in(&tables, recording, sizeof recording, 0, 8000, out, SILKENDOZ_OUT);
}
static void importing(void) { number = silkendoz_import_recording_in(&tables, recording, sizeof recording, out, SILKENDOZ_OUT); }
static void checking(void) { number = silkendoz_check_tables_in(&tables, out, SILKENDOZ_OUT); }
static void batching(void)
{
    number = silkendoz_match_batch_in(
        &tables, trail, SILKENDOZ_TRAIL(C), queries, SILKENDOZ_MAX_BATCH * N, SILKENDOZ_MAX_BATCH, answers, SILKENDOZ_MAX_BATCH, out,
        SILKENDOZ_OUT);
}
static void banding(void)
{
    number = silkendoz_count_bands_in(&tables, bands, SILKENDOZ_MAX_BANDS, trace, N, edges, SILKENDOZ_MAX_EDGES, out, SILKENDOZ_OUT);
}
static void pairing(void)
{
    number = silkendoz_match_both_in(
        &tables, trail, SILKENDOZ_TRAIL(C), &other, other_trail, SILKENDOZ_TRAIL(C), trace, N, &match, &won);
}
static void limiting(void)
{
    number = silkendoz_match_within_in(&tables, trail, SILKENDOZ_TRAIL(C), trace, N, most, &limited);
}
static void clipping(void)
{
    number = silkendoz_match_clipped_in(&tables, possible, SILKENDOZ_TRAIL(C), lows, N, highs, N, out, SILKENDOZ_OUT);
}
static void nothing(void) { number = SILKENDOZ_DONE; }

struct call {
    const char *name;
    void (*run)(void);
    /* KiB that it stays below, by the guide */
    size_t limit;
    size_t used;
};

static void *run(void *call)
{
    ((struct call *)call)->run();
    return NULL;
}

/* Bytes of a filled stack that are no longer as they were. */
static size_t used_by(struct call *call, uint8_t *stack)
{
    pthread_attr_t attributes;
    pthread_t thread;
    size_t free_bytes = 0;
    memset(stack, PATTERN, STACK);
    if (pthread_attr_init(&attributes) != 0 || pthread_attr_setstack(&attributes, stack, STACK) != 0
        || pthread_create(&thread, &attributes, run, call) != 0) {
        fprintf(stderr, "stack: no thread\n");
        exit(1);
    }
    pthread_join(thread, NULL);
    pthread_attr_destroy(&attributes);
    while (free_bytes < STACK && stack[free_bytes] == PATTERN)
        free_bytes++;
    return STACK - free_bytes;
}

static void measure(struct call *call, uint8_t *stack, size_t before)
{
    size_t used = used_by(call, stack) - before;
    if (number != SILKENDOZ_DONE) {
        fprintf(stderr, "stack: %s is refused, %s\n", call->name, silkendoz_word(number));
        exit(1);
    }
    if (used > call->used)
        call->used = used;
}

int main(void)
{
    struct call none = {"nothing", nothing, 0, 0};
    struct call calls[] = {{"open", opening, 16, 0}, {"add", adding, 96, 0}, {"nearest", matching, 16, 0}, {"k_nearest", listing, 16, 0},
        {"write_sheet", writing, 16, 0}, {"read_sheet", reading, 96, 0}, {"export_recording", exporting, 16, 0},
        {"import_recording", importing, 96, 0}, {"check_tables", checking, 64, 0}, {"match_batch", batching, 48, 0},
        {"add_labelled", labelling, 96, 0}, {"label", telling, 16, 0}, {"remote_match", remote, 16, 0},
        {"count_bands", banding, 24, 0}, {"match_both", pairing, 24, 0}, {"match_within", limiting, 16, 0},
        {"match_clipped", clipping, 16, 0}};
    size_t before, i;
    int at;
    void *stack;
    if (posix_memalign(&stack, 4096, STACK) != 0)
        return 1;
    /* what a thread takes by itself */
    before = used_by(&none, stack);
    for (at = 0; at < SILKENDOZ_MAX_EDGES; at++)
        edges[at] = (uint64_t)1 << 3 * at;
    for (kind = RANDOM; kind < KINDS; kind++) {
        measure(&calls[0], stack, before);
        for (at = 0; at < TRACES; at++) {
            make(at);
            if (at < 4 || at % 50 == 0 || at + 4 > TRACES)
                measure(&calls[1], stack, before);
            else
                adding();
        }
        /* so that a sheet has blocks of labels */
        measure(&calls[10], stack, before);
        measure(&calls[11], stack, before);
        measure(&calls[12], stack, before);
        measure(&calls[13], stack, before);
        measure(&calls[2], stack, before);
        /* a leaf is left, and none is */
        for (most = 1; most <= C; most += C - 1)
            measure(&calls[15], stack, before);
        /* every sample known, every fourth one as far as the converter reaches, and none known */
        for (at = 0; at < N; at++)
            lows[at] = highs[at] = trace[at];
        measure(&calls[16], stack, before);
        for (at = 0; at < N; at += 4)
            highs[at] = SILKENDOZ_MAX_SAMPLE;
        measure(&calls[16], stack, before);
        for (at = 0; at < N; at++) {
            lows[at] = SILKENDOZ_MIN_SAMPLE;
            highs[at] = SILKENDOZ_MAX_SAMPLE;
        }
        measure(&calls[16], stack, before);
        measure(&calls[3], stack, before);
        measure(&calls[4], stack, before);
        sheet_size = 512 * (size_t)out[0];
        /* the other library of a pair has the same traces */
        if (silkendoz_read_sheet_in(&other, sheet, sheet_size, out, SILKENDOZ_OUT) != SILKENDOZ_DONE)
            return 1;
        measure(&calls[14], stack, before);
        measure(&calls[5], stack, before);
        measure(&calls[6], stack, before);
        measure(&calls[7], stack, before);
        measure(&calls[8], stack, before);
        for (at = 0; at < SILKENDOZ_MAX_BATCH * N; at++)
            queries[at] = SILKENDOZ_SAMPLE(tables.samples[at]);
        measure(&calls[9], stack, before);
    }
    free(stack);
    for (i = 0; i < sizeof calls / sizeof *calls; i++) {
        printf("stack: %-16s %6zu bytes\n", calls[i].name, calls[i].used);
        if (calls[i].used >= 1024 * calls[i].limit) {
            fprintf(stderr, "stack: %s takes %zu KiB or more\n", calls[i].name, calls[i].limit);
            return 1;
        }
    }
    return 0;
}
