/* Several searches at once over the same tables, matches, the remote's too, lists, batches, bands, matches over two libraries, such with a
 * limit on leaves and clipped sweeps: each thread has work, trail, list, answers, part and out of its own, and the tables are only read.
 * Prints one line, and fails at the first difference. */

#include "silkendoz.h"

#include <pthread.h>
#include <stdio.h>
#include <stdlib.h>
#include <string.h>

enum { N = 32, C = 400, LEAF_SIZE = 4, THREADS = 8, QUERIES = 300, K = 5, MANY = 2, BANDS = 4, MOST = 2, EVERY = 8 };

SILKENDOZ_LIBRARY(library, N, C);
SILKENDOZ_LIBRARY(factory, N, C);

/* What a search is lent that nobody else may touch, and what it left there. */
struct own {
    uint64_t work[SILKENDOZ_WORK(C)], factory_work[SILKENDOZ_WORK(C)];
    uint16_t trail[SILKENDOZ_TRAIL(C)], factory_trail[SILKENDOZ_TRAIL(C)], few[SILKENDOZ_TRAIL(C)], possible[SILKENDOZ_TRAIL(C)];
    struct silkendoz_pair_match pair;
    struct silkendoz_limited_match limited;
    struct silkendoz_part won;
    struct silkendoz_neighbour list[K];
    struct silkendoz_answer answers[MANY];
    struct silkendoz_band bands[BANDS];
    uint64_t match[SILKENDOZ_OUT], remote[SILKENDOZ_OUT], listing[SILKENDOZ_OUT], batch[SILKENDOZ_OUT], clipped[SILKENDOZ_OUT];
};

static int32_t queries[QUERIES][N];
static struct own alone[QUERIES];
static int failed[THREADS];

static void stop(const char *what)
{
    fprintf(stderr, "threads: %s\n", what);
    exit(1);
}

static struct silkendoz_tables with(struct silkendoz_tables t, uint64_t *work)
{
    t.work = work;
    return t;
}

/* A match, the remote's, a list that writes its trail over the match's, a batch of the query and its mirror image, over the list's, a
 * report of bands, a match over both libraries, over the batch's, a match of MOST leaves at most, with a trail of its own, and the query
 * with every EVERYth sample known only as no less. Gives back whether all were done. */
static int search(struct own *own, const int32_t *query)
{
    struct silkendoz_tables t = with(library, own->work), f = with(factory, own->factory_work);
    const uint64_t edges[BANDS + 1] = {0, (uint64_t)1 << 36, (uint64_t)1 << 39, (uint64_t)1 << 40, (uint64_t)1 << 41};
    int32_t both[MANY * N], highs[N];
    size_t i;
    for (i = 0; i < N; i++) {
        highs[i] = i % EVERY == 0 ? SILKENDOZ_MAX_SAMPLE : query[i];
        both[i] = query[i];
        both[N + i] = query[N - 1 - i];
    }
    memset(own, 0, sizeof *own);
    return silkendoz_nearest_in(&t, own->trail, SILKENDOZ_TRAIL(C), query, N, own->match, SILKENDOZ_OUT) == SILKENDOZ_DONE
        && silkendoz_remote_match_in(&t, own->trail, SILKENDOZ_TRAIL(C), query, N, own->remote, SILKENDOZ_OUT) == SILKENDOZ_DONE
        && silkendoz_k_nearest_in(&t, own->trail, SILKENDOZ_TRAIL(C), own->list, K, query, N, K, own->listing, SILKENDOZ_OUT)
            == SILKENDOZ_DONE
        && silkendoz_match_batch_in(&t, own->trail, SILKENDOZ_TRAIL(C), both, MANY * N, MANY, own->answers, MANY, own->batch, SILKENDOZ_OUT)
            == SILKENDOZ_DONE
        && silkendoz_count_bands_in(&t, own->bands, BANDS, query, N, edges, BANDS + 1, own->batch, SILKENDOZ_OUT) == SILKENDOZ_DONE
        && silkendoz_match_both_in(&f, own->factory_trail, SILKENDOZ_TRAIL(C), &t, own->trail, SILKENDOZ_TRAIL(C), query, N, &own->pair,
               &own->won) == SILKENDOZ_DONE
        && silkendoz_match_within_in(&t, own->few, SILKENDOZ_TRAIL(C), query, N, MOST, &own->limited) == SILKENDOZ_DONE
        && silkendoz_match_clipped_in(&t, own->possible, SILKENDOZ_TRAIL(C), query, N, highs, N, own->clipped, SILKENDOZ_OUT)
            == SILKENDOZ_DONE;
}

static void *searches(void *number)
{
    size_t first = *(const size_t *)number, i;
    struct own *own = malloc(sizeof *own);
    for (i = 0; i < QUERIES; i++) {
        /* each begins elsewhere, so that at any time they look for different things */
        size_t at = (i + first * (QUERIES / THREADS)) % QUERIES;
        if (!own || !search(own, queries[at]) || memcmp(own, &alone[at], sizeof *own) != 0)
            failed[first] = 1;
    }
    free(own);
    return NULL;
}

/* Numbers of 19 bits that look like any: the same ones each time. */
static int32_t next(uint32_t *state)
{
    *state = *state * 1664525u + 1013904223u;
    return (int32_t)(*state >> 13) - 262144;
}

int main(void)
{
    static int32_t kept[SILKENDOZ_SAMPLES(N, C)];
    struct silkendoz_tables t = library;
    pthread_t threads[THREADS];
    size_t numbers[THREADS], i, j;
    uint64_t out[SILKENDOZ_OUT], settled = 0, many = 0;
    uint32_t state = 7;

    if (silkendoz_open_in(&t, N, C, LEAF_SIZE, out, SILKENDOZ_OUT) != SILKENDOZ_DONE
        || silkendoz_open_in(&factory, N, C, LEAF_SIZE, out, SILKENDOZ_OUT) != SILKENDOZ_DONE)
        stop("not opened");
    for (i = 0; i < C; i++) {
        int32_t trace[N];
        for (j = 0; j < N; j++)
            trace[j] = next(&state);
        if (silkendoz_add_labelled_in(&t, trace, N, (uint16_t)(i + 1), 4119, out, SILKENDOZ_OUT) != SILKENDOZ_DONE)
            stop("not added");
        for (j = 0; j < N; j++)
            trace[j] = next(&state);
        if (i < C / 2 && silkendoz_add_in(&factory, trace, N, out, SILKENDOZ_OUT) != SILKENDOZ_DONE)
            stop("not added to the factory's");
    }
    memcpy(kept, t.samples, sizeof kept);
    for (i = 0; i < QUERIES; i++) {
        for (j = 0; j < N; j++)
            queries[i][j] = SILKENDOZ_SAMPLE(t.samples[i * N + j]) + next(&state) / 64;
        if (!search(&alone[i], queries[i]))
            stop("not found alone");
        if (alone[i].remote[0] != alone[i].match[0] || alone[i].remote[4] != alone[i].match[0] + 1)
            stop("another trace or another code");
        if (alone[i].pair.distance > alone[i].match[1] || (alone[i].pair.library == 1 && alone[i].pair.trace != alone[i].match[0]))
            stop("another trace over both");
        if (alone[i].limited.settled != (alone[i].match[2] <= MOST))
            stop("settled by another number of leaves");
        if (alone[i].limited.settled ? alone[i].limited.trace != alone[i].match[0]
                                     : alone[i].limited.bound > alone[i].match[1] || alone[i].limited.distance < alone[i].match[1])
            stop("another trace with a limit");
        settled += alone[i].limited.settled;
        for (j = 0; j < alone[i].clipped[0] && alone[i].possible[j] != alone[i].match[0]; j++)
            continue;
        if (j == alone[i].clipped[0])
            stop("a match that is not listed");
        many += alone[i].clipped[0] > 1;
    }
    if (settled == 0 || settled == QUERIES)
        stop("all or none settled, where some should be");
    if (many == 0)
        stop("one trace listed everywhere");
    for (i = 0; i < THREADS; i++) {
        numbers[i] = i;
        if (pthread_create(&threads[i], NULL, searches, &numbers[i]) != 0)
            stop("no thread");
    }
    for (i = 0; i < THREADS; i++)
        pthread_join(threads[i], NULL);
    for (i = 0; i < THREADS; i++)
        if (failed[i])
            stop("another answer than alone");
    if (memcmp(kept, t.samples, sizeof kept) != 0)
        stop("the tables changed");
    printf("C: %d searches by each of %d threads at once, as alone\n", 8 * QUERIES, THREADS);
    return 0;
}
