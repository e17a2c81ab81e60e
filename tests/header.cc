// The header from C++: tables declared by its macros, constant ones too, a search, a list of records, two libraries, a limit on leaves, a
// clipped sweep. Compiled with old-style casts and every other warning an error. Prints one line, and fails at the first difference.

#include "silkendoz.h"

#include <cstdio>

namespace {

constexpr size_t n = 4, capacity = 8;

SILKENDOZ_LIBRARY(library, n, capacity);
SILKENDOZ_LIBRARY(other, 2, 1);

// an empty library for traces of n samples, in memory that nobody writes
const uint16_t factory_control[SILKENDOZ_CONTROL] = {n, 1, 1, 0, 0};
const int32_t factory_samples[SILKENDOZ_SAMPLES(n, 1)] = {};
const int64_t factory_nodes[SILKENDOZ_NODES(1)] = {};
const uint16_t factory_links[SILKENDOZ_LINKS(1)] = {};
const uint64_t factory_labels[SILKENDOZ_LABELS(1)] = {};
SILKENDOZ_FACTORY(factory, n, 1);

uint16_t trail[SILKENDOZ_TRAIL(capacity)];
uint8_t sheet[SILKENDOZ_SHEET(n, capacity)];
uint8_t recording[SILKENDOZ_RECORDING_BYTES(n)];
uint64_t out[SILKENDOZ_OUT];

bool lists()
{
    const int32_t traces[3][n] = {{0, 0, 0, 0}, {4, 4, 4, 4}, {0, 8, 0, 8}};
    const int32_t query[n] = {1, 1, 1, 1};
    silkendoz_neighbour list[2];
    if (silkendoz_open_in(&library, n, capacity, 2, out, SILKENDOZ_OUT) != SILKENDOZ_DONE)
        return false;
    for (const auto &trace : traces)
        if (silkendoz_add_in(&library, trace, n, out, SILKENDOZ_OUT) != SILKENDOZ_DONE)
            return false;
    // a list of one record is too short for two
    if (silkendoz_k_nearest_in(&library, trail, capacity, list, 1, query, n, 2, out, SILKENDOZ_OUT) != SILKENDOZ_SHORT_TRAIL)
        return false;
    if (silkendoz_k_nearest_in(&library, trail, capacity, list, 2, query, n, 2, out, SILKENDOZ_OUT) != SILKENDOZ_DONE)
        return false;
    return list[0].trace == 0 && list[0].distance == 4 && list[1].trace == 1 && list[1].distance == 36;
}

bool labels()
{
    const int32_t trace[n] = {9, 9, 9, 9};
    if (silkendoz_add_labelled_in(&library, trace, n, 17, 4119, out, SILKENDOZ_OUT) != SILKENDOZ_DONE)
        return false;
    if (silkendoz_label_in(&library, out[0], out, SILKENDOZ_OUT) != SILKENDOZ_DONE || out[0] != 17 || out[1] != 4119)
        return false;
    return silkendoz_remote_match_in(&library, trail, capacity, trace, n, out, SILKENDOZ_OUT) == SILKENDOZ_DONE && out[4] == 17;
}

bool bands()
{
    const int32_t query[n] = {1, 1, 1, 1};
    const uint64_t edges[3] = {0, 5, 1000};
    silkendoz_band list[2];
    if (silkendoz_count_bands_in(&library, list, 1, query, n, edges, 3, out, SILKENDOZ_OUT) != SILKENDOZ_SHORT_TRAIL)
        return false;
    if (silkendoz_count_bands_in(&library, list, 2, query, n, edges, 3, out, SILKENDOZ_OUT) != SILKENDOZ_DONE)
        return false;
    return list[0].sure == 1 && list[0].possible == 1 && list[1].sure == 3 && list[1].possible == 3;
}

bool pairs()
{
    const int32_t query[n] = {1, 1, 1, 1};
    uint16_t none;
    silkendoz_pair_match match;
    silkendoz_part won;
    if (silkendoz_match_both_in(&factory, &none, 0, &library, trail, capacity, query, n - 1, &match, &won) != SILKENDOZ_WRONG_TRACE)
        return false;
    if (won.len != 0 || silkendoz_check_tables_in(&factory, out, SILKENDOZ_OUT) != SILKENDOZ_DONE)
        return false;
    if (silkendoz_match_both_in(&factory, &none, 0, &library, trail, capacity, query, n, &match, &won) != SILKENDOZ_DONE)
        return false;
    return match.library == 1 && match.trace == 0 && match.distance == 4 && match.factory_leaves == 0 && won.at == library.samples
        && won.len == n;
}

bool limits()
{
    const int32_t query[n] = {2, 2, 2, 2};
    silkendoz_limited_match match;
    if (silkendoz_match_within_in(&library, trail, capacity, query, n, 0, &match) != SILKENDOZ_NO_LEAVES)
        return false;
    // the next bound equals the distance: not settled
    if (silkendoz_match_within_in(&library, trail, capacity, query, n, 1, &match) != SILKENDOZ_DONE)
        return false;
    if (match.settled || match.trace != 0 || match.distance != 16 || match.leaves != 1 || match.traces != 1 || match.bound != 16)
        return false;
    return silkendoz_match_within_in(&library, trail, capacity, query, n, capacity, &match) == SILKENDOZ_DONE && match.settled
        && match.trace == 0 && match.distance == 16 && match.leaves == 2;
}

bool clipped()
{
    const int32_t lows[n] = {1, 1, 1, 1}, highs[n] = {1, 1, 1, 4};
    uint16_t list[SILKENDOZ_TRAIL(capacity)];
    if (silkendoz_match_clipped_in(&library, list, capacity, highs, n, lows, n, out, SILKENDOZ_OUT) != SILKENDOZ_CROSSED_RANGE)
        return false;
    // the traces are at 4 to 19, 27 to 36, 67 to 116 and 217 to 256
    if (silkendoz_match_clipped_in(&library, list, capacity, lows, n, highs, n, out, SILKENDOZ_OUT) != SILKENDOZ_DONE)
        return false;
    return out[0] == 1 && list[0] == 0;
}

// samples of 20 bits as arguments, and as words of the table
bool samples()
{
    static const int32_t words[2] = {SILKENDOZ_WORD(SILKENDOZ_MIN_SAMPLE), SILKENDOZ_WORD(SILKENDOZ_MAX_SAMPLE)};
    const int32_t trace[2] = {SILKENDOZ_SAMPLE(words[0]), SILKENDOZ_SAMPLE(words[1])};
    if (silkendoz_open_in(&other, 2, 1, 1, out, SILKENDOZ_OUT) != SILKENDOZ_DONE)
        return false;
    if (silkendoz_add_in(&other, words, 2, out, SILKENDOZ_OUT) != SILKENDOZ_SAMPLE_RANGE)
        return false;
    return silkendoz_add_in(&other, trace, 2, out, SILKENDOZ_OUT) == SILKENDOZ_DONE && other.samples[0] == words[0]
        && other.samples[1] == words[1];
}

bool measures()
{
    size_t said_n = 0, said_capacity = 0;
    if (silkendoz_write_sheet_in(&library, sheet, sizeof sheet, out, SILKENDOZ_OUT) != SILKENDOZ_DONE)
        return false;
    if (silkendoz_sheet_measures(sheet, 512 * static_cast<size_t>(out[0]), &said_n, &said_capacity) != SILKENDOZ_DONE)
        return false;
    // the second library has room for none of these
    if (silkendoz_read_sheet_in(&other, sheet, 512 * 3, out, SILKENDOZ_OUT) != SILKENDOZ_SHORT_TABLE)
        return false;
    return said_n == n && said_capacity == capacity
        && silkendoz_export_recording_in(&library, recording, sizeof recording, 1, 8000, out, SILKENDOZ_OUT) == SILKENDOZ_DONE;
}

} // namespace

int main()
{
    if (!lists() || !labels() || !bands() || !pairs() || !limits() || !clipped() || !samples() || !measures()
        || silkendoz_layout_4() != SILKENDOZ_LAYOUT) {
        std::fprintf(stderr, "C++: another answer\n");
        return 1;
    }
    std::printf("C++: the header, layout %d\n", SILKENDOZ_LAYOUT);
    return 0;
}
