/* The program of docs/GUIDE.md: faults with names, a match, the runner-up, and two copies of the library on the disk. tools/guide_c
 * compiles it, runs it, and holds it to the page. */

/* for fileno, fsync and ftruncate, which standard C does not have */
#define _POSIX_C_SOURCE 200809L

#include "silkendoz.h"

#include <fcntl.h>
#include <inttypes.h>
#include <stdio.h>
#include <stdlib.h>
#include <unistd.h>

/* Traces of 8 samples, room for 16, leaves of up to 4. */
enum { N = 8, CAPACITY = 16, LEAF_SIZE = 4 };

/* The library's tables, and `tables`, the struct over them that every call is lent. Nothing is allocated. */
SILKENDOZ_LIBRARY(tables, N, CAPACITY);

static uint16_t trail[SILKENDOZ_TRAIL(CAPACITY)];
static uint64_t out[SILKENDOZ_OUT];

/* One byte more than the largest sheet of this library: a longer file is then refused by its length. */
static uint8_t sheet[SILKENDOZ_SHEET(N, CAPACITY) + 1];

/* A recording of one trace, as a WAV file has it. */
static uint8_t recording[SILKENDOZ_RECORDING_BYTES(N)];

/* The library keeps no names. Trace 0 is the first one added, and so on. */
struct fault {
    const char *name;
    int32_t trace[N];
};
static const struct fault faults[] = {
    {"healthy", {0, 5200, 1600, 1600, 1600, 1600, 1600, -3400}},
    {"belt tensioner seized", {1400, 6600, 3050, 3100, 3150, 3200, 3250, -1700}},
    {"dry rail, right", {0, 5200, 1600, 1600, 1700, 2000, 2300, -2900}},
};
enum { FAULTS = sizeof faults / sizeof *faults };

static const char *name_of(uint64_t trace)
{
    return trace < FAULTS ? faults[trace].name : "no name";
}

/* Tells what a call answered. Gives back whether it was done. */
static int done(const char *what, uint64_t number)
{
    if (number != SILKENDOZ_DONE)
        printf("%s: refused %" PRIu64 " (%s), place %" PRIu64 "\n", what, number, silkendoz_word(number), out[0]);
    return number == SILKENDOZ_DONE;
}

static int find(const int32_t *query, size_t length)
{
    if (!done("nearest", silkendoz_nearest_in(&tables, trail, SILKENDOZ_TRAIL(CAPACITY), query, length, out, SILKENDOZ_OUT)))
        return 0;
    printf("nearest: trace %" PRIu64 " (%s), distance %" PRIu64 ", leaves read %" PRIu64 ", traces read %" PRIu64 "\n", out[0],
        name_of(out[0]), out[1], out[2], out[3]);
    return 1;
}

/* The nearest and the runner-up: is the first far ahead? A library of one trace lists one. */
static int find_two(const int32_t *query, size_t length)
{
    struct silkendoz_neighbour list[2];
    uint64_t i;
    if (!done("two nearest",
            silkendoz_k_nearest_in(&tables, trail, SILKENDOZ_TRAIL(CAPACITY), list, 2, query, length, 2, out, SILKENDOZ_OUT)))
        return 0;
    for (i = 0; i < out[2]; i++)
        printf("  %" PRIu64 ": trace %" PRIu64 " (%s), distance %" PRIu64 "\n", i + 1, list[i].trace, name_of(list[i].trace),
            list[i].distance);
    return 1;
}

/* A new file is on the disk when the folder that names it is too. */
static int sync_folder(void)
{
    int folder = open(".", O_RDONLY);
    int fine = folder >= 0 && fsync(folder) == 0;
    return folder >= 0 && close(folder) == 0 && fine;
}

/* When this gives back 1, the bytes are on the disk, not only on their way there. */
static int put(FILE *file, long place, const uint8_t *bytes, size_t size)
{
    return fseek(file, place, SEEK_SET) == 0 && fwrite(bytes, 1, size, file) == size && fflush(file) == 0 && fsync(fileno(file)) == 0;
}

/* Block 0 is blanked before all others and written behind them: a copy whose writing is cut off is refused, whatever it holds. */
static int save(const char *name)
{
    static const uint8_t blank[512];
    FILE *file;
    size_t size;
    int fine;
    if (!done(name, silkendoz_write_sheet_in(&tables, sheet, sizeof sheet, out, SILKENDOZ_OUT)))
        return 0;
    size = 512 * (size_t)out[0];
    file = fopen(name, "r+b");
    if (!file)
        file = fopen(name, "w+b");
    if (!file)
        return 0;
    fine = put(file, 0, blank, 512) && ftruncate(fileno(file), (off_t)size) == 0 && put(file, 512, sheet + 512, size - 512)
        && put(file, 0, sheet, 512);
    return fclose(file) == 0 && fine && sync_folder();
}

/* A file that is not there is a sheet of 0 bytes, which is refused. A refused reading leaves the tables as they were. */
static int load(const char *name)
{
    FILE *file = fopen(name, "rb");
    size_t size = 0;
    if (file) {
        size = fread(sheet, 1, sizeof sheet, file);
        fclose(file);
    }
    return done(name, silkendoz_read_sheet_in(&tables, sheet, size, out, SILKENDOZ_OUT));
}

/* Whether a copy is, byte for byte, what the tables hold. */
static int holds(const char *name)
{
    FILE *file = fopen(name, "rb");
    int same = file && done(name, silkendoz_write_sheet_in(&tables, sheet, sizeof sheet, out, SILKENDOZ_OUT));
    size_t at;
    for (at = 0; same && at < 512 * (size_t)out[0]; at++)
        same = fgetc(file) == sheet[at];
    same = same && fgetc(file) == EOF;
    if (file)
        fclose(file);
    return same;
}

static int written_again(const char *name)
{
    if (holds(name))
        return 1;
    if (!save(name))
        return 0;
    printf("%s: written again\n", name);
    return 1;
}

/* At the start, before any saving. B is read, then A: A is saved first, and so is never the older one. If A is refused, the tables still
 * hold B. Then each copy that is not this library is written again. */
static int restore(const char *a, const char *b)
{
    int whole_b = load(b);
    int whole_a = load(a);
    return (whole_a || whole_b) && written_again(a) && written_again(b);
}

/* A fault of the disk, for this example: one byte of the second block changes. */
static int damage(const char *name)
{
    FILE *file = fopen(name, "r+b");
    int fine = file && fseek(file, 600, SEEK_SET) == 0 && fputc(77, file) != EOF;
    return file && fclose(file) == 0 && fine;
}

/* A stored trace as a recording of 2,000 samples a second, and that recording added as a further trace. */
static int record(uint64_t trace)
{
    if (!done("export", silkendoz_export_recording_in(&tables, recording, sizeof recording, trace, 2000, out, SILKENDOZ_OUT)))
        return 0;
    printf("exported trace %" PRIu64 ": %" PRIu64 " bytes\n", trace, out[0]);
    if (!done("import", silkendoz_import_recording_in(&tables, recording, (size_t)out[0], out, SILKENDOZ_OUT)))
        return 0;
    printf("imported: %" PRIu64 " trace\n", out[0]);
    return 1;
}

int main(void)
{
    static const int32_t today[N] = {10, 5150, 1620, 1590, 1690, 2050, 2260, -2950};
    int i;

    if (!done("open", silkendoz_open_in(&tables, N, CAPACITY, LEAF_SIZE, out, SILKENDOZ_OUT)))
        return EXIT_FAILURE;
    for (i = 0; i < FAULTS; i++) {
        if (!done("add", silkendoz_add_in(&tables, faults[i].trace, N, out, SILKENDOZ_OUT)))
            return EXIT_FAILURE;
        printf("added trace %" PRIu64 ": %s\n", out[0], faults[i].name);
    }
    if (!find(today, N) || !find_two(today, N))
        return EXIT_FAILURE;

    /* one sample is missing: refused, and nothing has changed */
    find(today, N - 1);

    /* two copies are kept, A saved before B; one is damaged, so the other is read, and the first is written again */
    if (!save("faults-a.sheet") || !save("faults-b.sheet") || !damage("faults-a.sheet"))
        return EXIT_FAILURE;
    if (!restore("faults-a.sheet", "faults-b.sheet") || !load("faults-a.sheet"))
        return EXIT_FAILURE;
    return find(today, N) && record(2) ? EXIT_SUCCESS : EXIT_FAILURE;
}
