/*
 * Hard use of usm_csv: random tables, whole and damaged, in both table modes, into outputs at
 * pages that may not be touched, of every length where their CSV is short; then the tables whose CSV is
 * longest for their bytes, with the time that the size and the bytes take.
 *
 *     csv SECONDS SEED
 */
#define _POSIX_C_SOURCE 200112L

#include "chance.h"
#include "lent.h"
#include "make.h"
#include "usm.h"

#include <stdio.h>
#include <stdlib.h>
#include <string.h>
#include <time.h>

/* A CSV of at most so many bytes is asked for with every output length up to two more. */
#define SHORT 300

/* The longest CSV that is written in full; of a longer one only the size is asked for. */
#define LONG 4194304

/* The work that usm.h promises: at most so many nanoseconds for each byte of the table and the CSV, and some for the call. */
#define MOST_FOR_A_BYTE 25.0
#define FOR_THE_CALL 2e6

static uint64_t seed, number;

static void fail(const char *what)
{
    printf("csv: %s, in case %llu of seed %llu\n", what, (unsigned long long)number, (unsigned long long)seed);
    exit(1);
}

static void want(int holds, const char *what)
{
    if (!holds)
        fail(what);
}

static double seconds(void)
{
    struct timespec now;

    clock_gettime(CLOCK_MONOTONIC, &now);
    return (double)now.tv_sec + (double)now.tv_nsec / 1e9;
}

/* The processor's time that this process took, in nanoseconds. */
static double spent(void)
{
    struct timespec now;

    clock_gettime(CLOCK_PROCESS_CPUTIME_ID, &now);
    return (double)now.tv_sec * 1e9 + (double)now.tv_nsec;
}

static int same(struct usm_size_reply a, struct usm_size_reply b)
{
    return a.refused_at == b.refused_at && a.size == b.size && a.number == b.number && a.unknown_type == b.unknown_type;
}

/* One call with an output of a length, and all that is known of it. */
static void call(const uint8_t *bytes, size_t len, size_t place, struct usm_reading reading, size_t size, struct memory *memory, enum edge edge, size_t room,
                 const uint8_t *csv, struct chance *chance)
{
    struct usm_size_reply expected = {0, size, room < size ? USM_SHORT_ROOM : USM_ACCEPTED, 0};
    struct output output = lend_output(memory, edge, room, chance);
    struct usm_size_reply reply = usm_csv(bytes, len, place, reading, output.at, room);

    want(same(reply, expected), "another reply");
    want(stays_from(&output, room < size ? 0 : size), "bytes changed that are to stay");
    if (size <= room && csv)
        want(memcmp(output.at, csv, size) == 0, "other bytes");
}

/* The calls of a case. Answers the size, or 0 where the table is refused. */
static size_t try_table(const uint8_t *bytes, size_t len, size_t place, struct usm_reading reading, struct memory *memory, enum edge edge, struct chance *chance)
{
    static uint8_t csv[LONG];
    struct usm_table_reply table = usm_table(bytes, len, place, reading);
    struct usm_size_reply first = usm_csv(bytes, len, place, reading, NULL, 0);
    size_t room;

    if (table.number != USM_ACCEPTED) {
        struct output output = lend_output(memory, edge, below(chance, 64), chance);
        struct usm_size_reply again = usm_csv(bytes, len, place, reading, output.at, output.len);

        want(first.number == table.number && first.refused_at == table.refused_at && first.unknown_type == table.unknown_type && first.size == 0, "another refusal than the table's");
        want(same(first, again), "another reply");
        want(stays_from(&output, 0), "bytes changed by a refusal");
        return 0;
    }
    want(first.number == (first.size ? USM_SHORT_ROOM : USM_ACCEPTED) && first.refused_at == 0, "another number without room");
    want((table.columns == 0) == (first.size == 0), "nothing is written but for a table without columns");
    if (first.size == 0 || LONG < first.size)
        return first.size;
    want(usm_csv(bytes, len, place, reading, csv, first.size).number == USM_ACCEPTED, "refused with room");
    want(csv[first.size - 2] == '\r' && csv[first.size - 1] == '\n', "the last record is not ended");
    if (first.size <= SHORT) {
        for (room = 0; room <= first.size + 2; room++)
            call(bytes, len, place, reading, first.size, memory, edge, room, csv, chance);
        return first.size;
    }
    call(bytes, len, place, reading, first.size, memory, edge, below(chance, first.size), csv, chance);
    call(bytes, len, place, reading, first.size, memory, edge, first.size - 1, csv, chance);
    call(bytes, len, place, reading, first.size, memory, edge, first.size, csv, chance);
    call(bytes, len, place, reading, first.size, memory, edge, first.size + below(chance, 64), csv, chance);
    return first.size;
}

static void try_tables(double until)
{
    static struct made made;
    struct memory input, output;
    uint64_t written = 0, refused = 0, calls = 0;

    make_memory(&input, MADE_BYTES, 1);
    make_memory(&output, LONG + 64, 0);
    for (number = 0; seconds() < until; number++) {
        enum edge edge = number % 2 ? BEGINS : ENDS;
        struct chance chance = chance_of(seed, number);
        size_t place = make_any_table(&made, &chance);
        const uint8_t *bytes = lend_bytes(&input, edge, made.bytes, made.len);
        uint8_t mode;

        for (mode = 0; mode < 2; mode++) {
            struct usm_reading reading = {(uint8_t)any(&chance), (uint8_t)any(&chance), (uint8_t)any(&chance), mode};
            size_t size = try_table(bytes, made.len, place, reading, &output, edge, &chance);

            *(size ? &written : &refused) += 1;
            calls++;
        }
    }
    printf("csv: %llu tables, %llu of them with a CSV, %llu refused or without columns\n", (unsigned long long)calls, (unsigned long long)written, (unsigned long long)refused);
}

/* ---- tables of 16,384 bytes */

#define TABLE 16384
#define COLUMNS 64
#define ROWS 256

static uint8_t table[TABLE];

static void put(size_t at, uint64_t value, unsigned width)
{
    while (width--) {
        table[at + width] = (uint8_t)value;
        value >>= 8;
    }
}

/* A table of 64 columns and 256 rows; all columns have one name, a text of one byte over and over up to the end. `tag` is their type,
 * and a constant's value is a text too, that name or an empty one. */
static void make_table(uint8_t tag, uint8_t letter, int empty)
{
    size_t record = tag >> 4 == 3 ? 9 : 5, start = 32 + COLUMNS * record, strings = start + (tag >> 4 == 5 ? ROWS * COLUMNS : 0), i;

    if (TABLE <= strings)
        strings = start;
    memset(table, 0, sizeof table);
    memcpy(table, "@UTF", 4);
    put(4, TABLE - 8, 4);
    put(10, start - 8, 2);
    put(12, strings - 8, 4);
    put(16, TABLE - 8, 4);
    put(24, COLUMNS, 2);
    put(28, ROWS, 4);
    for (i = 0; i < COLUMNS; i++) {
        table[32 + i * record] = tag;
        if (record == 9)
            put(32 + i * record + 5, empty ? TABLE - 1 - strings : 0, 4);
    }
    memset(table + strings, letter, TABLE - 1 - strings);
}

static void measure(const char *what)
{
    struct usm_reading reading = {0, 0, 0, USM_TABLES_ZERO_COLUMNS};
    double start = spent(), asked, written;
    struct usm_size_reply reply = usm_csv(table, sizeof table, 0, reading, NULL, 0);
    uint8_t *out;
    double bytes;

    asked = spent() - start;
    want(reply.number == USM_SHORT_ROOM, "another number without room");
    out = malloc(reply.size);
    want(out != NULL, "no memory");
    memset(out, 0, reply.size);
    start = spent();
    reply = usm_csv(table, sizeof table, 0, reading, out, reply.size);
    written = spent() - start;
    want(reply.number == USM_ACCEPTED, "refused with room");
    bytes = (double)reply.size + sizeof table;
    printf("csv: %-52s %11zu bytes, size in %8.2f ms, written in %8.2f ms, %5.2f and %5.2f ns a byte\n", what, reply.size, asked / 1e6, written / 1e6, asked / bytes, written / bytes);
    want(asked < MOST_FOR_A_BYTE * bytes + FOR_THE_CALL, "the size costs more than in proportion");
    want(written < 2 * MOST_FOR_A_BYTE * bytes + FOR_THE_CALL, "the bytes cost more than in proportion");
    free(out);
}

int main(int argc, char **argv)
{
    if (argc != 3) {
        fprintf(stderr, "usage: csv SECONDS SEED\n");
        return 2;
    }
    seed = strtoull(argv[2], NULL, 10);
    try_tables(seconds() + atof(argv[1]));
    make_table(0x3A, 'x', 0);
    measure("one long text in every cell");
    make_table(0x3A, '"', 0);
    measure("one long text of quotes in every cell");
    make_table(0x3A, 'x', 1);
    measure("one long name, and empty texts");
    make_table(0x10, 'x', 0);
    measure("one long name, and zeros");
    make_table(0x11, ',', 0);
    measure("one long name in quotes, and zeros");
    printf("csv: all as expected\n");
    return 0;
}
