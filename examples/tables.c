/*
 * A small use of usm.h's tables: reads an @UTF table of two columns and two rows, shows cells by the names of their
 * columns, then all columns and all cells by their numbers, a table with a zero column in both modes, and how a damaged
 * one is refused. It also calls a mask, so that both libraries are linked.
 */
#include "usm.h"

#include <inttypes.h>
#include <stdio.h>
#include <string.h>

/* Columns "id", a signed byte in each row, and "filename", a constant string; rows -1 and 7. */
static const uint8_t TABLE[] = {
    '@', 'U', 'T', 'F', 0, 0, 0, 56,               /* signature, size */
    0, 1, 0, 38, 0, 0, 0, 40, 0, 0, 0, 56,         /* version, row, string and data offset */
    0, 0, 0, 0, 0, 2, 0, 1, 0, 0, 0, 2,            /* table name, columns, row size, rows */
    0x51, 0, 0, 0, 0, 0x3A, 0, 0, 0, 3, 0, 0, 0, 12, /* the two columns, the second with its constant */
    0xFF, 7,                                       /* the rows */
    'i', 'd', 0, 'f', 'i', 'l', 'e', 'n', 'a', 'm', 'e', 0, 'f', '.', 'm', 0,
};

/* Columns "id", a byte in each row, and "note", a string of storage 1, a zero column; rows 1 and 2. */
static const uint8_t ZEROS[] = {
    '@', 'U', 'T', 'F', 0, 0, 0, 44,               /* signature, size */
    0, 1, 0, 34, 0, 0, 0, 36, 0, 0, 0, 44,         /* version, row, string and data offset */
    0, 0, 0, 0, 0, 2, 0, 1, 0, 0, 0, 2,            /* table name, columns, row size, rows */
    0x50, 0, 0, 0, 0, 0x1A, 0, 0, 0, 3,            /* the two columns */
    1, 2,                                          /* the rows */
    'i', 'd', 0, 'n', 'o', 't', 'e', 0,
};

/* The two ways to read a table. */
static const struct usm_reading ORIGINAL = {USM_AUDIO_ALL, 0, USM_PAYLOADS_ORIGINAL, USM_TABLES_ORIGINAL};
static const struct usm_reading ZERO_COLUMNS = {USM_AUDIO_ALL, 0, USM_PAYLOADS_ORIGINAL, USM_TABLES_ZERO_COLUMNS};

static void print_value(const uint8_t *bytes, struct usm_cell_reply cell)
{
    switch (cell.kind) {
    case USM_CELL_NOTHING:
        printf("nothing\n");
        break;
    case USM_CELL_SIGNED:
        printf("%" PRId64 "\n", (int64_t)cell.value);
        break;
    case USM_CELL_STRING:
        printf("\"%.*s\"\n", (int)cell.length, (const char *)bytes + cell.value);
        break;
    case USM_CELL_DATA:
        printf("%zu bytes of data\n", cell.length);
        break;
    case USM_CELL_FLOAT:
        printf("the float %08" PRIx64 "\n", cell.value);
        break;
    default:
        printf("%" PRIu64 "\n", cell.value);
        break;
    }
}

static void print_cell(const char *name, size_t row)
{
    printf("%s, row %zu: ", name, row);
    print_value(TABLE, usm_cell(TABLE, sizeof TABLE, 0, (const uint8_t *)name, strlen(name), row, ORIGINAL));
}

static struct usm_table_reply print_table(const char *what, const uint8_t *bytes, size_t len, struct usm_reading reading)
{
    struct usm_table_reply table = usm_table(bytes, len, 0, reading);

    if (table.number == USM_ACCEPTED)
        printf("%s: %zu columns, %zu rows\n", what, table.columns, table.rows);
    else
        printf("%s: refused %d at %zu\n", what, table.number, table.refused_at);
    return table;
}

static void print_column(const uint8_t *bytes, size_t number, struct usm_column_reply column)
{
    static const char *const STORAGES[] = {"none", "one value for every row", "a value in each row", "no values"};

    printf("column %zu: \"%.*s\", type byte %02X, %s\n", number, (int)column.name_length,
           (const char *)bytes + column.name_start, column.type_byte, STORAGES[column.storage]);
}

/* All columns and all cells, by their numbers. usm_table says how many there are, and that each of them can be read. */
static void print_all(const char *what, const uint8_t *bytes, size_t len, struct usm_reading reading)
{
    struct usm_table_reply table = print_table(what, bytes, len, reading);
    size_t column, row;

    for (column = 0; column < table.columns; column++) {
        print_column(bytes, column, usm_column(bytes, len, 0, column, reading));
        for (row = 0; row < table.rows; row++) {
            printf("  row %zu: ", row);
            print_value(bytes, usm_cell_at(bytes, len, 0, column, row, reading));
        }
    }
}

int main(void)
{
    uint8_t cut[sizeof TABLE], payload[1] = {0};

    print_table("the table", TABLE, sizeof TABLE, ORIGINAL);
    print_cell("id", 0);
    print_cell("id", 1);
    print_cell("filename", 1);
    print_cell("filename", 2);
    print_cell("codec", 0);

    print_all("by numbers", TABLE, sizeof TABLE, ORIGINAL);
    print_all("with a zero column, as the original reads it", ZEROS, sizeof ZEROS, ORIGINAL);
    print_all("with a zero column", ZEROS, sizeof ZEROS, ZERO_COLUMNS);

    memcpy(cut, TABLE, sizeof TABLE);
    print_table("cut by a byte", cut, sizeof cut - 1, ORIGINAL);
    cut[0] = '#';
    print_table("another signature", cut, sizeof cut, ORIGINAL);

    usm_unmask_audio(0, payload, sizeof payload);
    return 0;
}
