/* usm_table, usm_cell, usm_column, usm_cell_at and usm_csv, beside rules T and V. */
#include "fuzz.h"

#include <string.h>

/* A CSV that is longer is asked for its size alone. */
#define MOST_CSV 0x10000

static struct model_table table;

/* The place of the table: the body begins with it, or it is any number. */
static size_t place_in(const struct options *options)
{
    return options->choice & 2 ? (size_t)options->other : options->choice >> 2;
}

static void try_table(struct bytes slice, size_t place, struct usm_reading reading, struct refused refused)
{
    struct usm_table_reply reply = usm_table(slice.at, slice.len, place, reading);

    note(reply.number, 0, reply.columns);
    note(reply.number, 1, reply.rows);
    note(reply.number, 2, reply.unknown_type);
    expect(reply.number == refused.number, "usm_table: another number");
    expect(reply.refused_at == refused.place && reply.unknown_type == refused.type, "usm_table: another place or type");
    expect(reply.columns == (refused.number ? 0 : table.columns), "usm_table: another count of columns");
    expect(reply.rows == (refused.number ? 0 : table.rows), "usm_table: another count of rows");
}

static void try_cell(const struct options *options, struct bytes slice, size_t place, struct refused refused,
                     struct bytes name, size_t row)
{
    struct bytes lent = lend(1, options, name);
    struct usm_cell_reply reply = usm_cell(slice.at, slice.len, place, lent.at, lent.len, row, options->reading);
    struct model_cell cell = {0, 0, 0};

    if (refused.number == 0)
        cell = model_cell(&table, name, row);
    note(reply.number, 3, reply.kind);
    note(reply.number, 4, reply.length);
    expect(reply.number == refused.number && reply.refused_at == refused.place && reply.unknown_type == refused.type,
           "usm_cell: another refusal");
    expect(reply.kind == cell.kind && reply.value == cell.value && reply.length == cell.length,
           "usm_cell: another cell");
}

/* Every column by its name, in a row, and a name that a column has only by accident. */
static void try_cells(const struct options *options, struct bytes slice, size_t place, struct refused refused)
{
    size_t row = options->rooms[1], i;
    struct bytes other = {(const uint8_t *)&options->key.number, options->key.given % 9};

    for (i = 0; refused.number == 0 && i < table.columns; i++)
        try_cell(options, slice, place, refused, table.column[i].name, row);
    try_cell(options, slice, place, refused, other, row);
}

static uint8_t storage_of(const struct model_column *column, struct usm_reading reading)
{
    if (column->nibble == 3 || column->nibble == 7)
        return USM_STORAGE_CONSTANT;
    return column->nibble == 1 && reading.tables == USM_TABLES_ZERO_COLUMNS ? USM_STORAGE_ZERO : USM_STORAGE_ROWS;
}

/* UTF16 on a table that is accepted: every column by its number, and one that it does not have. */
static void try_column(const struct options *options, struct bytes slice, size_t place, size_t number, size_t row)
{
    struct usm_column_reply reply = usm_column(slice.at, slice.len, place, number, options->reading);
    struct usm_cell_reply got = usm_cell_at(slice.at, slice.len, place, number, row, options->reading);
    struct model_cell cell = {0, 0, 0};
    int is_there = number < table.columns;
    const struct model_column *column = &table.column[is_there ? number : 0];

    if (is_there && row < table.rows)
        cell = table.cell[row][number];
    expect(reply.number == 0 && reply.refused_at == 0 && reply.unknown_type == 0 && got.number == 0 &&
               got.refused_at == 0 && got.unknown_type == 0,
           "usm_column, usm_cell_at: a refusal of a table that is accepted");
    expect(reply.storage == (is_there ? storage_of(column, options->reading) : USM_STORAGE_NONE),
           "usm_column: another storage");
    expect(reply.type_byte == (is_there ? column->nibble << 4 | column->type : 0), "usm_column: another type");
    expect(reply.name_length == (is_there ? column->name.len : 0) &&
               reply.name_start == (is_there ? (size_t)(column->name.at - slice.at) : 0),
           "usm_column: another name");
    expect(got.kind == cell.kind && got.value == cell.value && got.length == cell.length, "usm_cell_at: another cell");
}

/* Of a table that is not, a refusal is the table's own where its header is refused; what is given lies in the slice. */
static void try_refused_column(const struct options *options, struct bytes slice, size_t place, struct refused refused)
{
    size_t number = options->rooms[0], row = options->rooms[1];
    struct usm_column_reply reply = usm_column(slice.at, slice.len, place, number, options->reading);
    struct usm_cell_reply got = usm_cell_at(slice.at, slice.len, place, number, row, options->reading);

    note(reply.number, 6, reply.storage);
    note(got.number, 7, got.kind);
    expect(table.is_laid || (reply.number == refused.number && got.number == refused.number),
           "usm_column, usm_cell_at: another refusal of a header");
    expect(reply.refused_at == (reply.number ? place : 0) && got.refused_at == (got.number ? place : 0),
           "usm_column, usm_cell_at: another place");
    expect(reply.name_length <= slice.len && reply.name_start <= slice.len - reply.name_length,
           "usm_column: a name outside the slice");
    expect((got.kind != USM_CELL_STRING && got.kind != USM_CELL_DATA) ||
               (got.length <= slice.len && got.value <= slice.len - got.length),
           "usm_cell_at: a part outside the slice");
}

static void try_columns(const struct options *options, struct bytes slice, size_t place, struct refused refused)
{
    size_t i;

    if (refused.number != 0) {
        try_refused_column(options, slice, place, refused);
        return;
    }
    for (i = 0; i < table.columns; i++)
        try_column(options, slice, place, i, options->rooms[1]);
    try_column(options, slice, place, (size_t)options->other, options->rooms[1]);
    try_column(options, slice, place, options->rooms[0], (size_t)options->other);
}

static void try_csv(const struct options *options, struct bytes slice, size_t place, struct refused refused)
{
    static uint8_t expected[MOST_CSV];
    size_t size = refused.number ? 0 : model_csv(slice, &table, expected, MOST_CSV);
    size_t room = size <= MOST_CSV ? room_by(options->rooms[0], size) : 0;
    struct output out = lend_room(0, options, room);
    struct usm_size_reply reply =
        usm_csv(slice.at, slice.len, place, options->reading, start_of(&out, options), out.len);
    int is_short = refused.number == 0 && room < size;

    note(reply.number, 5, reply.size);
    expect(reply.number == (is_short ? USM_SHORT_ROOM : refused.number), "usm_csv: another number");
    expect(reply.refused_at == refused.place && reply.unknown_type == refused.type, "usm_csv: another refusal");
    expect(reply.size == size, "usm_csv: another size");
    expect_output(&out, expected, is_short ? 0 : size, "usm_csv: other bytes");
}

void fuzz(const struct options *options)
{
    struct bytes slice = lend(0, options, options->body);
    size_t place = place_in(options);
    struct refused refused = model_table(slice, place, options->reading.tables == USM_TABLES_ZERO_COLUMNS, &table);

    try_table(slice, place, options->reading, refused);
    try_cells(options, slice, place, refused);
    try_columns(options, slice, place, refused);
    try_csv(options, slice, place, refused);
}
