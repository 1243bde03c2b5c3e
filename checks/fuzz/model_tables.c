/* Rules T and V. */
#include "model.h"
#include "numbers.h"

#include <stdio.h>
#include <string.h>

/* A table while it is read: the slice, the body in it, and the offsets of strings and data. */
struct reading {
    struct model_table *table;
    const uint8_t *slice;
    size_t body_at;
    struct bytes body;
    uint64_t strings, data;
};

static const uint8_t WIDTHS[16] = {1, 1, 2, 2, 4, 4, 8, 0, 4, 0, 4, 8, 0, 0, 0, 0};

static struct refused because(uint8_t number, uint8_t type)
{
    struct refused refused = {number, type, 0};

    return refused;
}

static const struct refused NOT_REFUSED = {0, 0, 0};

/* UTF7: the string at a place, which counts from 24 before the body. */
static struct refused read_string(const struct reading *reading, uint64_t place, struct bytes *text)
{
    const uint8_t *end;

    if (place < 24 || place - 24 >= reading->body.len)
        return because(1, 0);
    text->at = reading->body.at + (place - 24);
    end = memchr(text->at, 0, reading->body.len - (size_t)(place - 24));
    if (end == NULL)
        return because(1, 0);
    text->len = (size_t)(end - text->at);
    return NOT_REFUSED;
}

static uint8_t kind_of(uint8_t type)
{
    switch (type) {
    case 0x1:
    case 0x3:
    case 0x5:
        return USM_CELL_SIGNED;
    case 0x8:
        return USM_CELL_FLOAT;
    case 0xA:
        return USM_CELL_STRING;
    case 0xB:
        return USM_CELL_DATA;
    default:
        return USM_CELL_UNSIGNED;
    }
}

static void claim(struct model_table *table, size_t bytes)
{
    if (table->claimed < bytes)
        table->claimed = bytes;
}

/* UTF8: data by its offset and size. */
static struct refused read_data(const struct reading *reading, uint64_t value, struct model_cell *cell)
{
    uint64_t place = reading->data + (value >> 32), size = value & 0xFFFFFFFF;

    cell->value = 0;
    cell->length = 0;
    if (size == 0)
        return NOT_REFUSED;
    claim(reading->table, (size_t)size);
    if (place < 24 || place - 24 > reading->body.len || reading->body.len - (place - 24) < size)
        return because(1, 0);
    cell->value = reading->body_at + (place - 24);
    cell->length = (size_t)size;
    return NOT_REFUSED;
}

/* UTF5 to UTF9: the cell of a type whose bytes stand at a body byte. */
static struct refused read_cell(const struct reading *reading, uint8_t type, size_t at, struct model_cell *cell)
{
    size_t width = WIDTHS[type];
    struct bytes text;
    struct refused refused;

    if (width == 0)
        return because(8, type);
    if (reading->body.len < at || reading->body.len - at < width)
        return because(1, 0);
    cell->kind = kind_of(type);
    cell->value = number_at(reading->body.at + at, width);
    cell->length = 0;
    if (cell->kind == USM_CELL_SIGNED && cell->value >> (8 * width - 1))
        cell->value -= (uint64_t)1 << (8 * width);
    if (cell->kind == USM_CELL_DATA)
        return read_data(reading, cell->value, cell);
    if (cell->kind != USM_CELL_STRING)
        return NOT_REFUSED;
    refused = read_string(reading, reading->strings + cell->value, &text);
    if (refused.number == 0) {
        cell->value = (uint64_t)(text.at - reading->slice);
        cell->length = text.len;
    }
    return refused;
}

/* UTF15: the cell of a column that stores nothing. */
static struct refused zero_cell(uint8_t type, struct model_cell *cell)
{
    if (WIDTHS[type] == 0)
        return because(8, type);
    memset(cell, 0, sizeof *cell);
    cell->kind = kind_of(type);
    return NOT_REFUSED;
}

static int is_constant(const struct model_column *column)
{
    return column->nibble == 3 || column->nibble == 7;
}

/* UTF4: the column whose record stands at a body byte, which is moved behind it. */
static struct refused read_column(const struct reading *reading, size_t *at, int zero_columns,
                                  struct model_column *column)
{
    struct refused refused;

    if (reading->body.len - *at < 5)
        return because(1, 0);
    column->nibble = reading->body.at[*at] >> 4;
    column->type = reading->body.at[*at] & 15;
    refused = read_string(reading, reading->strings + number_at(reading->body.at + *at + 1, 4), &column->name);
    if (refused.number != 0)
        return refused;
    *at += 5;
    if (zero_columns && column->nibble != 1 && column->nibble != 3 && column->nibble != 5 && column->nibble != 7)
        return because(18, 0);
    if (!is_constant(column))
        return NOT_REFUSED;
    refused = read_cell(reading, column->type, *at, &column->constant);
    *at += WIDTHS[column->type];
    return refused;
}

/* The row whose values stand at a body byte, which is moved behind them. */
static struct refused read_row(const struct reading *reading, size_t *at, int zero_columns, struct model_table *table,
                               size_t row)
{
    struct refused refused = NOT_REFUSED;
    size_t i;

    for (i = 0; i < table->columns && refused.number == 0; i++) {
        const struct model_column *column = &table->column[i];
        struct model_cell *cell = &table->cell[row][i];

        if (is_constant(column)) {
            *cell = column->constant;
        } else if (zero_columns && column->nibble == 1) {
            refused = zero_cell(column->type, cell);
        } else {
            refused = read_cell(reading, column->type, *at, cell);
            *at += WIDTHS[column->type];
        }
    }
    return refused;
}

/* UTF3, up to the counts. */
static struct refused read_layout(struct bytes slice, size_t place, struct reading *reading, struct model_table *table)
{
    const uint8_t *at = slice.at + (place < slice.len ? place : slice.len);
    size_t left = place < slice.len ? slice.len - place : 0, size;

    if (left < 4)
        return because(1, 0);
    if (memcmp(at, "@UTF", 4) != 0)
        return because(3, 0);
    if (left < 32)
        return because(1, 0);
    size = (size_t)number_at(at + 4, 4);
    if (size < 24)
        return because(9, 0);
    claim(table, size);
    if (left - 8 < size)
        return because(1, 0);
    table->columns = (size_t)number_at(at + 24, 2);
    table->rows = (size_t)number_at(at + 28, 4);
    if (table->columns > 64)
        return because(10, 0);
    if (table->rows > 256)
        return because(10, 0);
    reading->table = table;
    reading->slice = slice.at;
    reading->body_at = place + 32;
    reading->body.at = at + 32;
    reading->body.len = size - 24;
    reading->strings = number_at(at + 12, 4);
    reading->data = number_at(at + 16, 4);
    table->is_laid = 1;
    return NOT_REFUSED;
}

static struct refused read_table(struct bytes slice, size_t place, int zero_columns, struct model_table *table)
{
    struct reading reading;
    struct refused refused = read_layout(slice, place, &reading, table);
    size_t at = 0, i, rows_at;

    for (i = 0; refused.number == 0 && i < table->columns; i++)
        refused = read_column(&reading, &at, zero_columns, &table->column[i]);
    if (refused.number != 0)
        return refused;
    rows_at = (size_t)number_at(slice.at + place + 10, 2);
    at = rows_at < 24 ? reading.body.len : rows_at - 24;
    for (i = 0; refused.number == 0 && i < table->rows; i++)
        refused = read_row(&reading, &at, zero_columns, table, i);
    return refused;
}

struct refused model_table(struct bytes slice, size_t place, int zero_columns, struct model_table *table)
{
    struct refused refused;

    table->is_laid = 0;
    table->columns = table->rows = table->claimed = 0;
    refused = read_table(slice, place, zero_columns, table);
    refused.place = refused.number == 0 ? 0 : place;
    return refused;
}

struct model_cell model_cell(const struct model_table *table, struct bytes name, size_t row)
{
    struct model_cell nothing = {USM_CELL_NOTHING, 0, 0};
    size_t i;

    if (row >= table->rows)
        return nothing;
    for (i = table->columns; i-- > 0;) {
        struct bytes own = table->column[i].name;

        if (own.len == name.len && (own.len == 0 || memcmp(own.at, name.at, own.len) == 0))
            return table->cell[row][i];
    }
    return nothing;
}

/* ---- rules V */

struct written {
    uint8_t *out;
    size_t room, size;
};

static void put(struct written *written, uint8_t byte)
{
    if (written->size < written->room)
        written->out[written->size] = byte;
    written->size++;
}

static int is_quoted(struct bytes text)
{
    size_t i;

    for (i = 0; i < text.len; i++)
        if (text.at[i] == ',' || text.at[i] == '"' || text.at[i] == '\r' || text.at[i] == '\n')
            return 1;
    return 0;
}

static void put_field(struct written *written, struct bytes text)
{
    int quoted = is_quoted(text);
    size_t i;

    if (quoted)
        put(written, '"');
    for (i = 0; i < text.len; i++) {
        if (text.at[i] == '"')
            put(written, '"');
        put(written, text.at[i]);
    }
    if (quoted)
        put(written, '"');
}

static void put_digits(struct written *written, const char *form, unsigned long long number)
{
    char digits[32];
    struct bytes text = {(const uint8_t *)digits, 0};

    text.len = (size_t)snprintf(digits, sizeof digits, form, number);
    put_field(written, text);
}

static void put_cell(struct written *written, struct bytes slice, const struct model_cell *cell)
{
    struct bytes part = {slice.at, cell->length};
    size_t i;

    if (cell->kind == USM_CELL_STRING || cell->kind == USM_CELL_DATA)
        part.at += cell->value;
    switch (cell->kind) {
    case USM_CELL_UNSIGNED:
        put_digits(written, "%llu", cell->value);
        break;
    case USM_CELL_SIGNED:
        put_digits(written, "%lld", cell->value);
        break;
    case USM_CELL_FLOAT:
        put_digits(written, "%08llx", cell->value);
        break;
    case USM_CELL_STRING:
        put_field(written, part);
        break;
    default:
        for (i = 0; i < part.len; i++)
            put_digits(written, "%02llx", part.at[i]);
        break;
    }
}

static void end_field(struct written *written, size_t column, size_t columns)
{
    if (column + 1 < columns) {
        put(written, ',');
    } else {
        put(written, '\r');
        put(written, '\n');
    }
}

size_t model_csv(struct bytes slice, const struct model_table *table, uint8_t *out, size_t room)
{
    struct written written = {out, room, 0};
    size_t row, i;

    for (i = 0; i < table->columns; i++) {
        put_field(&written, table->column[i].name);
        end_field(&written, i, table->columns);
    }
    for (row = 0; row < table->rows; row++)
        for (i = 0; i < table->columns; i++) {
            put_cell(&written, slice, &table->cell[row][i]);
            end_field(&written, i, table->columns);
        }
    return written.size;
}
