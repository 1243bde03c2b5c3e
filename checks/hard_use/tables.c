/*
 * Hard use of usm_column and usm_cell_at: random tables, whole and damaged, lent read-only at a page that may not
 * be touched, in both modes; every column and every cell of each, and numbers that no table has. Then the largest table,
 * timed. See README.md.
 *
 *     tables SECONDS SEED
 *
 * What is expected of a table that is accepted follows from usm_table: how many there are; from usm_cell: the cell of the
 * last column of a name; and from usm_csv: the text of every name and cell. One that is refused has a header, a column or
 * a cell that is refused for the same reason, or a column whose cells are nothing.
 */
#define _GNU_SOURCE
#include "../../examples/replies.h"
#include "trials.h"
#include "usm.h"

#include <inttypes.h>
#include <stdio.h>

#define MOST_COLUMNS 64
#define MOST_ROWS 256

/* The longest CSV that is compared, and how many cells of a table are looked up by name. */
#define LONG 4194304
#define LOOKED_UP 64

static struct memory bytes_memory, name_memory;
static uint64_t column_answers[256], cell_answers[256], accepted, refused, by_name, by_csv, readable;

/* The table that is tried, as it is lent and read. */
static struct {
    const uint8_t *bytes;
    size_t len, place;
    struct usm_reading reading;
    struct usm_table_reply whole;
    struct usm_column_reply columns[MOST_COLUMNS];
} table;

static struct usm_column_reply column_of(size_t number)
{
    struct usm_column_reply reply = usm_column(table.bytes, table.len, table.place, number, table.reading);

    column_answers[reply.number]++;
    return reply;
}

static struct usm_cell_reply cell_of(size_t number, size_t row)
{
    struct usm_cell_reply reply = usm_cell_at(table.bytes, table.len, table.place, number, row, table.reading);

    cell_answers[reply.number]++;
    return reply;
}

/* ---- columns */

/* The bytes of a value, by the low half of its type. */
static size_t width_of(uint8_t type_byte)
{
    static const size_t WIDTHS[] = {1, 1, 2, 2, 4, 4, 8, 0, 4, 0, 4, 8, 0, 0, 0, 0};

    return WIDTHS[type_byte & 15];
}

/* Where a column has its values, by the high half of its type. */
static uint8_t expected_storage(uint8_t type_byte)
{
    uint8_t half = type_byte >> 4;

    if (half == 3 || half == 7)
        return USM_STORAGE_CONSTANT;
    if (table.reading.tables != USM_TABLES_ZERO_COLUMNS || half == 5)
        return USM_STORAGE_ROWS;
    return half == 1 ? USM_STORAGE_ZERO : USM_STORAGE_UNKNOWN;
}

/* A name is a text of the bytes, up to the zero byte behind it. */
static int is_text(size_t start, size_t length)
{
    return start <= table.len && length < table.len - start && table.bytes[start + length] == 0 &&
           memchr(table.bytes + start, 0, length) == NULL;
}

/* The reply on a column whose record stands there. */
static void expect_column(struct usm_column_reply column, size_t record)
{
    expect(column.number == USM_ACCEPTED && column.refused_at == 0 && column.unknown_type == 0, "a column is refused");
    expect(column.type_byte == table.bytes[record], "another type byte than the record's");
    expect(column.storage == expected_storage(column.type_byte), "another storage");
    expect(column.name_length == 0 || is_text(column.name_start, column.name_length), "a name that is no text");
}

static void read_columns(void)
{
    size_t record = table.place + 32, i;

    for (i = 0; i < table.whole.columns; i++) {
        table.columns[i] = column_of(i);
        expect_column(table.columns[i], record);
        expect(table.columns[i].storage != USM_STORAGE_UNKNOWN, "an unknown storage in a table that is accepted");
        record += 5 + (table.columns[i].storage == USM_STORAGE_CONSTANT ? width_of(table.columns[i].type_byte) : 0);
    }
}

/* ---- cells */

/* What a cell of a column is, by the low half of its type. */
static uint8_t expected_kind(uint8_t type_byte)
{
    switch (type_byte & 15) {
    case 1:
    case 3:
    case 5:
        return USM_CELL_SIGNED;
    case 8:
        return USM_CELL_FLOAT;
    case 0xA:
        return USM_CELL_STRING;
    case 0xB:
        return USM_CELL_DATA;
    default:
        return USM_CELL_UNSIGNED;
    }
}

/* Whether a cell has a part of the bytes, and that lies within them. */
static int lies_within(struct usm_cell_reply cell)
{
    if (cell.kind < USM_CELL_STRING)
        return cell.length == 0;
    return cell.value <= table.len && cell.length <= table.len - cell.value;
}

static void expect_cell(struct usm_cell_reply cell, struct usm_column_reply column)
{
    expect(cell.number == USM_ACCEPTED && cell.refused_at == 0 && cell.unknown_type == 0, "a cell is refused");
    expect(cell.kind == expected_kind(column.type_byte), "another kind of cell than its column's");
    expect(lies_within(cell), "a cell that lies outside");
    expect(column.storage != USM_STORAGE_ZERO || (cell.value == 0 && cell.length == 0), "a zero column with a value");
}

static int has_name_of(size_t number, size_t other)
{
    return table.columns[number].name_length == table.columns[other].name_length &&
           memcmp(table.bytes + table.columns[number].name_start, table.bytes + table.columns[other].name_start,
                  table.columns[number].name_length) == 0;
}

/* The last column that has the name of a column. */
static size_t last_of_name(size_t number)
{
    size_t last = number, i;

    for (i = number + 1; i < table.whole.columns; i++)
        if (has_name_of(number, i))
            last = i;
    return last;
}

/* A look-up by a column's name is the cell of the last column that has it. */
static void look_up(enum edge edge, size_t number, size_t row)
{
    size_t len = table.columns[number].name_length;
    const uint8_t *name = lend_bytes(&name_memory, edge, table.bytes + table.columns[number].name_start, len);
    struct usm_cell_reply found =
        usm_cell(table.bytes, table.len, table.place, name, len, row, table.reading);

    expect(same_cell(found, cell_of(last_of_name(number), row)), "another cell than the look-up's");
    by_name++;
}

static void look_up_cells(enum edge edge, struct chance *chance)
{
    size_t columns = table.whole.columns, rows = table.whole.rows, i;

    if (columns == 0)
        return;
    for (i = 0; i < LOOKED_UP; i++) {
        if (columns * rows <= LOOKED_UP && i < columns * rows)
            look_up(edge, i % columns, i / columns);
        if (columns * rows > LOOKED_UP)
            look_up(edge, below(chance, columns), below(chance, rows + 1));
    }
}

/* ---- CSV */

/* A text that is put together. */
struct text {
    uint8_t bytes[LONG];
    size_t len;
};

static void add_byte(struct text *text, uint8_t byte)
{
    expect(text->len < LONG, "a text that is longer than the CSV");
    text->bytes[text->len++] = byte;
}

/* A field: in quotes where it has a comma, a quote, CR or LF, and its quotes doubled. */
static void add_field(struct text *text, const uint8_t *bytes, size_t len)
{
    size_t special = 0, i;

    for (i = 0; i < len; i++)
        special += bytes[i] == ',' || bytes[i] == '"' || bytes[i] == '\r' || bytes[i] == '\n';
    if (special > 0)
        add_byte(text, '"');
    for (i = 0; i < len; i++) {
        if (bytes[i] == '"')
            add_byte(text, '"');
        add_byte(text, bytes[i]);
    }
    if (special > 0)
        add_byte(text, '"');
}

static void add_cell(struct text *text, struct usm_cell_reply cell)
{
    char digits[32];
    size_t i;

    switch (cell.kind) {
    case USM_CELL_STRING:
        add_field(text, table.bytes + cell.value, cell.length);
        return;
    case USM_CELL_DATA:
        for (i = 0; i < cell.length; i++) {
            snprintf(digits, sizeof digits, "%02x", table.bytes[cell.value + i]);
            add_field(text, (const uint8_t *)digits, 2);
        }
        return;
    case USM_CELL_SIGNED:
        snprintf(digits, sizeof digits, "%" PRId64, (int64_t)cell.value);
        break;
    case USM_CELL_FLOAT:
        snprintf(digits, sizeof digits, "%08" PRIx64, cell.value);
        break;
    default:
        snprintf(digits, sizeof digits, "%" PRIu64, cell.value);
        break;
    }
    add_field(text, (const uint8_t *)digits, strlen(digits));
}

/* What stands between a field and the next: a comma, or the end of a record. */
static void end_field(struct text *text, size_t number)
{
    if (number + 1 < table.whole.columns) {
        add_byte(text, ',');
        return;
    }
    add_byte(text, '\r');
    add_byte(text, '\n');
}

/* The CSV of the table is that of its columns and cells, one by one. */
static void expect_csv(void)
{
    static uint8_t csv[LONG];
    static struct text text;
    struct usm_size_reply reply = usm_csv(table.bytes, table.len, table.place, table.reading, csv, sizeof csv);
    size_t row, i;

    if (reply.number == USM_SHORT_ROOM)
        return;
    text.len = 0;
    for (i = 0; i < table.whole.columns; i++) {
        add_field(&text, table.bytes + table.columns[i].name_start, table.columns[i].name_length);
        end_field(&text, i);
    }
    for (row = 0; row < table.whole.rows; row++)
        for (i = 0; i < table.whole.columns; i++) {
            add_cell(&text, cell_of(i, row));
            end_field(&text, i);
        }
    expect(reply.size == text.len && memcmp(csv, text.bytes, text.len) == 0, "another text than the CSV's");
    by_csv++;
}

/* ---- tables that are refused */

static size_t number_at(size_t at, size_t width)
{
    size_t number = 0, i;

    for (i = 0; i < width; i++)
        number = number << 8 | table.bytes[at + i];
    return number;
}

/* The numbers that columns and cells of a table gave, and whether a cell of it was nothing. */
struct found {
    uint8_t numbers[256];
    int nothing;
};

static void note(struct found *found, uint8_t number, size_t refused_at, uint8_t unknown_type)
{
    found->numbers[number] = 1;
    expect(refused_at == (number == USM_ACCEPTED ? 0 : table.place), "another place than the table's");
    expect(unknown_type == 0 || number == USM_UNKNOWN_TYPE, "a type beside another number");
}

static void note_column(struct found *found, struct usm_column_reply column)
{
    note(found, column.number, column.refused_at, column.unknown_type);
    if (column.number != USM_ACCEPTED)
        expect(column.storage == USM_STORAGE_NONE && column.type_byte == 0 && column.name_start == 0 &&
                   column.name_length == 0,
               "something beside a refusal");
    else
        expect(column.storage == expected_storage(column.type_byte), "another storage");
    if (column.storage == USM_STORAGE_UNKNOWN)
        found->numbers[USM_UNKNOWN_STORAGE] = 1;
}

/* A cell is nothing only where its column's record is refused: the name, the storage or the constant. */
static int may_be_nothing(struct usm_column_reply column)
{
    return column.number != USM_ACCEPTED || column.storage == USM_STORAGE_UNKNOWN ||
           column.storage == USM_STORAGE_CONSTANT;
}

static void note_cell(struct found *found, struct usm_column_reply column, struct usm_cell_reply cell)
{
    note(found, cell.number, cell.refused_at, cell.unknown_type);
    if (cell.kind == USM_CELL_NOTHING) {
        expect(cell.value == 0 && cell.length == 0, "something beside a refusal");
        expect(cell.number != USM_ACCEPTED || may_be_nothing(column), "a cell of a column that can be read is nothing");
        found->nothing |= cell.number == USM_ACCEPTED;
    } else {
        expect_cell(cell, column);
    }
}

/* What columns and cells of a table say whose header is accepted and which is not. */
static struct found found_in(size_t columns, size_t rows)
{
    struct found found;
    size_t row, i;

    memset(&found, 0, sizeof found);
    for (i = 0; i < columns; i++) {
        struct usm_column_reply column = column_of(i);

        note_column(&found, column);
        for (row = 0; row < rows; row++)
            note_cell(&found, column, cell_of(i, row));
    }
    return found;
}

/* Where the header is refused every question gets that refusal. Where it is not, the table's refusal is that of a column or
 * a cell, or a cell is nothing; but a table without rows has no cells. */
static void try_refused(void)
{
    struct usm_column_reply none = column_of(SIZE_MAX);
    struct found found;
    size_t rows;

    refused++;
    if (none.number != USM_ACCEPTED) {
        expect(none.number == table.whole.number && none.refused_at == table.whole.refused_at &&
                   none.unknown_type == table.whole.unknown_type,
               "another refusal than the table's");
        expect(cell_of(0, 0).number == none.number && cell_of(SIZE_MAX, SIZE_MAX).number == none.number &&
                   column_of(0).number == none.number,
               "a column or a cell of a table without a header");
        return;
    }
    rows = number_at(table.place + 28, 4);
    found = found_in(number_at(table.place + 24, 2), rows);
    expect(rows == 0 || found.nothing || found.numbers[table.whole.number], "a table that is refused for nothing that it has");
    readable += found.numbers[USM_ACCEPTED];
}

/* ---- tables that are accepted */

/* Numbers at which a table has no column or row. */
static size_t past(size_t count, struct chance *chance)
{
    return once_in(chance, 2) ? count + below(chance, 3) : SIZE_MAX - below(chance, 3);
}

static void expect_nothing_past(struct chance *chance)
{
    size_t columns = table.whole.columns, rows = table.whole.rows;
    struct usm_column_reply no_column;
    struct usm_cell_reply no_cell;

    memset(&no_column, 0, sizeof no_column);
    memset(&no_cell, 0, sizeof no_cell);
    expect(same_column(column_of(past(columns, chance)), no_column), "a column past the last");
    expect(same_cell(cell_of(past(columns, chance), below(chance, rows + 1)), no_cell), "a cell past the last column");
    expect(same_cell(cell_of(below(chance, columns + 1), past(rows, chance)), no_cell), "a cell past the last row");
}

static void try_accepted(enum edge edge, struct chance *chance)
{
    size_t row, i;

    accepted++;
    expect(table.whole.columns <= MOST_COLUMNS && table.whole.rows <= MOST_ROWS, "a table that is too large");
    read_columns();
    for (row = 0; row < table.whole.rows; row++)
        for (i = 0; i < table.whole.columns; i++)
            expect_cell(cell_of(i, row), table.columns[i]);
    expect_nothing_past(chance);
    look_up_cells(edge, chance);
    expect_csv();
}

static void try_mode(enum edge edge, uint8_t mode, struct chance *chance)
{
    table.reading = reading_by_chance(chance);
    table.reading.tables = mode;
    table.whole = usm_table(table.bytes, table.len, table.place, table.reading);
    if (table.whole.number == USM_ACCEPTED)
        try_accepted(edge, chance);
    else
        try_refused();
}

static void try_case(enum edge edge)
{
    struct chance chance = chance_of(trial.seed, trial.number);

    table.place = make_any_table(&trial.made, &chance);
    table.len = trial.made.len;
    table.bytes = lend_bytes(&bytes_memory, edge, trial.made.bytes, trial.made.len);
    try_mode(edge, USM_TABLES_ZERO_COLUMNS, &chance);
    try_mode(edge, once_in(&chance, 8) ? (uint8_t)(2 + below(&chance, 254)) : USM_TABLES_ORIGINAL, &chance);
    expect(memcmp(table.bytes, trial.made.bytes, trial.made.len) == 0, "bytes changed that are to stay");
}

/* ---- the largest table */

/* The most seconds of the processor that all its cells may take, one by one. */
#define SECONDS_FOR_ALL 1.0

static void put_number(uint8_t *at, size_t width, size_t number)
{
    while (width--) {
        at[width] = (uint8_t)number;
        number >>= 8;
    }
}

/* 64 columns and 256 rows, a byte in each cell; all columns have an empty name. */
static size_t make_largest(uint8_t *bytes)
{
    size_t rows = 32 + 5 * MOST_COLUMNS, strings = rows + MOST_COLUMNS * MOST_ROWS, i;

    memset(bytes, 0, strings + 1);
    memcpy(bytes, "@UTF", 4);
    put_number(bytes + 4, 4, strings + 1 - 8);
    put_number(bytes + 10, 2, rows - 8);
    put_number(bytes + 12, 4, strings - 8);
    put_number(bytes + 24, 2, MOST_COLUMNS);
    put_number(bytes + 28, 4, MOST_ROWS);
    for (i = 0; i < MOST_COLUMNS; i++)
        bytes[32 + 5 * i] = 0x50;
    for (i = rows; i < strings; i++)
        bytes[i] = (uint8_t)(i * 7);
    return strings + 1;
}

static void time_largest(void)
{
    uint64_t sum = 0, expected = 0;
    size_t len = make_largest(trial.made.bytes), row, i;
    double began, took;

    trial.made.len = table.len = len;
    table.place = 0;
    table.bytes = lend_bytes(&bytes_memory, ENDS, trial.made.bytes, len);
    table.reading = USM_READ_WITH_AUDIO;
    for (i = 32 + 5 * MOST_COLUMNS; i + 1 < len; i++)
        expected += table.bytes[i];
    began = seconds_by(CLOCK_PROCESS_CPUTIME_ID);
    for (row = 0; row < MOST_ROWS; row++)
        for (i = 0; i < MOST_COLUMNS; i++)
            sum += cell_of(i, row).value;
    took = seconds_by(CLOCK_PROCESS_CPUTIME_ID) - began;
    expect(sum == expected, "other cells of the largest table");
    expect(took < SECONDS_FOR_ALL, "the cells of the largest table take too long");
    printf("tables: 64 columns and 256 rows, all cells one by one in %.2f ms of the processor\n", took * 1e3);
}

int main(int count, char **words)
{
    double seconds = begin_trials("tables", count, words);

    make_memory(&bytes_memory, MADE_BYTES, 1);
    make_memory(&name_memory, MADE_BYTES, 1);
    expect(sizeof(struct usm_column_reply) == 32, "a reply of another size than usm.h says");
    expect_no_signal();
    try_cases(seconds, try_case);
    print_answers("usm_column", column_answers);
    printf("\n");
    print_answers("usm_cell_at", cell_answers);
    printf("; %" PRIu64 " tables accepted, %" PRIu64 " refused, %" PRIu64 " of them with something that can be read; "
           "%" PRIu64 " cells beside usm_cell, %" PRIu64 " tables beside usm_csv\n",
           accepted, refused, readable, by_name, by_csv);
    time_largest();
    printf("tables: all as expected\n");
    return 0;
}
