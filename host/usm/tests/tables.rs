//! Tables through the library: all their cells, and each by its name.

use std::time::{Duration, Instant};

use films::Value;
use usm::{Cell, Reading, Reason, Refusal, Tables};

const NAMES: [&[u8]; 11] =
    [b"byte", b"sbyte", b"short", b"sshort", b"number", b"snumber", b"long", b"float", b"text", b"data", b"text"];

fn values() -> [[Value<'static>; 11]; 2] {
    let row = |text, data| {
        [
            Value::Byte(0xFF),
            Value::SignedByte(-1),
            Value::Short(0xFFFF),
            Value::SignedShort(i16::MIN),
            Value::Number(u32::MAX),
            Value::SignedNumber(i32::MIN),
            Value::Long(u64::MAX),
            Value::Float(0x7F80_0001),
            Value::Text(b"hidden"),
            Value::Data(data),
            Value::Text(text),
        ]
    };
    [row(b"first", b"\0\x01"), row(b"", b"")]
}

fn bytes() -> Vec<u8> {
    let rows = values();
    [b"before".to_vec(), films::table(&NAMES, &[&rows[0], &rows[1]])].concat()
}

/// A float by its bits, so that a NaN is equal to itself.
fn plain(cell: Cell) -> String {
    match cell {
        Cell::Float(float) => format!("Float({:08x})", float.to_bits()),
        cell => format!("{cell:?}"),
    }
}

#[test]
fn all_cells_are_read() {
    let bytes = bytes();
    let table = usm::table(&bytes, 6, Tables::Original).unwrap();
    let names: Vec<&[u8]> = table.columns().iter().map(|column| column.name).collect();
    assert_eq!(names, NAMES);
    assert_eq!(table.row_count(), 2);
    let rows: Vec<Vec<String>> = table.rows().map(|row| row.cells().map(plain).collect()).collect();
    let numbers = [
        "Unsigned(255)",
        "Signed(-1)",
        "Unsigned(65535)",
        "Signed(-32768)",
        "Unsigned(4294967295)",
        "Signed(-2147483648)",
        "Unsigned(18446744073709551615)",
        "Float(7f800001)",
    ];
    let hidden = Cell::String(b"hidden");
    let rest = |data, text| [hidden, Cell::Data(data), Cell::String(text)].map(plain);
    assert_eq!(rows[0], [numbers.map(String::from).to_vec(), rest(b"\0\x01", b"first").to_vec()].concat());
    assert_eq!(rows[1], [numbers.map(String::from).to_vec(), rest(b"", b"").to_vec()].concat());
}

/// Every cell that is gone through is the one that the proved look-up gives, but for columns that a later one hides.
fn agrees(bytes: &[u8], place: usize) -> usize {
    [Tables::Original, Tables::ZeroColumns].map(|tables| agrees_in(bytes, place, tables))[0]
}

fn agrees_in(bytes: &[u8], place: usize, tables: Tables) -> usize {
    let Ok(table) = usm::table(bytes, place, tables) else { return 0 };
    let is_last = |number: usize| {
        let name = table.columns()[number].name;
        table.columns()[number + 1..].iter().all(|later| later.name != name)
    };
    for (row, cells) in table.rows().enumerate() {
        for (number, cell) in cells.cells().enumerate().filter(|&(number, _)| is_last(number)) {
            let found = table.cell(table.columns()[number].name, row).expect("a cell");
            assert_eq!(plain(cell), plain(found));
            let part = |cell| match cell {
                Cell::String(part) | Cell::Data(part) if !part.is_empty() => Some(part.as_ptr()),
                _ => None,
            };
            assert_eq!(part(cell), part(found), "the same part of the bytes");
        }
    }
    1
}

#[test]
fn damaged_tables_agree_with_the_look_up() {
    let bytes = bytes();
    let mut accepted = 0;
    for at in 6..bytes.len() {
        for other in [0, 1, 0x30, 0x70, 0x7F, 0xFF, bytes[at] ^ 1, bytes[at].wrapping_add(8)] {
            let mut damaged = bytes.clone();
            damaged[at] = other;
            accepted += agrees(&damaged, 6);
        }
    }
    assert!(accepted > 500, "only {accepted} were accepted");
    assert_eq!((0..bytes.len()).map(|length| agrees(&bytes[..length], 6)).sum::<usize>(), 0, "all cuts are refused");
}

#[test]
fn constants_and_odd_rows_agree_with_the_look_up() {
    let song = std::fs::read(concat!(env!("CARGO_MANIFEST_DIR"), "/tests/song.usm")).unwrap();
    let tables = usm::header_tables(&song, Reading::default()).unwrap();
    let letters: Vec<&[u8; 4]> = tables.iter().map(|table| &table.letters).collect();
    assert_eq!(letters, [b"CRID", b"@SFV", b"@SFA", b"@SFV", b"@SFA"]);
    let mut accepted = 0;
    for table in tables {
        assert_eq!(agrees(&song, table.place), 1);
        for at in table.place..table.place + 64 {
            for other in 0..=255 {
                let mut damaged = song.clone();
                damaged[at] = other;
                accepted += agrees(&damaged, table.place);
            }
        }
    }
    assert!(accepted > 10_000, "only {accepted} were accepted");
}

#[test]
fn a_table_alone_is_refused_at_its_own_place() {
    let bytes = bytes();
    let refusal = Refusal { number: 3, place: 5, reason: Reason::NoTable };
    assert_eq!(usm::table(&bytes, 5, Tables::Original).unwrap_err(), refusal);
    let refusal = Refusal { number: 1, place: usize::MAX, reason: Reason::RanOut };
    assert_eq!(usm::table(&bytes, usize::MAX, Tables::Original).unwrap_err(), refusal);
}

#[test]
fn header_tables_are_those_of_an_accepted_film() {
    let f = films::f();
    let places: Vec<usize> =
        usm::header_tables(&f, Reading::default()).unwrap().iter().map(|table| table.place).collect();
    assert_eq!(places, [32, 96, 224]);
    let cut = &f[..428];
    let refusal = usm::outline(cut, Reading::default()).unwrap_err();
    assert_eq!(usm::header_tables(cut, Reading::default()).unwrap_err(), refusal);
}

/// All columns and rows of the largest table take milliseconds: a cell by its number does not read the table again, as a
/// look-up by its name does.
#[test]
fn the_largest_table_is_gone_through_in_little_time() {
    let texts: Vec<String> = (0..64).map(|number| format!("column {number}")).collect();
    let names: Vec<&[u8]> = texts.iter().map(|text| text.as_bytes()).collect();
    let rows: Vec<Vec<Value>> =
        (0..256_u32).map(|row| (0..64).map(|at| Value::Number(row * 64 + at)).collect()).collect();
    let rows: Vec<&[Value]> = rows.iter().map(Vec::as_slice).collect();
    let bytes = films::table(&names, &rows);
    for tables in [Tables::Original, Tables::ZeroColumns] {
        let started = Instant::now();
        let table = usm::table(&bytes, 0, tables).unwrap();
        assert!(table.columns().iter().map(|column| column.name).eq(names.iter().copied()));
        assert!(table.columns().iter().all(|column| !column.constant && column.type_byte == 0x54));
        let cells = table.rows().flat_map(|row| row.cells());
        assert!(cells.eq((0..64 * 256).map(Cell::Unsigned)));
        let took = started.elapsed();
        assert!(took < Duration::from_millis(500), "{took:?}");
        assert_eq!(table.cell_at(63, 255), Some(Cell::Unsigned(64 * 256 - 1)));
        assert_eq!(
            (table.cell_at(64, 0), table.cell_at(0, 256), table.cell_at(usize::MAX, usize::MAX)),
            (None, None, None)
        );
    }
}

/// Of columns of one name each has its own cells by number; by name it is the last one's.
#[test]
fn columns_of_one_name_are_told_apart_by_number() {
    let bytes = bytes();
    let table = usm::table(&bytes, 6, Tables::Original).unwrap();
    assert_eq!((table.columns()[8].name, table.columns()[10].name), (&b"text"[..], &b"text"[..]));
    assert_eq!(table.cell_at(8, 0), Some(Cell::String(b"hidden")));
    assert_eq!(table.cell_at(10, 0), Some(Cell::String(b"first")));
    assert_eq!(table.cell(b"text", 0), table.cell_at(10, 0));
}

/// A column of storage 1 takes no room in a row: those after it stand where they would without it.
#[test]
fn zero_columns_store_nothing() {
    let types = [0x10_u8, 0x15, 0x18, 0x1A, 0x1B];
    let names: [&[u8]; 6] = [b"a", b"b", b"c", b"d", b"e", b"f"];
    let number = [Value::Byte(0), Value::Byte(0), Value::Byte(0), Value::Byte(0), Value::Byte(0), Value::Number(7)];
    let mut bytes = films::table(&names, &[&number]);
    for (column, storage) in types.iter().enumerate() {
        bytes[32 + 5 * column] = *storage;
    }
    // The number is the first in the row, where the first byte stood.
    let rows = 8 + 24 + 5 * names.len();
    bytes.copy_within(rows + 5..rows + 9, rows);
    let table = usm::table(&bytes, 0, Tables::ZeroColumns).unwrap();
    let cells: Vec<String> = table.rows().next().unwrap().cells().map(plain).collect();
    let zeros = ["Unsigned(0)", "Signed(0)", "Float(00000000)", "String(b\"\")", "Data(b\"\")", "Unsigned(7)"];
    assert_eq!(cells, zeros);
    let constants: Vec<bool> = table.columns().iter().map(|column| column.constant).collect();
    assert_eq!(constants, [true, true, true, true, true, false]);
    assert_eq!(agrees_in(&bytes, 0, Tables::ZeroColumns), 1);
    assert_eq!(usm::csv(&bytes, 0, Tables::ZeroColumns).unwrap(), b"a,b,c,d,e,f\r\n0,0,00000000,,,7\r\n");
    bytes[32] = 0x20;
    let refusal = Refusal { number: 18, place: 0, reason: Reason::UnknownStorage };
    assert_eq!(usm::table(&bytes, 0, Tables::ZeroColumns).unwrap_err(), refusal);
}
