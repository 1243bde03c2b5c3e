#!/usr/bin/env python3
"""Tables, and the CSV that rules T and V make of them, as csv_check/tables.py has these rules.

    checks/records/csv_tables.py FOLDER   write stdin and stdout of crates/gate_csv
"""
import os
import random
import sys

HERE = os.path.dirname(os.path.abspath(__file__))
sys.dont_write_bytecode = True  # the import leaves no folder behind
sys.path[:0] = [os.path.join(HERE, "..", "model"), os.path.join(HERE, "..", "csv_check")]
import usm
from tables import answer, table_by

ROOM = 4096
LIST = 60000


def cases():
    """By hand: no columns with and without rows, one empty text, repeated names, every mark; then random ones."""
    def table(records, cells, pool, columns, rows):
        body, row = records + cells + pool, 24 + len(records)
        return usm.table(body, columns, rows, row, row + len(cells), 24 + len(body), version=1)
    yield table(b"", b"", b"", 0, 0)
    yield table(b"", b"", b"", 0, 256)
    yield table(b"\x3a" + bytes(8), b"", b"\0", 1, 2)
    yield table(b"\x50" + bytes(4), b"", b"name\0", 1, 0)
    yield table(b"\x50" + bytes(4) + b"\x51" + bytes(4), b"\x01\xff", b'a"b\0', 2, 1)
    yield table(b"\x7a" + bytes(8), b"", b'",\r\n"\0', 1, 3)
    yield table(b"\x3a" + bytes(8), b"", b'"' * 2000 + b"\0", 1, 1)
    chance = random.Random(20061101)
    while True:
        yield table_by(chance)


def main(folder):
    list_, answers, size = [], [], 0
    for table in cases():
        for mark, zero_columns in (("t", False), ("z", True)):
            line = "%s %s\n" % (mark, table.hex())
            size += len(line)
            if size > LIST:
                break
            got = answer(table, zero_columns)
            list_.append(line)
            if isinstance(got, int):
                answers.append("refused %d\n" % got)
            elif len(got) > ROOM:
                answers.append("refused 16 size %d\n" % len(got))
            else:
                answers.append("csv %s\n" % got.hex())
        if size > LIST:
            break
    for name, lines in (("stdin", list_), ("stdout", answers)):
        with open(os.path.join(folder, name), "w") as file:
            file.writelines(lines)
    print("%d cases, %d of them refused" % (len(list_), sum(line.startswith("refused") for line in answers)))


if len(sys.argv) != 2:
    sys.exit("usage: checks/records/csv_tables.py FOLDER")
main(sys.argv[1])
