#!/usr/bin/env python3
"""Reads and writes table files of both versions (docs/TABLE_FILE.md).

    headers, columns = read_table(data)               # bytes to a table; NotTable if they spell none
    data = write_table(headers, columns)              # and back, by version 2; ValueError if there is no such table
    data = write_table(headers, columns, version=1)   # by version 1, which has columns of type INTEGER alone

A header is a Header. A column is a list with an int or None (NULL) for each row. A table has one spelling in each
version, so write_table(*read_table(data), version=version_of(data)) == data for each table file.

    table_file.py show FILE             prints what the file holds
    table_file.py csv FILE              prints its rows as CSV, with a header
    table_file.py convert FILE TO [1]   writes it anew, by version 2, or by version 1
"""

import re
import struct
import sys
from typing import NamedTuple

MARK = b"BITCOL"
FRONT = struct.Struct("<6sHHI")  # mark, version, columns, rows
FRAME = struct.Struct("<qB")  # what the codes are counted from, and how many bits they have
COLUMN_LIMIT, ROW_LIMIT, WIDTH_LIMIT = 64, 16_777_216, 64
TYPES = ("INTEGER", "BIGINT")
LAYOUTS = ("P", "V", "H", "S")
KINDS = ("OFFSET", "DICTIONARY")
NAME = re.compile(r"[A-Z][A-Z0-9_]{0,127}")
RESERVED = frozenset(
    """AND BETWEEN BIGINT BY COUNT CREATE DELETE DROP FALSE FROM GROUP IN INSERT INT INTEGER INTO IS MAX MEDIAN MIN NOT
    NULL OPEN OR SELECT SET SUM TABLE TO TRUE UNKNOWN UPDATE USING VALUES WHERE WITH""".split()
)


class NotTable(ValueError):
    """The bytes spell no table."""


class Header(NamedTuple):
    """A column's name, how its codes lie in memory, how its values become codes, and which integers it holds."""

    name: str
    layout: str = "V"
    kind: str = "OFFSET"
    type: str = "INTEGER"


def version_of(data):
    """The version of a table file."""
    return read_front(data)[0]


def read_table(data):
    """The headers and the columns that the bytes spell, by either version."""
    version, width, rows = read_front(data)
    least = 4 + (bytes_of_bits(rows) + 4 * rows if version == 1 else FRAME.size + 2 * bytes_of_bits(rows))
    if len(data) < FRONT.size + width * least:
        raise NotTable("fewer bytes than so many columns and rows have")
    at, headers, columns = FRONT.size, [], []
    for _ in range(width):
        header, at = read_header(version, data, at)
        headers.append(header)
    if len({header.name for header in headers}) < width:
        raise NotTable("a name twice")
    for header in headers:
        column, at = (read_words if version == 1 else read_planes)(data, at, rows)
        if not are_of_type(header.type, column):
            raise NotTable(f"a value that is no {header.type}")
        columns.append(column)
    if at != len(data):
        raise NotTable("bytes after the last column")
    return headers, columns


def read_front(data):
    """The version, and how many columns and rows there are."""
    if len(data) < FRONT.size:
        raise NotTable("no front")
    mark, version, width, rows = FRONT.unpack_from(data)
    if mark != MARK or version not in (1, 2):
        raise NotTable("another mark or version")
    if not 1 <= width <= COLUMN_LIMIT or rows > ROW_LIMIT:
        raise NotTable("columns or rows out of range")
    return version, width, rows


def read_header(version, data, at):
    """The header that begins at this byte, and where the next part begins."""
    name, at = take(data, at + 1, data[at] if at < len(data) else 0)
    numbers, at = take(data, at, version + 1)
    name = name.decode("latin-1")
    column_type, layout, kind = numbers if version == 2 else (0, *numbers)
    if not is_name(name) or column_type >= len(TYPES) or layout >= len(LAYOUTS) or kind >= len(KINDS):
        raise NotTable("no such name, type, layout or kind")
    header = Header(name, LAYOUTS[layout], KINDS[kind], TYPES[column_type])
    if not holds_its_type(header):
        raise NotTable("a BIGINT in layout H")
    return header, at


def read_words(data, at, rows):
    """The cells of a column of version 1 that begins at this byte, and where the next part begins."""
    present, at = read_bits(data, at, rows)
    words, at = take(data, at, 4 * rows)
    numbers = struct.unpack(f"<{rows}i", words)
    if any(number for number, there in zip(numbers, present) if not there):
        raise NotTable("a number at a NULL")
    return [number if there else None for number, there in zip(numbers, present)], at


def read_planes(data, at, rows):
    """The cells of a column of version 2 that begins at this byte, and where the next part begins."""
    present, at = read_bits(data, at, rows)
    frame, at = take(data, at, FRAME.size)
    base, width = FRAME.unpack(frame)
    if width > WIDTH_LIMIT:
        raise NotTable("a width out of range")
    codes = [0] * rows
    for _ in range(width):
        plane, at = read_bits(data, at, rows)
        if any(bit and not there for bit, there in zip(plane, present)):
            raise NotTable("a bit at a NULL")
        codes = [2 * code + bit for code, bit in zip(codes, plane)]
    cells = [base + code if there else None for code, there in zip(codes, present)]
    if (base, width) != frame_of(cells):
        raise NotTable("another base or width than the one of its values")
    return cells, at


def read_bits(data, at, rows):
    """A bit for each row, that of row i in byte i / 8, and where the next part begins."""
    part, at = take(data, at, bytes_of_bits(rows))
    bits = [byte >> bit & 1 for byte in part for bit in range(8)]
    if any(bits[rows:]):
        raise NotTable("a bit past the last row")
    return bits[:rows], at


def take(data, at, size):
    """So many bytes from this one on, and where the next part begins."""
    if at + size > len(data):
        raise NotTable("cut off")
    return data[at : at + size], at + size


def write_table(headers, columns, version=2):
    """The bytes that spell the table by this version."""
    headers = [Header(*header) for header in headers]
    rows = len(columns[0]) if columns else 0
    if version not in (1, 2):
        raise ValueError("no such version")
    if not 1 <= len(headers) <= COLUMN_LIMIT or len(columns) != len(headers):
        raise ValueError("1 to 64 headers, and a column for each of them")
    if rows > ROW_LIMIT or any(len(column) != rows for column in columns):
        raise ValueError("columns of one length, at most 16,777,216 rows")
    if len({header.name for header in headers}) < len(headers):
        raise ValueError("a name twice")
    if not all(are_of_type(header.type, column) for header, column in zip(headers, columns)):
        raise ValueError("a cell that is neither None nor an integer of its column's type")
    parts = [FRONT.pack(MARK, version, len(headers), rows)]
    parts += [header_bytes(version, header) for header in headers]
    parts += map(word_bytes if version == 1 else plane_bytes, columns)
    return b"".join(parts)


def header_bytes(version, header):
    """The bytes of a header."""
    if not is_name(header.name) or header.layout not in LAYOUTS or header.kind not in KINDS or header.type not in TYPES:
        raise ValueError(f"no header: {header}")
    if not holds_its_type(header):
        raise ValueError(f"a BIGINT in layout H: {header}")
    if version == 1 and header.type != "INTEGER":
        raise ValueError(f"version 1 has no {header.type}")
    numbers = [TYPES.index(header.type), LAYOUTS.index(header.layout), KINDS.index(header.kind)]
    return bytes([len(header.name)]) + header.name.encode("ascii") + bytes(numbers[2 - version :])


def word_bytes(cells):
    """The bytes of a column by version 1."""
    words = struct.pack(f"<{len(cells)}i", *(0 if cell is None else cell for cell in cells))
    return bit_bytes(cell is not None for cell in cells) + words


def plane_bytes(cells):
    """The bytes of a column by version 2."""
    base, width = frame_of(cells)
    codes = [0 if cell is None else cell - base for cell in cells]
    planes = (bit_bytes(code >> bit & 1 for code in codes) for bit in reversed(range(width)))
    return bit_bytes(cell is not None for cell in cells) + FRAME.pack(base, width) + b"".join(planes)


def frame_of(cells):
    """What the codes of a column are counted from, and how many bits they have."""
    values = [cell for cell in cells if cell is not None]
    return (min(values), max(1, (max(values) - min(values)).bit_length())) if values else (0, 1)


def bit_bytes(bits):
    """The bytes that have a bit for each row, that of row i in byte i / 8."""
    bits = list(bits)
    return bytes(
        sum(bit << place for place, bit in enumerate(bits[start : start + 8])) for start in range(0, len(bits), 8)
    )


def bytes_of_bits(rows):
    """How many bytes the bits of so many rows have."""
    return (rows + 7) // 8


def are_of_type(column_type, cells):
    """Whether each cell is None or an integer of the type."""
    greatest = 2**31 - 1 if column_type == "INTEGER" else 2**63 - 1
    return all(cell is None or isinstance(cell, int) and -greatest - 1 <= cell <= greatest for cell in cells)


def holds_its_type(header):
    """Whether a column of the type may lie in the layout."""
    return (header.layout, header.type) != ("H", "BIGINT")


def is_name(word):
    """Whether a column can have this name."""
    return NAME.fullmatch(word) is not None and word not in RESERVED


def show(headers, columns):
    """Prints a line for each column."""
    print(f"{len(headers)} columns, {len(columns[0])} rows")
    for header, cells in zip(headers, columns):
        values = [cell for cell in cells if cell is not None]
        span = f"{min(values)} to {max(values)}" if values else "no values"
        print(f"{header.name} {header.type} {header.layout} {header.kind}: {span}, {len(cells) - len(values)} NULL")


def print_csv(headers, columns):
    """Prints the rows, with a header."""
    print(",".join(header.name for header in headers))
    for row in zip(*columns):
        print(",".join("NULL" if cell is None else str(cell) for cell in row))


def main(words):
    commands = {"show": show, "csv": print_csv}
    converts = words[:1] == ["convert"] and (len(words) == 3 or len(words) == 4 and words[3] in ("1", "2"))
    if not converts and (len(words) != 2 or words[0] not in commands):
        sys.exit("usage: table_file.py show|csv FILE, or table_file.py convert FILE TO [1|2]")
    try:
        with open(words[1], "rb") as file:
            table = read_table(file.read())
        if converts:
            data = write_table(*table, version=int((words + ["2"])[3]))
            with open(words[2], "wb") as file:
                file.write(data)
    except (OSError, ValueError) as fault:
        sys.exit(f"table_file.py: {words[1]}: {fault}")
    if not converts:
        commands[words[0]](*table)


if __name__ == "__main__":
    main(sys.argv[1:])
