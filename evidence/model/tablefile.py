"""Table files: the bytes that spell a table by either version, and the table that bytes spell.

The bits of a plane are one integer, whose bit i is that of row i.
"""

import re
import struct
from collections.abc import Iterable, Sequence

from model.refusals import refuse_if
from model.store import MOST_COLUMNS, MOST_ROWS
from model.tokens import LONGEST_WORD, RESERVED
from model.tree import Coding, ColumnDef, Layout, Type, Value

MARK = b"BITCOL"
FRONT = struct.Struct("<6sHHI")  # the mark, the version, how many columns, how many rows
FRAME = struct.Struct("<qB")  # base and width
NAME = re.compile(rb"[A-Z][A-Z0-9_]*")
NOT_TABLE = 44

Cells = Sequence[Value]


class Reader:
    """Takes a file's bytes from the first on."""

    def __init__(self, data: bytes) -> None:
        self.data, self.at = data, 0

    def take(self, size: int) -> bytes:
        """The next bytes, as many as these; error 44 where they are missing."""
        refuse_if(self.at + size > len(self.data), NOT_TABLE)
        self.at += size
        return self.data[self.at - size : self.at]

    def bits(self, rows: int) -> int:
        """A bit for each row; error 44 where there is one past the last row."""
        bits = int.from_bytes(self.take(bytes_of(rows)), "little")
        refuse_if(bits >> rows != 0, NOT_TABLE)
        return bits

    def header(self, version: int) -> ColumnDef:
        """The next header."""
        name = self.take(self.take(1)[0])
        refuse_if(not NAME.fullmatch(name) or len(name) > LONGEST_WORD or name.decode() in RESERVED, NOT_TABLE)
        column_type = self.take(1)[0] if version == 2 else 0
        layout, coding = self.take(2)
        refuse_if(column_type > 1 or layout > 3 or coding > 1, NOT_TABLE)
        types = Type.INTEGER, Type.BIGINT
        definition = ColumnDef(name.decode(), types[column_type], Layout(layout), Coding(coding))
        refuse_if(not definition.layout.holds(definition.type), NOT_TABLE)
        return definition


def read_table(data: bytes) -> tuple[list[ColumnDef], list[list[Value]]]:
    """The columns and their cells; error 44 where the bytes are no table file."""
    reader = Reader(data)
    mark, version, width, rows = FRONT.unpack(reader.take(FRONT.size))
    refuse_if(mark != MARK or version not in (1, 2), NOT_TABLE)
    refuse_if(not 1 <= width <= MOST_COLUMNS or rows > MOST_ROWS, NOT_TABLE)
    definitions = [reader.header(version) for _ in range(width)]
    refuse_if(len({definition.name for definition in definitions}) < width, NOT_TABLE)
    least_bytes = FRAME.size + 2 * bytes_of(rows) if version == 2 else bytes_of(rows) + 4 * rows
    refuse_if(len(data) - reader.at < width * least_bytes, NOT_TABLE)
    read = read_planes if version == 2 else read_cells
    columns = [read(reader, rows) for _ in definitions]
    refuse_if(reader.at != len(data), NOT_TABLE)
    for definition, cells in zip(definitions, columns, strict=True):
        refuse_if(not all(map(definition.type.takes, cells)), NOT_TABLE)
    return definitions, columns


def read_cells(reader: Reader, rows: int) -> list[Value]:
    """A column of version 1: a number for each row, which is 0 where it is NULL."""
    presence = reader.bits(rows)
    numbers = struct.unpack(f"<{rows}i", reader.take(4 * rows))
    cells = [number if presence >> row & 1 else None for row, number in enumerate(numbers)]
    refuse_if(any(number for number, cell in zip(numbers, cells, strict=True) if cell is None), NOT_TABLE)
    return cells


def read_planes(reader: Reader, rows: int) -> list[Value]:
    """A column of version 2: the planes of its codes, the highest first."""
    presence = reader.bits(rows)
    base, width = FRAME.unpack(reader.take(FRAME.size))
    refuse_if(not 1 <= width <= 64, NOT_TABLE)
    planes = [reader.bits(rows) for _ in range(width)]
    refuse_if(any(plane & ~presence for plane in planes), NOT_TABLE)
    places = [row for row in range(rows) if presence >> row & 1]
    cells: list[Value] = [None] * rows
    for row in places:
        code = 0
        for plane in planes:
            code = 2 * code + (plane >> row & 1)
        cells[row] = base + code
    refuse_if((base, width) != frame_of(cells), NOT_TABLE)
    return cells


def write_table(definitions: Sequence[ColumnDef], columns: Sequence[Cells], version: int = 2) -> bytes:
    """The bytes that spell the table by this version."""
    front = FRONT.pack(MARK, version, len(columns), len(columns[0]))
    headers = [header_bytes(definition, version) for definition in definitions]
    write = plane_bytes if version == 2 else cell_bytes
    return b"".join([front, *headers, *map(write, columns)])


def header_bytes(it: ColumnDef, version: int) -> bytes:
    """A column's header."""
    types = [it.type is Type.BIGINT] if version == 2 else []
    return bytes([len(it.name), *it.name.encode("ascii"), *types, it.layout.value, it.coding.value])


def cell_bytes(cells: Cells) -> bytes:
    """A column of version 1."""
    return presence_of(cells) + struct.pack(f"<{len(cells)}i", *(cell or 0 for cell in cells))


def plane_bytes(cells: Cells) -> bytes:
    """A column of version 2."""
    base, width = frame_of(cells)
    codes = [0 if cell is None else cell - base for cell in cells]
    planes = [bit_bytes(code >> bit & 1 for code in codes) for bit in reversed(range(width))]
    return presence_of(cells) + FRAME.pack(base, width) + b"".join(planes)


def presence_of(cells: Cells) -> bytes:
    """A bit for each row: whether it is not NULL."""
    return bit_bytes(cell is not None for cell in cells)


def frame_of(cells: Cells) -> tuple[int, int]:
    """The base of a column's codes and their width."""
    values = [cell for cell in cells if cell is not None]
    return (min(values), max(1, (max(values) - min(values)).bit_length())) if values else (0, 1)


def bit_bytes(bits: Iterable[int]) -> bytes:
    """The bytes of a bit for each row."""
    digits = "".join("1" if bit else "0" for bit in bits)
    return int(digits[::-1] or "0", 2).to_bytes(bytes_of(len(digits)), "little")


def bytes_of(rows: int) -> int:
    """How many bytes the bits of so many rows have."""
    return (rows + 7) // 8


def file_length(definitions: Sequence[ColumnDef], columns: Sequence[Cells]) -> int:
    """How many bytes the table has in version 2."""
    plane = bytes_of(len(columns[0]))
    headers = sum(4 + len(definition.name) for definition in definitions)
    return FRONT.size + headers + sum(FRAME.size + (frame_of(cells)[1] + 1) * plane for cells in columns)
