"""Files for random scripts: CSV files and table files, valid ones and faulty ones."""

from random import Random

from model.tablefile import write_table
from model.tree import Coding, ColumnDef, Layout, Type, Value

MARK = b"\xef\xbb\xbf"
LINE_ENDS = ["\n", "\n", "\n", "\r\n", "\r\n", "\r", "\n\n", "\r\n\r\n"]
NULLS = ["", "NULL", "null", "Null", '""', '"NULL"', '"nUll"']
FAULTS = ["x", " 1", "1 ", "+", "-", "+-1", "1.0", "0x1", "é", "1e3", "'1'"]
FAULTS += ['"1', '"1"2', '1"2"', '"1\n2"', '""""', "NUL", "\0"]
BEYOND = ["9223372036854775808", "-9223372036854775809", "2147483648", "-2147483649", "9" * 40, "-" + "9" * 400]
NAMES = ["A", "B", "C", "D", "SECONDS", "X_1"]


def csv_file(generator: Random, columns: int, values: list[Value]) -> bytes:
    """A CSV file with this number of columns, which now and then has a fault."""
    is_faulty = generator.random() < 0.35
    end = generator.choice(LINE_ENDS)
    lines = [",".join(f"c{place}" for place in range(columns))] if generator.random() < 0.4 else []
    for _ in range(generator.choice([0, 1, 2, 3, 5, 20, 300 if generator.random() < 0.1 else 8])):
        fields = [field(generator, values) for _ in range(columns)]
        if is_faulty and generator.random() < 0.15:
            spoil(generator, fields)
        lines.append(",".join(fields))
    text = end.join(lines) + generator.choice(["", end, end, "\n", '"' if is_faulty else ""])
    mark = MARK * generator.choice([0] * 12 + [1, 1, 2, 3])
    odd_end = generator.choice([b"\xff", b"\xef\xbb", b"\r"]) if generator.random() < 0.03 else b""
    return mark + text.encode() + odd_end


def field(generator: Random, values: list[Value]) -> str:
    """A field that is a value of the list, or NULL."""
    value = generator.choice(values)
    if value is None or generator.random() < 0.1:
        return generator.choice(NULLS)
    digits = str(value)
    match generator.randrange(12):
        case 0:
            return f'"{digits}"'
        case 1:
            return digits if value < 0 else "+" + digits
        case 2:
            return ("-" if value < 0 else "") + "000" + str(abs(value))
        case _:
            return digits


def spoil(generator: Random, fields: list[str]) -> None:
    """Puts a fault into a record."""
    place = generator.randrange(len(fields))
    match generator.randrange(4):
        case 0:
            fields[place] = generator.choice(FAULTS)
        case 1:
            fields[place] = generator.choice(BEYOND)
        case 2:
            fields.insert(place, "1")
        case _:
            del fields[place]


def table_file(generator: Random, values: list[Value]) -> tuple[list[ColumnDef], bytes]:
    """A table file of either version and its columns; now and then a faulty file, which has no columns."""
    version = generator.choice([1, 2, 2])
    names = generator.sample(NAMES, generator.choice([1, 1, 2, 3]))
    columns = [definition(generator, name, version) for name in names]
    rows = generator.choice([0, 1, 2, 3, 7, 8, 9, 64, 65, 257 if generator.random() < 0.2 else 10])
    cells = [[cell_of(generator, column.type, values) for _ in range(rows)] for column in columns]
    data = write_table(columns, cells, version)
    return ([], damaged(generator, data)) if generator.random() < 0.4 else (columns, data)


def definition(generator: Random, name: str, version: int) -> ColumnDef:
    """A column that a table file of the version can have."""
    column_type = Type.INTEGER if version == 1 else generator.choice(list(Type))
    layouts = [layout for layout in Layout if layout.holds(column_type)]
    return ColumnDef(name, column_type, generator.choice(layouts), generator.choice(list(Coding)))


def cell_of(generator: Random, column_type: Type, values: list[Value]) -> Value:
    """A value of the list, if the type takes it, and else NULL."""
    value = generator.choice(values)
    return value if column_type.takes(value) else None


def damaged(generator: Random, data: bytes) -> bytes:
    """The bytes with one of them changed, with one bit changed, truncated, or with more after them."""
    place = generator.randrange(len(data))
    near_front = min(place, generator.randrange(40))
    match generator.randrange(5):
        case 0:
            return data[:place]
        case 1:
            return data + b"\0"
        case 2:
            return data[:near_front] + bytes([generator.randrange(256)]) + data[near_front + 1 :]
        case 3:
            return data[:near_front] + bytes([data[near_front] ^ 1 << generator.randrange(8)]) + data[near_front + 1 :]
        case _:
            return data[:place] + bytes([data[place] ^ 1 << generator.randrange(8)]) + data[place + 1 :]
