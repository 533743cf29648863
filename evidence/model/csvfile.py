"""The rows that a CSV file spells for columns of these types, or its first fault."""

import re
from collections.abc import Iterator, Sequence

from model.refusals import Refusal
from model.tree import Type, Value

BYTE_ORDER_MARK = b"\xef\xbb\xbf"
INTEGER = re.compile(rb"[+-]?[0-9]+")
LONGEST_DIGITS = 19  # those of the greatest BIGINT

# What stands between two quotes of a field, what stands outside of them, and what ends a field or a line.
QUOTED = re.compile(rb'[^"]*(?:""[^"]*)*')
UNQUOTED = re.compile(rb"[^,\r\n]*")
LINE_ENDS = b"\r\n"


def rows_of_file(data: bytes, types: Sequence[Type], has_header: bool) -> list[list[Value]]:
    """The rows of a file; error 42, 43 or 26 for its first fault by record and by field."""
    rows = []
    for number, fields in enumerate(records_of(data), 1):
        if has_header and number == 1:
            continue
        if len(fields) != len(types):
            raise Refusal(42, number)
        places = enumerate(zip(fields, types, strict=True), 1)
        rows.append([value_of(field, column_type, number, place) for place, (field, column_type) in places])
    return rows


def value_of(field: bytes, column_type: Type, record: int, place: int) -> Value:
    """The value of a field."""
    if field == b"" or field.upper() == b"NULL":
        return None
    if not INTEGER.fullmatch(field):
        raise Refusal(43, record, place)
    sign, digits = -1 if field.startswith(b"-") else 1, field.lstrip(b"+-").lstrip(b"0") or b"0"
    if len(digits) > LONGEST_DIGITS or not column_type.takes(sign * int(digits)):
        raise Refusal(26)
    return sign * int(digits)


def records_of(data: bytes) -> Iterator[list[bytes]]:
    """The records of a file: a byte order mark is dropped by the program, and one more by the reader of records."""
    at = 0
    for _ in range(2):
        at += len(BYTE_ORDER_MARK) * data.startswith(BYTE_ORDER_MARK, at)
    while at < len(data):
        if data[at] in LINE_ENDS:
            at += 1
            continue
        record, at = record_at(data, at)
        yield record


def record_at(data: bytes, at: int) -> tuple[list[bytes], int]:
    """The fields of the record that begins here, and where its line ends."""
    fields = []
    while True:
        field, at = field_at(data, at)
        fields.append(field)
        if data[at : at + 1] != b",":
            return fields, at
        at += 1


def field_at(data: bytes, at: int) -> tuple[bytes, int]:
    """The field that begins here, and where it ends. What follows a closing quote belongs to it as it stands."""
    quoted = b""
    if data[at : at + 1] == b'"':
        found = QUOTED.match(data, at + 1)
        quoted, at = found[0].replace(b'""', b'"'), min(found.end() + 1, len(data))
    rest = UNQUOTED.match(data, at)
    return quoted + rest[0], rest.end()
