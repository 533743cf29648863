"""The errors of the language: a statement that is refused raises one of them."""

TEXTS = {
    10: "syntax error",
    11: "statement too long",
    12: "nested too deeply",
    13: "number too large",
    20: "no such table",
    21: "table exists",
    22: "no such column",
    23: "column named twice",
    24: "over a limit",
    25: "wrong number of values",
    26: "value out of range",
    27: "columns and set functions mixed",
    28: "table full",
    40: "file cannot be read",
    41: "file cannot be written",
    42: "record {} has the wrong number of fields",
    43: "record {} field {} is not an integer",
    44: "not a table file",
    46: "file too large",
    60: "layout H holds no BIGINT",
    90: "out of memory",
}


class Refusal(Exception):
    """The error of this number. Two of the texts name a record, or a record and a field."""

    def __init__(self, number: int, *places: int) -> None:
        super().__init__(f"error {number}: {TEXTS[number].format(*places)}")
        self.number = number


def refuse_if(holds: bool, number: int) -> None:
    """Refuses the statement by this error if its reason holds."""
    if holds:
        raise Refusal(number)
