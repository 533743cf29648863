"""The truth of a condition at a row: True, False or None, which is unknown."""

import operator
from collections.abc import Iterable, Iterator, Mapping

from model import tree
from model.tree import Truth, Value

Row = Mapping[str, Value]

RELATIONS = {
    "=": operator.eq,
    "<>": operator.ne,
    "<": operator.lt,
    "<=": operator.le,
    ">": operator.gt,
    ">=": operator.ge,
}


def value_of(operand: tree.Operand, row: Row) -> Value:
    """The value of an operand at a row."""
    return row[operand.name] if isinstance(operand, tree.Name) else operand


def truth(condition: tree.Condition, row: Row) -> Truth:
    """The truth of the condition at the row."""
    match condition:
        case tree.Comparison(left, relation, right):
            return compared(value_of(left, row), relation, value_of(right, row))
        case tree.Between(operand, low, high):
            value = value_of(operand, row)
            ends = compared(value, ">=", value_of(low, row)), compared(value, "<=", value_of(high, row))
            return and_of(ends)
        case tree.In(operand, entries):
            value = value_of(operand, row)
            return or_of(compared(value, "=", entry) for entry in entries)
        case tree.IsNull(operand):
            return value_of(operand, row) is None
        case tree.Is(inner, wanted):
            return truth(inner, row) is wanted
        case tree.Not(inner):
            return not_of(truth(inner, row))
        case tree.And(parts):
            return and_of(truth(part, row) for part in parts)
        case tree.Or(parts):
            return or_of(truth(part, row) for part in parts)
    raise AssertionError(condition)


def compared(left: Value, relation: str, right: Value) -> Truth:
    """Whether the integers stand in this order; unknown where one is NULL."""
    return None if left is None or right is None else RELATIONS[relation](left, right)


def not_of(inner: Truth) -> Truth:
    """NOT."""
    return None if inner is None else not inner


def and_of(parts: Iterable[Truth]) -> Truth:
    """AND of all parts: false if one is, else unknown if one is, else true."""
    found = list(parts)
    return False if False in found else None if None in found else True


def or_of(parts: Iterable[Truth]) -> Truth:
    """OR of all parts: true if one is, else unknown if one is, else false."""
    found = list(parts)
    return True if True in found else None if None in found else False


def operands_of(condition: tree.Condition | None) -> Iterator[tree.Operand]:
    """All operands of a condition but the entries of its lists."""
    for predicate in predicates_of(condition):
        match predicate:
            case tree.Comparison(left, _, right):
                yield from (left, right)
            case tree.Between(operand, low, high):
                yield from (operand, low, high)
            case tree.In(operand, _) | tree.IsNull(operand):
                yield operand


def names_of(condition: tree.Condition | None) -> list[str]:
    """The columns that a condition names."""
    return [operand.name for operand in operands_of(condition) if isinstance(operand, tree.Name)]


def longest_list(condition: tree.Condition | None) -> int:
    """The number of entries of the longest list of a condition."""
    return max((len(it.entries) for it in predicates_of(condition) if isinstance(it, tree.In)), default=0)


def predicates_of(condition: tree.Condition | None) -> Iterator[tree.Condition]:
    """The predicates of a condition, from left to right."""
    match condition:
        case None:
            return
        case tree.And(parts) | tree.Or(parts):
            for part in parts:
                yield from predicates_of(part)
        case tree.Not(inner) | tree.Is(inner, _):
            yield from predicates_of(inner)
        case _:
            yield condition
