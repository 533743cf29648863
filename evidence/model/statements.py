"""What each statement does. A function first refuses, in the order of the document, and then changes and answers."""

from collections.abc import Callable, Iterable

from model import replies, tree
from model.conditions import longest_list, names_of, truth, value_of
from model.csvfile import rows_of_file
from model.refusals import refuse_if
from model.store import MOST_COLUMNS, MOST_FILE_BYTES, MOST_ROWS, MOST_TABLES, Cells, Column, Slot, Store, Table
from model.tablefile import file_length, read_table, write_table
from model.units import units_of

LONGEST_LIST = 1_000


def execute(store: Store, statement: tree.Statement) -> bytes:
    """Carries the statement out, and gives its reply; raises what it is refused by, and then has changed nothing."""
    return EXECUTORS[type(statement)](store, statement)


def require_once(names: Iterable[str]) -> None:
    """Error 23 if a column is named twice."""
    listed = list(names)
    refuse_if(len(set(listed)) < len(listed), 23)


def found(table: Table, where: tree.Condition | None) -> list[Slot]:
    """The live slots where the condition is true; all of them without one."""
    return [slot for slot in table.slots if slot.is_live and (where is None or truth(where, slot.cells) is True)]


def create_table(store: Store, it: tree.CreateTable) -> bytes:
    """CREATE TABLE: 21; 23; 24; 60."""
    refuse_if(it.table in store.tables, 21)
    require_once(column.name for column in it.columns)
    refuse_if(len(it.columns) > MOST_COLUMNS or len(store.tables) >= MOST_TABLES, 24)
    refuse_if(not all(column.layout.holds(column.type) for column in it.columns), 60)
    store.tables[it.table] = Table([Column.of(column) for column in it.columns])
    return replies.OK


def drop_table(store: Store, it: tree.DropTable) -> bytes:
    """DROP TABLE: 20."""
    store.table(it.table)
    del store.tables[it.table]
    return replies.OK


def tables(store: Store, _: tree.Tables) -> bytes:
    """TABLES, which is never refused."""
    lines = [(name, len(table.columns), len(table.rows())) for name, table in store.tables.items()]
    return replies.listed(("TABLE", "COLUMNS", "ROWS"), lines)


def insert(store: Store, it: tree.Insert) -> bytes:
    """INSERT: 20; 22 and 23 for the list of columns; 25; 26; 28."""
    table = store.table(it.table)
    names = table.names if it.columns is None else it.columns
    table.require(names)
    require_once(names)
    refuse_if(any(len(values) != len(names) for values in it.tuples), 25)
    rows = [dict(zip(names, values, strict=True)) for values in it.tuples]
    refuse_if(not all(table.column(name).type.takes(value) for row in rows for name, value in row.items()), 26)
    refuse_if(len(table.rows()) + len(rows) > MOST_ROWS, 28)
    table.append([{name: row.get(name) for name in table.names} for row in rows])
    return replies.counted(len(rows))


def update(store: Store, it: tree.Update) -> bytes:
    """UPDATE: 20; 22; 23; 24; 26 for a literal; 26 for a value of another column."""
    table = store.table(it.table)
    table.require(name for name, _ in it.sets)
    table.require(source.name for _, source in it.sets if isinstance(source, tree.Name))
    table.require(names_of(it.where))
    require_once(name for name, _ in it.sets)
    refuse_if(longest_list(it.where) > LONGEST_LIST, 24)
    for name, source in it.sets:
        refuse_if(not isinstance(source, tree.Name) and not table.column(name).type.takes(source), 26)
    slots = found(table, it.where)
    changes = [{name: value_of(source, slot.cells) for name, source in it.sets} for slot in slots]
    refuse_if(not all(table.column(name).type.takes(value) for row in changes for name, value in row.items()), 26)
    for name, _ in it.sets:
        table.make_codes(table.column(name), [change[name] for change in changes])
    for slot, change in zip(slots, changes, strict=True):
        slot.cells = {**slot.cells, **change}
    return replies.counted(len(slots))


def delete(store: Store, it: tree.Delete) -> bytes:
    """DELETE: 20; 22; 24."""
    table = store.table(it.table)
    table.require(names_of(it.where))
    refuse_if(longest_list(it.where) > LONGEST_LIST, 24)
    slots = found(table, it.where)
    for slot in slots:
        slot.is_live = False
    return replies.counted(len(slots))


def select(store: Store, it: tree.Select) -> bytes:
    """SELECT, also behind STATS: 20; 22; 24; 27."""
    table = store.table(it.table)
    items = [tree.Item(name) for name in table.names] if it.items is None else it.items
    table.require(item.column for item in items if item.column is not None)
    table.require(names_of(it.where))
    table.require([] if it.group_by is None else [it.group_by])
    refuse_if(longest_list(it.where) > LONGEST_LIST, 24)
    plain = [item for item in items if item.function is None]
    if it.group_by is None:
        refuse_if(0 < len(plain) < len(items), 27)
    else:
        refuse_if(it.items is None or any(item.column != it.group_by for item in plain), 27)
    if it.counts:
        return replies.units(units_of(table, it.where))
    rows = [slot.cells for slot in found(table, it.where)]
    return replies.listed([replies.heading(item) for item in items], lines_of(items, rows, it.group_by))


def lines_of(items: Iterable[tree.Item], rows: list[Cells], group_by: str | None) -> list[list[tree.Value]]:
    """The lines that a SELECT shows of the found rows."""
    if group_by is not None:
        return [[told(item, group) for item in items] for group in groups_of(rows, group_by)]
    if any(item.function for item in items):
        return [[told(item, rows) for item in items]]
    return [[row[item.column] for item in items] for row in rows]


def groups_of(rows: list[Cells], name: str) -> list[list[Cells]]:
    """The rows by their values of a column, in ascending order of these, NULL last."""
    groups: dict[tree.Value, list[Cells]] = {}
    for row in rows:
        groups.setdefault(row[name], []).append(row)
    return [groups[value] for value in sorted(groups, key=lambda value: (value is None, value or 0))]


def told(item: tree.Item, rows: list[Cells]) -> tree.Value:
    """A set function of these rows, or their one value of the grouping column."""
    if item.function is None:
        return rows[0][item.column]
    if item.column is None:
        return len(rows)
    return folded(item.function, sorted(row[item.column] for row in rows if row[item.column] is not None))


def folded(function: tree.Function, values: list[int]) -> tree.Value:
    """A set function of values in ascending order."""
    if function is tree.Function.COUNT:
        return len(values)
    if not values:
        return None
    match function:
        case tree.Function.SUM:
            return sum(values)
        case tree.Function.MIN:
            return values[0]
        case tree.Function.MAX:
            return values[-1]
        case _:
            return values[(len(values) + 1) // 2 - 1]


def rebuild(store: Store, it: tree.Rebuild) -> bytes:
    """REBUILD: 20; 22; 23; 60."""
    table = store.table(it.table)
    table.require(choice.name for choice in it.choices)
    require_once(choice.name for choice in it.choices)
    refuse_if(not all(choice.layout.holds(table.column(choice.name).type) for choice in it.choices), 60)
    for choice in it.choices:
        column = table.column(choice.name)
        column.layout, column.coding = choice.layout, choice.coding or column.coding
    table.rebuild()
    return replies.OK


def load(store: Store, it: tree.Load) -> bytes:
    """LOAD: 20; 40; 46; the first of 42, 43 and 26 by record and field; 28."""
    table = store.table(it.table)
    data = store.folder.read(it.file)
    rows = rows_of_file(data, [column.type for column in table.columns], it.has_header)
    refuse_if(len(table.rows()) + len(rows) > MOST_ROWS, 28)
    table.append([dict(zip(table.names, row, strict=True)) for row in rows])
    return replies.counted(len(rows))


def save(store: Store, it: tree.Save) -> bytes:
    """SAVE: 20; 46; 41."""
    table = store.table(it.table)
    definitions = [tree.ColumnDef(it.name, it.type, it.layout, it.coding) for it in table.columns]
    columns = [[row[name] for row in table.rows()] for name in table.names]
    refuse_if(file_length(definitions, columns) > MOST_FILE_BYTES, 46)
    store.folder.write(it.file, write_table(definitions, columns))
    return replies.counted(len(table.rows()))


def open_table(store: Store, it: tree.Open) -> bytes:
    """OPEN: 21; 24; 40; 46; 44."""
    refuse_if(it.table in store.tables, 21)
    refuse_if(len(store.tables) >= MOST_TABLES, 24)
    definitions, columns = read_table(store.folder.read(it.file))
    made = [Column.of(definition, cells) for definition, cells in zip(definitions, columns, strict=True)]
    names = [definition.name for definition in definitions]
    slots = [Slot(dict(zip(names, row, strict=True))) for row in zip(*columns, strict=True)]
    store.tables[it.table] = Table(made, slots)
    return replies.counted(len(slots))


EXECUTORS: dict[type, Callable[[Store, tree.Statement], bytes]] = {
    tree.CreateTable: create_table,
    tree.DropTable: drop_table,
    tree.Tables: tables,
    tree.Insert: insert,
    tree.Update: update,
    tree.Delete: delete,
    tree.Select: select,
    tree.Rebuild: rebuild,
    tree.Load: load,
    tree.Save: save,
    tree.Open: open_table,
}
