"""Large tables through the program and the model: what STATS counts, and the rows, at the boundaries of segments."""

from random import Random

from common import Progress, Told
from program import Program
from relations import LARGE, Shape, filled, shapes
from scripts import by_model, by_program, difference
from writer import Script


def script_over(shape: Shape, seed: int, number: int) -> Script:
    """A script that queries a table of this shape, changes it, and queries it again."""
    generator = Random(f"counts {seed}:{number}")
    table = filled(shape, generator)
    pairs = [f"a {generator.choice(['<', '=', '>='])} b", "b = b AND NOT a > b"]
    asked = [f"STATS SELECT * FROM t WHERE {condition}" for condition in [*table.conditions, *pairs]]
    asked += [f"SELECT COUNT(*), SUM(a), MEDIAN(b), SUM(c) FROM t WHERE {it}" for it in table.conditions]
    changes = [
        f"UPDATE t SET a = {generator.choice([0, 7, 2**31 - 1])} WHERE {table.conditions[0]}",
        f"DELETE FROM t WHERE {table.conditions[1]}",
        f"INSERT INTO t VALUES (1, {generator.choice([5, 70_000])}, {shape.rows})",
        "UPDATE t SET b = a WHERE c > 100",
        "REBUILD t",
    ]
    statements = [*table.statements, *asked]
    for change in changes:
        statements += [change, *asked]
    return Script([f"{statement};\n".encode() for statement in statements], table.files)


def run(path: str, seed: int) -> Told:
    """A script over a table of each shape except the largest."""
    every = [shape for shape in shapes() if shape.rows < LARGE]
    told, program, progress = Told(len(every)), Program.at(path), Progress("counts", len(every))
    for number, shape in enumerate(every):
        script = script_over(shape, seed, number)
        if by_program(program, script) != by_model(script):
            progress.clear()
            told.differences.append(difference(program, script, f"seed {seed}, table {number} ({shape})"))
            print(told.differences[-1], flush=True)
        progress.step(str(shape))
    progress.clear()
    program.close()
    return told
