#!/usr/bin/env python3
"""Strikes clauses, one at a time, and shows that the call above needs them.

A clause of a lower call is changed to say nothing (`THING ≡ THING`), in a copy, and what proved it is removed. Then the
call above must no longer be proved: so it computes its result through the lower call, and not past it. All that the
call above calls, at any depth, must still be proved, and without the strike the call above itself, too. Only these
functions are checked, over the sources of all crates, so no crate needs to be proved before.

    python3 evidence/strikes.py [WORD ..]      only the strikes whose upper call has one of the words in its name
    python3 evidence/strikes.py --names        proves nothing: whether each clause and each upper call still exists
"""

import os
import re
import shutil
import subprocess
import sys
import tempfile
from dataclasses import dataclass
from pathlib import Path

from common import TOP, Progress

LAYOUTS = ("bw_vertical", "bw_horizontal", "bw_byteslice")


@dataclass
class Clause:
    """A clause of a function's contract, the thing that it equates with itself when struck, and the crates whose
    proofs answer it."""

    file: str
    function: str
    name: str
    thing: str
    answered_in: tuple = ()
    # The folder of its answers, where other functions have its name.
    answers: str = ""

    def crates(self):
        return self.answered_in or (self.file.split("/")[0],)

    def struck(self, text):
        """The file's text with the clause saying nothing."""
        at = re.search(rf"\bfn {self.function}\b", text).start()
        start = text.index(f"ensures {self.name} {{" if self.name else "ensures {", at)
        end = re.compile(r" \};?\n").search(text, start).end()
        closing = text[start:end].rstrip("\n").endswith(";")
        name = f"{self.name} " if self.name else ""
        words = f"ensures {name}{{ {self.thing} ≡ {self.thing} }}{';' * closing}\n"
        return text[:start] + words + text[end:]


@dataclass
class Strike:
    """Clauses that are struck together, and the call that must then not be proved."""

    upper: str
    clauses: tuple

    def crate(self):
        return self.upper.split("::", maxsplit=1)[0]


def scans(crate, column):
    """The result and the reads of a layout's `scan_from`, for the column's `scan`."""
    upper = f"{crate}::column::{column}CodeColumn::scan"
    for name, thing in (("rows", "out.new"), ("reads", "S.reads source.new")):
        yield Strike(upper, (Clause(f"{crate}/src/scan.rt", "scan_from", name, thing),))


def pairs(crate, column):
    """The result and the reads of both sources of a layout's `pair_from`, for the column's `scan_pair`."""
    upper = f"{crate}::column::{column}CodeColumn::scan_pair"
    for name, thing in (("rows", "out.new"), ("reads", "A.reads a.new"), ("other_reads", "B.reads b.new")):
        yield Strike(upper, (Clause(f"{crate}/src/pair.rt", "pair_from", name, thing),))


def of_addition(name, thing):
    """A clause of the comparison of sums over planes."""
    return Clause("bw_vertical/src/addition.rt", "add_from", name, thing)


def of_planes():
    """What the planes of a column in V hold."""
    return Clause("bw_vertical/src/column.rt", "group", "rows", "result")


def of_block(file):
    """What a block of the planes of a column holds."""
    return Clause(file, "read_block", "", "block.new")


def of_codes_block(size):
    """What a block made of codes in memory holds."""
    return Clause("bw_vertical/src/code_blocks.rt", f"put_block_of_{size}", "", "block.new")


def of_ends():
    """The least and the greatest code of some rows of a column in V."""
    return Clause("bw_vertical/src/column.rt", "ends", "", "result")


def of_rows_copied(crate):
    """The codes of a column in V or S after those of another column were copied to some rows."""
    return Clause(f"{crate}/src/column.rt", "copy_rows", "codes", "self.new")


def of_group_plane():
    """Which plane of a group is lent, of a column in V."""
    return Clause("bw_aggregate/src/plane.rt", "of", "", "result", answers="GroupPlane/of")


def of_segments():
    """What a plane of a segment holds, for sums and ends."""
    return Clause("bw_aggregate/src/plane.rt", "plane_at", "", "result")


def of_column(function, file="compare.rt", name="truth", thing="truth.new"):
    return Clause(f"bw_column/src/{file}", function, name, thing)


def rows_of(function, file):
    """The rows that a call on columns returns."""
    return of_column(function, file, "rows", "out.new")


def with_its_own(function):
    """A comparison into an existing truth, and the same into a truth of its own, which is proved by the former."""
    return of_column(f"{function}_in"), of_column(function, "compare_anew.rt", thing="result")


def of_every_column(function, name, thing):
    """A clause of the trait of columns of codes."""
    return Clause("bw_code/src/column.rt", function, name, thing, ("bw_code", *LAYOUTS))


STRIKES = [
    *scans("bw_vertical", "VerticalColumn"),
    *scans("bw_horizontal", "HorizontalColumn"),
    *scans("bw_byteslice", "SliceColumn"),
    Strike("bw_column::storage::Codes::scan", (of_every_column("scan", "rows", "out.new"),)),
    Strike("bw_column::column::Column::split", (of_column("scan", "storage.rt", "rows", "out.new"),)),
    Strike("bw_column::column::Column::take_out", (of_column("scan", "storage.rt", "rows", "out.new"),)),
    Strike("bw_column::column::Column::test_in", (of_column("split", "split.rt", "trues", "trues.new"),)),
    Strike("bw_column::column::Column::split_by_list", (of_column("take_out", "split.rt", "rows", "rest.new"),)),
    Strike("bw_column::column::Column::compare_in", (of_column("test_in"),)),
    Strike("bw_column::column::Column::range_in", (of_column("test_in"),)),
    Strike("bw_column::column::Column::in_list_in", (of_column("split_by_list", "split.rt", "trues", "trues.new"),)),
    Strike("bw_plan::comparison_truth::set_compared_with", with_its_own("compare")),
    Strike("bw_plan::comparison_truth::set_column_compared", with_its_own("compare_column")),
    Strike("bw_plan::range_truth::set_between", with_its_own("range")),
    Strike("bw_plan::list_truth::set_column_listed", with_its_own("in_list")),
    Strike("bw_engine::found::true_slots", (Clause("bw_plan/src/evaluation.rt", "evaluate", "truths", "result"),)),
    *pairs("bw_vertical", "VerticalColumn"),
    *pairs("bw_horizontal", "HorizontalColumn"),
    *pairs("bw_byteslice", "SliceColumn"),
    Strike("bw_column::storage::Codes::scan_pair", (of_every_column("scan_pair", "rows", "out.new"),)),
    Strike("bw_column::column::Column::compare_codes", (of_column("scan_pair", "storage.rt", "rows", "out.new"),)),
    Strike("bw_column::column_planes::add_beside", (of_addition("rows", "out.new"),)),
    Strike("bw_column::column_planes::add_beside", (of_addition("reads", "A.reads a.new"),)),
    Strike("bw_column::column_planes::add_beside", (of_addition("other_reads", "B.reads b.new"),)),
    Strike("bw_column::column_planes::add_planes", (of_column("add_beside", "column_planes.rt", "rows", "out.new"),)),
    Strike("bw_column::column::Column::compare_sums", (rows_of("add_planes", "column_planes.rt"),)),
    Strike("bw_column::column::Column::compare_known", (rows_of("compare_codes", "pair_codes.rt"),)),
    Strike("bw_column::column::Column::compare_known", (rows_of("compare_sums", "pair_codes.rt"),)),
    Strike("bw_column::column::Column::split_by_column", (of_column("compare_known", "pairs.rt", "rows", "out.new"),)),
    Strike(
        "bw_column::column::Column::compare_column_in",
        (of_column("split_by_column", "pairs.rt", "trues", "trues.new"),),
    ),
    Strike("bw_column::storage::Codes::get", (of_every_column("get", "code", "result"),)),
    Strike("bw_column::column::Column::get", (of_column("get", "storage.rt", "code", "result"),)),
    Strike("bw_column::storage::Codes::plane", (of_every_column("plane", "rows", "out.new"),)),
    Strike("bw_column::column::Column::plane", (of_column("plane", "storage.rt", "rows", "out.new"),)),
    Strike("bw_aggregate::middle::descend_in_copies", (of_column("plane", "column.rt", "rows", "out.new"),)),
    Strike("bw_aggregate::plane::GroupPlane::of", (of_planes(),)),
    Strike("bw_aggregate::middle::descend_in_place", (of_group_plane(),)),
    Strike("bw_aggregate::plane::plane_at", (of_group_plane(),)),
    Strike("bw_aggregate::plane_sums::planes_sum", (of_segments(),)),
    Strike("bw_aggregate::nearest_planes::nearest_of", (of_segments(),)),
    Strike("bw_table::table::Table::fetch", (of_column("get", "column.rt", "is", "result"),)),
    Strike("bw_engine::shown::fetch_row", (Clause("bw_table/src/table.rt", "fetch", "", "result"),)),
    Strike("bw_column::storage::Codes::read", (of_every_column("read", "codes", "out.new"),)),
    Strike("bw_column::reading::read_block", (of_column("read", "storage.rt", "codes", "out.new"),)),
    Strike("bw_column::distances::distances_by_offset", (of_column("read", "storage.rt", "codes", "out.new"),)),
    Strike("bw_column::column::Column::read", (of_column("read_block", "reading.rt", "", "out.new"),)),
    Strike("bw_column::column::Column::compared_block", (of_column("rise_of_block", "pairs.rt", "rises", "out.new"),)),
    Strike("bw_column::storage::Codes::read_block", (of_block("bw_vertical/src/column.rt"),)),
    Strike("bw_column::storage::Codes::read_block", (of_block("bw_byteslice/src/column.rt"),)),
    Strike("bw_column::storage::Codes::read_block", (of_column("put_lent_block", "in_memory.rt", "", "block.new"),)),
    Strike("bw_column::in_memory::put_lent_block", (of_codes_block("narrow"),)),
    Strike("bw_column::in_memory::put_lent_block", (of_codes_block("wide"),)),
    Strike("bw_column::storage::Codes::in_memory", (Clause("bw_code/src/plain.rt", "lent", "codes", "result"),)),
    Strike("bw_column::lent_planes::lent_planes", (of_block("bw_column/src/storage.rt"),)),
    Strike("bw_column::ends::code_ends", (of_ends(),)),
    Strike("bw_column::ends::code_ends", (of_column("lent_ends", "lent_ends.rt", "least", "result.0"),)),
    Strike("bw_column::storage::Codes::copy_rows", (of_rows_copied("bw_vertical"),)),
    Strike("bw_column::storage::Codes::copy_rows", (of_rows_copied("bw_byteslice"),)),
    Strike("bw_column::column::Column::copy_stored", (of_column("copy_rows", "storage.rt", "codes", "self.new"),)),
    Strike("bw_column::storage::Codes::fill_rows", (of_every_column("fill_rows", "codes", "self.new"),)),
    Strike("bw_column::column::Column::fill_places", (of_column("fill_rows", "storage.rt", "codes", "self.new"),)),
    Strike("bw_column::storage::Codes::exchange_rows", (of_every_column("exchange_rows", "codes", "self.new"),)),
    Strike("bw_column::column::Column::exchange_values", (of_column("exchange_rows", "storage.rt", "codes", "self.new"),)),
    Strike("bw_file::planes::take_block", (Clause("bw_file/src/planes.rt", "planes_at", "planes", "block.new"),)),
]


def without_answers(text, name):
    """A file of proof answers without those to the clause of this name; None if no answer is left."""
    goal = rf"returns\S*-clause-{name}" if name else r"returns\S*"
    rest = re.sub(rf"(?ms)^pub {goal} :.*?(?=^pub |\Z)", "", text)
    return rest if re.search(r"(?m)^pub ", rest) else None


def strike(crates, clause, kept):
    """Strikes the clause in the crates' copy, and keeps what each file said before."""
    source = crates / clause.file
    kept.setdefault(source, source.read_text(encoding="utf-8"))
    source.write_text(clause.struck(source.read_text(encoding="utf-8")), encoding="utf-8")
    # Of a trait's method only the implementations answer it, and no other function of its name.
    place = f"*CodeColumn/{clause.function}" if clause.answered_in else clause.answers or clause.function
    for crate in clause.crates():
        for answers in (crates / crate / "proofs").rglob(f"{place}/Answers.antt"):
            text = answers.read_text(encoding="utf-8")
            rest = without_answers(text, clause.name)
            if rest == text:
                continue
            kept.setdefault(answers, text)
            if rest is None:
                answers.unlink()
            else:
                answers.write_text(rest, encoding="utf-8")


def used_by_crates():
    """What each crate of the tree uses, by `crates.txt`."""
    lines = (TOP / "crates.txt").read_text(encoding="utf-8").splitlines()
    parts = (line.partition(":") for line in lines if line.strip())
    return {said.split()[0]: used.split() for said, _, used in parts}


def libraries_below(crate, uses):
    """The libraries of the tree that a crate stands on, each after those that it uses itself."""
    found = {}
    for library in uses[crate]:
        if library in uses:
            found.update(libraries_below(library, uses))
            found[library] = None
    return found


def words_of_check(crates, crate):
    """The command that checks functions of a crate over the sources of the libraries below, but for the functions'
    names."""
    kit = Path(shutil.which("rt")).resolve().parent.parent
    uses = used_by_crates()
    below = libraries_below(crate, uses)
    of_kit = {"core", "std", *(it for name in (*below, crate) for it in uses[name] if it not in uses)}
    words = [f"{kit}/bin/rattle", "check", "--crate-name", crate, "src/lib.rt", "--jobs", "2"]
    words += ["--antt-project", f"{kit}/rattle/logic/antt-project.json", "--logic-built", f"{kit}/logic_built"]
    words += ["-L", f"dependency={kit}/rlibs"]
    for name in sorted(of_kit):
        words += ["--extern", f"{name}={kit}/rlibs/{name}.rlib"]
    for name in below:
        words += ["--lib", f"{name}:{','.join(['core', 'std', *uses[name]])}={crates}/{name}/src/lib.rt"]
    return words


def linked(folder, to):
    """Copies what checks kept. A check replaces a checked module's file and writes to none, so a link will do."""

    def copy(one, other):
        return os.link(one, other) if one.endswith(".oantt") else shutil.copy2(one, other)

    shutil.copytree(folder, to, copy_function=copy)


def check(crates, tried, kept):
    """Checks the upper call and all that it calls, begun with what other checks kept. Gives which functions are not
    proved, or None if the check did not come to its end, and what it said."""
    words = [*words_of_check(crates, tried.crate()), "--only", tried.upper, "--incremental", str(kept)]
    done = subprocess.run(words, cwd=crates / tried.crate(), capture_output=True, text=True, check=False)
    said = done.stdout + done.stderr
    ended = re.search(r"(?m)^only=\d+ proved=\d+$", said)
    return set(re.findall(r"(?m)^fn (\S+): (?!proved)", said)) if ended else None, said


def outcome(tried, unproved, said):
    """Whether the upper call alone was not proved, and the places and goals that the check names."""
    if unproved is None or f"fn {tried.upper}: could not tell" in said:
        return False, said[-400:]
    if unproved != {tried.upper}:
        return False, f"not proved: {', '.join(sorted(unproved)) or 'none'}"
    told = re.findall(r"(?m)^(?:note: )?\S+:\d+:\d+: .*(?:error|not proved).*$", said)
    return True, "; ".join(line[:160] for line in told[:2])


def try_strike(crates, tried, kept):
    """Checks the upper call as it is, then without the clauses. Gives whether that was refused, and what was said."""
    unproved, said = check(crates, tried, kept)
    if unproved != set():
        return False, f"without a strike: {outcome(tried, unproved, said)[1]}"
    texts, room = {}, kept.with_name("struck")
    for clause in tried.clauses:
        strike(crates, clause, texts)
    linked(kept, room)
    refused, told = outcome(tried, *check(crates, tried, room))
    shutil.rmtree(room)
    for file, text in texts.items():
        file.write_text(text, encoding="utf-8")
    return refused, told


def what_is_gone():
    """What the strikes name that no longer exists: clauses, and upper calls in the file of their module. The prover names
    a method by its type's module, and its file may be another."""
    for tried in STRIKES:
        for clause in tried.clauses:
            try:
                clause.struck((TOP / "crates" / clause.file).read_text(encoding="utf-8"))
            except (AttributeError, OSError, ValueError):
                yield f"{clause.file}: {clause.function} {clause.name}".rstrip()
        crate, module, *of_type, call = tried.upper.split("::")
        source = TOP / "crates" / crate / "src"
        files = source.rglob("*.rt" if of_type else f"{module}.rt")
        texts = [file.read_text(encoding="utf-8") for file in files]
        if not any(re.search(rf"\bfn {call}\b", text) for text in texts):
            yield tried.upper


def main():
    words = sys.argv[1:]
    if words == ["--names"]:
        gone = list(what_is_gone())
        print("\n".join([*gone, f"{len(STRIKES)} strikes, {len(gone)} names gone"]))
        sys.exit(bool(gone))
    chosen = [it for it in STRIKES if not words or any(word in it.upper for word in words)]
    failed = 0
    with tempfile.TemporaryDirectory(prefix="bitcol-strikes-") as room:
        crates, kept = Path(room) / "crates", Path(room) / "kept"
        shutil.copytree(TOP / "crates", crates, ignore=shutil.ignore_patterns("out", "must-fail"))
        progress = Progress("strikes", len(chosen))
        for tried in chosen:
            refused, said = try_strike(crates, tried, kept)
            clauses = ", ".join(f"{it.function} {it.name}".strip() for it in tried.clauses)
            progress.clear()
            print(f"{tried.upper} without {clauses}: {'refused' if refused else 'NOT SHOWN'}: {said}", flush=True)
            progress.step()
            failed += not refused
        progress.clear()
    sys.exit(f"{failed} not shown" if failed else 0)


if __name__ == "__main__":
    main()
