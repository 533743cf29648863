"""Random scripts, through the program and the model: both have to reply the same and leave the same files."""

import signal
from collections.abc import Iterable, Iterator
from concurrent.futures import ProcessPoolExecutor, as_completed
from dataclasses import replace
from random import Random

from common import Progress, Told
from model import Ended, Folder, Store, answer, run_script
from program import Program
from writer import Script, Writer

CHUNK = 100  # scripts that one run of the program goes through
SHOWN_BYTES = 2_000
FOLDERS = {"folder"}

# Ends what a script may have left open: a comment, a text and a part.
SEPARATOR = b"\n-- '\n;"


def script_of(seed: int, number: int) -> Script:
    """The script of this number."""
    return Writer(Random(f"{seed}:{number}"), number).script()


def by_model(script: Script) -> Ended:
    """What the model writes."""
    return run_script(script.text, Folder(dict(script.files), FOLDERS), script.stops)


def by_program(program: Program, script: Script) -> Ended:
    """What the program writes."""
    return program.run(script.text, script.files, FOLDERS, script.stops)


def differs(program: Program, script: Script) -> bool:
    """Whether the program and the model differ on the script."""
    return by_program(program, script) != by_model(script)


def joined(scripts: Iterable[Script]) -> tuple[Script, Ended]:
    """One script of all these, each of which begins with no tables, and what the model writes."""
    store, statements, output = Store(Folder({}, FOLDERS)), [], []
    files: dict[str, bytes] = {}
    for script in scripts:
        files |= script.files
        store.folder.files |= script.files
        output.append(answer(store, script.text + SEPARATOR)[0])
        drops = "".join(f"DROP TABLE {name};\n" for name in store.tables).encode()
        output.append(answer(store, drops)[0])
        statements.append(script.text + SEPARATOR + drops)
    return Script(statements, files), Ended(b"".join(output), 0, store.folder.files)


def shrunk(program: Program, script: Script) -> Script:
    """The script with as few statements and files as still show a difference, each left out in turn."""
    place = len(script.statements)
    while place:
        place = min(place, len(script.statements)) - 1
        rest = script.statements[:place] + script.statements[place + 1 :]
        if differs(program, fewer := replace(script, statements=rest)):
            script = fewer
    for name in list(script.files):
        fewer = replace(script, files={file: data for file, data in script.files.items() if file != name})
        script = fewer if differs(program, fewer) else script
    return script


def difference(program: Program, script: Script, place: str) -> str:
    """The text that is printed about a script on which the two differ."""
    script = shrunk(program, script)
    model, found = by_model(script), by_program(program, script)
    lines = [f"{place}{', with --stop' if script.stops else ''}:", script.text.decode(errors="backslashreplace")]
    lines += [f"file {name}: {data[:SHOWN_BYTES]!r}" for name, data in script.files.items()]
    for name, ended in (("model", model), ("program", found)):
        lines.append(f"{name}: status {ended.status}, {ended.output.decode(errors='backslashreplace')[-SHOWN_BYTES:]}")
    names = sorted(name for name in {*model.files, *found.files} if model.files.get(name) != found.files.get(name))
    lines += [f"file {name}: {model.files.get(name)!r} and {found.files.get(name)!r}" for name in names]
    return "\n".join(lines)


def differences(program: Program, seed: int, scripts: dict[int, Script], whole: Script) -> list[str]:
    """The scripts that differ on their own, or else all of them as one."""
    alone = {number: script for number, script in scripts.items() if differs(program, script)}
    if not alone:
        return [difference(program, whole, f"seed {seed}, scripts {min(scripts)} to {max(scripts)} in one")]
    return [difference(program, script, f"seed {seed}, script {number}") for number, script in alone.items()]


def run_chunk(path: str, seed: int, numbers: range) -> Told:
    """The result of the scripts with these numbers."""
    scripts = {number: script_of(seed, number) for number in numbers}
    together = {number: script for number, script in scripts.items() if not script.is_alone}
    told, program = Told(len(scripts)), Program.at(path)
    whole, model = joined(together.values())
    told.replies.update(kinds_of(model.output))
    if by_program(program, whole) != model:
        told.differences += differences(program, seed, together, whole)
    for number in scripts.keys() - together.keys():
        model = by_model(scripts[number])
        told.replies.update(kinds_of(model.output))
        if by_program(program, scripts[number]) != model:
            told.differences.append(difference(program, scripts[number], f"seed {seed}, script {number}"))
    program.close()
    return told


def kinds_of(output: bytes) -> Iterator[str]:
    """The kind of each reply: ok, rows, units, or an error with its number."""
    for line in output.decode().splitlines():
        word, _, rest = line.partition(" ")
        if word in ("ok", "rows", "units", "error"):
            yield f"error {rest[:2]}" if word == "error" else word


def run_scripts(path: str, seed: int, count: int, jobs: int) -> Told:
    """Runs this number of scripts, by this number of workers. After an interrupt it reports those that were run."""
    told, progress = Told(), Progress("scripts", -(-count // CHUNK))
    chunks = [range(at, min(at + CHUNK, count)) for at in range(0, count, CHUNK)]
    with ProcessPoolExecutor(jobs, initializer=signal.signal, initargs=(signal.SIGINT, signal.SIG_IGN)) as workers:
        waiting = [workers.submit(run_chunk, path, seed, numbers) for numbers in chunks]
        try:
            for done in as_completed(waiting):
                add_chunk(told, done.result(), progress)
        except KeyboardInterrupt:
            workers.shutdown(wait=False, cancel_futures=True)
            print("\nbroken off")
    progress.clear()
    return told


def add_chunk(told: Told, found: Told, progress: Progress) -> None:
    """Adds the result of some scripts, and prints their differences."""
    told.add(found)
    if found.differences:
        progress.clear()
        print("\n\n".join(found.differences), flush=True)
    progress.step(f"{len(told.differences)} differences")
