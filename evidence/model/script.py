"""A run of the program over a script: what it writes, and its status."""

from dataclasses import dataclass

from model import replies
from model.grammar import statement_of
from model.parts import Part, parts_of
from model.refusals import Refusal, refuse_if
from model.statements import execute
from model.store import Folder, Store
from model.tokens import tokens_of

LONGEST_PART = 65_536


@dataclass(frozen=True)
class Ended:
    """How a run ended: its output, its status, and the files that are then there."""

    output: bytes
    status: int
    files: dict[str, bytes]


def run_script(script: bytes, folder: Folder, stops: bool = False) -> Ended:
    """Runs a script over the files of a folder, which it may change."""
    output, status = answer(Store(folder), script, stops)
    return Ended(output, status, folder.files)


def answer(store: Store, script: bytes, stops: bool = False) -> tuple[bytes, int]:
    """The replies to a script over the tables of a store, and the status."""
    answers = []
    for part in parts_of(script):
        try:
            answers.append(reply(store, part))
        except Refusal as refusal:
            answers.append(replies.refused(refusal))
            if stops:
                return b"".join(answers), 1
    return b"".join(answers), 0


def reply(store: Store, part: Part) -> bytes:
    """The reply to a part; raises what it is refused by."""
    refuse_if(len(part.text) > LONGEST_PART, 11)
    refuse_if(not part.is_closed, 10)
    return execute(store, statement_of(tokens_of(part.text)))
