"""A model of the language: tables are lists of rows, and everything is done row by row.

It is written from docs/LANGUAGE.md and docs/TABLE_FILE.md, and where STATS counts, from docs/STATS.md and
docs/LAYOUTS.md. Nothing of it comes from the program. It is made to be read beside the documents, and not to be quick:

    parts      where a script is cut                     tree, grammar   what a statement is
    tokens     the tokens of a part                      conditions      truth in three values
    refusals   the errors and their texts                store           tables, columns, rows, files
    csvfile    the rows of a CSV file                    statements      what each statement does and refuses
    tablefile  table files of both versions              replies         the bytes of the replies
    encodings  codes of values                           units           what a condition reads
"""

from model.script import Ended, answer, run_script
from model.store import Folder, Store

__all__ = ["Ended", "Folder", "Store", "answer", "run_script"]
