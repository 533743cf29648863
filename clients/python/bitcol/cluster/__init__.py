"""Tables that outgrow a core, a store or a machine: parts on shared storage, queried through dask.distributed.

    from dask.distributed import Client
    from bitcol import cluster

    client = Client("scheduler:8786")      # or Client(): all cores of this machine
    visits = cluster.create(client, "/shared/visits", "visits", "day INT, seconds INTEGER USING H DICTIONARY")
    visits.load(["/shared/monday.csv", "/shared/tuesday.csv"], header=True)     # all of them, or none
    visits.sql("SELECT COUNT(*), SUM(seconds), MEDIAN(seconds) FROM visits WHERE day < ?", [3]).rows()
    visits.sql("DELETE FROM visits WHERE seconds IS NULL")          # the table goes to a new version, or stays
    for day, seconds in visits.rows("SELECT day, seconds FROM visits"): ...     # part after part, a few at a time
    frame = visits.to_dask_dataframe("SELECT * FROM visits WHERE day < 3")

    visits = cluster.open(client, "/shared/visits")                 # later, or by somebody else

A table is a folder that the client and all workers reach by the same name. It holds table files, which are named by the
SHA-256 of their bytes and never changed, and for each version a manifest, which lists its parts in order. A table
answers exactly, byte by byte, what one store with the rows of all parts, in this order, would reply. docs/CLUSTER.md
says what that costs, and when it pays off. Workers need this package and the program.
"""

from .manifest import Column, Ends, Manifest, Part
from .table import Table, create
from .table import open_table as open

__all__ = ["Column", "Ends", "Manifest", "Part", "Table", "create", "open"]
