"""obs in Python: topological observability of power networks, through the library libobs.so.

    import obs

    case = obs.tables("nodes.csv", "switches.csv", "branches.csv", "meters.csv")
    answer = obs.report(case)
    print(answer.counts.rank, "of", answer.counts.needed)
    for first, buses in answer.islands.items():
        print(first, buses)

A case is made by `tables`, `cdf` or `matpower`. `report`, `place`, `session`, `verify`, `outages`, `pairs`, `stations` and `topology`
answer as the commands of these names, and `run` takes the words of any command. An answer is a small value, and `str` of it is the text
that the command prints. What is no answer is an exception: a `Fault` of a file has its part, row, code and name.

A table is a path, or the bytes of a file, or its rows: tuples in the order of the columns (`COLUMNS`), dictionaries by the names of the
columns, or a frame of pandas. Names are bytes in obs. Text is encoded in UTF-8 and decoded from it with the handler `surrogateescape`, so
any bytes go through and come back: `name.encode("utf-8", "surrogateescape")` gives them.

`frame` makes a frame of pandas of an answer, where pandas is there. `python -m obs WORDS` answers as the program does, by the same bytes
and the same status, and says nothing beside a whole answer; `python -m obs --large WORDS` does so within the largest limits.

The library is the file that the variable OBS_LIBRARY names; else libobs.so beside this package, in the folder that holds `python`, or
where a checkout builds it. It is read at the first call. `version` is its version, and `__version__` that of this package. Any number
of threads may call at once, and other threads of Python go on meanwhile. A process that was forked off one with threads mustn't call: of
multiprocessing take the method "spawn".

`LiveSession` is a session that stays open between calls: the case is read once, and each line is answered as it comes.

What is proved is said of the library's calls by crates/obs_c/README.md. This package is not proved: it hands blocks of bytes to these
calls, and reads what is printed.
"""
from .answers import Bound, Counts, Flaw, Item, Layer, Loss, Ok, Outage, Outages, Pair, Pairs, Plan, Refused, Report, Session, Shortfall
from .answers import Stations, Step, Topology, Tree, Valid
from .calls import outages, pairs, place, report, run, session, stations, topology, verify
from .cases import COLUMNS, Case, cdf, matpower, tables
from .faults import Ended, Error, Fault, LibraryMissing, Malformed, NoMemory, NotUnderstood, SessionTooLong
from .frames import frame
from .stays import LiveSession
from .versions import VERSION as __version__, version

__all__ = [
    "Bound", "COLUMNS", "Case", "Counts", "Ended", "Error", "Fault", "Flaw", "Item", "Layer", "LibraryMissing", "LiveSession", "Loss",
    "Malformed", "NoMemory", "NotUnderstood", "Ok", "Outage", "Outages", "Pair", "Pairs", "Plan", "Refused", "Report", "Session",
    "SessionTooLong", "Shortfall", "Stations", "Step", "Topology", "Tree", "Valid", "__version__", "cdf", "frame", "matpower", "outages",
    "pairs", "place", "report", "run", "session", "stations", "tables", "topology", "verify", "version",
]
