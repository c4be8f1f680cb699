"""A case written as tables."""
import os

from answer import Failure, table_of


def rows_of(case, branches=None):
    """The rows of the tables, by their parts, with these names of branches where they are given."""
    node = [row[0] for row in case.nodes]
    branches = branches or [row[0] for row in case.branches]
    at = lambda row: (branches if row[1] == "flow" else node)[row[2]]
    flag = lambda value: "1" if value else "0"
    is_marked = any(row[2] for row in case.nodes)
    return {
        "nodes": [[row[0], *map(flag, row[1 : 2 + is_marked])] for row in case.nodes],
        "switches": [[row[0], node[row[1]], node[row[2]], flag(row[3])] for row in case.switches],
        "branches": [[branches[e], node[row[1]], node[row[2]], flag(row[3])] for e, row in enumerate(case.branches)],
        "meters": [[row[0], row[1], at(row), flag(row[3])] for row in case.meters],
        "candidates": [[row[0], row[1], at(row), str(row[3])] for row in case.candidates],
    }


def contents_of(case):
    """The bytes of the four tables."""
    return {part: table_of(part, rows) for part, rows in rows_of(case).items() if part != "candidates"}


def write_tables(rows, folder):
    """Writes these tables into a folder, which is made where it is missing; nothing where one stands there already."""
    paths = {part: os.path.join(folder, f"{part}.csv") for part in rows}
    standing = [path for path in paths.values() if os.path.exists(path)]
    if standing:
        raise Failure(1, f"{standing[0]} stands already; nothing was written\n")
    os.makedirs(folder, exist_ok=True)
    for part, path in paths.items():
        with open(path, "wb") as file:
            file.write(table_of(part, rows[part]))
    return 0
