"""The tables of docs/PERFORMANCE.md, made of the table of the bench: tools/pages writes them.

The page shows the rows that decide which type to take; tools/bench/table.md has all.
"""

FRESH = ["union", "intersection", "difference", "symmetric difference"]
SIZED = ["data", "sizes"]
# Fresh sets are shown on these data, and all other rows of sets and maps at these sizes of random data.
CASES = [
    ("random", "8, 8"),
    ("random", "64, 64"),
    ("random", "1000, 1000"),
    ("random", "100000, 100000"),
    ("random", "1000, 100"),
    ("random", "10, 100000"),
    ("regular", "1000, 1000"),
    ("runs of 64", "1000, 1000"),
    ("disjoint", "1000, 1000"),
    ("clustered", "1000, 100"),
]
SIZES = ["8, 8", "1000, 1000"]
KEYS = "10000"


def is_shown(row):
    """Whether the page shows a row of sets or maps."""
    if row["row"] in FRESH:
        return (row["data"], row["sizes"]) in CASES
    return row["data"] == "random" and row["sizes"] in SIZES


def tables_of(path):
    """The tables, each as a list of rows, which are dictionaries from the words of its header."""
    tables, header = [], None
    with open(path, encoding="utf-8") as file:
        for line in file:
            if not line.startswith("|"):
                header = None
                continue
            cells = [it.strip() for it in line.strip().strip("|").split("|")]
            if header is None:
                header = cells
                tables.append([])
            elif not cells[0].startswith("---"):
                tables[-1].append(dict(zip(header, cells)))
    return tables


def shown(header, rows):
    """The lines of a table."""
    yield f"| {' | '.join(header)} |"
    yield "|---" * len(header) + "|"
    for row in rows:
        yield f"| {' | '.join(row)} |"


def union_of_numbers(sets):
    """The rows of the union of numbers, with all sides."""
    rows = [row for row in sets if row["row"] == "union" and row["elements"] == "u64"]
    header = [column for column in rows[0] if column not in ("row", "elements")]
    return shown(header, ([row[column] for column in header] for row in sorted(rows, key=by_data)))


def by_data(row):
    """Rows in the order of their data, and else as they are."""
    return ["random", "regular", "runs of 64", "disjoint", "clustered"].index(row["data"])


def fresh_ratios(sets):
    """The ratios to the plain loop of the four operations that make a fresh set."""
    ratios = {}
    for row in sorted(sets, key=by_data):
        if row["row"] in FRESH:
            case = ratios.setdefault((row["data"], row["sizes"]), {})
            case[row["elements"], row["row"]] = row["to the plain loop"]
    columns = [(elements, name) for elements in ("u64", "String") for name in FRESH]
    heads = [f"`{elements}`: {name}" if name == FRESH[0] else name for elements, name in columns]
    lines = ([*case, *(its.get(column, "-") for column in columns)] for case, its in ratios.items())
    return shown([*SIZED, *heads], lines)


def other_rows_of_sets(sets):
    """All other rows of sets: numbers and strings beside each other."""
    columns = ["this library", "to the plain loop", "plain loop", "BTreeSet"]
    cases, order = {}, []
    for row in sets:
        if row["row"] in FRESH:
            continue
        if row["row"] not in order:
            order.append(row["row"])
        case = cases.setdefault((row["row"], row["data"], row["sizes"]), {})
        case[row["elements"]] = [row[column] for column in columns]
    heads = ["to by hand", "by hand", "BTreeSet"]
    lines = [
        [*case, *its.get("u64", ["-"] * 4), *its.get("String", ["-"] * 4)]
        for case, its in sorted(cases.items(), key=lambda it: order.index(it[0][0]))
    ]
    return shown(["row", *SIZED, "`u64`", *heads, "`String`", *heads], lines)


def rows_in_order(rows):
    """A whole table, the rows of one name together."""
    order = list(dict.fromkeys(row["row"] for row in rows))
    together = sorted(rows, key=lambda row: order.index(row["row"]))
    return shown(list(rows[0]), (row.values() for row in together))


def beside_rust(lines):
    """The lines of a table beside the Rust crate: where its rows have cases, those of two sizes."""
    if lines[0].split(" | ")[1] != "case":
        return lines
    return lines[:2] + [line for line in lines[2:] if line.split(" | ")[1] in SIZES]


def tables(path):
    """The lines of each table of the page by its name, out of the tables of the bench."""
    sets, maps, trees, intervals, routes, memory = tables_of(path)
    sets, maps = ([row for row in rows if is_shown(row)] for rows in (sets, maps))
    trees, memory = ([row for row in rows if row["keys"] == KEYS] for rows in (trees, memory))
    return {
        "union of numbers": list(union_of_numbers(sets)),
        "fresh operations": list(fresh_ratios(sets)),
        "other rows of sets": list(other_rows_of_sets(sets)),
        "maps": list(rows_in_order(maps)),
        "trees": list(rows_in_order(trees)),
        "intervals": list(rows_in_order(intervals)),
        "routes": list(rows_in_order(routes)),
        "memory of trees": list(rows_in_order(memory)),
    }
