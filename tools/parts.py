"""The parts of pages that are made of the sources: tools/pages writes them, and tools/check-pages holds the pages to them.

A part stands on its page between a line '<!-- made by tools/pages: NAME -->' and a line '<!-- end -->'. All else on a page is written by hand.
"""
import importlib.machinery
import importlib.util
import re
from dataclasses import dataclass
from functools import cache, partial
from itertools import takewhile
from pathlib import Path

import edits
import shown

ROOT = Path(__file__).resolve().parent.parent
MARK, END = re.compile(r"<!-- made by tools/pages: (.*) -->"), "<!-- end -->"
SPAN = re.compile(r"`([^`]+)`")
FUNCTION = re.compile(r"^ *(?:(?:pub(?:\(crate\))?|final|unsafe|const) )*fn \w", re.MULTILINE)
# What a line of the tests says of calls that the block around it makes, and goes on with in lines that stand two further in.
LINE = re.compile(r"^( *)// (refused|quiet): (.*(?:\n\1//   .*)*)", re.MULTILINE)
# What a trait declares itself, and no module exports.
OF_A_TRAIT = dict.fromkeys(("counted", "is_sorted", "keeps"), "with the trait")
INDEX = "Index of words"


@cache
def source(file):
    """The text of a file of the repository."""
    return (ROOT / file).read_text()


def table(header, rows):
    """The lines of a table."""
    yield f"| {' | '.join(header)} |"
    yield "|---" * len(header) + "|"
    yield from (f"| {' | '.join(row)} |" for row in rows)


# ---- docs/WRONG_BODIES.md


def place_of(edit):
    """Where an edit stands among those of its crate: by the file that it changes first, the function there, and its name."""
    file, old, _ = edit.changes[0]
    end = source(file).find(old) + len(old)
    heads = [head.start() for head in FUNCTION.finditer(source(file), 0, end)]
    return Path(file).with_suffix("").parts, heads[-1] if heads else end, edit.name


def refused_by(edit, by):
    """What refuses an edit: the tests that it names, and what its line 'by:' says."""
    tests = []
    for crate, _, test in (name.partition("::") for name in sorted(edit.tests)):
        tests.append(f"group {test[1:]} of part `{test[0]}` of the sweep" if crate == "sweep" else f"the test `{test}` of `{crate}`")
    return ": ".join(it for it in (" and ".join(tests), by) if it)


@cache
def edits_to_read():
    """The place of each edit, the edit, and what it says to its reader, by their crates; and what is wrong with those that have no row, by their files."""
    found, wrong = {}, []
    for path in sorted(path for folder in edits.FOLDERS for path in ROOT.glob(f"crates/*/{folder}/*.edit")):
        told = edits.told(path)
        try:
            edit = edits.read(path)
            lacking = [word for word in ("of", "says") if not told[word]] or ["by"] * (not refused_by(edit, told["by"]))
            if lacking:
                raise edits.NotPlanted(f"no line '{lacking[0]}:' says what a reader wants to know")
            found.setdefault(edit.crate, []).append((place_of(edit), edit, told))
        except (OSError, edits.NotPlanted) as why:
            wrong.append((path.relative_to(ROOT).as_posix(), str(why)))
    return found, wrong


def wrong_bodies(crate):
    """The table of a crate's wrong bodies: a row for each edit, in the order of the functions."""
    cells = []
    for _, edit, told in sorted(edits_to_read()[0][crate], key=lambda it: it[0]):
        row = [told["of"], told["says"], refused_by(edit, told["by"]), f"`{edit.name}`"]
        cells.append([cell.replace("|", "\\|") for cell in row])
    return table(["function", "wrong body", "refused by", "edit"], cells)


# ---- docs/SWEEP.md


@dataclass(frozen=True)
class Call:
    """A call that a line of the tests names: whether its requests are refused there or it is quiet, what the line says, and the block that makes it."""

    kind: str
    name: str
    says: str
    file: str
    block: str

    def order(self):
        """Whether it is a free function, its type, and its name there: free functions stand last."""
        owner, _, name = self.name.rpartition("::")
        return not owner, owner, name


def calls_in(file):
    """The calls that the lines of a file name, as `// refused: TYPE::CALL, CALL: WHAT IS LEFT AFTER A REFUSAL` and `// quiet: CALL: WHEN`."""
    text = source(file)
    for line in LINE.finditer(text):
        indent, kind, told = line.groups()
        names, _, says = re.sub(r"\n *// +", " ", told).partition(": ")
        owner = names.partition(", ")[0].rpartition("::")[0]
        block = re.sub(r"//.*", "", text[line.end() : text.find(f"\n{indent[4:]}}}", line.end())])
        for name in names.split(", "):
            yield Call(kind, name if "::" in name or not owner else f"{owner}::{name}", says, file, block)


@cache
def calls_beside(kind):
    """All calls that lines of the tests name as refused, or as quiet."""
    files = sorted({*ROOT.glob("tools/sweep/src/*.rattle"), *ROOT.glob("crates/*/src/**/*.rt"), *ROOT.glob("crates/*/tests/*.rattle")})
    found = (call for path in files for call in calls_in(path.relative_to(ROOT).as_posix()))
    return sorted((call for call in found if call.kind == kind), key=Call.order)


def refused_calls():
    """The table of the calls whose requests are refused in turn."""
    cells = ([f"`{call.name}`", f"`{call.file}`", call.says] for call in calls_beside("refused"))
    return table(["call", "where its requests are refused", "what is left after a refusal"], cells)


def quiet_calls():
    """The table of the calls that take no memory: a row for those of a type in a file, and in it first those that never take any."""
    rows, cells = {}, []
    for call in calls_beside("quiet"):
        is_free, owner, name = call.order()
        rows.setdefault((is_free, owner, call.file), {}).setdefault(call.says, []).append(f"`{name}`")
    for (_, owner, file), told in sorted(rows.items()):
        names = [f"{', '.join(its)} {says}".strip() for says, its in sorted(told.items(), key=lambda it: it[0] != "")]
        cells.append([f"`{owner}`" if owner else "functions", "; ".join(names), f"`{file}`"])
    return table(["of", "calls", "where they may make no request"], cells)


# ---- docs/DEFINITIONS.md


def word_rows(lines):
    """Each row of a table of words: its number, its words, its module, and the heading above it."""
    heading, columns = "", []
    for number, line in enumerate(lines, 1):
        heading = line.lstrip("# ") if line.startswith("#") else heading
        cells = [cell.strip() for cell in line.replace("\\|", "/").strip().strip("|").split("|")]
        if line.startswith("|") and not lines[number - 2].startswith("|"):
            columns = cells
        elif line.startswith("| `") and columns[0] == "word" and heading != INDEX:
            words = [span.split()[0] for span in SPAN.findall(re.sub(r"\([^()]*\)", "", cells[0]))]
            yield number, words, cells[1] if "module" in columns else "private", heading


def modules_of(words, cell):
    """Each word beside its module: a cell names one for all words of its row, or one for each."""
    modules = [module.strip("` ") for module in cell.split(",")]
    return list(zip(words, modules if len(modules) > 1 else modules * len(words)))


def anchor_of(heading):
    """What a link to a heading ends with."""
    return re.sub(r"[^\w -]", "", heading.lower()).replace(" ", "-")


def index_of_words(lines):
    """The table of each word of a page, its module, its name in `Words` where that is another, and the heading of the table that explains it."""
    rows = {
        (word.lower(), word, module, heading)
        for _, words, cell, heading in word_rows(lines)
        for word, module in modules_of(words, cell)
    }
    cells = []
    for _, word, module, heading in sorted(rows):
        where = module if module == "private" or word in OF_A_TRAIT else f"`{module}`"
        if (module, word) in OTHER_NAMES:
            where += f", in `Words` as `{OTHER_NAMES[module, word]}`"
        title = re.sub(r" \(.*\)$", "", heading)
        cells.append([f"`{word}`", where, f"[{title}](#{anchor_of(heading)})"])
    return table(["word", "module", "explained under"], cells)


# ---- crates/vec_collections/specs/Words.antt


WORDS = "crates/vec_collections/specs/Words.antt"
EXPORT = re.compile(r"^pub use Rattle\.(\w+)\.specs\.(\w+)(?: as (\w+))?$", re.MULTILINE)
# Where two modules have a word of one name, the name of one of them among all words.
OTHER_NAMES = {
    ("Machine", "Run"): "TreeRun", ("Machine", "Step"): "TreeStep", ("Cover", "IsRetained"): "IsTreeRetained", ("Combine", "IsCombined"): "IsTreeCombined",
    ("IterLeft", "pairs_left"): "tree_pairs_left", ("Editing", "MayLeave"): "MayLeaveInTree", ("Editing", "OrStays"): "OrStaysInTree",
    ("MapCollecting", "IsCollected"): "IsMapCollected", ("MapCollecting", "IsExtended"): "IsMapExtended", ("TreePairs", "IsCollected"): "IsTreeCollected",
    ("Children", "seen"): "seen_children", ("Asking", "MayAnswer"): "MayAnswerOfTree", ("Boundaries", "complement"): "complement_of_intervals",
}  # fmt: skip


def words_of_contracts():
    """The file that hands on the words of all contracts: those of the tables of docs/DEFINITIONS.md that the facade exports."""
    found = {}
    for _, words, cell, _ in word_rows(source("docs/DEFINITIONS.md").splitlines()):
        for word, module in modules_of(words, cell):
            if word not in OF_A_TRAIT:
                found.setdefault(module, set()).add(word)
    lines = ["-- All words that contracts cite, from the files that define them, so that a caller has them in one import. Made by tools/pages."]
    for crate, file, other in EXPORT.findall(source("crates/vec_collections/specs/Lib.antt")):
        module = other or file
        names = [f"{it} as {OTHER_NAMES[module, it]}" if (module, it) in OTHER_NAMES else it for it in sorted(found.get(module, ()))]
        if names:
            lines.append(f"pub use Rattle.{crate}.specs.{file}.{{{', '.join(names)}}}")
    return "\n".join(lines) + "\n"


# ---- docs/PERFORMANCE.md


def tool(file):
    """A file of the bench, as a module."""
    loader = importlib.machinery.SourceFileLoader(Path(file).stem, str(ROOT / "tools/bench" / file))
    module = importlib.util.module_from_spec(importlib.util.spec_from_loader(loader.name, loader))
    loader.exec_module(module)
    return module


def tables_in(file):
    """The tables of a file of times, by their headings."""
    parts = (part.partition("\n") for part in source(file).split("\n## ")[1:])
    return {name: rows.strip("\n").splitlines() for name, _, rows in parts}


def stale_files():
    """Each file that is made as a whole, and otherwise than it is there: its text as it is made now, or none where no such file is made."""
    pictures = tool("plot").pictures(source("tools/bench/table.md").splitlines())
    made = {WORDS: words_of_contracts(), **{f"docs/plots/{name}.svg": text for name, text in pictures}}
    files = [path for path in (ROOT / WORDS, *(ROOT / "docs/plots").iterdir()) if path.is_file()]
    there = {path.relative_to(ROOT).as_posix(): path.read_text() for path in files}
    return {file: made.get(file) for file in sorted(made.keys() | there.keys()) if made.get(file) != there.get(file)}


# ---- pages


def pages():
    """The pages of the repository."""
    return [ROOT / "README.md", ROOT / "CONTRIBUTING.md", *sorted((ROOT / "docs").rglob("*.md"))]


def parts_of(page, lines):
    """The parts of a page by their names: what makes the lines of each."""
    marks = [mark[1] for mark in map(MARK.fullmatch, lines) if mark]
    return {**tables_of(page, lines), **{name: partial(made_of, made) for name, made in shown.parts_on(page, marks).items()}}


def made_of(made):
    """The lines of a part that shows something of the sources, where it can be shown."""
    if isinstance(made, shown.NotShown):
        raise made
    return iter(made)


def tables_of(page, lines):
    """The tables of a page that say what the sources have."""
    if page == "docs/WRONG_BODIES.md":
        return {f"wrong bodies of {crate}": partial(wrong_bodies, crate) for crate in edits_to_read()[0]}
    if page == "docs/SWEEP.md":
        return {"calls that take no memory": quiet_calls, "calls that are refused": refused_calls}
    if page == "docs/DEFINITIONS.md":
        return {"index of words": partial(index_of_words, lines)}
    if page == "docs/PERFORMANCE.md":
        bench = tool("tables.py")
        beside = {name: bench.beside_rust(lines) for name, lines in tables_in("tools/bench/rust.md").items()}
        tables = {**bench.tables(ROOT / "tools/bench/table.md"), **beside}
        return {name: partial(iter, made) for name, made in tables.items()}
    return {}


def is_ended(lines):
    """Whether a part that these lines begin with has an end of its own, before another part begins."""
    return next((line for line in lines if line == END or MARK.fullmatch(line)), None) == END


def rewritten(page, lines):
    """The lines of a page with its parts as they are made now; the parts that were others, beside their lines; and other things that are wrong."""
    made, stale, wrong, left = [], [], [], parts_of(page, lines)
    rest = iter(enumerate(lines, 1))
    for number, line in rest:
        made.append(line)
        name = MARK.fullmatch(line)
        if name and (name[1] not in left or not is_ended(lines[number:])):
            wrong.append((number, f"no such part is made, or it has no end, or stands twice: {name[1]}"))
        elif name:
            old = [line for _, line in takewhile(lambda it: it[1] != END, rest)]
            try:
                new = list(left.pop(name[1])())
            except shown.NotShown as why:
                new = old
                wrong.append((number, str(why)))
            stale += [(number, name[1])] * (old != new)
            made += [*new, END]
    return made, stale, wrong + [(len(lines), f"no mark says where this part stands: {name}") for name in left]
