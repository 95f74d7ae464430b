"""What pages show of the sources: items of code with the imports that they need, calls by their types, and what tests are about."""
import re
from functools import cache
from pathlib import Path
from typing import NamedTuple

ROOT = Path(__file__).resolve().parent.parent
IMPORT = re.compile(r"^(ghost use|use) ([\w.:]+?(?:::\*)?)(?:(?:\.|::)\{([^}]*)\}| as (\w+))?;$", re.MULTILINE)
DEFINED_BY = re.compile(r"^(use) ([\w.]+?)(?:\.\{([^}]*)\}| as (\w+))$", re.MULTILINE)
ATTRIBUTES = re.compile(r"^ *(?://|#\[|#!\[).*\n?", re.MULTILINE)
DECLARED = re.compile(r"(?:pub(?:\(crate\))? )?(?:(?:unsafe|const|final) )*(?:fn|type|struct|enum|trait|const|static) (\w+)")
IMPL = re.compile(r"impl\b(?:<[^{]*?>)? (?=[A-Z])([^{]*?)(?: where\b[^{]*)?\{", re.DOTALL)
WORD = re.compile(r"(?:^|\n) *(?:(?:abbrev|unfoldable|foldable) )?pub (?:record |data |ruleset )?([^\W\d][\w-]*)")
CLAUSE = re.compile(r"(?:requires|ensures|ghost)\b[^;{}]*\{")
METHOD = re.compile(r"(?:\.|::)(\w+)(?=\(|::<)")
ALL = "all"


class NotShown(Exception):
    """Why something can't be shown."""


@cache
def text_of(file):
    """The text of a file of the repository."""
    path = ROOT / file
    if not path.is_file():
        raise NotShown(f"no such file: {file}")
    return path.read_text()


# ---- items of code


def name_of(item):
    """The name of an item: of an impl its trait and its type, without their parameters."""
    code = ATTRIBUTES.sub("", item).lstrip()
    found = IMPL.match(code)
    if found:
        head = re.sub(r"^&?('\w+ )?", "", found[1])
        while re.search(r"<[^<>]*>", head):
            head = re.sub(r"<[^<>]*>", "", head)
        return "impl " + " ".join(head.split())
    found = DECLARED.match(code) or WORD.search(code)
    return found[1] if found else ""


@cache
def items_of(file):
    """The items at the top level of a file, by their names and in their order."""
    items = {}
    for part in re.split(r"\n\n+(?=\S)", IMPORT.sub("", text_of(file))):
        name = name_of(part)
        items[name] = f"{items[name]}\n\n{part}".strip("\n") if name in items else part.strip("\n")
    items.pop("", None)
    for trait, text in list(items.items()):
        members = text.split("\n\n")[1:] if re.search(rf"^pub trait {trait}\b", text, re.MULTILINE) else []
        items |= {f"{trait}::{name}": member.removesuffix("\n}") for member in members if (name := name_of(member))}
    return items


class Import(NamedTuple):
    """A name that a file imports: `use`, `ghost use` or, in a file of definitions, nothing; its path; the name there; and the name as it is used."""

    keyword: str
    path: str
    name: str
    used: str


@cache
def imports_of(file):
    """What a file imports. The facade's own sources name it `crate`."""
    found, is_code = [], file.endswith(".rt")
    text = text_of(file).replace("\nuse crate::", "\nuse vec_collections::") if "/vec_collections/" in file else text_of(file)
    for keyword, path, names, other in (IMPORT if is_code else DEFINED_BY).findall(text):
        keyword = keyword if is_code else ""
        if names:
            found += [Import(keyword, path, name, name.rpartition(" as ")[2]) for name in re.findall(r"[^\s,][^,]*", names)]
        else:
            found.append(Import(keyword, path, "", other or re.split(r"\.|::", path)[-1]))
    return found


def clauses(code):
    """The clauses of some code, in which the operators of definitions stand."""
    for start in CLAUSE.finditer(code):
        depth, end = 1, start.end()
        while depth and end < len(code):
            depth += {"{": 1, "}": -1}.get(code[end], 0)
            end += 1
        yield code[start.end() : end - 1]


@cache
def methods():
    """For each public trait of this repository, the calls that it declares."""
    texts = [path.read_text() for path in ROOT.glob("crates/*/src/**/*.rt")]
    found = (it for text in texts for it in re.finditer(r"^pub trait (\w+)[^{]*\{\n.*?^}", text, re.MULTILINE | re.DOTALL))
    return {it[1]: set(re.findall(r"\bfn (\w+)", it[0])) for it in found}


def is_said(name, said):
    """Whether clauses or definitions use an imported name: an operator between blanks, or a word that no λ binds."""
    if not name[0].isalpha():
        return name in said or f" {name.replace('◌', '')} " in f" {said} "
    bound = re.findall(r"\w+", " ".join(re.sub(r":[^)}]*", "", head) for head in re.findall(r"λ ([^.]*)\. ", said)))
    return name not in bound and re.search(rf"(?<![\w-]){name}(?![\w-])", said) is not None


def is_named(name, code, above):
    """Whether code uses an imported name: as it is, or as a trait of this library, by its calls of a type that this code or a block above it names."""
    kind = name.removeprefix("Abstract").removesuffix("Mut").replace("RadixNode", "RadixTree")
    is_of_type = kind in above + code or not re.search(r"VecSet|VecMap|RadixTree|PathFilter", above + code)
    is_called = is_of_type and methods().get(name, set()) & set(METHOD.findall(code))
    return bool(is_called) or re.search(rf"\b{name}\b", code) is not None


def is_used(it, code, above):
    """Whether some code uses an import. One of all names, `traits::*`, counts as used."""
    if it.keyword == "use":
        return it.used == "*" or is_named(it.used, code, above)
    return is_said(it.used, "\n".join(clauses(code)) if it.keyword else re.sub(r"--.*", "", code))


def use_lines(path, names):
    """The lines of a `use`, in the form that `rt fmt` gives it."""
    one = f"{path}::{names[0]}" if names[0] else path
    line = f"use {path}::{{{', '.join(names)}}};" if len(names) > 1 else f"use {one};"
    return [line] if len(line) <= 100 else [f"use {path}::{{", f"    {', '.join(names)},", "};"]


def import_lines(needed):
    """The lines of some imports, each path once."""
    ghosts, uses = {}, {}
    for it in needed:
        (uses if it.keyword == "use" else ghosts).setdefault(it.path, []).append(it)
    for path, its in ghosts.items():
        line = f"use {path}.{{{', '.join(it.name for it in its)}}}" if its[0].name else f"use {path} as {its[0].used}"
        yield f"ghost {line};" if its[0].keyword else line
    yield from [""] * bool(ghosts and uses)
    for path, its in sorted(uses.items()):
        yield from use_lines(path, [it.name for it in its])
    yield from [""] * bool(needed)


def proofs_of(file, names):
    """The functions among some items that have a folder with proofs, and where these folders stand."""
    crate, _, module = file.removeprefix("crates/").removesuffix(".rt").partition("/src/")
    top = f"crates/{crate}/proofs/{module}"
    found = []
    for name in names:
        owner = name.split()[-1] if name.startswith("impl ") else ""
        calls = re.findall(r"\bfn (\w+)", items_of(file)[name]) if owner else [name.replace("::", "/")]
        found += [call.rpartition("/")[2] for call in calls if (ROOT / top / owner / call).is_dir()]
    return top, list(dict.fromkeys(found))


def source_line(file, names, code):
    """The line after a block: where it comes from, and which of its functions have proof files."""
    top, proved = proofs_of(file, names)
    if not file.endswith(".rt") or "ensures" not in code:
        return f"From `{file}`."
    if not proved:
        return f"From `{file}`, with no proof file."
    listed = " and ".join(filter(None, (", ".join(f"`{name}`" for name in proved[:-1]), f"`{proved[-1]}`")))
    return f"From `{file}`, with proof files for {listed} below `{top}`."


def unshown(items, shown, code):
    """An item that some code uses: a function by a call, anything else by its name, and that is not among those that are shown."""
    said = re.sub(r"//.*|\"[^\"]*\"", "", code)
    for name in items:
        if "::" not in name and name not in shown and re.search(rf"(?<!\.)\b{re.escape(name)}\b" + r"(?=\()" * name[0].islower(), said):
            return name
    return None


def block(file, wanted, seen):
    """The lines of a block with the items of these names; `seen` has what blocks above it on the page showed of the file."""
    items = items_of(file)
    names = [name for name in items if "::" not in name] if wanted == ALL else re.split(r", (?![^()]*\))", wanted)
    for name in names:
        if name not in items:
            raise NotShown(f"{file} has no item {name}")
    code = "\n\n".join(items[name] for name in names)
    shown = {*names, *seen.get(file, set())}
    other = unshown(items, shown, code)
    if other:
        raise NotShown(f"the block uses {other} of {file}, which it does not show, nor a block above it")
    above = "\n".join(items[name] for name in shown if name in items)
    is_member = any("::" in name for name in names)
    needed = [] if is_member else [it for it in imports_of(file) if it.used not in shown and is_used(it, code, above)]
    seen[file] = {*shown, *(it.used for it in needed)}
    language = "rust" if file.endswith(".rt") else "antt"
    return [f"```{language}", *import_lines(needed), *code.splitlines(), "```", "", source_line(file, names, code)]


# ---- calls by their types


def owners(text):
    """Each public call of a file: its type or trait, or no name of a free function; whether that is a trait; and its name."""
    owner, is_trait = "", False
    for line in text.splitlines():
        head = re.match(r"(?:unsafe )?(?:pub (trait) |impl(?:<.*>)? )(\w+)", line)
        if line.startswith("}"):
            owner, is_trait = "", False
        elif head:
            owner, is_trait = None if not head[1] and " for " in line else head[2], bool(head[1])
        call = re.match(r" *(pub )?(?:final )?fn (\w+)", line)
        if call and owner is not None and (call[1] or is_trait):
            yield owner, is_trait, call[2]


def calls(page, modules):
    """A table of the calls that the facade exports of some modules, `crate::module`, by their types, with links to their contracts."""
    exported = set(re.findall(r"\w+", " ".join(re.findall(r"^ *pub use [^;]*;", text_of("crates/vec_collections/src/lib.rt"), re.MULTILINE))))
    yield "| of | calls | contracts |"
    yield "|---|---|---|"
    for module in modules.split(", "):
        crate, _, name = module.partition("::")
        top = ROOT / f"crates/{crate}/src/{name}.rt"
        files = [path for path in (top, *sorted(top.with_suffix("").rglob("*.rt"))) if path.is_file()]
        if not files:
            raise NotShown(f"no such module: {module}")
        for path in files:
            found = {}
            for owner, is_trait, call in owners(path.read_text()):
                if (owner or call) in exported:
                    of = f"trait `{owner}`" if is_trait else f"`{owner}`" if owner else "functions"
                    found.setdefault(of, {})[call] = None
            link = f"{'../' * page.count('/')}{path.relative_to(ROOT).as_posix()}"
            for owner, names in found.items():
                yield f"| {owner} | {', '.join(f'`{name}`' for name in names)} | [`{path.name}`]({link}) |"


# ---- tests


def tests(crate):
    """A table of the files of a crate that have tests, by what the first lines of each say."""
    yield "| file | what |"
    yield "|---|---|"
    top = ROOT / "crates" / crate
    for path in sorted([*(top / "src").rglob("*.rt"), *(top / "tests").glob("*.rattle")], key=lambda it: it.name):
        text = path.read_text()
        head = " ".join(line.removeprefix("//!").strip() for line in text.splitlines() if line.startswith("//!"))
        if "#[test]" in text and head:
            yield f"| `{path.relative_to(top).as_posix()}` | {head.replace('|', chr(92) + '|')} |"


def parts_on(page, names):
    """The lines of each part of a page that shows something of the sources, or why it can't be shown."""
    seen, made = {}, {}
    for name in names:
        kind, _, what = name.partition(" of ")
        try:
            if kind == "code":
                file, _, wanted = what.partition(": ")
                made[name] = block(file, wanted, seen)
            elif kind == "calls":
                made[name] = list(calls(page, what))
            elif kind == "tests":
                made[name] = list(tests(what))
        except NotShown as why:
            made[name] = why
    return made
