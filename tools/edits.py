"""Wrong bodies as they are written down, and how they are planted in the texts of the repository."""
import contextlib
import hashlib
import shutil
from dataclasses import dataclass, field

# The folders of a crate that hold edits: what the prover refuses, what only a test does, and what the kit's own gate tries.
BY_PROVER, BY_TEST, BY_KIT = "wrong", "wrong-by-test", "must-fail"
FOLDERS = (BY_PROVER, BY_TEST, BY_KIT)
# The words of the lines that are for a reader alone: tools/pages makes docs/WRONG_BODIES.md of them, and no verdict stands on them.
TOLD = ("of", "says", "by")


class NotPlanted(Exception):
    """Why an edit can't be planted."""


@dataclass(frozen=True)
class Edit:
    """A wrong body, or a wrong definition: what it changes, and what has to refuse it."""

    crate: str
    name: str
    functions: frozenset
    laws: frozenset
    tests: frozenset
    also: frozenset
    apart: str
    changes: tuple

    def sum(self, told):
        """A sum of what is tried, and of what its verdict stands on."""
        named = (sorted(self.functions), sorted(self.laws), sorted(self.tests), sorted(self.also), self.apart, self.changes)
        return hashlib.sha256(repr((told, named)).encode()).hexdigest()

    def planted(self, texts, root):
        """The texts of the repository's files with this body planted, over those that are given."""
        texts = dict(texts)
        for file, old, new in self.changes:
            text = texts[file] if file in texts else (root / file).read_text()
            if text.count(old) != 1:
                raise NotPlanted(f"its old text stands {text.count(old)} times in {file}, and not once: {old}")
            texts[file] = text.replace(old, new)
        return texts

    def clashes(self, other):
        """Whether the prover can't tell both apart: they change one function, or one changes a definition, which any function may stand on."""
        return bool(self.laws or other.laws) or not self.functions.isdisjoint(other.functions)

    def hides(self, other):
        """Whether a test by which one of both is judged fails with the other one, or they are to stand apart."""
        by_this, by_other = self.tests | self.also, other.tests | other.also
        return self.apart != other.apart or not (self.tests.isdisjoint(by_other) and other.tests.isdisjoint(by_this))

    def lines(self, texts):
        """The lines at which its new texts stand."""
        for file, _, new in self.changes:
            for number, line in enumerate(texts[file].splitlines(), 1):
                if new.strip() and new.strip() in line:
                    yield file, number


def told(path):
    """What an edit says to its reader: the line of each such word. One that is lacking is empty, and of several the last one counts."""
    lines = (line.partition(":") for line in path.read_text().splitlines())
    return dict.fromkeys(TOLD, "") | {word: rest.strip() for word, _, rest in lines if word in TOLD}


def read(path):
    """The edit of a file."""
    file, old, apart, changes = None, None, "", []
    named = {"in": set(), "law": set(), "test": set(), "also": set()}
    crate = path.parent.parent.name
    for line in path.read_text().splitlines():
        word, _, rest = line.partition(":")
        rest = rest.removeprefix(" ")
        if word in named:
            named[word].add(rest)
        elif word == "apart":
            apart = rest
        elif word == "file":
            file = f"crates/{crate}/{rest}"
        elif word == "old":
            old = rest
        elif word == "new" and file and old:
            changes.append((file, old, rest))
        elif word not in TOLD and line.strip():
            raise NotPlanted(f"a line has no word that is read, or stands too early: {line}")
    if not changes:
        raise NotPlanted("it changes nothing: it needs the lines 'file:', 'old:' and 'new:'")
    if not (named["in"] or named["law"] or named["test"]):
        raise NotPlanted("no line 'in:', 'law:' or 'test:' says what has to refuse it")
    return Edit(crate, path.stem, *map(frozenset, named.values()), apart, tuple(changes))


@dataclass
class Outcome:
    """How many edits were refused and how many left untried, what is said of the others, and those that have to be tried again in other company."""

    refused: int = 0
    skipped: int = 0
    failures: list = field(default_factory=list)
    waiting: list = field(default_factory=list)

    def add(self, other):
        self.refused += other.refused
        self.skipped += other.skipped
        self.failures += other.failures
        self.waiting += other.waiting


def edits_of(root, crate, folder, outcome):
    """The edits in a folder of a crate. What can't be planted is a failure."""
    found = []
    for path in sorted((root / "crates" / crate / folder).iterdir()):
        try:
            edit = read(path)
            edit.planted({}, root)
            found.append(edit)
        except (OSError, UnicodeDecodeError, NotPlanted) as why:
            outcome.failures.append(f"{crate}/{folder}/{path.name}: {why}")
    return found


def crates_with(root, folder):
    """The crates that have such a folder."""
    return sorted(it.parent.name for it in root.glob(f"crates/*/{folder}"))


@dataclass
class Batch:
    """Edits that are planted together, and the texts of the files with all of them."""

    edits: list
    texts: dict

    @classmethod
    def of(cls, edit, root):
        return cls([edit], edit.planted({}, root))

    def takes(self, edit, root, clash):
        """Whether the edit fits in, which is then planted too."""
        if any(clash(edit, it) for it in self.edits):
            return False
        with contextlib.suppress(NotPlanted):
            self.texts = edit.planted(self.texts, root)
            self.edits.append(edit)
            return True
        return False


def in_batches(edits, root, clash):
    """The edits in batches, of which no two that clash stand in one."""
    batches = []
    for edit in edits:
        if not any(it.takes(edit, root, clash) for it in batches):
            batches.append(Batch.of(edit, root))
    return batches


def copied(root, room, *more):
    """Copies what a run without proofs reads: the crates' sources and specs, and what is named beside them."""
    left_out = shutil.ignore_patterns("out", "proofs", *FOLDERS)
    shutil.copytree(root / "crates", room / "crates", ignore=left_out)
    shutil.copy(root / "crates.txt", room)
    for it in more:
        shutil.copytree(root / it, room / it)
