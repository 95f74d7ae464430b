"""All that the tools of this folder use of the kit beside its command `rt`: nothing else here reads a file of the kit.

It was written for rattle-kit-13f and rattle-kit-13b (`rt version`), of whose folder bin/ it loads two files: the library rtlib.py, in which `Crate` knows
how a crate is checked and tried, and the command rt itself. Of kit 13f it uses `Kept`, which knows what rt ci proved on this machine, and `work_for`, which
finds what rt check left in any checkout. Kit 13b has neither: there it takes what rt ci and rt check left in the folders out/ of the repository.
Where a newer kit has changed these, `tools/wrong-bodies-test` fails, and so do `tools/sweep/in-turn` and `tools/wrong-bodies`: look there for what now
does the same, and change this file alone.
"""
import contextlib
import importlib.machinery
import importlib.util
import io
import os
import shutil
import subprocess
import sys
import tempfile
from functools import cache
from pathlib import Path

PARTS = ("src", "specs", "proofs")


@cache
def version():
    """The kit's one-line identity."""
    return subprocess.run(["rt", "version"], capture_output=True, text=True, check=True).stdout.strip()


@cache
def command():
    """The kit's command rt, as a module. What it is made of is its field `rtlib`."""
    page = subprocess.run(["rt", "doc"], capture_output=True, text=True, check=True).stdout.strip()
    loader = importlib.machinery.SourceFileLoader("rt_command", str(Path(page).parent / "bin/rt"))
    made = importlib.util.module_from_spec(importlib.util.spec_from_loader("rt_command", loader))
    sys.dont_write_bytecode = True
    loader.exec_module(made)
    return made


def try_unproved(folder, words, arguments):
    """Does what rt try does with the crate in a folder, but for the hint at names that a check will refuse, for which rt try reads the crate once more."""
    rtlib = command().rtlib
    # (the hint is the answer of this program; what is built is built by another)
    rtlib.RATTLE = "true"
    return rtlib.Crate(folder, rtlib.root_above(folder), {}).try_unproved(words, arguments)


def linked(folder, to):
    """Copies what was proved, by links: a check replaces such a file, and changes none."""

    def copy(one, other):
        if one.endswith(".oantt"):
            with contextlib.suppress(OSError):
                return os.link(one, other)
        return shutil.copy2(one, other)

    shutil.copytree(folder, to, symlinks=True, copy_function=copy)


def keeps_proofs():
    """Whether rt ci keeps what it proved on this machine, and proves it once."""
    return hasattr(command(), "Kept")


def subset(root, names, room):
    """Copies some crates of a repository and those below them to a folder, in which rt ci proves them alone. Answers which names are of no crate."""
    lines = (root / "crates.txt").read_text().splitlines(keepends=True)
    uses = {line.partition(":")[0].split()[0]: line.partition(":")[2].split() for line in lines if ":" in line and not line.startswith("#")}
    wanted, left = set(), [*names]
    while left:
        name = left.pop()
        if name in uses and name not in wanted:
            wanted.add(name)
            left += uses[name]
    (room / "crates.txt").write_text("".join(line for line in lines if line.partition(":")[0].partition(" ")[0] in wanted))
    for name in sorted(wanted):
        shutil.copytree(root / "crates" / name, room / "crates" / name, ignore=shutil.ignore_patterns("out"))
    return [it for it in names if it not in uses]


class KeptByKit:
    """The libraries that rt ci proved on this machine, of a kit that keeps them."""

    def __init__(self, _root, crates):
        self.kept = command().Kept(crates)

    def lay(self, crate):
        """Lays a library where checks of the copy find it, if it is proved as it stands."""
        # (the kept library is the sum of its files and of those below it)
        if not self.kept.give(crate, False, self.kept.key(crate)):
            return False
        self.kept.is_built(crate)
        return True


class LeftInPlace:
    """The libraries that rt check or rt ci left in the folders out/ of a repository, of a kit that keeps none elsewhere. Those of rt check carry a stamp, a
    sum of what they are made of. One of rt ci has none: it counts where it is younger than the files that it is made of and than the libraries below it.
    So no library of one is laid over those of the other."""

    def __init__(self, root, _crates):
        self.crates = {it.name: it for it in command().rtlib.crates_below(str(root))}

    def is_stamped(self, crate):
        """Whether rt check made the library of a crate, and all below it, from the files that are there."""
        return all(it.is_built() for it in [*crate.below(), crate])

    def made(self, crate):
        """When the library of a crate was made by rt ci from the files that are there, or None."""
        library = Path(crate.rlib)
        if not library.is_dir() or (library.parent / "stamp").is_file():
            return None
        made = library.stat().st_mtime
        files = max(Path(it).stat().st_mtime for it in command().rtlib.files_of(crate.folder))
        below = [self.made(it) for it in crate.deps]
        return made if files < made and all(it and it < made for it in below) else None

    def lay(self, crate):
        """Lays a library where checks of the copy find it, if it is proved as it stands."""
        if not os.path.isdir(crate.rlib):
            found = self.crates[crate.name]
            if not (self.is_stamped(found) or self.made(found)):
                return False
            shutil.copytree(Path(self.crates[crate.name].rlib), crate.rlib, symlinks=True)
        return True


class Repository:
    """A copy of a repository's sources, specs and proofs in a folder, in which crates are checked over libraries as rt ci proved them."""

    def __init__(self, root, room):
        self.root, self.room = root, room
        shutil.copytree(root / "crates", room / "crates", ignore=shutil.ignore_patterns("out", "must-fail", "wrong", "wrong-by-test"))
        shutil.copy(root / "crates.txt", room)
        rt = command()
        rt.rtlib.Crate = rt.Crate
        rt.Crate.cuts_libraries = True
        rt.Crate.allowed = rt.handles_of(str(root))
        self.crates = {it.name: it for it in rt.rtlib.crates_below(str(room))}
        self.proved = (KeptByKit if keeps_proofs() else LeftInPlace)(root, self.crates.values())
        self.built = set()

    def below(self, name):
        """The names of the repository's libraries below a crate, each after those that it uses."""
        return [it.name for it in self.crates[name].below()]

    def lacking(self, name):
        """Lays the libraries below a crate where its checks find them. Answers those that rt ci has not proved on this machine as they stand."""
        for crate in self.crates[name].below():
            if crate.name not in self.built:
                if not self.proved.lay(crate):
                    return [crate.name]
                self.built.add(crate.name)
        return []

    def prove(self, names, jobs):
        """Has rt ci prove libraries of the repository in a copy of their own."""
        with tempfile.TemporaryDirectory(prefix="libraries-") as folder:
            subset(self.root, names, Path(folder))
            how = {"stdin": subprocess.DEVNULL, "stdout": subprocess.DEVNULL, "env": {"RT_JOBS": str(jobs), **os.environ}}
            subprocess.run(["rt", "ci"], cwd=folder, check=False, **how)
            if not keeps_proofs():
                left = LeftInPlace(folder, ())
                for name in names:
                    left.lay(self.crates[name])

    def work_of(self, name):
        """The folder of what rt check kept of a crate, if there is one: best, of the same text. A newer kit finds it in whichever checkout of this machine."""
        if hasattr(command(), "work_for"):
            found = command().work_for(self.crates[name])
            return found and Path(found)
        found = self.root / "crates" / name / "out/incremental"
        return found if found.is_dir() else None

    def check(self, name, folder, proved, jobs):
        """Checks a copy of a crate in a folder, over the work that another folder keeps. Answers the status, and what was said."""
        rt, crate = command(), self.crates[name]
        with contextlib.redirect_stdout(io.StringIO()):
            words = crate.words(["--jobs", str(jobs)], keeps=False)
        how = {"stdin": subprocess.DEVNULL, "stdout": subprocess.PIPE, "stderr": subprocess.STDOUT, "text": True, "errors": "replace"}
        ran = subprocess.run([rt.rtlib.RATTLE, "check", *words, "--incremental", str(proved)], cwd=folder, check=False, **how)
        return ran.returncode, ran.stdout
