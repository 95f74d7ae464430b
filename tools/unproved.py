"""Tests that are run without a proof: the modules in the folders crates/NAME/tests, which are laid beside the sources of their crates."""
import re
import shutil
import subprocess
from pathlib import Path

TOOLS = Path(__file__).resolve().parent
FOLDER = "tests"
TEST = re.compile(r"^test (\S+) \.\.\. (\w+)$", re.MULTILINE)
MODULE = "\n#[cfg(test)]\nmod {};\n"


def crates_with_tests(root):
    """The crates that have such tests."""
    return sorted(it.parent.name for it in root.glob(f"crates/*/{FOLDER}"))


def files_of(root, crate):
    """The modules of a crate's tests."""
    return sorted((root / "crates" / crate / FOLDER).glob("*.rattle"))


def lay(root):
    """Lays the tests of each crate of a copy of the repository beside its sources, as modules that a run of its tests reads."""
    for crate in crates_with_tests(root):
        sources = root / "crates" / crate / "src"
        with (sources / "lib.rt").open("a") as lib:
            for file in files_of(root, crate):
                shutil.copy(file, sources / f"{file.stem}.rt")
                lib.write(MODULE.format(file.stem))


def said_by(root, crate):
    """What a run of a crate's tests says, in a copy of the repository in which they are laid."""
    how = {"stdin": subprocess.DEVNULL, "stdout": subprocess.PIPE, "stderr": subprocess.STDOUT, "text": True, "errors": "replace"}
    return subprocess.run([TOOLS / "sweep/try-quick", "--test"], cwd=root / "crates" / crate, check=False, **how).stdout


def outcomes(said):
    """Of each test that a run names, by its path within the crate, whether it passed."""
    return {name: how == "ok" for name, how in TEST.findall(said)}
