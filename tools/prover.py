"""What the prover says of wrong bodies that are planted together in a copy of a crate."""
import re
import shutil
import sys
import tempfile
import time
from collections import defaultdict
from pathlib import Path

sys.dont_write_bytecode = True
import kit  # noqa: E402
from edits import Batch, Outcome, in_batches  # noqa: E402

# The lines of a check: an open goal, a refused answer of a proof file or lemma, an error of the compiler, and what became of a function.
OPEN_GOAL = re.compile(r"note: (?:\./)?src/\S+: it is not proved that ")
REFUSED_ANSWER = re.compile(r"(?:\./)?proofs/(\S+)/(?:Answers|Invariants|Proof)\.antt:\d+:\d+: error: (.*)")
REFUSED_LEMMA = re.compile(r"(?:\./)?(?:proofs|specs)/\S+\.antt:\d+:\d+: error: (.*)")
NOT_COMPILED = re.compile(r"^(?:\./)?(src/\S+\.rt):(\d+):\d+: error", re.MULTILINE)
VERDICT = re.compile(r"^fn (\w+(?:::\S+)*): (.*)", re.MULTILINE)
SEARCHED = "`search` did not prove"
# A proof file that names what is gone says nothing of a contract.
NAME_IS_GONE = re.compile(r"has no field|has no `|is not in scope|is no name|was not admitted")


def cycles_of(crate, folder):
    """The functions of each cycle of calls, which have one proof, by the name of that."""
    found = defaultdict(set)
    for path in sorted((folder / "src").rglob("*.rt")):
        module = "::".join([crate, *path.relative_to(folder / "src").with_suffix("").parts]).removesuffix("::lib")
        for cycle, function in re.findall(r"#\[cycle\((\w+)\)\][^{}]*?\bfn (\w+)", path.read_text()):
            found[f"{module}::+{cycle}"].add(f"{module}::{function}")
    return found


class Verdicts:
    """What a check said of each function."""

    def __init__(self, crate, said, cycles):
        self.words, self.reasons, self.gone, self.lemmas, self.cycles = {}, defaultdict(list), set(), [], cycles
        goals = []
        # (a line that begins so goes on with the one before)
        for line in said.replace("\n  has no ", " has no ").splitlines():
            answer, lemma, verdict = REFUSED_ANSWER.match(line), REFUSED_LEMMA.match(line), VERDICT.match(line)
            if answer:
                name = f"{crate}::{answer[1].replace('/', '::')}"
                if NAME_IS_GONE.search(answer[2]):
                    self.gone.add(name)
                else:
                    self.reasons[name].append(line)
            elif lemma:
                self.lemmas.append(line)
            elif OPEN_GOAL.match(line):
                goals.append(line)
            elif verdict:
                self.words[verdict[1]] = verdict[2]
                self.reasons[verdict[1]] += goals + [line] * (SEARCHED in line)
                goals = []

    def proofs_of(self, function):
        """Under which names a proof of the function may stand: its own, that of a recursion, and that of its cycle of calls."""
        module, _, name = function.rpartition("::")
        return [function, f"{module}::+{name}", *(cycle for cycle, members in self.cycles.items() if function in members)]

    def own(self, function):
        """The goals of its own for which the function is not proved."""
        return [line for name in self.proofs_of(function) for line in self.reasons.get(name, [])]

    def is_gone_only(self, function):
        """Whether the function is not proved only because a proof file names what is gone."""
        return not self.own(function) and any(name in self.gone for name in self.proofs_of(function))

    def is_law_refused(self, law):
        """Whether a law is not proved with another definition: no lemma that is refused speaks only of a name that is gone."""
        told = next((word for name, word in self.words.items() if name.rpartition("::")[2] == law), "")
        reasons = [line for line in self.lemmas if not NAME_IS_GONE.search(REFUSED_LEMMA.match(line)[1])]
        return told != "" and not told.startswith("proved") and bool(reasons or any(self.reasons.values()))

    def not_refused(self, edit):
        """Why a wrong body that was planted is not refused as it has to be, if it is not."""
        for law in sorted(edit.laws):
            if not self.is_law_refused(law):
                return f"NOT REFUSED: the law {law} is proved with this definition, or nothing is said of it"
        for function in sorted(edit.functions):
            word = self.words.get(function)
            if word is None:
                return f"the checker named no function {function}"
            if word.startswith("proved"):
                return f"NOT REFUSED: {function} is proved with this body"
            if self.is_gone_only(function):
                return f"{function} is refused only because a proof file names what is gone: keep the names, and change a value"
            if not self.own(function):
                return f"{function} has no open goal of its own: {word[:160]}"
        return None

    def refused_beside(self, edits):
        """The functions that are refused, though nothing was planted in them."""
        planted = set().union(*(edit.functions for edit in edits))
        planted |= set().union(*(members for members in self.cycles.values() if members & planted))
        return [it for it in sorted(self.words) if it not in planted and self.own(it)]

    def waits(self, edit, edits):
        """Whether nothing can be said of a wrong body, since its function calls one in which another was planted."""
        others = set().union(*(it.functions for it in edits if it != edit))
        return any(not self.own(it) and any(f"`{other}`" in self.words.get(it, "") for other in others) for it in edit.functions)

    def judged(self, edits):
        """What became of the wrong bodies of a batch."""
        outcome = Outcome()
        for edit in edits:
            why = self.not_refused(edit)
            if why and self.waits(edit, edits):
                outcome.waiting.append(edit)
            elif why:
                outcome.failures.append(f"{edit.crate}/wrong/{edit.name}: {why}")
            else:
                outcome.refused += 1
        if not any(edit.laws for edit in edits):
            for function in self.refused_beside(edits):
                outcome.failures.append(f"{function}: is refused, and nothing was planted in it: {self.own(function)[0][:200]}")
            outcome.failures += [f"{edits[0].crate}: a file of lemmas is refused: {line[:200]}" for line in self.lemmas[:3]]
        return outcome


class Prover:
    """Tries the wrong bodies of one crate: each batch in a copy of it, over what is proved of the crate as it stands."""

    def __init__(self, repository, name, room, jobs):
        self.repository, self.name, self.room, self.jobs = repository, name, room, jobs
        self.folder = repository.room / "crates" / name
        self.cycles = cycles_of(name, self.folder)

    def clashes(self, one, other):
        """Whether the prover can't tell two edits apart: also where they change functions of one cycle of calls, which have one proof."""
        return one.clashes(other) or any(one.functions & it and other.functions & it for it in self.cycles.values())

    def begin(self, batches):
        """Proves the crate as it stands, which each of several batches begins with. Answers what that began with, and what is wrong with it."""
        found, seed = self.repository.work_of(self.name), self.room / "seed"
        if found:
            kit.linked(found, seed)
        else:
            seed.mkdir()
        if batches == 1:
            return "what rt check kept" if found else "nothing", None
        status, said = self.repository.check(self.name, self.folder, seed, self.jobs)
        why = f"{self.name}: is not proved as it stands: {(said.splitlines() or [''])[-1][:200]}" if status else None
        return "what rt check kept" if found else "nothing", why

    def check(self, texts):
        """The status of a check of the crate with these texts, and what it prints."""
        copy, proved = self.room / "copy", self.room / "proved"
        for it in (copy, proved):
            shutil.rmtree(it, ignore_errors=True)
        # (no function is proved again in which an earlier batch was planted)
        kit.linked(self.room / "seed", proved)
        copy.mkdir()
        for part in kit.PARTS:
            if (self.folder / part).is_dir():
                shutil.copytree(self.folder / part, copy / part)
        for file, text in texts.items():
            (copy / Path(file).relative_to(f"crates/{self.name}")).write_text(text)
        return self.repository.check(self.name, copy, proved, self.jobs)

    def try_batch(self, batch):
        """Tries a batch. Where it is not read, what is at fault is left out, or the batch is halved."""
        status, said = self.check(batch.texts)
        wrong = {(f"crates/{self.name}/{file}", int(line)) for file, line in NOT_COMPILED.findall(said)}
        if not wrong and VERDICT.search(said):
            return Verdicts(self.name, said, self.cycles).judged(batch.edits)
        first = next((line for line in said.splitlines() if "error" in line or "no verdict" in line), f"status {status}")
        odd = [it for it in batch.edits if wrong & set(it.lines(batch.texts))] or batch.edits[: len(batch.edits) == 1]
        told = [f"{self.name}/wrong/{it.name}: it is not read, so no contract was tried: {first[:200]}" for it in odd]
        outcome, left = Outcome(failures=told), [it for it in batch.edits if it not in odd]
        middle = 0 if odd else len(left) // 2
        for part in filter(None, (left[:middle], left[middle:])):
            for again in in_batches(part, self.repository.root, self.clashes):
                outcome.add(self.try_batch(again))
        return outcome


def try_edits(repository, name, edits, jobs, deadline, refused):
    """What becomes of wrong bodies of a crate, in how many batches they were tried, and what that began with. Calls `refused` with those of each batch that
    is refused whole."""
    outcome, tried = Outcome(), 0
    with tempfile.TemporaryDirectory(prefix="wrong-bodies-") as folder:
        prover = Prover(repository, name, Path(folder), jobs)
        batches = in_batches(edits, repository.root, prover.clashes)
        start, why = prover.begin(len(batches))
        if why:
            return Outcome(failures=[why]), 0, start
        while batches:
            batch = batches.pop(0)
            if time.monotonic() > deadline:
                outcome.skipped += len(batch.edits)
                continue
            found = prover.try_batch(batch)
            tried += 1
            if not found.failures:
                refused([it for it in batch.edits if it not in found.waiting])
            batches += [Batch.of(it, repository.root) for it in found.waiting]
            found.waiting = []
            outcome.add(found)
    return outcome, tried, start
