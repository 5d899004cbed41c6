"""Mutants one at a time over what a check has kept of their crate, for `tests/mutants/run --kept`."""
import re
import shutil
import subprocess

from batches import clearest, copy_linked
from edits import OF_NAMES, changed_texts

LOCATED = re.compile(r"(?:note: )?(?:\./)?(\S+?):\d+:\d+: ")


def verdict(printed):
    """The last line of `rt check` itself: behind it, rt may say what to do next."""
    return next((it for it in reversed(printed.split("\n")) if it and not it.startswith("rt: ")), "")


def reason(printed, changed):
    """Why the prover refuses the crate: the clearest line that isn't about a name alone. None if it doesn't refuse it,
    or if it can't read an edited text or one that isn't a proof."""
    if not verdict(printed).startswith("logic=not-proved"):
        return None
    lines = printed.split("\n")
    located = [(found[1], it) for it in lines if (found := LOCATED.match(it))]
    if any(": error" in it and (path in changed or not path.startswith("proofs/")) for path, it in located):
        return None
    return clearest(it for path, it in located if (": error" in it or it.startswith("note: "))
                    and not (path.startswith("proofs/") and OF_NAMES.search(it)))


class Kept:
    """Tries edits of one crate in a copy of the repository."""

    def __init__(self, check, crate, room, kept):
        """`check`: the command for a check. `kept`: the folder with what a check kept of the crate without edits."""
        self.command, self.folder, self.kept = check, room / "crates" / crate, kept
        self.work, self.whole = self.folder / "out" / "incremental", room / "kept-whole"

    def check(self, texts):
        """What a check prints of the crate with these texts in place of its own."""
        own = {path: (self.folder / path).read_text() for path in texts}
        copy_linked(self.whole if self.whole.is_dir() else self.kept, self.work)
        try:
            for path, text in texts.items():
                (self.folder / path).write_text(text)
            return subprocess.run([*self.command, "--jobs", "1"], cwd=self.folder, text=True, errors="replace",
                                  stdin=subprocess.DEVNULL, stdout=subprocess.PIPE, stderr=subprocess.STDOUT).stdout
        except OSError as error:
            return f"{self.command[0]}: {error.strerror}\n"
        finally:
            for path, text in own.items():
                (self.folder / path).write_text(text)

    def refused(self, files):
        """Of these edits, each that the prover refuses for a contract, and why, as soon as it is known. None are where
        the crate isn't proved without edits. Each check begins with what that one keeps."""
        if not self.kept.is_dir() or not verdict(self.check({})).startswith("logic=proved"):
            return
        if self.work.is_dir():
            copy_linked(self.work, self.whole)
        for file in files:
            texts = changed_texts(file, self.folder)
            why = texts and reason(self.check(texts), texts)
            if why:
                yield file.name, why
        shutil.rmtree(self.work, ignore_errors=True)
