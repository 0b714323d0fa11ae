"""A copy of the crates in which an edit can be tried: what tests/edits-tell and tests/types-apart have in common."""
import contextlib
import pathlib
import shutil
import subprocess

ROOT = pathlib.Path(__file__).resolve().parent.parent


def copied(room):
    """Copies into a folder outside the checkout what a check reads. (rt finds what was proved of it in other checkouts.)"""
    shutil.copy(ROOT / "crates.txt", room)
    for crate in (ROOT / "crates").iterdir():
        for part in ("src", "specs", "proofs"):
            if (crate / part).is_dir():
                shutil.copytree(crate / part, room / "crates" / crate.name / part)


def replacements(edit):
    """The edit's replacements: the file, what stands there, what is to stand there."""
    file, old, found = None, None, []
    for line in edit.read_text().splitlines():
        word, _, rest = line.partition(": ")
        if word == "file":
            file = rest
        elif word == "old":
            old = rest
        elif line.startswith("new:"):
            found.append((file, old, rest))
    return found


@contextlib.contextmanager
def applied(edit, room):
    """Has the edit's crate in that copy edited for a while. Gives its folder, or an error where the edit does not fit."""
    crate, given = room / "crates" / edit.parts[-3], {}
    try:
        for file, old, new in replacements(edit):
            path = crate / file
            text = path.read_text()
            given.setdefault(path, text)
            if text.count(old) != 1:
                raise ValueError(f"'old:' stands {text.count(old)} times in {file}")
            path.write_text(text.replace(old, new))
        yield crate
    finally:
        for path, text in given.items():
            path.write_text(text)


def check(crate):
    """The status of `rt check` in a crate's folder, and all that it said."""
    run = subprocess.run(["rt", "check"], cwd=crate, capture_output=True, text=True, errors="replace")
    return run.returncode, run.stdout + run.stderr
