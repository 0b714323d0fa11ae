"""The parts of docs/BENCHMARK.md that programs write. Everything else on the page is written by hand."""

import pathlib
import subprocess

PAGE = pathlib.Path(__file__).parent.parent / "docs" / "BENCHMARK.md"


def told(*command):
    return subprocess.run(command, capture_output=True, text=True, check=True, cwd=PAGE.parent).stdout.strip()


def library():
    """Which library was measured: the last commit that changed its code, and whether the tree holds other code."""
    code = PAGE.parent.parent / "crates/*/src/*"
    commit = told("git", "log", "-1", "--format=%h", "--", code)
    return f"the code of {commit}" + (" and changes" if told("git", "status", "--porcelain", "--", code) else "")


def table(head, rows):
    """Lines of a table. A column is set to the right unless its name begins with a blank."""
    rule = ["---" if name[:1] in ("", " ") else "---:" for name in head]
    return ["| " + " | ".join(map(str.strip, cells)) + " |" for cells in (head, rule, *rows)]


def write(name, lines):
    """Puts the lines between the marks of that name."""
    first, last = f"<!-- {name} writes from here -->\n", f"<!-- {name} writes to here -->\n"
    text = PAGE.read_text()
    before, rest = text.split(first)
    after = rest.split(last)[1]
    PAGE.write_text(before + first + "\n" + "\n".join(lines) + "\n\n" + last + after)
