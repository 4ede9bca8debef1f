#!/usr/bin/env python3
"""Holds the transcripts of README.md and docs/TEXT.md to what their commands print. In an indented block a line that begins with `$ ` is a command;
the lines up to the next one are what it prints on standard output and standard error, and a last line such as `(status 1)` is
its status where that is not 0. The commands of a page run in a folder of their own that has `example/`, with the built `bik`
on the PATH. Other pages may be given as arguments.
"""
import difflib
import os
import pathlib
import re
import subprocess
import sys
import tempfile

ROOT = pathlib.Path(__file__).resolve().parent.parent
PAGES = [ROOT / "README.md", ROOT / "docs" / "TEXT.md"]
PROGRAMS = ROOT / "cli" / "target" / "release"
INDENT, PROMPT = "    ", "$ "
SECONDS = 60


def blocks(page):
    """The indented blocks, without their indent; a blank line between indented ones is of the block."""
    for match in re.finditer(rf"(?:^{INDENT}.*\n(?:[ \t]*\n(?=(?:[ \t]*\n)*{INDENT}))*)+", page + "\n", re.M):
        yield [line.removeprefix(INDENT) for line in match[0].splitlines()]


def transcripts(page):
    """Each command with the lines that are shown below it."""
    found = []
    for block in blocks(page):
        if not any(line.startswith(PROMPT) for line in block):
            continue
        assert block[0].startswith(PROMPT), f"what stands above the first command: {block[0]!r}"
        for line in block:
            if line.startswith(PROMPT):
                found.append((line.removeprefix(PROMPT), []))
            else:
                found[-1][1].append(line)
    return found


def printed(command, folder):
    """The lines that the command prints, and its status if that is not 0."""
    path = os.pathsep.join([str(PROGRAMS), os.environ.get("PATH", "")])
    done = subprocess.run(["bash", "-c", command], cwd=folder, env={**os.environ, "PATH": path}, stdin=subprocess.DEVNULL,
                          stdout=subprocess.PIPE, stderr=subprocess.STDOUT, timeout=SECONDS)
    lines = done.stdout.decode(errors="replace").splitlines()
    return lines + [f"(status {done.returncode})"] * (done.returncode != 0)


def without_end(lines):
    """The lines without blank ones at the end, which a page does not show."""
    while lines and not lines[-1].strip():
        lines = lines[:-1]
    return lines


def differing(page):
    """How many commands the page has, and how many of them print something else than it shows."""
    found = transcripts(page.read_text())
    assert found, f"{page} has no transcript"
    wrong = 0
    with tempfile.TemporaryDirectory() as folder:
        (pathlib.Path(folder) / "example").symlink_to(ROOT / "example")
        for command, shown in found:
            shown, lines = without_end(shown), without_end(printed(command, folder))
            if shown != lines:
                wrong += 1
                print(f"{page.name}: {PROMPT}{command}", *difflib.unified_diff(shown, lines, "shown", "printed", lineterm=""), sep="\n")
    print(f"transcript: {page.name}, {len(found)} commands, {wrong} of them print something else")
    return wrong


def main():
    assert (PROGRAMS / "bik").is_file(), f"{PROGRAMS / 'bik'} has not been built"
    pages = [pathlib.Path(page) for page in sys.argv[1:]] or PAGES
    return 1 if sum(map(differing, pages)) else 0


if __name__ == "__main__":
    sys.exit(main())
