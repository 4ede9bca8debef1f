#!/usr/bin/env python3
"""The wrong programs (crates/NAME/must-fail/*.edit), each beside a harmless program of the same shape. An edit's head says the
error, the fact that refuses it, and the line of the harmless program, which the prover must accept: so the edit is refused
for the fact and not for its form.

  must_fail.py write             write docs/MUST-FAIL.md from the edits' heads
  must_fail.py check             fail if that page differs, or an edit has no full head or no line to edit
  must_fail.py harmless [NAME..] try the harmless programs of these crates (of all: about as long as the edits themselves)
"""
import pathlib
import re
import shutil
import subprocess
import sys
import tempfile

from words import kept

ROOT = pathlib.Path(__file__).resolve().parent.parent
PAGE = ROOT / "docs" / "MUST-FAIL.md"
HEAD = """# Wrong programs, and harmless ones of the same shape

Each row is an edit of one line that the prover refuses (`crates/NAME/must-fail`), the fact that refuses it, and a harmless line
in the same place that it accepts. The harmless line has the same operations and says the same in another form, so a refusal is
for the fact and not for the form. `tests/must_fail.py` writes this page from the edits and tries the harmless lines.
"""


class Edit:
    def __init__(self, path):
        self.path = path
        self.crate, self.name = path.parts[-3], path.stem
        self.fields = dict(re.findall(r"^#? ?(error|fact|harmless|file|old|new): (.*)$", path.read_text(), re.M))

    def head_is_full(self):
        return all(self.fields.get(field, "").strip() for field in ("error", "fact", "harmless"))

    def has_a_line(self):
        """Whether the line to be edited stands in its file, once, and in no other line, where rt would find it too."""
        text = (self.path.parent.parent / self.fields["file"]).read_text()
        return text.splitlines().count(self.fields["old"]) == text.count(self.fields["old"]) == 1

    def row(self):
        def code(line):
            return "`" + line.strip().replace("|", "\\|") + "`"
        f = self.fields
        return f"| {self.name} | {f['error']}: {code(f['new'])} | {f['fact']} | {code(f['harmless'])} |\n"


def edits():
    return [Edit(path) for path in sorted(ROOT.glob("crates/*/must-fail/*.edit"))]


def page():
    text = HEAD
    crate = None
    for edit in edits():
        if edit.crate != crate:
            crate = edit.crate
            text += f"\n## {crate}\n\n| edit | wrong program | the fact that refuses it | harmless, accepted |\n|---|---|---|---|\n"
        text += edit.row()
    return text


def harmless(names):
    """The edits of a copy of the repository become the harmless ones; the prover must not refuse any."""
    chosen = [edit for edit in edits() if not names or edit.crate in names]
    with tempfile.TemporaryDirectory() as folder:
        copy = pathlib.Path(folder) / "copy"
        # rt begins with what checks kept in other copies on this machine, this one too.
        shutil.copytree(ROOT, copy, ignore=shutil.ignore_patterns(".git", "must-fail", "out", "target"))
        for edit in chosen:
            path = copy / edit.path.relative_to(ROOT)
            path.parent.mkdir(exist_ok=True)
            f = edit.fields
            path.write_text(f"# {edit.name}\nfile: {f['file']}\nold: {f['old']}\nnew: {f['harmless']}\n")
        run = subprocess.run(["rt", "must-fail", *names], cwd=copy, capture_output=True, text=True)
    said = dict(re.findall(r"^rt: must-fail (\S+)\.edit: (.*)$", run.stdout + run.stderr, re.M))
    # What is refused only by a limit, cannot be read or has not been tried is not accepted either.
    others = {name: said.get(name, "rt says nothing of it") for name in (f"{e.crate}/{e.name}" for e in chosen)
              if not said.get(name, "").startswith("NOT REFUSED")}
    for name, why in others.items():
        print(f"harmless: {name}: {why}")
    print(f"harmless: {len(chosen) - len(others)} accepted, {len(others)} not")
    return 1 if others or not chosen else 0


if __name__ == "__main__":
    if sys.argv[1:2] == ["harmless"]:
        sys.exit(harmless(sys.argv[2:]))
    without = [f"{e.crate}/{e.name}" for e in edits() if not e.head_is_full()]
    if without:
        sys.exit(f"must_fail: no full head: {' '.join(without)}")
    stale = [f"{e.crate}/{e.name}" for e in edits() if not e.has_a_line()]
    if stale:
        sys.exit(f"must_fail: the line to edit is not there once: {' '.join(stale)}")
    sys.exit(kept("must_fail", {PAGE: page().encode()}, sys.argv[1:], f"{len(edits())} wrong programs, each beside a harmless one"))
