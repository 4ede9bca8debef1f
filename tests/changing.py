#!/usr/bin/env python3
"""Holds the list of places in docs/CHANGING.md to the declarations of the header: each place names every entry, and a file that names
every entry is in the list.
"""
import pathlib
import re
import sys

ROOT = pathlib.Path(__file__).resolve().parent.parent
PAGE = (ROOT / "docs" / "CHANGING.md").read_text()
ENTRIES = re.findall(r"^uint16_t bikuvoa_(\w+)\(", (ROOT / "include" / "bikuvoa.h").read_text(), re.M)
# Beside the code: notes of landings and the page of the design pass tell of what was, and are no place for a new entry.
ELSEWHERE = {".git", "crates", "landings", "DESIGN-PASS.md", "target"}


def unnamed(text):
    return [name for name in ENTRIES if not re.search(rf"(?<!\w)(?:bikuvoa_)?{name}\b", text)]


def sources():
    found = (path.relative_to(ROOT) for path in ROOT.rglob("*") if path.suffix in (".c", ".h", ".rs", ".md", ".py"))
    return sorted(str(path) for path in found if not ELSEWHERE & set(path.parts))


def main():
    assert ENTRIES, "the header declares entries"
    rows = re.search(r"^\| place \|.*\n\|.*\n((?:\|.*\n)+)", PAGE, re.M).group(1).splitlines()
    places = [place for row in rows for place in re.findall(r"`([^`]+)`", row.split("|")[1])]
    faults, listed = [], set()
    for place in places:
        files = sorted(ROOT.glob(place))
        listed.update(str(path.relative_to(ROOT)) for path in files)
        missing = unnamed("\n".join(path.read_text() for path in files))
        if missing:
            faults.append(f"{place} does not name {', '.join(missing)}")
    for path in sources():
        if path not in listed and path != "docs/CHANGING.md" and not unnamed((ROOT / path).read_text()):
            faults.append(f"{path} names every entry, and is not in the list")
    for fault in faults:
        print(f"changing: {fault}")
    if not faults:
        print(f"changing: {len(ENTRIES)} entries in {len(places)} places")
    return 1 if faults else 0


if __name__ == "__main__":
    sys.exit(main())
