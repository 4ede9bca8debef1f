#!/usr/bin/env python3
"""Looks in the built code for a fault of the compiler's back end, which no proof sees. Before it takes a large frame, a function touches
each page of it, and counts in %r11. Where the frame is taken only after an early return, a value may already be in %r11, and is
lost. A file fails in which some function uses %r11 before it touches its pages. Not proved.

  probes.py FILE ..   objects, archives and programs, read by objdump
"""
import re
import subprocess
import sys

TOUCHES = re.compile(r"mov\s+%rsp,%r11$", re.M)


def functions(file):
    listing = subprocess.run(["objdump", "-d", "--no-show-raw-insn", file], capture_output=True, check=True, text=True).stdout
    return re.split(r"\n(?=[0-9a-f]+ <)", listing)


def main(files):
    large = [(file, text, TOUCHES.search(text).start()) for file in files for text in functions(file) if TOUCHES.search(text)]
    faults = [f"{file}: {text.splitlines()[0]} loses %r11" for file, text, start in large if "%r11" in text[:start]]
    print("\n".join(faults) if faults else f"probes: {len(large)} functions with a large frame")
    return 1 if faults or not large else 0


if __name__ == "__main__":
    sys.exit(main(sys.argv[1:]))
