#!/usr/bin/env python3
"""What the built `bik` does where standard output is a terminal: a record is printed as numbers there, since its bytes could do
anything to the terminal. The tests in cli/ have no terminal.
"""
import os
import pathlib
import pty
import subprocess
import sys

ROOT = pathlib.Path(__file__).resolve().parent.parent
BIK = ROOT / "cli" / "target" / "release" / "bik"
WORDS = [str(BIK), "words", "example/rowing.bik", "Rowers"]


def on_terminal(command):
    """What the command prints on a terminal of its own. It must be little: it is read when the command has ended."""
    ours, theirs = pty.openpty()
    try:
        subprocess.run(command, cwd=ROOT, stdin=subprocess.DEVNULL, stdout=theirs, check=True, timeout=60)
        return os.read(ours, 4096).decode().replace("\r\n", "\n")
    finally:
        os.close(ours)
        os.close(theirs)


def main():
    shown = on_terminal(WORDS)
    expected = subprocess.run([*WORDS, "--numbers"], cwd=ROOT, capture_output=True, check=True, timeout=60).stdout.decode()
    print(f"terminal: a record is printed {'as numbers' if shown == expected else f'as {shown!r}, not as {expected!r}'}")
    return 0 if shown == expected else 1


if __name__ == "__main__":
    sys.exit(main())
