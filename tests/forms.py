#!/usr/bin/env python3
"""Holds to the code the forms that document 01 names for a place and docs/DECISIONS.md ("Forms") says are there."""
import pathlib
import re
import sys

CRATES = pathlib.Path(__file__).resolve().parent.parent / "crates"
RECORD = r"let Ok\(\w+\) = \w+ else \{"
# What is there, in which file, by which pattern, and how often at least.
FORMS = [
    ("let else for each refused record of select", "judge/src/select.rt", RECORD, 3),
    ("let else for each refused record of legal", "judge/src/legal.rt", RECORD, 2),
    ("let else for each refused record of counterexample", "judge/src/counterexample.rt", RECORD, 4),
    ("let else for each refused record of decide and holds", "decide/src/check.rt", RECORD, 3),
    ("let else for each refused record of the counts of links", "links/src/lib.rt", RECORD, 3),
    ("let else for a catalogue's refused schema", "catalogue/src/check.rt", RECORD, 1),
    ("let else for a refused view of a catalogue", "check_catalogue/src/lib.rt", RECORD, 1),
    ("let else for each refused record of a concept checked by itself", "check_concept/src/check.rt", RECORD, 2),
    ("the writer lends on the part after the left words", "encoding/src/halves.rt", r"&mut to\[from\.\.\]", 1),
    ("the search for a broken axiom has a label", "legality/src/lib.rt", r"'search: for ", 1),
    ("it is left from inside by the label", "legality/src/lib.rt", r"break 'search;", 2),
    ("step limits are constants of the roles", "records/src/concept.rt", r"impl Role for \w+ \{\s*const STEPS: usize = \d+;", 3),
    ("the language counts the ones of a class set", "check_concept/src/scan.rt", r"\.count_ones\(\)", 1),
    ("verdicts are an array of arrays by value", "catalogue/src/verdicts.rt", r"\[\[bool; MAX_VIEWS\]; MAX_VIEWS\]", 1),
]
# Which function of evaluate calls which: concepts paths, and paths concepts.
CALLS = {"reached": "path", "common": "path", "path": "concept"}
# The judge, which uses nothing of the decider.
JUDGE = ["index", "rows", "paths", "evaluate", "legality", "judge", "links"]
DECIDER = {"chase", "classes", "primary", "asked", "ground", "forest", "candidate", "construct", "decide"}
# In walks, and in what they go by, each token is named, so that the compiler points there when one is added.
TOKENS = ["asked/src/items.rt", "evaluate/src/items.rt", "evaluate/src/lib.rt", "forest/src/walk.rt", "paths/src/steps.rt",
          "reading/src/lib.rt", "records/src/token.rt"]
# Tests that need not look at their second side, in the place of an `if`: there it is dear, or not defined without the first.
SHORT = {"catalogue/src/arrange.rt": 1, "check_state/src/lib.rt": 2, "legality/src/breaks.rt": 1, "primary/src/rules.rt": 2,
         "records/src/marks.rt": 1}

faults = []
for what, file, pattern, least in FORMS:
    found = len(re.findall(pattern, (CRATES / file).read_text(), re.M))
    if found < least:
        faults.append(f"{what}: {found} in {file}, and not {least}")
items = (CRATES / "evaluate/src/items.rt").read_text()
for function, called in CALLS.items():
    body = re.search(rf"^(?:pub )?fn {function}\(.*?^\{{$(.*?)^\}}$", items, re.M | re.S).group(1)
    if not re.search(rf"\b{called}\(", body):
        faults.append(f"{function} of evaluate does not call {called}")
uses = dict(re.findall(r"^(\w+)(?: staticlib)?:(.*)$", (CRATES.parent / "crates.txt").read_text(), re.M))
for crate in JUDGE:
    if DECIDER & set(uses[crate].split()):
        faults.append(f"{crate} uses the decider")
for file in TOKENS:
    code = (CRATES / file).read_text()
    if file == "records/src/token.rt":
        # A number that is no other token's is read as a mark.
        code = code.replace("_ => Token::Mark(argument)", "")
    # Which marks a concept uses is asked of each token by itself.
    if re.search(r"(?:^|\|) *_ =>|matches!|if let Token::(?!Mark\(k\))", code, re.M):
        faults.append(f"a token goes by `_` in {file}")
for path in CRATES.glob("*/src/**/*.rt"):
    file = path.relative_to(CRATES).as_posix()
    code = re.sub(r"//.*|^(?:ghost use| *(?:requires|ensures)\b).*", "", path.read_text(), flags=re.M)
    found = len(re.findall(r" (?:&&|\|\|)\s", code))
    if found != SHORT.get(file, 0):
        faults.append(f"{found} tests with && or || in {file}, and not {SHORT.get(file, 0)}")
print(*faults or [f"forms: {len(FORMS) + len(CALLS) + len(JUDGE) + len(TOKENS) + len(SHORT)} held to the code"], sep="\n")
sys.exit(bool(faults))
