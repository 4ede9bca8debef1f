#!/usr/bin/env python3
"""Runs target/bin/bikuvoa in folders of its own: on the triples of tests/triples.py, and on missing, odd and overlong files.
Of an open answer the printed state is judged here, by table 1 of the report read as sets of objects. Not proved.
"""
import pathlib
import subprocess
import sys
import tempfile

from triples import ROOT, TRIPLES, files
from words import BACKWARD, BOTH, CLASS, COMMON, CONSTANT, EMPTY, EVERYTHING, FORWARD, MARK, axioms, concept, schema

PROGRAM = ROOT / "target" / "bin" / "bikuvoa"


def run(contents):
    """What the program prints in a folder with these files (name to bytes)."""
    with tempfile.TemporaryDirectory() as folder:
        for name, content in contents.items():
            (pathlib.Path(folder) / name).write_bytes(content)
        return subprocess.run([PROGRAM], cwd=folder, capture_output=True, check=True, text=True).stdout.splitlines()


class State:
    """The state that the printed lines stand for."""

    def __init__(self, lines):
        word, objects, self.object = lines[0].split()
        assert word == "OPEN"
        self.objects, self.object = range(int(objects)), int(self.object)
        facts = [tuple(map(int, line.split())) for line in lines[1:]]
        assert facts == sorted(set(facts)), "the facts ascend"
        self.facts = {(left // 512, left % 512, right) for left, right in facts}

    def pairs(self, attribute):
        return {(x, y) for kind, x, y in self.facts if kind == 24 + attribute}

    def members(self, kind):
        return {x for k, x, _ in self.facts if k == kind}

    def breaks(self, left, right):
        """Whether the axiom is broken."""
        kind, subject, p, b = left // 256, left % 256, right // 256, right % 256
        if kind == 1:
            return not self.members(subject) <= self.members(right)
        if kind == 2:
            return any(x in self.members(subject) and y not in self.members(b) for x, y in self.pairs(p))
        if kind == 5:
            return any(x not in self.members(p) or y not in self.members(b) for x, y in self.pairs(subject))
        values = [sum(x == d for x, _ in self.pairs(right)) for d in self.members(subject)]
        return any(n == 0 for n in values) if kind == 3 else any(n > 1 for n in values)

    def selects(self, tokens):
        """The objects in the concept; a path is the set of pairs that it leads along."""
        pile = []
        for token in tokens:
            sort, argument = token if isinstance(token, tuple) else (token, 0)
            if sort == CLASS:
                pile.append(self.members(argument))
            elif sort == EVERYTHING:
                pile.append(set(self.objects))
            elif sort == CONSTANT:
                pile.append(self.members(32 + argument))
            elif sort == MARK:
                pile.append(self.members(36 + argument))
            elif sort == BOTH:
                pile.append(pile.pop() & pile.pop())
            elif sort == EMPTY:
                pile.append({(x, x) for x in self.objects})
            elif sort in (FORWARD, BACKWARD):
                landing, path = pile.pop(), pile.pop()
                step = self.pairs(argument) if sort == FORWARD else {(y, x) for x, y in self.pairs(argument)}
                pile.append({(x, z) for x, y in path for w, z in step if w == y and z in landing})
            else:
                path = pile.pop() & pile.pop() if sort == COMMON else pile.pop()
                pile.append({x for x, _ in path})
        return pile.pop()

    def misnames(self, constants, loose):
        """Whether a constant has no object or several, or two that are not loose have the same."""
        objects = [self.members(32 + k) for k in range(constants)]
        firm = [found for k, found in enumerate(objects) if not loose >> k & 1]
        return any(len(found) != 1 for found in objects) or len(set.union(set(), *firm)) < len(firm)

    def chooses(self, query):
        """Whether each mark that the query uses has one object, and no other mark has one."""
        used = {token[1] for token in query if isinstance(token, tuple) and token[0] == MARK}
        return all(len(self.members(36 + k)) == (k in used) for k in range(4))


def judged(lines, schema_words, query, view):
    state = State(lines)
    _, _, constants, _, loose, *_ = schema_words
    assert not state.misnames(constants, loose), "an object for each constant"
    assert state.chooses(query), "an object for each mark of the query"
    assert not any(state.breaks(*axiom) for axiom in axioms(schema_words)), "a legal state"
    assert state.object in state.selects(query) - state.selects(view), "an object in the query and outside the view"


def contents_of(schema_words, query, view):
    """The files of a triple, name to bytes."""
    return {path.name: content for path, content in files(pathlib.Path(), schema_words, concept(query), concept(view)).items()}


def main():
    for i, (schema_words, query, view, verdict) in enumerate(TRIPLES):
        lines = run(contents_of(schema_words, query, view))
        first = lines[0].split()
        assert first[:len(verdict.split())] == verdict.split(), (i, lines)
        if verdict == "OPEN":
            judged(lines, schema_words, query, view)
        else:
            assert len(lines) == 1, (i, lines)
    good = contents_of(schema(0, 0, 0), [EVERYTHING], [EVERYTHING])
    spoilt = [({}, "REFUSED 1")]
    for name, number in (("schema.bin", 1), ("query.bin", 3), ("view.bin", 3)):
        spoilt.append(({k: v for k, v in good.items() if k != name}, f"REFUSED {number}"))
        spoilt += [({**good, name: content}, f"REFUSED {number}") for content in (good[name] + b"\0", good[name] + bytes(1000), b"\0" * 70001)]
    # Each at its record's turn: a bad view is seen only after its query.
    spoilt.append(({**good, "query.bin": b"\1\0\0\0\x0b\0\0\0", "view.bin": b""}, "REFUSED 4"))
    assert run(good) == ["HELD"]
    for contents, line in spoilt:
        assert run(contents) == [line], (contents.keys(), run(contents))
    print(f"program: {len(TRIPLES)} triples, {len(spoilt)} bad folders")
    return 0


if __name__ == "__main__":
    sys.exit(main())
