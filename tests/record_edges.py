#!/usr/bin/env python3
"""The edges of documents 01 and 02 for the record checks: each case is a record, its role, and the refusal that the documents
give it (0: accepted), worked out by hand.

  record_edges.py write   write the cases and the expected output into crates/record_edges
  record_edges.py check   fail if what is written there differs from this table
"""
import pathlib
import sys

from words import (BACKWARD, BOTH, CLASS, COMMON, CONSTANT, EMPTY, EVERYTHING, FORWARD, MARK, REACHED, axiom, choice, concept,
                   kept, member, name, pair, schema, state, words)

CRATE = pathlib.Path(__file__).resolve().parent.parent / "crates" / "record_edges"
ROLES = {"schema": 1, "query": 2, "view": 3, "concept": 4, "state": 5}


def steps(n):
    """A path of n forward steps, reached."""
    return [EMPTY] + [EVERYTHING, FORWARD] * n + [REACHED]


def conjunction(n):
    """n tokens, n odd: a class and its conjunctions with itself."""
    return [CLASS] + [CLASS, BOTH] * ((n - 1) // 2)


def full_state(extra):
    """480 objects in 24 classes, a value of each of 8 attributes, 16 values more, 4 constants: 15,380 facts, and extra pairs."""
    facts = [member(a, o) for a in range(24) for o in range(480)]
    for p in range(8):
        for o in range(480):
            facts.append(pair(p, o, 0))
            if p == 7 and o < 16 + extra:
                facts.append(pair(p, o, 1))
    return facts + [name(a, a) for a in range(4)]


SUBCLASS = axiom(1, 0, 0)
LARGE = schema(24, 8, 4)
SMALL = schema(2, 1, 1)
# 4 class facts, 3 pairs and 2 constants' facts.
COUNTED = [member(0, 0), member(0, 1), member(1, 0), member(1, 2), pair(0, 0, 0), pair(0, 0, 1), pair(0, 9, 0), name(0, 8),
           name(1, 9)]
FOUR_NAMES = [name(k, k) for k in range(4)]

CASES = [
    # 1: fewer than 5 words, a size above its limit, or a length other than 5 + 2n.
    ("schema", [], 1),
    ("schema", [0], 1),
    ("schema", [0, 0, 0, 0], 1),
    ("schema", [0, 0, 0, 0, 0], 0),
    ("schema", [0, 0, 0, 0, 0, 0], 1),
    ("schema", schema(25, 8, 4), 1),
    ("schema", schema(24, 9, 4), 1),
    ("schema", schema(24, 8, 5), 1),
    ("schema", schema(1, 0, 0, [SUBCLASS] * 96), 0),
    ("schema", schema(1, 0, 0, [SUBCLASS] * 97), 1),
    ("schema", schema(1, 0, 0, [SUBCLASS])[:-1], 1),
    ("schema", schema(1, 0, 0, [SUBCLASS]) + [0], 1),
    # 1 before 14: a size above its limit beside a loose constant that is not declared.
    ("schema", schema(1, 0, 5, loose=32), 1),
    # 14: a constant that is marked loose is not declared; bit k, from the lowest, marks constant k. The word itself has no limit.
    ("schema", schema(0, 0, 0, loose=1), 14),
    ("schema", schema(0, 0, 1, loose=1), 0),
    ("schema", schema(0, 0, 1, loose=2), 14),
    ("schema", schema(0, 0, 3, loose=4), 0),
    ("schema", schema(0, 0, 3, loose=8), 14),
    ("schema", schema(0, 0, 4, loose=15), 0),
    ("schema", schema(0, 0, 4, loose=16), 14),
    ("schema", schema(0, 0, 4, loose=1 << 15), 14),
    ("schema", schema(0, 0, 4, loose=65535), 14),
    # 14 before 2.
    ("schema", schema(1, 0, 1, [axiom(0, 0, 0)], 2), 14),
    ("schema", schema(1, 0, 1, [axiom(0, 0, 0)], 1), 2),
    # 1 before 2: a size above its limit beside a bad axiom.
    ("schema", schema(25, 0, 0, [axiom(0, 0, 0)]), 1),
    # 2: a kind outside 1 to 5, or an undeclared class or attribute.
    ("schema", schema(1, 1, 0, [axiom(0, 0, 0)]), 2),
    ("schema", schema(1, 1, 0, [axiom(6, 0, 0)]), 2),
    ("schema", schema(1, 1, 0, [SUBCLASS] * 95 + [axiom(6, 0, 0)]), 2),
    ("schema", schema(1, 1, 0, [axiom(1, 1, 0)]), 2),
    ("schema", schema(1, 1, 0, [axiom(1, 0, 1)]), 2),
    ("schema", schema(1, 1, 0, [axiom(1, 0, 256)]), 2),
    ("schema", schema(1, 1, 0, [axiom(2, 0, 256)]), 2),
    ("schema", schema(1, 1, 0, [axiom(2, 0, 1)]), 2),
    ("schema", schema(1, 1, 0, [axiom(2, 0, 0)]), 0),
    ("schema", schema(1, 1, 0, [axiom(3, 0, 1)]), 2),
    ("schema", schema(1, 1, 0, [axiom(3, 0, 256)]), 2),
    ("schema", schema(1, 1, 0, [axiom(3, 0, 0), axiom(4, 0, 0)]), 0),
    ("schema", schema(1, 1, 0, [axiom(4, 0, 1)]), 2),
    ("schema", schema(1, 1, 0, [axiom(4, 0, 256)]), 2),
    ("schema", schema(1, 1, 0, [axiom(5, 1, 0)]), 2),
    ("schema", schema(1, 1, 0, [axiom(5, 0, 256)]), 2),
    ("schema", schema(1, 1, 0, [axiom(5, 0, 1)]), 2),
    ("schema", schema(1, 1, 0, [axiom(5, 0, 0)]), 0),
    # Concepts under two classes, an attribute and a constant.
    ("schema", SMALL, 0),
    # 3: fewer than 2 words, n of 0 or above 64, or a length other than 2 + 2n.
    ("query", [], 3),
    ("query", [1], 3),
    ("query", [0, 0], 3),
    ("query", concept([CLASS]), 0),
    ("query", concept([CLASS])[:-1], 3),
    ("query", concept([CLASS]) + [0], 3),
    ("query", concept(conjunction(63) + [REACHED]), 5),
    ("query", concept(conjunction(61) + [EMPTY, REACHED, BOTH]), 0),
    ("query", concept(conjunction(65)), 3),
    ("view", [], 3),
    # 3 before 4.
    ("query", concept([11] * 65), 3),
    # 4: a sort outside 1 to 10, an undeclared argument, or one other than 0 where there is none.
    ("query", concept([0]), 4),
    ("query", concept([11]), 4),
    ("query", concept([(CLASS, 1)]), 0),
    ("query", concept([(CLASS, 2)]), 4),
    ("query", concept([(CONSTANT, 0)]), 0),
    ("query", concept([(CONSTANT, 1)]), 4),
    ("query", concept([EMPTY, EVERYTHING, (FORWARD, 1), REACHED]), 4),
    ("query", concept([EMPTY, EVERYTHING, (BACKWARD, 1), REACHED]), 4),
    ("query", concept([(EVERYTHING, 1)]), 4),
    ("query", concept([CLASS, CLASS, (BOTH, 1)]), 4),
    ("query", concept([(EMPTY, 1), REACHED]), 4),
    ("query", concept([EMPTY, (REACHED, 1)]), 4),
    ("query", concept([EMPTY, EMPTY, (COMMON, 1)]), 4),
    # 4: a mark above 3, and a mark in a concept that is no query.
    ("query", concept([(MARK, 0)]), 0),
    ("query", concept([(MARK, 3)]), 0),
    ("query", concept([(MARK, 4)]), 4),
    ("query", concept([(MARK, 15)]), 4),
    ("query", concept([(MARK, 65535)]), 4),
    ("query", concept([EMPTY, (MARK, 1), FORWARD, (MARK, 2), BACKWARD, EMPTY, COMMON, (MARK, 1), BOTH]), 0),
    ("view", concept([(MARK, 0)]), 4),
    ("view", concept([CLASS, (MARK, 3), BOTH]), 4),
    ("view", concept([(MARK, 4)]), 4),
    ("concept", concept([(MARK, 0)]), 4),
    ("concept", concept([CLASS, (MARK, 3), BOTH]), 4),
    ("concept", concept([CLASS]), 0),
    ("concept", concept([(CONSTANT, 0)]), 0),
    ("concept", concept(steps(16)), 0),
    ("concept", concept(steps(17)), 6),
    # 4 before 5: the bad token stands after the pile has failed.
    ("query", concept([BOTH, 11]), 4),
    ("query", concept([BOTH, (MARK, 4)]), 4),
    ("view", concept([BOTH, MARK]), 4),
    # 5: what is taken is not there or not of that sort, or not exactly one concept at the end.
    ("query", concept([BOTH]), 5),
    ("query", concept([MARK, MARK]), 5),
    ("query", concept([MARK, REACHED]), 5),
    ("query", concept([(MARK, 4), REACHED]), 4),
    ("query", concept([CLASS, BOTH]), 5),
    ("query", concept([EMPTY]), 5),
    ("query", concept([CLASS, CLASS]), 5),
    ("query", concept([CLASS, REACHED]), 5),
    ("query", concept([EMPTY, CLASS, COMMON]), 5),
    ("query", concept([CLASS, EMPTY, FORWARD, REACHED], steps=1), 5),
    ("query", concept([EMPTY, EMPTY, BOTH]), 5),
    ("query", concept([EMPTY, EMPTY, COMMON]), 0),
    # 5 before 6: the count of steps is wrong too.
    ("query", concept([CLASS, CLASS], steps=3), 5),
    # 6: another count of steps, or more than the limit.
    ("query", concept(steps(1), steps=0), 6),
    ("query", concept(steps(1), steps=2), 6),
    ("query", concept(steps(16)), 0),
    ("query", concept(steps(17)), 6),
    ("view", concept(steps(6)), 0),
    ("view", concept(steps(7)), 6),
    # 7: fewer than 3 words, objects or facts above their limit, or a length other than 3 + 2n.
    ("schema", schema(1, 0, 0), 0),
    ("state", [], 7),
    ("state", [0], 7),
    ("state", [0, 0], 7),
    ("state", [0, 0, 0], 0),
    ("state", [0, 0, 0, 0], 7),
    ("state", [480, 0, 0], 0),
    ("state", [481, 0, 0], 7),
    ("state", [1, 1, 1], 7),
    ("state", [1, 1, 1, 0], 7),
    ("state", [1, 1, 1, 0, 0], 0),
    ("state", [1, 1, 1, 0, 0, 0], 7),
    # Two size words alone, and a fact.
    ("state", [1, 1, 0, 0], 7),
    ("schema", LARGE, 0),
    ("state", state(480, full_state(4), 24 * 480), 0),
    ("state", state(480, full_state(5)), 7),
    ("query", concept([(MARK, 0), (MARK, 1), BOTH, (MARK, 2), BOTH, (MARK, 3), BOTH]), 0),
    ("state", state(480, full_state(0) + [choice(k, 479) for k in range(4)]), 0),
    ("state", state(480, full_state(1) + [choice(k, 479) for k in range(4)]), 7),
    # 7 before 8.
    ("state", state(481, [(65535, 0)]), 7),
    # 8: a kind above 39, something undeclared, an object not below N, or a right word where no pair is meant.
    ("schema", schema(2, 1, 0), 0),
    ("state", state(2, [member(0, 1)]), 0),
    ("state", state(2, [member(1, 0), member(2, 0)]), 8),
    ("state", state(2, [member(0, 2)]), 8),
    ("state", state(2, [(0, 1)]), 8),
    ("state", state(2, [pair(0, 1, 1)]), 0),
    ("state", state(2, [pair(1, 0, 0)]), 8),
    ("state", state(2, [pair(0, 2, 0)]), 8),
    ("state", state(2, [pair(0, 0, 2)]), 8),
    ("state", state(2, [name(0, 0)]), 8),
    ("state", state(2, [(36 * 512, 0)]), 8),
    ("state", state(2, [(39 * 512, 0)]), 8),
    ("state", state(2, [(40 * 512, 0)]), 8),
    ("state", state(2, [(127 * 512, 0)]), 8),
    # 8 before 9: the bad fact stands after the order has failed.
    ("state", state(2, [member(1, 0), member(0, 0), member(2, 0)]), 8),
    # 9: the facts do not ascend strictly.
    ("state", state(2, [member(0, 0), member(0, 0)]), 9),
    ("state", state(2, [member(1, 0), member(0, 1)]), 9),
    ("state", state(2, [pair(0, 0, 1), pair(0, 0, 0)]), 9),
    ("state", state(2, [pair(0, 0, 0), pair(0, 0, 1)]), 0),
    # 15: the third word is not the number of class facts, those of kinds 0 to 23.
    ("schema", schema(2, 1, 2), 0),
    ("state", state(10, COUNTED, 4), 0),
    ("state", state(10, COUNTED, 3), 15),
    ("state", state(10, COUNTED, 5), 15),
    ("state", state(10, COUNTED, 0), 15),
    ("state", state(10, COUNTED, 65535), 15),
    ("state", state(10, COUNTED, 4 + (1 << 8)), 15),
    ("state", state(10, COUNTED, 4 + (1 << 15)), 15),
    # 15: the constants' facts counted too, the pairs, or all; the classes counted, or the objects.
    ("state", state(10, COUNTED, 6), 15),
    ("state", state(10, COUNTED, 7), 15),
    ("state", state(10, COUNTED, 9), 15),
    ("state", state(10, COUNTED, 2), 15),
    ("state", state(10, COUNTED, 10), 15),
    # The word has no limit of its own: above those of objects and of facts it is 15, and not 7.
    ("schema", schema(24, 8, 0), 0),
    ("state", [0, 0, 1], 15),
    ("state", [0, 0, 480], 15),
    ("state", [0, 0, 481], 15),
    ("state", [0, 0, 15384], 15),
    ("state", [0, 0, 15385], 15),
    ("state", [0, 0, 65535], 15),
    # Kind 23 is the last of the class facts, 24 the first of the pairs, 31 their last.
    ("state", state(480, [member(23, 479)], 1), 0),
    ("state", state(480, [member(23, 479)], 0), 15),
    ("state", state(480, [pair(0, 0, 0)], 0), 0),
    ("state", state(480, [pair(0, 0, 0)], 1), 15),
    ("state", state(480, [member(23, 479), pair(0, 0, 0)], 1), 0),
    ("state", state(480, [member(23, 479), pair(0, 0, 0)], 0), 15),
    ("state", state(480, [member(23, 479), pair(0, 0, 0)], 2), 15),
    ("state", state(480, [pair(7, 479, 479)], 0), 0),
    ("state", state(480, [pair(7, 479, 479)], 1), 15),
    # Facts of constants, kinds 32 to 35, and of marks, 36 to 39, are no class facts.
    ("schema", LARGE, 0),
    ("state", state(4, FOUR_NAMES, 0), 0),
    ("state", state(4, FOUR_NAMES, 1), 15),
    ("state", state(4, FOUR_NAMES, 4), 15),
    ("state", state(4, [member(0, 3), *FOUR_NAMES], 1), 0),
    ("state", state(4, [member(0, 3), *FOUR_NAMES], 5), 15),
    # The largest state, of 24 * 480 class facts, with a false count.
    ("state", state(480, full_state(4), 24 * 480 - 1), 15),
    ("query", concept([(MARK, 0), (MARK, 3), BOTH]), 0),
    ("state", state(4, [*FOUR_NAMES, choice(0, 0), choice(3, 0)], 0), 0),
    ("state", state(4, [*FOUR_NAMES, choice(0, 0), choice(3, 0)], 1), 15),
    ("state", state(4, [*FOUR_NAMES, choice(0, 0), choice(3, 0)], 2), 15),
    ("state", state(4, [*FOUR_NAMES, choice(0, 0), choice(3, 0)], 6), 15),
    # 7 before 15.
    ("schema", schema(1, 1, 2), 0),
    ("state", [481, 0, 1], 7),
    ("state", [1, 0, 1, 0], 7),
    ("state", [1, 1, 0, 0, 0, 0], 7),
    ("state", [1, 15385, 0], 7),
    # 8 before 15: the bad fact stands after, or is itself the one that is not counted.
    ("state", state(2, [member(0, 0), member(1, 0)], 1), 8),
    ("state", state(2, [member(0, 0), pair(1, 0, 0)], 0), 8),
    ("state", state(2, [member(0, 2)], 0), 8),
    # 9 before 15: by a false count, and by a true one of class facts that do not stand first.
    ("state", state(2, [member(0, 1), member(0, 0)], 1), 9),
    ("state", state(2, [member(0, 0), member(0, 0)], 1), 9),
    ("state", state(2, [pair(0, 0, 0), member(0, 0)], 0), 9),
    ("state", state(2, [pair(0, 0, 0), member(0, 0)], 1), 9),
    # 15 before 10: a constant without an object, with two, and two with the same.
    ("state", state(2, [], 1), 15),
    ("state", state(2, [], 0), 10),
    ("state", state(2, [name(0, 0), name(0, 1), name(1, 1)], 3), 15),
    ("state", state(2, [name(0, 0), name(0, 1), name(1, 1)], 0), 10),
    ("state", state(2, [member(0, 0), name(0, 1), name(1, 1)], 0), 15),
    ("state", state(2, [member(0, 0), name(0, 1), name(1, 1)], 1), 10),
    # 15 before 10 with marks too: the used mark without an object, and with two.
    ("query", concept([(MARK, 1)]), 0),
    ("state", state(2, [name(0, 0), name(1, 1)], 1), 15),
    ("state", state(2, [name(0, 0), name(1, 1)], 0), 10),
    ("state", state(2, [name(0, 0), name(1, 1), choice(1, 0), choice(1, 1)], 2), 15),
    ("state", state(2, [name(0, 0), name(1, 1), choice(1, 0), choice(1, 1)], 0), 10),
    # 10: a declared constant has no object or several, or two constants that are not loose have the same object.
    ("schema", schema(1, 0, 2), 0),
    ("state", state(2, []), 10),
    ("state", state(2, [name(0, 0)]), 10),
    ("state", state(2, [name(0, 0), name(0, 1), name(1, 1)]), 10),
    ("state", state(2, [name(0, 1), name(1, 1)]), 10),
    ("state", state(2, [name(0, 1), name(1, 0)]), 0),
    # 9 before 10.
    ("state", state(2, [name(1, 1), name(0, 1)]), 9),
    # A loose constant may share its object, but has one.
    ("schema", schema(1, 0, 2, loose=1), 0),
    ("state", state(2, [name(0, 1), name(1, 1)]), 0),
    ("state", state(2, [name(0, 1), name(1, 0)]), 0),
    ("state", state(2, [name(1, 1)]), 10),
    ("state", state(2, [name(0, 0), name(0, 1), name(1, 1)]), 10),
    ("schema", schema(1, 0, 2, loose=2), 0),
    ("state", state(2, [name(0, 1), name(1, 1)]), 0),
    ("state", state(2, [name(0, 1)]), 10),
    ("schema", schema(1, 0, 3, loose=4), 0),
    ("state", state(2, [name(0, 0), name(1, 1), name(2, 1)]), 0),
    ("state", state(2, [name(0, 0), name(1, 1), name(2, 0)]), 0),
    ("state", state(2, [name(0, 0), name(1, 0), name(2, 0)]), 10),
    ("schema", schema(1, 0, 3, loose=6), 0),
    ("state", state(2, [name(0, 0), name(1, 0), name(2, 0)]), 0),
    # A state for a query that uses marks 1 and 3: each has one object, and another mark none.
    ("schema", schema(1, 1, 1), 0),
    ("query", concept([(MARK, 1), EMPTY, (MARK, 3), FORWARD, REACHED, BOTH, (MARK, 1), BOTH]), 0),
    ("state", state(2, [name(0, 0), choice(1, 0), choice(3, 1)]), 0),
    ("state", state(2, [name(0, 0), choice(1, 1), choice(3, 1)]), 0),
    ("state", state(2, [name(0, 0), choice(1, 0), choice(3, 0)]), 0),
    # 10: a used mark without an object, or with two.
    ("state", state(2, [name(0, 0)]), 10),
    ("state", state(2, [name(0, 0), choice(1, 0)]), 10),
    ("state", state(2, [name(0, 0), choice(3, 0)]), 10),
    ("state", state(2, [name(0, 0), choice(1, 0), choice(1, 1), choice(3, 1)]), 10),
    ("state", state(2, [name(0, 0), choice(1, 0), choice(3, 0), choice(3, 1)]), 10),
    ("state", state(2, [choice(1, 0), choice(3, 1)]), 10),
    # 8: a mark that is not used, an object not below N, or a right word.
    ("state", state(2, [name(0, 0), choice(0, 0), choice(1, 0), choice(3, 1)]), 8),
    ("state", state(2, [name(0, 0), choice(1, 0), choice(2, 0), choice(3, 1)]), 8),
    ("state", state(2, [name(0, 0), choice(1, 2), choice(3, 1)]), 8),
    ("state", state(2, [name(0, 0), (choice(1, 0)[0], 1), choice(3, 1)]), 8),
    ("state", state(2, [name(0, 0), choice(1, 0), choice(3, 1), choice(4, 0)]), 8),
    # 8 before 9, 9 before 10.
    ("state", state(2, [name(0, 0), choice(3, 1), choice(1, 0), choice(2, 0)]), 8),
    ("state", state(2, [name(0, 0), choice(3, 1), choice(1, 0)]), 9),
    ("state", state(2, [choice(1, 0), choice(1, 0)]), 9),
    # For a query without marks every mark is one that is not used.
    ("query", concept([CLASS]), 0),
    ("state", state(2, [name(0, 0)]), 0),
    ("state", state(2, [name(0, 0), choice(1, 0)]), 8),
]


def made():
    cases = b"".join(words([ROLES[role], len(record), *record]) for role, record, _ in CASES)
    lines = "".join(f"{i} {role} {number}\n" for i, (role, _, number) in enumerate(CASES))
    return {CRATE / "data" / "cases.bin": cases, CRATE / "stdout": lines.encode()}


if __name__ == "__main__":
    sys.exit(kept("record_edges", made(), sys.argv[1:], f"{len(CASES)} cases"))
