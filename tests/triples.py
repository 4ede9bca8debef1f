#!/usr/bin/env python3
"""Triples of schema, query and view with the verdicts of documents 01 and 02, for the programs `triples` and `bikuvoa`, and the rowing
club's catalogue, for `bikuvoa_order`. Expected verdicts are the papers', worked out by hand where the papers say none.

  triples.py write   write the programs' data and expected output
  triples.py check   fail if what is written there, or a shipped example, differs from this table
"""
import pathlib
import sys

from words import (BACKWARD, BOTH, CLASS, COMMON, CONSTANT, EMPTY, EVERYTHING, FORWARD, MARK, REACHED, axiom, catalogue, concept,
                   kept, schema, words)

ROOT = pathlib.Path(__file__).resolve().parent.parent
CRATE = ROOT / "crates" / "triples"
PROGRAM = ROOT / "crates" / "bikuvoa"
PROGRAM_OPEN = ROOT / "crates" / "bikuvoa_open"
PROGRAM_ORDER = ROOT / "crates" / "bikuvoa_order"

# Classes and attributes of the small triples.
A, B, C = range(3)
P, Q = range(2)


def includes(a, b):
    return axiom(1, a, b)


def types(a, p, b):
    return axiom(2, a, p * 256 + b)


def needs(a, p):
    return axiom(3, a, p)


def single(a, p):
    return axiom(4, a, p)


def relates(p, a, b):
    return axiom(5, p, a * 256 + b)


# Concepts as lists of tokens.
def is_a(a):
    return [(CLASS, a)]


def both(c, d):
    return c + d + [BOTH]


def path(*steps):
    """Each step is a direction, an attribute and the concept on which it lands."""
    tokens = [EMPTY]
    for direction, attribute, landing in steps:
        tokens += landing + [(direction, attribute)]
    return tokens


def reached(*steps):
    return path(*steps) + [REACHED]


ANY = [EVERYTHING]


def small(*axioms):
    return schema(3, 2, 2, axioms)


def forward(*landings):
    return reached(*((FORWARD, P, landing) for landing in landings))


TWO_VALUES = both(is_a(A), both(forward(is_a(B)), forward(is_a(C))))
ONE_VALUE = forward(both(is_a(B), is_a(C)))
LOOP = (needs(A, P), types(A, P, A))
TWO_CONSTANTS = both([(CONSTANT, 0)], [(CONSTANT, 1)])


def loose_of(n, *loose):
    """Three classes, two attributes and n constants, of which these are loose; A has at most one P."""
    return schema(3, 2, n, [single(A, P)], sum(1 << k for k in loose))


def values(*constants):
    """Objects of A with each of these constants as a value of P."""
    found = is_a(A)
    for k in constants:
        found = both(found, forward([(CONSTANT, k)]))
    return found



def marked(k, c=ANY):
    """Objects of c that are mark k."""
    return both(c, [(MARK, k)])


def two_marked(j, k):
    """Objects with a value of P in B that is mark j, and one in C that is mark k."""
    return both(forward(marked(j, is_a(B))), forward(marked(k, is_a(C))))


# The start has itself as a value of P.
SELF = path((FORWARD, P, ANY)) + path() + [COMMON]


# The medical example of the report.
PATIENT, PERSON, DRUG, DOCTOR, DISEASE, STRING, TOPIC, MALE, FEMALE = range(9)
TAKES, CONSULTS, SUFFERS, NAME, SKILLED_IN = range(5)
MEDICAL = schema(9, 5, 0, [
    includes(PATIENT, PERSON), types(PATIENT, TAKES, DRUG), types(PATIENT, CONSULTS, DOCTOR), types(PATIENT, SUFFERS, DISEASE),
    needs(PATIENT, SUFFERS), types(PERSON, NAME, STRING), needs(PERSON, NAME), single(PERSON, NAME),
    types(DOCTOR, SKILLED_IN, DISEASE), relates(SKILLED_IN, PERSON, TOPIC)])
PATIENT_QUERY = both(both(is_a(MALE), is_a(PATIENT)),
                     path((FORWARD, CONSULTS, is_a(FEMALE)))
                     + path((FORWARD, SUFFERS, ANY), (BACKWARD, SKILLED_IN, is_a(DOCTOR))) + [COMMON])
PATIENT_VIEW = both(both(is_a(PATIENT), reached((FORWARD, NAME, is_a(STRING)))),
                    path((FORWARD, CONSULTS, is_a(DOCTOR)), (FORWARD, SKILLED_IN, is_a(DISEASE)))
                    + path((FORWARD, SUFFERS, is_a(DISEASE))) + [COMMON])

# A rowing club: what may be read from the stored list of persons whose strap has recorded a beat of a session.
ROWER_PERSON, ROWER, STRAP, SESSION, BEAT = range(5)
WEARS, RECORDS, DURING, ATTENDS = range(4)
CLUB_AXIOMS = [
    single(ROWER_PERSON, WEARS), includes(ROWER, ROWER_PERSON), needs(ROWER, WEARS), relates(WEARS, ROWER_PERSON, STRAP),
    needs(STRAP, RECORDS), relates(RECORDS, STRAP, BEAT), needs(BEAT, DURING), single(BEAT, DURING),
    relates(DURING, BEAT, SESSION), relates(ATTENDS, ROWER_PERSON, SESSION)]
CLUB = schema(5, 4, 0, CLUB_AXIOMS)
ROWERS = both(is_a(ROWER), reached((FORWARD, ATTENDS, is_a(SESSION))))
RECORDED = both(is_a(ROWER_PERSON), reached((FORWARD, WEARS, is_a(STRAP)), (FORWARD, RECORDS, ANY), (FORWARD, DURING, is_a(SESSION))))

# The same club, where a session is stroked by rowers: beats whose strap's wearer is also the session's stroke, and two stored
# lists, of the beats of rowers and of the beats of sessions that someone attends.
STROKED_BY = 4
STROKED = schema(5, 5, 0, [*CLUB_AXIOMS, relates(STROKED_BY, SESSION, ROWER)])
STROKE_BEATS = both(reached((BACKWARD, RECORDS, is_a(STRAP)), (BACKWARD, WEARS, [(MARK, 0)])),
                    reached((FORWARD, DURING, is_a(SESSION)), (FORWARD, STROKED_BY, [(MARK, 0)])))
ROWER_BEATS = reached((BACKWARD, RECORDS, is_a(STRAP)), (BACKWARD, WEARS, is_a(ROWER)))
ATTENDED_BEATS = reached((FORWARD, DURING, is_a(SESSION)), (BACKWARD, ATTENDS, is_a(ROWER_PERSON)))

TRIPLES = [
    (schema(1, 0, 0), is_a(A), is_a(A), "HELD"),
    (small(needs(A, P), relates(P, B, C)), is_a(A), is_a(B), "HELD"),
    (small(*LOOP), is_a(A), forward(*[ANY] * 6), "HELD"),
    (small(*LOOP), is_a(A), forward(*[ANY] * 5, is_a(B)), "OPEN"),
    (small(), TWO_CONSTANTS, is_a(A), "HELD"),
    (small(), TWO_CONSTANTS, forward(is_a(B)), "HELD"),
    (small(single(A, P)), TWO_VALUES, ONE_VALUE, "HELD"),
    (small(), TWO_VALUES, ONE_VALUE, "OPEN"),
    (small(needs(A, P)), is_a(A), reached((FORWARD, P, ANY), (BACKWARD, P, is_a(B))), "OPEN"),
    (MEDICAL, PATIENT_QUERY, PATIENT_VIEW, "HELD"),
    (MEDICAL, PATIENT_VIEW, PATIENT_QUERY, "OPEN"),
    # At most one value forward says nothing of backward steps.
    (small(single(A, P)), both(is_a(A), both(reached((BACKWARD, P, is_a(B))), reached((BACKWARD, P, is_a(C))))),
     reached((BACKWARD, P, both(is_a(B), is_a(C)))), "OPEN"),
    # The way back from a made value is to its maker.
    (small(needs(A, P)), is_a(A), reached((FORWARD, P, ANY), (BACKWARD, P, is_a(A))), "HELD"),
    (CLUB, ROWERS, RECORDED, "HELD"),
    (CLUB, RECORDED, ROWERS, "OPEN"),
    # Two constants at once, or as the one value of P: a clash unless one of them is loose.
    (loose_of(2, 0), TWO_CONSTANTS, is_a(A), "OPEN"),
    (loose_of(2, 1), TWO_CONSTANTS, is_a(A), "OPEN"),
    (loose_of(2, 0, 1), TWO_CONSTANTS, is_a(A), "OPEN"),
    (loose_of(3, 2), TWO_CONSTANTS, is_a(A), "HELD"),
    (loose_of(2), values(0, 1), is_a(B), "HELD"),
    (loose_of(2, 1), values(0, 1), is_a(B), "OPEN"),
    # They are then one object, and two that are not loose differ also where each is a loose third.
    (loose_of(2, 1), values(0, 1), forward(TWO_CONSTANTS), "HELD"),
    (loose_of(3, 2), values(0, 2, 1), is_a(B), "HELD"),
    (loose_of(3, 0, 2), values(0, 2, 1), is_a(B), "OPEN"),
    # A loose constant may share an object, and need not.
    (loose_of(2, 0, 1), [(CONSTANT, 0)], [(CONSTANT, 1)], "OPEN"),
    (STROKED, STROKE_BEATS, ROWER_BEATS, "HELD"),
    (STROKED, STROKE_BEATS, ATTENDED_BEATS, "OPEN"),
    # The places of one mark are one object; those of two marks may be one, and need not.
    (small(), two_marked(0, 0), ONE_VALUE, "HELD"),
    (small(), two_marked(3, 3), ONE_VALUE, "HELD"),
    (small(), two_marked(0, 3), ONE_VALUE, "OPEN"),
    (small(single(A, P)), both(is_a(A), two_marked(0, 3)), ONE_VALUE, "HELD"),
    (small(), two_marked(1, 2), both(forward(is_a(B)), forward(is_a(C))), "HELD"),
    # At the start and at a landing, on both sides of common, and behind another step.
    (small(), marked(2, forward([(MARK, 2)])), SELF, "HELD"),
    (small(), marked(2, forward([(MARK, 1)])), SELF, "OPEN"),
    (small(), marked(2, forward(ANY, [(MARK, 2)])), SELF, "OPEN"),
    (small(), marked(2, forward(ANY, [(MARK, 2)])),
     path((FORWARD, P, ANY), (FORWARD, P, ANY)) + path() + [COMMON], "HELD"),
    (small(), path((FORWARD, P, [(MARK, 0)]), (FORWARD, P, ANY)) + path((FORWARD, Q, [(MARK, 0)])) + [COMMON],
     path((FORWARD, P, ANY)) + path((FORWARD, Q, ANY)) + [COMMON], "HELD"),
    # A mark beside constants: it is each of them, which clash unless one is loose.
    (loose_of(1), both(forward(marked(0, [(CONSTANT, 0)])), forward(marked(0, is_a(B)))), forward(both([(CONSTANT, 0)], is_a(B))),
     "HELD"),
    (loose_of(2), both(forward(marked(0, [(CONSTANT, 0)])), forward(marked(0, [(CONSTANT, 1)]))), is_a(B), "HELD"),
    (loose_of(2, 0), both(forward(marked(0, [(CONSTANT, 0)])), forward(marked(0, [(CONSTANT, 1)]))), is_a(B), "OPEN"),
    (loose_of(2, 0), both(forward(marked(0, [(CONSTANT, 0)])), forward(marked(0, [(CONSTANT, 1)]))), forward(TWO_CONSTANTS), "HELD"),
    # A mark alone says only that there is an object.
    (small(), [(MARK, 0)], ANY, "HELD"),
    (small(), [(MARK, 0)], is_a(A), "OPEN"),
    # Faulty records are refused in the order schema, query, view.
    ([], is_a(A), is_a(A), "REFUSED 1"),
    ([1, 0, 0, 0], is_a(A), is_a(A), "REFUSED 1"),
    (schema(1, 0, 1, [axiom(6, 0, 0)], 2), is_a(9), [BOTH], "REFUSED 14"),
    (small(axiom(6, 0, 0)), is_a(9), [BOTH], "REFUSED 2"),
    (small(), [], [BOTH], "REFUSED 3"),
    (small(), is_a(3), [BOTH], "REFUSED 4"),
    (small(), [BOTH], is_a(3), "REFUSED 5"),
    (small(), is_a(A), forward(*[ANY] * 7), "REFUSED 6"),
    (small(), [(MARK, 4)], ANY, "REFUSED 4"),
    (small(), ANY, [(MARK, 0)], "REFUSED 4"),
    (small(), [(MARK, 0)], [(MARK, 0)], "REFUSED 4"),
]


# A stored run with an open answer: A needs P, and an object of A need not be in B. The papers leave the state free; this one has
# the object and the closing object, which is in every class and is its own value.
OPEN_RUN = (schema(2, 1, 0, [needs(A, P)]), concept(is_a(A)), concept(is_a(B)))
OPEN_LINES = b"OPEN 2 0\n0 0\n1 0\n513 0\n12288 1\n12289 1\n"


# Views of the club: persons, those who wear a strap that records something during a session, rowers who attend a session, and
# those who wear a strap. The second and the fourth hold each other.
CATALOGUE = catalogue([concept(view) for view in (is_a(ROWER_PERSON), RECORDED, ROWERS, reached((FORWARD, WEARS, is_a(STRAP))))])
ORDER_LINES = b"2\n1 3\n0\n\n0\n0 1 3\n0 1 2 3\n0 1 3\n"


def files(folder, schema_words, query, view):
    """The three files that the program reads."""
    return {folder / f"{name}.bin": words(record) for name, record in (("schema", schema_words), ("query", query), ("view", view))}


def line(i, verdict):
    return f"{i} {verdict}, a counterexample\n" if verdict == "OPEN" else f"{i} {verdict}\n"


def made():
    records = [(schema_words, concept(query), concept(view)) for schema_words, query, view, _ in TRIPLES]
    data = b"".join(words([len(s), len(q), len(v), *s, *q, *v]) for s, q, v in records)
    lines = "".join(line(i, verdict) for i, (*_, verdict) in enumerate(TRIPLES))
    first = records[0]
    return {
        CRATE / "data" / "triples.bin": data, CRATE / "stdout": lines.encode(),
        **files(PROGRAM / "data", *first), PROGRAM / "stdout": b"HELD\n",
        **files(PROGRAM_OPEN / "data", *OPEN_RUN), PROGRAM_OPEN / "stdout": OPEN_LINES,
        PROGRAM_ORDER / "data" / "schema.bin": words(CLUB), PROGRAM_ORDER / "data" / "catalogue.bin": words(CATALOGUE),
        PROGRAM_ORDER / "stdout": ORDER_LINES,
    }


def shipped():
    """The examples. They are written from their text by example/write, and must have the words of this table."""
    folder = ROOT / "example"
    return {
        **files(folder, CLUB, concept(ROWERS), concept(RECORDED)), folder / "catalogue.bin": words(CATALOGUE),
        **files(folder / "reversed", CLUB, concept(RECORDED), concept(ROWERS)),
        **files(folder / "stroke", STROKED, concept(STROKE_BEATS), concept(ROWER_BEATS)),
        **files(folder / "stroke" / "attended", STROKED, concept(STROKE_BEATS), concept(ATTENDED_BEATS)),
    }


if __name__ == "__main__":
    status = kept("triples", made(), sys.argv[1:], f"{len(TRIPLES)} triples")
    sys.exit(status or kept("examples", shipped(), ["check"], f"{len(shipped())} files"))
