#!/usr/bin/env python3
"""Holds docs/RECORDS.md to the code: the numbers of its tables to the Rattle sources, to the C header and to tests/words.py, and
its example word by word to the records of example/. What README.md repeats (limits, lent words, stack) is held to the
page, and to the program where it has been built. Sources are read as text: a number that is written in another way fails too.
"""
import re
import struct
import sys

import triples
import words
from program import PROGRAM, judged, run
from triples import ATTENDED_BEATS, CLUB, RECORDED, ROOT, ROWERS, STROKE_BEATS, STROKED

PAGE = (ROOT / "docs" / "RECORDS.md").read_text()
README = (ROOT / "README.md").read_text()
HEADER = (ROOT / "include" / "bikuvoa.h").read_text()
SOURCE = {name: "".join((ROOT / "crates" / path).read_text() for path in paths.split()) for name, paths in {
    "schema": "records/src/schema.rt check_schema/src/lib.rt", "state": "records/src/state.rt check_state/src/lib.rt",
    "concept": "records/src/token.rt check_concept/src/sorts.rt records/src/marks.rt records/src/concept.rt check_concept/src/lib.rt",
    "named": "records/src/named.rt check_concept/src/named.rt", "check": "check_concept/src/check.rt",
    "refusal": "records/src/refusal.rt",
    "select": "judge/src/select.rt", "legal": "judge/src/legal.rt", "counterexample": "judge/src/counterexample.rt",
    "links": "links/src/lib.rt", "decide": "decide/src/lib.rt decide/src/check.rt", "holds": "decide/src/holds.rt decide/src/check.rt",
    "catalogue": "check_catalogue/src/lib.rt catalogue/src/check.rt"}.items()}
ENTRIES = "".join(path.read_text() for path in sorted((ROOT / "crates" / "bikuvoa_c" / "src").glob("*.rt")))
held, faults = [], []


def hold(what, said, *found):
    held.append(what)
    if any(other != said for other in found):
        faults.append(f"{what}: {said} here, {', '.join(map(str, found))} there")


# The page's tables, each as rows of cells, by the first two cells of its head.
def tables():
    found = {}
    for block in re.findall(r"(?:^\|.*\n)+", PAGE, re.M):
        head, _, *rows = ([cell.strip() for cell in line[1:-1].split("|")] for line in block.splitlines())
        found.setdefault(", ".join(head[:2]), []).append(rows)
    return found


def number(text):
    return int(text.replace(",", ""))


# The numbers that the sources and the header name, and those in the text of a function.
def evaluated(definitions):
    """Names to numbers, or to functions where there is a parameter. What uses an unknown name is passed over."""
    known = {}
    for name, parameter, text in definitions:
        if all(part in {*known, parameter} for part in re.findall(r"\b[A-Za-z]\w*", text)):
            known[name] = eval(f"lambda {parameter}: {text}" if parameter else text, known)
    return known


def roles_of(source):
    """The roles of concepts: the most steps, and the set of marks, which may be said to be another role's."""
    found = {}
    for name, steps, marks, other in re.findall(
            r"impl Role for (\w+) \{\s*const STEPS: usize = (\d+);(?:\s*//.*)?\s*const MARKS: u32 = (?:(\d+)|(\w+)::MARKS);", source):
        found[name] = (name, steps, marks or found[other][2])
    return list(found.values())


ROLES = roles_of(SOURCE["concept"])
CODE = evaluated([(name, "", text) for name, text in re.findall(r"^(?:pub )?const (\w+): usize = ([^;]+);", "".join(SOURCE.values()), re.M)])
C = evaluated([
    *re.findall(r"#define (\w+)(?:\((\w+)\))? (.+)", HEADER.replace("BIKUVOA_", "")),
    *((name, "", n) for name, n in re.findall(r"BIKUVOA_(\w+) = (\d+)", HEADER))])


def value(text):
    return CODE[text] if text in CODE else int(text)


def function(source, name):
    return re.search(rf"^( *)(?:pub )?fn {name}(?:<.*>)?\(.*?^\1\}}$", SOURCE[source], re.M | re.S).group()


def in_function(source, name, pattern):
    return value(re.search(pattern, function(source, name)).group(1))


def layout(record):
    return tuple(in_function(record, f"{record}_layout", rf"{field}: (\w+)") for field in ("sizes", "counter"))


def shapes(rows):
    built = {"schema": words.schema(0, 0, 0), "concept": words.concept([]), "state": words.state(0, [])}
    hold("records", [row[0] for row in rows], list(built))
    for record, names, counted, length in rows:
        names = names.split(", ")
        hold(f"{record}, size words", (len(names), names.index(counted)), layout(record))
        hold(f"{record}, number of size words", len(names), len(built[record]), C[f"{record.upper()}_SIZES"])
        hold(f"{record}, length", length, f"{len(names)} + 2n")
        hold(f"{record}, length in the header", len(names) + 2 * 5, C[f"{record.upper()}_WORDS"](5))
        for place, name in enumerate(names):
            hold(f"{record}, place of {name}", place, C[f"AT_{name.upper().replace(' ', '_')}"])


def roles(rows):
    """The places where a concept stands. Marks are numbered without a gap, so the last one tells how many there are."""
    marks = {place: int(text.split(" to ")[1]) + 1 if " to " in text else 0 for place, _, text in rows}
    hold("roles", [(place.split()[0].capitalize(), steps, str((1 << marks[place]) - 1)) for place, steps, _ in rows], ROLES)
    for place, steps, _ in rows:
        hold(f"steps of a {place} in the header", int(steps), C[f"{place.split()[-1].upper()}_STEPS"])
    hold("marks", max(marks.values()), CODE["MAX_MARKS"], C["MAX_MARKS"])
    return {"marks": max(marks.values()), **{f"steps of a {place}": int(steps) for place, steps, _ in rows if place in ("query", "view")}}


def limits(rows):
    hold("limits", {f"MAX_{name.upper()}" for name, *_ in rows} | {"MAX_MARKS"}, {name for name in CODE if name.startswith("MAX_")})
    for name, least, most in rows:
        constant = f"MAX_{name.upper()}"
        hold(f"limit of {name}", number(most), CODE[constant], C[constant])
        checks = {"tokens": ("concept", "bad_shape"), "views": ("catalogue", "bad_layout")}
        hold(f"least {name}", number(least), in_function(*checks[name], r"\(n < (\w+)\)") if name in checks else 0)
    return {name: number(most) for name, _, most in rows}


def numbered(rows, source, decoder, check, word):
    """Kinds or sorts. The decoder's last arm has no number: its own is the highest that the check lets pass."""
    page = {int(n): name for n, name, *_ in rows}
    arms = re.findall(r"^\s*(\w+) => \w+::(\w+)", function(source, decoder), re.M)
    last = in_function(source, check, rf"\((\w+) < {word}\)")
    hold(f"names by {word}", page, {last if n == "_" else value(n): name.lower() for n, name in arms})
    hold(f"lowest {word}", min(page), in_function(source, check, rf"\({word} < (\w+)\)"))
    for n, name in page.items():
        hold(f"{name} in the header", n, C[name.upper()])
    return page


def stack_move(token):
    """What the check takes off its stack of sorts, the top first, and puts there: 0 is a concept, 1 a path."""
    arms = re.findall(r"((?:Token::\w+(?:\(_\))?(?: \| )?)+) => (?:\{\s*)?(?:Some\()?self\.(\w+)\(([\d, ]*)\)", function("concept", "push"))
    call, given = next((call, given) for names, call, given in arms if token in re.findall(r"Token::(\w+)", names))
    if call == "put":
        takes, puts = [], int(given)
    elif call == "reach":
        takes, puts = [1], 0
    else:
        want, puts = map(int, given.split(", "))
        takes = [want % 2, want // 2]
    sorts = ["concept", "path"]
    return ", ".join(sorts[n] for n in takes) or "nothing", sorts[puts]


def tokens(rows):
    for n, name, argument, takes, puts in rows:
        token = name.capitalize()
        hold(f"token {name} in words.py", int(n), getattr(words, name.upper(), None))
        hold(f"token {name} has an argument", argument != "0", f"Token::{token}(argument)" in function("concept", "token_of"))
        hold(f"token {name} takes and puts", (takes, puts.split()[1]), stack_move(token))


def facts(rows):
    said = re.findall(r"(\w+) · (\d+) \+ ([A-Za-z]+)", " ".join(PAGE.split()))
    hold("words of two parts", {"subject", "object"} - {second for *_, second in said}, set())
    for first, factor, second in said:
        part = "OBJECT_PART" if second == "object" else "BYTE_PART"
        hold(f"{first} · {factor} + {second}", int(factor), CODE[part], C[part])
    hold("axioms in words.py", (3 * CODE["BYTE_PART"] + 7, 5), words.axiom(3, 7, 5))
    made = {"class": words.member(1, 7), "attribute": words.pair(1, 7, 5), "constant": words.name(1, 7), "mark": words.choice(1, 7)}
    starts = ["ATTRIBUTE_KINDS", "CONSTANT_KINDS", "MARK_KINDS", "FACT_KINDS"]
    past = 0
    for start, (kinds, name, text, right) in zip(starts, rows, strict=True):
        first, last = map(int, kinds.split(" to "))
        hold(f"kinds of a {name} begin", first, past)
        hold(f"kinds of a {name} end", last + 1, CODE[start], C[start])
        hold(f"kinds of a {name}, what is taken off", re.findall(r"− (\d+)", text), [str(first)] * (first > 0))
        hold(f"facts of a {name} in words.py", ((first + 1) * CODE["OBJECT_PART"] + 7, 0 if right == "0" else 5), made[name])
        past = last + 1


def class_facts(rows):
    """The third size word of a state: where the code has it, and which kinds the page, the code and words.py count there."""
    place = in_function("state", "class_facts", r"word\(words, (\w+)\)")
    past = in_function("state", "is_class_fact", r"kind_at\(words, i\) < (\w+)")
    hold("place of class facts in the code", C["AT_CLASS_FACTS"], place)
    hold("kinds of class facts", [kinds for kinds, name, *_ in rows if name == "class"], [f"0 to {past - 1}"],
         re.findall(r"\*class facts\*, the facts of kinds (\d+ to \d+)", " ".join(PAGE.split())))
    for kinds, name, *_ in rows:
        for kind in map(int, kinds.split(" to ")):
            hold(f"class facts of kind {kind} in words.py", int(name == "class"), words.state(1, [(kind * CODE["OBJECT_PART"], 0)])[place])


def sets(rows):
    width, = re.findall(r"A set is an unsigned number of (\d+) bits", " ".join(PAGE.split()))
    hold("sets in the header", [row[0] for row in rows] * len(ROLES), re.findall(rf"uint{width}_t \*(\w+)", HEADER))
    for (name, bits, naming), made in zip(rows, ("class_of", "attribute_of"), strict=True):
        code = function("named", made)
        hold(f"tokens that name {name}", naming.split(", "), [token.lower() for token in re.findall(r"Token::(\w+)\((?!_)", code)])
        hold(f"bits of a set of {name}", {int(bits)}, {CODE[limit] for limit in re.findall(r"MAX_\w+", code)})
    return [naming.split(", ") for *_, naming in rows]


def looked_at(source, name):
    """What a function checks, in order, with what it leaves to its file's `check` in that one's place."""
    found = re.findall(r"(?<!fn )\bcheck(?:\(|_\w+(?:::<\w+>)?)|lent\.len|Refusal::\w+", function(source, name).split("{", 1)[1])
    return [look for part in found for look in (looked_at(source, "check") if part == "check(" else [part])]


# The refusals with their numbers.
REFUSALS = {name: int(n) for name, n in re.findall(r"^ +(\w+) = (\d+),", SOURCE["refusal"], re.M)}


def given(record):
    """The numbers that a record's check gives, in its order: its own, then those of `answer`, with which it ends."""
    check = "check_tokens" if record == "concept" else f"check_{record}"
    return [REFUSALS[name] for part in (check, "answer") for name in re.findall(r"Refusal::(\w+)", function(record, part))]


def refusals(rows, orders, lent):
    page = {}
    for n, name, record, _ in rows:
        page.setdefault(record, []).append(int(n))
        hold(f"refusal {n} in the header", int(n), C.get(name))
    for name in re.findall(r"`(bikuvoa_\w+)`", PAGE):
        is_program = (ROOT / "crates" / name / "src" / "main.rt").exists()
        hold(f"{name} is in the header or a program", f"{name}(" in HEADER or is_program, True)
    text = " ".join(PAGE.split())
    told = re.findall(r"a (\w+) (?:is checked )?by ([\d, and]+), in this order", text)
    checked = {"concept": page["concept"], **{record: [int(n) for n in re.findall(r"\d+", numbers)] for record, numbers in told}}
    for record in ("schema", "concept", "state"):
        hold(f"refusals of a {record} by number", page[record], sorted(checked[record]))
        hold(f"refusals of a {record}", page[record], sorted(n for name, n in REFUSALS.items() if name.startswith(record.capitalize())))
        hold(f"refusals of a {record} as they are given", checked[record], given(record))
    hold("functions", [row[0] for row in orders], re.findall(r"^uint16_t bikuvoa_(\w+)\(", HEADER, re.M))
    hold("functions with lent words", [row[0] for row in lent], [entry for entry, text in orders if "lent words" in text])
    hold("refusals of a catalogue", ["bad_layout", *page["catalogue"], "check_concept::<View>"],
         [REFUSALS.get(look.removeprefix("Refusal::"), look)
          for look in re.findall(r"bad_layout|Refusal::(?!Catalogue\b)\w+|check_concept::<\w+>", function("catalogue", "check_catalogue").split("{", 1)[1])])
    hold("refusals of an attribute", page["attribute"], [REFUSALS["Attribute"]])
    least, most, more = map(int, re.search(r"Their refusals are (\d+) to (\d+) and (\d+)", text).groups())
    hold("refusals of a concept by itself", [*range(least, most + 1), more], sorted(page["schema"] + page["concept"]))
    hold("refusals for lent words", page["lent words"], [REFUSALS["LentWords"]])
    hold("limit and marks of a checked concept are its role's", ["R::STEPS", "R::MARKS"], re.findall(r"\bR::\w+", function("concept", "check_concept")))
    looks = {"lent words": ["lent.len", "Refusal::LentWords"], "attribute": ["Refusal::Attribute"],
             **{place: [f"check_concept::<{place.split()[0].capitalize()}>"] for place in ("plain query", "query", "view")}}
    for entry, text in orders:
        source, _, name = {"catalogue": "catalogue_check"}.get(entry, entry).partition("_")
        # A concept is checked in the role that the entry for C names. Of a catalogue only that entry is lent words.
        called = re.search(rf"fn bikuvoa_{entry}\(.*?^\}}", ENTRIES, re.M | re.S).group()
        role = re.search(r"\bcheck::<(\w+)>", called)
        parts = text.removesuffix(", lent words" if entry == "catalogue" else "").split(", ")
        hold(f"checks of {entry}", [look for part in parts for look in looks.get(part, [f"check_{part}"])],
             [look.replace("<R>", f"<{role.group(1)}>") if role else look for look in looked_at(source, "check" if role else name or entry)])
    hold("refusals by the entries for C", page["lent words"], [REFUSALS[name] for name in re.findall(r"Refusal::(\w+)", ENTRIES)])


def lent_words(rows, answer):
    least = {entry: text for entry, text, _ in rows}
    hold("lent words of decide", number(least["decide"]), CODE["STATE_WORDS"], C["DECIDE_WORDS"])
    said = [(name, int(n)) for n, name in re.findall(r"(\d+) for (\w+)", least["catalogue"])]
    hold("lent words of catalogue", said, [(row[0], C["MAX_VIEWS"]) for row in answer],
         [(name, value(n)) for name, n in re.findall(r"(\w+)\.len\(\) < (\w+)", ENTRIES)])
    declared = re.search(r"^uint16_t bikuvoa_catalogue\(.*?\);", HEADER, re.M | re.S).group()
    hold("lent words of catalogue in the header", [row[0] for row in answer], re.findall(r"(?<!const )uint16_t \*(\w+)", declared))
    return number(least["decide"])


# The example: the words of a table, and what its meanings must be by these words.
def spelled(rows, part=None):
    found = {}
    for cells in rows:
        for place, text in (cells[:2], cells[2:4]):
            if place:
                n, *product = text.split(" = ")
                found[int(place)] = int(n)
                if product:
                    hold(f"word {place} of the example", product[0], f"{int(n) // part} · {part} + {int(n) % part}")
    return [found[place] for place in range(len(found))], [cells[4] for cells in rows]


def split(record, shape):
    """The size words, and the left and right word of each entry."""
    sizes, _ = layout(shape)
    return record[:sizes], words.entries(record, sizes)


def stored(name):
    content = (ROOT / "example" / f"{name}.bin").read_bytes()
    return list(struct.unpack(f"<{len(content) // 2}H", content))


class Names:
    """The names of the club's classes and attributes, and what axioms, tokens and facts say in these words."""

    def __init__(self, *lines):
        self.classes, self.attributes = (re.findall(r"\d+ (\w+)", line) for line in lines)
        hold("numbers of names", [list(map(int, re.findall(r"\d+", line))) for line in lines],
             [list(range(len(names))) for names in (self.classes, self.attributes)])

    def verb(self, attribute):
        return {"during": "is during"}.get(self.attributes[attribute], self.attributes[attribute])

    def axiom(self, left, right):
        (kind, a), (first, second) = divmod(left, CODE["BYTE_PART"]), divmod(right, CODE["BYTE_PART"])
        if kind == C["RELATES"]:
            return f"{self.attributes[a]} goes from a {self.classes[first]} to a {self.classes[second]}"
        if kind == C["SUBCLASS"]:
            return f"a {self.classes[a]} is a {self.classes[right]}"
        return f"a {self.classes[a]} {self.verb(right)} {'something' if kind == C['NECESSARY'] else 'at most one thing'}"

    def token(self, sorts, sort, argument):
        named = {"class": self.classes, "forward": self.attributes, "backward": self.attributes, "mark": "0123"}.get(sorts[sort])
        return f"{sorts[sort]} {named[argument]}" if named else sorts[sort]

    def fact(self, left, right):
        kind, x = divmod(left, CODE["OBJECT_PART"])
        first = CODE["ATTRIBUTE_KINDS"]
        return f"{x} is a {self.classes[kind]}" if kind < first else f"{x} {self.verb(kind - first)} {right}"


def as_set(numbers):
    """A set as the page writes it: its bits are added up where there are several."""
    bits = [1 << n for n in numbers]
    return f"{sum(bits)} = {' + '.join(map(str, bits))}" if len(bits) > 1 else str(sum(bits))


def named(rows, names, naming, sorts):
    for concept, *said in rows:
        _, entries = split(stored(concept), "concept")
        classes, attributes = (sorted({argument for sort, argument in entries if sorts[sort] in tokens}) for tokens in naming)
        hold(f"what {concept}.bin names", said, [
            ", ".join(names.classes[a] for a in classes), as_set(classes),
            ", ".join(names.attributes[p] for p in attributes), as_set(attributes), str(len(classes))])


def ordered(rows):
    """The groups in order, each as a list of views; row i is the set of the views by which view i is held."""
    to_come, groups = {*range(len(rows))}, []
    while to_come:
        narrower = {i: {j for j in to_come if i in rows[j] and j not in rows[i]} for i in to_come}
        lowest = min(i for i in to_come if not narrower[i])
        groups.append([i for i in sorted(to_come) if i in rows[lowest] and lowest in rows[i]])
        to_come -= {*groups[-1]}
    return groups


def catalogue(rows, groups, names, sorts):
    arguments = {"class": names.classes, "forward": names.attributes, "backward": names.attributes}
    tokens = {names.token(sorts, sort, n): (sort, n) for sort, name in sorts.items() for n in range(len(arguments.get(name, "0")))}
    views = [stored(what[len("example/"):-len(".bin")]) if what.endswith(".bin")
             else words.concept([tokens[token] for token in what.split(", ")]) for _, what, *_ in rows]
    record = words.catalogue(views)
    before, total = len(record) - sum(map(len, views)), sum(map(len, views))
    text = " ".join(PAGE.split())
    hold("words before the views", before, 1 + len(views), C["CATALOGUE_SIZES"](len(views)))
    hold("words of the catalogue", re.findall(r"have (\d+) words in all, so their catalogue has (\d+) \+ (\d+) \+ (\d+) = (\d+)", text),
         [tuple(map(str, (total, 1, len(views), total, len(record))))])
    hold("what the catalogue begins with", re.findall(r"It begins with ([\d, ]+)\.", text), [", ".join(map(str, record[:before]))])
    held_by = [[int(n) for n in by.split(", ")] for *_, by, _ in rows]
    for i, (view, _, length, place, _, row) in enumerate(rows):
        hold(f"view {i} of the catalogue", (int(view), record[int(place):int(place) + int(length)]), (i, views[i]))
        hold(f"row {i} of the catalogue", row, as_set(held_by[i]))
    hold("groups of the catalogue", [tuple(row) for row in groups],
         [(str(k), ", ".join(map(str, group)), as_set(group)) for k, group in enumerate(ordered(held_by))])
    if PROGRAM.exists():
        for i, query in enumerate(views):
            verdicts = [run({"schema.bin": words.words(CLUB), "query.bin": words.words(query), "view.bin": words.words(view)})
                        for view in views]
            hold(f"by which view {i} is held", held_by[i], [j for j, lines in enumerate(verdicts) if lines == ["HELD"]])


def stroke(names, sorts):
    """The query with marks, its schema's further attribute, and the fact of a mark."""
    text = " ".join(PAGE.split())
    attribute, name, first, last = re.search(r"a further attribute, (\d+) ([a-z ]+), which goes from a (\w+) to a (\w+)", text).groups()
    sizes, axioms = split(stored("stroke/schema"), "schema")
    club, before = split(stored("schema"), "schema")
    hold("further attribute", (int(attribute), axioms[:-1]), (club[C["AT_ATTRIBUTES"]], before), (sizes[C["AT_ATTRIBUTES"]] - 1, before))
    names.attributes.append(name)
    hold("further axiom", f"{name} goes from a {first} to a {last}", names.axiom(*axioms[-1]))
    spelled_out, = re.findall(r"mark 0: `([^`]+)`", text)
    _, entries = split(stored("stroke/query"), "concept")
    hold("tokens of stroke/query.bin", spelled_out.split(", "), [names.token(sorts, *entry) for entry in entries])
    kind, part, x, left = map(int, re.search(r"mark 0 is (\d+) · (\d+) \+ (\d+) = (\d+)", text).groups())
    hold("fact of a mark", (kind * part + x, 0), (left, 0), words.choice(0, x))


def example(schema, query, view, state, sorts, naming, shown, views, groups):
    record, meanings = spelled(schema, CODE["BYTE_PART"])
    names = Names(*meanings[:2])
    sizes, entries = split(record, "schema")
    hold("words of schema.bin", record, stored("schema"))
    hold("meaning of schema.bin", meanings[len(sizes):], [names.axiom(*entry) for entry in entries])
    for name, table in (("query", query), ("view", view)):
        record, meanings = spelled(table)
        sizes, entries = split(record, "concept")
        hold(f"words of {name}.bin", record, stored(name))
        hold(f"meaning of {name}.bin", meanings[len(sizes):], [names.token(sorts, *entry) for entry in entries])
    named(shown, names, naming, sorts)
    catalogue(views, groups, names, sorts)
    record, meanings = spelled(state, CODE["OBJECT_PART"])
    sizes, entries = split(record, "state")
    hold("words of the state", record, words.state(sizes[C["AT_OBJECTS"]], entries))
    hold("meaning of the state", meanings[len(sizes):], [names.fact(*entry) for entry in entries])
    stroke(names, sorts)
    return sizes, entries


def readme(most, least):
    text = " ".join(README.split())
    for name, n in most.items():
        said = f"{n:,} in a view" if name == "steps of a view" else f"{n:,} {name}".replace(" of a ", " in a ")
        hold(f"README.md says {said}", bool(re.search(rf"(?<![\d,]){said}\b", text)), True)
    hold("README.md, stack", re.findall(r"give each thread (\d+) KB", text), [str(C["STACK_BYTES"] >> 10)])
    hold("README.md, lent words", re.findall(r"([\d,]+) words \(([\d,]+) bytes\)", text), [(f"{least:,}", f"{2 * least:,}")])


def programs(sizes, entries):
    """What the page says that the programs print."""
    text = " ".join(PAGE.split())
    printed, marked = ([line.strip() for line in block.splitlines()]
                       for block in re.findall(r"^    OPEN.*\n(?:    \d+ \d+\n)+", PAGE, re.M))
    hold("what is printed of the state", printed[1:], [f"{left} {right}" for left, right in entries])
    hold("sizes of the state", (sizes[C["AT_OBJECTS"]], sizes[C["AT_FACTS"]]), (number(printed[0].split()[1]), len(entries)))
    told = re.findall(r"a state of (\d+) objects in which object (\d+)", text)
    hold("what is said of the state", told, [tuple(printed[0].split()[1:])])
    order = re.search(r"^    \d+\n(?:    [\d ]+\n|\n)+(?=that is, a line)", PAGE, re.M).group()
    hold("the printed order", [line.strip() for line in order.strip().splitlines()], triples.ORDER_LINES.decode().splitlines())
    judged(printed, CLUB, RECORDED, ROWERS)
    judged(marked, STROKED, STROKE_BEATS, ATTENDED_BEATS)
    if PROGRAM.exists():
        for folder, lines in ((".", ["HELD"]), ("reversed", printed), ("stroke", ["HELD"]), ("stroke/attended", marked)):
            hold(f"the program in {folder}", lines, run({f"{name}.bin": words.words(stored(f"{folder}/{name}")) for name in ("schema", "query", "view")}))


def main():
    page = tables()
    shapes(*page["record, size words, in this order"])
    most = {**limits(*page["size, least"]), **roles(*page["place, most steps"])}
    numbered(*page["kind, name"], "schema", "axiom_of", "faulty_axiom", "kind")
    sorts = numbered(*page["sort, name"], "concept", "token_of", "faulty_token", "sort")
    tokens(*page["sort, name"])
    facts(*page["kinds, name"])
    class_facts(*page["kinds, name"])
    naming = sets(*page["set, bits"])
    lent, = page["function, least lent words"]
    refusals(*page["number, in the header"], *page["function, looks at, in this order"], lent)
    least = lent_words(lent, *page["lent words, word"])
    shown = [*page["concept, classes"], *page["view, what"], *page["group, views"]]
    programs(*example(*page["word, value"], sorts, naming, *shown))
    readme(most, least)
    print("\n".join(faults) if faults else f"records page: {len(held)} facts held to the code")
    return 1 if faults else 0


if __name__ == "__main__":
    sys.exit(main())
