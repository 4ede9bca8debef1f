"""Records of documents 01 and 02 as lists of words, and files made from them that are kept in the repository."""
import struct

# Token sorts.
CLASS, EVERYTHING, CONSTANT, BOTH, EMPTY, FORWARD, BACKWARD, REACHED, COMMON, MARK = range(1, 11)


def schema(classes, attributes, constants, axioms=(), loose=0):
    left, right = zip(*axioms) if axioms else ((), ())
    return [classes, attributes, constants, len(axioms), loose, *left, *right]


def entries(record, sizes):
    """The left and the right word of each entry, after so many size words."""
    n = (len(record) - sizes) // 2
    return list(zip(record[sizes:sizes + n], record[sizes + n:], strict=True))


def axioms(record):
    return entries(record, len(schema(0, 0, 0)))


def concept(tokens, steps=None):
    pairs = [t if isinstance(t, tuple) else (t, 0) for t in tokens]
    counted = sum(sort in (FORWARD, BACKWARD) for sort, _ in pairs)
    return [len(pairs), counted if steps is None else steps, *(s for s, _ in pairs), *(a for _, a in pairs)]


def catalogue(views):
    return [len(views), *map(len, views), *(word for view in views for word in view)]


def state(objects, facts, class_facts=None):
    counted = sum(left // 512 < 24 for left, _ in facts)
    return [objects, len(facts), counted if class_facts is None else class_facts, *(left for left, _ in facts),
            *(right for _, right in facts)]


def member(a, o):
    return (a * 512 + o, 0)


def pair(p, x, y):
    return ((24 + p) * 512 + x, y)


def name(a, o):
    return ((32 + a) * 512 + o, 0)


def choice(k, o):
    return ((36 + k) * 512 + o, 0)


def axiom(kind, subject, right):
    return (kind * 256 + subject, right)


def words(values):
    return struct.pack(f"<{len(values)}H", *values)


def kept(name, made, arguments, count):
    """Writes the files (path to content), or checks that they are as they would be written."""
    if arguments == ["write"]:
        for path, content in made.items():
            path.parent.mkdir(parents=True, exist_ok=True)
            path.write_bytes(content)
        return 0
    if arguments == ["check"]:
        stale = [str(p) for p, content in made.items() if not p.exists() or p.read_bytes() != content]
        print(f"{name}: {count}" if not stale else f"{name}: stale: {', '.join(stale)}")
        return 1 if stale else 0
    return 2
