"""Databases and their text."""

from fields import EACH, LINES, WORDS
from forms import Lines, Refusal, ascends, is_name, is_number

GREATEST = 4096


class Service:
    def __init__(self, kind, **said):
        self.kind = kind
        self.needs = []
        for field in EACH:
            setattr(self, field.name, said.get(field.name, field.missing))


class Database:
    """Services and bundles by name; a bundle is the set of its members."""

    def __init__(self):
        self.services = {}
        self.bundles = {}


def read_count(lines, word):
    words = lines.next_line()
    if len(words) != 2 or words[0] != word or not is_number(words[1]):
        raise lines.bad()
    if int(words[1]) > GREATEST:
        raise Refusal("TooMany")
    lines.passed()
    return int(words[1])


def read_names(lines, word, least=0):
    """A line of a word and names, as many as these at least."""
    words = lines.next_line()
    if words[0] != word or len(words) <= least or not all(is_name(w) for w in words[1:]):
        raise lines.bad()
    lines.passed()
    return words[1:]


def read_service(lines):
    words = lines.next_line()
    if len(words) != 3 + len(WORDS) or words[0] != b"service" or not is_name(words[1]):
        raise lines.bad()
    if words[2] not in LINES:
        raise lines.bad()
    said = {field.name: field.of_word(lines, word) for field, word in zip(WORDS, words[3:])}
    lines.passed()
    needs = read_names(lines, b"needs")
    said.update((field.name, field.of_line(lines)) for field in LINES[words[2]])
    service = Service(words[2], **said)
    service.needs = needs
    return words[1], service


def reached(needs, start):
    """All that is needed along a path of at least one step."""
    seen = set()
    todo = list(needs(start))
    while todo:
        one = todo.pop()
        if one not in seen:
            seen.add(one)
            todo.extend(needs(one))
    return seen


def check_meaning(services, bundles):
    lists = [[name for name, _ in services], [name for name, _ in bundles]]
    lists += [s.needs for _, s in services] + [members for _, members in bundles]
    if not all(ascends(names) for names in lists):
        raise Refusal("NotSorted")
    by_name = dict(services)
    for _, service in services:
        if any(n not in by_name for n in service.needs):
            raise Refusal("Dangling")
        target = service.producer
        if target is not None:
            if target not in service.needs or by_name[target].kind != b"longrun":
                raise Refusal("Dangling")
    for name, members in bundles:
        if name in by_name or any(m not in by_name for m in members):
            raise Refusal("Dangling")
    for name in by_name:
        if name in reached(lambda s: by_name[s].needs, name):
            raise Refusal("Cyclic")


def read(text, whole):
    """The database of a text, and what is behind it; of a whole text nothing may be."""
    lines = Lines(text)
    lines.version(b"undorc-db", (1,))
    services = [read_service(lines) for _ in range(read_count(lines, b"services"))]
    bundles = []
    for _ in range(read_count(lines, b"bundles")):
        words = read_names(lines, b"bundle", 1)
        bundles.append((words[0], words[1:]))
    lines.whole([b"end"])
    if whole:
        lines.nothing_more()
    check_meaning(services, bundles)
    base = Database()
    base.services = dict(services)
    base.bundles = {name: frozenset(members) for name, members in bundles}
    return base, text[lines.at :]


def text_of(base):
    out = [b"undorc-db 1\n", b"services %d\n" % len(base.services)]
    for name in sorted(base.services):
        s = base.services[name]
        head = [b"service", name, s.kind] + [field.word(getattr(s, field.name)) for field in WORDS]
        out.append(b" ".join(head) + b"\n")
        out.append(b" ".join([b"needs"] + sorted(s.needs)) + b"\n")
        out += [field.line(getattr(s, field.name)) for field in LINES[s.kind]]
    out.append(b"bundles %d\n" % len(base.bundles))
    for name in sorted(base.bundles):
        out.append(b" ".join([b"bundle", name] + sorted(base.bundles[name])) + b"\n")
    return b"".join(out) + b"end\n"
