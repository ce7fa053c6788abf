"""Source directories as a tree of dictionaries (folders) and bytes (files), and what they define."""

from database import GREATEST, Database, Service, reached
from fields import FILES, PRODUCER
from files import file_text, less_newline, names, names_of_file, one_name
from forms import Refusal, is_name

KINDS = (b"oneshot", b"longrun", b"bundle")


class Entry:
    def __init__(self, kind):
        self.kind = kind
        self.said = {}
        self.needs = []
        self.contents = []
        self.producer_for = []
        self.consumer_for = []
        self.pipeline_name = []


def read_entry(name, folder):
    kind = file_text(name, folder, b"type")
    if kind is None:
        raise Refusal("NoType", name)
    if less_newline(kind) not in KINDS:
        raise Refusal("BadType", name)
    entry = Entry(less_newline(kind))
    if entry.kind == b"bundle":
        entry.contents = names(name, folder, b"contents")
        return entry
    if entry.kind == b"longrun" and b"run" not in folder:
        raise Refusal("NoRun", name)
    entry.said = {field.name: field.of_file(name, folder) for field in FILES[entry.kind]}
    entry.needs = names(name, folder, b"dependencies")
    entry.said[PRODUCER.name] = fed = PRODUCER.of_file(name, folder)
    entry.producer_for = [] if fed is None else [fed]
    entry.consumer_for = sorted(set(names_of_file(name, folder, b"consumer-for")))
    entry.pipeline_name = one_name(name, folder, b"pipeline-name")
    return entry


def read_trees(trees):
    entries = {}
    for tree in trees:
        for name in sorted(tree):
            if name[:1] == b"." or not isinstance(tree[name], dict):
                continue
            if not is_name(name):
                raise Refusal("BadName", name)
            if name in entries:
                raise Refusal("Twice", name)
            entries[name] = read_entry(name, tree[name])
    return entries


def check_unknown(entries, pipelines):
    for name in sorted(entries):
        entry = entries[name]
        spoken = entry.needs + entry.contents + entry.consumer_for + entry.producer_for
        for other in sorted(spoken):
            if other not in entries and other not in pipelines.values():
                raise Refusal("UnknownIn", name, other)


def check_pipes(entries):
    services = {n: e for n, e in entries.items() if e.kind != b"bundle"}
    longruns = [n for n in services if services[n].kind == b"longrun"]
    for name in sorted(services):
        entry = services[name]
        around = entry.producer_for + entry.consumer_for
        if around and any(s not in longruns for s in [name] + around):
            raise Refusal("PipelineType", name)
    for name in sorted(services):
        entry = services[name]
        ahead = [name in entries[s].consumer_for for s in entry.producer_for]
        behind = [entries[s].producer_for == [name] for s in entry.consumer_for]
        if not all(ahead + behind):
            raise Refusal("PipelineMismatch", name)


def named_pipelines(entries):
    """The longrun at the end of each pipeline that has a name."""
    return {
        name: e.pipeline_name[0]
        for name, e in entries.items()
        if e.kind == b"longrun" and e.pipeline_name and e.consumer_for and not e.producer_for
    }


def check_pipeline_names(entries, pipelines):
    for name in sorted(pipelines):
        word = pipelines[name]
        if word in entries or list(pipelines.values()).count(word) > 1:
            raise Refusal("PipelineName", name)


class Circle(Refusal):
    """A circle; which one is shown is free. `steps` says what follows each name."""

    def __init__(self, word, steps):
        super().__init__(word)
        self.steps = steps


def check_cycles(word, steps):
    if any(name in reached(lambda s: steps[s], name) for name in steps):
        raise Circle(word, steps)


def writers(entries, name):
    """The longrun at an end of a pipeline with all those whose writing comes to it."""
    return {name}.union(*(writers(entries, s) for s in entries[name].consumer_for))


def members(entries, pipelines, name):
    """The services that a name stands for, that of an entry or of a pipeline."""
    if name not in entries:
        return writers(entries, next(end for end in pipelines if pipelines[end] == name))
    if entries[name].kind != b"bundle":
        return {name}
    return set().union(*(members(entries, pipelines, other) for other in entries[name].contents))


def service_of(entries, pipelines, name):
    entry = entries[name]
    service = Service(entry.kind, **entry.said)
    needs = set(entry.producer_for)
    service.needs = sorted(needs.union(*(members(entries, pipelines, n) for n in entry.needs)))
    return service


def compile_trees(trees):
    entries = read_trees(trees)
    pipelines = named_pipelines(entries)
    services = [n for n in entries if entries[n].kind != b"bundle"]
    bundles = [n for n in entries if entries[n].kind == b"bundle"]
    if len(services) > GREATEST or len(bundles) + len(pipelines) > GREATEST:
        raise Refusal("TooMany")
    check_unknown(entries, pipelines)
    contents = {n: [m for m in entries[n].contents if m in bundles] for n in bundles}
    check_cycles("BundleCycle", contents)
    check_pipes(entries)
    check_pipeline_names(entries, pipelines)
    base = Database()
    base.services = {n: service_of(entries, pipelines, n) for n in services}
    check_cycles("Cycle", {n: base.services[n].needs for n in services})
    base.bundles = {n: frozenset(members(entries, pipelines, n)) for n in bundles}
    for name, word in pipelines.items():
        base.bundles[word] = frozenset(writers(entries, name))
    return base
