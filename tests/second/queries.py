"""The queries of `db`."""

from database import reached
from forms import Refusal
from plans import down_closure, first_unknown, needs_of, selected, up_closure


def listing(base, what):
    services = base.services
    if what == b"services":
        return list(services)
    if what == b"bundles":
        return list(base.bundles)
    if what == b"all":
        return list(services) + list(base.bundles)
    return [s for s in services if services[s].kind + b"s" == what]


def service_named(base, name, kind=None):
    first_unknown(base, base.bundles, [name])
    if name in base.bundles:
        raise Refusal("NotAtomic")
    service = base.services[name]
    if kind is not None and service.kind != kind:
        raise Refusal("NotLongrun" if kind == b"longrun" else "NotOneshot")
    return service


def last_consumer(base, name):
    while base.services[name].producer is not None:
        name = base.services[name].producer
    return name


def lines(names):
    return b"".join(name + b"\n" for name in sorted(names))


def of_one_name(base, query, down, name):
    if query == b"type":
        first_unknown(base, base.bundles, [name])
        kind = b"bundle" if name in base.bundles else base.services[name].kind
        return kind + b"\n"
    if query == b"timeout":
        service = service_named(base, name)
        return b"%d\n" % (service.down_limit if down else service.up_limit)
    if query == b"flags":
        return b"essential\n" if service_named(base, name).essential else b""
    if query == b"contents":
        first_unknown(base, base.bundles, [name])
        if name not in base.bundles:
            raise Refusal("NotBundle")
        return lines(base.bundles[name])
    if query == b"pipeline":
        service_named(base, name, b"longrun")
        last = last_consumer(base, name)
        longruns = listing(base, b"longruns")
        return lines(s for s in longruns if last_consumer(base, s) == last)
    service = service_named(base, name, b"oneshot")
    return (service.down if down else service.up) or b""


def quoted(name):
    """A name as graphviz reads it and shows it."""
    for sign, told in ((b"&", b"&amp;"), (b"\\", b"\\\\"), (b'"', b'\\"')):
        name = name.replace(sign, told)
    return b'"' + name + b'"'


def picture(base, live):
    """The graph of needs for graphviz; what is live is filled."""
    out = [b"digraph undorc {"]
    for name, service in sorted(base.services.items()):
        look = b"shape=box" if service.kind == b"longrun" else b"shape=ellipse"
        look += b",peripheries=2" if service.essential else b""
        look += b",style=filled" if name in live else b""
        out.append(b"  %s [%s]" % (quoted(name), look))
        out += [b"  %s -> %s" % (quoted(name), quoted(need)) for need in sorted(service.needs)]
    for name, members in sorted(base.bundles.items()):
        out.append(b"  %s [shape=folder]" % quoted(name))
        out += [b"  %s -> %s [style=dashed]" % (quoted(name), quoted(m)) for m in sorted(members)]
    return b"\n".join(out + [b"}", b""])


def answer(base, down, query, words):
    if query == b"check":
        return b""
    if query == b"list":
        return lines(listing(base, words[0]))
    if query not in (b"atomics", b"dependencies", b"all-dependencies"):
        return of_one_name(base, query, down, words[0])
    first_unknown(base, base.bundles, words)
    some = selected(base, base.bundles, words)
    if query == b"atomics":
        return lines(some)
    if query == b"all-dependencies":
        return lines(down_closure(base, some) if down else up_closure(base, some))
    if down:
        return lines(s for s in base.services if some & set(base.services[s].needs))
    return lines(set().union(*(base.services[s].needs for s in some)))
