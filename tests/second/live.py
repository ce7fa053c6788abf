"""Lines of states, and the text in which a session is kept."""

from forms import Lines, Refusal, ascends, is_name, is_number

OLD_BOUND = 1024
GREATEST_BOUND = 4294967295


class State:
    """What is live, and the bundles: a set of members by name."""

    def __init__(self, live, bundles):
        self.live = frozenset(live)
        self.bundles = dict(bundles)

    def same(self, other):
        return self.live == other.live and self.bundles == other.bundles


class Line:
    def __init__(self, states, cursor, bound):
        self.states = states
        self.cursor = cursor
        self.bound = bound

    def now(self):
        return self.states[self.cursor]

    def fit(self):
        """Of one state too many one goes: the oldest, or the last where that one is a neighbour."""
        if len(self.states) <= self.bound:
            return
        if self.cursor > 1:
            del self.states[0]
            self.cursor -= 1
        else:
            del self.states[-1]

    def go_on(self, state):
        """A change or an edit ends here."""
        if state.same(self.now()):
            return
        del self.states[self.cursor + 1 :]
        self.states.append(state)
        self.cursor += 1
        self.fit()

    def step(self, way, live):
        """An undo (-1) or a redo (1) ends with these services live."""
        if live == self.states[self.cursor + way].live:
            self.cursor += way
        elif live != self.now().live:
            place = self.cursor if way < 0 else self.cursor + 1
            self.states.insert(place, State(live, self.now().bundles))
            self.cursor = place
            self.fit()


def is_line_of_names(words, least):
    names = words[1:]
    return len(names) >= least and all(is_name(n) for n in names)


def read_form(text):
    """The services, the bound or nothing, the states with lists for sets, and the cursor."""
    lines = Lines(text)
    version = lines.version(b"undorc-live", (1, 2))
    words = lines.next_line()
    if words[0] != b"services" or not is_line_of_names(words, 0) or not ascends(words[1:]):
        raise lines.bad()
    services = words[1:]
    lines.passed()
    bound = None
    if version == 2:
        words = lines.next_line()
        if len(words) != 2 or words[0] != b"bound" or not is_number(words[1]):
            raise lines.bad()
        bound = int(words[1])
        if not 3 <= bound <= GREATEST_BOUND:
            raise lines.bad()
        lines.passed()
    states, cursor = [], None
    while True:
        words = lines.next_line()
        if words == [b"end"] and cursor is not None:
            lines.passed()
            lines.nothing_more()
            return services, bound, states, cursor
        if words[0] == b"bundle" and states:
            bundles = states[-1][1]
            members = words[2:]
            if not is_line_of_names(words, 1) or not ascends(members) or len(bundles) == 4096:
                raise lines.bad()
            if bundles and bundles[-1][0] >= words[1]:
                raise lines.bad()
            bundles.append((words[1], members))
        else:
            if words[0] not in (b"up", b"now") or not is_line_of_names(words, 0):
                raise lines.bad()
            if not ascends(words[1:]) or (words[0] == b"now" and cursor is not None):
                raise lines.bad()
            if words[0] == b"now":
                cursor = len(states)
            states.append((words[1:], []))
        lines.passed()


def read(base, text):
    services, bound, given, cursor = read_form(text)
    if services != sorted(base.services):
        raise Refusal("OtherDb")
    for live, bundles in given:
        known = all(s in base.services for s in live)
        for name, members in bundles:
            known = known and name not in base.services
            known = known and all(m in base.services for m in members)
        if not known:
            raise Refusal("Unknown")
    for place, (live, _) in enumerate(given):
        if any(n not in live for s in live for n in base.services[s].needs):
            raise Refusal("NotClosed", place)
    states = [State(live, {n: frozenset(m) for n, m in bundles}) for live, bundles in given]
    if any(a.same(b) for a, b in zip(states, states[1:])):
        raise Refusal("SameState")
    if bound is None:
        bound = max(OLD_BOUND, len(states))
    if len(states) > bound or bound > GREATEST_BOUND:
        raise Refusal("OverBound")
    return Line(states, cursor, bound)


def begun(base, text, bound):
    """The line of a text, or a new one where there is none."""
    if text is not None:
        return read(base, text)
    return Line([State((), base.bundles)], 0, bound or OLD_BOUND)


def text_of(base, line):
    out = [b" ".join([b"undorc-live 2\nservices"] + sorted(base.services))]
    out.append(b"bound %d" % line.bound)
    for place, state in enumerate(line.states):
        word = b"now" if place == line.cursor else b"up"
        out.append(b" ".join([word] + sorted(state.live)))
        for name in sorted(state.bundles):
            out.append(b" ".join([b"bundle", name] + sorted(state.bundles[name])))
    return b"\n".join(out) + b"\nend\n"
