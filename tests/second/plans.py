"""What words stand for, closures, and plans."""

from database import reached
from forms import Refusal


def needs_of(base):
    return lambda name: base.services[name].needs


def up_closure(base, some):
    """These services with all that they need."""
    return set(some).union(*(reached(needs_of(base), s) for s in some))


def down_closure(base, some):
    """These services with all that need them."""
    return {s for s in base.services if s in some or reached(needs_of(base), s) & set(some)}


def first_unknown(base, bundles, words):
    for word in words:
        if word not in base.services and word not in bundles:
            raise Refusal("Unknown", word)


def selected(base, bundles, words):
    """The services that the words stand for."""
    chosen = set()
    for word in words:
        chosen |= {word} if word in base.services else set(bundles[word])
    return chosen


class Ask:
    """What a change asks: a way (u, d or D), flags, a limit, and words."""

    WAYS = "udD"
    # Each flag by its letter; an option of a change is one more of these, and what `plan` makes of it.
    FLAGS = {"p": "prune", "a": "everything"}
    LETTERS = WAYS + "".join(FLAGS)

    def __init__(self, letters, limit, words):
        """By letters, which have one way at most."""
        self.way = "".join(set(letters) & set(self.WAYS)) or "u"
        for letter, name in self.FLAGS.items():
            setattr(self, name, letter in letters)
        self.limit = limit
        self.words = words

    def letters(self):
        return [self.way] + [letter for letter, name in self.FLAGS.items() if getattr(self, name)]


class Plan:
    def __init__(self, live, target, kept):
        self.live = set(live)
        self.lower = set(live) - set(target)
        self.rise = set(target) - set(live)
        self.kept = set(kept)


def plan(base, bundles, live, ask):
    if ask.prune and ask.way != "u":
        raise Refusal("PruneNeedsUp")
    first_unknown(base, bundles, ask.words)
    wanted = selected(base, bundles, ask.words)
    if ask.everything:
        wanted |= live
    essential = {s for s in live if base.services[s].essential}
    held_up = up_closure(base, essential)
    if ask.way == "u" and not ask.prune:
        return Plan(live, live | up_closure(base, wanted), ())
    if ask.way == "u":
        needed = up_closure(base, wanted)
        return Plan(live, needed | held_up, essential - needed)
    goes = down_closure(base, wanted)
    if ask.way == "D":
        return Plan(live, live - goes, ())
    return Plan(live, live - (goes - held_up), essential & goes)


def listed(word, names):
    """A line of a word and names, nothing where there are none."""
    return b" ".join([word] + sorted(names)) + b"\n" if names else b""


def told(one):
    return listed(b"lower", one.lower) + listed(b"raise", one.rise) + listed(b"kept", one.kept)
