"""Draws cases: databases, texts, lines, scripts and trees, in form and nearly so."""

import copy

import plans
from case import EDITS, LOOKS, ON_FILES, RUNS, Case
from commands import do, read_command, task_of
from database import Database, Service, text_of
from fields import EACH, FILES, LINES, SCRIPTS, WORDS
from forms import Refusal, is_name
from histories import Generation, History
from live import OLD_BOUND, Line, State
from live import text_of as live_text_of
from replay import Trace, by_events

LONG = b"n" * 254
NAMES = [b"a", b"b", b"c", b"d", b"e", b"f", b"g", b"h", b"A", b"0", b"~", b"ab", b"a.b", b"a:b"]
NAMES += [b"a,b", b".x", b"_-", b"s6rc", "é".encode(), "日本".encode(), LONG + b"1", LONG + b"2"]
NAMES += [b'a"b', b"a\\b", b"a&b;"]
NO_NAMES = [b"", b"-", b"#a", b"s6rc-a", b"a/b", b"\x7f", b"\xff", b"\x01", LONG + b"12", b"a\rb"]
NUMBERS = [b"0", b"1", b"2", b"3", b"10", b"01", b"-1", b"+1", b"4096", b"4097", b"4294967295"]
NUMBERS += [b"4294967296", b"65536", b"65537", b"9" * 10, b"1" * 11, b"9" * 40, b"", b"1a"]
BYTES = [b" ", b"\n", b"\t", b"0", b"1", b"a", b"-", b"#", b"/", b"\0", b"\x7f", b"\xc3", b"\xff", b"\r"]


class Drawer:
    def __init__(self, random):
        self.random = random

    def one_in(self, many):
        return self.random.randrange(many) == 0

    def some(self, things, one_in=3):
        return [t for t in things if self.one_in(one_in)]

    def pick(self, things):
        return self.random.choice(things)

    # Databases.

    def base(self):
        random = self.random
        base = Database()
        names = random.sample(NAMES, random.choice([0, 1, 2, 3, 4, 5, 6, 8, 10]))
        dense = random.choice([2, 3, 5, 10])
        for place, name in enumerate(names):
            kind = b"longrun" if random.random() < 0.6 else b"oneshot"
            service = Service(kind, **{f.name: self.pick(f.values) for f in WORDS + LINES[kind]})
            service.needs = sorted(self.some(names[:place], dense))
            longruns = [n for n in service.needs if base.services[n].kind == b"longrun"]
            if kind == b"longrun" and longruns and self.one_in(2):
                service.producer = self.pick(longruns)
            base.services[name] = service
        for name in random.sample(NAMES, random.choice([0, 0, 1, 2, 3])):
            if name not in base.services:
                base.bundles[name] = frozenset(self.some(names))
        return base

    def wrong_base(self, base):
        """One thing of its meaning is wrong, perhaps."""
        if not base.services:
            return
        names = sorted(base.services)
        service = base.services[self.pick(names)]
        drawn = self.random.randrange(6)
        if drawn == 0:
            service.needs = sorted(set(service.needs + [self.pick(NAMES)]))
        elif drawn == 1 and service.kind == b"longrun":
            service.producer = self.pick(NAMES)
        elif drawn == 2:
            base.bundles[self.pick(NAMES)] = frozenset(self.some(NAMES, 8))
        else:
            service.needs = sorted(set(service.needs + self.some(names, 2)))

    # Texts that are nearly in form.

    def mutated(self, text):
        for _ in range(self.pick([1, 1, 1, 2, 3])):
            text = self.mutated_once(text)
        return text

    def mutated_once(self, text):
        drawn = self.random.randrange(10)
        place = self.random.randrange(len(text) + 1)
        if drawn == 0:
            return text[:place]
        if drawn == 1:
            return text[:place] + text[place + 1 :]
        if drawn == 2:
            return text[:place] + self.pick(BYTES) + text[place:]
        if drawn == 3:
            return text[:place] + self.pick(BYTES) + text[place + 1 :]
        if drawn == 4:
            return text + self.pick([b"\n", b"end\n", b" ", b"x", text])
        return self.mutated_line(text, drawn)

    def mutated_line(self, text, drawn):
        lines = text.split(b"\n")
        place = self.random.randrange(len(lines))
        if drawn == 5:
            del lines[place]
        elif drawn == 6:
            lines.insert(place, self.pick(lines))
        elif drawn == 7:
            other = self.random.randrange(len(lines))
            lines[place], lines[other] = lines[other], lines[place]
        else:
            words = lines[place].split(b" ")
            word = self.random.randrange(len(words))
            pool = self.pick([NAMES, NO_NAMES, NUMBERS, words])
            if drawn == 8:
                words[word] = self.pick(pool)
            else:
                words.insert(word, self.pick(pool))
            lines[place] = b" ".join(words)
        return b"\n".join(lines)

    # Lines of sessions.

    def word(self, base):
        known = sorted(base.services) + sorted(base.bundles)
        if self.one_in(25):
            return self.pick([w for w in NO_NAMES if w and not set(w) & set(b" \n\t")])
        return self.pick(known) if known and not self.one_in(10) else self.pick(NAMES)

    def words(self, base, most=3):
        return [self.word(base) for _ in range(self.random.randrange(most + 1))]

    def options(self, odd, limited):
        letters = list("u" + plans.Ask.LETTERS) + ["ua", "up", "da"]
        words = self.some([b"-" + self.pick(letters).encode()], 2)
        if odd and self.one_in(8):
            words.append(self.pick([b"-", b"-f", b"-t5", b"-du", b"-uu", b"--", b"-ut", b"-t"]))
        if self.one_in(limited):
            limits = [b"5", b"0", b"3"] if not odd else NUMBERS + [b"5", b"0", b"00005"]
            words += [b"-t", self.pick([w for w in limits if w])]
        return words

    def bundle_word(self, base):
        """The name of a bundle, or of one that might be."""
        others = [n for n in NAMES if n not in base.services]
        return self.word(base) if self.one_in(6) or not others else self.pick(others[:5])

    def line(self, base, looks=True):
        """A line of a session, or one of a script, whose limits may be reached."""
        drawn = self.random.randrange(20)
        odd = self.one_in(6)
        limited = 8 if looks else 2
        force = [b"-f"] if self.one_in(2) else []
        if drawn < 7:
            words = self.options(odd, limited) + [b"change"] + self.words(base)
        elif drawn < 12:
            words = ([b"-t", b"7"] if self.one_in(limited) else []) + [b"undo"]
        elif drawn < 13:
            words = ([b"-t", b"7"] if self.one_in(limited) else []) + [b"redo"]
        elif drawn < 16:
            words = [b"add"] + force + [self.bundle_word(base)] + self.words(base)
        elif drawn < 18:
            words = [b"delete"] + force + [self.bundle_word(base)] + self.words(base, 1)
        elif not looks:
            words = [b"undo"]
        elif drawn == 18:
            words = self.options(odd, limited) + [b"dry"] + self.words(base)
        else:
            words = [self.pick([b"live", b"journal", b"journal", b"bundles"])]
        line = (b"\t " if odd else b" ").join(words)
        return self.mutated(line).replace(b"\n", b" ") if odd and self.one_in(2) else line

    def lines(self, base, most):
        lines = []
        for _ in range(self.random.randrange(most + 1)):
            lines.append(self.line(base))
            if lines[-1] == b"undo" and self.one_in(2):
                lines.append(b"redo")
        return lines

    def ended(self, lines):
        text = b"\n".join(lines)
        return text if self.one_in(6) or not lines else text + b"\n"

    def failing(self, base):
        ways = [(w, n) for n in sorted(base.services) for w in (b"up", b"down") if b"," not in n]
        return self.some(ways, self.pick([4, 8, 20]))

    # Scripts of `replay`.

    def events(self, base, task, limit):
        """Events of a run, mostly settled and legal."""
        trace = Trace(base, task, limit)
        events = []
        workers = [self.pick([1, 2, 63, 64]) for _ in range(self.pick([1, 2, 3]))]
        while not trace.is_settled() and len(events) < 60:
            worker = self.pick(workers)
            ready = [s for s in sorted(base.services) if trace.may_move(s)]
            if worker in trace.held:
                well = not self.one_in(4)
                event = ("done", worker, trace.held[worker], well)
            elif limit and self.one_in(6):
                event = ("stop", worker, max(0, limit + self.pick([-1, 0, 0, 1, 2])))
            elif ready:
                event = ("take", worker, self.pick(ready))
            else:
                continue
            if trace.event(event):
                events.append(event)
        return self.spoiled(base, events)

    def spoiled(self, base, events):
        drawn = self.random.randrange(14)
        place = self.random.randrange(len(events) + 1)
        if drawn == 0 and events:
            return events[:-1]
        if drawn == 1 and base.services:
            worker = self.pick([0, 1, 2, 64, 65, 255])
            name = self.pick(sorted(base.services))
            odd = self.pick([("take", worker, name), ("done", worker, name, True)])
            return events[:place] + [odd] + events[place:]
        if drawn == 2:
            return events[:place] + [("stop", self.pick([0, 1, 64, 65]), 9)] + events[place:]
        return events

    def event_line(self, event):
        words = [event[0].encode(), b"%d" % event[1]]
        words.append(b"%d" % event[2] if event[0] == "stop" else event[2])
        if event[0] == "done":
            wrong = [b"failed 1", b"failed 255", b"timeout", b"nostart"]
            words.append(b"ok" if event[3] else self.pick(wrong))
        return b" ".join(words)

    def script(self, base):
        line = Line([State((), base.bundles)], 0, OLD_BOUND)
        lines = []
        for _ in range(self.random.randrange(12)):
            text = self.line(base, False)
            lines.append(text)
            try:
                command = read_command(text, ())
                events = []
                if command.word in (b"change", b"undo", b"redo"):
                    task, limit = task_of(base, line, command)
                    events = self.events(base, task, limit)
                    lines += [self.event_line(e) for e in events]
                do(base, line, command, by_events(events))
            except (Refusal, IndexError):
                if self.one_in(2) and lines:
                    lines.pop()
        return lines

    # Source trees.

    def file_of_names(self, names):
        pad = lambda w: self.pick([b"", b"", b" ", b"\t"]) + w + self.pick([b"", b"", b" "])
        lines = [pad(w) for w in names] + self.some([b"# remark", b"", b"  "], 4)
        return self.ended(lines)

    def entry(self, name, kind, others):
        folder = {b"type": kind + self.pick([b"", b"\n"])}
        near = lambda odds: self.some(others, odds) + self.some([self.pick(NAMES)], 30)
        if kind == b"bundle":
            lists = b"contents"
        else:
            lists = b"dependencies"
            if kind == b"longrun":
                folder[b"run"] = b"\0"
            for field in FILES[kind]:
                if self.one_in(field.rare):
                    folder[field.file] = self.pick(field.contents)
        if self.one_in(2):
            folder[lists] = self.file_of_names(near(4))
        if self.one_in(4):
            folder[lists + b".d"] = {n: b"" for n in near(4) if b"/" not in n}
        return folder

    def pipes(self, tree, kinds):
        """Pipes between longruns, each named on both sides, with a name of the pipeline now and then."""
        longruns = [n for n in sorted(tree) if kinds[n] == b"longrun"]
        for place, name in enumerate(longruns[1:]):
            if self.one_in(2):
                reader = longruns[self.random.randrange(place + 1)]
                tree[name][b"producer-for"] = self.file_of_names([reader])
                old = tree[reader].get(b"consumer-for", b"")
                tree[reader][b"consumer-for"] = old.rstrip(b"\n") + b"\n" + name
        names = [b"pipe", b"line"] if len(longruns) > 3 else NAMES
        for name in longruns:
            if not self.one_in(3):
                tree[name][b"pipeline-name"] = self.pick(names) + b"\n"

    def spoil_tree(self, tree):
        """One thing is wrong in it, or strange."""
        if not tree:
            return
        folder = tree[self.pick(sorted(tree))]
        words = [b"type", b"run", b"dependencies", b"consumer-for", b"pipeline-name", b"contents"]
        words += [b"dependencies.d", b"contents.d", b"readme"] + [field.file for field in EACH]
        word = self.pick(words)
        drawn = self.random.randrange(8)
        if drawn == 0:
            folder.pop(word, None)
        elif drawn == 1:
            folder[word] = {}
        elif drawn == 2:
            folder[word] = self.pick([b"\xff", b"a\0b", b"5\n\n", b"4294967296", b"12345678901", b"-1"])
        elif drawn == 3:
            folder[word] = b"#" * self.pick([65535, 65536, 65537])
        elif drawn == 4:
            tree[self.pick([b"-a", b"s6rc-a", b"a b", b".h", b"\x7f"])] = {b"type": b"oneshot"}
        elif drawn == 5:
            folder[word] = self.file_of_names(self.some(NAMES + NO_NAMES, 10))
        elif drawn == 6 and isinstance(folder.get(word), bytes):
            folder[word] = self.mutated(folder[word])
        else:
            tree[self.pick(NAMES)] = self.pick([b"a file", {b"type": b"bundle"}])

    def trees(self):
        piped = self.one_in(3)
        many = self.pick([4, 6, 8] if piped else [0, 1, 2, 3, 4, 6, 8])
        names = [n for n in self.random.sample(NAMES[:-2] + [LONG + b"1"], many) if n[:1] != b"."]
        kinds = [b"longrun"] if piped else [b"oneshot", b"longrun", b"longrun", b"bundle"]
        kinds = {n: self.pick(kinds) for n in names}
        tree = {}
        for place, name in enumerate(names):
            tree[name] = self.entry(name, kinds[name], names if self.one_in(6) else names[:place])
        self.pipes(tree, kinds)
        if self.one_in(2):
            self.spoil_tree(tree)
        other = {}
        for name in self.some(sorted(tree), 3) if self.one_in(3) else []:
            other[name] = tree[name] if self.one_in(20) else tree.pop(name)
        return [tree, other] if other or self.one_in(4) else [tree]

    # Cases.

    def on_base(self, case):
        """Gives a case its database, in form and right mostly."""
        base = self.base()
        right = copy.deepcopy(base)
        if self.one_in(10):
            self.wrong_base(base)
        case.base = text_of(base)
        if self.one_in(5):
            case.base = self.mutated(case.base)
        case.in_front = self.one_in(2)
        return right

    def db(self):
        case = Case("db")
        base = self.on_base(case)
        case.down = self.one_in(3)
        one = [b"type", b"timeout", b"flags", b"contents", b"pipeline", b"script"]
        case.query = self.pick([b"check", b"list", b"atomics", b"dependencies", b"all-dependencies"] + one)
        if self.one_in(8):
            case.query = b"dot"
        if self.one_in(2 if case.query == b"dot" else 6):
            self.in_session(case, base)
        fit = lambda w: w and w[:1] != b"-" and b"\0" not in w and w != b"\xff"
        if case.query == b"list":
            case.words = [self.pick([b"all", b"services", b"oneshots", b"longruns", b"bundles"])]
        elif case.query in one:
            case.words = [self.pick([w for w in [self.word(base)] if fit(w)] or NAMES)]
        elif case.query not in (b"check", b"dot"):
            case.words = [w for w in self.words(base) if fit(w)]
        if case.in_front and self.one_in(4):
            case.own = self.pick([b"x", b"\xff\n", b"undorc-db 1\n"])
        return case

    def in_session(self, case, base):
        """Gives a query the file of a session, a live text or a history, which exists mostly, and perhaps a generation."""
        case.keeps = True
        if self.one_in(3):
            case.generation = self.pick([0, 0, 1, 1, 2, 3, 8, 4294967295])
        if self.one_in(8):
            return
        if self.one_in(2):
            case.kept = live_text_of(base, self.drawn_line(base, OLD_BOUND))
        else:
            bases = [base if self.one_in(2) else self.base() for _ in range(self.pick([1, 1, 2, 3]))]
            each = [Generation(text_of(one), self.drawn_line(one, OLD_BOUND), base=one) for one in bases]
            case.kept = History(each, self.random.randrange(len(each)), False).written()
        if self.one_in(4):
            case.kept = self.mutated(case.kept)

    def plan(self):
        case = Case("plan")
        base = self.on_base(case)
        up = set(self.some(sorted(base.services), self.pick([1, 2, 3, 6])))
        if not self.one_in(8):
            up = plans.up_closure(base, up) if set(base.services) >= up else up
        lines = sorted(up) + self.some([b"", b"", self.word(base)], 6)
        self.random.shuffle(lines)
        case.own = self.ended(lines)
        if self.one_in(12):
            case.own = self.mutated(case.own)
        case.ask = self.ask(base)
        return case

    def ask(self, base):
        fit = lambda w: w and w[:1] != b"-" and b"\0" not in w and w != b"\xff"
        words = [w for w in self.words(base, 4) if fit(w)]
        letters = [self.pick("u" + plans.Ask.WAYS)] + self.some(plans.Ask.FLAGS, 4)
        return plans.Ask(letters, 0, words)

    def replay(self):
        case = Case("replay")
        base = self.on_base(case)
        case.own = self.ended(self.script(base))
        if self.one_in(10):
            case.own = self.mutated(case.own)
        return case

    def session(self):
        case = Case("session")
        base = self.on_base(case)
        case.failing = self.failing(base)
        if self.one_in(40):
            case.failing.append((b"up", self.pick([b"a", b"zz"])))
        case.own = self.ended(self.lines(base, 40))
        case.keeps = self.one_in(2)
        case.workers = self.workers()
        case.bound = self.pick([None, 3, 4, 5, 9])
        if case.keeps and self.one_in(2):
            case.kept = self.kept(base, case.bound or OLD_BOUND, 3)
        return case

    def kept(self, base, bound, odds):
        """The text of a session, in form mostly."""
        line = self.drawn_line(base, bound)
        text = live_text_of(base, line)
        if self.one_in(3):
            text = self.older(text, line.bound)
        return self.mutated(text) if self.one_in(odds) else text

    def workers(self):
        return self.pick([None, 1, 2, 3, 64])

    def one_shot(self):
        looks = self.pick(LOOKS + ON_FILES)
        case = Case(self.pick(["change", "change", "change", "undo", "undo", "redo", "add", "delete", looks, looks]))
        base = self.on_base(case)
        case.keeps = case.word in ON_FILES or not self.one_in(6)
        case.in_front = case.in_front and case.word not in ON_FILES
        if case.keeps and not self.one_in(6):
            case.kept = self.kept(base, self.pick([3, 4, OLD_BOUND]), 12)
        case.own = self.pick([b"", b"", b"live\n", b"\xff"]) if case.in_front else b""
        if case.word in RUNS + ("restart",):
            case.failing = self.failing(base)
            case.workers = self.workers()
        if case.word in RUNS:
            case.dry = self.one_in(3)
        if case.word == "change":
            case.ask = self.ask(base)
            case.ask.limit = self.pick([0, 0, 7])
            case.has_own_word = self.one_in(3)
        elif case.word == "undo" and self.one_in(3):
            case.to = self.pick([0, 0, 1, 1, 2, 3, 7, 4294967295])
            case.dry = case.dry and self.one_in(6)
            case.in_front = case.in_front and self.one_in(6)
        elif case.word in RUNS and not case.dry:
            case.limit = self.pick([0, 0, 7])
        elif case.word in EDITS:
            case.force = self.one_in(2)
            case.words = [self.fitting(self.bundle_word(base))] + self.fits(base, 3 if case.word == "add" else 1)
        elif case.word in ("restart", "status"):
            least = 1 if case.word == "restart" else 0
            case.words = self.fits(base, 3) or [self.fitting(self.word(base))][:least]
        elif case.word == "live":
            case.has_own_word = self.one_in(2)
        return case

    def fitting(self, word):
        """A word that is a name, and may stand on a command line."""
        return word if is_name(word) and word[:1] != b"-" else self.pick(NAMES)

    def fits(self, base, most):
        return [self.fitting(word) for word in self.words(base, most)]

    def next_base(self, base):
        """The database after some work on its services and bundles."""
        new = Database()
        names = list(base.services) + self.random.sample(NAMES, self.pick([0, 0, 1, 2]))
        for name in dict.fromkeys(n for n in names if not self.one_in(8)):
            service = copy.deepcopy(base.services.get(name)) or Service(b"longrun")
            service.needs = [n for n in service.needs if n in new.services]
            if self.one_in(6):
                service.needs = sorted(set(service.needs) ^ set(self.some(list(new.services))))
            if service.producer not in service.needs or new.services[service.producer].kind != b"longrun":
                service.producer = None
            if self.one_in(8):
                self.alter(service)
            new.services[name] = service
        for name, members in base.bundles.items():
            if name not in new.services and not self.one_in(5):
                new.bundles[name] = frozenset(m for m in members if m in new.services)
        return new

    def alter(self, service):
        """Something else is said of a service, perhaps."""
        if self.one_in(4):
            service.kind, service.producer = b"oneshot", None
            for field in SCRIPTS:
                setattr(service, field.name, self.pick(field.values))
            return
        field = self.pick(WORDS)
        now = getattr(service, field.name)
        setattr(service, field.name, self.pick([value for value in field.values if value != now]))

    def renames(self, base, new):
        """Some services of the new database get other names; the text that says so, mostly right."""
        lines = []
        for name in self.some(sorted(new.services), 3):
            free = [other for other in NAMES if other not in new.services and other not in new.bundles]
            if free and not self.one_in(8):
                other = self.pick(free)
                self.rename(new, name, other)
                if not self.one_in(8):
                    name = self.pick(sorted(base.services)) if self.one_in(12) and base.services else name
                    lines.append(name + self.pick([b" -> ", b"\t->  "]) + other + self.pick([b"", b"", b" restart"]))
            else:
                lines.append(name + b" restart")
        if self.one_in(6):
            lines.append(self.pick([b"", b"# -> x", b"  ", b"a ->", b"a -> b c", b"restart", b"-> a", b"\xff -> a"]))
        self.random.shuffle(lines)
        return b"\n".join(lines) + self.pick([b"", b"\n"])

    def rename(self, base, name, other):
        """The service of a name has another one, wherever it stands."""
        services = {other if one == name else one: service for one, service in base.services.items()}
        base.services.clear()
        base.services.update(services)
        for service in services.values():
            service.needs = sorted(other if need == name else need for need in service.needs)
            service.producer = other if service.producer == name else service.producer
        for bundle, members in base.bundles.items():
            base.bundles[bundle] = frozenset(other if one == name else one for one in members)

    def update(self):
        case = Case("update")
        base = self.on_base(case)
        case.in_front, case.keeps, case.dry = False, True, self.one_in(4)
        case.workers = self.workers()
        new = self.next_base(base)
        if self.one_in(3):
            case.renames = self.renames(base, new)
        if self.one_in(4):
            case.restarts = self.some(sorted(set(base.services) & set(new.services)), 3)
            case.restarts += self.some(NAMES[:2], 12)
        if self.one_in(12):
            self.wrong_base(new)
        case.other = self.mutated(text_of(new)) if self.one_in(12) else text_of(new)
        if not self.one_in(8):
            case.kept = self.kept(base, self.pick([3, 4, OLD_BOUND]), 12)
        case.failing = self.some(self.failing(base) + self.failing(new), 2)
        if self.one_in(4):
            # The new database is that of -b.
            case.other = None
        return case

    def older(self, text, bound):
        return text.replace(b"bound %d\n" % bound, b"").replace(b"undorc-live 2", b"undorc-live 1")

    def drawn_line(self, base, bound):
        """A line of states, mostly right."""
        states = []
        for _ in range(self.random.randrange(1, 7)):
            some = set(self.some(sorted(base.services), 2))
            live = some if self.one_in(30) else plans.up_closure(base, some)
            table = {n: frozenset(self.some(sorted(base.services))) for n in self.some(NAMES, 12)}
            if not self.one_in(30):
                table = {n: s for n, s in table.items() if n not in base.services}
            state = State(live, table)
            if not states or not state.same(states[-1]) or self.one_in(30):
                states.append(state)
        if not self.one_in(20):
            states = states[:bound]
        return Line(states, self.random.randrange(len(states)), bound)

    def compile(self):
        case = Case("compile")
        case.trees = self.trees()
        return case

    def case(self):
        kinds = [self.db, self.plan, self.replay, self.session, self.session, self.compile]
        kinds += [self.one_shot, self.one_shot, self.update]
        return self.pick(kinds)()
