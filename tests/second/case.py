"""A case: what one run of the program is given."""


LOOKS = ("live", "journal", "bundles")
RUNS = ("change", "undo", "redo")
EDITS = ("add", "delete")
ONE_SHOTS = RUNS + EDITS + LOOKS
# These read no input: they want a database and a file.
ON_FILES = ("restart", "seal", "status")
# Words of their own for a change one way.
WAY_WORDS = {"u": "start", "d": "stop"}


def is_history(text):
    return text is not None and text.startswith(b"undorc-history ")


class Case:
    def __init__(self, word):
        self.word = word
        self.base = None
        self.other = None
        self.renames = None
        self.restarts = []
        self.early = False
        self.in_front = False
        self.own = b""
        self.down = False
        self.query = b""
        self.generation = None
        self.words = []
        self.ask = None
        self.dry = False
        self.failing = []
        self.keeps = False
        self.kept = None
        self.bound = None
        self.force = False
        self.limit = 0
        self.to = None
        self.workers = None
        self.trees = []
        self.has_own_word = False

    @property
    def input(self):
        return self.base + self.own if self.in_front else self.own

    @property
    def locks(self):
        """Whether the lock of the file of -l is taken: not where it is refused earlier."""
        moves = self.word in RUNS + EDITS + ("session", "update", "restart", "seal") and not self.dry
        return moves and self.keeps and not self.early

    @property
    def is_wrong(self):
        """Whether the command line is wrong: it names no file. Or it has --to, and -n, or no database is named for a
        file that has none."""
        if self.word in EDITS + LOOKS and not self.keeps:
            return True
        has_base = self.base is not None and not self.in_front or is_history(self.kept)
        return self.to is not None and (self.dry or not self.keeps or not has_base)

    @property
    def kind(self):
        """The word, and what of its options tells it from others of that word."""
        if self.to is not None:
            return self.word + " --to"
        return self.word + " without -B" * (self.word == "update" and self.other is None)

    @property
    def looks_at_none(self):
        """Whether it only looks at a session whose file does not exist."""
        looks = self.word in ONE_SHOTS + ("status", "update") and not self.locks
        return looks and self.keeps and self.kept is None

    def files(self, kept):
        """What lies in the folder in the end."""
        names = [b"in", b"out", b"err"] + [b"tree%d" % k for k in range(len(self.trees))]
        names += [] if self.base is None or self.in_front else [b"base"]
        names += [] if self.other is None else [b"other"]
        names += [] if self.renames is None else [b"renames"]
        names += [b"kept.lock"] if self.locks else []
        return sorted(names + ([] if kept is None else [b"kept"]))

    def arguments(self):
        """The words of the command line; files stand in the folder in which it is run."""
        words = [self.spelled.encode()]
        if self.word == "compile":
            return words + [b"tree%d" % k for k in range(len(self.trees))]
        if self.base is not None and not self.in_front:
            words += [b"-b", b"base"]
        if self.word == "db":
            words += [b"-l", b"kept"] if self.keeps else []
            words += [] if self.generation is None else [b"-k", b"%d" % self.generation]
            return words + [b"-d"] * self.down + [self.query] + self.words
        if self.word == "plan":
            return words + self.asked()
        if self.word == "replay":
            return words
        if self.word in RUNS + ("session", "update", "restart"):
            listed = b",".join(way + b":" + name for way, name in self.failing)
            words += [b"-x", listed or b"none"]
            words += [b"-w", b"%d" % self.workers] if self.workers else []
        words += [b"-l", b"kept"] if self.keeps else []
        words += [b"-n", b"%d" % self.bound] if self.bound else []
        words += [b"-n"] if self.dry else []
        words += [b"-B", b"other"] if self.word == "update" and self.other is not None else []
        words += [] if self.to is None else [b"--to", b"%d" % self.to]
        words += [] if self.renames is None else [b"-f", b"renames"]
        for name in self.restarts:
            words += [b"-R", name]
        words += [b"-t", b"%d" % self.limit] if self.limit else []
        words += [b"-f"] if self.force else []
        return words + (self.asked() if self.word == "change" else self.words)

    @property
    def spelled(self):
        """The word of the command line: some commands have a second one. `start` and `stop` want a name, or -a."""
        if self.has_own_word and self.word == "live":
            return "list"
        if self.has_own_word and self.word == "change" and (self.ask.words or self.ask.everything):
            if self.ask.way == "u" or not self.ask.prune:
                return WAY_WORDS.get(self.ask.way, self.word)
        return self.word

    def asked(self):
        """The options and names of a change; `start` and `stop` say the way."""
        ask = self.ask
        letters = ask.letters()[self.spelled in WAY_WORDS.values() :]
        words = [b"-" + letter.encode() for letter in letters]
        words += [b"-t", b"%d" % ask.limit] if ask.limit else []
        return words + ask.words
