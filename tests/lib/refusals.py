"""Runs a program again and again, and in each run one thing is refused or fails, in turn. Says which runs
are not as they are to be, and then how they ended, once each: refusals.py NAME=VALUE.. -- WORDS..

The words are those of the program, which reads the file `in`. The names, beside those of ended.py:
    program, preload  the program, and the library that is put before the C library, by their paths
    ways     variables for that library, one after another. The run N has in them the number N, and the
             last run is that in which so many growths, or starts of threads, have not come any more
    from     how many growths before the first that is refused are left out
    device   a variable of devices.c. The run N has in it
    does     these words and N - 1, and the last runs are ten that end well one after the other
    least    how many runs there are at least
    runs     how many there are, where that is known
    file     each run is a session that is kept in a file of its own, `link`: behind a link
    keeps    the word before the name of that file, where it is not `-l`
    log      a file with the text of the run log beside that file, which is to stay as it is
    lanes    how many runs are made side by side
    harmless how many calls in a row a command does at most whose failure changes nothing
Each run has files of its own, which are removed after it.
"""

import os
import signal
import sys

from ended import Rules, lines_of

FLAGS = ("alone", "answers", "scripts", "kept", "fresh", "lost", "notes")
USUAL = {"ways": "", "from": "0", "device": "", "does": "", "least": "1", "runs": "", "file": "", "keeps": "-l",
         "log": "", "lanes": "4", "harmless": "9", "faults": "", "told": "", "read": "", "written": ""}
# More runs than these are none that come to an end.
MOST = 5000
AROUND = dict(os.environ)


def read(path):
    """The text of a file, or nothing where there is none."""
    try:
        with open(path, encoding="latin-1", newline="") as file:
            return file.read()
    except FileNotFoundError:
        return ""


def taken(path):
    """The same, and it is removed."""
    text = read(path)
    try:
        os.unlink(path)
    except FileNotFoundError:
        pass
    return text


def write(path, text):
    with open(path, "w", encoding="latin-1", newline="") as file:
        file.write(text)


def stream():
    """A file without a name. What several threads write there is appended, which it is not in a memfd."""
    made = os.open("stream", os.O_RDWR | os.O_CREAT | os.O_EXCL | os.O_APPEND)
    os.unlink("stream")
    return made


def text_in(made):
    """What was written there, which is closed."""
    with os.fdopen(made, encoding="latin-1", newline="") as file:
        file.seek(0)
        return file.read()


class Run:
    """The run of a number: what is there for it, and what it leaves."""

    text_of = staticmethod(read)

    def __init__(self, number, options):
        self.number = number
        self.options = options
        self.kept = f"live.{number}"
        self.place = f"place.{number}"
        # What is left by a run may note something later, so its file is no other run's.
        self.counts, self.log = f"counts.{number}", f"log.{os.getpid()}.{options['way']}.{number}"

    def begin(self, words):
        """Starts it, and gives its process."""
        options = self.options
        environment = dict(AROUND, LD_PRELOAD=options["preload"], LOG=self.log, COUNTS=self.counts)
        if options["way"]:
            environment[options["way"]] = str(int(options["from"]) + self.number)
        else:
            environment[options["device"]] = f"{options['does']} {self.number - 1}"
        if options["file"]:
            words = words + [options["keeps"], self.kept]
            if options["file"] == "link":
                os.symlink(self.place, self.kept)
            if not options["fresh"]:
                write(self.kept, options["text"])
            if options["log"]:
                write(self.kept + ".run", read(options["log"]))
        self.streams = [stream(), stream()]
        return spawn(options["program"], words, environment, [(os.POSIX_SPAWN_OPEN, 0, "in", os.O_RDONLY, 0)],
                     self.streams)

    def end(self, status):
        """Takes up what it left."""
        self.status = os.waitstatus_to_exitcode(status)
        self.out, told = map(text_in, self.streams)
        # Why a program can't be started is said in a line of its own, before that of its transition; so is why a
        # failure is not remembered. Beside the log of a run, each command says first that it was cut short.
        cut = ": a command was cut short: " if self.options["log"] else "\n\n"
        self.err = "".join(line for line in told.splitlines(True)
                           if " can't be started: " not in line and ".failed: " not in line and cut not in line)
        self.grown = [int(word) for word in taken(self.counts).split()]
        self.noted = taken(self.log) if self.options["scripts"] else ""
        self.live, self.left = "", []
        if self.options["file"]:
            self.let_go()

    def let_go(self):
        """Takes its file. What is left beside that, the next session removes where calls about files fail."""
        places = [self.kept]
        if self.options["file"] == "link":
            places.append(self.place)
            if not os.path.islink(self.kept):
                self.left.append("a link is none any more")
        if self.options["log"] and read(self.kept + ".run") != read(self.options["log"]):
            self.left.append("another run log")
        if self.options["device"]:
            for path in places:
                if os.path.exists(path + ".new"):
                    ask(self.options["program"], ["session", "-b", "base", "-l", path], "")
        self.live = read(self.kept)
        for path in places:
            for ending in ("", ".lock", ".run", ".stop", ".failed", ".failed.new"):
                taken(path + ending)

    def is_last(self, well):
        """Whether no run is to come after it; `well` is how many ended well before it."""
        if not self.options["way"]:
            return well >= int(self.options["harmless"]) and self.is_well()
        grown = self.grown[self.options["way"] == "THREAD":]
        return not grown or int(self.options["from"]) + self.number > grown[0]

    def is_well(self):
        return self.status == 0 and ": not started\n" not in self.err


def spawn(program, words, environment, actions, streams):
    """Starts the program with these streams as output and standard error."""
    actions += [(os.POSIX_SPAWN_DUP2, stream, place + 1) for place, stream in enumerate(streams)]
    return os.posix_spawn(program, [program, *words], environment, file_actions=actions,
                          setsigdef=[signal.SIGPIPE, signal.SIGXFSZ])


def ask(program, words, text):
    """A run in which nothing is refused: its status, and what it writes to both streams."""
    streams = [stream(), stream(), stream()]
    os.write(streams[0], text.encode("latin-1"))
    os.lseek(streams[0], 0, os.SEEK_SET)
    child = spawn(program, words, AROUND, [(os.POSIX_SPAWN_DUP2, streams[0], 0)], streams[1:])
    status = os.waitstatus_to_exitcode(os.waitpid(child, 0)[1])
    os.close(streams[0])
    return status, text_in(streams[1]), text_in(streams[2])


class Wanted:
    """What whole runs come to: as it stands in files, or, where transitions can't be started, by a session
    of each line."""

    def __init__(self, program):
        self.program = program
        self.known = {}

    def __call__(self, key):
        if key not in self.known:
            if not os.path.exists(f"whole.{key}"):
                expects(self.program, key)
            texts = []
            while not texts or os.path.exists(f"text.{key}.{len(texts)}"):
                name = f"text.{key}.{len(texts)}"
                texts.append([read(path) for path in (name, name + ".then") if path == name or os.path.exists(path)])
            self.known[key] = int(read(f"status.{key}") or 0), read(f"whole.{key}"), texts
        return self.known[key]


def expects(program, key):
    """Writes what a session on the database `base` comes to, where the transitions KEY can't be started: the
    answers to the lines `in`, and the file after each."""
    write("live", read("text.none.0"))
    if key != "none":
        write(f"text.{key}.0", read("live"))
    whole = ""
    for number, line in enumerate(lines_of(read("in")), 1):
        status, out, _ = ask(program, ["session", "-b", "base", "-x", key, "-l", "live"], line + "\n")
        whole += out if status == 0 else out + "a wrong status\n"
        write(f"text.{key}.{number}", read("live"))
    write(f"whole.{key}", whole)
    os.unlink("live")


def sweep(options, words, rules):
    """All runs of one way: prints what is wrong with each, and what they left."""
    way = options["way"] or options["device"]
    running, ended = {}, {}
    number = seen = well = last = 0
    while running or not last and number < MOST:
        while not last and number < MOST and len(running) < int(options["lanes"]):
            number += 1
            run = Run(number, options)
            running[run.begin(words)] = run
        child, status = os.wait()
        run = running.pop(child)
        run.end(status)
        said = [rules.of(run), *run.left]
        if options["way"] and not run.grown:
            said.append("no counts")
        for what in filter(None, said):
            print(f"{way} {run.number}: {what} (wrote {run.out!r}, told {run.err!r}, noted {run.noted!r})")
        # In their order; those that were begun before the last one had ended are whole runs, too.
        ended[run.number] = run
        while seen + 1 in ended and not last:
            seen += 1
            run = ended.pop(seen)
            last = seen if run.is_last(well) else 0
            well = well + 1 if run.is_well() else 0
    if not last or last < int(options["least"]) or options["runs"] not in ("", str(last)):
        print(f"{way}: {last or 'endless'} runs")
    for name in sorted(os.listdir(".")):
        if name.endswith(".new"):
            print(f"{way}: {name} is left")


def main():
    place = sys.argv.index("--")
    options = dict(USUAL, **dict.fromkeys(FLAGS, ""))
    for word in sys.argv[1:place]:
        name, equals, value = word.partition("=")
        options[name] = value if equals else "1"
    words = sys.argv[place + 1:]
    if "expects" in options:
        expects(options["program"], options["expects"])
        return
    options["text"] = read("text.none.0")
    rules = Rules(options, Wanted(options["program"]))
    for way in options["ways"].split(","):
        options["way"] = way
        sweep(options, words, rules)
    for ending in sorted(rules.endings):
        print(ending)


main()
