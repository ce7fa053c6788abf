"""What a run of the program may come to, in which something was refused or failed: what it wrote, its
status, the file of its session, and what its scripts noted (a line `up NAME` or `down NAME` of each).
refusals.py makes the runs.

What a whole run writes stands in `whole.none`, and the file of its session after so many commands in
`text.none.NUMBER`; in place of `none` stand the transitions that can't be started, as `-x` takes them.
Where the file has another text before the next command has done anything, or before all is settled after the last one,
that is `text.none.NUMBER.then`.
The status is 0, or the one in `status.none`.
"""

import re
from collections import Counter

PROGRESS = re.compile(r"undorc: +[0-9]+\.[0-9]+ s  ((up|down) ([a-z]): (started|ok|not started))\Z")
HELP = re.compile(r"  (nothing is named|options stand|no change is|-p goes|(no|a) (bundle|service) has this name[;,]) ")
# What is told of a run log or of the log of commands, beside a fault or alone.
LOG = re.compile(r"undorc: (the next command enters what was moved|\S+\.run can't be written: .*"
                 r"|\S+\.log: .*: this command is not entered there)\Z")
MAY_BE_DONE = ("undorc: Memory", "undorc: Io", "undorc: Write")


def lines_of(text):
    """The lines of a text, each without its end; what follows the last one is left out."""
    return text.split("\n")[:-1]


def told_of(text):
    """The transitions that a run tells as not started, in the order of their names, and what it tells
    beside those that are started and end well, without the lines of help behind a fault."""
    failing, fault = [], ""
    for line in lines_of(text):
        progress = PROGRESS.match(line)
        if progress:
            if progress[4] == "not started":
                failing.append((progress[3], progress[2] + ":" + progress[3]))
        elif HELP.match(line) or LOG.match(line):
            continue
        elif not fault.startswith("undorc: ") or not line.startswith("  "):
            fault += line + "\n"
    fault += text[text.rfind("\n") + 1:]
    failing.sort(key=lambda pair: pair[0])
    return ",".join(word for _, word in failing) or "none", fault.removesuffix("\n")


def answers_of(text):
    """Where the answers that stand in a text end."""
    place, ends = 0, []
    for line in lines_of(text):
        place += len(line) + 1
        if line == "ok" or line.startswith("refused "):
            ends.append(place)
    return ends


def moves_of(text):
    """The notes that scripts leave by which these answers come to be."""
    moves = Counter()
    for line in lines_of(text):
        way, *names = line.split(" ")
        if way in ("raised", "lowered"):
            moves.update(("up " if way == "raised" else "down ") + name for name in names)
    return moves


def is_front(part, whole):
    """Whether these are some lines of a text, in their order, the first one among them."""
    if not part.endswith("\n") or lines_of(part)[0] != lines_of(whole)[0]:
        return False
    left = iter(lines_of(whole))
    return all(line in left for line in lines_of(part))


class Rules:
    """Says of one run after the other what is wrong with it, and keeps how they ended. The options:
        faults   those that a run may end with
        alone    nothing is written where a run ends with a fault
        answers  it is a session: what is written ends after an answer, but where writing has failed
        scripts  what its scripts noted is looked at
        kept     the file of the session is looked at
        fresh    there was none
        lost     of a script that is told as not started nobody knows whether it ran
        told     a whole run is refused with this status, and tells what stands in `whole.err`
        notes    a whole run tells what stands in `whole.err`, and of that some lines may be missing
        read     so many bytes a call are read, of which as many are made as runs were before, and each line
                 that is whole by then is answered, as in `answers.LINES`
        written  so many bytes a call are written, and more by each call
    `wanted(KEY)` is what a whole run comes to: its status, what it writes, and the texts that its file may
    have after each command."""

    def __init__(self, options, wanted):
        self.options = options
        self.wanted = wanted
        self.faults = {"undorc: " + word for word in options["faults"].split(",")}
        self.endings = set()
        self.lengths = {}

    def of(self, run):
        """What is wrong with a run, or nothing."""
        if self.options["told"]:
            return self.refused(run)
        key, fault = told_of(self.unnoted(run))
        status, whole, texts = self.wanted(key)
        self.endings.add(f"{run.status} {fault}".rstrip(" "))
        if run.status == status and not fault:
            if run.out != whole:
                return "other answers"
        elif run.status != 111 or fault not in self.faults:
            return f"status {run.status}, told: {fault}"
        elif self.options["alone"] and run.out:
            return "something was written"
        if not whole.startswith(run.out):
            return "no front of the answers"
        ends = answers_of(run.out)
        end = ends[-1] if ends else 0
        if self.options["read"] and fault and run.out != self.by_reading(run):
            return "other lines are answered"
        if self.options["written"] and fault and not self.is_by_writing(run):
            return "too much or too little is written"
        if not self.options["answers"]:
            return self.file(run, texts[0] if fault else texts[-1])
        if fault != "undorc: Write" and len(run.out) != end:
            return "an answer is cut"
        return self.deeds(run, key, fault, whole, run.out[:end], texts[len(ends):])

    def refused(self, run):
        """The same of a run that is refused where memory suffices."""
        if run.out:
            return "something was written"
        if run.status == 111 and run.err == "undorc: Memory\n":
            self.endings.add("111 undorc: Memory")
            return ""
        whole = run.text_of("whole.err")
        if run.status != int(self.options["told"]) or not is_front(run.err, whole):
            return f"status {run.status}, told: {run.err}"
        self.endings.add(str(run.status))
        return ""

    def unnoted(self, run):
        """What a run tells, without the notes."""
        if not self.options["notes"]:
            return run.err
        lines = run.err.splitlines(keepends=True)
        for note in run.text_of("whole.err").splitlines(keepends=True):
            if note in lines:
                lines.remove(note)
        return "".join(lines)

    def by_reading(self, run):
        """The answers to the lines that were whole where a read failed."""
        taken = run.text_of("in")[:int(self.options["read"]) * (run.number - 1)]
        return run.text_of(f"answers.{len(lines_of(taken))}")

    def is_by_writing(self, run):
        """Whether what was written is as much as so many calls write, and more than in the run before. That
        may end later."""
        self.lengths[run.number] = size = len(run.out)
        before, after = (self.lengths.get(run.number + step) for step in (-1, 1))
        if before is not None and before >= size or after is not None and after <= size:
            return False
        return size <= int(self.options["written"]) * (run.number - 1)

    def file(self, run, may):
        """What is wrong with the file, which may have one of these texts."""
        return "" if not self.options["kept"] or run.live in may else "another file"

    def deeds(self, run, key, fault, whole, answers, texts):
        """What is wrong with what a session has done that wrote these answers at its front, or nothing.
        The next line is done where its answer can't be written, and may be where it could not be made
        or kept. `texts` are those that the file may have from these answers on."""
        following = whole[len(answers):]
        following = following[:(answers_of(following) or [0])[0]]
        may = moved = fault in MAY_BE_DONE
        if self.options["scripts"]:
            moved = may and self.are_moves(run, key, answers + following)
            if not moved and not self.are_moves(run, key, answers):
                return "other scripts ran"
        if fault == "undorc: Write" and not moved:
            return "what was to be answered was not done"
        if not self.options["kept"] or (moved and run.live in self.kept_next(texts)):
            return ""
        if fault == "undorc: Write":
            return "what was to be answered was not kept"
        if self.options["fresh"] and not answers and not run.live:
            return ""
        return self.file(run, texts[0] if fault else texts[0][:1])

    @staticmethod
    def kept_next(texts):
        """What the file may have once the next line is done and not answered: after the last one that may
        not be settled."""
        return texts[1] if len(texts) == 2 else texts[1][:1] if texts[1:] else []

    def are_moves(self, run, key, answers):
        """Whether what scripts noted are the moves that these answers tell, each once. Notes of
        transitions that are lost are passed over."""
        told, noted = moves_of(answers), Counter(lines_of(run.noted))
        if self.options["lost"]:
            for word in key.split(","):
                noted.pop(word.replace(":", " "), None)
        return told == noted
