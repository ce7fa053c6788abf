"""The fields of a service, beside its kind and needs: each with its source file and its form in the text of a database.

A new field is one more line of `WORDS` or `SCRIPTS`: the compiler, the reader and the writer of databases and the drawer
of cases go through these. A kind of field has

    of_file(name, folder)   its value by the files of the entry of a name
    of_word(lines, word)    its value by its word of a first line, and word(value) that word; or
    of_line(lines)          its value by a line of its own, and line(value) that line
    missing                 its value where nothing is said of it
    values                  what is drawn for it in a database
    contents                what is drawn for its file, which is there in one of `rare` entries
"""

from files import file_text, less_newline, one_name
from forms import Refusal, is_name, is_number, is_text

TEXTS = (b"", b"\n", b"true\n", b"end\n", b"x y", b"bundles 0\nend\n", "é\n\n".encode(), b"\r\t")


class Field:
    missing = None

    def __init__(self, name, file):
        self.name = name
        self.file = file


class Flag(Field):
    """A file that is there or not, and one of two words."""

    missing = False
    values = (False, False, False, True)
    contents, rare = (b"x",), 4

    def __init__(self, name, file, words):
        super().__init__(name, file)
        self.words = words

    def of_file(self, name, folder):
        return self.file in folder

    def of_word(self, lines, word):
        if word not in self.words:
            raise lines.bad()
        return word == self.words[True]

    def word(self, value):
        return self.words[value]


class Limit(Field):
    """Milliseconds, 0 where the file is missing."""

    missing = 0
    values = (0, 0, 0, 1, 500, 4294967295)
    contents, rare = (b"0", b"5\n", b"0000000042", b"4294967295\n"), 4

    def of_file(self, name, folder):
        text = file_text(name, folder, self.file)
        if text is None:
            return 0
        text = less_newline(text)
        if not text.isdigit() or len(text) > 10 or int(text) > 4294967295:
            raise Refusal("BadTimeout", name)
        return int(text)

    def of_word(self, lines, word):
        if not is_number(word) or int(word) > 4294967295:
            raise lines.bad()
        return int(word)

    def word(self, value):
        return b"%d" % value


class Script(Field):
    """A text of a oneshot, behind the line that says how long it is."""

    values, contents, rare = TEXTS, TEXTS, 1

    def of_file(self, name, folder):
        text = file_text(name, folder, self.file)
        if text is None:
            raise Refusal("NoUp", name)
        return text

    def of_line(self, lines):
        words = lines.next_line()
        if len(words) != 2 or words[0] != self.file or not is_number(words[1]):
            raise lines.bad()
        length = int(words[1])
        text = lines.text[lines.end : lines.end + length]
        behind = lines.text[lines.end + length : lines.end + length + 1]
        if length > 65536 or behind != b"\n" or not is_text(text) or b"\0" in text:
            raise lines.bad()
        lines.end += length + 1
        lines.passed()
        return text

    def line(self, value):
        return b"%s %d\n%s\n" % (self.file, len(value), value)


class OptionalScript(Script):
    """Such a text, or a line with a dash."""

    values, rare = TEXTS + (None, None), 2

    def of_file(self, name, folder):
        return file_text(name, folder, self.file)

    def of_line(self, lines):
        if lines.next_line() != [self.file, b"-"]:
            return super().of_line(lines)
        lines.passed()
        return None

    def line(self, value):
        return b"%s -\n" % self.file if value is None else super().line(value)


class Reader(Field):
    """The longrun that reads what this one writes, if any; which one is drawn where others are known."""

    values, contents, rare = (None,), (), 0

    def of_file(self, name, folder):
        some = one_name(name, folder, self.file)
        return some[0] if some else None

    def of_line(self, lines):
        words = lines.next_line()
        if len(words) != 2 or words[0] != b"producer":
            raise lines.bad()
        if words[1] != b"-" and not is_name(words[1]):
            raise lines.bad()
        lines.passed()
        return None if words[1] == b"-" else words[1]

    def line(self, value):
        return b"producer %s\n" % (value or b"-")


# The words of a first line behind the kind.
WORDS = (
    Flag("essential", b"flag-essential", (b"plain", b"essential")),
    Limit("up_limit", b"timeout-up"),
    Limit("down_limit", b"timeout-down"),
)
SCRIPTS = (Script("up", b"up"), OptionalScript("down", b"down"))
PRODUCER = Reader("producer", b"producer-for")
# The lines behind the needs, by the kind.
LINES = {b"oneshot": SCRIPTS, b"longrun": (PRODUCER,)}
# What is read of the files of a kind, in the order of its tests; needs and pipes follow.
FILES = {b"oneshot": SCRIPTS + WORDS, b"longrun": WORDS}
EACH = WORDS + SCRIPTS + (PRODUCER,)
