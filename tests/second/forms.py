"""Names, and texts that are read line by line, as docs/FORMATS.md has them."""


class Refusal(Exception):
    """Why something is refused, as the line on standard error or the answer of a session says it."""

    def __init__(self, *words):
        super().__init__()
        self.text = b" ".join(w if isinstance(w, bytes) else str(w).encode() for w in words)


class Failure(Refusal):
    """A device or a file has failed, or an input is too long: status 111."""


def is_text(some):
    """Whether these bytes are UTF-8."""
    try:
        some.decode("utf-8")
        return True
    except UnicodeDecodeError:
        return False


def is_name(word):
    return (
        1 <= len(word) <= 255
        and is_text(word)
        and all(b > 32 and b != 127 and b != ord("/") for b in word)
        and word[:1] not in (b"-", b"#")
        and not word.startswith(b"s6rc-")
    )


def is_number(word):
    """Digits without a leading zero."""
    return word.isdigit() and (word == b"0" or word[:1] != b"0")


def ascends(names):
    return all(a < b for a, b in zip(names, names[1:]))


class Lines:
    """The lines of a text, of which the next one is due."""

    def __init__(self, text):
        self.text = text
        self.at = 0

    def bad(self):
        return Refusal("Bad", self.at)

    def next_line(self):
        """The words of the line that is due; it stays due until it is passed."""
        end = self.text.find(b"\n", self.at)
        if end < 0:
            raise self.bad()
        self.end = end + 1
        return self.text[self.at : end].split(b" ")

    def passed(self):
        self.at = self.end

    def version(self, word, versions):
        words = self.next_line()
        if len(words) == 2 and words[0] == word and is_number(words[1]):
            if int(words[1]) not in versions:
                raise Refusal("Version")
            self.passed()
            return int(words[1])
        raise self.bad()

    def whole(self, words):
        """A line of exactly these words."""
        if self.next_line() != words:
            raise self.bad()
        self.passed()

    def nothing_more(self):
        if self.at != len(self.text):
            raise self.bad()
