#!/usr/bin/env python3
"""Makes the lists of the man pages that are tables of docs/FORMATS.md and docs/COMMANDS.md, and the synopsis.

    tests/gate/manual.py            writes them (`make pages`)
    tests/gate/manual.py --check    prints how the pages differ from what would be made (status 1), and writes nothing

A list in a page stands between two comments, and is made anew from the table that the first one names, by the heading
of its section and that of its first column; MACRO is what the words of its items are set in:

    .\\" made from docs/FORMATS.md by make pages: MACRO, COLUMN of SECTION
    .\\" end

or, for the first block of a section that stands as it is, `text of SECTION`.

A row is an item. Its first cell has one or more forms, as `done W NAME ok`; its other cells are the text, each of them a
sentence or more that may begin in lower case and lack its point. A column `Of` says what the next one speaks of.

The synopsis is made from the commands and arguments of crates/rc_args/src/cmdline/told.rt, between comments alike. The name of
a value is that of the option's item in the page.
"""

import difflib
import pathlib
import re
import sys

TOP = pathlib.Path(__file__).resolve().parents[2]
MADE = re.compile(r'(\.\\" made from docs/FORMATS\.md by make pages: (\w\w), (\w+) of (.*)\n)(?:.*\n)*?(\.\\" end\n)')
BLOCK = re.compile(r'(\.\\" made from docs/FORMATS\.md by make pages: text of (.*)\n)(?:.*\n)*?(\.\\" end\n)')
TOLD = "crates/rc_args/src/cmdline/told.rt"
SYNOPSIS = re.compile(rf'(\.\\" made from {TOLD} by make pages\n)(?:.*\n)*?(\.\\" end\n)')
# The order of the options in the synopsis; others follow those of the names.
ORDER = "base new restarts renames live generation wait force up down down-all prune all".split()
BEHIND = "limit dry bound workers runner controller usual failing verbose progress output quiet".split()
APART = ["up", "down", "down-all"]
# Words of commands that are told otherwise.
WORDS = {"add": [".Ar name", ".Op Ar content ..."]}
DOCUMENTS = ("FORMATS.md", "COMMANDS.md")
PLACE = r"[A-Z]+"
WIDTH = 79


def tables():
    """The rows of each table below its heading, as lists of cells, by the heading of its section and its first column."""
    found, section, rows = {}, None, None
    for line in [it for name in DOCUMENTS for it in (TOP / "docs" / name).read_text().splitlines()]:
        if line.startswith("## "):
            section = line[3:]
        if not line.startswith("| "):
            rows = None if not line.startswith("|-") else rows
            continue
        cells = [cell.strip().replace("\\|", "|") for cell in re.split(r"(?<!\\)\|", line)[1:-1]]
        if rows is None:
            rows = found.setdefault((section, cells[0]), [])
            assert not rows, f"{section}: two tables begin with {cells[0]}"
        assert not rows or len(cells) == len(rows[0]), f"{section}: not as many cells as headings: {line}"
        rows.append(cells)
    return found


def escaped(text):
    """A text as an argument of a macro, or as a word of a line."""
    text = text.replace("\\", "\\e").replace('"', "\\(dq")
    return "\\&" + text if re.match(r"[.']|[(\[)\],:;?!|]$", text) else text


def place(name):
    """The name of what stands in for another text: NAME is shown as a word, and W as it is."""
    return name.lower() if len(name) > 1 else name


def form(text, macro):
    """A form, as `[-t MS] undo`, in macros."""
    said, last = [], None
    for token in re.findall(r"\[|\]|\.\.\.|(?:(?!\.\.\.)[^\s\[\]])+", text.removeprefix("refused ")):
        if token in ("[", "]"):
            said.append("Oo" if token == "[" else "Oc")
            last = None
        elif token == "...":
            said.append(token)
        elif token.startswith("-"):
            said += ["Fl", token[1:]]
            last = None
        else:
            kind, word = ("Ar", place(token)) if re.fullmatch(PLACE, token) else (macro, token)
            said += [word] if kind == last else [kind, word]
            last = kind
    return " ".join(said)


def code(text, macros):
    """What stands between backticks, in a macro."""
    if text in macros:
        return f"{macros[text]} {text}"
    if found := re.fullmatch(r"undorc ([a-z]+)", text):
        return f"Nm undorc Cm {found[1]}"
    if found := re.fullmatch(r"-([A-Za-z])", text):
        return f"Fl {found[1]}"
    return f"Ql {escaped(text)}"


def prose(text, macros, places):
    """The lines of a text of one or more sentences, each of which begins a line."""
    lines, filled = [], ""
    for token in re.findall(r"(?:`[^`]*`|[^\s`])+", text[:1].upper() + text[1:]):
        parts = re.fullmatch(r"(\(?)(?:`([^`]*)`|(" + PLACE + r"))([).,:;?!]*)", token)
        if parts and (parts[2] is not None or parts[3] in places):
            said = code(parts[2], macros) if parts[2] is not None else f"Ar {place(parts[3])}"
            if parts[1]:
                said = said.replace(" ", " ( ", 1)
            lines += [filled] if filled else []
            lines.append("." + " ".join([said, *parts[4]]))
            filled = ""
            continue
        assert "`" not in token, f"no form for {token} in: {text}"
        if filled and len(filled) + 1 + len(token) > WIDTH:
            lines.append(filled)
            filled = ""
        filled = f"{filled} {escaped(token) if not filled else token}".strip()
        if re.search(r"[.?!]\)?$", token):
            lines.append(filled)
            filled = ""
    return lines + ([filled] if filled else [])


def items(rows, macro, macros):
    """The lines of the items of a table."""
    heads = rows[0]
    for cells in rows[1:]:
        forms = re.findall(r"`([^`]*)`", cells[0])
        yield ".It " + (" , ".join(form(it, macro) for it in forms) or cells[0])
        places = set(re.findall(rf"\b{PLACE}\b", " ".join(forms)))
        prefix = ""
        for head, cell in zip(heads[1:], cells[1:]):
            if head == "Of":
                prefix = f"of {cell}: "
            elif cell:
                point = "" if re.search(r"[.?!]$", cell) else "."
                yield from prose(prefix + cell + point, macros, places)
                prefix = ""


def made(page, found):
    """A page with its lists as the tables have them. The words of one of them are set alike in all."""
    macros, lists = {}, MADE.findall(page)
    blocks = len(BLOCK.findall(page))
    assert len(lists) + blocks == page.count("made from docs/FORMATS.md"), "a list has no end, or is named wrongly"
    for _, macro, column, section, _ in lists:
        assert (section, column) in found, f"docs/FORMATS.md has no table of {column} in {section}"
        for row in found[section, column][1:]:
            for it in re.findall(r"`([^`]*)`", row[0]):
                macros.setdefault(re.search(rf"\b{macro} (\S+)", form(it, macro))[1], macro)

    def again(match):
        head, macro, column, section, end = match.groups()
        return head + "".join(line + "\n" for line in items(found[section, column], macro, macros)) + end

    page = MADE.sub(again, page)
    page = BLOCK.sub(lambda match: match[1] + block(match[2]) + match[3], page)
    return SYNOPSIS.sub(lambda match: match[1] + "".join(line + "\n" for line in synopsis(page)) + match[2], page)


def block(section):
    """The first block of a section."""
    text = (TOP / "docs" / "FORMATS.md").read_text().split(f"\n## {section}\n", 1)[1].split("\n## ", 1)[0]
    return re.search(r"^```\n((?:.*\n)*?)```$", text, re.M)[1]


def arguments():
    """The commands in order, each with its arguments: the form of one, and its texts."""
    told = (TOP / TOLD).read_text()
    text = r'"(?:[^"\\]|\\.)*"'
    one = rf"(Flag|Valued|Repeated|Long|Words)\(((?:[^()\"']|{text}|'.')*)\)|\b([A-Z_]+)\b|\b(Query)\b"

    def parsed(source):
        for form, inner, name, query in re.findall(one, source):
            texts = re.findall(r"'(.)'|\"([^\"]*)\"|(\d+)", inner)
            if form == "Long":
                texts.insert(1, ("-", *texts[0][1:]))
            yield from named[name] if name else [(form or query, texts)]

    named = {}
    for name, many, value in re.findall(r"^const (\w+): (\[?)ToldArg(?:; \d+\])? = ((?:.|\n)*?);$", told, re.M):
        named[name] = list(parsed(value))
    for name, args in re.findall(r'name: "([a-z]+)",\n(?:.|\n)*?args: &(\w+|\[\w*\]),', told):
        yield name, [(form, ["".join(it) for it in texts]) for form, texts in parsed(args)]


def synopsis(page):
    """The lines of the synopsis."""
    values = {}
    for letter, name in re.findall(r"^\.It Fl (\w|-\w+) Ar (\S+)$", page, re.M):
        values.setdefault(letter, []).append(name)

    def value_of(letter, told):
        """The name of an option's value: that of its heading, or of several headings the one that is told."""
        return told.lower() if told.lower() in values[letter] else values[letter][-1]

    def place_of(arg):
        name = arg[1][0]
        return ORDER.index(name) if name in ORDER else len(ORDER) + 1 + (BEHIND.index(name) if name in BEHIND else -1)

    for command, args in arguments():
        yield from (".Nm undorc", f".Cm {command}")
        options = [arg for arg in args if arg[0] not in ("Query", "Words")]
        letters = {texts[0]: texts[1] for _, texts in options}
        for form, texts in sorted(options, key=place_of):
            said = f"Fl {texts[1]}" + ("" if form == "Flag" else f" Ar {value_of(texts[1], texts[2])}")
            if all(name in letters for name in APART) and texts[0] in APART:
                if texts[0] != APART[0]:
                    continue
                said = " | ".join(f"Fl {letters[name]}" for name in APART)
            yield f".Op {said}"
        for form, texts in args:
            if form == "Query":
                yield ".Ar query"
            elif form == "Words":
                least, name = int(texts[0]), f"Ar {texts[1].lower()} ..."
                yield from WORDS.get(command, [f".{name}" if least else f".Op {name}"])


def main():
    found, differs = tables(), False
    for file in sorted((TOP / "man").glob("*.[15]")):
        page = file.read_text()
        other = made(page, found)
        if "--check" not in sys.argv[1:]:
            file.write_text(other)
        elif page != other:
            differs = True
            names = (f"man/{file.name}", "as docs/FORMATS.md has it")
            print(*difflib.unified_diff(page.splitlines(), other.splitlines(), *names, n=0, lineterm=""), sep="\n")
    return 1 if differs else 0


if __name__ == "__main__":
    sys.exit(main())
