#!/usr/bin/env python3
"""Names each statement of the lemmas of crates/*/proofs that stands more than once, with its places, and each function of
crates/*/src with more than six arguments besides `self`. Names of variables do not count. The status is 1 if there is one.
"""

import collections
import pathlib
import re
import sys

TOP = pathlib.Path(__file__).resolve().parents[2]
MOST = 6
# Functions that may have more, and why.
LONGER = {
    "rc_board::change": "the specification fixes its arguments",
    "rc_board::undo": "the specification fixes its arguments",
    "rc_board::redo": "the specification fixes its arguments",
    "rc_serve::serve": "the specification fixes its arguments",
}
IMPORT = re.compile(r"(?m)^(?:pub )?use (Rattle\.rc_[\w.]+)(?:\.\{([^}]*)\}| as (\w+))$")
HEAD = re.compile(r"( *)(?:pub )?([^\s(){}:,]+) :(?: |$)")
MODULE = re.compile(r"( *)module _ (.*) where$")
TOKEN = re.compile(r"[(){}\[\],;]|[^\s(){}\[\],;]+")
NAME = re.compile(r"[^\W\d][\w'-]*")


def blocks(lines):
    """Each line, joined with those that go on with it, and its number."""
    end = 0
    while end < len(lines):
        begin, indent, end = end, re.match(" *", lines[end])[0], end + 1
        if HEAD.match(lines[begin]) or lines[begin].lstrip().startswith("module "):
            while end < len(lines) and re.match(indent + r"   +\S", lines[end]):
                end += 1
        yield begin + 1, indent + " ".join(" ".join(lines[begin:end]).split())


def statements(text):
    """The lemmas of a file: line, name, and statement with the parameters of the modules around it. A type of one or two
    words, or that ends with `Type`, is that of a definition."""
    around = []
    for number, line in blocks([re.sub(r"(^|\s)--(\s.*)?$", "", line).rstrip() for line in text.split("\n")]):
        indent = len(line) - len(line.lstrip())
        if line:
            around = [(depth, given) for depth, given in around if depth < indent]
        if module := MODULE.match(line):
            around.append((indent, module[2]))
        elif (head := HEAD.match(line)) and indent == 2 * len(around):
            says = line[head.end():]
            if len(says.split()) > 2 and not says.startswith("goal.") and not re.search(r"\bType( \d)?$", says):
                yield number, head[2], " ".join([given for _, given in around] + [says])


def expanded(tokens):
    """The tokens with one variable in each binder, and no arrow after a binder."""
    while tokens:
        token, tokens, names = tokens[0], tokens[1:], 0
        while token in "({" and names < len(tokens) and NAME.fullmatch(tokens[names]):
            names += 1
        if names == 0 or tokens[names:names + 1] != [":"]:
            yield token
            continue
        end, depth = names, 1
        while depth > 0:
            end += 1
            depth += (tokens[end] in "({[") - (tokens[end] in ")}]")
        kind = list(expanded(tokens[names + 1:end]))
        for name in tokens[:names]:
            yield from [token, name, ":", *kind, tokens[end]]
        tokens = tokens[end + 1:]
        if tokens[:1] == ["→"]:
            tokens = tokens[1:]


def key(statement, imported):
    """The statement with its variables by number, and what crates of the repository define by its module."""
    tokens = list(expanded(TOKEN.findall(statement)))
    variables = {}
    for before, token, after in zip(tokens, tokens[1:], tokens[2:] + [""]):
        if (before in "({" and after == ":") or before == "λ":
            variables.setdefault(token.rstrip("."), f"#{len(variables)}")
    said = []
    for token in tokens:
        name, dot, rest = token.partition(".")
        said.append(variables.get(name, imported.get(name, name)) + dot + rest)
    return " ".join(said)


def doubled():
    """The places of each statement that stands more than once."""
    places = collections.defaultdict(list)
    for path in sorted((TOP / "crates").glob("*/proofs/**/*.antt")):
        text = path.read_text(encoding="utf-8")
        imported = {}
        for module, names, other in IMPORT.findall(text):
            imported |= {other: module} if other else {}
            for name in filter(None, map(str.strip, names.split(","))):
                first, _, last = name.partition(" as ")
                imported[last or first] = f"{module}.{first}"
        for number, name, statement in statements(text):
            places[key(statement, imported)].append(f"{path.relative_to(TOP)}:{number}: {name}")
    return [found for found in places.values() if len(found) > 1]


def arguments(text):
    """How many arguments the list that begins the text has, besides `self`."""
    depth, end, items = 0, 0, [""]
    while True:
        letter = text[end]
        depth += (letter in "([{<") - (letter in ")]}" or (letter == ">" and text[end - 1] != "-"))
        if depth == 0:
            return len([item for item in items if item.strip() and not re.fullmatch(r"(&('\w+ )?)?(mut )?self", item.strip())])
        if letter == "," and depth == 1:
            items.append("")
        elif end > 0:
            items[-1] += letter
        end += 1


def longer():
    """The functions with too many arguments."""
    for path in sorted((TOP / "crates").glob("*/src/**/*.rt")):
        text = re.sub(r"//.*", "", path.read_text(encoding="utf-8"))
        for head in re.finditer(r"\bfn (\w+)(?=[<(])", text):
            end, depth = head.end(), 0
            while text[end] != "(" or depth > 0:
                depth += (text[end] == "<") - (text[end] == ">" and text[end - 1] != "-")
                end += 1
            name = f"{path.relative_to(TOP).parts[1]}::{head[1]}"
            if name not in LONGER and arguments(text[end:]) > MOST:
                yield f"{path.relative_to(TOP)}:{text[:end].count(chr(10)) + 1}: {head[1]} has more than {MOST} arguments"


def main():
    found = ["one statement stands more than once:\n    " + "\n    ".join(places) for places in doubled()] + list(longer())
    for fault in found:
        print(fault)
    return 1 if found else 0


if __name__ == "__main__":
    sys.exit(main())
