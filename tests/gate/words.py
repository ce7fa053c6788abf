#!/usr/bin/env python3
"""Prints docs/WORDS.md: each definition that a public contract names, with what its comment says, and the contracts.

    tests/gate/words.py > docs/WORDS.md        (`make model`; git does not keep it)

Of rc_model, which is read as a whole, each definition is listed; of other crates those that the contract of a public
call or type names. A contract names a word where the file imports it, and it stands in a clause of the call or type.
"""

import functools
import pathlib
import re
from dataclasses import dataclass, field

TOP = pathlib.Path(__file__).resolve().parents[2]
HEAD = """# Words of the contracts

Made by `make model` from the sources; `docs/MODEL.md` says how to read it. Each definition of `rc_model`, in the order of \
its modules, and of the other crates each definition that the contract of a public call or type names, with its comment. \
Beside it stand the calls and types whose own contracts name it; the others are cited by definitions further down.
"""
DEFINITION = re.compile(r"(?:abbrev |unfoldable )*pub (?:record |data )?(\w+)")
USE = re.compile(r"\s*ghost use Rattle\.(\w+)\.specs\.(\w+)\.\{(.*)\};")


@dataclass
class Word:
    """A definition: its crate, its module, its name, its comment, and the contracts that name it."""

    crate: str
    module: str
    name: str
    comment: str
    named_by: list[str] = field(default_factory=list)


def crates():
    """The crates of the product, lowest first."""
    for line in (TOP / "crates.txt").read_text().splitlines():
        name = line.partition(":")[0].split()
        if name and not line.startswith("#") and name[0] != "scenarios":
            yield name[0]


def modules_of(crate):
    """The files of a crate's definitions, in the order in which its list names them."""
    folder = TOP / "crates" / crate / "specs"
    if not (folder / "Lib.antt").is_file():
        return
    for name in re.findall(r"^pub mod (\w+)", (folder / "Lib.antt").read_text(), re.M):
        if (folder / f"{name}.antt").is_file():
            yield folder / f"{name}.antt"


def words_in(file):
    """The public definitions of a file, each with the comment above it."""
    comment = []
    for line in file.read_text().splitlines():
        if line.startswith("-- "):
            comment.append(line[3:])
        elif found := DEFINITION.match(line):
            yield Word(file.parent.parent.name, file.stem, found[1], " ".join(comment))
            comment = []
        elif not line.startswith(" "):
            comment = []


def exported_by(crate):
    """Where a name of a module is public: the path of that module, by what those above it say, or None."""
    folder = TOP / "crates" / crate / "src"

    @functools.cache
    def exports(path):
        text = (folder.joinpath(*path).with_suffix(".rt") if path else folder / "lib.rt").read_text()
        names = set()
        for one, several in re.findall(r"^pub use (?:crate::)?[\w:]+?::(?:(\w+)|\{([^}]*)\});", text, re.M):
            names.update(it.strip() for it in (several or one).split(","))
        return {*re.findall(r"^pub mod (\w+);", text, re.M)}, names

    def public_at(path, name):
        for depth, module in enumerate(path):
            modules, names = exports(path[:depth])
            if name in names:
                return path[:depth]
            if module not in modules:
                return None
        return path

    return public_at


def contracts_in(file, path, public_at):
    """The public calls and types of a source file of a module, each with the lines of its contract."""
    owner, is_trait, name, clauses = "", False, None, []
    for line in file.read_text().splitlines():
        text = line.strip()
        if block := re.match(r"(impl|pub trait)\b(?:<[^{]*?>)? ?(?:([\w:]+)(?:<[^{]*?>)? for )?([\w:]+)", line):
            owner, is_trait = block[3], bool(block[2]) or block[1] == "pub trait"
            if block[2] == "Model" and public_at(path, owner) is not None:
                name, clauses = owner, []
        elif line.startswith("}"):
            if name and clauses:
                yield name, clauses
            owner, name, clauses = "", None, []
        elif call := re.match(r"(?:    )?(pub )?fn (\w+)", line):
            if name and clauses:
                yield name, clauses
            at = public_at(path, owner or call[2]) if call[1] or (owner and is_trait) else None
            name, clauses = None, []
            if at is not None:
                name = f"{owner}::{call[2]}" if owner else "::".join([file.parts[len(TOP.parts) + 1], *at, call[2]])
        elif name and text in ("{", "}"):
            if clauses:
                yield name, clauses
            name, clauses = None, []
        elif name and not text.startswith(("//", "ghost use")):
            clauses.append(text)
    if name and clauses:
        yield name, clauses


def note_contracts(words, crate):
    """Notes at each word which contracts of a crate name it."""
    if not (TOP / "crates" / crate / "src" / "lib.rt").is_file():
        return
    public_at, folder = exported_by(crate), TOP / "crates" / crate / "src"
    for file in sorted(folder.rglob("*.rt")):
        path = file.relative_to(folder).with_suffix("").parts
        imported = {}
        for line in file.read_text().splitlines():
            if found := USE.match(line):
                for name in found[3].split(","):
                    imported[name.strip()] = (found[1], found[2], name.strip())
        for call, clauses in contracts_in(file, () if path == ("lib",) else path, public_at):
            for name in sorted(set(re.findall(r"[A-Za-z_]\w*", " ".join(clauses)))):
                word = words.get(imported.get(name))
                if word and f"`{call}`" not in word.named_by:
                    word.named_by.append(f"`{call}`")


def main():
    words = {}
    for crate in crates():
        for file in modules_of(crate):
            for word in words_in(file):
                words[word.crate, word.module, word.name] = word
    for crate in crates():
        note_contracts(words, crate)
    print(HEAD, end="")
    heading = None
    for word in words.values():
        if not word.named_by and word.crate != "rc_model":
            continue
        if heading != (word.crate, word.module):
            heading = (word.crate, word.module)
            print(f"\n## `{word.crate}`: `{word.module}`\n\n| Word | Says | Named by |\n|---|---|---|")
        comment = word.comment.replace("|", "\\|")
        print(f"| `{word.name}` | {comment} | {', '.join(word.named_by)} |")


if __name__ == "__main__":
    main()
