"""Makes a case that fails smaller, as long as it fails."""

import copy

import database
import live
from case import EDITS, ON_FILES, is_history
from forms import Refusal

# Commands that want a file, and those that want a name.
KEEPING = ("update",) + ON_FILES
NAMING = ("restart",) + EDITS


def parts_of_lines(text):
    """The text without some of its lines: halves, quarters and so on, down to single lines."""
    lines = text.split(b"\n")
    size = len(lines)
    while size:
        for at in range(0, len(lines), size):
            yield b"\n".join(lines[:at] + lines[at + size :])
        size //= 2


def parts_of_words(text):
    words = text.split(b" ")
    for place in range(len(words) if len(words) > 1 else 0):
        yield b" ".join(words[:place] + words[place + 1 :])


def smaller_bases(text):
    """Databases without one service or bundle; of a text that is none, texts without some lines."""
    try:
        base, _ = database.read(text, True)
    except Refusal:
        yield from parts_of_lines(text)
        return
    for name in list(base.services):
        less, _ = database.read(text, True)
        del less.services[name]
        for service in less.services.values():
            service.needs = [n for n in service.needs if n != name]
            service.producer = None if service.producer == name else service.producer
        less.bundles = {b: m - {name} for b, m in less.bundles.items()}
        yield database.text_of(less)
    for name in list(base.bundles):
        less, _ = database.read(text, True)
        del less.bundles[name]
        yield database.text_of(less)


def smaller_trees(trees):
    for place in range(len(trees)):
        if len(trees) > 1:
            yield trees[:place] + trees[place + 1 :]
        for name in trees[place]:
            less = copy.deepcopy(trees)
            del less[place][name]
            yield less
            folder = trees[place][name]
            for word in folder if isinstance(folder, dict) else ():
                less = copy.deepcopy(trees)
                del less[place][name][word]
                yield less


def with_part(case, part, value):
    less = copy.copy(case)
    setattr(less, part, value)
    return less


def smaller(case):
    parts = [("kept", None), ("bound", None), ("generation", None), ("keeps", False), ("failing", []), ("restarts", []), ("renames", None)]
    for part, less in parts + [("workers", None), ("limit", 0), ("force", False)]:
        if part in ("kept", "keeps") and is_history(case.kept):
            continue
        wants = case.kept or case.generation is not None or case.word in KEEPING
        if getattr(case, part) != less and not (part == "keeps" and wants):
            yield with_part(case, part, less)
    for text in parts_of_lines(case.own):
        yield with_part(case, "own", text)
    if case.base is not None:
        for text in smaller_bases(case.base):
            yield with_part(case, "base", text)
    if case.renames is not None:
        for text in parts_of_lines(case.renames):
            yield with_part(case, "renames", text)
    if case.other is not None:
        for text in smaller_bases(case.other):
            yield with_part(case, "other", text)
    if case.kept is not None and not is_history(case.kept):
        for text in parts_of_lines(case.kept):
            yield with_part(case, "kept", text)
    for part in ("failing", "words") if case.query not in (b"list", b"type") else ("failing",):
        some = getattr(case, part)
        for place in range(part == "words" and case.word in NAMING, len(some)):
            yield with_part(case, part, some[:place] + some[place + 1 :])
    for trees in smaller_trees(case.trees):
        yield with_part(case, "trees", trees)
    for text in parts_of_words(case.own):
        yield with_part(case, "own", text)


def shrunk(case, differs, tries=3000):
    """The case, made smaller step by step while it still differs."""
    found = True
    while found:
        found = False
        for less in smaller(case):
            tries -= 1
            if tries < 0:
                return case
            if size(less) < size(case) and differs(less):
                case, found = less, True
                break
    return case


def size(case):
    kept = len(case.kept) + 1 if case.kept is not None else 0
    flags = (case.bound is not None) + (case.generation is not None) + case.keeps + (case.workers is not None) + (case.limit > 0) + case.force
    words = sum(len(w) + 1 for w in case.words) + sum(len(n) + 1 for _, n in case.failing)
    bases = len(case.base or b"") + len(case.other or b"")
    return bases + len(case.own) + kept + flags + words + len(repr(case.trees))
