"""The files of an entry of a source directory: a folder is a dictionary, a file is bytes."""

from forms import Failure, Refusal, is_name, is_text


def less_newline(text):
    return text[:-1] if text[-1:] == b"\n" else text


def file_text(name, folder, word):
    """The text of a file, nothing where there is none."""
    there = folder.get(word)
    if there is None:
        return None
    if isinstance(there, dict):
        raise Failure("Io", name)
    if len(there) > 65536:
        raise Refusal("TooLong", name)
    if not is_text(there) or b"\0" in there:
        raise Refusal("NotText", name)
    return there


def names_of_file(name, folder, word):
    """The names of a file, in its order."""
    names = []
    for line in (file_text(name, folder, word) or b"").split(b"\n"):
        word = line.strip(b" \t")
        if word and word[:1] != b"#":
            if not is_name(word):
                raise Refusal("BadName", name)
            names.append(word)
    return names


def names(name, folder, word):
    """The names of a file and of the folder beside it."""
    some = names_of_file(name, folder, word)
    beside = folder.get(word + b".d")
    if beside is None:
        return sorted(set(some))
    if not isinstance(beside, dict):
        raise Failure("Io", name)
    for other in sorted(beside):
        if other[:1] == b".":
            continue
        if not is_name(other):
            raise Refusal("BadName", name)
        some.append(other)
    return sorted(set(some))


def one_name(name, folder, word):
    some = names_of_file(name, folder, word)
    if len(some) > 1:
        raise Refusal("BadName", name)
    return some
