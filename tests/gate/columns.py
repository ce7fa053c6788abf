#!/usr/bin/env python3
"""Keeps the lines of the crates' .rt and .antt files within 100 characters.

    tests/gate/columns.py [FILE..]          breaks the lines that are too long, and formats as `rt fmt` does
    tests/gate/columns.py --check [FILE..]  names each line that is too long, and writes nothing

Without a FILE it takes all files of `src`, `specs` and `proofs`. The status is 1 if a line is too long at the end.

A list of names is split into several `use` lines, the end of a comment goes on below, and code is broken at a space:
behind `in`, `=` and `↦`, before an arrow or an operator, else between two arguments, outside of brackets first.
`rattle`, which stands beside `rt`, lays the text out. A line stays if `rattle` refuses the break, or if a mutant in
`mutants` names a part of it. A text is kept only if `words` finds the same words as before, so only white space, the
heads of `use` lines and comments, and separators next to a bracket can differ.

Not counted are lines that have no break: an attribute, a `use` line of one name, a string that fits in no line.
"""

import concurrent.futures
import pathlib
import re
import shutil
import subprocess
import sys
import tempfile

TOP = pathlib.Path(__file__).resolve().parents[2]
WIDTH, ROUNDS = 100, 60
COMMENT = re.compile(r"(\s*)(--|///|//!|//)( |$)")
USE = re.compile(r"(\s*(?:pub |ghost )?use )([^{}]*)\{([^{}]*)\}(;?)$")
BINDER = re.compile(r"[({][^(){}\[\],.]+ : ")
STRING = re.compile(r'"(?:\\.|[^"\\])*"')
ITEM = re.compile(r"[-*|#] |\d+[.)] |```|    |$")
TURNS = {"(": 1, "[": 1, "{": 1, ")": -1, "]": -1, "}": -1}
# Words behind which, and before which, a line is broken only if it has no other place.
HELD = {"let", "elim", "pub", "abbrev", "unfoldable", "record", "data", "module", "as", "λ", ":", "use", "rw", "|"}
KEPT = {":", "=", "in", "where", "as", "|]", "↦", "=>", "->"}
RANKS = {"|": 0, "→": 1, "⊎": 4, "×": 4, "↔": 4, "∙": 4, "≡": 5, "≢": 5, "≤": 5, "<": 5}


def indent_of(line):
    return len(line) - len(line.lstrip())


def names_of(listed):
    return [it.strip() for it in listed.split(",") if it.strip()]


def words(text):
    """The words of a text, the same for any two texts that differ only as this tool may make them differ."""
    kept, comment = [], None
    for line in text.splitlines():
        head, use = COMMENT.match(line), USE.match(line)
        if use:
            kept += [f"{use[1]}{use[2]}{{{name}}}{use[4]}" for name in names_of(use[3])]
        else:
            again = head and comment == head[2] and line[head.end():].strip()
            kept.append(line[head.end():] if again else line)
        comment = head[2] if head else None
    plain = re.sub(r" ?([(){}\[\],;]) ?", r"\1", " ".join(" ".join(kept).split()))
    return re.sub(r"(\[)\| ?|[,;]([)}\]])", r"\1\2", plain), STRING.findall("\n".join(kept))


def is_long(line):
    """Whether a line is too long, and could be shorter."""
    use = USE.match(line)
    if len(line) <= WIDTH or line.lstrip().startswith("#[") or (use and len(names_of(use[3])) == 1):
        return False
    return not any(len(it) + indent_of(line) + 2 > WIDTH for it in STRING.findall(line))


def filled(head, parts):
    """A line of as many words as fit behind a head, and the words that are left."""
    many = len(parts)
    while many > 1 and len(head + " ".join(parts[:many])) > WIDTH:
        many -= 1
    return head + " ".join(parts[:many]), parts[many:]


def wrapped(lines):
    """The lines, where the last words of a comment that is too long go on in the line below."""
    kept, over, head = [], [], None
    for line in [*lines, ""]:
        match = COMMENT.match(line)
        goes_on = match and match[0] == head and not ITEM.match(line[match.end():])
        while over and (not goes_on or len(head + " ".join(over)) > WIDTH):
            row, over = filled(head, over)
            kept.append(row)
        if match and (over or is_long(line)) and "  " not in line.strip():
            head = f"{match[1]}{match[2]} "
            line, over = filled(head, over + line[match.end():].split())
        kept.append(line)
    return kept[:-1]


def used(line):
    """The lines of a `use` line, each with as many of its names as fit."""
    use = USE.match(line)
    head, tail = f"{use[1]}{use[2]}{{", "}" + use[4]
    made = []
    for name in names_of(use[3]):
        if made and len(f"{head}{made[-1]}, {name}{tail}") <= WIDTH:
            made[-1] += f", {name}"
        else:
            made.append(name)
    return [head + it + tail for it in made]


def gaps(line):
    """The places at which a line can be broken: each with its depth in brackets, and the words beside it."""
    quoted = {at for it in STRING.finditer(line) for at in range(it.start(), it.end())}
    opened, depth, left = [], 0, ""
    for at in range(indent_of(line), len(line)):
        sign = line[at]
        if at in quoted or sign != " ":
            left += sign
            turn = 0 if at in quoted else TURNS.get(sign, 0)
            opened = [*opened, at] if turn > 0 else opened[:turn] if turn else opened
            depth += turn
            continue
        right = line[at + 1:].split(" ", 1)[0]
        if right.startswith(("--", "//")):
            return
        if left and right and right[0] not in ")]},;" and right not in TURNS:
            yield at, depth + bool(opened and BINDER.match(line, opened[-1])), left, right
        left = ""


def rank_of(line, at, left, right):
    """How badly a line is broken at a place: 0 is best."""
    if left in HELD or right in KEPT or re.search(r"λ[^.]*$", line[:at]):
        return 20
    if left in ("in", "[", "{", "=", "↦", "=>"):
        return 1 if left in ("=", "↦", "=>") else 0
    if left.endswith((";", ",")) or right in RANKS:
        return RANKS.get(right, 2)
    if not any(it.isalnum() or it in "([{_?\"" for it in right):
        return 6
    if left in RANKS or not any(it.isalnum() or it in ")]}_?\"" for it in left):
        return 9
    return 8 if left.endswith(".") or left.startswith("(") else 7


def cost_of(line, deeper, at, depth, left, right):
    """The cost of a break: brackets, the rank, and parts that are short."""
    rest = deeper + len(line) - at - 1
    rank = 5 if left == "=" and rest > WIDTH else rank_of(line, at, left, right)
    cost = 14 * depth + 2 * rank + 0.15 * (WIDTH - at)
    cost += 4 * (rest - deeper < 15) - 8 * (right == "|" or left in "[{") - 30 * (left == "in" and depth <= 0)
    cost += 12 * (at - indent_of(line) < 12 and left not in ("=", "in", "↦"))
    if depth == 0 and left in ("=", "↦"):
        whole = right in ("record", "elim", "λ") or right.startswith("(")
        clause = deeper > indent_of(line) and "let " not in line[:at]
        cost -= 40 if clause and not whole else 10 if rest <= WIDTH else 0
    return cost


def broken(line, deeper):
    """The two parts of a line that is too long, broken at the best place; the line itself if there is none."""
    places = [(cost_of(line, deeper, *gap), gap[0]) for gap in gaps(line) if gap[0] <= WIDTH]
    if not places:
        return [line]
    at = min(places)[1]
    return [line[:at], " " * deeper + line[at + 1:]]


def is_item(lines, number, blocks):
    """Whether a line begins an item, so that what goes on from it stands deeper. `blocks`: the columns of items."""
    line, indent = lines[number], indent_of(lines[number])
    before = next((it for it in reversed(lines[:number]) if it.strip() and not COMMENT.match(it)), "")
    while line.strip() and blocks and blocks[-1] > indent:
        blocks.pop()
    if before.endswith(" where") or before.strip() == "where":
        blocks.append(indent)
    return indent == 0 or indent in blocks or line.lstrip().startswith("| ") or before[-1:] in "({[,;"


def fits(path, old, new):
    """The new text in the layout of `rt fmt`, if it has one, and the words of the old text."""
    rattle = pathlib.Path(shutil.which("rt")).resolve().parent / "rattle"
    with tempfile.NamedTemporaryFile("w", suffix=path.suffix, encoding="utf-8") as file:
        file.write(new)
        file.flush()
        run = subprocess.run([rattle, "fmt", file.name], capture_output=True, encoding="utf-8")
    return run.stdout if run.returncode == 0 and words(run.stdout) == words(old) else None


def named(path):
    """What mutants name in a file."""
    crate = next(it for it in path.parents if it.parent.name == "crates")
    for mutant in sorted(crate.glob("mutants/*.edit")):
        text = mutant.read_text(encoding="utf-8")
        if f"file: {path.relative_to(crate)}\n" in text:
            yield from (it.strip() for it in re.findall(r"^old: (.*)$", text, re.M))


def one_round(path, text, kept, olds):
    """The text with each long line broken once. The lines in `kept` stay, and those that are refused join them."""
    lines, blocks, parts = text.split("\n"), [], {}
    for number, line in enumerate(lines):
        item = path.suffix == ".rt" or is_item(lines, number, blocks)
        if is_long(line) and line not in kept and not any(it in line for it in olds):
            ways = [broken(line, indent_of(line) + 4), broken(line, indent_of(line))]
            parts[number] = [used(line)] if USE.match(line) else ways if item else ways[::-1]

    def with_parts(chosen):
        return fits(path, text, "\n".join("\n".join(chosen.get(it, [line])) for it, line in enumerate(lines)))

    made = with_parts({number: ways[0] for number, ways in parts.items()})
    if made is not None:
        return made
    chosen = {it: next((way for way in ways if with_parts({it: way})), None) for it, ways in parts.items()}
    kept.update(lines[it] for it, way in chosen.items() if not way)
    return with_parts({it: way for it, way in chosen.items() if way}) or text


def mended(path):
    """Breaks the lines of a file that are too long."""
    first = path.read_text(encoding="utf-8")
    if not any(map(is_long, first.split("\n"))):
        return
    text, kept, olds = fits(path, first, "\n".join(wrapped(first.split("\n")))) or first, set(), list(named(path))
    for _ in range(ROUNDS):
        before, text = text, one_round(path, text, kept, olds)
        if text == before:
            break
    if words(text) == words(first):
        path.write_text(text, encoding="utf-8")


def main():
    files = [pathlib.Path(it).resolve() for it in sys.argv[1:] if it != "--check"]
    for part in () if files else ("src", "specs", "proofs"):
        files += sorted(it for it in TOP.glob(f"crates/*/{part}/**/*") if it.suffix in (".rt", ".antt"))
    if "--check" not in sys.argv[1:]:
        with concurrent.futures.ThreadPoolExecutor() as pool:
            list(pool.map(mended, files))
    long = [
        f"{path.relative_to(TOP)}:{number}: {len(line)} characters"
        for path in files
        for number, line in enumerate(path.read_text(encoding="utf-8").split("\n"), 1)
        if is_long(line)
    ]
    print("\n".join(long), end="\n" * bool(long))
    return 1 if long else 0


if __name__ == "__main__":
    sys.exit(main())
