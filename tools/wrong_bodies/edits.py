"""A wrong body: an edit of a crate's files, and which functions' text it changes.

Its lines are `file: src/lib.rt`, `old: TEXT` and `new: TEXT`, each TEXT one line; the old text stands once in the file,
as the pairs above left it. So each line of a file keeps its number.
"""
from __future__ import annotations

import re
from collections.abc import Iterator
from dataclasses import dataclass
from pathlib import Path

PARTS = ("src", "specs", "proofs")
HEAD = re.compile(r"( *)(?:pub(?:\([^)]*\))? )?(?:const )?(?:final )?(?:unsafe )?(?:extern \"C\" )?fn (\w+)")
OWNER = re.compile(r"(?:pub(?:\([^)]*\))? )?(?:unsafe )?(impl|trait)\b(.*)")
DECLARED = r"^(?:pub(?:\([^)]*\))? )?(?:struct|enum|trait) {}\b"
CLAUSE = re.compile(r" *(?:requires|ensures|ghost)\b")


class Unfit(Exception):
    """An edit that can't be tried, and why."""


@dataclass(frozen=True)
class Function:
    """A function of a file of src: its path below the crate, and its first and last line, with its attributes."""

    path: str
    file: str
    first: int
    last: int

    def folders(self) -> tuple[str, str]:
        """Where the files of its proof stand, and those of its closures'."""
        parts = self.path.split("::")
        at = next((i for i, it in enumerate(parts) if it[:1].isupper()), len(parts) - 1)
        return "/".join(["proofs", *parts, ""]), "/".join(["proofs", *parts[:at], "fn", *parts[at:], ""])


@dataclass(frozen=True)
class Applied:
    """An edit as it was applied: the texts of the files that it changes, and the lines, by file."""

    texts: dict[str, str]
    lines: dict[str, frozenset[int]]


def pairs(text: str) -> Iterator[tuple[str, str, str]]:
    """Each pair of an edit, behind its file."""
    file, old, count = "", "", 0
    for line in text.split("\n"):
        if line.startswith("file: "):
            file = line.removeprefix("file: ").strip()
            if not file.startswith(tuple(f"{it}/" for it in PARTS)) or ".." in file.split("/"):
                raise Unfit(f"{file} is no file below src, specs or proofs")
        elif line.startswith("old: "):
            old = line.removeprefix("old: ")
        elif line.startswith("new:"):
            if not file or not old:
                raise Unfit("a `new:` stands behind no `file:` or no `old:`")
            yield file, old, line.removeprefix("new:").removeprefix(" ")
            old, count = "", count + 1
        elif line.strip() and not line.startswith("#"):
            raise Unfit(f"a line that nothing reads: {line.strip()[:60]}")
    if old or not count:
        raise Unfit("an `old:` has no `new:`" if old else "it has no `old:` and `new:`")


def apply(text: str, crate: Path) -> Applied:
    """Applies an edit to the files of a crate, and writes none."""
    texts: dict[str, str] = {}
    was: dict[str, str] = {}
    lines: dict[str, set[int]] = {}
    for file, old, new in pairs(text):
        if file not in texts:
            if not (crate / file).is_file():
                raise Unfit(f"there is no {file}")
            texts[file] = was[file] = (crate / file).read_text(encoding="utf-8")
        count = texts[file].count(old)
        if count != 1:
            raise Unfit(f"its old text stands in {file} {count} times: `{old.strip()}`")
        lines.setdefault(file, set()).add(texts[file][: texts[file].index(old)].count("\n") + 1)
        texts[file] = texts[file].replace(old, new)
    if texts == was:
        raise Unfit("it changes nothing")
    return Applied(texts, {file: frozenset(it) for file, it in lines.items()})


def without_brackets(text: str) -> str:
    """A text less what stands between `<` and `>`."""
    before = None
    while text != before:
        before, text = text, re.sub(r"<[^<>]*>", "", text)
    return text


def words(text: str) -> str:
    """The last names of the paths in a type, in a row, but for parameters: `Vec<io::Error>` is `VecError`."""
    names = [it.rpartition("::")[2] for it in re.findall(r"[\w:]+", text.replace("[", "Array "))]
    return "".join(it[0].upper() + it[1:] for it in names if not re.fullmatch(r"[A-Z]", it))


def owner_of(line: str, module: str, sources: dict[str, str]) -> str | None:
    """The path of a trait, of an impl, or of the type of an impl without a trait, that begins with this line."""
    found = OWNER.match(line)
    if not found:
        return None
    head = found[2].replace("->", "")
    if head.startswith("<"):
        depth, end = 0, 0
        for end, letter in enumerate(head):
            depth += (letter == "<") - (letter == ">")
            if not depth:
                break
        head = head[end + 1 :]
    head = head.split(" where ")[0].split("{")[0].strip()
    above = [module] if module else []
    if found[1] == "trait":
        return "::".join([*above, words(without_brackets(head).split(":")[0])])
    of_trait, is_of_trait, of_type = head.partition(" for ")
    if is_of_trait:
        return "::".join([*above, words(without_brackets(of_type)) + words(of_trait)])
    name = words(without_brackets(head))
    form = re.compile(DECLARED.format(name), re.M)
    places = [module_of(file) for file, text in sources.items() if form.search(text)]
    return "::".join([*([places[0]] if len(places) == 1 and places[0] else []), name])


def module_of(file: str) -> str:
    """The module that a file of src is."""
    parts = file.removeprefix("src/").removesuffix(".rt").split("/")
    return "::".join(parts[:-1] if parts[-1] in ("lib", "main", "mod") else parts)


def functions(file: str, sources: dict[str, str]) -> Iterator[Function]:
    """The functions of a file, among a crate's files as rt fmt lays them out."""
    module, owner = module_of(file), None
    lines = sources[file].split("\n")
    for at, line in enumerate(lines):
        if line[:1].strip() and not line.startswith(("//", "#")):
            owner = owner_of(line, module, sources) or (owner if line.startswith((")", "where", "{")) else None)
        head = HEAD.match(line)
        if not head:
            continue
        last = end_of(lines, at, head[1])
        above = [it for it in (owner if head[1] else module,) if it]
        yield Function("::".join([*above, head[2]]), file, first_of(lines, at) + 1, last + 1)


def first_of(lines: list[str], head: int) -> int:
    """The first line of a function's attributes, where its goals are told, or of itself."""
    while head and lines[head - 1].lstrip().startswith("#["):
        head -= 1
    return head


def end_of(lines: list[str], first: int, indent: str) -> int:
    """The last line of a function: that of its bracket, or where it has no body that of its last clause."""
    begun, depth = False, 0
    for at in range(first, len(lines)):
        line = lines[at]
        depth += line.count("{") - line.count("}")
        if line in (indent + "}", indent + "{}") or not (begun or depth) and line.endswith(("{}", ";")):
            return at
        begun = begun or line.endswith("{") and (at == first or line.startswith((indent + "{", indent + ")")))
    return len(lines) - 1


def changed(applied: Applied, crate: Path) -> list[Function] | None:
    """The functions whose text an edit changes, or None where it changes other text too. It may change no clause."""
    sources = {str(it.relative_to(crate)): it.read_text(encoding="utf-8") for it in sorted(crate.glob("src/**/*.rt"))}
    sources |= {file: text for file, text in applied.texts.items() if file.startswith("src/")}
    found: dict[str, Function] = {}
    for file, lines in applied.lines.items():
        inside = list(functions(file, sources)) if file.startswith("src/") else []
        for number in sorted(lines):
            around = [it for it in inside if it.first <= number <= it.last]
            if not around:
                return None
            if CLAUSE.match(sources[file].split("\n")[number - 1]):
                raise Unfit(f"it changes a clause of {around[-1].path}, and not its body")
            found[around[-1].path] = around[-1]
    return list(found.values())
