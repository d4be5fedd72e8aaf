"""What crates/lattice_c exports, read from its .rt files, and the table held against it."""
from __future__ import annotations

import re
from collections.abc import Iterator
from dataclasses import dataclass
from pathlib import Path

from .table import Call, Named, Struct, Table, Type

# What is said of a struct that has no text.
HANDLE = "A handle: one pointer, which is the library's."
DOCS = r"((?:^[ ]*///[^\n]*\n)*)"
CALL = re.compile(DOCS + r'#\[unsafe\(no_mangle\)\]\npub extern "C" fn (\w+)\(([^)]*)\)(?: -> (\w+))?', re.M)
STRUCT = re.compile(DOCS + r"#\[repr\(C\)\]\n(?:#\[[^\n]*\]\n)*pub struct (\w+) \{\n(.*?)^\}", re.M | re.S)
FIELD = re.compile(DOCS + r"^ +(?:pub(?:\(\w+\))? )?(\w+): ([^\n]+),$", re.M)
STATUS = re.compile(r"^pub const (\w+): u8 = (\d+);", re.M)
VERSION = re.compile(r"fn lattice_version\(\) -> u32.*?^\{\n +(\d+)\n\}", re.M | re.S)
OBJECT_KIND = re.compile(r"^ +(\d+) => Some\(Kind::(\w+)\)", re.M)
UPDATE_KIND = re.compile(r"^ +Op::(\w+)[^=\n]*=> \((\d+),", re.M)


@dataclass
class Declared:
    """A call or a struct, as it is declared: each parameter or field with its type in Rattle, and the texts."""

    names: list[tuple[str, str]]
    result: str
    text: str
    texts: dict[str, str]


@dataclass
class Sources:
    """What the crate declares."""

    calls: dict[str, Declared]
    structs: dict[str, Declared]
    numbers: dict[str, dict[str, int]]
    version: int


def text_of(docs: str) -> str:
    """The text of `///` lines: a paragraph a line, and an empty line between two."""
    lines = [line.strip()[3:].strip() for line in docs.strip().split("\n")]
    parts = "\n".join(lines).split("\n\n")
    return "\n\n".join(" ".join(it.split("\n")) for it in parts).strip()


def parameters_of(text: str) -> list[tuple[str, str]]:
    """The parameters, but for the allocator, of which C passes nothing."""
    parts = [" ".join(it.split()) for it in text.split(",")]
    pairs = [(it.partition(": ")[0], it.partition(": ")[2]) for it in parts if it]
    return [it for it in pairs if it[1] != "Global"]


def snake(name: str) -> str:
    """A name with capitals, as a constant."""
    return re.sub(r"(?<=[a-z])(?=[A-Z])", "_", name).upper()


def struct_of(docs: str, body: str) -> Declared:
    plain = re.sub(r"^ +ghost [^\n]*\n", "", body, flags=re.M)
    fields = [(name, kind, text_of(it)) for it, name, kind in FIELD.findall(plain) if kind != "Global"]
    return Declared([it[:2] for it in fields], "", text_of(docs), {name: text for name, _, text in fields})


def read(crate: Path) -> Sources:
    """What the crate in this folder declares."""
    code = "\n".join(path.read_text(encoding="utf-8") for path in sorted((crate / "src").glob("**/*.rt")))
    calls = {
        name: Declared(parameters_of(words), result, text_of(docs), {})
        for docs, name, words, result in CALL.findall(code)
    }
    structs = {name: struct_of(docs, body) for docs, name, body in STRUCT.findall(code)}
    numbers = {
        "statuses": {name: int(number) for name, number in STATUS.findall(code)},
        "object-kinds": {snake(name): int(number) for number, name in OBJECT_KIND.findall(code)},
        "update-kinds": {snake(name): int(number) for name, number in UPDATE_KIND.findall(code)},
    }
    version = VERSION.search(code)
    return Sources(calls, structs, numbers, int(version[1]) if version else 0)


def base_in(table: Table, base: str, given: bool = True) -> str:
    """A type of the table in Rattle: of a struct that has two names there, the second where a result goes."""
    for it in table.structs:
        if it.name == base:
            return it.rattle[0] if given else it.rattle[-1]
    return {"pointer": "*mut u8"}.get(base, base)


def type_in(table: Table, kind: Type) -> str:
    """A parameter's type in Rattle."""
    base = base_in(table, kind.base, kind.way != "out")
    if kind.base == "node" and kind.way == "":
        return f"&mut {base}"
    inner = {"": base, "[]": f"[{base}]"}.get(kind.many, f"[{base}; {kind.many[1:-1]}]")
    return {"in": f"&{inner}", "out": f"&mut {inner}"}.get(kind.way, inner)


def call_faults(table: Table, call: Call, found: Declared) -> Iterator[str]:
    wanted = [(it.name, type_in(table, it.type)) for it in call.parameters]
    if wanted != found.names:
        yield f"{call.name} takes {found.names}, and not {wanted}"
    result = {"status": "u8"}.get(call.result, call.result)
    if result != found.result:
        yield f"{call.name} answers {found.result or 'nothing'}, and not {result or 'nothing'}"
    if not found.text:
        yield f"{call.name} has no text"


def struct_faults(table: Table, struct: Struct, sources: Sources) -> Iterator[str]:
    wanted = [(name, base_in(table, kind)) for name, kind in struct.fields]
    for name in struct.rattle:
        if name not in sources.structs:
            yield f"there is no struct {name}"
        elif sources.structs[name].names != wanted:
            yield f"struct {name} has {sources.structs[name].names}, and not {wanted}"


def number_faults(what: str, wanted: list[Named], found: dict[str, int], beside: tuple[str, ...] = ()) -> Iterator[str]:
    listed = {it.name: it.number for it in wanted if it.name not in beside}
    for name in sorted(listed.keys() | found.keys()):
        if listed.get(name) != found.get(name):
            yield f"{what} {name} is {found.get(name)}, and in the table {listed.get(name)}"


def faults(table: Table, sources: Sources) -> Iterator[str]:
    """Where the table differs from what is declared."""
    for call in table.calls:
        found = sources.calls.get(f"lattice_{call.name}")
        if found:
            yield from call_faults(table, call, found)
        else:
            yield f"no call lattice_{call.name} is exported"
    for name in sorted(sources.calls.keys() - {f"lattice_{it.name}" for it in table.calls}):
        yield f"{name} is exported, and not in the table"
    listed = {name for it in table.structs for name in it.rattle}
    for name in sorted(sources.structs.keys() - listed):
        yield f"struct {name} is not in the table"
    for struct in table.structs:
        yield from struct_faults(table, struct, sources)
    if table.version != sources.version:
        yield f"lattice_version answers {sources.version}, and in the table it is {table.version}"
    yield from number_faults("status", table.statuses, sources.numbers["statuses"])
    kinds = table.named["object-kinds"]
    yield from number_faults("object kind", kinds, sources.numbers["object-kinds"])
    # (what is of one's own is an operation of another kind inside)
    yield from number_faults("update kind", table.named["update-kinds"], sources.numbers["update-kinds"], ("OWN",))


def with_texts(table: Table, sources: Sources) -> None:
    """Puts the texts of the declarations into the table."""
    for call in table.calls:
        found = sources.calls.get(f"lattice_{call.name}")
        call.text = found.text if found else ""
    for struct in table.structs:
        declared = sources.structs.get(struct.rattle[0])
        struct.text = declared.text if declared and declared.text else HANDLE
        struct.texts = {name: text for name, text in declared.texts.items() if text} if declared else {}
