"""The C header."""
from __future__ import annotations

from .table import Call, Named, Parameter, Struct, Table
from .writing import filled, naming, places

BASES = {"u8": "uint8_t", "u16": "uint16_t", "u32": "uint32_t", "u64": "uint64_t", "i64": "int64_t", "usize": "size_t"}
ENUMS = {
    "statuses": ("lattice_status", "LATTICE_", "How a call ended. After a refusal the node is as before."),
    "object-kinds": ("lattice_object_kind", "LATTICE_", "The kinds of objects, for `lattice_add`."),
    "update-kinds": ("lattice_update_kind", "LATTICE_UPDATE_", "What an update does, and what its `value` is."),
}
UNBROKEN = "\u00a0"
HEAD = """\
/* lattice.h: a node of a group of replicas whose views of the group's updates are always comparable.
 *
 * Made by bindings/generate from bindings/calls and crates/lattice_c: not to be edited.
"""
BEGIN = """\
#ifndef LATTICE_H
#define LATTICE_H

#include <stddef.h>
#include <stdint.h>

#ifdef __cplusplus
extern "C" {
#endif
"""
END = """\
#undef LATTICE_STATIC_ASSERT

#ifdef __cplusplus
}
#endif

#endif
"""


def base_of(table: Table, base: str) -> str:
    """A type of the table in C."""
    if base in {it.name for it in table.structs}:
        return f"lattice_{base}"
    return BASES[base]


def declared(table: Table, parameter: Parameter) -> list[str]:
    """A parameter's declaration, or two for a slice."""
    base, name, kind = base_of(table, parameter.type.base), parameter.name, parameter.type
    if kind.many == "[]":
        pointer, length = (f"const {base} *", "len") if kind.way == "in" else (f"{base} *", "room")
        return [f"{pointer}{name}", f"size_t {name}_{length}"]
    if kind.many:
        return [f"{base} {name}{kind.many}"]
    pointer = "*" if kind.way == "out" or (kind.base == "node" and not kind.way) else ""
    return [f"{base} {pointer}{name}"]


def pairs(table: Table, call: Call) -> list[str]:
    """All parameters' declarations."""
    return [it for parameter in call.parameters for it in declared(table, parameter)]


def comment(text: str, indent: str = "") -> list[str]:
    """A comment, in one line where it fits."""
    lines = filled(text, f"{indent} * ", f"{indent}/* ")
    if len(lines) == 1:
        return [f"{lines[0]} */"]
    return [*lines, f"{indent} */"]


def prototype(table: Table, call: Call) -> list[str]:
    """A call's declaration, with its text."""
    result = {"status": "uint8_t", "": "void"}.get(call.result) or BASES[call.result]
    # (a line is never broken within a parameter)
    words = ", ".join(it.replace(" ", UNBROKEN) for it in pairs(table, call)) or "void"
    lines = filled(f"{result}{UNBROKEN}lattice_{call.name}({words});", "    ", " ")
    code = "\n".join([lines[0][1:], *lines[1:]]).replace(UNBROKEN, " ")
    return ["", *comment(naming(call.text, table, "LATTICE_{}")), code]


def enumeration(key: str, named: list[Named]) -> list[str]:
    name, prefix, text = ENUMS[key]
    lines = ["", *comment(text.replace("`", "")), f"enum {name} {{"]
    for it in named:
        lines += [*comment(it.text, "    "), f"    {prefix}{it.name} = {it.number},"]
    return [*lines, "};"]


def structure(table: Table, struct: Struct) -> list[str]:
    name, (offsets, size) = f"lattice_{struct.name}", places(struct)
    lines = ["", *comment(struct.text), f"typedef struct {name} {{"]
    for field, kind in struct.fields:
        lines += comment(struct.texts[field], "    ") if field in struct.texts else []
        lines.append(f"    void *{field};" if kind == "pointer" else f"    {BASES[kind]} {field};")
    lines += [f"}} {name};", f'LATTICE_STATIC_ASSERT(sizeof({name}) == {size}, "the size of a {name}");']
    return lines + [
        f'LATTICE_STATIC_ASSERT(offsetof({name}, {field}) == {at}, "where {field} is");'
        for (field, _), at in zip(struct.fields, offsets)
    ]


def header(table: Table) -> str:
    """The header's text."""
    lines = [f" * {line}".rstrip() for line in ["What the caller is trusted with, since nothing checks it:", ""]]
    for text in table.trusted:
        lines += [*filled(text, " *   ", " * - "), " *"]
    lines[-1] = " */"
    lines += BEGIN.split("\n")
    lines += ["#ifdef __cplusplus", "#define LATTICE_STATIC_ASSERT(holds, text) static_assert(holds, text)", "#else"]
    lines += ["#define LATTICE_STATIC_ASSERT(holds, text) _Static_assert(holds, text)", "#endif", ""]
    lines += comment("The version of this interface: lattice_version() answers the library's.")
    lines.append(f"#define LATTICE_VERSION {table.version}u")
    for struct in table.structs:
        lines += structure(table, struct)
    named = {"statuses": table.statuses, **table.named}
    for key in ENUMS:
        lines += enumeration(key, named[key])
    for call in table.calls:
        lines += prototype(table, call)
    return HEAD + " *\n" + "\n".join([*lines, "", END])
