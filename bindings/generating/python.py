"""The declarations and the errors of the Python package."""
from __future__ import annotations

from .rust import camel
from .table import Call, Named, Parameter, Struct, Table
from .writing import filled, naming, places

BASES = {
    "u8": "c_uint8",
    "u16": "c_uint16",
    "u32": "c_uint32",
    "u64": "c_uint64",
    "i64": "c_int64",
    "usize": "c_size_t",
    "pointer": "c_void_p",
}
MADE = "# Made by bindings/generate from bindings/calls and crates/lattice_c: not to be edited.\n"
CALLS_HEAD = '''\
"""The calls of `liblattice`, as `lattice.h` declares them.

`Node` is made of them; whoever calls them by himself is trusted with what follows.

'''
CALLS_USES = '''\
"""
from __future__ import annotations

import ctypes
from ctypes import POINTER, c_int64, c_size_t, c_uint8, c_uint16, c_uint32, c_uint64, c_void_p
'''
LOAD = '''

def declare(library: ctypes.CDLL) -> None:
    """Gives each call of a library its types, and holds the library's version against this file's."""
    for name, result, parameters in CALLS:
        call = getattr(library, name)
        call.restype, call.argtypes = result, parameters
    found = int(library.lattice_version())
    if found != VERSION:
        raise ImportError(f"liblattice has version {found} of the interface, and not {VERSION}")
'''
ERRORS_HEAD = '''\
"""Why a call was refused."""
from __future__ import annotations


class LatticeError(Exception):
    """Why a call was refused. The node is then as before. `status` is the library's number, and `line` of a damaged
    journal the line from which on it can't be played, from 1."""

    status = 0
    line = 0
    text = ""

    def __str__(self) -> str:
        return super().__str__() or self.text
'''
ERRORS_END = '''

def check(status: int) -> None:
    """Raises what a status says: nothing where the call was done."""
    if status:
        refused = ERRORS.get(status)
        raise refused() if refused else LatticeError(f"the library answered {status}, which is no status here")
'''
# (a name that does not hide the builtin one)
NAMES = {"MEMORY": "OutOfMemory"}


def error_name(named: Named) -> str:
    """The name of a refusal's exception."""
    return f"{NAMES.get(named.name) or camel(named.name)}Error"


def base_of(table: Table, base: str) -> str:
    """A type of the table for ctypes."""
    if base in {it.name for it in table.structs}:
        return base.capitalize()
    return BASES[base]


def declared(table: Table, parameter: Parameter) -> list[str]:
    """A parameter's type, or two for a slice."""
    base, kind = base_of(table, parameter.type.base), parameter.type
    if kind.many == "[]":
        return [f"POINTER({base})", "c_size_t"]
    if kind.many:
        return [f"POINTER({base} * {kind.many[1:-1]})"]
    pointer = kind.way == "out" or (kind.base == "node" and not kind.way)
    return [f"POINTER({base})" if pointer else base]


def call_lines(table: Table, call: Call) -> list[str]:
    result = {"status": "c_uint8", "": "None"}.get(call.result) or BASES[call.result]
    types = [it for parameter in call.parameters for it in declared(table, parameter)]
    lines = filled(naming(call.text, table, "{}"), "    # ")
    line = f'    ("lattice_{call.name}", {result}, [{", ".join(types)}]),'
    if len(line) <= 120:
        return [*lines, line]
    return [*lines, f'    ("lattice_{call.name}", {result}, [', *(f"        {it}," for it in types), "    ]),"]


def constants(prefix: str, named: list[Named]) -> list[str]:
    lines = []
    for it in named:
        lines += [*filled(it.text, "# "), f"{prefix}{it.name} = {it.number}"]
    return ["", *lines]


def struct_lines(struct: Struct) -> list[str]:
    _, size = places(struct)
    lines = ["", "", f"class {struct.name.capitalize()}(ctypes.Structure):"]
    lines += [*filled(f'"""{struct.text}"""', "    "), "", "    _fields_ = ["]
    for field, kind in struct.fields:
        lines += filled(struct.texts[field], "        # ") if field in struct.texts else []
        lines.append(f'        ("{field}", {BASES[kind]}),')
    lines += ["    ]", "", "", f"assert ctypes.sizeof({struct.name.capitalize()}) == {size}"]
    return lines


def calls(table: Table) -> str:
    """The declarations."""
    lines: list[str] = []
    for text in table.trusted:
        lines += filled(text, "  ", "- ")
    lines += CALLS_USES.split("\n")
    lines += ["# The version of the interface.", f"VERSION = {table.version}"]
    lines += constants("", table.statuses) + constants("", table.named["object-kinds"])
    lines += constants("UPDATE_", table.named["update-kinds"])
    for struct in table.structs:
        lines += struct_lines(struct)
    lines += ["", "# Each call with its result and the types of its parameters.", "CALLS = ["]
    for call in table.calls:
        lines += call_lines(table, call)
    return MADE + CALLS_HEAD + "\n".join([*lines, "]", ""]) + LOAD


def quoted(text: str) -> list[str]:
    """An exception's text, in several lines where it is long."""
    lines = filled(text, "        ")
    if len(lines) == 1:
        return [f'    text = "{text}"']
    parts = [f'        "{line.strip()} "' for line in lines[:-1]] + [f'        "{lines[-1].strip()}"']
    return ["    text = (", *parts, "    )"]


def errors(table: Table) -> str:
    """The exceptions."""
    lines: list[str] = []
    refusals = table.named["refusals"]
    for it in refusals:
        base = "LatticeError, MemoryError" if it.name == "MEMORY" else "LatticeError"
        lines += ["", "", f"class {error_name(it)}({base}):"]
        lines += [*filled(f'"""{it.text}"""', "    "), "", f"    status = {it.number}"]
        lines += quoted(it.text[0].lower() + it.text[1:].rstrip("."))
    lines += ["", "", "# The exceptions by the library's numbers.", "ERRORS: dict[int, type[LatticeError]] = {"]
    lines += [f"    {it.number}: {error_name(it)}," for it in refusals]
    return MADE + ERRORS_HEAD + "\n".join([*lines, "}", ""]) + ERRORS_END
