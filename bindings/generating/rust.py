"""The declarations and the errors of the Rust crate."""
from __future__ import annotations

import re

from .sources import snake
from .table import Call, Named, Parameter, Struct, Table
from .writing import filled, naming, places

MADE = "// Made by bindings/generate from bindings/calls and crates/lattice_c: not to be edited.\n"
SYS_HEAD = """\
//! The calls of `liblattice`, as `lattice.h` declares them. [`Node`](crate::Node) is made of them;
//! whoever calls them by himself is trusted with what follows.
//!
"""
SYS_USES = """
#![allow(non_camel_case_types)]

use std::ffi::c_void;
use std::mem::{offset_of, size_of};
"""
ERROR_HEAD = """\
//! Why a call was refused.

use crate::sys;
use std::fmt;

/// Why a call was refused. The node is then as before.
#[derive(Clone, Copy, Debug, PartialEq, Eq, Hash)]
#[non_exhaustive]
pub enum Error {
"""
ERROR_IMPLS = """
impl fmt::Display for Error {
    fn fmt(&self, f: &mut fmt::Formatter<'_>) -> fmt::Result {
        match self {
            Error::Unknown(status) => {
                write!(f, "the library answered {status}, which is no status here")
            }
            other => f.write_str(other.text()),
        }
    }
}

impl std::error::Error for Error {}
"""
TYPES = {"usize": "usize", "pointer": "*mut c_void"}


def camel(name: str) -> str:
    """A constant's name as that of a type."""
    return "".join(it.capitalize() for it in name.split("_"))


def doc(text: str, indent: str = "", mark: str = "///") -> list[str]:
    return filled(text, f"{indent}{mark} ")


def base_of(table: Table, base: str) -> str:
    """A type of the table in Rust."""
    if base in {it.name for it in table.structs}:
        return f"lattice_{base}"
    return TYPES.get(base, base)


def declared(table: Table, parameter: Parameter) -> list[str]:
    """A parameter's declaration, or two for a slice."""
    base, name, kind = base_of(table, parameter.type.base), parameter.name, parameter.type
    if kind.many == "[]":
        pointer, length = ("*const", "len") if kind.way == "in" else ("*mut", "room")
        return [f"{name}: {pointer} {base}", f"{name}_{length}: usize"]
    if kind.many:
        base = f"[{base}; {kind.many[1:-1]}]"
    pointer = "*mut " if kind.way == "out" or (kind.base == "node" and not kind.way) else ""
    return [f"{name}: {pointer}{base}"]


def call_lines(table: Table, call: Call) -> list[str]:
    result = {"status": " -> u8", "": ""}.get(call.result, f" -> {call.result}")
    words = [it for parameter in call.parameters for it in declared(table, parameter)]
    line = f"    pub fn lattice_{call.name}({', '.join(words)}){result};"
    lines = doc(naming(call.text, table, "[`{}`]"), "    ")
    if len(line) <= 100:
        return [*lines, line]
    return [*lines, f"    pub fn lattice_{call.name}(", *(f"        {it}," for it in words), f"    ){result};"]


def constants(prefix: str, named: list[Named]) -> list[str]:
    lines = []
    for it in named:
        lines += [*doc(it.text), f"pub const {prefix}{it.name}: u8 = {it.number};"]
    return ["", *lines]


def struct_lines(table: Table, struct: Struct) -> list[str]:
    name, (offsets, size) = f"lattice_{struct.name}", places(struct)
    default = "" if struct.name == "node" else "Clone, Copy, Default, PartialEq, Eq, "
    lines = ["", *doc(struct.text), "#[repr(C)]", f"#[derive({default}Debug)]", f"pub struct {name} {{"]
    for field, kind in struct.fields:
        lines += doc(struct.texts.get(field, "Where the node is."), "    ")
        lines.append(f"    pub {field}: {base_of(table, kind)},")
    lines += ["}", "", "const _: () = {", f"    assert!(size_of::<{name}>() == {size});"]
    lines += [f"    assert!(offset_of!({name}, {it}) == {at});" for (it, _), at in zip(struct.fields, offsets)]
    return [*lines, "};"]


def sys(table: Table) -> str:
    """The declarations."""
    lines: list[str] = []
    for text in table.trusted:
        lines += filled(re.sub(r"(lattice_node_\w+)", r"[`\1`]", text), "//!   ", "//! - ")
    lines += SYS_USES.split("\n")
    lines += doc("The version of the interface: [`lattice_version`] answers the library's.")
    lines.append(f"pub const VERSION: u32 = {table.version};")
    for struct in table.structs:
        lines += struct_lines(table, struct)
    lines += constants("", table.statuses) + constants("", table.named["object-kinds"])
    lines += constants("UPDATE_", table.named["update-kinds"])
    lines += ["", "unsafe extern \"C\" {"]
    for number, call in enumerate(table.calls):
        lines += [""] if number else []
        lines += call_lines(table, call)
    return MADE + SYS_HEAD + "\n".join([*lines, "}", ""])


def text_lines(refusals: list[Named]) -> list[str]:
    """The function that tells an error."""
    lines = ["", "impl Error {", "    fn text(self) -> &'static str {", "        match self {"]
    for it in refusals:
        text = it.text[0].lower() + it.text[1:].rstrip(".")
        line = f'            Error::{camel(it.name)} => "{text}",'
        if len(line) <= 100:
            lines.append(line)
        else:
            lines += [f"            Error::{camel(it.name)} => {{", f'                "{text}"', "            }"]
    return [*lines, '            Error::Unknown(_) => "no status here",', "        }", "    }"]


def reading_lines(refusals: list[Named]) -> list[str]:
    """The function that makes an error of a status."""
    lines = ["", "    /// What a status says: nothing where the call was done."]
    lines += ["    pub(crate) fn of(status: u8) -> Result<(), Error> {", "        Err(match status {"]
    lines.append("            sys::OK => return Ok(()),")
    lines += [f"            sys::{it.name} => Error::{camel(it.name)}," for it in refusals]
    return [*lines, "            other => Error::Unknown(other),", "        })", "    }", "}"]


def error(table: Table) -> str:
    """The error type."""
    refusals = table.named["refusals"]
    lines: list[str] = []
    for it in refusals:
        assert snake(camel(it.name)) == it.name
        lines += [*doc(it.text, "    "), f"    {camel(it.name)},"]
    lines += doc("The library answered a status that this crate does not know.", "    ")
    lines += ["    Unknown(u8),", "}"]
    lines += text_lines(refusals) + reading_lines(refusals)
    return MADE + ERROR_HEAD + "\n".join(lines) + "\n" + ERROR_IMPLS
