"""Calls played in this process, by ctypes, and written down for the program that plays them again."""
from __future__ import annotations

import ctypes
import struct
from collections.abc import Callable, Sequence
from pathlib import Path
from typing import NamedTuple, Protocol

from generating.table import Call, Parameter, Table
from generating.writing import SIZES, places

# What stands in each place and buffer before a call.
FILL = 0xA5
# How many bytes behind what was written are looked at in this process: the other program looks at all.
BEHIND = 24
# What a place of a type holds that no call has written to.
UNTOUCHED = {base: int.from_bytes(bytes([FILL]) * size, "little") for base, size in SIZES.items()}
CODES = {"u8": "B", "u16": "H", "u32": "I", "u64": "Q", "i64": "q", "usize": "Q"}
UNTOUCHED["i64"] -= 2**64
TYPES = {
    "u8": ctypes.c_uint8,
    "u16": ctypes.c_uint16,
    "u32": ctypes.c_uint32,
    "u64": ctypes.c_uint64,
    "i64": ctypes.c_int64,
    "usize": ctypes.c_size_t,
    "pointer": ctypes.c_void_p,
}

Argument = int | bytes | tuple[int, ...]
Arguments = tuple[Argument, ...]
Result = int | bytes | tuple[int, ...]


class Wrong(Exception):
    """A call did what the model says is not right."""


class Answer(NamedTuple):
    """What a call answered: its result, 0 where it has none, and what then stands in each place and buffer. A buffer
    is what was written to it, where the call said how much that is."""

    result: int
    outs: tuple[Result, ...]


class Plays(Protocol):
    """Something that makes calls."""

    def play(self, name: str, arguments: Arguments) -> Answer:
        """Makes a call of this name."""


def is_place(parameter: Parameter) -> bool:
    """Whether a result goes to a parameter: one, or many of a length that the type has."""
    return parameter.type.way == "out" and parameter.type.many != "[]" and parameter.type.base != "node"


class Form:
    """How the values of a place are packed: as C lays them out, without the bytes between."""

    def __init__(self, table: Table, parameter: Parameter) -> None:
        fields = next((it.fields for it in table.structs if it.name == parameter.type.base), None)
        if fields is None:
            count = int(parameter.type.many[1:-1] or 1)
            self.is_one, self.size = not parameter.type.many, count * SIZES[parameter.type.base]
            self.packed = struct.Struct(f"<{count}{CODES[parameter.type.base]}")
        else:
            found = next(it for it in table.structs if it.name == parameter.type.base)
            self.is_one, self.size = False, places(found)[1]
            self.packed = struct.Struct("<" + "".join(CODES[kind] for _, kind in fields))
        if self.packed.size != self.size:
            raise ValueError(f"{parameter.name} has bytes between its fields, which nothing here compares")

    def read(self, raw: bytes) -> Result:
        """What these bytes are."""
        values = self.packed.unpack(raw)
        return int(values[0]) if self.is_one else tuple(values)


class Player:
    """The library in this process. Of `written`, if there is one, each call is written down with what it answered.

    Nodes have slots: a call names its node by the slot, and lattice_node_new a slot that is free.
    """

    def __init__(self, table: Table, library: Path, written: Callable[[bytes], None] | None = None) -> None:
        self.table, self.written = table, written
        self.library = ctypes.CDLL(str(library))
        self.handles: dict[int, ctypes.c_void_p] = {}
        self.buffers = {base: self.made_buffer(base, 1 << 16) for base in ("u8", "u64")}
        self.plays = {call.name: self.prepared(place, call) for place, call in enumerate(table.calls)}
        self.made = 0

    def play(self, name: str, arguments: Arguments) -> Answer:
        """Makes a call with the values of its parameters in order, but for places: for a buffer stands its room."""
        self.made += 1
        return self.plays[name](arguments)

    def made_buffer(self, base: str, room: int) -> ctypes.Array[ctypes.c_uint8]:
        return (ctypes.c_uint8 * (room * SIZES[base] + BEHIND))(*[FILL] * (room * SIZES[base] + BEHIND))

    def buffer(self, base: str, room: int) -> ctypes.Array[ctypes.c_uint8]:
        """A buffer that is filled, with so much room, and more behind."""
        if len(self.buffers[base]) < room * SIZES[base] + BEHIND:
            self.buffers[base] = self.made_buffer(base, 2 * room)
        return self.buffers[base]

    def function(self, call: Call) -> Callable[..., int | None]:
        """The library's function, which takes what `Step` gives."""
        found = getattr(self.library, f"lattice_{call.name}")
        found.restype = None if not call.result else TYPES[{"status": "u8"}.get(call.result, call.result)]
        return found  # type: ignore[no-any-return]

    def prepared(self, place: int, call: Call) -> Callable[[Arguments], Answer]:
        """What makes a call."""
        function, steps = self.function(call), [Step(self, it) for it in call.parameters]
        taking = [it for it in steps if not it.is_place]
        giving = [it for it in steps if it.is_result]

        def play(arguments: Arguments) -> Answer:
            for step, argument in zip(taking, arguments, strict=True):
                step.argument = argument
            words = [word for step in steps for word in step.words()]
            result = function(*words) or 0
            done = result == 0
            answer = Answer(result, tuple([step.result(done, steps) for step in giving]))
            if self.written:
                self.written(frame(place, call, steps, result))
            for step in steps:
                step.settle(done)
            return answer

        return play


class Step:
    """A parameter of a call while that is made."""

    def __init__(self, player: Player, parameter: Parameter) -> None:
        kind = parameter.type
        self.player, self.parameter, self.base = player, parameter, kind.base
        self.is_place = is_place(parameter)
        self.is_slice, self.is_node = kind.many == "[]", kind.base == "node"
        self.is_given, self.is_new = kind.way == "given", self.is_node and kind.way == "out"
        self.is_result = kind.way == "out" and not self.is_node
        self.form = Form(player.table, parameter) if self.is_place else None
        self.place = (ctypes.c_uint8 * self.form.size)() if self.form else None
        self.blank = bytes([FILL]) * (self.form.size if self.form else 0)
        self.argument: Argument = 0
        self.raw = b""

    def words(self) -> Sequence[object]:
        """What the function takes for it."""
        if self.place is not None:
            ctypes.memmove(self.place, self.blank, len(self.blank))
            return [self.place]
        if self.is_node:
            return [self.node()]
        if not self.is_slice:
            assert isinstance(self.argument, int)
            return [TYPES[self.base](self.argument)]
        if self.is_result:
            assert isinstance(self.argument, int)
            return [self.player.buffer(self.base, self.argument), ctypes.c_size_t(self.argument)]
        many = self.argument if isinstance(self.argument, bytes) else self.packed()
        self.raw = many
        return [many or b"\0", ctypes.c_size_t(len(many) // SIZES[self.base])]

    def packed(self) -> bytes:
        assert isinstance(self.argument, tuple)
        return struct.pack(f"<{len(self.argument)}{CODES[self.base]}", *self.argument)

    def node(self) -> object:
        """A place for a handle, a handle's address, or the handle."""
        assert isinstance(self.argument, int)
        if self.is_new:
            self.player.handles[self.argument] = ctypes.c_void_p()
        handle = self.player.handles[self.argument]
        return handle if self.is_given else ctypes.byref(handle)

    def result(self, done: bool, steps: list[Step]) -> Result:
        """What the call has left here. How much of a buffer it wrote stands in the place behind that."""
        if self.form:
            self.raw = bytes(self.place or b"")
            return self.form.read(self.raw)
        length = steps[steps.index(self) + 1].place
        assert length is not None and isinstance(self.argument, int)
        buffer, size = self.player.buffers[self.base], SIZES[self.base]
        written = int.from_bytes(bytes(length), "little") if done else 0
        if written > self.argument:
            raise Wrong(f"{written} are said to be written to a buffer with room for {self.argument}")
        if bytes(buffer[written * size : written * size + BEHIND]) != bytes([FILL]) * BEHIND:
            raise Wrong(f"a buffer is written to behind the {written} that are said to be")
        self.raw = bytes(buffer[: written * size])
        return self.raw if self.base == "u8" else struct.unpack(f"<{written}{CODES[self.base]}", self.raw)

    def settle(self, done: bool) -> None:
        """Fills what was written to; a handle that was freed, or that was not made, is none."""
        if self.is_slice and self.is_result and self.raw:
            ctypes.memset(self.player.buffers[self.base], FILL, len(self.raw))
        if self.is_given or (self.is_new and not done):
            handle = self.player.handles.pop(int(self.argument))  # type: ignore[arg-type]
            if self.is_new and handle.value is not None:
                raise Wrong("a handle is put where the call was refused")


def frame(place: int, call: Call, steps: list[Step], result: int) -> bytes:
    """A call as it is written down, behind its length: which it is, then each parameter, with what stands in places and
    buffers after it, and what it answers."""
    parts = [struct.pack("<B", place)]
    for step in steps:
        if step.is_place:
            parts.append(step.raw)
        elif step.is_node:
            parts.append(struct.pack("<H", step.argument))
        elif not step.is_slice:
            parts.append(struct.pack("<Q", step.argument))
        else:
            count = len(step.raw) // SIZES[step.base]
            numbers = (step.argument, count) if step.is_result else (count,)
            parts += [struct.pack(f"<{len(numbers)}I", *numbers), step.raw]
    parts.append(struct.pack("<Q", result) if call.result else b"")
    whole = b"".join(parts)
    return struct.pack("<I", len(whole)) + whole
