"""Numbers drawn by chance: mostly small ones that meet one another, some at the ends of their ranges, some beyond."""
from __future__ import annotations

from collections.abc import Sequence
from random import Random
from typing import TYPE_CHECKING, TypeVar

from .reading import U8, U16, U32, U64

if TYPE_CHECKING:
    from .groups import Member

T = TypeVar("T")
OBJECTS = (1, 1, 1, 2, 2, 3, 3, 3, 4, 5, 0, U16)


class Draw:
    """A source of chance, by a seed."""

    def __init__(self, seed: str) -> None:
        self.random = Random(seed)
        # Of a hundred lines how many are lost, come again, and are none that was sent.
        self.lost, self.twice, self.altered = 0, 0, 0
        self.lines: list[bytes] = []

    def chance(self, percent: int) -> bool:
        return self.random.random() * 100 < percent

    def one_of(self, values: Sequence[T]) -> T:
        return values[int(self.random.random() * len(values))]

    def below(self, bound: int) -> int:
        return int(self.random.random() * bound)

    def small(self) -> int:
        return self.below(260)

    def keep(self, line: bytes) -> None:
        """Keeps some lines, to make others of."""
        if len(self.lines) < 100:
            self.lines.append(line)
        else:
            self.lines[self.below(100)] = line

    def object(self) -> int:
        return self.one_of(OBJECTS) if self.chance(98) else self.below(U16 + 1)

    def object_kind(self) -> int:
        return self.below(3) if self.chance(75) else self.below(256)

    def update_kind(self) -> int:
        return 1 + self.below(8) if self.chance(90) else self.below(256)

    def amount(self) -> int:
        return self.below(100) if self.chance(90) else self.one_of([0, U32, self.random.getrandbits(32)])

    def value(self) -> int:
        if self.chance(70):
            return self.below(100)
        return self.one_of([0, U32, U32 + 1, U64, self.random.getrandbits(64)])

    def element(self) -> int:
        return self.below(12) if self.chance(95) else self.one_of([0, U64, self.random.getrandbits(64)])

    def proposal(self) -> int:
        return self.below(2) if self.chance(95) else self.one_of([U64, self.random.getrandbits(64)])

    def own_bytes(self) -> bytes:
        length = self.below(20) if self.chance(70) else self.one_of([0, 247, 248, 249, 300, self.small()])
        return self.random.randbytes(length)

    def replica(self) -> int:
        return self.below(8) if self.chance(95) else self.one_of([8, 9, U8])

    def commit(self, member: Member) -> int:
        commits = member.group.config.commits
        return self.below(commits) if commits and self.chance(92) else self.one_of([0, commits, 16, U8])

    def items_room(self) -> int:
        return self.one_of([0, 1, 5, 12, 64, 1000])
