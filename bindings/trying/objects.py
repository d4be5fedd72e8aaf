"""What objects answer, by the updates of a view: each number as if it had an object of every kind."""
from __future__ import annotations

from dataclasses import dataclass, field

from .reading import Update

Tag = tuple[int, int]


@dataclass
class Object:
    """What the updates of one number make."""

    total: int = 0
    largest: int = 0
    # The live puts of each element, and the puts that removes have named, seen or not.
    puts: dict[int, set[Tag]] = field(default_factory=dict)
    removed: set[Tag] = field(default_factory=set)
    element: dict[Tag, int] = field(default_factory=dict)

    def take(self, update: Update) -> None:
        """Takes an update, in any order."""
        if update.verb == "inc":
            self.total += update.value
        elif update.verb == "dec":
            self.total -= update.value
        elif update.verb == "raise":
            self.largest = max(self.largest, update.value)
        elif update.verb == "put":
            self.put((update.replica, update.number), update.value)
        elif update.verb == "remove":
            for tag in update.tags:
                self.remove(tag)

    def put(self, tag: Tag, element: int) -> None:
        if tag not in self.removed:
            self.element[tag] = element
            self.puts.setdefault(element, set()).add(tag)

    def remove(self, tag: Tag) -> None:
        self.removed.add(tag)
        element = self.element.pop(tag, None)
        if element is not None:
            self.puts[element].discard(tag)
            if not self.puts[element]:
                del self.puts[element]

    def tags(self, element: int) -> frozenset[Tag]:
        """The live puts of an element."""
        return frozenset(self.puts.get(element, ()))

    def items(self) -> tuple[int, ...]:
        """The elements of a set, in order."""
        return tuple(sorted(self.puts))
