"""A map of one's own on three nodes, in which the last write to a key wins: `python3 examples/own_map.py` in the
package's folder. `lattice/write_map.py` has the map.
"""
from __future__ import annotations

import sys
from pathlib import Path

sys.path.insert(0, str(Path(__file__).resolve().parent.parent))

from lattice import Node, WriteMap  # noqa: E402

SETTINGS = 1


class Member:
    """A node and what it has learnt of the map."""

    def __init__(self, own: int) -> None:
        self.node = Node(3, own)
        self.settings = WriteMap(SETTINGS)

    def write(self, key: str, value: str) -> None:
        """Writes under a stamp that is above those of all writes that this member has seen."""
        stamp = 1 + sum(self.node.view())
        self.node.own(SETTINGS, WriteMap.write(stamp, key.encode(), value.encode()))

    def told(self) -> str:
        self.node.absorb_into(self.settings)
        return ", ".join(f"{key.decode()} = {value.decode()}" for key, value in self.settings.items())


def deliver_all(group: list[Member]) -> None:
    while sent := [mail for member in group for mail in member.node.mail()]:
        for mail in sent:
            group[mail.to].node.receive(mail.line)


def main() -> None:
    group = [Member(own) for own in range(3)]
    group[0].write("colour", "red")
    group[1].write("colour", "green")
    group[2].write("size", "large")
    deliver_all(group)
    group[0].write("colour", "blue")
    deliver_all(group)
    for own, member in enumerate(group):
        print(f"node {own}: {member.told()}")


if __name__ == "__main__":
    main()
