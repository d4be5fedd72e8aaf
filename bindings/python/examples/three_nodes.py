"""Three nodes in one process: `python3 examples/three_nodes.py` in the package's folder."""
from __future__ import annotations

import sys
from pathlib import Path

sys.path.insert(0, str(Path(__file__).resolve().parent.parent))

from lattice import Kind, Node  # noqa: E402

VISITS, TAGS = 1, 2


def deliver_all(group: list[Node]) -> None:
    """Stands for a transport: takes all mail to whom it is for, until there is none."""
    while sent := [mail for node in group for mail in node.mail()]:
        for mail in sent:
            group[mail.to].receive(mail.line)


def main() -> None:
    group = [Node(3, own, commits=1) for own in range(3)]
    for node in group:
        node.add(VISITS, Kind.COUNTER)
        node.add(TAGS, Kind.OR_SET)
    group[0].inc(VISITS, 5)
    group[1].dec(VISITS, 2)
    group[2].put(TAGS, 9)
    for node in group:
        node.propose(0, 7)
    deliver_all(group)
    for own, node in enumerate(group):
        print(f"node {own}: {node.total(VISITS)} visits, tags {node.items(TAGS)}, {node.outcome(0)}")


if __name__ == "__main__":
    main()
