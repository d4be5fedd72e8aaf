"""Scripts that grow: headers, and learnings one after another."""
from __future__ import annotations

ALONE = ["lattice 1", "replicas 1 commits 0 cap 1000000"]


def learning(at: int, operation: str) -> list[str]:
    """A replica that is alone submits its update number `at`, from 0, and learns it at once."""
    return [f"submit 0 {operation}", f"deliver {2 * at}", f"deliver {2 * at + 1}"]


def learnings(count: int, *behind: str) -> list[str]:
    """So many learnings of 1 more, with these lines behind each."""
    return [line for at in range(count) for line in (*learning(at, "1 inc 1"), *behind)]
