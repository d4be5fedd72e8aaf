"""The bytes of a node's journal: a head, and groups of lines, each with its record behind it."""
from __future__ import annotations

import hashlib
from collections.abc import Sequence


def digest(of: bytes) -> bytes:
    return hashlib.sha256(of).hexdigest()[:16].encode()


def head(own: int = 0, replicas: int = 1, votes: Sequence[int] = (), commits: int = 0, cap: int = 1_000_000) -> bytes:
    """The first line of a node's journal; one vote each, where none are given."""
    words = " ".join(map(str, votes or (1,) * replicas))
    text = b"lattice 2 replica %d of %d votes %s commits %d cap %d" % (own, replicas, words.encode(), commits, cap)
    return text + b" " + digest(text) + b"\n"


def with_record(group: bytes, before: bytes) -> bytes:
    """A group behind the bytes of a journal, and its record."""
    link = before.rstrip(b"\n")[-16:]
    return group + b"~ %d %s %s\n" % (group.count(b"\n"), link, digest(link + group))


def journal(groups: list[bytes], first: bytes = b"") -> bytes:
    """The journal of a node that was handed these groups of lines, behind a head: that of the defaults, if none."""
    made = first or head()
    for group in groups:
        made += with_record(group, made)
    return made


def lines_in(found: bytes) -> list[bytes]:
    """The lines of calls in a whole journal."""
    return [line for line in found.splitlines(keepends=True)[1:] if not line.startswith(b"~")]
