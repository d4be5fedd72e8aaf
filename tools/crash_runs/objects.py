"""What objects answer, by the updates that count for them."""
from __future__ import annotations

COUNTER, REGISTER, SET = 1, 2, 3
# Under which an object of a type of one's own has its updates.
OWN = 9
# What each takes, beside marks.
TAKES = {COUNTER: ("inc", "dec"), REGISTER: ("raise",), SET: ("put", "remove", "take")}
# An update's id, and what it does.
Named = tuple[tuple[int, int], list[str]]


def total_of(updates: list[Named]) -> int:
    return sum((1 if op[0] == "inc" else -1) * int(op[1]) for _, op in updates if op[0] in ("inc", "dec"))


def live_of(updates: list[Named]) -> list[tuple[str, int]]:
    """The puts that no remove names, by their ids, in order: each id, and the element."""
    removed = {tag for _, op in updates if op[0] == "remove" for tag in op[1:]}
    puts = [(f"{replica}.{number}", int(op[1])) for (replica, number), op in sorted(updates) if op[0] == "put"]
    return [it for it in puts if it[0] not in removed]


def tags_of(updates: list[Named], element: int) -> list[str]:
    """The live tags of an element, in order."""
    return [tag for tag, put in live_of(updates) if put == element]


def counts_of(updates: list[Named]) -> list[int]:
    """How many there are, of each replica."""
    return [sum(it == replica for (it, _), _ in updates) for replica in range(8)]


def unfit(number: int, word: str) -> str:
    """Why an object does not take an operation: the refusal's name; nothing, where it does."""
    if word == "own":
        return "Foreign" if number in TAKES else ""
    if number not in TAKES:
        return "NoSuchObject"
    return "" if word == "mark" or word in TAKES[number] else "Foreign"


def answer(number: int, query: list[str], updates: list[Named]) -> str:
    """The text of an answer of the object under this number, over all updates that name it."""
    word, *rest = query
    if word == "updates":
        return " ".join(["updates", *map(str, counts_of(updates))])
    if word == "tags":
        return " ".join(["tags", *(tags_of(updates, int(rest[0])) if number == SET else [])])
    if number == COUNTER and word == "total":
        return f"total {total_of(updates)}"
    if number == COUNTER and word == "atleast":
        return "reached yes" if total_of(updates) >= int(rest[0]) else "reached no"
    if number == REGISTER and word == "largest":
        return f"largest {max((int(op[1]) for _, op in updates if op[0] == 'raise'), default=0)}"
    if number == SET and word in ("has", "size", "items"):
        items = sorted({element for _, element in live_of(updates)})
        shown = {"size": f"size {len(items)}", "items": f"items [{' '.join(map(str, items))}]"}
        return shown.get(word) or f"has {'yes' if int(rest[0]) in items else 'no'}"
    return "foreign"
