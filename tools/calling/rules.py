"""What the program must answer to a script, by the rules of docs/SCRIPT.md and those of tools/oracle."""
from __future__ import annotations

from oracle.lines import Fault, Lines
from oracle.run import follow_run
from oracle.script import (
    MAX_AMOUNT, MAX_BYTE, MAX_CAP, MAX_COMMITS, MAX_OBJECT, MAX_REPLICAS, MAX_TAGS, MAX_VALUE, MAX_VOTES,
    VERSIONS, is_number, is_tag, read_script,
)

from .calls import Came

LIMIT = 16_777_216
# A letter stands for a number up to this, and every other word for itself.
GREATEST = {"R": MAX_BYTE, "O": MAX_OBJECT, "A": MAX_AMOUNT, "V": MAX_VALUE}
FORMS = """submit R O inc A, submit R O dec A, submit R O raise V, submit R O put V, submit R O mark, deliver V,
    decide R R V, ask R O total, ask R O largest, ask R O has V, ask R O size, ask R O items"""
FORMS_OF_VERSION = {
    version: [form.split() for form in forms.split(",")]
    for version, forms in ((1, FORMS), (2, FORMS + ", ask R O atleast V"))
}


def fits(form: list[str], words: list[str]) -> bool:
    """Whether the number of words and the keywords are those of the form."""
    return len(form) == len(words) and all(it in GREATEST or it == word for it, word in zip(form, words))


def has_numbers(form: list[str], words: list[str]) -> bool:
    """Whether each word that is to be a number is one of its range."""
    return all(it not in GREATEST or is_number(word, 0, GREATEST[it]) for it, word in zip(form, words))


def fault_of_event(line: str, version: int) -> str | None:
    """What is wrong with a line that is an event."""
    words = line.split(" ")
    if "" in words:
        return "BadLine"
    if words[0] == "submit" and words[3:4] == ["remove"] and len(words) <= 4 + MAX_TAGS:
        well = has_numbers(["submit", "R", "O"], words) and all(map(is_tag, words[4:]))
        return None if well else "BadNumber"
    form = next((it for it in FORMS_OF_VERSION[version] if fits(it, words)), None)
    if form is None:
        return "BadLine"
    return None if has_numbers(form, words) else "BadNumber"


def replicas_of(line: str) -> int | None:
    """How many replicas line 2 says that there are, or None where it is wrong."""
    words = line.split(" ")
    if len(words) != 6 or words[::2] != ["replicas", "commits", "cap"]:
        return None
    ranges = (1, MAX_REPLICAS), (0, MAX_COMMITS), (1, MAX_CAP)
    if not all(is_number(word, *it) for word, it in zip(words[1::2], ranges)):
        return None
    return int(words[1])


def are_votes(line: str, replicas: int) -> bool:
    """Whether line 3 of version 2 says the votes of so many replicas."""
    word, *votes = line.split(" ")
    return word == "votes" and len(votes) == replicas and all(is_number(it, 1, MAX_VOTES) for it in votes)


def fault_of(script: bytes) -> str | None:
    """The fault of a script as the program tells it, or None."""
    if len(script) > LIMIT:
        return "TooLong"
    text = script.decode("latin-1")
    lines = text.removesuffix("\n").split("\n")
    version = VERSIONS.get(lines[0]) if text else None
    if not version:
        return "line 1: BadHeader"
    replicas = replicas_of(lines[1]) if lines[1:] else None
    if not replicas:
        return "line 2: BadHeader"
    if version == 2 and not (lines[2:] and are_votes(lines[2], replicas)):
        return "line 3: BadHeader"
    for number, line in enumerate(lines[1 + version :], 2 + version):
        fault = None if line == "" or line.startswith("#") else fault_of_event(line, version)
        if fault:
            return f"line {number}: {fault}"
    return None


def difference(script: bytes, came: Came) -> str | None:
    """What is wrong with what came of a script, or None."""
    fault = fault_of(script)
    if fault:
        return None if came == Came(b"", f"{fault}\n".encode(), 1) else f"expected {fault}, found {came}"
    if came.status != 0 or came.said:
        return f"expected a report, found {came}"
    try:
        played = read_script(Lines("the script", script.decode("latin-1")))
        follow_run(played, Lines("the report", came.printed.decode("latin-1")))
    except Fault as wrong:
        return str(wrong)
    return None
