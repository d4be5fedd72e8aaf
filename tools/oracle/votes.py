"""The votes of an adopt-commit object, by replica, and what comes of a learnt set of them."""
from __future__ import annotations

from dataclasses import dataclass

from .report import Decision

Votes = dict[int, "Vote"]


@dataclass(frozen=True)
class Vote:
    """A vote for a value; in a second instance it may say that the value is the sole one."""

    value: int
    is_sole: bool


def second_vote(votes: Votes, own: int) -> Vote:
    """The second vote of a replica that learnt these in the first instance."""
    value = votes[own].value
    return Vote(value, all(vote.value == value for vote in votes.values()))


def decision_of(votes: Votes, own: int) -> Decision:
    """What a replica returns that learnt these in the second instance."""
    sole = [vote.value for _, vote in sorted(votes.items()) if vote.is_sole]
    return Decision(len(sole) == len(votes), sole[0] if sole else votes[own].value)
