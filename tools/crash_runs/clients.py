"""Clients that number their submissions."""
from __future__ import annotations

import random
from dataclasses import dataclass, field


@dataclass
class Client:
    """The client of one node: what it has sent, by number from 1. It sends each again until it is answered, in order,
    and some once more. What it knows of its node is what has been answered, by number."""

    own: int
    sent: list[str] = field(default_factory=list)

    def line(self, number: int, content: str) -> str:
        return f"submit {self.own}.{number} {content}"

    def new(self, content: str) -> str:
        self.sent.append(content)
        return self.line(len(self.sent), content)

    def waiting(self, answered: dict[int, str], cap: int) -> list[str]:
        """Once more what has no answer yet, and is not over the cap."""
        found = list(enumerate(self.sent, 1))[:cap]
        return [self.line(*it) for it in found if it[0] not in answered]

    def strange(self, draw: random.Random, answered: dict[int, str]) -> list[str]:
        """What was answered once more, or its number with something else; what its object does not take; or a number
        that is too large."""
        if answered and draw.random() < 0.9:
            number = draw.choice([*answered])
            others = ("1 inc 77", draw.choice(("3 take 1", "3 take 77", "9 mark", "3 remove")))
            return [self.line(number, draw.choice((*[answered[number]] * 4, *others)))]
        if draw.random() < 0.5:
            return [self.line(len(self.sent) + 1, draw.choice(("9 mark", "1 take 1")))]
        return [self.line(len(self.sent) + draw.randint(20, 99), "1 inc 77")]
