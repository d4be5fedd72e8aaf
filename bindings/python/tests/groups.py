"""A group of nodes in one process, whose messages go through a bag that may lose, repeat and reorder them."""
from __future__ import annotations

from random import Random

from lattice import Kind, Mail, Node

COUNTER, REGISTER, SET, MAP = 1, 2, 3, 4


class Group:
    """Three nodes, what is on its way, and numbers that look like chance."""

    def __init__(self, seed: int) -> None:
        self.random = Random(seed)
        self.bag: list[Mail] = []
        self.nodes = [Node(3, own, commits=1) for own in range(3)]
        for node in self.nodes:
            node.add(COUNTER, Kind.COUNTER)
            node.add(REGISTER, Kind.MAX_REGISTER)
            node.add(SET, Kind.OR_SET)

    def collect(self) -> None:
        for node in self.nodes:
            self.bag += node.mail()

    def hand_over(self, lost: float = 0.0, twice: float = 0.0) -> None:
        """Hands over one message, any: perhaps not, perhaps twice."""
        mail = self.bag.pop(self.random.randrange(len(self.bag)))
        if self.random.random() >= lost:
            self.nodes[mail.to].receive(mail.line)
        if self.random.random() < twice:
            self.bag.append(mail)
        self.collect()

    def is_settled(self) -> bool:
        submitted = [node.submitted() for node in self.nodes]
        return all(node.view()[:3] == submitted for node in self.nodes)

    def settle(self) -> None:
        """Hands all over, and has it sent again, until all is learnt by all."""
        for _ in range(100):
            self.collect()
            while self.bag:
                self.hand_over()
            if self.is_settled():
                return
            for node in self.nodes:
                node.again()
        raise AssertionError("not all is learnt after 100 rounds")

    def close(self) -> None:
        for node in self.nodes:
            node.close()
