"""What the package answers and refuses."""
from __future__ import annotations

import copy
import ctypes
import pickle
import unittest
from collections.abc import Callable
from concurrent.futures import ThreadPoolExecutor
from itertools import combinations

import lattice
from lattice import Kind, LatticeError, Node, Operation, Outcome, WriteMap, _calls

from .groups import COUNTER, MAP, REGISTER, SET, Group


class Answers(unittest.TestCase):
    def setUp(self) -> None:
        self.group = Group(1)
        self.addCleanup(self.group.close)

    def test_objects_answer_alike_everywhere(self) -> None:
        one, two, three = self.group.nodes
        self.assertEqual([one.inc(COUNTER, 5), one.inc(COUNTER), two.dec(COUNTER, 8)], [1, 2, 1])
        self.assertEqual([two.raise_to(REGISTER, 2**64 - 1), three.put(SET, 9), three.mark(SET)], [2, 1, 2])
        self.group.settle()
        for node in self.group.nodes:
            self.assertEqual((node.total(COUNTER), node.largest(REGISTER)), (-2, 2**64 - 1))
            self.assertEqual((node.at_least(COUNTER, 0), node.has(SET, 9), node.has(SET, 8)), (False, True, False))
            self.assertEqual((node.size(SET), node.items(SET)), (1, [9]))
            self.assertEqual(node.view(), [2, 2, 2, 0, 0, 0, 0, 0])
            self.assertTrue(all(count <= 2 for count in node.known(1)))

    def test_an_add_at_the_same_time_stays(self) -> None:
        one, two, three = self.group.nodes
        for element in range(40):
            one.put(SET, element)
        self.group.settle()
        two.remove(SET, 7)
        two.remove(SET, 8)
        three.put(SET, 8)
        self.group.settle()
        for node in self.group.nodes:
            self.assertEqual(node.items(SET), [it for it in range(40) if it != 7])

    def test_all_that_propose_alike_commit(self) -> None:
        for node in self.group.nodes:
            self.assertIsNone(node.outcome(0))
            node.propose(0, 42)
        self.group.settle()
        for node in self.group.nodes:
            self.assertEqual(node.outcome(0), Outcome(42, True))
            self.assertIsNone(node.outcome(1))

    def test_what_is_learnt_comes_once_and_in_order(self) -> None:
        for number in range(30):
            self.group.nodes[number % 3].own(MAP, bytes(range(248)))
        self.group.nodes[0].own(MAP, b"")
        self.group.settle()
        for node in self.group.nodes:
            learnt = list(node.learnt())
            for replica in range(3):
                numbers = [it.number for it in learnt if it.replica == replica]
                self.assertEqual(numbers, list(range(1, 12 if replica == 0 else 11)))
            self.assertTrue(all((it.object, it.operation) == (MAP, Operation.OWN) for it in learnt))
            self.assertEqual(sorted(it.own for it in learnt), [b""] + [bytes(range(248))] * 30)
            self.assertIsNone(node.next_learnt())

    def test_maps_of_ones_own_are_alike(self) -> None:
        for stamp in range(60):
            key = bytes([self.group.random.randrange(5)])
            write = WriteMap.write(stamp // 4, key, str(stamp).encode())
            self.group.random.choice(self.group.nodes).own(MAP, write)
            self.group.collect()
            self.group.hand_over(0.2, 0.2)
        self.group.settle()
        maps = []
        for node in self.group.nodes:
            made = WriteMap(MAP)
            self.assertEqual((node.absorb_into(made), node.absorb_into(made)), (60, 0))
            maps.append(list(made.items()))
            self.assertEqual(made.get(b"none"), None)
        self.assertEqual((len(maps[0]), maps[1:]), (5, maps[:1] * 2))
        with self.assertRaises(lattice.TooLargeError):
            WriteMap.write(1, bytes(200), bytes(40))


    def test_a_number_counts_once(self) -> None:
        node = self.group.nodes[0]
        operations = [
            (Operation.INC, 5, b""),
            (Operation.DEC, 7, b""),
            (Operation.RAISE, 2**64 - 1, b""),
            (Operation.PUT, 8, b""),
            (Operation.MARK, 0, b""),
            (Operation.OWN, 0, bytes(248)),
        ]
        for number, (operation, value, own) in enumerate(operations, 1):
            with self.assertRaises(lattice.AheadError):
                node.submit_at(number + 1, MAP, operation, value, own)
            node.submit_at(number, MAP, operation, value, own)
            node.submit_at(number, MAP, operation, value, own)
            with self.assertRaises(lattice.StaleError):
                node.submit_at(number, SET, operation, value, own)
            self.assertEqual(node.submitted(), number)
        for operation, value, own, error in [
            (Operation.REMOVE, 1, b"", lattice.BadKindError),
            (Operation.VOTE, 1, b"", lattice.BadKindError),
            (Operation.INC, 2**32, b"", lattice.TooLargeError),
            (Operation.OWN, 0, bytes(249), lattice.TooLargeError),
        ]:
            with self.assertRaises(error):
                node.submit_at(7, MAP, operation, value, own)


class Losses(unittest.TestCase):
    def run_lossy(self, seed: int) -> None:
        """Messages are lost, repeated and reordered: of any two views one has all that the other has, at any time."""
        group, made = Group(seed), 0
        while made < 40:
            way = group.random.randrange(16)
            if way < 3:
                group.nodes[way].inc(COUNTER)
                made += 1
            elif way == 3:
                group.random.choice(group.nodes).again()
            elif group.bag:
                group.hand_over(0.2, 0.2)
            group.collect()
            for one, other in combinations([node.view() for node in group.nodes], 2):
                pairs = list(zip(one, other))
                self.assertTrue(all(x <= y for x, y in pairs) or all(x >= y for x, y in pairs))
        group.settle()
        self.assertEqual([node.total(COUNTER) for node in group.nodes], [40] * 3)
        group.close()

    def test_views_are_comparable_whatever_is_lost(self) -> None:
        for seed in range(10):
            self.run_lossy(seed)

    def test_threads_have_groups_of_their_own(self) -> None:
        with ThreadPoolExecutor(4) as pool:
            list(pool.map(self.run_lossy, range(100, 104)))

    def test_threads_share_a_node(self) -> None:
        with Node(1, 0) as node:
            node.add(COUNTER, Kind.COUNTER)
            with ThreadPoolExecutor(4) as pool:
                numbers = list(pool.map(lambda _: node.inc(COUNTER), range(2000)))
            self.assertEqual(sorted(numbers), list(range(1, 2001)))
            self.assertIsNone(node.next_mail())
            self.assertEqual(node.total(COUNTER), 2000)


class Refusals(unittest.TestCase):
    def test_groups(self) -> None:
        calls: list[tuple[Callable[[], Node], type[LatticeError]]] = [
            (lambda: Node(9, 0), lattice.BadGroupError),
            (lambda: Node(3, 0, cap=0), lattice.BadGroupError),
            (lambda: Node(3, 0, commits=17), lattice.BadGroupError),
            (lambda: Node(3, 0, votes=[1, 1]), lattice.BadGroupError),
            (lambda: Node(3, 3), lattice.NoReplicaError),
        ]
        for call, error in calls:
            with self.assertRaises(error):
                call()
        Node(3, 2, votes=[1, 1000, 1]).close()

    def test_numbers(self) -> None:
        node = Node(3, 0, commits=1, cap=1)
        node.add(COUNTER, Kind.COUNTER)
        calls: list[tuple[Callable[[], object], type[Exception]]] = [
            (lambda: node.add(COUNTER, Kind.OR_SET), lattice.TakenError),
            (lambda: node.total(SET), lattice.NoObjectError),
            (lambda: node.items(COUNTER), lattice.ForeignError),
            (lambda: node.remove(SET, 1), lattice.NoObjectError),
            (lambda: node.own(MAP, bytes(249)), lattice.TooLargeError),
            (lambda: node.propose(1, 1), lattice.NoCommitError),
            (lambda: node.inc(COUNTER, 2**32), ValueError),
            (lambda: node.inc(-1), ValueError),
            (lambda: node.add(2, 3), ValueError),  # type: ignore[arg-type]
        ]
        for call, error in calls:
            with self.assertRaises(error):
                call()
        self.assertEqual(node.inc(COUNTER), 1)
        with self.assertRaises(lattice.FullError):
            node.inc(COUNTER)
        node.propose(0, 1)
        with self.assertRaises(lattice.AlreadyProposedError):
            node.propose(0, 1)

    def test_lines(self) -> None:
        node = Node(3, 0)
        lines: list[tuple[bytes, type[LatticeError]]] = [
            (b"", lattice.BadLineError),
            (b"hello", lattice.BadLineError),
            (b"tick", lattice.NoMessageError),
            (b"yes 3 1 2 0 1 has 0 view 0", lattice.ElsewhereError),
            (b"yes 3 1 0 0 01 has 0 view 0", lattice.BadNumberError),
        ]
        for line, error in lines:
            with self.assertRaises(error):
                node.receive(line)
        self.assertEqual(str(lattice.BadNumberError()), "a number in the line is malformed or out of its range")

    def test_a_node_is_closed_once_and_never_copied(self) -> None:
        node = Node(3, 0)
        copies: list[Callable[[Node], object]] = [copy.copy, copy.deepcopy, pickle.dumps]
        for copied in copies:
            with self.assertRaises(TypeError):
                copied(node)
        node.close()
        node.close()
        with self.assertRaises(ValueError):
            node.inc(COUNTER)
        with self.assertRaises(ValueError):
            node.next_mail()

    def test_an_unknown_status_and_another_version_are_told(self) -> None:
        with self.assertRaisesRegex(LatticeError, "answered 200"):
            lattice.errors.check(200)
        self.assertEqual((ctypes.sizeof(_calls.Node), ctypes.sizeof(_calls.Learnt)), (8, 16))


if __name__ == "__main__":
    unittest.main()
