"""One run of a group, drawn from a seed; the moments of kills are of time, so that no run is quite repeated."""
from __future__ import annotations

import random
import subprocess
import tempfile
import time
from collections import Counter
from functools import cache
from pathlib import Path

from folders import Replica

from . import carts
from .check import Checker, Entry, Group
from .clients import Client
from .disks import flipped
from .lines import FAULTY
from .network import Network, drawn_weather, receiver
from .nodes import Node, Stuck
from .objects import OWN, live_of

# A run that takes longer, or so many rounds of ticks at its end, hangs.
SECONDS, ROUNDS = 60, 400
# How many lines come at least while one is away, and how many submissions are made then at most.
AWAY, MOST_AWAY = 88, 60
# How many submissions more one node makes where one is slow.
STREAM = 15
# While all lines that are under way are late, a node ticks once in so many rounds.
IDLE = 60
# Of the kills, how many are losses of power, and behind how many a bit flips.
POWER, FLIPPED = 0.35, 0.2
QUESTIONS = ("1 total", "1 atleast 7", "2 largest", "3 size", "3 items", "3 has 2", "1 items", "2 total")
QUESTIONS += ("3 tags 1", "3 tags 2", "1 tags 1", "1 updates", "3 updates")
# What no shelf has.
ELSEWHERE = ("8 total", "8 tags 1", "8 updates")


def drawn_group(draw: random.Random, nodes: int | None) -> Group:
    replicas = nodes or draw.choice((3, 3, 5))
    votes = (1,) * replicas if draw.random() < 0.7 else tuple(draw.randint(1, 4) for _ in range(replicas))
    return Group(replicas, draw.choice((0, 0, 1, 2)), draw.choice((10, 1_000_000, 1_000_000)), votes)


@cache
def bases_of(program: str) -> str:
    """What stands behind how far another is in a `known` of no letter: bases of nothing, if the program reads them."""
    bases = " offer 0 tell 0"
    with tempfile.TemporaryDirectory() as folder:
        words = Replica(program, folder, 1, 0).make().node_words()
        line = f"known 1 0 0 has 0 view 0{bases}\n".encode()
        came = subprocess.run(words, input=line, capture_output=True, timeout=SECONDS, check=True)
    return "" if came.stderr else bases


class Run:
    """A group, its network, and what was noted of both. What is preloaded into its nodes notes what they sync. Words of
    a cart program call for one beside each node."""

    def __init__(
        self, program: str, seed: int, nodes: int | None, folder: Path, preload: dict[str, str], cart: list[str]
    ) -> None:
        self.program, self.draw = program, random.Random(seed)
        self.group = drawn_group(self.draw, nodes)
        self.compact, self.has_away = seed % 2, seed % 4 > 1 and self.group.replicas > 1
        self.checker, self.log = Checker(self.group), []
        self.network = Network(self.draw, drawn_weather(seed, self.group.replicas))
        # The round of the last tick while all was late; and how many submissions were made while one was away.
        self.ticked = self.alone = 0
        self.figures: Counter[str] = Counter()
        self.nodes = []
        for own in range(self.group.replicas):
            replica = Replica(program, folder / str(own), self.group.replicas, own, *self.options())
            # A journal is compacted from 1 KiB on, or never.
            self.nodes.append(Node(replica, own, ["--compact", str(self.compact)], self.note, preload))
        self.carts = {it.own: carts.Cart(cart) for it in self.nodes} if cart else {}
        self.work = self.drawn_work()
        # Of some nodes, whose clients number their submissions.
        self.clients = {it.own: Client(it.own) for it in self.nodes if self.draw.random() < 0.6}
        self.until = time.monotonic() + SECONDS
        self.note(("weather", 0, str(self.network.weather)))

    def options(self) -> list[str]:
        """What the group has beside its replicas."""
        votes = ["--votes", *map(str, self.group.votes)] if set(self.group.votes) != {1} else []
        return ["--commits", str(self.group.commits), "--cap", str(self.group.cap), *votes]

    def note(self, entry: Entry) -> None:
        self.log.append(entry)
        self.checker.take(entry)
        self.figures[entry[0]] += 1
        self.figures["messages"] += entry[0] == "out" and not entry[2].startswith("#")

    # What is drawn

    def drawn_work(self) -> list[tuple[int, str]]:
        work = [(own, "submit") for own in range(self.group.replicas) for _ in range(self.draw.randint(1, 7))]
        work += [(own, "ask") for own in range(self.group.replicas) for _ in range(3)]
        if self.network.weather.slow is not None:
            # Another goes on while the slow one has not answered yet.
            work += [(self.draw.randrange(self.group.replicas), "submit")] * STREAM
        for number in range(self.group.commits):
            owns = range(self.group.replicas)
            proposals = [(own, f"decide {own} {number} {self.draw.randint(1, 2)}") for own in owns]
            work += proposals + [it for it in proposals if self.draw.random() < 0.4]
        if self.draw.random() < 0.5:
            work += [(own, f"decide {own} {self.draw.randint(0, 2)} 3") for own in range(self.group.replicas)]
        self.draw.shuffle(work)
        return work

    def drawn_take(self, own: int) -> str:
        """What takes an element out; often one that this node has seen."""
        seen = [element for _, element in live_of(self.checker.found(self.checker.nodes[own].view, "3"))]
        return f"3 take {self.draw.choice(seen if seen and self.draw.random() < 0.8 else (1, 2))}"

    def drawn_op(self, own: int, strays: float) -> str:
        """What is submitted; so many strays go to any object."""
        words = ("inc", "inc", "dec", "raise", "put", "put", "put", "remove", "take", "take", "mark", "own", "own")
        word = self.draw.choice(words)
        if self.carts and self.draw.random() < 0.8:
            return self.drawn_cart(own)
        number = {"inc": 1, "dec": 1, "raise": 2, "mark": self.draw.randint(1, 3), "own": OWN}.get(word, 3)
        number = number if self.draw.random() >= strays else self.draw.choice((0, 1, 2, 3, 65535))
        if (number, word) == (3, "take"):
            return self.drawn_take(own)
        if word == "own":
            return f"{number} own {self.drawn_bytes()}"
        if word == "remove":
            ids = [(own, at) for own, node in enumerate(self.checker.nodes) for at in [*node.submitted, 1]]
            tags = sorted({*self.draw.sample(ids, min(len(ids), self.draw.randint(0, 4)))})
            return " ".join([str(number), word, *(f"{own}.{at}" for own, at in tags)])
        largest = 2**32 - 1 if word in ("inc", "dec") else 2**64 - 1
        often = self.draw.choice((1, 2)) if word == "put" else self.draw.randint(0, 5)
        value = often if self.draw.random() < 0.95 else largest
        return f"{number} {word}" if word == "mark" else f"{number} {word} {value}"

    def drawn_cart(self, own: int) -> str:
        """What a client puts into a cart or takes out, by what its node tells then."""
        self.tell_cart(own)
        while not (found := self.ask_cart(own, carts.command(self.draw, own))).startswith("submit "):
            pass
        return found.split(" ", 2)[2]

    def drawn_bytes(self) -> str:
        """The bytes of an operation of one's own, as a word."""
        length = self.draw.choice((0, 1, 4, 5, self.draw.randint(0, 248), 248))
        return self.draw.randbytes(length).hex() or "-"

    def drawn_line(self, own: int, what: str) -> str:
        """A line of the workload, for this node."""
        if what == "submit" and own in self.clients:
            what = self.clients[own].new(self.drawn_op(own, 0))
        elif what == "submit":
            what = f"submit {own} {self.drawn_op(own, 0.05)}"
        elif what == "ask":
            what = self.drawn_question(own)
        return what + self.drawn_name()

    def drawn_question(self, own: int) -> str:
        """How a node stands; or a question, which may wait for what this one or another submitted last, or is to."""
        if self.draw.random() < 0.2:
            return f"status {own}"
        if self.draw.random() < 0.2:
            of = self.draw.randrange(self.group.replicas)
            return f"update {own} {of}.{self.draw.randint(1, max(self.checker.nodes[of].submitted, default=1) + 1)}"
        question = f"ask {own} {self.draw.choice((*QUESTIONS, self.draw.choice(ELSEWHERE)))}"
        if self.draw.random() < 0.4:
            return question
        of = self.draw.choice((own, self.draw.randrange(self.group.replicas)))
        last = max(self.checker.nodes[of].submitted, default=1)
        return f"{question} at {of}.{last + (self.draw.random() < 0.2)}"

    def drawn_name(self) -> str:
        """The name of a request behind a line, or none."""
        return self.draw.choice(("", f" @{self.draw.randint(0, 99)}", " @A.b:c_9-"))

    def passed_line(self, own: int) -> str:
        """A line that this node has to pass over, or to tell a fault of."""
        other = (own + 1) % self.group.replicas
        mail = [it for it in self.network.due() if receiver(it) != own]
        elsewhere = ["", "# tick", f"# r{other} view 1 1 1 1 1 1 1 1", f"submit {other} 1 inc 7", f"decide {other} 0 9"]
        # What lines of another group say of it is none of this one's.
        far, group, over = "has 99,99,99 view 99,99,99", self.group.replicas, bases_of(self.program)
        strange = f"{group % 8 + 1} {other} {own}"
        elsewhere += [f"yes {strange} 0 1 {far}", f"known {strange} {far}{over}"]
        elsewhere += [f"ask {other} 1 total", f"submit {other}.1 1 inc 7"]
        elsewhere += [f"known {group} {other} {own} has 0 view 0{over}"]
        elsewhere += [f"ask {other} 3 tags 1 at {own}.1", f"submit {other} 3 take 1", f"status {other}"]
        elsewhere += self.draw.sample(mail, min(3, len(mail)))
        faulty = [it + self.drawn_name() if it[:3] in ("sub", "tic", "del", "ask", "sta", "dec") else it for it in FAULTY]
        return self.draw.choice((*elsewhere, *faulty))

    # What happens

    def post(self, sent: list[str]) -> None:
        """Puts messages onto the network."""
        self.network.post(sent)

    def taken_work(self, own: int, most: int) -> list[str]:
        """So many lines of the workload that are this node's, behind what its client sends again."""
        mine = [it for it in self.work if it[0] == own][:most]
        for it in mine:
            self.work.remove(it)
        return [*self.sent_again(own), *(self.drawn_line(*it) for it in mine)]

    def sent_again(self, own: int) -> list[str]:
        """What a client that numbers its submissions sends again."""
        if own not in self.clients:
            return []
        client, answered = self.clients[own], self.checker.nodes[own].submitted
        lines = client.waiting(answered, self.group.cap)
        lines += client.strange(self.draw, answered) if self.draw.random() < 0.3 else []
        return [it + self.drawn_name() for it in lines]

    def step(self) -> None:
        """One node is given a few lines, or is killed. What comes to one that is down is lost."""
        self.network.round += 1
        if self.draw.random() < 0.06:
            return self.kill(self.draw.choice(self.nodes))
        if not self.network.pool:
            return self.tick()
        likely = [self.draw.choice(due)] if (due := self.network.due()) else []
        own = self.draw.choice((*map(receiver, likely), self.draw.randrange(self.group.replicas)))
        if self.network.is_still(own):
            return
        node, lines = self.nodes[own], self.network.taken(own, self.draw.choice((1, 1, 1, 2, 4)))
        if node.process:
            lines += self.taken_work(node.own, 1) if self.draw.random() < 0.3 else []
            lines += [self.passed_line(node.own)] if self.draw.random() < 0.1 else []
            lines += [self.drawn_line(node.own, "ask")] if self.draw.random() < 0.1 else []
            lines += ["tick"] if self.draw.random() < 0.02 else []
            self.post(node.give(lines))

    def kill(self, node: Node) -> None:
        """Kills a node in the midst of some lines, or starts one that is down; that may be killed at its start."""
        if node.process:
            lines = self.network.taken(node.own, self.draw.randint(0, 4))
            lines += self.taken_work(node.own, self.draw.randint(0, 2))
            self.draw.shuffle(lines)
            half = f"submit {node.own} 1 inc 9" if self.draw.random() < 0.3 else ""
            self.cut_off(node, lines, half, self.draw.uniform(0, 0.0002 * (len(lines) + 1)))
        if not node.process and self.draw.random() < 0.8:
            node.start()
            if self.draw.random() < 0.4:
                self.cut_off(node, [], "", self.draw.uniform(0, 0.002))

    def cut_off(self, node: Node, lines: list[str], half: str, seconds: float) -> None:
        """Kills a node, or it loses power. A bit of its journal may flip, and back again."""
        self.post(node.kill(lines, half, seconds))
        if self.draw.random() < POWER:
            self.note(("power", node.own, node.disk.lose_power(self.draw)))
        if self.draw.random() < FLIPPED:
            self.flip(node)

    def flip(self, node: Node) -> None:
        """Starts a node that is down over a journal a bit of which has flipped, and flips it back."""
        journal, whole = node.disk.journal, node.disk.found()
        # Where syncs do nothing a loss of power may leave no byte of it.
        if whole:
            journal.write_bytes(wrong := flipped(self.draw, whole))
            came = node.over(f"submit {node.own} 1 inc 9\n".encode())
            kept = "kept" if journal.read_bytes() == wrong else "changed"
            told = f"status {came.returncode}, printed {came.stdout}, said {came.stderr}, {kept}"
            self.note(("flipped", node.own, told))
            journal.write_bytes(whole)

    def tick(self) -> None:
        """Nothing moves: timers run out, and nodes that are down may come back. One that stands still does neither."""
        self.network.round += 1
        for node in self.nodes:
            if self.network.is_still(node.own):
                continue
            if node.process:
                self.post(node.give([*self.taken_work(node.own, 1), "tick"]))
            elif self.draw.random() < 0.5:
                node.start()

    def away(self) -> None:
        """One is down, or all that comes of it and for it is lost, while the others go on until it is silent for each,
        and for some time."""
        gone = self.draw.choice(self.nodes)
        others = [it for it in self.nodes if it is not gone]
        self.note(("away", gone.own, ""))
        if gone.process and self.draw.random() < 0.5:
            self.cut_off(gone, [], "", 0)
        while not all(self.misses(it.own, gone.own) for it in others):
            self.go_on(self.draw.choice(self.nodes if gone.process else others), gone.own)
            self.in_time()
        self.note(("back", gone.own, ""))
        if not gone.process:
            gone.start()

    def misses(self, own: int, gone: int) -> bool:
        """Whether a node has heard enough lines without one that is away, and some more."""
        return self.checker.nodes[own].hearing.missed(gone) >= AWAY

    def go_on(self, node: Node, gone: int) -> None:
        """A node submits, ticks, and is given what is for it, and some of what is for others; or it is started. To
        one that is away nothing comes, and what it sends is lost."""
        self.network.round += 1
        if self.network.is_still(node.own):
            return
        if not node.process:
            return node.start()
        submits = self.draw.random() < 0.2 and self.alone < MOST_AWAY
        self.alone += submits
        lines = [self.drawn_line(node.own, "submit")] if submits else []
        lines += ["tick"] if self.draw.random() < 0.3 else []
        if node.own != gone:
            others = [it for it in self.network.due() if receiver(it) != node.own]
            lines += self.draw.sample(others, min(len(others), self.draw.randint(0, 4)))
            lines += self.network.taken(node.own, self.draw.choice((1, 2, 4)))
        self.draw.shuffle(lines)
        self.post(node.give(lines))
        self.network.lose_of(gone)

    def settle(self) -> None:
        """No more kills: all learn all. Each node says how it stands, and submits once more, so that it shows its
        view."""
        for node in self.nodes:
            if not node.process:
                node.start()
            # One goes on until it is refused, where the cap is small.
            times = self.group.cap + 1 if node.own == 1 and self.group.cap < 100 else 1
            last = self.draw.choice(("1 mark", self.drawn_take(node.own)))
            lines = [f"status {node.own}", *self.sent_again(node.own), *[f"submit {node.own} {last}"] * times]
            self.post(node.give(lines))
        self.learn_all()

    def put_and_take(self) -> None:
        """One puts an element, and one takes it out once all have learnt that."""
        for what in ("3 put 7", "3 take 7"):
            node = self.draw.choice(self.nodes)
            self.post(node.give([f"submit {node.own} {what}"]))
            self.learn_all()

    def learn_all(self) -> None:
        """Messages come, and nodes tick, until all views are equal and have all submissions."""
        for _ in range(ROUNDS):
            while self.network.pool:
                self.deliver_next()
                self.in_time()
            self.tick()
            if any(self.network.is_still(it.own) for it in self.nodes):
                # It has had no tick yet, so that what it has to say again is not said.
                self.network.round += 1
            elif not any(it.line.startswith("offer") for it in self.network.pool) and self.is_settled():
                return
        raise Stuck(f"views do not become equal: {[it.view for it in self.checker.nodes]}")

    def deliver_next(self) -> None:
        """Gives the next lines to whom they are for. If all are late, or for a node that stands still, nothing but time
        passes, and in some rounds the timer of a node runs out."""
        self.network.round += 1
        if (own := self.network.next_receiver()) is not None:
            return self.post(self.nodes[own].give(self.network.taken(own, 4)))
        if self.network.round >= self.ticked + IDLE:
            self.ticked, node = self.network.round, self.draw.choice(self.nodes)
            self.post([] if self.network.is_still(node.own) else node.give(["tick"]))

    def is_settled(self) -> bool:
        views = {it.view for it in self.checker.nodes}
        made = [max(it.submitted, default=0) for it in self.checker.nodes]
        # Behind the last that the cap allows none comes which tells that one was submitted whose answer a kill lost.
        return len(views) == 1 and all(has in (it, self.group.cap) for has, it in zip(next(iter(views)), made))

    def in_time(self) -> None:
        if time.monotonic() > self.until:
            raise Stuck("it takes too long")

    def apart(self, node: Node) -> None:
        """A second process for a folder is turned away; and of a line without an end nothing is taken."""
        done = node.over(b"")
        if done.returncode != 5 or done.stdout or done.stderr.count(b"\n") != 1:
            self.checker.fault("locked", node.own, f"status {done.returncode}, {done.stderr!r}")
        node.end()
        done = node.over(f"submit {node.own} 1 inc 5".encode())
        if done.returncode or done.stdout or done.stderr != f"lattice node: r{node.own}: line 1: BadLine\n".encode():
            self.checker.fault("half", node.own, f"{done.stderr!r}, {done.stdout!r}, status {done.returncode}")
        node.start()

    def tell_cart(self, own: int) -> None:
        """A node tells its cart program what this was not told of the view."""
        node, seen, begin = self.nodes[own], self.checker.nodes[own], len(self.log)
        told = [sum(replica == it for replica, _ in seen.told) for it in range(len(seen.view))]
        new = [f"{it}.{at}" for it, most in enumerate(seen.view) for at in range(told[it] + 1, most + 1)]
        self.post(node.give([f"update {own} {it}{self.drawn_name()}" for it in new]))
        for line in [it for word, by, it in self.log[begin:] if (word, by) == ("out", own) and " update " in it]:
            self.note(("told", own, line))
            self.carts[own].write(line)

    def ask_cart(self, own: int, line: str) -> str:
        found = self.carts[own].ask(line)
        self.note(("cart", own, f"{line}: {found}"))
        return found

    def ask_carts(self) -> None:
        """Each cart program is told what there is, and asked for all."""
        for own, cart in self.carts.items():
            self.tell_cart(own)
            for line in [f"cart {it} {article}" for it in carts.CARTS for article in carts.ARTICLES]:
                self.ask_cart(own, line)
            if (came := cart.end()) != (b"", 0):
                self.checker.fault("carts", own, f"it ends with {came}")
        self.carts.clear()

    def ask_all(self) -> None:
        """Asks all, behind what was submitted last; how each stands; and proposes once more what each has proposed."""
        made = [max(it.submitted, default=1) for it in self.checker.nodes]
        for node in self.nodes:
            behind = [f"{at}.{made[at]}" for at in (place % len(made) for place in range(len(QUESTIONS)))]
            node.give([f"ask {node.own} {it} at {update}" for it, update in zip(QUESTIONS, behind)])
            again = [f"decide {node.own} {at} {value}" for at, value in self.checker.nodes[node.own].proposed.items()]
            node.give([it + self.drawn_name() for it in [*again, f"status {node.own}"]])
            node.give([f"update {node.own} {replica}.{at}" for replica, most in enumerate(made) for at in range(1, most + 1)])
            self.post(node.give([]))

    def play(self) -> None:
        for node in self.nodes:
            node.start()
        half = len(self.work) // 2 if self.has_away else 0
        while len(self.work) > half:
            self.step()
            self.in_time()
        if self.has_away:
            self.away()
        while self.work:
            self.step()
            self.in_time()
        for node in self.nodes:
            if node.lives == 1:
                self.kill(node)
        self.settle()
        self.put_and_take()
        self.note(("last", 0, ""))
        self.ask_all()
        self.ask_carts()
        self.apart(self.draw.choice(self.nodes))
        for node in self.nodes:
            node.end()
            node.start()
        self.ask_all()
        for node in self.nodes:
            node.end()
            self.flip(node)
        self.checker.end()

    def stop(self) -> None:
        """Ends what is left of it."""
        for cart in self.carts.values():
            cart.process.kill()
            cart.end()
        for node in self.nodes:
            if node.process:
                node.process.kill()
                node.process.wait()
                node.process.stdin.close()
                node.process.stdout.close()
