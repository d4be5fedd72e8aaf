#!/usr/bin/env python3
"""lattice_client.py [PROGRAM]: three nodes as child processes, and a client of each, by the standard library alone.
Copy it, and change `main`."""
import subprocess
import sys
import tempfile
import threading
import uuid
from pathlib import Path
from queue import SimpleQueue


class Refused(Exception):
    """The node refused the call, or found a fault in its line: this one."""


class Ended(Exception):
    """The node has ended, with this status, and has done the call or not: `start` it, and make the same call again."""


# What all nodes of the group have alike.
GROUP = ["--replicas", "3", "--commits", "1"]


def make_folder(program: str, own: int, folder: Path) -> None:
    """Makes a replica's folder and its journal: once, before its first start, and never again for this replica, also
    where the folder is lost. It would give its updates ids that others know already."""
    folder.mkdir(exist_ok=True)
    subprocess.run([program, "init", str(folder), "--own", str(own), *GROUP], check=True)


class Node:
    """A replica as a process, and its client. No other may submit there, since it numbers what it submits."""

    def __init__(self, nodes: list["Node"], program: str, own: int, folder: Path) -> None:
        options = ["--own", str(own), *GROUP, "--journal", str(folder), "--tick", "1"]
        self.nodes, self.own, self.words = nodes, own, [program, "node", *options]
        self.turn, self.changed = threading.Lock(), threading.Condition()
        self.answers, self.outcomes, self.view, self.next = {}, {}, [0] * 8, 0
        self.start()

    def start(self) -> None:
        """Starts the process; again where it has ended. A thread feeds it from a queue without a bound, and others
        read all that it says, so that a full pipe stops nobody for good."""
        pipe = subprocess.PIPE
        self.process = it = subprocess.Popen(self.words, stdin=pipe, stdout=pipe, stderr=pipe)
        self.lines, self.status = SimpleQueue(), None
        for work, of in ((self._feed, self.lines), (self._read, it.stdout), (self._read, it.stderr)):
            threading.Thread(target=work, args=(it, of), daemon=True).start()

    def _feed(self, process, lines) -> None:
        try:
            while line := lines.get():
                process.stdin.write(line)
                process.stdin.flush()
            process.stdin.close()
        except BrokenPipeError:
            pass  # It has ended, as `_read` finds too.

    def _read(self, process, stream) -> None:
        for line in stream:
            if not line.endswith(b"\n"):
                break  # Half a line, of a node that was killed, may be a message that it never sent.
            if line.startswith(b"#") or stream is process.stderr:
                self._hear(line.decode(errors="replace").rstrip("\n"))
            else:  # A message: all nodes get it, this one too, and pass over what is for another.
                for node in self.nodes:
                    if node.status is None:
                        node.lines.put(line)
        if stream is process.stdout:
            with self.changed:
                self.status = process.wait()
                self.changed.notify_all()

    def _hear(self, line) -> None:
        """Takes `# r0 WORD ..`, or `lattice node: r0: line K: FAULT`; behind what answers a call stands its name."""
        words = line.split(" ")
        with self.changed:
            if words[-1] in self.answers:
                self.answers[words[-1]] = words[2:-1] if words[0] == "#" else ["refused", *words[4:-1]]
            elif words[0] != "#":
                sys.stderr.write(f"{line}\n")
            elif words[2] == "view":
                self.view = [int(it) for it in words[3:]]
            elif words[2] == "outcome":
                self.outcomes[int(words[3])] = " ".join(words[4:])
            self.changed.notify_all()

    def _await(self, is_so, seconds=None) -> bool:
        """Waits until something is so, for so many seconds at most, and says whether it is."""
        with self.changed:
            if not self.changed.wait_for(lambda: is_so() or self.status is not None, seconds):
                return False
            if not is_so():
                raise Ended(self.status)
            return True

    def _call(self, line, again=2) -> list[str]:
        """Gives the words that answer a line. It is sent again where no answer comes in so many seconds."""
        name = f"@{uuid.uuid4().hex}"
        self.answers[name] = None
        try:
            self.lines.put(f"{line} {name}\n".encode())
            while not self._await(lambda: self.answers[name], again):
                self.lines.put(f"{line} {name}\n".encode())
        finally:
            words = self.answers.pop(name)
        if words[0] == "refused":
            raise Refused(words[2])
        return words

    def submit(self, number: int, operation: str) -> str:
        """Submits an operation of an object, such as `inc 5`, and gives the update's id. By the number of its line the
        node does it once, however often that comes."""
        with self.turn:
            if not self.next:  # A mark changes nothing, and its id says how many there were before.
                self.next = int(self._call(f"submit {self.own} 1 mark")[1].partition(".")[2]) + 1
            while True:
                try:
                    words = self._call(f"submit {self.own}.{self.next} {number} {operation}")
                    self.next += 1
                    return words[1]
                except Refused as fault:
                    if str(fault) == "BadNumber":  # A program without numbers: what meets `Ended` may count twice.
                        return self._call(f"submit {self.own} {number} {operation}", again=None)[1]
                    if str(fault) != "Stale":
                        raise
                    self.next += 1  # Another has it: a mark that was sent twice, or a call that met `Ended`.

    def take(self, number: int, element: int) -> str:
        """Takes an element out of a set, by all puts of it that the node has seen, and gives the update's id."""
        return self.submit(number, f"take {element}")

    def ask(self, number: int, question: str, at: str = "") -> str:
        """Asks an object, such as `total`, and gives the answer, such as `total 5`. Where it says an update's id, it
        waits until the view, by which the node answers, has that."""
        replica, _, count = at.partition(".")
        while (words := self._call(f"ask {self.own} {number} {question}{at and f' at {at}'}"))[0] == "waiting":
            self._await(lambda: self.view[int(replica)] >= int(count))
        return " ".join(words[2:])

    def decide(self, number: int, value: int) -> str:
        """Proposes a value to an adopt-commit object, and gives the outcome, such as `commit 3`."""
        self._call(f"decide {self.own} {number} {value}")
        self._await(lambda: number in self.outcomes)
        return self.outcomes[number]

    def close(self) -> int:
        """Ends its input, and so the node, and gives its status."""
        self.lines.put(None)
        return self.process.wait()


def main(program: str) -> int:
    nodes: list[Node] = []
    with tempfile.TemporaryDirectory() as folder:
        for own in range(3):
            make_folder(program, own, Path(folder, str(own)))
            nodes.append(Node(nodes, program, own, Path(folder, str(own))))
        inc, best, put = nodes[0].submit(1, "inc 5"), nodes[1].submit(2, "raise 7"), nodes[2].submit(3, "put 9")
        for node in nodes:
            total, largest = node.ask(1, "total", at=inc), node.ask(2, "largest", at=best)
            print(f"node {node.own}: {total}, {largest}, {node.ask(3, 'items', at=put)}")
        taken = nodes[0].take(3, 9)
        for node in nodes:
            print(f"node {node.own}: {node.ask(3, 'items', at=taken)}")
        for node in nodes:
            print(f"node {node.own}: {node.decide(0, 10 + node.own)}")
        return max([node.close() for node in nodes])


if __name__ == "__main__":
    built = Path(__file__).resolve().parents[2] / "crates/lattice/out/lattice"
    sys.exit(main(str(Path(sys.argv[1]).resolve() if sys.argv[1:] else built)))
