"""Three nodes in three processes, over TCP on this machine: `python3 examples/three_processes.py` in the package's
folder.

Each node has a journal, which is made once, before any process has it. One of them is killed twice and started again
at once, and comes back by its journal. All queues are bounded, and what finds no room is dropped, as a network may lose
it: a timer has it sent again. Connections are cut now and then, and made anew. Node 2 is slow: the others agree without
it, and it catches up.
"""
from __future__ import annotations

import asyncio
import sys
import tempfile
import time
from pathlib import Path
from typing import Any

sys.path.insert(0, str(Path(__file__).resolve().parent.parent))

from lattice import (  # noqa: E402
    BadLineError,
    BadNumberError,
    Durable,
    ElsewhereError,
    Kind,
    NoMessageError,
    OutOfMemoryError,
    TooLongError,
)

NODES, SLOW, VISITS = 3, 2, 1
# How many updates each node submits.
UPDATES = 100
# The node that is killed, and how many of its own updates it has learnt by then at least.
KILLED, KILLED_AT = 1, (30, 60)
# How many messages may wait for a connection, or for the node, and how many lines are taken with one sync at most.
WAITING, TAKEN = 256, 64
# How many lines go over a connection before it is cut, and how many bytes one may have with its end.
LINES, LINE_BYTES = 60, 1 << 28
# A line that is refused so is passed over. Any other refusal says that a node came back with less than it had, or that
# somebody lies: the node stops, and a person has to look.
HARMLESS = (TooLongError, BadLineError, BadNumberError, NoMessageError, ElsewhereError, OutOfMemoryError)
# In seconds.
AGAIN, RECONNECT, SLOWNESS, PATIENCE = 0.05, 0.01, 0.003, 60


async def send_lines(port: int, lines: asyncio.Queue[bytes]) -> None:
    """Sends lines over one connection after the other; one that breaks loses what was on it."""
    while True:
        try:
            _, writer = await asyncio.open_connection("127.0.0.1", port)
            for _ in range(LINES):
                writer.write(await lines.get() + b"\n")
                await writer.drain()
            writer.close()
        except OSError:
            await asyncio.sleep(RECONNECT)


class Host:
    """A node with its connections."""

    def __init__(self, own: int, folder: str) -> None:
        """The node by its journal, which has to be there, with its object, which is in no journal."""
        self.own, self.node = own, Durable(NODES, own, folder)
        self.node.add(VISITS, Kind.COUNTER)
        print(f"node {own}: it has submitted {self.node.submitted()}", file=sys.stderr)
        self.came: asyncio.Queue[bytes] = asyncio.Queue(WAITING)
        self.queues: list[asyncio.Queue[bytes]] = [asyncio.Queue(WAITING) for _ in range(NODES)]
        self.told_own, self.told_all, self.ended = 0, False, False

    async def read_lines(self, reader: asyncio.StreamReader, writer: asyncio.StreamWriter) -> None:
        """Hands each line that comes over a connection to the node, and waits where it is behind. A line whose end did
        not come is dropped: what is there of it may be another valid message."""
        try:
            while (line := await reader.readline()).endswith(b"\n"):
                await self.came.put(line[:-1])
        except (OSError, asyncio.CancelledError):
            pass  # the connection broke, or the process ends
        finally:
            writer.close()

    def take(self, lines: list[bytes]) -> None:
        """Takes lines, and submits the next update once the last is learnt: all that with one sync."""
        submitted = self.node.submitted()
        submits = submitted < UPDATES and self.node.view()[self.own] == submitted
        with self.node.batch() as batch:
            for line in lines:
                try:
                    batch.receive(line)
                except HARMLESS as refused:
                    print(f"node {self.own}: a line is refused: {refused}", file=sys.stderr)
            if submits:
                batch.inc(VISITS)

    def send_mail(self) -> None:
        for mail in self.node.mail():
            # Where the queue is full, the message is lost.
            if not self.queues[mail.to].full():
                self.queues[mail.to].put_nowait(mail.line)

    def tell(self) -> None:
        """Tells how many of its own updates are learnt, and once that all of all nodes are."""
        view = self.node.view()
        if view[self.own] > self.told_own:
            self.told_own = view[self.own]
            print(f"own {self.told_own}", flush=True)
        if not self.told_all and view[:NODES] == [UPDATES] * NODES:
            self.told_all = True
            print(f"total {self.node.total(VISITS)}", flush=True)

    async def next_lines(self, timer: float) -> list[bytes]:
        """The lines that came; none where the timer ran out."""
        try:
            lines = [await asyncio.wait_for(self.came.get(), max(timer - time.monotonic(), 0))]
        except asyncio.TimeoutError:
            return []
        while len(lines) < TAKEN and not self.came.empty():
            lines.append(self.came.get_nowait())
        return lines

    async def run(self) -> None:
        timer = time.monotonic() + AGAIN
        lines: list[bytes] = []
        while not self.ended:
            self.take(lines)
            self.send_mail()
            self.tell()
            lines = await self.next_lines(timer)
            if not lines:
                self.node.again()
                timer = time.monotonic() + AGAIN
            elif self.own == SLOW:
                await asyncio.sleep(SLOWNESS * len(lines))


async def run_node(own: int, port: int, folder: str) -> None:
    """A node's process: it prints its port, reads those of all, and ends with its input."""
    host = Host(own, folder)
    server = await asyncio.start_server(host.read_lines, "127.0.0.1", port, limit=LINE_BYTES)
    print(f"port {server.sockets[0].getsockname()[1]}", flush=True)
    loop = asyncio.get_running_loop()
    ports = (await loop.run_in_executor(None, sys.stdin.readline)).split()
    tasks = [asyncio.create_task(host.run())]
    tasks += [asyncio.create_task(send_lines(int(port), queue)) for port, queue in zip(ports, host.queues)]
    ended: asyncio.Future[Any] = loop.run_in_executor(None, sys.stdin.readline)
    await asyncio.wait([ended, *tasks], return_when=asyncio.FIRST_COMPLETED)
    host.ended = True  # `wait_for` may pass over what is cancelled
    for task in tasks:
        task.cancel()
    for result in await asyncio.gather(*tasks, return_exceptions=True):
        if isinstance(result, Exception):
            raise result


class Process:
    """A node's process, as its parent has it."""

    def __init__(self, process: asyncio.subprocess.Process) -> None:
        assert process.stdin and process.stdout
        self.process, self.input, self.output = process, process.stdin, process.stdout

    @classmethod
    async def start(cls, own: int, port: int, folder: Path) -> Process:
        words = [sys.executable, "-B", __file__, str(own), str(port), str(folder / str(own))]
        pipe = asyncio.subprocess.PIPE
        return cls(await asyncio.create_subprocess_exec(*words, stdin=pipe, stdout=pipe))

    async def told(self, word: str) -> int:
        """The number behind a word, on the next line of the node's output that begins with it."""
        while line := (await self.output.readline()).decode():
            if line.startswith(word):
                return int(line.removeprefix(word))
        raise RuntimeError("a node ended")

    def tell(self, ports: list[int]) -> None:
        """Tells the node the ports of all."""
        self.input.write((" ".join(map(str, ports)) + "\n").encode())

    async def kill(self) -> None:
        self.process.kill()
        await self.process.wait()

    async def end(self) -> None:
        self.input.close()  # a node ends with its input
        await self.process.wait()


async def totals(nodes: list[Process], folder: Path) -> list[int]:
    """Kills one of the nodes twice, and answers the totals that they come to."""
    ports = [await node.told("port ") for node in nodes]
    for node in nodes:
        node.tell(ports)
    for learnt in KILLED_AT:
        while await nodes[KILLED].told("own ") < learnt:
            pass
        await nodes[KILLED].kill()
        nodes[KILLED] = await Process.start(KILLED, ports[KILLED], folder)
        nodes[KILLED].tell(ports)
    return await asyncio.gather(*(node.told("total ") for node in nodes))


async def run_all(folder: Path) -> None:
    for own in range(NODES):
        (folder / str(own)).mkdir()
        Durable.create(NODES, own, folder / str(own)).close()
    nodes = [await Process.start(own, 0, folder) for own in range(NODES)]
    try:
        found = await asyncio.wait_for(totals(nodes, folder), PATIENCE)
    finally:
        for node in nodes:
            await node.end()
    print(f"the nodes come to {found}")
    if found != [NODES * UPDATES] * NODES:
        raise SystemExit("the totals are wrong")


def main() -> None:
    if len(sys.argv) > 1:
        asyncio.run(run_node(int(sys.argv[1]), int(sys.argv[2]), sys.argv[3]))
        return
    with tempfile.TemporaryDirectory() as folder:
        asyncio.run(run_all(Path(folder)))


if __name__ == "__main__":
    main()
