"""Servers that people would take instead, on the loopback: etcd with members, and Redis with replicas. Each has one
key, which a client over sockets counts up."""
from __future__ import annotations

import base64
import json
import selectors
import shutil
import socket
import statistics
import subprocess
import sys
import time
from collections.abc import Callable
from dataclasses import dataclass, field
from pathlib import Path
from types import TracebackType
from typing import TYPE_CHECKING, Any

if TYPE_CHECKING:
    # Python has it from 3.11 on.
    from typing import Self

HOST = "127.0.0.1"
# Redis takes these ports from the first on, one each, and etcd two for each member.
REDIS_PORT, ETCD_PORT = 18840, 18850
PACKAGES = {"redis-server": "redis-server", "etcd": "etcd-server"}
# A server that is not up after so many seconds does not start.
PATIENCE = 30
CHUNK = 1 << 16


class Servers:
    """Processes that end with the block, and the folder of their data, which goes then."""

    def __init__(self, folder: Path) -> None:
        self.folder = folder
        self.started: list[subprocess.Popen[bytes]] = []

    def begin(self) -> None:
        """Starts them, and waits until they are up."""
        raise NotImplementedError

    def start(self, words: list[str], data: Path, *ports: int) -> None:
        """Starts one, which takes these ports, that have to be free."""
        for port in ports:
            if is_taken(port):
                sys.exit(f"port {port} of {HOST} is in use")
        data.mkdir(parents=True)
        with (data / "log").open("wb") as log:
            self.started.append(subprocess.Popen(words, stdout=log, stderr=log))

    def __enter__(self) -> Self:
        try:
            self.begin()
        except BaseException:
            self.end()
            raise
        return self

    def __exit__(self, kind: type[BaseException] | None, error: BaseException | None, at: TracebackType | None) -> None:
        self.end()

    def end(self) -> None:
        for it in self.started:
            it.kill()
            it.wait()
        shutil.rmtree(self.folder, ignore_errors=True)


def await_that(what: str, done: Callable[[], bool]) -> None:
    """Waits until this is so; a connection that is refused says that it is not yet."""
    end = time.monotonic() + PATIENCE
    while time.monotonic() < end:
        try:
            if done():
                return
        except OSError:
            pass
        time.sleep(0.05)
    sys.exit(f"{what} does not start")


def is_taken(port: int) -> bool:
    try:
        connect(port).close()
    except ConnectionRefusedError:
        return False
    return True


def connect(port: int) -> socket.socket:
    client = socket.create_connection((HOST, port))
    client.setsockopt(socket.IPPROTO_TCP, socket.TCP_NODELAY, 1)
    return client


class Redis(Servers):
    """One primary and so many replicas, each with `appendfsync always`."""

    CALL = b"*2\r\n$4\r\nINCR\r\n$1\r\nc\r\n"

    def __init__(self, folder: Path, replicas: int) -> None:
        super().__init__(folder / "redis")
        self.replicas = replicas

    def begin(self) -> None:
        for number in range(self.replicas + 1):
            port, data = REDIS_PORT + number, self.folder / str(number)
            words = ["redis-server", "--port", str(port), "--bind", HOST, "--dir", str(data), "--save", ""]
            words += ["--appendonly", "yes", "--appendfsync", "always", "--repl-diskless-sync-delay", "0"]
            words += ["--replicaof", HOST, str(REDIS_PORT)] if number else []
            self.start(words, data, port)
        online = b"state=online"
        await_that("redis-server", lambda: self.ask(b"INFO replication\r\n").count(online) == self.replicas)
        for number in range(self.replicas + 1):
            await_that("redis-server", lambda: self.is_at_rest(REDIS_PORT + number))
        # The first answer of a replica that has just joined takes up to a second.
        self.rate(1, 1)

    def is_at_rest(self, port: int) -> bool:
        """Whether it does not write its file anew, as a replica does that has just joined."""
        said = self.ask(b"INFO persistence\r\n", port)
        return b"aof_rewrite_in_progress:0" in said and b"aof_rewrite_scheduled:0" in said

    def ask(self, line: bytes, port: int = REDIS_PORT) -> bytes:
        """What comes of a command in one read."""
        with connect(port) as client:
            client.sendall(line)
            return client.recv(CHUNK)

    def rate(self, count: int, flight: int) -> tuple[float, float]:
        """How many increments a second reach all replicas, and the median milliseconds of one. So many go out at once,
        and behind them a WAIT for the replicas, whose answer the next ones await."""
        wait = b"WAIT %d %d\r\n" % (self.replicas, 1000 * PATIENCE)
        began, spent, done = time.perf_counter(), list[float](), 0
        with connect(REDIS_PORT) as client:
            while done < count:
                since, held = time.perf_counter(), b""
                client.sendall(self.CALL * flight + wait)
                while held.count(b"\n") <= flight:
                    held += client.recv(CHUNK)
                if not held.endswith(b"\r\n:%d\r\n" % self.replicas):
                    sys.exit(f"Redis answers {held[-80:]!r}")
                spent += [time.perf_counter() - since] * flight
                done += flight
        return done / (time.perf_counter() - began), 1000 * statistics.median(spent)


class Etcd(Servers):
    """So many members, called by their gateway from HTTP to gRPC, over kept connections to the leader."""

    def __init__(self, folder: Path, members: int) -> None:
        super().__init__(folder / "etcd")
        self.members = members
        self.leader = ETCD_PORT

    def begin(self) -> None:
        calls, peers = ([f"http://{HOST}:{ETCD_PORT + 2 * it + more}" for it in range(self.members)] for more in (0, 1))
        cluster = ",".join(f"m{it}={peer}" for it, peer in enumerate(peers))
        for number in range(self.members):
            data = self.folder / str(number)
            words = ["etcd", "--name", f"m{number}", "--data-dir", str(data / "data"), "--logger", "zap"]
            words += ["--listen-client-urls", calls[number], "--advertise-client-urls", calls[number]]
            words += ["--listen-peer-urls", peers[number], "--initial-advertise-peer-urls", peers[number]]
            words += ["--initial-cluster", cluster, "--initial-cluster-state", "new"]
            self.start(words, data, ETCD_PORT + 2 * number, ETCD_PORT + 2 * number + 1)
        await_that("etcd", self.find_leader)

    def find_leader(self) -> bool:
        """Whether there is one, whose port is taken."""
        for number in range(self.members):
            status = self.ask(ETCD_PORT + 2 * number, request("maintenance/status", {}))
            if status.get("leader") == status["header"]["member_id"]:
                self.leader = ETCD_PORT + 2 * number
                return True
        return False

    def ask(self, port: int, call: bytes) -> dict[str, Any]:
        with connect(port) as client:
            client.sendall(call)
            answer = Answer()
            while not answer.is_whole():
                answer.held += client.recv(CHUNK)
        found: dict[str, Any] = json.loads(answer.body())
        return found

    def rate(self, count: int, flight: int, call: Callable[[int], bytes]) -> tuple[float, float]:
        """How many of these calls a second are answered, over so many connections, one each, and the median
        milliseconds of one."""
        poll, spent, sent = selectors.DefaultSelector(), list[float](), 0
        clients = [connect(self.leader) for _ in range(flight)]
        began = time.perf_counter()
        for client in clients:
            sent += 1
            client.sendall(call(sent))
            poll.register(client, selectors.EVENT_READ, Calling(client, time.perf_counter()))
        while len(spent) < count:
            for key, _ in poll.select():
                it: Calling = key.data
                it.answer.held += it.client.recv(CHUNK)
                if it.answer.is_whole():
                    spent.append(time.perf_counter() - it.since)
                    sent += 1
                    it.client.sendall(call(sent))
                    it.answer, it.since = Answer(), time.perf_counter()
        rate = len(spent) / (time.perf_counter() - began)
        for client in clients:
            client.close()
        poll.close()
        return rate, 1000 * statistics.median(spent)


class Answer:
    """What has come of one answer by HTTP."""

    def __init__(self) -> None:
        self.held = b""

    def is_whole(self) -> bool:
        """Whether all of it has come; any but a good one stops the program."""
        head, parted, body = self.held.partition(b"\r\n\r\n")
        if parted and not head.startswith(b"HTTP/1.1 200"):
            sys.exit(f"etcd answers {self.held[:200]!r}")
        lengths = [it for it in head.split(b"\r\n") if it.lower().startswith(b"content-length:")]
        return bool(parted and lengths) and len(body) >= int(lengths[0].split(b":")[1])

    def body(self) -> bytes:
        return self.held.partition(b"\r\n\r\n")[2]


@dataclass
class Calling:
    """A connection whose call has no whole answer yet."""

    client: socket.socket
    since: float
    answer: Answer = field(default_factory=Answer)


def request(path: str, asked: dict[str, str | bool]) -> bytes:
    """A call of etcd's gateway."""
    body = json.dumps(asked).encode()
    head = f"POST /v3/{path} HTTP/1.1\r\nHost: {HOST}\r\nContent-Length: {len(body)}\r\n\r\n"
    return head.encode() + body


def put(number: int) -> bytes:
    """That which puts a number under the key."""
    return request("kv/put", {"key": "Yw==", "value": base64.b64encode(b"%d" % number).decode()})


def read(_number: int) -> bytes:
    """That which reads the key where it arrives, with no other member asked: what a call costs without a consensus."""
    return request("kv/range", {"key": "Yw==", "serializable": True})


def missing() -> dict[str, str]:
    """The programs that are not there, each with the package that has it."""
    return {name: package for name, package in PACKAGES.items() if not shutil.which(name)}
