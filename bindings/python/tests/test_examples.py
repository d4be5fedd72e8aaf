"""What the examples make of a connection that breaks."""
from __future__ import annotations

import asyncio
import importlib.util
import io
import unittest
from types import ModuleType
from unittest import mock

import lattice

from .test_durable import PACKAGE, InFolder


def example(name: str) -> ModuleType:
    """An example as a module."""
    found = importlib.util.spec_from_file_location(name, PACKAGE / "examples" / f"{name}.py")
    assert found and found.loader
    module = importlib.util.module_from_spec(found)
    found.loader.exec_module(module)
    return module


def line_of_another_group() -> bytes:
    """What a node sends to replica 0 where its group has an adopt-commit object."""
    with lattice.Node(3, 1, commits=1) as node:
        node.propose(0, 42)
        return next(mail.line for mail in node.mail() if mail.to == 0)


class Readers(InFolder):
    def setUp(self) -> None:
        super().setUp()
        lattice.Durable.create(3, 0, self.folder).close()
        told = mock.patch("sys.stderr", io.StringIO())
        self.told = told.start()
        self.addCleanup(told.stop)

    async def taken(self, sent: bytes) -> list[bytes]:
        """The lines that a node of the example is handed of what comes over a connection."""
        reader = asyncio.StreamReader()
        reader.feed_data(sent)
        reader.feed_eof()
        host = example("three_processes").Host(0, str(self.folder))
        try:
            await host.read_lines(reader, mock.Mock())
        finally:
            host.node.close()
        return [host.came.get_nowait() for _ in range(host.came.qsize())]

    def test_a_last_line_that_was_cut_is_dropped(self) -> None:
        for sent, lines in [
            (b"inc 8588\n\ninc 7\n", [b"inc 8588", b"", b"inc 7"]),
            (b"inc 7\ninc 8", [b"inc 7"]),
            (b"inc 8", []),
            (b"", []),
        ]:
            self.assertEqual(asyncio.run(self.taken(sent)), lines)

    def test_a_harmless_line_is_passed_over(self) -> None:
        made = example("three_processes")
        host = made.Host(0, str(self.folder))
        self.addCleanup(host.node.close)
        host.take([b"hello"])
        self.assertIn("a line is refused", self.told.getvalue())
        self.assertEqual(host.node.submitted(), 1)
        with self.assertRaises(lattice.NoInstanceError):
            host.take([line_of_another_group()])


if __name__ == "__main__":
    unittest.main()
