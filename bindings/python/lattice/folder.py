"""A folder with a journal, as `lattice node --journal` has it: `journal`, and `lock`, which one process holds at a
time. `journal.new` is written and then renamed over `journal`."""
from __future__ import annotations

import fcntl
import os
from pathlib import Path

# The owner reads and writes it, and nobody else.
PRIVATE = 0o600


class Folder:
    """A folder that this process has, until it is closed."""

    def __init__(self, path: Path) -> None:
        """Takes a folder, which has to exist; `BlockingIOError` comes where this process or another has it."""
        self._path = path
        self._journal = -1
        try:
            self._lock = os.open(path / "lock", os.O_WRONLY | os.O_CREAT | os.O_CLOEXEC, PRIVATE)
        except FileNotFoundError as error:
            raise FileNotFoundError(error.errno, "the folder has to exist", str(path)) from None
        try:
            fcntl.flock(self._lock, fcntl.LOCK_EX | fcntl.LOCK_NB)
        except OSError:
            os.close(self._lock)
            raise

    def has_journal(self) -> bool:
        """Whether anything stands under the journal's name."""
        return os.path.lexists(self._path / "journal")

    def read(self) -> bytes:
        """The journal's bytes; `FileNotFoundError` comes where there is no journal."""
        return (self._path / "journal").read_bytes()

    def replace(self, data: bytes) -> None:
        """Puts bytes in the journal's place, on the disk. A crash at any moment leaves these or what was there before,
        which may be none."""
        journal, new = self._path / "journal", self._path / "journal.new"
        new.unlink(missing_ok=True)
        self._journal = os.open(new, os.O_WRONLY | os.O_CREAT | os.O_EXCL | os.O_APPEND | os.O_CLOEXEC, PRIVATE)
        if journal.exists():
            os.fchmod(self._journal, journal.stat().st_mode & 0o7777)
        self._write(data)
        os.fsync(self._journal)
        os.replace(new, journal)
        self._sync_folder()

    def append(self, data: bytes) -> None:
        """Puts bytes behind those of the journal, on the disk. Where it fails any part of them may be there."""
        self._write(data)
        os.fdatasync(self._journal)

    def _write(self, data: bytes) -> None:
        left = memoryview(data)
        while left:
            left = left[os.write(self._journal, left) :]

    def _sync_folder(self) -> None:
        folder = os.open(self._path, os.O_RDONLY | os.O_DIRECTORY | os.O_CLOEXEC)
        try:
            os.fsync(folder)
        finally:
            os.close(folder)

    def close(self) -> None:
        """Lets another process have the folder, even while one that was forked has the lock's file too."""
        fcntl.flock(self._lock, fcntl.LOCK_UN)
        for file in (self._lock, self._journal):
            if file >= 0:
                os.close(file)
