"""The file of results: a line a plan, appended whole. What stands in it need not be worked on again."""

from __future__ import annotations

import fcntl
import os
import stat
from collections.abc import Iterator
from types import TracebackType

from ..streets.errors import ListError
from .result import Result

BEGINNING = b'{"file": "'
"""What every line begins with."""


class ResultsFile:
    """A file of results, open for appending. One process at a time may have it open."""

    def __init__(self, path: str) -> None:
        self.path = path
        flags = os.O_RDWR | os.O_APPEND | os.O_CREAT | os.O_CLOEXEC
        try:
            self.number = os.open(path, flags, 0o666)
        except OSError as error:
            raise ListError(f"cannot be written: {error.strerror}", path) from None
        try:
            if not stat.S_ISREG(os.fstat(self.number).st_mode):
                raise ListError("is no file on a disk, and a run that was killed could not go on", path)
            # This lock ends with the process, however that ends; workers do not inherit it.
            fcntl.lockf(self.number, fcntl.LOCK_EX | fcntl.LOCK_NB)
        except BlockingIOError:
            os.close(self.number)
            raise ListError("another run is writing it", path) from None
        except BaseException:
            os.close(self.number)
            raise

    def __enter__(self) -> ResultsFile:
        return self

    def __exit__(
        self, kind: type[BaseException] | None, error: BaseException | None, trace: TracebackType | None
    ) -> None:
        try:
            os.fsync(self.number)
        finally:
            os.close(self.number)

    def standing(self) -> Iterator[Result]:
        """The results that stand in it. A torn last line, of a run that was killed, is dropped."""
        whole = 0
        # The file is not closed when this ends: that would end the lock.
        with open(self.number, "rb", closefd=False) as lines:
            lines.seek(0)
            for row, line in enumerate(lines, 1):
                if not line.endswith(b"\n") and (line.startswith(BEGINNING) or BEGINNING.startswith(line)):
                    break
                try:
                    result = Result.read(line)
                except ValueError:
                    raise ListError("this is no result; give another file to -o, or take the row out", self.path, row)
                yield result
                whole += len(line)
        os.ftruncate(self.number, whole)

    def append(self, result: Result) -> None:
        """Appends a result's line, in one piece."""
        line = result.line()
        while line:
            line = line[os.write(self.number, line) :]
