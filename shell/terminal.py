"""A program on a pseudo-terminal, for the tests and the picture."""
from __future__ import annotations

import fcntl
import os
import pty
import re
import select
import signal
import struct
import termios
import time

SECONDS = 120
CODES = re.compile(r"\x1b\[[0-9;?]*[A-Za-z]|\x1b[=>]|\r")


class Terminal:
    """A program on a pseudo-terminal."""

    def __init__(self, words: list[str], folder: str, **variables: str):
        self.pid, self.end = pty.fork()
        if self.pid == 0:
            os.chdir(folder)
            kept = {name: os.environ[name] for name in ("PATH", "HOME") if name in os.environ}
            os.execvpe(words[0], words, {**kept, "PYTHONUTF8": "1", **variables})
        fcntl.ioctl(self.end, termios.TIOCSWINSZ, struct.pack("HHHH", 50, 150, 0, 0))
        self.rest, self.raw, self.status = "", b"", None

    def text(self) -> str:
        """What came since the last wait, without codes of the terminal."""
        return CODES.sub("", self.rest + self.raw.decode(errors="replace"))

    def more(self, seconds: float) -> bool:
        """Reads what comes. Returns whether anything did."""
        ready, _, _ = select.select([self.end], [], [], seconds)
        try:
            came = os.read(self.end, 65536) if ready else b""
        except OSError:  # (where nothing holds the other end)
            came = b""
        self.raw += came
        return came != b""

    def wait(self, wanted: str) -> str:
        """Waits for a text of a pattern, and returns what came before it."""
        late = time.monotonic() + SECONDS
        while not (found := re.search(wanted, self.text())):
            if not self.more(max(0, late - time.monotonic())):
                raise AssertionError(f"{wanted} didn't come: {self.text()!r}")
        before, self.rest, self.raw = self.text()[: found.start()], self.text()[found.end() :], b""
        return before

    def prompt(self, prompt: str) -> str:
        """Waits for a prompt, whose last blank an editor leaves out, and returns what came before it."""
        return self.wait(re.escape(prompt.rstrip(" ")) + " *$")

    def send(self, keys: str) -> None:
        os.write(self.end, keys.encode())

    def ended(self) -> int:
        """Waits for the end, and returns the status."""
        late = time.monotonic() + SECONDS
        while self.status is None:
            if time.monotonic() > late:
                raise AssertionError(f"the end didn't come: {self.text()!r}")
            self.more(0.1)
            pid, status = os.waitpid(self.pid, os.WNOHANG)
            if pid:
                self.status = -os.WTERMSIG(status) if os.WIFSIGNALED(status) else os.WEXITSTATUS(status)
        return self.status

    def close(self) -> None:
        if self.status is None:
            os.kill(self.pid, signal.SIGKILL)
            os.waitpid(self.pid, 0)
        os.close(self.end)
