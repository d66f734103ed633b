"""The monitor of a QEMU, which it has at a socket."""

import socket
import time
from pathlib import Path

from common import Bad

PROMPT = b"(qemu) "
PATIENCE = 120  # seconds that an answer may take


class Monitor:
    """A connection."""

    def __init__(self, place: Path) -> None:
        """Connects, and reads the greeting."""
        self.socket = socket.socket(socket.AF_UNIX)
        self.socket.settimeout(PATIENCE)
        try:
            self.socket.connect(str(place))
        except OSError as error:
            raise Bad(f"{place}: {error.strerror}") from error
        self.read()

    def read(self) -> str:
        """What comes up to the next prompt."""
        text, begin = b"", time.monotonic()
        while not text.endswith(PROMPT):
            data = self.socket.recv(65536)
            if not data or time.monotonic() - begin > PATIENCE:
                raise Bad(f"the monitor of QEMU answers nothing: {text!r}")
            text += data
        return text.decode("ascii", "replace")

    def tell(self, command: str) -> None:
        """Gives a command."""
        self.socket.sendall(f"{command}\n".encode("ascii"))

    def ask(self, command: str) -> str:
        """Gives a command, and reads what it answers."""
        self.tell(command)
        return self.read()
